/* One thread loads and stores in place without a lock, in memory of one tenant. At the same time, two other threads make calls
 * under a lock, for this tenant and for others. Each byte has to be loaded as it was stored.
 *
 *     threads CALLS
 */
#include <pthread.h>
#include <stdatomic.h>

#include "trial.h"

enum { BLOCKS = 4, OBJECTS = 100, RANGES = BLOCKS + OBJECTS, TENANTS = 3, MIN_ROUNDS = 50 };

static partmem_machine machine;
static pthread_mutex_t lock = PTHREAD_MUTEX_INITIALIZER;
static atomic_bool is_over;
static partmem_lent ranges[RANGES];
static atomic_ulong rounds, calls;

/* Fills all ranges again and again. Each time, adds to `wrong` the number of bytes that differ from what was stored. */
static void *use_in_place(void *wrong)
{
    for (unsigned seed = 0; !is_over; seed++, rounds++) {
        for (unsigned r = 0; r < RANGES; r++) memset(ranges[r].at, (int)(seed + r), ranges[r].bytes);
        for (unsigned r = 0; r < RANGES; r++)
            for (uint32_t i = 0; i < ranges[r].bytes; i++)
                *(unsigned long *)wrong += ((const volatile uint8_t *)ranges[r].at)[i] != (uint8_t)(seed + r);
    }
    return NULL;
}

static void ignore(partmem_status status) { (void)status; }

static void store(partmem_status status, const partmem_lent *lent)
{
    if (status == PARTMEM_DONE) memset(lent->at, 0xee, lent->bytes);
}

/* Makes a call for a tenant whose memory the first thread does not use. */
static void call_for_other(partmem_tenant other, unsigned *random)
{
    partmem_lent lent;
    partmem_slot slot;
    partmem_cache cache;
    uint32_t frames, number = (uint32_t)rand_r(random);
    switch (rand_r(random) % 9) {
    case 0: store(partmem_alloc(other, number % 4, &lent), &lent); break;
    case 1: store(partmem_take(other, number % 3, &lent), &lent); break;
    case 2: ignore(partmem_free(other, number % 24 * PARTMEM_FRAME_BYTES)); break;
    case 3: ignore(partmem_grant(other, &slot)); break;
    case 4: ignore(partmem_move(other, number % 4, &slot)); break;
    case 5: ignore(partmem_make_cache(other, 1 + number % 4096, 8, "x", 1, &cache)); break;
    case 6: ignore(partmem_reap(other, &frames)); break;
    case 7: ignore(partmem_take_back(other, number % 4)); break;
    case 8: if (number % 50 == 0) ignore(partmem_reset(other)); break;
    }
}

/* Makes a call for the tenant whose ranges the first thread uses. No call frees or moves these ranges. */
static void call_for_same(partmem_tenant same, unsigned *random)
{
    partmem_lent lent;
    partmem_figures figures;
    uint32_t frames;
    switch (rand_r(random) % 4) {
    case 0:
        if (partmem_take(same, 0, &lent) != PARTMEM_DONE) break;
        store(PARTMEM_DONE, &lent);
        MUST(partmem_give(same, 0, lent.place) == PARTMEM_DONE);
        break;
    case 1:
        if (partmem_alloc(same, (uint32_t)rand_r(random) % 2, &lent) != PARTMEM_DONE) break;
        store(PARTMEM_DONE, &lent);
        MUST(partmem_free(same, lent.place) == PARTMEM_DONE);
        break;
    case 2: MUST(partmem_report(same, &figures) == PARTMEM_DONE && partmem_reap(same, &frames) == PARTMEM_DONE); break;
    case 3: MUST(partmem_at(same, ranges[any(RANGES)].place, 1) != NULL); break;
    }
}

static void *make_calls(void *least)
{
    unsigned random = 7;
    for (; calls < *(const unsigned long *)least || rounds < MIN_ROUNDS; calls++) {
        pthread_mutex_lock(&lock);
        uint32_t number = (uint32_t)rand_r(&random) % TENANTS;
        if (number) call_for_other((partmem_tenant){&machine, number}, &random);
        else call_for_same((partmem_tenant){&machine, 0}, &random);
        pthread_mutex_unlock(&lock);
    }
    return NULL;
}

int main(int words, char **word)
{
    pthread_t user, callers[2];
    unsigned long wrong = 0;
    partmem_slot slot;
    partmem_cache cache;
    const partmem_tenant me = {&machine, 0};
    MUST(words == 2);
    unsigned long least = strtoul(word[1], NULL, 10);
    boot(&machine, 3, 12, TENANTS);
    for (int i = 0; i < 3; i++) MUST(partmem_grant(me, &slot) == PARTMEM_DONE);
    MUST(partmem_make_cache(me, 200, 8, "", 1, &cache) == PARTMEM_DONE);
    for (uint32_t r = 0; r < BLOCKS; r++) MUST(partmem_alloc(me, r % 3, &ranges[r]) == PARTMEM_DONE);
    for (uint32_t r = BLOCKS; r < RANGES; r++) MUST(partmem_take(me, cache.cache, &ranges[r]) == PARTMEM_DONE);
    MUST(pthread_create(&user, NULL, use_in_place, &wrong) == 0);
    for (size_t i = 0; i < LEN(callers); i++) MUST(pthread_create(&callers[i], NULL, make_calls, &least) == 0);
    for (size_t i = 0; i < LEN(callers); i++) MUST(pthread_join(callers[i], NULL) == 0);
    is_over = true;
    MUST(pthread_join(user, NULL) == 0 && partmem_end(&machine) == PARTMEM_DONE);
    MUST(wrong == 0);
    printf("%lu calls by two threads beside %lu rounds of stores and loads in place by a third\n", calls, rounds);
    return 0;
}
