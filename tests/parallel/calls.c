/* Tenants make random calls of all kinds at the same time, each on a thread of its own, under a lock for each tenant. Beside them
 * an administrator makes all of its calls, under a lock of its own and the lock of the tenant that it names. What each tenant
 * gets has to be what it gets on a machine of its own.
 *
 *     calls SEED STEPS
 *
 * PLANTED is the number of a planted mistake, a lock that is not taken, or 0. */
#include <pthread.h>

#include "../in-place/trial.h"
#include "partmem_heap.h"

#ifndef PLANTED
#define PLANTED 0
#endif
enum { NO_MISTAKE, GRANT_WITHOUT_TENANT, MOVE_WITHOUT_TENANT, REPORT_WITHOUT_TENANT, OWNER_WITHOUT_ADMINISTRATOR };
enum { WORKERS = 4, GUEST = WORKERS, TENANTS, SLOTS = 2, ORDER = 3, MOST = 100, CACHES = 3, OF_HEAP = 99 };

static const uint32_t sizes[CACHES] = {64, 400, 3000};

/* A tenant that works: what it has, and a checksum of all that it got. */
struct worker {
    partmem_tenant tenant;
    partmem_heap heap;
    uint64_t random, sum, refused;
    uint32_t caches[CACHES], count;
    struct {
        uint32_t cache; /* or PARTMEM_OF_NO_CACHE for a page block, or OF_HEAP */
        uint32_t place; /* a move changes the address */
    } has[MOST];
};

static partmem_machine machine;
static pthread_mutex_t of_administrator = PTHREAD_MUTEX_INITIALIZER; /* taken before the lock of a tenant */
static pthread_mutex_t locks[TENANTS];
static uint32_t steps;

static void lock(pthread_mutex_t *mutex) { MUST(pthread_mutex_lock(mutex) == 0); }

static void unlock(pthread_mutex_t *mutex) { MUST(pthread_mutex_unlock(mutex) == 0); }

/* ---- The calls of a tenant ----------------------------------------------------------------------------------------------- */

static uint32_t draw(struct worker *it, uint32_t below)
{
    it->random = it->random * 6364136223846793005u + 1442695040888963407u;
    return (uint32_t)(it->random >> 33) % below;
}

static void note(struct worker *it, uint64_t number) { it->sum = (it->sum ^ number) * 1099511628211u; }

/* Notes a status. Returns whether the call was done. */
static bool is_done(struct worker *it, partmem_status status)
{
    note(it, status);
    it->refused += status == PARTMEM_NO_FRAMES;
    return status == PARTMEM_DONE;
}

static void keep(struct worker *it, uint32_t cache, uint32_t place)
{
    it->has[it->count].cache = cache;
    it->has[it->count++].place = place;
    note(it, place);
}

static void obtain(struct worker *it)
{
    const uint32_t kind = draw(it, 8), cache = it->caches[kind % CACHES];
    partmem_lent lent;
    if (kind == 0) {
        void *at = partmem_heap_malloc(&it->heap, 1 + draw(it, 5000));
        if (at) keep(it, OF_HEAP, partmem_heap_place(&it->heap, at));
    } else if (kind < 3 ? is_done(it, partmem_alloc(it->tenant, draw(it, ORDER + 2), &lent))
                        : is_done(it, partmem_take(it->tenant, cache, &lent))) {
        for (uint32_t i = 0; i < lent.bytes; i += 8) note(it, *((uint64_t *)lent.at + i / 8));
        memset(lent.at, (int)it->count, lent.bytes);
        keep(it, kind < 3 ? PARTMEM_OF_NO_CACHE : cache, lent.place);
    }
}

static void give_back(struct worker *it)
{
    const uint32_t nth = draw(it, it->count);
    const uint32_t cache = it->has[nth].cache, place = it->has[nth].place;
    if (cache == OF_HEAP)
        MUST(is_done(it, partmem_heap_free(&it->heap, partmem_at(it->tenant, place, 1))));
    else if (cache == PARTMEM_OF_NO_CACHE)
        MUST(is_done(it, partmem_free(it->tenant, place)));
    else
        MUST(is_done(it, partmem_give(it->tenant, cache, place)));
    it->has[nth] = it->has[--it->count];
}

/* Lends, reads and writes bytes of something that the tenant has, and looks it up. */
static void use(struct worker *it)
{
    const uint32_t nth = draw(it, it->count), cache = it->has[nth].cache, place = it->has[nth].place;
    unsigned char bytes[16] = {0};
    partmem_lent lent;
    partmem_object object;
    partmem_block block;
    uint32_t found;
    MUST(partmem_read(it->tenant, place, bytes, sizeof bytes) == PARTMEM_DONE);
    for (size_t i = 0; i < sizeof bytes; i++) note(it, bytes[i]);
    bytes[0] = (unsigned char)draw(it, 256);
    MUST(partmem_write(it->tenant, place, bytes, sizeof bytes) == PARTMEM_DONE);
    MUST(partmem_lend(it->tenant, place, 1, &lent) == PARTMEM_DONE && *(unsigned char *)lent.at == bytes[0]);
    MUST(partmem_find_place(it->tenant, lent.at, &found) == PARTMEM_DONE && found == place);
    MUST(partmem_find_object(it->tenant, place, &object) == PARTMEM_DONE && object.place == place);
    MUST(partmem_find_block(it->tenant, place + draw(it, 1 << 17), &block) == PARTMEM_DONE);
    note(it, block.use + block.place + block.bytes);
    if (cache < PARTMEM_MAX_CACHES)
        MUST(partmem_lend_object(it->tenant, cache, place, &lent) == PARTMEM_DONE);
    is_done(it, partmem_lend_block(it->tenant, place, &lent));
}

/* Makes the rare calls. They look up addresses of others too, which are not the tenant's. */
static void manage(struct worker *it)
{
    const partmem_request alloc = {PARTMEM_ALLOC, it->tenant.number, draw(it, 2), 0};
    unsigned char buffer[PARTMEM_MAX_BYTES];
    partmem_figures figures;
    partmem_reply reply;
    partmem_cache made;
    partmem_slot slot;
    uint32_t number;
    is_done(it, partmem_report(it->tenant, &figures));
    note(it, figures.live + 31u * figures.greatest + figures.split);
    if (is_done(it, partmem_make_cache(it->tenant, 1 + draw(it, 4096), 16, "pq", 2, &made)))
        MUST(partmem_destroy_cache(it->tenant, made.cache) == PARTMEM_DONE);
    MUST(partmem_event(it->tenant.machine, &alloc, "", 0, &reply, buffer, sizeof buffer) == PARTMEM_DONE);
    note(it, reply.kind + 31u * reply.first);
    if (reply.kind == PARTMEM_FRAME) MUST(partmem_free(it->tenant, partmem_place_of(reply.first)) == PARTMEM_DONE);
    is_done(it, partmem_find_slot(it->tenant, draw(it, 3), &slot));
    const void *const other = partmem_superblock_address(it->tenant.machine, draw(it, TENANTS * SLOTS));
    (void)!partmem_find_place(it->tenant, other, &number);
    if (draw(it, 4) == 0 && is_done(it, partmem_reap(it->tenant, &number))) note(it, number);
}

static void step(struct worker *it)
{
    const uint32_t kind = draw(it, 16);
    if (kind == 0)
        manage(it);
    else if (kind < 4 && it->count > 0)
        use(it);
    else if (draw(it, MOST) < it->count)
        give_back(it);
    else
        obtain(it);
}

static void *work(void *worker)
{
    struct worker *it = worker;
    pthread_mutex_t *own = &locks[it->tenant.number];
    partmem_owner owner;
    for (uint32_t i = 0; i < steps; i++) {
        lock(own);
        step(it);
        unlock(own);
        if (PLANTED == OWNER_WITHOUT_ADMINISTRATOR && i % 16 == 0)
            MUST(partmem_find_superblock(it->tenant.machine, i / 16 % SLOTS, &owner) == PARTMEM_DONE);
    }
    return NULL;
}

/* Returns a worker whose tenant has its slots, its caches and a heap. */
static struct worker worker_of(partmem_machine *on, uint32_t number, uint64_t seed)
{
    struct worker it = {.tenant = {on, number}, .random = seed + number};
    partmem_heap_config config = {NULL, 0, 0, NULL};
    partmem_cache made;
    partmem_slot slot;
    for (int i = 0; i < SLOTS; i++) MUST(partmem_grant(it.tenant, &slot) == PARTMEM_DONE);
    for (int i = 0; i < CACHES; i++) {
        MUST(partmem_make_cache(it.tenant, sizes[i], 8, "", 1, &made) == PARTMEM_DONE);
        it.caches[i] = made.cache;
    }
    MUST(partmem_heap_init(&it.heap, it.tenant, &config) == PARTMEM_DONE);
    return it;
}

/* ---- The calls of the administrator, which leave to the working tenants what they have ----------------------------------- */

static void move_or_report(partmem_tenant tenant, uint32_t number)
{
    partmem_slot slot;
    partmem_figures figures;
    if (number % 4 == 0)
        MUST(partmem_report(tenant, &figures) == PARTMEM_DONE);
    else
        MUST(partmem_move(tenant, number % SLOTS, &slot) == PARTMEM_DONE);
}

static void grant_and_take_back(partmem_tenant tenant)
{
    partmem_slot slot;
    MUST(partmem_grant(tenant, &slot) == PARTMEM_DONE);
    MUST(partmem_take_back(tenant, slot.slot) == PARTMEM_DONE);
}

static void look_over_the_pool(uint32_t superblock)
{
    const partmem_request pool = {PARTMEM_POOL, 0, 0, 0};
    unsigned char buffer[PARTMEM_MAX_BYTES];
    partmem_reply reply;
    partmem_owner owner;
    MUST(partmem_event(&machine, &pool, "", 0, &reply, buffer, sizeof buffer) == PARTMEM_DONE);
    MUST(partmem_find_superblock(&machine, superblock, &owner) == PARTMEM_DONE);
}

static void use_guest(partmem_tenant guest)
{
    partmem_slot slot;
    partmem_lent block;
    MUST(partmem_grant(guest, &slot) == PARTMEM_DONE && partmem_alloc(guest, 0, &block) == PARTMEM_DONE);
    MUST(partmem_reset(guest) == PARTMEM_DONE);
}

static void administer(uint32_t number)
{
    const partmem_tenant tenant = {&machine, number % TENANTS};
    const uint32_t kind = number / TENANTS % 3;
    const bool is_mistaken = (PLANTED == MOVE_WITHOUT_TENANT && kind == 0 && number % 4) ||
                             (PLANTED == REPORT_WITHOUT_TENANT && kind == 0 && number % 4 == 0) ||
                             (PLANTED == GRANT_WITHOUT_TENANT && kind == 1);
    lock(&of_administrator);
    if (!is_mistaken) lock(&locks[tenant.number]);
    if (tenant.number == GUEST)
        use_guest(tenant);
    else if (kind == 0)
        move_or_report(tenant, number);
    else if (kind == 1)
        grant_and_take_back(tenant);
    if (!is_mistaken) unlock(&locks[tenant.number]);
    look_over_the_pool(number % (TENANTS * SLOTS));
    unlock(&of_administrator);
}

int main(int count, char **words)
{
    static struct worker alone[WORKERS], workers[WORKERS];
    pthread_t threads[WORKERS];
    int different = 0;
    MUST(count == 3);
    const uint64_t seed = strtoull(words[1], NULL, 10);
    steps = (uint32_t)atoi(words[2]);
    for (int i = 0; i < TENANTS; i++) MUST(pthread_mutex_init(&locks[i], NULL) == 0);
    for (uint32_t i = 0; i < WORKERS; i++) {
        partmem_machine own = {{0}};
        boot(&own, ORDER, SLOTS * TENANTS, TENANTS);
        alone[i] = worker_of(&own, i, seed);
        work(&alone[i]);
        MUST(partmem_end(&own) == PARTMEM_DONE);
    }
    boot(&machine, ORDER, SLOTS * TENANTS, TENANTS);
    for (uint32_t i = 0; i < WORKERS; i++) workers[i] = worker_of(&machine, i, seed);
    for (uint32_t i = 0; i < WORKERS; i++) MUST(pthread_create(&threads[i], NULL, work, &workers[i]) == 0);
    for (uint32_t i = 0; i < steps; i++) administer(i);
    for (uint32_t i = 0; i < WORKERS; i++) {
        MUST(pthread_join(threads[i], NULL) == 0);
        if (workers[i].sum != alone[i].sum) different += printf("tenant %u gets something else than alone\n", i);
        printf("tenant %u: %u steps, %lu times too few frames\n", i, steps, (unsigned long)workers[i].refused);
    }
    MUST(partmem_end(&machine) == PARTMEM_DONE);
    return different > 0;
}
