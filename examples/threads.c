/* Four tenants of one machine call at the same time, each on a thread of its own, under a lock for each tenant. Beside them the
 * administrator moves their slots, and grants to and resets a fifth tenant. Prints what each tenant got, which has to be what it
 * gets on a machine of its own. */
#include <pthread.h>
#include <stdio.h>
#include <stdlib.h>

#include "partmem.h"

enum { WORKERS = 4, STEPS = 20000, MOST = 160 };

/* A tenant that works, what it has, and a checksum of all that it got. */
struct worker {
    partmem_tenant tenant;
    pthread_mutex_t *lock;
    uint64_t random, sum;
    uint32_t cache, count, refused;
    partmem_lent has[MOST];
};

static partmem_machine machine;
static pthread_mutex_t of_administrator = PTHREAD_MUTEX_INITIALIZER; /* taken before the lock of a tenant */
static pthread_mutex_t locks[WORKERS + 1];

static void must(partmem_status status) {
    if (status != PARTMEM_DONE) {
        fprintf(stderr, "threads: %s\n", partmem_strerror(status));
        exit(1);
    }
}

/* Makes a call or two of a tenant, under its lock. An address is used under the lock too, since a move changes it. */
static void step(struct worker *it) {
    const uint32_t number = (uint32_t)((it->random = it->random * 6364136223846793005u + 1442695040888963407u) >> 33);
    partmem_lent *has = &it->has[it->count];
    if (number % MOST < it->count) {
        has = &it->has[number % it->count];
        const uint64_t *at = partmem_at(it->tenant, has->place, sizeof *at);
        it->sum = it->sum * 31 + *at;
        must(has->bytes == 200 ? partmem_give(it->tenant, it->cache, has->place) : partmem_free(it->tenant, has->place));
        *has = it->has[--it->count];
    } else if ((number % 8 ? partmem_take(it->tenant, it->cache, has) : partmem_alloc(it->tenant, number / 8 % 3, has))) {
        it->refused++;
    } else {
        it->sum = it->sum * 31 + has->place;
        *(uint64_t *)has->at = number;
        it->count++;
    }
}

static void *work(void *worker) {
    struct worker *it = worker;
    partmem_cache cache;
    pthread_mutex_lock(it->lock);
    must(partmem_make_cache(it->tenant, 200, 8, "", 1, &cache));
    pthread_mutex_unlock(it->lock);
    it->cache = cache.cache;
    for (int i = 0; i < STEPS; i++) {
        pthread_mutex_lock(it->lock);
        step(it);
        pthread_mutex_unlock(it->lock);
    }
    return NULL;
}

/* Makes calls of the administrator, each under its lock and the lock of the tenant that it names. */
static void administer(void) {
    for (uint32_t i = 0; i < STEPS / 10; i++) {
        const partmem_tenant tenant = {&machine, i % (WORKERS + 1)};
        partmem_slot slot;
        pthread_mutex_lock(&of_administrator);
        pthread_mutex_lock(&locks[tenant.number]);
        if (tenant.number < WORKERS) {
            must(partmem_move(tenant, 0, &slot));
        } else {
            must(partmem_grant(tenant, &slot));
            must(partmem_reset(tenant));
        }
        pthread_mutex_unlock(&locks[tenant.number]);
        pthread_mutex_unlock(&of_administrator);
    }
}

static struct worker worker_of(partmem_machine *on, uint32_t tenant, uint32_t number) {
    partmem_slot slot;
    must(partmem_grant((partmem_tenant){on, tenant}, &slot));
    return (struct worker){.tenant = {on, tenant}, .lock = &locks[number], .random = number};
}

int main(void) {
    static struct worker workers[WORKERS], alone;
    pthread_t threads[WORKERS];
    const partmem_config config = {3, WORKERS + 1, WORKERS + 1}, small = {3, 1, 1};
    must(partmem_boot(&machine, &config));
    for (uint32_t i = 0; i <= WORKERS; i++) pthread_mutex_init(&locks[i], NULL);
    for (uint32_t i = 0; i < WORKERS; i++) workers[i] = worker_of(&machine, i, i);
    for (uint32_t i = 0; i < WORKERS; i++)
        if (pthread_create(&threads[i], NULL, work, &workers[i])) return 1;
    administer();
    for (uint32_t i = 0; i < WORKERS; i++) {
        partmem_machine own = {{0}};
        pthread_join(threads[i], NULL);
        must(partmem_boot(&own, &small));
        alone = worker_of(&own, 0, i);
        work(&alone);
        must(partmem_end(&own));
        if (workers[i].sum != alone.sum || workers[i].refused != alone.refused) {
            fprintf(stderr, "threads: tenant %u got something else than on a machine of its own\n", i);
            return 1;
        }
        printf("tenant %u: %u calls, %u refused, as on a machine of its own\n", i, STEPS, alone.refused);
    }
    return partmem_end(&machine) != PARTMEM_DONE;
}
