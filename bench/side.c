/* Measures calls of several tenants at the same time, each on a thread of its own, for bench/run --side.
 *
 *     side WAY LOAD THREADS CALLS
 *
 * WAY is `one-lock` for a machine under one lock, `tenants` for a machine with a lock for each tenant, `machines` for a machine and
 * a lock for each tenant, or `malloc` for the allocator that is linked or preloaded. LOAD is `objects` of 64 bytes, taken or given
 * back at random, or `pages`, blocks of order 0 to 2. The superblocks are of order 4, so what the tables have on those of several
 * tenants lies in one page; with `objects-8` and `pages-8` they are of order 8. Each thread makes CALLS calls. Prints million calls
 * a second, of all threads together, from the first beginning to the last end.
 */
#define _GNU_SOURCE /* processors of threads */
#include <pthread.h>
#include <sched.h>
#include <stdbool.h>
#include <stdio.h>
#include <stdlib.h>
#include <string.h>
#include <time.h>

#include "partmem.h"

enum { MAX_THREADS = 64, MAX_PLACES = 2000, MAX_PAGES = 60, SLOTS = 4, LINES = 128 /* bytes of a pair of cache lines */ };
enum way { ONE_LOCK, TENANTS, MACHINES, MALLOC, WAYS };
static const char *const names[WAYS] = {"one-lock", "tenants", "machines", "malloc"};
enum { LOADS = 4 };
static const char *const loads[LOADS] = {"objects", "pages", "objects-8", "pages-8"};

/* What a thread has: its tenant, which lock it takes, and its blocks or objects. */
struct worker {
    _Alignas(LINES) pthread_mutex_t lock;
    pthread_mutex_t *taken; /* not set for malloc */
    partmem_machine own;
    partmem_tenant tenant;
    int processor;
    uint64_t random;
    struct timespec begun, ended;
    struct {
        void *at; /* NULL if nothing is there */
        uint32_t place;
    } has[MAX_PLACES];
};

static struct worker workers[MAX_THREADS];
static partmem_machine machine;
static pthread_barrier_t start;
static enum way way;
static bool is_pages;
static uint32_t threads, calls, superblock_order;

static void check(bool holds, const char *what)
{
    if (holds) return;
    fprintf(stderr, "side: %s\n", what);
    exit(1);
}

static void must(partmem_status status) { check(status == PARTMEM_DONE, partmem_strerror(status)); }

/* ---- The calls, which are measured --------------------------------------------------------------------------------------- */

static void obtain(struct worker *it, uint32_t at, uint32_t order)
{
    partmem_lent lent;
    if (way == MALLOC) {
        lent.at = is_pages ? aligned_alloc(PARTMEM_FRAME_BYTES, (size_t)PARTMEM_FRAME_BYTES << order) : malloc(64);
        check(lent.at != NULL, "no memory");
    } else {
        pthread_mutex_lock(it->taken);
        const partmem_status status = is_pages ? partmem_alloc(it->tenant, order, &lent) : partmem_take(it->tenant, 0, &lent);
        pthread_mutex_unlock(it->taken);
        if (status == PARTMEM_NO_FRAMES) return;
        must(status);
        it->has[at].place = lent.place;
    }
    it->has[at].at = lent.at;
    *(volatile char *)lent.at = 1;
}

static void give_back(struct worker *it, uint32_t at)
{
    if (way == MALLOC) {
        free(it->has[at].at);
    } else {
        const uint32_t place = it->has[at].place;
        pthread_mutex_lock(it->taken);
        must(is_pages ? partmem_free(it->tenant, place) : partmem_give(it->tenant, 0, place));
        pthread_mutex_unlock(it->taken);
    }
    it->has[at].at = NULL;
}

static void *work(void *worker)
{
    struct worker *it = worker;
    const uint32_t places = is_pages ? MAX_PAGES : MAX_PLACES;
    cpu_set_t processors;
    CPU_ZERO(&processors);
    CPU_SET((size_t)it->processor, &processors);
    check(!sched_setaffinity(0, sizeof processors, &processors), "cannot choose a processor");
    pthread_barrier_wait(&start);
    clock_gettime(CLOCK_MONOTONIC, &it->begun);
    for (uint32_t i = 0; i < calls; i++) {
        it->random ^= it->random << 13, it->random ^= it->random >> 7, it->random ^= it->random << 17;
        const uint32_t at = (uint32_t)(it->random >> 8) % places;
        if (it->has[at].at) give_back(it, at);
        else obtain(it, at, (uint32_t)(it->random >> 40) % 3);
    }
    clock_gettime(CLOCK_MONOTONIC, &it->ended);
    return NULL;
}

/* ---- What is done before and after --------------------------------------------------------------------------------------- */

/* Boots a machine whose RAM and tables share no cache line with anything else. */
static void boot(partmem_machine *booted, uint32_t tenants)
{
    const partmem_config config = {superblock_order, tenants * SLOTS, tenants};
    const size_t bytes = PARTMEM_TABLE_BYTES(config.order, config.superblocks, config.tenants);
    const partmem_memory memory = {
        aligned_alloc(PARTMEM_FRAME_BYTES, PARTMEM_RAM_BYTES(config.order, config.superblocks)),
        aligned_alloc(PARTMEM_FRAME_BYTES, (bytes / PARTMEM_FRAME_BYTES + 1) * PARTMEM_FRAME_BYTES),
    };
    check(memory.ram && memory.tables, "no memory");
    must(partmem_boot_in(booted, &config, &memory));
}

/* Gives each thread its tenant. Superblocks of one machine are granted in turn, so those of different tenants are neighbours. */
static void prepare(void)
{
    partmem_slot slot;
    partmem_cache cache;
    if (way < MACHINES) boot(&machine, threads);
    for (uint32_t i = 0; i < threads; i++) {
        if (way == MACHINES) boot(&workers[i].own, 1);
        workers[i].tenant = way == MACHINES ? (partmem_tenant){&workers[i].own, 0} : (partmem_tenant){&machine, i};
        workers[i].taken = &workers[way == ONE_LOCK ? 0 : i].lock;
        check(!pthread_mutex_init(&workers[i].lock, NULL), "cannot make a lock");
    }
    for (uint32_t i = 0; i < SLOTS * threads; i++) must(partmem_grant(workers[i % threads].tenant, &slot));
    for (uint32_t i = 0; i < threads; i++) must(partmem_make_cache(workers[i].tenant, 64, 8, "", 1, &cache));
}

/* Chooses a processor for each thread, of those on which this program may run. */
static void choose_processors(void)
{
    cpu_set_t allowed;
    uint32_t chosen = 0;
    check(!sched_getaffinity(0, sizeof allowed, &allowed), "cannot find its processors");
    for (int i = 0; i < CPU_SETSIZE && chosen < threads; i++)
        if (CPU_ISSET((size_t)i, &allowed)) workers[chosen++].processor = i;
    check(chosen == threads, "there are more threads than processors");
}

static double seconds(struct timespec time) { return (double)time.tv_sec + (double)time.tv_nsec / 1e9; }

static double run(void)
{
    pthread_t ids[MAX_THREADS];
    double begin = 0, end = 0;
    check(!pthread_barrier_init(&start, NULL, threads), "cannot make a barrier");
    for (uint32_t i = 0; i < threads; i++) check(!pthread_create(&ids[i], NULL, work, &workers[i]), "cannot make a thread");
    for (uint32_t i = 0; i < threads; i++) {
        pthread_join(ids[i], NULL);
        const double began = seconds(workers[i].begun), ended = seconds(workers[i].ended);
        if (i == 0 || began < begin) begin = began;
        if (ended > end) end = ended;
    }
    return (double)threads * calls / (end - begin) / 1e6;
}

int main(int count, char **words)
{
    uint32_t load = 0;
    check(count == 5, "usage: side WAY LOAD THREADS CALLS");
    while (way < WAYS && strcmp(words[1], names[way])) way++;
    while (load < LOADS && strcmp(words[2], loads[load])) load++;
    is_pages = load % 2 == 1, superblock_order = load < 2 ? 4 : 8;
    threads = (uint32_t)atoi(words[3]), calls = (uint32_t)atoi(words[4]);
    check(way < WAYS && load < LOADS, "no such way or load");
    check(threads >= 1 && threads <= MAX_THREADS && calls >= 1, "numbers out of range");
    choose_processors();
    for (uint32_t i = 0; i < threads; i++) workers[i].random = 88172645463325252u + 7919u * i;
    if (way != MALLOC) prepare();
    printf("%.3f\n", run());
}
