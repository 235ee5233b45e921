/* Fills the heap of a tenant to a peak, frees nine tenths of the pieces, and takes back the slots that are free then.
 *
 *     peak ORDER SUPERBLOCKS LARGEST GROUP [SEED]
 *
 * A request has 16 to LARGEST bytes, and each doubling of the size is as likely as another. The heap has no runs, so a superblock
 * has at least LARGEST bytes. The peak is reached when a request is refused. GROUP pieces that were allocated one after another
 * are freed together, and nine tenths of the groups are, chosen at random. Prints how many frames are in use at the peak, how many
 * after the frees and a reap, how many slots can then be taken back, the mean nanoseconds of a request and of a free, and the
 * microseconds of the reap.
 */
#define _DEFAULT_SOURCE
#include <math.h>
#include <stdio.h>
#include <stdlib.h>
#include <string.h>
#include <sys/mman.h>
#include <time.h>

#include "partmem_heap.h"

enum { SMALLEST = 16, MOST_PIECES = 1 << 24 };

static partmem_machine machine;
static const partmem_tenant tenant = {&machine, 0};
static partmem_heap heap;
static void *pieces[MOST_PIECES];
static size_t count;
static uint64_t state;

static void check(int holds, const char *what) {
    if (!holds) {
        fprintf(stderr, "peak: %s\n", what);
        exit(1);
    }
}

/* Returns a number from 0 up to, but not including, 1. */
static double any(void) {
    state ^= state << 13, state ^= state >> 7, state ^= state << 17;
    return (double)(state >> 11) / (double)(UINT64_C(1) << 53);
}

static double now(void) {
    struct timespec time;
    clock_gettime(CLOCK_PROCESS_CPUTIME_ID, &time);
    return (double)time.tv_sec + 1e-9 * (double)time.tv_nsec;
}

static void *some(size_t bytes) {
    void *at = mmap(NULL, bytes, PROT_READ | PROT_WRITE, MAP_PRIVATE | MAP_ANONYMOUS, -1, 0);
    check(at != MAP_FAILED, "not enough memory");
    return at;
}

static void boot(uint32_t order, uint32_t superblocks) {
    const partmem_config config = {order, superblocks, 1};
    const partmem_memory memory = {some(PARTMEM_RAM_BYTES(order, superblocks)), some(PARTMEM_TABLE_BYTES(order, superblocks, 1))};
    partmem_slot slot;
    check(partmem_boot_in(&machine, &config, &memory) == PARTMEM_DONE, "boot");
    while (partmem_grant(tenant, &slot) == PARTMEM_DONE) continue;
    check(partmem_heap_init(&heap, tenant, NULL) == PARTMEM_DONE, "init");
}

static uint32_t frames_in_use(void) {
    partmem_figures figures;
    check(partmem_report(tenant, &figures) == PARTMEM_DONE, "report");
    return figures.live;
}

/* Allocates until a request is refused. */
static void fill(double largest) {
    while (count < MOST_PIECES) {
        const size_t bytes = (size_t)(SMALLEST * exp(any() * log(largest / SMALLEST)));
        if (!(pieces[count] = partmem_heap_malloc(&heap, bytes))) return;
        memset(pieces[count++], 1, bytes);
    }
    check(0, "too many pieces");
}

/* Frees the pieces of all groups but a random tenth. Returns how many there are. */
static size_t free_groups(size_t group) {
    size_t freed = 0;
    for (size_t first = 0; first < count; first += group) {
        if (any() < 0.1) continue;
        for (size_t i = first; i < first + group && i < count; i++, freed++)
            check(partmem_heap_free(&heap, pieces[i]) == PARTMEM_DONE, "a free");
    }
    return freed;
}

int main(int argc, char **argv) {
    check(argc == 5 || argc == 6, "usage: peak ORDER SUPERBLOCKS LARGEST GROUP [SEED]");
    const uint32_t order = (uint32_t)atoi(argv[1]), superblocks = (uint32_t)atoi(argv[2]);
    uint32_t reaped, taken = 0;
    state = 0x9e3779b97f4a7c15u * (uint64_t)(argc == 6 ? atoi(argv[5]) : 1);
    boot(order, superblocks);
    const double begun = now();
    fill(atof(argv[3]));
    const double filled = now();
    const uint32_t at_peak = frames_in_use();
    const double before = now();
    const size_t freed = free_groups((size_t)atoi(argv[4]));
    const double emptied = now();
    check(partmem_reap(tenant, &reaped) == PARTMEM_DONE, "reap");
    const double end = now();
    const uint32_t left = frames_in_use();
    for (uint32_t slot = 0; slot < superblocks; slot++) taken += partmem_take_back(tenant, slot) == PARTMEM_DONE;
    printf("%u %u %u %.1f %.1f %.1f\n", at_peak, left, taken, (filled - begun) / (double)count * 1e9,
           (emptied - before) / (double)freed * 1e9, (end - emptied) * 1e6);
    return 0;
}
