/* Measures one of the longest calls, for bench/run --longest. Before each call except boot, one tenant holds all superblocks of
 * the machine, or all but one.
 *
 *     longest CALL ORDER SUPERBLOCKS ROUNDS
 *     longest                                 prints the names of the calls
 *
 * Prints the least nanoseconds of the rounds. The machine lies in memory that was touched before, and boots again in each round.
 * Only the call itself goes through `measured`, so that callgrind counts it alone.
 */
#define _POSIX_C_SOURCE 200809L
#include <stdbool.h>
#include <stdio.h>
#include <stdlib.h>
#include <string.h>
#include <time.h>

#include "partmem.h"

/* Callgrind is slow, so it is started just before a call if its header is installed. */
#if __has_include(<valgrind/callgrind.h>)
#include <valgrind/callgrind.h>
#else
#define CALLGRIND_START_INSTRUMENTATION
#define CALLGRIND_STOP_INSTRUMENTATION
#endif

enum { TENANTS = 2, MAX_FRAMES = 65536, FRAME = 4096, SMALL = 24, LARGE = 3280, SOME = 64 };

static partmem_machine machine;
static const partmem_tenant me = {&machine, 0};
static partmem_config config = {0, 0, TENANTS};
static partmem_memory memory;
static uint32_t places[MAX_FRAMES], place_count;
static partmem_lent lent;

static void must(partmem_status status)
{
    if (status == PARTMEM_DONE) return;
    fprintf(stderr, "longest: %s\n", partmem_strerror(status));
    exit(1);
}

/* ---- before the call ---- */

static void boot(void) { must(partmem_boot_in(&machine, &config, &memory)); }

/* Grants all superblocks but `some`, and allocates and frees each of them, so that none has to be cleared later. */
static void grant_all_but(uint32_t some)
{
    partmem_slot slot;
    boot();
    for (uint32_t i = some; i < config.superblocks; i++) {
        must(partmem_grant(me, &slot));
        must(partmem_alloc(me, config.order, &lent));
    }
    for (uint32_t i = some; i < config.superblocks; i++) must(partmem_free(me, (i - some) * (FRAME << config.order)));
}

static void grant_all(void) { grant_all_but(0); }

static void make_caches(uint32_t count, uint32_t size)
{
    partmem_cache made;
    while (count--) must(partmem_make_cache(me, size, 8, "0123456789abcdef", 16, &made));
}

/* Makes a slab of one object in each frame. */
static void fill(void)
{
    grant_all();
    make_caches(1, FRAME);
    for (place_count = 0; partmem_take(me, 0, &lent) == PARTMEM_DONE;) places[place_count++] = lent.place;
}

/* Makes an empty slab in each frame. */
static void empty_all(void)
{
    fill();
    for (uint32_t i = 0; i < place_count; i++) must(partmem_give(me, 0, places[i]));
}

/* Makes SOME empty slabs of 32 KiB, or as many as fit if these are fewer. */
static void empty_some(void)
{
    partmem_cache made;
    grant_all();
    must(partmem_make_cache(me, LARGE, 8, "", 1, &made));
    for (place_count = 0; place_count < SOME * made.objects && partmem_take(me, 0, &lent) == PARTMEM_DONE;) {
        places[place_count++] = lent.place;
    }
    for (uint32_t i = 0; i < place_count; i++) must(partmem_give(me, 0, places[i]));
}

/* Allocates a page block in each frame. */
static void fill_with_blocks(void)
{
    grant_all();
    while (partmem_alloc(me, 0, &lent) == PARTMEM_DONE) continue;
}

/* Makes, in each superblock, a taken frame, free frames, and an empty slab of each cache, as far as they fit. */
static void block_all(void)
{
    uint32_t frames = 1u << config.order, caches = frames - 1 < PARTMEM_MAX_CACHES ? frames - 1 : PARTMEM_MAX_CACHES, kept;
    grant_all();
    make_caches(caches, FRAME);
    for (uint32_t s = 0; s < config.superblocks; s++) {
        for (uint32_t i = 0; i < frames; i++) {
            if (i < caches) must(partmem_take(me, i, &lent));
            else must(partmem_alloc(me, 0, &lent));
            places[s * frames + i] = lent.place;
        }
    }
    for (uint32_t i = 0; i < config.superblocks * frames; i++) {
        kept = i % frames;
        if (kept < caches) must(partmem_give(me, kept, places[i]));
        else if (kept > caches) must(partmem_free(me, places[i]));
    }
}

static void grant_to_move(void) { grant_all_but(1); }

/* Grants a superblock that was just taken back. */
static void grant_again(void)
{
    partmem_slot slot;
    grant_all();
    must(partmem_take_back(me, 0));
    must(partmem_grant(me, &slot));
}

/* Leaves one superblock without an owner, makes a cache with a live object, and allocates a page block, which becomes `lent`. */
static void hold_some(void)
{
    grant_all_but(1);
    make_caches(1, SMALL);
    must(partmem_take(me, 0, &lent));
    must(partmem_alloc(me, 0, &lent));
}

static void empty_all_of_another(void) { empty_all(), make_caches(1, LARGE); }
static void make_small(void) { grant_all(), make_caches(1, SMALL); }
static void make_large(void) { grant_all(), make_caches(1, LARGE); }
static void make_all(void) { grant_all(), make_caches(PARTMEM_MAX_CACHES, FRAME); }
static void nothing(void) {}

/* ---- the calls ---- */

static partmem_status reap(void)
{
    uint32_t frames;
    return partmem_reap(me, &frames);
}

/* Makes 16 calls that have no case of their own, and also a take and an alloc. */
static partmem_status others(void)
{
    static uint8_t bytes[PARTMEM_MAX_BYTES];
    partmem_lent other;
    partmem_slot slot;
    partmem_cache made;
    partmem_owner owner;
    partmem_block block;
    partmem_object found;
    uint32_t place;
    bool has_failed = partmem_grant(me, &slot) || partmem_take_back(me, slot.slot) ||
                      partmem_make_cache(me, LARGE, 8, "", 1, &made) || partmem_take(me, 0, &other) ||
                      partmem_lend_object(me, 0, other.place, &other) || partmem_give(me, 0, other.place) ||
                      partmem_lend(me, lent.place, sizeof bytes, &other) || partmem_lend_block(me, lent.place, &other) ||
                      partmem_read(me, lent.place, bytes, sizeof bytes) || partmem_write(me, lent.place, bytes, sizeof bytes) ||
                      partmem_find_place(me, lent.at, &place) || partmem_find_block(me, lent.place, &block) ||
                      partmem_find_object(me, lent.place, &found) || !partmem_superblock_bytes(&machine) ||
                      partmem_find_slot(me, 0, &slot) || partmem_find_superblock(&machine, 0, &owner) ||
                      partmem_free(me, lent.place) || partmem_alloc(me, 0, &other);
    return has_failed ? PARTMEM_NO_MACHINE : PARTMEM_DONE;
}

static partmem_status destroy(void) { return partmem_destroy_cache(me, 0); }
static partmem_status alloc_frame(void) { return partmem_alloc(me, 0, &lent); }
static partmem_status alloc_most(void) { return partmem_alloc(me, config.order, &lent); }
static partmem_status reset(void) { return partmem_reset(me); }
static partmem_status take(void) { return partmem_take(me, 0, &lent); }
static partmem_status take_other(void) { return partmem_take(me, 1, &lent); }
static partmem_status boot_in(void) { return partmem_boot_in(&machine, &config, &memory); }

/* Requests a block of the greatest order. Fails if it is not refused. */
static partmem_status alloc_refused(void)
{
    partmem_status status = partmem_alloc(me, config.order, &lent);
    return status == PARTMEM_NO_FRAMES ? PARTMEM_DONE : PARTMEM_NOT_A_BLOCK;
}

static partmem_status move(void)
{
    partmem_slot slot;
    return partmem_move(me, 0, &slot);
}

static partmem_status report(void)
{
    static partmem_figures figures;
    return partmem_report(me, &figures);
}

static const struct {
    const char *name;
    void (*prepare)(void);
    partmem_status (*call)(void);
} cases[] = {
    {"reap", empty_all, reap},
    {"reap-64-slabs", empty_some, reap},
    {"destroy", empty_all, destroy},
    {"alloc-frame-reaps", empty_all, alloc_frame},
    {"alloc-most-reaps", empty_all, alloc_most},
    {"take-reaps", empty_all_of_another, take_other},
    {"alloc-refused", block_all, alloc_refused},
    {"reset-slabs", fill, reset},
    {"reset-blocks", fill_with_blocks, reset},
    {"move", grant_to_move, move},
    {"first-lend", grant_again, alloc_frame},
    {"take-new-small", make_small, take},
    {"take-new-large", make_large, take},
    {"report", make_all, report},
    {"16-others", hold_some, others},
    {"boot", nothing, boot_in},
};

__attribute__((noinline)) partmem_status measured(partmem_status (*call)(void)) { return call(); }

static partmem_status no_call(void) { return PARTMEM_DONE; }

/* ---- time ---- */

static double processor_time(void)
{
    struct timespec now;
    clock_gettime(CLOCK_THREAD_CPUTIME_ID, &now);
    return 1e9 * (double)now.tv_sec + (double)now.tv_nsec;
}

static double time_of(partmem_status (*call)(void))
{
    double before, taken;
    CALLGRIND_START_INSTRUMENTATION;
    before = processor_time();
    must(call == no_call ? call() : measured(call));
    taken = processor_time() - before;
    CALLGRIND_STOP_INSTRUMENTATION;
    return taken;
}

static double least_time(void (*prepare)(void), partmem_status (*call)(void), int rounds)
{
    double least = 1e18, taken;
    for (int i = 0; i < rounds; i++) {
        prepare();
        taken = time_of(call);
        least = taken < least ? taken : least;
        if (call != no_call) must(partmem_end(&machine));
    }
    return least;
}

static void *touched(size_t align, size_t size)
{
    void *made = aligned_alloc(align, (size + align - 1) / align * align);
    if (!made) must(PARTMEM_NO_MEMORY);
    return memset(made, 0xff, size);
}

int main(int argc, char **argv)
{
    size_t i = 0, count = sizeof cases / sizeof *cases;
    for (; i < count && (argc != 5 || strcmp(argv[1], cases[i].name)); i++) {
        if (argc == 1) puts(cases[i].name);
    }
    if (argc == 1) return 0;
    if (i == count) {
        fprintf(stderr, "usage: longest CALL ORDER SUPERBLOCKS ROUNDS\n");
        return 2;
    }
    config.order = (uint32_t)atoi(argv[2]);
    config.superblocks = (uint32_t)atoi(argv[3]);
    memory.ram = touched(FRAME, PARTMEM_RAM_BYTES(config.order, config.superblocks));
    memory.tables = touched(16, PARTMEM_TABLE_BYTES(config.order, config.superblocks, TENANTS));
    double least = least_time(cases[i].prepare, cases[i].call, atoi(argv[4]));
    printf("%.0f\n", least - least_time(nothing, no_call, 100));
    return 0;
}
