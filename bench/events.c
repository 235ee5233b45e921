/* Runs one command again and again with the static library, for bench/run --events and --first-write.
 *
 *     events event|call COMMAND ROUNDS
 *
 * COMMAND is alloc, free, take, give, read, write, cache, destroy, reap, report, grant, take_back, move or reset. For `call`
 * it may also be lend, lend_object, lend_block, find_object or release. Only the command itself goes through `measured`, so
 * that callgrind counts it alone. The events or direct calls that prepare and undo it are not counted. The machine has 32
 * superblocks of order 6 and 8 tenants. Tenant 0 has half of the superblocks, 16 page blocks of order 3 that were written to,
 * and two caches with live objects. Only the command reset is for tenant 1, which has a superblock with a page block and a
 * slab. If bench/floor.c is linked instead of the library, only the direct calls alloc, free, take, give, read, write, reap
 * and lend work.
 *
 *     events new ORDER           the first write into each superblock, whose memory was never touched
 *     events again ORDER ROUNDS  the first write after a grant, into memory that earlier rounds have touched
 *
 * `new` and `again` print the average page faults and nanoseconds of such a write. The machine has 32 superblocks of order ORDER.
 */
#define _DEFAULT_SOURCE
#include <stdio.h>
#include <stdlib.h>
#include <string.h>
#include <sys/resource.h>
#include <time.h>

#include "partmem.h"

enum { LEND = 100, LEND_OBJECT, LEND_BLOCK, FIND_OBJECT, RELEASE }; /* direct calls that are not events */
enum { SUPERBLOCKS = 32, TENANTS = 8, SLOTS = SUPERBLOCKS / 2, SMALL = 96, LARGE = 2048, FRAME_BYTES = 4096 };

static partmem_machine machine;
static uint32_t tenant; /* the tenant that makes the commands */
static uint8_t buffer[PARTMEM_MAX_BYTES];
static const uint8_t bytes[PARTMEM_MAX_BYTES];

static void fail(const char *what) {
    fprintf(stderr, "events: %s\n", what);
    exit(1);
}

/* Runs an event of the tenant. Returns the first number of its reply, or the slot of a grant. */
static uint32_t event(uint32_t kind, uint32_t first, uint32_t second) {
    partmem_request request = {kind, tenant, first, second};
    partmem_reply reply;
    size_t len = kind == PARTMEM_WRITE ? PARTMEM_MAX_BYTES : 1;
    partmem_status status = partmem_event(&machine, &request, bytes, len, &reply, buffer, sizeof buffer);
    if (status != PARTMEM_DONE || reply.kind == PARTMEM_REFUSED) {
        fail("an event was refused");
    }
    return reply.kind == PARTMEM_GRANTED ? reply.second : reply.first;
}

static void done(partmem_status status) {
    if (status != PARTMEM_DONE) {
        fail(partmem_strerror(status));
    }
}

/* Makes a direct call of the tenant. Returns the frame, place, cache or slot that it gave, or 0. */
static uint32_t call(uint32_t kind, uint32_t first, uint32_t second) {
    const partmem_tenant me = {&machine, tenant};
    partmem_lent lent = {0};
    partmem_slot slot;
    partmem_cache cache;
    partmem_object found;
    static const partmem_sizes sizes = {{SMALL, LARGE}};
    partmem_figures figures;
    uint32_t frames;
    switch (kind) {
    case PARTMEM_ALLOC: done(partmem_alloc(me, first, &lent)); return lent.place / FRAME_BYTES;
    case PARTMEM_FREE: done(partmem_free(me, first * FRAME_BYTES)); break;
    case PARTMEM_READ: done(partmem_read(me, first, buffer, second)); break;
    case PARTMEM_WRITE: done(partmem_write(me, first, bytes, sizeof bytes)); break;
    case PARTMEM_CACHE: done(partmem_make_cache(me, first, second, bytes, 1, &cache)); return cache.cache;
    case PARTMEM_DESTROY: done(partmem_destroy_cache(me, first)); break;
    case PARTMEM_TAKE: done(partmem_take(me, first, &lent)); return lent.place;
    case PARTMEM_GIVE: done(partmem_give(me, first, second)); break;
    case PARTMEM_REAP: done(partmem_reap(me, &frames)); break;
    case PARTMEM_REPORT: done(partmem_report(me, &figures)); break;
    case PARTMEM_GRANT: done(partmem_grant(me, &slot)); return slot.slot;
    case PARTMEM_TAKE_BACK: done(partmem_take_back(me, first)); break;
    case PARTMEM_MOVE: done(partmem_move(me, first, &slot)); break;
    case PARTMEM_RESET: done(partmem_reset(me)); break;
    case LEND: done(partmem_lend(me, first, second, &lent)); break;
    case LEND_OBJECT: done(partmem_lend_object(me, first, second, &lent)); break;
    case LEND_BLOCK: done(partmem_lend_block(me, first, &lent)); break;
    case FIND_OBJECT: done(partmem_find_object(me, first, &found)); break;
    case RELEASE: done(partmem_release(me, first, &sizes, &found)); break;
    }
    return 0;
}

static int is_direct;

/* Runs a command as an event or as a direct call. Returns the number that it gave. */
static uint32_t run(uint32_t kind, uint32_t first, uint32_t second) {
    return is_direct ? call(kind, first, second) : event(kind, first, second);
}

/* Runs the command that callgrind counts. */
__attribute__((noinline)) uint32_t measured(uint32_t kind, uint32_t first, uint32_t second) { return run(kind, first, second); }

static void boot(int order) {
    const partmem_config config = {(uint32_t)order, SUPERBLOCKS, TENANTS};
    if (partmem_boot(&machine, &config) != PARTMEM_DONE) {
        fail("the machine did not boot");
    }
}

/* Boots the machine, and gives tenant 0 its memory. Returns the first frame of a page block that was written to. */
static uint32_t set_up(void) {
    uint32_t frame = 0;
    boot(6);
    for (int i = 0; i < SLOTS; i++) {
        run(PARTMEM_GRANT, 0, 0);
        frame = run(PARTMEM_ALLOC, 3, 0);
        run(PARTMEM_WRITE, FRAME_BYTES * frame, 0);
    }
    run(PARTMEM_CACHE, SMALL, 8);
    run(PARTMEM_CACHE, LARGE, 8);
    for (uint32_t i = 0; i < 200; i++) {
        run(PARTMEM_TAKE, i % 2, 0);
    }
    return frame;
}

/* Gives tenant 1 memory, and takes it back by a reset. Only the reset is counted. */
static void reset_another(void) {
    tenant = 1;
    run(PARTMEM_GRANT, 0, 0);
    run(PARTMEM_ALLOC, 0, 0);
    run(PARTMEM_CACHE, SMALL, 8);
    run(PARTMEM_TAKE, 0, 0);
    measured(PARTMEM_RESET, 0, 0);
}

/* Runs a command once, so that callgrind counts it. The calls that prepare and undo it are not counted. */
static void run_round(const char *command, uint32_t frame) {
    if (!strcmp(command, "alloc")) {
        run(PARTMEM_FREE, measured(PARTMEM_ALLOC, 0, 0), 0);
    } else if (!strcmp(command, "free")) {
        measured(PARTMEM_FREE, run(PARTMEM_ALLOC, 0, 0), 0);
    } else if (!strcmp(command, "take")) {
        run(PARTMEM_GIVE, 0, measured(PARTMEM_TAKE, 0, 0));
    } else if (!strcmp(command, "give")) {
        measured(PARTMEM_GIVE, 0, run(PARTMEM_TAKE, 0, 0));
    } else if (!strcmp(command, "read")) {
        measured(PARTMEM_READ, FRAME_BYTES * frame, PARTMEM_MAX_BYTES);
    } else if (!strcmp(command, "write")) {
        measured(PARTMEM_WRITE, FRAME_BYTES * frame, 0);
    } else if (!strcmp(command, "cache")) {
        run(PARTMEM_DESTROY, measured(PARTMEM_CACHE, SMALL, 8), 0);
    } else if (!strcmp(command, "destroy")) {
        measured(PARTMEM_DESTROY, run(PARTMEM_CACHE, SMALL, 8), 0);
    } else if (!strcmp(command, "reap")) {
        measured(PARTMEM_REAP, 0, 0);
    } else if (!strcmp(command, "report")) {
        measured(PARTMEM_REPORT, 0, 0);
    } else if (!strcmp(command, "grant")) {
        run(PARTMEM_TAKE_BACK, measured(PARTMEM_GRANT, 0, 0), 0);
    } else if (!strcmp(command, "take_back")) {
        measured(PARTMEM_TAKE_BACK, run(PARTMEM_GRANT, 0, 0), 0);
    } else if (!strcmp(command, "move")) {
        measured(PARTMEM_MOVE, 0, 0);
    } else if (!strcmp(command, "reset")) {
        reset_another();
    } else if (is_direct && !strcmp(command, "lend")) {
        measured(LEND, FRAME_BYTES * frame, PARTMEM_MAX_BYTES);
    } else if (is_direct && !strcmp(command, "lend_object")) {
        uint32_t place = run(PARTMEM_TAKE, 0, 0);
        measured(LEND_OBJECT, 0, place);
        run(PARTMEM_GIVE, 0, place);
    } else if (is_direct && !strcmp(command, "lend_block")) {
        measured(LEND_BLOCK, FRAME_BYTES * frame, 0);
    } else if (is_direct && !strcmp(command, "find_object")) {
        uint32_t place = run(PARTMEM_TAKE, 0, 0);
        measured(FIND_OBJECT, place + SMALL - 1, 0);
        run(PARTMEM_GIVE, 0, place);
    } else if (is_direct && !strcmp(command, "release")) {
        measured(RELEASE, run(PARTMEM_TAKE, 0, 0), 0);
    } else {
        fail("there is no such command");
    }
}

static double nanoseconds(void) {
    struct timespec now;
    clock_gettime(CLOCK_PROCESS_CPUTIME_ID, &now);
    return 1e9 * (double)now.tv_sec + (double)now.tv_nsec;
}

static long page_faults(void) {
    struct rusage used;
    getrusage(RUSAGE_SELF, &used);
    return used.ru_minflt;
}

/* Prints the average page faults and nanoseconds of a first write, into new memory or into memory that was touched before. */
static void first_writes(int is_new, int rounds, int order) {
    double time = 0;
    long faults = 0;
    int count = is_new ? SUPERBLOCKS : rounds;
    boot(order);
    for (int i = 0; i < count; i++) {
        uint32_t slot = event(PARTMEM_GRANT, 0, 0), frame = event(PARTMEM_ALLOC, (uint32_t)order, 0);
        long faults_before = page_faults();
        double before = nanoseconds();
        event(PARTMEM_WRITE, FRAME_BYTES * frame, 0);
        time += nanoseconds() - before;
        faults += page_faults() - faults_before;
        if (!is_new) {
            event(PARTMEM_FREE, frame, 0);
            event(PARTMEM_TAKE_BACK, slot, 0);
        }
    }
    printf("%.1f %.0f\n", (double)faults / count, time / count);
}

int main(int argc, char **argv) {
    int is_new = argc > 1 && !strcmp(argv[1], "new");
    if (argc < 3 || (argc < 4 && !is_new)) {
        fail("usage: events event|call COMMAND ROUNDS, or events new ORDER, or events again ORDER ROUNDS");
    }
    if (is_new || !strcmp(argv[1], "again")) {
        first_writes(is_new, is_new ? 0 : atoi(argv[3]), atoi(argv[2]));
        return 0;
    }
    is_direct = !strcmp(argv[1], "call");
    uint32_t frame = set_up();
    for (int i = 0; i < atoi(argv[3]); i++) {
        run_round(argv[2], frame);
    }
    return 0;
}
