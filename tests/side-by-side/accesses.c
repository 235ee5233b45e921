/* Sees each load and store of the library, and finds two accesses to one byte that locks do not order.
 *
 * The library is compiled so that it calls a function of this file before each load and store, as for ThreadSanitizer. The calls
 * of the library run one after another in one thread. A call comes before another one if locks keep this order in every run: if
 * both hold a common lock, or if other calls between them form a chain of common locks. Two accesses to a byte are a conflict if
 * one of them is a store, and neither call comes before the other. On several processors both calls could run at the same time.
 *
 * Each call has a number. For each lock, and for each caller, an array has the last call of every caller that comes before the
 * next call with that lock, or by that caller: a vector clock. For each byte a cell has the last store, and the loads since then.
 */
#include <stdlib.h>
#include <string.h>

#include "accesses.h"

enum { MAX_AREAS = 4, MAX_SITES = 1 << 14, MAX_CONFLICTS = 1 << 8, MAX_BLOCKS = 1 << 10, CALLER_BITS = 5 };

/* A call: its number, from 1, times 2^CALLER_BITS, plus its caller. 0 is no call. */
typedef uint32_t stamp;

/* The loads of a byte since the last store, if no call of them comes before all others: for each caller its last load. */
struct loads {
    stamp stamps[CALLERS];
    uint16_t sites[CALLERS];
};

/* The last store to a byte, and the last load since then, each with its instruction. With SEVERAL `load` is an index in
 * `several`. */
struct cell {
    stamp store, load;
    uint16_t store_site, load_site;
    bool is_shared;
};
#define SEVERAL ((stamp)1 << 31)

struct area {
    const char *name;
    const char *start;
    size_t bytes, granule;
    struct cell *cells;
};

/* An instruction of the library: the address of the next one, and the ways in which calls ran it. */
struct site {
    const void *next;
    unsigned ways;
};

/* Two instructions that accessed one byte in calls that locks do not order, with the first example. */
struct conflict {
    uint16_t sites[2];
    bool are_stores[2];
    stamp stamps[2];
    const struct area *area;
    size_t offset, count;
};

/* Memory that the library allocated while it booted. */
struct block {
    const char *start;
    size_t bytes;
};

static struct area areas[MAX_AREAS];
static unsigned area_count;
static struct site sites[MAX_SITES];
static unsigned site_count = 1; /* site 0 is none */
static uint16_t *site_after;    /* by offset in the program's code */
static struct conflict conflicts[MAX_CONFLICTS];
static unsigned conflict_count;
static struct loads *several;
static unsigned several_count, several_room;
static struct call *calls; /* by number */
static size_t call_count, call_room;
static stamp after_lock[CALLERS][CALLERS], before[CALLERS][CALLERS];
static stamp now; /* the call that runs, or 0 */
static bool is_seeing; /* whether an access is being counted, so that the functions of string.h are those of this file */
static unsigned long accesses, foreign, moves;
static const void *first_foreign;
static struct block blocks[MAX_BLOCKS];
static unsigned block_count;

/* The program's own code and data, as the linker names them. */
extern const char __executable_start[], etext[], end[];

void hold(bool holds, const char *what)
{
    if (holds) return;
    fprintf(stderr, "side by side: %s\n", what);
    exit(1);
}

static uint32_t caller_of(stamp it)
{
    return it & ((1u << CALLER_BITS) - 1);
}

static const struct call *call_of(stamp it)
{
    return &calls[it >> CALLER_BITS];
}

/* ---- Calls and locks ---------------------------------------------------------------------------------------------------- */

static void join(stamp *to, const stamp *from)
{
    for (unsigned i = 0; i < CALLERS; i++) {
        if (from[i] > to[i]) to[i] = from[i];
    }
}

/* Returns whether the call comes before the one that runs, or is that call. */
static bool is_before(stamp it)
{
    return it <= before[caller_of(now)][caller_of(it)];
}

void begin_call(struct call call)
{
    hold(!now, "a call inside a call");
    if (++call_count >= call_room) {
        call_room = call_room ? 2 * call_room : 1 << 12;
        calls = realloc(calls, call_room * sizeof *calls);
        hold(calls && call_room < (size_t)1 << (31 - CALLER_BITS), "too many calls");
    }
    calls[call_count] = call;
    now = (stamp)call_count << CALLER_BITS | call.caller;
    stamp *clock = before[call.caller];
    for (unsigned lock = 0; lock < CALLERS; lock++) {
        if (call.locks >> lock & 1) join(clock, after_lock[lock]);
    }
    /* Calls without a lock wait for boot and end, too. */
    if (call.locks == ALL_LOCKS) join(clock, before[ANYBODY]);
    clock[call.caller] = now;
    start_steps();
}

void end_call(void)
{
    stop_steps();
    const struct call *call = call_of(now);
    const stamp *clock = before[call->caller];
    now = 0;
    for (unsigned lock = 0; lock < CALLERS; lock++) {
        if (call->locks >> lock & 1) memcpy(after_lock[lock], clock, sizeof after_lock[lock]);
    }
    if (call->locks == ALL_LOCKS) join(before[ANYBODY], clock);
}

/* ---- Accesses ----------------------------------------------------------------------------------------------------------- */

void watch(const char *name, const void *start, size_t bytes, size_t granule)
{
    hold(area_count < MAX_AREAS, "too many areas");
    struct cell *cells = calloc(bytes / granule + 1, sizeof *cells);
    hold(cells, "out of memory");
    areas[area_count++] = (struct area){name, start, bytes, granule, cells};
}

static struct area *area_of(const char *at)
{
    for (unsigned i = 0; i < area_count; i++) {
        if ((size_t)(at - areas[i].start) < areas[i].bytes) return &areas[i];
    }
    return NULL;
}

static uint16_t site_of(const void *next)
{
    if (!site_after) site_after = calloc((size_t)(etext - __executable_start), sizeof *site_after);
    hold(site_after && (const char *)next < etext, "an instruction outside of the program");
    uint16_t *site = &site_after[(const char *)next - __executable_start];
    if (!*site) {
        hold(site_count < MAX_SITES, "too many instructions");
        sites[site_count].next = next;
        *site = (uint16_t)site_count++;
    }
    return *site;
}

/* An access of the call that runs. */
struct access {
    const struct area *area;
    size_t offset;
    uint16_t site;
    bool is_store;
};

/* Counts a conflict of an access with an earlier one, if cells are single bytes. */
static void add_conflict(const struct access *its, uint16_t site, bool is_store, stamp it)
{
    if (its->area->granule > 1) return;
    for (unsigned i = 0; i < conflict_count; i++) {
        struct conflict *known = &conflicts[i];
        if (known->sites[0] != site || known->sites[1] != its->site || known->area != its->area) continue;
        known->count++;
        return;
    }
    if (conflict_count == MAX_CONFLICTS) return; /* the first ones are enough */
    conflicts[conflict_count++] =
        (struct conflict){{site, its->site}, {is_store, its->is_store}, {it, now}, its->area, its->offset, 1};
}

/* Finds conflicts of a store with the loads since the last store. Returns how many there are. */
static unsigned conflicts_with_loads(const struct access *its, const struct cell *cell)
{
    if (!(cell->load & SEVERAL)) {
        if (is_before(cell->load)) return 0;
        add_conflict(its, cell->load_site, false, cell->load);
        return 1;
    }
    unsigned found = 0;
    const struct loads *loads = &several[cell->load & ~SEVERAL];
    for (unsigned i = 0; i < CALLERS; i++) {
        if (is_before(loads->stamps[i])) continue;
        add_conflict(its, loads->sites[i], false, loads->stamps[i]);
        found++;
    }
    return found;
}

/* Notes a load in a cell. */
static void note_load(struct cell *cell, uint16_t site)
{
    if (!(cell->load & SEVERAL)) {
        if (is_before(cell->load)) {
            cell->load = now;
            cell->load_site = site;
            return;
        }
        if (several_count == several_room) {
            several_room = several_room ? 2 * several_room : 1 << 10;
            several = realloc(several, several_room * sizeof *several);
            hold(several, "out of memory");
        }
        struct loads *loads = memset(&several[several_count], 0, sizeof *loads);
        loads->stamps[caller_of(cell->load)] = cell->load;
        loads->sites[caller_of(cell->load)] = cell->load_site;
        cell->load = SEVERAL | several_count++;
    }
    struct loads *loads = &several[cell->load & ~SEVERAL];
    loads->stamps[caller_of(now)] = now;
    loads->sites[caller_of(now)] = site;
}

/* Returns whether the caller of the call that runs has loaded since the last store. */
static bool has_loaded(const struct cell *cell)
{
    const uint32_t caller = caller_of(now);
    return cell->load & SEVERAL ? several[cell->load & ~SEVERAL].stamps[caller] : cell->load && caller_of(cell->load) == caller;
}

/* Notes an access in a cell, and finds its conflicts. Of several loads of a caller after one store only the first has a conflict
 * with the store. */
static void see_in(struct cell *cell, const struct access *its)
{
    unsigned found = 0;
    if (!is_before(cell->store) && (its->is_store || !has_loaded(cell))) {
        add_conflict(its, cell->store_site, true, cell->store);
        found++;
    }
    if (its->is_store) {
        found += conflicts_with_loads(its, cell);
        cell->store = now;
        cell->store_site = its->site;
        cell->load = 0;
    } else {
        note_load(cell, its->site);
    }
    cell->is_shared |= found > 0;
    moves += found > 0;
}

/* Returns whether the address lies in the stack, or in the bytes below it that a function may use. */
static bool is_in_stack(const char *at, const char *stack)
{
    extern const char *const __libc_stack_end;
    return at >= stack - 128 && at < __libc_stack_end;
}

/* Counts an access to watched memory. */
static void see_in_area(struct area *area, size_t first, size_t bytes, bool is_store, uint16_t site)
{
    hold(first + bytes <= area->bytes, "an access beyond its area");
    accesses++;
    for (size_t i = first / area->granule; i <= (first + bytes - 1) / area->granule; i++) {
        struct access its = {area, i * area->granule, site, is_store};
        see_in(&area->cells[i], &its);
    }
}

void see_access(const void *at, size_t bytes, bool is_store, const void *from, const char *stack)
{
    if (!now || !bytes || is_seeing) return;
    is_seeing = true;
    const struct call *call = call_of(now);
    const uint16_t site = site_of(from);
    sites[site].ways |= call->way && call->caller == ADMINISTRATOR ? BY_ADMINISTRATOR : call->way;
    struct area *area = area_of(at);
    if (area) see_in_area(area, (size_t)((const char *)at - area->start), bytes, is_store, site);
    else if (!is_in_stack(at, stack) && !foreign++) first_foreign = from;
    is_seeing = false;
}

/* ---- The functions that the traced code calls --------------------------------------------------------------------------- */

#define SEE(at, bytes, is_store) see_access(at, bytes, is_store, __builtin_return_address(0), __builtin_frame_address(0))
#define SEES(name, bytes, is_store) \
    void name(void *at); \
    void name(void *at) \
    { \
        SEE(at, bytes, is_store); \
    }
#define SEES_BOTH(bytes) SEES(__tsan_read##bytes, bytes, false) SEES(__tsan_write##bytes, bytes, true)
#define SEES_UNALIGNED(bytes) \
    SEES(__tsan_unaligned_read##bytes, bytes, false) SEES(__tsan_unaligned_write##bytes, bytes, true)
SEES_BOTH(1)
SEES_BOTH(2)
SEES_BOTH(4)
SEES_BOTH(8)
SEES_BOTH(16)
SEES_UNALIGNED(2)
SEES_UNALIGNED(4)
SEES_UNALIGNED(8)
SEES_UNALIGNED(16)

void __tsan_init(void);
void __tsan_init(void)
{
}

/* The functions of string.h, as the library calls them: under these names, or by the linker's --wrap. */
#define COPIES(name, real) \
    void *name(void *to, const void *from, size_t bytes); \
    void *name(void *to, const void *from, size_t bytes) \
    { \
        if (!now || is_seeing) return real(to, from, bytes); \
        stop_steps(); \
        SEE(from, bytes, false); \
        SEE(to, bytes, true); \
        real(to, from, bytes); \
        start_steps(); \
        return to; \
    }
#define SETS(name, real) \
    void *name(void *to, int byte, size_t bytes); \
    void *name(void *to, int byte, size_t bytes) \
    { \
        if (!now || is_seeing) return real(to, byte, bytes); \
        stop_steps(); \
        SEE(to, bytes, true); \
        real(to, byte, bytes); \
        start_steps(); \
        return to; \
    }
void *__real_memcpy(void *to, const void *from, size_t bytes);
void *__real_memmove(void *to, const void *from, size_t bytes);
void *__real_memset(void *to, int byte, size_t bytes);
COPIES(__tsan_memcpy, __real_memcpy)
COPIES(__wrap_memcpy, __real_memcpy)
COPIES(__tsan_memmove, __real_memmove)
COPIES(__wrap_memmove, __real_memmove)
SETS(__tsan_memset, __real_memset)
SETS(__wrap_memset, __real_memset)

/* ---- What was seen ------------------------------------------------------------------------------------------------------ */

struct allocation {
    bool is_done;
    void *at;
};

static struct allocation add_block(struct allocation got, size_t bytes)
{
    hold(block_count < MAX_BLOCKS, "too many allocations");
    if (got.is_done) blocks[block_count++] = (struct block){got.at, bytes};
    return got;
}

/* The functions by which the library allocates, by the linker's --wrap. */
struct allocation __real_rattle_alloc(size_t bytes, size_t align);
struct allocation __wrap_rattle_alloc(size_t bytes, size_t align);
struct allocation __wrap_rattle_alloc(size_t bytes, size_t align)
{
    return add_block(__real_rattle_alloc(bytes, align), bytes);
}

struct allocation __real_rattle_realloc(void *old, size_t kept, size_t bytes, size_t align);
struct allocation __wrap_rattle_realloc(void *old, size_t kept, size_t bytes, size_t align);
struct allocation __wrap_rattle_realloc(void *old, size_t kept, size_t bytes, size_t align)
{
    return add_block(__real_rattle_realloc(old, kept, bytes, align), bytes);
}

static void write_place(FILE *to, const struct area *area, size_t offset)
{
    const char *at = area->start + offset;
    for (unsigned i = 0; i < block_count; i++) {
        if ((size_t)(at - blocks[i].start) >= blocks[i].bytes) continue;
        fprintf(to, "byte %zu of allocation %u, of %zu bytes", (size_t)(at - blocks[i].start), i, blocks[i].bytes);
        return;
    }
    fprintf(to, "byte %zu of %s", offset, area->name);
}

static void write_call(FILE *to, stamp it)
{
    const struct call *call = call_of(it);
    const char *how = call->way == AS_EVENT ? " as an event" : call->way == AS_LINE ? " as a line" : "";
    fprintf(to, "\t%s%s, ", call->name, how);
    if (call->caller == ADMINISTRATOR) fprintf(to, "the administrator, for tenant %u", call->named);
    else if (call->caller == ANYBODY) fprintf(to, "without a lock");
    else fprintf(to, "tenant %u", call->caller);
}

/* Writes how many cells of an area were used, and how many of these had a conflict. */
static void write_area(FILE *to, const struct area *area)
{
    size_t used = 0, shared = 0;
    for (size_t i = 0; i <= area->bytes / area->granule; i++) {
        used += area->cells[i].store || area->cells[i].load;
        shared += area->cells[i].is_shared;
    }
    fprintf(to, "area\t%s\t%zu\t%zu\n", area->name, used, shared);
}

void write_accesses(FILE *to)
{
    fprintf(to, "counts\t%zu\t%lu\t%lu\t%lu\t%#lx\n", call_count, accesses, moves, foreign, (unsigned long)first_foreign);
    for (unsigned i = 1; i < site_count; i++) fprintf(to, "site\t%p\t%u\n", sites[i].next, sites[i].ways);
    for (unsigned i = 0; i < area_count; i++) write_area(to, &areas[i]);
    for (unsigned i = 0; i < conflict_count; i++) {
        const struct conflict *it = &conflicts[i];
        fprintf(to, "conflict\t%zu\t", it->count);
        write_place(to, it->area, it->offset);
        for (unsigned k = 0; k < 2; k++) {
            fprintf(to, "\t%s\t%p", it->are_stores[k] ? "store" : "load", sites[it->sites[k]].next);
            write_call(to, it->stamps[k]);
        }
        fputc('\n', to);
    }
}
