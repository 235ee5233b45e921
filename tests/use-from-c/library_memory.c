/* Checks when the library for C allocates and frees memory. Link this file with a program and the library. Give the linker
 * --wrap=NAME for each __wrap_NAME, OTHER(NAME, ..) and RETURNING(.., NAME, ..) below, so that calls of NAME come here. A block
 * is memory that the C library allocates, or that partmem's kernel allocates in the RAM or the tables.
 *
 * The process ends with status 70 if
 * - the library allocates a block outside of a boot, or frees one outside of a boot and an end;
 * - a boot returns DONE and has taken no block, or returns something else and keeps one;
 * - a boot returns NO_MEMORY although no allocation was refused, or something else although one was;
 * - the RAM or the tables have no space for an allocation that is not refused;
 * - an end returns DONE and has not freed as many blocks as the boot of its machine took, or returns something else and has freed
 *   one;
 * - more than MAX_MACHINES machines are booted at the same time, or a block is held when the program ends.
 * Otherwise the numbers of calls and blocks are printed on standard error. What the program itself does with memory is not
 * counted.
 */
#include <stdbool.h>
#include <stdint.h>
#include <stdio.h>
#include <stdlib.h>
#include <unistd.h>

#include "library_memory.h"
#include "partmem.h"

enum { MAX_MACHINES = 8 };

long refused_allocation, blocks_held;

static enum place { OUTSIDE, IN_BOOT, IN_END, IN_OTHER } place;
static bool was_refused;
static long boots, taken, others, ends;
static struct {
    const partmem_machine *machine;
    long blocks;
} held[MAX_MACHINES];

static void hold(bool holds, const char *what)
{
    if (holds) return;
    fprintf(stderr, "library memory: %s\n", what);
    _exit(70);
}

/* Returns a pointer to the number of blocks in the entry of `machine`, and makes this the entry of `from_now_on`. NULL as
 * `machine` means an unused entry, and NULL as `from_now_on` makes the entry unused. */
static long *blocks_of(const partmem_machine *machine, const partmem_machine *from_now_on)
{
    int i = 0;
    while (i < MAX_MACHINES && held[i].machine != machine) i++;
    hold(i < MAX_MACHINES, "a machine that is not known, or too many");
    held[i].machine = from_now_on;
    return &held[i].blocks;
}

/* Counts an allocation of the library before it is made. Returns whether it has to be refused. */
static bool is_refused(void)
{
    hold(place == IN_BOOT, "allocated outside of boot");
    bool is_this = refused_allocation > 0 && --refused_allocation == 0;
    was_refused |= is_this;
    return is_this;
}

static void *counted(void *block)
{
    blocks_held += block != NULL;
    taken += block != NULL;
    return block;
}

static void count_free(void)
{
    hold(place == IN_BOOT || place == IN_END, "freed outside of boot and end");
    blocks_held--;
}

void *__real_malloc(size_t size);
void *__wrap_malloc(size_t size)
{
    if (place == OUTSIDE) return __real_malloc(size);
    return is_refused() ? NULL : counted(__real_malloc(size));
}

void *__real_aligned_alloc(size_t alignment, size_t size);
void *__wrap_aligned_alloc(size_t alignment, size_t size)
{
    if (place == OUTSIDE) return __real_aligned_alloc(alignment, size);
    return is_refused() ? NULL : counted(__real_aligned_alloc(alignment, size));
}

void __real_free(void *block);
void __wrap_free(void *block)
{
    if (place != OUTSIDE && block) count_free();
    __real_free(block);
}

/* The functions of crates/partmem_c/memory.c with which the kernel allocates and frees. */
struct allocation {
    bool is_done;
    void *at;
};
struct allocation __real_rattle_alloc(size_t bytes, size_t align);
struct allocation __wrap_rattle_alloc(size_t bytes, size_t align)
{
    if (is_refused()) return (struct allocation){false, &taken};
    struct allocation got = __real_rattle_alloc(bytes, align);
    hold(got.is_done && counted(got.at), "no space in the RAM or in the tables");
    return got;
}

struct allocation __real_rattle_realloc(void *old, size_t kept, size_t bytes, size_t align);
struct allocation __wrap_rattle_realloc(void *old, size_t kept, size_t bytes, size_t align)
{
    if (is_refused()) return (struct allocation){false, &taken};
    struct allocation got = __real_rattle_realloc(old, kept, bytes, align);
    hold(got.is_done, "no space in the tables");
    return got;
}

void __real_rattle_dealloc(void *block);
void __wrap_rattle_dealloc(void *block)
{
    count_free();
    __real_rattle_dealloc(block);
}

static partmem_status count_boot(partmem_machine *machine, partmem_status status, long before)
{
    place = OUTSIDE;
    if (status == PARTMEM_DONE) {
        hold(blocks_held > before, "a boot that takes no memory");
        *blocks_of(NULL, machine) = blocks_held - before;
    } else {
        hold(blocks_held == before, "kept by a boot that was not done");
    }
    hold((status == PARTMEM_NO_MEMORY) == was_refused, "want of memory returned where none was refused, or not returned");
    boots++;
    return status;
}

/* partmem_boot calls this function too. That call is a part of its boot, and is not counted as another one. */
partmem_status __real_partmem_boot_in(partmem_machine *machine, const partmem_config *config, const partmem_memory *memory);
partmem_status __wrap_partmem_boot_in(partmem_machine *machine, const partmem_config *config, const partmem_memory *memory)
{
    if (place == IN_BOOT) return __real_partmem_boot_in(machine, config, memory);
    long before = blocks_held;
    place = IN_BOOT;
    was_refused = false;
    return count_boot(machine, __real_partmem_boot_in(machine, config, memory), before);
}

partmem_status __real_partmem_boot(partmem_machine *machine, const partmem_config *config);
partmem_status __wrap_partmem_boot(partmem_machine *machine, const partmem_config *config)
{
    long before = blocks_held;
    place = IN_BOOT;
    was_refused = false;
    return count_boot(machine, __real_partmem_boot(machine, config), before);
}

partmem_status __real_partmem_end(partmem_machine *machine);
partmem_status __wrap_partmem_end(partmem_machine *machine)
{
    long before = blocks_held;
    place = IN_END;
    partmem_status status = __real_partmem_end(machine);
    place = OUTSIDE;
    long given = before - blocks_held;
    hold(given == (status == PARTMEM_DONE ? *blocks_of(machine, NULL) : 0), "an end frees other blocks than its boot took");
    ends++;
    return status;
}

/* The other functions that are counted. One of them may call another, so each restores `place`. */
#define OTHER(name, parameters, arguments) RETURNING(partmem_status, name, parameters, arguments)
#define RETURNING(type, name, parameters, arguments) \
    type __real_##name parameters;                   \
    type __wrap_##name parameters                    \
    {                                                \
        const enum place before = place;             \
        place = IN_OTHER;                            \
        type returned = __real_##name arguments;     \
        place = before;                              \
        others++;                                    \
        return returned;                             \
    }

RETURNING(uint32_t, partmem_superblock_bytes, (partmem_machine *machine), (machine))
OTHER(partmem_grant, (partmem_tenant tenant, partmem_slot *granted), (tenant, granted))
OTHER(partmem_take_back, (partmem_tenant tenant, uint32_t slot), (tenant, slot))
OTHER(partmem_move, (partmem_tenant tenant, uint32_t slot, partmem_slot *moved), (tenant, slot, moved))
OTHER(partmem_reset, (partmem_tenant tenant), (tenant))
OTHER(partmem_find_slot, (partmem_tenant tenant, uint32_t slot, partmem_slot *found), (tenant, slot, found))
OTHER(partmem_find_superblock,
      (partmem_machine *machine, uint32_t superblock, partmem_owner *owner),
      (machine, superblock, owner))
OTHER(partmem_alloc, (partmem_tenant tenant, uint32_t order, partmem_lent *block), (tenant, order, block))
OTHER(partmem_free, (partmem_tenant tenant, uint32_t from), (tenant, from))
OTHER(partmem_make_cache,
      (partmem_tenant tenant, uint32_t size, uint32_t align, const void *pattern, size_t pattern_bytes, partmem_cache *made),
      (tenant, size, align, pattern, pattern_bytes, made))
OTHER(partmem_destroy_cache, (partmem_tenant tenant, uint32_t cache), (tenant, cache))
OTHER(partmem_take, (partmem_tenant tenant, uint32_t cache, partmem_lent *object), (tenant, cache, object))
OTHER(partmem_give, (partmem_tenant tenant, uint32_t cache, uint32_t from), (tenant, cache, from))
OTHER(partmem_reap, (partmem_tenant tenant, uint32_t *frames), (tenant, frames))
OTHER(partmem_lend, (partmem_tenant tenant, uint32_t from, uint32_t bytes, partmem_lent *lent), (tenant, from, bytes, lent))
OTHER(partmem_lend_object,
      (partmem_tenant tenant, uint32_t cache, uint32_t from, partmem_lent *object),
      (tenant, cache, from, object))
OTHER(partmem_lend_block, (partmem_tenant tenant, uint32_t from, partmem_lent *block), (tenant, from, block))
OTHER(partmem_read, (partmem_tenant tenant, uint32_t from, void *to, size_t bytes), (tenant, from, to, bytes))
OTHER(partmem_write, (partmem_tenant tenant, uint32_t to, const void *from, size_t bytes), (tenant, to, from, bytes))
OTHER(partmem_find_block, (partmem_tenant tenant, uint32_t from, partmem_block *found), (tenant, from, found))
OTHER(partmem_find_object, (partmem_tenant tenant, uint32_t from, partmem_object *found), (tenant, from, found))
OTHER(partmem_release,
      (partmem_tenant tenant, uint32_t from, const partmem_sizes *sizes, partmem_object *freed),
      (tenant, from, sizes, freed))
OTHER(partmem_find_place, (partmem_tenant tenant, const void *at, uint32_t *found), (tenant, at, found))
OTHER(partmem_report, (partmem_tenant tenant, partmem_figures *figures), (tenant, figures))
OTHER(partmem_event,
      (partmem_machine *machine, const partmem_request *request, const void *bytes, size_t bytes_len, partmem_reply *reply,
       void *buffer, size_t buffer_len),
      (machine, request, bytes, bytes_len, reply, buffer, buffer_len))
OTHER(partmem_line,
      (partmem_machine *machine, const char *line, size_t line_len, char *buffer, size_t buffer_len, size_t *written),
      (machine, line, line_len, buffer, buffer_len, written))

__attribute__((destructor)) static void tell(void)
{
    hold(blocks_held == 0, "held when the program ends");
    fprintf(stderr, "library memory: %ld boots, %ld blocks, %ld calls, %ld ends\n", boots, taken, others, ends);
}
