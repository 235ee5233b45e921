/* Mistakes of a library, each of which a program of this folder has to see. Link this file with the program and the library, and
 * with the linker's --wrap for each function __wrap_NAME below. -DWRONG=MISTAKE chooses the mistake by its name in the enum. */
#include <stdbool.h>
#include <stdlib.h>
#include <string.h>

#include "partmem.h"

enum {
    NO_MISTAKE,
    NO_WRITE_OUT,      /* an alloc computes an address from an earlier one in the superblock, and does not lend */
    OTHER_SUPERBLOCK,  /* an alloc returns an address in the neighbouring superblock */
    STALE_AFTER_MOVE,  /* a lend returns the address that the slot had before a move */
    LENDS_SLAB,        /* lend_block also lends bytes of a slab */
    CLEARS_OBJECTS,    /* a take clears the object */
    FREES_FROM_INSIDE, /* a free of any place in the first frame frees the block */
    TOUCHES_ANOTHER,   /* an alloc of another tenant changes bytes of tenant 0's first block, and puts them back */
    BEGINS_OFF_PAGE,   /* superblocks begin 16 bytes after the beginning of a page */
    CLEARS_RAM,        /* boot clears the RAM */
    FINDS_ANOTHER,     /* find_place succeeds for addresses that the tenant does not hold */
    FINDS_BESIDE,      /* find_object returns the end of an object as its place */
    CLEARS_REFUSED     /* a read that is refused for its length clears this many bytes, up to a page */
};

static uint32_t superblock_bytes;
static uint8_t *begins[PARTMEM_MAX_SUPERBLOCKS];                                /* of superblocks that have had a block */
static uint8_t *begins_of_slots[PARTMEM_MAX_TENANTS][PARTMEM_MAX_SUPERBLOCKS]; /* of slots, at their first lend */
static uint8_t *of_tenant_0;                                                     /* its first block */

/* partmem_boot calls this function too. */
partmem_status __real_partmem_boot_in(partmem_machine *machine, const partmem_config *config, const partmem_memory *memory);
partmem_status __wrap_partmem_boot_in(partmem_machine *machine, const partmem_config *config, const partmem_memory *memory)
{
    superblock_bytes = PARTMEM_FRAME_BYTES << config->order;
    return __real_partmem_boot_in(machine, config, memory);
}

/* The result of rattle_alloc, the function with which the library allocates memory. */
struct allocation {
    bool is_done;
    uint8_t *at;
};
struct allocation __real_rattle_alloc(size_t bytes, size_t align);
struct allocation __wrap_rattle_alloc(size_t bytes, size_t align)
{
    struct allocation got = __real_rattle_alloc(bytes, align);
    if (!got.is_done || bytes != superblock_bytes) return got;
    if (WRONG == BEGINS_OFF_PAGE && (uintptr_t)got.at % PARTMEM_FRAME_BYTES == 0) got.at += 16;
    if (WRONG == CLEARS_RAM) memset(got.at, 0, bytes);
    return got;
}

partmem_status __real_partmem_find_place(partmem_tenant tenant, const void *at, uint32_t *place);
partmem_status __wrap_partmem_find_place(partmem_tenant tenant, const void *at, uint32_t *place)
{
    partmem_status status = __real_partmem_find_place(tenant, at, place);
    return WRONG == FINDS_ANOTHER && status == PARTMEM_NOT_HELD && at ? PARTMEM_DONE : status;
}

partmem_status __real_partmem_find_object(partmem_tenant tenant, uint32_t place, partmem_object *found);
partmem_status __wrap_partmem_find_object(partmem_tenant tenant, uint32_t place, partmem_object *found)
{
    partmem_status status = __real_partmem_find_object(tenant, place, found);
    if (WRONG == FINDS_BESIDE && status == PARTMEM_DONE && found->cache != PARTMEM_OF_NO_CACHE) found->place += found->bytes;
    return status;
}

partmem_status __real_partmem_lend(partmem_tenant tenant, uint32_t place, uint32_t bytes, partmem_lent *lent);
partmem_status __wrap_partmem_lend(partmem_tenant tenant, uint32_t place, uint32_t bytes, partmem_lent *lent)
{
    partmem_status status = __real_partmem_lend(tenant, place, bytes, lent);
    if (status != PARTMEM_DONE || WRONG != STALE_AFTER_MOVE) return status;
    uint8_t **begin = &begins_of_slots[tenant.number][place / superblock_bytes];
    if (!*begin) *begin = (uint8_t *)lent->at - place % superblock_bytes;
    lent->at = *begin + place % superblock_bytes;
    return status;
}

static uint32_t superblock_of(partmem_tenant tenant, uint32_t place)
{
    partmem_slot slot;
    if (partmem_find_slot(tenant, place / superblock_bytes, &slot) != PARTMEM_DONE) abort();
    return slot.superblock;
}

/* Allocates with partmem_event. Lends the block if no block was allocated in its superblock before. Otherwise computes its
 * address from an earlier one. */
static partmem_status alloc_by_event(partmem_tenant tenant, uint32_t order, partmem_lent *block)
{
    partmem_request request = {PARTMEM_ALLOC, tenant.number, order, 0};
    partmem_reply reply;
    uint8_t buffer[PARTMEM_MAX_BYTES];
    partmem_status status = partmem_event(tenant.machine, &request, "", 0, &reply, buffer, sizeof buffer);
    memset(block, 0, sizeof *block);
    if (status != PARTMEM_DONE) return status;
    if (reply.kind == PARTMEM_REFUSED) return (partmem_status)reply.first;
    block->place = reply.first * PARTMEM_FRAME_BYTES;
    block->bytes = PARTMEM_FRAME_BYTES << order;
    uint8_t *begin = begins[superblock_of(tenant, block->place)];
    if (!begin) return partmem_lend_block(tenant, block->place, block);
    block->at = begin + block->place % superblock_bytes;
    return PARTMEM_DONE;
}

static void flip_another(partmem_tenant tenant)
{
    if (WRONG != TOUCHES_ANOTHER || !tenant.number || !of_tenant_0) return;
    for (uint32_t i = 0; i < PARTMEM_FRAME_BYTES; i++) ((volatile uint8_t *)of_tenant_0)[i] ^= 1;
}

partmem_status __real_partmem_alloc(partmem_tenant tenant, uint32_t order, partmem_lent *block);
partmem_status __wrap_partmem_alloc(partmem_tenant tenant, uint32_t order, partmem_lent *block)
{
    partmem_status status;
    flip_another(tenant);
    if (WRONG == NO_WRITE_OUT) status = alloc_by_event(tenant, order, block);
    else status = __real_partmem_alloc(tenant, order, block);
    flip_another(tenant);
    if (status != PARTMEM_DONE) return status;
    if (!tenant.number && !of_tenant_0) of_tenant_0 = block->at;
    uint32_t superblock = superblock_of(tenant, block->place);
    begins[superblock] = (uint8_t *)block->at - block->place % superblock_bytes;
    if (WRONG == OTHER_SUPERBLOCK && begins[superblock ^ 1]) block->at = begins[superblock ^ 1] + block->place % superblock_bytes;
    return status;
}

partmem_status __real_partmem_lend_block(partmem_tenant tenant, uint32_t place, partmem_lent *block);
partmem_status __wrap_partmem_lend_block(partmem_tenant tenant, uint32_t place, partmem_lent *block)
{
    partmem_status status = __real_partmem_lend_block(tenant, place, block);
    if (WRONG != LENDS_SLAB || status == PARTMEM_DONE) return status;
    return partmem_lend(tenant, place, 1, block);
}

partmem_status __real_partmem_read(partmem_tenant tenant, uint32_t place, void *to, size_t bytes);
partmem_status __wrap_partmem_read(partmem_tenant tenant, uint32_t place, void *to, size_t bytes)
{
    partmem_status status = __real_partmem_read(tenant, place, to, bytes);
    if (WRONG == CLEARS_REFUSED && status == PARTMEM_BAD_LENGTH) memset(to, 0, bytes < 4096 ? bytes : 4096);
    return status;
}

partmem_status __real_partmem_take(partmem_tenant tenant, uint32_t cache, partmem_lent *object);
partmem_status __wrap_partmem_take(partmem_tenant tenant, uint32_t cache, partmem_lent *object)
{
    partmem_status status = __real_partmem_take(tenant, cache, object);
    if (WRONG == CLEARS_OBJECTS && status == PARTMEM_DONE) memset(object->at, 0, object->bytes);
    return status;
}

partmem_status __real_partmem_free(partmem_tenant tenant, uint32_t place);
partmem_status __wrap_partmem_free(partmem_tenant tenant, uint32_t place)
{
    if (WRONG == FREES_FROM_INSIDE) place -= place % PARTMEM_FRAME_BYTES;
    return __real_partmem_free(tenant, place);
}
