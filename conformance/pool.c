/* Implements adapter.h with the functions of pool.h. Each slot that a tenant holds has its own pool. */
#include "pool.h"
#include "adapter.h"

#include <stdlib.h>
#include <string.h>

enum { NO_BLOCK = 0xff };

struct slot {
    unsigned superblock;
    void *whole;     /* what calloc returned */
    uint8_t *memory; /* the pool's part of it, aligned to its size */
    struct pool *pool;
    /* by frame: whether it is taken, and the order of the block that begins there, or NO_BLOCK */
    bool taken[1 << MAX_ORDER];
    uint8_t order[1 << MAX_ORDER];
};

static unsigned machine_order, frames, count;
static size_t size;
/* Slot s of tenant t is at index t * count + s. It is NULL if the tenant does not hold it. */
static struct slot **slots;
static bool *owned;

bool boot(unsigned order, unsigned superblocks, unsigned tenants) {
    machine_order = order;
    frames = 1u << order;
    count = superblocks;
    size = (size_t)frames * FRAME_BYTES;
    slots = calloc((size_t)tenants * superblocks, sizeof *slots);
    owned = calloc(superblocks, sizeof *owned);
    return slots != NULL && owned != NULL;
}

static struct slot *held(unsigned tenant, uint32_t number) {
    return number < count ? slots[(size_t)tenant * count + number] : NULL;
}

static bool own_superblock(unsigned *superblock) {
    for (*superblock = 0; *superblock < count; ++*superblock)
        if (!owned[*superblock])
            return owned[*superblock] = true;
    return false;
}

/* Makes a slot whose pool has zeroed memory. */
static struct slot *new_slot(unsigned superblock) {
    struct slot *slot = calloc(1, sizeof *slot);
    if (slot == NULL || (slot->whole = calloc(2, size)) == NULL)
        abort();
    slot->superblock = superblock;
    slot->memory = (uint8_t *)(((uintptr_t)slot->whole + size - 1) / size * size);
    memset(slot->order, NO_BLOCK, sizeof slot->order);
    slot->pool = pool_init(slot->memory, machine_order);
    if (slot->pool == NULL)
        abort();
    return slot;
}

static void give_up(unsigned tenant, uint32_t number) {
    struct slot **slot = &slots[(size_t)tenant * count + number];
    owned[(*slot)->superblock] = false;
    pool_end((*slot)->pool);
    free((*slot)->whole);
    free(*slot);
    *slot = NULL;
}

enum reply grant(unsigned tenant, uint32_t *slot, unsigned *superblock) {
    if (!own_superblock(superblock))
        return POOL_EMPTY;
    for (*slot = 0; held(tenant, *slot) != NULL; ++*slot)
        ;
    slots[(size_t)tenant * count + *slot] = new_slot(*superblock);
    return DONE;
}

enum reply take_back(unsigned tenant, uint32_t slot, unsigned *superblock) {
    struct slot *of = held(tenant, slot);
    if (of == NULL || memchr(of->taken, true, frames) != NULL)
        return of == NULL ? NO_SLOT : SLOT_BUSY;
    *superblock = of->superblock;
    give_up(tenant, slot);
    return DONE;
}

enum reply reset(unsigned tenant, unsigned *superblocks) {
    *superblocks = 0;
    for (uint32_t slot = 0; slot < count; slot++)
        if (held(tenant, slot) != NULL) {
            give_up(tenant, slot);
            ++*superblocks;
        }
    return DONE;
}

/* Only the number of the slot's superblock changes. The pool and its memory stay where they are. */
enum reply move(unsigned tenant, uint32_t slot, unsigned *superblock) {
    struct slot *of = held(tenant, slot);
    if (of == NULL || !own_superblock(superblock))
        return of == NULL ? NO_SLOT : POOL_EMPTY;
    owned[of->superblock] = false;
    of->superblock = *superblock;
    return DONE;
}

enum reply alloc(unsigned tenant, uint32_t order, uint32_t *frame) {
    if (order > machine_order)
        return BAD_ORDER;
    for (uint32_t slot = 0; slot < count; slot++) {
        struct slot *of = held(tenant, slot);
        uint8_t *block = of == NULL ? NULL : pool_alloc(of->pool, order);
        if (block == NULL)
            continue;
        /* If the block is outside the memory or is not aligned to a frame, the reply names a frame above all slots, which breaks
         * a promise. */
        size_t offset = (size_t)(block - of->memory);
        bool is_inside = block >= of->memory && offset < size && offset % FRAME_BYTES == 0;
        unsigned at = is_inside ? (unsigned)(offset / FRAME_BYTES) : frames;
        *frame = is_inside ? slot * frames + at : count * frames;
        for (unsigned i = at; i < frames && i < at + (1u << order); i++)
            of->taken[i] = true;
        if (is_inside)
            of->order[at] = (uint8_t)order;
        return DONE;
    }
    return NO_FRAMES;
}

enum reply release(unsigned tenant, uint32_t frame, unsigned *order) {
    struct slot *of = held(tenant, frame / frames);
    unsigned at = frame % frames;
    if (of == NULL || of->order[at] == NO_BLOCK)
        return NOT_A_BLOCK;
    *order = of->order[at];
    of->order[at] = NO_BLOCK;
    memset(of->taken + at, false, 1u << *order);
    pool_free(of->pool, of->memory + (size_t)at * FRAME_BYTES, *order);
    return DONE;
}

/* Returns the address of these bytes if one block of the tenant contains them all, or else NULL. */
static uint8_t *reach(unsigned tenant, uint32_t place, uint32_t length) {
    struct slot *of = held(tenant, place / FRAME_BYTES / frames);
    uint32_t at = place / FRAME_BYTES % frames, first = at;
    if (of == NULL || !of->taken[at])
        return NULL;
    while (of->order[first] == NO_BLOCK)
        first--;
    place %= size;
    return (uint64_t)place + length <= ((uint64_t)first + (1u << of->order[first])) * FRAME_BYTES ? of->memory + place : NULL;
}

enum reply read_bytes(unsigned tenant, uint32_t place, uint32_t length, uint8_t *bytes) {
    const uint8_t *from = reach(tenant, place, length);
    if (length < 1 || length > MAX_BYTES || from == NULL)
        return length < 1 || length > MAX_BYTES ? BAD_LENGTH : OUT_OF_REACH;
    memcpy(bytes, from, length);
    return DONE;
}

enum reply write_bytes(unsigned tenant, uint32_t place, uint32_t length, const uint8_t *bytes) {
    uint8_t *to = reach(tenant, place, length);
    if (to == NULL)
        return OUT_OF_REACH;
    memcpy(to, bytes, length);
    return DONE;
}

const struct caches *caches(void) { return NULL; }
