/* A correct allocator that chooses other blocks than partmem, with neither buddies nor caches. A request gets the frames of the
 * tenant's last freed block of this order (frame 0 if it freed none) if they are free, and otherwise the first aligned free block
 * in the highest slot that has one. Freeing a block does not change its bytes; a superblock is zeroed when it is given up. */
#include "adapter.h"
#include <stdlib.h>
#include <string.h>

enum { NOBODY = 0xffff, NO_BLOCK = 0xff };

struct superblock {
    unsigned tenant;
    uint32_t slot;
    /* By frame: whether it is taken, and the order of the block that begins there, or NO_BLOCK. */
    bool taken[1 << MAX_ORDER];
    uint8_t order[1 << MAX_ORDER];
    uint8_t bytes[FRAME_BYTES << MAX_ORDER];
};

static struct superblock *all;
static unsigned frames, count;
/* By tenant and order, the first frame of the block that was freed last; at first 0. */
static uint32_t (*last)[MAX_ORDER + 1];

static void vacate(struct superblock *of) {
    of->tenant = NOBODY;
    of->slot = 0;
    memset(of->taken, 0, sizeof of->taken);
    memset(of->order, NO_BLOCK, sizeof of->order);
}

static void give_up(struct superblock *of) {
    vacate(of);
    memset(of->bytes, 0, (size_t)frames * FRAME_BYTES);
}

bool boot(unsigned order, unsigned superblocks, unsigned tenants) {
    frames = 1u << order;
    all = calloc(superblocks, sizeof *all);
    last = calloc(tenants, sizeof *last);
    while (all != NULL && count < superblocks)
        vacate(&all[count++]);
    return all != NULL && last != NULL;
}

static struct superblock *held(unsigned tenant, uint32_t slot) {
    for (struct superblock *of = all; of < all + count; of++)
        if (of->tenant == tenant && of->slot == slot)
            return of;
    return NULL;
}

enum reply grant(unsigned tenant, uint32_t *slot, unsigned *superblock) {
    struct superblock *of = held(NOBODY, 0);
    if (of == NULL)
        return POOL_EMPTY;
    while (held(tenant, of->slot) != NULL)
        of->slot++;
    of->tenant = tenant;
    *slot = of->slot;
    *superblock = (unsigned)(of - all);
    return DONE;
}

enum reply take_back(unsigned tenant, uint32_t slot, unsigned *superblock) {
    struct superblock *of = held(tenant, slot);
    if (of == NULL || memchr(of->taken, true, frames) != NULL)
        return of == NULL ? NO_SLOT : SLOT_BUSY;
    *superblock = (unsigned)(of - all);
    give_up(of);
    return DONE;
}

enum reply reset(unsigned tenant, unsigned *superblocks) {
    *superblocks = 0;
    for (struct superblock *of = all; of < all + count; of++)
        if (of->tenant == tenant && ++*superblocks)
            give_up(of);
    return DONE;
}

enum reply move(unsigned tenant, uint32_t slot, unsigned *superblock) {
    struct superblock *from = held(tenant, slot), *to = held(NOBODY, 0);
    if (from == NULL || to == NULL)
        return from == NULL ? NO_SLOT : POOL_EMPTY;
    *to = *from;
    give_up(from);
    *superblock = (unsigned)(to - all);
    return DONE;
}

/* Finds frames for a block of this order. Returns their superblock, and sets `*at` to the number of the first frame within it;
 * returns NULL if there are none. */
static struct superblock *choose(unsigned tenant, uint32_t order, unsigned *at) {
    struct superblock *of = held(tenant, last[tenant][order] / frames);
    *at = last[tenant][order] % frames;
    if (of != NULL && memchr(of->taken + *at, true, 1u << order) == NULL)
        return of;
    for (uint32_t slot = count; slot > 0; slot--)
        for (*at = 0; (of = held(tenant, slot - 1)) != NULL && *at < frames; *at += 1u << order)
            if (memchr(of->taken + *at, true, 1u << order) == NULL)
                return of;
    return NULL;
}

enum reply alloc(unsigned tenant, uint32_t order, uint32_t *frame) {
    unsigned at;
    struct superblock *of = order > MAX_ORDER || 1u << order > frames ? NULL : choose(tenant, order, &at);
    if (of == NULL)
        return order > MAX_ORDER || 1u << order > frames ? BAD_ORDER : NO_FRAMES;
    memset(of->taken + at, true, 1u << order);
    of->order[at] = (uint8_t)order;
    *frame = of->slot * frames + at;
    return DONE;
}

enum reply release(unsigned tenant, uint32_t frame, unsigned *order) {
    struct superblock *of = held(tenant, frame / frames);
    if (of == NULL || of->order[frame % frames] == NO_BLOCK)
        return NOT_A_BLOCK;
    *order = of->order[frame % frames];
    of->order[frame % frames] = NO_BLOCK;
    memset(of->taken + frame % frames, false, 1u << *order);
    last[tenant][*order] = frame;
    return DONE;
}

/* Returns the address of these bytes if one block of the tenant has them all, or else NULL. */
static uint8_t *reach(unsigned tenant, uint32_t place, uint32_t length) {
    uint32_t at = place / FRAME_BYTES % frames, first = at;
    struct superblock *of = held(tenant, place / FRAME_BYTES / frames);
    if (of == NULL || !of->taken[at])
        return NULL;
    while (of->order[first] == NO_BLOCK)
        first--;
    place = at * FRAME_BYTES + place % FRAME_BYTES;
    return (uint64_t)place + length <= (first + (1u << of->order[first])) * FRAME_BYTES ? of->bytes + place : NULL;
}

enum reply read_bytes(unsigned tenant, uint32_t place, uint32_t length, uint8_t *bytes) {
    const uint8_t *from = reach(tenant, place, length);
    if (length < 1 || length > MAX_BYTES || from == NULL)
        return length < 1 || length > MAX_BYTES ? BAD_LENGTH : OUT_OF_REACH;
    memcpy(bytes, from, length);
    return DONE;
}

enum reply write_bytes(unsigned tenant, uint32_t place, uint32_t length, const uint8_t *bytes) {
    uint8_t *to = reach(tenant, place, length);
    if (to == NULL)
        return OUT_OF_REACH;
    memcpy(to, bytes, length);
    return DONE;
}

const struct caches *caches(void) { return NULL; }
