/* A buddy allocator like Linux's, behind conformance/adapter.h. `run` makes wrong copies of it. Each tenant has a
 * list of free blocks for each order, last in first out. A freed block is joined with its buddy as long as the buddy is
 * free. The allocator has no caches. */
#include "adapter.h"
#include <stdlib.h>
#include <string.h>

enum kind { INSIDE, FREE, TAKEN };

/* A frame of a tenant. The first frame of a block has the block's kind and order and, if the block is free, its neighbours in the
 * list. */
struct page {
    uint8_t kind, order;
    uint32_t next, before;
};

struct tenant {
    struct page *pages;
    uint32_t first[MAX_ORDER + 1];
    unsigned *superblocks; /* by slot */
    unsigned *taken;       /* frames, by slot */
};

static const uint32_t NONE = UINT32_MAX;
static unsigned top, frames, count;
static struct tenant *all;
static uint8_t *memory;
static bool *owned;

static size_t size_of_superblock(void) { return (size_t)frames * FRAME_BYTES; }

bool boot(unsigned order, unsigned superblocks, unsigned tenants) {
    top = order;
    frames = 1u << order;
    count = superblocks;
    all = calloc(tenants, sizeof *all);
    owned = calloc(superblocks, sizeof *owned);
    memory = calloc(superblocks, size_of_superblock());
    for (struct tenant *of = all; of < all + tenants; of++) {
        of->pages = calloc((size_t)count * frames, sizeof *of->pages);
        of->superblocks = malloc(count * sizeof *of->superblocks);
        of->taken = calloc(count, sizeof *of->taken);
        memset(of->superblocks, 0xff, count * sizeof *of->superblocks);
        memset(of->first, 0xff, sizeof of->first);
    }
    return memory != NULL;
}

static void push(struct tenant *of, uint32_t frame, unsigned order) {
    uint32_t next = of->first[order];
    of->pages[frame] = (struct page){FREE, (uint8_t)order, next, NONE};
    if (next != NONE)
        of->pages[next].before = frame;
    of->first[order] = frame;
}

static void unlink_block(struct tenant *of, uint32_t frame) {
    struct page *page = &of->pages[frame];
    if (page->before == NONE)
        of->first[page->order] = page->next;
    else
        of->pages[page->before].next = page->next;
    if (page->next != NONE)
        of->pages[page->next].before = page->before;
    page->kind = INSIDE;
}

static bool holds(struct tenant *of, uint32_t slot) { return slot < count && of->superblocks[slot] < count; }

static uint8_t *bytes_of(unsigned superblock) { return memory + superblock * size_of_superblock(); }

static void give_up(unsigned superblock) {
    memset(bytes_of(superblock), 0, size_of_superblock());
    owned[superblock] = false;
}

static bool next_superblock(unsigned *superblock) {
    for (*superblock = 0; *superblock < count; ++*superblock)
        if (!owned[*superblock])
            return owned[*superblock] = true;
    return false;
}

enum reply grant(unsigned tenant, uint32_t *slot, unsigned *superblock) {
    struct tenant *of = &all[tenant];
    if (!next_superblock(superblock))
        return POOL_EMPTY;
    for (*slot = 0; holds(of, *slot); ++*slot)
        ;
    of->superblocks[*slot] = *superblock;
    of->taken[*slot] = 0;
    push(of, *slot * frames, top);
    return DONE;
}

enum reply take_back(unsigned tenant, uint32_t slot, unsigned *superblock) {
    struct tenant *of = &all[tenant];
    if (!holds(of, slot))
        return NO_SLOT;
    if (of->taken[slot] != 0)
        return SLOT_BUSY;
    unlink_block(of, slot * frames);
    *superblock = of->superblocks[slot];
    of->superblocks[slot] = NONE;
    give_up(*superblock);
    return DONE;
}

enum reply reset(unsigned tenant, unsigned *superblocks) {
    struct tenant *of = &all[tenant];
    *superblocks = 0;
    memset(of->first, 0xff, sizeof of->first);
    for (uint32_t slot = 0; slot < count; slot++)
        if (holds(of, slot)) {
            ++*superblocks;
            memset(of->pages + slot * frames, 0, frames * sizeof *of->pages);
            give_up(of->superblocks[slot]);
            of->superblocks[slot] = NONE;
        }
    return DONE;
}

enum reply move(unsigned tenant, uint32_t slot, unsigned *superblock) {
    struct tenant *of = &all[tenant];
    if (!holds(of, slot))
        return NO_SLOT;
    if (!next_superblock(superblock))
        return POOL_EMPTY;
    memcpy(bytes_of(*superblock), bytes_of(of->superblocks[slot]), size_of_superblock());
    give_up(of->superblocks[slot]);
    of->superblocks[slot] = *superblock;
    return DONE;
}

enum reply alloc(unsigned tenant, uint32_t order, uint32_t *frame) {
    struct tenant *of = &all[tenant];
    unsigned from = order;
    if (order > top)
        return BAD_ORDER;
    while (from <= top && of->first[from] == NONE)
        from++;
    if (from > top)
        return NO_FRAMES;
    *frame = of->first[from];
    unlink_block(of, *frame);
    while (from > order) {
        from--;
        push(of, *frame + (1u << from), from);
    }
    of->pages[*frame].kind = TAKEN;
    of->pages[*frame].order = (uint8_t)order;
    of->taken[*frame / frames] += 1u << order;
    return DONE;
}

enum reply release(unsigned tenant, uint32_t frame, unsigned *order) {
    struct tenant *of = &all[tenant];
    if (!holds(of, frame / frames) || of->pages[frame].kind != TAKEN)
        return NOT_A_BLOCK;
    *order = of->pages[frame].order;
    of->pages[frame].kind = INSIDE;
    of->taken[frame / frames] -= 1u << *order;
    unsigned joined = *order;
    while (joined < top) {
        uint32_t buddy = frame ^ (1u << joined);
        if (of->pages[buddy].kind != FREE || of->pages[buddy].order != joined)
            break;
        unlink_block(of, buddy);
        frame &= ~(1u << joined);
        joined++;
    }
    push(of, frame, joined);
    return DONE;
}

/* Returns the address of this place, or NULL if no taken block has all bytes of the range. */
static uint8_t *reach(struct tenant *of, uint32_t place, uint32_t length) {
    uint32_t at = place / FRAME_BYTES, slot = at / frames;
    if (!holds(of, slot))
        return NULL;
    for (unsigned order = 0; order <= top; order++) {
        uint32_t first = at & ~((1u << order) - 1);
        if (of->pages[first].kind == TAKEN && of->pages[first].order == order) {
            uint64_t end = ((uint64_t)first + (1u << order)) * FRAME_BYTES;
            if ((uint64_t)place + length > end)
                return NULL;
            return bytes_of(of->superblocks[slot]) + (place - slot * size_of_superblock());
        }
    }
    return NULL;
}

enum reply read_bytes(unsigned tenant, uint32_t place, uint32_t length, uint8_t *bytes) {
    if (length < 1 || length > MAX_BYTES)
        return BAD_LENGTH;
    const uint8_t *from = reach(&all[tenant], place, length);
    if (from == NULL)
        return OUT_OF_REACH;
    memcpy(bytes, from, length);
    return DONE;
}

enum reply write_bytes(unsigned tenant, uint32_t place, uint32_t length, const uint8_t *bytes) {
    uint8_t *to = reach(&all[tenant], place, length);
    if (to == NULL)
        return OUT_OF_REACH;
    memcpy(to, bytes, length);
    return DONE;
}

const struct caches *caches(void) { return NULL; }
