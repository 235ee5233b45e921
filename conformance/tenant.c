/* Implements adapter.h with the functions of tenant.h. The slots of a tenant are in one range of memory, by their numbers. */
#include "tenant.h"

#include <stdio.h>
#include <stdlib.h>
#include <string.h>

enum { NOBODY = 0xffff, MAX_SUPERBLOCKS = 256, MAX_SIZE = 4096, MIN_ALIGN = 8, MAX_ALIGN = 256 };

/* A page block, or a slab of a cache. */
struct block {
    uint32_t first;
    unsigned order;
    struct slabs *slabs; /* of its cache; NULL for a page block */
    unsigned live;
    bool *is_live;       /* by offset / MIN_ALIGN, whether an object of the slab is taken that begins there */
    struct block *next;  /* slab of the cache */
};

struct slabs {
    struct cache *cache; /* NULL if the number is free */
    struct owner *of;
    uint32_t size;
    struct layout layout;
    unsigned length;
    uint8_t pattern[MAX_PATTERN];
    struct block *first;
};

/* What a tenant has. */
struct owner {
    struct tenant *tenant; /* NULL before its first grant, and after a reset */
    void *whole;           /* what calloc returned */
    uint8_t *memory;       /* the slots' part of it, aligned to the size of a slot */
    struct block **at;     /* by frame: the block that contains it, or NULL */
    unsigned superblocks[MAX_SUPERBLOCKS]; /* by slot, or NOBODY */
    struct slabs caches[MAX_CACHES];
    unsigned freed; /* frames of freed slabs, since a command began */
};

static unsigned machine_order, frames, count;
static size_t size_of_slot;
static struct owner *owners;
static bool *owned;
static const struct objects *functions;

static void need(bool is_right, const char *what) {
    if (!is_right) {
        fprintf(stderr, "tenant.c: %s\n", what);
        exit(1);
    }
}

bool boot(unsigned order, unsigned superblocks, unsigned tenants) {
    machine_order = order;
    frames = 1u << order;
    count = superblocks;
    size_of_slot = (size_t)frames * FRAME_BYTES;
    owners = calloc(tenants, sizeof *owners);
    owned = calloc(superblocks, sizeof *owned);
    for (unsigned i = 0; owners != NULL && i < tenants * MAX_SUPERBLOCKS; i++)
        owners[i / MAX_SUPERBLOCKS].superblocks[i % MAX_SUPERBLOCKS] = NOBODY;
    return owners != NULL && owned != NULL;
}

static bool holds(const struct owner *of, uint32_t slot) { return slot < count && of->superblocks[slot] != NOBODY; }

static bool own_superblock(unsigned *superblock) {
    for (*superblock = 0; *superblock < count; ++*superblock)
        if (!owned[*superblock])
            return owned[*superblock] = true;
    return false;
}

static void begin(struct owner *of) {
    of->whole = calloc(count + 1, size_of_slot);
    of->memory = (uint8_t *)(((uintptr_t)of->whole + size_of_slot - 1) / size_of_slot * size_of_slot);
    of->at = calloc((size_t)count << machine_order, sizeof *of->at);
    need(of->whole != NULL && of->at != NULL, "memory ran out");
    of->tenant = tenant_init(of->memory, machine_order, count);
    need(of->tenant != NULL, "tenant_init returned NULL");
}

enum reply grant(unsigned tenant, uint32_t *slot, unsigned *superblock) {
    struct owner *of = &owners[tenant];
    if (!own_superblock(superblock))
        return POOL_EMPTY;
    for (*slot = 0; holds(of, *slot); ++*slot)
        ;
    if (of->tenant == NULL)
        begin(of);
    of->superblocks[*slot] = *superblock;
    tenant_add(of->tenant, *slot);
    return DONE;
}

static void disown(struct owner *of, uint32_t slot) {
    owned[of->superblocks[slot]] = false;
    of->superblocks[slot] = NOBODY;
}

enum reply take_back(unsigned tenant, uint32_t slot, unsigned *superblock) {
    struct owner *of = &owners[tenant];
    if (!holds(of, slot))
        return NO_SLOT;
    for (unsigned i = 0; i < frames; i++)
        if (of->at[slot * frames + i] != NULL)
            return SLOT_BUSY;
    *superblock = of->superblocks[slot];
    tenant_remove(of->tenant, slot);
    memset(of->memory + slot * size_of_slot, 0, size_of_slot);
    disown(of, slot);
    return DONE;
}

/* Only the number of the slot's superblock changes. */
enum reply move(unsigned tenant, uint32_t slot, unsigned *superblock) {
    struct owner *of = &owners[tenant];
    if (!holds(of, slot) || !own_superblock(superblock))
        return holds(of, slot) ? POOL_EMPTY : NO_SLOT;
    disown(of, slot);
    of->superblocks[slot] = *superblock;
    return DONE;
}

/* Notes that the tenant has the block of this order at this address. Returns NULL if the address is not that of a frame. */
static struct block *note_block(struct owner *of, void *address, unsigned order) {
    size_t offset = (size_t)((uint8_t *)address - of->memory);
    struct block *block;
    if ((uint8_t *)address < of->memory || offset >= count * size_of_slot || offset % FRAME_BYTES != 0)
        return NULL;
    block = calloc(1, sizeof *block);
    need(block != NULL, "memory ran out");
    block->first = (uint32_t)(offset / FRAME_BYTES);
    block->order = order;
    for (uint32_t i = block->first; i < count << machine_order && i < block->first + (1u << order); i++)
        of->at[i] = block;
    return block;
}

static void forget_block(struct owner *of, struct block *block) {
    for (uint32_t i = block->first; i < count << machine_order && i < block->first + (1u << block->order); i++)
        if (of->at[i] == block)
            of->at[i] = NULL;
    free(block->is_live);
    free(block);
}

static uint8_t *address_of(const struct owner *of, uint32_t frame) { return of->memory + (size_t)frame * FRAME_BYTES; }

/* Frees all empty slabs of the tenant. Returns how many frames they had. */
static unsigned reap_all(struct owner *of) {
    of->freed = 0;
    for (struct slabs *slabs = of->caches; slabs < of->caches + MAX_CACHES; slabs++)
        if (slabs->cache != NULL)
            functions->shrink(slabs->cache);
    return of->freed;
}

/* Returns whether the frames of this block would be free if the tenant had no empty slabs. */
static bool would_be_free(const struct owner *of, uint32_t first, unsigned order) {
    for (uint32_t i = first; i < first + (1u << order); i++)
        if (of->at[i] != NULL && (of->at[i]->slabs == NULL || of->at[i]->live > 0))
            return false;
    return true;
}

/* Returns whether a block of this order would be free if the tenant had no empty slabs. Only then a request reaps. */
static bool would_fit(const struct owner *of, unsigned order) {
    for (uint32_t i = 0; i < count << machine_order; i += 1u << order)
        if (holds(of, i >> machine_order) && would_be_free(of, i, order))
            return true;
    return false;
}

enum reply alloc(unsigned tenant, uint32_t order, uint32_t *frame) {
    struct owner *of = &owners[tenant];
    void *address;
    if (order > machine_order)
        return BAD_ORDER;
    address = of->tenant == NULL ? NULL : tenant_alloc(of->tenant, order);
    if (address == NULL && would_fit(of, order)) {
        reap_all(of);
        address = tenant_alloc(of->tenant, order);
    }
    if (address == NULL)
        return NO_FRAMES;
    /* If the block does not begin at a frame of the memory, the reply names a frame above all slots, which breaks a promise. */
    const struct block *block = note_block(of, address, order);
    *frame = block == NULL ? count << machine_order : block->first;
    return DONE;
}

static struct block *block_at(const struct owner *of, uint32_t frame) {
    return holds(of, frame >> machine_order) ? of->at[frame] : NULL;
}

enum reply release(unsigned tenant, uint32_t frame, unsigned *order) {
    struct owner *of = &owners[tenant];
    struct block *block = block_at(of, frame);
    if (block == NULL || block->slabs != NULL || block->first != frame)
        return NOT_A_BLOCK;
    *order = block->order;
    forget_block(of, block);
    tenant_free(of->tenant, address_of(of, frame), *order);
    return DONE;
}

/* Returns the end of the taken object of the slab that contains this place, or 0. */
static uint64_t end_of_object(const struct block *slab, uint32_t place) {
    uint32_t from = slab->first * FRAME_BYTES, size = slab->slabs->size;
    for (uint32_t at = (place - from) / MIN_ALIGN + 1; at > 0 && place < from + (at - 1) * MIN_ALIGN + size; at--)
        if (slab->is_live[at - 1])
            return (uint64_t)from + (at - 1) * MIN_ALIGN + size;
    return 0;
}

/* Returns the address of these bytes if one block or object of the tenant contains them all, or else NULL. */
static uint8_t *reach(unsigned tenant, uint32_t place, uint32_t length) {
    const struct owner *of = &owners[tenant];
    const struct block *block = block_at(of, place / FRAME_BYTES);
    if (block == NULL)
        return NULL;
    uint64_t end = block->slabs != NULL ? end_of_object(block, place)
                                        : ((uint64_t)block->first + (1u << block->order)) * FRAME_BYTES;
    return (uint64_t)place + length <= end ? of->memory + place : NULL;
}

enum reply read_bytes(unsigned tenant, uint32_t place, uint32_t length, uint8_t *bytes) {
    const uint8_t *from = length < 1 || length > MAX_BYTES ? NULL : reach(tenant, place, length);
    if (from == NULL)
        return length < 1 || length > MAX_BYTES ? BAD_LENGTH : OUT_OF_REACH;
    memcpy(bytes, from, length);
    return DONE;
}

enum reply write_bytes(unsigned tenant, uint32_t place, uint32_t length, const uint8_t *bytes) {
    uint8_t *to = reach(tenant, place, length);
    if (to == NULL)
        return OUT_OF_REACH;
    memcpy(to, bytes, length);
    return DONE;
}

void *slab_alloc(struct slabs *slabs) {
    void *address = tenant_alloc(slabs->of->tenant, slabs->layout.order);
    if (address == NULL)
        return NULL;
    struct block *slab = note_block(slabs->of, address, slabs->layout.order);
    need(slab != NULL, "tenant_alloc returned an address that is not that of a frame");
    slab->slabs = slabs;
    slab->is_live = calloc(((size_t)FRAME_BYTES << slab->order) / MIN_ALIGN, sizeof *slab->is_live);
    need(slab->is_live != NULL, "memory ran out");
    slab->next = slabs->first;
    slabs->first = slab;
    return address;
}

void slab_free(struct slabs *slabs, void *address) {
    struct block **link = &slabs->first;
    while (*link != NULL && address_of(slabs->of, (*link)->first) != address)
        link = &(*link)->next;
    struct block *slab = *link;
    need(slab != NULL, "slab_free got an address at which no slab of the cache begins");
    *link = slab->next;
    slabs->of->freed += 1u << slab->order;
    memset(address, 0, (size_t)FRAME_BYTES << slab->order);
    tenant_free(slabs->of->tenant, address, slab->order);
    forget_block(slabs->of, slab);
}

void slab_construct(struct slabs *slabs, void *object) {
    for (uint32_t i = 0; i < slabs->size; i++)
        ((uint8_t *)object)[i] = slabs->pattern[i % slabs->length];
}

static struct slabs *slabs_of(unsigned tenant, uint32_t number) {
    struct slabs *slabs = &owners[tenant].caches[number % MAX_CACHES];
    return number < MAX_CACHES && slabs->cache != NULL ? slabs : NULL;
}

static enum reply make(unsigned tenant, uint32_t size, uint32_t align, unsigned length, const uint8_t *pattern,
                       struct layout *layout) {
    unsigned number = 0;
    if (size < 1 || size > MAX_SIZE)
        return BAD_SIZE;
    if (align < MIN_ALIGN || align > MAX_ALIGN || (align & (align - 1)) != 0)
        return BAD_ALIGN;
    while (number < MAX_CACHES && slabs_of(tenant, number) != NULL)
        number++;
    if (number == MAX_CACHES)
        return NO_CACHE_SLOT;
    struct slabs *slabs = &owners[tenant].caches[number];
    *slabs = (struct slabs){.of = &owners[tenant], .size = size, .length = length};
    memcpy(slabs->pattern, pattern, length);
    functions->lay_out(size, align, &slabs->layout);
    slabs->layout.number = number;
    slabs->cache = functions->init(slabs, size, align, &slabs->layout);
    need(slabs->cache != NULL, "init returned NULL");
    *layout = slabs->layout;
    return DONE;
}

static void end(struct slabs *slabs) {
    functions->end(slabs->cache);
    need(slabs->first == NULL, "end did not free all slabs");
    slabs->cache = NULL;
}

static enum reply destroy(unsigned tenant, uint32_t number, unsigned *freed) {
    struct slabs *slabs = slabs_of(tenant, number);
    if (slabs == NULL)
        return NO_CACHE;
    for (const struct block *slab = slabs->first; slab != NULL; slab = slab->next)
        if (slab->live > 0)
            return CACHE_IN_USE;
    slabs->of->freed = 0;
    end(slabs);
    *freed = slabs->of->freed;
    return DONE;
}

enum reply reset(unsigned tenant, unsigned *superblocks) {
    struct owner *of = &owners[tenant];
    *superblocks = 0;
    for (unsigned number = 0; number < MAX_CACHES; number++)
        if (of->caches[number].cache != NULL)
            end(&of->caches[number]);
    for (uint32_t i = 0; of->tenant != NULL && i < count << machine_order; i++)
        if (of->at[i] != NULL)
            forget_block(of, of->at[i]);
    for (uint32_t slot = 0; slot < count; slot++)
        if (holds(of, slot)) {
            disown(of, slot);
            ++*superblocks;
        }
    if (of->tenant != NULL)
        tenant_end(of->tenant);
    of->tenant = NULL;
    free(of->at);
    free(of->whole);
    of->at = NULL;
    of->whole = NULL;
    return DONE;
}

static enum reply take(unsigned tenant, uint32_t number, uint32_t *place) {
    struct slabs *slabs = slabs_of(tenant, number);
    if (slabs == NULL)
        return NO_CACHE;
    struct owner *of = slabs->of;
    uint8_t *object = of->tenant == NULL ? NULL : functions->take(slabs->cache);
    if (object == NULL && would_fit(of, slabs->layout.order)) {
        reap_all(of);
        object = functions->take(slabs->cache);
    }
    if (object == NULL)
        return NO_FRAMES;
    need(object >= of->memory && object < of->memory + count * size_of_slot, "take returned an address outside of the memory");
    *place = (uint32_t)(object - of->memory);
    struct block *slab = of->at[*place / FRAME_BYTES];
    need(slab != NULL && slab->slabs == slabs, "take returned an address outside of the cache's slabs");
    slab->is_live[(*place - slab->first * FRAME_BYTES) / MIN_ALIGN] = true;
    slab->live++;
    return DONE;
}

static enum reply give(unsigned tenant, uint32_t number, uint32_t place) {
    struct slabs *slabs = slabs_of(tenant, number);
    struct block *slab = block_at(&owners[tenant], place / FRAME_BYTES);
    uint32_t offset = slab == NULL ? 0 : place - slab->first * FRAME_BYTES;
    if (slabs == NULL)
        return NO_CACHE;
    if (slab == NULL || slab->slabs != slabs || place % MIN_ALIGN != 0 || !slab->is_live[offset / MIN_ALIGN])
        return NOT_AN_OBJECT;
    slab->is_live[offset / MIN_ALIGN] = false;
    slab->live--;
    functions->give(slabs->cache, owners[tenant].memory + place);
    return DONE;
}

static void reap(unsigned tenant, unsigned *freed) { *freed = reap_all(&owners[tenant]); }

static bool is_free_block(const struct owner *of, uint32_t first, unsigned order) {
    if (first % (1u << order) != 0)
        return false;
    for (uint32_t i = first; i < first + (1u << order); i++)
        if (of->at[i] != NULL)
            return false;
    return true;
}

/* Counts the block that begins at the frame, or else the largest free block there. Returns the next frame to count. */
static uint32_t count_block(const struct owner *of, uint32_t frame, struct figures *figures) {
    unsigned order = machine_order;
    if (of->at[frame] != NULL) {
        figures->orders[of->at[frame]->order].taken += of->at[frame]->first == frame;
        return frame + 1;
    }
    while (!is_free_block(of, frame, order))
        order--;
    figures->orders[order].free++;
    return frame + (1u << order);
}

static void report(unsigned tenant, struct figures *figures) {
    const struct owner *of = &owners[tenant];
    for (uint32_t frame = 0; frame < count << machine_order;)
        frame = holds(of, frame >> machine_order) ? count_block(of, frame, figures) : frame + frames;
    for (const struct slabs *slabs = of->caches; slabs < of->caches + MAX_CACHES; slabs++) {
        if (slabs->cache == NULL)
            continue;
        struct cache_row *row = &figures->rows[figures->caches++];
        row->number = slabs->layout.number;
        for (const struct block *slab = slabs->first; slab != NULL; slab = slab->next) {
            row->full += slab->live == slabs->layout.objects;
            row->partial += slab->live > 0 && slab->live < slabs->layout.objects;
            row->empty += slab->live == 0;
            row->live += slab->live;
        }
    }
}

const struct caches *caches_of(const struct objects *objects) {
    static const struct caches mine = {make, destroy, take, give, reap, report};
    if (functions != objects)
        functions = objects;
    return &mine;
}
