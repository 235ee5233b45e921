/* A buddy allocator with caches, behind conformance/adapter.h. `run` makes wrong copies of it. Each slot has a tree.
 * The node of a block has the greatest order of a free block inside this block. A block comes from the first slot that has a free
 * block large enough. A cache keeps its empty slabs until frames are short. The records of slabs are outside the frames. */
#include "adapter.h"
#include <stdlib.h>
#include <string.h>

enum { NODES = 2 << MAX_ORDER, MAX_OBJECTS = FRAME_BYTES / 8, MAX_SIZE = 4096, MIN_OBJECTS = 4 };
enum kind { NOTHING, PAGES, SLAB };

struct slab {
    uint32_t first; /* frame */
    unsigned live;
    bool taken[MAX_OBJECTS];
};

struct cache {
    bool is_used;
    uint32_t size, chunk;
    unsigned order, objects, length, count;
    uint8_t pattern[MAX_PATTERN];
    struct slab *slabs;
};

struct tenant {
    unsigned *superblocks;    /* by slot */
    uint8_t (*trees)[NODES];  /* by slot: the greatest free order plus 1, or 0 */
    uint8_t *orders, *kinds;  /* of the block that begins at a frame */
    struct cache caches[MAX_CACHES];
};

static unsigned top, frames, count;
static struct tenant *all;
static uint8_t *memory;
static bool *owned;

static size_t size_of_superblock(void) { return (size_t)frames * FRAME_BYTES; }

static bool holds(struct tenant *of, uint32_t slot) { return slot < count && of->superblocks[slot] < count; }

static uint8_t *bytes_at(struct tenant *of, uint32_t place) {
    return memory + of->superblocks[place / FRAME_BYTES / frames] * size_of_superblock() + place % size_of_superblock();
}

bool boot(unsigned order, unsigned superblocks, unsigned tenants) {
    top = order;
    frames = 1u << order;
    count = superblocks;
    all = calloc(tenants, sizeof *all);
    owned = calloc(superblocks, sizeof *owned);
    memory = calloc(superblocks, size_of_superblock());
    for (struct tenant *of = all; of < all + tenants; of++) {
        of->superblocks = malloc(count * sizeof *of->superblocks);
        memset(of->superblocks, 0xff, count * sizeof *of->superblocks);
        of->trees = calloc(count, sizeof *of->trees);
        of->orders = calloc(count, frames);
        of->kinds = calloc(count, frames);
    }
    return memory != NULL;
}

static void whole(struct tenant *of, uint32_t slot) {
    for (unsigned depth = 0; depth <= top; depth++)
        memset(of->trees[slot] + (1u << depth), (int)(top - depth + 1), 1u << depth);
    memset(of->kinds + slot * frames, NOTHING, frames);
}

static void give_up(struct tenant *of, uint32_t slot) {
    memset(bytes_at(of, slot * (uint32_t)size_of_superblock()), 0, size_of_superblock());
    owned[of->superblocks[slot]] = false;
    of->superblocks[slot] = UINT32_MAX;
}

static bool next_superblock(unsigned *superblock) {
    for (*superblock = 0; *superblock < count; ++*superblock)
        if (!owned[*superblock])
            return owned[*superblock] = true;
    return false;
}

enum reply grant(unsigned tenant, uint32_t *slot, unsigned *superblock) {
    struct tenant *of = &all[tenant];
    if (!next_superblock(superblock))
        return POOL_EMPTY;
    for (*slot = 0; holds(of, *slot); ++*slot)
        ;
    of->superblocks[*slot] = *superblock;
    whole(of, *slot);
    return DONE;
}

enum reply take_back(unsigned tenant, uint32_t slot, unsigned *superblock) {
    struct tenant *of = &all[tenant];
    if (!holds(of, slot))
        return NO_SLOT;
    if (of->trees[slot][1] != top + 1)
        return SLOT_BUSY;
    *superblock = of->superblocks[slot];
    give_up(of, slot);
    return DONE;
}

enum reply reset(unsigned tenant, unsigned *superblocks) {
    struct tenant *of = &all[tenant];
    *superblocks = 0;
    for (uint32_t slot = 0; slot < count; slot++)
        if (holds(of, slot)) {
            ++*superblocks;
            give_up(of, slot);
        }
    for (struct cache *cache = of->caches; cache < of->caches + MAX_CACHES; cache++) {
        free(cache->slabs);
        memset(cache, 0, sizeof *cache);
    }
    return DONE;
}

enum reply move(unsigned tenant, uint32_t slot, unsigned *superblock) {
    struct tenant *of = &all[tenant];
    if (!holds(of, slot))
        return NO_SLOT;
    if (!next_superblock(superblock))
        return POOL_EMPTY;
    uint8_t *from = bytes_at(of, slot * (uint32_t)size_of_superblock());
    memcpy(memory + *superblock * size_of_superblock(), from, size_of_superblock());
    give_up(of, slot);
    of->superblocks[slot] = *superblock;
    return DONE;
}

/* Returns the node of a block in the tree of its slot. */
static unsigned node_of(uint32_t frame, unsigned order) { return (1u << (top - order)) + (frame % frames >> order); }

/* Sets the value of a block's node, and updates the nodes above it. */
static void set_free(uint8_t *tree, unsigned node, unsigned order, uint8_t free_order) {
    tree[node] = free_order;
    for (node /= 2; node > 0; node /= 2) {
        uint8_t left = tree[2 * node], right = tree[2 * node + 1];
        order++;
        tree[node] = left == order && right == order ? (uint8_t)(order + 1) : left > right ? left : right;
    }
}

static bool find_block(struct tenant *of, unsigned order, enum kind kind, uint32_t *frame) {
    for (uint32_t slot = 0; slot < count; slot++) {
        uint8_t *tree = of->trees[slot];
        if (!holds(of, slot) || tree[1] <= order)
            continue;
        unsigned node = 1;
        for (unsigned at = top; at > order; at--) {
            node *= 2;
            if (tree[node] <= order)
                node++;
        }
        *frame = slot * frames + ((node - (1u << (top - order))) << order);
        set_free(tree, node, order, 0);
        of->orders[*frame] = (uint8_t)order;
        of->kinds[*frame] = kind;
        return true;
    }
    return false;
}

static void free_block(struct tenant *of, uint32_t frame) {
    unsigned order = of->orders[frame];
    of->kinds[frame] = NOTHING;
    set_free(of->trees[frame / frames], node_of(frame, order), order, (uint8_t)(order + 1));
}

static unsigned drop_slab(struct tenant *of, struct cache *cache, unsigned at) {
    uint32_t first = cache->slabs[at].first;
    memset(bytes_at(of, first * FRAME_BYTES), 0, (size_t)FRAME_BYTES << cache->order);
    free_block(of, first);
    cache->slabs[at] = cache->slabs[--cache->count];
    return 1u << cache->order;
}

static unsigned drop_empty(struct tenant *of, struct cache *cache) {
    unsigned freed = 0;
    for (unsigned at = cache->count; at > 0; at--)
        if (cache->slabs[at - 1].live == 0)
            freed += drop_slab(of, cache, at - 1);
    return freed;
}

static void drop_all_empty(unsigned tenant, unsigned *freed) {
    struct tenant *of = &all[tenant];
    *freed = 0;
    for (struct cache *cache = of->caches; cache < of->caches + MAX_CACHES; cache++)
        *freed += drop_empty(of, cache);
}

/* Returns whether there would be a block of this order if all empty slabs were freed. */
static bool would_fit(struct tenant *of, unsigned order) {
    bool fits = false;
    uint8_t (*before)[NODES] = malloc(count * sizeof *before);
    memcpy(before, of->trees, count * sizeof *before);
    for (struct cache *cache = of->caches; cache < of->caches + MAX_CACHES; cache++)
        for (struct slab *slab = cache->slabs; slab < cache->slabs + cache->count; slab++)
            if (slab->live == 0)
                set_free(of->trees[slab->first / frames], node_of(slab->first, cache->order), cache->order,
                         (uint8_t)(cache->order + 1));
    for (uint32_t slot = 0; slot < count; slot++)
        fits = fits || (holds(of, slot) && of->trees[slot][1] > order);
    memcpy(of->trees, before, count * sizeof *before);
    free(before);
    return fits;
}

static bool get_block(unsigned tenant, unsigned order, enum kind kind, uint32_t *frame) {
    struct tenant *of = &all[tenant];
    unsigned freed;
    if (find_block(of, order, kind, frame))
        return true;
    if (!would_fit(of, order))
        return false;
    drop_all_empty(tenant, &freed);
    return find_block(of, order, kind, frame);
}

enum reply alloc(unsigned tenant, uint32_t order, uint32_t *frame) {
    if (order > top)
        return BAD_ORDER;
    return get_block(tenant, order, PAGES, frame) ? DONE : NO_FRAMES;
}

enum reply release(unsigned tenant, uint32_t frame, unsigned *order) {
    struct tenant *of = &all[tenant];
    if (!holds(of, frame / frames) || of->kinds[frame] != PAGES)
        return NOT_A_BLOCK;
    *order = of->orders[frame];
    free_block(of, frame);
    return DONE;
}

/* Returns the slab of this cache that contains the place, or NULL. */
static struct slab *slab_at(struct cache *cache, uint32_t place) {
    for (struct slab *slab = cache->slabs; slab < cache->slabs + cache->count; slab++)
        if (place / FRAME_BYTES >= slab->first && place / FRAME_BYTES < slab->first + (1u << cache->order))
            return slab;
    return NULL;
}

static bool is_in_object(struct tenant *of, uint32_t place, uint32_t length) {
    for (struct cache *cache = of->caches; cache < of->caches + MAX_CACHES; cache++) {
        struct slab *slab = slab_at(cache, place);
        if (slab != NULL) {
            uint32_t offset = place - slab->first * FRAME_BYTES, at = offset / cache->chunk;
            return at < cache->objects && slab->taken[at] && offset % cache->chunk + (uint64_t)length <= cache->size;
        }
    }
    return false;
}

static bool is_in_pages(struct tenant *of, uint32_t place, uint32_t length) {
    uint32_t frame = place / FRAME_BYTES;
    for (unsigned order = 0; order <= top; order++) {
        uint32_t first = frame >> order << order;
        if (of->kinds[first] == PAGES && of->orders[first] == order)
            return (uint64_t)place + length <= ((uint64_t)first + (1u << order)) * FRAME_BYTES;
    }
    return false;
}

static uint8_t *reach(unsigned tenant, uint32_t place, uint32_t length) {
    struct tenant *of = &all[tenant];
    if (!holds(of, place / FRAME_BYTES / frames))
        return NULL;
    return is_in_pages(of, place, length) || is_in_object(of, place, length) ? bytes_at(of, place) : NULL;
}

enum reply read_bytes(unsigned tenant, uint32_t place, uint32_t length, uint8_t *bytes) {
    const uint8_t *from = reach(tenant, place, length);
    if (length < 1 || length > MAX_BYTES)
        return BAD_LENGTH;
    if (from == NULL)
        return OUT_OF_REACH;
    memcpy(bytes, from, length);
    return DONE;
}

enum reply write_bytes(unsigned tenant, uint32_t place, uint32_t length, const uint8_t *bytes) {
    uint8_t *to = reach(tenant, place, length);
    if (to == NULL)
        return OUT_OF_REACH;
    memcpy(to, bytes, length);
    return DONE;
}

static enum reply make(unsigned tenant, uint32_t size, uint32_t align, unsigned length, const uint8_t *pattern,
                       struct layout *layout) {
    struct cache *cache = all[tenant].caches;
    unsigned number = 0;
    if (size < 1 || size > MAX_SIZE)
        return BAD_SIZE;
    if (align < 8 || align > 256 || (align & (align - 1)) != 0)
        return BAD_ALIGN;
    while (number < MAX_CACHES && cache[number].is_used)
        number++;
    if (number == MAX_CACHES)
        return NO_CACHE_SLOT;
    cache += number;
    *cache = (struct cache){.is_used = true, .size = size, .chunk = (size + align - 1) / align * align, .length = length};
    memcpy(cache->pattern, pattern, length);
    while ((FRAME_BYTES << cache->order) / cache->chunk < MIN_OBJECTS)
        cache->order++;
    cache->objects = (FRAME_BYTES << cache->order) / cache->chunk;
    *layout = (struct layout){number, cache->chunk, cache->order, cache->objects, 1};
    return DONE;
}

static struct cache *cache_of(unsigned tenant, uint32_t number) {
    return number < MAX_CACHES && all[tenant].caches[number].is_used ? &all[tenant].caches[number] : NULL;
}

static enum reply destroy(unsigned tenant, uint32_t number, unsigned *freed) {
    struct cache *cache = cache_of(tenant, number);
    if (cache == NULL)
        return NO_CACHE;
    for (unsigned at = 0; at < cache->count; at++)
        if (cache->slabs[at].live > 0)
            return CACHE_IN_USE;
    *freed = drop_empty(&all[tenant], cache);
    free(cache->slabs);
    memset(cache, 0, sizeof *cache);
    return DONE;
}

/* Returns a partial slab. If there is none, returns an empty slab or else a new one; returns NULL if no block is free for it. */
static struct slab *slab_with_room(unsigned tenant, struct cache *cache) {
    struct slab *best = NULL;
    uint32_t first;
    for (struct slab *slab = cache->slabs; slab < cache->slabs + cache->count; slab++)
        if (slab->live < cache->objects && (best == NULL || (best->live == 0 && slab->live > 0)))
            best = slab;
    if (best != NULL)
        return best;
    if (!get_block(tenant, cache->order, SLAB, &first))
        return NULL;
    cache->slabs = realloc(cache->slabs, (cache->count + 1) * sizeof *cache->slabs);
    best = &cache->slabs[cache->count++];
    memset(best, 0, sizeof *best);
    best->first = first;
    for (unsigned at = 0; at < cache->objects; at++)
        for (uint32_t byte = 0; byte < cache->size; byte++)
            *bytes_at(&all[tenant], first * FRAME_BYTES + at * cache->chunk + byte) = cache->pattern[byte % cache->length];
    return best;
}

static enum reply take(unsigned tenant, uint32_t number, uint32_t *place) {
    struct cache *cache = cache_of(tenant, number);
    unsigned at = 0;
    if (cache == NULL)
        return NO_CACHE;
    struct slab *slab = slab_with_room(tenant, cache);
    if (slab == NULL)
        return NO_FRAMES;
    while (slab->taken[at])
        at++;
    slab->taken[at] = true;
    slab->live++;
    *place = slab->first * FRAME_BYTES + at * cache->chunk;
    return DONE;
}

static enum reply give(unsigned tenant, uint32_t number, uint32_t place) {
    struct cache *cache = cache_of(tenant, number);
    if (cache == NULL)
        return NO_CACHE;
    struct slab *slab = slab_at(cache, place);
    if (slab == NULL)
        return NOT_AN_OBJECT;
    uint32_t offset = place - slab->first * FRAME_BYTES, at = offset / cache->chunk;
    if (offset % cache->chunk != 0 || at >= cache->objects || !slab->taken[at])
        return NOT_AN_OBJECT;
    slab->taken[at] = false;
    slab->live--;
    return DONE;
}

static void count_blocks(struct tenant *of, uint32_t slot, unsigned node, unsigned order, struct figures *figures) {
    uint32_t frame = slot * frames + ((node - (1u << (top - order))) << order);
    if (of->trees[slot][node] == order + 1)
        figures->orders[order].free++;
    else if (of->kinds[frame] != NOTHING && of->orders[frame] == order)
        figures->orders[order].taken++;
    else if (order > 0) {
        count_blocks(of, slot, 2 * node, order - 1, figures);
        count_blocks(of, slot, 2 * node + 1, order - 1, figures);
    }
}

static void report(unsigned tenant, struct figures *figures) {
    struct tenant *of = &all[tenant];
    memset(figures, 0, sizeof *figures);
    for (uint32_t slot = 0; slot < count; slot++)
        if (holds(of, slot))
            count_blocks(of, slot, 1, top, figures);
    for (unsigned number = 0; number < MAX_CACHES; number++) {
        struct cache *cache = cache_of(tenant, number);
        if (cache == NULL)
            continue;
        struct cache_row *row = &figures->rows[figures->caches++];
        row->number = number;
        for (struct slab *slab = cache->slabs; slab < cache->slabs + cache->count; slab++) {
            row->full += slab->live == cache->objects;
            row->partial += slab->live > 0 && slab->live < cache->objects;
            row->empty += slab->live == 0;
            row->live += slab->live;
        }
    }
}

static const struct caches mine = {make, destroy, take, give, drop_all_empty, report};
const struct caches *caches(void) { return &mine; }
