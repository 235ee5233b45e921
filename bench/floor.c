/* The floor of the direct calls: the direct calls of partmem.h that bench/library.c makes, written by hand in plain C. Nothing
 * here is proved.
 *
 * It follows docs/frames-and-blocks.md and docs/slabs.md as the library does: it chooses the same blocks and objects, tests the
 * same numbers in the same order, and keeps the same records in the frames. So each call returns the same status, numbers and
 * bytes, and bench/run --library checks this. These rules decide what a call has to do:
 *
 *     tests    the machine, the tenant, the order or the cache, and whether a live block or object begins at the place
 *     alloc    the first of the smallest free blocks that are large enough; the part that is not needed stays free
 *     free     the block is joined with its buddies while they are free
 *     take     the first free object of the first partial slab, else of the first empty slab, else of a new one
 *     records  a bit for each object of a slab: in the last 32 bytes of its frame, or in a table if the objects are large
 *     zeroes   in the frames of a slab that is freed, and in a superblock before its first use after a grant
 *     moves    a slot may get another superblock, so each address is looked up by its slot
 *
 * Free blocks, partial slabs and empty slabs are marked by bits, and the first one is found by reading three words. There are no
 * lists. Each tenant has its own tables, which are as large as the largest machine needs; a load touches only the parts that it
 * uses. The other functions of partmem.h are missing.
 */
#include <stdbool.h>
#include <stdlib.h>
#include <string.h>

#include "partmem.h"

#define INLINE static inline __attribute__((always_inline))
/* A function that is never inlined. A caller that calls it last need not save registers for it. */
#define APART static __attribute__((noinline))
#define RARE static __attribute__((noinline, cold))

enum {
    /* The largest sizes of a machine, which are those of the program `partmem`. A summary has one word for 64 words of groups. */
    MAX_ORDER = 8,
    MAX_SUPERBLOCKS = 256,
    MAX_TENANTS = 64,
    GROUP = 64, /* frames of a group: each has a bit in the group's words */
    MAX_FRAMES = MAX_SUPERBLOCKS << MAX_ORDER,
    MAX_GROUPS = MAX_FRAMES / GROUP,
    FRAME_BYTES = PARTMEM_FRAME_BYTES,
    SMALL_BYTES = 512, /* slabs with smaller chunks have their record in the frame */
    RECORD_BYTES = 32,
    MAX_SLAB_ORDER = 3
};

/* ---- What is kept -------------------------------------------------------------------------------------------------------- */

/* The bits of 64 frames of a tenant. A free block, a partial slab or an empty slab has its bit at its first frame. */
struct group {
    uint64_t free[MAX_ORDER + 1]; /* by order */
    uint64_t partial[PARTMEM_MAX_CACHES]; /* by cache */
    uint64_t empty[PARTMEM_MAX_CACHES];
};

/* The groups in which a bit of one kind is 1. `groups` has a bit for each group, and `words` has a bit for each word of `groups`,
 * which is 1 if the word is not 0. */
struct summary {
    uint64_t words;
    uint64_t groups[MAX_GROUPS / 64];
};

/* What is kept for the first frame of a page block or a slab. For any other frame `taken` and `cache` are 0. */
struct frame {
    uint64_t record; /* of a slab of large objects: a bit for each object, 1 if it is live */
    uint16_t live;   /* the number of live objects of a slab */
    uint16_t colour; /* bytes of a slab before its first object */
    uint8_t taken;   /* the order of the block plus 1 */
    uint8_t cache;   /* the number of the slab's cache plus 1; 0 for a page block */
};

struct cache {
    uint32_t size;    /* bytes of an object */
    uint32_t chunk;   /* bytes from an object to the next */
    uint32_t extent;  /* bytes of all chunks of a slab */
    uint32_t inverse; /* 2^32 / chunk, rounded up: a product with it replaces a division by chunk */
    uint32_t objects; /* of a slab */
    uint32_t live;    /* live objects of all slabs: a cache with a live object must not be destroyed */
    uint8_t order;    /* of a slab */
    bool is_small;
    struct summary partial, empty;
    uint32_t align, colours, colour; /* `colour` is the next slab's */
    uint8_t pattern[PARTMEM_MAX_PATTERN];
    size_t pattern_bytes;
};

struct tenant {
    uint32_t orders; /* bit k is 1 if a block of order k is free */
    struct summary free[MAX_ORDER + 1];
    uintptr_t base[MAX_SUPERBLOCKS]; /* by slot: the address of a place minus the place; 0 if the slot is not held */
    bool is_cleared[MAX_SUPERBLOCKS];
    struct cache *cache[PARTMEM_MAX_CACHES]; /* NULL if there is no such cache */
    struct cache caches[PARTMEM_MAX_CACHES];
    struct group group[MAX_GROUPS];
    struct frame frame[MAX_FRAMES];
};

struct machine {
    uint8_t *ram;
    uint32_t order, superblocks, tenants;
    bool is_owned[MAX_SUPERBLOCKS];
    struct tenant *tenant[MAX_TENANTS];
};

/* ---- Bits ---------------------------------------------------------------------------------------------------------------- */

INLINE uint32_t lowest(uint64_t bits) { return (uint32_t)__builtin_ctzll(bits); }

/* Sets the bit of a frame in a word of its group, and notes in the summary that the group has a bit. */
INLINE void add(struct summary *summary, uint64_t *word, uint32_t frame)
{
    const uint32_t group = frame / GROUP;
    if (*word == 0) {
        summary->groups[group / 64] |= 1ull << group % 64;
        summary->words |= 1ull << group / 64;
    }
    *word |= 1ull << frame % GROUP;
}

/* Clears the bit of a frame in a word of its group. Returns true if no group has a bit any more. */
INLINE bool drop(struct summary *summary, uint64_t *word, uint32_t frame)
{
    const uint32_t group = frame / GROUP;
    if ((*word &= ~(1ull << frame % GROUP)) != 0) return false;
    if ((summary->groups[group / 64] &= ~(1ull << group % 64)) != 0) return false;
    return (summary->words &= ~(1ull << group / 64)) == 0;
}

/* Clears the first bit of the first group that has one. `word` is this group's word. Returns true if no group has a bit any
 * more. */
INLINE bool drop_first(struct summary *summary, uint64_t *word)
{
    uint64_t *groups = &summary->groups[lowest(summary->words)];
    if ((*word &= *word - 1) != 0) return false;
    if ((*groups &= *groups - 1) != 0) return false;
    return (summary->words &= summary->words - 1) == 0;
}

INLINE uint32_t first_group(const struct summary *summary)
{
    const uint32_t word = lowest(summary->words);
    return 64 * word + lowest(summary->groups[word]);
}

/* ---- Free blocks --------------------------------------------------------------------------------------------------------- */

INLINE void add_free(struct tenant *tenant, uint32_t order, uint32_t frame)
{
    add(&tenant->free[order], &tenant->group[frame / GROUP].free[order], frame);
    tenant->orders |= 1u << order;
}

INLINE void drop_free(struct tenant *tenant, uint32_t order, uint32_t frame)
{
    if (drop(&tenant->free[order], &tenant->group[frame / GROUP].free[order], frame)) tenant->orders &= ~(1u << order);
}

INLINE bool has_block(const struct tenant *tenant, uint32_t order) { return tenant->orders >> order != 0; }

INLINE bool is_free(const struct tenant *tenant, uint32_t order, uint32_t frame)
{
    return (tenant->group[frame / GROUP].free[order] >> frame % GROUP & 1) != 0;
}

/* Takes the first of the smallest free blocks that have at least this order; there has to be one. Sets `*its` to the order of the
 * whole block, and returns its first frame. */
INLINE uint32_t take_free(struct tenant *tenant, uint32_t order, uint32_t *its)
{
    *its = order + lowest(tenant->orders >> order);
    const uint32_t group = first_group(&tenant->free[*its]);
    uint64_t *word = &tenant->group[group].free[*its];
    const uint32_t frame = group * GROUP + lowest(*word);
    if (drop_first(&tenant->free[*its], word)) tenant->orders &= ~(1u << *its);
    tenant->frame[frame].taken = (uint8_t)(order + 1);
    return frame;
}

/* Splits a block of the order `its` until it has the order `order`, which was requested. The split-off halves become free. */
INLINE void split(struct tenant *tenant, uint32_t frame, uint32_t its, uint32_t order)
{
    while (its > order) {
        its--;
        add_free(tenant, its, frame + (1u << its));
    }
}

/* Frees a block that has a free buddy. */
APART partmem_status release_joined(const struct machine *machine, struct tenant *tenant, uint32_t frame, uint32_t order)
{
    do {
        drop_free(tenant, order, frame ^ 1u << order);
        frame &= ~(1u << order++);
    } while (order < machine->order && is_free(tenant, order, frame ^ 1u << order));
    add_free(tenant, order, frame);
    return PARTMEM_DONE;
}

/* Frees a block, and joins it with its buddies while they are free. */
INLINE partmem_status release(const struct machine *machine, struct tenant *tenant, uint32_t frame)
{
    const uint32_t order = tenant->frame[frame].taken - 1u;
    tenant->frame[frame].taken = 0;
    if (order < machine->order && is_free(tenant, order, frame ^ 1u << order)) {
        return release_joined(machine, tenant, frame, order);
    }
    add_free(tenant, order, frame);
    return PARTMEM_DONE;
}

/* ---- Slabs --------------------------------------------------------------------------------------------------------------- */

INLINE uint8_t *address(const struct machine *machine, const struct tenant *tenant, uint32_t frame)
{
    return (uint8_t *)(tenant->base[frame >> machine->order] + (uintptr_t)frame * FRAME_BYTES);
}

/* Returns the record of a slab whose first frame is at the address `at`. */
INLINE uint64_t *record_of(const struct cache *cache, struct frame *slab, uint8_t *at)
{
    return cache->is_small ? (uint64_t *)(void *)(at + FRAME_BYTES - RECORD_BYTES) : &slab->record;
}

/* Returns the number of the object whose chunk contains the byte at `offset`. Offset 0 is the first byte of object 0. */
INLINE uint32_t object_at(const struct cache *cache, uint32_t offset)
{
    return (uint32_t)((uint64_t)offset * cache->inverse >> 32);
}

/* Fills the superblock of a slot with zeroes. */
RARE partmem_status clear_slot(const struct machine *machine, struct tenant *tenant, uint32_t slot)
{
    memset(address(machine, tenant, slot << machine->order), 0, (size_t)FRAME_BYTES << machine->order);
    tenant->is_cleared[slot] = true;
    return PARTMEM_DONE;
}

/* Fills the empty slabs of all caches with zeroes and frees them. Returns how many frames they had. */
APART uint32_t reap(const struct machine *machine, struct tenant *tenant)
{
    uint32_t frames = 0;
    for (uint32_t number = 0; number < PARTMEM_MAX_CACHES; number++) {
        struct cache *cache = &tenant->caches[number];
        while (cache->empty.words != 0) {
            const uint32_t group = first_group(&cache->empty);
            uint64_t *word = &tenant->group[group].empty[number];
            const uint32_t frame = group * GROUP + lowest(*word);
            memset(address(machine, tenant, frame), 0, (size_t)FRAME_BYTES << cache->order);
            drop(&cache->empty, word, frame);
            tenant->frame[frame].cache = 0;
            release(machine, tenant, frame);
            frames += 1u << cache->order;
        }
    }
    return frames;
}

/* Returns whether each frame of a block is free or in an empty slab. */
static bool can_be_free(const struct tenant *tenant, uint32_t frame, uint32_t order)
{
    const uint32_t end = frame + (1u << order);
    while (frame < end) {
        const struct frame *its = &tenant->frame[frame];
        if (its->taken != 0 && (its->cache == 0 || its->live != 0)) return false;
        frame += its->taken != 0 ? 1u << (its->taken - 1) : 1;
    }
    return true;
}

/* Returns whether a block of this order would be free if all empty slabs were freed. Only blocks that share a frame with an
 * empty slab are tested. */
APART bool has_block_after_reap(const struct machine *machine, const struct tenant *tenant, uint32_t order)
{
    const uint32_t groups = ((machine->superblocks << machine->order) + GROUP - 1) / GROUP;
    for (uint32_t number = 0; number < PARTMEM_MAX_CACHES; number++) {
        for (uint32_t group = 0; tenant->caches[number].empty.words != 0 && group < groups; group++) {
            for (uint64_t bits = tenant->group[group].empty[number]; bits != 0; bits &= bits - 1) {
                const uint32_t frame = group * GROUP + lowest(bits);
                if (can_be_free(tenant, frame >> order << order, order)) return true;
            }
        }
    }
    return false;
}

/* Makes sure that a block of this order can be taken: if there is none, frees all empty slabs. Returns false and frees nothing if
 * there would be none even then. */
APART bool make_block(const struct machine *machine, struct tenant *tenant, uint32_t order)
{
    if (has_block(tenant, order)) return true;
    if (!has_block_after_reap(machine, tenant, order)) return false;
    reap(machine, tenant);
    return true;
}

/* Fills an object with the pattern of its cache, repeated. */
static void construct(const struct cache *cache, uint8_t *object)
{
    size_t done = cache->pattern_bytes < cache->size ? cache->pattern_bytes : cache->size;
    memcpy(object, cache->pattern, done);
    while (done < cache->size) {
        const size_t more = done < cache->size - done ? done : cache->size - done;
        memcpy(object + done, object, more);
        done += more;
    }
}

/* Makes an empty slab of a cache. Returns false if there is no block for it. */
APART bool make_slab(const struct machine *machine, struct tenant *tenant, uint32_t number)
{
    struct cache *cache = tenant->cache[number];
    if (!make_block(machine, tenant, cache->order)) return false;
    uint32_t order;
    const uint32_t frame = take_free(tenant, cache->order, &order), slot = frame >> machine->order;
    struct frame *slab = &tenant->frame[frame];
    uint8_t *at = address(machine, tenant, frame);
    split(tenant, frame, order, cache->order);
    if (!tenant->is_cleared[slot]) clear_slot(machine, tenant, slot);
    slab->record = 0;
    slab->live = 0;
    slab->colour = (uint16_t)(cache->align * cache->colour);
    slab->cache = (uint8_t)(number + 1);
    cache->colour = (cache->colour + 1) % cache->colours;
    if (cache->is_small) memset(record_of(cache, slab, at), 0, RECORD_BYTES);
    construct(cache, at + slab->colour);
    for (uint32_t i = 1; i < cache->objects; i++) {
        memcpy(at + slab->colour + i * cache->chunk, at + slab->colour, cache->size);
    }
    add(&cache->empty, &tenant->group[frame / GROUP].empty[number], frame);
    return true;
}

/* ---- Callers and refusals ------------------------------------------------------------------------------------------------ */

INLINE partmem_status enter(partmem_tenant who, struct machine **machine, struct tenant **tenant)
{
    *machine = who.machine->held[0];
    if (*machine == NULL) return PARTMEM_NO_MACHINE;
    if (who.number >= (*machine)->tenants) return PARTMEM_NO_TENANT;
    *tenant = (*machine)->tenant[who.number];
    return PARTMEM_DONE;
}

/* Refuses a call that lends: fills its result with zeroes, and returns the reason. */
RARE partmem_status refuse(partmem_lent *lent, partmem_status why)
{
    *lent = (partmem_lent){NULL, 0, 0, 0};
    return why;
}

/* ---- Page blocks --------------------------------------------------------------------------------------------------------- */

/* Continues an alloc if no free block is large enough. */
APART partmem_status alloc_after_reap(partmem_tenant who, uint32_t order, partmem_lent *block)
{
    struct machine *machine = who.machine->held[0];
    return make_block(machine, machine->tenant[who.number], order) ? partmem_alloc(who, order, block)
                                                                    : refuse(block, PARTMEM_NO_FRAMES);
}

/* Does the rest of an alloc if its block was larger than requested, or lies in a slot that is not cleared yet. */
APART partmem_status alloc_more(const struct machine *machine, struct tenant *tenant, uint32_t frame, uint32_t its,
                                uint32_t order)
{
    const uint32_t slot = frame >> machine->order;
    split(tenant, frame, its, order);
    return tenant->is_cleared[slot] ? PARTMEM_DONE : clear_slot(machine, tenant, slot);
}

partmem_status partmem_alloc(partmem_tenant who, uint32_t order, partmem_lent *block)
{
    struct machine *machine;
    struct tenant *tenant;
    const partmem_status wrong = enter(who, &machine, &tenant);
    if (wrong != PARTMEM_DONE) return refuse(block, wrong);
    if (order > machine->order) return refuse(block, PARTMEM_BAD_ORDER);
    if (!has_block(tenant, order)) return alloc_after_reap(who, order, block);
    uint32_t its;
    const uint32_t frame = take_free(tenant, order, &its);
    *block = (partmem_lent){address(machine, tenant, frame), frame * FRAME_BYTES, (uint32_t)FRAME_BYTES << order, who.number};
    const bool is_cleared = tenant->is_cleared[frame >> machine->order];
    return its == order && is_cleared ? PARTMEM_DONE : alloc_more(machine, tenant, frame, its, order);
}

partmem_status partmem_free(partmem_tenant who, uint32_t place)
{
    struct machine *machine;
    struct tenant *tenant;
    const partmem_status wrong = enter(who, &machine, &tenant);
    if (wrong != PARTMEM_DONE) return wrong;
    const uint32_t frame = place / FRAME_BYTES;
    if (place % FRAME_BYTES != 0 || frame >= MAX_FRAMES) return PARTMEM_NOT_A_BLOCK;
    if (tenant->frame[frame].taken == 0 || tenant->frame[frame].cache != 0) return PARTMEM_NOT_A_BLOCK;
    return release(machine, tenant, frame);
}

/* ---- Objects ------------------------------------------------------------------------------------------------------------- */

/* Updates the sets of empty and partial slabs after a take from a slab that was empty before, or that has become full. */
APART partmem_status relist_taken(struct tenant *tenant, uint32_t number, uint32_t frame)
{
    struct cache *cache = tenant->cache[number];
    struct group *group = &tenant->group[frame / GROUP];
    const uint32_t live = tenant->frame[frame].live;
    if (live == 1) drop(&cache->empty, &group->empty[number], frame);
    if (live == 1 && live != cache->objects) add(&cache->partial, &group->partial[number], frame);
    if (live != 1) drop(&cache->partial, &group->partial[number], frame);
    return PARTMEM_DONE;
}

/* Updates the sets of empty and partial slabs after a give to a slab that was full before, or that has become empty. */
APART partmem_status relist_given(struct tenant *tenant, uint32_t number, uint32_t frame)
{
    struct cache *cache = tenant->cache[number];
    struct group *group = &tenant->group[frame / GROUP];
    const uint32_t live = tenant->frame[frame].live;
    if (live == 0) add(&cache->empty, &group->empty[number], frame);
    if (live == 0 && cache->objects != 1) drop(&cache->partial, &group->partial[number], frame);
    if (live != 0) add(&cache->partial, &group->partial[number], frame);
    return PARTMEM_DONE;
}

/* Does a take that found neither a partial nor an empty slab. */
APART partmem_status take_of_new_slab(partmem_tenant who, uint32_t number, partmem_lent *object)
{
    struct machine *machine = who.machine->held[0];
    return make_slab(machine, machine->tenant[who.number], number) ? partmem_take(who, number, object)
                                                                    : refuse(object, PARTMEM_NO_FRAMES);
}

partmem_status partmem_take(partmem_tenant who, uint32_t number, partmem_lent *object)
{
    struct machine *machine;
    struct tenant *tenant;
    const partmem_status wrong = enter(who, &machine, &tenant);
    if (wrong != PARTMEM_DONE) return refuse(object, wrong);
    struct cache *cache = number < PARTMEM_MAX_CACHES ? tenant->cache[number] : NULL;
    if (cache == NULL) return refuse(object, PARTMEM_NO_CACHE);

    /* the slab */
    struct group *group;
    uint32_t frame;
    if (cache->partial.words != 0) {
        frame = first_group(&cache->partial) * GROUP;
        group = &tenant->group[frame / GROUP];
        frame += lowest(group->partial[number]);
    } else if (cache->empty.words != 0) {
        frame = first_group(&cache->empty) * GROUP;
        group = &tenant->group[frame / GROUP];
        frame += lowest(group->empty[number]);
    } else {
        return take_of_new_slab(who, number, object);
    }
    struct frame *slab = &tenant->frame[frame];

    /* the object */
    uint8_t *at = address(machine, tenant, frame);
    uint64_t *record = record_of(cache, slab, at);
    uint32_t index = 0;
    for (; *record == UINT64_MAX; record++) index += 64;
    index += lowest(~*record);
    *record |= *record + 1; /* sets the lowest 0 */

    const uint32_t offset = slab->colour + index * cache->chunk;
    *object = (partmem_lent){at + offset, frame * FRAME_BYTES + offset, cache->size, who.number};
    cache->live++;
    const uint32_t live = ++slab->live;
    return live != 1 && live != cache->objects ? PARTMEM_DONE : relist_taken(tenant, number, frame);
}

partmem_status partmem_give(partmem_tenant who, uint32_t number, uint32_t place)
{
    struct machine *machine;
    struct tenant *tenant;
    const partmem_status wrong = enter(who, &machine, &tenant);
    if (wrong != PARTMEM_DONE) return wrong;
    struct cache *cache = number < PARTMEM_MAX_CACHES ? tenant->cache[number] : NULL;
    if (cache == NULL) return PARTMEM_NO_CACHE;

    /* the slab */
    const uint32_t frame = place / FRAME_BYTES >> cache->order << cache->order;
    if (frame >= MAX_FRAMES) return PARTMEM_NOT_AN_OBJECT;
    struct frame *slab = &tenant->frame[frame];
    if (slab->cache != number + 1) return PARTMEM_NOT_AN_OBJECT;

    /* the object */
    const uint32_t offset = place - frame * FRAME_BYTES - slab->colour, index = object_at(cache, offset);
    if (offset >= cache->extent || index * cache->chunk != offset) return PARTMEM_NOT_AN_OBJECT;
    uint64_t *record = record_of(cache, slab, address(machine, tenant, frame)) + index / 64;
    if ((*record >> index % 64 & 1) == 0) return PARTMEM_NOT_AN_OBJECT;
    *record ^= 1ull << index % 64;

    cache->live--;
    const uint32_t live = --slab->live;
    return live != 0 && live + 1 != cache->objects ? PARTMEM_DONE : relist_given(tenant, number, frame);
}

partmem_status partmem_reap(partmem_tenant who, uint32_t *frames)
{
    struct machine *machine;
    struct tenant *tenant;
    const partmem_status wrong = enter(who, &machine, &tenant);
    *frames = wrong == PARTMEM_DONE ? reap(machine, tenant) : 0;
    return wrong;
}

/* ---- Bytes --------------------------------------------------------------------------------------------------------------- */

/* Lends bytes inside one live page block or one live object. */
INLINE partmem_status lend(const struct machine *machine, partmem_tenant who, struct tenant *tenant, uint32_t place, size_t bytes,
                           partmem_lent *lent)
{
    /* the block */
    uint32_t frame = place / FRAME_BYTES, order = 0;
    if (frame >= MAX_FRAMES || bytes == 0) return refuse(lent, PARTMEM_OUT_OF_REACH);
    while (tenant->frame[frame].taken <= order) {
        if (order == machine->order) return refuse(lent, PARTMEM_OUT_OF_REACH);
        frame &= ~(1u << order++);
    }
    struct frame *block = &tenant->frame[frame];
    uint32_t offset = place - frame * FRAME_BYTES, most = (uint32_t)FRAME_BYTES << (block->taken - 1);

    /* its object */
    if (block->cache != 0) {
        const struct cache *cache = tenant->cache[block->cache - 1];
        offset -= block->colour;
        if (offset >= cache->extent) return refuse(lent, PARTMEM_OUT_OF_REACH);
        const uint32_t index = object_at(cache, offset);
        const uint64_t *record = record_of(cache, block, address(machine, tenant, frame)) + index / 64;
        if ((*record >> index % 64 & 1) == 0) return refuse(lent, PARTMEM_OUT_OF_REACH);
        offset -= index * cache->chunk;
        most = cache->size;
    }

    if (offset > most || bytes > most - offset) return refuse(lent, PARTMEM_OUT_OF_REACH);
    *lent = (partmem_lent){address(machine, tenant, place / FRAME_BYTES) + place % FRAME_BYTES, place, (uint32_t)bytes, who.number};
    /* Here an earlier direct call has always cleared the slot. The test is here because the library needs it: an alloc by an
     * event lends nothing, and so clears nothing. */
    const uint32_t slot = place / FRAME_BYTES >> machine->order;
    return tenant->is_cleared[slot] ? PARTMEM_DONE : clear_slot(machine, tenant, slot);
}

partmem_status partmem_lend(partmem_tenant who, uint32_t place, uint32_t bytes, partmem_lent *lent)
{
    struct machine *machine;
    struct tenant *tenant;
    const partmem_status wrong = enter(who, &machine, &tenant);
    return wrong == PARTMEM_DONE ? lend(machine, who, tenant, place, bytes, lent) : refuse(lent, wrong);
}

partmem_status partmem_read(partmem_tenant who, uint32_t place, void *to, size_t bytes)
{
    struct machine *machine;
    struct tenant *tenant;
    partmem_lent lent;
    partmem_status wrong = enter(who, &machine, &tenant);
    if (wrong != PARTMEM_DONE) return wrong;
    if (bytes == 0 || bytes > PARTMEM_MAX_BYTES) return PARTMEM_BAD_LENGTH;
    wrong = lend(machine, who, tenant, place, bytes, &lent);
    if (wrong == PARTMEM_DONE) memcpy(to, lent.at, bytes);
    return wrong;
}

partmem_status partmem_write(partmem_tenant who, uint32_t place, const void *from, size_t bytes)
{
    struct machine *machine;
    struct tenant *tenant;
    partmem_lent lent;
    if (bytes == 0 || bytes > PARTMEM_MAX_BYTES) return PARTMEM_NOT_AN_EVENT;
    partmem_status wrong = enter(who, &machine, &tenant);
    if (wrong != PARTMEM_DONE) return wrong;
    wrong = lend(machine, who, tenant, place, bytes, &lent);
    if (wrong == PARTMEM_DONE) memcpy(lent.at, from, bytes);
    return wrong;
}

/* ---- Boot, grants and caches --------------------------------------------------------------------------------------------- */

partmem_status partmem_end(partmem_machine *machine)
{
    struct machine *its = machine->held[0];
    if (its == NULL) return PARTMEM_NO_MACHINE;
    for (uint32_t number = 0; number < its->tenants; number++) free(its->tenant[number]);
    free(its->ram);
    free(its);
    machine->held[0] = NULL;
    return PARTMEM_DONE;
}

partmem_status partmem_boot(partmem_machine *machine, const partmem_config *config)
{
    const uint32_t order = config->order, superblocks = config->superblocks, tenants = config->tenants;
    if (machine->held[0] != NULL) return PARTMEM_HAS_MACHINE;
    if (order < PARTMEM_MIN_ORDER || order > MAX_ORDER || superblocks == 0 || superblocks > MAX_SUPERBLOCKS ||
        tenants == 0 || tenants > MAX_TENANTS) {
        return PARTMEM_BAD_CONFIG;
    }
    struct machine *made = machine->held[0] = calloc(1, sizeof *made);
    if (made == NULL) return PARTMEM_NO_MEMORY;
    *made = (struct machine){.order = order, .superblocks = superblocks, .tenants = tenants};
    made->ram = aligned_alloc(FRAME_BYTES, PARTMEM_RAM_BYTES(order, superblocks));
    bool is_done = made->ram != NULL;
    for (uint32_t number = 0; number < tenants; number++) {
        made->tenant[number] = calloc(1, sizeof *made->tenant[number]);
        is_done = is_done && made->tenant[number] != NULL;
    }
    if (!is_done) partmem_end(machine);
    return is_done ? PARTMEM_DONE : PARTMEM_NO_MEMORY;
}

partmem_status partmem_grant(partmem_tenant who, partmem_slot *granted)
{
    struct machine *machine;
    struct tenant *tenant;
    const partmem_status wrong = enter(who, &machine, &tenant);
    *granted = (partmem_slot){0, 0};
    if (wrong != PARTMEM_DONE) return wrong;
    uint32_t superblock = 0, slot = 0;
    while (superblock < machine->superblocks && machine->is_owned[superblock]) superblock++;
    if (superblock == machine->superblocks) return PARTMEM_POOL_EMPTY;
    while (tenant->base[slot] != 0) slot++;
    const uintptr_t bytes = PARTMEM_RAM_BYTES(machine->order, 1);
    tenant->base[slot] = (uintptr_t)machine->ram + superblock * bytes - slot * bytes;
    tenant->is_cleared[slot] = false;
    machine->is_owned[superblock] = true;
    add_free(tenant, machine->order, slot << machine->order);
    *granted = (partmem_slot){slot, superblock};
    return PARTMEM_DONE;
}

/* Computes the layout of a cache's slabs from the size and the alignment of its objects. */
static void set_form(struct cache *cache)
{
    const uint32_t chunk = (cache->size + cache->align - 1) / cache->align * cache->align;
    cache->chunk = chunk < 16 ? 16 : chunk;
    cache->is_small = cache->chunk < SMALL_BYTES;
    uint32_t bytes = FRAME_BYTES;
    if (!cache->is_small) {
        while (cache->order < MAX_SLAB_ORDER && bytes % cache->chunk > bytes / 8) {
            cache->order++;
            bytes *= 2;
        }
    } else {
        bytes -= RECORD_BYTES;
    }
    cache->objects = bytes / cache->chunk;
    cache->extent = cache->objects * cache->chunk;
    cache->inverse = (uint32_t)(((1ull << 32) + cache->chunk - 1) / cache->chunk);
    cache->colours = (bytes - cache->extent) / cache->align + 1;
}

partmem_status partmem_make_cache(partmem_tenant who, uint32_t size, uint32_t align, const void *pattern, size_t pattern_bytes,
                                  partmem_cache *made)
{
    struct machine *machine;
    struct tenant *tenant;
    uint32_t number = 0;
    *made = (partmem_cache){0, 0, 0, 0, 0};
    if (pattern_bytes == 0 || pattern_bytes > PARTMEM_MAX_PATTERN) return PARTMEM_NOT_AN_EVENT;
    const partmem_status wrong = enter(who, &machine, &tenant);
    if (wrong != PARTMEM_DONE) return wrong;
    if (size == 0 || size > 4096) return PARTMEM_BAD_SIZE;
    if (align < 8 || align > 256 || (align & (align - 1)) != 0) return PARTMEM_BAD_ALIGN;
    while (number < PARTMEM_MAX_CACHES && tenant->cache[number] != NULL) number++;
    if (number == PARTMEM_MAX_CACHES) return PARTMEM_NO_CACHE_SLOT;
    struct cache *cache = tenant->cache[number] = &tenant->caches[number];
    *cache = (struct cache){.size = size, .align = align, .pattern_bytes = pattern_bytes};
    memcpy(cache->pattern, pattern, pattern_bytes);
    set_form(cache);
    *made = (partmem_cache){number, cache->chunk, (uint32_t)FRAME_BYTES << cache->order, cache->objects, cache->colours};
    return PARTMEM_DONE;
}

/* ---- Missing functions --------------------------------------------------------------------------------------------------- */

/* The programs of the benchmark contain calls to these functions too, so the linker needs them. If a program that is linked with
 * the floor makes such a call, it aborts. */
__attribute__((used)) static void is_missing(void) { abort(); }

#define MISSING(name) __asm__(".globl " #name "\n.set " #name ", is_missing")

MISSING(partmem_event);
MISSING(partmem_line);
MISSING(partmem_destroy_cache);
MISSING(partmem_report);
MISSING(partmem_take_back);
MISSING(partmem_move);
MISSING(partmem_reset);
MISSING(partmem_lend_object);
MISSING(partmem_lend_block);
MISSING(partmem_find_object);
MISSING(partmem_release);
MISSING(partmem_strerror);
