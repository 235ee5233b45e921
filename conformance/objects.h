/* Connects your own allocator of objects, which allocates no page blocks itself, to the test: write the six functions below and
 * link them with objects.c, tenant.c and adapter.c. They are those of `struct objects` of tenant.h, which says what they do and
 * which functions they call.
 *
 *     cc -O2 -Iconformance -o mine conformance/adapter.c conformance/tenant.c conformance/objects.c mine.c
 *     conformance/check ./mine
 *
 * In Rust, write them as bit_slabs.rs does, and link the static library that rustc makes instead of mine.c:
 *
 *     rustc -O --edition 2021 --crate-type staticlib -o mine.a mine.rs
 *
 * objects.c allocates the slabs and the page blocks of tests, by first fit. So the test is about which objects your allocator
 * returns, and about which slabs it frees. */
#ifndef PARTMEM_OBJECTS_H
#define PARTMEM_OBJECTS_H

#include "tenant.h"

#ifdef __cplusplus
extern "C" {
#endif

void objects_lay_out(uint32_t size, uint32_t align, struct layout *layout);
struct cache *objects_init(struct slabs *slabs, uint32_t size, uint32_t align, const struct layout *layout);
void *objects_take(struct cache *cache);
void objects_give(struct cache *cache, void *object);
void objects_shrink(struct cache *cache);
void objects_end(struct cache *cache);

/* Chooses the order of slabs and the number of objects for a layout whose chunk is set, if a slab has `head` bytes for records:
 * the least order with at least 7 objects, but at most 3. */
static inline void lay_out_chunks(struct layout *layout, unsigned head) {
    layout->order = 0;
    while (layout->order < 3 && ((FRAME_BYTES << layout->order) - head) / layout->chunk < 7)
        layout->order++;
    layout->objects = ((FRAME_BYTES << layout->order) - head) / layout->chunk;
    layout->colours = 1;
}

#ifdef __cplusplus
}
#endif

#endif
