/* Connects your own allocator, which works over all slots of a tenant, to the test: write the functions below and link them with
 * tenant.c and adapter.c.
 *
 *     cc -O2 -Iconformance -o mine conformance/adapter.c conformance/tenant.c mine.c && conformance/check ./mine
 *
 * tenant.c gives each tenant one range of memory. Slot u has the 2^order frames at memory + u * (FRAME_BYTES << order), so
 * addresses are in the order of the slots, and a move changes no address. tenant.c handles grants, take-backs, resets, moves,
 * reads, writes and reports itself. It zeroes a slot that is taken back, and reaps when a request needs it. In tenant.c a
 * superblock is only a number. So the test is about which blocks and objects your allocator returns.
 *
 * Each choice may depend only on the earlier calls for this tenant. */
#ifndef PARTMEM_TENANT_H
#define PARTMEM_TENANT_H

#include "adapter.h"

#ifdef __cplusplus
extern "C" {
#endif

struct tenant;

/* Makes the allocator of a tenant that has no slots yet. The memory has space for this number of slots, and is aligned to the
 * size of a slot. Keep records elsewhere, since every frame of a slot can be allocated. Returns NULL if memory runs out. */
struct tenant *tenant_init(void *memory, unsigned order, unsigned slots);

/* Adds a slot. All its frames are free, and its bytes are zero. */
void tenant_add(struct tenant *tenant, unsigned slot);

/* Removes a slot whose frames are all free. */
void tenant_remove(struct tenant *tenant, unsigned slot);

/* Returns a block of 2^order frames in one slot, aligned to its size, or NULL if there is none. `order` is at most the order of a
 * slot. A block that was freed may be returned with its old bytes or zeroed. */
void *tenant_alloc(struct tenant *tenant, unsigned order);

/* Frees a block that tenant_alloc returned for a request of this order. */
void tenant_free(struct tenant *tenant, void *block, unsigned order);

/* Frees the tenant's records. Blocks may still be allocated. The tenant is not used again. */
void tenant_end(struct tenant *tenant);

/* Your cache, and what tenant.c knows of it. */
struct cache;
struct slabs;

/* Returns a block of the order of the cache's slabs, by tenant_alloc, or NULL if there is none. Only `take` may call it. */
void *slab_alloc(struct slabs *slabs);

/* Zeroes a slab and frees it, by tenant_free. Only `shrink` and `end` may call it. */
void slab_free(struct slabs *slabs, void *slab);

/* Writes the cache's pattern into an object. Call it for each object of a new slab. If your free objects have links in their
 * bytes, call it for each object that is taken instead. */
void slab_construct(struct slabs *slabs, void *object);

/* The functions of an allocator of objects. */
struct objects {
    /* stores the layout of a new cache, all but its number; the size is 1 to 4096, and the alignment 8, 16, 32, 64, 128 or 256;
     * choose an order of slabs up to 3, the least order of a slot */
    void (*lay_out)(uint32_t size, uint32_t align, struct layout *layout);
    /* makes a cache without slabs */
    struct cache *(*init)(struct slabs *slabs, uint32_t size, uint32_t align, const struct layout *layout);
    /* returns an object, or NULL if it needs a slab and slab_alloc returns NULL; then it changes nothing */
    void *(*take)(struct cache *cache);
    /* gives back an object that is taken */
    void (*give)(struct cache *cache, void *object);
    /* frees all slabs without taken objects */
    void (*shrink)(struct cache *cache);
    /* frees all slabs, and the cache's records; after a reset, objects may be taken */
    void (*end)(struct cache *cache);
};

/* Returns what your function `caches` has to return if your allocator has these functions for objects. If it has none, your
 * `caches` returns NULL, as in adapter.h. */
const struct caches *caches_of(const struct objects *objects);

#ifdef __cplusplus
}
#endif

#endif
