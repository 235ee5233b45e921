/* Connects your own allocator to the test: write the ten functions below and link them with adapter.c, which reads the lines of
 * docs/traces.md and writes the replies.
 *
 *     cc -O2 -Iconformance -o mine conformance/adapter.c mine.c && conformance/check --pages ./mine
 *
 * To test tenants at the same time, link them with threads.c instead. Then the functions that are called for a tenant, except
 * grant, take_back, reset and move, have to allow calls for different tenants at once. One lock inside is fine.
 *
 * A superblock has 2^order frames of FRAME_BYTES bytes. Slot u of a tenant has 2^order frames, of which the first is frame
 * u * 2^order. Each byte of a tenant has a number, its place: frame f has FRAME_BYTES places, of which the first is
 * f * FRAME_BYTES. A grant may choose any slot below 65536 that the tenant does not hold, if all its places are below
 * 2^32.
 *
 * The tenant that is passed always exists. The length of a write is 1 to MAX_BYTES, and the length of a pattern is 1 to
 * MAX_PATTERN. All other numbers may be any 32-bit numbers. The refusals of a function are listed in the order in which it has
 * to test them. A function that refuses changes nothing and returns the first refusal that applies. Otherwise it stores its
 * results and returns DONE.
 *
 * Rules that are easily missed:
 *
 * - A page block reads as zero where its tenant has left nothing. So a free frame can have no links or headers, unless they are
 *   zeroed when it is allocated.
 * - A frame that a slab leaves reads as zero, whatever the objects had.
 * - NO_FRAMES comes only if no block would be free even without the tenant's empty slabs. So `alloc` and `take` free empty slabs
 *   of the tenant when they must.
 * - A refused request does not free them: reports before and after it are the same.
 * - An object reads as the pattern when its slab is made. An object that was given back and is taken again reads as it was left,
 *   or as the pattern. */
#ifndef PARTMEM_ADAPTER_H
#define PARTMEM_ADAPTER_H

#include <stdbool.h>
#include <stdint.h>

#ifdef __cplusplus
extern "C" {
#endif

enum { FRAME_BYTES = 4096, MAX_BYTES = 64, MAX_PATTERN = 16, MAX_CACHES = 32, MAX_ORDER = 8 };

enum reply {
    DONE,
    NO_FRAMES,
    BAD_ORDER,
    NOT_A_BLOCK,
    OUT_OF_REACH,
    BAD_LENGTH,
    BAD_SIZE,
    BAD_ALIGN,
    NO_CACHE_SLOT,
    NO_CACHE,
    CACHE_IN_USE,
    NOT_AN_OBJECT,
    NO_TENANT,
    POOL_EMPTY,
    NO_SLOT,
    SLOT_BUSY
};

/* Boots a machine on which nobody owns a superblock and the tenants have nothing. Returns false if memory runs out. */
bool boot(unsigned order, unsigned superblocks, unsigned tenants);

/* Grants the tenant a superblock that nobody owns, in a slot that the tenant does not hold. Stores the numbers of both. All bytes
 * of the superblock read as zero. Refusal: POOL_EMPTY. */
enum reply grant(unsigned tenant, uint32_t *slot, unsigned *superblock);

/* Takes back a slot that has no taken frames, and stores the number of its superblock. Refusals: NO_SLOT, SLOT_BUSY. */
enum reply take_back(unsigned tenant, uint32_t slot, unsigned *superblock);

/* Takes back all that the tenant has, and stores how many superblocks it had. A reset is never refused. */
enum reply reset(unsigned tenant, unsigned *superblocks);

/* Moves the slot, with all its bytes, to a superblock that nobody owns, and stores that superblock's number. Refusals: NO_SLOT,
 * POOL_EMPTY. */
enum reply move(unsigned tenant, uint32_t slot, unsigned *superblock);

/* Allocates a block of 2^order frames and stores its first frame, a multiple of 2^order. Refusals: BAD_ORDER if a slot has fewer
 * frames, then NO_FRAMES. */
enum reply alloc(unsigned tenant, uint32_t order, uint32_t *frame);

/* Frees the block that begins at the frame, and stores its order. Refusal: NOT_A_BLOCK. */
enum reply release(unsigned tenant, uint32_t frame, unsigned *order);

/* Reads `length` bytes that all lie in one block or object of the tenant. `bytes` has space for MAX_BYTES. Refusals: BAD_LENGTH
 * unless the length is 1 to MAX_BYTES, then OUT_OF_REACH. */
enum reply read_bytes(unsigned tenant, uint32_t place, uint32_t length, uint8_t *bytes);

/* Writes bytes that all lie in one block or object of the tenant. `length` is always 1 to MAX_BYTES. Refusal: OUT_OF_REACH. */
enum reply write_bytes(unsigned tenant, uint32_t place, uint32_t length, const uint8_t *bytes);

/* The numbers in the reply to a new cache: the cache's number, the bytes from one object to the next, the order of a slab, the
 * objects in a slab, and the number of colours. */
struct layout {
    unsigned number, chunk, order, objects, colours;
};

/* The row of an order in a report: how many blocks of this order are free, and how many are taken. */
struct order_row {
    unsigned free, taken;
};

/* The row of a cache in a report: its number, how many of its slabs are full, partial and empty, and how many of its objects are
 * live. */
struct cache_row {
    unsigned number, full, partial, empty, live;
};

struct figures {
    struct order_row orders[MAX_ORDER + 1];
    unsigned caches;
    struct cache_row rows[MAX_CACHES];
};

/* The functions of an allocator that has caches of objects. */
struct caches {
    /* makes a cache and stores its layout; refusals: BAD_SIZE, BAD_ALIGN, NO_CACHE_SLOT */
    enum reply (*make)(unsigned tenant, uint32_t size, uint32_t align, unsigned length, const uint8_t *pattern,
                       struct layout *layout);
    /* destroys a cache and stores how many frames that freed; refusals: NO_CACHE, CACHE_IN_USE */
    enum reply (*destroy)(unsigned tenant, uint32_t cache, unsigned *frames);
    /* takes an object and stores its first place; refusals: NO_CACHE, NO_FRAMES */
    enum reply (*take)(unsigned tenant, uint32_t cache, uint32_t *place);
    /* gives back the object that begins at the place; refusals: NO_CACHE, NOT_AN_OBJECT */
    enum reply (*give)(unsigned tenant, uint32_t cache, uint32_t place);
    /* frees empty slabs and stores how many frames they had */
    void (*reap)(unsigned tenant, unsigned *frames);
    /* stores the rows of a report, with the caches in the order of their numbers */
    void (*report)(unsigned tenant, struct figures *figures);
};

/* Returns the functions of your caches, or NULL if your allocator has no caches. If it returns NULL, the commands cache, destroy,
 * take, give, reap and report end the program, so test it with --pages. */
const struct caches *caches(void);

#ifdef __cplusplus
}
#endif

#endif
