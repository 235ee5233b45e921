/* Connects your own allocator of blocks, which has one pool and no tenants, to the test: write the four functions below and link
 * them with pool.c and adapter.c.
 *
 *     cc -O2 -Iconformance -o mine conformance/adapter.c conformance/pool.c mine.c && conformance/check --pages ./mine
 *
 * pool.c makes a pool, with its own zeroed memory, for each slot that a tenant holds. It handles grants, take-backs, resets and
 * moves itself, and checks the places of reads and writes. In pool.c a superblock is only a number. So the test is about which
 * blocks your pools return. */
#ifndef PARTMEM_POOL_H
#define PARTMEM_POOL_H

#ifdef __cplusplus
extern "C" {
#endif

struct pool;

/* Makes a pool over 2^order frames of 4096 bytes; order is 3 to 8. The memory is zeroed, and aligned to its size. Keep the pool's
 * records elsewhere, since every frame can be allocated. Returns NULL if memory runs out. */
struct pool *pool_init(void *memory, unsigned order);

/* Returns a block of 2^order frames, aligned to its size, or NULL if there is none. order is at most the order of the pool. The
 * choice may depend only on the earlier calls for this pool. A block that was freed may be returned with its old bytes or
 * zeroed. */
void *pool_alloc(struct pool *pool, unsigned order);

/* Frees a block that pool_alloc returned for a request of this order. */
void pool_free(struct pool *pool, void *block, unsigned order);

/* Frees the pool's records. The pool is not used again. */
void pool_end(struct pool *pool);

#ifdef __cplusplus
}
#endif

#endif
