/* Connects Linux's lib/genalloc.c to pool.h. ALGORITHM is one of its functions that choose the place. */
#include "linux.h"
#include "genalloc.h"
#include "genalloc.c"

#include "pool.h"

struct pool {
    struct gen_pool *pool;
};

struct pool *pool_init(void *memory, unsigned order) {
    struct pool *pool = malloc(sizeof *pool);
    pool->pool = gen_pool_create(PAGE_SHIFT, -1);
    gen_pool_set_algo(pool->pool, ALGORITHM, NULL);
    BUG_ON(gen_pool_add(pool->pool, (unsigned long)memory, PAGE_SIZE << order, -1) != 0);
    return pool;
}

void *pool_alloc(struct pool *pool, unsigned order) { return (void *)gen_pool_alloc(pool->pool, PAGE_SIZE << order); }

void pool_free(struct pool *pool, void *block, unsigned order) {
    gen_pool_free(pool->pool, (unsigned long)block, PAGE_SIZE << order);
}

/* gen_pool_destroy requires that all blocks are free, which they are not after a reset. */
void pool_end(struct pool *pool) { free(pool); }
