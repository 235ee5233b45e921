/* A buddy allocator with one pool. A table outside the pool's memory marks, for each order, the frames at which free blocks
 * begin. */
#include "pool.h"

#include <stdbool.h>
#include <stdint.h>
#include <stdlib.h>

enum { FRAME = 4096, MOST = 8, NONE = -1 };

struct pool {
    uint8_t *memory;
    unsigned order;
    /* by order and frame: whether a free block of this order begins there */
    bool is_free[MOST + 1][1 << MOST];
};

struct pool *pool_init(void *memory, unsigned order) {
    struct pool *pool = calloc(1, sizeof *pool);
    if (pool != NULL) {
        pool->memory = memory;
        pool->order = order;
        pool->is_free[order][0] = true;
    }
    return pool;
}

static int least_free(const struct pool *pool, unsigned order) {
    for (int at = 0; at < 1 << pool->order; at += 1 << order)
        if (pool->is_free[order][at])
            return at;
    return NONE;
}

void *pool_alloc(struct pool *pool, unsigned order) {
    unsigned from = order;
    while (from <= pool->order && least_free(pool, from) == NONE)
        from++;
    if (from > pool->order)
        return NULL;
    int at = least_free(pool, from);
    pool->is_free[from][at] = false;
    while (from-- > order)
        pool->is_free[from][at + (1 << from)] = true;
    return pool->memory + (size_t)at * FRAME;
}

void pool_free(struct pool *pool, void *block, unsigned order) {
    unsigned at = (unsigned)(((uint8_t *)block - pool->memory) / FRAME);
    while (order < pool->order && pool->is_free[order][at ^ (1u << order)]) {
        pool->is_free[order][at ^ (1u << order)] = false;
        at &= ~(1u << order);
        order++;
    }
    pool->is_free[order][at] = true;
}

void pool_end(struct pool *pool) { free(pool); }
