/* Connects Mesa's src/util/vma.c, which allocates ranges of addresses, to pool.h. HIGH is true if high addresses come first.
 * `run` copies Mesa's files without their #include lines. */
#include <assert.h>
#include <inttypes.h>
#include <stdbool.h>
#include <stddef.h>
#include <stdio.h>
#include <stdlib.h>

#include "list.h"
#include "vma.h"
#include "vma.c"

#include "pool.h"

struct pool {
    struct util_vma_heap heap;
};

struct pool *pool_init(void *memory, unsigned order) {
    struct pool *pool = malloc(sizeof *pool);
    util_vma_heap_init(&pool->heap, (uintptr_t)memory, UINT64_C(4096) << order);
    pool->heap.alloc_high = HIGH;
    return pool;
}

void *pool_alloc(struct pool *pool, unsigned order) {
    uint64_t size = UINT64_C(4096) << order;
    return (void *)(uintptr_t)util_vma_heap_alloc(&pool->heap, size, size);
}

void pool_free(struct pool *pool, void *block, unsigned order) {
    util_vma_heap_free(&pool->heap, (uintptr_t)block, UINT64_C(4096) << order);
}

void pool_end(struct pool *pool) {
    util_vma_heap_finish(&pool->heap);
    free(pool);
}
