/* Connects Linux's drivers/gpu/drm/drm_buddy.c to pool.h: each slot has a manager of its own. */
#include "linux.h"
#include "drm_buddy.h"
#include "drm_buddy.c"

#include "pool.h"

struct pool {
    struct drm_buddy manager;
    uint8_t *memory;
    struct drm_buddy_block *blocks[256]; /* by frame */
};

struct pool *pool_init(void *memory, unsigned order) {
    struct pool *pool = calloc(1, sizeof *pool);
    pool->memory = memory;
    BUG_ON(drm_buddy_init(&pool->manager, PAGE_SIZE << order, PAGE_SIZE) != 0);
    return pool;
}

void *pool_alloc(struct pool *pool, unsigned order) {
    LIST_HEAD(list);
    u64 size = PAGE_SIZE << order;
    if (drm_buddy_alloc_blocks(&pool->manager, 0, pool->manager.size, size, size, &list, FLAGS) != 0)
        return NULL;
    struct drm_buddy_block *block = list_first_entry(&list, struct drm_buddy_block, link);
    u64 offset = drm_buddy_block_offset(block);
    pool->blocks[offset / PAGE_SIZE] = block;
    return pool->memory + offset;
}

void pool_free(struct pool *pool, void *block, unsigned order) {
    (void)order;
    drm_buddy_free_block(&pool->manager, pool->blocks[((uint8_t *)block - pool->memory) / PAGE_SIZE]);
}

/* drm_buddy_fini requires that all blocks are free, which they are not after a reset. */
void pool_end(struct pool *pool) { free(pool); }
