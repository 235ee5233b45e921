/* Connects Linux's drivers/gpu/drm/drm_buddy.c to pool.h: all tenants share one manager, as the clients of a graphics card do. A
 * grant only allows a tenant to have as many frames as a slot has. The frames of a pool are names: behind each block of the pool
 * is a block of the manager. */
#include "linux.h"
#include "drm_buddy.h"
#include "drm_buddy.c"

/* The manager is made when the machine boots, since its memory is that of all superblocks. */
#define boot boot_pools
#include "pool.c"
#undef boot

struct pool {
    uint8_t *memory;
    unsigned frames;
    bool taken[1 << MAX_ORDER];
    struct drm_buddy_block *blocks[1 << MAX_ORDER]; /* by the first frame */
};

static struct drm_buddy shared;

bool boot(unsigned order, unsigned superblocks, unsigned tenants) {
    return drm_buddy_init(&shared, superblocks * PAGE_SIZE << order, PAGE_SIZE) == 0 && boot_pools(order, superblocks, tenants);
}

struct pool *pool_init(void *memory, unsigned order) {
    struct pool *pool = calloc(1, sizeof *pool);
    pool->memory = memory;
    pool->frames = 1u << order;
    return pool;
}

void *pool_alloc(struct pool *pool, unsigned order) {
    LIST_HEAD(list);
    unsigned at = 0, length = 1u << order;
    u64 size = PAGE_SIZE << order;
    while (at < pool->frames && memchr(pool->taken + at, true, length) != NULL)
        at += length;
    if (at >= pool->frames || drm_buddy_alloc_blocks(&shared, 0, shared.size, size, size, &list, 0) != 0)
        return NULL;
    memset(pool->taken + at, true, length);
    pool->blocks[at] = list_first_entry(&list, struct drm_buddy_block, link);
    return pool->memory + at * PAGE_SIZE;
}

void pool_free(struct pool *pool, void *block, unsigned order) {
    size_t at = (size_t)((uint8_t *)block - pool->memory) / PAGE_SIZE;
    memset(pool->taken + at, false, 1u << order);
    drm_buddy_free_block(&shared, pool->blocks[at]);
    pool->blocks[at] = NULL;
}

void pool_end(struct pool *pool) {
    for (unsigned at = 0; at < pool->frames; at++)
        if (pool->blocks[at] != NULL)
            drm_buddy_free_block(&shared, pool->blocks[at]);
    free(pool);
}
