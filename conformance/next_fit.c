/* An allocator with caches, over tenant.h. The search for a block begins behind the block that was allocated last, and goes on
 * through all slots of the tenant. A cache has a list of slabs. Each slab has a stack of the numbers of its free objects, outside
 * of the tenant's memory. */
#include "tenant.h"

#include <stdlib.h>
#include <string.h>

enum { OUT, FREE, TAKEN, MIN_OBJECTS = 4 };

struct tenant {
    uint8_t *memory;
    unsigned order;  /* of a slot */
    unsigned frames; /* of all slots */
    unsigned next;   /* where the next search begins */
    uint8_t kinds[]; /* by frame: OUT if the tenant does not have its slot */
};

struct slab {
    uint8_t *memory;
    struct slab *next;
    unsigned count;
    uint16_t numbers[]; /* of free objects; the last is taken next */
};

struct cache {
    struct slabs *slabs;
    struct layout layout;
    struct slab *first;
};

struct tenant *tenant_init(void *memory, unsigned order, unsigned slots) {
    struct tenant *tenant = calloc(1, sizeof *tenant + ((size_t)slots << order));
    if (tenant != NULL) {
        tenant->memory = memory;
        tenant->order = order;
        tenant->frames = slots << order;
    }
    return tenant;
}

static void mark(struct tenant *tenant, unsigned first, unsigned order, int kind) {
    memset(tenant->kinds + first, kind, 1u << order);
}

void tenant_add(struct tenant *tenant, unsigned slot) { mark(tenant, slot << tenant->order, tenant->order, FREE); }

void tenant_remove(struct tenant *tenant, unsigned slot) { mark(tenant, slot << tenant->order, tenant->order, OUT); }

static bool is_free(const struct tenant *tenant, unsigned first, unsigned order) {
    const uint8_t *kinds = tenant->kinds + first;
    return memchr(kinds, OUT, 1u << order) == NULL && memchr(kinds, TAKEN, 1u << order) == NULL;
}

void *tenant_alloc(struct tenant *tenant, unsigned order) {
    unsigned size = 1u << order, from = (tenant->next + size - 1) / size * size;
    for (unsigned tried = 0; tried < tenant->frames; tried += size) {
        unsigned first = (from + tried) % tenant->frames;
        if (is_free(tenant, first, order)) {
            mark(tenant, first, order, TAKEN);
            tenant->next = first + size;
            return tenant->memory + (size_t)first * FRAME_BYTES;
        }
    }
    return NULL;
}

void tenant_free(struct tenant *tenant, void *block, unsigned order) {
    mark(tenant, (unsigned)(((uint8_t *)block - tenant->memory) / FRAME_BYTES), order, FREE);
}

void tenant_end(struct tenant *tenant) { free(tenant); }

static void lay_out(uint32_t size, uint32_t align, struct layout *layout) {
    layout->chunk = (size + align - 1) / align * align;
    for (layout->order = 0; (FRAME_BYTES << layout->order) / layout->chunk < MIN_OBJECTS; layout->order++)
        ;
    layout->objects = (FRAME_BYTES << layout->order) / layout->chunk;
    layout->colours = 1;
}

static struct cache *init(struct slabs *slabs, uint32_t size, uint32_t align, const struct layout *layout) {
    struct cache *cache = calloc(1, sizeof *cache);
    (void)size, (void)align;
    if (cache != NULL)
        *cache = (struct cache){.slabs = slabs, .layout = *layout};
    return cache;
}

/* Adds a slab whose objects are all free, and constructs them. Returns NULL if no block is free for it. */
static struct slab *add_slab(struct cache *cache) {
    unsigned objects = cache->layout.objects;
    uint8_t *memory = slab_alloc(cache->slabs);
    if (memory == NULL)
        return NULL;
    struct slab *slab = malloc(sizeof *slab + objects * sizeof *slab->numbers);
    if (slab == NULL)
        abort();
    *slab = (struct slab){.memory = memory, .next = cache->first, .count = objects};
    cache->first = slab;
    for (unsigned i = 0; i < objects; i++) {
        slab->numbers[i] = (uint16_t)i;
        slab_construct(cache->slabs, memory + i * cache->layout.chunk);
    }
    return slab;
}

static void *take(struct cache *cache) {
    struct slab *slab = cache->first;
    while (slab != NULL && slab->count == 0)
        slab = slab->next;
    if (slab == NULL && (slab = add_slab(cache)) == NULL)
        return NULL;
    return slab->memory + slab->numbers[--slab->count] * cache->layout.chunk;
}

static void give(struct cache *cache, void *object) {
    struct slab *slab = cache->first;
    size_t bytes = (size_t)FRAME_BYTES << cache->layout.order;
    while ((size_t)((uint8_t *)object - slab->memory) >= bytes)
        slab = slab->next;
    slab->numbers[slab->count++] = (uint16_t)((size_t)((uint8_t *)object - slab->memory) / cache->layout.chunk);
}

/* Frees the slabs that have at least this number of free objects. */
static void drop(struct cache *cache, unsigned least) {
    for (struct slab **link = &cache->first, *slab; (slab = *link) != NULL;)
        if (slab->count >= least) {
            *link = slab->next;
            slab_free(cache->slabs, slab->memory);
            free(slab);
        } else
            link = &slab->next;
}

static void shrink(struct cache *cache) { drop(cache, cache->layout.objects); }

static void end(struct cache *cache) {
    drop(cache, 0);
    free(cache);
}

const struct caches *caches(void) {
    static const struct objects objects = {lay_out, init, take, give, shrink, end};
    return caches_of(&objects);
}
