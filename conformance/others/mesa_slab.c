/* Connects Mesa's src/util/slab.c to objects.h: a cache is a slab_mempool, and a slab is one of its pages. `run` copies Mesa's
 * files without their #include lines. */
#include "objects.h"

#include <stdlib.h>
#include <string.h>

static void *new_page(void);
static void drop_page(void *page);

/* In one thread, locks and atomic operations do nothing special. Mesa gets pages from malloc, and two of its functions have the
 * names of functions in tenant.h. */
#define NDEBUG
typedef int simple_mtx_t;
#define simple_mtx_init(lock, kind) ((void)(lock))
#define simple_mtx_destroy(lock) ((void)(lock))
#define simple_mtx_lock(lock) ((void)(lock))
#define simple_mtx_unlock(lock) ((void)(lock))
#define p_atomic_read(pointer) (*(pointer))
#define p_atomic_set(pointer, value) (*(pointer) = (value))
#define p_atomic_dec_return(pointer) (--*(pointer))
#define ALIGN_POT(number, unit) (((number) + (unit)-1) / (unit) * (unit))
#define assert(condition) ((void)0)
#define slab_alloc mesa_slab_alloc
#define slab_free mesa_slab_free
#define malloc(size) new_page()
#define free(page) drop_page(page)
#include "slab.h"
#include "slab.c"
#undef slab_alloc
#undef slab_free
#undef malloc
#undef free

struct cache {
    struct slabs *slabs;
    unsigned skipped; /* bytes of a slab before its page, so that objects are aligned */
    struct slab_mempool pool;
};
static struct cache *now;

static void *new_page(void) {
    uint8_t *slab = slab_alloc(now->slabs);
    return slab == NULL ? NULL : slab + now->skipped;
}

static void drop_page(void *page) { slab_free(now->slabs, (uint8_t *)page - now->skipped); }

/* Before the first object, a page has its own header and the first object's. */
enum { HEADER = sizeof(struct slab_element_header), HEADERS = sizeof(struct slab_page_header) + HEADER };

static unsigned skipped_before(uint32_t align) { return (align - HEADERS % align) % align; }

void objects_lay_out(uint32_t size, uint32_t align, struct layout *layout) {
    layout->chunk = (size + HEADER + align - 1) / align * align;
    lay_out_chunks(layout, skipped_before(align) + HEADERS - HEADER);
}

struct cache *objects_init(struct slabs *slabs, uint32_t size, uint32_t align, const struct layout *layout) {
    struct cache *cache = calloc(1, sizeof *cache);
    (void)size;
    cache->slabs = slabs;
    cache->skipped = skipped_before(align);
    slab_create(&cache->pool, layout->chunk - HEADER, layout->objects);
    return cache;
}

void *objects_take(struct cache *cache) {
    now = cache;
    void *object = slab_alloc_st(&cache->pool);
    if (object != NULL)
        slab_construct(cache->slabs, object);
    return object;
}

void objects_give(struct cache *cache, void *object) { slab_free_st(&cache->pool, object); }

/* Mesa frees pages only with the whole pool. */
void objects_shrink(struct cache *cache) { (void)cache; }

/* slab_destroy would keep the pages that have live objects, but after a reset they have to go too. */
void objects_end(struct cache *cache) {
    now = cache;
    for (struct slab_page_header *page = cache->pool.child.pages, *next; page != NULL; page = next) {
        next = page->u.next;
        drop_page(page);
    }
    free(cache);
}
