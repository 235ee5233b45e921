/* The heap of a tenant, over the direct calls of partmem.h. A class is a size of objects with a cache of its own. A run is a row
 * of superblocks for a request larger than a superblock. A piece is what the heap has allocated and not freed. The heap stores
 * its classes with their caches, and its runs, but no list of its pieces: it looks up in the library what is live at a place. */
#include <stdbool.h>
#include <string.h>

#include "booting.h"
#include "partmem_heap.h"

enum {
    STEP = PARTMEM_HEAP_STEP,
    STEPS = PARTMEM_FRAME_BYTES / PARTMEM_HEAP_STEP,
    MAX_CACHE_ALIGN = 256,
    KEPT_BYTES = 64, /* realloc makes no piece of at most this size smaller */
    NO_ROW = PARTMEM_MAX_SUPERBLOCKS,
    /* Entries of runs[] that are not the length of a run. IN_RUN is for each slot of a run except its first. FOUND and ASIDE are
     * for slots that are allocated during the search for a row: FOUND if the slot can be part of the row, ASIDE if not. */
    IN_RUN = 0xffff,
    FOUND = 0xfffe,
    ASIDE = 0xfffd
};

/* The sizes of the default classes. Their slabs have few unused bytes; docs/heap.md says how many. */
static const uint16_t default_sizes[] = {16,  32,  48,  64,   80,   96,   128,  176,  224,  256,  336,  448,
                                         576, 816, 1024, 1168, 1360, 1632, 2048, 2336, 2720, 3264, 3568, 4096};

/* What the heap has allocated and not freed. A run has the bytes of all its superblocks, which may be 4 GiB. */
struct piece {
    uint32_t cache; /* PARTMEM_OF_NO_CACHE for a page block or a run */
    uint32_t place;
    size_t bytes;
};

/* Returns the order of the smallest page block with at least `bytes` bytes. `bytes` is at most the size of a superblock. */
static uint32_t order_for(size_t bytes)
{
    uint32_t order = 0;
    while ((size_t)PARTMEM_FRAME_BYTES << order < bytes) order++;
    return order;
}

/* ---- Initialisation ----------------------------------------------------------------------------------------------------- */

/* Returns the alignment of the objects of a class. The alignment of a cache is at most 256. But an object of 512, 1024, 2048 or
 * 4096 bytes begins at a multiple of its size, since slabs of such objects have no bytes left for colours. */
static uint32_t alignment_of(uint32_t size)
{
    const uint32_t power = size & -size;
    return power == size || power < MAX_CACHE_ALIGN ? power : MAX_CACHE_ALIGN;
}

static bool set_classes(partmem_heap *heap, const uint16_t *sizes, uint32_t count)
{
    uint32_t step = 0;
    if (count > PARTMEM_HEAP_MAX_CLASSES) return false;
    for (uint32_t class = 0; class < count; class++) {
        const uint32_t size = sizes[class];
        if (size == 0 || size % STEP || size / STEP < step || size / STEP > STEPS) return false;
        heap->size[class] = (uint16_t)size;
        heap->align[class] = (uint16_t)alignment_of(size);
        while (step <= size / STEP) heap->class_of[step++] = (uint8_t)class;
    }
    while (step <= STEPS) heap->class_of[step++] = (uint8_t)count;
    heap->classes = count;
    return true;
}

/* Sets `slots`, `base` and `runs` for a heap with runs. Returns false if the tenant has no slot, or more slots than `runs` has
 * entries, or if its slots are not 0, 1, 2 .., one after another in RAM. */
static bool set_slots(partmem_heap *heap, partmem_tenant tenant, uint16_t *runs, uint32_t entries)
{
    partmem_slot slot;
    uint32_t first = 0;
    for (uint32_t number = 0; number < PARTMEM_MAX_SUPERBLOCKS; number++) {
        if (partmem_find_slot(tenant, number, &slot) != PARTMEM_DONE) continue;
        if (number == 0) first = slot.superblock;
        if (number != heap->slots || number >= entries || slot.superblock != first + number) return false;
        heap->slots++;
    }
    if (heap->slots == 0 || !runs) return false;
    heap->base = partmem_superblock_address(tenant.machine, first);
    heap->runs = memset(runs, 0, heap->slots * sizeof *runs);
    return true;
}

static partmem_status set_up(partmem_heap *heap, partmem_tenant tenant, const partmem_heap_config *config)
{
    partmem_slot slot;
    partmem_status status = partmem_find_slot(tenant, 0, &slot);
    if (status != PARTMEM_DONE && status != PARTMEM_NO_SLOT) return status;
    const bool has_sizes = config && config->count > 0;
    const uint32_t count = has_sizes ? config->count : sizeof default_sizes / sizeof *default_sizes;
    if (!set_classes(heap, has_sizes ? config->sizes : default_sizes, count)) return PARTMEM_BAD_CONFIG;
    heap->order = order_for(partmem_superblock_bytes(tenant.machine));
    if (config && config->slots > 0 && !set_slots(heap, tenant, config->runs, config->slots)) return PARTMEM_BAD_MEMORY;
    heap->tenant = tenant;
    return PARTMEM_DONE;
}

partmem_status partmem_heap_init(partmem_heap *heap, partmem_tenant tenant, const partmem_heap_config *config)
{
    memset(heap, 0, sizeof *heap);
    partmem_status status = set_up(heap, tenant, config);
    if (status != PARTMEM_DONE) memset(heap, 0, sizeof *heap);
    return status;
}

/* ---- Objects ------------------------------------------------------------------------------------------------------------ */

/* Returns the class of a request, or heap->classes if no class serves it. */
static uint32_t class_for(const partmem_heap *heap, size_t bytes)
{
    return bytes <= PARTMEM_FRAME_BYTES ? heap->class_of[(bytes + STEP - 1) / STEP] : heap->classes;
}

static bool is_of_class(const partmem_heap *heap, uint32_t class, const partmem_lent *object)
{
    return object->bytes == heap->size[class] && (object->place & (heap->align[class] - 1u)) == 0;
}

static partmem_status make_cache(partmem_heap *heap, uint32_t class)
{
    partmem_cache made;
    const uint32_t align = heap->align[class] < MAX_CACHE_ALIGN ? heap->align[class] : MAX_CACHE_ALIGN;
    partmem_status status = partmem_make_cache(heap->tenant, heap->size[class], align, "", 1, &made);
    if (status != PARTMEM_DONE) return status;
    heap->cache_of[class] = (uint8_t)(made.cache + 1);
    heap->own.bytes[made.cache] = heap->size[class];
    return PARTMEM_DONE;
}

/* Takes an object of a class. If a direct call has destroyed the cache of the class, another cache may have its number by now. So
 * an object without the size and the alignment of the class is given back, and the class gets a new cache. */
static partmem_status take(partmem_heap *heap, uint32_t class, partmem_lent *object)
{
    if (heap->cache_of[class]) {
        const uint32_t cache = heap->cache_of[class] - 1u;
        partmem_status status = partmem_take(heap->tenant, cache, object);
        if (status == PARTMEM_DONE) {
            if (is_of_class(heap, class, object)) return status;
            (void)!partmem_give(heap->tenant, cache, object->place);
        } else if (status != PARTMEM_NO_CACHE) {
            return status;
        }
        heap->cache_of[class] = 0;
    }
    partmem_status status = make_cache(heap, class);
    return status == PARTMEM_DONE ? partmem_take(heap->tenant, heap->cache_of[class] - 1u, object) : status;
}

/* ---- Page blocks and runs ----------------------------------------------------------------------------------------------- */

static uint32_t superblock_bytes(const partmem_heap *heap)
{
    return PARTMEM_FRAME_BYTES << heap->order;
}

static uint32_t slot_of(const partmem_heap *heap, uint32_t place)
{
    return place / PARTMEM_FRAME_BYTES >> heap->order;
}

static uint32_t superblocks_for(const partmem_heap *heap, size_t bytes)
{
    return (uint32_t)((bytes + superblock_bytes(heap) - 1) / superblock_bytes(heap));
}

/* Allocates superblocks until `count` of them lie in a row. Returns the first slot of the row, or NO_ROW if there is no such row.
 * Marks each slot that it has allocated as FOUND or ASIDE.
 *
 * A slot that was granted after the initialisation has no entry in runs[], and is freed at once. An alloc returns the first free
 * superblock, so no superblock with an entry is free by then. Those that only empty slabs use are free after a reap. */
static uint32_t find_row(partmem_heap *heap, uint32_t count)
{
    partmem_lent block;
    uint32_t frames;
    bool has_reaped = false;
    while (partmem_alloc(heap->tenant, heap->order, &block) == PARTMEM_DONE) {
        uint32_t first = slot_of(heap, block.place), end = first + 1;
        if (first >= heap->slots) {
            (void)!partmem_free(heap->tenant, block.place);
            if (has_reaped) return NO_ROW;
            (void)!partmem_reap(heap->tenant, &frames);
            has_reaped = true;
            continue;
        }
        const bool is_in_sequence = block.at == heap->base + block.place;
        heap->runs[first] = is_in_sequence ? FOUND : ASIDE;
        if (!is_in_sequence) continue;
        while (first > 0 && heap->runs[first - 1] == FOUND) first--;
        while (end < heap->slots && heap->runs[end] == FOUND) end++;
        if (end - first >= count) return first;
    }
    return NO_ROW;
}

static void *take_run(partmem_heap *heap, uint32_t count)
{
    const uint32_t first = find_row(heap, count);
    for (uint32_t slot = 0; slot < heap->slots; slot++) {
        if (heap->runs[slot] != FOUND && heap->runs[slot] != ASIDE) continue;
        if (slot >= first && slot - first < count) {
            heap->runs[slot] = slot == first ? (uint16_t)count : IN_RUN;
        } else {
            heap->runs[slot] = 0;
            (void)!partmem_free(heap->tenant, slot * superblock_bytes(heap));
        }
    }
    return first == NO_ROW ? NULL : heap->base + (size_t)first * superblock_bytes(heap);
}

static void *take_pages(partmem_heap *heap, size_t bytes)
{
    partmem_lent block;
    if (!heap->tenant.machine) return NULL;
    if (bytes <= superblock_bytes(heap)) {
        (void)!partmem_alloc(heap->tenant, order_for(bytes), &block);
        return block.at;
    }
    return bytes <= (size_t)heap->slots * superblock_bytes(heap) ? take_run(heap, superblocks_for(heap, bytes)) : NULL;
}

/* ---- Pieces ------------------------------------------------------------------------------------------------------------- */

/* Takes an object of the smallest class that is large enough, has the alignment and a cache, and has a free object or gets a
 * slab. If no frame is free, a slab of a larger class may still have a free object. */
static void *take_larger(partmem_heap *heap, size_t align, size_t bytes)
{
    partmem_lent object;
    for (uint32_t class = class_for(heap, bytes); class < heap->classes; class++) {
        const bool is_possible = heap->align[class] >= align && heap->cache_of[class];
        if (is_possible && take(heap, class, &object) == PARTMEM_DONE) return object.at;
    }
    return NULL;
}

/* Takes an object of the smallest class that is large enough, has the alignment, and has or gets a cache. If there is no
 * such class, or if the take is refused, allocates pages, which begin at a multiple of 4096. */
static void *allocate(partmem_heap *heap, size_t align, size_t bytes)
{
    partmem_lent object;
    partmem_status status = PARTMEM_NO_CACHE_SLOT;
    for (uint32_t class = class_for(heap, bytes); class < heap->classes && status == PARTMEM_NO_CACHE_SLOT; class++)
        if (heap->align[class] >= align) status = take(heap, class, &object);
    if (status == PARTMEM_DONE) return object.at;
    void *pages = take_pages(heap, bytes);
    return pages ? pages : take_larger(heap, align, bytes);
}

/* Returns how many bytes a request gets if there are enough frames and caches. */
static size_t bytes_for(const partmem_heap *heap, size_t bytes)
{
    const uint32_t class = class_for(heap, bytes);
    if (class < heap->classes) return heap->size[class];
    if (bytes <= superblock_bytes(heap)) return (size_t)PARTMEM_FRAME_BYTES << order_for(bytes);
    return (size_t)superblocks_for(heap, bytes) * superblock_bytes(heap);
}

static partmem_status find_place(const partmem_heap *heap, const void *at, uint32_t *place)
{
    return heap->tenant.machine ? partmem_find_place(heap->tenant, at, place) : PARTMEM_NO_MACHINE;
}

/* Returns the entry of runs[] for a slot: 0 if the slot has none. */
static uint32_t run_at(const partmem_heap *heap, uint32_t slot)
{
    return slot < heap->slots ? heap->runs[slot] : 0;
}

/* Returns whether a run begins at the place, which lies in a slot of a run. */
static bool begins_run(const partmem_heap *heap, uint32_t place)
{
    return run_at(heap, slot_of(heap, place)) != IN_RUN && place % superblock_bytes(heap) == 0;
}

/* Finds the piece that begins at an address. */
static partmem_status find_piece(const partmem_heap *heap, const void *at, struct piece *piece)
{
    uint32_t place;
    partmem_object object;
    partmem_status status = find_place(heap, at, &place);
    if (status != PARTMEM_DONE) return status;
    const uint32_t superblocks = run_at(heap, slot_of(heap, place));
    if (superblocks) {
        if (!begins_run(heap, place)) return PARTMEM_NOT_A_BLOCK;
        *piece = (struct piece){PARTMEM_OF_NO_CACHE, place, (size_t)superblocks * superblock_bytes(heap)};
        return PARTMEM_DONE;
    }
    status = partmem_find_object(heap->tenant, place, &object);
    if (status != PARTMEM_DONE) return status;
    *piece = (struct piece){object.cache, object.place, object.bytes};
    if (object.cache == PARTMEM_OF_NO_CACHE) return object.place == place ? PARTMEM_DONE : PARTMEM_NOT_A_BLOCK;
    return object.place == place && heap->own.bytes[object.cache] == object.bytes ? PARTMEM_DONE : PARTMEM_NOT_AN_OBJECT;
}

/* Frees the run that begins at the place, which lies in a slot of a run. */
static partmem_status release_run(partmem_heap *heap, uint32_t place)
{
    const uint32_t slot = slot_of(heap, place), superblocks = run_at(heap, slot);
    if (!begins_run(heap, place)) return PARTMEM_NOT_A_BLOCK;
    partmem_status status = partmem_free(heap->tenant, place);
    if (status != PARTMEM_DONE) return status;
    for (uint32_t i = 0; i < superblocks; i++) {
        heap->runs[slot + i] = 0;
        if (i > 0) (void)!partmem_free(heap->tenant, place + i * superblock_bytes(heap));
    }
    return PARTMEM_DONE;
}

/* Frees the piece that begins at a place. Refuses as find_piece does. */
static partmem_status release(partmem_heap *heap, uint32_t place)
{
    partmem_object freed;
    if (run_at(heap, slot_of(heap, place))) return release_run(heap, place);
    return partmem_release(heap->tenant, place, &heap->own, &freed);
}

void *partmem_heap_malloc(partmem_heap *heap, size_t bytes)
{
    return allocate(heap, STEP, bytes);
}

void *partmem_heap_calloc(partmem_heap *heap, size_t count, size_t bytes)
{
    size_t all;
    if (__builtin_mul_overflow(count, bytes, &all)) return NULL;
    void *at = allocate(heap, STEP, all);
    return at ? memset(at, 0, all) : NULL;
}

void *partmem_heap_aligned_alloc(partmem_heap *heap, size_t align, size_t bytes)
{
    const bool is_power_of_2 = align && !(align & (align - 1));
    return is_power_of_2 && align <= PARTMEM_FRAME_BYTES ? allocate(heap, align, bytes) : NULL;
}

void *partmem_heap_realloc(partmem_heap *heap, void *old, size_t bytes)
{
    struct piece piece;
    if (!old) return allocate(heap, STEP, bytes);
    if (find_piece(heap, old, &piece) != PARTMEM_DONE) return NULL;
    const bool is_enough = bytes <= piece.bytes;
    if (is_enough && (piece.bytes <= KEPT_BYTES || bytes_for(heap, bytes) > piece.bytes / 2)) return old;
    void *at = allocate(heap, STEP, bytes);
    if (!at) return is_enough ? old : NULL;
    memcpy(at, old, is_enough ? bytes : piece.bytes);
    (void)!release(heap, piece.place);
    return at;
}

partmem_status partmem_heap_free(partmem_heap *heap, void *at)
{
    partmem_object freed;
    uint32_t place;
    if (!at) return PARTMEM_DONE;
    if (!heap->tenant.machine) return PARTMEM_NO_MACHINE;
    if (!heap->slots) return partmem_release_at(heap->tenant, at, &heap->own, &freed);
    partmem_status status = partmem_find_place(heap->tenant, at, &place);
    return status == PARTMEM_DONE ? release(heap, place) : status;
}

size_t partmem_heap_usable_size(const partmem_heap *heap, const void *at)
{
    struct piece piece;
    return find_piece(heap, at, &piece) == PARTMEM_DONE ? piece.bytes : 0;
}

uint32_t partmem_heap_place(const partmem_heap *heap, const void *at)
{
    uint32_t place;
    return find_place(heap, at, &place) == PARTMEM_DONE ? place : PARTMEM_NO_PLACE;
}
