/* partmem_heap.h: malloc by size and free by address, for a tenant of a machine of partmem.
 *
 *     partmem_heap heap;
 *     partmem_heap_init(&heap, tenant, NULL)            returns PARTMEM_DONE, which is 0, or why not
 *     char *text = partmem_heap_malloc(&heap, 100);     NULL if no free block is large enough
 *     text = partmem_heap_realloc(&heap, text, 5000);   NULL in that case, and the old text stays
 *     partmem_heap_free(&heap, text)                    refuses an address at which nothing of its own begins
 *
 * What a heap has allocated and not freed is called a piece. Anything that the heap cannot distinguish from its pieces counts as
 * a piece too (see DIRECT CALLS).
 *
 * COMMANDS. Each call runs commands of this tenant, by direct calls of partmem.h:
 *
 *     a request up to the largest class       take; before the first take of its class also make_cache; if no class has the
 *                                             requested alignment, alloc
 *     a larger one                            alloc of a page block, which has a power of two of frames
 *     one larger than a superblock            none, and it is refused; with runs, allocs and frees of superblocks, and a reap
 *                                             if an alloc returns a slot that was granted after the initialisation
 *     free                                    give or free, by one release; of a run, a free for each superblock
 *     realloc                                 none, those of a request, or those of a request and a free
 *     init, usable_size, place                none: they look things up
 *
 * If a take finds too few frames for a slab, which has up to 8 frames, a page block of one frame is allocated instead. If no
 * frame is free either, the request gets a free object of a larger class that has one. If the tenant has 32 caches, a request
 * whose class has no cache gets an object of the next class that has one, or else a page block.
 * So the commands follow from the earlier calls to the heap, from the tenant's other commands, and from its grants, take-backs
 * and resets. One result does not follow from these: whether partmem_heap_init accepts the slots of a heap with runs (see RUNS).
 * A tenant gets the same places, sizes and refusals whatever other tenants do. No object has a header, and nothing is kept for
 * each frame: the library finds what is live at a place (partmem_release, partmem_find_object). It is proved that what it finds
 * depends on the tenant's own commands, grants, take-backs and resets alone.
 *
 * DIRECT CALLS. A tenant may use direct calls beside its heap. They can use 8 of its 32 caches, or more if the heap has fewer
 * classes. Do not free with the heap what a direct call allocated, nor the other way round. The heap refuses to free an object if
 * no cache of the heap ever had the number of the object's cache. It also refuses if the heap's last cache with that number was
 * for another size. It cannot distinguish a page block of a direct call, or any other object of a direct call, from its own. A
 * direct call may reap, and destroy caches of the heap that have no live object. Then a direct call may make another cache with
 * the number of a destroyed cache. If the heap takes an object of this new cache, and the size or the alignment is wrong, the
 * heap gives the object back and makes a new cache for itself.
 *
 * RUNS. Without runs nothing in the heap depends on superblocks or addresses. With runs a request larger than a superblock
 * allocates superblocks, beginning with the first free one, until enough of them lie in a row. This row is a run; the other
 * superblocks are freed again. So the slots of the tenant have to lie one after another in RAM. They do if all are granted in a
 * row at the start. partmem_heap_init refuses other slots. Slots that are granted later become part of no run. The caller provides
 * memory for the runs, two bytes for each slot that the tenant has at the start:
 *
 *     static uint16_t runs[16];
 *     partmem_heap_config config = {NULL, 0, 16, runs};
 *
 * After partmem_heap_init move no slot of the tenant, and take none back. [Otherwise a run with that slot leads to memory that
 * others own by then. Also, it then depends on superblocks which requests are refused.]
 *
 * ADDRESSES. Duty 6 of partmem.h forbids storing addresses in lent bytes. But each program that calls malloc stores addresses
 * there. If a tenant may store them,
 * - no slot of the tenant is moved as long as an address is in use. [Stored addresses lead to memory that others own by then.]
 * - what the program computes from the numbers in addresses, such as their order, a hash or a printed pointer, depends on who
 *   holds which superblock. So the tenant may learn of grants to others, and of their moves, resets and take-backs.
 * The rest of duty 6 still applies. Nothing else changes: which bytes are whose, places, sizes, refusals, and every result that
 * does not follow from the numbers in addresses. A place may be stored and shown (partmem_heap_place).
 *
 * NOT COVERED: stores outside of a piece, which hit other pieces of this tenant, the bits that say which objects are live, or,
 * past a superblock, another tenant (duty 4); addresses that are used after their free (duty 5); a second free after the address
 * was allocated again; and time. With partmem_watched.h AddressSanitizer and valgrind see most faults of the first two kinds.
 *
 * DUTIES. The duties of partmem.h apply, with two exceptions: config and the address of a piece may be NULL, and an address that
 * is passed may have any value. A call to a heap, also partmem_heap_init, needs the lock of its tenant (duty 8). So heaps of
 * different tenants may be used at the same time. Heap, config and runs lie outside of the machine's memory, or in lent bytes
 * whose lifetime does not end while the heap is used. The heap has addresses in it.
 * Only these functions read or write a heap and its runs. The heap may be copied elsewhere if the old copy is not used again. A
 * tenant has one heap: calls to a second heap count as direct calls. Do not use a heap before partmem_heap_init. After a reset of
 * the tenant or the machine's end, do not use it until it is initialised again. A heap that is all 0 may always be used.
 *
 * PROVED: what each command of the heap does. TESTED: all of heap.c, and the functions in C that it uses, partmem_find_place,
 * partmem_superblock_address and the one that finds the superblock of an address that is freed. docs/heap.md says how, and what a
 * heap costs. */
#ifndef PARTMEM_HEAP_H
#define PARTMEM_HEAP_H

#include "partmem.h"

#ifdef __cplusplus
extern "C" {
#endif

#define PARTMEM_HEAP_MAX_CLASSES 24u /* of a heap: a tenant has 32 caches */
#define PARTMEM_HEAP_STEP 16u         /* the sizes of classes, and the addresses of pieces, are multiples of it */

/* How to set up a heap. All 0 means the default classes and no runs. */
typedef struct partmem_heap_config {
    const uint16_t *sizes; /* of the classes, in bytes: ascending multiples of 16, up to 4096. Not used after the call */
    uint32_t count;        /* how many sizes: up to 24. If it is 0, the heap has the default classes, and `sizes` is not read */
    uint32_t slots;        /* how many entries `runs` has. If it is 0, the heap has no runs, and `runs` is not used */
    uint16_t *runs;        /* memory of the heap for as long as it is used; its contents before do not matter */
} partmem_heap_config;

/* A heap. If its initialisation was refused, all of it is 0. Then a call returns NULL, 0, PARTMEM_NO_PLACE or NO_MACHINE, and a
 * free of NULL returns DONE. */
typedef struct partmem_heap {
    partmem_tenant tenant;
    unsigned char *base; /* with runs: the address of place 0; else NULL */
    /* With runs, by slot: the number of superblocks of the run that begins there, 0xffff inside a run, and 0 otherwise. */
    uint16_t *runs;
    uint32_t slots;      /* with runs: how many slots the tenant had at the initialisation; else 0 */
    uint32_t order;      /* of a superblock */
    uint32_t classes;    /* how many classes the heap has */
    uint16_t size[PARTMEM_HEAP_MAX_CLASSES];                      /* by class: the bytes of its objects */
    uint16_t align[PARTMEM_HEAP_MAX_CLASSES];                     /* by class: the alignment of its objects */
    uint8_t cache_of[PARTMEM_HEAP_MAX_CLASSES];                   /* by class: the number of its cache, plus 1; or 0 */
    partmem_sizes own;                                            /* by cache: the size of the last class that had it, or 0 */
    uint8_t class_of[PARTMEM_FRAME_BYTES / PARTMEM_HEAP_STEP + 1]; /* by size in steps, rounded up: the class, or `classes` */
} partmem_heap;

/* Initialises the heap of a tenant. `config` is NULL for the default classes and no runs. Returns NO_MACHINE or NO_TENANT as a
 * direct call does; then BAD_CONFIG if `sizes` or `count` is not as partmem_heap_config says. With runs, then returns BAD_MEMORY
 * if the tenant has no slot or more slots than `runs` has entries, if its slots are not 0, 1, 2 .. with superblocks that follow
 * each other in RAM, or if `runs` is NULL. If it does not return DONE, the heap is all 0, and `runs` is as before. */
PARTMEM_CHECKED partmem_status partmem_heap_init(partmem_heap *heap, partmem_tenant tenant, const partmem_heap_config *config);

/* Allocates at least `bytes` bytes, and at least 1 byte, at an address that is a multiple of 16. The bytes may have any values.
 * Returns NULL for a heap that is all 0, for a request that is too large, and if no free block is large enough (with runs: no
 * row of free superblocks), even after all empty slabs were given back, and no free object either. A refused request may have
 * made the cache of its class, and with runs it may have given back the tenant's empty slabs. */
void *partmem_heap_malloc(partmem_heap *heap, size_t bytes);

/* Allocates `count` times `bytes` bytes, which are 0. Returns NULL as malloc does, and if the product overflows. */
void *partmem_heap_calloc(partmem_heap *heap, size_t count, size_t bytes);

/* Allocates as malloc does, at a multiple of `align`. Returns NULL unless `align` is a power of two up to 4096. */
void *partmem_heap_aligned_alloc(partmem_heap *heap, size_t align, size_t bytes);

/* Gives a piece another size, and perhaps another address. Its bytes stay, up to the smaller size. If `old` is NULL, it
 * allocates. If `bytes` is 0, the piece is not freed: it may become smaller and get another address, and its bytes may have any
 * values. Returns NULL as malloc does, and if no piece begins at `old`; then `old` and its bytes are as before. */
void *partmem_heap_realloc(partmem_heap *heap, void *old, size_t bytes);

/* Frees the piece that begins at an address. For NULL it frees nothing. If it returns another status than DONE, nothing has
 * changed. Returns NOT_HELD for an address outside of the tenant's slots, and OUT_OF_REACH if nothing is live at the address.
 * Returns NOT_AN_OBJECT or NOT_A_BLOCK for an address inside of a piece, and for an object of a direct call that the heap can
 * distinguish from its own. It frees page blocks of direct calls, and objects of direct calls that it cannot distinguish from
 * its own (see DIRECT CALLS). */
partmem_status partmem_heap_free(partmem_heap *heap, void *at);

/* Returns how many bytes of a piece may be used, at least those that were requested; 0 if no piece begins at the address. */
size_t partmem_heap_usable_size(const partmem_heap *heap, const void *at);

/* Returns the place of the byte at an address; PARTMEM_NO_PLACE if it is not in a superblock of the tenant. The last byte of a
 * tenant that has all 4 GiB has this place too, but no piece begins there. */
uint32_t partmem_heap_place(const partmem_heap *heap, const void *at);

#ifdef __cplusplus
}
#endif

#endif
