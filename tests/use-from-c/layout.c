/* Checks the layout of the structs of partmem.h and partmem_heap.h on x86-64, the types of their fields, and the types of the
 * functions that are named below. If one differs, this file does not compile. Fields lie in the order of the header, each at the
 * next multiple of its alignment. */
#include "partmem_heap.h"

#define IS(expression, type) _Static_assert(_Generic((expression), type: 1, default: 0), #expression " is no " #type)
#define FIELD(name, field, type, at)                                                                                            \
    IS(&((name *)0)->field, type *);                                                                                            \
    _Static_assert(offsetof(name, field) == (at), #name "." #field " does not lie at " #at)
#define ARRAY(name, field, type, length, at)                                                                                    \
    IS(&((name *)0)->field, type(*)[length]);                                                                                   \
    _Static_assert(offsetof(name, field) == (at), #name "." #field " does not lie at " #at)
#define STRUCT(name, size, alignment)                                                                                           \
    _Static_assert(sizeof(name) == (size), #name " has not " #size " bytes");                                                  \
    _Static_assert(_Alignof(name) == (alignment), #name " is not aligned to " #alignment)

STRUCT(partmem_machine, 24, 8);
ARRAY(partmem_machine, held, void *, 3, 0);

STRUCT(partmem_tenant, 16, 8);
FIELD(partmem_tenant, machine, partmem_machine *, 0);
FIELD(partmem_tenant, number, uint32_t, 8);

STRUCT(partmem_lent, 24, 8);
FIELD(partmem_lent, at, void *, 0);
FIELD(partmem_lent, place, uint32_t, 8);
FIELD(partmem_lent, bytes, uint32_t, 12);
FIELD(partmem_lent, tenant, uint32_t, 16);

STRUCT(partmem_config, 12, 4);
FIELD(partmem_config, order, uint32_t, 0);
FIELD(partmem_config, superblocks, uint32_t, 4);
FIELD(partmem_config, tenants, uint32_t, 8);

STRUCT(partmem_memory, 16, 8);
FIELD(partmem_memory, ram, void *, 0);
FIELD(partmem_memory, tables, void *, 8);

STRUCT(partmem_slot, 8, 4);
FIELD(partmem_slot, slot, uint32_t, 0);
FIELD(partmem_slot, superblock, uint32_t, 4);

STRUCT(partmem_owner, 12, 4);
FIELD(partmem_owner, is_owned, uint32_t, 0);
FIELD(partmem_owner, tenant, uint32_t, 4);
FIELD(partmem_owner, slot, uint32_t, 8);

STRUCT(partmem_cache, 20, 4);
FIELD(partmem_cache, cache, uint32_t, 0);
FIELD(partmem_cache, chunk, uint32_t, 4);
FIELD(partmem_cache, slab_bytes, uint32_t, 8);
FIELD(partmem_cache, objects, uint32_t, 12);
FIELD(partmem_cache, colours, uint32_t, 16);

STRUCT(partmem_block, 12, 4);
FIELD(partmem_block, use, partmem_use, 0);
FIELD(partmem_block, place, uint32_t, 4);
FIELD(partmem_block, bytes, uint32_t, 8);

STRUCT(partmem_object, 12, 4);
FIELD(partmem_object, cache, uint32_t, 0);
FIELD(partmem_object, place, uint32_t, 4);
FIELD(partmem_object, bytes, uint32_t, 8);

STRUCT(partmem_sizes, 64, 2);
ARRAY(partmem_sizes, bytes, uint16_t, 32, 0);

STRUCT(partmem_order_row, 8, 4);
FIELD(partmem_order_row, free, uint32_t, 0);
FIELD(partmem_order_row, taken, uint32_t, 4);

STRUCT(partmem_cache_row, 20, 4);
FIELD(partmem_cache_row, cache, uint32_t, 0);
FIELD(partmem_cache_row, full, uint32_t, 4);
FIELD(partmem_cache_row, partial, uint32_t, 8);
FIELD(partmem_cache_row, empty, uint32_t, 12);
FIELD(partmem_cache_row, live, uint32_t, 16);

STRUCT(partmem_figures, 756, 4);
FIELD(partmem_figures, frames, uint32_t, 0);
FIELD(partmem_figures, live, uint32_t, 4);
FIELD(partmem_figures, free, uint32_t, 8);
FIELD(partmem_figures, greatest, uint32_t, 12);
FIELD(partmem_figures, split, uint32_t, 16);
FIELD(partmem_figures, orders, uint32_t, 20);
FIELD(partmem_figures, caches, uint32_t, 24);
ARRAY(partmem_figures, order, partmem_order_row, 11, 28);
ARRAY(partmem_figures, cache, partmem_cache_row, 32, 116);

STRUCT(partmem_heap_config, 24, 8);
FIELD(partmem_heap_config, sizes, const uint16_t *, 0);
FIELD(partmem_heap_config, count, uint32_t, 8);
FIELD(partmem_heap_config, slots, uint32_t, 12);
FIELD(partmem_heap_config, runs, uint16_t *, 16);

STRUCT(partmem_heap, 488, 8);
FIELD(partmem_heap, tenant, partmem_tenant, 0);
FIELD(partmem_heap, base, unsigned char *, 16);
FIELD(partmem_heap, runs, uint16_t *, 24);
FIELD(partmem_heap, slots, uint32_t, 32);
FIELD(partmem_heap, order, uint32_t, 36);
FIELD(partmem_heap, classes, uint32_t, 40);
ARRAY(partmem_heap, size, uint16_t, 24, 44);
ARRAY(partmem_heap, align, uint16_t, 24, 92);
ARRAY(partmem_heap, cache_of, uint8_t, 24, 140);
FIELD(partmem_heap, own, partmem_sizes, 164);
ARRAY(partmem_heap, class_of, uint8_t, 257, 228);

STRUCT(partmem_request, 16, 4);
FIELD(partmem_request, kind, uint32_t, 0);
FIELD(partmem_request, tenant, uint32_t, 4);
FIELD(partmem_request, first, uint32_t, 8);
FIELD(partmem_request, second, uint32_t, 12);

STRUCT(partmem_reply, 24, 4);
FIELD(partmem_reply, kind, uint32_t, 0);
FIELD(partmem_reply, first, uint32_t, 4);
FIELD(partmem_reply, second, uint32_t, 8);
FIELD(partmem_reply, third, uint32_t, 12);
FIELD(partmem_reply, fourth, uint32_t, 16);
FIELD(partmem_reply, fifth, uint32_t, 20);
IS(&partmem_boot, partmem_status (*)(partmem_machine *, const partmem_config *));
IS(&partmem_boot_in, partmem_status (*)(partmem_machine *, const partmem_config *, const partmem_memory *));
IS(&partmem_superblock_bytes, uint32_t (*)(partmem_machine *));
IS(&partmem_superblock_address, void *(*)(const partmem_machine *, uint32_t));
IS(&partmem_find_place, partmem_status (*)(partmem_tenant, const void *, uint32_t *));
IS(&partmem_find_object, partmem_status (*)(partmem_tenant, uint32_t, partmem_object *));
IS(&partmem_release, partmem_status (*)(partmem_tenant, uint32_t, const partmem_sizes *, partmem_object *));
IS(&partmem_move, partmem_status (*)(partmem_tenant, uint32_t, partmem_slot *));
IS(&partmem_make_cache, partmem_status (*)(partmem_tenant, uint32_t, uint32_t, const void *, size_t, partmem_cache *));
IS(&partmem_lend, partmem_status (*)(partmem_tenant, uint32_t, uint32_t, partmem_lent *));
IS(&partmem_event,
   partmem_status (*)(partmem_machine *, const partmem_request *, const void *, size_t, partmem_reply *, void *, size_t));
IS(&partmem_line, partmem_status (*)(partmem_machine *, const char *, size_t, char *, size_t, size_t *));

IS(&partmem_heap_init, partmem_status (*)(partmem_heap *, partmem_tenant, const partmem_heap_config *));
IS(&partmem_heap_malloc, void *(*)(partmem_heap *, size_t));
IS(&partmem_heap_calloc, void *(*)(partmem_heap *, size_t, size_t));
IS(&partmem_heap_aligned_alloc, void *(*)(partmem_heap *, size_t, size_t));
IS(&partmem_heap_realloc, void *(*)(partmem_heap *, void *, size_t));
IS(&partmem_heap_free, partmem_status (*)(partmem_heap *, void *));
IS(&partmem_heap_usable_size, size_t (*)(const partmem_heap *, const void *));
IS(&partmem_heap_place, uint32_t (*)(const partmem_heap *, const void *));

/* The sizes of the RAM and of the tables are constants of type size_t. */
IS(PARTMEM_RAM_BYTES(10u, 1024u), size_t);
IS(PARTMEM_TABLE_BYTES(10u, 1024u, 255u), size_t);
_Static_assert(PARTMEM_RAM_BYTES(8, 256) == 256 << 20 && PARTMEM_TABLE_BYTES(8, 256, 64) < 6 << 20, "another size");
_Static_assert(PARTMEM_RAM_BYTES(10, 1024) == (size_t)4 << 30 && PARTMEM_TABLE_BYTES(10, 1024, 64) < 71 << 20, "another size");

/* Enums have 32 bits. On a machine of 256 superblocks the longest reply to a line is the reply to `admin pool`: a first line, and
 * a line for each superblock. Each of these lines has at most 256 bytes. A read returns at most 64 bytes. */
_Static_assert(sizeof(partmem_status) == 4 && sizeof(partmem_use) == 4, "another enum");
_Static_assert(PARTMEM_LINE_BUFFER_BYTES == 257 * 256 && PARTMEM_MAX_BYTES == 64, "another buffer");
