/* Uses a page block, an object and a piece of a heap in place. The machine boots in arrays of the program. Apart from the
 * attribute `aligned`, the program uses only what C89 and C++98 have in common. */
#include "partmem_heap.h"

static unsigned char ram[PARTMEM_RAM_BYTES(3, 2)] __attribute__((aligned(4096)));
static unsigned char tables[PARTMEM_TABLE_BYTES(3, 2, 2)] __attribute__((aligned(16)));
static partmem_heap heap;

int main(void)
{
    partmem_machine machine = {{0, 0, 0}};
    partmem_config config = {3, 2, 2};
    partmem_memory memory;
    partmem_tenant tenant;
    partmem_slot slot;
    partmem_cache cache;
    partmem_lent block, object;
    unsigned char *at;
    tenant.machine = &machine;
    tenant.number = 1;
    memory.ram = ram;
    memory.tables = tables;
    if (partmem_boot_in(&machine, &config, &memory) || partmem_grant(tenant, &slot)) return 1;
    if (partmem_alloc(tenant, 0, &block) || partmem_make_cache(tenant, 24, 8, "ab", 2, &cache)) return 2;
    if (partmem_take(tenant, cache.cache, &object)) return 3;
    at = (unsigned char *)object.at;
    if (object.bytes != 24 || at[0] != 'a' || at[23] != 'b' || *(unsigned char *)block.at) return 4;
    at[0] = 'c';
    if (partmem_at(tenant, object.place, 24) != at || partmem_object_at(tenant, cache.cache, object.place) != at) return 5;
    if (partmem_give(tenant, cache.cache, object.place) || partmem_free(tenant, block.place)) return 6;
    if (partmem_heap_init(&heap, tenant, 0)) return 8;
    at = (unsigned char *)partmem_heap_calloc(&heap, 10, 10);
    if (!at || at[99] || partmem_heap_usable_size(&heap, at) != 128 || partmem_heap_free(&heap, at)) return 9;
    if (partmem_end(&machine) || partmem_boot(&machine, &config)) return 7;
    return partmem_end(&machine) != PARTMEM_DONE;
}
