/* Functions of memory.c for boot.c and heap.c. This header is not installed. */
#ifndef BOOTING_H
#define BOOTING_H

#include "partmem.h"

/* Boots as partmem_boot_in does. Unless `release` is NULL, partmem_end calls it with the RAM, and then with the tables. */
partmem_status partmem_boot_with(partmem_machine *machine, const partmem_config *config, const partmem_memory *memory,
                                 void (*release)(void *memory));

/* Does what partmem_release does at the place of an address, in one call. Returns NOT_HELD as partmem_find_place does. */
partmem_status partmem_release_at(partmem_tenant tenant, const void *at, const partmem_sizes *sizes, partmem_object *freed);

#endif
