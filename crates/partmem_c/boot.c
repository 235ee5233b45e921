/* Boots a machine in memory from the C library. A program that does not call partmem_boot is linked without this file. */
#include <stdlib.h>

#include "booting.h"

partmem_status partmem_boot(partmem_machine *machine, const partmem_config *config)
{
    partmem_memory memory = {NULL, NULL};
    partmem_status status = partmem_boot_in(machine, config, &memory);
    if (status != PARTMEM_BAD_MEMORY) return status; /* the memory is checked last, so the machine or the config is refused */
    memory.ram = aligned_alloc(PARTMEM_FRAME_BYTES, PARTMEM_RAM_BYTES(config->order, config->superblocks));
    memory.tables = malloc(PARTMEM_TABLE_BYTES(config->order, config->superblocks, config->tenants));
    status = memory.ram && memory.tables ? partmem_boot_with(machine, config, &memory, free) : PARTMEM_NO_MEMORY;
    if (status != PARTMEM_DONE) {
        free(memory.ram);
        free(memory.tables);
    }
    return status;
}
