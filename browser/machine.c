/* One machine of partmem in a WebAssembly module with 64-bit addresses. An instance of the module is one machine. Whoever wants
 * another machine makes another instance, whose memory reads as zero. So nothing calls partmem_end, which is the library's only
 * call through a pointer, and the module has no table of functions. */
#include <stddef.h>
#include <stdint.h>

#include "partmem.h"

#define WASM_PAGE_BYTES 65536u

/* The largest sizes of a machine are those of the program `partmem`. */
enum { MAX_LINE_BYTES = 65536, MAX_ORDER = 8, MAX_SUPERBLOCKS = 256, MAX_TENANTS = 64 };

extern unsigned char __heap_base; /* by the linker: the first byte after stack and variables */

/* partmem_find_block has a partmem_tenant as an argument. In C for WebAssembly that is its address, but the function in Rattle takes
 * its two fields, as for x86-64. So the function is declared once more, with the fields. */
partmem_status find_block_of(partmem_machine *machine, uint32_t tenant, uint32_t place, partmem_block *found)
    __asm__("partmem_find_block");

static partmem_machine machine;
static char line[MAX_LINE_BYTES];
static char replies[PARTMEM_LINE_BUFFER_BYTES];
static partmem_block block;
static partmem_owner owner;

/* The addresses at which the page writes a line, and reads results. */
char *line_address(void)
{
    return line;
}

char *replies_address(void)
{
    return replies;
}

partmem_block *block_address(void)
{
    return &block;
}

partmem_owner *owner_address(void)
{
    return &owner;
}

/* Adds memory to the module until it has `bytes` bytes. Returns whether it has them. */
static int has_memory(size_t bytes)
{
    const size_t now = __builtin_wasm_memory_size(0) * WASM_PAGE_BYTES;
    return bytes <= now || __builtin_wasm_memory_grow(0, (bytes - now + WASM_PAGE_BYTES - 1) / WASM_PAGE_BYTES) != (size_t)-1;
}

/* Boots the machine, once. Returns a partmem_status, like the functions below. */
partmem_status boot(uint32_t order, uint32_t superblocks, uint32_t tenants)
{
    const partmem_config config = {order, superblocks, tenants};
    if (order > MAX_ORDER || superblocks > MAX_SUPERBLOCKS || tenants > MAX_TENANTS)
        return PARTMEM_BAD_CONFIG; /* before its sizes are computed */
    const size_t heap = (size_t)&__heap_base;
    const size_t ram = (heap + PARTMEM_FRAME_BYTES - 1) / PARTMEM_FRAME_BYTES * PARTMEM_FRAME_BYTES;
    const size_t tables = ram + PARTMEM_RAM_BYTES(order, superblocks);
    if (!has_memory(tables + PARTMEM_TABLE_BYTES(order, superblocks, tenants))) return PARTMEM_NO_MEMORY;
    const partmem_memory memory = {(void *)ram, (void *)tables};
    return partmem_boot_in(&machine, &config, &memory);
}

/* Runs the first `bytes` bytes at line_address as a line. Returns how many bytes of replies there are, or else -status. */
int run(uint32_t bytes)
{
    size_t written = 0;
    if (bytes > MAX_LINE_BYTES) return -(int)PARTMEM_BUFFER_TOO_SMALL;
    partmem_status status = partmem_line(&machine, line, bytes, replies, sizeof replies, &written);
    return status == PARTMEM_DONE ? (int)written : -(int)status;
}

partmem_status find_block(uint32_t tenant, uint32_t place)
{
    return find_block_of(&machine, tenant, place, &block);
}

partmem_status find_owner(uint32_t superblock)
{
    return partmem_find_superblock(&machine, superblock, &owner);
}
