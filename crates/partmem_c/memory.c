/* The memory of a machine, which the caller provides. The kernel allocates only while it boots, through three functions whose
 * names the Rattle toolchain sets. They take the superblocks from the RAM, and all else from the tables. */
#include <stdbool.h>
#include <stdint.h>
#include <string.h>

#include "booting.h"

#define TABLE_ALIGNMENT 16 /* the tables begin at a multiple of it */
/* Allocations in the tables begin and end at multiples of it. So no two allocations share a cache line, or a pair of lines that
 * the processor loads together. */
#define PIECE_BYTES ((size_t)128)
#define OF_NO_SLOT 0xffffffffu

/* What this file knows of a machine's memory. After boot a copy lies in the first piece of the tables, and held[2] of the machine
 * is its address. The tables may be an array of char, in which C allows no object of another type. So the copy is made and read
 * by memcpy, and never used in place. */
struct state {
    uint8_t *ram;
    void *tables;
    uint8_t *next; /* the first free byte of the tables */
    size_t left;   /* how many bytes of the tables are free */
    size_t unit;   /* how many bytes a superblock has */
    uint32_t superblocks, tenants;
    uint32_t allocated; /* how many superblocks are allocated by now */
    void (*release)(void *memory);
};

/* The functions in Rattle that boot and end a machine, the one that returns the slot of a tenant that uses a superblock, and the
 * one that frees what begins at a byte of a superblock. The last two return OF_NO_SLOT if no slot of the tenant uses it. */
partmem_status partmem_boot_kernel(partmem_machine *machine, const partmem_config *config);
partmem_status partmem_end_kernel(partmem_machine *machine);
uint32_t partmem_slot_in_kernel(partmem_machine *machine, uint32_t tenant, uint32_t superblock);
uint32_t partmem_release_in_kernel(partmem_machine *machine, uint32_t tenant, uint32_t superblock, uint32_t offset,
                                   const partmem_sizes *sizes, partmem_object *freed);

/* ---- The functions by which the kernel allocates ------------------------------------------------------------------------ */

struct allocation {
    bool is_done;
    void *at; /* not NULL */
};

/* The state of the machine that is booting, or NULL if none is. While it is NULL, every allocation is refused. */
static struct state *booting;

/* Returns the state of a booted machine. With __builtin_memcpy the compiler loads only the fields that are used. A plain memcpy
 * would be a call, because of -ffreestanding. */
static inline struct state state_of(const partmem_machine *machine)
{
    struct state state;
    __builtin_memcpy(&state, machine->held[2], sizeof state);
    return state;
}

static struct allocation allocate_in_tables(size_t bytes)
{
    if (!bytes) bytes = 1;
    if (!booting || bytes > booting->left) return (struct allocation){false, &booting};
    struct allocation done = {true, booting->next};
    bytes = (bytes + PIECE_BYTES - 1) / PIECE_BYTES * PIECE_BYTES;
    booting->next += bytes;
    booting->left -= bytes;
    return done;
}

/* Allocates for the kernel that boots. Its first allocations with the size of a superblock are the superblocks, in the order of
 * their numbers. `align` is at most 16. */
struct allocation rattle_alloc(size_t bytes, size_t align)
{
    (void)align;
    if (!booting || bytes != booting->unit || booting->allocated == booting->superblocks) return allocate_in_tables(bytes);
    return (struct allocation){true, booting->ram + booting->unit * booting->allocated++};
}

struct allocation rattle_realloc(void *old, size_t kept, size_t bytes, size_t align)
{
    struct allocation moved = allocate_in_tables(bytes);
    (void)align;
    if (moved.is_done) memcpy(moved.at, old, kept);
    return moved;
}

/* Frees nothing: partmem_end frees all memory of the machine at once. */
void rattle_dealloc(void *old)
{
    (void)old;
}

/* ---- Boot and end ------------------------------------------------------------------------------------------------------- */

static bool is_bootable(const partmem_config *config)
{
    return config->order >= PARTMEM_MIN_ORDER && config->order <= PARTMEM_MAX_ORDER && config->superblocks >= 1 &&
           config->superblocks <= PARTMEM_MAX_SUPERBLOCKS && config->superblocks <= PARTMEM_MAX_FRAMES >> config->order &&
           config->tenants >= 1 && config->tenants <= PARTMEM_MAX_TENANTS;
}

static bool is_aligned(const void *at, uintptr_t alignment)
{
    return at && (uintptr_t)at % alignment == 0;
}

partmem_status partmem_boot_with(partmem_machine *machine, const partmem_config *config, const partmem_memory *memory,
                                 void (*release)(void *memory))
{
    if (machine->held[2]) return PARTMEM_HAS_MACHINE;
    if (!is_bootable(config)) return PARTMEM_BAD_CONFIG;
    if (!is_aligned(memory->ram, PARTMEM_FRAME_BYTES) || !is_aligned(memory->tables, TABLE_ALIGNMENT)) return PARTMEM_BAD_MEMORY;
    const size_t skipped = -(uintptr_t)memory->tables % PIECE_BYTES;
    const size_t left = PARTMEM_TABLE_BYTES(config->order, config->superblocks, config->tenants) - skipped;
    struct state state = {memory->ram,
                          memory->tables,
                          (uint8_t *)memory->tables + skipped,
                          left / PIECE_BYTES * PIECE_BYTES,
                          PARTMEM_RAM_BYTES(config->order, 1),
                          config->superblocks,
                          config->tenants,
                          0,
                          release};
    booting = &state;
    const struct allocation copy = allocate_in_tables(sizeof state);
    partmem_status status = partmem_boot_kernel(machine, config);
    booting = NULL;
    if (status == PARTMEM_DONE) machine->held[2] = memcpy(copy.at, &state, sizeof state);
    return status;
}

partmem_status partmem_boot_in(partmem_machine *machine, const partmem_config *config, const partmem_memory *memory)
{
    return partmem_boot_with(machine, config, memory, NULL);
}

partmem_status partmem_end(partmem_machine *machine)
{
    partmem_status status = partmem_end_kernel(machine);
    if (status != PARTMEM_DONE) return status;
    const struct state state = state_of(machine);
    machine->held[2] = NULL;
    if (state.release) {
        state.release(state.ram);
        state.release(state.tables);
    }
    return PARTMEM_DONE;
}

/* ---- Addresses ---------------------------------------------------------------------------------------------------------- */

void *partmem_superblock_address(const partmem_machine *machine, uint32_t superblock)
{
    if (!machine->held[2]) return NULL;
    const struct state state = state_of(machine);
    return superblock < state.superblocks ? state.ram + state.unit * superblock : NULL;
}

partmem_status partmem_find_place(partmem_tenant tenant, const void *at, uint32_t *place)
{
    *place = 0;
    if (!tenant.machine->held[2]) return PARTMEM_NO_MACHINE;
    const struct state state = state_of(tenant.machine);
    if (tenant.number >= state.tenants) return PARTMEM_NO_TENANT;
    const size_t offset = (uintptr_t)at - (uintptr_t)state.ram;
    const size_t superblock = offset >> __builtin_ctzl(state.unit); /* a power of two: a division would take longer */
    if (superblock >= state.superblocks) return PARTMEM_NOT_HELD;
    const uint32_t slot = partmem_slot_in_kernel(tenant.machine, tenant.number, (uint32_t)superblock);
    if (slot == OF_NO_SLOT) return PARTMEM_NOT_HELD;
    *place = (uint32_t)(slot * state.unit + (offset & (state.unit - 1)));
    return PARTMEM_DONE;
}

partmem_status partmem_release_at(partmem_tenant tenant, const void *at, const partmem_sizes *sizes, partmem_object *freed)
{
    if (!tenant.machine->held[2]) return PARTMEM_NO_MACHINE;
    const struct state state = state_of(tenant.machine);
    if (tenant.number >= state.tenants) return PARTMEM_NO_TENANT;
    const size_t offset = (uintptr_t)at - (uintptr_t)state.ram;
    const size_t superblock = offset >> __builtin_ctzl(state.unit);
    if (superblock >= state.superblocks) return PARTMEM_NOT_HELD;
    const uint32_t status = partmem_release_in_kernel(tenant.machine, tenant.number, (uint32_t)superblock,
                                                      (uint32_t)(offset & (state.unit - 1)), sizes, freed);
    return status == OF_NO_SLOT ? PARTMEM_NOT_HELD : (partmem_status)status;
}
