/* The calls to partmem. Each request, such as an allocation or a grant, is printed as a line of a trace, with its reply in the
 * form of the program `partmem`. So demo-kernel/run can have `partmem` run the requests again, and compare the replies. Lookups,
 * lends, the boot and the end are not printed. */
#include "kernel.h"

enum planted planted;
static partmem_machine machine; /* all zeroes until the boot; only the library uses it (duty 1) */
static uint8_t tables[PARTMEM_TABLE_BYTES(ORDER, SUPERBLOCKS, TENANTS)] __attribute__((aligned(16)));

static partmem_tenant tenant_of(unsigned t) { return (partmem_tenant){&machine, t}; }

void must(partmem_status status)
{
    if (status != PARTMEM_DONE) panic(partmem_strerror(status));
}

/* Boots once (duty 14), in two regions that nothing else uses (duty 3). The RAM is first filled with bytes that are not 0, as an
 * earlier system may leave it. */
void set_up_memory(void)
{
    const partmem_config config = {ORDER, SUPERBLOCKS, TENANTS};
    const partmem_memory memory = {RAM, tables};
    memset(RAM, 0xa5, RAM_BYTES);
    must(partmem_boot_in(&machine, &config, &memory));
    for (uint32_t m = 0; m < SUPERBLOCKS; m++)
        if (partmem_superblock_address(&machine, m) != RAM + m * SUPERBLOCK) panic("a superblock lies elsewhere");
}

/* Clears the RAM and the tables (duty 10). */
void end_memory(void)
{
    must(partmem_end(&machine));
    memset(RAM, 0, RAM_BYTES);
    memset(tables, 0, sizeof tables);
}

enum { ADMIN = TENANTS };

/* Returns false if the call of tenant `who`, or of ADMIN, was done. If it was refused, prints the refusal and returns true. If
 * the status is an error and no refusal, ends the kernel. */
static bool is_refused(unsigned who, partmem_status status)
{
    static char name[32];
    const char *text = partmem_strerror(status);
    if (status == PARTMEM_DONE) return false;
    if (status >= PARTMEM_NO_MACHINE) panic(text);
    memset(name, 0, sizeof name);
    for (unsigned i = 0; text[i] != ':' && i < sizeof name - 1; i++) name[i] = text[i];
    if (who == ADMIN) print("admin> refused %u %s\n", (unsigned)status, name);
    else print("%u> refused %u %s\n", who, (unsigned)status, name);
    return true;
}

/* ---- Page blocks -------------------------------------------------------------------------------------------------------- */

/* Maps a block that partmem_alloc or partmem_lend_block has returned. So no slab, no free frame and no bytes of another
 * superblock are mapped (duty 11). */
static void map_block(unsigned t, partmem_lent block)
{
    uint8_t *at = block.at;
    if (planted == OTHER_ADDRESS && t == 0 && block.place) at = RAM + ((at - RAM) ^ SUPERBLOCK); /* place 0 is the first stack */
    map(t, block.place, at, block.bytes);
}

/* Plants the mistake NO_WRITE_OUT: allocates a block without a lend, and computes its address from the superblock's. So old bytes
 * of the superblock may still be there. */
static partmem_status alloc_without_lend(unsigned t, uint32_t order, partmem_lent *block)
{
    const partmem_request request = {PARTMEM_ALLOC, t, order, 0};
    partmem_reply reply;
    partmem_slot slot;
    static uint8_t buffer[PARTMEM_MAX_BYTES];
    must(partmem_event(&machine, &request, "", 0, &reply, buffer, sizeof buffer));
    if (reply.kind == PARTMEM_REFUSED) return (partmem_status)reply.first;
    block->place = reply.first * FRAME, block->bytes = (uint32_t)FRAME << order;
    must(partmem_find_slot(tenant_of(t), block->place / SUPERBLOCK, &slot));
    block->at = (uint8_t *)partmem_superblock_address(&machine, slot.superblock) + block->place % SUPERBLOCK;
    return PARTMEM_DONE;
}

partmem_status alloc_block(unsigned t, uint32_t order, uint32_t *frame)
{
    partmem_lent block;
    partmem_status status = planted == NO_WRITE_OUT ? alloc_without_lend(t, order, &block)
                                                    : partmem_alloc(tenant_of(t), order, &block);
    print("%u alloc %u\n", t, order);
    if (is_refused(t, status)) return status;
    *frame = block.place / FRAME;
    print("%u> frame %u\n", t, *frame);
    map_block(t, block);
    return PARTMEM_DONE;
}

/* Unmaps the block that begins at a frame, and then frees it (duty 12). */
partmem_status free_block(unsigned t, uint32_t frame)
{
    partmem_lent block = {0};
    partmem_status status = PARTMEM_DONE;
    uint32_t place = partmem_place_of(frame), order = 0;
    if (planted == FREED_FIRST) status = partmem_free(tenant_of(t), place);
    bool is_block = partmem_lend_block(tenant_of(t), place, &block) == PARTMEM_DONE && block.place == place;
    if (is_block) unmap(t, place, block.bytes);
    if (planted != FREED_FIRST) status = partmem_free(tenant_of(t), place);
    print("%u free %u\n", t, frame);
    if (is_refused(t, status)) return status;
    while ((uint32_t)FRAME << order < block.bytes) order++;
    print("%u> freed %u\n", t, order);
    return PARTMEM_DONE;
}

/* ---- Objects ------------------------------------------------------------------------------------------------------------ */

void make_cache(unsigned t, uint32_t size, uint32_t align)
{
    partmem_cache made;
    uint32_t order = 0;
    must(partmem_make_cache(tenant_of(t), size, align, "", 1, &made));
    while ((uint32_t)FRAME << order < made.slab_bytes) order++;
    print("%u cache %u %u 00\n%u> cache %u chunk %u order %u objects %u colours %u\n", t, size, align, t, made.cache, made.chunk,
          order, made.objects, made.colours);
}

partmem_status take_object(unsigned t, uint32_t cache, uint32_t *place)
{
    partmem_lent object;
    partmem_status status = partmem_take(tenant_of(t), cache, &object);
    print("%u take %u\n", t, cache);
    if (is_refused(t, status)) return status;
    *place = object.place;
    print("%u> object %u\n", t, *place);
    if (planted == SLAB_MAPPED) map(t, *place / FRAME * FRAME, (uint8_t *)object.at - *place % FRAME, FRAME);
    return PARTMEM_DONE;
}

/* Gives an object back. The place may come from a user: the library refuses each place at which no object of this cache begins
 * (duty 7). */
partmem_status drop_object(unsigned t, uint32_t cache, uint32_t place)
{
    partmem_status status = partmem_give(tenant_of(t), cache, place);
    print("%u give %u %u\n", t, cache, place);
    if (is_refused(t, status)) return status;
    print("%u> given\n", t);
    return PARTMEM_DONE;
}

/* Returns the address of a live object, or NULL if no object of the cache begins at the place. Use the address before the next
 * call that could move or free the object, and do not store it (duty 5). */
const void *lent_object(unsigned t, uint32_t cache, uint32_t place) { return partmem_object_at(tenant_of(t), cache, place); }

/* Copies bytes of the kernel's own memory, usually its stack, into an object. Ends the kernel if they would go beyond the
 * object's end (duties 2 and 4). */
void store_in_object(unsigned t, uint32_t cache, uint32_t place, uint32_t offset, const void *from, uint32_t bytes)
{
    partmem_lent object;
    must(partmem_lend_object(tenant_of(t), cache, place, &object));
    if (bytes > PARTMEM_MAX_BYTES || offset > object.bytes || bytes > object.bytes - offset) panic("a store beyond an object");
    memcpy((uint8_t *)object.at + offset, from, bytes);
    print("%u write %u ", t, place + offset);
    print_bytes(from, bytes);
    print("\n%u> written %u\n", t, bytes);
}

void reap(unsigned t)
{
    uint32_t frames;
    must(partmem_reap(tenant_of(t), &frames));
    print("%u reap\n%u> reaped %u\n", t, t, frames);
}

void report(unsigned t)
{
    static partmem_figures it;
    must(partmem_report(tenant_of(t), &it));
    print("%u report\n%u> frames %u live %u free %u top ", t, t, it.frames, it.live, it.free);
    if (it.greatest) print("%u", (unsigned)__builtin_ctz(it.greatest / FRAME));
    else print("none");
    print(" split %u\n", it.split);
    for (uint32_t k = 0; k < it.orders; k++) print("%u> order %u free %u taken %u\n", t, k, it.order[k].free, it.order[k].taken);
    for (uint32_t c = 0; c < it.caches; c++)
        print("%u> cache %u full %u partial %u empty %u live %u\n", t, it.cache[c].cache, it.cache[c].full, it.cache[c].partial,
              it.cache[c].empty, it.cache[c].live);
}

/* ---- For the administrator ---------------------------------------------------------------------------------------------- */

bool grant(unsigned t, partmem_slot *granted)
{
    partmem_status status = partmem_grant(tenant_of(t), granted);
    print("admin grant %u\n", t);
    if (is_refused(ADMIN, status)) return false;
    print("admin> granted %u slot %u superblock %u\n", t, granted->slot, granted->superblock);
    return true;
}

/* Maps the page blocks of a slot again, at their new addresses (duty 5). */
static void map_slot(unsigned t, uint32_t slot)
{
    partmem_block it;
    partmem_lent block;
    for (uint32_t place = slot * SUPERBLOCK; place < (slot + 1) * SUPERBLOCK; place = it.place + it.bytes) {
        must(partmem_find_block(tenant_of(t), place, &it));
        if (it.use != PARTMEM_PAGE_BLOCK) continue;
        must(partmem_lend_block(tenant_of(t), place, &block));
        map_block(t, block);
    }
}

/* Moves a slot of a running partition. During the move the pages of the slot are not mapped (duty 12). */
bool move_slot(unsigned t, uint32_t slot)
{
    partmem_slot moved;
    if (planted != NO_REMAP && planted != SLAB_MAPPED) unmap(t, slot * SUPERBLOCK, SUPERBLOCK);
    partmem_status status = partmem_move(tenant_of(t), slot, &moved);
    if (planted != NO_REMAP) map_slot(t, slot);
    print("admin move %u %u\n", t, slot);
    if (is_refused(ADMIN, status)) return false;
    print("admin> moved %u slot %u superblock %u\n", t, moved.slot, moved.superblock);
    return true;
}

/* Takes a slot back. It need not unmap anything: the library refuses the take-back if a page block is in the slot. */
bool take_back(unsigned t, uint32_t slot)
{
    partmem_slot found = {0};
    bool is_held = partmem_find_slot(tenant_of(t), slot, &found) == PARTMEM_DONE;
    partmem_status status = partmem_take_back(tenant_of(t), slot);
    print("admin takeback %u %u\n", t, slot);
    if (is_refused(ADMIN, status)) return false;
    if (!is_held) panic("a slot was taken back that was not held");
    print("admin> taken superblock %u\n", found.superblock);
    return true;
}

/* Takes back all memory of a tenant. If the tenant is a partition, first ends it and unmaps all its places (duties 12 and 13). */
void reset(unsigned t)
{
    unsigned slots = slots_of(t);
    if (t < PARTITIONS) end_partition(t), unmap(t, 0, SUPERBLOCKS * SUPERBLOCK);
    must(partmem_reset(tenant_of(t)));
    print("admin reset %u\nadmin> reset %u superblocks %u\n", t, t, slots);
}

static partmem_owner owner_of(uint32_t superblock)
{
    partmem_owner owner;
    must(partmem_find_superblock(&machine, superblock, &owner));
    return owner;
}

bool is_free(uint32_t superblock) { return !owner_of(superblock).is_owned; }
bool is_owned_by(unsigned t, uint32_t superblock) { return !is_free(superblock) && owner_of(superblock).tenant == t; }

unsigned slots_of(unsigned t)
{
    unsigned slots = 0;
    for (uint32_t m = 0; m < SUPERBLOCKS; m++) slots += is_owned_by(t, m);
    return slots;
}

/* Returns how many bytes of a superblock are not 0. The superblock need not have an owner. */
uint64_t bytes_not_zero(uint32_t superblock)
{
    const uint8_t *at = partmem_superblock_address(&machine, superblock);
    uint64_t bytes = 0;
    for (uint32_t i = 0; i < SUPERBLOCK; i++) bytes += at[i] != 0;
    return bytes;
}
