/* Checks the memory of a machine that partmem_boot_in boots. For a grid of sizes, boot has to use exactly PARTMEM_TABLE_BYTES of
 * the tables and nothing of the RAM, and superblock m has to lie m superblocks behind the beginning of the RAM. Then, for each
 * order, a machine in memory full of zeroes has to lend the same places and bytes as one in memory full of another byte. Blocks
 * and objects have to lie in their superblocks, partmem_find_place has to return their places, and superblocks that were never
 * granted may not change. At last machines have 4 GiB of address space as RAM. A boot, grants and events have to leave all of its
 * pages untouched, and a lend touches only the pages of its superblock. Blocks of 2 MiB lie at multiples of 2 MiB, and the last
 * byte has its place. */
#include <sys/mman.h>

#include "trial.h"

enum { FIRST_ORDER = 3, LAST_ORDER = PARTMEM_MAX_ORDER, TENANTS = 2, OTHER = 0xee, GUARD = 4096, RAM = 8 << 20, HUGE = 2 << 20 };

#define WIDEST_RAM ((size_t)4 << 30)

static partmem_machine machine;
static const partmem_tenant me = {&machine, 1}, another = {&machine, 0};
static partmem_config sizes;
static uint8_t *ram, *tables; /* of the machine; GUARD bytes follow the tables */
static size_t unit, table_bytes;
static uint64_t seen; /* a hash of the places and the bytes of all that was lent */

static bool are_all(const uint8_t *from, int byte, size_t bytes)
{
    return *from == byte && !memcmp(from, from + 1, bytes - 1);
}

static partmem_status boot_at(void *its_ram, void *its_tables)
{
    const partmem_memory memory = {its_ram, its_tables};
    return partmem_boot_in(&machine, &sizes, &memory);
}

/* Returns how many bytes of the tables the boot has left free. It is the fourth word of the `struct state` of memory.c. */
static size_t left_after_boot(void)
{
    size_t words[4];
    memcpy(words, machine.held[2], sizeof words);
    return words[3];
}

/* Boots with tables that are full of one byte. */
static void boot_in(uint32_t order, uint32_t superblocks, uint32_t tenants, int before)
{
    sizes = (partmem_config){order, superblocks, tenants};
    unit = PARTMEM_RAM_BYTES(order, 1);
    table_bytes = PARTMEM_TABLE_BYTES(order, superblocks, tenants);
    memset(tables, before, table_bytes);
    memset(tables + table_bytes, OTHER, GUARD);
    MUST(boot_at(ram, tables) == PARTMEM_DONE && left_after_boot() == 0);
    for (uint32_t m = 0; m < superblocks; m++) MUST(partmem_superblock_address(&machine, m) == ram + m * unit);
    MUST(!partmem_superblock_address(&machine, superblocks) && !partmem_superblock_address(&machine, UINT32_MAX));
}

static void end(void)
{
    MUST(partmem_end(&machine) == PARTMEM_DONE && !partmem_superblock_address(&machine, 0));
    MUST(are_all(tables + table_bytes, OTHER, GUARD));
}

/* Boots a grid of sizes, in RAM that cannot be read or written. */
static void try_sizes(void)
{
    static const uint32_t superblocks[] = {1,  2,  3,  4,  5,  6,  7,  8,  9,   12,  15,  16,  17,  20,
                                           31, 32, 33, 48, 63, 64, 65, 100, 127, 128, 129, 200, 255, 256};
    static const uint32_t tenants[] = {1, 2, 3, 4, 5, 7, 8, 9, 15, 16, 17, 31, 32, 33, 48, 63, 64};
    const uint32_t count = 6 * LEN(superblocks) * LEN(tenants);
    double most = 0, least = 9, sum = 0;
    for (uint32_t i = 0; i < count; i++) {
        size_t written;
        boot_in(FIRST_ORDER + i % 6, superblocks[i / 6 % LEN(superblocks)], tenants[i / 6 / LEN(superblocks)], OTHER);
        for (written = table_bytes; tables[written - 1] == OTHER; written--) {}
        double ratio = (double)table_bytes / (double)written;
        most = ratio > most ? ratio : most;
        least = ratio < least ? ratio : least;
        sum += ratio;
        end();
    }
    printf("%u sizes: the tables are %.4f to %.3f times what boot writes, %.4f in the mean\n", count, least, most, sum / count);
}

/* Boots machines of more than 256 superblocks, of more than 64 tenants, or of the orders 9 and 10, in RAM that cannot be read or
 * written. */
static void try_wide_sizes(void)
{
    static const uint32_t superblocks[] = {1, 2, 64, 65, 255, 257, 511, 512, 513, 1023, 1024, 1025, 2048, 2049, 4095, 4096};
    static const uint32_t tenants[] = {255, 1, 64, 65, 129};
    uint32_t count = 0;
    for (uint32_t order = FIRST_ORDER; order <= LAST_ORDER; order++) {
        for (uint32_t i = 0; i < LEN(superblocks) && superblocks[i] <= PARTMEM_MAX_FRAMES >> order; i++) {
            boot_in(order, superblocks[i], tenants[count++ % LEN(tenants)], OTHER);
            end();
        }
    }
    printf("%u wide sizes: boot uses the tables to their last piece\n", count);
}

/* Checks that lent memory lies in its superblock, that partmem_find_place returns the places of its first and last byte, and that
 * it refuses the first byte for another tenant. Adds the memory to the hash, and overwrites it. */
static void check(const partmem_lent *lent)
{
    uint8_t *at = lent->at;
    uint32_t place, last = lent->bytes - 1;
    partmem_slot slot;
    MUST(partmem_find_slot(me, lent->place / (uint32_t)unit, &slot) == PARTMEM_DONE);
    MUST(at == ram + slot.superblock * unit + lent->place % unit);
    MUST(partmem_find_place(me, at, &place) == PARTMEM_DONE && place == lent->place);
    MUST(partmem_find_place(me, at + last, &place) == PARTMEM_DONE && place == lent->place + last);
    MUST(partmem_find_place(another, at, &place) == PARTMEM_NOT_HELD && place == 0);
    for (uint32_t i = 0; i <= last; i++) seen = (seen ^ at[i]) * 0x100000001b3;
    seen = (seen ^ lent->place ^ (uint64_t)slot.superblock << 32) * 0x100000001b3;
    memset(at, 7, lent->bytes);
}

static void grant_half(void)
{
    partmem_slot slot;
    MUST(partmem_reset(me) == PARTMEM_DONE);
    for (uint32_t m = 0; m < sizes.superblocks / 2; m++) MUST(partmem_grant(me, &slot) == PARTMEM_DONE && slot.superblock == m);
}

/* Allocates page blocks of an order until none is free. Each has to begin at a page, and at a multiple of its size in the RAM. */
static void try_blocks(uint32_t order)
{
    partmem_lent block;
    uint32_t count = 0;
    grant_half();
    for (; partmem_alloc(me, order, &block) == PARTMEM_DONE; count++) {
        MUST((uintptr_t)block.at % 4096 == 0 && (size_t)((uint8_t *)block.at - ram) % block.bytes == 0);
        check(&block);
    }
    MUST(count == sizes.superblocks / 2 << (sizes.order - order));
}

/* Makes a cache, and takes some objects. Each has to begin at a multiple of the alignment. If `is_reset`, the tenant is first
 * reset, and gets half of the superblocks. */
static void try_objects(uint32_t size, uint32_t align, bool is_reset)
{
    partmem_cache cache;
    partmem_lent object;
    if (is_reset) grant_half();
    MUST(partmem_make_cache(me, size, align, "ab", 2, &cache) == PARTMEM_DONE);
    for (uint32_t i = 0; i < 2 * cache.objects && i < 40; i++) {
        MUST(partmem_take(me, cache.cache, &object) == PARTMEM_DONE && object.bytes == size);
        MUST((uintptr_t)object.at % align == 0);
        check(&object);
    }
}

/* Checks addresses that no tenant holds: outside the RAM, in a superblock without an owner, and, after a move, the former address
 * of a block. */
static void try_addresses(void)
{
    partmem_lent block, moved;
    partmem_slot slot;
    uint32_t place;
    const uint8_t *not_held[] = {NULL, ram - 1, ram + RAM, tables, (uint8_t *)&place, ram + sizes.superblocks / 2 * unit};
    grant_half();
    for (size_t i = 0; i < LEN(not_held); i++) {
        MUST(partmem_find_place(me, not_held[i], &place) == PARTMEM_NOT_HELD && place == 0);
        MUST(partmem_find_place(another, not_held[i], &place) == PARTMEM_NOT_HELD && place == 0);
    }
    MUST(partmem_alloc(me, 0, &block) == PARTMEM_DONE);
    check(&block);
    MUST(partmem_move(me, block.place / (uint32_t)unit, &slot) == PARTMEM_DONE);
    MUST(partmem_find_place(me, block.at, &place) == PARTMEM_NOT_HELD && place == 0);
    MUST(partmem_lend_block(me, block.place, &moved) == PARTMEM_DONE && moved.at != block.at);
    check(&moved);
}

/* Boots a machine in memory full of one byte, tries it, and returns the hash of all that it lent. */
static uint64_t seen_in(uint32_t order, int before)
{
    static const uint32_t object_sizes[] = {1, 24, 100, 320, 1000, 4096};
    memset(ram, before, RAM);
    boot_in(order, RAM / (PARTMEM_FRAME_BYTES << order), TENANTS, before);
    seen = 0;
    for (uint32_t k = 0; k <= order; k++) try_blocks(k);
    for (uint32_t i = 0; i < 36; i++) try_objects(object_sizes[i % 6], 8 << i / 6, i % 6 == 0);
    MUST(are_all(ram + RAM / 2, before, RAM / 2));
    try_addresses();
    end();
    return seen;
}

/* Checks that bad memory is refused, that a boot tests first whether there is a machine, then the configuration, then the memory,
 * and that partmem_boot can boot a second machine. */
static void try_boots(void)
{
    static const partmem_machine zeroes;
    partmem_machine second = {{0}};
    const partmem_config good = {3, 4, 2}, bad = {3, 4, 256};
    sizes = good;
    MUST(boot_at(NULL, tables) == PARTMEM_BAD_MEMORY && boot_at(ram, NULL) == PARTMEM_BAD_MEMORY);
    MUST(boot_at(ram + 2048, tables) == PARTMEM_BAD_MEMORY && boot_at(ram + 16, tables) == PARTMEM_BAD_MEMORY);
    MUST(boot_at(ram, tables + 8) == PARTMEM_BAD_MEMORY && !memcmp(&machine, &zeroes, sizeof zeroes));
    sizes = bad;
    MUST(boot_at(NULL, NULL) == PARTMEM_BAD_CONFIG && !memcmp(&machine, &zeroes, sizeof zeroes));
    boot_in(3, 4, 2, OTHER);
    MUST(partmem_boot(&second, &good) == PARTMEM_DONE);
    sizes = bad;
    MUST(boot_at(NULL, NULL) == PARTMEM_HAS_MACHINE);
    MUST((uintptr_t)partmem_superblock_address(&second, 0) % 4096 == 0);
    end();
    MUST(!memcmp(&machine, &zeroes, sizeof zeroes));
    MUST(partmem_end(&second) == PARTMEM_DONE && !memcmp(&second, &zeroes, sizeof zeroes));
}

/* Reserves memory between two pages that cannot be read or written. */
static uint8_t *reserve(size_t bytes, int how)
{
    uint8_t *at = mmap(NULL, bytes + 8192, PROT_NONE, MAP_PRIVATE | MAP_ANONYMOUS | MAP_NORESERVE, -1, 0);
    MUST(at != MAP_FAILED && mprotect(at + 4096, bytes, how) == 0);
    return at + 4096;
}

static size_t unit_of(uint32_t order) { return PARTMEM_RAM_BYTES(order, 1); }

/* Returns how many pages of the RAM between two addresses are in memory. */
static size_t touched(const uint8_t *from, const uint8_t *to)
{
    static unsigned char pages[WIDEST_RAM / 4096];
    size_t count = 0;
    MUST(from == to || mincore((void *)from, (size_t)(to - from), pages) == 0);
    for (size_t i = 0; i < (size_t)(to - from) / 4096; i++) count += pages[i] & 1;
    return count;
}

/* Boots a machine with 4 GiB of address space as RAM. One tenant gets all of it. Its events allocate all superblocks, and direct
 * calls allocate the first and the last once more. They touch the pages of these two superblocks; if a huge page is larger than a
 * superblock, those of the huge page. */
static void try_address_space(uint32_t order)
{
    const size_t huge = unit_of(order) < HUGE ? HUGE : unit_of(order);
    const uint8_t *ram_end = ram + WIDEST_RAM, *second = ram + huge, *next_to_last = ram_end - huge;
    partmem_request request = {PARTMEM_ALLOC, me.number, order, 0};
    partmem_slot slot;
    partmem_reply reply;
    partmem_lent block, last;
    partmem_block found;
    partmem_object object;
    partmem_figures figures;
    uint8_t bytes[PARTMEM_MAX_BYTES];
    uint32_t place;
    boot_in(order, PARTMEM_MAX_FRAMES >> order, TENANTS, OTHER);
    for (uint32_t m = 0; m < sizes.superblocks; m++) MUST(partmem_grant(me, &slot) == PARTMEM_DONE && slot.slot == m);
    MUST(partmem_grant(another, &slot) == PARTMEM_POOL_EMPTY);
    for (uint32_t m = 0; m < sizes.superblocks; m++) {
        MUST(partmem_event(&machine, &request, bytes, 0, &reply, bytes, sizeof bytes) == PARTMEM_DONE && reply.first == m << order);
    }
    MUST(touched(ram, ram_end) == 0);
    MUST(partmem_free(me, 0) == PARTMEM_DONE && partmem_free(me, (uint32_t)(WIDEST_RAM - unit)) == PARTMEM_DONE);
    for (uint32_t k = 0; k < 2; k++) {
        const uint32_t small = order - k;
        MUST(partmem_alloc(me, small, &block) == PARTMEM_DONE && block.at == ram && block.place == 0);
        MUST((uintptr_t)block.at % block.bytes == 0 || block.bytes > HUGE);
        MUST(partmem_free(me, 0) == PARTMEM_DONE);
    }
    MUST(touched(ram, ram + unit) == unit / 4096 && touched(second, ram_end) == 0);
    MUST(partmem_alloc(me, order, &block) == PARTMEM_DONE && partmem_alloc(me, order, &last) == PARTMEM_DONE);
    MUST(touched(second, next_to_last) == 0 && touched(ram_end - unit, ram_end) == unit / 4096);
    uint8_t *const end_of_last = (uint8_t *)last.at + last.bytes;
    MUST(end_of_last == ram_end && last.place == (uint32_t)(WIDEST_RAM - unit));
    MUST(partmem_find_place(me, ram_end - 1, &place) == PARTMEM_DONE && place == PARTMEM_NO_PLACE);
    MUST(partmem_find_place(me, ram_end, &place) == PARTMEM_NOT_HELD && partmem_find_place(me, ram - 1, &place) == PARTMEM_NOT_HELD);
    MUST(partmem_at(me, PARTMEM_NO_PLACE, 1) == end_of_last - 1 && !partmem_at(me, PARTMEM_NO_PLACE, 2));
    MUST(!partmem_at(me, last.place, last.bytes + 1) && partmem_at(me, last.place, last.bytes) == last.at);
    MUST(partmem_find_block(me, PARTMEM_NO_PLACE, &found) == PARTMEM_DONE && found.place == last.place);
    MUST(found.use == PARTMEM_PAGE_BLOCK && found.place + found.bytes == 0);
    MUST(partmem_find_object(me, PARTMEM_NO_PLACE, &object) == PARTMEM_DONE && object.place == last.place);
    MUST(partmem_free(me, PARTMEM_NO_PLACE) == PARTMEM_NOT_A_BLOCK && partmem_free(me, partmem_place_of(0x100000)) != PARTMEM_DONE);
    MUST(partmem_report(me, &figures) == PARTMEM_DONE && figures.frames == PARTMEM_MAX_FRAMES && figures.free == 0);
    MUST(figures.orders == order + 1 && figures.order[order].taken == sizes.superblocks && figures.greatest == 0);
    MUST(partmem_reset(me) == PARTMEM_DONE && touched(second, next_to_last) == 0);
    end();
    MUST(touched(second, next_to_last) == 0 && madvise(ram, WIDEST_RAM, MADV_DONTNEED) == 0);
}

/* Tries 4 GiB of address space that begins at a multiple of 2 MiB. */
static void try_widest(void)
{
    uint8_t *at = mmap(NULL, WIDEST_RAM + HUGE, PROT_READ | PROT_WRITE, MAP_PRIVATE | MAP_ANONYMOUS | MAP_NORESERVE, -1, 0);
    if (at == MAP_FAILED) {
        puts("there are no 4 GiB of address space: not tried");
        return;
    }
    ram = at + -(uintptr_t)at % HUGE;
    for (uint32_t order = 8; order <= LAST_ORDER; order++) try_address_space(order);
    puts("4 GiB of address space: only the pages of lent superblocks are touched");
    munmap(at, WIDEST_RAM + HUGE);
}

/* Checks that page blocks of 2 MiB lie at multiples of 2 MiB if the RAM does. */
static void try_huge_pages(void)
{
    partmem_lent block;
    uint8_t *at = mmap(NULL, RAM + HUGE, PROT_READ | PROT_WRITE, MAP_PRIVATE | MAP_ANONYMOUS, -1, 0);
    MUST(at != MAP_FAILED);
    ram = at + -(uintptr_t)at % HUGE;
    for (uint32_t order = 9; order <= LAST_ORDER; order++) {
        uint32_t count = 0;
        boot_in(order, RAM / (PARTMEM_FRAME_BYTES << order), TENANTS, OTHER);
        grant_half();
        while (partmem_alloc(me, 9, &block) == PARTMEM_DONE) {
            MUST(block.bytes == HUGE && (uintptr_t)block.at % HUGE == 0 && block.place == count++ * HUGE);
        }
        MUST(count == RAM / 2 / HUGE);
        end();
    }
    munmap(at, RAM + HUGE);
}

int main(void)
{
    tables = reserve((PARTMEM_TABLE_BYTES(8, 4096, 255) + GUARD + 4095) / 4096 * 4096, PROT_READ | PROT_WRITE);
    ram = reserve(WIDEST_RAM, PROT_NONE);
    try_sizes();
    try_wide_sizes();
    ram = reserve(RAM, PROT_READ | PROT_WRITE);
    for (uint32_t order = FIRST_ORDER; order <= LAST_ORDER; order++) MUST(seen_in(order, OTHER) == seen_in(order, 0));
    try_boots();
    try_huge_pages();
    try_widest();
    return 0;
}
