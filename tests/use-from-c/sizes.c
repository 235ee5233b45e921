/* For each order, boots machines with each number of superblocks, then with each number of tenants, then with every tenth number
 * of superblocks combined with every third number of tenants. Sizes outside the ranges have to be refused. Checks what each
 * machine reports about itself, and that a call writes no byte that it may not write. partmem_end has to leave zeroes in the
 * partmem_machine. Then boots each combination of sizes up to order 8, 256 superblocks and 64 tenants in tables of the size that
 * PARTMEM_TABLE_BYTES says, and does all this with larger sizes too. Also refuses each allocation of three boots in turn, so it is
 * linked with library_memory.c. */
#define _DEFAULT_SOURCE /* mmap without a file */
#include <stdbool.h>
#include <stdio.h>
#include <stdlib.h>
#include <string.h>
#include <sys/mman.h>

#include "library_memory.h"
#include "partmem.h"

#define LEN(array) (sizeof(array) / sizeof *(array))

enum { UNTOUCHED = 0xa5, MACHINE = sizeof(partmem_machine) };

/* What a call writes, with bytes around it that it may not touch. */
static struct {
    uint8_t front[64];
    union {
        partmem_machine machine;
        partmem_reply reply;
        partmem_owner owner;
        partmem_lent lent;
        partmem_figures figures;
        size_t written;
        uint32_t words[6];
        uint8_t bytes[PARTMEM_LINE_BUFFER_BYTES];
    } inside;
    uint8_t back[64];
} place, fence, buffer;

static void check(bool holds, const char *what, uint32_t order, uint32_t superblocks, uint32_t tenants)
{
    if (holds) return;
    fprintf(stderr, "sizes: %s: order %u, %u superblocks, %u tenants\n", what, order, superblocks, tenants);
    exit(1);
}

/* Returns whether `fenced` (`place`, `fence` or `buffer`) is untouched, except for the first `bytes` bytes of its inside. */
static bool is_kept_behind(const void *fenced, size_t bytes)
{
    static uint8_t untouched[sizeof fence];
    if (!untouched[0]) memset(untouched, UNTOUCHED, sizeof untouched);
    const uint8_t *front = fenced, *behind = front + sizeof fence.front + bytes;
    return !memcmp(front, untouched, sizeof fence.front) && !memcmp(behind, untouched, sizeof fence - sizeof fence.front - bytes);
}

static partmem_machine *vacant_place(void)
{
    memset(&place, UNTOUCHED, sizeof place);
    memset(&place.inside, 0, sizeof place.inside.machine);
    return &place.inside.machine;
}

static partmem_status boot(partmem_machine *machine, uint32_t order, uint32_t superblocks, uint32_t tenants)
{
    const partmem_config config = {order, superblocks, tenants};
    return partmem_boot(machine, &config);
}

/* Returns the six numbers of the reply to an event. Checks that the event writes only these and, for a read, the bytes read. */
static const uint32_t *reply_to(partmem_machine *machine, uint32_t kind, uint32_t tenant, uint32_t first, uint32_t second)
{
    const partmem_request request = {kind, tenant, first, second};
    const uint8_t pattern = 0x3c;
    memset(&fence, UNTOUCHED, sizeof fence);
    memset(&buffer, UNTOUCHED, sizeof buffer);
    uint8_t *few = buffer.inside.bytes;
    partmem_status status = partmem_event(machine, &request, &pattern, 1, &fence.inside.reply, few, PARTMEM_MAX_BYTES);
    bool is_done = status == PARTMEM_DONE && is_kept_behind(&fence, 6 * sizeof(uint32_t)) && is_kept_behind(&place, MACHINE);
    check(is_done, "an event", kind, tenant, first);
    check(is_kept_behind(&buffer, kind == PARTMEM_READ ? second : 0), "the buffer of an event", kind, tenant, first);
    return fence.inside.words;
}

static bool is_reply(const uint32_t *words, uint32_t kind, uint32_t first, uint32_t second, uint32_t third)
{
    return words[0] == kind && words[1] == first && words[2] == second && words[3] == third;
}

/* Returns whether partmem_find_superblock reports slot 0 of this tenant as the owner, or no owner if `is_owned` is false, and
 * writes nothing else. */
static bool is_owner(partmem_machine *machine, uint32_t superblock, bool is_owned, uint32_t tenant)
{
    memset(&fence, UNTOUCHED, sizeof fence);
    partmem_status status = partmem_find_superblock(machine, superblock, &fence.inside.owner);
    return status == PARTMEM_DONE && is_kept_behind(&fence, 12) && fence.inside.words[0] == is_owned &&
           fence.inside.words[1] == tenant && fence.inside.words[2] == 0;
}

/* Checks that a booted machine has these sizes, and gives the right replies to the first commands of its last tenant. */
static void look_at(partmem_machine *machine, uint32_t order, uint32_t superblocks, uint32_t tenants)
{
    uint32_t last = tenants - 1;
    bool is_pool = is_reply(reply_to(machine, PARTMEM_POOL, 0, 0, 0), PARTMEM_OWNERS, superblocks, 0, 0);
    check(is_pool, "pool", order, superblocks, tenants);
    check(is_owner(machine, superblocks - 1, false, 0), "no owner", order, superblocks, tenants);
    partmem_status status = partmem_find_superblock(machine, superblocks, &fence.inside.owner);
    bool is_none = status == PARTMEM_NO_SUPERBLOCK && is_kept_behind(&fence, sizeof(partmem_owner));
    check(is_none, "a superblock too many", order, superblocks, tenants);
    bool is_granted = is_reply(reply_to(machine, PARTMEM_GRANT, last, 0, 0), PARTMEM_GRANTED, last, 0, 0);
    check(is_granted, "grant", order, superblocks, tenants);
    bool is_refused = is_reply(reply_to(machine, PARTMEM_GRANT, tenants, 0, 0), PARTMEM_REFUSED, 12, 0, 0);
    check(is_refused, "a tenant too many", order, superblocks, tenants);
    check(is_owner(machine, 0, true, last), "owner", order, superblocks, tenants);
    const uint32_t *figures = reply_to(machine, PARTMEM_REPORT, last, 0, 0);
    bool is_free = is_reply(figures, PARTMEM_FIGURES, 1u << order, 0, 1u << order) && figures[4] == order + 1 && figures[5] == 0;
    check(is_free, "figures", order, superblocks, tenants);
    const uint32_t *made = reply_to(machine, PARTMEM_CACHE, last, 200, 8);
    check(is_reply(made, PARTMEM_MADE, 0, 200, 0) && made[4] == 20 && made[5] == 9, "cache", order, superblocks, tenants);
    check(is_reply(reply_to(machine, PARTMEM_TAKE, last, 0, 0), PARTMEM_OBJECT, 0, 0, 0), "take", order, superblocks, tenants);
    check(is_reply(reply_to(machine, PARTMEM_READ, last, 0, 64), PARTMEM_BYTES, 64, 0, 0), "read", order, superblocks, tenants);
    check(buffer.inside.bytes[0] == 0x3c && buffer.inside.bytes[63] == 0x3c, "bytes", order, superblocks, tenants);
}

/* Grants the rest of the superblocks. Events, which lend nothing, allocate all of these but the last as page blocks. A direct
 * call allocates the last one, and its first and last byte are used in place. */
static void use_in_place(partmem_machine *machine, uint32_t order, uint32_t superblocks, uint32_t tenants)
{
    const partmem_tenant last = {machine, tenants - 1};
    const partmem_request alloc = {PARTMEM_ALLOC, tenants - 1, order, 0};
    const uint32_t bytes = PARTMEM_FRAME_BYTES << order, last_slot = superblocks - 1, last_place = last_slot * bytes;
    partmem_slot slot;
    partmem_reply reply;
    uint8_t few[PARTMEM_MAX_BYTES];
    if (superblocks < 2) return;
    for (uint32_t i = 1; i <= last_slot; i++) {
        bool is_next = partmem_grant(last, &slot) == PARTMEM_DONE && slot.slot == i && slot.superblock == i;
        check(is_next, "a grant", order, superblocks, tenants);
    }
    for (uint32_t i = 1; i < last_slot; i++) {
        partmem_status status = partmem_event(machine, &alloc, few, 0, &reply, few, sizeof few);
        check(status == PARTMEM_DONE && reply.first == i << order, "a whole superblock", order, superblocks, tenants);
    }
    memset(&fence, UNTOUCHED, sizeof fence);
    bool is_done = partmem_alloc(last, order, &fence.inside.lent) == PARTMEM_DONE && is_kept_behind(&fence, sizeof(partmem_lent));
    bool is_whole = fence.inside.lent.place == last_place && fence.inside.lent.bytes == bytes;
    check(is_done && is_whole, "the last superblock", order, superblocks, tenants);
    uint8_t *at = fence.inside.lent.at;
    check(at[0] == 0 && at[bytes - 1] == 0, "zeroes", order, superblocks, tenants);
    at[0] = 1, at[bytes - 1] = 2;
    check(partmem_at(last, last_place + bytes - 1, 1) == at + bytes - 1, "the last byte", order, superblocks, tenants);
    memset(&fence, UNTOUCHED, sizeof fence);
    is_done = partmem_report(last, &fence.inside.figures) == PARTMEM_DONE && is_kept_behind(&fence, sizeof(partmem_figures));
    check(is_done && fence.inside.figures.frames == superblocks << order, "the figures of a tenant", order, superblocks, tenants);
}

/* Checks that on a machine of more than 256 superblocks the line `admin pool` is refused with a buffer that is large enough for
 * all other lines, or one byte too small for this line, and that its reply has a line for each superblock and one before them. */
static void look_at_long_text(partmem_machine *machine, uint32_t superblocks, uint32_t tenants)
{
    static char text[(1 + PARTMEM_MAX_SUPERBLOCKS) * 256 + 1];
    const size_t needed = ((size_t)superblocks + 1) * 256, few[] = {PARTMEM_LINE_BUFFER_BYTES, needed - 1};
    size_t written = 1, lines = 0;
    memset(text, UNTOUCHED, sizeof text);
    for (size_t i = 0; i < LEN(few); i++) {
        partmem_status status = partmem_line(machine, "admin pool", 10, text, few[i], &written);
        bool is_refused = status == PARTMEM_BUFFER_TOO_SMALL && written == 0 && (uint8_t)text[0] == UNTOUCHED;
        check(is_refused, "a buffer too small for the table of owners", 0, superblocks, tenants);
    }
    check(partmem_line(machine, "", 0, text, few[0], &written) == PARTMEM_DONE, "an empty line", 0, superblocks, tenants);
    partmem_status status = partmem_line(machine, "admin pool", 10, text, needed, &written);
    for (size_t i = 0; i < written; i++) lines += text[i] == '\n';
    bool is_kept = written <= needed && (uint8_t)text[written] == UNTOUCHED && (uint8_t)text[needed] == UNTOUCHED;
    check(status == PARTMEM_DONE && is_kept && lines == superblocks + 1, "the long table of owners", 0, superblocks, tenants);
}

/* Checks that the text of the reply to `admin pool` has a line for each superblock and one before them, and that the call writes
 * only the number of bytes that it returns. */
static void look_at_text(partmem_machine *machine, uint32_t superblocks, uint32_t tenants)
{
    if (superblocks > 256) {
        look_at_long_text(machine, superblocks, tenants);
        return;
    }
    memset(&fence, UNTOUCHED, sizeof fence);
    memset(&buffer, UNTOUCHED, sizeof buffer);
    char *text = (char *)buffer.inside.bytes;
    partmem_status status = partmem_line(machine, "admin pool", 10, text, sizeof buffer.inside.bytes, &fence.inside.written);
    size_t written = fence.inside.written, lines = 0;
    bool is_kept = is_kept_behind(&fence, sizeof(size_t)) && is_kept_behind(&buffer, written) && is_kept_behind(&place, MACHINE);
    for (size_t i = 0; i < written; i++) lines += buffer.inside.bytes[i] == '\n';
    check(status == PARTMEM_DONE && is_kept && lines == superblocks + 1, "the table of owners", 0, superblocks, tenants);
}

static void boot_and_end(uint32_t order, uint32_t superblocks, uint32_t tenants)
{
    partmem_machine *machine = vacant_place();
    check(boot(machine, order, superblocks, tenants) == PARTMEM_DONE, "boot", order, superblocks, tenants);
    look_at(machine, order, superblocks, tenants);
    look_at_text(machine, superblocks, tenants);
    use_in_place(machine, order, superblocks, tenants);
    check(partmem_end(machine) == PARTMEM_DONE, "end", order, superblocks, tenants);
    partmem_machine zeroes = {{0}};
    bool is_vacant = is_kept_behind(&place, MACHINE) && !memcmp(machine, &zeroes, sizeof zeroes);
    check(is_vacant, "what end leaves", order, superblocks, tenants);
}

/* Checks that a boot is refused and allocates nothing if a number is out of its range. */
static void refuse_sizes(uint32_t order, uint32_t superblocks, uint32_t tenants)
{
    partmem_machine *machine = vacant_place(), zeroes = {{0}};
    refused_allocation = 1;
    check(boot(machine, order, superblocks, tenants) == PARTMEM_BAD_CONFIG, "not refused", order, superblocks, tenants);
    bool is_kept = refused_allocation == 1 && is_kept_behind(&place, MACHINE) && !memcmp(machine, &zeroes, sizeof zeroes);
    check(is_kept, "changed by refused sizes", order, superblocks, tenants);
    refused_allocation = 0;
}

static int try_edges(void)
{
    static const uint32_t orders[] = {3, 10, 0, 1, 2, 11, 12, 31, 32, 64, 259, 65539, UINT32_MAX};
    static const uint32_t superblocks[] = {1, 4096, 0, 4097, 4098, 8192, 65535, 65536, 65537, 69632, UINT32_MAX};
    static const uint32_t tenants[] = {1, 255, 0, 256, 257, 320, 511, 512, 65537, UINT32_MAX};
    int refused = 0;
    for (uint32_t order = 9; order <= PARTMEM_MAX_ORDER; order++, refused++) {
        refuse_sizes(order, (PARTMEM_MAX_FRAMES >> order) + 1, 1);
    }
    for (size_t i = 0; i < LEN(orders); i++)
        for (size_t j = 0; j < LEN(superblocks); j++)
            for (size_t k = 0; k < LEN(tenants); k++)
                if (i > 1 || j > 1 || k > 1 || (i == 1 && j == 1)) {
                    refuse_sizes(orders[i], superblocks[j], tenants[k]);
                    refused++;
                } else {
                    boot_and_end(orders[i], superblocks[j], tenants[k]);
                }
    return refused;
}

/* Returns how many allocations a boot of these sizes makes. Checks that if any one of them is refused, the boot keeps no memory
 * and leaves zeroes in the partmem_machine. */
static long refuse_each(uint32_t order, uint32_t superblocks, uint32_t tenants)
{
    for (long number = 1;; number++) {
        partmem_machine *machine = vacant_place(), zeroes = {{0}};
        refused_allocation = number;
        partmem_status status = boot(machine, order, superblocks, tenants);
        bool was_refused = refused_allocation == 0;
        refused_allocation = 0;
        if (!was_refused) {
            check(status == PARTMEM_DONE && partmem_end(machine) == PARTMEM_DONE, "boot", order, superblocks, tenants);
            return number - 1;
        }
        check(status == PARTMEM_NO_MEMORY && blocks_held == 0, "an allocation refused", order, superblocks, tenants);
        bool is_kept = is_kept_behind(&place, MACHINE) && !memcmp(machine, &zeroes, sizeof zeroes);
        check(is_kept, "changed where memory is short", order, superblocks, tenants);
    }
}

/* Returns how many bytes of the tables the boot has left free. It is the fourth word of the `struct state` of memory.c. */
static size_t left_after_boot(const partmem_machine *machine)
{
    size_t words[4];
    memcpy(words, machine->held[2], sizeof words);
    return words[3];
}

/* Boots these sizes in tables of PARTMEM_TABLE_BYTES. They have to be used up, and no byte behind them may change. Lends the first
 * frame. */
static void boot_in_tables(uint32_t order, uint32_t superblocks, uint32_t tenants, uint8_t *ram, uint8_t *tables)
{
    const size_t bytes = PARTMEM_TABLE_BYTES(order, superblocks, tenants);
    const partmem_config config = {order, superblocks, tenants};
    const partmem_memory memory = {ram, tables};
    partmem_machine machine = {{0}};
    const partmem_tenant last = {&machine, tenants - 1};
    partmem_slot slot;
    partmem_lent lent;
    tables[bytes] = UNTOUCHED;
    bool is_booted = partmem_boot_in(&machine, &config, &memory) == PARTMEM_DONE && tables[bytes] == UNTOUCHED;
    check(is_booted, "a boot in tables of this size", order, superblocks, tenants);
    check(left_after_boot(&machine) == 0, "tables that are used up", order, superblocks, tenants);
    bool is_lent = partmem_grant(last, &slot) == PARTMEM_DONE && partmem_alloc(last, 0, &lent) == PARTMEM_DONE && lent.at == ram;
    check(is_lent, "the first frame", order, superblocks, tenants);
    bool is_last = partmem_superblock_address(&machine, superblocks - 1) == ram + PARTMEM_RAM_BYTES(order, superblocks - 1);
    check(is_last, "the address of the last superblock", order, superblocks, tenants);
    check(partmem_end(&machine) == PARTMEM_DONE && tables[bytes] == UNTOUCHED, "its end", order, superblocks, tenants);
}

/* Boots each combination of sizes up to order 8, 256 superblocks and 64 tenants, and returns how many there are. */
static int boot_each(uint8_t *ram, uint8_t *tables)
{
    int booted = 0;
    for (uint32_t order = 3; order <= 8; order++)
        for (uint32_t superblocks = 1; superblocks <= 256; superblocks++)
            for (uint32_t tenants = 1; tenants <= 64; tenants++, booted++)
                boot_in_tables(order, superblocks, tenants, ram, tables);
    return booted;
}

/* Returns whether a term of PARTMEM_TABLE_BYTES changes by much at this number of superblocks, or at one beside it. */
static bool is_at_step(uint32_t superblocks)
{
    const uint32_t before = superblocks - 1;
    return superblocks % 256 < 2 || !(superblocks & before) || !(before & (before - 1)) || !(superblocks & (superblocks + 1));
}

/* Boots larger machines, and returns how many: each order with the numbers of superblocks at which a term of PARTMEM_TABLE_BYTES
 * steps, and the numbers beside them; then each number of superblocks, and each number of tenants. */
static int boot_wide(uint8_t *ram, uint8_t *tables)
{
    static const uint32_t tenants[] = {1, 65, 255, 64, 129, 128};
    uint32_t booted = 0;
    for (uint32_t order = 3; order <= PARTMEM_MAX_ORDER; order++)
        for (uint32_t superblocks = 1; superblocks <= 4096 && superblocks <= PARTMEM_MAX_FRAMES >> order; superblocks++)
            if (is_at_step(superblocks)) boot_in_tables(order, superblocks, tenants[booted++ % LEN(tenants)], ram, tables);
    for (uint32_t superblocks = 257; superblocks < 4096; superblocks++, booted++) boot_in_tables(3, superblocks, 1, ram, tables);
    for (uint32_t number = 65; number <= PARTMEM_MAX_TENANTS; number++, booted += 2) {
        boot_in_tables(3, 3, number, ram, tables);
        boot_in_tables(9, 1, number, ram, tables);
    }
    return (int)booted;
}

static uint8_t *address_space(size_t bytes)
{
    uint8_t *at = mmap(NULL, bytes, PROT_READ | PROT_WRITE, MAP_PRIVATE | MAP_ANONYMOUS | MAP_NORESERVE, -1, 0);
    check(at != MAP_FAILED, "no address space", 10, 1024, 255);
    return at;
}

int main(void)
{
    int booted = 0;
    for (uint32_t order = 3; order <= 8; order++) {
        for (uint32_t superblocks = 1; superblocks <= 256; superblocks++, booted++) {
            boot_and_end(order, superblocks, 1 + (superblocks + order) % 64);
        }
        for (uint32_t tenants = 1; tenants <= 64; tenants++, booted++) {
            boot_and_end(order, 1 + (tenants * 5 + order) % 256, tenants);
        }
        for (uint32_t superblocks = 10; superblocks <= 250; superblocks += 10) {
            for (uint32_t tenants = 3; tenants <= 63; tenants += 3, booted++) boot_and_end(order, superblocks, tenants);
        }
    }
    static const uint32_t wide[][3] = {{9, 1, 1},    {9, 17, 255}, {10, 1, 255}, {10, 65, 65}, {3, 257, 65},
                                       {3, 4096, 3}, {4, 1000, 9}, {8, 300, 70}, {9, 256, 2},  {5, 513, 129}};
    for (size_t i = 0; i < LEN(wide); i++, booted++) boot_and_end(wide[i][0], wide[i][1], wide[i][2]);
    uint8_t *ram = address_space(PARTMEM_RAM_BYTES(10, 1024)), *tables = address_space(PARTMEM_TABLE_BYTES(8, 4096, 255) + 1);
    int refused = try_edges(), booted_in = boot_each(ram, tables), booted_wide = boot_wide(ram, tables);
    long small = refuse_each(3, 2, 2), large = refuse_each(8, 256, 64), wider = refuse_each(3, 257, 65);
    printf("%d sizes boot and end, %d are refused, and all %d boot in memory of exactly their size, and %d larger ones; "
           "%ld allocations of a small boot refused in turn, %ld of a large one, and %ld of a wide one\n",
           booted, refused, booted_in, booted_wide, small, large, wider);
    return 0;
}
