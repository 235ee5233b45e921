/* Tests mistakes of a caller that do not break memory. Each call has to return the first status that applies, and to set its
 * results to zeroes. There are two exceptions: a read leaves its buffer unchanged, and an event leaves its reply unchanged. Also
 * tests calls whose lengths are larger than their buffers, and three functions that are written in C. */
#include "trial.h"

static partmem_machine machine, none;
static const partmem_tenant first = {&machine, 0}, second = {&machine, 1}, nobody = {&machine, 2}, nowhere = {&none, 9};
static uint8_t bytes[65];
static partmem_slot slot;
static partmem_owner owner;
static partmem_lent lent;
static partmem_cache cache;
static partmem_block block;
static partmem_object found;
static partmem_figures figures;
static uint32_t frames;
static struct {
    uint8_t front[64], inside[64], back[8192];
} fenced; /* a buffer, with bytes around it that no call may write */

enum { UNTOUCHED = 0xa5 };

static bool are_all(const void *result, uint8_t byte, size_t size)
{
    const uint8_t *at = result;
    while (size > 0 && *at == byte) at++, size--;
    return size == 0;
}

/* Returns whether a call returns this status, and leaves a result whose bytes all have this value. */
#define LEAVES(call, status, result, byte) \
    (memset(&(result), UNTOUCHED, sizeof(result)), (call) == (status) && are_all(&(result), byte, sizeof(result)))

/* These two say whether a call returns this status, and sets its result to zeroes (ZEROED) or leaves it as it was (KEPT). */
#define ZEROED(call, status, result) LEAVES(call, status, result, 0)
#define KEPT(call, status, result) LEAVES(call, status, result, UNTOUCHED)

/* Checks that every function with a tenant first tests whether there is a machine, and then whether there is the tenant. Only
 * lengths may be tested in between: see check_lengths. */
static void check_tenant(partmem_tenant tenant, partmem_status status)
{
    MUST(ZEROED(partmem_grant(tenant, &slot), status, slot) && ZEROED(partmem_move(tenant, 99, &slot), status, slot));
    MUST(ZEROED(partmem_find_slot(tenant, 99, &slot), status, slot));
    MUST(partmem_take_back(tenant, 99) == status && partmem_reset(tenant) == status);
    MUST(ZEROED(partmem_alloc(tenant, 99, &lent), status, lent) && partmem_free(tenant, 1) == status);
    MUST(ZEROED(partmem_make_cache(tenant, 0, 3, "", 1, &cache), status, cache) && partmem_destroy_cache(tenant, 99) == status);
    MUST(ZEROED(partmem_take(tenant, 99, &lent), status, lent) && partmem_give(tenant, 99, 1) == status);
    MUST(ZEROED(partmem_reap(tenant, &frames), status, frames) && ZEROED(partmem_report(tenant, &figures), status, figures));
    MUST(ZEROED(partmem_lend(tenant, 0, 0, &lent), status, lent) && ZEROED(partmem_lend_block(tenant, 1, &lent), status, lent));
    MUST(ZEROED(partmem_lend_object(tenant, 99, 1, &lent), status, lent));
    MUST(!partmem_at(tenant, 0, 1) && !partmem_object_at(tenant, 0, 0));
    MUST(KEPT(partmem_read(tenant, 0, bytes, sizeof bytes), status, bytes) && partmem_write(tenant, 0, bytes, 1) == status);
    MUST(ZEROED(partmem_find_block(tenant, 0, &block), status, block));
    MUST(ZEROED(partmem_find_object(tenant, 0, &found), status, found));
    MUST(ZEROED(partmem_find_place(tenant, bytes, &frames), status, frames));
}

/* Checks that partmem_write and partmem_make_cache first test the machine, then whether a line of a trace can have this number of
 * bytes, and then the tenant. partmem_read tests its length after the tenant. */
static void check_lengths(void)
{
    MUST(partmem_write(nowhere, 0, bytes, 0) == PARTMEM_NO_MACHINE && partmem_write(nobody, 0, bytes, 0) == PARTMEM_NOT_AN_EVENT);
    MUST(partmem_write(nobody, 0, bytes, 65) == PARTMEM_NOT_AN_EVENT);
    MUST(partmem_write(first, 0, bytes, 64) == PARTMEM_OUT_OF_REACH);
    MUST(ZEROED(partmem_make_cache(nowhere, 0, 3, bytes, 17, &cache), PARTMEM_NO_MACHINE, cache));
    MUST(ZEROED(partmem_make_cache(nobody, 0, 3, bytes, 17, &cache), PARTMEM_NOT_AN_EVENT, cache));
    MUST(ZEROED(partmem_make_cache(first, 0, 3, bytes, 0, &cache), PARTMEM_NOT_AN_EVENT, cache));
    MUST(ZEROED(partmem_make_cache(first, 0, 3, bytes, 16, &cache), PARTMEM_BAD_SIZE, cache));
    MUST(ZEROED(partmem_make_cache(first, 4097, 8, bytes, 16, &cache), PARTMEM_BAD_SIZE, cache));
    MUST(ZEROED(partmem_make_cache(first, 4096, 4, bytes, 16, &cache), PARTMEM_BAD_ALIGN, cache));
    MUST(KEPT(partmem_read(first, 0, bytes, sizeof bytes), PARTMEM_BAD_LENGTH, bytes));
    MUST(KEPT(partmem_read(first, 0, bytes, 0), PARTMEM_BAD_LENGTH, bytes));
    MUST(KEPT(partmem_read(first, 0, bytes, 64), PARTMEM_OUT_OF_REACH, bytes));
}

static bool is_kept_around(size_t written)
{
    return are_all(fenced.front, UNTOUCHED, sizeof fenced.front) &&
           are_all(fenced.inside + written, UNTOUCHED, sizeof fenced.inside + sizeof fenced.back - written);
}

/* Makes a read with partmem_event, with `buffer_len` as the length of its buffer. Returns whether the reply has this kind, and
 * the call wrote only the bytes that were read. */
static bool reads(uint32_t place, uint32_t count, size_t buffer_len, uint32_t kind)
{
    const partmem_request request = {PARTMEM_READ, first.number, place, count};
    partmem_reply reply;
    memset(&fenced, UNTOUCHED, sizeof fenced);
    partmem_status status = partmem_event(&machine, &request, "", 0, &reply, fenced.inside, buffer_len);
    return status == PARTMEM_DONE && reply.kind == kind && is_kept_around(kind == PARTMEM_BYTES ? count : 0);
}

/* Checks that no call writes more than its declaration says, even if it is given a larger length than its buffer has. `place`
 * is in a page block full of zeroes. */
static void check_wild_lengths(uint32_t place)
{
    static const size_t wild[] = {65, 4096, 1 << 20, INT32_MAX, UINT32_MAX, 1 + (size_t)UINT32_MAX, 9 + (size_t)UINT32_MAX,
                                  SIZE_MAX / 2, SIZE_MAX - 7, SIZE_MAX};
    static char text[PARTMEM_LINE_BUFFER_BYTES + sizeof fenced];
    size_t written;
    for (size_t i = 0; i < LEN(wild); i++) {
        MUST(KEPT(partmem_read(first, place, fenced.inside, wild[i]), PARTMEM_BAD_LENGTH, fenced));
        MUST(KEPT(partmem_read(nobody, place, fenced.inside, wild[i]), PARTMEM_NO_TENANT, fenced));
        MUST(KEPT(partmem_read(nowhere, place, fenced.inside, wild[i]), PARTMEM_NO_MACHINE, fenced));
        MUST(partmem_write(first, place, fenced.inside, wild[i]) == PARTMEM_NOT_AN_EVENT);
        MUST(ZEROED(partmem_make_cache(first, 8, 8, fenced.inside, wild[i], &cache), PARTMEM_NOT_AN_EVENT, cache));
        MUST(reads(place, 64, wild[i], PARTMEM_BYTES) && reads(place, 1, wild[i], PARTMEM_BYTES));
        MUST(reads(place, 65, wild[i], PARTMEM_REFUSED) && reads(place, UINT32_MAX, wild[i], PARTMEM_REFUSED));
        const size_t text_len = wild[i] < sizeof text ? sizeof text : wild[i];
        memset(text, UNTOUCHED, sizeof text);
        MUST(partmem_line(&machine, "admin pool", 10, text, text_len, &written) == PARTMEM_DONE);
        MUST(written <= PARTMEM_LINE_BUFFER_BYTES && are_all(text + written, UNTOUCHED, sizeof text - written));
    }
    for (size_t count = 1; count <= sizeof fenced.inside; count++) {
        memset(&fenced, UNTOUCHED, sizeof fenced);
        MUST(partmem_read(first, place, fenced.inside, count) == PARTMEM_DONE && is_kept_around(count));
        MUST(are_all(fenced.inside, 0, count));
    }
}

static void check_machines(void)
{
    static const partmem_config good = {3, 4, 2}, bad[] = {{2, 4, 2},     {11, 4, 2},    {3, 0, 2}, {3, 4097, 2}, {9, 2049, 2},
                                                           {10, 1025, 2}, {32, 4, 2},    {3, 4, 0}, {3, 4, 256},  {UINT32_MAX, 4, 2},
                                                           {3, UINT32_MAX, 2}, {3, 4, UINT32_MAX}};
    for (size_t i = 0; i < LEN(bad); i++) {
        MUST(partmem_boot(&none, &bad[i]) == PARTMEM_BAD_CONFIG && partmem_boot(&machine, &bad[i]) == PARTMEM_HAS_MACHINE);
    }
    MUST(partmem_boot(&machine, &good) == PARTMEM_HAS_MACHINE && partmem_end(&none) == PARTMEM_NO_MACHINE);
    MUST(ZEROED(partmem_find_superblock(&none, 0, &owner), PARTMEM_NO_MACHINE, owner));
    MUST(ZEROED(partmem_find_superblock(&machine, 4, &owner), PARTMEM_NO_SUPERBLOCK, owner));
    MUST(ZEROED(partmem_find_superblock(&machine, 3, &owner), PARTMEM_DONE, owner));
    MUST(!partmem_superblock_address(&none, 0) && !partmem_superblock_address(&machine, 4));
    MUST(partmem_superblock_bytes(&none) == 0 && partmem_superblock_bytes(&machine) == 32768);
}

/* Checks what partmem_find_object finds at each byte of three objects, of the gaps behind them, and of a page block of two
 * frames. The objects have 72 bytes and begin 96 bytes apart. The middle one is given back before the checks. */
static void check_objects(uint32_t pages)
{
    partmem_lent lives[3];
    MUST(partmem_make_cache(first, 72, 32, "", 1, &cache) == PARTMEM_DONE && cache.cache == 1 && cache.chunk == 96);
    for (uint32_t i = 0; i < LEN(lives); i++) MUST(partmem_take(first, 1, &lives[i]) == PARTMEM_DONE);
    MUST(lives[1].place == lives[0].place + 96 && lives[2].place == lives[1].place + 96);
    MUST(partmem_give(first, 1, lives[1].place) == PARTMEM_DONE);
    for (uint32_t at = lives[0].place; at < lives[2].place + 96; at++) {
        uint32_t begin = at - (at - lives[0].place) % 96;
        if (at - begin < 72 && begin != lives[1].place) {
            MUST(partmem_find_object(first, at, &found) == PARTMEM_DONE && found.cache == 1);
            MUST(found.place == begin && found.bytes == 72);
        } else {
            MUST(ZEROED(partmem_find_object(first, at, &found), PARTMEM_OUT_OF_REACH, found));
        }
    }
    for (uint32_t at = pages; at < pages + 8192; at++) {
        MUST(partmem_find_object(first, at, &found) == PARTMEM_DONE && found.cache == PARTMEM_OF_NO_CACHE);
        MUST(found.place == pages && found.bytes == 8192);
    }
    MUST(ZEROED(partmem_find_object(second, pages, &found), PARTMEM_OUT_OF_REACH, found));
    MUST(ZEROED(partmem_find_object(first, 2 * 32768, &found), PARTMEM_OUT_OF_REACH, found));
    MUST(ZEROED(partmem_find_object(first, UINT32_MAX, &found), PARTMEM_OUT_OF_REACH, found));
    MUST(partmem_give(first, 1, lives[0].place) == PARTMEM_DONE && partmem_give(first, 1, lives[2].place) == PARTMEM_DONE);
    MUST(partmem_destroy_cache(first, 1) == PARTMEM_DONE);
}

/* Checks what is refused to a tenant with two slots, a cache with a live object, and a page block of two frames. */
static void check_refusals(void)
{
    partmem_lent pages, object;
    MUST(partmem_grant(first, &slot) == PARTMEM_DONE && slot.slot == 0 && slot.superblock == 0);
    MUST(partmem_grant(first, &slot) == PARTMEM_DONE && slot.slot == 1 && slot.superblock == 1);
    MUST(partmem_make_cache(first, 4096, 8, "", 1, &cache) == PARTMEM_DONE && cache.slab_bytes >= 4096);
    MUST(partmem_take(first, cache.cache, &object) == PARTMEM_DONE && object.bytes == 4096);
    MUST(partmem_alloc(first, 1, &pages) == PARTMEM_DONE && pages.bytes == 8192 && !((const uint8_t *)pages.at)[8191]);
    check_wild_lengths(pages.place);
    MUST(ZEROED(partmem_alloc(first, 4, &lent), PARTMEM_BAD_ORDER, lent));
    MUST(ZEROED(partmem_alloc(second, 0, &lent), PARTMEM_NO_FRAMES, lent));
    MUST(partmem_free(first, pages.place + 1) == PARTMEM_NOT_A_BLOCK && partmem_free(second, pages.place) == PARTMEM_NOT_A_BLOCK);
    MUST(partmem_free(first, pages.place + 4096) == PARTMEM_NOT_A_BLOCK);
    MUST(partmem_free(first, object.place) == PARTMEM_NOT_A_BLOCK);
    MUST(partmem_free(first, partmem_place_of(0x100000 + pages.place / 4096)) == PARTMEM_NOT_A_BLOCK);
    MUST(partmem_destroy_cache(first, 0) == PARTMEM_CACHE_IN_USE && partmem_destroy_cache(first, 1) == PARTMEM_NO_CACHE);
    MUST(ZEROED(partmem_take(first, 1, &lent), PARTMEM_NO_CACHE, lent));
    MUST(partmem_give(first, cache.cache, object.place + 8) == PARTMEM_NOT_AN_OBJECT);
    MUST(ZEROED(partmem_lend_object(first, cache.cache, pages.place, &lent), PARTMEM_NOT_AN_OBJECT, lent));
    MUST(ZEROED(partmem_lend_object(first, 1, object.place, &lent), PARTMEM_NO_CACHE, lent));
    MUST(ZEROED(partmem_lend_block(first, object.place, &lent), PARTMEM_OUT_OF_REACH, lent));
    MUST(ZEROED(partmem_lend(first, pages.place, 8193, &lent), PARTMEM_OUT_OF_REACH, lent));
    MUST(ZEROED(partmem_lend(first, pages.place + 1, UINT32_MAX, &lent), PARTMEM_OUT_OF_REACH, lent));
    MUST(ZEROED(partmem_lend(first, UINT32_MAX, 1, &lent), PARTMEM_OUT_OF_REACH, lent));
    MUST(ZEROED(partmem_lend(second, pages.place, 1, &lent), PARTMEM_OUT_OF_REACH, lent));
    MUST(partmem_take_back(first, 0) == PARTMEM_SLOT_BUSY && partmem_take_back(first, 2) == PARTMEM_NO_SLOT);
    MUST(ZEROED(partmem_find_slot(first, 2, &slot), PARTMEM_NO_SLOT, slot));
    MUST(ZEROED(partmem_move(first, 2, &slot), PARTMEM_NO_SLOT, slot));
    MUST(partmem_find_block(first, 2 * 32768 + 5, &block) == PARTMEM_DONE && block.use == PARTMEM_NO_SUCH_SLOT);
    MUST(block.place == 2 * 32768 && block.bytes == 32768);
    MUST(partmem_find_block(first, object.place + 5, &block) == PARTMEM_DONE && block.use == PARTMEM_SLAB);
    MUST(partmem_find_block(first, pages.place + 8191, &block) == PARTMEM_DONE && block.use == PARTMEM_PAGE_BLOCK);
    MUST(block.place == pages.place && block.bytes == 8192);
    check_objects(pages.place);
    MUST(partmem_grant(second, &slot) == PARTMEM_DONE && partmem_grant(second, &slot) == PARTMEM_DONE && slot.superblock == 3);
    MUST(ZEROED(partmem_grant(second, &slot), PARTMEM_POOL_EMPTY, slot));
    MUST(ZEROED(partmem_move(first, 0, &slot), PARTMEM_POOL_EMPTY, slot));
}

static void check_events(void)
{
    static char text[PARTMEM_LINE_BUFFER_BYTES];
    partmem_request request = {PARTMEM_ALLOC, 0, 9, 0};
    partmem_reply reply = {7, 7, 7, 7, 7, 7};
    size_t written = 7;
    MUST(partmem_event(&none, &request, "", 0, &reply, text, 64) == PARTMEM_NO_MACHINE && reply.kind == 7);
    MUST(partmem_event(&machine, &request, "", 0, &reply, text, 63) == PARTMEM_BUFFER_TOO_SMALL && reply.kind == 7);
    MUST(partmem_event(&machine, &request, "", 0, &reply, text, 64) == PARTMEM_DONE && reply.kind == PARTMEM_REFUSED);
    MUST(reply.first == PARTMEM_BAD_ORDER);
    request.kind = PARTMEM_REPORT + 1;
    MUST(partmem_event(&machine, &request, "", 0, &reply, text, 63) == PARTMEM_NOT_AN_EVENT);
    MUST(partmem_line(&none, "#\n", 2, text, 0, &written) == PARTMEM_NO_MACHINE && written == 0);
    MUST(partmem_line(&machine, "#\n", 2, text, 0, &written) == PARTMEM_NOT_A_LINE && written == 0);
    MUST(partmem_line(&machine, "", 0, text, sizeof text - 1, &written) == PARTMEM_BUFFER_TOO_SMALL);
    MUST(partmem_line(&machine, "frob", 4, text, sizeof text, &written) == PARTMEM_DONE);
    MUST(written == 17 && !memcmp(text, "!> fault Unknown\n", 17));
}

static bool is_unknown(uint32_t status) { return !strncmp(partmem_strerror((partmem_status)status), "Unknown: ", 9); }

static void check_functions_in_c(void)
{
    int known = 0;
    for (uint32_t status = 0; status < 100; status++) known += !is_unknown(status);
    MUST(known == 16 + 10 && is_unknown(16) && is_unknown(31) && is_unknown(PARTMEM_BUFFER_TOO_SMALL + 1));
    MUST(is_unknown(PARTMEM_STATUS_BITS) && is_unknown(UINT32_MAX) && partmem_version() == PARTMEM_VERSION);
    MUST(!strncmp(partmem_strerror(PARTMEM_DONE), "Done: ", 6));
    MUST(!strncmp(partmem_strerror(PARTMEM_SLOT_BUSY), "SlotBusy: ", 10));
    MUST(partmem_place_of(0) == 0 && partmem_place_of(0xfffff) == 0xfffff000 && partmem_place_of(0x100000) == PARTMEM_NO_PLACE);
}

int main(void)
{
    boot(&machine, 3, 4, 2);
    check_functions_in_c();
    check_machines();
    check_tenant(nowhere, PARTMEM_NO_MACHINE);
    check_tenant(nobody, PARTMEM_NO_TENANT);
    check_lengths();
    check_refusals();
    check_events();
    MUST(partmem_end(&machine) == PARTMEM_DONE && partmem_end(&machine) == PARTMEM_NO_MACHINE);
    check_tenant(first, PARTMEM_NO_MACHINE);
    puts("each mistake of a caller returns its status");
    return 0;
}
