/* Makes random calls, stores and loads. Writes a call as a line of a trace, a store in place as write lines, and a load in place
 * as read lines. Writes their results as reply lines, for a comparison with the program `partmem`.
 *
 *     equal ORDER SUPERBLOCKS TENANTS CALLS SEED TRACE REPLIES
 */
#include <stdarg.h>

#include "trial.h"

enum { MAX_KEPT = 64, MAX_STORED = 300 };

static partmem_machine machine;
static uint32_t order, superblocks, tenants, superblock_bytes;
static uint32_t kept[MAX_KEPT], kept_count; /* places of blocks and objects, kept in a ring */
static FILE *trace, *replies;
static unsigned done, refused, in_place;

/* The numbers of a tenant and of a cache, and a place, chosen at random for the next call. They need not be valid. */
static uint32_t t, cache, place;
static partmem_tenant me;

static void keep(uint32_t found) { kept[kept_count++ % MAX_KEPT] = found; }

static void choose(void)
{
    t = any(tenants + rarely(50));
    me = (partmem_tenant){&machine, t};
    cache = any(rarely(20) ? 40 : 5);
    place = rarely(4) ? any(superblocks * superblock_bytes) : kept[any(MAX_KEPT)];
    if (rarely(4)) place += any(2) ? 8 * any(100) : 4096 * any(4);
}

static void line(const char *format, ...)
{
    va_list rest;
    va_start(rest, format);
    vfprintf(trace, format, rest);
    fputc('\n', trace);
    va_end(rest);
}

/* Writes a reply line, or the refusal with its name from partmem_strerror. Returns whether the call was done. */
static bool reply(bool is_admin, partmem_status status, const char *format, ...)
{
    va_list rest;
    if (is_admin) fprintf(replies, "admin> ");
    else if (status == PARTMEM_NO_TENANT) fprintf(replies, "!> ");
    else fprintf(replies, "%u> ", t);
    const char *text = partmem_strerror(status);
    *(status ? &refused : &done) += 1;
    va_start(rest, format);
    if (status) fprintf(replies, "refused %d %.*s", (int)status, (int)strcspn(text, ":"), text);
    else vfprintf(replies, format, rest);
    fputc('\n', replies);
    va_end(rest);
    return status == PARTMEM_DONE;
}

static const char *hex(const void *bytes, size_t count)
{
    static char text[2 * PARTMEM_MAX_BYTES + 1];
    text[0] = 0;
    for (size_t i = 0; i < count; i++) sprintf(text + 2 * i, "%02x", ((const uint8_t *)bytes)[i]);
    return text;
}

static uint32_t order_of(uint32_t bytes)
{
    uint32_t k = 0;
    while (PARTMEM_FRAME_BYTES << k < bytes) k++;
    return k;
}

/* ---- loads and stores in place ---- */

/* Writes lines that read the first bytes of what was lent, with their replies. Each line reads at most PARTMEM_MAX_BYTES. */
static void loaded(const partmem_lent *lent)
{
    uint32_t most = lent->bytes < MAX_STORED ? lent->bytes : MAX_STORED, piece;
    for (uint32_t from = 0; from < most; from += piece) {
        piece = most - from < PARTMEM_MAX_BYTES ? most - from : PARTMEM_MAX_BYTES;
        line("%u read %u %u", t, lent->place + from, piece);
        reply(false, PARTMEM_DONE, "bytes %s", hex((uint8_t *)lent->at + from, piece));
    }
    in_place++;
}

static void load(void)
{
    partmem_lent lent;
    partmem_object around;
    uint32_t bytes = 1 + any(PARTMEM_MAX_BYTES);
    partmem_status found = partmem_find_object(me, place, &around), status = partmem_lend(me, place, bytes, &lent);
    bool is_inside = found == PARTMEM_DONE && bytes <= around.bytes - (place - around.place);
    MUST(status == (found == PARTMEM_DONE && !is_inside ? PARTMEM_OUT_OF_REACH : found));
    if (status == PARTMEM_DONE) {
        loaded(&lent);
    } else {
        line("%u read %u %u", t, place, bytes);
        reply(false, status, "");
    }
}

/* Stores bytes in place, and writes the lines that store them, with the replies. A line stores at most PARTMEM_MAX_BYTES. */
static void store(void)
{
    partmem_lent lent;
    uint32_t bytes = 1 + any(rarely(2) ? MAX_STORED : PARTMEM_MAX_BYTES), piece;
    if (partmem_lend(me, place, bytes, &lent) != PARTMEM_DONE) return;
    uint8_t *at = lent.at;
    for (uint32_t i = 0; i < bytes; i++) at[i] = (uint8_t)any(256);
    for (uint32_t from = 0; from < bytes; from += piece) {
        piece = bytes - from < PARTMEM_MAX_BYTES ? bytes - from : PARTMEM_MAX_BYTES;
        line("%u write %u %s", t, place + from, hex(at + from, piece));
        reply(false, PARTMEM_DONE, "written %u", piece);
    }
    in_place++;
}

/* ---- calls ---- */

static void grant(void)
{
    partmem_slot slot;
    line("admin grant %u", t);
    partmem_status status = partmem_grant(me, &slot);
    reply(true, status, "granted %u slot %u superblock %u", t, slot.slot, slot.superblock);
}

static void take_back(void)
{
    partmem_slot slot;
    uint32_t number = any(superblocks);
    line("admin takeback %u %u", t, number);
    partmem_status held = partmem_find_slot(me, number, &slot), status = partmem_take_back(me, number);
    MUST(held == (status == PARTMEM_SLOT_BUSY ? PARTMEM_DONE : status));
    reply(true, status, "taken superblock %u", slot.superblock);
}

static void reset(void)
{
    partmem_figures figures;
    line("admin reset %u", t);
    partmem_status reported = partmem_report(me, &figures), status = partmem_reset(me);
    MUST(reported == status);
    reply(true, status, "reset %u superblocks %u", t, figures.frames >> order);
}

static void move(void)
{
    partmem_slot slot;
    uint32_t number = any(superblocks);
    line("admin move %u %u", t, number);
    partmem_status status = partmem_move(me, number, &slot);
    reply(true, status, "moved %u slot %u superblock %u", t, slot.slot, slot.superblock);
}

static void alloc(void)
{
    partmem_lent block;
    uint32_t k = any(order + 2);
    line("%u alloc %u", t, k);
    partmem_status status = partmem_alloc(me, k, &block);
    if (!reply(false, status, "frame %u", block.place / PARTMEM_FRAME_BYTES)) return;
    MUST(block.bytes == PARTMEM_FRAME_BYTES << k);
    keep(block.place);
    loaded(&block);
}

static void release(void)
{
    partmem_block block;
    uint32_t frame = place / PARTMEM_FRAME_BYTES;
    line("%u free %u", t, frame);
    partmem_status found = partmem_find_block(me, place, &block), status = partmem_free(me, partmem_place_of(frame));
    MUST(found == (status == PARTMEM_NOT_A_BLOCK ? PARTMEM_DONE : status));
    reply(false, status, "freed %u", order_of(block.bytes));
}

static void read_bytes(void)
{
    uint8_t bytes[PARTMEM_MAX_BYTES + 2];
    uint32_t count = any(sizeof bytes + 1);
    line("%u read %u %u", t, place, count);
    partmem_status status = partmem_read(me, place, bytes, count);
    reply(false, status, "bytes %s", hex(bytes, status ? 0 : count));
}

static void write_bytes(void)
{
    uint8_t bytes[PARTMEM_MAX_BYTES];
    uint32_t count = 1 + any(sizeof bytes);
    for (uint32_t i = 0; i < count; i++) bytes[i] = (uint8_t)any(256);
    line("%u write %u %s", t, place, hex(bytes, count));
    reply(false, partmem_write(me, place, bytes, count), "written %u", count);
}

static void make_cache(void)
{
    partmem_cache made;
    uint32_t size = any(rarely(3) ? 4200 : 700), align = 4u << any(8), pattern = any(65536);
    line("%u cache %u %u %s", t, size, align, hex(&pattern, 2));
    partmem_status status = partmem_make_cache(me, size, align, &pattern, 2, &made);
    reply(false, status, "cache %u chunk %u order %u objects %u colours %u", made.cache, made.chunk, order_of(made.slab_bytes),
          made.objects, made.colours);
}

static void destroy_cache(void)
{
    partmem_figures before, after;
    line("%u destroy %u", t, cache);
    partmem_status reported = partmem_report(me, &before), status = partmem_destroy_cache(me, cache);
    MUST((reported == PARTMEM_NO_TENANT) == (status == PARTMEM_NO_TENANT) && partmem_report(me, &after) == reported);
    reply(false, status, "destroyed %u", before.live - after.live);
}

static void take(void)
{
    partmem_lent object;
    line("%u take %u", t, cache);
    partmem_status status = partmem_take(me, cache, &object);
    if (!reply(false, status, "object %u", object.place)) return;
    keep(object.place);
    loaded(&object);
}

static void give(void)
{
    partmem_object found;
    line("%u give %u %u", t, cache, place);
    bool is_there = partmem_find_object(me, place, &found) == PARTMEM_DONE && found.cache == cache && found.place == place;
    partmem_status status = partmem_give(me, cache, place);
    MUST(is_there == (status == PARTMEM_DONE));
    reply(false, status, "given");
}

/* Frees what begins at the place, and writes the line of that give or free. If the call is refused, it is a lookup and has no
 * line. */
static void release_place(void)
{
    partmem_sizes sizes = {{0}};
    partmem_object found, freed;
    partmem_status expected = partmem_find_object(me, place, &found);
    bool is_object = expected == PARTMEM_DONE && found.cache != PARTMEM_OF_NO_CACHE, is_wrong = rarely(4);
    if (is_object) sizes.bytes[found.cache] = (uint16_t)(is_wrong ? found.bytes + 1 : found.bytes);
    if (expected == PARTMEM_DONE && (found.place != place || (is_object && is_wrong))) {
        expected = is_object ? PARTMEM_NOT_AN_OBJECT : PARTMEM_NOT_A_BLOCK;
    }
    partmem_status status = partmem_release(me, place, &sizes, &freed);
    MUST(status == expected);
    if (status != PARTMEM_DONE) {
        MUST(!freed.cache && !freed.place && !freed.bytes);
        return;
    }
    MUST(freed.cache == found.cache && freed.place == place && freed.bytes == found.bytes);
    if (is_object) {
        line("%u give %u %u", t, found.cache, place);
        reply(false, status, "given");
    } else {
        line("%u free %u", t, place / PARTMEM_FRAME_BYTES);
        reply(false, status, "freed %u", order_of(found.bytes));
    }
}

static void reap(void)
{
    uint32_t frames;
    line("%u reap", t);
    partmem_status status = partmem_reap(me, &frames);
    reply(false, status, "reaped %u", frames);
}

static void report(void)
{
    partmem_figures f;
    char top[12] = "none";
    line("%u report", t);
    partmem_status status = partmem_report(me, &f);
    if (f.greatest) sprintf(top, "%u", order_of(f.greatest));
    reply(false, status, "frames %u live %u free %u top %s split %u", f.frames, f.live, f.free, top, f.split);
    for (uint32_t k = 0; k < f.orders; k++) {
        reply(false, status, "order %u free %u taken %u", k, f.order[k].free, f.order[k].taken);
    }
    for (uint32_t c = 0; c < f.caches; c++) {
        const partmem_cache_row *row = &f.cache[c];
        reply(false, status, "cache %u full %u partial %u empty %u live %u", row->cache, row->full, row->partial, row->empty,
              row->live);
    }
}

/* Writes the line `admin pool`, and its reply from what partmem_find_superblock returns for each superblock. */
static void pool(void)
{
    partmem_owner owners[PARTMEM_MAX_SUPERBLOCKS];
    uint32_t free_ones = 0;
    line("admin pool");
    for (uint32_t m = 0; m < superblocks; m++) {
        MUST(partmem_find_superblock(&machine, m, &owners[m]) == PARTMEM_DONE);
        free_ones += !owners[m].is_owned;
    }
    reply(true, PARTMEM_DONE, "pool free %u of %u", free_ones, superblocks);
    for (uint32_t m = 0; m < superblocks; m++) {
        if (!owners[m].is_owned) reply(true, PARTMEM_DONE, "superblock %u free", m);
        else reply(true, PARTMEM_DONE, "superblock %u tenant %u slot %u", m, owners[m].tenant, owners[m].slot);
    }
}

/* Make a request with partmem_line, and another with partmem_event. */
static void run_line(void)
{
    static char buffer[PARTMEM_LINE_BUFFER_BYTES];
    char text[64];
    size_t written;
    int len = rarely(2) ? sprintf(text, "%u take %u", t, cache) : sprintf(text, "%u free %u", t, place / PARTMEM_FRAME_BYTES);
    line("%s", text);
    MUST(partmem_line(&machine, text, (size_t)len, buffer, sizeof buffer, &written) == PARTMEM_DONE);
    fwrite(buffer, 1, written, replies);
}

static void run_event(void)
{
    partmem_request request = {PARTMEM_ALLOC, t, any(order + 2), 0};
    partmem_reply got;
    uint8_t buffer[PARTMEM_MAX_BYTES];
    line("%u alloc %u", t, request.first);
    MUST(partmem_event(&machine, &request, "", 0, &got, buffer, sizeof buffer) == PARTMEM_DONE);
    partmem_status status = got.kind == PARTMEM_REFUSED ? (partmem_status)got.first : PARTMEM_DONE;
    if (reply(false, status, "frame %u", got.first)) keep(got.first * PARTMEM_FRAME_BYTES);
}

static void (*const frequent[])(void) = {alloc, release, take,       give,        release_place, load,
                                         store, read_bytes, write_bytes, run_line, run_event};
static void (*const rare[])(void) = {grant, take_back, move, make_cache, reap, report};
static void (*const rarest[])(void) = {reset, destroy_cache, pool, grant, grant};

int main(int words, char **word)
{
    MUST(words == 8);
    order = (uint32_t)atoi(word[1]), superblocks = (uint32_t)atoi(word[2]), tenants = (uint32_t)atoi(word[3]);
    random_state = (uint64_t)atoll(word[5]);
    superblock_bytes = PARTMEM_FRAME_BYTES << order;
    trace = fopen(word[6], "w"), replies = fopen(word[7], "w");
    MUST(trace && replies);
    boot(&machine, order, superblocks, tenants);
    for (long calls = atol(word[4]); calls > 0; calls--) {
        choose();
        if (!rarely(5)) frequent[any(LEN(frequent))]();
        else if (!rarely(10)) rare[any(LEN(rare))]();
        else rarest[any(LEN(rarest))]();
    }
    MUST(partmem_end(&machine) == PARTMEM_DONE && fclose(trace) == 0 && fclose(replies) == 0);
    printf("%u replies, %u of them refusals, %u stores and loads in place\n", done + refused, refused, in_place);
    return 0;
}
