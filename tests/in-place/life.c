/* Checks how long lent memory stays valid. After each of many random calls, each live range is lent again. It has to be at the
 * same address with the same bytes, and its address has to lead back to its place. After a move of a slot, the ranges in the slot
 * are at other addresses with the same bytes, and all others stay where they are.
 *
 *     life CALLS SEED
 */
#include "trial.h"

enum { TENANTS = 4, ORDER = 3, SUPERBLOCKS = 14, SUPERBLOCK_BYTES = 4096 << ORDER, MOST = 24, CACHES = 3 };
static const uint32_t sizes[CACHES] = {72, 1200, 4096}, aligns[CACHES] = {32, 256, 8};

/* Lent memory: a page block, or an object of a cache. */
struct range {
    partmem_lent lent;
    bool is_live, is_object;
    uint32_t cache;
    uint8_t stamp; /* the bytes of the range depend on this */
};

static partmem_machine machine;
static struct range ranges[TENANTS][MOST];
static unsigned calls, refusals, lent_again, carried;

static partmem_tenant tenant_of(uint32_t number) { return (partmem_tenant){&machine, number}; }

static uint8_t byte_of(const struct range *range, uint32_t i) { return (uint8_t)(range->stamp * 31 + i * 7 + (i >> 8)); }

static void fill(struct range *range)
{
    range->stamp = (uint8_t)any(256);
    for (uint32_t i = 0; i < range->lent.bytes; i++) ((uint8_t *)range->lent.at)[i] = byte_of(range, i);
}

static bool is_filled(const struct range *range, uint32_t step)
{
    for (uint32_t i = any(step); i < range->lent.bytes; i += step)
        if (((const uint8_t *)range->lent.at)[i] != byte_of(range, i)) return false;
    return true;
}

/* Returns whether an object is lent by its cache and place, and not for another cache, for a place in it, or as a page block. */
static bool is_lent_as_object(partmem_tenant me, const struct range *range)
{
    partmem_lent lent;
    uint32_t place = range->lent.place;
    return partmem_object_at(me, range->cache, place) == range->lent.at &&
           !partmem_object_at(me, (range->cache + 1) % CACHES, place) && !partmem_object_at(me, range->cache, place + 8) &&
           partmem_lend_block(me, place, &lent) == PARTMEM_OUT_OF_REACH && !lent.at;
}

/* Returns whether a page block is lent whole for a random place in it, and not as an object. */
static bool is_lent_as_block(partmem_tenant me, const struct range *range)
{
    partmem_lent lent;
    partmem_block found;
    uint32_t place = range->lent.place + any(range->lent.bytes);
    return partmem_lend_block(me, place, &lent) == PARTMEM_DONE && !memcmp(&lent, &range->lent, sizeof lent) &&
           partmem_find_block(me, place, &found) == PARTMEM_DONE && found.use == PARTMEM_PAGE_BLOCK &&
           found.place == lent.place && found.bytes == lent.bytes && !partmem_object_at(me, 0, lent.place);
}

/* Returns whether partmem_find_object finds this object or page block for a place in it. */
static bool is_found(partmem_tenant me, const struct range *range, uint32_t place)
{
    partmem_object found;
    return partmem_find_object(me, place, &found) == PARTMEM_DONE &&
           found.cache == (range->is_object ? range->cache : PARTMEM_OF_NO_CACHE) && found.place == range->lent.place &&
           found.bytes == range->lent.bytes;
}

static void check(uint32_t t, const struct range *range)
{
    partmem_tenant me = tenant_of(t);
    const partmem_lent *lent = &range->lent;
    uint32_t from = any(lent->bytes), place;
    MUST(partmem_at(me, lent->place, lent->bytes) == lent->at);
    MUST(partmem_at(me, lent->place + from, lent->bytes - from) == (uint8_t *)lent->at + from);
    MUST(!partmem_at(me, lent->place, lent->bytes + 1) && !partmem_at(me, lent->place, 0));
    MUST(((uintptr_t)lent->at - lent->place) % PARTMEM_FRAME_BYTES == 0);
    MUST(partmem_find_place(me, (uint8_t *)lent->at + from, &place) == PARTMEM_DONE && place == lent->place + from);
    MUST(partmem_find_place(tenant_of((t + 1) % TENANTS), lent->at, &place) == PARTMEM_NOT_HELD && place == 0);
    MUST(range->is_object ? is_lent_as_object(me, range) : is_lent_as_block(me, range));
    MUST(is_found(me, range, lent->place) && is_found(me, range, lent->place + from));
    MUST(is_found(me, range, lent->place + lent->bytes - 1));
    MUST(is_filled(range, 61));
    lent_again++;
}

static void check_all(void)
{
    for (uint32_t t = 0; t < TENANTS; t++)
        for (int i = 0; i < MOST; i++)
            if (ranges[t][i].is_live) check(t, &ranges[t][i]);
}

static partmem_status counted(partmem_status status)
{
    calls++;
    refusals += status != PARTMEM_DONE;
    return status;
}

static void make_caches(uint32_t t)
{
    partmem_cache made;
    for (int c = 0; c < CACHES; c++) {
        MUST(partmem_make_cache(tenant_of(t), sizes[c], aligns[c], "ab", 2, &made) == PARTMEM_DONE && made.cache == (uint32_t)c);
    }
}

/* Takes an object or allocates a block, and fills it. */
static void take(uint32_t t, struct range *range)
{
    if (range->is_live) return;
    partmem_tenant me = tenant_of(t);
    range->is_object = any(2);
    range->cache = any(CACHES);
    uint32_t order = any(ORDER + 2), bytes = range->is_object ? sizes[range->cache] : PARTMEM_FRAME_BYTES << order;
    range->is_live = counted(range->is_object ? partmem_take(me, range->cache, &range->lent)
                                              : partmem_alloc(me, order, &range->lent)) == PARTMEM_DONE;
    MUST(range->lent.bytes == (range->is_live ? bytes : 0) && !range->lent.at == !range->is_live);
    if (range->is_live) fill(range);
}

static void give(uint32_t t, struct range *range)
{
    if (!range->is_live) return;
    partmem_tenant me = tenant_of(t);
    partmem_object found;
    uint32_t place = range->lent.place;
    if (range->is_object) {
        MUST(partmem_free(me, place) == PARTMEM_NOT_A_BLOCK);
        MUST(counted(partmem_give(me, range->cache, place)) == PARTMEM_DONE);
    } else {
        MUST(partmem_give(me, 0, place) == PARTMEM_NOT_AN_OBJECT && partmem_free(me, place + 8) == PARTMEM_NOT_A_BLOCK);
        MUST(counted(partmem_free(me, place)) == PARTMEM_DONE);
    }
    MUST(!partmem_at(me, place, 1) && partmem_find_object(me, place, &found) == PARTMEM_OUT_OF_REACH && !found.bytes);
    range->is_live = false;
}

static void move(uint32_t t)
{
    partmem_slot moved;
    uint32_t slot = any(SUPERBLOCKS);
    if (counted(partmem_move(tenant_of(t), slot, &moved)) != PARTMEM_DONE) return;
    for (int i = 0; i < MOST; i++) {
        struct range *range = &ranges[t][i];
        if (!range->is_live || range->lent.place / SUPERBLOCK_BYTES != slot) continue;
        void *before = range->lent.at;
        MUST(partmem_lend(tenant_of(t), range->lent.place, range->lent.bytes, &range->lent) == PARTMEM_DONE);
        MUST(range->lent.at != before && is_filled(range, 1));
        carried++;
    }
}

static void reset(uint32_t t)
{
    MUST(counted(partmem_reset(tenant_of(t))) == PARTMEM_DONE);
    for (int i = 0; i < MOST; i++) ranges[t][i].is_live = false;
    make_caches(t);
}

/* Checks that reads return what is stored in place, and that a write changes the bytes in place. */
static void read_and_write(uint32_t t, const struct range *range)
{
    uint8_t bytes[PARTMEM_MAX_BYTES], other;
    if (!range->is_live) return;
    partmem_tenant me = tenant_of(t);
    uint8_t *at = range->lent.at;
    MUST(counted(partmem_read(me, range->lent.place + 8, bytes, sizeof bytes)) == PARTMEM_DONE);
    MUST(!memcmp(bytes, at + 8, sizeof bytes));
    other = (uint8_t)~at[5];
    MUST(counted(partmem_write(me, range->lent.place + 5, &other, 1)) == PARTMEM_DONE && at[5] == other);
    at[5] = (uint8_t)~other;
    MUST(partmem_read(me, range->lent.place + 5, bytes, 1) == PARTMEM_DONE && bytes[0] == at[5]);
}

/* Reaps the empty slabs, and checks that a report has the right number of live objects. */
static void reap_and_report(uint32_t t)
{
    partmem_figures figures;
    uint32_t frames, objects = 0;
    (void)counted(partmem_reap(tenant_of(t), &frames));
    MUST(partmem_report(tenant_of(t), &figures) == PARTMEM_DONE && figures.orders == ORDER + 1 && figures.caches == CACHES);
    for (int i = 0; i < MOST; i++) objects += ranges[t][i].is_live && ranges[t][i].is_object;
    for (int c = 0; c < CACHES; c++) objects -= figures.cache[c].live;
    MUST(objects == 0);
}

static void step(void)
{
    partmem_slot slot;
    uint32_t t = any(TENANTS);
    struct range *range = &ranges[t][any(MOST)];
    switch (any(10)) {
    case 0: case 1: case 2: take(t, range); break;
    case 3: give(t, range); break;
    case 4: (void)counted(partmem_grant(tenant_of(t), &slot)); break;
    case 5: move(t); break;
    case 6: (void)counted(partmem_take_back(tenant_of(t), any(SUPERBLOCKS))); break;
    case 7: read_and_write(t, range); break;
    case 8: reap_and_report(t); break;
    case 9: if (rarely(20)) reset(t); break;
    }
}

int main(int words, char **word)
{
    MUST(words == 3);
    random_state = (uint64_t)atoll(word[2]);
    boot(&machine, ORDER, SUPERBLOCKS, TENANTS);
    for (uint32_t t = 0; t < TENANTS; t++) make_caches(t);
    for (long steps = atol(word[1]); steps > 0; steps--) {
        step();
        check_all();
    }
    MUST(partmem_end(&machine) == PARTMEM_DONE);
    printf("%u calls (%u refused), %u times lent again at the same address with the same bytes, %u carried by moves\n", calls,
           refusals, lent_again, carried);
    return 0;
}
