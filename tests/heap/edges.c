/* Tests the edge cases of the heap: what an initialisation refuses, requests for no bytes and for too many, alignments, runs
 * (pieces of several superblocks that lie in sequence), and direct calls that replace caches of the heap. */
#include "partmem_heap.h"
#include "trial.h"

enum { ORDER = 3, UNIT = 4096 << ORDER, SLOTS = 6 };

static partmem_machine machine, none;
static const partmem_tenant first = {&machine, 0}, second = {&machine, 1}, third = {&machine, 2};
static uint16_t runs[SLOTS + 2];
static const partmem_heap_config with_runs = {NULL, 0, SLOTS, runs};
static partmem_heap heap;

static void grant(partmem_tenant tenant, int count)
{
    partmem_slot slot;
    for (int i = 0; i < count; i++) MUST(partmem_grant(tenant, &slot) == PARTMEM_DONE);
}

/* Initialises the heap, with runs if `entries` is not 0. */
static partmem_status init(partmem_tenant tenant, const uint16_t *sizes, uint32_t count, uint32_t entries)
{
    const partmem_heap_config config = {sizes, count, entries, runs};
    memset(&heap, 0xa5, sizeof heap);
    memset(runs, 0xa5, sizeof runs);
    return partmem_heap_init(&heap, tenant, &config);
}

/* Checks that a heap whose initialisation was refused is all zeroes, and refuses to allocate and to free. */
static void check_zeroes(void)
{
    const char *bytes = (const char *)&heap;
    int here;
    for (size_t i = 0; i < sizeof heap; i++) MUST(!bytes[i]);
    MUST(!partmem_heap_malloc(&heap, 1) && !partmem_heap_malloc(&heap, 5000) && !partmem_heap_calloc(&heap, 2, 8));
    MUST(!partmem_heap_realloc(&heap, NULL, 8) && !partmem_heap_realloc(&heap, &here, 8));
    MUST(!partmem_heap_aligned_alloc(&heap, 64, 8) && !partmem_heap_usable_size(&heap, &here));
    MUST(partmem_heap_free(&heap, &here) == PARTMEM_NO_MACHINE && partmem_heap_free(&heap, NULL) == PARTMEM_DONE);
    MUST(partmem_heap_place(&heap, &here) == PARTMEM_NO_PLACE);
}

static void check_refused(partmem_status status, partmem_status wanted)
{
    MUST(status == wanted);
    check_zeroes();
}

static void check_init(void)
{
    static const uint16_t zero[] = {0}, odd[] = {16, 40}, falling[] = {32, 16}, twice[] = {16, 16}, large[] = {16, 4112};
    static const uint16_t good[] = {16, 4096};
    uint16_t many[PARTMEM_HEAP_MAX_CLASSES + 1];
    for (size_t i = 0; i < LEN(many); i++) many[i] = (uint16_t)(16 * (i + 1));
    const partmem_heap_config no_entries = {NULL, 0, SLOTS, NULL};
    check_refused(init((partmem_tenant){&none, 0}, zero, 1, SLOTS), PARTMEM_NO_MACHINE);
    check_refused(init((partmem_tenant){&machine, 9}, zero, 1, SLOTS), PARTMEM_NO_TENANT);
    check_refused(init(first, zero, 1, 0), PARTMEM_BAD_CONFIG);
    check_refused(init(first, odd, 2, 0), PARTMEM_BAD_CONFIG);
    check_refused(init(first, falling, 2, 0), PARTMEM_BAD_CONFIG);
    check_refused(init(first, twice, 2, 0), PARTMEM_BAD_CONFIG);
    check_refused(init(first, large, 2, 0), PARTMEM_BAD_CONFIG);
    check_refused(init(first, many, LEN(many), 0), PARTMEM_BAD_CONFIG);
    check_refused(init(third, good, 2, SLOTS), PARTMEM_BAD_MEMORY); /* no slot */
    check_refused(init(first, good, 2, SLOTS - 1), PARTMEM_BAD_MEMORY);
    MUST(runs[0] == 0xa5a5);
    check_refused(partmem_heap_init(&heap, first, &no_entries), PARTMEM_BAD_MEMORY);
    MUST(init(first, good, 2, 0) == PARTMEM_DONE && heap.classes == 2 && !heap.runs);
    MUST(init(first, many, LEN(many) - 1, SLOTS) == PARTMEM_DONE && heap.classes == LEN(many) - 1 && heap.slots == SLOTS);
    MUST(init(first, good, 2, SLOTS + 2) == PARTMEM_DONE && heap.slots == SLOTS && runs[SLOTS] == 0xa5a5);
    MUST(partmem_heap_init(&heap, first, NULL) == PARTMEM_DONE && heap.classes == LEN(many) - 1 && !heap.slots);
}

/* Checks that runs are refused if the slots do not lie in sequence: in the wrong order, with a gap, or without slot 0. */
static void check_sequence(void)
{
    partmem_slot moved;
    grant(second, 2);
    MUST(init(second, NULL, 0, 2) == PARTMEM_DONE && heap.slots == 2 && runs[2] == 0xa5a5);
    MUST(partmem_move(second, 0, &moved) == PARTMEM_DONE);
    check_refused(init(second, NULL, 0, SLOTS), PARTMEM_BAD_MEMORY);
    MUST(init(second, NULL, 0, 0) == PARTMEM_DONE && partmem_heap_malloc(&heap, 8));
    MUST(partmem_reset(second) == PARTMEM_DONE);
    grant(second, 1);
    grant(third, 1);
    grant(second, 1);
    check_refused(init(second, NULL, 0, SLOTS), PARTMEM_BAD_MEMORY);
    MUST(partmem_take_back(second, 0) == PARTMEM_DONE);
    check_refused(init(second, NULL, 0, SLOTS), PARTMEM_BAD_MEMORY);
    MUST(partmem_reset(second) == PARTMEM_DONE && partmem_reset(third) == PARTMEM_DONE);
}

static void check_sizes(void)
{
    static const size_t sizes[] = {0, 1, 16, 17, 256, 257, 4095, 4096, 4097, 8192, 8193, UNIT - 1, UNIT};
    static const size_t usable[] = {16, 16, 16, 32, 256, 336, 4096, 4096, 8192, 8192, 16384, UNIT, UNIT};
    MUST(partmem_heap_init(&heap, first, NULL) == PARTMEM_DONE);
    for (size_t i = 0; i < LEN(sizes); i++) {
        void *at = partmem_heap_malloc(&heap, sizes[i]), *other = partmem_heap_malloc(&heap, sizes[i]);
        MUST(at && other && at != other && partmem_heap_usable_size(&heap, at) == usable[i]);
        MUST(partmem_heap_free(&heap, at) == PARTMEM_DONE && partmem_heap_free(&heap, other) == PARTMEM_DONE);
        MUST(partmem_heap_free(&heap, at) == PARTMEM_OUT_OF_REACH);
    }
    MUST(!partmem_heap_malloc(&heap, UNIT + 1) && !partmem_heap_malloc(&heap, SIZE_MAX));
    MUST(!partmem_heap_calloc(&heap, SIZE_MAX, 2) && !partmem_heap_calloc(&heap, 1ul << 32, 1ul << 32));
    MUST(!partmem_heap_calloc(&heap, SIZE_MAX / 2, 2) && partmem_heap_calloc(&heap, 0, SIZE_MAX));
    MUST(!partmem_heap_usable_size(&heap, NULL) && partmem_heap_free(&heap, NULL) == PARTMEM_DONE);
}

static void check_alignments(void)
{
    static const uint16_t powers[] = {16, 32, 64, 128, 256, 512, 1024, 2048, 4096};
    for (size_t align = 0; align <= 8192; align++) {
        const bool is_good = align && !(align & (align - 1)) && align <= 4096;
        unsigned char *at = partmem_heap_aligned_alloc(&heap, align, align % 300);
        MUST(!at == !is_good && (!at || (uintptr_t)at % align == 0));
        MUST(partmem_heap_free(&heap, at) == PARTMEM_DONE);
    }
    /* A piece whose size is a power of two is aligned to its size if a class has this size. Linux promises this of kmalloc. */
    MUST(partmem_reset(first) == PARTMEM_DONE);
    grant(first, SLOTS);
    MUST(init(first, powers, LEN(powers), 0) == PARTMEM_DONE);
    for (int round = 0; round < 12; round++)
        for (size_t i = 0; i < LEN(powers); i++) {
            unsigned char *at = partmem_heap_malloc(&heap, powers[i]);
            MUST(at && (uintptr_t)at % powers[i] == 0 && partmem_heap_usable_size(&heap, at) == powers[i]);
        }
}

static void check_realloc(void)
{
    unsigned char *at = partmem_heap_malloc(&heap, 100), *kept = at;
    memset(at, 7, 100);
    MUST(partmem_heap_realloc(&heap, at, 128) == at && partmem_heap_realloc(&heap, at, 65) == at);
    at = partmem_heap_realloc(&heap, at, 5000);
    MUST(at && at != kept && at[0] == 7 && at[99] == 7 && partmem_heap_free(&heap, kept) == PARTMEM_OUT_OF_REACH);
    MUST(!partmem_heap_realloc(&heap, at + 16, 10000) && !partmem_heap_realloc(&heap, at, UNIT + 1) && at[99] == 7);
    at = partmem_heap_realloc(&heap, at, 0);
    MUST(at && partmem_heap_usable_size(&heap, at) == 16);
    MUST(partmem_heap_free(&heap, at + 1) == PARTMEM_NOT_AN_OBJECT && partmem_heap_free(&heap, at) == PARTMEM_DONE);
    at = partmem_heap_malloc(&heap, 8192);
    MUST(partmem_heap_free(&heap, at + 4096) == PARTMEM_NOT_A_BLOCK && partmem_heap_free(&heap, at) == PARTMEM_DONE);
}

/* Checks that a free inside a run is refused, even at the beginning of a superblock, and that the run stays whole. A slot that is
 * granted after the initialisation is in no run. */
static void check_runs(void)
{
    unsigned char *at, *block, *other;
    MUST(partmem_reset(first) == PARTMEM_DONE);
    grant(first, SLOTS);
    MUST(partmem_heap_init(&heap, first, &with_runs) == PARTMEM_DONE && heap.slots == SLOTS);
    grant(first, 1);
    MUST(!partmem_heap_malloc(&heap, SLOTS * UNIT + 1));
    at = partmem_heap_malloc(&heap, SLOTS * UNIT);
    MUST(at && partmem_heap_usable_size(&heap, at) == SLOTS * UNIT && partmem_heap_place(&heap, at + 5) == 5);
    memset(at, 1, SLOTS * UNIT);
    for (uint32_t inner = 1; inner < SLOTS * UNIT; inner += inner % 4096 ? 4095 : 1)
        MUST(partmem_heap_free(&heap, at + inner) == PARTMEM_NOT_A_BLOCK && !partmem_heap_usable_size(&heap, at + inner));
    MUST(partmem_heap_usable_size(&heap, at) == SLOTS * UNIT && partmem_heap_free(&heap, at) == PARTMEM_DONE);
    MUST(partmem_heap_free(&heap, at) == PARTMEM_OUT_OF_REACH);
    block = partmem_heap_malloc(&heap, 5000);
    MUST(!partmem_heap_malloc(&heap, SLOTS * UNIT));
    at = partmem_heap_malloc(&heap, 2 * UNIT - 1);
    other = partmem_heap_malloc(&heap, 2 * UNIT + 1);
    MUST(block && at == block + UNIT && other == at + 2 * UNIT && partmem_heap_usable_size(&heap, other) == 3 * UNIT);
    MUST(!partmem_heap_malloc(&heap, UNIT + 1)); /* the one free slot was granted later */
    MUST(partmem_heap_free(&heap, block) == PARTMEM_DONE && !partmem_heap_malloc(&heap, UNIT + 1));
    MUST(partmem_heap_free(&heap, at) == PARTMEM_DONE && partmem_heap_realloc(&heap, other, 4 * UNIT) == NULL);
    MUST(partmem_heap_realloc(&heap, other, UNIT + 1) == other && partmem_heap_realloc(&heap, other, UNIT) == block);
    MUST(partmem_heap_usable_size(&heap, block) == UNIT && partmem_heap_free(&heap, other) == PARTMEM_OUT_OF_REACH);
    MUST(partmem_heap_free(&heap, block) == PARTMEM_DONE);
    /* An empty slab gives way to a run, although the slot that was granted later is free. */
    at = partmem_heap_malloc(&heap, 16);
    MUST(at && partmem_heap_place(&heap, at) < SLOTS * UNIT && partmem_heap_free(&heap, at) == PARTMEM_DONE);
    at = partmem_heap_malloc(&heap, SLOTS * UNIT);
    MUST(at && partmem_heap_place(&heap, at) == 0 && partmem_heap_free(&heap, at) == PARTMEM_DONE);
}

/* Destroys the heap's cache of a class with a direct call, and makes a cache of `size` bytes and alignment 8 in its place.
 * Returns its number. */
static uint32_t replace_cache(uint32_t class_size, uint32_t size)
{
    partmem_cache made;
    partmem_object found;
    unsigned char *at = partmem_heap_malloc(&heap, class_size);
    MUST(at && partmem_find_object(first, partmem_heap_place(&heap, at), &found) == PARTMEM_DONE && found.bytes == class_size);
    MUST(partmem_destroy_cache(first, found.cache) == PARTMEM_CACHE_IN_USE && partmem_heap_free(&heap, at) == PARTMEM_DONE);
    MUST(partmem_destroy_cache(first, found.cache) == PARTMEM_DONE);
    MUST(partmem_make_cache(first, size, 8, "", 1, &made) == PARTMEM_DONE && made.cache == found.cache);
    return made.cache;
}

/* Checks the heap after direct calls replaced a cache: by one of another size, and by one with a lower alignment. */
static void check_caches(void)
{
    partmem_lent direct;
    unsigned char *at, *pieces[100];
    uint32_t cache = replace_cache(64, 40);
    MUST(partmem_take(first, cache, &direct) == PARTMEM_DONE);
    MUST(partmem_heap_free(&heap, direct.at) == PARTMEM_NOT_AN_OBJECT && !partmem_heap_usable_size(&heap, direct.at));
    at = partmem_heap_malloc(&heap, 64);
    MUST(at && partmem_heap_usable_size(&heap, at) == 64 && partmem_heap_free(&heap, at) == PARTMEM_DONE);
    MUST(partmem_give(first, cache, direct.place) == PARTMEM_DONE && partmem_destroy_cache(first, cache) == PARTMEM_DONE);
    cache = replace_cache(96, 96);
    for (size_t i = 0; i < LEN(pieces); i++) {
        pieces[i] = partmem_heap_malloc(&heap, 90);
        MUST(pieces[i] && (uintptr_t)pieces[i] % 32 == 0 && partmem_heap_usable_size(&heap, pieces[i]) == 96);
    }
    MUST(partmem_destroy_cache(first, cache) == PARTMEM_CACHE_IN_USE); /* the heap uses it: its first slab is aligned */
    for (size_t i = 0; i < LEN(pieces); i++) MUST(partmem_heap_free(&heap, pieces[i]) == PARTMEM_DONE);
    MUST(partmem_destroy_cache(first, cache) == PARTMEM_DONE);
}

/* Checks that direct calls can make 8 caches if the heap has one for each class. If direct calls have made 31, the heap makes
 * just one cache. This cache also serves smaller requests, and larger requests get page blocks. */
static void check_no_cache(void)
{
    partmem_cache made;
    uint32_t count = 0;
    MUST(partmem_reset(first) == PARTMEM_DONE);
    grant(first, SLOTS);
    MUST(partmem_heap_init(&heap, first, NULL) == PARTMEM_DONE);
    for (uint32_t class = 0; class < heap.classes; class++) MUST(partmem_heap_malloc(&heap, heap.size[class]));
    while (partmem_make_cache(first, 8, 8, "", 1, &made) == PARTMEM_DONE) count++;
    MUST(count == PARTMEM_MAX_CACHES - PARTMEM_HEAP_MAX_CLASSES);
    MUST(partmem_reset(first) == PARTMEM_DONE);
    grant(first, SLOTS);
    MUST(partmem_heap_init(&heap, first, NULL) == PARTMEM_DONE);
    for (count = 1; count < PARTMEM_MAX_CACHES; count++) MUST(partmem_make_cache(first, 8, 8, "", 1, &made) == PARTMEM_DONE);
    unsigned char *at = partmem_heap_malloc(&heap, 1000), *small = partmem_heap_malloc(&heap, 10);
    unsigned char *large = partmem_heap_malloc(&heap, 2000);
    MUST(at && small && large && partmem_heap_usable_size(&heap, at) == 1024 && partmem_heap_usable_size(&heap, small) == 1024);
    MUST(partmem_heap_usable_size(&heap, large) == 4096 && partmem_heap_free(&heap, large) == PARTMEM_DONE);
    MUST(partmem_heap_free(&heap, at) == PARTMEM_DONE && partmem_heap_free(&heap, small) == PARTMEM_DONE);
}

/* Checks that a heap that was initialised without a slot allocates after the first grant. A slab of 32 KiB needs the whole
 * superblock. If something else is in it, the request gets a page block of one frame. If the slab has all frames, a small request
 * gets one of its objects, until none is free. */
static void check_few_frames(void)
{
    unsigned char *at, *other;
    MUST(partmem_heap_init(&heap, third, NULL) == PARTMEM_DONE && !partmem_heap_malloc(&heap, 10));
    grant(third, 1);
    MUST((at = partmem_heap_malloc(&heap, 10)) && (other = partmem_heap_malloc(&heap, 3568)));
    MUST(partmem_heap_usable_size(&heap, other) == 4096 && partmem_heap_free(&heap, other) == PARTMEM_DONE);
    MUST(partmem_heap_free(&heap, at) == PARTMEM_DONE);
    MUST((at = partmem_heap_malloc(&heap, 3568)) && partmem_heap_usable_size(&heap, at) == 3568);
    for (int objects = 1; objects < 9; objects++) {
        MUST((other = partmem_heap_malloc(&heap, 10)) && partmem_heap_usable_size(&heap, other) == 3568);
    }
    MUST(!partmem_heap_malloc(&heap, 10) && !partmem_heap_aligned_alloc(&heap, 64, 10));
    MUST(partmem_heap_realloc(&heap, other, 20) == other && partmem_heap_free(&heap, other) == PARTMEM_DONE);
    MUST(partmem_heap_malloc(&heap, 10) == other);
}

int main(void)
{
    boot(&machine, ORDER, 16, 3);
    grant(first, SLOTS);
    check_init();
    check_sequence();
    check_sizes();
    check_alignments();
    check_realloc();
    check_runs();
    check_caches();
    check_no_cache();
    check_few_frames();
    MUST(partmem_end(&machine) == PARTMEM_DONE);
    MUST(partmem_heap_free(&heap, &heap) == PARTMEM_NO_MACHINE);
    puts("edges of sizes, alignments, runs and caches");
    return 0;
}
