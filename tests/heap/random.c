/* Makes random calls to heaps, and compares what they return with a model. Four tenants each use a heap and direct calls. A piece
 * that a heap returns has the requested bytes and alignment, shares no byte with anything else that is live, and keeps its bytes.
 * A wrong free is refused and changes nothing. A request is refused only if the tenant has no frames for it, or if it is for more
 * than a superblock and the heap has no runs.
 *
 * Two more tenants do the same, and are reset at random. Then each of the four runs alone, on another machine and on other
 * superblocks. The commands that reach the library, their results, and all that the heap returns have to be the same as before.
 *
 *     random ORDER CALLS SEED
 *
 * The program is linked with --wrap=NAME for each function __wrap_NAME below.
 */
#include "partmem_heap.h"
#include "trial.h"

enum { STABLE = 4, USERS = 6, OTHER = USERS /* a tenant that only has superblocks */, PIECES = 300, STAMPS = 64 };
enum kind { NOTHING, PIECE, OBJECT, BLOCK }; /* a piece of the heap; an object or a page block of direct calls */

struct piece {
    enum kind kind;
    unsigned char *at;
    size_t bytes; /* as requested */
    size_t usable;
    uint32_t place, cache;
    uint32_t stamp; /* its bytes are those of `pattern` from this index on */
};

struct user {
    partmem_tenant tenant;
    partmem_heap heap;
    struct piece pieces[PIECES];
    uint16_t direct[PARTMEM_MAX_CACHES]; /* the sizes of the caches that direct calls made; 0 for others */
    uint64_t random, hash;
    bool is_filling; /* whether it allocates more than it frees */
    unsigned long calls, refused, wrong_frees, moved, runs, changes;
};

static const uint16_t few_sizes[] = {32, 48, 512, 2048}, many_sizes[] = {16, 64, 80, 272, 1008, 4096};
static const uint32_t slots_of_order[] = {0, 0, 0, 18, 12, 8, 5, 4, 4, 3, 3};
static uint32_t order, unit, slots; /* the order and the bytes of a superblock; a tenant's number of slots */
static partmem_machine machine;
static struct user users[USERS];
static unsigned char *pattern;
static uint16_t runs[STABLE][32];

/* ---- Commands, each noted with what it returns -------------------------------------------------------------------------- */

static void mix(struct user *user, uint64_t number)
{
    user->hash = (user->hash ^ number) * 1099511628211u;
    user->hash ^= user->hash >> 29;
}

static partmem_status note(partmem_tenant tenant, uint32_t command, partmem_status status, uint32_t first, uint32_t second,
                           uint32_t returned)
{
    if (tenant.number >= USERS) return status;
    struct user *user = &users[tenant.number];
    const uint32_t numbers[] = {command, status, first, second, returned};
    for (size_t i = 0; i < LEN(numbers); i++) mix(user, numbers[i]);
    user->changes += status == PARTMEM_DONE;
    return status;
}

partmem_status __real_partmem_alloc(partmem_tenant tenant, uint32_t block_order, partmem_lent *block);
partmem_status __wrap_partmem_alloc(partmem_tenant tenant, uint32_t block_order, partmem_lent *block)
{
    partmem_status status = __real_partmem_alloc(tenant, block_order, block);
    return note(tenant, PARTMEM_ALLOC, status, block_order, 0, block->place);
}

partmem_status __real_partmem_free(partmem_tenant tenant, uint32_t place);
partmem_status __wrap_partmem_free(partmem_tenant tenant, uint32_t place)
{
    return note(tenant, PARTMEM_FREE, __real_partmem_free(tenant, place), place, 0, 0);
}

partmem_status __real_partmem_make_cache(partmem_tenant tenant, uint32_t size, uint32_t align, const void *bytes, size_t count,
                                         partmem_cache *made);
partmem_status __wrap_partmem_make_cache(partmem_tenant tenant, uint32_t size, uint32_t align, const void *bytes, size_t count,
                                         partmem_cache *made)
{
    partmem_status status = __real_partmem_make_cache(tenant, size, align, bytes, count, made);
    return note(tenant, PARTMEM_CACHE, status, size, align, made->cache);
}

partmem_status __real_partmem_destroy_cache(partmem_tenant tenant, uint32_t cache);
partmem_status __wrap_partmem_destroy_cache(partmem_tenant tenant, uint32_t cache)
{
    return note(tenant, PARTMEM_DESTROY, __real_partmem_destroy_cache(tenant, cache), cache, 0, 0);
}

partmem_status __real_partmem_take(partmem_tenant tenant, uint32_t cache, partmem_lent *object);
partmem_status __wrap_partmem_take(partmem_tenant tenant, uint32_t cache, partmem_lent *object)
{
    partmem_status status = __real_partmem_take(tenant, cache, object);
    return note(tenant, PARTMEM_TAKE, status, cache, object->bytes, object->place);
}

partmem_status __real_partmem_give(partmem_tenant tenant, uint32_t cache, uint32_t place);
partmem_status __wrap_partmem_give(partmem_tenant tenant, uint32_t cache, uint32_t place)
{
    return note(tenant, PARTMEM_GIVE, __real_partmem_give(tenant, cache, place), cache, place, 0);
}

/* A release is noted as the give or the free that it does. If it is refused, it is noted as a refused give. */
static partmem_status note_release(partmem_tenant tenant, partmem_status status, const partmem_object *freed)
{
    if (status == PARTMEM_DONE && freed->cache == PARTMEM_OF_NO_CACHE)
        return note(tenant, PARTMEM_FREE, status, freed->place, 0, 0);
    return note(tenant, PARTMEM_GIVE, status, freed->cache, freed->place, 0);
}

partmem_status __real_partmem_release(partmem_tenant tenant, uint32_t place, const partmem_sizes *sizes, partmem_object *freed);
partmem_status __wrap_partmem_release(partmem_tenant tenant, uint32_t place, const partmem_sizes *sizes, partmem_object *freed)
{
    *freed = (partmem_object){0, 0, 0};
    return note_release(tenant, __real_partmem_release(tenant, place, sizes, freed), freed);
}

partmem_status __real_partmem_release_at(partmem_tenant tenant, const void *at, const partmem_sizes *sizes,
                                         partmem_object *freed);
partmem_status __wrap_partmem_release_at(partmem_tenant tenant, const void *at, const partmem_sizes *sizes,
                                         partmem_object *freed)
{
    *freed = (partmem_object){0, 0, 0};
    return note_release(tenant, __real_partmem_release_at(tenant, at, sizes, freed), freed);
}

partmem_status __real_partmem_reap(partmem_tenant tenant, uint32_t *frames);
partmem_status __wrap_partmem_reap(partmem_tenant tenant, uint32_t *frames)
{
    partmem_status status = __real_partmem_reap(tenant, frames);
    return note(tenant, PARTMEM_REAP, status, 0, 0, *frames);
}

/* ---- The model ---------------------------------------------------------------------------------------------------------- */

static uint32_t any_of(struct user *user, uint32_t below)
{
    user->random = user->random * 6364136223846793005u + 1442695040888963407u;
    return (uint32_t)(user->random >> 33) % below;
}

static bool has_runs(const struct user *user) { return user->heap.slots > 0; }

static void fill(struct user *user, struct piece *piece)
{
    piece->stamp = any_of(user, STAMPS);
    memcpy(piece->at, pattern + piece->stamp, piece->bytes);
}

static bool is_kept(const struct piece *piece, size_t bytes) { return !memcmp(piece->at, pattern + piece->stamp, bytes); }

static bool is_apart(const struct user *user, const struct piece *piece)
{
    for (const struct piece *other = user->pieces; other < user->pieces + PIECES; other++)
        if (other != piece && other->kind != NOTHING && other->place < piece->place + piece->usable &&
            piece->place < other->place + other->usable)
            return false;
    return true;
}

/* Checks and notes a piece that a heap returned at `at`, and fills it anew. Its first `kept` bytes have to be those that it had
 * before. */
static void add_piece(struct user *user, struct piece *piece, void *at, size_t align, size_t bytes, size_t kept)
{
    piece->kind = PIECE;
    piece->at = at;
    piece->bytes = bytes;
    piece->place = partmem_heap_place(&user->heap, at);
    piece->usable = partmem_heap_usable_size(&user->heap, at);
    mix(user, piece->place);
    mix(user, piece->usable);
    MUST((uintptr_t)at % align == 0 && piece->place % align == 0 && piece->usable >= bytes && piece->usable > 0);
    MUST(piece->place < slots * unit && piece->usable <= slots * unit - piece->place);
    MUST(is_apart(user, piece) && is_kept(piece, kept));
    user->runs += piece->usable > unit;
    fill(user, piece);
}

static bool is_free(const struct user *user, uint32_t slot)
{
    partmem_block found;
    for (uint32_t at = 0; at < unit; at += found.bytes) {
        MUST(partmem_find_block(user->tenant, slot * unit + at, &found) == PARTMEM_DONE);
        if (found.use != PARTMEM_FREE_FRAME) return false;
    }
    return true;
}

static uint32_t longest_row(const struct user *user)
{
    uint32_t longest = 0, row = 0;
    for (uint32_t slot = 0; slot < slots; slot++) {
        row = is_free(user, slot) ? row + 1 : 0;
        if (row > longest) longest = row;
    }
    return longest;
}

/* Checks a refused request: the tenant has no frames for it, or it is for more than a superblock and the heap has no runs. */
static void check_refused(struct user *user, size_t bytes)
{
    partmem_lent block;
    uint32_t block_order = 0;
    user->refused++;
    mix(user, PARTMEM_NO_PLACE);
    if (bytes > unit) {
        MUST(!has_runs(user) || longest_row(user) < (bytes + unit - 1) / unit);
        return;
    }
    while (PARTMEM_RAM_BYTES(block_order, 1) < bytes) block_order++;
    MUST(partmem_alloc(user->tenant, block_order, &block) == PARTMEM_NO_FRAMES);
}

/* ---- Wrong frees -------------------------------------------------------------------------------------------------------- */

/* Checks that a free and a realloc of an address at which no piece begins are refused, and that nothing changes. */
static void check_wrong(struct user *user, void *at)
{
    const unsigned long changes = user->changes;
    partmem_status status = partmem_heap_free(&user->heap, at);
    MUST(status == PARTMEM_NOT_HELD || status == PARTMEM_OUT_OF_REACH || status == PARTMEM_NOT_AN_OBJECT ||
         status == PARTMEM_NOT_A_BLOCK);
    MUST(!partmem_heap_usable_size(&user->heap, at) && !partmem_heap_realloc(&user->heap, at, 1));
    MUST(user->changes == changes);
    mix(user, status);
    user->wrong_frees++;
}

/* Tries wrong frees inside a piece: at a random offset, and at the beginning of each further superblock of a run. */
static void check_inner(struct user *user, const struct piece *piece)
{
    const size_t steps[] = {1, 8, 16, PARTMEM_FRAME_BYTES, piece->usable / 2, piece->usable - 1};
    const size_t step = steps[any_of(user, LEN(steps))];
    if (step && step < piece->usable) check_wrong(user, piece->at + step);
    for (size_t at = unit; at < piece->usable; at += unit) check_wrong(user, piece->at + at);
}

static const struct piece *piece_at(const struct user *user, uint32_t place)
{
    for (const struct piece *piece = user->pieces; piece < user->pieces + PIECES; piece++)
        if (piece->kind != NOTHING && piece->place == place) return piece;
    return NULL;
}

/* Tries a wrong free at a random address of the tenant, unless something live begins there. */
static void check_anywhere(struct user *user)
{
    partmem_slot slot;
    const uint32_t align = 1u << any_of(user, 13), place = any_of(user, slots * unit) / align * align;
    if (piece_at(user, place)) return;
    MUST(partmem_find_slot(user->tenant, place / unit, &slot) == PARTMEM_DONE);
    check_wrong(user, (unsigned char *)partmem_superblock_address(&machine, slot.superblock) + place % unit);
}

/* Tries wrong frees of addresses outside the tenant's superblocks. */
static void check_outside(struct user *user)
{
    partmem_owner owner;
    uint32_t superblock = 0;
    check_wrong(user, &user->heap);
    check_wrong(user, (void *)(uintptr_t)(1 + any_of(user, 64)));
    while (partmem_find_superblock(&machine, superblock, &owner) == PARTMEM_DONE && owner.is_owned &&
           owner.tenant == user->tenant.number)
        superblock++;
    check_wrong(user, (unsigned char *)partmem_superblock_address(&machine, superblock) + 16 * any_of(user, unit / 16));
}

/* ---- Calls of the heap -------------------------------------------------------------------------------------------------- */

static size_t any_bytes(struct user *user)
{
    const uint32_t shape = any_of(user, 1000);
    if (shape < 650) return any_of(user, 700);
    if (shape < 880) return any_of(user, 5000);
    if (shape < 970) return any_of(user, 20000);
    if (shape < 980) return unit / 2 + any_of(user, unit / 2 + 1);
    if (has_runs(user)) return unit + any_of(user, (slots + 1) * unit / 2);
    return shape < 999 ? any_of(user, 50) : unit + any_of(user, unit);
}

static void allocate(struct user *user, struct piece *piece)
{
    partmem_heap *heap = &user->heap;
    size_t bytes = any_bytes(user), align = 16, cleared = 0;
    unsigned char *at = NULL;
    switch (any_of(user, 4)) {
    case 0: at = partmem_heap_malloc(heap, bytes); break;
    case 1: at = partmem_heap_realloc(heap, NULL, bytes); break;
    case 2:
        cleared = 1 + any_of(user, 4); /* the number of elements */
        at = partmem_heap_calloc(heap, cleared, bytes);
        bytes *= cleared;
        break;
    case 3:
        align = (size_t)1 << any_of(user, 13);
        at = partmem_heap_aligned_alloc(heap, align, bytes);
        break;
    }
    if (!at) {
        check_refused(user, bytes);
        return;
    }
    for (size_t i = 0; cleared && i < bytes; i++) MUST(!at[i]);
    add_piece(user, piece, at, align < 16 ? 16 : align, bytes, 0);
}

static void reallocate(struct user *user, struct piece *piece)
{
    const size_t bytes = any_of(user, 3) ? any_bytes(user) : piece->bytes / 2 + any_of(user, 100);
    const size_t kept = bytes < piece->bytes ? bytes : piece->bytes;
    MUST(is_kept(piece, piece->bytes));
    unsigned char *at = partmem_heap_realloc(&user->heap, piece->at, bytes);
    if (!at) {
        MUST(bytes > piece->usable && is_kept(piece, piece->bytes));
        check_refused(user, bytes);
        return;
    }
    if (at != piece->at) {
        user->moved++;
        check_wrong(user, piece->at);
    }
    add_piece(user, piece, at, 16, bytes, kept);
}

static void release(struct user *user, struct piece *piece)
{
    MUST(is_kept(piece, piece->bytes));
    check_inner(user, piece);
    MUST(partmem_heap_free(&user->heap, piece->at) == PARTMEM_DONE);
    piece->kind = NOTHING;
    check_wrong(user, piece->at);
}

/* ---- Direct calls of the same tenant ------------------------------------------------------------------------------------ */

static uint32_t direct_caches(const struct user *user)
{
    uint32_t count = 0;
    for (uint32_t cache = 0; cache < PARTMEM_MAX_CACHES; cache++) count += user->direct[cache] > 0;
    return count;
}

/* Returns how many caches the tenant may have from direct calls. A heap always leaves 8 caches for direct calls. The last of the
 * four tenants may have 29, so that its heap has no cache for some classes. */
static uint32_t most_direct(const struct user *user) { return user->tenant.number == STABLE - 1 ? 29 : 8; }

static void make_cache(struct user *user)
{
    const partmem_heap *heap = &user->heap;
    const uint32_t sizes[] = {1 + any_of(user, 4096), 24, 100, heap->size[any_of(user, heap->classes)]};
    const uint32_t size = sizes[any_of(user, LEN(sizes))];
    partmem_cache made;
    if (direct_caches(user) == most_direct(user)) return;
    partmem_status status = partmem_make_cache(user->tenant, size, 8u << any_of(user, 6), "ab", 2, &made);
    MUST(status == PARTMEM_DONE || (status == PARTMEM_NO_CACHE_SLOT && most_direct(user) > 8));
    if (status == PARTMEM_DONE) user->direct[made.cache] = (uint16_t)size;
}

/* Reaps, makes a cache, or tries to destroy a random cache, which may be one of the heap's. */
static void administer(struct user *user)
{
    uint32_t cache = any_of(user, PARTMEM_MAX_CACHES), frames;
    switch (any_of(user, 8)) {
    case 0: MUST(partmem_reap(user->tenant, &frames) == PARTMEM_DONE); break;
    case 1: case 2: case 3:
        if (partmem_destroy_cache(user->tenant, cache) == PARTMEM_DONE) user->direct[cache] = 0;
        break;
    default: make_cache(user); break;
    }
}

static void add_direct(struct user *user, struct piece *piece, const partmem_lent *lent, enum kind kind, uint32_t cache)
{
    *piece = (struct piece){kind, lent->at, lent->bytes, lent->bytes, lent->place, cache, 0};
    MUST(is_apart(user, piece));
    fill(user, piece);
}

static void take_direct(struct user *user, struct piece *piece)
{
    const uint32_t cache = any_of(user, PARTMEM_MAX_CACHES);
    partmem_lent lent;
    if (any_of(user, 4) == 0) {
        if (partmem_alloc(user->tenant, any_of(user, 3), &lent) == PARTMEM_DONE) add_direct(user, piece, &lent, BLOCK, 0);
    } else if (user->direct[cache] && partmem_take(user->tenant, cache, &lent) == PARTMEM_DONE) {
        add_direct(user, piece, &lent, OBJECT, cache);
    }
}

static bool is_class(const struct user *user, size_t bytes)
{
    for (uint32_t class = 0; class < user->heap.classes; class++)
        if (user->heap.size[class] == bytes) return true;
    return false;
}

/* Frees a page block or gives back an object. First checks that the heap does not free an object whose size no class has. */
static void release_direct(struct user *user, struct piece *piece)
{
    MUST(is_kept(piece, piece->bytes));
    if (piece->kind == OBJECT && !is_class(user, piece->bytes)) check_wrong(user, piece->at);
    MUST((piece->kind == OBJECT ? partmem_give(user->tenant, piece->cache, piece->place)
                                : partmem_free(user->tenant, piece->place)) == PARTMEM_DONE);
    piece->kind = NOTHING;
}

/* ---- Worlds ------------------------------------------------------------------------------------------------------------- */

/* Returns a random piece. While the tenant is filling, the piece is mostly one that is not live; otherwise it is mostly a live
 * one. */
static struct piece *any_piece(struct user *user)
{
    struct piece *piece = NULL;
    for (int tries = 0; tries < 3; tries++) {
        piece = &user->pieces[any_of(user, PIECES)];
        if ((piece->kind == NOTHING) == user->is_filling) break;
    }
    return piece;
}

static void release_all(struct user *user)
{
    for (struct piece *piece = user->pieces; piece < user->pieces + PIECES; piece++) {
        if (piece->kind == PIECE) release(user, piece);
        if (piece->kind != NOTHING) release_direct(user, piece);
    }
}

static void step(struct user *user)
{
    struct piece *piece = any_piece(user);
    user->calls++;
    if (any_of(user, 500) == 0) user->is_filling = !user->is_filling;
    if (any_of(user, 2000) == 0) release_all(user);
    switch (piece->kind) {
    case NOTHING:
        if (any_of(user, 6)) allocate(user, piece);
        else take_direct(user, piece);
        break;
    case PIECE:
        if (any_of(user, 3)) release(user, piece);
        else reallocate(user, piece);
        break;
    default: release_direct(user, piece); break;
    }
    if (any_of(user, 20) == 0) administer(user);
    if (any_of(user, 20) == 0) check_anywhere(user);
    if (any_of(user, 200) == 0) check_outside(user);
}

static void grant(uint32_t tenant)
{
    partmem_slot slot;
    MUST(partmem_grant((partmem_tenant){&machine, tenant}, &slot) == PARTMEM_DONE);
}

/* The first and the last stable tenant have runs. */
static bool wants_runs(uint32_t number) { return number == 0 || number == STABLE - 1; }

static void open_user(uint32_t number, uint64_t seed)
{
    const partmem_heap_config configs[STABLE] = {{NULL, 0, slots, runs[0]},
                                                 {NULL, 0, 0, NULL},
                                                 {few_sizes, LEN(few_sizes), 0, NULL},
                                                 {many_sizes, LEN(many_sizes), slots, runs[3]}};
    struct user *user = &users[number];
    const partmem_heap_config *config = number < STABLE ? &configs[number] : NULL;
    *user = (struct user){.tenant = {&machine, number}, .random = seed * 64 + number, .hash = 14695981039346656037u};
    MUST(partmem_heap_init(&user->heap, user->tenant, config) == PARTMEM_DONE && has_runs(user) == wants_runs(number));
}

/* Frees everything that a tenant has, and checks that none of its frames is then taken. */
static void close_user(struct user *user)
{
    partmem_figures figures;
    uint32_t frames;
    release_all(user);
    MUST(partmem_reap(user->tenant, &frames) == PARTMEM_DONE);
    MUST(partmem_report(user->tenant, &figures) == PARTMEM_DONE && figures.live == 0);
}

static int disturb(uint64_t seed)
{
    const uint32_t number = STABLE + any(USERS - STABLE);
    step(&users[number]);
    if (any(300)) return 0;
    MUST(partmem_reset(users[number].tenant) == PARTMEM_DONE);
    for (uint32_t slot = 0; slot < slots; slot++) grant(number);
    open_user(number, seed + any(1000));
    return 1;
}

/* Runs all tenants together. Returns the number of resets of the two further tenants. */
static int run_together(long calls, uint64_t seed)
{
    int resets = 0;
    boot(&machine, order, USERS * slots, USERS + 1);
    for (uint32_t slot = 0; slot < slots; slot++) grant(0);
    for (uint32_t slot = 0; slot < slots; slot++) grant(STABLE - 1);
    for (uint32_t slot = 0; slot < slots; slot++)
        for (uint32_t number = 0; number < USERS; number++)
            if (!wants_runs(number)) grant(number);
    for (uint32_t number = 0; number < USERS; number++) open_user(number, seed);
    for (long call = 0; call < calls; call++) {
        step(&users[call % STABLE]);
        resets += disturb(seed);
    }
    for (uint32_t number = 0; number < STABLE; number++) close_user(&users[number]);
    MUST(partmem_end(&machine) == PARTMEM_DONE);
    return resets;
}

/* Runs a stable tenant alone, on other superblocks. */
static void run_alone(uint32_t number, long calls, uint64_t seed)
{
    boot(&machine, order, 2 * slots + 1, USERS + 1);
    grant(OTHER);
    for (uint32_t slot = 0; slot < slots; slot++) {
        if (!wants_runs(number) && slot % 3 == 1) grant(OTHER);
        grant(number);
    }
    open_user(number, seed);
    for (long call = 0; call < calls; call++)
        if (call % STABLE == number) step(&users[number]);
    close_user(&users[number]);
    MUST(partmem_end(&machine) == PARTMEM_DONE);
}

static void make_pattern(void)
{
    const size_t bytes = (size_t)(slots + 1) * unit + 4 * 20000 + STAMPS;
    pattern = malloc(bytes);
    MUST(pattern);
    for (size_t i = 0; i < bytes; i++) pattern[i] = (unsigned char)any(256);
}

int main(int words, char **word)
{
    static struct user together[STABLE];
    unsigned long refused = 0, wrong_frees = 0, moved = 0, runs = 0;
    MUST(words == 4);
    order = (uint32_t)atoi(word[1]);
    const long calls = atol(word[2]), seed = atol(word[3]);
    MUST(order < LEN(slots_of_order) && slots_of_order[order]);
    unit = (uint32_t)PARTMEM_RAM_BYTES(order, 1);
    slots = slots_of_order[order];
    random_state = (uint64_t)seed;
    make_pattern();
    const int resets = run_together(calls, (uint64_t)seed);
    memcpy(together, users, sizeof together);
    for (uint32_t number = 0; number < STABLE; number++) {
        const struct user *alone = &users[number], *beside = &together[number];
        run_alone(number, calls, (uint64_t)seed);
        MUST(alone->hash == beside->hash && alone->changes == beside->changes && alone->refused == beside->refused);
        refused += beside->refused, wrong_frees += beside->wrong_frees, moved += beside->moved, runs += beside->runs;
    }
    free(pattern);
    printf("%ld calls (%lu refused, %lu wrong frees, %lu moved by realloc, %lu runs), the same alone and beside %d resets\n",
           calls, refused, wrong_frees, moved, runs, resets);
    return 0;
}
