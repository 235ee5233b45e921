/* Runs third-party libraries: an interpreter, a database, parsers and a compressor. A guest is a tenant that uses one of them in
 * its own heap. The guests of one half make their steps in turn. After each step, a random guest of the other half makes a step,
 * and is sometimes reset and starts again. Then each guest of the first half runs alone, on a machine where its superblocks lie
 * elsewhere. Its results, the places of its pieces and its refusals have to be the same as before.
 *
 *     guests STEPS [outsider | addresses]
 *
 * The second word plants a mistake, which the program has to find: after each step of the other half, guest 0's heap gets a
 * request from outside (outsider), or Lua's guests add an address to their results (addresses).
 */
#include "guests.h"

enum { ORDER = 5, UNIT = 4096 << ORDER, LIBRARY_SLOTS = 8 };

static const struct program *const programs[] = {
#ifdef WITH_LUA
    &lua,
#endif
#ifdef WITH_SQLITE
    &sqlite,
#endif
#ifdef WITH_EXPAT
    &expat,
#endif
#ifdef WITH_ZLIB
    &zlib,
#endif
#ifdef WITH_CJSON
    &cjson,
#endif
};
enum { PROGRAMS = LEN(programs), STABLE = 2 * PROGRAMS, GUESTS = 2 * STABLE, LIBRARIES = GUESTS, OTHER };

bool shows_addresses;
static bool has_outsider;
static partmem_machine machine;
static struct guest guests[GUESTS + 1], *current; /* the last of the guests has the libraries' own state */
static unsigned char *ram;

/* ---- The heaps of guests ------------------------------------------------------------------------------------------------ */

static void mix(uint64_t *hash, const void *bytes, size_t count)
{
    for (size_t i = 0; i < count; i++) *hash = (*hash ^ ((const uint8_t *)bytes)[i]) * 1099511628211u;
}

uint32_t any_of(struct guest *guest, uint32_t below)
{
    guest->random = guest->random * 6364136223846793005u + 1442695040888963407u;
    return (uint32_t)(guest->random >> 33) % below;
}

void note(struct guest *guest, const void *bytes, size_t count) { mix(&guest->results, bytes, count); }

static void *noted(struct guest *guest, void *at)
{
    const uint32_t place = at ? partmem_heap_place(&guest->heap, at) : PARTMEM_NO_PLACE;
    mix(&guest->places, &place, sizeof place);
    guest->calls++;
    guest->refused += !at;
    return at;
}

void *guest_malloc(struct guest *guest, size_t bytes) { return noted(guest, partmem_heap_malloc(&guest->heap, bytes)); }

void *guest_realloc(struct guest *guest, void *old, size_t bytes)
{
    return noted(guest, partmem_heap_realloc(&guest->heap, old, bytes));
}

void guest_free(struct guest *guest, void *at)
{
    MUST(partmem_heap_free(&guest->heap, at) == PARTMEM_DONE);
    guest->calls += at != NULL;
}

static struct guest *owner_of(const void *at)
{
    partmem_owner owner;
    const size_t superblock = (size_t)((const unsigned char *)at - ram) / UNIT;
    MUST(partmem_find_superblock(&machine, (uint32_t)superblock, &owner) == PARTMEM_DONE && owner.is_owned);
    return &guests[owner.tenant];
}

void *current_malloc(size_t bytes) { return guest_malloc(current, bytes); }

void *current_realloc(void *old, size_t bytes) { return guest_realloc(old ? owner_of(old) : current, old, bytes); }

void current_free(void *at)
{
    if (at) guest_free(owner_of(at), at);
}

size_t current_size(const void *at) { return at ? partmem_heap_usable_size(&owner_of(at)->heap, at) : 0; }

/* ---- Worlds ------------------------------------------------------------------------------------------------------------- */

static void grant(uint32_t tenant, uint32_t count)
{
    partmem_slot slot;
    while (count-- > 0) MUST(partmem_grant((partmem_tenant){&machine, tenant}, &slot) == PARTMEM_DONE);
}

static void open_guest(uint32_t number)
{
    struct guest *guest = &guests[number];
    const struct program *program = number == LIBRARIES ? NULL : programs[number % PROGRAMS];
    *guest = (struct guest){.program = program, .random = number % STABLE, .results = 1, .places = 1};
    grant(number, program ? program->slots : LIBRARY_SLOTS);
    MUST(partmem_heap_init(&guest->heap, (partmem_tenant){&machine, number}, NULL) == PARTMEM_DONE);
}

/* Boots a machine, grants this many superblocks to a tenant that is no guest, and sets up the libraries. */
static void begin(uint32_t others)
{
    boot(&machine, ORDER, 256, OTHER + 1);
    ram = partmem_superblock_address(&machine, 0);
    grant(OTHER, others);
    open_guest(LIBRARIES);
    current = &guests[LIBRARIES];
    for (int i = 0; i < PROGRAMS; i++)
        if (programs[i]->set_up) programs[i]->set_up();
}

static void end(void)
{
    current = &guests[LIBRARIES];
    for (int i = 0; i < PROGRAMS; i++)
        if (programs[i]->tear_down) programs[i]->tear_down();
    MUST(partmem_end(&machine) == PARTMEM_DONE);
}

static void step(uint32_t number)
{
    current = &guests[number];
    current->program->step(current);
    current->steps++;
    current = &guests[LIBRARIES];
}

/* Makes a step of a random guest of the other half. Sometimes resets this guest afterwards, without letting its program clean up,
 * and starts it again. Returns the number of resets. */
static int disturb(void)
{
    const uint32_t other = STABLE + any(STABLE);
    step(other);
    if (has_outsider) (void)partmem_heap_malloc(&guests[0].heap, 100);
    if (any(7)) return 0;
    MUST(partmem_reset((partmem_tenant){&machine, other}) == PARTMEM_DONE);
    open_guest(other);
    return 1;
}

static int run_together(unsigned long steps)
{
    int resets = 0;
    begin(0);
    for (uint32_t number = 0; number < GUESTS; number++) open_guest(number);
    for (unsigned long i = 0; i < steps; i++)
        for (uint32_t number = 0; number < STABLE; number++) {
            step(number);
            resets += disturb();
        }
    return resets;
}

static void run_alone(uint32_t number, unsigned long steps)
{
    begin(1 + 3 * number);
    open_guest(number);
    for (unsigned long i = 0; i < steps; i++) step(number);
}

static bool is_same(const struct guest *alone, const struct guest *beside)
{
    return alone->results == beside->results && alone->places == beside->places && alone->calls == beside->calls &&
           alone->refused == beside->refused && alone->failed == beside->failed;
}

int main(int words, char **word)
{
    static struct guest together[STABLE];
    unsigned long calls = 0, refused = 0;
    int different = 0;
    MUST(words == 2 || words == 3);
    const unsigned long steps = strtoul(word[1], NULL, 10);
    has_outsider = words == 3 && !strcmp(word[2], "outsider");
    shows_addresses = words == 3 && !strcmp(word[2], "addresses");
    const int resets = run_together(steps);
    memcpy(together, guests, sizeof together);
    end();
    for (uint32_t number = 0; number < STABLE; number++) {
        const struct guest *beside = &together[number];
        run_alone(number, steps);
        const bool same = is_same(&guests[number], beside);
        printf("%s: %lu calls, %lu refused, %lu of %lu steps without memory: %s\n", beside->program->name, beside->calls,
               beside->refused, beside->failed, beside->steps, same ? "the same alone" : "DIFFERENT alone");
        calls += beside->calls, refused += beside->refused, different += !same;
        end();
    }
    printf("%d guests of %d programs: %lu calls (%lu refused), %d different alone and beside %d resets\n", STABLE, PROGRAMS,
           calls, refused, different, resets);
    return different > 0;
}
