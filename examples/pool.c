/* A server with a pool for each client. Each client is a tenant of the machine. A pool is a hash table in a page block, entries
 * that are objects of a cache, and blobs in page blocks. All are used in place, and all links are places.
 *
 * The server runs twice. In one run client 0 takes part and is reset at random, and slots of the others are moved. The others
 * have to get the same answers, and to read the same bytes, as in the run without client 0. If they do not, the program exits
 * with 1. */
#include <stdio.h>
#include <stdlib.h>
#include <string.h>

#include "partmem.h"

enum { CLIENTS = 6, ROUNDS = 20000, ORDER = 3, SLOTS = 2, HEADS = 256, KEYS = 300, ENTRIES = 0 /* a pool's only cache */ };

struct entry {
    uint32_t next, key, hits;
    uint32_t blob; /* the place of a page block, or PARTMEM_NO_PLACE */
    char text[40];
};

struct pool {
    partmem_tenant tenant;
    uint32_t heads; /* the place of the page block with the first link of each chain */
    uint64_t random;
    uint64_t hash, bytes; /* a hash of all answers and of all bytes that the client read, and how many bytes were hashed */
    uint32_t answers, refusals;
};

static void must(partmem_status status, const char *what) {
    if (status == PARTMEM_DONE) return;
    fprintf(stderr, "pool: %s: %s\n", what, partmem_strerror(status));
    exit(1);
}

static uint32_t any(struct pool *pool, uint32_t below) {
    pool->random = pool->random * 6364136223846793005u + 1442695040888963407u;
    return (uint32_t)(pool->random >> 33) % below;
}

static void see(struct pool *pool, const void *bytes, size_t count) {
    for (size_t i = 0; i < count; i++) pool->hash = (pool->hash ^ ((const uint8_t *)bytes)[i]) * 1099511628211u;
    pool->bytes += count;
}

/* Counts an answer to a client, which consists of a status and a place. Returns whether the request was done. */
static int is_done(struct pool *pool, partmem_status status, const uint32_t *place) {
    see(pool, &status, sizeof status);
    see(pool, place, sizeof *place);
    pool->answers++;
    pool->refusals += status != PARTMEM_DONE;
    return status == PARTMEM_DONE;
}

static struct entry *entry_at(const struct pool *pool, uint32_t at) { return partmem_object_at(pool->tenant, ENTRIES, at); }

/* Returns the link to the entry of a key, or the link at the end of its chain. The address is used only within one request. */
static uint32_t *link_to(const struct pool *pool, uint32_t key) {
    uint32_t *link = (uint32_t *)partmem_at(pool->tenant, pool->heads, HEADS * sizeof *link) + key % HEADS;
    for (struct entry *entry; (entry = entry_at(pool, *link)) && entry->key != key;) link = &entry->next;
    return link;
}

/* Adds a key, unless it is there. A new object or block has zeroes, or what the client left in it: the client reads these
 * bytes. */
static void put(struct pool *pool, uint32_t key) {
    uint32_t *link = link_to(pool, key);
    partmem_lent object, blob;
    if (*link != PARTMEM_NO_PLACE || !is_done(pool, partmem_take(pool->tenant, ENTRIES, &object), &object.place)) return;
    struct entry *entry = object.at;
    see(pool, entry, sizeof *entry);
    *entry = (struct entry){.next = PARTMEM_NO_PLACE, .key = key, .blob = PARTMEM_NO_PLACE};
    snprintf(entry->text, sizeof entry->text, "key %u of client %u", (unsigned)key, (unsigned)pool->tenant.number);
    *link = object.place;
    if (any(pool, 8) || !is_done(pool, partmem_alloc(pool->tenant, any(pool, 3), &blob), &blob.place)) return;
    see(pool, blob.at, blob.bytes);
    memset(blob.at, (int)any(pool, 256), blob.bytes);
    entry->blob = blob.place;
}

static void get(struct pool *pool, uint32_t key) {
    struct entry *entry = entry_at(pool, *link_to(pool, key));
    partmem_lent blob;
    if (!entry) return;
    entry->hits++;
    see(pool, entry, sizeof *entry);
    if (partmem_lend_block(pool->tenant, entry->blob, &blob) == PARTMEM_DONE) see(pool, blob.at, blob.bytes);
}

static void drop(struct pool *pool, uint32_t key) {
    uint32_t *link = link_to(pool, key), place = *link;
    struct entry *entry = entry_at(pool, place);
    if (!entry) return;
    if (entry->blob != PARTMEM_NO_PLACE) is_done(pool, partmem_free(pool->tenant, entry->blob), &entry->blob);
    *link = entry->next;
    is_done(pool, partmem_give(pool->tenant, ENTRIES, place), &place);
}

static void serve(struct pool *pool) {
    static void (*const requests[])(struct pool *, uint32_t) = {put, put, put, drop, drop, get, get, get};
    uint32_t key = any(pool, KEYS);
    requests[any(pool, 8)](pool, key);
}

static void open_pool(struct pool *pool) {
    partmem_slot slot;
    partmem_cache entries;
    partmem_lent heads;
    for (int i = 0; i < SLOTS; i++) must(partmem_grant(pool->tenant, &slot), "grant");
    must(partmem_make_cache(pool->tenant, sizeof(struct entry), 8, "", 1, &entries), "make_cache");
    must(partmem_alloc(pool->tenant, 0, &heads), "alloc");
    memset(heads.at, 0xff, heads.bytes); /* links that lead nowhere */
    pool->heads = heads.place;
}

/* Serves up to 8 requests of client 0, and moves a slot of another client. One time in 50, also resets client 0. Returns how
 * often it reset client 0: 0 or 1. */
static int disturb(struct pool pools[CLIENTS]) {
    partmem_slot moved;
    uint32_t other = 1 + any(&pools[0], CLIENTS - 1);
    for (uint32_t requests = any(&pools[0], 9); requests > 0; requests--) serve(&pools[0]);
    must(partmem_move(pools[other].tenant, any(&pools[0], SLOTS), &moved), "move");
    if (any(&pools[0], 50)) return 0;
    must(partmem_reset(pools[0].tenant), "reset");
    open_pool(&pools[0]);
    return 1;
}

/* Runs the server, with client 0 or without it. Returns how often client 0 was reset. */
static int run(struct pool pools[CLIENTS], int with_first) {
    static partmem_machine machine;
    const partmem_config config = {ORDER, SLOTS * CLIENTS + 1, CLIENTS};
    int resets = 0;
    must(partmem_boot(&machine, &config), "boot");
    for (uint32_t i = 0; i < CLIENTS; i++) pools[i] = (struct pool){.tenant = {&machine, i}, .random = i + 1, .hash = 1};
    for (int i = !with_first; i < CLIENTS; i++) open_pool(&pools[i]);
    for (int round = 0; round < ROUNDS; round++) {
        for (int i = 1; i < CLIENTS; i++) serve(&pools[i]);
        if (with_first) resets += disturb(pools);
    }
    must(partmem_end(&machine), "end");
    return resets;
}

int main(void) {
    static struct pool beside[CLIENTS], alone[CLIENTS];
    int resets = run(beside, 1), wrong = run(alone, 0);
    for (int i = 1; i < CLIENTS; i++)
        if (beside[i].hash != alone[i].hash || beside[i].bytes != alone[i].bytes) wrong = i;
    if (wrong) return fprintf(stderr, "pool: client %d saw something of the others\n", wrong), 1;
    printf("client 1 got %u answers (%u refusals) and read %llu bytes, the same beside a client that was reset %d times\n",
           (unsigned)alone[1].answers, (unsigned)alone[1].refusals, (unsigned long long)alone[1].bytes, resets);
    return 0;
}
