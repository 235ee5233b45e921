/* The library as an allocator for conformance/threads.c, with a lock for each tenant and one for the administrator. Each function
 * runs one event. */
#include "adapter.h"
#include "partmem.h"

#include <pthread.h>
#include <stdlib.h>
#include <string.h>

static partmem_machine machine;
static pthread_mutex_t of_administrator = PTHREAD_MUTEX_INITIALIZER, locks[PARTMEM_MAX_TENANTS];

static void check(bool holds)
{
    if (!holds) abort();
}

/* Runs an event under the locks that it needs. Returns its refusal or DONE. */
static enum reply run(partmem_request request, const void *bytes, size_t bytes_len, partmem_reply *reply, void *buffer)
{
    const bool is_administrator = request.kind <= PARTMEM_POOL;
    if (is_administrator) check(!pthread_mutex_lock(&of_administrator));
    check(!pthread_mutex_lock(&locks[request.tenant]));
    check(partmem_event(&machine, &request, bytes, bytes_len, reply, buffer, PARTMEM_MAX_BYTES) == PARTMEM_DONE);
    check(!pthread_mutex_unlock(&locks[request.tenant]));
    if (is_administrator) check(!pthread_mutex_unlock(&of_administrator));
    return reply->kind == PARTMEM_REFUSED ? (enum reply)reply->first : DONE;
}

/* Runs an event without bytes. */
static enum reply ask(unsigned kind, unsigned tenant, uint32_t first, uint32_t second, partmem_reply *reply)
{
    char buffer[PARTMEM_MAX_BYTES];
    return run((partmem_request){kind, tenant, first, second}, "", 0, reply, buffer);
}

bool boot(unsigned order, unsigned superblocks, unsigned tenants)
{
    const partmem_config config = {order, superblocks, tenants};
    for (unsigned i = 0; i < tenants; i++) check(!pthread_mutex_init(&locks[i], NULL));
    return partmem_boot(&machine, &config) == PARTMEM_DONE;
}

enum reply grant(unsigned tenant, uint32_t *slot, unsigned *superblock)
{
    partmem_reply reply;
    const enum reply returned = ask(PARTMEM_GRANT, tenant, 0, 0, &reply);
    *slot = reply.second;
    *superblock = reply.third;
    return returned;
}

enum reply take_back(unsigned tenant, uint32_t slot, unsigned *superblock)
{
    partmem_reply reply;
    const enum reply returned = ask(PARTMEM_TAKE_BACK, tenant, slot, 0, &reply);
    *superblock = reply.first;
    return returned;
}

enum reply reset(unsigned tenant, unsigned *superblocks)
{
    partmem_reply reply;
    const enum reply returned = ask(PARTMEM_RESET, tenant, 0, 0, &reply);
    *superblocks = reply.second;
    return returned;
}

enum reply move(unsigned tenant, uint32_t slot, unsigned *superblock)
{
    partmem_reply reply;
    const enum reply returned = ask(PARTMEM_MOVE, tenant, slot, 0, &reply);
    *superblock = reply.third;
    return returned;
}

enum reply alloc(unsigned tenant, uint32_t order, uint32_t *frame)
{
    partmem_reply reply;
    const enum reply returned = ask(PARTMEM_ALLOC, tenant, order, 0, &reply);
    *frame = reply.first;
    return returned;
}

enum reply release(unsigned tenant, uint32_t frame, unsigned *order)
{
    partmem_reply reply;
    const enum reply returned = ask(PARTMEM_FREE, tenant, frame, 0, &reply);
    *order = reply.first;
    return returned;
}

enum reply read_bytes(unsigned tenant, uint32_t place, uint32_t length, uint8_t *bytes)
{
    partmem_reply reply;
    return run((partmem_request){PARTMEM_READ, tenant, place, length}, "", 0, &reply, bytes);
}

enum reply write_bytes(unsigned tenant, uint32_t place, uint32_t length, const uint8_t *bytes)
{
    partmem_reply reply;
    char buffer[PARTMEM_MAX_BYTES];
    return run((partmem_request){PARTMEM_WRITE, tenant, place, 0}, bytes, length, &reply, buffer);
}

static enum reply make(unsigned tenant, uint32_t size, uint32_t align, unsigned length, const uint8_t *pattern,
                       struct layout *layout)
{
    partmem_reply reply;
    char buffer[PARTMEM_MAX_BYTES];
    const enum reply returned = run((partmem_request){PARTMEM_CACHE, tenant, size, align}, pattern, length, &reply, buffer);
    *layout = (struct layout){reply.first, reply.second, reply.third, reply.fourth, reply.fifth};
    return returned;
}

static enum reply destroy(unsigned tenant, uint32_t cache, unsigned *frames)
{
    partmem_reply reply;
    const enum reply returned = ask(PARTMEM_DESTROY, tenant, cache, 0, &reply);
    *frames = reply.first;
    return returned;
}

static enum reply take(unsigned tenant, uint32_t cache, uint32_t *place)
{
    partmem_reply reply;
    const enum reply returned = ask(PARTMEM_TAKE, tenant, cache, 0, &reply);
    *place = reply.first;
    return returned;
}

static enum reply give(unsigned tenant, uint32_t cache, uint32_t place)
{
    partmem_reply reply;
    return ask(PARTMEM_GIVE, tenant, cache, place, &reply);
}

static void reap(unsigned tenant, unsigned *frames)
{
    partmem_reply reply;
    check(ask(PARTMEM_REAP, tenant, 0, 0, &reply) == DONE);
    *frames = reply.first;
}

static void report(unsigned tenant, struct figures *figures)
{
    partmem_figures its;
    check(!pthread_mutex_lock(&locks[tenant]));
    check(partmem_report((partmem_tenant){&machine, tenant}, &its) == PARTMEM_DONE);
    check(!pthread_mutex_unlock(&locks[tenant]));
    figures->caches = its.caches;
    for (uint32_t i = 0; i < its.orders; i++) figures->orders[i] = (struct order_row){its.order[i].free, its.order[i].taken};
    for (uint32_t i = 0; i < its.caches; i++) {
        const partmem_cache_row row = its.cache[i];
        figures->rows[i] = (struct cache_row){row.cache, row.full, row.partial, row.empty, row.live};
    }
}

const struct caches *caches(void)
{
    static const struct caches all = {make, destroy, take, give, reap, report};
    return &all;
}
