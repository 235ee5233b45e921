/* Lets an unmodified program that is started with LD_PRELOAD use the heap of a tenant as its malloc. tools/in-tenant builds and
 * preloads it. One tenant has all superblocks of a machine, and its heap has runs. A wrong free ends the program. The process that
 * a program starts has a machine of its own, and a process that it forks a copy. These variables say what tools/in-tenant wants:
 *
 *     IN_TENANT_ORDER, IN_TENANT_SUPERBLOCKS   the sizes of the machine
 *     IN_TENANT_RECORDS                        a file to which each process adds a struct record, which it then updates in place
 *     IN_TENANT_SLOTS                          if set, the end of a process reaps, and records which slots could be taken back
 */
#define _GNU_SOURCE
#include <errno.h>
#include <fcntl.h>
#include <pthread.h>
#include <stdint.h>
#include <stdlib.h>
#include <string.h>
#include <sys/mman.h>
#include <sys/prctl.h>
#include <unistd.h>

#include "partmem_heap.h"

enum {
    ORDER = 8,
    SUPERBLOCKS = 1024,
    PATH_BYTES = 4096,
    REPORTED = 64 /* the frames in use are counted after each of the first 64 requests, and then after each 64th */
};

/* What a process used. */
struct record {
    char name[16];
    uint64_t requests, frees, refused;
    uint32_t frames, most_frames; /* of the machine, and in use at the peak */
    uint32_t slots;               /* how many the tenant has */
    /* At the end, after a reap: whether the rest was counted, the slots that could be taken back, and the frames in use. */
    uint32_t is_counted, free_slots, last_frames;
};
_Static_assert(sizeof(struct record) == 64, "a record lies in one page of its file");

static partmem_machine machine;
static partmem_heap heap;
static const partmem_tenant tenant = {&machine, 0};
static int is_booted, counts_slots;
static pthread_mutex_t lock = PTHREAD_MUTEX_INITIALIZER;
static struct record nowhere, *used; /* what this process used: NULL before its first call, &nowhere without a file */
static char path[PATH_BYTES];
static uint32_t order = ORDER, superblocks = SUPERBLOCKS;

static void stop(const char *why)
{
    (void)!write(STDERR_FILENO, why, strlen(why));
    abort();
}

static uint32_t number_in(const char *variable, uint32_t otherwise)
{
    const char *text = getenv(variable);
    return text ? (uint32_t)strtoul(text, NULL, 10) : otherwise;
}

static void boot(void)
{
    order = number_in("IN_TENANT_ORDER", ORDER);
    superblocks = number_in("IN_TENANT_SUPERBLOCKS", SUPERBLOCKS);
    counts_slots = getenv("IN_TENANT_SLOTS") != NULL;
    const char *records = getenv("IN_TENANT_RECORDS");
    if (records && strlen(records) < sizeof path) memcpy(path, records, strlen(records) + 1);
    if (order < PARTMEM_MIN_ORDER || order > PARTMEM_MAX_ORDER || !superblocks || superblocks > PARTMEM_MAX_SUPERBLOCKS ||
        superblocks > PARTMEM_MAX_FRAMES >> order)
        stop("in-tenant: no machine has this order and so many superblocks\n");
    const size_t ram = PARTMEM_RAM_BYTES(order, superblocks), tables = PARTMEM_TABLE_BYTES(order, superblocks, 1);
    unsigned char *at = mmap(NULL, ram + tables, PROT_READ | PROT_WRITE, MAP_PRIVATE | MAP_ANONYMOUS | MAP_NORESERVE, -1, 0);
    const partmem_config config = {order, superblocks, 1};
    const partmem_memory memory = {at, at + ram};
    static uint16_t runs[PARTMEM_MAX_SUPERBLOCKS];
    const partmem_heap_config with_runs = {NULL, 0, PARTMEM_MAX_SUPERBLOCKS, runs};
    partmem_slot slot;
    if (at == MAP_FAILED || partmem_boot_in(&machine, &config, &memory) != PARTMEM_DONE) stop("in-tenant: no machine\n");
    while (partmem_grant(tenant, &slot) == PARTMEM_DONE) continue;
    if (partmem_heap_init(&heap, tenant, &with_runs) != PARTMEM_DONE) stop("in-tenant: no heap\n");
    is_booted = 1;
}

/* Adds a record to the file, and returns it. Returns &nowhere if there is no file. */
static struct record *add_record(void)
{
    const int error = errno, file = path[0] ? open(path, O_RDWR | O_APPEND | O_CLOEXEC) : -1;
    struct record *record = &nowhere, begun = {.frames = superblocks << order, .slots = superblocks};
    prctl(PR_GET_NAME, begun.name);
    if (file >= 0 && write(file, &begun, sizeof begun) == sizeof begun) {
        const off_t at = lseek(file, 0, SEEK_CUR) - (off_t)sizeof begun, page = at & -(off_t)PARTMEM_FRAME_BYTES;
        char *mapped = mmap(NULL, PARTMEM_FRAME_BYTES, PROT_READ | PROT_WRITE, MAP_SHARED, file, page);
        if (mapped != MAP_FAILED) record = (struct record *)(void *)(mapped + (at - page));
    }
    if (file >= 0) close(file);
    errno = error;
    return record;
}

static uint32_t frames_in_use(void)
{
    partmem_figures figures;
    return partmem_report(tenant, &figures) == PARTMEM_DONE ? figures.live : 0;
}

static void count_frames(void)
{
    const uint32_t frames = frames_in_use();
    if (frames > used->most_frames) used->most_frames = frames;
}

static void enter(void)
{
    pthread_mutex_lock(&lock);
    if (!is_booted) boot();
    if (used) return;
    used = add_record();
    count_frames();
}

static void *leave(void *at)
{
    used->requests++;
    used->refused += !at;
    if (used->requests < REPORTED || used->requests % REPORTED == 0) count_frames();
    pthread_mutex_unlock(&lock);
    if (!at) errno = ENOMEM;
    return at;
}

/* Counts the frames in use before a piece is freed that may be a page block. Slabs stay when their objects are freed. */
static void before_free(const void *at)
{
    if (at && (uintptr_t)at % PARTMEM_FRAME_BYTES == 0) count_frames();
}

void *malloc(size_t bytes)
{
    enter();
    return leave(partmem_heap_malloc(&heap, bytes));
}

void *calloc(size_t count, size_t bytes)
{
    enter();
    return leave(partmem_heap_calloc(&heap, count, bytes));
}

void free(void *at)
{
    enter();
    before_free(at);
    if (partmem_heap_free(&heap, at) != PARTMEM_DONE) stop("in-tenant: a wrong free\n");
    used->frees += at != NULL;
    pthread_mutex_unlock(&lock);
}

void *realloc(void *old, size_t bytes)
{
    if (old && !bytes) {
        free(old);
        return NULL;
    }
    enter();
    before_free(old);
    if (old && !partmem_heap_usable_size(&heap, old)) stop("in-tenant: a wrong realloc\n");
    return leave(partmem_heap_realloc(&heap, old, bytes));
}

void *reallocarray(void *old, size_t count, size_t bytes)
{
    if (bytes && count > SIZE_MAX / bytes) {
        errno = ENOMEM;
        return NULL;
    }
    return realloc(old, count * bytes);
}

void *aligned_alloc(size_t align, size_t bytes)
{
    enter();
    return leave(partmem_heap_aligned_alloc(&heap, align, bytes));
}

void *memalign(size_t align, size_t bytes) { return aligned_alloc(align, bytes); }
void *valloc(size_t bytes) { return aligned_alloc(PARTMEM_FRAME_BYTES, bytes); }

int posix_memalign(void **at, size_t align, size_t bytes)
{
    const int error = errno;
    *at = aligned_alloc(align, bytes);
    errno = error;
    return *at ? 0 : ENOMEM;
}

size_t malloc_usable_size(void *at)
{
    enter();
    const size_t bytes = partmem_heap_usable_size(&heap, at);
    pthread_mutex_unlock(&lock);
    return bytes;
}

static void before_fork(void) { pthread_mutex_lock(&lock); }
static void after_fork(void) { pthread_mutex_unlock(&lock); }

/* The child's calls are counted in a record of its own. */
static void in_child(void)
{
    used = NULL;
    pthread_mutex_unlock(&lock);
}

__attribute__((constructor)) static void begin(void) { pthread_atfork(before_fork, after_fork, in_child); }

static int is_free(uint32_t slot)
{
    partmem_block block;
    const uint32_t superblock = PARTMEM_FRAME_BYTES << order, end = slot * superblock + superblock;
    uint32_t place = slot * superblock;
    do {
        if (partmem_find_block(tenant, place, &block) != PARTMEM_DONE || block.use != PARTMEM_FREE_FRAME) return 0;
        place += block.bytes;
    } while (place != end);
    return 1;
}

__attribute__((destructor)) static void end(void)
{
    uint32_t frames;
    enter();
    count_frames();
    if (counts_slots && partmem_reap(tenant, &frames) == PARTMEM_DONE) {
        used->last_frames = frames_in_use();
        used->free_slots = 0;
        for (uint32_t slot = 0; slot < superblocks; slot++) used->free_slots += (uint32_t)is_free(slot);
        used->is_counted = 1;
    }
    pthread_mutex_unlock(&lock);
}
