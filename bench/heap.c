/* Runs the requests of a recorded program with the heap of a tenant (partmem_heap.h), or with malloc and free.
 *
 *     heap heap|malloc LOG           prints the number of requests and frees, and the average nanoseconds of one of them
 *     heap heap-used|malloc-used LOG stores all bytes, and prints the most bytes that were requested and not yet freed, and by
 *                                    how many bytes the process grew
 *
 * LOG is a log of machines/malloc_log.c, where a realloc is a free and a malloc. The requests are read first, so that only calls
 * are measured. `malloc` measures the allocator that is linked or preloaded. The machine has 64 superblocks of 1 MiB, all granted
 * to the tenant, whose heap has runs.
 */
#define _DEFAULT_SOURCE
#include <fcntl.h>
#include <stdio.h>
#include <stdlib.h>
#include <string.h>
#include <sys/mman.h>
#include <time.h>
#include <unistd.h>

#include "partmem_heap.h"

#if __has_include(<valgrind/callgrind.h>)
#include <valgrind/callgrind.h>
#else
#define CALLGRIND_START_INSTRUMENTATION
#endif

enum { ORDER = 8, SUPERBLOCKS = 64, FREED = 0xffffffff /* `bytes` of a call that frees */ };

/* A request or a free. `piece` is the number of the memory that it allocates or frees. */
struct call {
    uint32_t piece, bytes;
};

static struct call *calls;
static size_t call_count, piece_count;
static partmem_machine machine;
static partmem_heap heap;

static void check(int holds, const char *what) {
    if (!holds) {
        fprintf(stderr, "heap: %s\n", what);
        exit(1);
    }
}

/* Returns memory that comes from the system, not from an allocator. */
static void *some(size_t bytes) {
    void *at = mmap(NULL, bytes, PROT_READ | PROT_WRITE, MAP_PRIVATE | MAP_ANONYMOUS, -1, 0);
    check(at != MAP_FAILED, "not enough memory");
    return at;
}

/* ---- The log ------------------------------------------------------------------------------------------------------------ */

/* The live pieces by address: open addressing in a table whose size is a power of two. An entry has the piece's number plus 1,
 * or 0 if the piece was freed. */
static struct entry {
    uint64_t at;
    size_t piece;
} *table;
static size_t table_count;

static struct entry *entry_of(uint64_t at) {
    size_t i = (size_t)(at / 16 * 0x9e3779b97f4a7c15u >> 20) & (table_count - 1);
    while (table[i].at && table[i].at != at) i = (i + 1) & (table_count - 1);
    return &table[i];
}

static void add_call(const char *what, uint64_t at, size_t bytes) {
    struct entry *entry = entry_of(at);
    if (what[0] == 'm' && bytes < FREED) {
        *entry = (struct entry){at, ++piece_count};
        calls[call_count++] = (struct call){(uint32_t)piece_count - 1, (uint32_t)bytes};
    } else if (what[0] == 'f' && entry->piece) {
        calls[call_count++] = (struct call){(uint32_t)entry->piece - 1, FREED};
        entry->piece = 0;
    }
}

static void read_log(const char *path) {
    FILE *file = fopen(path, "r");
    char line[200], what[8];
    unsigned long long at;
    size_t lines = 0, bytes;
    check(file != NULL, "the log cannot be opened");
    while (fgets(line, sizeof line, file)) lines++;
    for (table_count = 16; table_count < 2 * lines; table_count *= 2) continue;
    table = some(table_count * sizeof *table);
    calls = some((lines + 1) * sizeof *calls);
    rewind(file);
    while (fgets(line, sizeof line, file)) {
        int found = sscanf(line, "%*s %7s %llx %zu", what, &at, &bytes);
        if (found >= 2) add_call(what, at, found == 3 ? bytes : 0);
    }
    fclose(file);
    munmap(table, table_count * sizeof *table);
}

/* ---- The calls ---------------------------------------------------------------------------------------------------------- */

static void boot(void) {
    const partmem_config config = {ORDER, SUPERBLOCKS, 1};
    const partmem_memory memory = {some(PARTMEM_RAM_BYTES(ORDER, SUPERBLOCKS)), some(PARTMEM_TABLE_BYTES(ORDER, SUPERBLOCKS, 1))};
    static uint16_t runs[SUPERBLOCKS];
    const partmem_heap_config with_runs = {NULL, 0, SUPERBLOCKS, runs};
    const partmem_tenant tenant = {&machine, 0};
    partmem_slot slot;
    check(partmem_boot_in(&machine, &config, &memory) == PARTMEM_DONE, "boot");
    while (partmem_grant(tenant, &slot) == PARTMEM_DONE) continue;
    check(partmem_heap_init(&heap, tenant, &with_runs) == PARTMEM_DONE, "init");
}

__attribute__((noinline)) static void run_heap(void **pieces, int is_used) {
    for (const struct call *call = calls; call < calls + call_count; call++) {
        void **at = &pieces[call->piece];
        if (call->bytes == FREED) {
            check(partmem_heap_free(&heap, *at) == PARTMEM_DONE, "a free");
        } else {
            *at = partmem_heap_malloc(&heap, call->bytes);
            check(*at != NULL, "a request is refused");
            if (is_used) memset(*at, 1, call->bytes);
        }
    }
}

__attribute__((noinline)) static void run_malloc(void **pieces, int is_used) {
    for (const struct call *call = calls; call < calls + call_count; call++) {
        void **at = &pieces[call->piece];
        if (call->bytes == FREED) {
            free(*at);
        } else {
            *at = malloc(call->bytes);
            check(*at != NULL, "a request is refused");
            if (is_used) memset(*at, 1, call->bytes);
        }
    }
}

/* ---- What is measured --------------------------------------------------------------------------------------------------- */

static double processor_time(void) {
    struct timespec now;
    clock_gettime(CLOCK_PROCESS_CPUTIME_ID, &now);
    return (double)now.tv_sec + 1e-9 * (double)now.tv_nsec;
}

/* Returns a number of /proc/self/status, in bytes. Allocates nothing. */
static size_t status(const char *name) {
    char text[4096];
    int file = open("/proc/self/status", O_RDONLY);
    ssize_t count = file < 0 ? -1 : read(file, text, sizeof text - 1);
    check(count > 0, "/proc/self/status cannot be read");
    close(file);
    text[count] = 0;
    const char *found = strstr(text, name);
    check(found != NULL, "/proc/self/status has another form");
    return strtoul(found + strlen(name), NULL, 10) * 1024;
}

/* Resets VmHWM, so that it is the peak from now on. */
static void forget_peak(void) {
    int file = open("/proc/self/clear_refs", O_WRONLY);
    check(file >= 0 && write(file, "5", 1) == 1, "/proc/self/clear_refs cannot be written");
    close(file);
}

static size_t most_requested(void) {
    uint32_t *bytes = some((piece_count + 1) * sizeof *bytes);
    size_t now = 0, most = 0;
    for (const struct call *call = calls; call < calls + call_count; call++) {
        if (call->bytes == FREED) {
            now -= bytes[call->piece];
        } else {
            now += bytes[call->piece] = call->bytes;
        }
        if (now > most) most = now;
    }
    munmap(bytes, (piece_count + 1) * sizeof *bytes);
    return most;
}

int main(int argc, char **argv) {
    check(argc == 3, "usage: heap heap|malloc|heap-used|malloc-used LOG");
    const int is_heap = strncmp(argv[1], "heap", 4) == 0, is_used = strstr(argv[1], "-used") != NULL;
    read_log(argv[2]);
    void **pieces = some((piece_count + 1) * sizeof *pieces);
    memset(pieces, 0xff, (piece_count + 1) * sizeof *pieces);
    size_t requested = most_requested();
    forget_peak();
    size_t before = status("VmRSS:");
    if (is_heap) boot();
    CALLGRIND_START_INSTRUMENTATION;
    double start = processor_time();
    if (is_heap) {
        run_heap(pieces, is_used);
    } else {
        run_malloc(pieces, is_used);
    }
    double taken = processor_time() - start;
    if (is_used) {
        printf("%zu %zu\n", requested, status("VmHWM:") - before);
    } else {
        printf("%zu calls %.1f nanoseconds\n", call_count, taken / (double)(call_count ? call_count : 1) * 1e9);
    }
    return 0;
}
