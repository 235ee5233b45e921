/* Runs the lines of a trace with the static library, or with malloc and free. Prints the number of calls, and the average
 * nanoseconds of one.
 *
 *     library HOW ORDER SUPERBLOCKS TENANTS TRACE
 *     library answers ORDER SUPERBLOCKS TENANTS TRACE   writes what each direct call returns, a line each
 *     library --order=ORDER --superblocks=SUPERBLOCKS --tenants=TENANTS   writes the replies to the lines of standard input
 *
 * HOW is `event` (partmem_event), `line` (partmem_line), `call` (the direct calls) or `malloc`. The calls are made in turn on a
 * machine that was just booted. Their arguments are prepared before the first call, and replies are not read. With `malloc` each
 * page block or object becomes a malloc of as many bytes and a free, and lines that neither take nor give back memory are left
 * out. This measures the allocator that is linked or preloaded. After a malloc, and after a direct call that takes memory, the
 * first byte is stored.
 * With `call-used` and `malloc-used` all bytes of a block or an object are stored when it is taken, and loaded and checked before
 * it is given back.
 *
 * If bench/floor.c is linked instead of the library, `event`, `line` and the replies to standard input do not work. `answers` has
 * to write the same lines with the library and with the floor.
 */
#define _POSIX_C_SOURCE 200809L
#include <inttypes.h>
#include <stdio.h>
#include <stdlib.h>
#include <string.h>
#include <time.h>

#include "partmem.h"

/* Callgrind is slow, so it is started just before the calls if its header is installed. */
#if __has_include(<valgrind/callgrind.h>)
#include <valgrind/callgrind.h>
#else
#define CALLGRIND_START_INSTRUMENTATION
#endif

enum { MAX_TENANTS = 64, FRAME_BYTES = 4096 };

/* what malloc has to do for a line */
enum deed { NOTHING, TAKE, GIVE };

struct call {
    partmem_request request;
    const char *line;
    size_t line_len;
    uint8_t bytes[PARTMEM_MAX_BYTES];
    size_t bytes_len;
    enum deed deed;
    size_t block; /* the number of what is taken or given back, in the order of the takes */
    size_t size;  /* its bytes */
};

static struct call *calls;
static size_t call_count, block_count;
static partmem_machine machine;
static char buffer[PARTMEM_LINE_BUFFER_BYTES];

static void check(int holds, const char *what) {
    if (!holds) {
        fprintf(stderr, "library: %s\n", what);
        exit(1);
    }
}

static void *some(size_t count, size_t size) {
    void *made = calloc(count ? count : 1, size);
    check(made != NULL, "not enough memory");
    return made;
}

static size_t from_hex(const char *hex, uint8_t *bytes) {
    size_t count = strlen(hex) / 2;
    check(count <= PARTMEM_MAX_BYTES, "too many bytes in a line");
    for (size_t i = 0; i < count; i++) {
        char pair[3] = {hex[2 * i], hex[2 * i + 1], 0};
        bytes[i] = (uint8_t)strtoul(pair, NULL, 16);
    }
    return count;
}

/* Parses a line of a load into the event that it requests. */
static void understand(struct call *call) {
    static const struct { const char *word; uint32_t kind; } kinds[] = {
        {"alloc", PARTMEM_ALLOC}, {"free", PARTMEM_FREE}, {"read", PARTMEM_READ},       {"write", PARTMEM_WRITE},
        {"cache", PARTMEM_CACHE}, {"take", PARTMEM_TAKE}, {"destroy", PARTMEM_DESTROY}, {"give", PARTMEM_GIVE},
        {"reap", PARTMEM_REAP},   {"report", PARTMEM_REPORT},
    };
    char first[16], word[16], numbers[3][140] = {"", "", ""};
    int found = sscanf(call->line, "%15s %15s %139s %139s %139s", first, word, numbers[0], numbers[1], numbers[2]);
    check(found >= 2, "a line has too few words");
    partmem_request *request = &call->request;
    if (strcmp(first, "admin") == 0) {
        check(strcmp(word, "grant") == 0, "of the administrator a load has grants alone");
        *request = (partmem_request){PARTMEM_GRANT, (uint32_t)atol(numbers[0]), 0, 0};
        return;
    }
    *request = (partmem_request){0, (uint32_t)atol(first), (uint32_t)atol(numbers[0]), (uint32_t)atol(numbers[1])};
    for (size_t i = 0; i < sizeof kinds / sizeof *kinds; i++) {
        if (strcmp(word, kinds[i].word) == 0) {
            request->kind = kinds[i].kind;
        }
    }
    if (request->kind == PARTMEM_WRITE || request->kind == PARTMEM_CACHE) {
        call->bytes_len = from_hex(numbers[request->kind == PARTMEM_WRITE ? 1 : 2], call->bytes);
    }
}

static void read_trace(const char *path) {
    FILE *file = fopen(path, "r");
    char *line = NULL;
    size_t size = 0, most = 0;
    ssize_t len;
    check(file != NULL, "the trace can't be opened");
    while ((len = getline(&line, &size, file)) > 0) {
        if (call_count == most) {
            most = most ? 2 * most : 1024;
            calls = realloc(calls, most * sizeof *calls);
            check(calls != NULL, "not enough memory");
        }
        struct call *call = &calls[call_count++];
        *call = (struct call){.line_len = (size_t)len - (line[len - 1] == '\n')};
        char *held = some(call->line_len + 1, 1);
        call->line = memcpy(held, line, call->line_len);
        understand(call);
    }
    free(line);
    fclose(file);
}

static void boot(char **sizes) {
    const partmem_config config = {(uint32_t)atol(sizes[0]), (uint32_t)atol(sizes[1]), (uint32_t)atol(sizes[2])};
    check(partmem_boot(&machine, &config) == PARTMEM_DONE, "boot");
}

/* What the direct calls return besides their status. */
struct results {
    partmem_lent lent;
    partmem_slot slot;
    partmem_cache cache;
    uint32_t frames;
};

/* Makes the direct call of a line. It is always inlined, so that callgrind counts only the calls to the library. */
__attribute__((always_inline)) static inline partmem_status run_direct(const struct call *call, struct results *results) {
    const partmem_tenant tenant = {&machine, call->request.tenant};
    uint32_t first = call->request.first, second = call->request.second;
    switch (call->request.kind) {
    case PARTMEM_ALLOC: return partmem_alloc(tenant, first, &results->lent);
    case PARTMEM_FREE: return partmem_free(tenant, first * FRAME_BYTES);
    case PARTMEM_TAKE: return partmem_take(tenant, first, &results->lent);
    case PARTMEM_GIVE: return partmem_give(tenant, first, second);
    case PARTMEM_READ: return partmem_read(tenant, first, buffer, second);
    case PARTMEM_WRITE: return partmem_write(tenant, first, call->bytes, call->bytes_len);
    case PARTMEM_CACHE: return partmem_make_cache(tenant, first, second, call->bytes, call->bytes_len, &results->cache);
    case PARTMEM_REAP: return partmem_reap(tenant, &results->frames);
    case PARTMEM_GRANT: return partmem_grant(tenant, &results->slot);
    default: return PARTMEM_NOT_AN_EVENT;
    }
}

/* Returns the first place of what a call took, or the place that the call names. If it has no place, returns its first number. */
static uint32_t place_of(const struct call *call, const struct results *results) {
    const partmem_request *request = &call->request;
    switch (request->kind) {
    case PARTMEM_ALLOC:
    case PARTMEM_TAKE: return results->lent.place;
    case PARTMEM_FREE: return request->first * FRAME_BYTES;
    case PARTMEM_GIVE: return request->second;
    default: return request->first;
    }
}

/* Runs the trace once to find what each line takes or gives back. The place in a free or a give says which memory is meant. */
static void plan(char **sizes) {
    size_t granules = ((size_t)atol(sizes[1]) << atol(sizes[0])) * FRAME_BYTES / 8;
    uint32_t *taker[MAX_TENANTS]; /* by place / 8: the call that took what begins at the place */
    for (size_t tenant = 0; tenant < MAX_TENANTS; tenant++) {
        taker[tenant] = some(granules, sizeof **taker);
    }
    boot(sizes);
    for (size_t i = 0; i < call_count; i++) {
        struct call *call = &calls[i];
        uint32_t tenant = call->request.tenant, kind = call->request.kind;
        struct results results;
        check(tenant < MAX_TENANTS, "a load has no such tenant");
        partmem_status status = run_direct(call, &results);
        check(status < PARTMEM_NO_MACHINE, "a direct call");
        if (status != PARTMEM_DONE) {
            continue;
        }
        uint32_t place = place_of(call, &results);
        if (kind == PARTMEM_ALLOC || kind == PARTMEM_TAKE) {
            taker[tenant][place / 8] = (uint32_t)i;
            call->deed = TAKE, call->block = block_count++, call->size = results.lent.bytes;
        } else if (kind == PARTMEM_FREE || kind == PARTMEM_GIVE) {
            const struct call *its = &calls[taker[tenant][place / 8]];
            call->deed = GIVE, call->block = its->block, call->size = its->size;
        }
    }
    check(partmem_end(&machine) == PARTMEM_DONE, "end");
    for (size_t tenant = 0; tenant < MAX_TENANTS; tenant++) {
        free(taker[tenant]);
    }
}

__attribute__((noinline)) static void run_events(void) {
    for (size_t i = 0; i < call_count; i++) {
        partmem_reply reply;
        const struct call *call = &calls[i];
        partmem_status status =
            partmem_event(&machine, &call->request, call->bytes, call->bytes_len, &reply, buffer, sizeof buffer);
        check(status == PARTMEM_DONE, "event");
    }
}

__attribute__((noinline)) static void run_lines(void) {
    for (size_t i = 0; i < call_count; i++) {
        size_t written;
        partmem_status status = partmem_line(&machine, calls[i].line, calls[i].line_len, buffer, sizeof buffer, &written);
        check(status == PARTMEM_DONE, "line");
    }
}

/* Stores all bytes of the block or object that was taken if `is_used`, or else only its first byte. */
static void store(uint8_t *at, const struct call *call, int is_used) {
    if (is_used) {
        memset(at, (uint8_t)call->block, call->size);
    } else {
        *(volatile uint8_t *)at = 0;
    }
}

/* Loads and checks all bytes of the block or object that is given back. */
static void load(const uint8_t *at, const struct call *call) {
    check(*at == (uint8_t)call->block && memcmp(at, at + 1, call->size - 1) == 0, "bytes are not as they were stored");
}

__attribute__((noinline)) static void run_calls(uint8_t **blocks, int is_used) {
    struct results results;
    for (size_t i = 0; i < call_count; i++) {
        const struct call *call = &calls[i];
        if (is_used && call->deed == GIVE) {
            load(blocks[call->block], call);
        }
        check(run_direct(call, &results) < PARTMEM_NO_MACHINE, "a direct call");
        if (call->deed == TAKE) {
            blocks[call->block] = results.lent.at;
            store(results.lent.at, call, is_used);
        }
    }
}

/* Returns the number of calls to malloc and free. */
__attribute__((noinline)) static size_t run_malloc(uint8_t **blocks, int is_used) {
    size_t count = 0;
    for (size_t i = 0; i < call_count; i++) {
        const struct call *call = &calls[i];
        if (call->deed == TAKE) {
            uint8_t *block = malloc(call->size);
            check(block != NULL, "malloc");
            blocks[call->block] = block;
            store(block, call, is_used);
        } else if (call->deed == GIVE) {
            if (is_used) {
                load(blocks[call->block], call);
            }
            free(blocks[call->block]);
        }
        count += call->deed != NOTHING;
    }
    return count;
}

/* Returns a hash of some bytes and of the hash before. */
static uint64_t sum(uint64_t before, const void *bytes, size_t count) {
    const uint8_t *at = bytes;
    for (size_t size; count > 0; count -= size, at += size) {
        uint64_t word = 0;
        size = count < sizeof word ? count : sizeof word;
        memcpy(&word, at, size);
        before = (before ^ word) * 0x9e3779b97f4a7c15u;
        before ^= before >> 29;
    }
    return before;
}

/* Makes more calls at a place, and adds to a hash what they return: lends, some of too many bytes; a free and a give at
 * place + 4, where seldom anything begins; and, if the call itself gave memory back, the same call again. */
static uint64_t sum_of_more(uint64_t before, const struct call *call, uint32_t place, uint32_t bytes) {
    const partmem_tenant tenant = {&machine, call->request.tenant};
    const struct { uint32_t place, bytes; } lends[] = {
        {place, bytes}, {place, bytes + 1}, {place + bytes - 1, 1}, {place - 1, 2}, {place, 0},
    };
    struct results results;
    for (size_t i = 0; i < sizeof lends / sizeof *lends; i++) {
        partmem_lent lent = {buffer, 1, 1, 0};
        uint32_t status = partmem_lend(tenant, lends[i].place, lends[i].bytes, &lent);
        const uint32_t found[] = {status, lent.place, lent.bytes, lent.at != NULL ? *(uint8_t *)lent.at : 256};
        before = sum(before, found, sizeof found);
    }
    const uint32_t refusals[] = {
        partmem_free(tenant, place + 4),
        partmem_give(tenant, call->request.first, place + 4),
        call->deed == GIVE ? run_direct(call, &results) : PARTMEM_DONE,
    };
    return sum(before, refusals, sizeof refusals);
}

/* Writes a line for each direct call: its kind, its status, the place that it names or takes, how many bytes it takes or gives
 * back, and a hash. The hash is of these bytes, of all else that the call returns, and of what more calls at the place
 * return. If one of these gives memory back, a later call that took memory in plan() may be refused here. */
static void write_answers(uint8_t **blocks) {
    for (size_t i = 0; i < call_count; i++) {
        const struct call *call = &calls[i];
        struct results results;
        memset(&results, 0xee, sizeof results);
        memset(buffer, 0, PARTMEM_MAX_BYTES);
        const int has_block = call->deed == GIVE && blocks[call->block] != NULL;
        uint64_t all = has_block ? sum(0, blocks[call->block], call->size) : 0;
        uint32_t status = run_direct(call, &results), place = place_of(call, &results);
        if (call->deed == TAKE && status == PARTMEM_DONE) {
            blocks[call->block] = results.lent.at;
            all = sum(all, results.lent.at, call->size);
            store(results.lent.at, call, 1);
        }
        /* without the address, which differs from run to run, and the unused bytes of a partmem_lent */
        const partmem_lent *lent = &results.lent;
        const uint32_t numbers[] = {lent->at == NULL, lent->place, lent->bytes, lent->tenant, results.frames};
        all = sum(sum(all, &results.slot, sizeof results.slot), &results.cache, sizeof results.cache);
        all = sum(sum(all, numbers, sizeof numbers), buffer, PARTMEM_MAX_BYTES);
        all = sum_of_more(all, call, place, call->size > 0 ? (uint32_t)call->size : 8);
        printf("%u %u %u %zu %016" PRIx64 "\n", call->request.kind, status, place, call->size, all);
    }
}

/* Writes the reply to each line of standard input as soon as the line is read. */
static int answer_lines(char **sizes) {
    char *line = NULL, *plain[3];
    size_t size = 0, written;
    ssize_t len;
    for (int i = 0; i < 3; i++) {
        plain[i] = strchr(sizes[i], '=') + 1;
    }
    boot(plain);
    while ((len = getline(&line, &size, stdin)) > 0) {
        check(partmem_line(&machine, line, (size_t)len - (line[len - 1] == '\n'), buffer, sizeof buffer, &written) == 0, "line");
        fwrite(buffer, 1, written, stdout);
        fflush(stdout);
    }
    free(line);
    return 0;
}

static double processor_time(void) {
    struct timespec now;
    clock_gettime(CLOCK_PROCESS_CPUTIME_ID, &now);
    return (double)now.tv_sec + 1e-9 * (double)now.tv_nsec;
}

int main(int argc, char **argv) {
    if (argc == 4 && strncmp(argv[1], "--order=", 8) == 0) {
        return answer_lines(argv + 1);
    }
    check(argc == 6, "usage: library HOW ORDER SUPERBLOCKS TENANTS TRACE");
    char **sizes = argv + 2;
    int is_used = strstr(argv[1], "-used") != NULL;
    read_trace(argv[5]);
    if (strcmp(argv[1], "event") != 0 && strcmp(argv[1], "line") != 0) {
        plan(sizes);
    }
    uint8_t **blocks = some(block_count, sizeof *blocks);
    size_t count = call_count;
    boot(sizes);
    if (strcmp(argv[1], "answers") == 0) {
        write_answers(blocks);
        return 0;
    }
    CALLGRIND_START_INSTRUMENTATION;
    double start = processor_time();
    if (strcmp(argv[1], "event") == 0) {
        run_events();
    } else if (strcmp(argv[1], "line") == 0) {
        run_lines();
    } else if (strncmp(argv[1], "call", 4) == 0) {
        run_calls(blocks, is_used);
    } else {
        count = run_malloc(blocks, is_used);
    }
    double taken = processor_time() - start;
    printf("%zu calls %.1f nanoseconds\n", count, count ? taken / (double)count * 1e9 : 0.0);
    return 0;
}
