/* Makes the mistake that the command line names. A tool has to report it. If the tool names a line, it has to be one with the
 * comment HERE. With "none" the program makes no mistake, and without a name it prints all names. Most stores go through volatile
 * pointers, so that no compiler removes them. */
#include "partmem_watched.h"

#include <stdio.h>
#include <stdlib.h>
#include <string.h>

static partmem_machine machine;
static const partmem_tenant tenant = {&machine, 1};
static partmem_heap heap;
static partmem_cache cache;
static partmem_lent object, block;
static partmem_slot slot;
static volatile size_t short_of_9 = 8;

static void store(void *at, ptrdiff_t index)
{
    ((volatile char *)at)[index] = 1; /* HERE */
}

static int boot(void)
{
    static const partmem_config config = {3, 4, 2};
    if (partmem_boot(&machine, &config) || partmem_grant(tenant, &slot) || partmem_grant(tenant, &slot)) return 1;
    if (partmem_make_cache(tenant, 60, 8, "", 1, &cache) || partmem_take(tenant, cache.cache, &object)) return 2;
    if (partmem_alloc(tenant, 0, &block) || partmem_heap_init(&heap, tenant, NULL)) return 3;
    store(object.at, 59);
    store(block.at, 4095);
    return 0;
}

static int end(void)
{
    partmem_status status = partmem_free(tenant, block.place);
    if (status == PARTMEM_DONE) status = partmem_give(tenant, cache.cache, object.place);
    if (status == PARTMEM_DONE) status = partmem_end(&machine);
    return status != PARTMEM_DONE;
}

static void run_line(const char *line)
{
    static char buffer[PARTMEM_LINE_BUFFER_BYTES];
    size_t written;
    if (partmem_line(&machine, line, strlen(line), buffer, sizeof buffer, &written) != PARTMEM_DONE) exit(4);
}

static void run_event(uint32_t kind, uint32_t first, uint32_t second)
{
    const partmem_request request = {kind, 1, first, second};
    partmem_reply reply;
    char buffer[PARTMEM_MAX_BYTES];
    if (partmem_event(&machine, &request, "", 0, &reply, buffer, sizeof buffer) != PARTMEM_DONE) exit(5);
}

static void past_object(void)
{
    store(object.at, 60);
}

static void past_object_by_memset(void)
{
    memset(object.at, 1, 61); /* HERE */
}

static void past_block(void)
{
    store(block.at, 4096);
}

static void past_what_was_lent(void)
{
    run_event(PARTMEM_TAKE, cache.cache, 0);
    store(partmem_at(tenant, object.place + 64, 8), 8);
}

static void after_give(void)
{
    if (partmem_give(tenant, cache.cache, object.place) == PARTMEM_DONE) store(object.at, 0);
}

static void after_free(void)
{
    if (partmem_free(tenant, block.place) == PARTMEM_DONE) store(block.at, 4000);
}

static void after_give_by_event(void)
{
    run_event(PARTMEM_GIVE, cache.cache, object.place);
    store(object.at, 0);
}

static void after_free_by_line(void)
{
    char line[32];
    snprintf(line, sizeof line, "1  free\t%u", (unsigned)block.place / PARTMEM_FRAME_BYTES);
    run_line(line);
    store(block.at, 0);
}

static void after_move(void)
{
    if (partmem_move(tenant, 0, &slot) == PARTMEM_DONE) store(object.at, 0);
}

static void after_move_by_line(void)
{
    run_line("admin move 1 0");
    store(object.at, 0);
}

static void not_lent_again(void)
{
    if (partmem_move(tenant, 0, &slot) != PARTMEM_DONE) return;
    char *at = partmem_object_at(tenant, cache.cache, object.place);
    store(at, 0);
    store(at + block.place - object.place, 0);
}

static void after_reset(void)
{
    if (partmem_reset(tenant) == PARTMEM_DONE) store(block.at, 8);
}

static void after_reset_by_event(void)
{
    run_event(PARTMEM_RESET, 0, 0);
    store(object.at, 0);
}

static void after_end(void)
{
    if (end() == 0) store(object.at, 0);
}

static void past_piece(void)
{
    store(partmem_heap_malloc(&heap, 100), 100);
}

static void past_large_piece(void)
{
    store(partmem_heap_calloc(&heap, 1, 5000), 5000);
}

static void before_piece(void)
{
    char *first = partmem_heap_aligned_alloc(&heap, 64, 40), *second = partmem_heap_aligned_alloc(&heap, 64, 40);
    store(first < second ? second : first, -1);
}

static void after_heap_free(void)
{
    char *at = partmem_heap_malloc(&heap, 300);
    if (partmem_heap_free(&heap, at) == PARTMEM_DONE) store(at, 299);
}

static void after_realloc(void)
{
    char *old = partmem_heap_malloc(&heap, 16);
    if (partmem_heap_realloc(&heap, old, 2000) != old) store(old, 0);
}

static void past_shrunk(void)
{
    store(partmem_heap_realloc(&heap, partmem_heap_malloc(&heap, 64), 50), 50);
}

static void read_past(void)
{
    volatile char *at = malloc(short_of_9);
    if (partmem_read(tenant, block.place, (char *)at, 9) != PARTMEM_DONE || at[0]) exit(11); /* HERE */
    free((char *)at);
}

static void write_past(void)
{
    volatile char *at = malloc(short_of_9);
    if (partmem_write(tenant, block.place, (char *)at, 9) != PARTMEM_DONE) exit(12); /* HERE */
    free((char *)at);
}

/* Makes no mistake, but uses memory up to its edges. Checks that pieces of the heap keep their bytes, and that their usable size
 * is the size that was requested. */
static void none(void)
{
    char *at = partmem_heap_malloc(&heap, 100);
    memset(at, 7, 100);
    if (partmem_heap_usable_size(&heap, at) != 100) exit(6);
    at = partmem_heap_realloc(&heap, at, 110);
    if (at[99] != 7 || partmem_heap_usable_size(&heap, at) != 110) exit(6);
    at[109] = 8;
    at = partmem_heap_realloc(&heap, at, 9000);
    if (at[99] != 7 || at[109] != 8) exit(7);
    at[8999] = 1;
    if (partmem_heap_free(&heap, at + 1) == PARTMEM_DONE || at[8999] != 1) exit(8);
    if (partmem_heap_free(&heap, at) || partmem_heap_free(&heap, partmem_heap_malloc(&heap, 0))) exit(8);
    if (partmem_move(tenant, slot.slot, &slot) || partmem_move(tenant, 0, &slot)) exit(9);
    store(partmem_object_at(tenant, cache.cache, object.place), 59);
    store(partmem_at(tenant, block.place + 4000, 96), 95);
}

static void leak(void)
{
    if (partmem_heap_malloc(&heap, 100) == NULL || end() != 0) exit(10);
}

int main(int count, char **words)
{
#define NAMED(function) {#function, function}
    static const struct {
        const char *name;
        void (*make)(void);
    } mistakes[] = {NAMED(none), NAMED(leak), NAMED(past_object), NAMED(past_object_by_memset), NAMED(past_block),
                    NAMED(past_what_was_lent), NAMED(after_give), NAMED(after_free), NAMED(after_give_by_event),
                    NAMED(after_free_by_line), NAMED(after_move), NAMED(after_move_by_line), NAMED(not_lent_again),
                    NAMED(after_reset), NAMED(after_reset_by_event), NAMED(after_end), NAMED(past_piece),
                    NAMED(past_large_piece), NAMED(before_piece), NAMED(after_heap_free), NAMED(after_realloc),
                    NAMED(past_shrunk), NAMED(read_past), NAMED(write_past)};
    int status = boot();
    if (status != 0) return status;
    for (size_t i = 0; i < sizeof mistakes / sizeof *mistakes; i++) {
        if (count < 2) puts(mistakes[i].name);
        else if (strcmp(words[1], mistakes[i].name) == 0) mistakes[i].make();
    }
    return count > 1 && strcmp(words[1], "none") == 0 ? end() : 0;
}
