/* Makes one direct call on a machine of a given size, so that callgrind counts it.
 *
 *     sizes grant|take_back|report|reset|alloc|find_superblock|find_place ORDER SUPERBLOCKS
 *
 * The grant is of the last superblock, to a tenant that has all others. The take-back is of the last slot of a tenant that has all
 * superblocks, and the report is of such a tenant. The reset is of a tenant that has nothing, beside one that has all. The alloc
 * is of a frame in the last slot of a tenant that has all superblocks, when every frame of its other slots is taken. The lookups
 * are of the owner of the last superblock, and of the place of its last byte. */
#include <stdio.h>
#include <stdlib.h>
#include <string.h>

#include "partmem.h"

#if __has_include(<valgrind/callgrind.h>)
#include <valgrind/callgrind.h>
#else
#define CALLGRIND_START_INSTRUMENTATION
#endif

static partmem_machine machine;
static const partmem_tenant tenant = {&machine, 0}, idle = {&machine, 1};
static uint32_t last; /* the last superblock, and the last slot of a tenant that has all */
static const uint8_t *last_byte; /* of the last superblock */

static void done(partmem_status status)
{
    if (status == PARTMEM_DONE) return;
    fprintf(stderr, "sizes: %s\n", partmem_strerror(status));
    exit(1);
}

static void grant(void)
{
    partmem_slot slot;
    done(partmem_grant(tenant, &slot));
}

/* Allocates a whole superblock by an event, which touches no page of it. */
static void alloc_superblock(uint32_t order)
{
    const partmem_request request = {PARTMEM_ALLOC, 0, order, 0};
    partmem_reply reply;
    uint8_t bytes[PARTMEM_MAX_BYTES];
    done(partmem_event(&machine, &request, bytes, 0, &reply, bytes, sizeof bytes));
}

static void take_back(void) { done(partmem_take_back(tenant, last)); }

static void report(void)
{
    partmem_figures figures;
    done(partmem_report(tenant, &figures));
}

static void reset(void) { done(partmem_reset(idle)); }

static void alloc_frame(void)
{
    partmem_lent block;
    done(partmem_alloc(tenant, 0, &block));
}

static void find_superblock(void)
{
    partmem_owner owner;
    done(partmem_find_superblock(&machine, last, &owner));
}

static void find_place(void)
{
    uint32_t place;
    done(partmem_find_place(tenant, last_byte, &place));
}

/* The call that callgrind counts. */
__attribute__((noinline)) void measured(void (*call)(void))
{
    call();
    __asm__ volatile("" ::: "memory"); /* so the call is no jump, and its instructions count as this function's */
}

int main(int count, char **words)
{
    static const struct {
        const char *name;
        void (*call)(void);
    } commands[] = {{"grant", grant},       {"take_back", take_back},             {"report", report},        {"reset", reset},
                    {"alloc", alloc_frame}, {"find_superblock", find_superblock}, {"find_place", find_place}};
    if (count != 4) return 2;
    const partmem_config config = {(uint32_t)atoi(words[2]), (uint32_t)atoi(words[3]), 2};
    done(partmem_boot(&machine, &config));
    last = config.superblocks - 1;
    last_byte = (const uint8_t *)partmem_superblock_address(&machine, last) + partmem_superblock_bytes(&machine) - 1;
    const int is_grant = !strcmp(words[1], "grant"), is_alloc = !strcmp(words[1], "alloc");
    for (uint32_t i = 0; i < config.superblocks - (is_grant ? 1 : 0); i++) grant();
    for (uint32_t i = 0; is_alloc && i < last; i++) alloc_superblock(config.order);
    CALLGRIND_START_INSTRUMENTATION;
    for (size_t i = 0; i < sizeof commands / sizeof *commands; i++) {
        if (!strcmp(words[1], commands[i].name)) return measured(commands[i].call), 0;
    }
    return 2;
}
