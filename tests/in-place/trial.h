/* For programs of this folder and of tests/heap: checks that end the program if they fail, pseudo-random numbers, and a boot. */
#ifndef TRIAL_H
#define TRIAL_H

#include <stdbool.h>
#include <stdio.h>
#include <stdlib.h>
#include <string.h>

#include "partmem.h"

#define MUST(holds) ((holds) ? (void)0 : (fprintf(stderr, "%s:%d: not so: %s\n", __FILE__, __LINE__, #holds), exit(1)))
#define LEN(array) (sizeof(array) / sizeof *(array))

static uint64_t random_state;

/* Returns a pseudo-random number below `below`. */
static inline uint32_t any(uint32_t below)
{
    random_state = random_state * 6364136223846793005u + 1442695040888963407u;
    return (uint32_t)(random_state >> 33) % below;
}

/* Returns true in one of `times` calls on average. */
static inline bool rarely(uint32_t times) { return any(times) == 0; }

/* Boots a machine. Ends the program if the library does not support the processor. */
static inline void boot(partmem_machine *machine, uint32_t order, uint32_t superblocks, uint32_t tenants)
{
    const partmem_config config = {order, superblocks, tenants};
#ifdef __x86_64__
    MUST(__builtin_cpu_supports("sse4.2") && __builtin_cpu_supports("popcnt"));
#endif
    MUST(partmem_boot(machine, &config) == PARTMEM_DONE);
}

#endif
