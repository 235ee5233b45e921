/* Allocates memory in functions of known names. tests/machines/run checks that machines/from-malloc finds these names by the
 * addresses in a log of machines/malloc_log.c. */
#include <stdlib.h>

#define ALONE __attribute__((noinline)) static void

static void *volatile kept[16];

ALONE hold_two(void)
{
    kept[0] = malloc(7000);
    kept[1] = calloc(10, 100);
}

ALONE hold_many(void)
{
    for (int some = 2; some < 12; some++)
        kept[some] = malloc(500);
}

ALONE hold_child(void)
{
    kept[12] = malloc(10);
    kept[12] = realloc(kept[12], 3000);
}

ALONE hold_aligned(void)
{
    kept[13] = aligned_alloc(1024, 2048);
}

/* Frees what it allocates, before the most bytes are live. */
ALONE let_go(void)
{
    kept[14] = malloc(9000);
    free(kept[14]);
}

int main(void)
{
    let_go();
    hold_two();
    hold_many();
    hold_child();
    hold_aligned();
    kept[14] = malloc(1111);
    return !kept[0] || !kept[1] || !kept[11] || !kept[12] || !kept[13] || !kept[14];
}
