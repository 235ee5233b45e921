/* Code that is compiled as the library is, so that its loads and stores are seen: a tenant's own stores in place, and faults that
 * are planted to see the test fail. */
#include "traced.h"

static _Alignas(128) uint32_t counts[32];

void store_in_place(unsigned char *at, size_t bytes)
{
    for (size_t i = 0; i < bytes; i++) at[i] ^= 0x5a;
}

void plant_count(uint32_t which)
{
    counts[which]++;
}

uint8_t plant_load(const unsigned char *at)
{
    return *at;
}
