/* The functions that the library and clang may need from outside of the module. */
#include <stddef.h>
#include <stdint.h>

/* The library calls these three. With -mbulk-memory each is one instruction of WebAssembly. */
void *memcpy(void *to, const void *from, size_t bytes)
{
    return __builtin_memcpy(to, from, bytes);
}

void *memmove(void *to, const void *from, size_t bytes)
{
    return __builtin_memmove(to, from, bytes);
}

void *memset(void *to, int byte, size_t bytes)
{
    return __builtin_memset(to, byte, bytes);
}

typedef unsigned long long word;
typedef unsigned __int128 wide;

/* Returns the product of two 128-bit numbers. Clang calls it where x86-64 has an instruction. It is not optimized: clang would
 * recognize the product, and call this function for it. */
__attribute__((optnone, noinline)) wide __multi3(wide a, wide b)
{
    const word a_low = (word)a, b_low = (word)b;
    const word a0 = (uint32_t)a_low, a1 = a_low >> 32, b0 = (uint32_t)b_low, b1 = b_low >> 32;
    const word middle = (a0 * b0 >> 32) + (uint32_t)(a0 * b1) + (uint32_t)(a1 * b0);
    const word carried = a1 * b1 + (a0 * b1 >> 32) + (a1 * b0 >> 32) + (middle >> 32);
    const word high = carried + (word)(a >> 64) * b_low + a_low * (word)(b >> 64);
    return (wide)high << 64 | a_low * b_low;
}
