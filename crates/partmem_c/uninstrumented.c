/* The memory functions of libpartmem_watched.a. AddressSanitizer checks the arguments of the C library's memcpy, memmove and
 * memset. But partmem has to access bytes that are poison for the program. So the linker makes partmem call these functions
 * instead (--wrap in tools/building.py). */
#include <stddef.h>

/* Called in partmem_watched.h, so that a program with the sanitizer does not link with another archive. */
void partmem_link_with_libpartmem_watched(void);
void partmem_link_with_libpartmem_watched(void) {}

#define INSIDE __attribute__((visibility("hidden")))

INSIDE void *__wrap_memset(void *to, int byte, size_t bytes);
INSIDE void *__wrap_memcpy(void *to, const void *from, size_t bytes);
INSIDE void *__wrap_memmove(void *to, const void *from, size_t bytes);

void *__wrap_memset(void *to, int byte, size_t bytes)
{
    void *at = to;
    __asm__ volatile("rep stosb" : "+D"(at), "+c"(bytes) : "a"(byte) : "memory");
    return to;
}

void *__wrap_memcpy(void *to, const void *from, size_t bytes)
{
    void *at = to;
    __asm__ volatile("rep movsb" : "+D"(at), "+S"(from), "+c"(bytes) : : "memory");
    return to;
}

void *__wrap_memmove(void *to, const void *from, size_t bytes)
{
    volatile unsigned char *at = to; /* volatile: or else a compiler may replace the loop by a call of memmove */
    const unsigned char *source = from;
    if ((size_t)at - (size_t)source >= bytes) return __wrap_memcpy(to, from, bytes);
    while (bytes-- > 0) at[bytes] = source[bytes];
    return to;
}
