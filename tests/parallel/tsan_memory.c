/* The functions by which code that clang has compiled for ThreadSanitizer copies and fills. gcc's ThreadSanitizer lacks them. It
 * intercepts those of the C library. */
#include <string.h>

void *__tsan_memcpy(void *to, const void *from, size_t bytes);
void *__tsan_memmove(void *to, const void *from, size_t bytes);
void *__tsan_memset(void *to, int value, size_t bytes);

void *__tsan_memcpy(void *to, const void *from, size_t bytes) { return memcpy(to, from, bytes); }

void *__tsan_memmove(void *to, const void *from, size_t bytes) { return memmove(to, from, bytes); }

void *__tsan_memset(void *to, int value, size_t bytes) { return memset(to, value, bytes); }
