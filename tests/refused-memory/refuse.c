/* A library that is loaded before the C library. It numbers the allocations of a process, beginning with 1, and refuses the
 * allocation whose number is in the environment variable REFUSED.
 *
 * If the environment variable COUNTED names a file, a line with two words is added to this file when the process ends. The first
 * word is the number of allocations before the first read. The second is the number of allocations after it, or `none` if nothing
 * was read. A process that is ended by a signal adds no line.
 */
#define _GNU_SOURCE
#include <dlfcn.h>
#include <errno.h>
#include <fcntl.h>
#include <stdarg.h>
#include <stdbool.h>
#include <stdint.h>
#include <stdio.h>
#include <stdlib.h>
#include <string.h>
#include <sys/mman.h>
#include <sys/uio.h>
#include <unistd.h>

/* Returns the function of this name that would be called without this library. */
#define BEHIND(name) ((__typeof__(&(name)))dlsym(RTLD_NEXT, #name))

static long before_reading, since_reading;
static bool has_read;

static bool is_refused(void)
{
    static long refused = -1;
    if (refused < 0) {
        const char *number = getenv("REFUSED");
        refused = number ? atol(number) : 0;
    }
    if (has_read) since_reading++;
    else before_reading++;
    return before_reading + since_reading == refused;
}

void *malloc(size_t size)
{
    static __typeof__(&malloc) next;
    if (!next) next = BEHIND(malloc);
    return is_refused() ? NULL : next(size);
}

/* Calls malloc and not the next calloc, since dlsym may call calloc. */
void *calloc(size_t number, size_t size)
{
    size_t bytes;
    if (__builtin_mul_overflow(number, size, &bytes)) return NULL;
    void *block = malloc(bytes);
    return block ? memset(block, 0, bytes) : NULL;
}

void *realloc(void *old, size_t size)
{
    static __typeof__(&realloc) next;
    if (!next) next = BEHIND(realloc);
    return is_refused() ? NULL : next(old, size);
}

void *reallocarray(void *old, size_t number, size_t size)
{
    size_t bytes;
    return __builtin_mul_overflow(number, size, &bytes) ? NULL : realloc(old, bytes);
}

int posix_memalign(void **block, size_t alignment, size_t size)
{
    return is_refused() ? ENOMEM : BEHIND(posix_memalign)(block, alignment, size);
}

void *aligned_alloc(size_t alignment, size_t size)
{
    return is_refused() ? NULL : BEHIND(aligned_alloc)(alignment, size);
}

void *memalign(size_t alignment, size_t size)
{
    return is_refused() ? NULL : ((void *(*)(size_t, size_t))dlsym(RTLD_NEXT, "memalign"))(alignment, size);
}

void *valloc(size_t size) { return memalign((size_t)sysconf(_SC_PAGESIZE), size); }

void *mmap(void *at, size_t size, int protection, int flags, int file, off_t from)
{
    return is_refused() ? MAP_FAILED : BEHIND(mmap)(at, size, protection, flags, file, from);
}

void *mmap64(void *at, size_t size, int protection, int flags, int file, off_t from)
{
    return mmap(at, size, protection, flags, file, from);
}

void *mremap(void *old, size_t old_size, size_t size, int flags, ...)
{
    va_list rest;
    va_start(rest, flags);
    void *at = flags & MREMAP_FIXED ? va_arg(rest, void *) : NULL;
    va_end(rest);
    return is_refused() ? MAP_FAILED : BEHIND(mremap)(old, old_size, size, flags, at);
}

int brk(void *end) { return is_refused() ? -1 : BEHIND(brk)(end); }

void *sbrk(intptr_t bytes) { return is_refused() ? (void *)-1 : BEHIND(sbrk)(bytes); }

ssize_t read(int file, void *bytes, size_t count)
{
    has_read = true;
    return BEHIND(read)(file, bytes, count);
}

ssize_t readv(int file, const struct iovec *parts, int count)
{
    has_read = true;
    return BEHIND(readv)(file, parts, count);
}

ssize_t pread(int file, void *bytes, size_t count, off_t from)
{
    has_read = true;
    return BEHIND(pread)(file, bytes, count, from);
}

__attribute__((destructor)) static void tell(void)
{
    const char *path = getenv("COUNTED");
    char line[64];
    if (!path) return;
    int len = snprintf(line, sizeof line, has_read ? "%ld %ld\n" : "%ld none\n", before_reading, since_reading);
    int file = open(path, O_WRONLY | O_CREAT | O_APPEND, 0666);
    if (file < 0 || write(file, line, (size_t)len) != len) _exit(70);
}
