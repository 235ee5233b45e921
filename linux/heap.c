/* malloc for a program with one thread, which loads it by LD_PRELOAD. PARTMEM_FILE is the number of a file that is bound to a
 * partition. All memory comes from page blocks of that partition. A piece has 2^k bytes, and begins at a multiple of 2^k, or of a
 * page if it is larger than a page. */
#include <errno.h>
#include <stdint.h>
#include <stdlib.h>
#include <string.h>
#include <sys/ioctl.h>
#include <sys/mman.h>

#include "device.h"

enum { PAGE = 12, LEAST = 4, MOST = 20, PAGES = 1 << 16 };

struct unused {
    struct unused *next;
};

static int file;
static char *places;
static struct unused *unused[PAGE];
static uint8_t power_in[PAGES]; /* by page: the k of the pieces in this page, or of the block that begins there */

/* Maps all places that the partition can name. The number of these places is not known, and a mapping of more places is refused.
 * So this function tries smaller and smaller mappings until one is not refused. A child of a fork does not get the mapping, since
 * two processes would change one heap; it is killed when it uses the heap. */
static void start(void)
{
    file = atoi(getenv("PARTMEM_FILE"));
    for (size_t bytes = (size_t)PAGES << PAGE; !places && bytes; bytes -= 1 << MOST) {
        void *at = mmap(NULL, bytes, PROT_READ | PROT_WRITE, MAP_SHARED, file, 0);
        if (at != MAP_FAILED) places = at;
        if (places && madvise(places, bytes, MADV_DONTFORK)) abort();
    }
    if (!places) abort();
}

static void *pages(unsigned power, unsigned order)
{
    struct partmem_call call = {.number = order};
    if (!places) start();
    if (ioctl(file, PARTMEM_IOC_ALLOC, &call) || call.status) return NULL;
    power_in[call.place >> PAGE] = power;
    return places + call.place;
}

static unsigned power_of(const void *at)
{
    return power_in[((const char *)at - places) >> PAGE];
}

static void fill(unsigned power)
{
    char *at = pages(power, 0);
    for (size_t i = 0; at && i < 1 << PAGE; i += (size_t)1 << power) free(at + i);
}

void *malloc(size_t bytes)
{
    unsigned power = LEAST;
    while (power <= MOST && bytes > (size_t)1 << power) power++;
    if (power < PAGE && !unused[power]) fill(power);
    struct unused *at = power < PAGE ? unused[power] : power <= MOST ? pages(power, power - PAGE) : NULL;
    if (!at) errno = ENOMEM;
    else if (power < PAGE) unused[power] = at->next;
    return at;
}

void free(void *at)
{
    if (!at) return;
    const unsigned power = power_of(at);
    if (power < PAGE) {
        ((struct unused *)at)->next = unused[power];
        unused[power] = at;
    } else {
        struct partmem_call call = {.number = (char *)at - places};
        if (ioctl(file, PARTMEM_IOC_FREE, &call) || call.status) abort();
    }
}

void *calloc(size_t count, size_t bytes)
{
    if (__builtin_mul_overflow(count, bytes, &bytes)) return NULL;
    void *at = malloc(bytes);
    return at ? memset(at, 0, bytes) : NULL;
}

void *realloc(void *old, size_t bytes)
{
    const size_t kept = old ? (size_t)1 << power_of(old) : 0;
    if (old && bytes <= kept && bytes > kept / 2) return old;
    void *at = malloc(bytes);
    if (at && old) {
        memcpy(at, old, kept < bytes ? kept : bytes);
        free(old);
    }
    return at;
}

void *aligned_alloc(size_t align, size_t bytes)
{
    return malloc(bytes > align ? bytes : align);
}

int posix_memalign(void **at, size_t align, size_t bytes)
{
    *at = aligned_alloc(align, bytes);
    return *at ? 0 : ENOMEM;
}
