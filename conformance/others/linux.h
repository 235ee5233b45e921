/* Stands in for the parts of Linux that genalloc.c and drm_buddy.c use, in one process without threads. Linux's own list.h is
 * included at the end. `run` copies Linux's files without their #include lines. */
#ifndef PARTMEM_LINUX_H
#define PARTMEM_LINUX_H

#include <errno.h>
#include <stdbool.h>
#include <stddef.h>
#include <stdint.h>
#include <stdio.h>
#include <stdlib.h>
#include <string.h>

typedef uint32_t u32;
typedef uint64_t u64, phys_addr_t, dma_addr_t;
typedef int spinlock_t;
typedef struct {
    long counter;
} atomic_long_t;
struct device;
struct drm_printer;
struct kmem_cache;

/* list.h has these names of types.h and poison.h. */
struct list_head {
    struct list_head *next, *prev;
};
struct hlist_node {
    struct hlist_node *next, **pprev;
};
struct hlist_head {
    struct hlist_node *first;
};
#define LIST_POISON1 NULL
#define LIST_POISON2 NULL
#define container_of(pointer, type, member) ((type *)((char *)(pointer)-offsetof(type, member)))
#define READ_ONCE(value) (value)
#define WRITE_ONCE(value, new_value) ((value) = (new_value))
#define smp_load_acquire(pointer) (*(pointer))
#define smp_store_release(pointer, new_value) (*(pointer) = (new_value))

enum { PAGE_SHIFT = 12, BITS_PER_LONG = 64, GFP_KERNEL = 0 };
#define PAGE_SIZE (1ul << PAGE_SHIFT)
#define SZ_1M (1ul << 20)
#define BIT(number) (1ul << (number))
#define BIT_WORD(number) ((number) / BITS_PER_LONG)
#define BITS_TO_LONGS(count) (((count) + BITS_PER_LONG - 1) / BITS_PER_LONG)
#define BITMAP_FIRST_WORD_MASK(first) (~0ul << (first) % BITS_PER_LONG)
#define BITMAP_LAST_WORD_MASK(count) (~0ul >> (BITS_PER_LONG - (count)) % BITS_PER_LONG)
#define GENMASK_ULL(high, low) (~0ull >> (63 - (high)) & ~0ull << (low))
#define fls(number) ((number) == 0 ? 0 : 64 - __builtin_clzl(number))
#define ilog2(number) (fls(number) - 1)
#define hweight64(number) __builtin_popcountll(number)
#define is_power_of_2(number) (hweight64(number) == 1)
#define roundup_pow_of_two(number) ((number) < 2 ? 1 : 1ul << fls((unsigned long)(number)-1))
#define round_down(number, unit) ((number) / (unit) * (unit))
#define round_up(number, unit) round_down((number) + (unit)-1, unit)
#define IS_ALIGNED(number, unit) ((number) % (unit) == 0)
#define min(one, other) ((one) < (other) ? (one) : (other))
#define max(one, other) ((one) > (other) ? (one) : (other))
#define likely(condition) (condition)
#define unlikely(condition) (condition)

#define ERR_PTR(error) ((void *)(long)(error))
#define PTR_ERR(pointer) ((long)(pointer))
#define IS_ERR(pointer) ((unsigned long)(pointer) > -4096ul)
static inline bool warn_if(bool is_wrong, const char *function, const char *what) {
    if (is_wrong)
        fprintf(stderr, "%s: %s\n", function, what);
    return is_wrong;
}
#define WARN_ON(condition) warn_if(condition, __func__, #condition)
#define BUG_ON(condition) (WARN_ON(condition) ? abort() : (void)0)
#define BUG() BUG_ON(true)

#define kmalloc_node(size, flags, node) malloc(size)
#define kmalloc_array(count, size, flags) malloc((count) * (size))
#define vzalloc_node(size, node) calloc(1, size)
#define kstrdup_const(text, flags) strdup(text)
#define kfree(pointer) free(pointer)
#define vfree(pointer) free(pointer)
#define kfree_const(pointer) free((void *)(pointer))
/* The pointer to a cache is the size of its objects. */
#define KMEM_CACHE(name, flags) ((struct kmem_cache *)sizeof(struct name))
#define kmem_cache_zalloc(cache, flags) calloc(1, (size_t)(cache))
#define kmem_cache_free(cache, pointer) free(pointer)
#define kmem_cache_destroy(cache) ((void)(cache))
#define kmemleak_update_trace(pointer) ((void)(pointer))
#define devres_alloc(release, size, flags) malloc(size)
#define devres_free(pointer) free(pointer)
#define devres_add(device, pointer) ((void)(pointer))
#define devres_find(device, release, match, data) NULL

#define atomic_long_set(value, number) ((value)->counter = (long)(number))
#define atomic_long_read(value) ((value)->counter)
#define atomic_long_add(number, value) ((value)->counter += (long)(number))
#define atomic_long_sub(number, value) ((value)->counter -= (long)(number))
#define cmpxchg(pointer, old, new_value) __sync_val_compare_and_swap(pointer, old, new_value)
#define spin_lock_init(lock) ((void)(lock))
#define spin_lock(lock) ((void)(lock))
#define spin_unlock(lock) ((void)(lock))
#define rcu_read_lock() ((void)0)
#define rcu_read_unlock() ((void)0)
#define list_add_rcu list_add
#define list_for_each_entry_rcu list_for_each_entry
#define cpu_relax() ((void)0)
#define cond_resched() ((void)0)
#define in_nmi() false

#define drm_printf(printer, ...) ((void)(printer), printf(__VA_ARGS__))
#define __init
#define module_init(function) __attribute__((constructor)) static void start(void) { function(); }
#define module_exit(function) __attribute__((destructor)) static void stop(void) { function(); }
#define MODULE_DESCRIPTION(text)
#define MODULE_LICENSE(text)
#define EXPORT_SYMBOL(name)
#define EXPORT_SYMBOL_GPL(name)

static inline unsigned long find_next_bit(const unsigned long *map, unsigned long size, unsigned long at) {
    while (at < size && (map[BIT_WORD(at)] >> at % BITS_PER_LONG & 1) == 0)
        at++;
    return at;
}
#define find_first_bit(map, size) find_next_bit(map, size, 0)

/* Returns the first number from `at` on at which `count` bits are clear, and which is a multiple of `mask` + 1 after `offset` is
 * added. Returns `size` if there is none. */
static inline unsigned long bitmap_find_next_zero_area_off(unsigned long *map, unsigned long size, unsigned long at,
                                                           unsigned long count, unsigned long mask, unsigned long offset) {
    while (at + count <= size && (((at + offset) & mask) != 0 || find_next_bit(map, at + count, at) < at + count))
        at++;
    return at + count <= size ? at : size;
}
#define bitmap_find_next_zero_area(map, size, at, count, mask) bitmap_find_next_zero_area_off(map, size, at, count, mask, 0)

#include "list.h"

#endif
