/* Puts one lock around the functions of an allocator that threads call. ALLOCATOR is its source, an allocator without caches. */
#include "adapter.h"
#include <pthread.h>

#define alloc unlocked_alloc
#define release unlocked_release
#define read_bytes unlocked_read_bytes
#define write_bytes unlocked_write_bytes
enum reply alloc(unsigned tenant, uint32_t order, uint32_t *frame);
enum reply release(unsigned tenant, uint32_t frame, unsigned *order);
enum reply read_bytes(unsigned tenant, uint32_t place, uint32_t length, uint8_t *bytes);
enum reply write_bytes(unsigned tenant, uint32_t place, uint32_t length, const uint8_t *bytes);
#include ALLOCATOR
#undef alloc
#undef release
#undef read_bytes
#undef write_bytes

static pthread_mutex_t lock = PTHREAD_MUTEX_INITIALIZER;

static enum reply unlocked(enum reply reply) {
    pthread_mutex_unlock(&lock);
    return reply;
}

enum reply alloc(unsigned tenant, uint32_t order, uint32_t *frame) {
    pthread_mutex_lock(&lock);
    return unlocked(unlocked_alloc(tenant, order, frame));
}

enum reply release(unsigned tenant, uint32_t frame, unsigned *order) {
    pthread_mutex_lock(&lock);
    return unlocked(unlocked_release(tenant, frame, order));
}

enum reply read_bytes(unsigned tenant, uint32_t place, uint32_t length, uint8_t *bytes) {
    pthread_mutex_lock(&lock);
    return unlocked(unlocked_read_bytes(tenant, place, length, bytes));
}

enum reply write_bytes(unsigned tenant, uint32_t place, uint32_t length, const uint8_t *bytes) {
    pthread_mutex_lock(&lock);
    return unlocked(unlocked_write_bytes(tenant, place, length, bytes));
}
