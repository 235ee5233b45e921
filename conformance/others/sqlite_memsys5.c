/* Connects SQLite's src/mem5.c, called memsys5, to pool.h. ZEROED is 1 if blocks are zeroed here before they are returned. `run`
 * copies mem5.c without its #include lines. */
#include <assert.h>
#include <stdint.h>
#include <stdlib.h>
#include <string.h>

/* memsys5 has one heap, whose state is the struct mem5. By SQLite's macro GLOBAL the state can be elsewhere: here it is that of
 * the pool which is used now. */
static void *now;
#define SQLITE_ENABLE_MEMSYS5
#define SQLITE_WSD __attribute__((unused))
#define GLOBAL(type, name) (*(type *)now)

typedef uint8_t u8;
typedef uint32_t u32;
typedef int64_t i64, sqlite3_int64;
typedef void sqlite3_mutex;
typedef struct {
    void *(*allocate)(int);
    void (*free)(void *);
    void *(*reallocate)(void *, int);
    int (*size)(void *), (*round_up)(int), (*start)(void *);
    void (*stop)(void *), *data;
} sqlite3_mem_methods;
static struct {
    void *pHeap;
    int nHeap, mnReq, bMemstat;
} sqlite3GlobalConfig = {.mnReq = 4096, .bMemstat = 1};
enum { SQLITE_OK = 0 };
#define ALWAYS(condition) (condition)
#define UNUSED_PARAMETER(name) ((void)(name))
#define testcase(condition) ((void)0)
#define sqlite3_log(...) ((void)0)
#define sqlite3_mutex_enter(mutex) ((void)(mutex))
#define sqlite3_mutex_leave(mutex) ((void)(mutex))
#define sqlite3_mutex_held(mutex) 1
#define sqlite3MutexAlloc(number) NULL
#include "mem5.c"

#include "pool.h"

struct pool {
    struct Mem5Global state;
    uint8_t *heap;
};

/* memsys5 keeps a byte for each frame behind the frames. So it starts in a heap that has these bytes too, and then moves to the
 * pool's memory, but for these bytes. */
struct pool *pool_init(void *memory, unsigned order) {
    struct pool *pool = calloc(1, sizeof *pool);
    size_t size = (size_t)4096 << order;
    sqlite3GlobalConfig.nHeap = (int)size + (1 << order);
    sqlite3GlobalConfig.pHeap = pool->heap = calloc(1, size + (1 << order));
    now = pool;
    sqlite3MemGetMemsys5()->start(NULL);
    memcpy(memory, pool->heap, size);
    pool->state.zPool = memory;
    return pool;
}

void *pool_alloc(struct pool *pool, unsigned order) {
    now = pool;
    void *block = sqlite3MemGetMemsys5()->allocate(4096 << order);
    return block == NULL || !ZEROED ? block : memset(block, 0, (size_t)4096 << order);
}

void pool_free(struct pool *pool, void *block, unsigned order) {
    (void)order;
    now = pool;
    sqlite3MemGetMemsys5()->free(block);
}

void pool_end(struct pool *pool) {
    free(pool->heap);
    free(pool);
}
