/* partmem.h: page blocks and objects in partitions of memory, for C and C++.
 *
 * A machine has RAM in superblocks. Its administrator grants them to tenants. A tenant allocates page blocks and takes objects
 * from what it was granted, and uses them in place. Whatever the others do, a tenant gets the same results and finds the same
 * bytes as if it were alone with the same grants, take-backs and resets, if the caller keeps the DUTIES at the end of this file.
 *
 * That is PROVED of the library's source in Rattle, for commands, lookups, loads and stores one after another. Lookups, loads and
 * stores name their bytes by places there, and not by addresses. Numbers of superblocks are the administrator's, and depend on all
 * tenants. Calls of different tenants may run at the same time, under a lock for each tenant and one for the administrator (duty
 * 8). PROVED: commands get the same replies in any order that keeps the order under each lock. TESTED: that locks order the calls
 * that use a byte which one of them stores; that an address leads to the bytes of its place, and stays; loads and stores during
 * calls of other threads; the functions in C, which are partmem_boot, partmem_boot_in, partmem_end, partmem_superblock_address,
 * partmem_find_place, partmem_strerror, partmem_version and the three inline functions of this file. NEITHER: that the duties are
 * kept, the hardware, and time. The last comment of this file says each exactly.
 *
 *     frame       4096 bytes
 *     superblock  2^order frames of RAM: order 3 to 10, superblocks 1 to 4096, tenants 1 to 255, and at most 4 GiB of RAM.
 *                 Numbered from 0 in a machine.
 *     slot        where a tenant holds a superblock. Numbered from 0 in a tenant, who cannot tell which superblock it is.
 *     place       the number of a byte of a tenant. The places of slot s begin with s * (4096 << order). Blocks and objects are
 *                 named by the place of their first byte. A move changes addresses, but no place.
 *     page block  2^k frames, k from 0 to order, at a place that is a multiple of its size
 *     cache       objects of one size, in slabs of the tenant's frames. Numbered from 0 in a tenant, the least free number
 *                 first. The objects of a new slab have the cache's pattern. Later an object has the bytes that it had when it
 *                 was given back.
 *     lent        what partmem_alloc, partmem_take and the lend functions return: bytes at an address that may be used
 *
 * LIFETIME. Lent bytes stay at their address until their block is freed, their object given back, their slot moved, their
 * tenant reset or their machine ended. No other call, of any tenant, moves, scrubs or writes them, except partmem_write, or a
 * write by partmem_event or partmem_line, to these bytes. Lending again returns the same address. A lend is not an event: it
 * changes nothing that a tenant can see, it may be done any number of times, and nothing has to be returned. So a caller may keep
 * addresses, for speed. Or it keeps only places, which a move does not change, and lends before each use.
 *
 *     partmem_machine machine = {{0}};
 *     partmem_config config = {4, 16, 8};              16 superblocks of 64 KiB, 8 tenants
 *     partmem_tenant client = {&machine, 3};
 *     partmem_boot(&machine, &config)                  each returns PARTMEM_DONE, which is 0, or why not
 *     partmem_grant(client, &slot)
 *     partmem_make_cache(client, sizeof(struct session), 8, "", 1, &sessions)
 *     partmem_take(client, sessions.cache, &object)
 *     struct session *session = object.at;
 *     partmem_give(client, sessions.cache, object.place)
 *
 * partmem_heap.h has malloc by size and free by address for a tenant, over these calls. partmem.hpp has both for C++17.
 * With partmem_watched.h AddressSanitizer and valgrind see most of what breaks duties 4 and 5 below, and leaks.
 *
 * MEMORY. A machine uses the memory that partmem_boot_in is given: RAM, at most 4 GiB, and tables, whose sizes are constants.
 * No call but a boot allocates. For more memory or more tenants boot several machines: client c is then the tenant
 * {&machines[c / 255], c % 255}. The library uses memcpy, memmove and memset of the C library, and nothing else: no system call,
 * no thread, no clock. (An unproved library also uses write, for its notice.) partmem_boot gets the memory from aligned_alloc and
 * malloc, and partmem_end frees it. A program that does not call partmem_boot is linked without these functions.
 *
 *     static _Alignas(4096) unsigned char ram[PARTMEM_RAM_BYTES(4, 16)];
 *     static _Alignas(16) unsigned char tables[PARTMEM_TABLE_BYTES(4, 16, 8)];
 *     partmem_memory memory = {ram, tables};
 *     partmem_boot_in(&machine, &config, &memory)
 *
 * ALIGNMENT. RAM begins on a page, so an address has the alignment of its place up to 4096 bytes: page blocks and their frames
 * begin on pages, and an object of alignment 64 lies at a multiple of 64.
 *
 * LONGEST CALLS. An alloc or take that finds a block only in frames of empty slabs first zeroes all empty slabs of the tenant.
 * docs/PERF.md of the sources has the times of this and of other long calls, and bench/run --longest measures them. A kernel that
 * cannot wait so long uses a small order, and tenants with few slots. It reaps a tenant after every 64 of the tenant's gives,
 * since only a give empties a slab; when it reaps may depend only on that tenant's calls. It reaps in the tenant's own time
 * slice. This helps only if the kernel can interrupt a call: Linux with preempt=full can; with preempt=voluntary or
 * preempt=none, other programs wait.
 *
 * PROCESSOR. x86-64-v2, with the System V calling convention. On an older processor a call may end in an illegal instruction.
 * With gcc and clang `__builtin_cpu_supports("sse4.2") && __builtin_cpu_supports("popcnt")` tests for it.
 * Archives whose names end in _arm64 and _riscv64 are for AArch64 (Armv8-A) and 64-bit RISC-V, both little-endian. What is PROVED
 * is the source, as checked for x86-64. These archives are compiled from the module that the toolchain wrote for x86-64. It is
 * TESTED under QEMU that they reply as the proved program does. The step is neither proved nor vouched for by the toolchain.
 */
#ifndef PARTMEM_H
#define PARTMEM_H

#ifdef __KERNEL__ /* Linux, which has neither of the other headers */
#include <linux/types.h>
#else
#include <stddef.h>
#include <stdint.h>
#endif

#ifdef __cplusplus
extern "C" {
#endif

/* The version of this file: 10000 * major + 100 * minor + patch. partmem_version() returns the library's. */
#define PARTMEM_VERSION 30000u

#if defined(__GNUC__)
#define PARTMEM_CHECKED __attribute__((warn_unused_result))
#else
#define PARTMEM_CHECKED
#endif
#if defined(__cplusplus) || (defined(__STDC_VERSION__) && __STDC_VERSION__ >= 199901L)
#define PARTMEM_INLINE static inline
#else
#define PARTMEM_INLINE static __inline__
#endif

#define PARTMEM_FRAME_BYTES 4096u
#define PARTMEM_MIN_ORDER 3u /* 32 KiB */
/* The sizes of a machine of the library. In crates/model_core of the sources they are WIDE_ORDER and so on. The constants that are
 * named MAX_ORDER and so on there are smaller: they are the limits of the program `partmem`, 256 superblocks of order 3 to 8 and
 * 64 tenants. */
#define PARTMEM_MAX_ORDER 10u /* 4 MiB */
#define PARTMEM_MAX_SUPERBLOCKS 4096u
#define PARTMEM_MAX_FRAMES 1048576u /* of all superblocks: 4 GiB */
#define PARTMEM_MAX_TENANTS 255u
#define PARTMEM_MAX_CACHES 32u /* of a tenant */
#define PARTMEM_MAX_PATTERN 16u
#define PARTMEM_MAX_BYTES 64u            /* of a read or a write, and the least buffer of an event */
#define PARTMEM_LINE_BUFFER_BYTES 65792u /* the least buffer of a line; partmem_line says which line needs more */
/* A place for links that lead nowhere: no block and no object begins there. A tenant that has all 4 GiB has a byte there. */
#define PARTMEM_NO_PLACE 0xffffffffu

/* ---- Status -----------------------------------------------------------------------------------------------------------------
 *
 * A refusal answers a request. Its number is the same as in traces. Every refusal except POOL_EMPTY follows from what the tenant
 * itself did, from its grants, take-backs and resets, and from the machine's order and number of tenants. An error is a mistake
 * of the caller, or NO_MEMORY. After a refusal or an error, nothing has changed and all results of a direct call are zeroes, so
 * `at` is NULL. partmem_read, partmem_event and partmem_line say at their declarations what they do instead.
 *
 * No number makes a call write more than its declaration says: a buffer gets the bytes that were read, at most
 * PARTMEM_MAX_BYTES, or the text of a line, at most as many bytes as partmem_line requires of the buffer.
 *
 * Each function lists what it returns besides DONE, and returns the first that applies. All functions with a tenant test for
 * NO_MACHINE and then for NO_TENANT, before what they list. Only partmem_write and partmem_make_cache test the number of bytes
 * between the two. */
typedef enum partmem_status {
    PARTMEM_DONE = 0, /* the call was done */

    /* refusals */
    PARTMEM_NO_FRAMES = 1,      /* no free block is large enough, even if empty slabs were freed */
    PARTMEM_BAD_ORDER = 2,      /* the order is larger than a superblock's */
    PARTMEM_NOT_A_BLOCK = 3,    /* no live page block begins at the place */
    PARTMEM_OUT_OF_REACH = 4,   /* 0 bytes, or bytes that are not inside one live page block or one live object */
    PARTMEM_BAD_LENGTH = 5,     /* a read of 0 bytes, or of more than 64 */
    PARTMEM_BAD_SIZE = 6,       /* the size of an object is 0, or larger than 4096 */
    PARTMEM_BAD_ALIGN = 7,      /* the alignment is not 8, 16, 32, 64, 128 or 256 */
    PARTMEM_NO_CACHE_SLOT = 8,  /* the tenant has 32 caches */
    PARTMEM_NO_CACHE = 9,       /* the tenant has no cache of that number */
    PARTMEM_CACHE_IN_USE = 10,  /* the cache has a live object */
    PARTMEM_NOT_AN_OBJECT = 11, /* no live object of that cache begins at the place */
    PARTMEM_NO_TENANT = 12,     /* the machine has no tenant of that number */
    PARTMEM_POOL_EMPTY = 13,    /* every superblock has an owner */
    PARTMEM_NO_SLOT = 14,       /* the tenant does not hold that slot */
    PARTMEM_SLOT_BUSY = 15,     /* a page block or a slab, even an empty one, has frames of the slot */

    /* errors: mistakes of the caller, and NO_MEMORY */
    PARTMEM_NO_MACHINE = 32,       /* no machine was booted here, or it has ended */
    PARTMEM_HAS_MACHINE = 33,      /* there is a machine here already, which stays as it is */
    PARTMEM_BAD_CONFIG = 34,       /* a number in a partmem_config or a partmem_heap_config is out of range */
    PARTMEM_BAD_MEMORY = 35,       /* the RAM or the tables are NULL, or not aligned; or a heap with runs has no slots in a row */
    PARTMEM_NO_MEMORY = 36,        /* an allocation failed */
    PARTMEM_NO_SUPERBLOCK = 37,    /* the machine has no superblock of that number */
    PARTMEM_NOT_HELD = 38,         /* the address is not in a superblock of that tenant */
    PARTMEM_NOT_A_LINE = 39,       /* the text has a line feed */
    PARTMEM_NOT_AN_EVENT = 40,     /* no event has this kind, or the event has too few or too many bytes */
    PARTMEM_BUFFER_TOO_SMALL = 41, /* the buffer is smaller than the function requires */

    PARTMEM_STATUS_BITS = 0x7fffffff /* no status: it makes the type 32 bits wide */
} partmem_status;

/* Returns the name and the meaning of a status, for example "NoFrames: no free block .."; a refusal has the same name in traces.
 * Any number may be passed from C. From C++ a number above 0x7fffffff may not: its conversion to the enumeration is undefined
 * there. The text is never freed. */
const char *partmem_strerror(partmem_status status);

/* Returns the library's version, in the form of PARTMEM_VERSION. */
uint32_t partmem_version(void);

/* ---- Machines and tenants ------------------------------------------------------------------------------------------------ */

/* A variable for a machine, all zeroes while no machine is booted in it: partmem_machine machine = {{0}}; */
typedef struct partmem_machine {
    void *held[3];
} partmem_machine;

/* A tenant of a machine. The caller fills in both fields; nothing is opened or closed. */
typedef struct partmem_tenant {
    partmem_machine *machine;
    uint32_t number; /* from 0 */
} partmem_tenant;

/* Lent bytes: their address, the place of the first, how many there are (for an object, its size), and the tenant's number. All
 * zero if nothing is lent. */
typedef struct partmem_lent {
    void *at;
    uint32_t place;
    uint32_t bytes;
    uint32_t tenant;
} partmem_lent;

/* The sizes of a machine. */
typedef struct partmem_config {
    uint32_t order;       /* 3 to 10 */
    uint32_t superblocks; /* 1 to 4096, but at most PARTMEM_MAX_FRAMES >> order */
    uint32_t tenants;     /* 1 to 255 */
} partmem_config;

/* The memory of a machine. Its contents before boot do not matter. For the library it may be an array of char, as above. For the
 * caller's own stores in lent bytes there is a rule of C: an array of char holds nothing but char. If the compiler relies on this
 * rule, use memory without a declared type, or compile with -fno-strict-aliasing, as kernels are. */
typedef struct partmem_memory {
    void *ram;    /* PARTMEM_RAM_BYTES, at a multiple of 4096 */
    void *tables; /* PARTMEM_TABLE_BYTES, at a multiple of 16 */
} partmem_memory;

/* The sizes of a machine's RAM and tables in bytes, of type size_t. Both are constants if the arguments are. */
#define PARTMEM_RAM_BYTES(order, superblocks) ((size_t)(superblocks) * PARTMEM_FRAME_BYTES << (order))
#define PARTMEM_TABLE_BYTES(order, superblocks, tenants)                                                                        \
    (112 + PARTMEM_OF_MACHINE(order, superblocks, tenants) + (size_t)(superblocks) * PARTMEM_OF_SUPERBLOCK(order) +             \
     (size_t)(tenants) * PARTMEM_OF_TENANT(order, superblocks))

/* Parts of PARTMEM_TABLE_BYTES. Each allocation takes whole pieces of 128 bytes, so no two allocations share a cache line, or a
 * pair of lines. The first piece begins at most 112 bytes behind the beginning of the tables. */
#define PARTMEM_PIECES(bytes) (((size_t)(bytes) + 127) / 128 * 128)
/* What the machine has once: its vectors in the order of their allocation. */
#define PARTMEM_OF_MACHINE(order, superblocks, tenants)                                                                         \
    (PARTMEM_PIECES(64)                                                      /* where the memory of the machine lies */         \
     + PARTMEM_PIECES(6 * (superblocks))                                     /* owners */                                       \
     + PARTMEM_PIECES(24 * (tenants))                                        /* the tenants' rows of slots */                   \
     + PARTMEM_PIECES(24 * (tenants))                                        /* their rows of seats */                          \
     + PARTMEM_SET_SIZE(superblocks)                                         /* superblocks without an owner */                 \
     + PARTMEM_PIECES(40 * (tenants))                                        /* the tenants' sets of vacant slots */            \
     + PARTMEM_PIECES(24 * (superblocks))                                    /* stored bytes */                                 \
     + PARTMEM_PIECES(superblocks)                                           /* marks of stored bytes */                        \
     + PARTMEM_PIECES((size_t)4096 << (order))                               /* zeroes, read if no bytes are stored */          \
     + PARTMEM_PIECES(88 * (tenants))                                        /* buddy systems of the tenants */                 \
     + PARTMEM_PIECES(56 * (tenants))                                        /* their summaries */                              \
     + PARTMEM_PIECES(56 * (superblocks))                                    /* buddy systems of the superblocks */             \
     + PARTMEM_PIECES((size_t)(superblocks) * 8 << (order))                  /* states of slabs */                              \
     + PARTMEM_PIECES((size_t)(tenants) * 1664)                              /* caches, 32 for each tenant */                   \
     + PARTMEM_PIECES((tenants) * 128)                                       /* their numbers of live objects */                \
     + PARTMEM_PIECES(tenants)                                               /* the end of each tenant's caches */              \
     + PARTMEM_PIECES((size_t)(tenants) * 1152)                              /* heads of lists of slabs, 3 for each cache */    \
     + PARTMEM_PIECES((size_t)(superblocks) * 16 << (order))                 /* nodes of these lists */                         \
     + PARTMEM_PIECES((tenants) * PARTMEM_GROUPS(order, superblocks) * 12)   /* groups of frames in which a list has slabs */   \
     + PARTMEM_PIECES(96 * (tenants))                                        /* whether a list is kept in groups */             \
     + PARTMEM_PIECES(4 * (tenants) * PARTMEM_POWER_OF_2(superblocks))       /* superblocks of slots, as hints */               \
     + PARTMEM_PIECES(24 * (tenants))                                        /* the tenants' rows of refused blocks */          \
     + PARTMEM_PIECES(576))                                                  /* the kernel, which has all these vectors */
/* What it has for each superblock. */
#define PARTMEM_OF_SUPERBLOCK(order)                                                                                            \
    (PARTMEM_PIECES(((size_t)4 << (order)) - 2)                              /* words of the tree */                            \
     + PARTMEM_PIECES((size_t)2 << (order)))                                 /* orders of taken blocks */
/* What it has for each tenant. */
#define PARTMEM_OF_TENANT(order, superblocks)                                                                                   \
    (PARTMEM_PIECES(4 * (superblocks))                                       /* slots, for reads and writes */                  \
     + PARTMEM_PIECES(2 * (superblocks))                                     /* seats: the slot of each superblock */           \
     + PARTMEM_SET_SIZE(superblocks)                                         /* vacant slots */                                 \
     + PARTMEM_PIECES(4 * (superblocks))                                     /* slots, for blocks */                            \
     + PARTMEM_PIECES(4 * ((order) + 1))                                     /* numbers of free blocks */                       \
     + PARTMEM_PIECES(4 * ((order) + 1))                                     /* numbers of taken blocks */                      \
     + ((size_t)(superblocks) + 63) / 64 * 128                               /* sets of slots with free blocks, by order */     \
     + PARTMEM_PIECES(8 * ((order) + 1))                                     /* which words of these sets are not 0 */          \
     + PARTMEM_SET_SIZE((size_t)(superblocks) << (order)))                   /* blocks that a search has refused */
/* The bytes of a set of n numbers, the least power of 2 that is at least n, and the bits of a list that is kept in groups, at
 * least 64. */
#define PARTMEM_SET_SIZE(n) PARTMEM_PIECES(((size_t)(n) + 63) / 64 * 8)
#define PARTMEM_POWER_OF_2(n)                                                                                                   \
    ((size_t)((n) <= 2 ? (n) : (n) <= 4 ? 4 : (n) <= 8 ? 8 : (n) <= 16 ? 16 : (n) <= 32 ? 32 : (n) <= 64 ? 64                   \
              : (n) <= 128 ? 128 : (n) <= 256 ? 256 : (n) <= 512 ? 512 : (n) <= 1024 ? 1024 : (n) <= 2048 ? 2048 : 4096))
#define PARTMEM_GROUPS(order, superblocks)                                                                                      \
    ((PARTMEM_POWER_OF_2(superblocks) << ((order) > 5 ? (order) - 5 : 0)) > 64                                                  \
         ? (PARTMEM_POWER_OF_2(superblocks) << ((order) > 5 ? (order) - 5 : 0))                                                 \
         : 64)

/* Boots a machine in which no superblock has an owner, in memory that is the library's until partmem_end. *config and *memory are
 * read only during the call. Superblock m lies at ram + m * PARTMEM_RAM_BYTES(order, 1), and is not touched before it is put
 * under a slot. So RAM may be address space that is not backed yet. Returns HAS_MACHINE, BAD_CONFIG, BAD_MEMORY, and NO_MEMORY if
 * PARTMEM_TABLE_BYTES is too small. Tests boot each of the 98304 combinations of sizes up to order 8, 256 superblocks and 64
 * tenants, and larger ones, and it is exactly enough for each. */
PARTMEM_CHECKED partmem_status partmem_boot_in(partmem_machine *machine, const partmem_config *config,
                                               const partmem_memory *memory);

/* Boots a machine in memory from aligned_alloc and malloc. Returns HAS_MACHINE, BAD_CONFIG, NO_MEMORY. */
PARTMEM_CHECKED partmem_status partmem_boot(partmem_machine *machine, const partmem_config *config);

/* Ends the machine, which can be booted again. Memory of partmem_boot is freed, and memory of partmem_boot_in is the caller's
 * again, with the tenants' bytes in it. Returns NO_MACHINE. */
partmem_status partmem_end(partmem_machine *machine);

/* Returns how many bytes a superblock has, 4096 << order. Returns 0 if there is no machine. */
uint32_t partmem_superblock_bytes(partmem_machine *machine);

/* ---- For the administrator ----------------------------------------------------------------------------------------------- */

/* A slot, and the superblock under it. The administrator may know the superblock, but the tenant may not. */
typedef struct partmem_slot {
    uint32_t slot;
    uint32_t superblock;
} partmem_slot;

/* Grants the first superblock without an owner, under the first slot that the tenant does not hold. It reads as zero. Returns
 * POOL_EMPTY. */
PARTMEM_CHECKED partmem_status partmem_grant(partmem_tenant tenant, partmem_slot *granted);

/* Takes back a slot whose frames are all free, so nothing in it is lent. The frames of an empty slab are free only after the
 * slab is freed, by partmem_reap, partmem_destroy_cache or on demand. Returns NO_SLOT, SLOT_BUSY. */
PARTMEM_CHECKED partmem_status partmem_take_back(partmem_tenant tenant, uint32_t slot);

/* Replaces the superblock of a slot by the first superblock without an owner. Copies all bytes of the slot if any of them was
 * lent, written or in a slab since the grant. The tenant is not notified; what was lent in the slot has to be lent again. Returns
 * NO_SLOT, POOL_EMPTY. */
PARTMEM_CHECKED partmem_status partmem_move(partmem_tenant tenant, uint32_t slot, partmem_slot *moved);

/* Takes back all that the tenant has: page blocks, objects, caches and slots. */
PARTMEM_CHECKED partmem_status partmem_reset(partmem_tenant tenant);

/* Finds the superblock under a slot. It needs only the tenant's lock (duty 8). Returns NO_SLOT. */
PARTMEM_CHECKED partmem_status partmem_find_slot(partmem_tenant tenant, uint32_t slot, partmem_slot *found);

/* Who owns a superblock, and the slot it is under; all 0 without an owner. */
typedef struct partmem_owner {
    uint32_t is_owned; /* 0 or 1 */
    uint32_t tenant;
    uint32_t slot;
} partmem_owner;

/* Finds the owner of a superblock. Returns NO_MACHINE, NO_SUPERBLOCK. */
PARTMEM_CHECKED partmem_status partmem_find_superblock(partmem_machine *machine, uint32_t superblock, partmem_owner *owner);

/* Returns the address of a superblock, for devices and dumps, or NULL if there is no machine or no such superblock. Until the
 * first lend, write or new slab in its slot after the grant, old bytes lie there, and NOT the zeroes that its owner reads. */
void *partmem_superblock_address(const partmem_machine *machine, uint32_t superblock);

/* ---- Page blocks --------------------------------------------------------------------------------------------------------- */

/* Allocates 2^order frames, and lends them. A frame has what the tenant left there in a page block since the grant. If it was in
 * no page block since the grant, or has been in a slab since its last page block, it has zeroes. The first lend, write or new
 * slab in a slot since its grant clears the whole superblock under it. Returns BAD_ORDER, NO_FRAMES. */
PARTMEM_CHECKED partmem_status partmem_alloc(partmem_tenant tenant, uint32_t order, partmem_lent *block);

/* Frees the page block that begins at the place. Returns NOT_A_BLOCK. */
PARTMEM_CHECKED partmem_status partmem_free(partmem_tenant tenant, uint32_t place);

/* Returns the place of a frame's first byte. Returns PARTMEM_NO_PLACE for a number above 0xfffff, which no frame has: a free there
 * is refused, but a tenant that has all 4 GiB has a byte there. */
PARTMEM_INLINE uint32_t partmem_place_of(uint32_t frame)
{
    return frame <= 0xfffffu ? frame * PARTMEM_FRAME_BYTES : PARTMEM_NO_PLACE;
}

/* ---- Objects ------------------------------------------------------------------------------------------------------------- */

/* A cache and the form of its slabs. */
typedef struct partmem_cache {
    uint32_t cache;      /* its number */
    uint32_t chunk;      /* bytes from one object to the next */
    uint32_t slab_bytes; /* of each slab: 4096 to 32768 */
    uint32_t objects;    /* of each slab */
    uint32_t colours;    /* how many offsets the first object of a slab may have; slabs use these in turn */
} partmem_cache;

/* Makes a cache of objects of `size` bytes, 1 to 4096, at multiples of `align`: 8, 16, 32, 64, 128 or 256. The pattern, of 1 to
 * 16 bytes, is repeated in each new object; the arguments "" and 1 make it all zeroes. Returns NOT_AN_EVENT for a pattern of
 * another length (before NO_TENANT), BAD_SIZE, BAD_ALIGN, NO_CACHE_SLOT. */
PARTMEM_CHECKED partmem_status partmem_make_cache(partmem_tenant tenant, uint32_t size, uint32_t align, const void *pattern,
                                                  size_t pattern_bytes, partmem_cache *made);

/* Destroys a cache without live objects, and frees its slabs. Returns NO_CACHE, CACHE_IN_USE. */
PARTMEM_CHECKED partmem_status partmem_destroy_cache(partmem_tenant tenant, uint32_t cache);

/* Takes an object of a cache, and lends it. A new object has the bytes of the pattern. Any other object has the bytes that it had
 * when it was given back. Returns NO_CACHE, NO_FRAMES. */
PARTMEM_CHECKED partmem_status partmem_take(partmem_tenant tenant, uint32_t cache, partmem_lent *object);

/* Gives back the object that begins at the place. Returns NO_CACHE, NOT_AN_OBJECT. */
PARTMEM_CHECKED partmem_status partmem_give(partmem_tenant tenant, uint32_t cache, uint32_t place);

/* Frees the empty slabs of all caches, as an alloc or a take does on demand. `*frames` is how many frames they had. */
PARTMEM_CHECKED partmem_status partmem_reap(partmem_tenant tenant, uint32_t *frames);

/* ---- Bytes --------------------------------------------------------------------------------------------------------------- */

/* Lends 1 or more bytes inside one live page block or one live object. Returns OUT_OF_REACH. */
PARTMEM_CHECKED partmem_status partmem_lend(partmem_tenant tenant, uint32_t place, uint32_t bytes, partmem_lent *lent);

/* Lends the live object of a cache that begins at the place. Returns NO_CACHE, NOT_AN_OBJECT. */
PARTMEM_CHECKED partmem_status partmem_lend_object(partmem_tenant tenant, uint32_t cache, uint32_t place, partmem_lent *object);

/* Lends the whole live page block around a place. Only this function and partmem_alloc return frames that may be mapped (duty
 * 11). Call this function before a free to find what to unmap (duty 12). Never map the bytes of partmem_lend: they may be those
 * of an object, whose frame later belongs to another tenant. Returns OUT_OF_REACH, for an object's place too. */
PARTMEM_CHECKED partmem_status partmem_lend_block(partmem_tenant tenant, uint32_t place, partmem_lent *block);

/* Returns the address of bytes that partmem_lend lends, or NULL. */
PARTMEM_INLINE void *partmem_at(partmem_tenant tenant, uint32_t place, uint32_t bytes)
{
    partmem_lent lent;
    return partmem_lend(tenant, place, bytes, &lent) == PARTMEM_DONE ? lent.at : NULL;
}

/* Returns the address of an object that partmem_lend_object lends, or NULL. */
PARTMEM_INLINE void *partmem_object_at(partmem_tenant tenant, uint32_t cache, uint32_t place)
{
    partmem_lent object;
    return partmem_lend_object(tenant, cache, place, &object) == PARTMEM_DONE ? object.at : NULL;
}

/* Copies out 1 to 64 bytes that partmem_lend could lend. Returns BAD_LENGTH, OUT_OF_REACH. If it does not return DONE, it writes
 * no byte of `to`. [Proved if `to` has `bytes` bytes. For a larger `bytes`, which duty 2 forbids, it is only tested.] */
PARTMEM_CHECKED partmem_status partmem_read(partmem_tenant tenant, uint32_t place, void *to, size_t bytes);

/* Copies 1 to 64 bytes to a place at which partmem_lend could lend them. Returns NOT_AN_EVENT for another number of bytes (before
 * NO_TENANT), OUT_OF_REACH. */
PARTMEM_CHECKED partmem_status partmem_write(partmem_tenant tenant, uint32_t place, const void *from, size_t bytes);

/* Finds the place of the byte at an address, which may have any value. The byte need not be in anything live. Returns NOT_HELD if
 * it is not in a superblock of the tenant. */
PARTMEM_CHECKED partmem_status partmem_find_place(partmem_tenant tenant, const void *at, uint32_t *place);

/* ---- What a tenant has --------------------------------------------------------------------------------------------------- */

typedef enum partmem_use {
    PARTMEM_NO_SUCH_SLOT = 0, /* the tenant does not hold the slot */
    PARTMEM_FREE_FRAME = 1,
    PARTMEM_PAGE_BLOCK = 2,
    PARTMEM_SLAB = 3,

    PARTMEM_USE_BITS = 0x7fffffff /* no use: it makes the type 32 bits wide */
} partmem_use;

/* A page block, a slab, a free frame or a whole slot that is not held: the `bytes` bytes that begin at `place`. */
typedef struct partmem_block {
    partmem_use use;
    uint32_t place;
    uint32_t bytes;
} partmem_block;

/* Finds the page block, slab, free frame or slot without a superblock that a place lies in. The next one begins at
 * found->place + found->bytes, which is 0 after the last of 2^32 places. */
PARTMEM_CHECKED partmem_status partmem_find_block(partmem_tenant tenant, uint32_t place, partmem_block *found);

#define PARTMEM_OF_NO_CACHE 0xffffffffu /* the number of no cache */

/* A live object or a live page block: the `bytes` bytes that begin at `place`. */
typedef struct partmem_object {
    uint32_t cache; /* the number of the object's cache, PARTMEM_OF_NO_CACHE for a page block */
    uint32_t place;
    uint32_t bytes;
} partmem_object;

/* Finds the live object or the live page block that the byte at a place lies in, with the place by which it can be given back
 * or freed. Returns OUT_OF_REACH if the byte is in none: in a free frame or object, or past the last byte of an object. */
PARTMEM_CHECKED partmem_status partmem_find_object(partmem_tenant tenant, uint32_t place, partmem_object *found);

/* The size in bytes of the objects that partmem_release gives back, indexed by the number of their cache. 0 means none. */
typedef struct partmem_sizes {
    uint16_t bytes[PARTMEM_MAX_CACHES];
} partmem_sizes;

/* Gives back the live object or frees the live page block that begins at a place, and sets *freed to what it was. It is the
 * partmem_give or the partmem_free of what partmem_find_object finds, in one call. An object is given back only if its cache has
 * its size in *sizes. Returns OUT_OF_REACH as partmem_find_object does; then NOT_A_BLOCK if the place is inside a page block, and
 * NOT_AN_OBJECT if it is inside an object, or if its cache has another size in *sizes. */
PARTMEM_CHECKED partmem_status partmem_release(partmem_tenant tenant, uint32_t place, const partmem_sizes *sizes,
                                               partmem_object *freed);

/* How many blocks of an order are free, and how many are page blocks or slabs. */
typedef struct partmem_order_row {
    uint32_t free;
    uint32_t taken;
} partmem_order_row;

/* How many slabs of a cache are full, partial and empty, and how many of its objects are live. */
typedef struct partmem_cache_row {
    uint32_t cache; /* its number */
    uint32_t full;
    uint32_t partial;
    uint32_t empty;
    uint32_t live;
} partmem_cache_row;

/* The figures of a tenant's memory, in frames if nothing else is said. */
typedef struct partmem_figures {
    uint32_t frames;   /* of the slots that it holds */
    uint32_t live;     /* of these, in page blocks and slabs */
    uint32_t free;     /* of these, the others */
    uint32_t greatest; /* bytes of a largest free block, 0 without one */
    uint32_t split;    /* thousandths of the free frames that are outside one largest free block, rounded up */
    uint32_t orders;   /* how many rows of order[] are used: the order of a superblock plus 1 */
    uint32_t caches;   /* how many rows of cache[] are used */
    partmem_order_row order[PARTMEM_MAX_ORDER + 1]; /* 11 rows: of orders 0 to 10 */
    partmem_cache_row cache[PARTMEM_MAX_CACHES];
} partmem_figures;

/* Reports the figures of a tenant. */
PARTMEM_CHECKED partmem_status partmem_report(partmem_tenant tenant, partmem_figures *figures);

/* ---- Commands as data: to log, to replay, to compare with the program `partmem` ---------------------------------------------
 *
 * Page blocks are named by frames here: frame f begins at place f * 4096. */

/* The kinds of a partmem_request, with its numbers. */
enum {
    PARTMEM_GRANT = 1,     /* by the administrator, like the four that follow */
    PARTMEM_TAKE_BACK = 2, /* slot */
    PARTMEM_RESET = 3,
    PARTMEM_MOVE = 4,     /* slot */
    PARTMEM_POOL = 5,     /* its tenant may be any number */
    PARTMEM_ALLOC = 6,    /* order */
    PARTMEM_FREE = 7,     /* frame */
    PARTMEM_READ = 8,     /* place, how many bytes */
    PARTMEM_WRITE = 9,    /* place; with 1 to 64 bytes */
    PARTMEM_CACHE = 10,   /* size, alignment; with a pattern of 1 to 16 bytes */
    PARTMEM_DESTROY = 11, /* cache */
    PARTMEM_TAKE = 12,    /* cache */
    PARTMEM_GIVE = 13,    /* cache, place */
    PARTMEM_REAP = 14,
    PARTMEM_REPORT = 15
};

/* The kinds of a partmem_reply. Beside each kind are its numbers in order; the numbers after these are 0. */
enum {
    PARTMEM_NOTHING = 0,    /* no reply has this kind */
    PARTMEM_REFUSED = 1,    /* the refusal, a partmem_status */
    PARTMEM_GRANTED = 2,    /* tenant, slot, superblock */
    PARTMEM_TAKEN_BACK = 3, /* superblock */
    PARTMEM_WAS_RESET = 4,  /* tenant, how many superblocks it had */
    PARTMEM_MOVED = 5,      /* tenant, slot, superblock */
    PARTMEM_OWNERS = 6,     /* how many superblocks there are */
    PARTMEM_FRAME = 7,      /* the first frame of the block */
    PARTMEM_FREED = 8,      /* the order of the block */
    PARTMEM_BYTES = 9,      /* how many bytes; they are at the beginning of the buffer */
    PARTMEM_WRITTEN = 10,   /* how many bytes */
    PARTMEM_MADE = 11,      /* cache, chunk, order of its slabs, objects of each, colours */
    PARTMEM_DESTROYED = 12, /* how many frames were freed */
    PARTMEM_OBJECT = 13,    /* place */
    PARTMEM_GIVEN = 14,
    PARTMEM_REAPED = 15, /* how many frames were freed */
    PARTMEM_FIGURES = 16 /* frames, live, free, order of a largest free block plus 1 (0 without one), split */
};

/* An event: its kind, its tenant, and its numbers. The tenant makes the event, or is the one that the administrator names. */
typedef struct partmem_request {
    uint32_t kind;
    uint32_t tenant;
    uint32_t first;
    uint32_t second;
} partmem_request;

/* The reply to an event: its kind and its numbers. */
typedef struct partmem_reply {
    uint32_t kind;
    uint32_t first;
    uint32_t second;
    uint32_t third;
    uint32_t fourth;
    uint32_t fifth;
} partmem_reply;

/* Runs an event and returns its reply; a refusal is a reply. Only PARTMEM_WRITE and PARTMEM_CACHE use `bytes`. The buffer has
 * at least PARTMEM_MAX_BYTES bytes. Returns NO_MACHINE, NOT_AN_EVENT, BUFFER_TOO_SMALL; reply and buffer are then unchanged. */
PARTMEM_CHECKED partmem_status partmem_event(partmem_machine *machine, const partmem_request *request, const void *bytes,
                                             size_t bytes_len, partmem_reply *reply, void *buffer, size_t buffer_len);

/* Runs a line of a trace, without its line feed. Writes its reply lines, each with a line feed, to the beginning of the buffer,
 * and the number of their bytes to `*written`; the reply to a faulty line says what is wrong. The buffer has at least
 * PARTMEM_LINE_BUFFER_BYTES bytes. If the machine has more than 256 superblocks, the line `admin pool` needs more: 256 bytes, and
 * 256 for each superblock. Returns NO_MACHINE, NOT_A_LINE, BUFFER_TOO_SMALL; `*written` is then 0, and nothing was done. */
PARTMEM_CHECKED partmem_status partmem_line(partmem_machine *machine, const char *line, size_t line_len, char *buffer,
                                            size_t buffer_len, size_t *written);

/* ---- DUTIES of the caller, which no call verifies. In brackets: what goes wrong otherwise. ----------------------------------
 *
 *  1. Machine. A partmem_machine starts as zeroes. The caller never reads, writes, copies or moves it, and its memory ends only
 *     while there is no machine in it. [Two copies use and free one machine.]
 *  2. Arguments. Each pointer leads to a live object of its type, or to as many bytes as its length says. None is NULL, not
 *     even for 0 bytes, nor is a tenant's machine. The objects of one call do not overlap, and NONE LIES IN THE MACHINE'S MEMORY,
 *     not even in lent bytes: copy them out first. Only the address for partmem_find_place may have any value. Until the call
 *     returns, nobody else stores in these objects, such as the bytes of a request or a line. [A result is written into memory
 *     that the call is changing, or has just moved away; the call reads an argument twice and finds two values.]
 *  3. Memory. RAM and tables have the sizes of their macros, can be loaded and stored, and do not overlap. From boot to end they
 *     stay where they are, and nobody else touches them: the caller uses only lent bytes. aligned_alloc, malloc and free are one
 *     allocator. [Anything.]
 *  4. Bounds. A load or store stays inside the lent bytes. An object ends at its size, not where the next begins. [It hits
 *     another object or block, the bits that say which objects are live, or, past a superblock, another tenant's memory or
 *     yours.]
 *  5. Endings. Nobody uses lent bytes after the call that ends their lifetime; after a move they are lent again. [A tenant
 *     stores into memory that belongs to another by now.]
 *  6. Flows. What was loaded for one tenant is not stored for another, or shown to it. No address is stored in lent bytes or
 *     shown to a tenant: a move changes it, and its value shows what the others did. Links are places. [Tenants learn of each
 *     other by the caller's own doing. No memory is damaged.] A program that calls malloc cannot keep to places: partmem_heap.h
 *     says what is lost and what stays if a tenant stores its own addresses.
 *  7. Users. If the caller keeps objects of its own in the caches of a tenant, it does not let the tenant's user lend, read,
 *     write, give or destroy there. [The user changes the caller's own objects.]
 *  8. Threads. A machine has a lock for each tenant, and one for its administrator. The locks are the caller's. Calls that need
 *     the same lock come one at a time, from any thread. Other calls may run at the same time.
 *     - A call with a tenant, or with its heap, needs the tenant's lock. So do lends, lookups and reports.
 *     - partmem_grant, partmem_take_back, partmem_move and partmem_reset need the administrator's lock and the tenant's.
 *     - partmem_find_superblock needs the administrator's lock.
 *     - partmem_event needs the locks of the call that does the same; for PARTMEM_POOL the administrator's.
 *     - partmem_line, a boot and partmem_end need all locks of the machine.
 *     - partmem_superblock_bytes and partmem_superblock_address need no lock between the end of the boot and partmem_end.
 *       partmem_strerror, partmem_version and partmem_place_of never do. A tenant that the machine does not have has no lock.
 *     Whoever takes more than one lock takes the administrator's first, and then those of tenants in the order of their numbers.
 *     [Two threads wait for each other for ever.] One lock in place of several, or of all, is right too.
 *     No call from a signal or interrupt handler that may have interrupted a call, nor from the forked child of a process with
 *     threads. A call that has begun runs to its end: no longjmp leaves it, and no asynchronous cancellation ends its thread.
 *     [Anything: a free frame may stay in two blocks.] Loads and stores in lent bytes need no lock against calls, with three
 *     exceptions: a write to them, a read of them, and a call that ends their lifetime.
 *  9. Ring 0. SSE is enabled, and the stack is aligned as C requires. A user's xmm registers are saved before the first call and
 *     restored after the last. The direction flag is clear. There are 4096 bytes of stack above a guard page, beside what memcpy,
 *     memmove and memset take. No interrupt uses this stack, since the library also uses the 128 bytes below its stack pointer.
 *     [Registers leak from tenant to tenant; the stack overflows.] libpartmem_kernel.a and libpartmem_linux.a require of this
 *     only the direction flag and the stack. Interrupts may use the same stack, if it has space for both.
 *     libpartmem_kernel_arm64.a and libpartmem_kernel_riscv64.a require only that stack, aligned to 16 bytes as their calling
 *     conventions say.
 * 10. After the end. Whoever uses the memory after partmem_end, or after a crash, clears it first. [It reads the tenants'
 *     bytes.]
 * 11. Mapping. Page tables map only page blocks, as partmem_alloc and partmem_lend_block return them. [An object of 4096 bytes
 *     fills a frame. Nothing unmaps it at the give, and the user keeps a frame that later belongs to another tenant.] A page of 16
 *     or 64 KiB, or of 2 MiB, is mapped only if it lies in one page block: RAM begins at such a page, superblocks and blocks are
 *     as large.
 * 12. Unmapping. Before a free, reset, move or end, not after it, pages are unmapped and flushed on every processor, and devices
 *     stopped. [In between, the tenant uses memory of another.]
 * 13. Reused numbers. A reset does not revoke the handles of a client. If a tenant number passes to a new client, handles carry
 *     a generation, and old ones are refused. [The old client uses the new one's memory.]
 * 14. Booting. One partmem_boot or partmem_boot_in at a time in a program, on any thread. [One variable of the library says which
 *     machine boots: two machines get the same memory.]
 *
 * PROVED of the library's source in Rattle: what each call returns, and what it does to the machine and to each tenant, except
 * for the functions in C; that a store in lent bytes is the write of these bytes, and that a loaded byte is the private
 * machine's at its place; that at most one live block or object has a byte; that over any list of commands (by calls, lines or
 * events), lookups, loads and stores since boot a tenant gets, finds and loads what a private machine gives to it. These
 * lookups are partmem_find_object, partmem_find_block and the three lends, without the address. A partmem_release is the give or
 * the free that it does, or the lookup of partmem_find_object if it is refused. What partmem_find_slot and
 * partmem_find_superblock return depends on the grants of all tenants, and is in their own contracts. Of locks: if two lists
 * have the same commands, lookups, loads and stores under each lock of duty 8, in the same order, they get the same replies and
 * find and load the same, and both leave the same state of each tenant and the same owner of each superblock. A load or a store
 * counts as under the lock of its tenant. Of addresses: one function makes each partmem_lent that has one, and puts there the
 * address of the first byte that the kernel lends for the tenant, the place and the number in it. That the call returns the
 * value as it was made is read in the source: the loan has ended by then, and no clause can name it.
 * TESTED: that the returned address is that of these bytes and stays, and that nothing is left there from before the grant or
 * move; where superblocks, blocks and objects lie; that only a boot allocates, and no more than the sizes of the macros; the
 * functions in C, which are named in the first comment; loads and stores beside calls on other threads; the stack of each
 * function in libpartmem.a and in the archives for kernels; this file against the library. TESTED on each load and store that
 * the runs of tests/side-by-side make: if one call stores a byte that another uses, locks order the two. They share a lock, or
 * calls between them do, each with the next. So calls at the same time do what calls in some order do, if the compiler and the
 * processor keep the rules of C for threads.
 * NEITHER: the duties, so that the locks are held; these rules; hardware, page tables and devices; time and processor caches,
 * and what they reveal. */

#ifdef __cplusplus
}
#endif

#endif
