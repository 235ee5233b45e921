/* A small partitioning kernel for x86-64 and AArch64 whose memory is partmem's. What depends on the processor is in x86-64/ and
 * arm64/, in files with the same names.
 *
 * Each partition is a tenant. Its page blocks are mapped in user mode, by its own page tables. Its threads and endpoints are
 * objects of two caches of the tenant; they belong to the kernel and are never mapped.
 *
 * The duties of partmem.h, and the functions that keep them:
 *
 *      1 Machine         set_up_memory: the one machine is a static variable that only the library uses
 *      2 Arguments       store_in_object: bytes are copied from variables of the kernel; no argument lies in lent bytes
 *      3 Memory          set_up_memory: RAM and tables are two regions that nothing else uses
 *      4 Bounds          store_in_object: a store ends where the object ends
 *      5 Endings         move_slot, lent_object: after a move the blocks are mapped again; no address of an object is kept
 *      6 Flows           say, fault: a partition learns its own results and places, and no address
 *      7 Users           lent_object, drop_object: users name endpoints in system calls, and never a thread's object
 *      8 Threads         set_up_machine: interrupts are off in the kernel, so one call runs at a time
 *      9 Ring 0          guard_stack, enter_kernel: the stack, the flags. libpartmem_kernel.a requires no more
 *     10 After the end   end_memory: clears the RAM and the tables
 *     11 Mapping         map_block: maps what partmem_alloc or partmem_lend_block returned, and nothing else
 *     12 Unmapping       unmap: before each free, move and reset; there is one processor, and no device uses the RAM
 *     13 Reused numbers  end_partition: no thread and no handle outlives a reset
 *     14 Booting         set_up_memory: the one boot
 */
#ifndef KERNEL_H
#define KERNEL_H

#include <stdbool.h>
#include <stddef.h>
#include <stdint.h>

#include "machine.h"
#include "partmem.h"
#include "sizes.h"

enum {
    FRAMES = SUPERBLOCKS << ORDER, /* the most frames that a tenant can have */
    PARTITIONS = 2,
    RESERVE = PARTITIONS, /* a tenant without a program, for superblocks that the administrator keeps */
    THREADS = 4,          /* the most threads of a partition */
};

#define RAM_BYTES PARTMEM_RAM_BYTES(ORDER, SUPERBLOCKS) /* of the RAM of partitions, which begins at RAM */

/* Mistakes that `fault=NAME` on the boot line plants in the kernel, to show that the checks of demo-kernel/run see them. */
enum planted { NO_FAULT, NO_WRITE_OUT, NO_FLUSH, NO_REMAP, NO_VECTORS, NO_SELECTORS, NO_FLAGS, SLAB_MAPPED, FREED_FIRST,
               OTHER_ADDRESS, NO_THREAD_POINTER };

/* x86-64/machine.c, arm64/machine.c: what the loader gives, the timer, page tables, and the way out */
const char *boot_line(const void *loaded); /* NULL if the loader gives none */
uint64_t end_of_ram(const void *loaded);   /* 0 if the loader does not say */
void set_up_machine(unsigned ticks_per_second);
void end_of_tick(void);
void use_tables(const uint64_t *root);
void flush_page(uint64_t address);
void write_out(const char *text, size_t bytes);
_Noreturn void stop(int status); /* ends QEMU with the exit status 2 * status + 1 */

/* The same files: why a trap came, and the registers of threads */
enum trap { SYSTEM_CALL, FAULT, TICK, TRAP_IN_KERNEL };
struct call {
    uint64_t number, first, second, third;
};
struct fault {
    uint64_t number;          /* of the processor */
    uint64_t at;              /* the address of the instruction */
    bool is_access, is_write; /* whether it is an access to memory; whether this is a write */
    uint64_t address;         /* of the access */
};
enum trap trap_of(const struct registers *registers);
struct call call_of(const struct registers *registers);
struct fault fault_of(const struct registers *registers);
void set_result(struct registers *registers, uint64_t result);
void continue_at(struct registers *registers, uint64_t address);
void begin_thread(struct registers *registers, struct vectors *vectors, uint64_t address, uint64_t stack, uint64_t argument);
void save_vectors(struct vectors *to);
void load_vectors(const struct vectors *from);
void leave_planted(struct registers *registers, const struct registers *before); /* plants mistakes in a switch of partitions */
_Noreturn void resume(struct registers *registers);                             /* boot.S */

/* text.c: what the kernel prints */
extern uint64_t printing; /* by how much the time stamp grew in print and print_bytes since this was set to 0 */
__attribute__((format(printf, 1, 2))) void print(const char *format, ...); /* %s, %u and %lu */
void print_bytes(const void *from, size_t bytes);
void flush(void);
_Noreturn void panic(const char *why);

/* Memory functions for the compiler and the library: memmove in text.c, and the others in machine.c */
void *memset(void *to, int byte, size_t bytes);
void *memcpy(void *restrict to, const void *restrict from, size_t bytes);
void *memmove(void *to, const void *from, size_t bytes);

/* pages.c: page tables. Place p of a tenant lies at USER_PLACES + p; the programs of all partitions lie at USER_CODE. */
#define USER_PLACES 0x8000000000ul
#define USER_CODE 0x10000000000ul
void set_up_pages(void);
void map(unsigned t, uint32_t place, void *at, uint32_t bytes);
void unmap(unsigned t, uint32_t place, uint32_t bytes);
void enter_space(unsigned t);
const char *program_text(uint64_t address);
uint64_t stack_used(void);

/* memory.c: the calls to partmem. Each request is printed as a line of a trace, with its reply */
extern enum planted planted;
void set_up_memory(void);
void end_memory(void);
void must(partmem_status status);
partmem_status alloc_block(unsigned t, uint32_t order, uint32_t *frame);
partmem_status free_block(unsigned t, uint32_t frame);
void make_cache(unsigned t, uint32_t size, uint32_t align);
partmem_status take_object(unsigned t, uint32_t cache, uint32_t *place);
partmem_status drop_object(unsigned t, uint32_t cache, uint32_t place);
const void *lent_object(unsigned t, uint32_t cache, uint32_t place);
void store_in_object(unsigned t, uint32_t cache, uint32_t place, uint32_t offset, const void *from, uint32_t bytes);
void reap(unsigned t);
void report(unsigned t);
bool grant(unsigned t, partmem_slot *granted);
bool move_slot(unsigned t, uint32_t slot);
bool take_back(unsigned t, uint32_t slot);
void reset(unsigned t);
bool is_free(uint32_t superblock);
bool is_owned_by(unsigned t, uint32_t superblock);
unsigned slots_of(unsigned t);
uint64_t bytes_not_zero(uint32_t superblock);

/* partition.c: partitions, their threads and endpoints, and system calls */
enum program { STEADY, QUIET, NOISY };
extern uint64_t ticks;
bool is_running(unsigned t);
uint32_t meeting_of(unsigned t);
void go_on(unsigned t);
void start_partition(unsigned t, enum program program, uint64_t argument);
void end_partition(unsigned t);
void print_counts(void);

/* admin.c: the administrator, and the words of the boot line that say what it does */
void read_words(const char *line);
extern unsigned ticks_per_second, ticks_a_turn;
void administer_at_start(void);
void administer(void);

#endif
