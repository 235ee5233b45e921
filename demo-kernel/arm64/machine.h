/* What the kernel has to know of AArch64 and of QEMU's board `virt`. x86-64/machine.h defines the same names. */
#ifndef MACHINE_H
#define MACHINE_H

#include <stdint.h>

/* The RAM of partitions begins there. */
#define RAM ((uint8_t *)0x41000000)

/* What boot.S saves: of a thread x0 to x30, the stack pointer, the address of the next instruction, the flags and the thread
 * pointer; of the exception which of the 16 it is, its syndrome, and the address of an access that faulted. */
struct registers {
    uint64_t x[31], sp, pc, flags, thread_pointer, vector, syndrome, address;
};

/* The 32 vector registers, the control register (FPCR) and the status register (FPSR). */
struct vectors {
    uint64_t words[64] __attribute__((aligned(16)));
    uint64_t control, status;
};

/* What an entry of a page table has beside the address: for a table, and for a page of the kernel, of a partition or of a
 * program. */
#define PAGE (3ul | 3ul << 8 | 1ul << 10) /* valid, of memory that processors share, accessed */
#define NOT_RUN_BY_USER (1ul << 54)
#define NOT_RUN_BY_KERNEL (1ul << 53)
#define KERNEL_TABLE 3ul
#define KERNEL_PAGE (PAGE | NOT_RUN_BY_USER)
#define USER_TABLE 3ul
#define USER_PAGE (PAGE | NOT_RUN_BY_USER | NOT_RUN_BY_KERNEL | 1ul << 6)
#define PROGRAM_PAGE (PAGE | NOT_RUN_BY_KERNEL | 3ul << 6) /* not writable */

/* Returns the counter of cycles. With `-icount shift=0` QEMU adds one to it for each instruction. */
static inline uint64_t stamp(void)
{
    uint64_t cycles;
    __asm__ volatile("mrs %0, pmccntr_el0" : "=r"(cycles));
    return cycles;
}

#endif
