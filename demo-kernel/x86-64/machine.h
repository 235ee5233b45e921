/* What the kernel has to know of x86-64. arm64/machine.h defines the same names. */
#ifndef MACHINE_H
#define MACHINE_H

#include <stdint.h>

/* The RAM of partitions begins there. */
#define RAM ((uint8_t *)0x1000000)

/* What a trap leaves on the kernel's stack (boot.S). */
struct registers {
    uint64_t gs, fs, es, ds, r15, r14, r13, r12, r11, r10, r9, r8, rbp, rdi, rsi, rdx, rcx, rbx, rax;
    uint64_t vector, error, rip, cs, rflags, rsp, ss;
};

/* The x87 and SSE state. */
struct vectors {
    uint8_t bytes[512] __attribute__((aligned(16)));
};

/* What an entry of a page table has beside the address: for a table, and for a page of the kernel, of a partition or of a
 * program. */
#define KERNEL_TABLE 3ul
#define KERNEL_PAGE 3ul
#define USER_TABLE 7ul
#define USER_PAGE (1ul << 63 | 7) /* not executable */
#define PROGRAM_PAGE 5ul          /* not writable */

/* Returns the time stamp. With `-icount shift=0` QEMU adds one to it for each instruction. */
static inline uint64_t stamp(void)
{
    uint32_t low, high;
    __asm__ volatile("rdtsc" : "=a"(low), "=d"(high));
    return (uint64_t)high << 32 | low;
}

#endif
