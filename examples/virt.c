/* A board for embed.c: QEMU's machine `virt` without firmware, with an AArch64 or a 64-bit RISC-V processor. Any use of a
 * floating-point or vector register ends the program, as does an unaligned load or store on AArch64: the library for kernels has
 * neither. docs/c.md has the commands that build and boot it. */
#include <stddef.h>
#include <stdint.h>

void start(void), put(const char *text), stop(int status), trapped(void);

__asm__(".bss\n"
        ".balign 16\n"
        ".globl stack, stack_end\n"
        "stack: .skip 16384\n"
        "stack_end:\n");

#ifdef __aarch64__

/* At exception level 1, with the MMU off and interrupts masked, as QEMU starts it. */
__asm__(".section .text.start, \"ax\"\n"
        ".globl _start\n"
        "_start: adr x0, vectors; msr vbar_el1, x0\n"
        "  msr cpacr_el1, xzr\n" /* floating-point and vector instructions trap */
        "  mrs x0, sctlr_el1; orr x0, x0, #2; orr x0, x0, #8; msr sctlr_el1, x0\n" /* so do unaligned accesses and stacks */
        "  isb\n"
        "  adrp x0, stack_end; add x0, x0, :lo12:stack_end; mov sp, x0\n"
        "  bl start\n"
        "  b .\n"
        ".balign 2048\n"
        "vectors: .rept 16; b trapped; .balign 128; .endr\n");

static volatile uint32_t *const serial = (volatile uint32_t *)0x09000000;

void stop(int status)
{
    (void)status;
    for (register uint64_t off __asm__("x0") = 0x84000008;;) __asm__ volatile("hvc #0" : "+r"(off)); /* PSCI's SYSTEM_OFF */
}

#else

/* In machine mode, where QEMU starts it. */
__asm__(".section .text.start, \"ax\"\n"
        ".globl _start\n"
        "_start: la t0, vectors; csrw mtvec, t0\n"
        "  li t0, 0x6600; csrc mstatus, t0\n" /* floating-point and vector instructions trap */
        "  la sp, stack_end\n"
        "  call start\n"
        "  j .\n"
        ".balign 4\n"
        "vectors: j trapped\n");

static volatile uint8_t *const serial = (volatile uint8_t *)0x10000000;

void stop(int status)
{
    for (;;) *(volatile uint32_t *)0x100000 = status ? 0x3333 | (uint32_t)status << 16 : 0x5555;
}

#endif

void put(const char *text)
{
    while (*text) *serial = (uint8_t)*text++;
}

void trapped(void)
{
    put("trapped\n");
    stop(1);
}

/* The pointers are volatile: or else a compiler may replace a loop by a call of the same function. */
void *memset(void *to, int byte, size_t bytes)
{
    for (volatile unsigned char *at = to; bytes-- > 0;) *at++ = (unsigned char)byte;
    return to;
}

void *memcpy(void *to, const void *from, size_t bytes)
{
    const unsigned char *source = from;
    for (volatile unsigned char *at = to; bytes-- > 0;) *at++ = *source++;
    return to;
}

void *memmove(void *to, const void *from, size_t bytes)
{
    if ((uintptr_t)to - (uintptr_t)from >= bytes) return memcpy(to, from, bytes);
    for (volatile unsigned char *at = to; bytes-- > 0;) at[bytes] = ((const unsigned char *)from)[bytes];
    return to;
}
