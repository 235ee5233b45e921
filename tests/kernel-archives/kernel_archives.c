/* Runs the lines of a trace with the library that this program is linked with, and prints their replies.
 *
 *     kernel_archives TRACE [interrupted | unaligned]
 *
 * unaligned: the stack of each call is aligned only to 8 bytes, not to 16, as it may be in a kernel.
 *
 * interrupted: after each instruction of a call, the 128 bytes below the stack pointer and the vector registers are overwritten.
 * An interrupt on the same stack does this in a kernel that saves only the general registers. While the processor's trap flag
 * is set, each instruction raises SIGTRAP, whose handler has a stack of its own. This program itself is compiled without red zone
 * and vector registers. It prints the number of interrupts to standard error.
 */
#define _GNU_SOURCE /* for REG_RSP */
#include <signal.h>
#include <stdio.h>
#include <stdlib.h>
#include <ucontext.h>

#include "partmem.h"

enum { ORDER = 3, SUPERBLOCKS = 2, TENANTS = 2, BELOW = 128, OTHER = 0xa5 };

static _Alignas(4096) unsigned char ram[PARTMEM_RAM_BYTES(ORDER, SUPERBLOCKS)];
static _Alignas(16) unsigned char tables[PARTMEM_TABLE_BYTES(ORDER, SUPERBLOCKS, TENANTS)];
static unsigned char stack_of_interrupts[1 << 16];
static partmem_machine machine;
static char buffer[PARTMEM_LINE_BUFFER_BYTES];
static unsigned long interrupts;

/* Replace the functions of the C library, which use vector registers. */
__asm__(".globl memset, memcpy, memmove\n"
        "memset: mov %rdi, %r8; movzbl %sil, %eax; mov $0x0101010101010101, %rcx; imul %rcx, %rax\n"
        "  mov %rdx, %rcx; shr $3, %rcx; rep stosq; mov %edx, %ecx; and $7, %ecx; rep stosb; mov %r8, %rax; ret\n"
        "memmove: mov %rdi, %rax; sub %rsi, %rax; cmp %rdx, %rax; jb 1f\n"
        "memcpy: mov %rdi, %rax; mov %rdx, %rcx; shr $3, %rcx; rep movsq; mov %edx, %ecx; and $7, %ecx; rep movsb; ret\n"
        "1: mov %rdi, %rax; lea -1(%rdi,%rdx), %rdi; lea -1(%rsi,%rdx), %rsi; mov %rdx, %rcx; std; rep movsb; cld; ret\n");
void *memset(void *to, int byte, size_t bytes);

/* Calls partmem_line with the stack aligned to 8 bytes and not to 16. */
partmem_status unaligned_line(partmem_machine *, const char *, size_t, char *, size_t, size_t *);
__asm__("unaligned_line: call partmem_line; ret\n");

static void interrupt(int number, siginfo_t *info, void *context)
{
    const mcontext_t *saved = &((ucontext_t *)context)->uc_mcontext;
    (void)number, (void)info;
    memset((char *)saved->gregs[REG_RSP] - BELOW, OTHER, BELOW);
    memset(saved->fpregs->_xmm, OTHER, sizeof saved->fpregs->_xmm);
    interrupts++;
}

static int interrupt_each_instruction(void)
{
    const stack_t stack = {.ss_sp = stack_of_interrupts, .ss_size = sizeof stack_of_interrupts};
    const struct sigaction action = {.sa_sigaction = interrupt, .sa_flags = SA_SIGINFO | SA_ONSTACK};
    return sigaltstack(&stack, NULL) == 0 && sigaction(SIGTRAP, &action, NULL) == 0;
}

static partmem_status run(const char *line, size_t line_len, size_t *written, char how)
{
    if (how == 'u') return unaligned_line(&machine, line, line_len, buffer, sizeof buffer, written);
    if (how == 'i') __asm__ volatile("pushfq\n\torq $0x100, (%%rsp)\n\tpopfq" ::: "memory", "cc");
    partmem_status status = partmem_line(&machine, line, line_len, buffer, sizeof buffer, written);
    __asm__ volatile("pushfq\n\tandq $~0x100, (%%rsp)\n\tpopfq" ::: "memory", "cc");
    return status;
}

int main(int argc, char **argv)
{
    const partmem_config config = {ORDER, SUPERBLOCKS, TENANTS};
    const partmem_memory memory = {ram, tables};
    FILE *trace = fopen(argc > 1 ? argv[1] : "", "r");
    char *line = NULL;
    size_t size = 0, written = 0;
    ssize_t len;
    const char how = argc > 2 ? argv[2][0] : 0;
    if (!trace || partmem_boot_in(&machine, &config, &memory) || !interrupt_each_instruction()) return 2;
    while ((len = getline(&line, &size, trace)) > 0) {
        if (run(line, (size_t)len - (line[len - 1] == '\n'), &written, how)) return 1;
        fwrite(buffer, 1, written, stdout);
    }
    free(line);
    fclose(trace);
    fprintf(stderr, "%lu\n", interrupts);
    return partmem_end(&machine);
}
