/* Sees the loads and stores of a library that was not compiled for it. The processor traps after each instruction while its trap
 * flag is set, and the handler of the signal SIGTRAP sees all registers.
 *
 * A file has the memory operand of each instruction of the library, as the script reads it from a disassembly. So the program is
 * not linked as one that may lie at any address.
 */
#define _GNU_SOURCE /* registers by name */
#include <fcntl.h>
#include <signal.h>
#include <sys/mman.h>
#include <sys/stat.h>
#include <ucontext.h>

#include "accesses.h"

/* The memory operand of an instruction. A register's number is its place in a signal frame. `loaded` and `stored` are how many
 * bytes the instruction loads and stores there. */
struct operand {
    int32_t displacement;
    uint8_t base, index, scale, loaded, stored, spare[3];
};
enum { NO_REGISTER = 255 };
static const struct operand *operands;
static uint64_t text_start, text_bytes;

static void on_trap(int signal, siginfo_t *info, void *context)
{
    (void)signal, (void)info;
    const greg_t *registers = ((ucontext_t *)context)->uc_mcontext.gregs;
    const uint64_t at = (uint64_t)registers[REG_RIP];
    if (at - text_start >= text_bytes) return;
    const struct operand *it = &operands[at - text_start];
    uint64_t address = (uint64_t)(int64_t)it->displacement;
    if (it->base != NO_REGISTER) address += (uint64_t)registers[it->base];
    if (it->index != NO_REGISTER) address += (uint64_t)registers[it->index] * it->scale;
    const char *const stack = (const char *)registers[REG_RSP];
    if (it->loaded) see_access((const void *)address, it->loaded, false, (const void *)(at + 1), stack);
    if (it->stored) see_access((const void *)address, it->stored, true, (const void *)(at + 1), stack);
}

void follow_steps(const char *path)
{
    static uint8_t room[1 << 16];
    stack_t stack = {.ss_sp = room, .ss_size = sizeof room};
    struct sigaction action = {.sa_sigaction = on_trap, .sa_flags = SA_SIGINFO | SA_ONSTACK};
    struct stat found;
    const int file = open(path, O_RDONLY);
    hold(file >= 0 && fstat(file, &found) == 0 && found.st_size >= 16, "the operands");
    const uint64_t *mapped = mmap(NULL, (size_t)found.st_size, PROT_READ, MAP_PRIVATE, file, 0);
    hold(mapped != MAP_FAILED, "the operands");
    text_start = mapped[0];
    text_bytes = mapped[1];
    operands = (const struct operand *)(mapped + 2);
    hold((uint64_t)found.st_size == 16 + text_bytes * sizeof(struct operand), "the operands");
    hold(sigaltstack(&stack, NULL) == 0 && sigaction(SIGTRAP, &action, NULL) == 0, "the signal of a trap");
}

void start_steps(void)
{
    if (operands) __asm__ volatile("pushfq\n\torq $0x100, (%%rsp)\n\tpopfq" ::: "memory", "cc");
}

void stop_steps(void)
{
    if (operands) __asm__ volatile("pushfq\n\tandq $~0x100, (%%rsp)\n\tpopfq" ::: "memory", "cc");
}
