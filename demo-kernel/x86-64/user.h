/* What the programs of partitions use of x86-64. arm64/user.h defines the same names. */
#ifndef USER_H
#define USER_H

/* The addresses of the kernel and of the RAM of partitions, and a word that begins with an instruction that returns. */
#define KERNEL 0x100000ul
#define RAM 0x1000000ul
#define RETURN 0xc3ul

/* Makes a system call: int 0x80, with the number in rax and arguments in rdi, rsi and rdx. The result is in rax. The direction
 * flag is set, and the kernel has to clear it. */
static inline uint64_t call(uint64_t number, uint64_t first, uint64_t second, uint64_t third)
{
    uint64_t result;
    __asm__ volatile("std\n int $0x80\n cld" : "=a"(result) : "a"(number), "D"(first), "S"(second), "d"(third) : "memory");
    return result;
}

__asm__(".text\n"
        ".globl load_byte, store_byte, run_at, read_time, read_device, in_vain, new_thread\n"
        "load_byte: movzbl (%rdi), %eax\n ret\n"
        "store_byte: movb $1, (%rdi)\n movl $1, %eax\n ret\n"
        "run_at: movl $1, %eax\n jmp *%rdi\n"
        "read_time: rdtsc\n ret\n"
        "read_device: inb $0x61, %al\n ret\n"
        "in_vain: mov $-1, %rax\n ret\n"
        "new_thread: orq %rax, %rsi\n orq %rbx, %rsi\n orq %rcx, %rsi\n orq %rdx, %rsi\n orq %rbp, %rsi\n orq %r8, %rsi\n"
        " orq %r9, %rsi\n orq %r10, %rsi\n orq %r11, %rsi\n orq %r12, %rsi\n orq %r13, %rsi\n orq %r14, %rsi\n orq %r15, %rsi\n"
        " jmp serve\n");

/* The x87 and SSE state, as fxsave stores it. Word 3 has MXCSR, words 4, 6 .. 18 have the low bits of the x87 registers, and
 * words 20 to 51 are the vector registers. */
struct vectors {
    uint64_t words[64];
} __attribute__((aligned(16)));

static int after_word(int i) { return i < 20 ? i + 2 : i + 1; }

static void load_vectors(uint64_t seed)
{
    struct vectors state;
    __asm__ volatile("fxsave64 %0" : "=m"(state));
    for (int i = 4; i < 52; i = after_word(i)) state.words[i] = word_for(seed, (uint64_t)i);
    state.words[3] = (state.words[3] & ~0x6000ull) | (seed & 3) << 13;
    __asm__ volatile("fxrstor64 %0" : : "m"(state));
}

static uint64_t vectors_not_zero(void)
{
    struct vectors state;
    uint64_t found = 0;
    __asm__ volatile("fxsave64 %0" : "=m"(state));
    for (int i = 4; i < 52; i = after_word(i)) found += state.words[i] != 0;
    return found;
}

static uint64_t wrong_vectors(uint64_t seed)
{
    struct vectors state;
    uint64_t wrong = 0;
    __asm__ volatile("fxsave64 %0" : "=m"(state));
    for (int i = 4; i < 52; i = after_word(i)) wrong += state.words[i] != word_for(seed, (uint64_t)i);
    return wrong + ((state.words[3] >> 13 & 3) != (seed & 3));
}

/* Returns the selector that a segment register gets: one of the two that user mode may load, chosen by a bit of the seed. */
static uint32_t selector(uint64_t seed, int bit) { return seed >> bit & 1 ? 0x23 : 0x1b; }

static void load_selectors(uint64_t seed)
{
    __asm__ volatile("movl %0, %%ds\n movl %1, %%es\n movl %2, %%fs\n movl %3, %%gs" : : "r"(selector(seed, 0)),
                     "r"(selector(seed, 1)), "r"(selector(seed, 2)), "r"(selector(seed, 3)));
}

static uint64_t wrong_selectors(uint64_t seed)
{
    uint32_t ds, es, fs, gs;
    __asm__ volatile("movl %%ds, %0\n movl %%es, %1\n movl %%fs, %2\n movl %%gs, %3" : "=r"(ds), "=r"(es), "=r"(fs), "=r"(gs));
    return (ds != selector(seed, 0)) + (es != selector(seed, 1)) + (fs != selector(seed, 2)) + (gs != selector(seed, 3));
}

/* The flags that no instruction of these programs changes except popfq: nested task, alignment check and identification. */
enum { FLAGS = 1 << 14 | 1 << 18 | 1 << 21 };

static void load_flags(uint64_t flags)
{
    __asm__ volatile("pushfq\n andq %1, (%%rsp)\n orq %0, (%%rsp)\n popfq" : : "r"(flags & FLAGS), "r"(~(uint64_t)FLAGS) : "cc");
}

static uint64_t wrong_flags(uint64_t flags)
{
    uint64_t found;
    __asm__ volatile("pushfq\n popq %0" : "=r"(found));
    return (found & FLAGS) != (flags & FLAGS);
}

static void load_registers(uint64_t seed) { load_vectors(seed), load_selectors(seed), load_flags(seed << 14 ^ seed << 18); }

static uint64_t wrong_registers(uint64_t seed)
{
    return wrong_vectors(seed) + wrong_selectors(seed) + wrong_flags(seed << 14 ^ seed << 18);
}

#endif
