/* What the programs of partitions use of AArch64 and of QEMU's board `virt`. x86-64/user.h defines the same names. */
#ifndef USER_H
#define USER_H

/* The addresses of the kernel and of the RAM of partitions, and a word that begins with an instruction that returns. */
#define KERNEL 0x40080000ul
#define RAM 0x41000000ul
#define RETURN 0xd65f03c0ul

/* Makes a system call: svc 0, with the number in x8 and arguments in x0, x1 and x2. The result is in x0. */
static inline uint64_t call(uint64_t number, uint64_t first, uint64_t second, uint64_t third)
{
    register uint64_t x8 __asm__("x8") = number, x0 __asm__("x0") = first, x1 __asm__("x1") = second, x2 __asm__("x2") = third;
    __asm__ volatile("svc #0" : "+r"(x0) : "r"(x8), "r"(x1), "r"(x2) : "memory");
    return x0;
}

__asm__(".text\n"
        ".globl load_byte, store_byte, run_at, read_time, read_device, in_vain, new_thread\n"
        "load_byte: ldrb w0, [x0]\n ret\n"
        "store_byte: mov x1, #1\n strb w1, [x0]\n mov x0, #1\n ret\n"
        "run_at: mov x1, x0\n mov x0, #1\n br x1\n"
        "read_time: mrs x0, cntvct_el0\n ret\n"
        "read_device: mov x0, #0x09000000\n ldrb w0, [x0]\n ret\n" /* the serial port */
        "in_vain: mov x0, #-1\n ret\n"
        "new_thread:\n"
        ".irp number, 2,3,4,5,6,7,8,9,10,11,12,13,14,15,16,17,18,19,20,21,22,23,24,25,26,27,28,29,30\n"
        " orr x1, x1, x\\number\n"
        ".endr\n"
        " b serve\n");

/* The vector registers, their control register (FPCR) and their status register (FPSR). Of the last two, these programs use bits
 * that every processor has: the rounding mode and five kinds of exceptions. */
struct vectors {
    uint64_t words[64] __attribute__((aligned(16)));
    uint64_t control, status;
};
enum { ROUNDING = 3 << 22, EXCEPTIONS = 0x1f };

/* The instructions that load or store all vector registers, four at a time. */
#define EACH(DO) DO(0, 3) DO(4, 7) DO(8, 11) DO(12, 15) DO(16, 19) DO(20, 23) DO(24, 27) DO(28, 31)
#define LOAD(first, last) "ld1 {v" #first ".2d - v" #last ".2d}, [%0], #64\n"
#define STORE(first, last) "st1 {v" #first ".2d - v" #last ".2d}, [%0], #64\n"

static void load_vectors(uint64_t seed)
{
    struct vectors state;
    uint64_t *at = state.words;
    state.control = seed << 22 & ROUNDING, state.status = seed & EXCEPTIONS;
    for (uint64_t i = 0; i < 64; i++) state.words[i] = word_for(seed, i);
    __asm__ volatile(EACH(LOAD) "msr fpcr, %1\n msr fpsr, %2" : "+&r"(at) : "r"(state.control), "r"(state.status), "m"(state));
}

static void store_vectors(struct vectors *state)
{
    uint64_t *at = state->words, control, status;
    __asm__ volatile(EACH(STORE) "mrs %1, fpcr\n mrs %2, fpsr" : "+&r"(at), "=&r"(control), "=&r"(status) : : "memory");
    state->control = control, state->status = status;
}

static uint64_t vectors_not_zero(void)
{
    struct vectors state;
    store_vectors(&state);
    uint64_t found = (state.control | state.status) != 0;
    for (int i = 0; i < 64; i++) found += state.words[i] != 0;
    return found;
}

static uint64_t wrong_vectors(uint64_t seed)
{
    struct vectors state;
    store_vectors(&state);
    uint64_t wrong = state.control != (seed << 22 & ROUNDING) || state.status != (seed & EXCEPTIONS);
    for (uint64_t i = 0; i < 64; i++) wrong += state.words[i] != word_for(seed, i);
    return wrong;
}

/* Returns whether the condition flags change in a loop that does not change them. */
static uint64_t wrong_flags(uint64_t seed)
{
    uint64_t flags = (seed & 15) << 28, found, rounds = 2000;
    __asm__ volatile("msr nzcv, %2\n 1: sub %1, %1, #1\n cbnz %1, 1b\n mrs %0, nzcv"
                     : "=&r"(found), "+&r"(rounds) : "r"(flags) : "cc");
    return found != flags;
}

static void load_registers(uint64_t seed)
{
    load_vectors(seed);
    __asm__ volatile("msr tpidr_el0, %0" : : "r"(word_for(seed, 0)));
}

static uint64_t wrong_registers(uint64_t seed)
{
    uint64_t thread_pointer;
    __asm__ volatile("mrs %0, tpidr_el0" : "=r"(thread_pointer));
    return wrong_vectors(seed) + (thread_pointer != word_for(seed, 0)) + wrong_flags(seed);
}

#endif
