/* The processor: what the loader gives, gates for traps, the timer, registers, page tables, and the way out. */
#include "kernel.h"

struct gate {
    uint16_t low, selector;
    uint8_t stack, kind;
    uint16_t middle;
    uint32_t high, zero;
};

static struct gate gates[256];
extern const char stubs[], call_stub[];

/* The loader gives a multiboot information: flags, the KiB of memory up to 1 MiB and after it, and the line of words. */
const char *boot_line(const void *loaded)
{
    const uint32_t *words = loaded;
    return words[0] & 4 ? (const char *)(uint64_t)words[4] : NULL;
}

uint64_t end_of_ram(const void *loaded)
{
    const uint32_t *words = loaded;
    return words[0] & 1 ? (words[2] + 1024ull) << 10 : 0;
}

/* ---- What is set up ------------------------------------------------------------------------------------------------------ */

static void out(uint16_t port, uint8_t value) { __asm__ volatile("outb %0, %1" : : "a"(value), "Nd"(port)); }

static void set_gate(unsigned vector, const char *stub, uint8_t stack, uint8_t kind)
{
    uint64_t at = (uint64_t)stub;
    gates[vector] = (struct gate){(uint16_t)at, 0x08, stack, kind, (uint16_t)(at >> 16), (uint32_t)(at >> 32), 0};
}

/* Sets up gates that turn interrupts off, so one call to the library runs at a time in the kernel (duty 8). NMI, double fault and
 * machine check can still interrupt the kernel. They have their own stack, since the kernel's may have overflowed (duty 9). The
 * bytes below the stack pointer are no reason for it: libpartmem_kernel.a uses none, nor does the kernel (-mno-red-zone). */
static void set_up_gates(void)
{
    for (unsigned vector = 0; vector < 48; vector++)
        set_gate(vector, stubs + 16 * vector, vector == 2 || vector == 8 || vector == 18, 0x8e);
    set_gate(0x80, call_stub, 0, 0xee);
    const struct __attribute__((packed)) {
        uint16_t limit;
        uint64_t base;
    } table = {sizeof gates - 1, (uint64_t)gates};
    __asm__ volatile("lidt %0" : : "m"(table));
}

static void check_processor(void)
{
    const uint32_t wanted = 1u << 0 | 1u << 9 | 1u << 13 | 1u << 19 | 1u << 20 | 1u << 23;
    uint32_t a = 1, b, c = 0, d;
    __asm__ volatile("cpuid" : "+a"(a), "=b"(b), "+c"(c), "=d"(d));
    if ((c & wanted) != wanted) panic("the library requires x86-64-v2");
}

/* Forbids user mode to read the time stamp. If the processor can do so, also forbids the kernel to run or access pages of user
 * mode. */
static void protect(void)
{
    uint32_t a = 7, b, c = 0, d;
    uint64_t control;
    __asm__ volatile("cpuid" : "+a"(a), "=b"(b), "+c"(c), "=d"(d));
    __asm__ volatile("mov %%cr4, %0" : "=r"(control));
    control |= 1u << 2 | (b >> 7 & 1) << 20 | (b >> 20 & 1) << 21;
    __asm__ volatile("mov %0, %%cr4" : : "r"(control));
}

/* The timer's interrupt is vector 32; all others are masked. */
static void set_up_timer(unsigned per_second)
{
    static const struct {
        uint8_t port, value;
    } steps[] = {{0x20, 0x11}, {0x21, 32}, {0x21, 4}, {0x21, 1}, {0xa0, 0x11}, {0xa1, 40}, {0xa1, 2},
                 {0xa1, 1},    {0x21, 0xfe}, {0xa1, 0xff}, {0x43, 0x34}};
    unsigned divisor = 1193182 / per_second;
    for (unsigned i = 0; i < sizeof steps / sizeof *steps; i++) out(steps[i].port, steps[i].value);
    out(0x40, (uint8_t)divisor), out(0x40, (uint8_t)(divisor >> 8));
}

void set_up_machine(unsigned ticks_per_second)
{
    set_up_gates();
    check_processor();
    protect();
    set_up_timer(ticks_per_second);
}

void end_of_tick(void) { out(0x20, 0x20); }

/* ---- Traps and registers ------------------------------------------------------------------------------------------------- */

enum trap trap_of(const struct registers *registers)
{
    uint64_t vector = registers->vector;
    if (!(registers->cs & 3) || vector == 2 || vector == 8 || vector == 18) return TRAP_IN_KERNEL;
    return vector == 0x80 ? SYSTEM_CALL : vector < 32 ? FAULT : TICK;
}

struct call call_of(const struct registers *registers)
{
    return (struct call){registers->rax, registers->rdi, registers->rsi, registers->rdx};
}

struct fault fault_of(const struct registers *registers)
{
    struct fault it = {registers->vector, registers->rip, registers->vector == 14, registers->error & 2, 0};
    __asm__ volatile("mov %%cr2, %0" : "=r"(it.address));
    return it;
}

void set_result(struct registers *registers, uint64_t result) { registers->rax = result; }
void continue_at(struct registers *registers, uint64_t address) { registers->rip = address; }

void begin_thread(struct registers *registers, struct vectors *vectors, uint64_t address, uint64_t stack, uint64_t argument)
{
    *registers = (struct registers){.gs = 0x1b, .fs = 0x1b, .es = 0x1b, .ds = 0x1b, .rdi = argument, .rip = address, .cs = 0x23,
                                    .rflags = 0x202, .rsp = stack - 8, .ss = 0x1b};
    *vectors = (struct vectors){0};
    vectors->bytes[0] = 0x7f, vectors->bytes[1] = 0x03;   /* the x87 control word */
    vectors->bytes[24] = 0x80, vectors->bytes[25] = 0x1f; /* MXCSR */
}

void save_vectors(struct vectors *to) { __asm__ volatile("fxsave64 %0" : "=m"(*to)); }
void load_vectors(const struct vectors *from) { __asm__ volatile("fxrstor64 %0" : : "m"(*from)); }

void leave_planted(struct registers *registers, const struct registers *before)
{
    if (planted == NO_FLAGS) registers->rflags ^= (registers->rflags ^ before->rflags) & 0x244000;
    if (planted == NO_SELECTORS) registers->gs = before->gs, registers->fs = before->fs, registers->es = before->es;
}

/* ---- Page tables --------------------------------------------------------------------------------------------------------- */

void use_tables(const uint64_t *root) { __asm__ volatile("mov %0, %%cr3" : : "r"(root) : "memory"); }
void flush_page(uint64_t address) { __asm__ volatile("invlpg (%0)" : : "r"(address) : "memory"); }

/* ---- The way out --------------------------------------------------------------------------------------------------------- */

/* Writes to port 0xe9, from which QEMU reads text. */
void write_out(const char *text, size_t bytes)
{
    __asm__ volatile("rep outsb" : "+S"(text), "+c"(bytes) : "d"((uint16_t)0xe9) : "memory");
}

/* Writes to QEMU's device isa-debug-exit. */
_Noreturn void stop(int status)
{
    flush();
    out(0xf4, (uint8_t)status);
    for (;;) __asm__ volatile("cli; hlt");
}

/* ---- Memory -------------------------------------------------------------------------------------------------------------- */

void *memset(void *to, int byte, size_t bytes)
{
    void *at = to;
    size_t words = bytes / 8, rest = bytes % 8;
    uint64_t word = 0x0101010101010101u * (uint8_t)byte;
    __asm__ volatile("rep stosq" : "+D"(at), "+c"(words) : "a"(word) : "memory");
    __asm__ volatile("rep stosb" : "+D"(at), "+c"(rest) : "a"(word) : "memory");
    return to;
}

void *memcpy(void *restrict to, const void *restrict from, size_t bytes)
{
    void *at = to;
    size_t words = bytes / 8, rest = bytes % 8;
    __asm__ volatile("rep movsq" : "+D"(at), "+S"(from), "+c"(words) : : "memory");
    __asm__ volatile("rep movsb" : "+D"(at), "+S"(from), "+c"(rest) : : "memory");
    return to;
}
