/* The processor and the board: what the loader gives, the MMU, the timer, traps and registers, and the way out. */
#include "kernel.h"

/* QEMU's board `virt`: the interrupt controller (GICv2), its interface to the processor, and the serial port (PL011). */
#define GIC ((volatile uint32_t *)0x08000000)
#define GIC_PROCESSOR ((volatile uint32_t *)0x08010000)
#define SERIAL ((volatile uint32_t *)0x09000000)

/* Read or set a register of the processor. */
#define GET(name) __extension__({ uint64_t it; __asm__ volatile("mrs %0, " #name : "=r"(it)); it; })
#define SET(name, value) __asm__ volatile("msr " #name ", %0\n isb" : : "r"((uint64_t)(value)) : "memory")

/* ---- What the loader gives: a device tree --------------------------------------------------------------------------------- */

static uint32_t big_endian(uint32_t word) { return __builtin_bswap32(word); }

/* Returns whether a text is `name`, or `name` with an address after an @. */
static bool is_named(const char *text, const char *name)
{
    while (*name && *text == *name) text++, name++;
    return !*name && (!*text || *text == '@');
}

/* Returns the value of a property of a node below the root of a device tree, or NULL if the tree has none. */
static const void *property(const void *loaded, const char *node, const char *name)
{
    enum { NODE = 1, END_OF_NODE, PROPERTY, NOTHING };
    const uint32_t *tree = loaded;
    if (!tree || big_endian(tree[0]) != 0xd00dfeed) return NULL;
    const uint32_t *at = tree + big_endian(tree[2]) / 4;
    const char *names = (const char *)loaded + big_endian(tree[3]);
    bool is_in_node = false;
    for (uint32_t what; (what = big_endian(*at++)) <= NOTHING;) {
        if (what == NODE) {
            is_in_node = is_named((const char *)at, node);
            while (big_endian(*at++) & 0xff) {} /* words with the node's name, the last of which ends in 0 */
        } else if (what == PROPERTY) {
            if (is_in_node && is_named(names + big_endian(at[1]), name)) return at + 2;
            at += 2 + (big_endian(at[0]) + 3) / 4;
        }
    }
    return NULL;
}

const char *boot_line(const void *loaded) { return property(loaded, "chosen", "bootargs"); }

uint64_t end_of_ram(const void *loaded)
{
    const uint32_t *its = property(loaded, "memory", "reg"); /* address and bytes, two words each */
    if (!its) return 0;
    return ((uint64_t)big_endian(its[0]) << 32 | big_endian(its[1])) + ((uint64_t)big_endian(its[2]) << 32 | big_endian(its[3]));
}

/* ---- The MMU -------------------------------------------------------------------------------------------------------------- */

uint64_t kernel_root[512] __attribute__((aligned(FRAME)));
uint64_t kernel_pointers[512] __attribute__((aligned(FRAME)));
uint64_t kernel_directory[512] __attribute__((aligned(FRAME)));

/* Maps devices, which lie in the first GiB, and the GiB where RAM begins, at their physical addresses. User mode can reach
 * neither. The kernel can run only what lies below the RAM of partitions. */
static void map_kernel(void)
{
    const uint64_t ram = 1ul << 30, block = 1ul << 21, block_entry = KERNEL_PAGE & ~2ul, device = 1ul << 2;
    for (uint64_t at = ram; at < 2 * ram; at += block)
        kernel_directory[at / block % 512] = at | block_entry | (at < (uint64_t)RAM ? 0 : NOT_RUN_BY_KERNEL);
    kernel_pointers[0] = block_entry | device | NOT_RUN_BY_KERNEL;
    kernel_pointers[1] = (uint64_t)kernel_directory | KERNEL_TABLE;
    kernel_root[0] = (uint64_t)kernel_pointers | KERNEL_TABLE;
}

/* The first call turns the MMU and the caches on. From then on unaligned accesses fault: neither the kernel nor the library nor a
 * program makes any. If the processor can forbid it, the kernel cannot access pages of user mode either. */
void use_tables(const uint64_t *root)
{
    enum { MMU = 1, ALIGNED = 1 << 1, CACHES = 1 << 2 | 1 << 12, STACK_ALIGNED = 3 << 3, MAY_ACCESS = 1 << 23 };
    const uint64_t always = 1 << 29 | 1 << 28 | 1 << 22 | 1 << 20 | 1 << 11; /* bits that are 1 in the first version of AArch64 */
    bool can_forbid = GET(id_aa64mmfr1_el1) >> 20 & 15;
    __asm__ volatile("dsb ishst" : : : "memory");
    SET(ttbr0_el1, root);
    __asm__ volatile("tlbi vmalle1\n dsb ish\n isb" : : : "memory");
    SET(sctlr_el1, always | MMU | ALIGNED | CACHES | STACK_ALIGNED | (can_forbid ? 0 : MAY_ACCESS));
}

void flush_page(uint64_t address)
{
    __asm__ volatile("dsb ishst\n tlbi vaae1, %0\n dsb ish\n isb" : : "r"(address / FRAME) : "memory");
}

/* ---- The timer ------------------------------------------------------------------------------------------------------------ */

enum { TIMER = 27 }; /* the interrupt of the virtual timer; all others are masked */
static uint64_t cycles_per_tick;

static void begin_tick(void) { SET(cntv_tval_el0, cycles_per_tick); }

static void set_up_timer(unsigned per_second)
{
    cycles_per_tick = GET(cntfrq_el0) / per_second;
    GIC[0x000 / 4] = 1;
    GIC[0x100 / 4] = 1u << TIMER;
    GIC_PROCESSOR[0x4 / 4] = 0xff; /* interrupts of all priorities */
    GIC_PROCESSOR[0x0 / 4] = 1;
    begin_tick();
    SET(cntv_ctl_el0, 1);
}

void end_of_tick(void)
{
    uint32_t interrupt = GIC_PROCESSOR[0xc / 4];
    begin_tick();
    GIC_PROCESSOR[0x10 / 4] = interrupt;
}

/* An exception masks interrupts, and only the return to user mode unmasks them. So one call to the library runs at a time
 * (duty 8). User mode cannot read the time, counters or debug registers. */
void set_up_machine(unsigned ticks_per_second)
{
    if (GET(currentel) != 1 << 2) panic("the kernel has to be booted at EL1");
    SERIAL[0x30 / 4] = 1 << 8 | 1; /* it is on, and can send */
    map_kernel();
    SET(mair_el1, 0x00ff); /* what bits 2 to 4 of a page's entry choose from: memory with caches; devices */
    SET(tcr_el1, 2ul << 32 | 1 << 23 | 3 << 12 | 1 << 10 | 1 << 8 | 16); /* 48-bit addresses by TTBR0 alone, cached tables */
    SET(cntkctl_el1, 0);
    SET(pmuserenr_el0, 0);
    SET(mdscr_el1, 1 << 12);
    SET(pmccfiltr_el0, 0);
    SET(pmcntenset_el0, 1u << 31);
    SET(pmcr_el0, 1 << 6 | 1); /* the counter of cycles counts, with 64 bits */
    set_up_timer(ticks_per_second);
}

/* ---- Traps and registers -------------------------------------------------------------------------------------------------- */

enum { FROM_USER = 8, INTERRUPT = 9 }; /* of the 16 exceptions */
enum { CALL_INSTRUCTION = 0x15, INSTRUCTION_ABORT = 0x20, DATA_ABORT = 0x24 };

/* Returns the class of an exception: six bits of its syndrome. */
static uint64_t class_of(const struct registers *registers) { return registers->syndrome >> 26 & 63; }

enum trap trap_of(const struct registers *registers)
{
    if (registers->vector == INTERRUPT) return TICK;
    if (registers->vector != FROM_USER) return TRAP_IN_KERNEL;
    return class_of(registers) == CALL_INSTRUCTION ? SYSTEM_CALL : FAULT;
}

struct call call_of(const struct registers *registers)
{
    return (struct call){registers->x[8], registers->x[0], registers->x[1], registers->x[2]};
}

struct fault fault_of(const struct registers *registers)
{
    uint64_t number = class_of(registers);
    bool is_data = number == DATA_ABORT, is_write = is_data && registers->syndrome >> 6 & 1;
    return (struct fault){number, registers->pc, is_data || number == INSTRUCTION_ABORT, is_write, registers->address};
}

void set_result(struct registers *registers, uint64_t result) { registers->x[0] = result; }
void continue_at(struct registers *registers, uint64_t address) { registers->pc = address; }

void begin_thread(struct registers *registers, struct vectors *vectors, uint64_t address, uint64_t stack, uint64_t argument)
{
    *registers = (struct registers){.x = {argument}, .sp = stack, .pc = address};
    *vectors = (struct vectors){0};
}

void leave_planted(struct registers *registers, const struct registers *before)
{
    if (planted == NO_FLAGS) registers->flags = before->flags;
    if (planted == NO_THREAD_POINTER) registers->thread_pointer = before->thread_pointer;
}

/* ---- The way out ---------------------------------------------------------------------------------------------------------- */

/* Writes to the serial port, and waits while its buffer is full. */
void write_out(const char *text, size_t bytes)
{
    for (size_t i = 0; i < bytes; i++) {
        while (SERIAL[0x18 / 4] & 1 << 5) {}
        SERIAL[0] = (uint8_t)text[i];
    }
}

/* Asks QEMU to exit, by a call of semihosting. */
_Noreturn void stop(int status)
{
    flush();
    const uint64_t exit[2] = {0x20026, 2 * (uint64_t)status + 1};
    register uint64_t call __asm__("x0") = 0x18;
    register const uint64_t *block __asm__("x1") = exit;
    for (;;) __asm__ volatile("hlt #0xf000" : : "r"(call), "r"(block) : "memory");
}

/* ---- Memory --------------------------------------------------------------------------------------------------------------- */

/* Unaligned accesses fault, so these functions use words of 8 bytes only between addresses that are multiples of 8. A volatile
 * pointer prevents that the compiler calls memset or memcpy in place of the loop. */
void *memset(void *to, int byte, size_t bytes)
{
    volatile uint8_t *at = to, *const end = at + bytes;
    const uint64_t word = 0x0101010101010101u * (uint8_t)byte;
    while ((uintptr_t)at % 8 && at < end) *at++ = (uint8_t)byte;
    for (; end - at >= 8; at += 8) *(volatile uint64_t *)at = word;
    while (at < end) *at++ = (uint8_t)byte;
    return to;
}

void *memcpy(void *restrict to, const void *restrict from, size_t bytes)
{
    volatile uint8_t *at = to, *const end = at + bytes;
    const uint8_t *its = from;
    if ((uintptr_t)at % 8 == (uintptr_t)its % 8) {
        while ((uintptr_t)at % 8 && at < end) *at++ = *its++;
        for (; end - at >= 8; at += 8, its += 8) *(volatile uint64_t *)at = *(const uint64_t *)its;
    }
    while (at < end) *at++ = *its++;
    return to;
}
