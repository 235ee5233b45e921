/* Page tables of four levels, with pages of 4 KiB. One GiB has the kernel and the RAM of partitions. It is mapped in all address
 * spaces, for the kernel only. For user mode, a tenant's page blocks are mapped only in the tenant's own address space. */
#include "kernel.h"

enum { TABLES = (FRAMES + 511) / 512 };

typedef uint64_t table[512] __attribute__((aligned(FRAME)));

extern table kernel_root, kernel_pointers, kernel_directory; /* kernel_directory is for the GiB with the kernel */
extern uint8_t kernel_guard[], kernel_stack_top[];
extern const char programs[], programs_bytes[];
static table roots[PARTITIONS], pointers[PARTITIONS], directories[PARTITIONS], pages[PARTITIONS][TABLES];
static table code_pointers, code_directory, code_pages, guard_pages;
static unsigned entered = PARTITIONS; /* the partition whose address space is in use; PARTITIONS at boot */

static uint64_t entry_of(const void *at, uint64_t rights) { return (uint64_t)at | rights; }

/* Unmaps the page below the kernel's stack, so that an overflow causes a fault, whose handler has its own stack (duty 9).
 * Fills the unused part of the stack with 0xcc, so that stack_used can find how much of it was ever used. */
static void guard_stack(void)
{
    for (volatile uint8_t *at = kernel_guard + FRAME; at < (uint8_t *)__builtin_frame_address(0) - 128; at++) *at = 0xcc;
    uint64_t guard = (uint64_t)kernel_guard, region = guard >> 21 << 21;
    for (unsigned i = 0; i < 512; i++) guard_pages[i] = (region + i * FRAME) | KERNEL_PAGE;
    guard_pages[guard / FRAME % 512] = 0;
    kernel_directory[(guard >> 21) % 512] = entry_of(guard_pages, KERNEL_TABLE);
}

uint64_t stack_used(void)
{
    const uint8_t *at = kernel_guard + FRAME;
    while (*at == 0xcc) at++;
    return (uint64_t)(kernel_stack_top - at);
}

void set_up_pages(void)
{
    guard_stack();
    for (size_t i = 0; i < (size_t)programs_bytes / FRAME; i++) code_pages[i] = entry_of(programs + i * FRAME, PROGRAM_PAGE);
    code_directory[0] = entry_of(code_pages, USER_TABLE);
    code_pointers[0] = entry_of(code_directory, USER_TABLE);
    for (unsigned t = 0; t < PARTITIONS; t++) {
        roots[t][0] = entry_of(kernel_pointers, KERNEL_TABLE);
        roots[t][USER_PLACES >> 39] = entry_of(pointers[t], USER_TABLE);
        roots[t][USER_CODE >> 39] = entry_of(code_pointers, USER_TABLE);
        pointers[t][0] = entry_of(directories[t], USER_TABLE);
        for (unsigned i = 0; i < TABLES; i++) directories[t][i] = entry_of(pages[t][i], USER_TABLE);
    }
    use_tables(kernel_root);
}

static uint64_t *page_of(unsigned t, uint32_t place) { return &pages[t][place / FRAME / 512][place / FRAME % 512]; }

void map(unsigned t, uint32_t place, void *at, uint32_t bytes)
{
    for (uint32_t b = 0; b < bytes; b += FRAME) *page_of(t, place + b) = entry_of((uint8_t *)at + b, USER_PAGE);
}

/* Unmaps places of a tenant, and flushes them from the TLB. If the tenant's address space is not in use, the TLB has nothing of
 * it, since each switch of address spaces flushes the TLB. */
void unmap(unsigned t, uint32_t place, uint32_t bytes)
{
    for (uint32_t b = 0; b < bytes; b += FRAME) {
        *page_of(t, place + b) = 0;
        if (planted != NO_FLUSH) flush_page(USER_PLACES + place + b);
    }
}

void enter_space(unsigned t)
{
    if (t == entered) return;
    entered = t;
    use_tables(roots[t]);
}

/* Returns where the kernel reads the byte that programs have at `address`, or NULL if `address` is not in the programs. */
const char *program_text(uint64_t address)
{
    uint64_t offset = address - USER_CODE;
    return offset < (uint64_t)programs_bytes ? programs + offset : NULL;
}
