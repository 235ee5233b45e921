/* Runs lines without an operating system: on the board of examples/virt.c, with an archive for kernels. Prints their replies, and
 * then how many bytes of stack the calls used. LINES is the name of a file with the lines; ORDER, SUPERBLOCKS and TENANTS are the
 * sizes of the machine. If BREACH is defined, the program does what the board has to trap, before the first line.
 */
#include "partmem.h"

void put(const char *text), stop(int status);
extern uint64_t stack[], stack_end[];

__asm__(".section .rodata\n"
        "lines: .incbin \"" LINES "\"\n"
        "lines_end:\n"
        ".text\n");
extern const char lines[], lines_end[];

#ifdef __aarch64__
#define MOVE "mov"
#else
#define MOVE "mv"
#endif
enum { VECTOR = 1, UNALIGNED = 2, UNTOUCHED = 0xa5 };

static _Alignas(4096) unsigned char ram[PARTMEM_RAM_BYTES(ORDER, SUPERBLOCKS)];
static _Alignas(16) unsigned char tables[PARTMEM_TABLE_BYTES(ORDER, SUPERBLOCKS, TENANTS)];
static partmem_machine machine;
static char buffer[PARTMEM_LINE_BUFFER_BYTES + 1];

static void must(partmem_status status)
{
    if (status == PARTMEM_DONE) return;
    put(partmem_strerror(status));
    stop(1);
}

static void put_number(unsigned long number)
{
    char digits[21], *at = digits + sizeof digits - 1;
    *at = 0;
    do *--at = (char)('0' + number % 10);
    while (number /= 10);
    put(at);
}

#ifdef BREACH
static void breach(void)
{
#ifdef __aarch64__
    if (BREACH == VECTOR) __asm__ volatile("mov v0.16b, v1.16b");
    if (BREACH == UNALIGNED) __asm__ volatile("ldr x0, [%0, #1]" ::"r"(ram) : "x0");
#else
    __asm__ volatile(".option push; .option arch, +d; fmv.d.x ft0, zero; .option pop");
#endif
}
#else
static void breach(void) {}
#endif

void start(void)
{
    const char *line = lines, *end;
    size_t written;
    uint64_t *at, *here; /* the stack pointer at each call of this function */
    __asm__ volatile(MOVE " %0, sp" : "=r"(here));
    for (at = stack; at < here; at++) *(volatile uint64_t *)at = UNTOUCHED;
    breach();
    must(partmem_boot_in(&machine, &(partmem_config){ORDER, SUPERBLOCKS, TENANTS}, &(partmem_memory){ram, tables}));
    for (; line < lines_end; line = end + 1) {
        for (end = line; *end != '\n'; end++) {}
        must(partmem_line(&machine, line, (size_t)(end - line), buffer, sizeof buffer, &written));
        buffer[written] = 0;
        put(buffer);
    }
    must(partmem_end(&machine));
    for (at = stack; *at == UNTOUCHED; at++) {}
    put("stack ");
    put_number((unsigned long)(here - at) * sizeof *at);
    put("\n");
    stop(0);
}
