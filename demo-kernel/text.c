/* What the kernel prints, and memmove. */
#include <stdarg.h>

#include "kernel.h"

/* Printed text waits here until flush sends it to QEMU. So printing the same text always takes the same number of
 * instructions. */
static char waiting[1 << 16];
static size_t length;
uint64_t printing;

static void print_char(char c)
{
    if (length < sizeof waiting) waiting[length++] = c;
}

static void print_text(const char *text)
{
    while (*text) print_char(*text++);
}

static void print_number(uint64_t number)
{
    char digits[20];
    int n = 0;
    do digits[n++] = (char)('0' + number % 10);
    while (number /= 10);
    while (n) print_char(digits[--n]);
}

void print(const char *format, ...)
{
    uint64_t begin = stamp();
    va_list arguments;
    va_start(arguments, format);
    for (; *format; format++) {
        if (*format != '%') {
            print_char(*format);
        } else if (*++format == 's') {
            print_text(va_arg(arguments, const char *));
        } else if (*format == 'u') {
            print_number(va_arg(arguments, unsigned));
        } else {
            format++;
            print_number(va_arg(arguments, unsigned long));
        }
    }
    va_end(arguments);
    printing += stamp() - begin;
}

/* Prints bytes in hexadecimal. */
void print_bytes(const void *from, size_t bytes)
{
    uint64_t begin = stamp();
    const uint8_t *at = from;
    for (size_t i = 0; i < bytes; i++) print_char("0123456789abcdef"[at[i] >> 4]), print_char("0123456789abcdef"[at[i] & 15]);
    printing += stamp() - begin;
}

void flush(void)
{
    write_out(waiting, length);
    length = 0;
}

_Noreturn void panic(const char *why)
{
    print("\n# kernel: panic: %s\n", why);
    stop(1);
}

void *memmove(void *to, const void *from, size_t bytes)
{
    if ((uintptr_t)to - (uintptr_t)from >= bytes) return memcpy(to, from, bytes);
    for (size_t i = bytes; i--;) ((volatile uint8_t *)to)[i] = ((const uint8_t *)from)[i];
    return to;
}

/* An unproved library calls this function if one of its checks fails. It also has a constructor that prints a warning by this
 * function, but this kernel does not run constructors. */
long write(int file, const void *text, size_t bytes);
long write(int file, const void *text, size_t bytes)
{
    (void)file;
    for (size_t i = 0; i < bytes; i++) print_char(((const char *)text)[i]);
    panic("a check of the library failed");
}
