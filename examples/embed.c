/* A freestanding program: two static arrays are the memory of a machine. The library needs memcpy, memmove and memset, and
 * nothing else. What comes after "The board" is for x86-64 Linux without a C library. A kernel or a board has other code there:
 * virt.c is a board for AArch64 and RISC-V.
 *
 *     gcc -std=c11 -O2 -ffreestanding -nostdlib -static examples/embed.c -lpartmem -o embed
 */
#include "partmem.h"

enum { ORDER = 3, SUPERBLOCKS = 4, TENANTS = 2 };

static _Alignas(4096) unsigned char ram[PARTMEM_RAM_BYTES(ORDER, SUPERBLOCKS)];
static _Alignas(16) unsigned char tables[PARTMEM_TABLE_BYTES(ORDER, SUPERBLOCKS, TENANTS)];
static partmem_machine machine;
static const partmem_tenant driver = {&machine, 0}, logger = {&machine, 1};

/* Messages are objects of the logger. Each holds the place of the message before it, not the address, since a move changes
 * addresses. */
struct message {
    uint32_t before;
    char text[28];
};
static partmem_cache messages;
static uint32_t last_message = PARTMEM_NO_PLACE;

void put(const char *text), stop(int status);

static void must(partmem_status status)
{
    if (status == PARTMEM_DONE) return;
    put(partmem_strerror(status));
    stop(1);
}

static void add_message(const char *text)
{
    partmem_lent object;
    must(partmem_take(logger, messages.cache, &object));
    struct message *message = object.at;
    message->before = last_message;
    for (size_t i = 0; i < sizeof message->text - 1 && text[i]; i++) message->text[i] = text[i]; /* a new object is zeroes */
    last_message = object.place;
}

static void put_messages(void)
{
    const struct message *message;
    for (uint32_t at = last_message; (message = partmem_object_at(logger, messages.cache, at)); at = message->before)
        put(message->text);
}

void start(void)
{
    partmem_slot slot;
    partmem_lent page;
    must(partmem_boot_in(&machine, &(partmem_config){ORDER, SUPERBLOCKS, TENANTS}, &(partmem_memory){ram, tables}));
    must(partmem_grant(driver, &slot));
    must(partmem_grant(logger, &slot));
    must(partmem_make_cache(logger, sizeof(struct message), 8, "", 1, &messages));
    must(partmem_alloc(driver, 0, &page)); /* a page at page.at, where a device could write */
    add_message("the driver has a page\n");
    must(partmem_move(logger, slot.slot, &slot));
    if (partmem_free(logger, page.place) == PARTMEM_NOT_A_BLOCK) add_message("the logger cannot free it\n");
    put_messages();
    must(partmem_end(&machine));
    stop(0);
}

/* ---- The board ---------------------------------------------------------------------------------------------------------- */

#ifdef __x86_64__

__asm__(".globl _start\n_start: call start\n"); /* the stack is aligned to 16 bytes */

void put(const char *text)
{
    for (long call = 1; *text; text++, call = 1) /* write */
        __asm__ volatile("syscall" : "+a"(call) : "D"(1), "S"(text), "d"(1) : "rcx", "r11", "memory");
}

void stop(int status)
{
    for (long call = 60;;) __asm__ volatile("syscall" : "+a"(call) : "D"(status) : "rcx", "r11"); /* exit */
}

void *memset(void *to, int byte, size_t bytes)
{
    void *at = to;
    __asm__ volatile("rep stosb" : "+D"(at), "+c"(bytes) : "a"(byte) : "memory");
    return to;
}

void *memcpy(void *to, const void *from, size_t bytes)
{
    void *at = to;
    __asm__ volatile("rep movsb" : "+D"(at), "+S"(from), "+c"(bytes) : : "memory");
    return to;
}

void *memmove(void *to, const void *from, size_t bytes)
{
    if ((uintptr_t)to - (uintptr_t)from >= bytes) return memcpy(to, from, bytes);
    for (volatile unsigned char *at = to; bytes-- > 0;) at[bytes] = ((const unsigned char *)from)[bytes];
    return to;
}

#endif
