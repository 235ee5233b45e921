/* Runs a trace through the library for C, and follows marked commands, instruction by instruction.
 *
 * same_path ORDER SUPERBLOCKS TENANTS talk         runs the lines of standard input; writes the reply to each, and a line "."
 * same_path ORDER SUPERBLOCKS TENANTS step [N]     runs a trace from standard input; writes a row for each marked command, or,
 *                                                  with N, a row for each step of marked command N
 *
 * A row of a trace is not marked if it begins with '.': its line is run at full speed. The marks of commands that are followed
 * are '+' before a line, and '=' before an event, written as its kind, tenant, first and second number and the hex of its bytes.
 * '@' comes before a direct call, written in the same way; if the call frees, reads or gives back, the program lends first. '*',
 * '#' and '&' are like '+', '=' and '@', but the command is followed into memcpy, memmove and memset too. A row of the output has
 * the number of steps of a command, a hash of the addresses of its instructions, a hash of the places that they read and wrote,
 * and a hash of the results. The row of a step has the address of the instruction and the hash of the places.
 *
 * The processor traps after each instruction while its trap flag is set, and the handler of the signal SIGTRAP sees all
 * registers. So the program follows itself, which takes a fourth of the time of ptrace and needs no permission to trace. The
 * program turns address randomisation off. Link it statically, so that each instruction has the same address in every run.
 *
 * The file "operands", if there is one in the working folder, has the memory operand of each instruction (as the script reads them
 * from a disassembly). A block that boot took has one part for each superblock if its size is a multiple of the number of
 * superblocks; for a block that grew in boot, this number is rounded up to a power of two. Any other block is a single part. The
 * hash of an access to a block is made of the block's size (plus 1 if the block is in the RAM), the number of the part, and the
 * offset in the part. In each command, parts are numbered in the order of their first access. So equal hashes mean equal
 * accesses, except for the numbers of superblocks. The hash of any other access is made of its address.
 */
#define _GNU_SOURCE /* registers by name */
#include <fcntl.h>
#include <signal.h>
#include <stdbool.h>
#include <stdio.h>
#include <stdlib.h>
#include <string.h>
#include <sys/mman.h>
#include <sys/personality.h>
#include <sys/stat.h>
#include <ucontext.h>
#include <unistd.h>

#include "partmem.h"

enum { MAX_BLOCKS = 1 << 12, MAX_PARTS = 1 << 18, MAX_SHOWN = 1 << 21, MAX_ROW = 1 << 10 };

static void hold(bool holds, const char *what)
{
    if (holds) return;
    fprintf(stderr, "same path: %s\n", what);
    exit(1);
}

/* The blocks that boot took, by address. */
static struct block {
    uint64_t start, size, part_bytes;
    uint32_t first_part;
    bool has_grown, is_superblock;
} blocks[MAX_BLOCKS];
static uint32_t block_count;

static void add_block(void *start, size_t size, bool has_grown)
{
    hold(block_count < MAX_BLOCKS, "too many blocks");
    blocks[block_count++] = (struct block){.start = (uint64_t)start, .size = size, .has_grown = has_grown};
}

/* The functions of memory.c by which the kernel allocates. */
struct allocation {
    bool is_done;
    void *at;
};
struct allocation __real_rattle_alloc(size_t bytes, size_t align);
struct allocation __wrap_rattle_alloc(size_t bytes, size_t align)
{
    struct allocation got = __real_rattle_alloc(bytes, align);
    add_block(got.at, bytes, false);
    return got;
}

struct allocation __real_rattle_realloc(void *old, size_t kept, size_t bytes, size_t align);
struct allocation __wrap_rattle_realloc(void *old, size_t kept, size_t bytes, size_t align)
{
    for (uint32_t i = 0; i < block_count; i++) {
        if (blocks[i].start == (uint64_t)old) blocks[i] = blocks[--block_count];
    }
    struct allocation got = __real_rattle_realloc(old, kept, bytes, align);
    add_block(got.at, bytes, true);
    return got;
}

static int by_start(const void *first, const void *second)
{
    uint64_t a = ((const struct block *)first)->start, b = ((const struct block *)second)->start;
    return (a > b) - (a < b);
}

static void boot(partmem_machine *machine, uint32_t order, uint32_t superblocks, uint32_t tenants)
{
    const partmem_config config = {order, superblocks, tenants};
    hold(partmem_boot(machine, &config) == PARTMEM_DONE, "boot");
    qsort(blocks, block_count, sizeof blocks[0], by_start);
    const uint64_t ram = (uint64_t)partmem_superblock_address(machine, 0);
    uint32_t parts = 0, room = 1;
    while (room < superblocks) room *= 2;
    for (uint32_t i = 0; i < block_count; i++) {
        uint32_t count = blocks[i].has_grown ? room : superblocks;
        bool is_cut = blocks[i].size > 0 && blocks[i].size % count == 0;
        blocks[i].first_part = parts;
        blocks[i].is_superblock = blocks[i].start - ram < PARTMEM_RAM_BYTES(order, superblocks);
        blocks[i].part_bytes = is_cut ? blocks[i].size / count : UINT64_MAX;
        parts += is_cut ? count : 1;
    }
    hold(parts <= MAX_PARTS, "too many parts of blocks");
}

/* The memory operand of the instruction at each address of the program's text. A register's number is its place in a signal
 * frame. */
struct operand {
    int32_t displacement;
    uint8_t base, index, scale, is_there;
};
enum { NO_REGISTER = 255 };
static const struct operand *operands;
static uint64_t text_start, text_bytes;

static void map_operands(void)
{
    struct stat found;
    int file = open("operands", O_RDONLY);
    if (file < 0) return;
    hold(fstat(file, &found) == 0 && found.st_size >= 16, "the operands");
    const uint64_t *mapped = mmap(NULL, (size_t)found.st_size, PROT_READ, MAP_PRIVATE, file, 0);
    hold(mapped != MAP_FAILED, "the operands");
    text_start = mapped[0];
    text_bytes = mapped[1];
    operands = (const struct operand *)(mapped + 2);
    hold((uint64_t)found.st_size == 16 + text_bytes * sizeof(struct operand), "the operands");
}

/* What is known of the command that is being followed. */
static struct {
    uint64_t steps, path, data;
    uint32_t command, touched;
} now;
static struct {
    uint32_t command, number;
} met[MAX_PARTS];
static uint64_t shown[MAX_SHOWN][2];
static uint32_t shown_command;

static uint64_t mix(uint64_t hash, uint64_t value)
{
    hash = (hash ^ value) * 0x9e3779b97f4a7c15u;
    return hash ^ hash >> 29;
}

static const struct block *block_of(uint64_t address)
{
    uint32_t low = 0, high = block_count;
    while (low < high) {
        uint32_t middle = (low + high) / 2;
        if (blocks[middle].start <= address) low = middle + 1;
        else high = middle;
    }
    return low > 0 && address - blocks[low - 1].start < blocks[low - 1].size ? &blocks[low - 1] : NULL;
}

static uint64_t told_of_address(uint64_t address)
{
    const struct block *block = block_of(address);
    if (!block) return address;
    uint64_t offset = address - block->start, part = block->first_part + offset / block->part_bytes;
    if (met[part].command != now.command) {
        met[part].command = now.command;
        met[part].number = now.touched++;
    }
    return mix(mix(block->size + block->is_superblock, met[part].number), offset % block->part_bytes);
}

/* Counts a step at an address. `touched` is the hash of what it read or wrote, or 0. */
static void count_step(uint64_t at, uint64_t touched)
{
    now.path = mix(now.path, at);
    if (touched) now.data = mix(now.data, touched);
    if (now.command == shown_command && now.steps < MAX_SHOWN) {
        shown[now.steps][0] = at;
        shown[now.steps][1] = touched;
    }
    now.steps++;
}

static void on_trap(int signal, siginfo_t *info, void *context)
{
    (void)signal, (void)info;
    const greg_t *registers = ((ucontext_t *)context)->uc_mcontext.gregs;
    uint64_t at = (uint64_t)registers[REG_RIP], told = 0;
    if (at - text_start < text_bytes && operands[at - text_start].is_there) {
        struct operand it = operands[at - text_start];
        uint64_t address = (uint64_t)(int64_t)it.displacement;
        if (it.base != NO_REGISTER) address += (uint64_t)registers[it.base];
        if (it.index != NO_REGISTER) address += (uint64_t)registers[it.index] * it.scale;
        told = told_of_address(address);
        if (it.is_there == 2) told = mix(told, told_of_address((uint64_t)registers[REG_RDI]));
    }
    count_step(at, told);
}

static void catch_traps(void)
{
    static uint8_t room[1 << 16];
    stack_t stack = {.ss_sp = room, .ss_size = sizeof room};
    struct sigaction action = {.sa_sigaction = on_trap, .sa_flags = SA_SIGINFO | SA_ONSTACK};
    hold(sigaltstack(&stack, NULL) == 0 && sigaction(SIGTRAP, &action, NULL) == 0, "the signal of a trap");
}

#define FOLLOW() __asm__ volatile("pushfq\n\torq $0x100, (%%rsp)\n\tpopfq" ::: "memory", "cc")
#define LET_GO() __asm__ volatile("pushfq\n\tandq $~0x100, (%%rsp)\n\tpopfq" ::: "memory", "cc")

/* Whether memcpy, memmove and memset run at full speed. If so, each call is one step. The length and the two addresses modulo 64
 * are a part of the path's hash, and the two addresses, as places in their blocks, are a part of the hash of the accesses. */
static bool is_apart;

static void tell_apart(const void *to, const void *from, size_t count)
{
    uint64_t lie = mix(count, ((uint64_t)to % 64) << 6 | (uint64_t)from % 64);
    now.path = mix(now.path, lie);
    count_step((uint64_t)tell_apart, mix(mix(lie, told_of_address((uint64_t)to)), from ? told_of_address((uint64_t)from) : 0));
}

#define APART(to, from, count, call) \
    do { \
        if (!is_apart) return call; \
        LET_GO(); \
        tell_apart(to, from, count); \
        call; \
        FOLLOW(); \
        return to; \
    } while (0)

void *__real_memcpy(void *to, const void *from, size_t count);
void *__wrap_memcpy(void *to, const void *from, size_t count)
{
    APART(to, from, count, __real_memcpy(to, from, count));
}

void *__real_memmove(void *to, const void *from, size_t count);
void *__wrap_memmove(void *to, const void *from, size_t count)
{
    APART(to, from, count, __real_memmove(to, from, count));
}

void *__real_memset(void *to, int byte, size_t count);
void *__wrap_memset(void *to, int byte, size_t count)
{
    APART(to, NULL, count, __real_memset(to, byte, count));
}

static partmem_machine machine;
static char row[MAX_ROW];
static char line[MAX_ROW], buffer[PARTMEM_LINE_BUFFER_BYTES];
static uint8_t bytes[MAX_ROW];
static size_t line_len, bytes_len, written;
static partmem_request request;
static partmem_reply reply;

/* Each kind of command is run from one place in the code, and all its arguments lie at fixed addresses. */
__attribute__((noinline)) static uint32_t follow_line(void)
{
    FOLLOW();
    uint32_t status = partmem_line(&machine, line, line_len, buffer, sizeof buffer, &written);
    LET_GO();
    return status;
}

__attribute__((noinline)) static uint32_t follow_event(void)
{
    FOLLOW();
    uint32_t status = partmem_event(&machine, &request, bytes, bytes_len, &reply, buffer, sizeof buffer);
    LET_GO();
    return status;
}

/* The results of direct calls. Addresses are not compared, since a tenant may have other superblocks when it is alone. */
static struct {
    partmem_status lent_as, status;
    partmem_lent lent, made;
    partmem_cache cache;
    partmem_figures figures;
    uint32_t frames;
} results;

/* Makes the direct call of `request`. Before a free, a read or a give, lends the block, the bytes or the object. */
static void call(partmem_tenant tenant, uint32_t first, uint32_t second)
{
    switch (request.kind) {
    case PARTMEM_ALLOC: results.status = partmem_alloc(tenant, first, &results.made); break;
    case PARTMEM_FREE:
        results.lent_as = partmem_lend_block(tenant, first * PARTMEM_FRAME_BYTES, &results.lent);
        results.status = partmem_free(tenant, first * PARTMEM_FRAME_BYTES);
        break;
    case PARTMEM_READ:
        results.lent_as = partmem_lend(tenant, first, second, &results.lent);
        results.status = partmem_read(tenant, first, buffer, second > PARTMEM_MAX_BYTES ? PARTMEM_MAX_BYTES + 1 : second);
        break;
    case PARTMEM_WRITE: results.status = partmem_write(tenant, first, bytes, bytes_len); break;
    case PARTMEM_CACHE: results.status = partmem_make_cache(tenant, first, second, bytes, bytes_len, &results.cache); break;
    case PARTMEM_DESTROY: results.status = partmem_destroy_cache(tenant, first); break;
    case PARTMEM_TAKE: results.status = partmem_take(tenant, first, &results.made); break;
    case PARTMEM_GIVE:
        results.lent_as = partmem_lend_object(tenant, first, second, &results.lent);
        results.status = partmem_give(tenant, first, second);
        break;
    case PARTMEM_REAP: results.status = partmem_reap(tenant, &results.frames); break;
    case PARTMEM_REPORT: results.status = partmem_report(tenant, &results.figures); break;
    }
}

__attribute__((noinline)) static uint32_t follow_call(void)
{
    const partmem_tenant tenant = {&machine, request.tenant};
    FOLLOW();
    call(tenant, request.first, request.second);
    LET_GO();
    hold(!results.lent.at == !results.lent.bytes && !results.made.at == !results.made.bytes, "what is lent");
    results.lent.at = results.made.at = NULL;
    return PARTMEM_DONE;
}

static uint64_t hash_of(const void *some, size_t count)
{
    uint64_t hash = count;
    for (size_t i = 0; i < count; i++) hash = mix(hash, ((const uint8_t *)some)[i]);
    return hash;
}

static void read_event(const char *text)
{
    char hex[MAX_ROW] = "";
    int read = sscanf(text, "%u %u %u %u %1000s", &request.kind, &request.tenant, &request.first, &request.second, hex);
    hold(read >= 4, "an event");
    bytes_len = strlen(hex) / 2;
    for (size_t i = 0; i < bytes_len; i++) hold(sscanf(hex + 2 * i, "%2hhx", &bytes[i]) == 1, "the bytes of an event");
}

static void run_row(void)
{
    static uint32_t commands;
    bool is_call = row[0] == '@' || row[0] == '&', is_event = row[0] == '=' || row[0] == '#';
    bool is_followed = row[0] != '.', is_whole = row[0] == '*' || row[0] == '#' || row[0] == '&';
    line_len = strlen(row) - 1;
    memcpy(line, row + 1, line_len);
    if (!is_followed) {
        hold(partmem_line(&machine, line, line_len, buffer, sizeof buffer, &written) == PARTMEM_DONE, "a line");
        return;
    }
    memset(&now, 0, sizeof now);
    memset(&reply, 0, sizeof reply);
    memset(&results, 0, sizeof results);
    now.command = ++commands;
    written = 0;
    if (is_event || is_call) read_event(row + 1);
    is_apart = !is_whole;
    uint32_t status = is_event ? follow_event() : is_call ? follow_call() : follow_line();
    is_apart = false;
    hold(status == PARTMEM_DONE, is_event ? "an event that is followed" : "a line that is followed");
    hold(now.steps > 0, "no step was trapped");
    if (is_event) written = reply.kind == PARTMEM_BYTES ? reply.first : 0;
    if (is_call) written = request.kind == PARTMEM_READ && results.status == PARTMEM_DONE ? request.second : 0;
    uint64_t answer = mix(mix(hash_of(buffer, written), hash_of(&reply, sizeof reply)), hash_of(&results, sizeof results));
    if (!shown_command) printf("%lu %016lx %016lx %016lx\n", now.steps, now.path, now.data, answer);
    for (uint64_t i = 0; now.command == shown_command && i < now.steps && i < MAX_SHOWN; i++) {
        printf("%lx %lx\n", shown[i][0], shown[i][1]);
    }
}

static void talk_line(void)
{
    hold(partmem_line(&machine, row, strlen(row), buffer, sizeof buffer, &written) == PARTMEM_DONE, "a line");
    fwrite(buffer, 1, written, stdout);
    puts(".");
    fflush(stdout);
}

int main(int argc, char **argv)
{
    static char *none[] = {NULL};
    int persona = personality(0xffffffff);
    hold(persona != -1, "the personality of the process");
    if (!(persona & ADDR_NO_RANDOMIZE)) {
        hold(personality((unsigned long)persona | ADDR_NO_RANDOMIZE) != -1, "address randomisation stays on");
        execve("/proc/self/exe", argv, none);
        hold(false, "the program can't start itself");
    }
    hold(argc >= 5, "usage: same_path ORDER SUPERBLOCKS TENANTS talk|step [N]");
    bool talks = strcmp(argv[4], "talk") == 0;
    shown_command = argc > 5 ? (uint32_t)atol(argv[5]) : 0;
    boot(&machine, (uint32_t)atol(argv[1]), (uint32_t)atol(argv[2]), (uint32_t)atol(argv[3]));
    map_operands();
    catch_traps();
    while (fgets(row, sizeof row, stdin)) {
        row[strcspn(row, "\n")] = 0;
        if (talks) talk_line();
        else run_row();
    }
    return partmem_end(&machine) == PARTMEM_DONE ? 0 : 1;
}
