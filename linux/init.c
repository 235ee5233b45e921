/* /init of the virtual machine that linux/run boots. Partition 0 does the same in quiet and in noisy worlds, and prints the
 * results of its calls and what it finds. linux/run compares these lines. In a noisy world partition 1 meanwhile allocates, frees
 * and stores at random, slots of both are moved, and partition 1 is reset. Perl runs in worlds of its own, with its heap in a
 * partition whose slots are moved. The output goes to port 0xe9. */
#include "init.h"

#include <errno.h>
#include <poll.h>
#include <signal.h>
#include <stdio.h>
#include <string.h>
#include <sys/io.h>
#include <sys/mount.h>
#include <sys/reboot.h>
#include <sys/stat.h>
#include <sys/syscall.h>
#include <sys/uio.h>

enum { ROUNDS = 4000, MEETING = 40, SLOTS = 3, PORT = 0xe9, OTHER = 0xbb };
enum { PERL_SUPERBLOCKS = 40, PERL_SLOTS = 36 }; /* at order 6 */

int file;
uint8_t *places;
struct block blocks[MOST];
uint32_t held;
uint64_t wrong;
sigjmp_buf on_bus_error;

struct partmem_call call(unsigned long kind, uint32_t partition, uint32_t number)
{
    struct partmem_call made = {.partition = partition, .number = number};
    if (ioctl(file, kind, &made)) made.status = 1000 + errno;
    return made;
}

uint64_t random_of(uint64_t *state)
{
    *state ^= *state << 13;
    *state ^= *state >> 7;
    *state ^= *state << 17;
    return *state;
}

void die(const char *what)
{
    fprintf(stderr, "init: %s: %s\n", what, strerror(errno));
    _exit(1);
}

/* ---- Partitions ---------------------------------------------------------------------------------------------------------- */

void bus_error(int number)
{
    siglongjmp(on_bus_error, number);
}

const char *touched(uint32_t place)
{
    if (sigsetjmp(on_bus_error, 1)) return "SIGBUS";
    (void)*(volatile uint8_t *)(places + place);
    return "there";
}

static volatile uint64_t *words(const struct block *block)
{
    return (volatile uint64_t *)(places + block->place);
}

static uint64_t word(const struct block *block, uint32_t i)
{
    return (block->seed + i) * 0x9e3779b97f4a7c15u | 1;
}

void fill(struct block *block, uint64_t seed)
{
    block->seed = seed;
    for (uint32_t i = 0; i < block->bytes / 8; i++) words(block)[i] = word(block, i);
}

void check(const struct block *block)
{
    for (uint32_t i = 0; i < block->bytes / 8; i++) wrong += words(block)[i] != word(block, i);
}

bool add(uint32_t order)
{
    struct partmem_call made = call(PARTMEM_IOC_ALLOC, 0, order);
    if (made.status) return false;
    blocks[held++] = (struct block){made.place, made.bytes, 0};
    return true;
}

static void print_new(const struct block *block)
{
    uint64_t hash = 0;
    for (uint32_t i = 0; i < block->bytes / 8; i++) hash = (hash ^ words(block)[i]) * 1099511628211u;
    printf("%u bytes at place %u, hash %lx\n", block->bytes, block->place, hash);
}

static void drop(struct block *block)
{
    check(block);
    const uint32_t status = call(PARTMEM_IOC_FREE, 0, block->place).status;
    printf("freed place %u: status %u, then %s\n", block->place, status, touched(block->place + block->bytes - 1));
    *block = blocks[--held];
}

/* Sends a byte to the administrator, and waits until the administrator answers. */
static void meet(int to_administrator, int from_administrator)
{
    char byte = 0;
    if (write(to_administrator, &byte, 1) != 1 || read(from_administrator, &byte, 1) != 1) die("no administrator");
}

static void work(int to_administrator, int from_administrator)
{
    uint64_t state = 1;
    for (unsigned round = 1; round <= ROUNDS; round++) {
        if (round % MEETING == 0) meet(to_administrator, from_administrator);
        const uint64_t random = random_of(&state), which = random >> 32;
        struct block *block = held ? &blocks[which % held] : NULL;
        if (random % 4 == 0 && held < MOST / 2) {
            if (!add(which % 4)) continue;
            print_new(&blocks[held - 1]);
            fill(&blocks[held - 1], random);
        } else if (block && random % 4 == 1) {
            drop(block);
        } else if (block) {
            check(block);
            fill(block, random);
            check(block);
        }
    }
}

/* Gets a new superblock, prints how many of its words are not 0, and uses it. In a noisy world partition 1 had the superblock
 * before, and its process still runs. */
static void take_over(int to_administrator, int from_administrator)
{
    char byte;
    uint64_t not_zero = 0;
    while (add(ORDER)) fill(&blocks[held - 1], 2); /* so that only the superblock that is granted next is free as a whole */
    meet(to_administrator, from_administrator);
    if (!add(ORDER)) die("no superblock");
    struct block *block = &blocks[held - 1];
    for (uint32_t i = 0; i < UNIT / 8; i++) not_zero += words(block)[i] != 0;
    printf("words that are not 0 in a new superblock: %lu\n", not_zero);
    struct iovec there = {(void *)words(block), 8}, here = {&byte, 1};
    printf("bytes of it that a debugger reads: %zd\n", process_vm_readv(getpid(), &here, 1, &there, 1, 0));
    for (int i = 0; i < 400; i++) {
        fill(block, i);
        usleep(200);
        check(block);
    }
}

static void run_partition_0(int to_administrator, int from_administrator)
{
    printf("place 0 before any block: %s\n", touched(0));
    printf("a grant by itself: status %u\n", call(PARTMEM_IOC_GRANT, 0, 0).status);
    work(to_administrator, from_administrator);
    take_over(to_administrator, from_administrator);
    for (uint32_t i = 0; i < held; i++) check(&blocks[i]);
    printf("wrong words: %lu\n", wrong);
    exit(0);
}

/* Reads the request from `asked`, allocates and fills all memory of the partition, and answers by `done`. */
static void fill_all(int asked, int done)
{
    char byte;
    if (read(asked, &byte, 1) != 1) die("not asked");
    for (held = 0; add(ORDER) || add(0); held = 0) memset(places + blocks[0].place, OTHER, blocks[0].bytes);
    if (write(done, &byte, 1) != 1) die("cannot say that all is filled");
}

/* Allocates, frees and stores at random, also at places that it does not have. Fills all its memory when it is asked to. */
static void run_partition_1(int asked, int done)
{
    static uint64_t state = 12345;
    struct pollfd is_asked = {asked, POLLIN, 0};
    sigsetjmp(on_bus_error, 1); /* it continues here after a store where nothing is mapped */
    for (;;) {
        const uint64_t random = random_of(&state), which = random >> 32;
        if (poll(&is_asked, 1, 0) == 1) fill_all(asked, done);
        if (held == MOST) held = 0;
        if (random % 2 && add(which % 5)) memset(places + blocks[held - 1].place, OTHER, blocks[held - 1].bytes);
        else call(PARTMEM_IOC_FREE, 0, which % (PLACES / FRAME) * FRAME);
        for (uint32_t i = 0; i < 20; i++) places[(which + i * FRAME) % PLACES] = OTHER;
    }
}

/* ---- The administrator ---------------------------------------------------------------------------------------------------- */

int bound_file(uint32_t partition)
{
    const int administrator = file, bound = file = open("/dev/partmem", O_RDWR);
    if (call(PARTMEM_IOC_BIND, partition, 0).status) die("cannot bind a file");
    file = administrator;
    return bound;
}

pid_t start(uint32_t partition)
{
    const int bound = bound_file(partition);
    const pid_t process = fork();
    if (process) {
        close(bound);
        return process;
    }
    close(file);
    file = bound;
    signal(SIGBUS, bus_error);
    if (setgid(1000 + partition) || setuid(1000 + partition)) die("cannot be a user");
    places = mmap(NULL, PLACES, PROT_READ | PROT_WRITE, MAP_SHARED, file, 0);
    if (places == MAP_FAILED) _exit(errno); /* the partition was reset meanwhile, or has too many mappings */
    return 0;
}

void end(pid_t process)
{
    kill(process, SIGKILL);
    waitpid(process, NULL, 0);
}

/* Opens the device for the first time, in a file system that is unmounted afterwards. */
static void open_elsewhere(void)
{
    struct stat device;
    mkdir("/elsewhere", 0700);
    if (stat("/dev/partmem", &device) || mount("elsewhere", "/elsewhere", "tmpfs", 0, NULL)) die("no other file system");
    if (mknod("/elsewhere/partmem", S_IFCHR | 0600, device.st_rdev)) die("no device there");
    const int opened = open("/elsewhere/partmem", O_RDWR);
    if (opened < 0 || close(opened) || unlink("/elsewhere/partmem") || umount("/elsewhere")) die("it cannot be unmounted");
}

static void load(const char *path, const char *words)
{
    const int module = open(path, O_RDONLY);
    if (syscall(SYS_finit_module, module, words, 0)) die("the module is not loaded");
    close(module);
    open_elsewhere();
    file = open("/dev/partmem", O_RDWR);
}

static void unload(void)
{
    close(file);
    if (syscall(SYS_delete_module, "partmem", 0)) die("the module is not unloaded");
}

static struct {
    pid_t neighbour;
    int asking[2], done[2];
    unsigned made, moves, resets;
} noise;

static void start_neighbour(void)
{
    noise.neighbour = start(1);
    if (!noise.neighbour) run_partition_1(noise.asking[0], noise.done[1]);
}

static void make_noise(uint64_t random)
{
    static const unsigned long kinds[] = {PARTMEM_IOC_GRANT, PARTMEM_IOC_MOVE, PARTMEM_IOC_TAKE_BACK};
    noise.moves += call(PARTMEM_IOC_MOVE, 0, noise.moves % SLOTS).status == 0;
    call(kinds[random % 3], 1, random >> 32 & 3);
    if (++noise.made % 25) return;
    call(PARTMEM_IOC_RESET, 1, 0); /* then a new process gets the partition */
    end(noise.neighbour);
    start_neighbour();
    noise.resets++;
}

/* Grants partition 0 a superblock. In a noisy world partition 1 first gets all superblocks that are left, fills them and loses
 * them, so partition 0 gets a superblock that was partition 1's. */
static void hand_over(bool is_noisy)
{
    char byte = 0;
    if (is_noisy) {
        while (!call(PARTMEM_IOC_GRANT, 1, 0).status) continue;
        if (write(noise.asking[1], &byte, 1) != 1 || read(noise.done[0], &byte, 1) != 1) die("the neighbour does not fill all");
        call(PARTMEM_IOC_RESET, 1, 0);
    }
    call(PARTMEM_IOC_GRANT, 0, 0);
}

static void run_world(bool is_noisy)
{
    int up[2], down[2], status;
    uint64_t state = 99;
    unsigned meetings = 0;
    memset(&noise, 0, sizeof noise);
    if (pipe(up) || pipe(down) || pipe(noise.asking) || pipe(noise.done)) die("no pipe");
    for (int i = 0; i < SLOTS; i++) call(PARTMEM_IOC_GRANT, 0, 0);
    const pid_t observed = start(0);
    if (!observed) run_partition_0(up[1], down[0]);
    if (is_noisy) start_neighbour();
    while (waitpid(observed, &status, WNOHANG) != observed) {
        struct pollfd is_asked = {up[0], POLLIN, 0};
        char byte;
        usleep(500);
        if (is_noisy && meetings <= ROUNDS / MEETING) make_noise(random_of(&state));
        else if (is_noisy) noise.moves += call(PARTMEM_IOC_MOVE, 0, noise.moves % SLOTS).status == 0;
        if (poll(&is_asked, 1, 0) != 1 || read(up[0], &byte, 1) != 1) continue;
        if (++meetings > ROUNDS / MEETING) hand_over(is_noisy);
        if (write(down[1], &byte, 1) != 1) die("cannot answer");
    }
    if (is_noisy) end(noise.neighbour);
    for (int i = 0; i < 2; i++) close(up[i]), close(down[i]), close(noise.asking[i]), close(noise.done[i]);
    printf("# ended with status %d, %u moves, %u resets\n", status, noise.moves, noise.resets);
}

static void run_perl(const char *script)
{
    char number[20];
    unsigned moves = 0;
    int status;
    for (int i = 0; i < PERL_SLOTS; i++) call(PARTMEM_IOC_GRANT, 0, 0);
    const int bound = bound_file(0);
    snprintf(number, sizeof number, "%d", bound);
    const pid_t perl = fork();
    if (!perl) {
        close(file);
        setenv("PARTMEM_FILE", number, 1), setenv("LD_PRELOAD", "/heap.so", 1), setenv("PERL_HASH_SEED", "0", 1);
        execl("/usr/bin/perl", "perl", script, NULL);
        die("perl");
    }
    close(bound);
    for (; waitpid(perl, &status, WNOHANG) != perl; usleep(300))
        moves += call(PARTMEM_IOC_MOVE, 0, moves % PERL_SLOTS).status == 0;
    printf("# ended with status %d, %u moves\n", status, moves);
}

/* ---- All of it ------------------------------------------------------------------------------------------------------------ */

/* Sends what is in /lines to port 0xe9, and empties /lines. */
static void send_lines(void)
{
    static char text[1 << 20];
    fflush(stdout);
    const ssize_t bytes = pread(1, text, sizeof text, 0);
    const char *from = text;
    size_t left = bytes > 0 ? (size_t)bytes : 0;
    __asm__ volatile("rep outsb" : "+S"(from), "+c"(left) : "d"(PORT) : "memory");
    if (ftruncate(1, 0)) die("cannot empty /lines");
}

static void run(const char *name, const char *module, const char *parameters, void (*world)(void))
{
    printf("== %s\n", name);
    load(module, parameters);
    world();
    unload();
    send_lines();
}

static void run_quiet(void) { run_world(false); }
static void run_noisy(void) { run_world(true); }
static void run_words(void) { run_perl("/words.pl"); }
static void run_limits(void) { run_perl("/limits.pl"); }

int main(void)
{
    mkdir("/dev", 0755);
    mount("devtmpfs", "/dev", "devtmpfs", 0, NULL);
    const int console = open("/dev/console", O_RDWR), lines = open("/lines", O_RDWR | O_CREAT | O_APPEND, 0600);
    dup2(console, 2), dup2(lines, 1), setvbuf(stdout, NULL, _IOLBF, 0);
    if (getpid() != 1 || lines < 0 || ioperm(PORT, 1, 1)) die("not the init of linux/run");
    run("quiet", "/partmem.ko", "", run_quiet);
    run("noisy", "/partmem.ko", "", run_noisy);
    run("own thunks", "/thunks.ko", "", run_noisy);
    run("perl", "/partmem.ko", "order=6 superblocks=40 partitions=1", run_words);
    run("limits", "/partmem.ko", "order=6 superblocks=40 partitions=1", run_limits);
    run("hostile", "/partmem.ko", "", run_hostile);
    run("no unmapping at a free", "/mistakes.ko", "mistake=1", run_noisy);
    run("no unmapping at a move", "/mistakes.ko", "mistake=2", run_noisy);
    run("no unmapping at a reset", "/mistakes.ko", "mistake=3", run_noisy);
    run("an address that was not lent", "/mistakes.ko", "mistake=4", run_noisy);
    printf("== end\n");
    send_lines();
    reboot(RB_POWER_OFF);
}
