/* The world of processes that try to break the module or Linux. It checks that some calls are refused, that a process that waits
 * can be killed while another partition goes on, that random calls change nothing of partition 0, and that a client's mappings are
 * limited. */
#include "init.h"

#include <errno.h>
#include <sched.h>
#include <signal.h>
#include <stdatomic.h>
#include <stdio.h>
#include <string.h>
#include <sys/syscall.h>
#include <sys/time.h>
#include <sys/uio.h>
#include <linux/futex.h>

enum { READ = PROT_READ, WRITE = PROT_READ | PROT_WRITE, RUN = PROT_READ | PROT_EXEC };
enum { WORKERS = 4, CALLS = 40000, MOVES = 100, KILLS = 50, SLOTS = 4, LONG = 100000 /* microseconds */ };

/* What the processes share. They wait until `is_told`, or end then. */
static struct {
    _Atomic uint32_t is_told, calls, passes;
} *shared;

static unsigned right; /* how many calls ended as expected */

/* ---- Calls that have to be refused ---------------------------------------------------------------------------------------- */

static void expect(const char *what, bool is_done, int wanted)
{
    const int got = is_done ? 0 : errno;
    right += got == wanted;
    if (got != wanted) printf("%s: `%s` in place of `%s`\n", what, strerror(got), strerror(wanted));
}

static bool makes(int device, unsigned long kind, void *at)
{
    return !ioctl(device, kind, at);
}

static bool maps(int device, int rights, int kind, off_t from, size_t bytes)
{
    void *at = mmap(NULL, bytes, rights, kind, device, from);
    return at != MAP_FAILED && !munmap(at, bytes);
}

static void check_kinds(const char *who, bool is_root)
{
    right = 0;
    expect("isatty", isatty(file), ENOTTY);
    expect("kind 0", makes(file, 0, NULL), ENOTTY);
    expect("a call too many", makes(file, _IOWR('m', 8, struct partmem_call), NULL), ENOTTY);
    expect("a call with another size", makes(file, _IOWR('m', 6, int), NULL), ENOTTY);
    expect("a grant without numbers", makes(file, PARTMEM_IOC_GRANT, NULL), is_root ? EFAULT : EPERM);
    expect("an alloc without numbers", makes(file, PARTMEM_IOC_ALLOC, NULL), EFAULT);
    printf("calls of %s as they should be: %u of 6\n", who, right);
}

static void check_read_only(int written, int read_only)
{
    struct partmem_call asked = {.partition = 1};
    expect("an alloc", makes(written, PARTMEM_IOC_ALLOC, &asked), 0);
    const struct partmem_call block = asked;
    asked.number = 1; /* where no block begins */
    expect("an alloc by a read-only file", makes(read_only, PARTMEM_IOC_ALLOC, &asked), EBADF);
    expect("a free by a read-only file", makes(read_only, PARTMEM_IOC_FREE, &asked), EBADF);
    expect("a grant by a read-only file", makes(read_only, PARTMEM_IOC_GRANT, &asked), EBADF);
    expect("writing by a read-only file", maps(read_only, WRITE, MAP_SHARED, 0, PLACES), EACCES);
    uint8_t *stored = mmap(NULL, PLACES, WRITE, MAP_SHARED, written, 0);
    uint8_t *seen = mmap(NULL, PLACES, READ, MAP_SHARED, read_only, 0);
    expect("reading by a read-only file", seen != MAP_FAILED, 0);
    expect("writing there later", !mprotect(seen, PLACES, WRITE), EACCES);
    stored[block.place] = 77;
    expect("the byte that was stored", seen != MAP_FAILED && seen[block.place] == 77, 0);
    munmap(stored, PLACES), munmap(seen, PLACES);
}

static void check_maps_refused(int bound)
{
    uint8_t *at = mmap(NULL, PLACES, WRITE, MAP_SHARED, bound, 0);
    expect("a map to run", maps(bound, RUN, MAP_SHARED, 0, PLACES), EPERM);
    expect("a map to run later", !mprotect(at, PLACES, RUN), EACCES);
    expect("a private map", maps(bound, READ, MAP_PRIVATE, 0, PLACES), EINVAL);
    expect("a map of a page too many", maps(bound, READ, MAP_SHARED, 0, PLACES + FRAME), EINVAL);
    expect("a map from beyond the end", maps(bound, READ, MAP_SHARED, PLACES, FRAME), EINVAL);
    expect("a map from -1 pages", maps(bound, READ, MAP_SHARED, -FRAME, FRAME), EOVERFLOW);
    expect("a map that grows", mremap(at, PLACES, PLACES + FRAME, MREMAP_MAYMOVE) != MAP_FAILED, EFAULT);
    expect("a map of a file that is not bound", maps(file, READ, MAP_SHARED, 0, FRAME), EBADF);
    expect("binding again", makes(bound, PARTMEM_IOC_BIND, &(struct partmem_call){.partition = 0}), EBUSY);
    munmap(at, PLACES);
}

static void refuse(void)
{
    const pid_t user = start(1);
    if (!user) {
        check_kinds("a user", false);
        exit(0);
    }
    waitpid(user, NULL, 0);
    check_kinds("root", true);
    right = 0;
    call(PARTMEM_IOC_GRANT, 1, 0);
    const int administrator = file, bound = bound_file(1);
    file = open("/dev/partmem", O_RDONLY);
    expect("binding a read-only file", !call(PARTMEM_IOC_BIND, 1, 0).status, 0);
    check_read_only(bound, file);
    close(file);
    file = administrator;
    check_maps_refused(bound);
    close(bound);
    printf("files and maps as they should be: %u of 18\n", right);
}

/* ---- The limit of mappings ------------------------------------------------------------------------------------------------ */

/* Maps four pages by `file` until that is refused. Returns how many maps there are. */
static unsigned map_all(uint8_t **last)
{
    unsigned made = 0;
    for (void *at; made < 2000 && (at = mmap(NULL, 4 * FRAME, WRITE, MAP_SHARED, file, 0)) != MAP_FAILED; made++) *last = at;
    return made;
}

static bool frees(void)
{
    const struct partmem_call block = call(PARTMEM_IOC_ALLOC, 0, 0);
    if (block.status) die("no block");
    const uint32_t status = call(PARTMEM_IOC_FREE, 0, block.place).status;
    errno = status - 1000;
    return !status;
}

static void limit(int administrator)
{
    uint8_t *last;
    const int bound = file = bound_file(1);
    right = 0;
    const unsigned first = map_all(&last);
    expect("a map too many", false, ENOMEM);
    expect("a free with all maps", frees(), 0);
    munmap(last + FRAME, FRAME); /* two maps are left of it */
    expect("a free with a map too many", frees(), EBUSY);
    munmap(last, FRAME);
    expect("a free with all maps again", frees(), 0);
    const pid_t copy = fork();
    if (!copy) for (;;) pause();
    expect("a free with the maps of a copy", frees(), EBUSY);
    end(copy);
    expect("a free when the copy has ended", frees(), 0);
    file = administrator;
    call(PARTMEM_IOC_RESET, 1, 0);
    call(PARTMEM_IOC_GRANT, 1, 0);
    file = bound_file(1);
    const unsigned second = map_all(&last);
    munmap(last, 4 * FRAME);
    close(bound);
    printf("maps of a client: %u, of the next one: %u, frees as they should be: %u of 6\n", first, second, right);
    exit(0);
}

static void limit_maps(void)
{
    call(PARTMEM_IOC_GRANT, 1, 0);
    const pid_t process = fork();
    if (!process) limit(file);
    waitpid(process, NULL, 0);
}

/* ---- Processes that are killed while they wait ---------------------------------------------------------------------------- */

static pid_t start_on(int processor)
{
    cpu_set_t set;
    const pid_t process = fork();
    if (process) return process;
    CPU_ZERO(&set);
    CPU_SET(processor, &set);
    if (sched_setaffinity(0, sizeof set, &set)) die("no second processor");
    return 0;
}

static void wait_in(uint32_t partition, bool is_fault)
{
    places = mmap(NULL, PLACES, WRITE, MAP_SHARED, file = bound_file(partition), 0);
    while (!shared->is_told) usleep(1000);
    if (is_fault) touched(0);
    else call(PARTMEM_IOC_ALLOC, 0, 0);
    _exit(0);
}

static void hold(void)
{
    for (;;) call(PARTMEM_IOC_MOVE, 1, 0);
}

static void keep_processor(void)
{
    const struct sched_param priority = {1};
    usleep(LONG);
    if (sched_setscheduler(0, SCHED_FIFO, &priority)) die("no priority");
    for (;;) continue;
}

/* Kills a process that waits for the mutex of partition 1, in a call or in a page fault. The mutex's holder cannot run meanwhile,
 * since a process with a higher priority has its processor. Returns true if the killed process ends in that time, and a process of
 * partition 0 that does the same has not waited. */
static bool ends_in(bool is_fault)
{
    bool waited = false, other_waited = true, ended = false;
    for (int tries = 0; tries < 20 && (!waited || other_waited); tries++) {
        shared->is_told = ended = false;
        const pid_t waiter = start_on(0);
        if (!waiter) wait_in(1, is_fault);
        const pid_t other = start_on(0);
        if (!other) wait_in(0, is_fault);
        const pid_t holder = start_on(1);
        if (!holder) hold();
        const pid_t above = start_on(1);
        if (!above) keep_processor();
        usleep(2 * LONG);
        shared->is_told = true;
        usleep(LONG);
        waited = waitpid(waiter, NULL, WNOHANG) == 0; /* else the holder was not in a call when it lost its processor */
        other_waited = waitpid(other, NULL, WNOHANG) == 0;
        kill(waiter, SIGKILL);
        for (int i = 0; i < 20 && !ended; i++, usleep(LONG / 10)) ended = waitpid(waiter, NULL, WNOHANG) == waiter;
        end(above), end(holder), waitpid(waiter, NULL, 0);
        if (other_waited) end(other);
    }
    return waited && !other_waited && ended;
}

/* ---- Random calls --------------------------------------------------------------------------------------------------------- */

static uint8_t *read_only, *last_bytes; /* a page that cannot be written, and the end of one before a hole */
static uint8_t *extra;                  /* a second map, of `extra_bytes` */
static size_t extra_bytes;
static int tube[2];

/* Returns `usual` or another pointer. Root has the administrator's calls, so it gets no pointer to numbers that are not known and
 * may name partition 0. */
static void *any_pointer(uint64_t random, struct partmem_call *usual)
{
    switch (random % (getuid() ? 16 : 14)) {
    case 0: return NULL;
    case 1: return (void *)(random | 1ull << 63);
    case 2: return read_only;
    case 14: return last_bytes - random / 16 % sizeof *usual;
    case 15: return places + random / 16 % (PLACES - sizeof *usual);
    default: return usual;
    }
}

/* Returns an order, a slot, a place or any number. */
static uint32_t any_number(uint64_t random)
{
    switch (random % 4) {
    case 0: return random >> 8;
    case 1: return (random >> 8) % (PLACES / FRAME) * FRAME;
    default: return (random >> 8) % 8;
    }
}

static void random_ioctl(uint64_t random)
{
    struct partmem_call asked = {.partition = random % 4 ? 1 : random >> 32 | 2, .number = any_number(random >> 16)};
    unsigned long kind = _IOWR('m', 1 + (random >> 2) % 8, struct partmem_call);
    if (random >> 5 & 1) kind = PARTMEM_IOC_ALLOC;
    else if ((random >> 6 & 3) == 0) kind = random >> 24 & 0xffffffff;
    if (kind == PARTMEM_IOC_RESET && random >> 8 & 63) return;
    ioctl(file, kind, any_pointer(random >> 20, &asked));
}

static void random_map(uint64_t random)
{
    const bool is_whole = random & 1;
    const size_t bytes = is_whole ? PLACES : random >> 8 & 0xfffff;
    const off_t from = is_whole ? 0 : (int64_t)random >> 28 & (random & 2 ? ~(FRAME - 1l) : -1l);
    void *at = mmap(NULL, bytes, random >> 2 & 7, random & 32 ? MAP_PRIVATE : MAP_SHARED, file, from);
    if (at == MAP_FAILED) return;
    if (is_whole) {
        munmap(places, PLACES);
        places = at;
    } else {
        if (extra) munmap(extra, extra_bytes);
        extra = at, extra_bytes = bytes;
    }
}

/* Lets Linux copy from the places and to them, or reach them in another way. */
static bool random_copy(uint64_t random)
{
    uint8_t *at = places + (random >> 8) % (PLACES - 64), byte;
    struct iovec there = {at, 64}, here = {&byte, 1};
    switch (random % 5) {
    case 0: return write(tube[1], at, 64) == 64 && read(tube[0], at, 64) == 64;
    case 1: return process_vm_readv(getpid(), &here, 1, &there, 1, 0) == 1;
    case 2: return syscall(SYS_futex, at, FUTEX_WAKE, 1, NULL, NULL, 0) == 0;
    case 3: return vmsplice(tube[1], &there, 1, SPLICE_F_NONBLOCK) == 64;
    default: return mincore(at - (uintptr_t)at % FRAME, FRAME, &byte) == 0;
    }
}

static void leave(int number)
{
    _exit(number);
}

static void random_fork(uint64_t random)
{
    const pid_t child = fork();
    if (!child) {
        signal(SIGBUS, leave), signal(SIGSEGV, leave);
        for (int i = 0; i < 20; i++) places[random_of(&random) % PLACES] = i;
        _exit(0);
    }
    if (child < 0) return;
    if (random >> 8 & 1) kill(child, SIGKILL);
    while (waitpid(child, NULL, 0) < 0 && errno == EINTR) continue;
}

static void random_call(uint64_t random)
{
    const uint64_t more = random >> 6, where = (more >> 4) % (PLACES / FRAME - 16) * FRAME, bytes = FRAME * (1 + more % 16);
    uint8_t *const free_space = (uint8_t *)(0x600000000000 + (more % 64 << 30));
    switch (random % 40) {
    case 0 ... 13: random_ioctl(more); break;
    case 14 ... 17: random_map(more); break;
    case 18: munmap(places + where, bytes); break;
    case 19: {
        const size_t moved = more >> 30 & 1 ? PLACES : bytes, grown = more >> 31 & 7 ? moved : bytes;
        void *at = mremap(places, moved, grown, MREMAP_MAYMOVE | MREMAP_FIXED, free_space);
        if (at != MAP_FAILED && moved == PLACES) places = at;
        break;
    }
    case 20 ... 21: mprotect(places + where, bytes, more & 7); break;
    case 22 ... 23: madvise(places + where, bytes, more >> 20 & 31); break;
    case 24 ... 25: random_copy(more); break;
    case 26: if (more % 4 == 0) random_fork(more); break;
    case 27: {
        const int other = open("/dev/partmem", more & 3);
        if (other >= 0) close(file), file = other;
        break;
    }
    default:
        for (int i = 0; i < 20; i++) places[random_of(&random) % PLACES] = i;
    }
}

static void interrupt(int number)
{
    (void)number;
}

static void make_random_calls(uint64_t seed)
{
    static uint64_t state;
    const struct itimerval often = {{0, 3000}, {0, 3000}};
    struct sigaction handler = {.sa_handler = interrupt};
    read_only = mmap(NULL, 3 * FRAME, WRITE, MAP_PRIVATE | MAP_ANONYMOUS, -1, 0);
    last_bytes = read_only + 2 * FRAME;
    memset(read_only, 1, FRAME);
    if (mprotect(read_only, FRAME, READ) || munmap(last_bytes, FRAME)) die("no pages for pointers");
    signal(SIGBUS, bus_error), signal(SIGSEGV, bus_error), sigaction(SIGALRM, &handler, NULL);
    if (pipe(tube) || fcntl(tube[0], F_SETFL, O_NONBLOCK) || fcntl(tube[1], F_SETFL, O_NONBLOCK)) die("no pipe");
    if (setitimer(ITIMER_REAL, &often, NULL)) die("no timer");
    state = seed;
    sigsetjmp(on_bus_error, 1); /* it continues here after an access that is refused */
    for (;; shared->calls++) random_call(random_of(&state));
}

/* Starts a process that makes random calls with a file of partition 1. Process 0 stays root. */
static pid_t start_worker(unsigned i)
{
    static uint64_t started;
    started++;
    const pid_t worker = i ? start(1) : fork();
    if (worker < 0) die("no process");
    if (worker) return worker;
    if (!i) places = mmap(NULL, PLACES, WRITE, MAP_SHARED, file = bound_file(1), 0);
    make_random_calls(started * 0x9e3779b97f4a7c15u);
    return 0;
}

/* What partition 0's process does meanwhile: it fills its page blocks with words, and checks them. */
static void fill_and_check(void)
{
    uint64_t seed = 0;
    while (held < MOST && add(0)) fill(&blocks[held - 1], seed);
    while (!shared->is_told) {
        for (uint32_t i = 0; i < held; i++) check(&blocks[i]);
        for (uint32_t i = 0; i < held; i++) fill(&blocks[i], seed + i);
        seed += MOST;
        shared->passes++;
    }
    printf("wrong words in %u pages beside random calls: %lu\n", held, wrong);
    exit(0);
}

static void storm(void)
{
    static const unsigned long kinds[] = {PARTMEM_IOC_GRANT, PARTMEM_IOC_MOVE, PARTMEM_IOC_TAKE_BACK, PARTMEM_IOC_MOVE};
    uint64_t state = 7;
    pid_t workers[WORKERS];
    unsigned moves = 0, kills = 0;
    shared->is_told = false;
    for (int i = 0; i < SLOTS; i++) call(PARTMEM_IOC_GRANT, 0, 0), call(PARTMEM_IOC_GRANT, 1, 0);
    const pid_t honest = start(0);
    if (!honest) fill_and_check();
    for (int i = 0; i < WORKERS; i++) workers[i] = start_worker(i);
    for (; shared->calls < CALLS || moves < MOVES || kills < KILLS; usleep(1000)) {
        const uint64_t random = random_of(&state);
        moves += call(PARTMEM_IOC_MOVE, 0, random % SLOTS).status == 0;
        call(kinds[random >> 4 & 3], 1, random >> 6 & 7);
        if (random >> 10 & 15) continue;
        const bool is_reset = (random >> 14 & 7) == 0;
        if (is_reset) call(PARTMEM_IOC_RESET, 1, 0), usleep(5000); /* the old clients go on meanwhile */
        for (unsigned i = 0; i < WORKERS; i++) {
            if (!is_reset && i != (random >> 20 & 3)) continue;
            end(workers[i]), kills++;
            workers[i] = start_worker(i);
        }
    }
    for (int i = 0; i < WORKERS; i++) end(workers[i]);
    shared->is_told = true;
    int status;
    waitpid(honest, &status, 0);
    while (waitpid(-1, NULL, 0) > 0) continue; /* the workers' children */
    printf("# ended with status %d, %u moves, %u calls, %u kills", status, moves, shared->calls, kills);
    printf(", %u passes\n", shared->passes);
}

void run_hostile(void)
{
    shared = mmap(NULL, FRAME, WRITE, MAP_SHARED | MAP_ANONYMOUS, -1, 0);
    if (shared == MAP_FAILED) die("no shared page");
    refuse();
    printf("a killed process ends while it waits in a call, and another partition goes on: %s\n", ends_in(false) ? "yes" : "no");
    printf("a killed process ends while it waits in a page fault, and another goes on: %s\n", ends_in(true) ? "yes" : "no");
    storm();
    call(PARTMEM_IOC_RESET, 1, 0);
    limit_maps();
}
