/* Tests the allocator behind adapter.h with tenants at the same time. Link it in place of adapter.c:
 *
 *     cc -O2 -pthread -Iconformance -o mine-threads conformance/threads.c mine.c && ./mine-threads
 *
 * Each tenant has a list of calls, made by the seed and by what the earlier calls of the list returned. In a round the lists of
 * all tenants run at the same time, each on its own thread. Then each list runs alone. Both times its calls have to return the
 * same. A run is a process of its own. All grants come before the threads start. */
#define _GNU_SOURCE
#include "adapter.h"
#include "refusals.h"

#include <errno.h>
#include <pthread.h>
#include <sched.h>
#include <signal.h>
#include <stdatomic.h>
#include <stdio.h>
#include <stdlib.h>
#include <string.h>
#include <sys/mman.h>
#include <sys/prctl.h>
#include <sys/time.h>
#include <sys/wait.h>
#include <time.h>
#include <unistd.h>

enum { CALLS = 8192, ROUNDS = 100, MAX_TENANTS = 64, MAX_SUPERBLOCKS = 256, MAX_HELD = 1024, MAX_NUMBERS = 5 };
/* The threads of a run are interrupted about each INTERVAL microseconds. The first YIELDS times another thread may run then. Each
 * time a thread may also wait for other programs, so on a busy machine more would take long. */
enum { INTERVAL = 20, YIELDS = 256 };
/* One number in ONE_IN is wrong. A list fills or drains memory for about PHASE calls. */
enum { ONE_IN = 16, PHASE = 256 };
/* A run hangs if no call returns for SECONDS seconds. If it does not end by SIGABRT within ABORT_SECONDS, it is killed. Before a
 * difference is reported, the list runs alone AGAIN times more. */
enum { SECONDS = 5, ABORT_SECONDS = 2, STEPS = 10, AGAIN = 3, HANGS = -1 };
enum { KEPT, BROKEN, UNUSABLE, FAILED };

/* A call, and what it returned. What a command does not use is 0. */
struct call {
    const struct command *command; /* NULL if the call was not begun */
    uint32_t reply;
    uint32_t given[2];
    uint32_t told[MAX_NUMBERS]; /* only if the reply is DONE */
    uint32_t length;            /* of the bytes */
    uint8_t bytes[MAX_BYTES];   /* that are written or read, or the pattern of a cache */
};

/* The calls of a list in a run, in memory that is shared with the process of the run. */
struct record {
    atomic_uint made; /* calls that have returned */
    struct call calls[CALLS];
};

struct held {
    uint32_t number, cache; /* the first frame of a block, or the first place of an object and its cache */
    uint32_t bytes;
};

/* A list while it runs, with what its tenant has. */
struct list {
    unsigned tenant;
    struct record *record;
    uint64_t random; /* the state of its random numbers */
    bool fills;
    unsigned blocks, objects, caches;
    struct held block[MAX_HELD], object[MAX_HELD], cache[MAX_CACHES];
};

enum mode { AT_ONCE, IN_TURN, ALONE };

/* The machine of a round, and the number of slots of each tenant. */
static struct {
    unsigned order, superblocks, tenants, slots;
} machine;
static const struct caches *own_caches;
static pthread_barrier_t start;

static const char *program;
/* The options. A size is 0 if each round draws it. */
static uint32_t fixed_order, fixed_superblocks, fixed_tenants, seed = 1, rounds = ROUNDS, only_round = UINT32_MAX;

/* The calls of the tenants at the same time, alone, and in a run that explains a difference. */
static struct record *together, *alone, *again;

static uint32_t draw_from(uint64_t *random, uint32_t below) {
    *random ^= *random << 13;
    *random ^= *random >> 7;
    *random ^= *random << 17;
    return (uint32_t)((*random >> 32) * below >> 32);
}

static uint32_t draw(struct list *list, uint32_t below) { return draw_from(&list->random, below); }

static bool is_wrong(struct list *list) { return draw(list, ONE_IN) == 0; }

static void hold(struct held *held, unsigned *count, struct held one) {
    if (*count < MAX_HELD)
        held[(*count)++] = one;
}

/* Forgets the held thing with this number, if there is one. */
static void drop(struct held *held, unsigned *count, uint32_t number) {
    unsigned at = 0;
    while (at < *count && held[at].number != number)
        at++;
    if (at < *count)
        held[at] = held[--*count];
}

static void call_alloc(struct list *list, struct call *call) {
    uint32_t frame = 0, order = draw(list, 2) == 0 ? 0 : draw(list, machine.order + 1);
    call->given[0] = is_wrong(list) ? machine.order + 1 + draw(list, 64) : order;
    call->reply = alloc(list->tenant, call->given[0], &frame);
    if (call->reply != DONE)
        return;
    call->told[0] = frame;
    hold(list->block, &list->blocks, (struct held){.number = frame, .bytes = FRAME_BYTES << order});
}

static void call_free(struct list *list, struct call *call) {
    unsigned order = 0;
    call->given[0] = list->blocks == 0 ? 0 : list->block[draw(list, list->blocks)].number;
    call->given[0] += is_wrong(list) ? 1 + draw(list, 2) : 0;
    call->reply = release(list->tenant, call->given[0], &order);
    if (call->reply != DONE)
        return;
    call->told[0] = order;
    drop(list->block, &list->blocks, call->given[0]);
}

/* Draws a range of bytes in a block or an object of the tenant. A wrong range ends outside. */
static void draw_range(struct list *list, struct call *call) {
    bool is_object = list->objects > 0 && (list->blocks == 0 || draw(list, 2) == 0);
    unsigned count = is_object ? list->objects : list->blocks;
    struct held of = {.bytes = 1};
    if (count > 0)
        of = is_object ? list->object[draw(list, count)] : list->block[draw(list, count)];
    call->length = 1 + draw(list, of.bytes < MAX_BYTES ? of.bytes : MAX_BYTES);
    call->given[0] = of.number * (is_object ? 1 : FRAME_BYTES) + draw(list, of.bytes - call->length + 1);
    call->given[0] += is_wrong(list) ? of.bytes : 0;
    call->given[1] = call->length;
}

static void call_read(struct list *list, struct call *call) {
    uint8_t bytes[MAX_BYTES];
    draw_range(list, call);
    call->reply = read_bytes(list->tenant, call->given[0], call->length, bytes);
    if (call->reply == DONE)
        memcpy(call->bytes, bytes, call->length);
}

static void call_write(struct list *list, struct call *call) {
    draw_range(list, call);
    for (unsigned i = 0; i < call->length; i++)
        call->bytes[i] = (uint8_t)draw(list, 256);
    call->reply = write_bytes(list->tenant, call->given[0], call->length, call->bytes);
    call->told[0] = call->length;
}

static void call_make(struct list *list, struct call *call) {
    static const uint32_t sizes[] = {1, 8, 16, 24, 64, 100, 200, 512, 1000, 2048, 4096}, aligns[] = {8, 8, 16, 64, 256};
    struct layout layout = {0};
    call->given[0] = is_wrong(list) ? 4097 : sizes[draw(list, sizeof sizes / sizeof *sizes)];
    call->given[1] = is_wrong(list) ? 12 : aligns[draw(list, sizeof aligns / sizeof *aligns)];
    call->length = 1 + draw(list, MAX_PATTERN);
    for (unsigned i = 0; i < call->length; i++)
        call->bytes[i] = (uint8_t)draw(list, 256);
    call->reply = own_caches->make(list->tenant, call->given[0], call->given[1], call->length, call->bytes, &layout);
    if (call->reply != DONE)
        return;
    uint32_t told[] = {layout.number, layout.chunk, layout.order, layout.objects, layout.colours};
    memcpy(call->told, told, sizeof told);
    if (list->caches < MAX_CACHES)
        list->cache[list->caches++] = (struct held){.number = layout.number, .bytes = call->given[0]};
}

static struct held draw_cache(struct list *list) {
    struct held of = {.bytes = 1};
    if (list->caches > 0)
        of = list->cache[draw(list, list->caches)];
    of.number += is_wrong(list);
    return of;
}

static void call_take(struct list *list, struct call *call) {
    struct held of = draw_cache(list);
    uint32_t place = 0;
    call->given[0] = of.number;
    call->reply = own_caches->take(list->tenant, call->given[0], &place);
    if (call->reply != DONE)
        return;
    call->told[0] = place;
    hold(list->object, &list->objects, (struct held){.number = place, .cache = of.number, .bytes = of.bytes});
}

static void call_give(struct list *list, struct call *call) {
    struct held of = {0};
    if (list->objects > 0)
        of = list->object[draw(list, list->objects)];
    call->given[0] = of.cache;
    call->given[1] = of.number + (is_wrong(list) ? 1 + draw(list, 8) : 0);
    call->reply = own_caches->give(list->tenant, call->given[0], call->given[1]);
    if (call->reply == DONE)
        drop(list->object, &list->objects, call->given[1]);
}

static void call_destroy(struct list *list, struct call *call) {
    unsigned frames = 0;
    call->given[0] = draw_cache(list).number;
    call->reply = own_caches->destroy(list->tenant, call->given[0], &frames);
    if (call->reply != DONE)
        return;
    call->told[0] = frames;
    drop(list->cache, &list->caches, call->given[0]);
}

static void call_reap(struct list *list, struct call *call) {
    unsigned frames = 0;
    own_caches->reap(list->tenant, &frames);
    call->told[0] = frames;
}

static uint32_t sum_of(const unsigned *numbers, size_t count) {
    uint32_t sum = 2166136261u;
    for (size_t i = 0; i < count; i++)
        sum = (sum ^ numbers[i]) * 16777619u;
    return sum;
}

static void call_report(struct list *list, struct call *call) {
    struct figures figures = {.caches = 0};
    own_caches->report(list->tenant, &figures);
    call->told[0] = sum_of((const unsigned *)&figures, sizeof figures / sizeof(unsigned));
}

/* The commands: how often each is drawn, what makes its call, how many numbers and whether bytes are given, and the words of the
 * reply. */
static const struct command {
    const char *name;
    unsigned often;
    void (*call)(struct list *list, struct call *call);
    unsigned given;
    bool has_bytes;
    const char *told;
} COMMANDS[] = {{"alloc", 20, call_alloc, 1, false, "frame %u"},
                {"free", 16, call_free, 1, false, "freed %u"},
                {"read", 12, call_read, 2, false, "bytes "},
                {"write", 12, call_write, 1, true, "written %u"},
                {"take", 24, call_take, 1, false, "object %u"},
                {"give", 16, call_give, 2, false, "given"},
                {"cache", 4, call_make, 2, true, "cache %u chunk %u order %u objects %u colours %u"},
                {"destroy", 2, call_destroy, 1, false, "destroyed %u"},
                {"reap", 2, call_reap, 0, false, "reaped %u"},
                {"report", 1, call_report, 0, false, "a report with the sum %u"}};
/* The sums of `often`, of the first four commands and of all. */
enum { OF_PAGES = 60, OF_ALL = 109 };

/* Draws a command. While memory is filled, half of the frees and gives become the command before them. While it is drained, half
 * of the allocs and takes become the command behind them. */
static const struct command *draw_command(struct list *list) {
    uint32_t drawn = draw(list, own_caches == NULL ? OF_PAGES : OF_ALL);
    const struct command *command = COMMANDS;
    for (; drawn >= command->often; command++)
        drawn -= command->often;
    if (draw(list, PHASE) == 0)
        list->fills = !list->fills;
    if (draw(list, 2) == 0)
        return command;
    if (list->fills)
        return command->call == call_free || command->call == call_give ? command - 1 : command;
    return command->call == call_alloc || command->call == call_take ? command + 1 : command;
}

/* Makes the next call of a list. */
static void step(struct list *list) {
    unsigned made = list->record->made;
    struct call *call = &list->record->calls[made];
    const struct command *command = draw_command(list);
    call->command = command;
    command->call(list, call);
    list->record->made = made + 1;
}

static void *run_list(void *list) {
    pthread_barrier_wait(&start);
    for (unsigned i = 0; i < CALLS; i++)
        step(list);
    return NULL;
}

static void need(bool is_right, const char *what) {
    if (!is_right) {
        fprintf(stderr, "%s\n", what);
        exit(FAILED);
    }
}

static void yield(int signal) {
    static atomic_int yields;
    (void)signal;
    if (yields++ < YIELDS)
        sched_yield();
}

/* Makes a timer interrupt the threads, also in the middle of a call, so that calls of several tenants are under way at the same
 * time even if there is one processor. This thread blocks its signal. */
static void start_timer(void) {
    const struct timeval interval = {.tv_usec = INTERVAL};
    const struct sigaction action = {.sa_handler = yield, .sa_flags = SA_RESTART};
    sigset_t alarm;
    sigemptyset(&alarm);
    sigaddset(&alarm, SIGALRM);
    sigaction(SIGALRM, &action, NULL);
    pthread_sigmask(SIG_BLOCK, &alarm, NULL);
    setitimer(ITIMER_REAL, &(struct itimerval){interval, interval}, NULL);
}

/* Runs lists, each on a thread of its own. */
static void run_threads(struct list *lists, unsigned count) {
    pthread_t threads[MAX_TENANTS];
    pthread_barrier_init(&start, NULL, count);
    for (unsigned i = 0; i < count; i++)
        need(pthread_create(&threads[i], NULL, run_list, &lists[i]) == 0, "cannot start a thread");
    if (count > 1)
        start_timer();
    for (unsigned i = 0; i < count; i++)
        pthread_join(threads[i], NULL);
    setitimer(ITIMER_REAL, &(struct itimerval){0}, NULL);
}

static void run_in_turn(struct list *lists) {
    for (unsigned i = 0; i < CALLS * machine.tenants; i++)
        step(&lists[i % machine.tenants]);
}

/* Returns the state of other random numbers for each pair of numbers. */
static uint64_t mixed(uint64_t one, uint64_t other) {
    uint64_t mixed = (one + 1) * 0x9e3779b97f4a7c15u ^ (other + 1) * 0xbf58476d1ce4e5b9u;
    return (mixed ^ mixed >> 31) | 1;
}

/* Boots the machine, grants the slots, and runs the lists. In the mode ALONE only `tenant` gets slots, and only its list runs. */
static void run(enum mode mode, unsigned tenant, uint32_t number, struct record *records) {
    struct list *lists = calloc(machine.tenants, sizeof *lists);
    uint32_t slot;
    unsigned superblock;
    need(lists != NULL, "memory ran out");
    need(boot(machine.order, machine.superblocks, machine.tenants), "boot returned false");
    own_caches = caches();
    for (unsigned i = 0; i < machine.tenants; i++)
        lists[i] = (struct list){.tenant = i, .record = &records[i], .random = mixed(mixed(seed, number), i)};
    for (unsigned i = 0; i < machine.slots * machine.tenants; i++)
        if (mode != ALONE || i % machine.tenants == tenant)
            need(grant(i % machine.tenants, &slot, &superblock) == DONE, "grant refused a slot");
    if (mode == IN_TURN)
        run_in_turn(lists);
    else
        run_threads(mode == ALONE ? &lists[tenant] : lists, mode == ALONE ? 1 : machine.tenants);
    free(lists);
}

static unsigned made_by(const struct record *records) {
    unsigned made = 0;
    for (unsigned i = 0; i < machine.tenants; i++)
        made += records[i].made;
    return made;
}

/* Waits for a process for at most this many seconds after a call has returned. Returns whether it has ended. */
static bool ends_within(unsigned seconds, pid_t process, int *status, const struct record *records) {
    const struct timespec step = {.tv_nsec = 1000000000 / STEPS};
    unsigned steps = 0, made = 0;
    sigset_t child;
    sigemptyset(&child);
    sigaddset(&child, SIGCHLD);
    while (waitpid(process, status, WNOHANG) == 0) {
        /* A signal that came before is still pending, so none is missed. */
        sigtimedwait(&child, NULL, &step);
        steps = made == made_by(records) ? steps + 1 : 0;
        made = made_by(records);
        if (steps == seconds * STEPS)
            return false;
    }
    return true;
}

/* Runs lists of a round in a process of their own. Returns its status, or HANGS. */
static int run_apart(enum mode mode, unsigned tenant, uint32_t number, struct record *records) {
    int status;
    if (mode == ALONE)
        memset(&records[tenant], 0, sizeof *records);
    else
        memset(records, 0, machine.tenants * sizeof *records);
    fflush(NULL);
    pid_t process = fork();
    if (process == 0) {
        sigset_t none;
        sigemptyset(&none);
        sigprocmask(SIG_SETMASK, &none, NULL);
        prctl(PR_SET_PDEATHSIG, SIGKILL);
        run(mode, tenant, number, records);
        exit(0);
    }
    if (process < 0) {
        perror("cannot start a process");
        exit(UNUSABLE);
    }
    if (ends_within(SECONDS, process, &status, records))
        return status;
    kill(process, SIGABRT);
    if (!ends_within(ABORT_SECONDS, process, &status, records)) {
        kill(process, SIGKILL);
        waitpid(process, &status, 0);
    }
    return HANGS;
}

static void print_bytes(const struct call *call) {
    for (unsigned i = 0; i < call->length; i++)
        printf("%02x", call->bytes[i]);
}

static void print_call(unsigned tenant, const struct call *call) {
    printf("%u %s", tenant, call->command->name);
    for (unsigned i = 0; i < call->command->given; i++)
        printf(" %u", call->given[i]);
    if (call->command->has_bytes) {
        printf(" ");
        print_bytes(call);
    }
}

static void print_reply(const struct call *call) {
    const uint32_t *told = call->told;
    if (call->reply == DONE)
        printf(call->command->told, told[0], told[1], told[2], told[3], told[4]);
    else
        printf("refused %u %s", call->reply, call->reply <= SLOT_BUSY ? REFUSALS[call->reply] : "");
    if (call->reply == DONE && call->command->call == call_read)
        print_bytes(call);
}

/* Shows on a terminal which round runs. */
static void show_progress(uint32_t number, uint32_t end) {
    if (isatty(STDERR_FILENO))
        fprintf(stderr, "\rround %u of %u", number + 1, end);
}

static void clear_progress(void) {
    if (isatty(STDERR_FILENO))
        fprintf(stderr, "\r%32s\r", "");
}

static void print_head(uint32_t number, const char *what) {
    clear_progress();
    printf("round %u %s, of --order %u --superblocks %u --tenants %u:\n\n", number, what, machine.order, machine.superblocks,
           machine.tenants);
}

static void print_again(uint32_t number) {
    printf("Run it again: %s --seed %u --round %u", program, seed, number);
    if (fixed_order != 0)
        printf(" --order %u", fixed_order);
    if (fixed_superblocks != 0)
        printf(" --superblocks %u", fixed_superblocks);
    if (fixed_tenants != 0)
        printf(" --tenants %u", fixed_tenants);
    printf("\n");
}

/* Prints the calls that had begun and had not returned when a run ended. */
static void print_unreturned(const struct record *records) {
    const char *head = "Calls that had not returned:\n";
    for (unsigned i = 0; i < machine.tenants; i++) {
        unsigned made = records[i].made;
        if (made == CALLS || records[i].calls[made].command == NULL)
            continue;
        printf("%s    ", head);
        print_call(i, &records[i].calls[made]);
        printf("\n");
        head = "";
    }
}

/* Reports a run that did not end with status 0. */
static int failed(uint32_t number, int status, const struct record *records, const char *when) {
    print_head(number, "makes the program fail");
    if (status == HANGS)
        printf("Failed: no call returned, and it did not exit, within %d seconds, %s\n", SECONDS, when);
    else if (WIFSIGNALED(status))
        printf("Failed: it ended by signal %d (%s), %s\n", WTERMSIG(status), strsignal(WTERMSIG(status)), when);
    else
        printf("Failed: it ended with status %d, %s\n", WEXITSTATUS(status), when);
    print_unreturned(records);
    print_again(number);
    return FAILED;
}

/* Returns the number of the first call that returned something else in the other run, or how many calls returned in both. */
static unsigned first_difference(const struct record *one, const struct record *other, unsigned *both) {
    unsigned at = 0;
    *both = one->made < other->made ? one->made : other->made;
    while (at < *both && memcmp(&one->calls[at], &other->calls[at], sizeof one->calls[at]) == 0)
        at++;
    return at;
}

static bool differ(const struct record *one, const struct record *other) {
    unsigned both;
    return first_difference(one, other, &both) < both;
}

/* Reports a call of a tenant that returned something else in another run. */
static int differs(uint32_t number, unsigned tenant, const char *kind, const struct record *one, const char *when,
                   const struct record *other, const char *when_other) {
    unsigned both, at = first_difference(one, other, &both);
    print_head(number, "breaks a promise");
    printf("%s: tenant %u: call %u of its list, '", kind, tenant, at + 1);
    print_call(tenant, &one->calls[at]);
    printf("', returns '");
    print_reply(&one->calls[at]);
    printf("' %s, and '", when);
    print_reply(&other->calls[at]);
    printf("' %s\n", when_other);
    print_again(number);
    return BROKEN;
}

/* Reports that calls of a tenant returned something else at the same time as the others' than alone. Before that, checks whether
 * they do so without threads too: if the list runs alone again, or in turn with the others. */
static int explained(uint32_t number, unsigned tenant) {
    for (unsigned i = 0; i < AGAIN; i++) {
        run_apart(ALONE, tenant, number, again);
        if (differ(&alone[tenant], &again[tenant]))
            return differs(number, tenant, "Alone", &alone[tenant], "alone", &again[tenant], "when it runs alone again");
    }
    run_apart(IN_TURN, 0, number, again);
    if (differ(&again[tenant], &alone[tenant]))
        return differs(number, tenant, "Alone", &again[tenant], "in turn with the others, on one thread", &alone[tenant],
                       "alone");
    return differs(number, tenant, "Threads", &together[tenant], "at the same time as the others", &alone[tenant], "alone");
}

/* Draws the machine of a round. */
static void draw_machine(uint32_t number) {
    static const unsigned orders[] = {3, 3, 4, 5, 6, 8}, tenants[] = {2, 3, 4, 4, 8, 16}, slots[] = {1, 2, 3, 4, 8};
    uint64_t random = mixed(seed, number);
    unsigned order = orders[draw_from(&random, 6)], most = fixed_superblocks != 0 ? fixed_superblocks : MAX_SUPERBLOCKS;
    machine.order = fixed_order != 0 ? fixed_order : order;
    machine.tenants = tenants[draw_from(&random, 6)];
    machine.tenants = fixed_tenants != 0 ? fixed_tenants : machine.tenants < most ? machine.tenants : most;
    machine.slots = slots[draw_from(&random, 5)];
    machine.slots = machine.slots * machine.tenants <= most ? machine.slots : most / machine.tenants;
    machine.superblocks = fixed_superblocks != 0 ? fixed_superblocks : machine.slots * machine.tenants;
}

/* Runs a round. Returns an exit status. */
static int run_round(uint32_t number) {
    draw_machine(number);
    int status = run_apart(AT_ONCE, 0, number, together);
    for (unsigned tenant = 0; tenant < machine.tenants; tenant++) {
        int status_alone = run_apart(ALONE, tenant, number, alone);
        if (status_alone != 0)
            return failed(number, status_alone, alone, "with one tenant alone");
        if (differ(&together[tenant], &alone[tenant]))
            return explained(number, tenant);
    }
    return status == 0 ? KEPT : failed(number, status, together, "with its tenants at the same time");
}

static const struct option {
    const char *name;
    uint32_t *value, least, most;
    const char *help;
} OPTIONS[] = {{"--rounds", &rounds, 1, UINT32_MAX, "how many rounds are run; 100 without it"},
               {"--seed", &seed, 0, UINT32_MAX, "each makes other lists; 1 without it"},
               {"--round", &only_round, 0, UINT32_MAX - 1, "runs only this round"},
               {"--order", &fixed_order, 3, MAX_ORDER, "only machines of this order"},
               {"--superblocks", &fixed_superblocks, 2, MAX_SUPERBLOCKS, "only machines with this number of superblocks"},
               {"--tenants", &fixed_tenants, 2, MAX_TENANTS, "only machines with this number of tenants"}};
enum { COUNT_OPTIONS = sizeof OPTIONS / sizeof *OPTIONS };

static void print_help(void) {
    printf("usage: %s [OPTION N]..\n\nTests the allocator that is linked with conformance/threads.c with tenants at the same "
           "time.\n\n",
           program);
    for (const struct option *option = OPTIONS; option < OPTIONS + COUNT_OPTIONS; option++)
        printf("  %s N%*s%s\n", option->name, 16 - (int)strlen(option->name), "", option->help);
    printf("\nexit status:\n  0  all calls return what they return alone\n  1  a call returns something else\n"
           "  2  the command line is wrong, or a process or memory cannot be had\n"
           "  3  the allocator fails: its process ends by a signal or with a status other than 0, or hangs\n");
}

static void refuse(const char *option, const char *why) {
    fprintf(stderr, "%s: %s %s; see --help\n", program, option, why);
    exit(UNUSABLE);
}

/* Takes an option and its number from two words of the command line. */
static void take_option(const char *name, const char *word) {
    const struct option *option = OPTIONS;
    char why[80], *end;
    while (option < OPTIONS + COUNT_OPTIONS && strcmp(option->name, name) != 0)
        option++;
    if (option == OPTIONS + COUNT_OPTIONS)
        refuse(name, "is not an option");
    errno = 0;
    unsigned long long number = word == NULL ? 0 : strtoull(word, &end, 10);
    snprintf(why, sizeof why, "needs a number from %u to %u", option->least, option->most);
    if (word == NULL || word[0] < '0' || word[0] > '9' || *end != '\0' || errno != 0 || number < option->least ||
        number > option->most)
        refuse(name, why);
    *option->value = (uint32_t)number;
}

static struct record *records_for_all(void) {
    void *records = mmap(NULL, MAX_TENANTS * sizeof(struct record), PROT_READ | PROT_WRITE, MAP_SHARED | MAP_ANONYMOUS, -1, 0);
    if (records != MAP_FAILED)
        return records;
    perror(program);
    exit(UNUSABLE);
}

/* Returns how many processors the program may run on. */
static unsigned processors(void) {
    cpu_set_t set;
    return sched_getaffinity(0, sizeof set, &set) == 0 ? (unsigned)CPU_COUNT(&set) : 1;
}

static int run_rounds(uint32_t first, uint32_t end) {
    unsigned long long calls = 0;
    unsigned most = 0;
    int status = KEPT;
    for (uint32_t number = first; number < end && status == KEPT; number++) {
        show_progress(number, end);
        status = run_round(number);
        calls += (unsigned long long)CALLS * machine.tenants;
        most = machine.tenants > most ? machine.tenants : most;
    }
    if (status != KEPT)
        return status;
    clear_progress();
    printf("kept: %u round%s, %llu calls; up to %u tenants at the same time, on %u processor%s\n", end - first,
           end - first == 1 ? "" : "s", calls, most, processors(), processors() == 1 ? "" : "s");
    return KEPT;
}

int main(int count, char **words) {
    sigset_t child;
    program = words[0];
    for (int i = 1; i < count; i += 2) {
        if (strcmp(words[i], "--help") == 0 || strcmp(words[i], "-h") == 0) {
            print_help();
            return KEPT;
        }
        take_option(words[i], words[i + 1]);
    }
    if (fixed_superblocks != 0 && fixed_superblocks < fixed_tenants)
        refuse("--superblocks", "needs a number that is not less than that of --tenants");
    sigemptyset(&child);
    sigaddset(&child, SIGCHLD);
    sigprocmask(SIG_BLOCK, &child, NULL);
    together = records_for_all();
    alone = records_for_all();
    again = records_for_all();
    int status = only_round == UINT32_MAX ? run_rounds(0, rounds) : run_rounds(only_round, only_round + 1);
    if (fflush(stdout) != 0 || ferror(stdout)) {
        fprintf(stderr, "%s: cannot write the report\n", program);
        return UNUSABLE;
    }
    return status;
}
