/* Partitions: traps, threads and endpoints, system calls, and scheduling. */
#include "calls.h"
#include "kernel.h"

/* The objects of a partition, in two caches of the partition. They contain only what the partition's own calls put there. */
struct thread {
    uint64_t handler;   /* the address at which the thread continues after a fault; if it is 0, a fault ends the thread */
    uint64_t waits_for; /* 1 plus the place of the endpoint that the thread waits for; 0 if it waits for none */
};

struct endpoint {
    uint64_t count;
    uint64_t words[7];
};

enum { THREAD_CACHE, ENDPOINT_CACHE, MAX_COUNTS = 1024 };

/* What the kernel keeps of a thread. The kernel saves registers at times that depend on other partitions, so it saves them here,
 * and not in the thread's object. */
struct context {
    struct registers registers;
    struct vectors vectors;
    bool is_there;
    uint32_t place; /* of the thread's object */
};

static struct context contexts[PARTITIONS][THREADS];
static struct {
    bool is_running;
    unsigned thread; /* the thread whose turn it is; it changes only in system calls and faults */
    uint32_t meeting;
} partitions[PARTITIONS];
static unsigned current;
uint64_t ticks;

/* For each of the first MAX_COUNTS system calls of partition 0: the instructions of the whole call, and of the call without its
 * printing. */
static struct {
    const char *name;
    uint64_t all, quiet;
} counts[MAX_COUNTS];
static unsigned count;

extern const uint64_t user_entries[];

bool is_running(unsigned t) { return partitions[t].is_running; }
uint32_t meeting_of(unsigned t) { return partitions[t].meeting; }
void go_on(unsigned t) { partitions[t].meeting = 0; }

static struct context *turn_of(unsigned t) { return &contexts[t][partitions[t].thread]; }

static void put_in_thread(unsigned t, const struct context *context, uint32_t offset, uint64_t word)
{
    store_in_object(t, THREAD_CACHE, context->place, offset, &word, sizeof word);
}

static const struct thread *thread_of(unsigned t, const struct context *context)
{
    const struct thread *thread = lent_object(t, THREAD_CACHE, context->place);
    if (!thread) panic("a thread has no object");
    return thread;
}

/* ---- Vector registers --------------------------------------------------------------------------------------------------- */

static struct context *vectors_of; /* the processor has the vector registers of this context; if NULL, of none that is there */

/* Saves the vector registers, and loads those of the context that runs next. If the thread stays the same, they stay in the
 * processor, since neither the kernel (-mgeneral-regs-only) nor libpartmem_kernel.a uses them. A kernel over libpartmem.a has to
 * save them before each call to the library (duty 9). */
static void switch_vectors(struct context *next)
{
    if (vectors_of == next || planted == NO_VECTORS) return;
    if (vectors_of) save_vectors(&vectors_of->vectors);
    load_vectors(&next->vectors);
    vectors_of = next;
}

/* ---- Threads ------------------------------------------------------------------------------------------------------------ */

/* Returns whether user mode can continue at an address. On x86-64, iretq to one that is not canonical would fault in the
 * kernel. */
static bool is_of_user(uint64_t address) { return address < 1ul << 47; }

static uint64_t start_thread(unsigned t, uint64_t address, uint64_t stack, uint64_t argument)
{
    static const struct thread empty;
    unsigned number = 0;
    while (number < THREADS && contexts[t][number].is_there) number++;
    if (number == THREADS || !is_of_user(address) || !is_of_user(stack)) return REFUSED;
    struct context *context = &contexts[t][number];
    if (vectors_of == context) vectors_of = NULL; /* the thread that was there has ended */
    begin_thread(&context->registers, &context->vectors, address, stack, argument);
    if (take_object(t, THREAD_CACHE, &context->place) != PARTMEM_DONE) return REFUSED;
    store_in_object(t, THREAD_CACHE, context->place, 0, &empty, sizeof empty);
    context->is_there = true;
    return number;
}

/* Gives the turn to a thread of the partition that does not wait. The search begins with the thread after the current one, and
 * ends with the current one. If all threads wait, or there is none, the partition has ended. */
static void choose_thread(unsigned t)
{
    for (unsigned i = 1; i <= THREADS; i++) {
        unsigned number = (partitions[t].thread + i) % THREADS;
        const struct context *context = &contexts[t][number];
        if (!context->is_there || thread_of(t, context)->waits_for) continue;
        partitions[t].thread = number;
        return;
    }
    partitions[t].is_running = false;
}

static void end_thread(unsigned t)
{
    struct context *context = turn_of(t);
    context->is_there = false;
    if (drop_object(t, THREAD_CACHE, context->place) != PARTMEM_DONE) panic("a thread has no object");
    choose_thread(t);
}

void start_partition(unsigned t, enum program program, uint64_t argument)
{
    uint32_t stack;
    make_cache(t, sizeof(struct thread), 16);
    make_cache(t, sizeof(struct endpoint), 64);
    must(alloc_block(t, 0, &stack));
    start_thread(t, user_entries[program], USER_PLACES + (stack + 1) * (uint64_t)FRAME, argument);
    partitions[t].is_running = true;
    partitions[t].thread = 0;
    partitions[t].meeting = 0;
}

/* Clears all that the kernel keeps for a partition, so that another one can get its number (duty 13). */
void end_partition(unsigned t)
{
    memset(contexts[t], 0, sizeof contexts[t]);
    memset(&partitions[t], 0, sizeof partitions[t]);
}

/* ---- Endpoints ---------------------------------------------------------------------------------------------------------- */

static uint64_t make_endpoint(unsigned t)
{
    static const struct endpoint empty;
    uint32_t place;
    if (take_object(t, ENDPOINT_CACHE, &place) != PARTMEM_DONE) return REFUSED;
    store_in_object(t, ENDPOINT_CACHE, place, 0, &empty, sizeof empty);
    return place;
}

static struct context *waiting_for(unsigned t, uint32_t place)
{
    for (unsigned i = 0; i < THREADS; i++) {
        struct context *context = &contexts[t][i];
        if (context->is_there && thread_of(t, context)->waits_for == place + 1ull) return context;
    }
    return NULL;
}

static uint64_t send(unsigned t, uint32_t place, uint64_t word)
{
    const struct endpoint *endpoint = lent_object(t, ENDPOINT_CACHE, place);
    if (!endpoint || endpoint->count == sizeof endpoint->words / sizeof *endpoint->words) return REFUSED;
    struct context *receiver = waiting_for(t, place);
    if (receiver) {
        set_result(&receiver->registers, word);
        put_in_thread(t, receiver, offsetof(struct thread, waits_for), 0);
        return 0;
    }
    uint64_t after = endpoint->count + 1;
    store_in_object(t, ENDPOINT_CACHE, place, (uint32_t)(after * sizeof word), &word, sizeof word);
    store_in_object(t, ENDPOINT_CACHE, place, 0, &after, sizeof after);
    return 0;
}

/* Returns the next word of an endpoint. If there is none, the thread waits and the turn goes to another thread of the partition
 * that can run; if no other can, the call is refused. */
static uint64_t receive(unsigned t, uint32_t place)
{
    const struct endpoint *endpoint = lent_object(t, ENDPOINT_CACHE, place);
    struct endpoint after = {0};
    if (!endpoint) return REFUSED;
    if (endpoint->count) {
        uint64_t word = endpoint->words[0];
        after.count = endpoint->count - 1;
        memcpy(after.words, endpoint->words + 1, sizeof after.words - sizeof word);
        store_in_object(t, ENDPOINT_CACHE, place, 0, &after, sizeof after);
        return word;
    }
    unsigned before = partitions[t].thread;
    choose_thread(t);
    if (partitions[t].thread != before) put_in_thread(t, &contexts[t][before], offsetof(struct thread, waits_for), place + 1ull);
    return REFUSED;
}

/* Drops an endpoint. Refuses if a thread waits for it. */
static uint64_t drop(unsigned t, uint32_t place)
{
    if (waiting_for(t, place)) return REFUSED;
    return drop_object(t, ENDPOINT_CACHE, place) == PARTMEM_DONE ? 0 : REFUSED;
}

/* ---- Traps -------------------------------------------------------------------------------------------------------------- */

/* Prints a text of the program and a number. A partition prints only what it computed; the kernel adds nothing (duty 6). */
static uint64_t say(unsigned t, uint64_t address, uint64_t number)
{
    char text[80];
    const char *at;
    unsigned length = 0;
    if (!program_text(address)) return REFUSED;
    while (length < sizeof text - 1 && (at = program_text(address + length)) && *at) text[length++] = *at;
    text[length] = 0;
    print("# %u: %s %lu\n", t, text, number);
    return 0;
}

static uint64_t catch_faults(unsigned t, uint64_t handler)
{
    if (!is_of_user(handler)) return REFUSED;
    put_in_thread(t, turn_of(t), offsetof(struct thread, handler), handler);
    return 0;
}

/* Returns an argument of a system call in 32 bits, as the library takes it. An argument that does not fit becomes UINT32_MAX,
 * which is no order, frame or place either. */
static uint32_t fit(uint64_t number) { return number > UINT32_MAX ? UINT32_MAX : (uint32_t)number; }

static uint64_t answer(unsigned t, uint64_t call, uint64_t first, uint64_t second, uint64_t third)
{
    uint32_t frame;
    switch (call) {
    case CALL_SAY: return say(t, first, second);
    case CALL_ALLOC: return alloc_block(t, fit(first), &frame) == PARTMEM_DONE ? frame : REFUSED;
    case CALL_FREE: return free_block(t, fit(first)) == PARTMEM_DONE ? 0 : REFUSED;
    case CALL_MAKE: return make_endpoint(t);
    case CALL_SEND: return send(t, fit(first), second);
    case CALL_RECEIVE: return receive(t, fit(first));
    case CALL_DROP: return drop(t, fit(first));
    case CALL_START: return start_thread(t, first, second, third);
    case CALL_CATCH: return catch_faults(t, first);
    case CALL_REAP: return reap(t), 0;
    case CALL_REPORT: return report(t), 0;
    case CALL_MEET: return partitions[t].meeting = fit(first), 0;
    case CALL_EXIT: return end_thread(t), 0;
    default: return REFUSED;
    }
}

static void system_call(struct context *context, uint64_t begin)
{
    static const char *const names[CALLS + 1] = {"say", "alloc", "free", "make", "send", "receive", "drop", "start", "catch",
                                                 "reap", "report", "meet", "exit", "unknown"};
    printing = 0;
    struct call its = call_of(&context->registers);
    uint64_t call = its.number < CALLS ? its.number : CALLS;
    uint64_t result = answer(current, call, its.first, its.second, its.third);
    set_result(&context->registers, result);
    if (call == CALL_RECEIVE && turn_of(current) != context) print("# %u: receive waits\n", current);
    else if (result == REFUSED) print("# %u: %s refused\n", current, names[call]);
    else if (call != CALL_SAY) print("# %u: %s returns %lu\n", current, names[call], result);
    if (current || count == MAX_COUNTS) return;
    uint64_t all = stamp() - begin;
    counts[count].name = names[call];
    counts[count].all = all;
    counts[count++].quiet = all - printing;
}

/* Prints a fault of a partition. If the fault is at one of the partition's places, prints the place and not an address (duty 6).
 * The thread continues at its handler, or ends if it has none. */
static void fault(unsigned t, struct context *context)
{
    struct fault it = fault_of(&context->registers);
    uint64_t place = it.address - USER_PLACES, handler = thread_of(t, context)->handler;
    const char *what = it.is_write ? "write" : "read";
    if (!it.is_access) print("# %u: fault %lu\n", t, it.number);
    else if (place < 1ul << 32) print("# %u: fault %lu %s place %lu\n", t, it.number, what, place);
    else print("# %u: fault %lu %s address %lu\n", t, it.number, what, it.address);
    if (handler) continue_at(&context->registers, handler);
    else end_thread(t);
}

/* Chooses the first partition that can run. The search begins with the current one, or with the next one if the turn of the
 * current one has ended. */
static void choose_partition(bool is_end_of_turn)
{
    for (unsigned i = is_end_of_turn; i <= PARTITIONS; i++) {
        unsigned t = (current + i) % PARTITIONS;
        if (!partitions[t].is_running || partitions[t].meeting) continue;
        current = t;
        return;
    }
    panic("no partition can run");
}

/* Enters the address space of the partition whose turn it is, switches to the vector registers of its thread, and puts the other
 * registers into `registers`, from which resume loads them. */
static void switch_to_current(struct registers *registers)
{
    const struct registers before = *registers;
    struct context *context = turn_of(current);
    enter_space(current);
    *registers = context->registers;
    leave_planted(registers, &before);
    switch_vectors(context);
}

void trap(struct registers *registers);
void trap(struct registers *registers)
{
    uint64_t begin = stamp();
    enum trap what = trap_of(registers);
    if (what == TRAP_IN_KERNEL) {
        struct fault it = fault_of(registers);
        print("# kernel: trap %lu at %lu, of address %lu", it.number, it.at, it.address);
        panic("a trap in the kernel");
    }
    struct context *context = turn_of(current);
    context->registers = *registers;
    if (what == SYSTEM_CALL) {
        system_call(context, begin);
    } else if (what == FAULT) {
        fault(current, context);
    } else {
        ticks++;
        end_of_tick();
    }
    administer();
    choose_partition(what == TICK && ticks % ticks_a_turn == 0);
    flush();
    switch_to_current(registers);
}

void print_counts(void)
{
    for (unsigned i = 0; i < count; i++) {
        print("# count %u %s %lu %lu\n", i, counts[i].name, counts[i].all, counts[i].quiet);
        flush();
    }
}

void kernel_main(const void *loaded);
void kernel_main(const void *loaded)
{
    const char *line = boot_line(loaded);
    read_words(line ? line : "");
    if (end_of_ram(loaded) < (uint64_t)RAM + RAM_BYTES) panic("too little memory");
    set_up_machine(ticks_per_second);
    set_up_pages();
    set_up_memory();
    administer_at_start();
    flush();
    static struct registers registers;
    switch_to_current(&registers);
    resume(&registers);
}
