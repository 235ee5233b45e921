/* The administrator. A world is one run of the kernel. In all worlds partition 0 gets and loses the same slots, at the same
 * points of its own run. All else that the administrator does may differ. */
#include "kernel.h"

/* What the words NAME=VALUE of the boot line say. */
static bool is_noisy;
static unsigned ticks_between; /* the least number of ticks from one act to the next */
static unsigned most_ticks;    /* if partition 0 has not ended after this many ticks, the world ends as starved */
static uint64_t state;         /* of the pseudo-random numbers */
unsigned ticks_per_second, ticks_a_turn;

static uint64_t acted_at;     /* the tick of the last act */
static unsigned moves;        /* how often a slot of partition 0 was moved */
static uint64_t longest_move; /* the instructions of the longest of these moves, without printing */

/* Returns a pseudo-random number below `below`. */
static unsigned draw(unsigned below)
{
    state = state * 6364136223846793005u + 1442695040888963407u;
    return (unsigned)(state >> 33) % below;
}

/* Returns what follows `word` at the beginning of a text, or NULL if the text does not begin with `word`. */
static const char *behind(const char *text, const char *word)
{
    while (*word && *text == *word) text++, word++;
    return *word ? NULL : text;
}

static const char *after(const char *line, const char *word)
{
    for (; *line; line++)
        if (behind(line, word)) return behind(line, word);
    return line;
}

static unsigned number_after(const char *line, const char *word, unsigned otherwise)
{
    const char *at = after(line, word);
    unsigned number = 0;
    if (*at < '0' || *at > '9') return otherwise;
    while (*at >= '0' && *at <= '9') number = number * 10 + (unsigned)(*at++ - '0');
    return number;
}

void read_words(const char *line)
{
    static const char *const faults[] = {"none", "write-out", "flush", "remap", "vectors", "selectors", "flags", "slab", "freed",
                                         "address", "thread-pointer"};
    const char *fault = after(line, "fault=");
    is_noisy = number_after(line, "noisy=", 0);
    state = number_after(line, "seed=", 1);
    ticks_between = number_after(line, "every=", 3);
    most_ticks = number_after(line, "most=", 50000);
    ticks_per_second = number_after(line, "clock=", 10000);
    ticks_a_turn = number_after(line, "turn=", 1);
    for (unsigned i = 0; i < sizeof faults / sizeof *faults; i++)
        if (behind(fault, faults[i])) planted = (enum planted)i;
}

/* ---- What it does ------------------------------------------------------------------------------------------------------- */

static uint32_t granted_to(unsigned t)
{
    partmem_slot granted;
    if (!grant(t, &granted)) panic("the pool is empty");
    return granted.superblock;
}

static void start_1(void)
{
    granted_to(1);
    if (is_noisy) granted_to(1);
    start_partition(1, is_noisy ? NOISY : QUIET, draw(1u << 30));
}

void administer_at_start(void)
{
    granted_to(0);
    start_partition(0, STEADY, 0);
    start_1();
}

/* Takes all memory from partition 1, which has filled it, and grants partition 0 the first superblock that partition 1 had. Until
 * then RESERVE holds the free superblocks before that one, since a grant takes the first free superblock. */
static void hand_over(void)
{
    uint32_t next = 0;
    for (; !is_owned_by(1, next); next++)
        if (is_free(next)) granted_to(RESERVE);
    reset(1);
    if (granted_to(0) != next) panic("another superblock was granted");
    print("# admin: superblock %u of partition 1 is granted to 0 with %lu bytes that are not 0\n", next, bytes_not_zero(next));
    reset(RESERVE);
    start_1();
}

/* Does what partition 0 waits for. A meeting is a system call in which a partition waits for the administrator. Partition 0 is
 * granted a superblock at meeting 1, loses slot 1 at meeting 2, and is granted a superblock again at meeting 3. In a noisy world
 * meeting 1 lasts until partition 1 has filled its memory. */
static void serve_meeting(void)
{
    if (meeting_of(0) == 2) take_back(0, 1);
    else if (meeting_of(0) == 1 && is_noisy && !meeting_of(1)) return;
    else if (meeting_of(0) == 1 && is_noisy) hand_over();
    else granted_to(0);
    go_on(0);
}

static void move_0(uint32_t slot)
{
    printing = 0;
    uint64_t begin = stamp();
    bool is_moved = move_slot(0, slot);
    uint64_t taken = stamp() - begin - printing;
    moves += is_moved;
    if (is_moved && taken > longest_move) longest_move = taken;
}

/* At random moves a slot of either partition, changes how many slots partition 1 has, or resets partition 1. Partition 0 must not
 * notice. */
static void act(void)
{
    partmem_slot granted;
    switch (draw(8)) {
    case 0: move_slot(1, draw(3)); break;
    case 1:
        if (slots_of(1) < 3) grant(1, &granted);
        else take_back(1, draw(4));
        break;
    case 2:
        if (draw(4) || meeting_of(0)) break;
        reset(1);
        start_1();
        break;
    default: move_0(draw(slots_of(0)));
    }
    acted_at = ticks;
}

static _Noreturn void finish(void)
{
    print("# kernel: %u moves of slots of partition 0, of at most %lu instructions\n", moves, longest_move);
    print("# kernel: %lu ticks, %lu bytes of stack\n", ticks, stack_used());
    print_counts();
    end_memory();
    print("# kernel: done\n");
    stop(0);
}

void administer(void)
{
    if (!is_running(0)) finish();
    if (ticks > most_ticks) print("# kernel: starved\n"), stop(2);
    if (is_noisy && !is_running(1)) panic("partition 1 has ended");
    if (meeting_of(0)) serve_meeting();
    if (meeting_of(1) && meeting_of(0) != 1) go_on(1);
    if (is_noisy && ticks >= acted_at + ticks_between) act();
}
