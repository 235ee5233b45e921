/* The programs of partitions. All variables of a program are on its stacks, which lie in page blocks of its partition. */
#include <stdint.h>

#include "calls.h"
#include "sizes.h"

#define PLACES 0x8000000000ull
#define CODE 0x10000000000ull
enum { WORDS = FRAME / 8, SLOT = 1 << ORDER }; /* the words of a frame, the frames of a slot */

/* These functions of user.h load a byte, store a byte, run code, read the time, and read a device. If one of them faults, the
 * thread continues at `in_vain`, which returns REFUSED. */
uint64_t load_byte(uint64_t address);
uint64_t store_byte(uint64_t address);
uint64_t run_at(uint64_t address);
uint64_t read_time(uint64_t unused);
uint64_t read_device(uint64_t unused);
extern const char in_vain[];

/* Jumps to serve, and passes the OR of all registers except the stack pointer and the one with the argument. */
extern const char new_thread[];

static uint64_t word_for(uint64_t seed, uint64_t i) { return seed * 0x9e3779b97f4a7c15u + i; }

#include "user.h"

static void say(const char *text, uint64_t number) { call(CALL_SAY, (uint64_t)text, number, 0); }
static uint64_t alloc(uint64_t order) { return call(CALL_ALLOC, order, 0, 0); }
static void free_frame(uint64_t frame) { call(CALL_FREE, frame, 0, 0); }
static volatile uint64_t *words_of(uint64_t frame) { return (volatile uint64_t *)(PLACES + frame * FRAME); }

static void fill(uint64_t frame, uint64_t frames, uint64_t seed)
{
    for (uint64_t i = 0; i < frames * WORDS; i++) words_of(frame)[i] = word_for(seed, i);
}

static uint64_t wrong_words(uint64_t frame, uint64_t frames, uint64_t seed)
{
    uint64_t wrong = 0;
    for (uint64_t i = 0; i < frames * WORDS; i++) wrong += words_of(frame)[i] != word_for(seed, i);
    return wrong;
}

static uint64_t words_not_zero(uint64_t frame, uint64_t frames)
{
    uint64_t found = 0;
    for (uint64_t i = 0; i < frames * WORDS; i++) found += words_of(frame)[i] != 0;
    return found;
}

/* ---- Partition 0: always the same calls ----------------------------------------------------------------------------------- */

static void use_pages(uint64_t kept)
{
    uint64_t page = alloc(0);
    say("words not zero in new pages:", words_not_zero(page, 1) + words_not_zero(kept, 2));
    fill(page, 1, 1);
    fill(kept, 2, 2);
    say("wrong words in pages:", wrong_words(page, 1, 1) + wrong_words(kept, 2, 2));
    say("byte 1 of a page:", load_byte(PLACES + page * FRAME + 1));
    words_of(page)[WORDS - 1] = RETURN;
    say("an instruction in a page:", run_at(PLACES + page * FRAME + 8 * (WORDS - 1)));
    words_of(page)[WORDS - 1] = word_for(1, WORDS - 1);
    free_frame(page);
    say("byte 1 after the free:", load_byte(PLACES + page * FRAME + 1));
    say("a store there:", store_byte(PLACES + page * FRAME + 1));
    free_frame(page);
    free_frame(kept + 1);
    free_frame(1ull << 40);
    alloc(ORDER + 1);
    page = alloc(0);
    say("wrong words in the page, allocated again:", wrong_words(page, 1, 1));
    free_frame(page);
}

static void touch_what_is_not_its_own(uint64_t slab)
{
    say("byte of a slab:", load_byte(PLACES + slab));
    say("byte of a slot that it does not hold:", load_byte(PLACES + 5ul * SUPERBLOCK));
    say("byte of the kernel:", load_byte(KERNEL));
    say("a store in the kernel:", store_byte(KERNEL));
    say("byte of the first superblock's address:", load_byte(RAM));
    say("a store in its program:", store_byte(CODE));
    say("the time:", read_time(0));
    say("byte of a device:", read_device(0));
    say("a text of the kernel:", call(CALL_SAY, KERNEL, 0, 0));
    say("a thread at an address that is none:", call(CALL_START, 1ull << 47, 0, 0));
    call(CALLS, 0, 0, 0);
}

/* Runs in the other thread. Receives words from one endpoint, and sends each, doubled, to another one. Ends after it has received
 * and sent 0. */
void serve(uint64_t endpoints, uint64_t registers);
void serve(uint64_t endpoints, uint64_t registers)
{
    uint64_t from = endpoints >> 32, to = endpoints & UINT32_MAX, word;
    say("registers not zero in a new thread:", vectors_not_zero() + (registers != 0));
    while ((word = call(CALL_RECEIVE, from, 0, 0)) != 0) call(CALL_SEND, to, 2 * word, 0);
    call(CALL_SEND, to, 0, 0);
    call(CALL_EXIT, 0, 0, 0);
}

static void use_endpoints(uint64_t first, uint64_t second)
{
    for (uint64_t i = 0; i < 9; i++) call(CALL_SEND, first, 100 + i, 0);
    call(CALL_SEND, second, 200, 0);
    for (uint64_t i = 0; i < 7; i++) say("received:", call(CALL_RECEIVE, first, 0, 0));
    say("received:", call(CALL_RECEIVE, second, 0, 0));
    call(CALL_RECEIVE, first, 0, 0);
    call(CALL_SEND, first + 8, 1, 0);
    call(CALL_DROP, first + 8, 0, 0);
    uint64_t stack = alloc(0);
    call(CALL_START, (uint64_t)new_thread, PLACES + (stack + 1) * FRAME, first << 32 | second);
    for (uint64_t i = 4; i-- > 0;) {
        call(CALL_SEND, first, i, 0);
        say("doubled:", call(CALL_RECEIVE, second, 0, 0));
    }
    free_frame(stack);
}

static void work(uint64_t kept, uint64_t rounds)
{
    uint64_t words = 0, registers = 0;
    for (uint64_t round = 0; round < rounds; round++) {
        load_registers(round);
        words += wrong_words(kept, 2, round + 2);
        fill(kept, 2, round + 3);
        registers += wrong_registers(round);
        if (round % 50 == 0) call(CALL_REPORT, 0, 0, 0);
    }
    say("wrong words while it works:", words);
    say("wrong registers while it works:", registers);
}

static void use_a_slot_of_another(uint64_t kept, uint64_t rounds)
{
    uint64_t words = 0, slot;
    call(CALL_MEET, 1, 0, 0);
    slot = alloc(ORDER);
    say("words not zero in a slot that another had:", words_not_zero(slot, SLOT));
    fill(slot, SLOT, 7);
    for (uint64_t round = 0; round < rounds; round++) {
        words += wrong_words(slot, SLOT, round + 7) + wrong_words(kept, 2, 302);
        fill(slot, SLOT, round + 8);
    }
    say("wrong words in both slots:", words);
    free_frame(slot);
    call(CALL_MEET, 2, 0, 0);
    say("byte of a slot that was taken back:", load_byte(PLACES + slot * FRAME));
    call(CALL_MEET, 3, 0, 0);
    slot = alloc(ORDER);
    say("words not zero in a slot that it had itself:", words_not_zero(slot, SLOT));
}

static void use_all(uint64_t first, uint64_t second)
{
    uint64_t pages = 0, page;
    while ((page = alloc(0)) != REFUSED) fill(page, 1, page), pages++;
    say("pages until none is left:", pages);
    uint64_t third = call(CALL_MAKE, 0, 0, 0);
    call(CALL_DROP, first, 0, 0);
    call(CALL_DROP, second, 0, 0);
    call(CALL_DROP, second, 0, 0);
    alloc(0);
    call(CALL_DROP, third, 0, 0);
    page = alloc(0);
    say("words not zero where endpoints were:", page == REFUSED ? REFUSED : words_not_zero(page, 1));
    call(CALL_REAP, 0, 0, 0);
    call(CALL_REPORT, 0, 0, 0);
}

void steady(void);
void steady(void)
{
    call(CALL_CATCH, (uint64_t)in_vain, 0, 0);
    uint64_t kept = alloc(1);
    use_pages(kept);
    uint64_t first = call(CALL_MAKE, 0, 0, 0), second = call(CALL_MAKE, 0, 0, 0);
    touch_what_is_not_its_own(first);
    use_endpoints(first, second);
    work(kept, 300);
    use_a_slot_of_another(kept, 60);
    use_all(first, second);
    call(CALL_EXIT, 0, 0, 0);
}

/* ---- Partition 1 ---------------------------------------------------------------------------------------------------------- */

void quiet(void);
void quiet(void) { call(CALL_EXIT, 0, 0, 0); }

static uint64_t next(uint64_t *state)
{
    *state ^= *state << 13, *state ^= *state >> 7, *state ^= *state << 17;
    return *state;
}

static void fill_all(void)
{
    uint64_t frame;
    for (uint64_t order = ORDER + 1; order-- > 0;)
        while ((frame = alloc(order)) != REFUSED)
            for (uint64_t i = 0; i < (uint64_t)WORDS << order; i++) words_of(frame)[i] = 0xeeeeeeeeeeeeeeee;
}

struct load {
    /* `taken` and `orders` have the first frames and the orders of the `held` blocks. `lost` counts wrong words in blocks, and
     * `made` is the last endpoint. */
    uint64_t state, taken[8], orders[8], held, lost, made;
};

static void take_block(struct load *load, uint64_t order)
{
    uint64_t frame = alloc(order);
    if (frame == REFUSED) return;
    fill(frame, 1ull << order, 0xee);
    load->taken[load->held] = frame;
    load->orders[load->held++] = order;
}

static void drop_block(struct load *load, uint64_t at)
{
    load->lost += wrong_words(load->taken[at], 1ull << load->orders[at], 0xee);
    free_frame(load->taken[at]);
    load->held--;
    load->taken[at] = load->taken[load->held];
    load->orders[at] = load->orders[load->held];
}

/* Allocates, frees, uses an endpoint or loads a byte, at random. Each time the registers have other values. */
static void call_any(struct load *load)
{
    uint64_t what = next(&load->state) >> 8 & 7, which = load->state >> 24 & 0xfffff;
    load_registers(load->state >> 5);
    if (what < 3 && load->held < 8) {
        take_block(load, load->state >> 16 & 3);
    } else if (what < 5 && load->held) {
        drop_block(load, which % load->held);
    } else if (what == 5) {
        load->made = call(CALL_MAKE, 0, 0, 0);
        call(CALL_SEND, load->made, load->state, 0);
    } else if (what == 6) {
        uint64_t of_partition_0 = 4 * FRAME + (which & 1) * 64; /* an endpoint of partition 0 begins there */
        call(CALL_DROP, load->made, 0, 0);
        call(CALL_SEND, of_partition_0, load->state, 0);
        call(CALL_RECEIVE, of_partition_0, 0, 0);
    } else {
        load_byte(PLACES + which);
    }
}

/* Returns how many frames of slots 0 and 1 the program can load from. Leaves out frame 0, which has its stack. */
static uint64_t frames_reached(void)
{
    uint64_t found = 0;
    for (uint64_t frame = 1; frame < 2 * SLOT; frame++) found += load_byte(PLACES + frame * FRAME) != REFUSED;
    return found;
}

/* Frees all page blocks of the partition except the one with its stack, at frame 0. */
static void free_all(void)
{
    for (uint64_t frame = 1; frame < SUPERBLOCKS * SLOT; frame++) free_frame(frame);
}

/* Makes 100 calls at random, fills all its memory, meets the administrator, frees the memory, and starts again. */
void noisy(uint64_t seed);
void noisy(uint64_t seed)
{
    say("vector registers not zero at its start:", vectors_not_zero());
    call(CALL_CATCH, (uint64_t)in_vain, 0, 0);
    say("frames reached at its start:", frames_reached());
    struct load load;
    load.state = seed | 1u << 30, load.held = load.lost = load.made = 0;
    for (uint64_t call_number = 1;; call_number++) {
        call_any(&load);
        if (call_number % 100) continue;
        say("wrong words:", load.lost);
        fill_all();
        call(CALL_MEET, call_number, 0, 0);
        store_byte(KERNEL);
        free_all();
        load.held = 0;
    }
}
