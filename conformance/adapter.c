/* Reads a trace from standard input, runs its lines on the allocator behind adapter.h, and writes the replies. docs/traces.md
 * describes the lines. */
#include "adapter.h"
#include "refusals.h"

#include <stdio.h>
#include <stdlib.h>
#include <string.h>

enum { MAX_LINE = 255, MAX_WORDS = 8, MAX_TENANTS = 64, MAX_SUPERBLOCKS = 256 };

static unsigned machine_order, superblocks, tenants;

/* The owner of each superblock, according to the replies so far. */
static struct {
    bool owned;
    unsigned tenant;
    uint32_t slot;
} owners[MAX_SUPERBLOCKS];

/* The first MAX_WORDS words of the line, and how many words it has in all. */
static char *words[MAX_WORDS];
static int count;

/* The arguments of a command: its numbers by position, and at most one byte string with its length. */
static uint32_t numbers[4];
static uint8_t bytes[MAX_BYTES];
static unsigned length;

static bool is_number(const char *word, uint32_t *number) {
    uint64_t value = 0;
    size_t digits = strspn(word, "0123456789");
    if (digits == 0 || digits > 10 || word[digits] != '\0')
        return false;
    for (const char *digit = word; *digit; digit++)
        value = 10 * value + (uint64_t)(*digit - '0');
    *number = (uint32_t)value;
    return value <= UINT32_MAX;
}

static bool is_hex(const char *word, unsigned most) {
    size_t digits = strspn(word, "0123456789abcdefABCDEF");
    if (digits == 0 || digits % 2 != 0 || digits > 2 * (size_t)most || word[digits] != '\0')
        return false;
    for (length = 0; length < digits / 2; length++)
        bytes[length] = (uint8_t)strtoul((char[]){word[2 * length], word[2 * length + 1], '\0'}, NULL, 16);
    return true;
}

static void fault(const char *name) { printf("!> fault %s\n", name); }

/* Parses the words after the actor and the command. `forms` has a letter for each: n for a number, b for up to MAX_BYTES bytes,
 * p for a pattern. Prints a fault and returns false if there are more or fewer words, or if a word has another form. */
static bool have_forms(const char *forms) {
    if ((size_t)count != 2 + strlen(forms)) {
        fault("Words");
        return false;
    }
    for (int i = 0; forms[i]; i++) {
        bool is_right = forms[i] == 'n' ? is_number(words[2 + i], &numbers[i])
                                        : is_hex(words[2 + i], forms[i] == 'b' ? MAX_BYTES : MAX_PATTERN);
        if (!is_right) {
            fault(forms[i] == 'n' ? "Number" : "Hex");
            return false;
        }
    }
    return true;
}

static bool is_done(enum reply reply) {
    if (reply != DONE)
        printf("refused %d %s\n", reply, REFUSALS[reply]);
    return reply == DONE;
}

static void own(unsigned superblock, unsigned tenant, uint32_t slot) {
    if (superblock >= superblocks) {
        fprintf(stderr, "there is no superblock %u\n", superblock);
        exit(1);
    }
    owners[superblock].owned = true;
    owners[superblock].tenant = tenant;
    owners[superblock].slot = slot;
}

/* Notes that nobody owns the superblock of this slot of the tenant. If `slot` is NULL, notes it for all slots of the tenant. */
static void disown(unsigned tenant, const uint32_t *slot) {
    for (unsigned i = 0; i < superblocks; i++)
        if (owners[i].tenant == tenant && (slot == NULL || owners[i].slot == *slot))
            owners[i].owned = false;
}

static void pool(void) {
    unsigned free_ones = 0;
    for (unsigned i = 0; i < superblocks; i++)
        free_ones += !owners[i].owned;
    printf("pool free %u of %u\n", free_ones, superblocks);
    for (unsigned i = 0; i < superblocks; i++)
        if (owners[i].owned)
            printf("admin> superblock %u tenant %u slot %u\n", i, owners[i].tenant, owners[i].slot);
        else
            printf("admin> superblock %u free\n", i);
}

static const char *const OF_ADMIN[][2] = {{"grant", "n"}, {"takeback", "nn"}, {"reset", "n"}, {"move", "nn"}, {"pool", ""}};

static void administer(int command) {
    uint32_t tenant = numbers[0], slot = numbers[1];
    unsigned told;
    printf("admin> ");
    if (command != 4 && tenant >= tenants)
        is_done(NO_TENANT);
    else if (command == 0 && is_done(grant(tenant, &slot, &told))) {
        printf("granted %u slot %u superblock %u\n", tenant, slot, told);
        own(told, tenant, slot);
    } else if (command == 1 && is_done(take_back(tenant, slot, &told))) {
        printf("taken superblock %u\n", told);
        disown(tenant, &slot);
    } else if (command == 2 && is_done(reset(tenant, &told))) {
        printf("reset %u superblocks %u\n", tenant, told);
        disown(tenant, NULL);
    } else if (command == 3 && is_done(move(tenant, slot, &told))) {
        printf("moved %u slot %u superblock %u\n", tenant, slot, told);
        disown(tenant, &slot);
        own(told, tenant, slot);
    } else if (command == 4) {
        pool();
    }
}

static void report(unsigned tenant) {
    struct figures figures = {.caches = 0};
    unsigned held = 0, free_frames = 0, greatest = 0;
    caches()->report(tenant, &figures);
    for (unsigned i = 0; i < superblocks; i++)
        held += (unsigned)(owners[i].owned && owners[i].tenant == tenant) << machine_order;
    for (unsigned k = 0; k <= machine_order; k++) {
        free_frames += figures.orders[k].free << k;
        greatest = figures.orders[k].free ? k : greatest;
    }
    printf("frames %u live %u free %u top ", held, held - free_frames, free_frames);
    if (free_frames == 0)
        printf("none split 0\n");
    else
        printf("%u split %u\n", greatest, (1000 * (free_frames - (1u << greatest)) + free_frames - 1) / free_frames);
    for (unsigned k = 0; k <= machine_order; k++)
        printf("%u> order %u free %u taken %u\n", tenant, k, figures.orders[k].free, figures.orders[k].taken);
    for (const struct cache_row *row = figures.rows; row < figures.rows + figures.caches; row++)
        printf("%u> cache %u full %u partial %u empty %u live %u\n", tenant, row->number, row->full, row->partial, row->empty,
               row->live);
}

static const char *const OF_TENANT[][2] = {{"alloc", "n"}, {"free", "n"},     {"read", "nn"}, {"write", "nb"}, {"cache", "nnp"},
                                           {"take", "n"},  {"give", "nn"},    {"destroy", "n"}, {"reap", ""},  {"report", ""}};

static void use_caches(unsigned tenant, int command) {
    struct layout layout;
    uint32_t place;
    unsigned frames;
    if (caches() == NULL) {
        fprintf(stderr, "%s: there are no caches\n", OF_TENANT[command][0]);
        exit(1);
    }
    if (command == 4 && is_done(caches()->make(tenant, numbers[0], numbers[1], length, bytes, &layout)))
        printf("cache %u chunk %u order %u objects %u colours %u\n", layout.number, layout.chunk, layout.order, layout.objects,
               layout.colours);
    else if (command == 5 && is_done(caches()->take(tenant, numbers[0], &place)))
        printf("object %u\n", place);
    else if (command == 6 && is_done(caches()->give(tenant, numbers[0], numbers[1])))
        printf("given\n");
    else if (command == 7 && is_done(caches()->destroy(tenant, numbers[0], &frames)))
        printf("destroyed %u\n", frames);
    else if (command == 8) {
        caches()->reap(tenant, &frames);
        printf("reaped %u\n", frames);
    } else if (command == 9)
        report(tenant);
}

static void use(unsigned tenant, int command) {
    uint32_t told;
    if (command == 0 && is_done(alloc(tenant, numbers[0], &told)))
        printf("frame %u\n", told);
    else if (command == 1 && is_done(release(tenant, numbers[0], &told)))
        printf("freed %u\n", told);
    else if (command == 2 && is_done(read_bytes(tenant, numbers[0], numbers[1], bytes))) {
        printf("bytes ");
        for (unsigned i = 0; i < numbers[1]; i++)
            printf("%02x", bytes[i]);
        printf("\n");
    } else if (command == 3 && is_done(write_bytes(tenant, numbers[0], length, bytes)))
        printf("written %u\n", length);
    else if (command > 3)
        use_caches(tenant, command);
}

/* Returns the index of the line's command, words[1], among the first `most` names, or -1 if it is not one of them. */
static int command_of(const char *const names[][2], int most) {
    while (--most >= 0 && strcmp(words[1], names[most][0]) != 0)
        ;
    return most;
}

/* Prints the reply to the line. The cases of docs/traces.md are tested in their order. */
static void answer(void) {
    uint32_t actor = 0;
    bool is_admin;
    int command;
    if (count == 0 || words[0][0] == '#')
        return;
    is_admin = strcmp(words[0], "admin") == 0;
    if (!is_admin && !is_number(words[0], &actor)) {
        fault(words[0][0] >= '0' && words[0][0] <= '9' ? "Number" : "Unknown");
        return;
    }
    if (count == 1) {
        fault("Words");
        return;
    }
    command = is_admin ? command_of(OF_ADMIN, 5) : command_of(OF_TENANT, 10);
    if (command < 0)
        fault("Unknown");
    else if (is_admin && have_forms(OF_ADMIN[command][1]))
        administer(command);
    else if (!is_admin && have_forms(OF_TENANT[command][1])) {
        printf(actor < tenants ? "%u> " : "!> ", actor);
        if (actor < tenants)
            use(actor, command);
        else
            is_done(NO_TENANT);
    }
}

/* Reads the next line and splits it into words. If the line is too long, prints a fault and sets `count` to 0. Returns false at
 * the end of the trace. */
static bool next_line(char *line) {
    int size = 0, byte;
    while ((byte = getchar()) != EOF && byte != '\n')
        if (size++ <= MAX_LINE)
            /* a zero byte would end the string; it becomes 1, which is in no valid word */
            line[size - 1] = byte == 0 ? 1 : (char)byte;
    if (byte == EOF && size == 0)
        return false;
    if (size > 0 && size <= MAX_LINE + 1 && line[size - 1] == '\r')
        size--;
    count = 0;
    if (size > MAX_LINE) {
        fault("Long");
        return true;
    }
    line[size] = '\0';
    for (char *word = line; word < line + size; count++) {
        word += strspn(word, " \t");
        if (word < line + size && count < MAX_WORDS)
            words[count] = word;
        if (word >= line + size)
            break;
        word += strcspn(word, " \t");
        *word++ = '\0';
    }
    return true;
}

static unsigned size_of(const char *text) {
    uint32_t size = UINT32_MAX;
    is_number(text, &size);
    return size;
}

int main(int given, char **arguments) {
    char line[MAX_LINE + 3];
    for (int i = 1; i + 1 < given; i += 2) {
        unsigned *size = strcmp(arguments[i], "--order") == 0       ? &machine_order
                         : strcmp(arguments[i], "--superblocks") == 0 ? &superblocks
                                                                      : &tenants;
        *size = size_of(arguments[i + 1]);
    }
    if (machine_order < 3 || machine_order > MAX_ORDER || superblocks < 1 || superblocks > MAX_SUPERBLOCKS || tenants < 1 ||
        tenants > MAX_TENANTS || !boot(machine_order, superblocks, tenants)) {
        fprintf(stderr, "usage: %s --order 3..8 --superblocks 1..256 --tenants 1..64 < TRACE\n", arguments[0]);
        return 2;
    }
    while (next_line(line)) {
        answer();
        /* Each line is answered before the next one is read: the sender may be waiting for the reply. */
        fflush(stdout);
    }
    return ferror(stdout) != 0;
}
