/* Boots two machines. Runs the lines of a file on the first and prints their replies; uses memory of the second in place. */
#define _POSIX_C_SOURCE 200809L /* getline */
#include <stdio.h>
#include <stdlib.h>
#include <string.h>

#include "partmem.h"

struct message {
    uint32_t next; /* a place, since a move changes addresses */
    char text[60];
};

static void must(partmem_status status, const char *what) {
    if (status != PARTMEM_DONE) {
        fprintf(stderr, "two_machines: %s: %s\n", what, partmem_strerror(status));
        exit(1);
    }
}

static void check(int holds, const char *what) {
    if (!holds) {
        fprintf(stderr, "two_machines: %s\n", what);
        exit(1);
    }
}

static void run_lines(partmem_machine *machine, FILE *trace) {
    static char buffer[PARTMEM_LINE_BUFFER_BYTES];
    char *line = NULL;
    size_t size = 0, written = 0;
    ssize_t len;
    while ((len = getline(&line, &size, trace)) > 0) {
        size_t line_len = (size_t)len - (line[len - 1] == '\n');
        must(partmem_line(machine, line, line_len, buffer, sizeof buffer, &written), "line");
        fwrite(buffer, 1, written, stdout);
    }
    free(line);
}

/* Puts a message before the list that begins at a place, and returns the place where the list begins now. */
static uint32_t put_message(partmem_tenant tenant, uint32_t messages, uint32_t next, const char *text) {
    partmem_lent object;
    must(partmem_take(tenant, messages, &object), "take");
    struct message *message = object.at;
    message->next = next;
    snprintf(message->text, sizeof message->text, "%s", text);
    return object.place;
}

/* Uses objects and a page block of the last tenant, before and after a move of their slot. */
static void use_in_place(partmem_machine *machine) {
    const partmem_tenant last = {machine, 63}, other = {machine, 62};
    partmem_slot slot;
    partmem_cache messages;
    partmem_lent block;
    partmem_owner owner;
    must(partmem_grant(last, &slot), "grant");
    must(partmem_alloc(last, 4, &block), "alloc");
    memset(block.at, 'x', block.bytes);
    must(partmem_make_cache(last, sizeof(struct message), 8, "", 1, &messages), "make_cache");
    uint32_t first = put_message(last, messages.cache, PARTMEM_NO_PLACE, "world");
    first = put_message(last, messages.cache, first, "hello");
    must(partmem_move(last, 0, &slot), "move");
    struct message *hello = partmem_object_at(last, messages.cache, first); /* after the move it has to be lent again */
    check(hello && strcmp(hello->text, "hello") == 0, "the first message");
    struct message *world = partmem_object_at(last, messages.cache, hello->next);
    check(world && strcmp(world->text, "world") == 0 && world->next == PARTMEM_NO_PLACE, "the second message");
    must(partmem_lend_block(last, block.place, &block), "lend_block");
    check(block.bytes == 65536 && ((char *)block.at)[65535] == 'x', "the block");
    check(partmem_free(other, block.place) == PARTMEM_NOT_A_BLOCK, "another's block");
    must(partmem_find_superblock(machine, slot.superblock, &owner), "find_superblock");
    check(owner.is_owned && owner.tenant == 63 && owner.slot == 0, "owner");
}

int main(int argc, char **argv) {
    partmem_machine first = {{0}}, second = {{0}};
    const partmem_config small = {3, 2, 2}, widest = {8, 256, 64}, wide = {3, 256, 64};
    FILE *trace = fopen(argc > 1 ? argv[1] : "", "r");
    check(trace != NULL, "usage: two_machines TRACE [BOOTS]");
    must(partmem_boot(&first, &small), "boot");
    must(partmem_boot(&second, &widest), "boot");
    use_in_place(&second);
    run_lines(&first, trace);
    must(partmem_end(&first), "end");
    for (long boots = argc > 2 ? atol(argv[2]) : 0; boots > 0; boots--) {
        must(partmem_boot(&first, &wide), "boot");
        must(partmem_end(&first), "end");
    }
    must(partmem_end(&second), "end");
    fclose(trace);
    return 0;
}
