/* partmem_watched.h: makes AddressSanitizer and valgrind see mistakes in memory of partmem.
 *
 * Without it both take all RAM of a machine for memory that a program may use. With it, bytes that are not lent are poison: a
 * load or store there is reported. Include it before any other header of partmem, in every file that includes one:
 *
 *     cc -g -fsanitize=address -include partmem_watched.h program.c -lpartmem_watched
 *     cc -g -DPARTMEM_VALGRIND -include partmem_watched.h program.c -lpartmem          and run it under valgrind
 *
 * It then replaces each function that lends bytes, ends their lifetime or uses RAM by one of its own, which needs the same locks.
 * Without these options it only includes partmem_heap.h.
 *
 * SEEN. These loads and stores are reported when they happen, with their line in the source:
 * - past the last byte of an object, a page block or a piece of a heap, up to the next lent byte. A piece of a heap ends after
 *   the bytes that were requested, and partmem_heap_usable_size returns that number.
 * - in bytes that are no longer lent after a give, free, take-back, move, reset or end. After a move also at the new address,
 *   until the bytes are lent again.
 * - in RAM at an address that no call has returned, such as free frames, and the bits that say which objects are live. So the
 *   program's own loads and stores through partmem_superblock_address, for example for a dump, are reported.
 *
 * LEAKS. If the environment has PARTMEM_LEAKS, with any value, and something is still live, partmem_end prints it on standard
 * error (at most 100 lines, and how many blocks and objects there are), and then calls abort.
 *
 * NOT SEEN: a load or store in bytes that are lent to somebody else, one at a stale address whose bytes were lent again, and one
 * of a device. AddressSanitizer does not see code either that is not compiled for it, except functions such as memcpy. Breaches
 * of duty 6 (flows) are not seen. When a machine that was booted in the caller's memory has ended, nothing in that memory is
 * reported any more. A machine's tables are not watched.
 *
 * ARCHIVE. AddressSanitizer checks the arguments of memcpy, memmove and memset, whoever calls them. So libpartmem_watched.a is
 * the code of libpartmem.a with three such functions of its own. valgrind sees each access of the library; its reports are off
 * during calls. valgrind works with either archive. */
#ifndef PARTMEM_WATCHED_H
#define PARTMEM_WATCHED_H

#include "partmem_heap.h"

#if defined(__SANITIZE_ADDRESS__)
#define PARTMEM_WATCHED_BY_ASAN
#elif defined(__has_feature)
#if __has_feature(address_sanitizer)
#define PARTMEM_WATCHED_BY_ASAN
#endif
#endif

#if defined(PARTMEM_WATCHED_BY_ASAN) || defined(PARTMEM_VALGRIND)

#ifdef PARTMEM_HPP
#error "include partmem_watched.h before partmem.hpp"
#endif

#include <stdio.h>
#include <stdlib.h>
#include <string.h>

/* A page block, an object or a piece of a heap, and the superblock in which it begins. For valgrind each superblock is a memory
 * pool, which has the superblock's address as its name. */
typedef struct partmem_watched_piece {
    unsigned char *superblock;
    unsigned char *at;
    size_t bytes;
} partmem_watched_piece;

/* ---- What the tools are told --------------------------------------------------------------------------------------------- */

#ifdef PARTMEM_WATCHED_BY_ASAN
#include <sanitizer/asan_interface.h>

#ifdef __cplusplus
extern "C" {
#endif
/* Does nothing. Only libpartmem_watched.a has it, so a program does not link with another archive. */
void partmem_link_with_libpartmem_watched(void);
#ifdef __cplusplus
}
#endif

PARTMEM_INLINE void partmem_watched_enter(void) {}
PARTMEM_INLINE void partmem_watched_leave(void) {}

/* Poisons a superblock, in which nothing is lent. */
PARTMEM_INLINE void partmem_watched_empty(unsigned char *superblock, size_t bytes)
{
    partmem_link_with_libpartmem_watched();
    __asan_poison_memory_region(superblock, bytes);
}

/* Leaves a superblock to the caller at the end of a machine. */
PARTMEM_INLINE void partmem_watched_forget(unsigned char *superblock, size_t bytes)
{
    __asan_unpoison_memory_region(superblock, bytes);
}

/* Returns how many bytes are lent from `at` to the first byte that is not lent, but at most `bytes`. */
PARTMEM_INLINE size_t partmem_watched_lent(unsigned char *at, size_t bytes)
{
    const unsigned char *end = (const unsigned char *)__asan_region_is_poisoned(at, bytes);
    return end ? (size_t)(end - at) : bytes;
}

/* Lends bytes of a live piece. */
PARTMEM_INLINE void partmem_watched_lend(unsigned char *at, size_t bytes)
{
    __asan_unpoison_memory_region(at, bytes);
}

/* Lends a piece that has just been allocated, whose first `kept` bytes have values. */
PARTMEM_INLINE void partmem_watched_begin(partmem_watched_piece piece, size_t kept)
{
    (void)kept;
    __asan_unpoison_memory_region(piece.at, piece.bytes);
}

/* Tells the tool that a call has stored these bytes outside of the RAM, so they have values. */
PARTMEM_INLINE void partmem_watched_stored(void *at, size_t bytes)
{
    (void)at;
    (void)bytes;
}

/* Poisons a piece that has been freed. */
PARTMEM_INLINE void partmem_watched_finish(partmem_watched_piece piece)
{
    __asan_poison_memory_region(piece.at, piece.bytes);
}

#else
#include <valgrind/memcheck.h>

PARTMEM_INLINE void partmem_watched_enter(void)
{
    VALGRIND_DISABLE_ERROR_REPORTING;
}

PARTMEM_INLINE void partmem_watched_leave(void)
{
    VALGRIND_ENABLE_ERROR_REPORTING;
}

PARTMEM_INLINE void partmem_watched_empty(unsigned char *superblock, size_t bytes)
{
    if (VALGRIND_MEMPOOL_EXISTS(superblock)) VALGRIND_DESTROY_MEMPOOL(superblock);
    VALGRIND_CREATE_MEMPOOL(superblock, 0, 0);
    (void)VALGRIND_MAKE_MEM_NOACCESS(superblock, bytes);
}

PARTMEM_INLINE void partmem_watched_forget(unsigned char *superblock, size_t bytes)
{
    VALGRIND_DESTROY_MEMPOOL(superblock);
    (void)VALGRIND_MAKE_MEM_DEFINED(superblock, bytes);
}

PARTMEM_INLINE size_t partmem_watched_lent(unsigned char *at, size_t bytes)
{
    size_t end;
    partmem_watched_enter();
    end = (size_t)VALGRIND_CHECK_MEM_IS_ADDRESSABLE(at, bytes);
    partmem_watched_leave();
    return end ? end - (size_t)at : bytes;
}

/* Bytes that are already lent stay as they are: some may have no value yet. */
PARTMEM_INLINE void partmem_watched_lend(unsigned char *at, size_t bytes)
{
    if (partmem_watched_lent(at, bytes) < bytes) (void)VALGRIND_MAKE_MEM_DEFINED(at, bytes);
}

PARTMEM_INLINE void partmem_watched_begin(partmem_watched_piece piece, size_t kept)
{
    VALGRIND_MEMPOOL_ALLOC(piece.superblock, piece.at, piece.bytes);
    (void)VALGRIND_MAKE_MEM_DEFINED(piece.at, kept);
}

/* valgrind treats bytes that were loaded together with poisoned bytes as undefined, so what a call has stored is marked as
 * defined. */
PARTMEM_INLINE void partmem_watched_stored(void *at, size_t bytes)
{
    (void)VALGRIND_MAKE_MEM_DEFINED(at, bytes);
}

/* valgrind does not know a piece that was moved or that an event allocated, and would report its end as a mistake of the caller.
 * So reports are off here. */
PARTMEM_INLINE void partmem_watched_finish(partmem_watched_piece piece)
{
    partmem_watched_enter();
    VALGRIND_MEMPOOL_FREE(piece.superblock, piece.at);
    partmem_watched_leave();
    (void)VALGRIND_MAKE_MEM_NOACCESS(piece.at, piece.bytes);
}

#endif

/* ---- Machines ------------------------------------------------------------------------------------------------------------ */

/* Returns how many superblocks a machine has, 0 if there is no machine. */
PARTMEM_INLINE uint32_t partmem_watched_superblocks(const partmem_machine *machine)
{
    uint32_t number = 0;
    while (partmem_superblock_address(machine, number) != NULL) number++;
    return number;
}

PARTMEM_INLINE void partmem_watched_open(partmem_machine *machine)
{
    const size_t bytes = partmem_superblock_bytes(machine);
    unsigned char *superblock;
    uint32_t number = 0;
    while ((superblock = (unsigned char *)partmem_superblock_address(machine, number++)) != NULL) {
        partmem_watched_empty(superblock, bytes);
    }
}

PARTMEM_INLINE partmem_status partmem_watched_boot_in(partmem_machine *machine, const partmem_config *config,
                                                      const partmem_memory *memory)
{
    const partmem_status status = partmem_boot_in(machine, config, memory);
    if (status == PARTMEM_DONE) partmem_watched_open(machine);
    return status;
}

PARTMEM_INLINE partmem_status partmem_watched_boot(partmem_machine *machine, const partmem_config *config)
{
    const partmem_status status = partmem_boot(machine, config);
    if (status == PARTMEM_DONE) partmem_watched_open(machine);
    return status;
}

PARTMEM_INLINE void partmem_watched_print_leak(uint32_t tenant, const partmem_object *object)
{
    fprintf(stderr, "partmem: tenant %u has not freed %u bytes at place %u", (unsigned)tenant, (unsigned)object->bytes,
            (unsigned)object->place);
    if (object->cache == PARTMEM_OF_NO_CACHE) fputs(", a page block\n", stderr);
    else fprintf(stderr, ", an object of cache %u\n", (unsigned)object->cache);
}

/* Prints what is live in a slot, but at most 100 lines in all. `pieces` is how many pieces were found in the slots before.
 * Returns how many have been found now. Objects begin at multiples of 8. */
PARTMEM_INLINE uint32_t partmem_watched_print_slot(partmem_tenant tenant, uint32_t slot, uint32_t slot_bytes, uint32_t pieces)
{
    enum { MAX_LINES = 100 };
    partmem_object object;
    partmem_block block;
    uint32_t begin = slot * slot_bytes, offset = 0;
    while (offset < slot_bytes && partmem_find_block(tenant, begin + offset, &block) == PARTMEM_DONE) {
        if (block.use != PARTMEM_PAGE_BLOCK && block.use != PARTMEM_SLAB) {
            offset = block.place + block.bytes - begin;
        } else if (partmem_find_object(tenant, begin + offset, &object) == PARTMEM_DONE) {
            if (pieces++ < MAX_LINES) partmem_watched_print_leak(tenant.number, &object);
            offset = object.place - begin + (object.bytes + 7) / 8 * 8;
        } else {
            offset += 8;
        }
    }
    return pieces;
}

PARTMEM_INLINE void partmem_watched_print_leaks(partmem_machine *machine)
{
    const uint32_t slot_bytes = partmem_superblock_bytes(machine), superblocks = partmem_watched_superblocks(machine);
    partmem_tenant tenant;
    partmem_slot found;
    uint32_t pieces = 0, slot;
    tenant.machine = machine;
    if (superblocks == 0) return;
    for (tenant.number = 0; partmem_find_slot(tenant, 0, &found) != PARTMEM_NO_TENANT; tenant.number++) {
        for (slot = 0; slot < superblocks; slot++) {
            if (partmem_find_slot(tenant, slot, &found) == PARTMEM_DONE) {
                pieces = partmem_watched_print_slot(tenant, slot, slot_bytes, pieces);
            }
        }
    }
    if (pieces == 0) return;
    fprintf(stderr, "partmem: page blocks and objects that are live at the end of a machine: %u\n", (unsigned)pieces);
    abort();
}

PARTMEM_INLINE partmem_status partmem_watched_end(partmem_machine *machine)
{
    const size_t bytes = partmem_superblock_bytes(machine);
    unsigned char *superblock;
    partmem_status status;
    uint32_t number = 0;
    partmem_watched_enter();
    if (getenv("PARTMEM_LEAKS") != NULL) partmem_watched_print_leaks(machine);
    while ((superblock = (unsigned char *)partmem_superblock_address(machine, number++)) != NULL) {
        partmem_watched_forget(superblock, bytes);
    }
    status = partmem_end(machine);
    partmem_watched_leave();
    return status;
}

/* ---- What ends a lifetime ------------------------------------------------------------------------------------------------ */

/* What a command may end: a live block or object, or everything in some slots. */
typedef struct partmem_watched_ending {
    partmem_tenant tenant;
    uint32_t place;
    partmem_watched_piece piece; /* the live one that contains the place; it has 0 bytes if there is none */
    uint32_t slots;
    partmem_slot *slot; /* from malloc, if there are slots */
} partmem_watched_ending;

/* Notes those of `count` slots that the tenant holds. */
PARTMEM_INLINE void partmem_watched_note_slots(partmem_watched_ending *ending, uint32_t first, uint32_t count)
{
    partmem_slot slot;
    uint32_t i, held = 0;
    for (i = 0; i < count; i++) held += partmem_find_slot(ending->tenant, first + i, &slot) == PARTMEM_DONE;
    if (held == 0) return;
    ending->slot = (partmem_slot *)malloc(held * sizeof slot);
    if (ending->slot == NULL) {
        fputs("partmem: there is no memory to watch a command\n", stderr);
        abort();
    }
    for (i = 0; i < count; i++) {
        if (partmem_find_slot(ending->tenant, first + i, &slot) == PARTMEM_DONE) ending->slot[ending->slots++] = slot;
    }
}

PARTMEM_INLINE void partmem_watched_note_place(partmem_watched_ending *ending, uint32_t place)
{
    const uint32_t slot_bytes = partmem_superblock_bytes(ending->tenant.machine);
    partmem_object object;
    partmem_slot slot;
    if (partmem_find_object(ending->tenant, place, &object) != PARTMEM_DONE) return;
    if (partmem_find_slot(ending->tenant, place / slot_bytes, &slot) != PARTMEM_DONE) return;
    ending->place = place;
    ending->piece.superblock = (unsigned char *)partmem_superblock_address(ending->tenant.machine, slot.superblock);
    ending->piece.at = ending->piece.superblock + object.place % slot_bytes;
    ending->piece.bytes = object.bytes;
}

/* Notes what a command may end, before it is run. `kind` and the numbers are those of a partmem_request. A direct call that frees
 * or gives back passes PARTMEM_GIVE and its place. */
PARTMEM_INLINE void partmem_watched_before(partmem_watched_ending *ending, partmem_tenant tenant, uint32_t kind, uint32_t first,
                                           uint32_t second)
{
    partmem_watched_enter();
    ending->tenant = tenant;
    ending->piece.bytes = 0;
    ending->slots = 0;
    ending->slot = NULL;
    if (kind == PARTMEM_FREE) partmem_watched_note_place(ending, partmem_place_of(first));
    if (kind == PARTMEM_GIVE) partmem_watched_note_place(ending, second);
    if (kind == PARTMEM_TAKE_BACK || kind == PARTMEM_MOVE) partmem_watched_note_slots(ending, first, 1);
    if (kind == PARTMEM_RESET) partmem_watched_note_slots(ending, 0, partmem_watched_superblocks(tenant.machine));
}

/* Poisons what has ended. */
PARTMEM_INLINE void partmem_watched_after(const partmem_watched_ending *ending)
{
    partmem_machine *machine = ending->tenant.machine;
    partmem_object object;
    partmem_slot slot;
    uint32_t i;
    for (i = 0; i < ending->slots; i++) {
        if (partmem_find_slot(ending->tenant, ending->slot[i].slot, &slot) != PARTMEM_DONE ||
            slot.superblock != ending->slot[i].superblock) {
            partmem_watched_empty((unsigned char *)partmem_superblock_address(machine, ending->slot[i].superblock),
                                  partmem_superblock_bytes(machine));
        }
    }
    free(ending->slot);
    if (ending->piece.bytes > 0 && partmem_find_object(ending->tenant, ending->place, &object) != PARTMEM_DONE) {
        partmem_watched_finish(ending->piece);
    }
    partmem_watched_leave();
}

PARTMEM_INLINE partmem_status partmem_watched_free(partmem_tenant tenant, uint32_t place)
{
    partmem_watched_ending ending;
    partmem_status status;
    partmem_watched_before(&ending, tenant, PARTMEM_GIVE, 0, place);
    status = partmem_free(tenant, place);
    partmem_watched_after(&ending);
    return status;
}

PARTMEM_INLINE partmem_status partmem_watched_give(partmem_tenant tenant, uint32_t cache, uint32_t place)
{
    partmem_watched_ending ending;
    partmem_status status;
    partmem_watched_before(&ending, tenant, PARTMEM_GIVE, cache, place);
    status = partmem_give(tenant, cache, place);
    partmem_watched_after(&ending);
    return status;
}

PARTMEM_INLINE partmem_status partmem_watched_release(partmem_tenant tenant, uint32_t place, const partmem_sizes *sizes,
                                                      partmem_object *freed)
{
    partmem_watched_ending ending;
    partmem_status status;
    partmem_watched_before(&ending, tenant, PARTMEM_GIVE, 0, place);
    status = partmem_release(tenant, place, sizes, freed);
    partmem_watched_after(&ending);
    return status;
}

PARTMEM_INLINE partmem_status partmem_watched_take_back(partmem_tenant tenant, uint32_t slot)
{
    partmem_watched_ending ending;
    partmem_status status;
    partmem_watched_before(&ending, tenant, PARTMEM_TAKE_BACK, slot, 0);
    status = partmem_take_back(tenant, slot);
    partmem_watched_after(&ending);
    return status;
}

PARTMEM_INLINE partmem_status partmem_watched_move(partmem_tenant tenant, uint32_t slot, partmem_slot *moved)
{
    partmem_watched_ending ending;
    partmem_status status;
    partmem_watched_before(&ending, tenant, PARTMEM_MOVE, slot, 0);
    status = partmem_move(tenant, slot, moved);
    partmem_watched_after(&ending);
    return status;
}

PARTMEM_INLINE partmem_status partmem_watched_reset(partmem_tenant tenant)
{
    partmem_watched_ending ending;
    partmem_status status;
    partmem_watched_before(&ending, tenant, PARTMEM_RESET, 0, 0);
    status = partmem_reset(tenant);
    partmem_watched_after(&ending);
    return status;
}

PARTMEM_INLINE partmem_status partmem_watched_event(partmem_machine *machine, const partmem_request *request, const void *bytes,
                                                    size_t bytes_len, partmem_reply *reply, void *buffer, size_t buffer_len)
{
    partmem_watched_ending ending;
    partmem_tenant tenant;
    partmem_status status;
    tenant.machine = machine;
    tenant.number = request->tenant;
    partmem_watched_before(&ending, tenant, request->kind, request->first, request->second);
    status = partmem_event(machine, request, bytes, bytes_len, reply, buffer, buffer_len);
    partmem_watched_after(&ending);
    if (status == PARTMEM_DONE && reply->kind == PARTMEM_BYTES) partmem_watched_stored(buffer, reply->first);
    return status;
}

/* Returns a request with the numbers of a line that may end a block, an object or slots. Its kind is 0 if the line ends nothing.
 * The line may be faulty: after it has run, only what it has really ended is poisoned. */
PARTMEM_INLINE partmem_request partmem_watched_read(const char *line, size_t line_len)
{
    static const struct {
        const char *word;
        uint32_t kind;
    } commands[] = {{"free", PARTMEM_FREE},
                    {"give", PARTMEM_GIVE},
                    {"takeback", PARTMEM_TAKE_BACK},
                    {"move", PARTMEM_MOVE},
                    {"reset", PARTMEM_RESET}};
    partmem_request request = {0, 0, 0, 0};
    char text[256], actor[16], command[16], first[16], second[16] = "";
    size_t i, length = line_len < sizeof text ? line_len : sizeof text - 1;
    memcpy(text, line, length);
    text[length] = 0;
    if (sscanf(text, "%15s %15s %15s %15s", actor, command, first, second) < 3) return request;
    for (i = 0; i < sizeof commands / sizeof *commands; i++) {
        if (strcmp(command, commands[i].word) == 0) request.kind = commands[i].kind;
    }
    if (strcmp(actor, "admin") == 0) {
        request.tenant = (uint32_t)strtoul(first, NULL, 10);
        request.first = (uint32_t)strtoul(second, NULL, 10);
    } else {
        request.tenant = (uint32_t)strtoul(actor, NULL, 10);
        request.first = (uint32_t)strtoul(first, NULL, 10);
        request.second = (uint32_t)strtoul(second, NULL, 10);
    }
    return request;
}

PARTMEM_INLINE partmem_status partmem_watched_line(partmem_machine *machine, const char *line, size_t line_len, char *buffer,
                                                   size_t buffer_len, size_t *written)
{
    const partmem_request request = partmem_watched_read(line, line_len);
    partmem_watched_ending ending;
    partmem_tenant tenant;
    partmem_status status;
    tenant.machine = machine;
    tenant.number = request.tenant;
    partmem_watched_before(&ending, tenant, request.kind, request.first, request.second);
    status = partmem_line(machine, line, line_len, buffer, buffer_len, written);
    partmem_watched_after(&ending);
    partmem_watched_stored(buffer, *written);
    return status;
}

/* ---- Calls that lend bytes, and calls that neither lend nor end anything ------------------------------------------------- */

/* Finishes an alloc or a take: lends its bytes if it was done. */
PARTMEM_INLINE partmem_status partmem_watched_allocated(partmem_tenant tenant, partmem_status status, const partmem_lent *lent)
{
    partmem_watched_piece piece;
    partmem_watched_leave();
    if (status != PARTMEM_DONE) return status;
    piece.at = (unsigned char *)lent->at;
    piece.bytes = lent->bytes;
    piece.superblock = piece.at - lent->place % partmem_superblock_bytes(tenant.machine);
    partmem_watched_begin(piece, piece.bytes);
    return status;
}

PARTMEM_INLINE partmem_status partmem_watched_shown(partmem_status status, const partmem_lent *lent)
{
    partmem_watched_leave();
    if (status == PARTMEM_DONE) partmem_watched_lend((unsigned char *)lent->at, lent->bytes);
    return status;
}

PARTMEM_INLINE partmem_status partmem_watched_alloc(partmem_tenant tenant, uint32_t order, partmem_lent *block)
{
    partmem_watched_enter();
    return partmem_watched_allocated(tenant, partmem_alloc(tenant, order, block), block);
}

PARTMEM_INLINE partmem_status partmem_watched_take(partmem_tenant tenant, uint32_t cache, partmem_lent *object)
{
    partmem_watched_enter();
    return partmem_watched_allocated(tenant, partmem_take(tenant, cache, object), object);
}

PARTMEM_INLINE partmem_status partmem_watched_lend_bytes(partmem_tenant tenant, uint32_t place, uint32_t bytes,
                                                         partmem_lent *lent)
{
    partmem_watched_enter();
    return partmem_watched_shown(partmem_lend(tenant, place, bytes, lent), lent);
}

PARTMEM_INLINE partmem_status partmem_watched_lend_object(partmem_tenant tenant, uint32_t cache, uint32_t place,
                                                          partmem_lent *object)
{
    partmem_watched_enter();
    return partmem_watched_shown(partmem_lend_object(tenant, cache, place, object), object);
}

PARTMEM_INLINE partmem_status partmem_watched_lend_block(partmem_tenant tenant, uint32_t place, partmem_lent *block)
{
    partmem_watched_enter();
    return partmem_watched_shown(partmem_lend_block(tenant, place, block), block);
}

PARTMEM_INLINE void *partmem_watched_at(partmem_tenant tenant, uint32_t place, uint32_t bytes)
{
    partmem_lent lent;
    return partmem_watched_lend_bytes(tenant, place, bytes, &lent) == PARTMEM_DONE ? lent.at : NULL;
}

PARTMEM_INLINE void *partmem_watched_object_at(partmem_tenant tenant, uint32_t cache, uint32_t place)
{
    partmem_lent object;
    return partmem_watched_lend_object(tenant, cache, place, &object) == PARTMEM_DONE ? object.at : NULL;
}

/* Reads and writes pass their bytes through a copy, since the tools do not see what the library does with the caller's bytes. */
PARTMEM_INLINE partmem_status partmem_watched_read_bytes(partmem_tenant tenant, uint32_t place, void *to, size_t bytes)
{
    unsigned char copy[PARTMEM_MAX_BYTES];
    partmem_status status;
    partmem_watched_enter();
    status = partmem_read(tenant, place, copy, bytes);
    partmem_watched_leave();
    if (status != PARTMEM_DONE) return status;
    partmem_watched_stored(copy, bytes);
    memcpy(to, copy, bytes);
    return status;
}

PARTMEM_INLINE partmem_status partmem_watched_write_bytes(partmem_tenant tenant, uint32_t place, const void *from, size_t bytes)
{
    unsigned char copy[PARTMEM_MAX_BYTES] = {0};
    partmem_status status;
    if (bytes <= sizeof copy) memcpy(copy, from, bytes);
    partmem_watched_enter();
    status = partmem_write(tenant, place, bytes <= sizeof copy ? copy : from, bytes);
    partmem_watched_leave();
    return status;
}

/* For these calls the tools only have to be silent. */
#define PARTMEM_WATCHED_QUIET(name, parameters, arguments)                                                                      \
    PARTMEM_INLINE partmem_status partmem_watched_##name parameters                                                             \
    {                                                                                                                           \
        partmem_status status;                                                                                                  \
        partmem_watched_enter();                                                                                                \
        status = partmem_##name arguments;                                                                                      \
        partmem_watched_leave();                                                                                                \
        return status;                                                                                                          \
    }

PARTMEM_WATCHED_QUIET(grant, (partmem_tenant tenant, partmem_slot *granted), (tenant, granted))
PARTMEM_WATCHED_QUIET(make_cache,
                      (partmem_tenant tenant, uint32_t size, uint32_t align, const void *pattern, size_t pattern_bytes,
                       partmem_cache *made),
                      (tenant, size, align, pattern, pattern_bytes, made))
PARTMEM_WATCHED_QUIET(destroy_cache, (partmem_tenant tenant, uint32_t cache), (tenant, cache))
PARTMEM_WATCHED_QUIET(reap, (partmem_tenant tenant, uint32_t *frames), (tenant, frames))
PARTMEM_WATCHED_QUIET(find_block, (partmem_tenant tenant, uint32_t place, partmem_block *found), (tenant, place, found))
PARTMEM_WATCHED_QUIET(find_object, (partmem_tenant tenant, uint32_t place, partmem_object *found), (tenant, place, found))
PARTMEM_WATCHED_QUIET(report, (partmem_tenant tenant, partmem_figures *figures), (tenant, figures))
PARTMEM_WATCHED_QUIET(heap_init, (partmem_heap * heap, partmem_tenant tenant, const partmem_heap_config *config),
                      (heap, tenant, config))

/* ---- Heaps --------------------------------------------------------------------------------------------------------------- */

/* Returns the piece of a heap that begins at an address and has this number of bytes, or an empty piece for 0 bytes. */
PARTMEM_INLINE partmem_watched_piece partmem_watched_heap_piece(const partmem_heap *heap, void *at, size_t bytes)
{
    partmem_watched_piece piece = {NULL, NULL, 0};
    if (bytes == 0) return piece;
    piece.at = (unsigned char *)at;
    piece.bytes = bytes;
    piece.superblock = piece.at - partmem_heap_place(heap, at) % partmem_superblock_bytes(heap->tenant.machine);
    return piece;
}

/* Finishes a malloc, calloc, aligned_alloc or realloc of a heap. The first `kept` bytes have values. */
PARTMEM_INLINE void *partmem_watched_heap_allocated(const partmem_heap *heap, void *at, size_t bytes, size_t kept)
{
    if (at != NULL) partmem_watched_begin(partmem_watched_heap_piece(heap, at, bytes > 0 ? bytes : 1), kept);
    partmem_watched_leave();
    return at;
}

PARTMEM_INLINE void *partmem_watched_heap_malloc(partmem_heap *heap, size_t bytes)
{
    partmem_watched_enter();
    return partmem_watched_heap_allocated(heap, partmem_heap_malloc(heap, bytes), bytes, 0);
}

PARTMEM_INLINE void *partmem_watched_heap_calloc(partmem_heap *heap, size_t count, size_t bytes)
{
    partmem_watched_enter();
    return partmem_watched_heap_allocated(heap, partmem_heap_calloc(heap, count, bytes), count * bytes, count * bytes);
}

PARTMEM_INLINE void *partmem_watched_heap_aligned_alloc(partmem_heap *heap, size_t align, size_t bytes)
{
    partmem_watched_enter();
    return partmem_watched_heap_allocated(heap, partmem_heap_aligned_alloc(heap, align, bytes), bytes, 0);
}

PARTMEM_INLINE size_t partmem_watched_heap_usable_size(const partmem_heap *heap, const void *at)
{
    size_t bytes;
    partmem_watched_enter();
    bytes = partmem_heap_usable_size(heap, at);
    partmem_watched_leave();
    return bytes > 0 ? partmem_watched_lent((unsigned char *)at, bytes) : 0;
}

PARTMEM_INLINE void *partmem_watched_heap_realloc(partmem_heap *heap, void *old, size_t bytes)
{
    const size_t had = partmem_watched_heap_usable_size(heap, old);
    partmem_watched_piece piece;
    void *at;
    partmem_watched_enter();
    piece = partmem_watched_heap_piece(heap, old, partmem_heap_usable_size(heap, old));
    at = partmem_heap_realloc(heap, old, bytes);
    if (at != NULL && piece.bytes > 0) partmem_watched_finish(piece);
    return partmem_watched_heap_allocated(heap, at, bytes, had < bytes ? had : bytes);
}

PARTMEM_INLINE partmem_status partmem_watched_heap_free(partmem_heap *heap, void *at)
{
    partmem_watched_piece piece;
    partmem_status status;
    partmem_watched_enter();
    piece = partmem_watched_heap_piece(heap, at, partmem_heap_usable_size(heap, at));
    status = partmem_heap_free(heap, at);
    if (status == PARTMEM_DONE && piece.bytes > 0) partmem_watched_finish(piece);
    partmem_watched_leave();
    return status;
}

#define partmem_boot partmem_watched_boot
#define partmem_boot_in partmem_watched_boot_in
#define partmem_end partmem_watched_end
#define partmem_grant partmem_watched_grant
#define partmem_take_back partmem_watched_take_back
#define partmem_move partmem_watched_move
#define partmem_reset partmem_watched_reset
#define partmem_alloc partmem_watched_alloc
#define partmem_free partmem_watched_free
#define partmem_make_cache partmem_watched_make_cache
#define partmem_destroy_cache partmem_watched_destroy_cache
#define partmem_take partmem_watched_take
#define partmem_give partmem_watched_give
#define partmem_release partmem_watched_release
#define partmem_reap partmem_watched_reap
#define partmem_lend partmem_watched_lend_bytes
#define partmem_lend_object partmem_watched_lend_object
#define partmem_lend_block partmem_watched_lend_block
#define partmem_at partmem_watched_at
#define partmem_object_at partmem_watched_object_at
#define partmem_read partmem_watched_read_bytes
#define partmem_write partmem_watched_write_bytes
#define partmem_find_block partmem_watched_find_block
#define partmem_find_object partmem_watched_find_object
#define partmem_report partmem_watched_report
#define partmem_event partmem_watched_event
#define partmem_line partmem_watched_line
#define partmem_heap_init partmem_watched_heap_init
#define partmem_heap_malloc partmem_watched_heap_malloc
#define partmem_heap_calloc partmem_watched_heap_calloc
#define partmem_heap_aligned_alloc partmem_watched_heap_aligned_alloc
#define partmem_heap_realloc partmem_watched_heap_realloc
#define partmem_heap_free partmem_watched_heap_free
#define partmem_heap_usable_size partmem_watched_heap_usable_size

#endif

#endif
