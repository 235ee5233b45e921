/* Declarations that the programs of guests.c share. Each program uses a third-party library. A guest is a tenant that runs one of
 * the programs in its own heap. State that a library shares among guests is in the heap of one more tenant. */
#ifndef GUESTS_H
#define GUESTS_H

#include "partmem_heap.h"
#include "trial.h"

enum { STATES = 8 };

struct guest {
    partmem_heap heap;
    const struct program *program;
    uint64_t random;
    uint64_t results, places; /* hashes of all results, and of the places of all pieces */
    unsigned long calls, refused, failed, steps; /* calls to the heap; refused ones; failures for lack of memory; steps */
    void *state[STATES];                         /* what the program keeps between its steps */
};

/* A program. Each of its guests gets `slots` superblocks of 128 KiB, so few that the program sometimes runs out of memory. */
struct program {
    const char *name;
    uint32_t slots;
    void (*step)(struct guest *guest);
    void (*set_up)(void); /* makes the library's own state, in the heap of one more tenant; or NULL */
    void (*tear_down)(void);
};

extern const struct program lua, sqlite, expat, zlib, cjson;

/* Whether Lua's guests add an address to their results. This is a mistake, since addresses depend on other tenants. */
extern bool shows_addresses;

/* Returns a number below `below` that depends only on the guest's own history. */
uint32_t any_of(struct guest *guest, uint32_t below);

/* Adds these bytes to the hash of a guest's results. */
void note(struct guest *guest, const void *bytes, size_t count);

/* Call the heap of a guest. A wrong free ends the program. */
void *guest_malloc(struct guest *guest, size_t bytes);
void *guest_realloc(struct guest *guest, void *old, size_t bytes);
void guest_free(struct guest *guest, void *at);

/* Call the heap of the guest that runs, for libraries that pass no argument to their allocator. A piece is freed or resized in
 * the heap that it came from. */
void *current_malloc(size_t bytes);
void *current_realloc(void *old, size_t bytes);
void current_free(void *at);
size_t current_size(const void *at);

#endif
