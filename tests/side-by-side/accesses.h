/* Sees each load and store of the library, and finds two accesses to one byte that locks do not order. */
#ifndef ACCESSES_H
#define ACCESSES_H

#include <stdbool.h>
#include <stdint.h>
#include <stdio.h>

/* Who makes a call: a tenant, by its number; the administrator; or somebody who holds no lock. */
enum { MAX_TENANTS = 16, ADMINISTRATOR = MAX_TENANTS, ANYBODY, CALLERS };

/* A set of locks has a bit for each tenant's lock, and one for the administrator's. */
enum { NO_LOCK = 0, LOCK_OF_ADMINISTRATOR = 1 << ADMINISTRATOR, ALL_LOCKS = (1 << (ADMINISTRATOR + 1)) - 1 };

/* The ways to make a call; OF_NO_WAY is for boot, for end and for a tenant's own program. Each instruction has the ways in which
 * it ran, or BY_ADMINISTRATOR for all calls of the administrator. */
enum way { OF_NO_WAY = 0, CALLED = 1, OF_HEAP = 2, AS_EVENT = 4, AS_LINE = 8, BY_ADMINISTRATOR = 16 };

/* A call: its name, how it is made, who makes it, the tenant that the administrator names, and the locks that it holds. */
struct call {
    const char *name;
    enum way way;
    uint32_t caller, named, locks;
};

/* Ends the program with a message if a condition does not hold. */
void hold(bool holds, const char *what);

/* Watches the bytes of an area, which begins at a multiple of 128. Each part of `granule` bytes counts as one byte. */
void watch(const char *name, const void *start, size_t bytes, size_t granule);

/* Begin and end a call. No call begins inside another one. */
void begin_call(struct call call);
void end_call(void);

/* Counts an access of the running call. `from` is the address after its instruction, or in it. What lies above `stack` in the
 * stack is not compared. */
void see_access(const void *at, size_t bytes, bool is_store, const void *from, const char *stack);

/* Has each call followed step by step, with the memory operands in a file, for a library that was not compiled to be seen. */
void follow_steps(const char *path);

/* Start and stop the steps, if calls are followed. */
void start_steps(void);
void stop_steps(void);

/* Writes what was seen: the instructions that ran, and the conflicts. */
void write_accesses(FILE *to);

#endif
