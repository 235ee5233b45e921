/* What init.c and hostile.c share: the administrator's and a partition's process in the virtual machine. */
#ifndef PARTMEM_INIT_H
#define PARTMEM_INIT_H

#define _GNU_SOURCE
#include <fcntl.h>
#include <setjmp.h>
#include <stdbool.h>
#include <stdint.h>
#include <stdlib.h>
#include <sys/ioctl.h>
#include <sys/mman.h>
#include <sys/wait.h>
#include <unistd.h>

#include "device.h"

enum { FRAME = 4096, ORDER = 4, SUPERBLOCKS = 12, UNIT = FRAME << ORDER, PLACES = SUPERBLOCKS * UNIT, MOST = 64 };

struct block {
    uint32_t place, bytes;
    uint64_t seed; /* the seed of the numbers in the block's words */
};

extern int file;                  /* /dev/partmem: the administrator's file, or the partition's */
extern uint8_t *places;           /* where a partition's process has mapped its places */
extern struct block blocks[MOST]; /* its page blocks, `held` of them, and how many wrong words `check` has found in them */
extern uint32_t held;
extern uint64_t wrong;
extern sigjmp_buf on_bus_error; /* where bus_error continues */

/* Makes a call of device.h on `file`. The status is 1000 + errno if ioctl fails. */
struct partmem_call call(unsigned long kind, uint32_t partition, uint32_t number);
uint64_t random_of(uint64_t *state);
void die(const char *what);

void bus_error(int number);
const char *touched(uint32_t place);
bool add(uint32_t order);
void fill(struct block *block, uint64_t seed);
void check(const struct block *block);

/* Returns a new open file that is bound to the partition. */
int bound_file(uint32_t partition);
/* Starts a process that has a file bound to a partition, and no other way to reach the partition's memory. Returns the process,
 * or 0 in the new process itself. */
pid_t start(uint32_t partition);
void end(pid_t process);

/* The world of hostile.c. */
void run_hostile(void);

#endif
