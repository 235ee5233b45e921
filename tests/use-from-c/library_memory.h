/* What library_memory.c offers to a program that is linked with it. */
#ifndef LIBRARY_MEMORY_H
#define LIBRARY_MEMORY_H

/* Which allocation of the library is refused: 1 for the next one, 2 for the one after it, 0 for none. Each allocation reduces a
 * number above 0 by 1. */
extern long refused_allocation;

/* The number of blocks that the library holds now. */
extern long blocks_held;

#endif
