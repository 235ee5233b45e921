/* Functions that are compiled as the library is, so that their loads and stores are seen. */
#ifndef TRACED_H
#define TRACED_H

#include <stddef.h>
#include <stdint.h>

/* Changes lent bytes, as the program of a tenant does. */
void store_in_place(unsigned char *at, size_t bytes);

/* Adds 1 to one of 32 counts. */
void plant_count(uint32_t which);

/* Loads a byte, and returns it. */
uint8_t plant_load(const unsigned char *at);

#endif
