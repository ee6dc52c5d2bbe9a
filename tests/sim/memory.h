/* The library's memory, in the place of its own: a program that is linked with this counts it, and may refuse some of it. What the world
 * and its games need isn't of it. */
#ifndef SIM_MEMORY_H
#define SIM_MEMORY_H

#include <stddef.h>
#include <stdint.h>

typedef struct memory {
    size_t blocks, bytes; /* that are out */
    uint32_t asked;       /* how often some was asked for .. */
    uint32_t refused;     /* .. of which this time alone it is refused, counted from 1; 0: never */
} memory;

extern memory library_memory;

/* From now on the times are counted anew, and this one is refused. */
void memory_refuse(uint32_t which);
#endif
