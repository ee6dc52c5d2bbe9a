/* Room on the heap. Without it no world goes on: its program says so, and ends with status 2. */
#ifndef SIM_ROOM_H
#define SIM_ROOM_H

#include <stdio.h>
#include <stdlib.h>

static inline void *room_checked(void *made) {
    if (made == NULL) {
        fputs("no memory\n", stderr);
        exit(2);
    }
    return made;
}

/* Room for so many of a size, in which stands what stood in the room that there was. */
static inline void *room_grown(void *at, size_t count, size_t size) { return room_checked(realloc(at, count * size)); }

/* Room that is 0 throughout. */
static inline void *room_of(size_t count, size_t size) { return room_checked(calloc(count, size)); }
#endif
