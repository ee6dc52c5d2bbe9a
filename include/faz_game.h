/* A game, as who publishes a match and who watches it have it. */
#ifndef FAZ_GAME_H
#define FAZ_GAME_H

#include <fazgrond.h>
#include <stdbool.h>

/* A state is `size` bytes without pointers, the same at all machines if the states are the same: it is sent as it is. */
typedef struct faz_game {
    const char *name;
    size_t size;
    void (*step)(void *state, const fazgrond_row *row);    /* goes on by a frame */
    uint64_t (*digest)(const void *state);                 /* another one for most other states */
    bool (*is_state)(const void *state, uint32_t players); /* whether it is safe to step these bytes: they may be forged */
} faz_game;
#endif
