/* The duel's state, as it is saved. */
#ifndef DUEL_STATE_H
#define DUEL_STATE_H

#include "duel.h"

#include <stdlib.h>
#include <string.h>

typedef struct duel_state {
    int frame;
    duel field;
} duel_state;

static inline bool duel_save(const duel_state *state, unsigned char **buffer, int *length, int *checksum) {
    *buffer = malloc(sizeof *state);
    *length = sizeof *state;
    *checksum = (int)duel_checksum(&state->field);
    return *buffer != NULL && memcpy(*buffer, state, sizeof *state) != NULL;
}

static inline bool duel_load(duel_state *state, const unsigned char *buffer, int length) {
    return length == (int)sizeof *state && memcpy(state, buffer, sizeof *state) != NULL;
}
#endif
