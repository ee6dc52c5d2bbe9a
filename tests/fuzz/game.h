/* What the fuzzers share: their input, and a game that carries out requests and looks whether they can be. Its state is a
 * digest of all rows that led to it. */
#ifndef FUZZ_GAME_H
#define FUZZ_GAME_H

#define CHECKS_LEAVE abort()
#include "../check.h"

#include <fazgrond.h>
#include <stdbool.h>
#include <stdio.h>
#include <stdlib.h>
#include <string.h>

/* The input, which reads as zeros once it is used up. */
typedef struct input {
    const uint8_t *at;
    size_t left;
} input;

static inline uint32_t take_byte(input *in) {
    if (in->left == 0)
        return 0;
    in->left--;
    return *in->at++;
}

static inline uint32_t take_number(input *in) {
    uint32_t number = 0;
    for (int at = 0; at < 4; at++)
        number = number << 8 | take_byte(in);
    return number;
}

/* Mostly a small number. */
static inline uint32_t take_some(input *in, uint32_t below) {
    uint32_t byte = take_byte(in);
    return byte < 250 ? byte % below : take_number(in);
}

#define GAME_SLOTS 1024

typedef struct game {
    uint64_t now;
    uint64_t slots[GAME_SLOTS];
    bool is_taken[GAME_SLOTS];
} game;

static inline uint64_t state_after(uint64_t state, const fazgrond_row *row) {
    MUST(row->count >= 1 && row->count <= FAZGROND_PLAYERS && row->gone >> row->count == 0);
    for (uint32_t at = 0; at < row->count; at++) {
        MUST((row->gone >> at & 1) == 0 || row->words[at] == 0);
        state = (state ^ row->words[at]) * 0x100000001b3u + (row->gone >> at & 1) + 1;
    }
    return state;
}

static inline void begin_game(game *self) {
    memset(self, 0, sizeof *self);
    self->is_taken[0] = true;
}

static inline void check_free(game *self, uint32_t slot) {
    MUST(slot < GAME_SLOTS && !self->is_taken[slot]);
    for (uint32_t at = 0; at < slot; at++)
        MUST(self->is_taken[at]);
    self->is_taken[slot] = true;
}

/* Carries out a request of the game's own; what it asks of a job is only written down. */
static inline void carry_out(game *self, const fazgrond_request *request) {
    uint32_t slot = request->slot;
    switch (request->kind) {
    case FAZGROND_LOAD:
        MUST(slot < GAME_SLOTS && self->is_taken[slot]);
        self->now = self->slots[slot];
        break;
    case FAZGROND_SAVE:
        check_free(self, slot);
        self->slots[slot] = self->now;
        break;
    case FAZGROND_STEP: self->now = state_after(self->now, &request->row); break;
    case FAZGROND_FREE:
        MUST(slot < GAME_SLOTS && self->is_taken[slot]);
        self->is_taken[slot] = false;
        break;
    case FAZGROND_JOB_LOAD: MUST(slot < GAME_SLOTS && self->is_taken[slot]); break;
    case FAZGROND_JOB_SAVE: check_free(self, slot); break;
    case FAZGROND_JOB_STEP: state_after(0, &request->row); break;
    default: MUST(!"a kind of request");
    }
}

int LLVMFuzzerTestOneInput(const uint8_t *data, size_t size);

#endif
