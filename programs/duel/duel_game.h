/* The duel, as a game that is published and watched. */
#ifndef FAZ_DUEL_GAME_H
#define FAZ_DUEL_GAME_H

#include "duel.h"
#include "faz_game.h"

static inline void duel_game_step(void *state, const fazgrond_row *row) { duel_step(state, row->words); }
static inline uint64_t duel_game_digest(const void *state) { return duel_checksum(state); }
static inline bool duel_game_is_state(const void *state, uint32_t players) { return duel_is_state(state, players); }

static const faz_game duel_game = {
    .name = "duel", .size = sizeof(duel), .step = duel_game_step, .digest = duel_game_digest, .is_state = duel_game_is_state
};
#endif
