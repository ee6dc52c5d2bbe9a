/* Words held back: one that came late waits while a helper plays its frames again, and is handed over once the rollback is a load. */
#ifndef RETRO_HOLDING_H
#define RETRO_HOLDING_H

#include "helpers.h"

enum { HOLDING_TURNS = 8 };

typedef struct holding {
    fazgrond_session *session;
    fazgrond_peer *peer;
    helpers *helpers;
    uint32_t turns;                     /* a word waits for so many at most; 0: none does */
    uint32_t turn, waiting;             /* of the match; how many words wait */
    uint32_t came[FAZGROND_HELD_WORDS]; /* in which turn each of them came */
    bool is_forced;                     /* in this turn some were handed over though they make the session play frames again */
    /* corrections that waited: how many, how often for so many turns, and how many were handed over by force */
    uint32_t held, later[HOLDING_TURNS + 1], forced;
} holding;

/* What answers a number answers as the library does. */

/* A turn begins: hands over what would run nothing again by now, and what has waited as long as it may. */
int32_t holding_turn(holding *self);

/* Words have come: hands over what would run nothing again. */
int32_t holding_sort(holding *self);

/* The players of whom words wait: bit p - 1 for player p. */
uint32_t holding_players(const holding *self);

/* Hands over all that waits, as the game would else stand still, or is over. */
int32_t holding_give_all(holding *self);

/* Has a helper play what waits, up to the frame that the game will be at by the next turn. */
void holding_run(holding *self, uint32_t until);

/* Whether a helper plays what waits, so that it is worth a look between two turns. */
bool holding_is_run(const holding *self);

/* Between two turns, at this frame: if the helper is done, but the game has gone on since, it plays the rest. False if a core
 * refused a state. */
bool holding_go_on(holding *self, uint32_t frame);

/* By how many turns a correction that waited was shown later: on average, and how many of them by two at most. */
double holding_later(const holding *self);
uint32_t holding_soon(const holding *self);
#endif
