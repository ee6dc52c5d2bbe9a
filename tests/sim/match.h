/* A match of machines by a plan, from its first turn to its last, and what came of it. */
#ifndef SIM_MATCH_H
#define SIM_MATCH_H

#include "by_plan.h"

typedef struct match {
    const plan *plan;
    world *world;
    participant all[FAZGROND_MACHINES];
    bool has_ended; /* each machine that stays has played all frames, and knows all words */
} match;

/* Plays it: FAZGROND_OK, or with which code something was refused. It is closed in any case by match_close. */
int32_t match_play(match *self, const plan *plan, trace *trace);
void match_close(match *self);

/* The first machine that stays. */
const participant *match_first(const match *self);

/* Whether the machines that stay agree: the same settled rows, in all epochs, the same state, and each player gone at the same frame. */
bool match_agrees(const match *self);

/* Whether no machine heard what was no datagram of the match, or was told of another state than its own; and nothing else is wrong. */
bool match_is_honest(const match *self);
#endif
