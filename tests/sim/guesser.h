/* Guesses of the others' next words, which a helper runs ahead: the best of all others', by what was seen of the players in this match. */
#ifndef SIM_GUESSER_H
#define SIM_GUESSER_H

#include "game.h"
#include "trace.h"

typedef struct guesser {
    uint32_t players, me; /* `me` is the place of the player whose words aren't guessed */
    uint32_t limit;       /* the last frame of the session */
    uint32_t most;        /* how many guesses are run in a turn; 0: none is */
    fazgrond_habits habits[FAZGROND_PLAYERS];
    uint32_t noted[FAZGROND_PLAYERS]; /* how many words of each player were noted */
    uint64_t jobs, taken;             /* the jobs that the session gave, and those that it took in */
    trace *trace;
} guesser;

/* Nothing was seen yet of players who choose among these words. The numbers have to be set. */
int32_t guesser_open(guesser *self, const uint32_t *likely, size_t count);

/* Notes the words that have come, and has the best guesses run, and taken in. Players whose bit is set have left. */
int32_t guesser_turn(guesser *self, fazgrond_session *session, states *states, uint32_t gone);

void guesser_close(guesser *self);
#endif
