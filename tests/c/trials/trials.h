/* What the trials share: a trial is a list of cases, each of which has a name, and passes if nothing in it is wrong. */
#ifndef TRIALS_TRIALS_H
#define TRIALS_TRIALS_H

#include "../../sim/world.h"

/* Begins a case, which ends the one before it. */
void trial_case(const char *format, ...)
#if defined(__GNUC__)
    __attribute__((format(printf, 1, 2)))
#endif
    ;

/* Something that has to be so in this case. */
void trial_must(bool is_so, const char *what);

/* The same of a machine. */
void trial_must_of(bool is_so, uint32_t who, const char *what);

/* Nothing is wrong with the games, and no machine that plays was told of any event but these kinds, by their bits: those of
 * FAZGROND_SYNCHRONIZING to FAZGROND_RUNNING and FAZGROND_TIME_SYNC are always allowed. */
enum {
    MAY_INTERRUPT = 1,
    MAY_LEAVE = 2,
    MAY_STALL = 4,
    MAY_MISS = 8,
    MAY_RESTART = 16,
    MAY_REFUSE = 32,
    MAY_DESYNC = 64,
    MAY_MISMATCH = 128,
    MAY_DROP = 256,
    MAY_BE_CUT_OFF = 512
};
void trial_nothing_but(const world *self, unsigned allowed);

/* The kinds of what a machine was told in its present opening, from some moment on. */
unsigned trial_kinds(const world *self, uint32_t who, uint32_t since);

/* All machines that are alive were told nothing but of this one; of which they may be told all that is allowed. */
void trial_only_of(const world *self, uint32_t of, unsigned allowed);

/* The trials. Each takes how many cases of a kind, and the first seed, if it is one that draws them. */
void trial_rematches(uint32_t count, uint32_t seed);
void trial_restarts(uint32_t count, uint32_t seed);
void trial_copies(uint32_t count, uint32_t seed);
void trial_clocks(uint32_t count, uint32_t seed);
void trial_stalls(uint32_t count, uint32_t seed);
void trial_standing(uint32_t count, uint32_t seed);
void trial_honest(uint32_t count, uint32_t seed);
void trial_lies(uint32_t count, uint32_t seed);
void trial_viewers(uint32_t count, uint32_t seed);
void trial_sessions(uint32_t count, uint32_t seed);
void trial_guesses(uint32_t count, uint32_t seed);
void trial_habits(uint32_t count, uint32_t seed);
void trial_lines(uint32_t count, uint32_t seed);

/* From now on each machine guesses the others' words in each turn. */
void trial_let_guess(world *self);

/* What guesses by habits save: counts, printed. */
int trial_shares(uint32_t count, uint32_t seed);

/* A match as the command line says, with what is told. */
int trial_play(int count, char **words);

#endif
