/* How a match is played: by how many machines, over what network, and what happens at which of its frames. */
#ifndef SIM_PLAN_H
#define SIM_PLAN_H

#include "game.h"

enum { PLAN_LINES = 8, PLAN_DELAYS = 8, PLAN_LONGEST_DELAY = 8, PLAN_LONGEST_HELD = 8 };

/* No frame of any match. */
#define NEVER UINT32_MAX

/* The line between two machines, and the frame from which on it is broken, or works again. */
typedef struct line_at {
    uint32_t one, other, frame;
} line_at;

/* The input delay that the player of a machine is to have from a frame on. */
typedef struct delay_at {
    uint32_t machine, delay, frame;
} delay_at;

typedef struct plan {
    uint32_t machines, frames, late, lost, hold, delay, threshold;
    uint64_t seed;
    const game *game;
    uint32_t jobs;                      /* how many guesses are run in each turn; 0: none is made */
    uint32_t held;                      /* for how many turns words of others are held back; 0: none is */
    bool is_hostile;                    /* hostile datagrams come too .. */
    uint64_t hostile;                   /* .. drawn from this seed */
    uint32_t stops[FAZGROND_MACHINES];  /* the frame at which each machine goes silent, or NEVER */
    uint32_t comes[FAZGROND_MACHINES];  /* at which it comes: anew if it has gone silent, else for the first time */
    uint32_t splits[FAZGROND_MACHINES]; /* from which on it and others that are named so hear nothing of the rest */
    line_at breaks[PLAN_LINES], heals[PLAN_LINES];
    uint32_t break_count, heal_count;
    delay_at delays[PLAN_DELAYS];
    uint32_t delay_count;
} plan;

/* Whether a machine isn't there as the match is opened. */
bool plan_is_late(const plan *self, uint32_t machine);

/* Whether a machine is there to the end: it never goes silent, or comes back, and is in the part of a split that plays on. */
bool plan_stays(const plan *self, uint32_t machine);

/* The first machine that is there to the end, and how many there are: `machines` and 0 if there are none. */
uint32_t plan_first_staying(const plan *self);
uint32_t plan_count_staying(const plan *self);

/* Whether nothing comes from one machine straight to another, once the one is at a frame. */
bool plan_is_broken(const plan *self, uint32_t one, uint32_t other, uint32_t frame);

/* Whether any line breaks, so that machines carry for one another; whether the match goes on in epochs; whether machines are parted,
 * go silent, or come. */
bool plan_breaks_lines(const plan *self);
bool plan_goes_on(const plan *self);
bool plan_has(const uint32_t frames[FAZGROND_MACHINES]);

/* How many machines are on the same side of a split as one of them. */
uint32_t plan_count_with(const plan *self, uint32_t machine);

/* The input delay that a machine's player is to have by a frame, or NEVER if none is named. */
uint32_t plan_wanted_delay(const plan *self, uint32_t machine, uint32_t frame);
#endif
