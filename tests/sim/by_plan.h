/* Who takes part in a match that is played by a plan: what its player presses, how it is deceived, what it guesses, what was counted. */
#ifndef SIM_BY_PLAN_H
#define SIM_BY_PLAN_H

#include "enemy.h"
#include "guesser.h"
#include "observer.h"
#include "plan.h"
#include "trace.h"
#include "world.h"

enum { MOST_EPOCHS = PLAN_DELAYS + 2 * FAZGROND_MACHINES + 1 };

typedef struct counts {
    uint64_t sent, bytes;   /* datagrams that it sent */
    uint64_t ignored;       /* real ones that came and weren't heard */
    uint64_t hostile;       /* hostile ones that came .. */
    uint64_t again, fooled; /* .. and were heard: real ones once more, of machines that aren't gone; and all others */
    uint64_t desyncs;       /* how often another state was told of */
    uint64_t held_jobs;     /* the jobs of words that were held back .. */
    uint64_t held_taken;    /* .. and those that the session took in */
} counts;

typedef struct participant {
    const plan *plan;
    machine *machine; /* of the world, whose `own` this is */
    struct participant *all;
    trace *trace;
    uint32_t *words; /* what its player presses in each frame */
    size_t word_count;
    bool has_come;
    uint32_t dropped; /* the frame of the match at which it was told that the match is over for it, or NEVER */
    uint32_t covered; /* of how many of the words that are held back the last job was */
    uint64_t settled; /* up to which frame its trace tells what is settled */
    counts counts;
    enemy *enemy; /* null if nobody deceives it */
    guesser guesser;
    observer observer;

    /* Who has left, by what its session and its peer were told. */
    uint32_t gone_players; /* a bit for each, player 1's first */
    size_t log_seen;
    bool gone[FAZGROND_MACHINES];

    /* The epochs of the match, also those before it came. */
    uint32_t bases[MOST_EPOCHS], base_count;
    uint32_t left[FAZGROND_MACHINES],
        leaving[FAZGROND_MACHINES];   /* the frame at which each player left in an epoch before, or NEVER; and now */
    uint32_t came[FAZGROND_MACHINES]; /* at which a machine came */
    uint32_t brought;                 /* who came as this epoch began, until it was seen to, or NEVER */
} participant;

/* What a program does that plays by a plan. */
extern const program by_plan;

/* One of all that take part, before the first turn. Whoever comes later is opened then. */
void participant_open(participant *self, participant *all, const plan *plan, machine *machine, trace *trace);
void participant_close(participant *self);

/* The frame of the match at which another machine's player left, or NEVER. */
uint32_t participant_left(const participant *self, uint32_t other);

/* The setup of a world in which a plan is played. */
setup setup_of_plan(const plan *plan);
#endif
