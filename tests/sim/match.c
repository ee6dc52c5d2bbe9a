#include "match.h"

#include <string.h>

enum { TURNS_A_SECOND = 60 };

static void open_all(match *self, trace *trace) {
    setup with = setup_of_plan(self->plan);
    self->world = world_begin(&with);
    self->world->now = 0;
    for (uint32_t at = 0; at < self->plan->machines; at++) {
        machine *of = &self->world->machine[at];
        of->clock_ahead = 0;
        participant_open(&self->all[at], self->all, self->plan, of, trace);
    }
}

void match_close(match *self) {
    world_end(self->world);
    for (uint32_t at = 0; at < self->plan->machines; at++)
        participant_close(&self->all[at]);
}

/* ---- Turns. */

static bool is_one_epoch(const machine *one, const machine *other) {
    return one->is_open && other->is_open && machine_epoch(one)->id == machine_epoch(other)->id && machine_base(one) == machine_base(other);
}

/* Whether each machine that stays has played its last frame and knows all words up to it, and all are in one epoch. */
static bool is_over(const match *self) {
    const plan *with = self->plan;
    const machine *first = match_first(self)->machine;
    bool is_so = true;
    for (uint32_t at = 0; at < with->machines && is_so; at++) {
        const machine *one = self->all[at].machine;
        is_so = !plan_stays(with, at) || (with->frames <= machine_frame(one) && with->frames <= one->settled && is_one_epoch(first, one));
    }
    return is_so;
}

/* A machine goes silent at its frame, and where it was told that the match is over for it. */
static void silence(const match *self) {
    for (uint32_t at = 0; at < self->plan->machines; at++) {
        const participant *one = &self->all[at];
        bool stops = one->machine->is_open && !one->has_come && self->plan->stops[at] <= machine_frame(one->machine);
        one->machine->hangs |= stops || (one->dropped != NEVER && !plan_stays(self->plan, at));
    }
}

/* After how many turns no match goes on: four times those that it takes, and those of 2 minutes more. */
static uint32_t most_turns(uint32_t frames) { return (frames / TURNS_A_SECOND + 120) * TURNS_A_SECOND * 4; }

int32_t match_play(match *self, const plan *plan, trace *trace) {
    *self = (match){ .plan = plan };
    open_all(self, trace);
    for (uint32_t turn = 0; turn < most_turns(plan->frames) && self->world->refused == FAZGROND_OK && !self->has_ended; turn++) {
        self->has_ended = is_over(self);
        if (self->has_ended)
            break;
        silence(self);
        if (trace != NULL)
            trace->turn = turn;
        world_run_turns(self->world, 1);
    }
    return self->world->refused;
}

/* ---- What came of it. */

const participant *match_first(const match *self) { return &self->all[plan_first_staying(self->plan)]; }

static bool settled_alike(const machine *one, const machine *other) {
    return one->settled == other->settled && is_one_epoch(one, other) && world_agree(one->world, one->me, other->me, 0)
        && memcmp(states_settled(&one->states), states_settled(&other->states), one->states.game->size) == 0;
}

static bool left_alike(const participant *one, const participant *other) {
    bool is_same = one->gone_players == other->gone_players;
    for (uint32_t at = 0; at < one->plan->machines && is_same; at++)
        is_same = participant_left(one, at) == participant_left(other, at);
    return is_same;
}

bool match_agrees(const match *self) {
    const participant *first = match_first(self);
    bool is_so = true;
    for (uint32_t at = 0; at < self->plan->machines && is_so; at++)
        is_so = !plan_stays(self->plan, at) || (settled_alike(first->machine, self->all[at].machine) && left_alike(first, &self->all[at]));
    return is_so;
}

bool match_is_honest(const match *self) {
    bool is_so = self->world->wrong == NULL;
    for (uint32_t at = 0; at < self->plan->machines; at++)
        is_so &= self->all[at].counts.fooled == 0 && self->all[at].counts.desyncs == 0;
    return is_so;
}
