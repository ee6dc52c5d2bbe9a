/* Guesses beside a peer: frames that others' words would make are run aside, before these come, so that fewer are run again. The
 * same match is played with guesses and without; all else in it is the same. */
#include "trials.h"

#include <stdlib.h>
#include <string.h>

enum { JOBS = 64, AT_ONCE = 17, AHEAD = 8, TEXT = 1 << 16 };

/* So many slots are enough without jobs. With jobs beside them rolls are refused now and then, and run again. */
enum { JUST_ENOUGH = 8 + 3 };

/* A job, whose requests are carried out a few in each turn. */
typedef struct aside {
    bool is_out;
    job job;
} aside;

typedef struct guesser {
    aside jobs[MACHINES][JOBS];
    uint32_t openings[MACHINES]; /* of which the jobs are */
    uint64_t random;
    uint32_t grafted, kept, dropped, forgotten, claims, refused;
} guesser;

static guesser the_guesser;

/* Not the world's: so the world is the same without guesses. */
static uint32_t draw(guesser *self, uint32_t below) {
    self->random = self->random * 6364136223846793005u + 1442695040888963407u;
    return (uint32_t)((self->random >> 32) * below >> 32);
}

static void must(world *self, bool is_so, const char *what) {
    if (!is_so && self->wrong == NULL)
        self->wrong = what;
}

/* ---- Jobs. */

static bool is_fine(int32_t code) {
    return code == FAZGROND_OK || code == FAZGROND_LATE || code == FAZGROND_ORPHAN || code == FAZGROND_DEAD || code == FAZGROND_TREE_FULL;
}

static void graft(world *self, guesser *by, machine *at, aside *one) {
    uint32_t added = 0;
    int32_t code = fazgrond_graft(&at->session, one->job.number, &added);
    must(self, is_fine(code), "a job that was run isn't taken");
    must(self, fazgrond_graft(&at->session, one->job.number, &added) == FAZGROND_NO_JOB, "a job is taken twice");
    by->grafted += code == FAZGROND_OK;
    by->dropped += code != FAZGROND_OK;
    by->kept += code == FAZGROND_OK ? added : 0;
    one->is_out = false;
}

static void give_up(world *self, guesser *by, machine *at, aside *one) {
    must(self, fazgrond_forget(&at->session, one->job.number) == FAZGROND_OK, "a job can't be given up");
    must(self, fazgrond_forget(&at->session, one->job.number) == FAZGROND_NO_JOB, "a job is given up twice");
    by->forgotten++;
    one->is_out = false;
}

/* Most jobs are done in this turn, and others later; one in sixteen is given up, and all if a roll had no slot. */
static void go_on(world *self, guesser *by, machine *at, aside *one) {
    bool is_done = job_run(&one->job, &at->states, draw(by, 4) == 0 ? draw(by, AT_ONCE) : AT_ONCE);
    if (draw(by, 16) == 0 || at->is_short)
        give_up(self, by, at, one);
    else if (is_done)
        graft(self, by, at, one);
}

/* ---- Guesses. */

static aside *free_job(guesser *by, uint32_t who) {
    for (size_t at = 0; at < JOBS; at++)
        if (!by->jobs[who][at].is_out)
            return &by->jobs[who][at];
    return NULL;
}

static void guess(world *self, guesser *by, uint32_t who, uint8_t player, const uint32_t *words, size_t count) {
    machine *at = &self->machine[who];
    aside *one = free_job(by, who);
    if (one == NULL)
        return;
    int32_t code = fazgrond_guess(&at->session, player, words, count, at->frame, &one->job.number);
    job_take(&one->job, &at->states, &at->session);
    one->is_out = code == FAZGROND_OK;
    by->refused += code == FAZGROND_NO_MEMORY;
    must(self,
         code == FAZGROND_OK || code == FAZGROND_NOTHING || code == FAZGROND_TREE_FULL || code == FAZGROND_PLAYER_DISCONNECTED
             || (code == FAZGROND_NO_MEMORY && self->setup.slots != 0),
         "a guess is refused");
    if (one->is_out)
        go_on(self, by, at, one);
}

/* A player may have pressed or let go the button in each of the frames whose words aren't known. */
static void guess_player(world *self, guesser *by, uint32_t who, uint8_t player) {
    machine *at = &self->machine[who];
    uint32_t words[AHEAD + 1], known = 0, last = 0;
    if (fazgrond_confirmed(&at->session, player, &known) != FAZGROND_OK || known >= at->frame)
        return;
    if (known > 0)
        fazgrond_confirmed_word(&at->session, player, known - 1, &last);
    for (uint32_t held = 0; held < at->frame - known && held < AHEAD; held++) {
        words[held] = 1 - last;
        guess(self, by, who, player, words, held + 1);
        words[held] = last;
    }
}

/* ---- Claims. */

static void look_at_claim(world *self, guesser *by, machine *at) {
    static uint8_t text[TEXT];
    size_t length = 0, again = 0;
    int32_t code = fazgrond_claim(&at->session, text, 0, &length);
    if (code == FAZGROND_NO_PLAN)
        return;
    must(self, code == FAZGROND_TOO_SHORT && length > 8 && length <= TEXT, "a claim without room");
    must(self, fazgrond_claim(&at->session, text, length, &again) == FAZGROND_OK && again == length, "a claim");
    must(self, memcmp(text, "rollcert", 8) == 0, "a claim is no claim");
    by->claims++;
}

static void guess_in_turn(machine *at) {
    guesser *by = &the_guesser;
    world *self = at->world;
    uint32_t who = at->me;
    if (by->openings[who] != at->opening)
        memset(by->jobs[who], 0, sizeof by->jobs[who]);
    by->openings[who] = at->opening;
    for (size_t one = 0; one < JOBS; one++)
        if (by->jobs[who][one].is_out)
            go_on(self, by, at, &by->jobs[who][one]);
    for (uint8_t player = 1; player <= self->setup.machines && !at->is_short; player++)
        if (player != who + 1)
            guess_player(self, by, who, player);
    look_at_claim(self, by, at);
}

static const program guessing = { .word = world_drawn_word, .has_played = guess_in_turn };

void trial_let_guess(world *self) {
    memset(&the_guesser, 0, sizeof the_guesser);
    for (uint32_t who = 0; who < MACHINES; who++)
        self->machine[who].program = &guessing;
}

/* ---- The same match twice. */

typedef struct outcome {
    uint32_t again[MACHINES]; /* frames that were run again */
    uint32_t frames;          /* that all have settled */
    uint64_t *history;        /* machine 0's states */
} outcome;

static outcome play(const setup *with, bool is_guessing, uint32_t milliseconds) {
    outcome made = { .frames = UINT32_MAX };
    world *self = world_begin(with);
    if (is_guessing)
        trial_let_guess(self);
    world_open_all(self);
    world_run(self, milliseconds);
    trial_nothing_but(self, 0);
    for (uint32_t who = 0; who < with->machines; who++) {
        const machine *at = &self->machine[who];
        made.again[who] = at->states.steps - at->frame;
        made.frames = at->settled < made.frames ? (uint32_t)at->settled : made.frames;
        trial_must_of(world_agree(self, 0, who, milliseconds / 100), who, "the match goes on, and all agree");
    }
    made.history = malloc((made.frames + 1) * sizeof *made.history);
    if (made.history == NULL)
        abort();
    for (uint32_t frame = 0; frame <= made.frames; frame++)
        made.history[frame] = machine_digest(&self->machine[0], frame);
    world_end(self);
    return made;
}

static void must_be_less(const outcome *without, const outcome *guessed, uint32_t machines, uint32_t times) {
    uint32_t frames = without->frames < guessed->frames ? without->frames : guessed->frames;
    trial_must(memcmp(without->history, guessed->history, (frames + 1) * sizeof *without->history) == 0,
               "the states are those without guesses");
    for (uint32_t who = 0; who < machines; who++) {
        char text[100];
        snprintf(text, sizeof text, "%u frames are run again, and %u without guesses", (unsigned)guessed->again[who],
                 (unsigned)without->again[who]);
        trial_must_of(times * guessed->again[who] < without->again[who], who, text);
    }
}

static void guesses(uint32_t machines, uint32_t slots, uint32_t delay, uint32_t loss, uint32_t seed) {
    setup with = plain;
    with.machines = machines;
    with.slots = slots;
    with.delay = delay;
    with.jitter = delay / 2;
    with.loss = loss;
    with.is_button = true;
    with.seed = seed;
    trial_case("%u machines guess words, with %u slots, on a line of %u to %u ms that loses %u %%, seed %u", (unsigned)machines,
               (unsigned)slots, (unsigned)delay, (unsigned)(delay + delay / 2), (unsigned)loss, (unsigned)seed);
    outcome without = play(&with, false, 20000), guessed = play(&with, true, 20000);
    must_be_less(&without, &guessed, machines, slots == 0 ? 4 : slots > JUST_ENOUGH);
    trial_must((the_guesser.refused > 0) == (slots != 0), "guesses are refused that have no slots, and no others");
    trial_must(the_guesser.grafted > 100 && the_guesser.kept >= the_guesser.grafted, "jobs are taken");
    trial_must(the_guesser.forgotten > 0 && the_guesser.dropped > 0, "jobs are given up, and come too late");
    trial_must(the_guesser.claims > 100, "rollbacks have claims");
    free(without.history);
    free(guessed.history);
}

/* One of three is silent, and leaves, while jobs are out that guess its words. */
static void one_leaves(uint32_t seed) {
    setup with = plain;
    with.machines = 3;
    with.delay = 40;
    with.loss = 5;
    with.silent_after = 2000;
    with.is_button = true;
    with.seed = seed;
    trial_case("one of three leaves, whose words are guessed, seed %u", (unsigned)seed);
    world *self = world_begin(&with);
    trial_let_guess(self);
    world_open_all(self);
    trial_must(world_play(self, 120, 10000), "the match begins");
    uint32_t frames = self->machine[0].settled;
    self->machine[2].is_dead = true;
    world_run(self, 6000);
    uint32_t grafted = the_guesser.grafted;
    world_run(self, 4000);
    trial_only_of(self, 2, MAY_INTERRUPT | MAY_STALL | MAY_LEAVE);
    for (uint32_t who = 0; who < 2; who++)
        trial_must_of(world_told(self, who, FAZGROND_DISCONNECTED, NOBODY) == 1, who, "its player leaves");
    trial_must(world_agree(self, 0, 1, frames + 300), "the match of the others goes on");
    trial_must(the_guesser.grafted > grafted, "they guess on");
    world_end(self);
}

void trial_guesses(uint32_t count, uint32_t seed) {
    for (uint32_t time = 0; time < count; time++, seed++) {
        guesses(2, 0, 30, 0, seed);
        guesses(2, 0, 60, 10, seed);
        guesses(3, 0, 40, 5, seed);
        guesses(2, JUST_ENOUGH, 60, 5, seed);
        guesses(2, 24, 60, 5, seed);
        one_leaves(seed);
    }
}
