/* Matches that go on, or stand, whatever clocks and lines do: of honest machines nobody is put out. */
#include "trials.h"

/* ---- Clocks that jump and wrap. */

typedef struct jumps {
    const char *name;
    int64_t by;     /* milliseconds */
    uint32_t every; /* so often, in milliseconds; 0: once, in the middle */
    bool is_back;   /* each second one goes back */
    bool is_of_all; /* at all machines, else at the first */
} jumps;

static void let_jump(world *self, const jumps *how, uint32_t time) {
    for (uint32_t who = 0; who < (how->is_of_all ? self->setup.machines : 1); who++)
        self->machine[who].clock_ahead += how->is_back && time % 2 == 1 ? -how->by : how->by;
}

static void clocks(const jumps *how, uint32_t stalled_after, uint32_t seed) {
    setup with = plain;
    with.machines = 2 + seed % 3;
    with.delay = 10 + seed % 50;
    with.jitter = seed % 20;
    with.loss = seed % 4 * 5;
    with.silent_after = seed % 2 == 0 ? 5000 : 1000;
    with.stalled_after = stalled_after;
    with.seed = seed;
    trial_case("clocks: %s, stalled after %u, seed %u", how->name, (unsigned)stalled_after, (unsigned)seed);
    world *self = world_begin(&with);
    world_open_all(self);
    trial_must(world_play(self, 60, 10000), "the match begins");
    uint32_t frames = self->machine[0].settled;
    for (uint32_t passed = 0, time = 0; passed < 20000; passed += 10) {
        if (how->every != 0 ? passed % how->every == 0 : passed == 10000)
            let_jump(self, how, time++);
        world_run(self, 10);
    }
    trial_nothing_but(self, MAY_INTERRUPT | MAY_STALL);
    for (uint32_t other = 1; other < with.machines; other++)
        trial_must_of(world_agree(self, 0, other, frames + 300), other, "the match goes on, and all agree");
    world_end(self);
}

/* The clocks of all machines begin anew after 2^32 in the middle of the match. */
static void wraps(uint32_t seed) {
    setup with = plain;
    with.machines = 3;
    with.seed = seed;
    trial_case("clocks: they begin anew after 2^32, seed %u", (unsigned)seed);
    world *self = world_begin(&with);
    for (uint32_t who = 0; who < with.machines; who++)
        self->machine[who].clock_ahead = (int64_t)UINT32_MAX - 5000 - world_draw(self, 3000);
    world_open_all(self);
    world_run(self, 20000);
    trial_nothing_but(self, 0);
    for (uint32_t other = 1; other < with.machines; other++)
        trial_must_of(world_agree(self, 0, other, 900), other, "the match goes on, and all agree");
    world_end(self);
}

/* A program that stands still for less than the time of silence, or whose clock is that of a machine that slept for an hour. */
static void sleeps(uint32_t still, int64_t clock, uint32_t seed) {
    setup with = plain;
    with.machines = 3;
    with.silent_after = 3000;
    with.seed = seed;
    trial_case("a program stands still for %u ms, its clock goes on by %lld, seed %u", (unsigned)still, (long long)clock, (unsigned)seed);
    world *self = world_begin(&with);
    world_open_all(self);
    trial_must(world_play(self, 60, 5000), "the match begins");
    for (uint32_t time = 0; time < 4; time++) {
        world_stand_still(self, time % 3, still);
        self->machine[time % 3].clock_ahead += clock;
        world_run(self, still + 2000);
    }
    uint32_t frames = self->machine[0].settled;
    world_run(self, 3000);
    trial_nothing_but(self, MAY_INTERRUPT | MAY_STALL);
    for (uint32_t other = 1; other < 3; other++)
        trial_must_of(world_agree(self, 0, other, frames + 100), other, "the match goes on, and all agree");
    world_end(self);
}

void trial_clocks(uint32_t count, uint32_t seed) {
    static const int64_t hour = 3600000, days = 24ll * 24 * 3600000; /* the most that is no step back */
    static const jumps all[] = {
        { "a millisecond on, again and again", 1, 10, false, false },
        { "a millisecond to and fro", 1, 10, true, true },
        { "an hour on, once", hour, 0, false, false },
        { "an hour on, at all", hour, 0, false, true },
        { "an hour back, once", -hour, 0, false, false },
        { "an hour back, at all", -hour, 0, false, true },
        { "an hour on, every two seconds", hour, 2000, false, false },
        { "an hour back, every two seconds", -hour, 2000, false, true },
        { "an hour to and fro, every second", hour, 1000, true, false },
        { "an hour to and fro, every second at all", hour, 1000, true, true },
        { "an hour to and fro, every 300 ms", hour, 300, true, false },
        { "24 days on, every two seconds", days, 2000, false, false },
    };
    for (uint32_t time = 0; time < count; time++) {
        for (size_t at = 0; at < sizeof all / sizeof *all; at++) {
            clocks(&all[at], 0, seed + time);
            clocks(&all[at], 5000, seed + time);
        }
        wraps(seed + time);
        sleeps(2000, 0, seed + time);
        sleeps(2500, -1500, seed + time);
        sleeps(500, hour, seed + time);
    }
}

/* ---- Of three or four machines one is silent, stalled or slow. */

static world *three_or_four(uint32_t machines, uint32_t stalled_after, uint32_t input_delay, uint32_t seed) {
    setup with = plain;
    with.machines = machines;
    with.stalled_after = stalled_after;
    with.input_delay = input_delay;
    with.delay = 10 + seed % 4 * 15;
    with.seed = seed;
    world *self = world_begin(&with);
    world_open_all(self);
    trial_must(world_play(self, 60, 10000), "the match begins");
    return self;
}

static void must_go_on(world *self, uint32_t without, uint32_t frames) {
    for (uint32_t who = 0; who < self->setup.machines; who++)
        if (who != without)
            trial_must_of(world_agree(self, without == 0 ? 1 : 0, who, frames), who, "the match goes on, and all agree");
}

static void silent(uint32_t machines, uint32_t which, uint32_t input_delay, uint32_t seed) {
    trial_case("one of %u is silent, delay %u, seed %u", (unsigned)machines, (unsigned)input_delay, (unsigned)seed);
    world *self = three_or_four(machines, 0, input_delay, seed);
    uint32_t frames = self->machine[which].settled;
    self->machine[which].is_dead = true;
    world_run(self, 12000);
    trial_only_of(self, which, MAY_INTERRUPT | MAY_STALL | MAY_LEAVE);
    for (uint32_t who = 0; who < machines; who++)
        if (who != which) {
            trial_must_of(world_told(self, who, FAZGROND_INTERRUPTED, which) == 1, who, "INTERRUPTED is told");
            trial_must_of(world_told(self, who, FAZGROND_LEFT, which) == 1, who, "LEFT is told");
        }
    must_go_on(self, which, frames + 300);
    world_end(self);
}

/* Nobody is ever gone, and nothing is told, if the times are 0: one is away for a minute, and comes back. */
static void patient(uint32_t machines, uint32_t notify_after, uint32_t seed) {
    setup with = plain;
    with.machines = machines;
    with.silent_after = 0;
    with.notify_after = notify_after;
    with.seed = seed;
    trial_case("one of %u is away for a minute, silent after 0, told after %u, seed %u", (unsigned)machines, (unsigned)notify_after,
               (unsigned)seed);
    world *self = world_begin(&with);
    world_open(self, 0);
    world_run(self, 30000);
    trial_must(world_told(self, 0, FAZGROND_MISSING, NOBODY) == 0, "nobody is missing");
    for (uint32_t who = 1; who < machines; who++)
        world_open(self, who);
    trial_must(world_play(self, 60, 10000), "the match begins");
    world_stand_still(self, 1, 60000);
    world_run(self, 61000);
    uint32_t frames = self->machine[0].settled;
    world_run(self, 3000);
    trial_nothing_but(self, notify_after == 0 ? 0 : MAY_INTERRUPT | MAY_STALL);
    must_go_on(self, NOBODY, frames + 100);
    world_end(self);
}

/* What is told of a machine that gives no words. */
static void must_be_stalled(world *self, uint32_t which, uint32_t since) {
    uint32_t stalled_after = self->setup.stalled_after;
    for (uint32_t who = 0; who < self->setup.machines; who++) {
        if (who == which || !self->machine[who].is_open)
            continue;
        uint32_t told_at = world_told_at(self, who, FAZGROND_STALLED, which);
        trial_must_of(world_told(self, who, FAZGROND_STALLED, which) == 1, who, "STALLED is told, once");
        trial_must_of(told_at > since + 700 && told_at < since + 1300, who, "STALLED is told in time");
        trial_must_of(world_told(self, who, FAZGROND_LEFT, which) == (stalled_after == 0 ? 0 : 1), who,
                      "who is stalled is put out, or waited for for ever");
    }
}

static void must_be_gone_as_told(world *self, uint32_t which) {
    for (uint32_t who = 0; who < self->setup.machines; who++) {
        if (who == which || !self->machine[who].is_open)
            continue;
        uint32_t due = world_told_at(self, who, FAZGROND_STALLED, which) + world_gone_in(self, who, FAZGROND_STALLED, which);
        uint32_t left_at = world_told_at(self, who, FAZGROND_LEFT, which);
        trial_must_of(left_at + 50 > due && left_at < due + 50, who, "it is gone as STALLED has said");
    }
}

/* The machine answers, and gives no words: for so long, or for ever if it is put out for that. */
static void stalled(uint32_t machines, uint32_t which, uint32_t stalled_after, uint32_t input_delay, uint32_t seed) {
    trial_case("one of %u is stalled, out after %u, delay %u, seed %u", (unsigned)machines, (unsigned)stalled_after, (unsigned)input_delay,
               (unsigned)seed);
    world *self = three_or_four(machines, stalled_after, input_delay, seed);
    uint32_t frames = self->machine[which].settled, since = world_millis(self);
    self->machine[which].is_stalled = true;
    world_run(self, 12000);
    must_be_stalled(self, which, since);
    self->machine[which].is_stalled = false;
    world_run(self, 8000);
    if (stalled_after > 0) {
        self->machine[which].is_dead = true; /* it is told that all others are silent */
        must_be_gone_as_told(self, which);
    }
    trial_only_of(self, which, MAY_STALL | MAY_LEAVE);
    must_go_on(self, stalled_after > 0 ? which : NOBODY, frames + 300);
    trial_must(stalled_after > 0 || self->machine[which].settled > frames + 300, "the one that was waited for goes on");
    world_end(self);
}

/* The last machine leaves, and so many frames later another one gives no words any more: it is put out whenever that is; but sooner or
 * later, as whoever might keep it can still be there or not. */
static void stalled_after_another_left(uint32_t machines, uint32_t frames, uint32_t input_delay, uint32_t seed) {
    uint32_t which = seed % (machines - 1), first = which == 0 ? 1 : 0;
    trial_case("one of %u is stalled %u frames after another left, delay %u, seed %u", (unsigned)machines, (unsigned)frames,
               (unsigned)input_delay, (unsigned)seed);
    world *self = three_or_four(machines, 2000, input_delay, seed);
    const machine *at = &self->machine[which];
    uint32_t until = at->frame + frames;
    world_leave(self, machines - 1);
    for (uint32_t passed = 0; passed < 2000 && at->frame < until; passed++)
        world_run(self, 1);
    uint32_t since = world_millis(self);
    trial_must(at->frame == until, "it plays on until then");
    self->machine[which].is_stalled = true;
    world_run(self, 10000);
    self->machine[which].is_dead = true; /* it is told that all others are silent */
    must_be_stalled(self, which, since);
    must_be_gone_as_told(self, which);
    trial_nothing_but(self, MAY_STALL | MAY_LEAVE);
    for (uint32_t who = 0; who + 1 < machines; who++)
        if (who != which)
            trial_must_of(world_agree(self, first, who, until + 100), who, "the match goes on, and all agree");
    world_end(self);
}

/* Two of three don't hear each other at first, so that neither begins. The third one has, and waits for them: nobody is put out. */
static void kept_from_beginning(uint32_t stalled_after, uint32_t seed) {
    setup with = plain;
    with.machines = 3;
    with.stalled_after = stalled_after;
    with.seed = seed;
    trial_case("two of three are kept from beginning, out after %u, seed %u", (unsigned)stalled_after, (unsigned)seed);
    world *self = world_begin(&with);
    self->is_cut[0][2] = self->is_cut[2][0] = true;
    world_open_all(self);
    world_run(self, 8000);
    trial_must(world_told(self, 1, FAZGROND_RUNNING, NOBODY) == 1, "the third one begins");
    self->is_cut[0][2] = self->is_cut[2][0] = false;
    trial_must(world_play(self, 60, 10000), "and the others, once they hear each other");
    trial_nothing_but(self, MAY_STALL | MAY_MISS);
    world_end(self);
}

static void slow(uint32_t machines, uint32_t which, uint32_t every, uint32_t stalled_after, uint32_t seed) {
    trial_case("one of %u gives a word in %u turns, stalled after %u, seed %u", (unsigned)machines, (unsigned)every,
               (unsigned)stalled_after, (unsigned)seed);
    world *self = three_or_four(machines, stalled_after, seed % 3, seed);
    uint32_t frames = self->machine[which].settled;
    self->machine[which].word_every = every;
    world_run(self, 12000);
    trial_only_of(self, which, every > 40 ? MAY_STALL : 0);
    must_go_on(self, NOBODY, frames + 600 / every);
    world_end(self);
}

void trial_stalls(uint32_t count, uint32_t seed) {
    kept_from_beginning(2500, seed);
    kept_from_beginning(0, seed + 1);
    for (uint32_t time = 0; time < count; time++)
        for (uint32_t machines = 2; machines <= 4; machines++) {
            uint32_t which = (seed + time) % machines;
            silent(machines, which, time % 3, seed + time);
            for (uint32_t input_delay = 0; input_delay <= 2; input_delay += 2) {
                stalled(machines, which, 0, input_delay, seed + time);
                stalled(machines, which, 3000, input_delay, seed + time);
            }
            for (uint32_t frames = 0; machines > 2 && frames < 28; frames++)
                stalled_after_another_left(machines, frames, frames % 2 * 8, seed + time);
            patient(machines, 0, seed + time);
            patient(machines, 750, seed + time);
            slow(machines, which, 6, 0, seed + time);
            slow(machines, which, 6, 1000, seed + time);
            slow(machines, which, 60, 3000, seed + time);
        }
}

/* ---- While a match stands, its logs stand, and all show the same. */

static void must_stand(world *self, uint32_t milliseconds) {
    size_t entries[MACHINES];
    uint32_t rolled_back[MACHINES];
    uint64_t states[MACHINES];
    for (uint32_t who = 0; who < self->setup.machines; who++) {
        entries[who] = world_log(self, who);
        rolled_back[who] = self->machine[who].states.loads;
        states[who] = world_state(&self->machine[who]);
    }
    world_run(self, milliseconds);
    for (uint32_t who = 0; who < self->setup.machines; who++) {
        trial_must_of(world_log(self, who) == entries[who], who, "its log stands");
        trial_must_of(self->machine[who].states.loads == rolled_back[who], who, "nothing is rolled back");
        trial_must_of(world_state(&self->machine[who]) == states[who], who, "it shows the same");
    }
}

/* All stop at a frame, and then show the same state, which is the settled one. */
static void ends(uint32_t machines, bool is_idle, uint32_t loss, uint32_t seed) {
    setup with = plain;
    with.machines = machines;
    with.is_idle = is_idle;
    with.loss = loss;
    with.delay = 60;
    with.input_delay = seed % 2 * 2;
    with.last_frame = 200;
    with.seed = seed;
    trial_case("%u %s stop at a frame, seed %u", (unsigned)machines, is_idle ? "idle players" : "players", (unsigned)seed);
    world *self = world_begin(&with);
    world_open_all(self);
    world_run(self, 15000);
    for (uint32_t who = 0; who < machines; who++) {
        const machine *at = &self->machine[who];
        trial_must_of(at->frame == 200 && at->settled == 200, who, "all frames are settled");
        trial_must_of(world_state(at) == machine_digest(at, 200), who, "what is shown is the settled state");
        trial_must_of(world_state(at) == world_state(&self->machine[0]), who, "all show the same");
        trial_must_of(!is_idle || at->states.loads == 0, who, "what is predicted rightly isn't rolled back");
    }
    must_stand(self, 20000);
    trial_nothing_but(self, 0);
    world_end(self);
}

/* One gives no words: the others go on until they have to wait, and then all stands, for as long as it lasts. */
static void stands(uint32_t machines, uint32_t seed) {
    trial_case("a match of %u stands, seed %u", (unsigned)machines, (unsigned)seed);
    world *self = three_or_four(machines, 0, seed % 3, seed);
    self->machine[seed % machines].is_stalled = true;
    world_run(self, 2000);
    must_stand(self, 60000);
    self->machine[seed % machines].is_stalled = false;
    uint32_t frames = self->machine[0].settled;
    world_run(self, 5000);
    must_go_on(self, NOBODY, frames + 200);
    trial_nothing_but(self, MAY_STALL);
    world_end(self);
}

void trial_standing(uint32_t count, uint32_t seed) {
    for (uint32_t time = 0; time < count; time++) {
        for (uint32_t machines = 2; machines <= 4; machines++) {
            ends(machines, false, 0, seed + time);
            ends(machines, true, 0, seed + time);
            ends(machines, false, 20, seed + time);
            stands(machines, seed + time);
        }
        ends(8, false, 0, seed + time);
    }
}

/* ---- Honest machines on bad lines. */

static void honest(uint32_t seed, uint32_t milliseconds) {
    static const uint32_t times[] = { 1000, 2000, 3000, 5000 };
    setup with = plain;
    with.machines = 2 + seed % 3;
    with.seed = seed;
    with.silent_after = times[seed / 3 % 4];
    with.rate = seed / 12 % 2 == 0 ? 60 : 15;
    with.delay = 20 + seed * 37 % 211;
    with.jitter = seed * 13 % 20;
    with.loss = 30;
    with.copies = seed % 5 == 0 ? 10 : 0;
    with.stalled_after = seed % 2 * with.silent_after;
    with.silent_first = seed % 4 == 3 ? 1000 : 0;
    with.input_delay = seed / 2 % 3;
    trial_case("honest: %u machines, %u turns a second, %u to %u ms, silent after %u, the first %u, stalled after %u, seed %u",
               (unsigned)with.machines, (unsigned)with.rate, (unsigned)with.delay, (unsigned)(with.delay + with.jitter),
               (unsigned)with.silent_after, (unsigned)with.silent_first, (unsigned)with.stalled_after, (unsigned)seed);
    world *self = world_begin(&with);
    world_open_all(self);
    world_run(self, milliseconds);
    trial_nothing_but(self, MAY_INTERRUPT | MAY_MISS | MAY_STALL);
    for (uint32_t other = 1; other < with.machines; other++)
        trial_must_of(world_agree(self, 0, other, milliseconds / 1000), other, "the match goes on, and all agree");
    world_end(self);
}

void trial_honest(uint32_t count, uint32_t seed) {
    for (uint32_t at = 0; at < count; at++)
        honest(seed + at, 30000);
}
