/* Matches of three and four whose lines break and heal, both ways or one, where machines carry for each other: as long as all can
 * reach all over others, nobody is gone, nobody is cut off, and all play what a game does that is run once over all words. */
#include "trials.h"

static world *carrying(const setup *with) {
    world *self = world_begin(with);
    world_open_all(self);
    trial_must(world_play(self, 60, 10000), "the match begins");
    return self;
}

/* Nobody was told of anybody, all settled so many frames, and these are those of the game that is run once. */
static void must_be_whole(world *self, uint32_t frames) {
    trial_nothing_but(self, MAY_INTERRUPT | MAY_STALL);
    for (uint32_t who = 0; who < self->setup.machines; who++) {
        trial_must_of(self->machine[who].settled >= frames, who, "it plays on");
        trial_must_of(world_is_serial(self, who, frames), who, "its state is that of the game that is run once");
    }
}

/* Which machines get something of one, straight or over others. */
static uint32_t reached(const world *self, uint32_t from) {
    uint32_t found = 1u << from, before = 0;
    while (found != before) {
        before = found;
        for (uint32_t one = 0; one < self->setup.machines; one++)
            for (uint32_t other = 0; other < self->setup.machines; other++)
                if ((found >> one & 1) != 0 && !self->is_cut[one][other] && !self->is_cut[other][one])
                    found |= 1u << other;
    }
    return found;
}

static bool is_whole(const world *self) { return reached(self, 0) == (1u << self->setup.machines) - 1; }

/* Breaks a line that was drawn, both ways or one; not if somebody could reach nobody then. */
static void break_one(world *self) {
    uint32_t one = world_draw(self, self->setup.machines), other = world_draw(self, self->setup.machines);
    bool was[2] = { self->is_cut[one][other], self->is_cut[other][one] };
    if (one == other)
        return;
    self->is_cut[one][other] = true;
    self->is_cut[other][one] = was[1] || world_draw(self, 3) > 0;
    if (!is_whole(self)) {
        self->is_cut[one][other] = was[0];
        self->is_cut[other][one] = was[1];
    }
}

static void heal_one(world *self) {
    uint32_t one = world_draw(self, self->setup.machines), other = world_draw(self, self->setup.machines);
    self->is_cut[one][other] = self->is_cut[other][one] = false;
}

/* Lines break and heal for half a minute, each time for as long as was drawn, which may be longer than the time of silence. */
static void break_and_heal(uint32_t seed) {
    setup with = plain;
    with.machines = 3 + seed % 2;
    with.carries = true;
    with.held_turns = seed / 2 % 3;
    with.silent_after = 2000;
    with.stalled_after = 1000;
    with.delay = 10 + seed * 37 % 61;
    with.jitter = seed * 13 % 20;
    with.loss = seed % 3 * 10;
    with.seed = seed;
    trial_case("lines break and heal: %u machines, %u to %u ms, %u of 100 lost, held for %u turns, seed %u", (unsigned)with.machines,
               (unsigned)with.delay, (unsigned)(with.delay + with.jitter), (unsigned)with.loss, (unsigned)with.held_turns, (unsigned)seed);
    world *self = carrying(&with);
    for (uint32_t passed = 0; passed < 30000;) {
        uint32_t time = 500 + world_draw(self, 3000);
        if (world_draw(self, 3) > 0)
            break_one(self);
        else
            heal_one(self);
        world_run(self, time);
        passed += time;
    }
    must_be_whole(self, 600);
    world_end(self);
}

/* A line is broken for good. Without anybody who carries, somebody is gone or cut off for it. */
static void breaks_for_good(uint32_t machines, bool carries, uint32_t held_turns, uint32_t seed) {
    setup with = plain;
    with.machines = machines;
    with.carries = carries;
    with.held_turns = held_turns;
    with.silent_after = 2000;
    with.seed = seed;
    trial_case("a line of %u breaks for good, %s, held for %u turns, seed %u", (unsigned)machines,
               carries ? "others carry" : "nobody carries", (unsigned)held_turns, (unsigned)seed);
    world *self = carrying(&with);
    self->is_cut[0][1] = self->is_cut[1][0] = true;
    world_run(self, 15000);
    if (carries) {
        must_be_whole(self, 600);
    } else {
        unsigned kinds = 0;
        for (uint32_t who = 0; who < machines; who++)
            kinds |= trial_kinds(self, who, 0);
        trial_must((kinds & (MAY_LEAVE | MAY_BE_CUT_OFF | MAY_DROP)) != 0, "somebody is gone, or cut off");
    }
    world_end(self);
}

void trial_lines(uint32_t count, uint32_t seed) {
    for (uint32_t time = 0; time < count; time++) {
        break_and_heal(seed + time);
        for (uint32_t machines = 3; machines <= 4; machines++) {
            breaks_for_good(machines, true, 0, seed + time);
            breaks_for_good(machines, true, 2, seed + time);
            breaks_for_good(machines, false, 0, seed + time);
        }
    }
}
