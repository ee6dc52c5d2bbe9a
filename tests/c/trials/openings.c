/* Machines that are opened anew: rematches, restarts, and copies of what was sent before. */
#include "packets.h"
#include "trials.h"

#include <stdlib.h>
#include <string.h>

/* ---- A proxy keeps what was sent, and sends it again and again. */

enum { MOST_KEPT = 1 << 14 };

typedef struct proxy {
    datagram *kept[MOST_KEPT];
    size_t count;
    uint32_t only_from; /* NOBODY: of all */
    bool is_on;
} proxy;

static proxy the_proxy;

static bool is_kept(const proxy *at, const datagram *sent) {
    for (size_t one = 0; one < at->count; one++)
        if (at->kept[one]->length == sent->length && memcmp(at->kept[one]->bytes, sent->bytes, sent->length) == 0)
            return true;
    return false;
}

/* Keeps what is sent. Hellos say the same again and again: each is kept once. */
static bool keep(world *self, datagram *sent) {
    proxy *at = self->watchers;
    if (!at->is_on || at->count == MOST_KEPT || (at->only_from != NOBODY && at->only_from != sent->from)
        || (sent->bytes[PACKET_KIND] == HELLO && is_kept(at, sent)))
        return true;
    datagram *copy = malloc(sizeof *copy);
    if (copy == NULL)
        abort();
    *copy = *sent;
    at->kept[at->count++] = copy;
    return true;
}

static void proxy_begin(world *self, uint32_t only_from) {
    self->watcher = keep;
    self->watchers = &the_proxy;
    the_proxy.only_from = only_from;
    the_proxy.is_on = true;
}

static void proxy_end(void) {
    while (the_proxy.count > 0)
        free(the_proxy.kept[--the_proxy.count]);
    the_proxy.is_on = false;
}

/* Of the plays that came after so many datagrams the proxy keeps so many at the end, and of hellos and byes all. */
static void proxy_thin(size_t from, size_t plays) {
    size_t kept = from;
    for (size_t at = from; at < the_proxy.count; at++) {
        datagram *one = the_proxy.kept[at];
        if (one->bytes[PACKET_KIND] != PLAY || the_proxy.count - at <= plays)
            the_proxy.kept[kept++] = one;
        else
            free(one);
    }
    the_proxy.count = kept;
}

/* Sends all that is kept once more, somewhen within so many milliseconds. */
static void proxy_copy(world *self, size_t count, uint32_t milliseconds) {
    for (size_t at = 0; at < count; at++)
        world_send(self, the_proxy.kept[at]->from, the_proxy.kept[at]->to, the_proxy.kept[at]->bytes, the_proxy.kept[at]->length,
                   world_draw(self, milliseconds));
}

/* ---- Rematches: match after match of two machines, with the same numbers. Who leaves begins anew at once, and the other once it
 * was told. */

enum { MATCHES = 20, FRAMES = 90, PATIENCE = 60000 };

/* A program that is told that the other has left, or was begun anew, begins anew too. */
static void begin_anew_if_left(world *self, uint32_t who) {
    uint32_t other = 1 - who;
    if (world_told(self, who, FAZGROND_LEFT, other) == 0 && world_told(self, who, FAZGROND_RESTARTED, other) == 0)
        return;
    world_open(self, who);
}

static bool is_played(world *self, uint32_t frames) { return self->machine[0].settled >= frames && self->machine[1].settled >= frames; }

/* Plays one match to its end. Meanwhile what is kept of those before is copied, five times a second. */
static bool play_match(world *self, size_t kept) {
    for (uint32_t passed = 0; passed < PATIENCE && !is_played(self, FRAMES); passed += 10) {
        if (passed % 200 == 0)
            proxy_copy(self, kept, 200);
        world_run(self, 10);
        begin_anew_if_left(self, 0);
        begin_anew_if_left(self, 1);
    }
    return is_played(self, FRAMES) && world_agree(self, 0, 1, FRAMES);
}

static void rematches(uint32_t delay, uint32_t jitter, uint32_t loss, bool is_copied, uint32_t seed) {
    setup with = plain;
    with.delay = delay;
    with.jitter = jitter;
    with.loss = loss;
    with.seed = seed;
    trial_case("%d matches on a line of %u to %u ms that loses %u %%, seed %u%s", MATCHES, (unsigned)delay, (unsigned)(delay + jitter),
               (unsigned)loss, (unsigned)seed, is_copied ? ", all hellos of those before copied" : "");
    world *self = world_begin(&with);
    if (is_copied)
        proxy_begin(self, NOBODY);
    world_open_all(self);
    for (uint32_t match = 0; match < MATCHES; match++) {
        uint32_t leaver = match % 2;
        size_t before = the_proxy.count;
        if (!play_match(self, before)) {
            char text[64];
            snprintf(text, sizeof text, "match %u isn't played", (unsigned)match + 1);
            trial_must(false, text);
            break;
        }
        trial_nothing_but(self, MAY_INTERRUPT | MAY_MISS);
        world_leave(self, leaver);
        proxy_thin(before, 40);
        world_open(self, leaver);
    }
    trial_must(is_copied || loss > 0 || self->machine[0].opening + self->machine[1].opening == 2 * MATCHES + 1,
               "each match is opened once");
    proxy_end();
    world_end(self);
}

/* One leaves, which nobody hears, and begins anew; the other stays in the match before for so long. Then they play. */
static void before_the_other(uint32_t milliseconds, uint32_t seed) {
    setup with = plain;
    with.seed = seed;
    trial_case("a rematch that one begins %u ms before the other, seed %u", (unsigned)milliseconds, (unsigned)seed);
    world *self = world_begin(&with);
    world_open_all(self);
    trial_must(world_play(self, FRAMES, 5000), "the match is played");
    world_open(self, 0);
    world_run(self, milliseconds);
    trial_must(world_told(self, 0, FAZGROND_RUNNING, NOBODY) == 0, "it waits for the other");
    trial_must(world_told(self, 1, FAZGROND_RESTARTED, 0) == 1 || milliseconds < 500, "the other is told");
    world_open(self, 1);
    trial_must(world_play(self, FRAMES, 5000) && world_agree(self, 0, 1, FRAMES), "the rematch is played");
    trial_nothing_but(self, MAY_MISS);
    world_end(self);
}

void trial_rematches(uint32_t count, uint32_t seed) {
    static const uint32_t delays[] = { 1, 20, 50, 100 };
    for (uint32_t at = 0; at < count; at++)
        rematches(delays[at % 4], 0, 0, at % 8 >= 4, seed + at);
    for (uint32_t at = 0; at < count / 4; at++) {
        rematches(delays[at % 4], 30, 0, at % 2 == 1, seed + at);
        rematches(delays[at % 4], 30, 20, at % 2 == 1, seed + at);
    }
    for (uint32_t at = 0; at < count / 4; at++)
        before_the_other(500 * at, seed + at);
}

/* ---- Restarts. */

/* What those who stay were told of machine 2, which was begun anew at some moment, and silent from then on. */
static void must_have_parted(world *self, uint32_t who, uint32_t since, uint32_t restarts) {
    uint32_t left_at = world_told_at(self, who, FAZGROND_LEFT, 2), silent_after = self->setup.silent_after;
    trial_must_of(world_told(self, who, FAZGROND_RESTARTED, 2) == restarts, who, "RESTARTED is told once");
    trial_must_of(world_told(self, who, FAZGROND_LEFT, 2) == 1, who, "the old opening leaves, once");
    trial_must_of(left_at >= since + silent_after - 400 && left_at <= since + silent_after + 200, who,
                  "it leaves once the time of silence has passed");
    trial_must_of(world_told(self, who, FAZGROND_DISCONNECTED, NOBODY) == 1, who, "its player leaves");
}

/* Of three machines the last is begun anew after so many milliseconds in which it did nothing. */
static void restart(uint32_t still, uint32_t times, uint32_t seed) {
    setup with = plain;
    with.machines = 3;
    with.silent_after = 3000;
    with.seed = seed;
    trial_case("one of three is begun anew %u times after %u ms, seed %u", (unsigned)times, (unsigned)still, (unsigned)seed);
    world *self = world_begin(&with);
    world_open_all(self);
    trial_must(world_play(self, 60, 5000), "the match begins");
    uint32_t since = world_millis(self);
    self->machine[2].is_dead = true;
    world_run(self, still);
    for (uint32_t time = 0; time < times; time++) {
        world_open(self, 2);
        world_run(self, 400);
    }
    uint32_t frames = self->machine[0].settled;
    world_run(self, 8000);
    for (uint32_t who = 0; who < 2; who++)
        must_have_parted(self, who, since, still < with.silent_after ? 1 : 0);
    for (uint32_t who = 0; who < 2; who++)
        trial_must_of(world_told(self, 2, FAZGROND_MISSING, who) == 1, who, "it is missing to the one that was begun anew");
    trial_must(world_told(self, 2, FAZGROND_RUNNING, NOBODY) == 0, "to which no match begins");
    self->machine[2].is_dead = true;
    trial_must(world_agree(self, 0, 1, frames + 200), "the match of the others goes on");
    trial_only_of(self, 2, MAY_INTERRUPT | MAY_LEAVE | MAY_STALL | MAY_RESTART);
    world_end(self);
}

/* Before the third is there, the second is begun anew: what the first believed was its old opening, so it can't come any more. Alone the
   first hears too few to call it gone; once the third is there they are two of three, and do. */
static void restart_before(uint32_t seed) {
    setup with = plain;
    with.machines = 3;
    with.silent_after = 3000;
    with.seed = seed;
    trial_case("one of three is begun anew while the third is awaited, seed %u", (unsigned)seed);
    world *self = world_begin(&with);
    world_open(self, 0);
    world_open(self, 1);
    world_run(self, 1000);
    world_open(self, 1);
    world_run(self, 5000);
    trial_must(world_told(self, 0, FAZGROND_RESTARTED, 1) == 1, "RESTARTED is told");
    trial_must(world_told(self, 0, FAZGROND_LEFT, 1) == 0, "nobody is called gone by one of three");
    trial_must(world_told(self, 0, FAZGROND_CUT_OFF, NOBODY) == 0, "nor is it cut off from a match that hasn't begun");
    trial_must(world_told(self, 0, FAZGROND_MISSING, 2) == 1, "the third is missing");
    world_open(self, 2);
    uint32_t come = world_millis(self);
    trial_must(world_told(self, 0, FAZGROND_RUNNING, NOBODY) == 0, "the match waits for the third");
    world_run(self, 2000);
    uint32_t left_at = world_told_at(self, 0, FAZGROND_LEFT, 1);
    trial_must(left_at > come && left_at < come + 1000, "the old opening leaves");
    trial_must(world_told(self, 0, FAZGROND_RUNNING, NOBODY) == 1, "the match begins without the second");
    world_end(self);
}

void trial_restarts(uint32_t count, uint32_t seed) {
    for (uint32_t at = 0; at < count; at++) {
        restart(0, 1, seed + at);
        restart(1000, 1, seed + at);
        restart(2000, 1, seed + at);
        restart(4000, 1, seed + at);
        restart(8000, 1, seed + at);
        restart(500, 3, seed + at);
        restart_before(seed + at);
    }
}

/* ---- Copies of what a dead machine sent. */

static void copies(uint32_t machines, uint32_t silent_after, uint32_t loss, uint32_t seed) {
    setup with = plain;
    with.machines = machines;
    with.silent_after = silent_after;
    with.loss = loss;
    with.seed = seed;
    uint32_t dead = machines - 1;
    trial_case("one of %u is dead, and what it sent is copied for a minute, seed %u", (unsigned)machines, (unsigned)seed);
    world *self = world_begin(&with);
    proxy_begin(self, dead);
    world_open_all(self);
    trial_must(world_play(self, 120, 20000), "the match begins");
    uint32_t since = world_millis(self), frames = self->machine[0].settled;
    self->machine[dead].is_dead = true;
    the_proxy.is_on = false;
    for (uint32_t passed = 0; passed < 60000; passed += 1000) {
        proxy_copy(self, the_proxy.count, 1000);
        world_run(self, 1000);
    }
    for (uint32_t who = 0; who < dead; who++) {
        uint32_t left_at = world_told_at(self, who, FAZGROND_LEFT, dead);
        trial_must_of(left_at > since + silent_after / 2 && left_at < since + silent_after + silent_after / 4 + 200, who,
                      "it is gone in time");
        trial_must_of(world_told(self, who, FAZGROND_INTERRUPTED, dead) == 0, who, "copies are heard");
        trial_must_of(self->machine[who].answers[FAZGROND_MACHINE_GONE] > 0, who, "and then they aren't any more");
    }
    trial_only_of(self, dead, MAY_LEAVE | MAY_STALL);
    trial_must(machines == 2 || world_agree(self, 0, 1, frames + 3000), "the match of the others goes on");
    proxy_end();
    world_end(self);
}

void trial_copies(uint32_t count, uint32_t seed) {
    for (uint32_t at = 0; at < count; at++) {
        copies(2 + at % 3, 5000, 0, seed + at);
        copies(2 + at % 3, 1000, 0, seed + at);
        copies(2 + at % 3, 3000, 10, seed + at);
    }
}
