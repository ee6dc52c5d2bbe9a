/* A viewer of machine 0, on a line of its own that is as bad as those of the match. It has to come to the states of the players, who
 * guess or don't; and each end has to see in time that the other is silent, and never else. */
#include "trials.h"

#include <stdlib.h>
#include <string.h>

enum { TURN = 16, WAY = 1 << 14 };

typedef struct posted {
    uint32_t due; /* milliseconds */
    bool to_viewer;
    size_t length;
    uint8_t bytes[FAZGROND_DATAGRAM];
} posted;

/* Both ends, and what is on its way. */
typedef struct scene {
    world *match;
    fazgrond_line line;
    fazgrond_viewer viewer;
    uint64_t draws;
    posted *way;
    size_t on_way;
    uint32_t rows;                    /* that were taken from the viewer */
    uint64_t state;                   /* of its game */
    int64_t viewer_ahead, host_ahead; /* their clocks, of the match's */
    bool is_viewer_dead, is_host_dead, is_kept;
    posted *kept; /* what the viewer sent, to be copied */
    size_t kept_count;
    uint32_t refused;
} scene;

static scene the_scene;

static uint32_t host_clock(const scene *self) { return (uint32_t)((int64_t)world_clock(self->match, 0) + self->host_ahead); }

static uint32_t viewer_clock(const scene *self) { return (uint32_t)((int64_t)world_millis(self->match) + self->viewer_ahead); }

static fazgrond_line_settings settings_of(scene *self) {
    const setup *with = &self->match->setup;
    fazgrond_line_settings made = { .number = 0x1157e2, .draw = ++self->draws, .digest = 9, .machines = with->machines };
    made.silent_after = with->silent_after;
    for (uint32_t player = 0; player < FAZGROND_PLAYERS; player++)
        made.owners[player] = player < with->machines ? player : FAZGROND_NO_PLAYER;
    return made;
}

static void open_line(scene *self) {
    fazgrond_line_settings made = settings_of(self);
    trial_must(fazgrond_line_open(&self->line, &made) == FAZGROND_OK, "the line opens");
}

static void open_viewer(scene *self) {
    fazgrond_line_settings made = settings_of(self);
    trial_must(fazgrond_viewer_open(&self->viewer, &made) == FAZGROND_OK, "the viewer opens");
    self->rows = 0;
    self->state = 0;
}

static scene *scene_begin(uint32_t machines, uint32_t delay, uint32_t loss, uint32_t silent_after, uint32_t seed) {
    scene *self = &the_scene;
    setup with = plain;
    with.machines = machines;
    with.delay = delay;
    with.jitter = delay / 4;
    with.loss = loss;
    with.silent_after = silent_after;
    with.is_button = seed % 2 == 0;
    with.seed = seed;
    memset(self, 0, sizeof *self);
    self->match = world_begin(&with);
    if (with.is_button)
        trial_let_guess(self->match);
    self->way = malloc(WAY * sizeof *self->way);
    self->kept = malloc(WAY * sizeof *self->kept);
    if (self->way == NULL || self->kept == NULL)
        abort();
    self->draws = 0x4c494e45;
    self->viewer_ahead = world_draw(self->match, 1 << 30);
    world_open_all(self->match);
    open_line(self);
    return self;
}

static void scene_end(scene *self) {
    fazgrond_line_close(&self->line);
    fazgrond_viewer_close(&self->viewer);
    free(self->way);
    free(self->kept);
    world_end(self->match);
}

static void put_on_way(scene *self, const posted *sent, uint32_t milliseconds) {
    if (self->on_way == WAY)
        return;
    self->way[self->on_way] = *sent;
    self->way[self->on_way++].due = world_millis(self->match) + milliseconds;
}

static void post(scene *self, const posted *sent) {
    const setup *with = &self->match->setup;
    if (self->is_kept && !sent->to_viewer && self->kept_count < WAY)
        self->kept[self->kept_count++] = *sent;
    if (world_draw(self->match, 100) >= with->loss)
        put_on_way(self, sent, with->delay + world_draw(self->match, with->jitter + 1));
}

/* The viewer plays what is there: its state has to be that of the players. */
static void take_rows(scene *self) {
    const machine *host = &self->match->machine[0];
    fazgrond_row row;
    while (fazgrond_viewer_row(&self->viewer, &row) == FAZGROND_OK) {
        self->state = world_state_after(self->state, &row);
        self->rows++;
        trial_must(self->rows <= host->settled && self->state == machine_digest(host, self->rows), "the viewer's state is the players'");
    }
}

static void deliver(scene *self) {
    uint32_t rows;
    for (size_t at = 0; at < self->on_way;) {
        posted *come = &self->way[at];
        if (come->due > world_millis(self->match)) {
            at++;
            continue;
        }
        int32_t code = FAZGROND_OK;
        if (come->to_viewer && !self->is_viewer_dead)
            code = fazgrond_viewer_receive(&self->viewer, come->bytes, come->length, viewer_clock(self), &rows);
        else if (!come->to_viewer && !self->is_host_dead)
            code = fazgrond_line_receive(&self->line, come->bytes, come->length, host_clock(self));
        self->refused += code != FAZGROND_OK && code != FAZGROND_IS_CLOSED && code != FAZGROND_NOT_SEALED;
        *come = self->way[--self->on_way];
    }
}

static void scene_run(scene *self, uint32_t milliseconds) {
    posted sent = { .to_viewer = true };
    for (uint32_t passed = 0; passed < milliseconds; passed += TURN) {
        world_run(self->match, TURN);
        deliver(self);
        sent.to_viewer = true;
        if (!self->is_host_dead
            && fazgrond_line_send(&self->line, &self->match->machine[0].session, host_clock(self), sent.bytes, sizeof sent.bytes,
                                  &sent.length)
                == FAZGROND_OK)
            post(self, &sent);
        take_rows(self);
        sent.to_viewer = false;
        if (!self->is_viewer_dead
            && fazgrond_viewer_send(&self->viewer, viewer_clock(self), sent.bytes, sizeof sent.bytes, &sent.length) == FAZGROND_OK)
            post(self, &sent);
    }
}

static fazgrond_line_state host_sees(scene *self) {
    fazgrond_line_state seen = { 0 };
    fazgrond_line_look(&self->line, host_clock(self), &seen);
    return seen;
}

static fazgrond_line_state viewer_sees(scene *self) {
    fazgrond_line_state seen = { 0 };
    fazgrond_viewer_look(&self->viewer, viewer_clock(self), &seen);
    return seen;
}

/* The viewer has all but the last rows, and nobody is silent. */
static void must_follow(scene *self, uint32_t behind) {
    fazgrond_line_state host = host_sees(self), viewer = viewer_sees(self);
    trial_must(host.is_playing != 0 && viewer.is_playing != 0 && host.has_ended == 0 && viewer.has_ended == 0, "both play");
    trial_must(host.is_silent == 0 && viewer.is_silent == 0, "nobody is silent");
    trial_must(self->rows + behind >= self->match->machine[0].settled && self->rows > 0, "the viewer has the rows");
    trial_must(self->refused == 0, "nothing is refused");
}

static void must_be_silent(scene *self, bool host_is, bool viewer_is) {
    trial_must((host_sees(self).is_silent != 0) == host_is, host_is ? "the host sees that" : "the host sees nothing yet");
    trial_must((viewer_sees(self).is_silent != 0) == viewer_is, viewer_is ? "the viewer sees that" : "the viewer sees nothing yet");
}

/* One is there from the beginning, or comes late. A player leaves. */
static void follows(uint32_t machines, uint32_t delay, uint32_t loss, uint32_t late, uint32_t seed) {
    trial_case("a viewer of %u, %u ms late, on a line of %u ms that loses %u %%, seed %u", (unsigned)machines, (unsigned)late,
               (unsigned)delay, (unsigned)loss, (unsigned)seed);
    scene *self = scene_begin(machines, delay, loss, 2000, seed);
    scene_run(self, late);
    open_viewer(self);
    for (uint32_t times = 0; times < 10; times++) {
        scene_run(self, 1000);
        must_be_silent(self, false, false);
    }
    self->match->machine[machines - 1].is_dead = true;
    scene_run(self, 10000);
    must_follow(self, 8 + delay * 2);
    scene_end(self);
}

/* An end is opened anew: the other one sees that its old opening is silent, in time. The new one doesn't come to play with it. */
static void reopened(bool is_viewer, uint32_t seed) {
    trial_case("%s of a line is opened anew, seed %u", is_viewer ? "the viewer's end" : "the host's end", (unsigned)seed);
    scene *self = scene_begin(2, 20, 0, 3000, seed);
    open_viewer(self);
    scene_run(self, 5000);
    must_follow(self, 20);
    if (is_viewer)
        open_viewer(self);
    else
        open_line(self);
    scene_run(self, 2400);
    must_be_silent(self, false, false);
    scene_run(self, 1600);
    must_be_silent(self, is_viewer, !is_viewer);
    trial_must((is_viewer ? viewer_sees(self) : host_sees(self)).is_playing == 0, "the new end doesn't play with the old one");
    trial_must(!is_viewer || self->rows == 0, "it is told nothing again");
    if (is_viewer)
        open_line(self);
    else
        open_viewer(self);
    scene_run(self, 3000);
    must_follow(self, 20);
    scene_end(self);
}

/* The viewer is dead, and what it sent is copied. */
static void copied(uint32_t seed) {
    trial_case("a dead viewer, whose datagrams are copied, seed %u", (unsigned)seed);
    scene *self = scene_begin(2, 20, 0, 3000, seed);
    open_viewer(self);
    self->is_kept = true;
    scene_run(self, 5000);
    must_follow(self, 20);
    self->is_viewer_dead = true;
    for (uint32_t passed = 0; passed < 2400; passed += 1000) {
        for (size_t at = 0; at < self->kept_count; at++)
            put_on_way(self, &self->kept[at], world_draw(self->match, 1000));
        scene_run(self, 800);
    }
    trial_must(host_sees(self).is_silent == 0, "the host sees nothing yet");
    for (size_t at = 0; at < self->kept_count; at++)
        put_on_way(self, &self->kept[at], world_draw(self->match, 1000));
    scene_run(self, 1000);
    trial_must(host_sees(self).is_silent != 0, "the host sees that");
    scene_end(self);
}

static void clocks_jump(int64_t by, bool is_viewers, uint32_t seed) {
    trial_case("%s clock jumps by %lld ms, seed %u", is_viewers ? "a viewer's" : "a host's", (long long)by, (unsigned)seed);
    scene *self = scene_begin(2, 20, 5, 2000, seed);
    open_viewer(self);
    for (uint32_t times = 0; times < 10; times++) {
        scene_run(self, 1000);
        if (is_viewers)
            self->viewer_ahead += by;
        else
            self->host_ahead += by;
        must_be_silent(self, false, false);
    }
    scene_run(self, 1000);
    must_follow(self, 40);
    scene_end(self);
}

/* One leaves, and says so. */
static void leaves(bool is_viewer, uint32_t seed) {
    trial_case("%s says bye, seed %u", is_viewer ? "a viewer" : "a host", (unsigned)seed);
    scene *self = scene_begin(2, 20, 0, 3000, seed);
    posted said = { .to_viewer = !is_viewer };
    open_viewer(self);
    scene_run(self, 2000);
    must_follow(self, 20);
    int32_t code = is_viewer ? fazgrond_viewer_bye(&self->viewer, said.bytes, sizeof said.bytes, &said.length)
                             : fazgrond_line_bye(&self->line, said.bytes, sizeof said.bytes, &said.length);
    trial_must(code == FAZGROND_OK, "it can");
    post(self, &said);
    scene_run(self, 200);
    trial_must(host_sees(self).has_ended != 0 && viewer_sees(self).has_ended != 0, "the line has ended at both");
    scene_end(self);
}

void trial_viewers(uint32_t count, uint32_t seed) {
    static const int64_t jumps[] = { 1, -1, 3600000, -3600000 };
    for (uint32_t time = 0; time < count; time++, seed++) {
        for (uint32_t machines = 2; machines <= 4; machines++)
            follows(machines, 10 + seed * 31 % 150, seed * 7 % 31, machines * 700, seed);
        for (int is_viewer = 0; is_viewer < 2; is_viewer++) {
            reopened(is_viewer, seed);
            leaves(is_viewer, seed);
            for (size_t at = 0; at < 4; at++)
                clocks_jump(jumps[at], is_viewer, seed);
        }
        copied(seed);
    }
}
