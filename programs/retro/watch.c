#define _POSIX_C_SOURCE 200809L
#include "watch.h"

#include "window.h"

#include "../common/clock.h"

#include <inttypes.h>
#include <stdlib.h>
#include <string.h>

enum { FLOOD = 256, CATCH_UP = 8, BEHIND = 6, BYES = 3, LINE = 96, SPARE = 65536 /* bytes more than here that a state may have */ };

static bool begin(playback *self, runner *on, const core_state *opening, bool reloads, const char *digests) {
    *self = (playback){ .core = &on->core, .reloads = reloads, .digests = digests != NULL ? fopen(digests, "wb") : NULL };
    if (digests != NULL && self->digests == NULL)
        fprintf(stderr, "%s can't be written\n", digests);
    return (digests == NULL || self->digests != NULL) && playback_begin(self, opening);
}

static outcome end(playback *self, bool is_good) {
    bool is_written = self->digests == NULL || fclose(self->digests) == 0;
    fprintf(stderr, "watched %" PRIu32 " frames\n", self->frame);
    free(self->state.at);
    return is_good && is_written ? ENDED : FAILED;
}

/* After so many frames of this turn. */
static void show(playback *self, uint32_t played, const char *what, uint32_t of) {
    char text[LINE];
    const char *line = text;
    snprintf(text, sizeof text, "%s: frame %" PRIu32 " of %" PRIu32, what, self->frame, of);
    window_show(self->core, played > 0, played > 1, &line, 1);
}

/* Another part of the match begins, with these players. */
static void tell_part(uint32_t number, const match_part *one) {
    fprintf(stderr, "part %" PRIu32 " from frame %" PRIu32 " on, with player", number + 1, one->base);
    for (uint32_t player = 0; player < FAZGROND_PLAYERS; player++)
        if (one->owners[player] < FAZGROND_MACHINES)
            fprintf(stderr, " %" PRIu32, player + 1);
    fputs("\n", stderr);
}

outcome watch_replay(const replay *from, runner *on, const wish *wish) {
    playback made;
    uint32_t all = from->first + from->count, count = wish->frames > 0 && wish->frames < all ? wish->frames : all;
    bool goes_on = begin(&made, on, &from->opening, from->reloads, wish->digests);
    made.frame = from->first;
    uint32_t told = 0;
    int64_t due = clock_micros(), length = (int64_t)(1e6 / on->core.av.timing.fps);
    while (goes_on && made.frame < count && wish_goes_on(wish)) {
        for (; told < from->part_count && from->parts[told].base <= made.frame; told++)
            tell_part(told, &from->parts[told]);
        goes_on = playback_step(&made, &from->rows[made.frame - from->first]);
        if (wish->is_headless)
            continue;
        show(&made, 1, "replay", count);
        due += length;
        int64_t rest = due - clock_micros();
        if (rest > 0)
            nanosleep(&(struct timespec){ 0, rest * 1000 }, NULL);
    }
    return end(&made, goes_on);
}

typedef struct watching {
    meeting *meeting;
    fazgrond_viewer viewer;
    fazgrond_line_state seen;
    playback shown;
    bool goes_on;
} watching;

static void hear(watching *self, uint32_t now) {
    uint8_t bytes[2048];
    address from;
    long length;
    uint32_t rows;
    for (int count = 0; count < FLOOD && (length = net_next(self->meeting->net, &from, bytes, sizeof bytes)) >= 0; count++)
        if (!meeting_hear(self->meeting, &from, bytes, (size_t)length))
            (void)fazgrond_viewer_receive(&self->viewer, bytes, (size_t)length, now, &rows);
}

/* Plays what has come: a frame, or more to catch up. How many. */
static uint32_t play(watching *self, const wish *wish) {
    uint32_t played = 0;
    fazgrond_row row;
    bool is_behind = self->seen.settled > self->shown.frame + BEHIND;
    while (played < (is_behind ? CATCH_UP : 1) && self->goes_on && (wish->frames == 0 || self->shown.frame < wish->frames)
           && fazgrond_viewer_row(&self->viewer, &row) == FAZGROND_OK) {
        self->goes_on = playback_step(&self->shown, &row);
        played++;
    }
    return played;
}

static void tell_host(watching *self, uint32_t now, bool is_bye) {
    uint8_t bytes[FAZGROND_DATAGRAM];
    size_t length;
    int32_t code = is_bye ? fazgrond_viewer_bye(&self->viewer, bytes, sizeof bytes, &length)
                          : fazgrond_viewer_send(&self->viewer, now, bytes, sizeof bytes, &length);
    for (int times = 0; times < (is_bye ? BYES : 1) && code == FAZGROND_OK; times++)
        net_send(self->meeting->net, &self->meeting->host, bytes, length);
}

static void turn(watching *self, const wish *wish) {
    uint32_t now = net_now(self->meeting->net);
    hear(self, now);
    uint32_t played = play(self, wish);
    tell_host(self, now, false);
    (void)fazgrond_viewer_look(&self->viewer, now, &self->seen);
    if (!wish->is_headless)
        show(&self->shown, played, "watching", self->seen.settled);
    if (self->seen.is_silent != 0)
        fputs("the host is silent\n", stderr);
}

/* A match into which players come back is followed over its seams, from a state of the host's on. */
typedef struct following {
    meeting *meeting;
    faz_comer comer;
    playback shown;
    uint32_t heard_at;
    fazgrond_line_state seen;
    bool goes_on;
} following;

static void send_to_host(void *of, uint32_t to, const uint8_t *bytes, size_t length) {
    const following *self = of;
    (void)to;
    net_send(self->meeting->net, &self->meeting->host, bytes, length);
}

static void hear_of_match(following *self, uint32_t now) {
    uint8_t bytes[2048], sender;
    address from;
    long length;
    for (int count = 0; count < FLOOD && (length = net_next(self->meeting->net, &from, bytes, sizeof bytes)) >= 0; count++) {
        bool is_state = fazgrond_state_sender(bytes, (size_t)length, &sender) == FAZGROND_OK;
        if (!address_is(&from, &self->meeting->host) || (!is_state && meeting_hear(self->meeting, &from, bytes, (size_t)length)))
            continue;
        self->heard_at = now;
        faz_comer_hear(&self->comer, 0, bytes, (size_t)length, now);
    }
}

static bool take_state(following *self, const faz_next *next) {
    core_state state;
    self->shown.frame = (uint32_t)next->frame;
    return state_read((uint8_t *)next->state, next->length, &state) && playback_begin(&self->shown, &state);
}

/* Plays what has come: a frame, or more to catch up. How many. */
static uint32_t follow(following *self, const wish *wish) {
    uint32_t played = 0, rows = self->comer.rows;
    bool is_behind = self->seen.settled > rows + BEHIND;
    while (played < (is_behind ? CATCH_UP : 1) && self->goes_on && (wish->frames == 0 || self->shown.frame < wish->frames)) {
        faz_next next = faz_comer_next(&self->comer);
        if (next.what == FAZ_NOTHING)
            break;
        self->goes_on = next.what == FAZ_LOAD ? take_state(self, &next) : playback_step(&self->shown, &next.row);
        played += next.what == FAZ_STEP;
    }
    return played;
}

static void follow_turn(following *self, const wish *wish) {
    uint32_t now = net_now(self->meeting->net);
    hear_of_match(self, now);
    uint32_t played = follow(self, wish);
    self->seen = (fazgrond_line_state){ 0 };
    (void)fazgrond_viewer_look(&self->comer.viewer, now, &self->seen);
    if (self->seen.has_ended == 0)
        faz_comer_turn(&self->comer, now);
    if (!wish->is_headless)
        show(&self->shown, played, "watching", self->shown.frame + self->seen.settled - self->comer.rows);
}

static void leave(following *self) {
    uint8_t bytes[FAZGROND_DATAGRAM];
    size_t length;
    for (int times = 0; times < BYES; times++)
        if (fazgrond_viewer_bye(&self->comer.viewer, bytes, sizeof bytes, &length) == FAZGROND_OK)
            net_send(self->meeting->net, &self->meeting->host, bytes, length);
    net_drain(self->meeting->net);
    faz_comer_close(&self->comer);
}

static outcome follow_match(meeting *meeting, runner *on, const core_state *opening, const wish *wish) {
    following self = { .meeting = meeting, .heard_at = net_now(meeting->net) };
    int64_t due = clock_micros(), length = (int64_t)(1e6 / on->core.av.timing.fps / meeting->net->speed);
    bool is_silent = false, is_over = false;
    self.comer = (faz_comer){ .machines = 1,
                              .numbers = { meeting->all.line },
                              .digest = meeting->all.digest,
                              .random = net_draw(),
                              .limit = (uint32_t)(STATE_HEAD + on->core.serialize_size() + SPARE),
                              .send = send_to_host,
                              .of = &self };
    faz_comer_begin(&self.comer);
    self.goes_on = begin(&self.shown, on, opening, on->states->reloads, wish->digests);
    while (self.goes_on && !is_silent && !is_over && wish_goes_on(wish) && (wish->frames == 0 || self.shown.frame < wish->frames)) {
        follow_turn(&self, wish);
        is_over = self.seen.has_ended != 0 && self.comer.rows >= self.seen.rows;
        is_silent = wish->silent_after > 0 && net_now(meeting->net) - self.heard_at > wish->silent_after;
        due += length;
        net_rest(meeting->net, due - clock_micros());
    }
    if (is_silent)
        fputs("the host is silent\n", stderr);
    leave(&self);
    return end(&self.shown, self.goes_on && !is_silent);
}

outcome watch_match(meeting *meeting, runner *on, const core_state *opening, const wish *wish) {
    if (wish->lasts)
        return follow_match(meeting, on, opening, wish);
    watching self = { .meeting = meeting };
    fazgrond_line_settings settings = { .number = meeting->all.line,
                                        .draw = net_draw(),
                                        .digest = meeting->all.digest,
                                        .machines = meeting->all.machines,
                                        .silent_after = wish->silent_after };
    int64_t due = clock_micros(), length = (int64_t)(1e6 / on->core.av.timing.fps / meeting->net->speed);
    memcpy(settings.owners, meeting->all.owners, sizeof settings.owners);
    self.goes_on = begin(&self.shown, on, opening, on->states->reloads, wish->digests)
        && fazgrond_viewer_open(&self.viewer, &settings) == FAZGROND_OK;
    while (self.goes_on && self.seen.is_silent == 0 && wish_goes_on(wish)
           && !(self.seen.has_ended != 0 && self.shown.frame >= self.seen.rows) && (wish->frames == 0 || self.shown.frame < wish->frames)) {
        turn(&self, wish);
        due += length;
        net_rest(meeting->net, due - clock_micros());
    }
    tell_host(&self, 0, true);
    net_drain(meeting->net);
    fazgrond_viewer_close(&self.viewer);
    return end(&self.shown, self.goes_on && self.seen.is_silent == 0);
}
