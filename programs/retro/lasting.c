#define _POSIX_C_SOURCE 200809L
#include "lasting.h"

#include "casting.h"
#include "match.h"

#include "../common/clock.h"
#include "../../lib/sha256.h"

#include <inttypes.h>
#include <stdlib.h>
#include <string.h>

enum {
    SPARE = 65536, /* so many bytes more than here a state may have */
    SILENT = 500,
    TELL_EVERY = 1000,
    OVER_A_SEAM = 2000, /* milliseconds */
    APART = 60          /* frames from a seam to one that this machine asks for: who watches has come over the first one by then */
};

static uint32_t place_at(const match *self, const address *from) {
    const agreement *all = &self->meeting->all;
    uint32_t place = 0;
    while (place < all->machines && (place == all->me || !address_is(from, &all->machine[place])))
        place++;
    return place;
}

/* Viewers sit behind all machines. */
static uint32_t seat_of_viewer(uint32_t viewer) { return FAZGROND_MACHINES + viewer; }

static uint32_t seat_at(const match *self, const address *from) {
    uint32_t viewer = 0;
    while (viewer < self->open_lines && !address_is(from, &self->meeting->viewer[viewer].at))
        viewer++;
    return viewer < self->open_lines ? seat_of_viewer(viewer) : FAZ_SEATS;
}

/* The number of the line between two machines. */
static uint64_t line_number(const match *self, uint32_t one, uint32_t other) {
    uint64_t all[] = { self->meeting->all.numbers[0], one < other ? one : other, one < other ? other : one };
    return strong_digest_of(all, sizeof all) | 1;
}

uint64_t lasting_comers(const match *self) {
    uint64_t all[] = { self->meeting->all.numbers[0], 0x636f6d657273 };
    return strong_digest_of(all, sizeof all) | 1;
}

static void send_by(void *of, uint32_t to, const uint8_t *bytes, size_t length) {
    match *self = of;
    const meeting *with = self->meeting;
    net_send(with->net, to < FAZGROND_MACHINES ? &with->all.machine[to] : &with->viewer[to - FAZGROND_MACHINES].at, bytes, length);
}

/* A bit for each player of a machine. */
static uint32_t players_of(const agreement *all, uint32_t place) {
    uint32_t players = 0;
    for (uint32_t player = 0; player < all->players; player++)
        players |= all->owners[player] == place ? 1u << player : 0;
    return players;
}

/* The parts of the match are kept, for a record of it. */
static void note_part(match *self, const fazgrond_epoch *epoch) {
    lasting *it = &self->lasting;
    if (it->part_count > 0 && it->parts[it->part_count - 1].base == epoch->base)
        return;
    match_part *more = realloc(it->parts, (it->part_count + 1) * sizeof *more);
    if (more == NULL) {
        match_must(self, FAZGROND_NO_MEMORY);
        return;
    }
    match_part *made = &more[it->part_count++];
    it->parts = more;
    *made = (match_part){ .base = (uint32_t)epoch->base, .threshold = epoch->threshold };
    memcpy(made->owners, epoch->owners, sizeof made->owners);
    memcpy(made->delays, epoch->delays, sizeof made->delays);
}

/* The machines of an epoch have places, and players delays. */
static void read_epoch(match *self) {
    agreement *all = &self->meeting->all;
    note_part(self, &self->lasting.epoch);
    helpers_begin_epoch(&self->helpers);
    self->lasting.base = self->lasting.seen = all->base = (uint32_t)self->lasting.epoch.base;
    for (uint32_t player = 0; player < all->players; player++) {
        uint32_t owner = self->lasting.epoch.owners[player];
        all->delays[player] = self->lasting.epoch.delays[player];
        if (owner < FAZGROND_MACHINES)
            self->place_of[owner] = all->owners[player];
    }
}

/* ---- At a machine that plays. */

int32_t lasting_open_peer(match *self, const fazgrond_match *match, const fazgrond_settings *settings) {
    lasting *it = &self->lasting;
    const agreement *all = &self->meeting->all;
    if (it->epoch.size == 0) {
        it->epoch = fazgrond_epoch_for(match, settings);
        memcpy(it->epoch.delays, all->delays, sizeof it->epoch.delays);
        for (uint32_t player = 0; player < all->players; player++)
            if (agreement_is_vacant(all, all->owners[player]))
                it->epoch.owners[player] = FAZGROND_NOBODY;
        note_part(self, &it->epoch);
    }
    faz_hosting_close(&it->hosting);
    it->hosting = (faz_hosting){ .session = &self->session,
                                 .peer = &self->peer,
                                 .me = match->me,
                                 .digest = all->digest,
                                 .random = net_draw(),
                                 .send = send_by,
                                 .of = self };
    for (uint32_t place = 0; place < all->machines; place++)
        it->hosting.seat[place] = (faz_seat){ .is_taken = place != all->me,
                                              .number = line_number(self, all->me, place),
                                              .ticket = fazgrond_ticket(match->comers, place),
                                              .players = players_of(all, place) };
    for (uint32_t viewer = 0; viewer < self->open_lines; viewer++)
        lasting_seat_viewer(self, viewer);
    return fazgrond_peer_open_lasting(&self->peer, &self->session, match, &it->epoch);
}

void lasting_seat_viewer(match *self, uint32_t viewer) {
    uint64_t number = strong_digest_of((uint64_t[2]){ self->meeting->key, self->meeting->viewer[viewer].line_draw }, 16) | 1;
    self->lasting.hosting.seat[seat_of_viewer(viewer)] = (faz_seat){ .is_taken = true, .number = number };
    self->lasting.followed_at[viewer] = net_now(self->meeting->net);
}

/* One that goes over a seam isn't heard on the new line for a moment, and one that stands still for a while isn't on any. */
uint32_t lasting_rows_seen(match *self, uint32_t viewer, uint32_t now) {
    uint32_t *followed_at = &self->lasting.followed_at[viewer];
    uint32_t patience = self->wish->silent_after > OVER_A_SEAM ? self->wish->silent_after : OVER_A_SEAM;
    fazgrond_line_state state = { 0 };
    (void)fazgrond_line_look(&self->lasting.hosting.seat[seat_of_viewer(viewer)].line, now, &state);
    if (state.is_playing != 0 && state.has_ended == 0 && state.is_silent == 0) {
        *followed_at = now;
        return self->lasting.base + state.rows;
    }
    if (state.has_ended != 0)
        *followed_at = now - patience;
    return now - *followed_at >= patience ? UINT32_MAX : 0;
}

void lasting_bye(match *self) { faz_hosting_bye(&self->lasting.hosting); }

/* An epoch has begun with the state in slot 0. */
void lasting_host(match *self) {
    const core_state *state = &self->states->slots[0].state;
    uint8_t *image = malloc(STATE_HEAD + state->size);
    self->lasting.is_at_seam = false;
    if (image != NULL)
        state_write(state, image);
    match_must(self, image == NULL ? FAZGROND_NO_MEMORY : faz_hosting_begin(&self->lasting.hosting, image, STATE_HEAD + state->size));
    free(image);
}

void lasting_note(match *self, const fazgrond_request *request) {
    bool is_first = request->kind == FAZGROND_SAVE && request->slot == 0 && self->main->frame == self->lasting.base;
    if (self->lasting.is_at_seam && is_first)
        lasting_host(self);
}

/* Who has come in with this epoch, and who isn't in it. */
static void tell_epoch(match *self) {
    agreement *all = &self->meeting->all;
    uint32_t there = 0, came = 0;
    for (uint32_t player = 0; player < all->players; player++) {
        uint32_t owner = self->lasting.epoch.owners[player];
        bool is_there = owner < FAZGROND_MACHINES;
        there |= is_there ? 1u << all->owners[player] : 0;
        came |= is_there && (self->lasting.hosting.table.came >> owner & 1) != 0 ? 1u << all->owners[player] : 0;
    }
    self->far = 0;
    for (uint32_t place = 0; place < all->machines; place++) {
        self->far |= place != all->me && (there >> place & 1) != 0 ? players_of(all, place) : 0;
        if ((came >> place & 1) != 0)
            match_say(self, agreement_is_vacant(all, place) ? "machine %" PRIu32 " comes in" : "machine %" PRIu32 " is back", place);
        else if ((there >> place & 1) == 0)
            match_leave(self, place);
    }
    self->gone &= ~came;
    all->vacant &= ~came;
}

static void begin_epoch(match *self, uint32_t frames) {
    lasting *it = &self->lasting;
    match_must(self, fazgrond_peer_epoch(&self->peer, &it->epoch));
    read_epoch(self);
    it->is_at_seam = true;
    match_obey(self);
    self->frame = it->base + frames;
    tell_epoch(self);
}

/* Players of a machine that came in have another delay at first than this one is to have. */
static void ask_for_delays(match *self) {
    fazgrond_mark mark = fazgrond_mark_for();
    bool is_other = false;
    if (self->frame < self->lasting.base + APART)
        return;
    for (uint32_t seat = 0; seat < self->seats; seat++) {
        uint32_t player = self->locals[seat] - 1;
        mark.delays[player] = self->wish->delays[seat];
        is_other |= self->lasting.epoch.delays[player] != mark.delays[player];
    }
    if (is_other) /* it may have a mark already: then it is asked for in the next epoch */
        (void)fazgrond_peer_mark(&self->peer, &self->session, (uint8_t)self->locals[0], &mark);
}

/* All settled rows are put onto the trail. Of a frame that a helper played it has the row that was predicted before. */
static void settle_trail(match *self) {
    lasting *it = &self->lasting;
    fazgrond_row row;
    for (; fazgrond_settled_row(&self->session, it->seen - it->base, &row) == FAZGROND_OK; it->seen++)
        trail_settle(&it->trail, it->seen, &row);
}

void lasting_turn(match *self, uint32_t now) {
    uint32_t frames = 0;
    settle_trail(self);
    int32_t code = fazgrond_peer_go_on(&self->peer, &self->session, &frames);
    if (code == FAZGROND_JOBS_OUT) {
        helpers_leave(&self->helpers, &self->session);
        code = fazgrond_peer_go_on(&self->peer, &self->session, &frames);
    }
    if (code == FAZGROND_OK)
        begin_epoch(self, frames);
    else if (code != FAZGROND_NOTHING)
        match_must(self, code);
    faz_hosting_turn(&self->lasting.hosting, now);
    ask_for_delays(self);
}

void lasting_tell(match *self, uint32_t now) {
    lasting *it = &self->lasting;
    self->meeting->is_running = self->is_running && !self->has_desync && !it->is_coming;
    if (now - it->told_at < TELL_EVERY)
        return;
    it->told_at = now;
    for (uint32_t place = 0; place < self->meeting->all.machines; place++) {
        bool is_gone = (self->gone >> place & 1) != 0;
        if (place != self->meeting->all.me && (is_gone || now - it->heard_at[place] >= SILENT))
            meeting_tell(self->meeting, place, is_gone);
    }
}

/* Whether this machine came in after the match had begun, or has played before. */
static bool has_come(const match *self) { return self->lasting.base > 0; }

/* Whether the match goes on without this machine: it is gone for another one, which isn't for it. If both are, since a line was
 * broken for long, each has gone on alone: then the one that is in a later epoch plays on, or the one with the lower number. Who has
 * come in, and was given up before it was heard, is told so before it plays. */
bool lasting_is_out(match *self) {
    const meeting *told = self->meeting;
    bool is_told = told->is_out, is_later = told->out_from > self->lasting.base, is_same = told->out_from == self->lasting.base;
    self->meeting->is_out = false;
    if (!is_told || (!self->is_running && !has_come(self)))
        return false;
    return (self->gone >> told->out_of & 1) == 0 ? is_later || is_same : is_later || (is_same && told->out_of < told->all.me);
}

void lasting_hear(match *self, const address *from, const uint8_t *bytes, size_t length, uint32_t now) {
    uint32_t place = place_at(self, from), seat = seat_at(self, from);
    bool is_known = place < self->meeting->all.machines;
    if (is_known)
        self->lasting.heard_at[place] = now;
    else if (seat < FAZ_SEATS) {
        faz_hosting_hear(&self->lasting.hosting, seat, bytes, length, now);
        return;
    }
    if (!self->lasting.is_coming && fazgrond_peer_receive(&self->peer, &self->session, bytes, length, now) == FAZGROND_OK)
        return;
    if (is_known && self->lasting.is_coming)
        faz_comer_hear(&self->lasting.comer, place, bytes, length, now);
    else if (is_known)
        faz_hosting_hear(&self->lasting.hosting, place, bytes, length, now);
}

/* ---- At one that comes. */

static void begin_to_come(match *self) {
    lasting *it = &self->lasting;
    const agreement *all = &self->meeting->all;
    faz_comer_close(&it->comer);
    it->comer = (faz_comer){ .players = players_of(all, all->me),
                             .digest = all->digest,
                             .random = net_draw(),
                             .send = send_by,
                             .of = self,
                             .limit = (uint32_t)(STATE_HEAD + self->main->core.serialize_size() + SPARE) };
    for (uint32_t place = 0; place < all->machines; place++) {
        it->comer.machines |= place != all->me ? 1u << place : 0;
        it->comer.numbers[place] = line_number(self, all->me, place);
        it->heard_at[place] = net_now(self->meeting->net);
    }
    faz_comer_begin(&it->comer);
    it->is_coming = true;
    match_say(self, "the match runs: this machine comes in", 0);
}

void lasting_begin(match *self) {
    self->main->trail = &self->lasting.trail;
    if (self->meeting->all.runs)
        begin_to_come(self);
}

void lasting_return(match *self) {
    helpers_leave(&self->helpers, &self->session);
    faz_hosting_close(&self->lasting.hosting);
    fazgrond_peer_close(&self->peer);
    fazgrond_close(&self->session);
    self->is_running = false;
    self->lasting.trail.count = 0;
    if (runner_open(self->main, &self->opening))
        begin_to_come(self);
    else
        match_fail(self, "the core refuses its opening");
}

static void load(match *self, const faz_next *next) {
    core_state state;
    if (!state_read((uint8_t *)next->state, next->length, &state) || !runner_open_at(self->main, &state, (uint32_t)next->frame)
        || !state_copy(&self->lasting.opening, &state))
        match_fail(self, "the core refuses the match's state");
    self->lasting.opening_digest = self->states->slots[0].digest;
    self->lasting.part_count = 0;
}

/* The last row that is there is seen. */
static void follow(match *self, const faz_next *next, uint32_t now) {
    fazgrond_line_state state;
    note_part(self, &self->lasting.comer.table.epoch);
    self->main->core.is_shown = fazgrond_viewer_look(&self->lasting.comer.viewer, now, &state) != FAZGROND_OK
        || state.rows == self->lasting.comer.rows;
    if (!runner_follow(self->main, &next->row))
        match_fail(self, "the core refuses to save a state");
}

/* This machine plays from the epoch on that begins. */
static void come_in(match *self, const faz_next *next) {
    self->lasting.epoch = next->epoch;
    self->lasting.is_coming = false;
    self->gone = 0;
    read_epoch(self);
    if (!match_open(self, next->me))
        return;
    lasting_host(self);
    tell_epoch(self);
    if (!casting_come(self))
        match_fail(self, "it can't be published");
    match_say(self, "this machine is in the match, from frame %" PRIu32 " on", self->lasting.base);
}

/* Loads and steps what came, for as long as a turn may take. */
static void take_what_came(match *self, uint32_t now) {
    int64_t end = clock_micros() + (int64_t)(1e6 / self->main->core.av.timing.fps / self->meeting->net->speed);
    faz_next next = faz_comer_next(&self->lasting.comer);
    while (next.what != FAZ_NOTHING && !self->has_failed) {
        if (next.what == FAZ_LOAD)
            load(self, &next);
        else if (next.what == FAZ_STEP)
            follow(self, &next, now);
        else
            come_in(self, &next);
        if (!self->lasting.is_coming || clock_micros() >= end)
            return;
        next = faz_comer_next(&self->lasting.comer);
    }
}

static bool is_anybody_heard(const match *self, uint32_t now) {
    bool is_heard = self->wish->silent_after == 0;
    for (uint32_t place = 0; place < self->meeting->all.machines; place++)
        is_heard |= place != self->meeting->all.me && now - self->lasting.heard_at[place] < self->wish->silent_after;
    return is_heard;
}

/* The match has ended, or its machines are out of reach, before this one plays. */
static void end_if_unheard(match *self, uint32_t now) {
    if (self->has_failed || is_anybody_heard(self, now))
        return;
    self->lasting.is_lost = true;
    match_end(self, "nobody of it is heard any more");
}

void lasting_wait(match *self, uint32_t now) {
    if (has_come(self))
        end_if_unheard(self, now);
}

void lasting_come(match *self, uint32_t now) {
    faz_comer_turn(&self->lasting.comer, now);
    take_what_came(self, now);
    if (self->lasting.is_coming)
        end_if_unheard(self, now);
    self->frame = self->settled = self->main->frame;
}

void lasting_close(match *self) {
    faz_hosting_close(&self->lasting.hosting);
    faz_comer_close(&self->lasting.comer);
    trail_free(&self->lasting.trail);
    free(self->lasting.opening.at);
    free(self->lasting.parts);
    free(self->main->spare.state.at);
    self->main->spare = (slot){ 0 };
    self->main->trail = NULL;
}
