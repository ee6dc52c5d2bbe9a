#define _POSIX_C_SOURCE 200809L
#include "match.h"

#include "casting.h"
#include "online.h"
#include "replay.h"
#include "window.h"

#include "../common/clock.h"

#include <inttypes.h>
#include <stdio.h>
#include <stdlib.h>
#include <string.h>

enum {
    MOST_LATE = 20 /* turns that are made up for */,
    FLOOD = 256,
    MARK_EVERY = 600,
    SURELY = 180,
    BYES = 3,
    SLICE = 1000 /* microseconds between two looks at a helper */,
    ENDING = 90 /* turns in which a desync is still told to the others */
};

bool wish_goes_on(const wish *wish) { return !wish->is_stopped() && (wish->is_headless || window_goes_on()); }

int wish_ask(const char *lines[2]) {
    char letter = window_letter();
    int count = online_question(lines);
    if (count == 0 || (letter != 'y' && letter != 'n'))
        return count;
    online_answer(letter == 'y');
    return 0;
}

void match_say(match *self, const char *what, uint32_t number) {
    char text[TOLD];
    snprintf(text, sizeof text, what, number);
    fprintf(stderr, "%s\n", text);
    if (!self->is_over)
        memcpy(self->told, text, sizeof text);
}

/* What is told with so many milliseconds, which count down. */
static void count_down(match *self, const char *what, uint32_t number, uint32_t milliseconds) {
    snprintf(self->counted, sizeof self->counted, what, number);
    self->counted_until = net_now(self->meeting->net) + milliseconds;
    self->counted_seconds = UINT32_MAX;
}

static bool is_past(uint32_t now, uint32_t moment) { return (int32_t)(now - moment) >= 0; }

static void tell_seconds(match *self, uint32_t now) {
    uint32_t seconds = is_past(now, self->counted_until) ? 0 : (self->counted_until - now + 999) / 1000;
    if (self->counted[0] == 0 || seconds == 0 || seconds >= self->counted_seconds || self->is_over)
        return;
    self->counted_seconds = seconds;
    snprintf(self->told, sizeof self->told, "%.150s: over in %" PRIu32 " s", self->counted, seconds);
    fprintf(stderr, "%s\n", self->told);
}

void match_end(match *self, const char *why) {
    snprintf(self->told, sizeof self->told, "the match is over: %s", why);
    fprintf(stderr, "%s\n", self->told);
    self->is_over = true;
}

void match_fail(match *self, const char *why) {
    match_end(self, why);
    self->has_failed = true;
}

/* What a call answers that isn't refused in a match that goes as it should. */
void match_must(match *self, int32_t code) {
    uint8_t text[160];
    if (code == FAZGROND_OK || self->has_failed)
        return;
    size_t length = fazgrond_text(code, text, sizeof text - 1);
    text[length < sizeof text ? length : sizeof text - 1] = 0;
    match_fail(self, (const char *)text);
}

/* The beginning. */

static void send_to(match *self, uint32_t machine, const uint8_t *bytes, size_t length) {
    net_send(self->meeting->net, &self->meeting->all.machine[self->place_of[machine]], bytes, length);
}

/* Three machines or more carry for each other where a line breaks. */
static int32_t open_peer(match *self, const fazgrond_match *match) {
    return fazgrond_peer_open_carrying(&self->peer, &self->session, match);
}

static void send_more(match *self) {
    uint8_t bytes[FAZGROND_DATAGRAM], to;
    size_t length;
    while (fazgrond_peer_send_more(&self->peer, &to, bytes, sizeof bytes, &length) == FAZGROND_OK)
        send_to(self, to, bytes, length);
}

/* What a machine needs that may still be in the epoch before. */
static void send_before(match *self, uint32_t to, uint32_t now) {
    uint8_t bytes[FAZGROND_DATAGRAM];
    size_t length;
    if (fazgrond_peer_send_before(&self->peer, (uint8_t)to, now, bytes, sizeof bytes, &length) == FAZGROND_OK)
        send_to(self, to, bytes, length);
}

/* The players of this machine are the session's own. */
static void seat_players(match *self, fazgrond_settings *settings) {
    const agreement *all = &self->meeting->all;
    self->seats = self->far = 0;
    for (uint32_t player = 0; player < FAZGROND_PLAYERS; player++) {
        settings->masks[player] = ~(uint32_t)WORD_RESET;
        if (all->owners[player] == all->me && self->seats < SEATS) {
            settings->local |= 1u << player;
            settings->delays[player] = all->delays[player];
            self->hands[self->seats] = hand_of(self->wish->bot, player);
            self->next_words[self->seats] = hand_word(&self->hands[self->seats]);
            self->locals[self->seats++] = player + 1;
        } else if (player < all->players && !agreement_is_vacant(all, all->owners[player]))
            self->far |= 1u << player;
    }
}

bool match_open(match *self, uint32_t me) {
    const agreement *all = &self->meeting->all;
    fazgrond_settings settings = fazgrond_settings_for(all->players);
    fazgrond_match match = fazgrond_match_for(all->machines, me);
    settings.profile = all->threshold > 8 || all->players > 4 ? FAZGROND_WIDE : FAZGROND_GGPO;
    settings.threshold = all->threshold;
    seat_players(self, &settings);
    memcpy(match.owners, all->owners, sizeof match.owners);
    memcpy(match.numbers, all->numbers, sizeof match.numbers);
    if (self->wish->lasts) {
        fazgrond_one_number(&match, all->numbers[0]);
        match.comers = lasting_comers(self);
    }
    match.draw = net_draw();
    match.digest = all->digest;
    match.opening = self->wish->lasts ? 0 : self->facts->opening; /* who comes back later needn't have opened alike */
    match.silent_after = self->wish->silent_after;
    match.held_turns = self->wish->hold;
    match_must(self, fazgrond_open(&self->session, &settings));
    match_must(self, fazgrond_limit_slots(&self->session, SLOTS));
    match_must(self, self->wish->lasts ? lasting_open_peer(self, &match, &settings) : open_peer(self, &match));
    return !self->has_failed;
}

/* Opens what a match has from its beginning, or asks to come into one that runs. */
static bool open_all(match *self) {
    if (self->wish->lasts)
        lasting_begin(self);
    if (self->lasting.is_coming)
        return true;
    if (!match_open(self, self->meeting->all.me) || !casting_open(self))
        return false;
    if (self->wish->lasts)
        lasting_host(self);
    return !self->has_failed;
}

static bool open_match(match *self) {
    char why[200] = "the core refuses its opening";
    self->session = (fazgrond_session)FAZGROND_CLOSED;
    self->peer = (fazgrond_peer)FAZGROND_CLOSED;
    self->gone = self->meeting->all.vacant;
    self->holding = (holding){ .session = &self->session, .peer = &self->peer, .helpers = &self->helpers, .turns = self->wish->hold };
    for (uint32_t at = 0; at < FAZGROND_MACHINES; at++)
        self->place_of[at] = at;
    if (!runner_open(self->main, &self->opening)
        || !helpers_begin(&self->helpers, self->wish->helpers, self->wish->hold > 0, self->from, self->states, why, sizeof why)) {
        match_fail(self, why);
        return false;
    }
    self->has_failed |= !open_all(self);
    return !self->has_failed;
}

/* A turn: what has come. */

/* A viewer who has come since gets a line. */
static void open_lines(match *self) {
    const meeting *it = self->meeting;
    for (; it->is_host && self->open_lines < it->viewers; self->open_lines++) {
        match_say(self, "viewer %" PRIu32 " is there", self->open_lines);
        if (self->wish->lasts) {
            lasting_seat_viewer(self, self->open_lines);
            continue;
        }
        fazgrond_line_settings settings = { .draw = net_draw(),
                                            .digest = it->all.digest,
                                            .host = it->all.me,
                                            .machines = it->all.machines,
                                            .silent_after = self->wish->silent_after };
        settings.number = strong_digest_of((uint64_t[2]){ it->key, it->viewer[self->open_lines].line_draw }, 16) | 1;
        memcpy(settings.owners, it->all.owners, sizeof settings.owners);
        self->lines[self->open_lines] = (fazgrond_line)FAZGROND_CLOSED;
        match_must(self, fazgrond_line_open(&self->lines[self->open_lines], &settings));
    }
}

static void hear(match *self, uint32_t now) {
    uint8_t bytes[2048];
    address from;
    long length;
    for (int count = 0; count < FLOOD && (length = net_next(self->meeting->net, &from, bytes, sizeof bytes)) >= 0; count++) {
        uint32_t viewer = 0;
        uint8_t sender;
        bool is_state = fazgrond_state_sender(bytes, (size_t)length, &sender) == FAZGROND_OK;
        bool is_of_meeting = meeting_hear(self->meeting, &from, bytes, (size_t)length);
        if (self->wish->lasts && (is_state || !is_of_meeting)) { /* a state may also be that of the match */
            lasting_hear(self, &from, bytes, (size_t)length, now);
            continue;
        }
        if (is_of_meeting)
            continue;
        while (viewer < self->open_lines && !address_is(&from, &self->meeting->viewer[viewer].at))
            viewer++;
        if (viewer < self->open_lines)
            (void)fazgrond_line_receive(&self->lines[viewer], bytes, (size_t)length, now);
        else
            (void)fazgrond_peer_receive(&self->peer, &self->session, bytes, (size_t)length, now);
    }
}

/* A turn: a frame. */

/* The last step of a turn alone is seen and heard. */
static bool is_last_step(const fazgrond_request *requests, size_t at, size_t count) {
    bool is_last = requests[at].kind == FAZGROND_STEP;
    while (++at < count)
        is_last &= requests[at].kind != FAZGROND_STEP;
    return is_last;
}

void match_obey(match *self) {
    fazgrond_request requests[16];
    size_t count;
    uint32_t steps = self->main->steps, loads = self->main->loads;
    while ((count = fazgrond_take_requests(&self->session, requests, 16)) > 0)
        for (size_t at = 0; at < count && !self->has_failed; at++) {
            self->main->core.is_shown = is_last_step(requests, at, count);
            if (!runner_obey(self->main, &requests[at]))
                match_fail(self, "the core refuses to save or load a state");
            else
                lasting_note(self, &requests[at]);
        }
    self->again += self->main->steps - steps;
    self->jumps |= self->main->loads > loads;
}

static uint32_t word_of(match *self, uint32_t seat) { return self->wish->bot != 0 ? self->next_words[seat] : window_word((int)seat); }

/* Whether all frames that are to be played are there. */
static bool has_all(const match *self) { return self->wish->frames > 0 && self->frame >= self->wish->frames; }

/* The words of all players here, or of none: why not. */
static int32_t give(match *self) {
    int32_t code = FAZGROND_LOCAL_INPUT_MISSING;
    if (self->wait > 0) {
        self->wait--;
        return code;
    }
    if (has_all(self))
        return code;
    for (uint32_t seat = 0; seat < self->seats; seat++) {
        code = fazgrond_add_local_input(&self->session, (uint8_t)self->locals[seat], word_of(self, seat));
        if (code == FAZGROND_OK && self->wish->bot != 0)
            self->next_words[seat] = hand_word(&self->hands[seat]);
        else if (code == FAZGROND_INPUT_TWICE) /* taken in an earlier turn, in which another seat's wasn't */
            code = FAZGROND_OK;
        if (code != FAZGROND_OK)
            break;
    }
    return code;
}

/* Whether the game stands still for nobody but players of whom words wait. */
static bool waits_for_held(match *self) {
    uint32_t known, players = holding_players(&self->holding), others = self->far & ~players;
    for (uint32_t player = 1; player <= FAZGROND_PLAYERS; player++)
        if ((others >> (player - 1) & 1) != 0 && fazgrond_confirmed(&self->session, (uint8_t)player, &known) == FAZGROND_OK
            && self->frame >= known + self->meeting->all.threshold)
            return false;
    return players != 0;
}

/* As `give`; and words without which the game would stand still don't wait. */
static int32_t give_anyway(match *self) {
    int32_t code = give(self);
    if (code != FAZGROND_PREDICTION_THRESHOLD || !waits_for_held(self))
        return code;
    match_must(self, holding_give_all(&self->holding));
    return give(self);
}

static void play(match *self) {
    fazgrond_reached reached;
    fazgrond_row row;
    uint32_t has_news = 0;
    match_must(self, holding_sort(&self->holding));
    int32_t given = give_anyway(self);
    holding_run(&self->holding, self->frame + (given == FAZGROND_OK)); /* now, as this frame's words of the players here are known */
    match_must(self, fazgrond_has_news(&self->session, &has_news));
    self->waits += given != FAZGROND_OK && !has_all(self);
    if (given == FAZGROND_OK)
        match_must(self, fazgrond_advance_frame(&self->session, &reached));
    else if (has_news != 0) /* too far ahead, or told to wait: it shows at least what has come */
        match_must(self, fazgrond_synchronize_input(&self->session, &row));
    match_obey(self);
    self->unseen += given == FAZGROND_OK && self->again == 0;
    if (given == FAZGROND_OK && self->again > 0)
        self->again--; /* the new one */
    self->all_again += self->again;
    self->stood += given == FAZGROND_PREDICTION_THRESHOLD && self->holding.waiting > 0
        && (self->far & ~holding_players(&self->holding)) == 0;
    if (self->again > self->deepest)
        self->deepest = self->again;
    match_must(self, fazgrond_frame(&self->session, &self->frame));
    self->frame += self->lasting.base;
    helpers_guess(&self->helpers, &self->session, self->far & ~holding_players(&self->holding));
}

/* Notes what is settled, for the other machines, and keeps a state of it at times. */
static void note_settled(match *self) {
    uint32_t slot;
    match_must(self, fazgrond_settled_slot(&self->session, &self->settled, &slot));
    if (self->has_failed)
        return;
    self->settled += self->lasting.base;
    match_must(self, fazgrond_peer_note_settled(&self->peer, &self->session, self->states->slots[slot].digest));
    if (self->marks[0].state.at != NULL && self->settled < self->marks[0].frame + MARK_EVERY)
        return;
    core_state oldest = self->marks[MARKS - 1].state;
    memmove(&self->marks[1], &self->marks[0], (MARKS - 1) * sizeof self->marks[0]);
    self->marks[0].state = oldest;
    self->marks[0].frame = self->settled;
    if (!state_copy(&self->marks[0].state, &self->states->slots[slot].state))
        match_fail(self, "there is no memory");
}

/* A turn: what happened, and what is sent. */

void match_leave(match *self, uint32_t machine) {
    if (self->has_desync || (self->gone >> machine & 1) != 0)
        return;
    self->gone |= 1u << machine;
    online_left(&self->meeting->all.machine[machine]);
    bool lasts = self->wish->lasts;
    match_say(self, lasts ? "machine %" PRIu32 " has left; it can come back" : "machine %" PRIu32 " has left", machine);
    if (!lasts && (self->gone | 1u << self->meeting->all.me) == (1u << self->meeting->all.machines) - 1)
        match_end(self, "nobody else is there");
}

/* It plays no more, but goes on for a while to tell the others. Of several frames the first one counts. */
static void part(match *self, uint32_t machine, uint32_t frame) {
    if (!self->has_desync) {
        fprintf(stderr, "desync: machine %" PRIu32 " has another state at frame %" PRIu32 "\n", machine, frame);
        snprintf(self->told, sizeof self->told, "desync with machine %" PRIu32, machine);
        self->ending = ENDING;
    }
    self->desync = self->has_desync && self->desync < frame ? self->desync : frame;
    self->has_desync = true;
    self->meeting->over = self->meeting->all.draw;
}

/* This machine is out of the match. */
static void drop(match *self) {
    static const char why[] = "the others regard this machine as gone, or too few are heard";
    if (!self->wish->lasts) {
        match_fail(self, why);
        return;
    }
    match_say(self, why, 0);
    lasting_return(self);
}

/* All have met a moment before. So who isn't there has stopped, or is out of reach. */
static void miss(match *self, uint32_t machine) {
    if (self->wish->lasts) {
        if (self->lasting.base == 0) /* later it is one that has just come, or is gone again */
            match_say(self, "machine %" PRIu32 " isn't there", machine);
        return;
    }
    count_down(self, "machine %" PRIu32 " isn't there", machine, self->wish->silent_after);
    self->missing_until = self->is_missing ? self->missing_until : self->counted_until;
    self->is_missing = true;
}

static void look_at_missing(match *self, uint32_t now) {
    if (self->is_missing && !self->is_running && is_past(now, self->missing_until))
        match_fail(self, "a machine isn't there, and nobody comes back without --rejoin");
}

static void begin(match *self) {
    match_say(self, "the match begins", 0);
    self->told[0] = self->counted[0] = 0;
}

static void react(match *self, const fazgrond_event *event) {
    uint32_t machine = self->place_of[event->machine % FAZGROND_MACHINES];
    switch (event->code) {
    case FAZGROND_SYNCHRONIZED: match_say(self, "machine %" PRIu32 " is there", machine); break;
    case FAZGROND_RUNNING: begin(self); break;
    case FAZGROND_TIME_SYNC: self->wait = event->frames_ahead; break;
    case FAZGROND_INTERRUPTED: match_say(self, "machine %" PRIu32 " is silent", machine); break;
    case FAZGROND_STALLED: match_say(self, "machine %" PRIu32 " holds up the match", machine); break;
    case FAZGROND_RESUMED:
        self->counted[0] = 0;
        match_say(self, "machine %" PRIu32 " is heard again", machine);
        break;
    case FAZGROND_MISSING: miss(self, machine); break;
    case FAZGROND_STRANGERS:
        match_say(self, "%" PRIu32 " datagrams came that aren't of this match: the others have another version, or play another one",
                  event->count);
        break;
    case FAZGROND_CUT_OFF: count_down(self, "too few of the others are heard", 0, event->disconnect_in); break;
    case FAZGROND_RESTARTED:
        match_say(self,
                  self->wish->lasts ? "machine %" PRIu32 " was begun anew" : "machine %" PRIu32 " was begun anew, and can't come back",
                  machine);
        break;
    case FAZGROND_DISCONNECTED:
        if ((self->far >> (event->player - 1) & 1) != 0)
            match_say(self, "player %" PRIu32 " has left", event->player);
        self->far &= ~(1u << (event->player - 1));
        self->holding.is_forced = true; /* the peer has handed over all that waited */
        break;
    case FAZGROND_LEFT: match_leave(self, machine); break;
    case FAZGROND_DROPPED: drop(self); break;
    case FAZGROND_MISMATCH: match_fail(self, "another machine means another match"); break;
    case FAZGROND_DESYNC: part(self, machine, self->lasting.base + event->frame); break;
    default: break;
    }
}

static void send_all(match *self, uint32_t now) {
    uint8_t bytes[FAZGROND_DATAGRAM];
    size_t length;
    for (uint32_t at = 0; at < FAZGROND_MACHINES; at++) {
        if (fazgrond_peer_send(&self->peer, &self->session, (uint8_t)at, now, bytes, sizeof bytes, &length) == FAZGROND_OK)
            send_to(self, at, bytes, length);
        send_before(self, at, now);
    }
    send_more(self);
    for (uint32_t at = 0; at < self->open_lines; at++) {
        fazgrond_line_state seen;
        if (fazgrond_line_send(&self->lines[at], &self->session, now, bytes, sizeof bytes, &length) == FAZGROND_OK)
            net_send(self->meeting->net, &self->meeting->viewer[at].at, bytes, length);
        if (self->wish->lasts)
            self->rows_seen[at] = lasting_rows_seen(self, at, now);
        else if (fazgrond_line_look(&self->lines[at], now, &seen) == FAZGROND_OK)
            self->rows_seen[at] = seen.has_ended != 0 || seen.is_silent != 0 ? UINT32_MAX : seen.rows;
    }
}

static void say_bye(match *self) {
    uint8_t bytes[FAZGROND_DATAGRAM];
    uint8_t why = self->has_desync ? FAZGROND_BYE_DESYNC : self->has_failed ? FAZGROND_BYE_ERROR : FAZGROND_BYE_LEAVES;
    size_t length;
    for (uint32_t at = 0; at < FAZGROND_MACHINES; at++)
        for (int times = 0; times < BYES; times++)
            if (fazgrond_peer_bye(&self->peer, (uint8_t)at, why, bytes, sizeof bytes, &length) == FAZGROND_OK)
                send_to(self, at, bytes, length);
    send_more(self);
    for (uint32_t at = 0; at < self->open_lines; at++)
        for (int times = 0; times < BYES; times++)
            if (fazgrond_line_bye(&self->lines[at], bytes, sizeof bytes, &length) == FAZGROND_OK)
                net_send(self->meeting->net, &self->meeting->viewer[at].at, bytes, length);
    for (int times = 0; times < BYES; times++)
        lasting_bye(self);
    net_drain(self->meeting->net);
}

static void show(match *self) {
    enum { LINES = FAZGROND_MACHINES + 3, ROOM = TOLD };
    char text[LINES][ROOM];
    const char *lines[LINES + 2];
    int count = 0, asked = wish_ask(lines);
    for (uint32_t at = 0; at < FAZGROND_MACHINES; at++) {
        fazgrond_stats it;
        if (fazgrond_peer_stats(&self->peer, (uint8_t)at, &it) == FAZGROND_OK && it.is_measured != 0)
            snprintf(text[count++], ROOM, "machine %u: ping %u ms, ahead %d, lost %u", self->place_of[at], it.round_trip, -it.frames_behind,
                     it.lost);
    }
    snprintf(text[count++], ROOM, "frame %u, again %u, waits %u", self->frame, self->all_again, self->waits);
    if (self->wish->hold > 0)
        snprintf(text[count++], ROOM, "held back %u, shown %.1f turns later", self->holding.held, holding_later(&self->holding));
    if (self->told[0] != 0)
        snprintf(text[count++], ROOM, "%s", self->told);
    for (int at = 0; at < count; at++)
        lines[asked + at] = text[at];
    window_show(&self->main->core, self->main->is_fresh, self->jumps, lines, asked + count);
    self->main->is_fresh = false;
}

static void hear_events(match *self) {
    fazgrond_event event;
    while (fazgrond_peer_event(&self->peer, &event) == FAZGROND_OK)
        react(self, &event);
}

static void play_on(match *self) {
    if (self->meeting->has_parted)
        part(self, self->meeting->parted_with, self->meeting->parted_at);
    if (self->has_desync) {
        meeting_part(self->meeting, self->desync);
        self->is_over |= self->ending-- == 0;
    } else if (self->is_running && !self->has_failed)
        play(self);
}

/* A turn of a match that lasts. What is settled is asked before it is played, so that no row past the end of an epoch counts. */
static void play_lasting(match *self, uint32_t now) {
    hear_events(self);
    if (!self->lasting.is_coming && lasting_is_out(self))
        drop(self);
    if (self->lasting.is_coming)
        return;
    if (!self->is_running)
        lasting_wait(self, now);
    else if (!self->has_desync && !self->has_failed)
        lasting_turn(self, now);
    note_settled(self);
    casting_turn(self);
    play_on(self);
    hear_events(self);
}

static void take_part(match *self, uint32_t now) {
    uint32_t is_running = 0;
    if (!helpers_collect(&self->helpers, &self->session))
        match_fail(self, "a helper's core refuses to save or load a state");
    match_must(self, holding_turn(&self->holding));
    hear(self, now);
    open_lines(self);
    match_must(self, fazgrond_peer_poll(&self->peer, &self->session, now));
    match_must(self, fazgrond_peer_is_running(&self->peer, &is_running));
    self->is_running = is_running != 0;
    if (self->wish->lasts)
        play_lasting(self, now);
    else {
        play_on(self);
        note_settled(self);
        casting_turn(self);
        hear_events(self);
    }
    self->astray += self->wish->hold > 0 && !self->holding.is_forced ? self->again : 0;
    send_all(self, now);
}

static void turn(match *self) {
    uint32_t now = net_now(self->meeting->net);
    self->again = 0;
    self->jumps = false;
    if (self->lasting.is_coming) {
        hear(self, now);
        lasting_come(self, now);
    } else
        take_part(self, now);
    if (self->wish->lasts)
        lasting_tell(self, now);
    else
        self->meeting->is_closed = self->is_running && !self->has_desync;
    look_at_missing(self, now);
    tell_seconds(self, now);
    if (!self->wish->is_headless)
        show(self);
}

/* Whether the last frame is settled, the others have all words of this machine, and viewers have all rows. */
static bool is_done(match *self) {
    if (self->wish->frames == 0 || self->settled < self->wish->frames)
        return false;
    for (uint32_t at = 0; at < FAZGROND_MACHINES; at++) {
        fazgrond_stats it;
        if (fazgrond_peer_stats(&self->peer, (uint8_t)at, &it) == FAZGROND_OK && it.words_queued > 0)
            return false;
    }
    for (uint32_t at = 0; at < self->open_lines; at++)
        if (self->rows_seen[at] < self->wish->frames)
            return false;
    return true;
}

/* The end: figures. */

static void tell(const match *self) {
    const figures *it = &self->figures;
    fprintf(stderr, "played %u frames, and %u again, %u at most in a turn; waited %u turns; %" PRIu64 " bytes sent\n", self->frame,
            self->all_again, self->deepest, self->waits, self->meeting->net->sent_bytes);
    fprintf(stderr,
            "a turn took %.2f ms of a processor at most in 99 of 100, %.2f in 999 of 1000, %.2f once; by the clock %.2f, %.2f, "
            "%.2f, and %u of %u turns over %.1f\n",
            spread_at(&it->processor, 990) / 1e3, spread_at(&it->processor, 999) / 1e3, it->processor.worst / 1e3,
            spread_at(&it->clock, 990) / 1e3, spread_at(&it->clock, 999) / 1e3, it->clock.worst / 1e3, it->slow, it->clock.count,
            FIGURES_SLOW / 1e3);
    if (self->wish->hold > 0)
        fprintf(stderr, "held back %u corrections: shown %.2f turns later, %u of them by two at most; %u before a helper was done\n",
                self->holding.held, holding_later(&self->holding), holding_soon(&self->holding), self->holding.forced);
    if (self->wish->helpers > (self->wish->hold > 0))
        fprintf(stderr, "guessed %" PRIu32 " jobs: %" PRIu32 " were taken, with %" PRIu32 " states\n", self->helpers.made,
                self->helpers.grafted, self->helpers.added);
}

/* The same as a file. */
static bool write_figures(const match *self) {
    const holding *it = &self->holding;
    FILE *file = self->wish->figures != NULL ? fopen(self->wish->figures, "w") : NULL;
    if (self->wish->figures == NULL)
        return true;
    if (file == NULL)
        return fprintf(stderr, "%s can't be written\n", self->wish->figures), false;
    figures_write(&self->figures, file);
    fprintf(file, "frames %u\nagain %u\ndeepest %u\nwaits %u\nunseen %u\nbytes %" PRIu64 "\n", self->frame, self->all_again, self->deepest,
            self->waits, self->unseen, self->meeting->net->sent_bytes);
    fprintf(file, "held %u\nlater %.2f\nsoon %u\nforced %u\nastray %u\nstood %u\n", it->held, holding_later(it), holding_soon(it),
            it->forced, self->astray, self->stood);
    return fclose(file) == 0;
}

/* Until the next turn. A helper that is done by then may be given what the game has played since. */
static void rest(match *self, int64_t micros) {
    int64_t end = clock_micros() + micros, left = micros;
    do {
        bool is_run = holding_is_run(&self->holding);
        net_rest(self->meeting->net, is_run && left > SLICE ? SLICE : left);
        if (is_run && !holding_go_on(&self->holding, self->frame))
            match_fail(self, "a helper's core refuses to save or load a state");
        left = end - clock_micros();
    } while (left > 0);
}

/* Nothing waits any more, and what has come is played. */
static void finish(match *self) {
    fazgrond_row row;
    if (self->has_failed || self->holding.waiting == 0)
        return;
    match_must(self, holding_give_all(&self->holding));
    match_must(self, fazgrond_synchronize_input(&self->session, &row));
    match_obey(self);
    note_settled(self);
}

outcome match_play(match *self) {
    int64_t due = clock_micros(), length = (int64_t)(1e6 / self->main->core.av.timing.fps / self->meeting->net->speed);
    if (!open_match(self))
        return FAILED;
    while (!self->is_over && wish_goes_on(self->wish) && !is_done(self)) {
        int64_t begun = clock_micros(), processor = figures_processor();
        turn(self);
        int64_t now = clock_micros();
        due = now > due + MOST_LATE * length ? now : due + length;
        rest(self, due - now);
        if (self->is_running && !has_all(self))
            figures_note(&self->figures, figures_processor() - processor, now - begun);
    }
    finish(self);
    say_bye(self);
    helpers_end(&self->helpers);
    tell(self);
    bool is_written = replay_write_all(self), goes_on = !self->has_failed && !self->has_desync;
    is_written = write_figures(self) && is_written;
    is_written = casting_close(goes_on ? "the match was closed" : "the match can't go on") && is_written;
    return self->has_desync ? DESYNCED : self->lasting.is_lost ? UNHEARD : self->has_failed || !is_written ? FAILED : ENDED;
}

bool match_row(match *self, uint32_t frame, fazgrond_row *row) {
    if (!self->wish->lasts)
        return fazgrond_settled_row(&self->session, frame, row) == FAZGROND_OK;
    const fazgrond_row *kept = frame < self->settled ? trail_row(&self->lasting.trail, frame) : NULL;
    if (kept != NULL)
        *row = *kept;
    return kept != NULL;
}

bool match_go_back(match *self) {
    uint32_t to = self->desync > SURELY ? (self->desync - SURELY) / 60 * 60 : 0;
    int from = 0;
    while (from < MARKS && (self->marks[from].state.at == NULL || self->marks[from].frame > to))
        from++;
    if (from == MARKS || !core_load(&self->main->core, &self->marks[from].state)) {
        fputs("there is no state to go back to\n", stderr);
        return false;
    }
    for (uint32_t frame = self->marks[from].frame; frame < to; frame++) {
        fazgrond_row row;
        if (!match_row(self, frame, &row))
            return false;
        core_step(&self->main->core, row.words, row.count);
        if (!core_save(&self->main->core, &self->opening) || (self->states->reloads && !core_load(&self->main->core, &self->opening)))
            return false;
    }
    self->facts->opening = core_digest(&self->main->core);
    fprintf(stderr, "a new match begins from frame %" PRIu32 "\n", to);
    return to > self->marks[from].frame || state_copy(&self->opening, &self->marks[from].state);
}

void match_close(match *self) {
    lasting_close(self);
    fazgrond_peer_close(&self->peer);
    fazgrond_close(&self->session);
    for (uint32_t at = 0; at < self->open_lines; at++)
        fazgrond_line_close(&self->lines[at]);
    for (int at = 0; at < MARKS; at++)
        free(self->marks[at].state.at);
    match kept = { .wish = self->wish,
                   .from = self->from,
                   .meeting = self->meeting,
                   .main = self->main,
                   .states = self->states,
                   .facts = self->facts,
                   .opening = self->opening };
    *self = kept;
}
