/* A machine of a match, at which others come in. */
#include "faz_rejoin.h"

#include <string.h>

enum {
    HOST = 0,            /* as which machine a host names itself: each line has a number of its own */
    PIECES = 8,          /* that are answered of an ask */
    CAUGHT_UP = 30,      /* so many rows may be missing of who is proposed */
    LONG = 300,          /* an epoch with so many rows is ended for who begins to follow it */
    TOLD_AT_ONCE = 4,    /* so often, as an epoch has ended, its last rows are told: a machine that is alone forgets it in the next turn */
    WAITED_FOR = 1000,   /* milliseconds after a seam in which nobody is proposed before who watches has come over it */
    HEARD_WITHIN = 2000, /* milliseconds in which who has come in has to be heard .. */
    STOOD = 100          /* .. of which a turn counts so many at most: while this machine stands still it hears nobody */
};

static bool is_machine(uint32_t owner) { return owner < FAZGROND_MACHINES; }

static bool owns(const fazgrond_epoch *epoch, uint32_t machine) {
    for (int player = 0; player < FAZGROND_PLAYERS; player++)
        if (epoch->owners[player] == machine)
            return true;
    return false;
}

/* Which machines weren't in the epoch before. Of the one with which the match was opened here nobody came. */
static uint32_t who_came(const faz_hosting *self, const fazgrond_epoch *epoch) {
    uint32_t came = 0, has_stayed;
    for (uint32_t machine = 0; machine < FAZGROND_MACHINES && self->has_begun; machine++)
        if (owns(epoch, machine) && fazgrond_peer_has_stayed(self->peer, (uint8_t)machine, &has_stayed) == FAZGROND_OK && has_stayed == 0)
            came |= 1u << machine;
    return came;
}

int32_t faz_hosting_begin(faz_hosting *self, const uint8_t *state, size_t length) {
    uint8_t table[FAZ_TABLE_BYTES];
    fazgrond_epoch epoch;
    int32_t code = fazgrond_peer_epoch(self->peer, &epoch);
    if (code != FAZGROND_OK)
        return code;
    fazgrond_giver_close(&self->about);
    fazgrond_giver_close(&self->state);
    fazgrond_giver_close(&self->ready);
    self->table = (faz_table){ .epoch = epoch, .came = who_came(self, &epoch) };
    if (length > 0) {
        code = fazgrond_giver_open(&self->state, epoch.id, 0, state, length);
        if (code == FAZGROND_OK)
            code = fazgrond_giver_name(&self->state, &self->table.state);
    }
    faz_table_write(&self->table, table);
    int32_t told = fazgrond_giver_open(&self->about, FAZ_TABLE_STATE, 0, table, sizeof table);
    if (told == FAZGROND_OK)
        told = fazgrond_giver_open(&self->ready, FAZ_READY_STATE, (uint32_t)epoch.id, table, 1);
    for (int at = 0; at < FAZ_SEATS; at++) {
        faz_seat *seat = &self->seat[at];
        fazgrond_line_close(&seat->before);
        seat->before = seat->line;
        seat->line = (fazgrond_line)FAZGROND_CLOSED;
        seat->is_heard = seat->is_late = seat->is_ready = false;
    }
    self->is_marked = self->is_counted = self->is_told = false;
    self->has_begun = true;
    return code != FAZGROND_OK ? code : told;
}

/* Answers an ask for pieces of the table, or of the state. One for another state says that who comes is ready, which isn't answered. */
static void answer_ask(faz_hosting *self, uint32_t to, const uint8_t *bytes, size_t length) {
    uint8_t piece[FAZGROND_DATAGRAM];
    size_t size;
    if (fazgrond_giver_reply(&self->ready, self->seat[to].number, HOST, bytes, length, 0, piece, sizeof piece, &size) == FAZGROND_OK) {
        self->seat[to].is_ready = true;
        return;
    }
    for (size_t place = 0; place < PIECES; place++) {
        int32_t code = fazgrond_giver_reply(&self->about, self->seat[to].number, HOST, bytes, length, place, piece, sizeof piece, &size);
        if (code == FAZGROND_OTHER_STATE)
            code = fazgrond_giver_reply(&self->state, self->seat[to].number, HOST, bytes, length, place, piece, sizeof piece, &size);
        if (code != FAZGROND_OK)
            return;
        self->send(self->of, to, piece, size);
    }
}

/* Whether both ends of a line have heard each other, and nobody has said bye. */
static bool is_followed(fazgrond_line *line, uint32_t now) {
    fazgrond_line_state state = { 0 };
    return fazgrond_line_look(line, now, &state) == FAZGROND_OK && state.is_playing != 0 && state.has_ended == 0;
}

static void send_on_line(faz_hosting *self, uint32_t to, uint32_t now) {
    uint8_t bytes[FAZGROND_DATAGRAM];
    size_t length;
    if (fazgrond_line_send(&self->seat[to].line, self->session, now, bytes, sizeof bytes, &length) == FAZGROND_OK)
        self->send(self->of, to, bytes, length);
}

/* A line is opened by what its other end has sent, and anew if that is silent. Until it is followed each datagram has one answer: so
 * what is nobody's opens none, and what was recorded keeps none going. */
static void hear_of_line(faz_hosting *self, uint32_t to, const uint8_t *bytes, size_t length, uint32_t now) {
    faz_seat *seat = &self->seat[to];
    fazgrond_line_state state = { 0 };
    if (fazgrond_line_receive(&seat->before, bytes, length, now) == FAZGROND_OK)
        return;
    if (fazgrond_line_look(&seat->line, now, &state) == FAZGROND_OK && (state.is_silent != 0 || state.has_ended != 0))
        fazgrond_line_close(&seat->line);
    bool is_new = fazgrond_line_look(&seat->line, now, &state) == FAZGROND_IS_CLOSED;
    if (is_new) {
        fazgrond_line_settings settings = faz_line_in(&self->table.epoch, seat->number, self->digest, faz_draw(&self->random));
        seat->is_heard = seat->is_late = false;
        (void)fazgrond_line_open(&seat->line, &settings);
    }
    bool is_taken = fazgrond_line_receive(&seat->line, bytes, length, now) == FAZGROND_OK;
    if (is_taken && !is_followed(&seat->line, now))
        send_on_line(self, to, now);
    else if (!is_taken && is_new)
        fazgrond_line_close(&seat->line);
}

void faz_hosting_hear(faz_hosting *self, uint32_t to, const uint8_t *bytes, size_t length, uint32_t now) {
    uint8_t machine;
    if (to >= FAZ_SEATS || !self->seat[to].is_taken || !self->has_begun)
        return;
    bool is_ask = fazgrond_state_sender(bytes, length, &machine) == FAZGROND_OK;
    if (is_ask && self->is_counted) /* else the match doesn't run here yet, and nobody could come into it */
        answer_ask(self, to, bytes, length);
    else if (!is_ask)
        hear_of_line(self, to, bytes, length, now);
}

/* Whose players a seat's are in this epoch, if they are of another machine that is there. They are of one that is gone if whoever sat
 * there was begun anew. */
static uint32_t owner_of(const faz_hosting *self, const faz_seat *seat) {
    for (int player = 0; player < FAZGROND_PLAYERS; player++)
        if ((seat->players >> player & 1) != 0 && is_machine(self->table.epoch.owners[player]))
            return self->table.epoch.owners[player];
    return FAZGROND_NO_MACHINE;
}

/* Whether all of a seat's players are nobody's, or have left, so far as rows are settled. */
static bool is_free(const faz_hosting *self, const faz_seat *seat, uint32_t settled) {
    fazgrond_row row;
    uint32_t owned = 0;
    for (int player = 0; player < FAZGROND_PLAYERS; player++)
        owned |= is_machine(self->table.epoch.owners[player]) ? 1u << player : 0;
    if ((seat->players & owned) == 0)
        return true;
    return settled > 0 && fazgrond_settled_row(self->session, settled - 1, &row) == FAZGROND_OK && (seat->players & owned & ~row.gone) == 0;
}

/* The first of this machine's players, counted from 1; 0 if it has none. */
static uint8_t own_player(const faz_hosting *self) {
    for (uint32_t player = 0; player < FAZGROND_PLAYERS; player += self->table.epoch.words)
        if (self->table.epoch.owners[player] == self->me)
            return (uint8_t)(player + 1);
    return 0;
}

static void mark(faz_hosting *self, const faz_seat *seat) {
    fazgrond_mark made = fazgrond_mark_for();
    for (int player = 0; player < FAZGROND_PLAYERS && seat != NULL; player++)
        made.comes[player] = seat->players >> player & 1;
    made.ticket = seat != NULL ? seat->ticket : 0;
    int32_t code = fazgrond_peer_mark(self->peer, self->session, own_player(self), &made);
    self->is_marked = code == FAZGROND_OK || code == FAZGROND_MARKED;
}

/* Whether somebody who watches hasn't come over the last seam yet: if another one came now, it might miss frames. */
static bool is_watched_before(faz_hosting *self, uint32_t now) {
    fazgrond_line_state state = { 0 };
    for (int at = 0; at < FAZ_SEATS && now - self->begun_at < WAITED_FOR; at++) {
        faz_seat *seat = &self->seat[at];
        if (seat->is_taken && seat->players == 0 && !seat->is_heard && fazgrond_line_look(&seat->before, now, &state) == FAZGROND_OK
            && state.is_playing != 0 && state.is_silent == 0 && state.has_ended == 0)
            return true;
    }
    return false;
}

/* Whoever follows this machine is proposed, or what it needs is done first. */
static void propose(faz_hosting *self, faz_seat *seat, uint32_t now) {
    fazgrond_line_state state = { 0 };
    uint32_t settled = 0, owner = owner_of(self, seat);
    if (fazgrond_line_look(&seat->line, now, &state) != FAZGROND_OK || state.is_playing == 0 || state.is_silent != 0
        || fazgrond_settled(self->session, &settled) != FAZGROND_OK)
        return;
    seat->is_late |= !seat->is_heard && settled > LONG;
    seat->is_heard = true;
    bool is_out = is_free(self, seat, settled);
    if (!is_out && owner != self->me)
        (void)fazgrond_peer_disconnect(self->peer, (uint8_t)owner);
    if (self->is_marked || is_watched_before(self, now))
        return;
    if (seat->is_late)
        mark(self, NULL);
    else if (seat->players != 0 && is_out && seat->is_ready && state.rows + CAUGHT_UP >= settled)
        mark(self, seat);
}

/* Sends what is to be sent on a line of this epoch, or of the one before. */
static void tell(faz_hosting *self, uint32_t to, uint32_t now) {
    uint8_t bytes[FAZGROND_DATAGRAM];
    fazgrond_line_state state = { 0 };
    size_t length;
    faz_seat *seat = &self->seat[to];
    int times = self->is_told ? 1 : TOLD_AT_ONCE;
    while (times-- > 0 && fazgrond_line_send_before(&seat->before, self->peer, now, bytes, sizeof bytes, &length) == FAZGROND_OK)
        self->send(self->of, to, bytes, length);
    if (is_followed(&seat->line, now))
        send_on_line(self, to, now);
    if (fazgrond_line_look(&seat->before, now, &state) == FAZGROND_OK && (state.is_silent != 0 || state.has_ended != 0))
        fazgrond_line_close(&seat->before);
    if (fazgrond_line_look(&seat->line, now, &state) == FAZGROND_OK && state.is_silent != 0)
        fazgrond_line_close(&seat->line);
}

/* Who has come in, and isn't heard for long, is gone again. */
static void watch_who_came(faz_hosting *self, uint32_t now) {
    fazgrond_stats stats;
    if (!self->is_counted) {
        self->is_counted = true;
        self->begun_at = self->turned_at = now;
        self->waited = 0;
    }
    self->waited += now - self->turned_at < STOOD ? now - self->turned_at : STOOD;
    self->turned_at = now;
    if (self->table.came == 0 || self->waited < HEARD_WITHIN)
        return;
    for (uint32_t machine = 0; machine < FAZGROND_MACHINES; machine++)
        if ((self->table.came >> machine & 1) != 0 && machine != self->me
            && fazgrond_peer_stats(self->peer, (uint8_t)machine, &stats) == FAZGROND_OK && stats.received == 0)
            (void)fazgrond_peer_disconnect(self->peer, (uint8_t)machine);
    self->table.came = 0;
}

void faz_hosting_turn(faz_hosting *self, uint32_t now) {
    if (!self->has_begun)
        return;
    watch_who_came(self, now);
    for (uint32_t at = 0; at < FAZ_SEATS; at++)
        if (self->seat[at].is_taken) {
            propose(self, &self->seat[at], now);
            tell(self, at, now);
        }
    self->is_told = true;
}

void faz_hosting_bye(faz_hosting *self) {
    uint8_t bytes[FAZGROND_DATAGRAM];
    size_t length;
    for (uint32_t at = 0; at < FAZ_SEATS; at++)
        if (fazgrond_line_bye(&self->seat[at].line, bytes, sizeof bytes, &length) == FAZGROND_OK)
            self->send(self->of, at, bytes, length);
}

void faz_hosting_close(faz_hosting *self) {
    for (int at = 0; at < FAZ_SEATS; at++) {
        fazgrond_line_close(&self->seat[at].line);
        fazgrond_line_close(&self->seat[at].before);
    }
    fazgrond_giver_close(&self->about);
    fazgrond_giver_close(&self->state);
    fazgrond_giver_close(&self->ready);
    self->has_begun = false;
}
