/* A fuzzer of both ends of a viewer's line: two peers play, machine 0 is the host, and host and viewer hear what the other sends
 * late, twice, changed, or made up. Half of what is changed or made up is sealed as what its sender sends, so that it is read. The
 * input says all that happens.
 *
 * What is refused must have changed nothing. What the viewer has never grows less, and a host believes no more than it told. If
 * the viewer took nothing made up, its rows are the host's settled rows. */
#include "game.h"
#include "../../lib/sha256.h"

enum { HELD = 16, NUMBER = 0x7654321, SENDER = 12, KIND = 13, VIEWER = 255, WAITING = 64, DIGEST = 7, MOST_PLAYERS = 3 };

typedef struct packet {
    uint8_t bytes[FAZGROND_DATAGRAM];
    size_t length;
} packet;

/* The two ends, and what is on the way to each; with the sessions and peers of the match that is watched. */
typedef struct scene {
    fazgrond_session sessions[2];
    fazgrond_peer peers[2];
    fazgrond_line line;
    fazgrond_viewer viewer;
    uint64_t host_draw, viewer_draw;
    uint32_t players, now, how;
    packet to_host[HELD], to_viewer[HELD];
    uint32_t played, had; /* rows that were taken from the viewer; that the host's end believed */
    bool is_forged;
} scene;

static uint32_t owner_of(const scene *self, uint32_t player) { return player < self->players ? player % 2 : FAZGROND_NO_PLAYER; }

static void open_peer(scene *self, uint32_t me) {
    fazgrond_settings settings = fazgrond_settings_for(self->players);
    fazgrond_match made = fazgrond_match_for(2, me);
    made.draw = 5 + me;
    made.digest = DIGEST;
    fazgrond_one_number(&made, 1);
    for (uint32_t player = 0; player < FAZGROND_PLAYERS; player++) {
        made.owners[player] = owner_of(self, player);
        settings.local |= made.owners[player] == me ? 1u << player : 0;
    }
    MUST(fazgrond_open(&self->sessions[me], &settings) == FAZGROND_OK);
    MUST(fazgrond_peer_open(&self->peers[me], &self->sessions[me], &made) == FAZGROND_OK);
}

static fazgrond_line_settings settings_of(scene *self, uint64_t draw) {
    fazgrond_line_settings made = { .number = NUMBER, .draw = draw, .digest = DIGEST, .machines = 2 };
    made.silent_after = self->how & 4 ? 5000 : 0;
    for (uint32_t player = 0; player < FAZGROND_PLAYERS; player++)
        made.owners[player] = owner_of(self, player);
    return made;
}

static void open_line(scene *self) {
    fazgrond_line_settings made = settings_of(self, ++self->host_draw);
    MUST(fazgrond_line_open(&self->line, &made) == FAZGROND_OK);
    self->had = 0;
}

static void open_viewer(scene *self) {
    fazgrond_line_settings made = settings_of(self, ++self->viewer_draw);
    MUST(fazgrond_viewer_open(&self->viewer, &made) == FAZGROND_OK);
    self->played = 0;
    self->is_forged = false;
}

static void open_all(scene *self, input *in) {
    memset(self, 0, sizeof *self);
    self->how = take_byte(in);
    self->players = 1 + self->how % MOST_PLAYERS;
    self->players = self->players < 2 ? 2 : self->players;
    self->now = self->how & 8 ? UINT32_MAX - 500 : 1;
    self->viewer_draw = 0x100;
    open_peer(self, 0);
    open_peer(self, 1);
    open_line(self);
    open_viewer(self);
}

/* ---- The match: words go to and fro at once, and no game is behind it. */

static void pass(scene *self, uint32_t from) {
    packet made;
    uint32_t to = 1 - from;
    if (fazgrond_peer_send(&self->peers[from], &self->sessions[from], (uint8_t)to, self->now, made.bytes, sizeof made.bytes, &made.length)
        == FAZGROND_OK)
        (void)fazgrond_peer_receive(&self->peers[to], &self->sessions[to], made.bytes, made.length, self->now);
}

static void play(scene *self, uint32_t me, input *in) {
    fazgrond_session *session = &self->sessions[me];
    fazgrond_reached reached;
    fazgrond_request requests[8];
    uint32_t is_running = 0;
    MUST(fazgrond_peer_poll(&self->peers[me], session, self->now) == FAZGROND_OK);
    MUST(fazgrond_peer_is_running(&self->peers[me], &is_running) == FAZGROND_OK);
    if (is_running == 0)
        return;
    for (uint8_t player = 1; player <= self->players; player++)
        if (owner_of(self, player - 1u) == me)
            fazgrond_add_local_input(session, player, take_some(in, 4));
    fazgrond_advance_frame(session, &reached);
    while (fazgrond_take_requests(session, requests, 8) > 0)
        ;
}

static void turn(scene *self, input *in) {
    self->now += 16;
    for (uint32_t me = 0; me < 2; me++) {
        play(self, me, in);
        pass(self, me);
    }
}

/* ---- The line. */

typedef struct looks {
    fazgrond_line_state host, viewer;
} looks;

static looks look(scene *self) {
    looks seen;
    MUST(fazgrond_line_look(&self->line, self->now, &seen.host) == FAZGROND_OK);
    MUST(fazgrond_viewer_look(&self->viewer, self->now, &seen.viewer) == FAZGROND_OK);
    MUST(seen.host.rows <= seen.host.settled && seen.host.rows >= self->had);
    MUST(seen.viewer.rows >= self->played && seen.viewer.rows - self->played <= WAITING);
    self->had = seen.host.rows;
    return seen;
}

static bool is_code(int32_t code) { return code == FAZGROND_OK || (code >= FAZGROND_NOT_SEALED && code <= FAZGROND_OUTSIDE); }

/* An end hears a packet, in memory of just its length. */
static void hear(scene *self, bool is_viewer, const packet *come, bool is_forged) {
    uint8_t *bytes = malloc(come->length > 0 ? come->length : 1);
    uint32_t rows = 0;
    if (bytes == NULL)
        return;
    memcpy(bytes, come->bytes, come->length);
    looks before = look(self);
    int32_t code = is_viewer ? fazgrond_viewer_receive(&self->viewer, bytes, come->length, self->now, &rows)
                             : fazgrond_line_receive(&self->line, bytes, come->length, self->now);
    looks after = look(self);
    free(bytes);
    MUST(is_code(code));
    MUST(after.viewer.rows - before.viewer.rows == rows);
    if (code == FAZGROND_OK)
        self->is_forged |= is_forged;
    else if (code != FAZGROND_MISMATCHED)
        MUST(memcmp(&before, &after, sizeof before) == 0);
}

static bool make_packet(scene *self, bool is_viewer, packet *made) {
    int32_t code = is_viewer
        ? fazgrond_viewer_send(&self->viewer, self->now, made->bytes, sizeof made->bytes, &made->length)
        : fazgrond_line_send(&self->line, &self->sessions[0], self->now, made->bytes, sizeof made->bytes, &made->length);
    MUST(code == FAZGROND_OK || code == FAZGROND_NOTHING);
    return code == FAZGROND_OK;
}

static void seal_for(scene *self, packet *made, bool is_viewer) {
    bool is_hello = made->length > KIND && made->bytes[KIND] == 0;
    seal_key key = { NUMBER, is_viewer ? self->viewer_draw : self->host_draw, is_viewer ? self->host_draw : self->viewer_draw };
    if (made->length >= 12)
        seal(made->bytes, made->length, is_hello ? (seal_key){ NUMBER, 0, 0 } : key);
}

/* Some bytes of a packet are others. */
static void change(input *in, packet *made) {
    for (uint32_t count = 1 + take_byte(in) % 4; count > 0 && made->length > 0; count--) {
        uint32_t place = take_byte(in);
        made->bytes[(made->length > 256 ? place * 5 : place) % made->length] = (uint8_t)take_byte(in);
    }
    if (take_byte(in) % 8 == 0)
        made->length = made->length * take_byte(in) / 255;
}

static void make_up(input *in, packet *made, bool is_viewer) {
    made->length = take_byte(in) % 8 == 0 ? (take_byte(in) * 5) % sizeof made->bytes : take_byte(in) % 64;
    memset(made->bytes, 0, sizeof made->bytes);
    for (size_t at = 0; at < made->length; at++)
        made->bytes[at] = (uint8_t)take_byte(in);
    memcpy(made->bytes, "FZG4", 4);
    made->bytes[SENDER] = is_viewer ? VIEWER : 0;
    made->bytes[KIND] %= made->bytes[KIND] < 240 ? 3 : 9;
}

/* Takes rows that wait. They are the host's, if nothing made up was taken. */
static void take_rows(scene *self, uint32_t most) {
    fazgrond_row row, wanted;
    for (; most > 0 && fazgrond_viewer_row(&self->viewer, &row) == FAZGROND_OK; most--, self->played++) {
        MUST(row.count == self->players);
        state_after(0, &row);
        if (self->is_forged)
            continue;
        MUST(fazgrond_settled_row(&self->sessions[0], self->played, &wanted) == FAZGROND_OK);
        MUST(row.gone == wanted.gone && memcmp(row.words, wanted.words, sizeof row.words) == 0);
    }
}

static void bye(scene *self, bool is_viewer) {
    packet made;
    int32_t code = is_viewer ? fazgrond_viewer_bye(&self->viewer, made.bytes, sizeof made.bytes, &made.length)
                             : fazgrond_line_bye(&self->line, made.bytes, sizeof made.bytes, &made.length);
    if (code == FAZGROND_OK)
        hear(self, !is_viewer, &made, false);
}

/* Something rare: an end leaves or is opened anew, a player leaves, the clock jumps. */
static void rare_thing(scene *self, uint32_t what, input *in) {
    switch (what) {
    case 0: bye(self, true); break;
    case 1: bye(self, false); break;
    case 2: open_line(self); break;
    case 3: open_viewer(self); break;
    case 4: fazgrond_peer_disconnect(&self->peers[0], 1); break;
    case 5: self->now += 6000; break;
    case 6: self->now = take_number(in); break;
    default: break;
    }
}

static void one_thing(scene *self, input *in) {
    uint32_t what = take_byte(in), which = take_byte(in);
    bool is_viewer = (what & 16) != 0;
    packet *held = is_viewer ? &self->to_host[which % HELD] : &self->to_viewer[which % HELD];
    packet made;
    switch (what % 16) {
    case 0:
    case 1:
    case 2: turn(self, in); break;
    case 3:
    case 4:
    case 5: /* what an end sends comes at once */
        if (make_packet(self, is_viewer, &made))
            hear(self, !is_viewer, &made, false);
        break;
    case 6:
    case 7: make_packet(self, is_viewer, held); break;
    case 8:
    case 9: hear(self, !is_viewer, held, false); break;
    case 10:
    case 11: /* a packet is changed, or made up, and half the time sealed */
        if (what % 16 == 11)
            make_up(in, &made, is_viewer);
        else if (make_packet(self, is_viewer, &made))
            change(in, &made);
        else
            break;
        if (what & 32)
            seal_for(self, &made, is_viewer);
        hear(self, !is_viewer, &made, true);
        break;
    case 12:
    case 13: take_rows(self, which); break;
    case 14: look(self); break;
    default:
        if (what & 32)
            rare_thing(self, which % 64, in);
    }
}

int LLVMFuzzerTestOneInput(const uint8_t *data, size_t size) {
    static scene self;
    input in = { data, size };
    packet made;
    open_all(&self, &in);
    for (int turns = 0; turns < 5; turns++) {
        turn(&self, &in);
        for (int who = 0; who < 2; who++)
            if (make_packet(&self, who == 0, &made))
                hear(&self, who != 0, &made, false);
    }
    while (in.left > 0)
        one_thing(&self, &in);
    take_rows(&self, UINT32_MAX);
    for (int me = 0; me < 2; me++) {
        fazgrond_peer_close(&self.peers[me]);
        fazgrond_close(&self.sessions[me]);
    }
    fazgrond_line_close(&self.line);
    fazgrond_viewer_close(&self.viewer);
    return 0;
}
