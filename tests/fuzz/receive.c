/* A fuzzer of fazgrond_peer_receive: two or three peers play, and hear packets of each other that are late, twice there,
 * changed, or made up. Half of what is changed or made up is sealed as what its sender sends, so that it is read. Now and then a
 * machine is opened anew, the clock jumps, or a line breaks, and in half of the matches machines carry for each other. The input says
 * all that happens.
 *
 * What is refused must have changed nothing. Requests must be such that a game can carry them out, and the settled state must
 * be that of the settled rows. Where nothing came, nothing is rolled back. If nothing made up was taken and nobody has left, all
 * must have settled the same rows. */
#include "game.h"
#include "../../lib/sha256.h"

enum { PEERS = 3, PLAYERS = 4, HELD = 16, NUMBER = 0x1234567, SENDER = 12, KIND = 13 };

typedef struct packet {
    uint8_t bytes[FAZGROND_DATAGRAM];
    size_t length;
} packet;

typedef struct machine {
    fazgrond_session session;
    fazgrond_peer peer;
    uint64_t draw;
    game game;
    uint64_t settled_state; /* of the first rows, which were looked at */
    uint32_t settled_rows;
} machine;

typedef struct match {
    machine machine[PEERS];
    uint32_t machines, players, now, how;
    packet held[HELD];
    bool is_forged, carries, is_broken; /* the line between machines 0 and 1 is */
} match;

/* Opens a machine, or opens it anew. */
static void open_machine(match *self, uint32_t me) {
    machine *at = &self->machine[me];
    uint32_t how = self->how;
    fazgrond_settings settings = fazgrond_settings_for(self->players);
    fazgrond_match made = fazgrond_match_for(self->machines, me);
    made.draw = at->draw + 0x100 + me;
    made.digest = 7;
    fazgrond_one_number(&made, NUMBER);
    for (uint32_t player = 0; player < self->players; player++) {
        made.owners[player] = player % self->machines;
        settings.masks[player] = how & 8 ? 0xff : UINT32_MAX;
        if (made.owners[player] == me) {
            settings.local |= 1u << player;
            settings.delays[player] = how >> 4 & 3;
        }
    }
    made.silent_after = how & 64 ? 5000 : 0;
    made.notify_after = how & 64 ? 750 : 0;
    made.stalled_after = how & 128 ? 3000 : 0;
    MUST(fazgrond_open(&at->session, &settings) == FAZGROND_OK);
    MUST((self->carries ? fazgrond_peer_open_carrying : fazgrond_peer_open)(&at->peer, &at->session, &made) == FAZGROND_OK);
    begin_game(&at->game);
    at->draw = made.draw;
    at->settled_rows = 0;
    at->settled_state = 0;
}

static void open_match(match *self, input *in) {
    memset(self, 0, sizeof *self);
    self->how = take_byte(in);
    self->carries = take_byte(in) % 2 == 0;
    self->machines = 2 + (self->how & 1);
    self->players = self->how & 2 ? PLAYERS : self->machines;
    self->now = self->how & 4 ? UINT32_MAX - 500 : 1;
    for (uint32_t me = 0; me < self->machines; me++)
        open_machine(self, me);
}

/* Carries out what a call asked for, and looks at the settled state. */
static void carry_out_all(machine *self) {
    fazgrond_request requests[8];
    size_t count;
    uint32_t frame, slot, rows;
    while ((count = fazgrond_take_requests(&self->session, requests, 8)) > 0)
        for (size_t at = 0; at < count; at++)
            carry_out(&self->game, &requests[at]);
    MUST(fazgrond_settled_slot(&self->session, &frame, &slot) == FAZGROND_OK);
    MUST(fazgrond_settled(&self->session, &rows) == FAZGROND_OK && rows == frame && rows >= self->settled_rows);
    for (; self->settled_rows < rows; self->settled_rows++) {
        fazgrond_row row;
        MUST(fazgrond_settled_row(&self->session, self->settled_rows, &row) == FAZGROND_OK);
        self->settled_state = state_after(self->settled_state, &row);
    }
    MUST(slot < GAME_SLOTS && self->game.is_taken[slot] && self->game.slots[slot] == self->settled_state);
    MUST(fazgrond_peer_note_settled(&self->peer, &self->session, self->settled_state) == FAZGROND_OK);
}

typedef struct looks {
    uint32_t frame, settled, confirmed[PLAYERS];
    size_t entries;
} looks;

static looks look_at(match *self, machine *at) {
    looks seen;
    memset(&seen, 0, sizeof seen);
    fazgrond_frame(&at->session, &seen.frame);
    fazgrond_settled(&at->session, &seen.settled);
    fazgrond_log_length(&at->session, &seen.entries);
    for (uint8_t player = 1; player <= self->players; player++)
        fazgrond_confirmed(&at->session, player, &seen.confirmed[player - 1]);
    return seen;
}

/* Has a machine hear a packet, in memory of just its length. */
static void hear(match *self, uint32_t who, const packet *come, bool is_forged) {
    machine *to = &self->machine[who % self->machines];
    uint8_t *bytes = malloc(come->length > 0 ? come->length : 1);
    if (bytes == NULL)
        return;
    memcpy(bytes, come->bytes, come->length);
    looks before = look_at(self, to);
    int32_t code = fazgrond_peer_receive(&to->peer, &to->session, bytes, come->length, self->now);
    looks after = look_at(self, to);
    free(bytes);
    if (code == FAZGROND_OK) {
        self->is_forged |= is_forged;
        return;
    }
    MUST(code == FAZGROND_OUTSIDE || (code >= FAZGROND_NOT_SEALED && code <= FAZGROND_OVERSTATED));
    MUST(code != FAZGROND_MISMATCHED);
    MUST(memcmp(&before, &after, sizeof before) == 0);
}

static bool make_packet(match *self, uint32_t from, uint32_t to, packet *made) {
    machine *sender = &self->machine[from % self->machines];
    int32_t code = fazgrond_peer_send(&sender->peer, &sender->session, (uint8_t)(to % self->machines), self->now, made->bytes,
                                      sizeof made->bytes, &made->length);
    MUST(code == FAZGROND_OK || code == FAZGROND_NOTHING);
    MUST(code != FAZGROND_OK || (made->length >= 14 && made->length <= sizeof made->bytes));
    return code == FAZGROND_OK;
}

/* What a machine carries for others, or has carried. */
static bool make_more(match *self, uint32_t from, uint8_t *to, packet *made) {
    int32_t code = fazgrond_peer_send_more(&self->machine[from].peer, to, made->bytes, sizeof made->bytes, &made->length);
    MUST(code == FAZGROND_OK || code == FAZGROND_NOTHING);
    MUST(code != FAZGROND_OK || (self->carries && *to < self->machines && *to != from));
    MUST(code != FAZGROND_OK || (made->length >= 14 && made->length <= sizeof made->bytes));
    return code == FAZGROND_OK;
}

/* Some bytes of a packet are others. */
static void change(input *in, packet *made) {
    for (uint32_t count = 1 + take_byte(in) % 4; count > 0 && made->length > 0; count--) {
        uint32_t place = take_byte(in);
        made->bytes[(made->length > 256 ? place * 5 : place) % made->length] = (uint8_t)take_byte(in);
    }
    if (take_byte(in) % 8 == 0)
        made->length = made->length * take_byte(in) / 255;
}

static void make_up(input *in, packet *made) {
    made->length = take_byte(in) % 8 == 0 ? (take_byte(in) * 5) % sizeof made->bytes : take_byte(in) % 64;
    memset(made->bytes, 0, sizeof made->bytes);
    for (size_t at = 0; at < made->length; at++)
        made->bytes[at] = (uint8_t)take_byte(in);
    memcpy(made->bytes, "FZG4", 4);
    made->bytes[SENDER] %= PEERS;
    made->bytes[KIND] %= made->bytes[KIND] < 240 ? 3 : 9;
}

/* Seals a packet for a machine as its sender does; a hello with no draws. */
static void seal_for(match *self, packet *made, uint32_t to) {
    bool is_hello = made->length > KIND && made->bytes[KIND] == 0;
    uint32_t from = made->length > SENDER ? made->bytes[SENDER] % self->machines : 0;
    seal_key key = { NUMBER, self->machine[from].draw, self->machine[to % self->machines].draw };
    if (made->length >= 12)
        seal(made->bytes, made->length, is_hello ? (seal_key){ NUMBER, 0, 0 } : key);
}

/* Rolls back if something came; else the state stays as it is. */
static void synchronize(machine *at) {
    uint32_t has_news = 77;
    uint64_t before = at->game.now;
    fazgrond_row row;
    MUST(fazgrond_has_news(&at->session, &has_news) == FAZGROND_OK && has_news <= 1);
    if (fazgrond_synchronize_input(&at->session, &row) != FAZGROND_OK)
        return;
    carry_out_all(at);
    MUST(has_news != 0 || at->game.now == before);
    MUST(fazgrond_has_news(&at->session, &has_news) == FAZGROND_OK && has_news == 0);
}

static void play(match *self, uint32_t who, input *in) {
    machine *at = &self->machine[who % self->machines];
    fazgrond_reached reached;
    uint32_t is_running = 77;
    MUST(fazgrond_peer_is_running(&at->peer, &is_running) == FAZGROND_OK && is_running <= 1);
    if (is_running == 0)
        return;
    for (uint8_t player = 1; player <= self->players; player++)
        if ((uint32_t)(player - 1) % self->machines == who % self->machines)
            fazgrond_add_local_input(&at->session, player, take_some(in, 4));
    if (take_byte(in) % 2 == 0)
        synchronize(at);
    if (fazgrond_advance_frame(&at->session, &reached) == FAZGROND_OK)
        carry_out_all(at);
}

static void poll(match *self, uint32_t who) {
    machine *at = &self->machine[who % self->machines];
    MUST(fazgrond_peer_poll(&at->peer, &at->session, self->now) == FAZGROND_OK);
}

static void ask(match *self, uint32_t who) {
    machine *at = &self->machine[who % self->machines];
    fazgrond_event event;
    fazgrond_stats stats;
    while (fazgrond_peer_event(&at->peer, &event) == FAZGROND_OK)
        MUST((event.code >= 1001 && event.code <= 1007) || (event.code >= 1101 && event.code <= 1110));
    for (uint32_t of = 0; of < self->machines; of++)
        fazgrond_peer_stats(&at->peer, (uint8_t)of, &stats);
}

static void leave(match *self, uint32_t who, uint32_t whom) {
    machine *at = &self->machine[who % self->machines];
    packet bye;
    if (whom % 2 == 0)
        fazgrond_peer_disconnect(&at->peer, (uint8_t)(whom / 2 % self->machines));
    for (uint32_t to = 0; to < self->machines && whom % 2 == 1; to++)
        if (fazgrond_peer_bye(&at->peer, (uint8_t)to, FAZGROND_BYE_LEAVES, bye.bytes, sizeof bye.bytes, &bye.length) == FAZGROND_OK)
            hear(self, to, &bye, false);
    uint8_t next;
    while (make_more(self, who % self->machines, &next, &bye))
        hear(self, next, &bye, false);
}

/* Each hears what the others have to say, and plays. */
static void turn(match *self, input *in) {
    self->now += 16;
    for (uint32_t who = 0; who < self->machines; who++) {
        for (uint32_t to = 0; to < self->machines; to++) {
            packet made;
            if (make_packet(self, who, to, &made) && !(self->is_broken && who + to == 1))
                hear(self, to, &made, false);
        }
        packet more;
        uint8_t next;
        while (make_more(self, who, &next, &more))
            if (!(self->is_broken && who + next == 1))
                hear(self, next, &more, false);
        poll(self, who);
        play(self, who, in);
    }
}

static void one_thing(match *self, input *in) {
    uint32_t what = take_byte(in), who = take_byte(in);
    packet *held = &self->held[who >> 4];
    packet made;
    uint8_t to;
    switch (what % 16) {
    case 0:
    case 1:
    case 2:
    case 3: turn(self, in); break;
    case 4:
    case 5: make_packet(self, who, who / 3, held); break;
    case 6:
    case 7: hear(self, who, held, false); break;
    case 8:
    case 9: /* a packet is changed, and half the time sealed anew */
        if (!make_packet(self, who, who / 3, &made))
            break;
        change(in, &made);
        if (what & 16)
            seal_for(self, &made, who / 3);
        hear(self, who / 3, &made, true);
        break;
    case 10: /* one is made up */
        make_up(in, &made);
        if (what & 16)
            seal_for(self, &made, who);
        hear(self, who, &made, true);
        break;
    case 11:
        play(self, who, in);
        if (what & 16 && make_more(self, who % self->machines, &to, &made)) {
            change(in, &made);
            if (what & 32)
                seal_for(self, &made, to);
            hear(self, to, &made, true);
        }
        break;
    case 12: ask(self, who); break;
    case 13:
        self->now += take_byte(in);
        poll(self, who);
        break;
    case 14:
        if (what & 16 && (who & 7) == 0)
            leave(self, who / 8, take_byte(in));
        else if (what & 32 && (who & 7) == 1) {
            open_machine(self, who / 8 % self->machines);
            self->is_forged = true; /* the others' rows aren't those of a new match */
        }
        break;
    default:
        if (what & 16 && (who & 7) == 0)
            self->now += 6000;
        else if (what & 32 && (who & 7) == 1)
            self->now = take_number(in);
        else if ((who & 7) == 2)
            self->is_broken = !self->is_broken;
    }
}

/* Whether some machine regards another as gone: it sends nothing to it. */
static bool has_parted(match *self) {
    packet made;
    for (uint32_t from = 0; from < self->machines; from++)
        for (uint32_t to = 0; to < self->machines; to++)
            if (from != to && !make_packet(self, from, to, &made))
                return true;
    return false;
}

/* All who settled a row have settled the same one. */
static void compare(match *self) {
    for (uint32_t who = 1; who < self->machines; who++) {
        uint32_t rows = self->machine[0].settled_rows, theirs = self->machine[who].settled_rows;
        for (uint32_t frame = 0; frame < (rows < theirs ? rows : theirs); frame++) {
            fazgrond_row one = { 0 }, other = { 0 };
            MUST(fazgrond_settled_row(&self->machine[0].session, frame, &one) == FAZGROND_OK);
            MUST(fazgrond_settled_row(&self->machine[who].session, frame, &other) == FAZGROND_OK);
            MUST(state_after(0, &one) == state_after(0, &other));
        }
    }
}

int LLVMFuzzerTestOneInput(const uint8_t *data, size_t size) {
    static match self;
    input in = { data, size };
    open_match(&self, &in);
    for (int turns = 0; turns < 5; turns++)
        turn(&self, &in);
    while (in.left > 0)
        one_thing(&self, &in);
    if (!self.is_forged && !has_parted(&self))
        compare(&self);
    for (uint32_t who = 0; who < self.machines; who++) {
        fazgrond_peer_close(&self.machine[who].peer);
        fazgrond_close(&self.machine[who].session);
    }
    return 0;
}
