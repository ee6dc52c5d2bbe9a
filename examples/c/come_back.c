/* A player comes back. Of two machines of a match, in one process, the program of machine 1 is ended, without a word, and begun again two
 * seconds later: it comes into the match that machine 0 plays on. Where `post` and `hear` stand, a game on two machines has its sockets.
 * It is compiled with the files of lib/rejoin. */
#include "faz_rejoin.h"

#include <inttypes.h>
#include <stdio.h>
#include <stdlib.h>
#include <string.h>

enum { SLOTS = 257, FRAMES = 900, ENDED = 200, BEGUN_AGAIN = 320, UNDER_WAY = 256, TURN_MILLISECONDS = 16, DELAY = 2 };

/* The number of the two machines, which nobody else knows, and 64 bits of a digest of all that has to be alike. */
#define NUMBER 0x5eed5eed5eed5eed
#define DIGEST 0x600d
#define COMERS 0xc0ffee

typedef struct datagram {
    uint32_t due;
    size_t length;
    uint8_t bytes[FAZGROND_DATAGRAM];
} datagram;

/* The game, so many frames after it began. */
typedef struct state {
    uint64_t number, frame;
} state;

/* A program: `me` is its seat, and `machine` which machine it is in this epoch, which may be another number once it came back. While it
 * comes in it has `comer`, and neither session nor peer. */
typedef struct program {
    fazgrond_session session;
    fazgrond_peer peer;
    fazgrond_epoch epoch;
    faz_hosting hosting;
    faz_comer comer;
    uint32_t me, machine;
    bool is_there, is_coming, is_at_seam, has_left;
    state now, saved[SLOTS], settled; /* `settled`: the last one that nothing changes any more */
    uint64_t opened_at;               /* the frame of the match at which session and peer were opened */
    datagram line[UNDER_WAY];
    size_t on_the_way;
} program;

static program both[2];
static uint32_t turn;
static uint64_t away_from; /* a frame of the match */

static void must(int32_t code) {
    if (code != FAZGROND_OK) {
        fprintf(stderr, "refused: %" PRId32 "\n", code);
        exit(1);
    }
}

/* What can't go on says why. */
static void end(const char *why) {
    fprintf(stderr, "%s\n", why);
    exit(1);
}

/* A game draws these 64 bits from the system's random source, others each time. */
static uint64_t new_draw(void) {
    static uint64_t draw;
    return draw += 0x9e3779b97f4a7c15;
}

/* ---- The game, and what a player holds in a frame of the match, as in two_peers.c. */

static state stepped(state from, const fazgrond_row *row) {
    uint64_t sum = 31 * from.number;
    for (uint32_t at = 0; at < row->count; at++)
        sum += (row->gone >> at & 1) != 0 ? 5 : (uint64_t)(at + 1) * row->words[at];
    return (state){ sum % 1000003, from.frame + 1 };
}

static uint32_t word_of(uint32_t me, uint64_t frame) {
    return (uint32_t)frame / (5 + 2 * me) * 2654435761u >> 28;
}

/* A state has to mean the same at both machines: here they have the same processor. */
static const uint8_t *bytes_of(const state *of) { return (const uint8_t *)of; }

/* Each datagram comes two turns later. */
static void post(void *of, uint32_t to, const uint8_t *bytes, size_t length) {
    program *other = &both[to];
    (void)of;
    if (!other->is_there || other->on_the_way == UNDER_WAY)
        return;
    datagram *sent = &other->line[other->on_the_way++];
    sent->due = turn + 2;
    sent->length = length;
    memcpy(sent->bytes, bytes, length);
}

/* By the seat at which the machine sits in this epoch: whoever comes gets the lowest number that no machine has, not the one it had. */
static void send_to(program *self, uint32_t machine, const uint8_t *bytes, size_t length) {
    for (uint32_t seat = 0; seat < 2; seat++) /* seat 0 has player 1 */
        if (self->epoch.owners[seat] == machine)
            post(NULL, seat, bytes, length);
}

/* ---- A program that plays. */

static void carry_out(program *self, const fazgrond_request *request) {
    switch (request->kind) {
    case FAZGROND_LOAD: self->now = self->saved[request->slot]; break;
    case FAZGROND_STEP: self->now = stepped(self->now, &request->row); break;
    case FAZGROND_SAVE: self->saved[request->slot] = self->now; break;
    }
    if (self->is_at_seam && request->kind == FAZGROND_SAVE && request->slot == 0 && self->now.frame == self->epoch.base) {
        must(faz_hosting_begin(&self->hosting, bytes_of(&self->now), sizeof self->now));
        self->settled = self->now;
        self->is_at_seam = false;
    }
}

static void carry_out_requests(program *self) {
    fazgrond_request request;
    while (fazgrond_take_requests(&self->session, &request, 1) > 0)
        carry_out(self, &request);
}

/* Opens session and peer where an epoch begins, with the state that the game has, and a seat for the other to come back to. */
static void open_both(program *self, const fazgrond_epoch *epoch, uint32_t machine) {
    fazgrond_settings settings = fazgrond_settings_for(2);
    fazgrond_match match = fazgrond_match_for(2, machine);
    uint32_t other = 1 - self->me;
    settings.local = 1u << self->me;
    settings.delays[self->me] = epoch->delays[self->me];
    settings.threshold = epoch->threshold;
    match.draw = new_draw();
    match.digest = DIGEST;
    match.comers = COMERS;
    fazgrond_one_number(&match, NUMBER);
    must(fazgrond_open(&self->session, &settings));
    must(fazgrond_peer_open_lasting(&self->peer, &self->session, &match, epoch));
    self->machine = machine;
    self->epoch = *epoch;
    self->opened_at = epoch->base;
    self->saved[0] = self->settled = self->now;
    self->is_coming = false;
    self->hosting = (faz_hosting){ .session = &self->session, .peer = &self->peer, .me = machine, .digest = DIGEST,
                                   .random = new_draw(), .send = post };
    self->hosting.seat[other] = (faz_seat){ .is_taken = true, .number = NUMBER, .ticket = fazgrond_ticket(COMERS, other),
                                            .players = 1u << other };
    must(faz_hosting_begin(&self->hosting, bytes_of(&self->now), sizeof self->now));
}

static fazgrond_epoch first_epoch(void) {
    fazgrond_settings settings = fazgrond_settings_for(2);
    fazgrond_match match = fazgrond_match_for(2, 0);
    match.owners[0] = 0; /* machine 0 has player 1 */
    match.owners[1] = 1;
    fazgrond_epoch epoch = fazgrond_epoch_for(&match, &settings);
    epoch.delays[0] = epoch.delays[1] = DELAY;
    return epoch;
}

/* Rows of this epoch that are still to be played are played before it ends, so that whoever follows is told them. */
static void play_what_came(program *self) {
    fazgrond_row row;
    uint32_t has_news;
    must(fazgrond_has_news(&self->session, &has_news));
    if (has_news != 0 && !self->has_left)
        must(fazgrond_synchronize_input(&self->session, &row));
    carry_out_requests(self);
    self->has_left = false;
}

/* The next epoch has begun. */
static void go_on(program *self) {
    must(fazgrond_peer_epoch(&self->peer, &self->epoch));
    self->is_at_seam = true;
    carry_out_requests(self);
}

static void play(program *self) {
    fazgrond_reached reached;
    fazgrond_row row;
    uint32_t frame, has_news;
    uint8_t player = (uint8_t)(self->me + 1);
    must(fazgrond_input_frame(&self->session, player, &frame));
    must(fazgrond_has_news(&self->session, &has_news));
    if (fazgrond_add_local_input(&self->session, player, word_of(self->me, self->epoch.base + frame)) == FAZGROND_OK)
        must(fazgrond_advance_frame(&self->session, &reached));
    else if (has_news != 0)
        must(fazgrond_synchronize_input(&self->session, &row));
    carry_out_requests(self);
}

static void see_settled(program *self) {
    fazgrond_row row;
    uint32_t frame, slot;
    must(fazgrond_settled_slot(&self->session, &frame, &slot));
    must(fazgrond_peer_note_settled(&self->peer, &self->session, self->saved[slot].number));
    while (self->settled.frame < self->epoch.base + frame && self->settled.frame < FRAMES) {
        must(fazgrond_settled_row(&self->session, (uint32_t)(self->settled.frame - self->epoch.base), &row));
        away_from = row.gone != 0 && away_from == 0 ? self->settled.frame : away_from;
        self->settled = stepped(self->settled, &row);
    }
}

/* Before the match runs here nobody else could put out who is missing. */
static void hear_events(program *self, bool is_running) {
    fazgrond_event event;
    while (fazgrond_peer_event(&self->peer, &event) == FAZGROND_OK) {
        self->has_left |= event.code == FAZGROND_LEFT || event.code == FAZGROND_DISCONNECTED;
        if (event.code == FAZGROND_MISSING && !is_running)
            end("the other machine isn't there");
        if (event.code == FAZGROND_DROPPED)
            end("the match goes on without this machine: begin again to come back");
        must(event.code == FAZGROND_DESYNC ? FAZGROND_DESYNC : FAZGROND_OK);
    }
}

static void send_all(program *self, uint32_t now) {
    uint8_t bytes[FAZGROND_DATAGRAM], machine;
    size_t length;
    for (machine = 0; machine < 2; machine++) {
        if (fazgrond_peer_send(&self->peer, &self->session, machine, now, bytes, sizeof bytes, &length) == FAZGROND_OK)
            send_to(self, machine, bytes, length);
        if (fazgrond_peer_send_before(&self->peer, machine, now, bytes, sizeof bytes, &length) == FAZGROND_OK)
            send_to(self, machine, bytes, length); /* by the seat of the player that it owns */
    }
    while (fazgrond_peer_send_more(&self->peer, &machine, bytes, sizeof bytes, &length) == FAZGROND_OK)
        send_to(self, machine, bytes, length); /* after fazgrond_peer_send for each machine */
}

static void take_turn(program *self, uint32_t now) {
    uint32_t frames, is_running;
    must(fazgrond_peer_poll(&self->peer, &self->session, now));
    must(fazgrond_peer_is_running(&self->peer, &is_running));
    hear_events(self, is_running != 0);
    if (is_running != 0) {
        play_what_came(self); /* fazgrond_synchronize_input, if fazgrond_has_news and nobody has left in this turn */
        if (fazgrond_peer_go_on(&self->peer, &self->session, &frames) == FAZGROND_OK)
            go_on(self); /* carries out the requests, and calls faz_hosting_begin with the state at the epoch's base */
        faz_hosting_turn(&self->hosting, now);
        play(self);
        see_settled(self);
    }
    send_all(self, now);
}

/* ---- One that comes in. */

static void begin_to_come(program *self) {
    uint32_t other = 1 - self->me;
    self->is_coming = true;
    self->comer = (faz_comer){ .machines = 1u << other, .players = 1u << self->me, .limit = sizeof self->now, .digest = DIGEST,
                               .random = new_draw(), .send = post };
    self->comer.numbers[other] = NUMBER;
    faz_comer_begin(&self->comer);
}

static void come(program *self, uint32_t now) {
    if (faz_comer_turn(&self->comer, now) == FAZGROND_NOTHING)
        end("nobody plays the match any more");
    for (faz_next next = faz_comer_next(&self->comer); next.what != FAZ_NOTHING; next = faz_comer_next(&self->comer))
        switch (next.what) {
        case FAZ_LOAD: memcpy(&self->now, next.state, next.length); break;
        case FAZ_STEP: self->now = stepped(self->now, &next.row); break;
        default: open_both(self, &next.epoch, next.me); /* FAZ_IN: by fazgrond_open and fazgrond_peer_open_lasting */
        }
}

/* ---- Both. */

static void hear(program *self, uint32_t now) {
    uint32_t other = 1 - self->me;
    size_t left = 0;
    for (size_t at = 0; at < self->on_the_way; at++) {
        const uint8_t *bytes = self->line[at].bytes;
        size_t length = self->line[at].length;
        if (self->line[at].due > turn)
            self->line[left++] = self->line[at];
        else if (self->is_coming)
            faz_comer_hear(&self->comer, other, bytes, length, now);
        else if (fazgrond_peer_receive(&self->peer, &self->session, bytes, length, now) != FAZGROND_OK)
            faz_hosting_hear(&self->hosting, other, bytes, length, now); /* by its address it is of who may come */
    }
    self->on_the_way = left;
}

static void begin_program(uint32_t me) {
    memset(&both[me], 0, sizeof both[me]);
    both[me].me = me;
    both[me].is_there = true;
}

static void end_program(program *self) {
    faz_comer_close(&self->comer);
    faz_hosting_close(&self->hosting);
    fazgrond_peer_close(&self->peer);
    fazgrond_close(&self->session);
    self->is_there = false;
}

int main(void) {
    fazgrond_epoch epoch = first_epoch();
    for (uint32_t me = 0; me < 2; me++) {
        begin_program(me);
        open_both(&both[me], &epoch, me);
    }
    for (; both[0].settled.frame < FRAMES || both[1].settled.frame < FRAMES; turn++) {
        if (turn == ENDED)
            end_program(&both[1]);
        if (turn == BEGUN_AGAIN) {
            begin_program(1);
            begin_to_come(&both[1]);
        }
        for (uint32_t me = 0; me < 2; me++) {
            program *self = &both[me];
            uint32_t now = turn * TURN_MILLISECONDS;
            if (self->is_there)
                hear(self, now);
            if (self->is_there && self->is_coming)
                come(self, now);
            else if (self->is_there)
                take_turn(self, now);
        }
    }
    printf("player 2 is away from frame %" PRIu64 " on, and back at frame %" PRIu64 "\n", away_from, both[1].opened_at);
    for (uint32_t me = 0; me < 2; me++) {
        printf("machine %" PRIu32 ": settled %" PRIu64 " state %" PRIu64 "\n", me, both[me].settled.frame, both[me].settled.number);
        end_program(&both[me]);
    }
    return 0;
}
