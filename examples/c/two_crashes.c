/* A match of three machines, in one process, of which two crash, one after the other. Who is left marks a word each time, so that the match goes
 * on in an epoch of those who still play, and in the end one machine plays alone. Where `post` and `hear` stand, a game on
 * three machines has its sockets. */
#include "fazgrond.h"

#include <inttypes.h>
#include <stdbool.h>
#include <stdio.h>
#include <stdlib.h>
#include <string.h>

enum { MACHINES = 3, SLOTS = 257, FRAMES = 600, UNDER_WAY = 64, TURN_MILLISECONDS = 16, SILENT_AFTER = 1000, DELAY = 2 };

/* At which turns machines crash: 1 first, then 2. */
static const uint32_t crashes[MACHINES] = { UINT32_MAX, 150, 400 };

/* The machines' number, which nobody else knows. A game has a number for each two of them: see `numbers` of fazgrond_match. */
#define NUMBER 0x5eed5eed5eed5eed

typedef struct datagram {
    uint32_t due;
    size_t length;
    uint8_t bytes[FAZGROND_DATAGRAM];
} datagram;

/* The game, so many frames after it began. */
typedef struct state {
    uint64_t number, frame;
} state;

typedef struct program {
    fazgrond_session session;
    fazgrond_peer peer;
    fazgrond_epoch epoch;
    uint32_t me;
    bool is_there, is_to_mark;
    state now, saved[SLOTS], settled; /* `settled`: the last one that nothing changes any more */
    datagram line[UNDER_WAY];
    size_t on_the_way;
} program;

static program all[MACHINES];
static uint32_t turn;

static void must(int32_t code) {
    if (code != FAZGROND_OK) {
        fprintf(stderr, "refused: %" PRId32 "\n", code);
        exit(1);
    }
}

/* ---- The game, and what a player holds in a frame of the match, as in two_peers.c. */

static state stepped(state from, const fazgrond_row *row) {
    uint64_t sum = 31 * from.number;
    for (uint32_t at = 0; at < row->count; at++)
        sum += (row->gone >> at & 1) != 0 ? 5 : (uint64_t)(at + 1) * row->words[at];
    return (state){ sum % 1000003, from.frame + 1 };
}

static uint32_t word_of(uint32_t me, uint64_t frame) {
    return (uint32_t)frame / (5 + 2 * me) * 2654435761u >> 28;
}

static void carry_out_requests(program *self) {
    fazgrond_request request;
    while (fazgrond_take_requests(&self->session, &request, 1) > 0)
        switch (request.kind) {
        case FAZGROND_LOAD: self->now = self->saved[request.slot]; break;
        case FAZGROND_STEP: self->now = stepped(self->now, &request.row); break;
        case FAZGROND_SAVE: self->saved[request.slot] = self->now; break;
        }
}

/* ---- The network: each datagram comes two turns later. */

static void post(uint32_t to, const uint8_t *bytes, size_t length) {
    program *other = &all[to];
    if (!other->is_there || other->on_the_way == UNDER_WAY)
        return;
    datagram *sent = &other->line[other->on_the_way++];
    sent->due = turn + 2;
    sent->length = length;
    memcpy(sent->bytes, bytes, length);
}

static void hear(program *self, uint32_t now) {
    size_t left = 0;
    for (size_t at = 0; at < self->on_the_way; at++)
        if (self->line[at].due > turn)
            self->line[left++] = self->line[at];
        else
            (void)fazgrond_peer_receive(&self->peer, &self->session, self->line[at].bytes, self->line[at].length, now);
    self->on_the_way = left;
}

/* To whoever is in this epoch. Who isn't has crashed, and nothing is to be sent there. */
static void send_all(program *self, uint32_t now) {
    uint8_t bytes[FAZGROND_DATAGRAM], to;
    size_t length;
    for (to = 0; to < FAZGROND_MACHINES; to++) {
        if (to == self->me || fazgrond_epoch_has(&self->epoch, to) == 0)
            continue;
        if (fazgrond_peer_send(&self->peer, &self->session, to, now, bytes, sizeof bytes, &length) == FAZGROND_OK)
            post(to, bytes, length);
        if (fazgrond_peer_send_before(&self->peer, to, now, bytes, sizeof bytes, &length) == FAZGROND_OK)
            post(to, bytes, length);
    }
    while (fazgrond_peer_send_more(&self->peer, &to, bytes, sizeof bytes, &length) == FAZGROND_OK)
        if (fazgrond_epoch_has(&self->epoch, to) != 0)
            post(to, bytes, length);
}

/* ---- A program. */

static fazgrond_settings settings_of(uint32_t me) {
    fazgrond_settings settings = fazgrond_settings_for(MACHINES);
    settings.local = 1u << me;
    settings.delays[me] = DELAY;
    return settings;
}

static void begin(uint32_t me) {
    program *self = &all[me];
    fazgrond_settings settings = settings_of(me);
    fazgrond_match match = fazgrond_match_for(MACHINES, me);
    for (uint32_t at = 0; at < MACHINES; at++)
        match.owners[at] = at;
    match.draw = me + 1; /* 64 bits of the system's random source, others each time */
    match.digest = 0x600d;
    match.silent_after = SILENT_AFTER;
    fazgrond_one_number(&match, NUMBER);
    self->me = me;
    self->is_there = true;
    self->epoch = fazgrond_epoch_for(&match, &settings);
    for (uint32_t at = 0; at < MACHINES; at++)
        self->epoch.delays[at] = DELAY;
    must(fazgrond_open(&self->session, &settings));
    must(fazgrond_peer_open_lasting(&self->peer, &self->session, &match, &self->epoch));
}

static void end(program *self) {
    fazgrond_peer_close(&self->peer);
    fazgrond_close(&self->session);
    self->is_there = false;
}

static void hear_events(program *self) {
    fazgrond_event event;
    while (fazgrond_peer_event(&self->peer, &event) == FAZGROND_OK) {
        self->is_to_mark |= event.code == FAZGROND_LEFT;
        must(event.code == FAZGROND_DESYNC || event.code == FAZGROND_DROPPED ? (int32_t)event.code : FAZGROND_OK);
    }
}

/* Once a machine is gone, the epoch ends. Each of those who are left puts a mark, and the first one counts. */
static void mark(program *self) {
    fazgrond_mark next = fazgrond_mark_for();
    if (self->is_to_mark)
        must(fazgrond_peer_mark(&self->peer, &self->session, (uint8_t)(self->me + 1), &next));
    self->is_to_mark = false;
}

static void go_on(program *self) {
    uint32_t frames;
    if (fazgrond_peer_go_on(&self->peer, &self->session, &frames) != FAZGROND_OK)
        return;
    carry_out_requests(self);
    must(fazgrond_peer_epoch(&self->peer, &self->epoch));
    printf("machine %" PRIu32 " goes on at frame %" PRIu64 ", with machines", self->me, self->epoch.base);
    for (uint32_t at = 0; at < FAZGROND_MACHINES; at++)
        if (fazgrond_epoch_has(&self->epoch, at) != 0)
            printf(" %" PRIu32, at);
    printf("\n");
}

static void play(program *self) {
    fazgrond_reached reached;
    fazgrond_row row;
    uint32_t frame, has_news;
    uint8_t player = (uint8_t)(self->me + 1);
    must(fazgrond_input_frame(&self->session, player, &frame));
    must(fazgrond_has_news(&self->session, &has_news));
    if (fazgrond_add_local_input(&self->session, player, word_of(self->me, self->epoch.base + frame)) == FAZGROND_OK)
        must(fazgrond_advance_frame(&self->session, &reached));
    else if (has_news != 0)
        must(fazgrond_synchronize_input(&self->session, &row));
    carry_out_requests(self);
}

static void see_settled(program *self) {
    uint32_t frame, slot;
    must(fazgrond_settled_slot(&self->session, &frame, &slot));
    must(fazgrond_peer_note_settled(&self->peer, &self->session, self->saved[slot].number));
    self->settled = self->saved[slot];
}

static void take_turn(program *self, uint32_t now) {
    uint32_t is_running;
    must(fazgrond_peer_poll(&self->peer, &self->session, now));
    must(fazgrond_peer_is_running(&self->peer, &is_running));
    hear_events(self);
    if (is_running != 0) {
        go_on(self);
        mark(self);
        play(self);
        see_settled(self);
    }
    send_all(self, now);
}

int main(void) {
    for (uint32_t me = 0; me < MACHINES; me++)
        begin(me);
    for (; all[0].settled.frame < FRAMES; turn++)
        for (uint32_t me = 0; me < MACHINES; me++) {
            program *self = &all[me];
            if (self->is_there && turn == crashes[me])
                end(self);
            if (!self->is_there)
                continue;
            hear(self, turn * TURN_MILLISECONDS);
            take_turn(self, turn * TURN_MILLISECONDS);
        }
    printf("machine 0: settled %" PRIu64 " state %" PRIu64 "\n", all[0].settled.frame, all[0].settled.number);
    end(&all[0]);
    return 0;
}
