/* Two machines of a match, in one process. The line between them loses datagrams, and brings the others late and out of order.
 * Where `send_to` and `hear` stand, a game on two machines has its sockets. */
#include <fazgrond.h>
#include <inttypes.h>
#include <stdio.h>
#include <stdlib.h>
#include <string.h>

enum { SLOTS = 257, FRAMES = 600, UNDER_WAY = 64, TURN_MILLISECONDS = 16 };

typedef struct datagram {
    uint32_t due;
    size_t length;
    uint8_t bytes[FAZGROND_DATAGRAM];
} datagram;

/* A machine: its session, the peer beside it, the game's state and its saved states, and what is on the way to it. */
typedef struct machine {
    fazgrond_session session;
    fazgrond_peer peer;
    uint64_t state, settled_state, saved[SLOTS];
    uint32_t wait, rerun, settled, alone;
    datagram line[UNDER_WAY];
    size_t on_the_way;
} machine;

static void must(int32_t code) {
    if (code != FAZGROND_OK) {
        fprintf(stderr, "refused: %" PRId32 "\n", code);
        exit(1);
    }
}

/* The game: 31 times the number, and of each player the number times the word. */
static uint64_t stepped(uint64_t state, const fazgrond_row *row) {
    uint64_t sum = 31 * state;
    for (uint32_t at = 0; at < row->count; at++)
        sum += (row->gone >> at & 1) != 0 ? 5 : (uint64_t)(at + 1) * row->words[at];
    return sum % 1000003;
}

/* What a player holds in a frame. */
static uint32_t word_of(uint32_t me, uint32_t frame) {
    return frame / (5 + 2 * me) * 2654435761u >> 28;
}

static void carry_out_all(machine *self) {
    fazgrond_request requests[16];
    size_t count;
    while ((count = fazgrond_take_requests(&self->session, requests, 16)) > 0)
        for (size_t at = 0; at < count; at++)
            switch (requests[at].kind) {
            case FAZGROND_LOAD: self->state = self->saved[requests[at].slot]; break;
            case FAZGROND_SAVE: self->saved[requests[at].slot] = self->state; break;
            case FAZGROND_STEP: self->state = stepped(self->state, &requests[at].row); break;
            case FAZGROND_FREE: break; /* the slot keeps its room */
            }
}

/* A game draws these 64 bits from the system's random source, anew for each match that it opens: getrandom, BCryptGenRandom.
 * Here they are always the same, so that this program always prints the same. */
static uint64_t draw_of(uint32_t me) {
    return 0x9e3779b97f4a7c15 * (me + 1);
}

static void open_machine(machine *self, uint32_t me) {
    fazgrond_settings settings = fazgrond_settings_for(2);
    fazgrond_match match = fazgrond_match_for(2, me);
    settings.local = 1u << me;
    settings.limit = FRAMES;
    match.owners[0] = 0; /* machine 0 has player 1 */
    match.owners[1] = 1;
    match.draw = draw_of(me);
    fazgrond_one_number(&match, 0x5eed5eed5eed5eed);
    must(fazgrond_open(&self->session, &settings));
    must(fazgrond_peer_open(&self->peer, &self->session, &match));
    self->state = self->saved[0] = 0; /* the opening */
}

/* One datagram in four is lost; the others come one to four turns later. */
static void send_to(machine *other, uint32_t turn, const uint8_t *bytes, size_t length) {
    static uint32_t seed = 1;
    seed = seed * 1664525u + 1013904223u;
    if (seed >> 30 == 0 || other->on_the_way == UNDER_WAY)
        return;
    datagram *sent = &other->line[other->on_the_way++];
    sent->due = turn + 1 + (seed >> 16) % 4;
    sent->length = length;
    memcpy(sent->bytes, bytes, length);
}

static void hear(machine *self, uint32_t turn) {
    for (size_t at = 0; at < self->on_the_way;)
        if (self->line[at].due <= turn) { /* what is refused has changed nothing */
            (void)fazgrond_peer_receive(&self->peer, &self->session, self->line[at].bytes, self->line[at].length,
                                        turn * TURN_MILLISECONDS);
            self->line[at] = self->line[--self->on_the_way];
        } else
            at++;
}

/* A frame, or at least what came too late for the frames before. */
static void play(machine *self, uint32_t me) {
    fazgrond_reached reached = { 0 };
    fazgrond_row row;
    uint32_t frame, has_news;
    int32_t given = FAZGROND_LOCAL_INPUT_MISSING;
    must(fazgrond_frame(&self->session, &frame));
    if (self->wait > 0)
        self->wait--;
    else
        given = fazgrond_add_local_input(&self->session, (uint8_t)(me + 1), word_of(me, frame));
    must(fazgrond_has_news(&self->session, &has_news));
    if (given == FAZGROND_OK)
        must(fazgrond_advance_frame(&self->session, &reached));
    else if (has_news != 0) /* too far ahead, or told to wait, or at the last frame */
        must(fazgrond_synchronize_input(&self->session, &row));
    carry_out_all(self);
    self->rerun += reached.rerun;
}

/* A turn of the main loop. */
static void take_turn(machine *self, uint32_t me, uint32_t turn) {
    fazgrond_event event;
    uint32_t slot, is_running;
    hear(self, turn);
    must(fazgrond_peer_poll(&self->peer, &self->session, turn * TURN_MILLISECONDS));
    must(fazgrond_peer_is_running(&self->peer, &is_running));
    if (is_running != 0) /* all machines are there */
        play(self, me);
    must(fazgrond_settled_slot(&self->session, &self->settled, &slot));
    self->settled_state = self->saved[slot];
    must(fazgrond_peer_note_settled(&self->peer, &self->session, self->settled_state)); /* the state is a digest of itself */
    while (fazgrond_peer_event(&self->peer, &event) == FAZGROND_OK) {
        if (event.code == FAZGROND_TIME_SYNC)
            self->wait = event.frames_ahead;
        self->alone |= event.code == FAZGROND_LEFT;
        must(event.code == FAZGROND_DESYNC ? FAZGROND_DESYNC : FAZGROND_OK);
    }
}

int main(void) {
    static machine both[2];
    uint8_t bytes[FAZGROND_DATAGRAM];
    uint32_t turn = 0;
    size_t length;
    for (uint32_t me = 0; me < 2; me++)
        open_machine(&both[me], me);
    for (; both[0].settled < FRAMES || both[1].settled < FRAMES; turn++)
        for (uint32_t me = 0; me < 2; me++) {
            take_turn(&both[me], me, turn);
            must(fazgrond_peer_send(&both[me].peer, &both[me].session, (uint8_t)(1 - me), turn * TURN_MILLISECONDS, bytes,
                                    sizeof bytes, &length));
            send_to(&both[1 - me], turn, bytes, length);
        }
    for (uint32_t me = 0; me < 2; me++)
        printf("machine %" PRIu32 ": settled %" PRIu32 " state %" PRIu64 "%s\n", me, both[me].settled,
               both[me].settled_state, both[me].rerun > FRAMES ? ", after rollbacks" : "");
    /* machine 0 leaves, and says so three times */
    must(fazgrond_peer_bye(&both[0].peer, 1, FAZGROND_BYE_LEAVES, bytes, sizeof bytes, &length));
    for (int time = 0; time < 3; time++)
        send_to(&both[1], turn, bytes, length);
    for (; both[1].alone == 0; turn++)
        take_turn(&both[1], 1, turn);
    printf("machine 1 is alone\n");
    for (uint32_t me = 0; me < 2; me++) {
        fazgrond_peer_close(&both[me].peer);
        fazgrond_close(&both[me].session);
    }
    return 0;
}
