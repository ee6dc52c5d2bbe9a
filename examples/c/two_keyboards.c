/* Two players on a line, each on a machine of their own. Both machines are in this process, and each word reaches the other
 * machine three turns late.
 *
 * A line of the input is a turn. Player 1 goes by `a` and `d` and hits by `s`, player 2 goes by `j` and `l` and hits by `k`.
 * A turn prints what each machine shows. */
#include <fazgrond.h>
#include <inttypes.h>
#include <stdio.h>
#include <stdlib.h>
#include <string.h>

#define SLOTS 257
#define LATE 3
#define WIDTH 20
#define REACH 2

/* The game: its state, and what a frame makes of it. */

enum { LEFT = 1, RIGHT = 2, HIT = 4 };

typedef struct state {
    int32_t place[2];
    uint32_t points[2];
} state;

static const state opening = { { 5, 14 }, { 0, 0 } };

static void walk(int32_t *place, uint32_t word) {
    if ((word & LEFT) != 0 && *place > 0)
        (*place)--;
    if ((word & RIGHT) != 0 && *place < WIDTH - 1)
        (*place)++;
}

static void step(state *now, const fazgrond_row *row) {
    for (int at = 0; at < 2; at++)
        walk(&now->place[at], row->words[at]);
    if (abs(now->place[0] - now->place[1]) > REACH)
        return;
    for (int at = 0; at < 2; at++)
        if ((row->words[at] & HIT) != 0)
            now->points[at]++;
}

/* A machine: its session, the state that it shows, its saved states, and the words that are on the way to it. */

typedef struct packet {
    uint32_t due;
    uint32_t frame;
    uint32_t word;
} packet;

typedef struct machine {
    fazgrond_session session;
    state now;
    state saved[SLOTS];
    uint8_t me;
    uint8_t other;
    packet line[LATE + 1];
    size_t on_the_way;
} machine;

static void must(int32_t code) {
    if (code != FAZGROND_OK) {
        fprintf(stderr, "refused: %" PRId32 "\n", code);
        exit(1);
    }
}

static void open_machine(machine *self, uint8_t me, uint8_t other) {
    fazgrond_settings settings = fazgrond_settings_for(2);
    settings.local = 1u << (me - 1);
    for (int at = 0; at < FAZGROND_PLAYERS; at++)
        settings.masks[at] = LEFT | RIGHT; /* a hit isn't held */
    must(fazgrond_open(&self->session, &settings));
    self->me = me;
    self->other = other;
    self->now = opening;
    self->saved[0] = opening;
}

static void carry_out(machine *self, const fazgrond_request *request) {
    switch (request->kind) {
    case FAZGROND_LOAD: self->now = self->saved[request->slot]; break;
    case FAZGROND_SAVE: self->saved[request->slot] = self->now; break;
    case FAZGROND_STEP: step(&self->now, &request->row); break;
    case FAZGROND_FREE: break; /* the slot keeps its room */
    }
}

static void carry_out_all(machine *self) {
    fazgrond_request requests[16];
    size_t count;
    while ((count = fazgrond_take_requests(&self->session, requests, 16)) > 0)
        for (size_t at = 0; at < count; at++)
            carry_out(self, &requests[at]);
}

static void send_to(machine *other, uint32_t turn, uint32_t frame, uint32_t word) {
    packet sent = { turn + LATE, frame, word };
    other->line[other->on_the_way++] = sent;
}

/* Takes each word that is due, and rolls back if one was predicted wrong. */
static void hear(machine *self, uint32_t turn) {
    fazgrond_row row;
    uint32_t repeated;
    while (self->on_the_way > 0 && self->line[0].due <= turn) {
        must(fazgrond_remote_input(&self->session, self->other, self->line[0].frame, self->line[0].word, &repeated));
        self->on_the_way--;
        memmove(self->line, self->line + 1, self->on_the_way * sizeof(packet));
    }
    must(fazgrond_synchronize_input(&self->session, &row));
    carry_out_all(self);
}

/* Plays a frame, unless the machine is too far ahead of the other's words. */
static void play(machine *self, machine *other, uint32_t turn, uint32_t word) {
    fazgrond_reached reached;
    uint32_t frame;
    must(fazgrond_input_frame(&self->session, self->me, &frame));
    int32_t code = fazgrond_add_local_input(&self->session, self->me, word);
    if (code == FAZGROND_PREDICTION_THRESHOLD)
        return;
    must(code);
    send_to(other, turn, frame, word);
    must(fazgrond_advance_frame(&self->session, &reached));
    carry_out_all(self);
}

/* Keys and picture. */

static uint32_t buttons(const char *keys, char left, char right, char hit) {
    return (strchr(keys, left) != NULL ? LEFT : 0u) | (strchr(keys, right) != NULL ? RIGHT : 0u)
        | (strchr(keys, hit) != NULL ? HIT : 0u);
}

static void draw(const machine *self) {
    char line[WIDTH + 1];
    memset(line, '.', WIDTH);
    line[WIDTH] = 0;
    line[self->now.place[0]] = '1';
    line[self->now.place[1]] = self->now.place[0] == self->now.place[1] ? 'X' : '2';
    printf("  %s %" PRIu32 ":%" PRIu32, line, self->now.points[0], self->now.points[1]);
}

static void draw_both(const char *head, const machine *one, const machine *two) {
    printf("%-5s", head);
    draw(one);
    draw(two);
    printf("\n");
}

int main(void) {
    static machine one, two;
    char keys[80], head[16];
    uint32_t turn = 0;

    open_machine(&one, 1, 2);
    open_machine(&two, 2, 1);
    for (; fgets(keys, sizeof keys, stdin) != NULL; turn++) {
        hear(&one, turn);
        hear(&two, turn);
        play(&one, &two, turn, buttons(keys, 'a', 'd', 's'));
        play(&two, &one, turn, buttons(keys, 'j', 'l', 'k'));
        snprintf(head, sizeof head, "%" PRIu32, turn);
        draw_both(head, &one, &two);
    }
    hear(&one, turn + LATE);
    hear(&two, turn + LATE);
    draw_both("end", &one, &two);

    fazgrond_close(&one.session);
    fazgrond_close(&two.session);
    return memcmp(&one.now, &two.now, sizeof(state)) == 0 ? 0 : 1;
}
