/* Two sessions in one process, whose players' inputs have 12 bytes, over a line that loses and delays. Both come to the state of a plain
 * run, and then one leaves in the middle of a frame's way: what each has settled has of the other's input all words or none. It prints
 * nothing if all is right. long_inputs PORT */
#include "../../check.h"

#include <fazgrond.h>
#include <ggponet.h>
#include <stdio.h>
#include <stdlib.h>
#include <string.h>

enum { FRAMES = 300, SPEED = 100, INPUT = 12, WORDS = 3, PLAYERS = 2 };

typedef struct state {
    int frame;
    unsigned number;
} state;

static struct game {
    state now;
    unsigned at[2 * FRAMES]; /* the number at each frame, as it was played last */
    int left, buffers;
    GGPOSession *session;
} games[PLAYERS];

/* The one of whom a call is being made: GGPO's callbacks aren't told. */
static struct game *game;

/* Whether the other has closed its session. */
static bool is_alone;

/* Each byte of an input is its own: words that were mixed up would show. */
static unsigned char byte_of(int player, int frame, int at) {
    return (unsigned char)((unsigned)(frame / (at % 3 + 1) * 16 + player * INPUT + at) * 2654435761u >> 24);
}

static void input_of(int player, int frame, unsigned char *input) {
    for (int at = 0; at < INPUT; at++)
        input[at] = byte_of(player, frame, at);
}

static unsigned number_after(unsigned number, const unsigned char *inputs) {
    for (int at = 0; at < PLAYERS * INPUT; at++)
        number = number * 31 + inputs[at];
    return number;
}

static void note(void) {
    if (game->now.frame < 2 * FRAMES)
        game->at[game->now.frame] = game->now.number;
}

static void step(const unsigned char *inputs) {
    game->now.number = number_after(game->now.number, inputs);
    game->now.frame++;
    note();
}

static bool on_save(unsigned char **buffer, int *len, int *checksum, int frame) {
    MUST(frame == game->now.frame);
    *buffer = malloc(sizeof(state));
    MUST(*buffer != NULL);
    memcpy(*buffer, &game->now, sizeof(state));
    *len = sizeof(state);
    *checksum = (int)game->now.number;
    game->buffers++;
    return true;
}

static bool on_load(unsigned char *buffer, int len) {
    MUST(len == sizeof(state));
    memcpy(&game->now, buffer, sizeof(state));
    note();
    return true;
}

static void on_free(void *buffer) {
    free(buffer);
    game->buffers--;
}

static bool on_advance(int flags) {
    unsigned char inputs[PLAYERS * INPUT];
    MUST(flags == 0 && ggpo_synchronize_input(game->session, inputs, sizeof inputs, NULL) == GGPO_OK);
    step(inputs);
    return ggpo_advance_frame(game->session) == GGPO_OK;
}

static bool on_event(GGPOEvent *info) {
    MUST(info->code != FAZGGPO_EVENTCODE_DESYNC && info->code != FAZGGPO_EVENTCODE_MISMATCH);
    if (info->code == GGPO_EVENTCODE_DISCONNECTED_FROM_PEER) {
        MUST(info->u.disconnected.player == (game == &games[0] ? 2 : 1));
        game->left++;
    }
    return true;
}

static void begin(int me, int port) {
    GGPOSessionCallbacks calls = {
        .save_game_state = on_save, .load_game_state = on_load, .free_buffer = on_free, .advance_frame = on_advance, .on_event = on_event
    };
    GGPOPlayerHandle handle;
    game = &games[me];
    memset(game, 0, sizeof *game);
    MUST(ggpo_start_session(&game->session, &calls, "long inputs", PLAYERS, INPUT, (unsigned short)(port + me)) == GGPO_OK);
    MUST(fazggpo_set_match(game->session, 0x1234567890abcdefu) == GGPO_OK);
    MUST(fazggpo_set_speed(game->session, SPEED) == GGPO_OK && fazggpo_set_line(game->session, 60, 20, 0) == GGPO_OK);
    for (int player = 0; player < PLAYERS; player++) {
        GGPOPlayer added = { .size = sizeof added, .type = GGPO_PLAYERTYPE_REMOTE, .player_num = player + 1 };
        memcpy(added.u.remote.ip_address, "127.0.0.1", 10);
        added.u.remote.port = (unsigned short)(port + player);
        if (player == me)
            added.type = GGPO_PLAYERTYPE_LOCAL;
        MUST(ggpo_add_player(game->session, &added, &handle) == GGPO_OK);
    }
    MUST(ggpo_set_frame_delay(game->session, me + 1, me) == GGPO_OK);
}

static void turn(int me) {
    unsigned char input[INPUT], inputs[PLAYERS * INPUT];
    int flags = 0;
    game = &games[me];
    input_of(me, game->now.frame, input);
    GGPOErrorCode code = ggpo_add_local_input(game->session, me + 1, input, sizeof input);
    MUST(code == GGPO_OK || code == GGPO_ERRORCODE_PREDICTION_THRESHOLD || code == GGPO_ERRORCODE_NOT_SYNCHRONIZED);
    if (code == GGPO_OK) {
        MUST(ggpo_synchronize_input(game->session, inputs, sizeof inputs, &flags) == GGPO_OK);
        /* (a row may say that the other has left in the turn in which that is heard, before ggpo_idle tells of it) */
        MUST(flags == 0 || (is_alone && flags == 1 << (1 - me)));
        step(inputs);
        MUST(ggpo_advance_frame(game->session) == GGPO_OK);
    }
    MUST(ggpo_idle(game->session, 20) == GGPO_OK);
}

static int settled(int me) {
    int frames = 0;
    if (games[me].now.frame > 0)
        MUST(fazggpo_get_settled(games[me].session, &frames) == GGPO_OK);
    return frames;
}

/* Whether what a session has settled of a frame has a player's input, or nothing of it. */
static bool is_whole(const fazgrond_row *row, int player, int frame, bool *has_left) {
    uint32_t all = (1u << WORDS) - 1, gone = row->gone >> (player * WORDS) & all;
    if (gone != 0) {
        *has_left = true;
        return gone == all;
    }
    for (int at = 0; at < INPUT; at++) {
        uint32_t byte = row->words[player * WORDS + at / 4] >> (8 * (at % 4)) & 0xff;
        if (byte != (frame < player ? 0 : byte_of(player, frame - player, at)))
            return false;
    }
    return !*has_left;
}

static void compare(int me, bool has_left) {
    bool left[PLAYERS] = { false, false };
    int frames = settled(me);
    for (int frame = 0; frame < frames; frame++) {
        fazgrond_row row;
        MUST(fazgrond_settled_row(fazggpo_get_session(games[me].session), (uint32_t)frame, &row) == FAZGROND_OK);
        MUST(row.count == PLAYERS * WORDS);
        for (int player = 0; player < PLAYERS; player++)
            MUST(is_whole(&row, player, frame, &left[player]));
    }
    MUST(!left[me] && left[1 - me] == has_left);
}

/* A plain run's number at a frame. A player's first inputs are zeros as long as its delay. */
static unsigned number_at(int frame) {
    unsigned number = 0;
    for (int at = 0; at < frame; at++) {
        unsigned char inputs[PLAYERS * INPUT] = { 0 };
        for (int player = 0; player < PLAYERS; player++)
            if (at >= player)
                input_of(player, at - player, inputs + player * INPUT);
        number = number_after(number, inputs);
    }
    return number;
}

int main(int count, char **words) {
    MUST(count == 2);
    for (int me = 0; me < PLAYERS; me++)
        begin(me, atoi(words[1]));
    for (int turns = 0; settled(0) < FRAMES || settled(1) < FRAMES; turns++) {
        MUST(turns < 60 * FRAMES);
        turn(turns % 2);
    }
    MUST(games[0].at[FRAMES] == number_at(FRAMES) && games[1].at[FRAMES] == number_at(FRAMES));
    compare(0, false);
    compare(1, false);
    /* The second goes, with packets on their way; the first plays on alone. */
    game = &games[1];
    MUST(ggpo_close_session(game->session) == GGPO_OK && game->buffers == 0);
    is_alone = true;
    for (int turns = 0; games[0].left == 0 || settled(0) < FRAMES + 100; turns++) {
        MUST(turns < 60 * FRAMES);
        turn(0);
    }
    MUST(games[0].left == 1);
    compare(0, true);
    game = &games[0];
    MUST(ggpo_close_session(game->session) == GGPO_OK && game->buffers == 0);
    return 0;
}
