/* Two sessions in one process. First their inputs come at the worst moment, between a game's own step and its
 * ggpo_advance_frame: both must come to the state of a plain run all the same. Then one of them plays by other rules, and then
 * one means another match: both must be told. Then one gives no inputs, so that the other has to wait: its log must stand too,
 * and ggpo_idle show what comes. Then they play again and again on the same ports, without a word of who arranges it. At last what no
 * match can have is refused. It prints nothing if all is right. two_sessions PORT */
#include "../../check.h"

#include <fazgrond.h>
#include <ggponet.h>
#include <stdio.h>
#include <stdlib.h>
#include <string.h>

enum { FRAMES = 400, SPEED = 100 };

typedef struct state {
    int frame;
    unsigned number;
} state;

static struct game {
    state now;
    unsigned at[FRAMES + 1]; /* the number at each frame, as it was played last */
    int again, is_running, desyncs, mismatches, buffers;
    bool is_wrong; /* it plays by other rules */
    GGPOSession *session;
} games[2];

/* Which field of the other's match is to be told as another one. */
static int due_field;

/* The one of whom a call is being made: GGPO's callbacks aren't told. */
static struct game *game;

static unsigned char input_of(int player, int frame) {
    return (unsigned char)((unsigned)(frame / (player + 1) * 7 + player) * 2654435761u >> 24);
}

static void note(void) {
    if (game->now.frame <= FRAMES)
        game->at[game->now.frame] = game->now.number;
}

static void step(const unsigned char *inputs) {
    game->now.number = game->now.number * 31 + inputs[0] + 2u * inputs[1];
    if (game->is_wrong && game->now.frame > 100)
        game->now.number++;
    game->now.frame++;
    note();
}

static bool on_save(unsigned char **buffer, int *len, int *checksum, int frame) {
    MUST(frame == game->now.frame);
    *buffer = malloc(sizeof(state));
    MUST(*buffer != NULL);
    memcpy(*buffer, &game->now, sizeof(state));
    *len = sizeof(state);
    *checksum = (int)game->now.number;
    game->buffers++;
    return true;
}

static bool on_load(unsigned char *buffer, int len) {
    MUST(len == sizeof(state));
    memcpy(&game->now, buffer, sizeof(state));
    note();
    return true;
}

static void on_free(void *buffer) {
    free(buffer);
    game->buffers--;
}

static bool on_advance(int flags) {
    unsigned char inputs[2];
    MUST(flags == 0 && ggpo_synchronize_input(game->session, inputs, sizeof inputs, NULL) == GGPO_OK);
    game->again++;
    step(inputs);
    return ggpo_advance_frame(game->session) == GGPO_OK;
}

static bool on_event(GGPOEvent *info) {
    MUST(info->code != FAZGGPO_EVENTCODE_DROPPED);
    game->is_running |= info->code == GGPO_EVENTCODE_RUNNING;
    if (info->code == FAZGGPO_EVENTCODE_DESYNC) {
        MUST(info->u.desync.player == (game == &games[0] ? 2 : 1) && info->u.desync.frame > 100);
        game->desyncs++;
    }
    if (info->code == FAZGGPO_EVENTCODE_MISMATCH) {
        MUST(info->u.mismatch.player == (game == &games[0] ? 2 : 1) && info->u.mismatch.field == due_field);
        game->mismatches++;
    }
    return true;
}

/* Whether nothing is said of the match's number. */
static bool has_no_number;

/* Of a match: its inputs' bytes, its players, how many of them sit at each place, whether players can come back, its opening. */
typedef struct terms {
    int input_size, players, seats;
    bool lasts;
    uint64_t opening;
} terms;

static const terms plain = { 1, 2, 1, false, 5 };

static void begin_with(int me, int port, const terms *of) {
    GGPOSessionCallbacks calls = {
        .save_game_state = on_save, .load_game_state = on_load, .free_buffer = on_free, .advance_frame = on_advance, .on_event = on_event
    };
    GGPOPlayerHandle handle;
    game = &games[me];
    memset(game, 0, sizeof *game);
    MUST(ggpo_start_session(&game->session, &calls, "two sessions", of->players, of->input_size, (unsigned short)(port + me)) == GGPO_OK);
    MUST(fazggpo_set_opening(game->session, of->opening) == GGPO_OK);
    MUST(has_no_number || fazggpo_set_match(game->session, 0x1234567890abcdefu) == GGPO_OK);
    MUST(fazggpo_set_speed(game->session, SPEED) == GGPO_OK && ggpo_set_disconnect_timeout(game->session, 0) == GGPO_OK);
    MUST(!of->lasts || fazggpo_rejoin(game->session) == GGPO_OK);
    for (int player = 0; player < of->players; player++) {
        GGPOPlayer added = { .size = sizeof added, .type = GGPO_PLAYERTYPE_REMOTE, .player_num = player + 1 };
        memcpy(added.u.remote.ip_address, "127.0.0.1", 10);
        added.u.remote.port = (unsigned short)(port + player / of->seats);
        if (player / of->seats == me)
            added.type = GGPO_PLAYERTYPE_LOCAL;
        MUST(ggpo_add_player(game->session, &added, &handle) == GGPO_OK);
    }
}

static void begin(int me, int port) { begin_with(me, port, &plain); }

/* A turn of one of them. Between its own step and ggpo_advance_frame the other one may have a turn, and is heard. */
static void turn(int me, bool has_other) {
    unsigned char input = input_of(me, games[me].now.frame), inputs[2];
    game = &games[me];
    GGPOErrorCode code = ggpo_add_local_input(game->session, me + 1, &input, 1);
    MUST(code == GGPO_OK || code == GGPO_ERRORCODE_PREDICTION_THRESHOLD || code == GGPO_ERRORCODE_NOT_SYNCHRONIZED);
    if (code == GGPO_OK) {
        MUST(ggpo_synchronize_input(game->session, inputs, sizeof inputs, NULL) == GGPO_OK && inputs[me] == input);
        step(inputs);
        if (has_other) {
            turn(1 - me, false);
            game = &games[me];
        }
        MUST(ggpo_idle(game->session, 20) == GGPO_OK);
        MUST(ggpo_advance_frame(game->session) == GGPO_OK);
    }
    MUST(ggpo_idle(game->session, 20) == GGPO_OK);
}

static void end(void) {
    for (int me = 0; me < 2; me++) {
        game = &games[me];
        MUST(ggpo_close_session(game->session) == GGPO_OK && game->buffers == 0);
    }
}

/* How many frames both have settled. */
static int settled(void) {
    int frames[2] = { 0, 0 };
    for (int me = 0; me < 2; me++)
        if (games[me].now.frame > 0)
            MUST(fazggpo_get_settled(games[me].session, &frames[me]) == GGPO_OK);
    return frames[0] < frames[1] ? frames[0] : frames[1];
}

static void right(int port) {
    unsigned number = 0;
    for (int me = 0; me < 2; me++)
        begin(me, port);
    for (int turns = 0; settled() < FRAMES && turns < 20 * FRAMES; turns++)
        turn(turns % 2, turns % 3 != 0);
    MUST(settled() >= FRAMES && games[0].again > 0 && games[1].again > 0);
    for (int frame = 0; frame < FRAMES; frame++) {
        number = number * 31 + input_of(0, frame) + 2u * input_of(1, frame);
        MUST(games[0].at[frame + 1] == number && games[1].at[frame + 1] == number);
    }
    MUST(games[0].desyncs == 0 && games[1].desyncs == 0);
    end();
}

static void wrong(int port) {
    for (int me = 0; me < 2; me++)
        begin(me, port);
    games[1].is_wrong = true;
    for (int turns = 0; (games[0].desyncs == 0 || games[1].desyncs == 0) && turns < 20 * FRAMES; turns++)
        turn(turns % 2, false);
    MUST(games[0].desyncs > 0 && games[1].desyncs > 0);
    end();
}

static void are_told(void) {
    for (int turns = 0; (games[0].mismatches == 0 || games[1].mismatches == 0) && turns < 200; turns++) {
        game = &games[turns % 2];
        MUST(ggpo_idle(game->session, 20) == GGPO_OK);
    }
    MUST(games[0].mismatches > 0 && games[1].mismatches > 0 && !games[0].is_running && !games[1].is_running);
    end();
}

/* Two sessions that mean two matches. Each is told what the other has otherwise, whether the match's number is said or not. */
static void other_match(int port, int field, const terms *one, const terms *other) {
    for (int is_said = 0; is_said < 2; is_said++) {
        has_no_number = is_said == 0;
        due_field = field;
        begin_with(0, port, one);
        begin_with(1, port, other);
        are_told();
    }
    has_no_number = false;
}

static void other_matches(int port) {
    static const terms others[] = {
        [FAZGGPO_FIELD_MACHINES] = { 1, 3, 1, false, 5 }, [FAZGGPO_FIELD_SEATS] = { 5, 2, 1, false, 5 }, /* two words: others' places */
        [FAZGGPO_FIELD_GAME] = { 2, 2, 1, false, 5 },     [FAZGGPO_FIELD_WORDS] = { 4, 4, 2, false, 5 },
        [FAZGGPO_FIELD_REJOIN] = { 1, 2, 1, true, 5 },    [FAZGGPO_FIELD_OPENING] = { 1, 2, 1, false, 6 },
    };
    for (int field = FAZGGPO_FIELD_MACHINES; field <= FAZGGPO_FIELD_OPENING; field++)
        other_match(port, field, field == FAZGGPO_FIELD_WORDS ? &others[FAZGGPO_FIELD_SEATS] : &plain, &others[field]);
    other_match(port, FAZGGPO_FIELD_GAME, &plain, &(terms){ 4, 2, 1, false, 5 });
    other_match(port, FAZGGPO_FIELD_OPENING, &plain, &(terms){ 1, 2, 1, false, 0 });
    other_match(port, FAZGGPO_FIELD_OPENING, &(terms){ 1, 2, 1, true, 6 }, &others[FAZGGPO_FIELD_REJOIN]);
}

static size_t log_length(int me) {
    size_t entries = 0;
    MUST(fazgrond_log_length(fazggpo_get_session(games[me].session), &entries) == FAZGROND_OK);
    return entries;
}

/* The first plays on until it has to wait for the second, which only hears. */
static void wait_for_the_second(int port) {
    for (int me = 0; me < 2; me++)
        begin(me, port);
    for (int turns = 0; games[1].now.frame < 50; turns++)
        turn(turns % 2, false);
    for (int turns = 0; turns < 50; turns++) {
        game = &games[1];
        MUST(ggpo_idle(game->session, 20) == GGPO_OK);
        turn(0, false);
    }
    MUST(games[0].now.frame > games[1].now.frame && games[0].now.frame <= games[1].now.frame + 16);
}

static void standing(int port) {
    unsigned char input, inputs[2];
    wait_for_the_second(port);
    size_t entries = log_length(0);
    int frame = games[0].now.frame, again = games[0].again;
    for (int turns = 0; turns < 50; turns++)
        turn(0, false);
    MUST(log_length(0) == entries && games[0].now.frame == frame && games[0].again == again);
    /* frames of the second are shown by ggpo_idle alone */
    for (int turns = 0; turns < 3; turns++)
        turn(1, false);
    game = &games[0];
    for (int times = 0; times < 5; times++)
        MUST(ggpo_idle(game->session, 20) == GGPO_OK);
    MUST(game->now.frame == frame && game->again > again && log_length(0) > entries);
    /* a game that asks for the inputs of a frame that it can't go on from is told the same each time */
    while (game->now.frame < frame + 3)
        turn(0, false);
    for (int turns = 0; turns < 50; turns++) {
        input = input_of(0, game->now.frame);
        MUST(ggpo_add_local_input(game->session, 1, &input, 1) == GGPO_ERRORCODE_PREDICTION_THRESHOLD);
        MUST(ggpo_synchronize_input(game->session, inputs, sizeof inputs, NULL) == GGPO_OK);
        MUST(ggpo_idle(game->session, 20) == GGPO_OK);
        MUST(turns == 0 || log_length(0) == entries);
        entries = log_length(0);
    }
    end();
}

/* Match after match on the same ports. The first leaves and begins anew while the second is still in the match before. */
static void again_and_again(int port) {
    has_no_number = true;
    for (int me = 0; me < 2; me++)
        begin(me, port);
    for (int matches = 0; matches < 10; matches++) {
        for (int turns = 0; settled() < 60; turns++) {
            MUST(turns < 2000);
            turn(turns % 2, false);
        }
        for (int me = 0; me < 2; me++) {
            game = &games[me];
            MUST(game->desyncs == 0 && game->mismatches == 0 && ggpo_close_session(game->session) == GGPO_OK);
            MUST(game->buffers == 0);
            for (int times = 0; times < 3 && me == 0; times++) {
                game = &games[1];
                MUST(ggpo_idle(game->session, 20) == GGPO_OK);
            }
            begin(me, port);
        }
    }
    end();
}

/* A player gives one input in a turn: of two the first one counts. */
static void input_twice(int port) {
    unsigned char input = 1, other = 2, inputs[2];
    for (int me = 0; me < 2; me++)
        begin(me, port);
    for (int turns = 0; games[0].now.frame < 50; turns++)
        turn(turns % 2, false);
    do {
        turn(1, false);
        game = &games[0];
        MUST(ggpo_idle(game->session, 20) == GGPO_OK);
    } while (ggpo_add_local_input(game->session, 1, &input, 1) != GGPO_OK);
    MUST(ggpo_add_local_input(game->session, 1, &other, 1) == GGPO_ERRORCODE_INVALID_REQUEST);
    MUST(strcmp(ggpo_last_error(game->session), "player 1 gave an input for this frame already") == 0);
    MUST(ggpo_synchronize_input(game->session, inputs, sizeof inputs, NULL) == GGPO_OK && inputs[0] == input);
    end();
}

/* Nobody else can be at the address of this machine. */
static void own_address(int port) {
    GGPOPlayerHandle handle;
    GGPOPlayer added = { .size = sizeof added, .type = GGPO_PLAYERTYPE_REMOTE, .player_num = 3 };
    GGPOSessionCallbacks calls = {
        .save_game_state = on_save, .load_game_state = on_load, .free_buffer = on_free, .advance_frame = on_advance, .on_event = on_event
    };
    game = &games[0];
    MUST(ggpo_start_session(&game->session, &calls, "own address", 3, 1, (unsigned short)port) == GGPO_OK);
    for (int player = 3; player >= 1; player--) {
        added.player_num = player;
        added.type = player == 1 ? GGPO_PLAYERTYPE_LOCAL : GGPO_PLAYERTYPE_REMOTE;
        memcpy(added.u.remote.ip_address, "127.0.0.1", 10);
        added.u.remote.port = (unsigned short)(port + player % 3);
        MUST(ggpo_add_player(game->session, &added, &handle) == GGPO_OK);
    }
    MUST(ggpo_idle(game->session, 0) == GGPO_ERRORCODE_INVALID_REQUEST);
    MUST(strcmp(ggpo_last_error(game->session), "player 3 has this machine's own address") == 0);
    MUST(ggpo_close_session(game->session) == GGPO_OK);
}

int main(int count, char **words) {
    MUST(count == 2);
    right(atoi(words[1]));
    wrong(atoi(words[1]));
    other_matches(atoi(words[1]));
    standing(atoi(words[1]));
    again_and_again(atoi(words[1]));
    input_twice(atoi(words[1]));
    own_address(atoi(words[1]));
    return 0;
}
