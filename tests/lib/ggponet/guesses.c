/* Two sessions in one process, which guess what each other's player does. Their helper is asked in the same thread, after each
 * turn. Each settled state must be that of a plain run, with fewer frames played again than without guesses. A helper
 * that can't run its jobs must change nothing. It prints nothing if all is right. guesses PORT */
#include "../../check.h"

#include <ggponet.h>
#include <stdio.h>
#include <stdlib.h>
#include <string.h>

enum { FRAMES = 600, SPEED = 20, TURN = 17, LAG = 60, JOBS = 4 };

typedef struct state {
    int frame;
    unsigned number;
} state;

static struct game {
    state now;
    int again, buffers;
    GGPOSession *session;
} games[2];

static unsigned plain[FRAMES + 100]; /* the number at each frame of a plain run */

/* The one of whom a call is being made: GGPO's callbacks aren't told. */
static struct game *game;

/* A helper: its state, and after how many jobs it can't go on. */
static struct {
    state now;
    int calls, fails_each;
} helped;

/* Each player presses a button and lets it go, each in its own time. */
static unsigned char input_of(int player, int frame) { return player == 0 ? frame % 10 < 4 ? 5 : 6 : frame % 12 < 7 ? 3 : 8; }

static void step(state *of, const unsigned char *inputs) {
    of->number = of->number * 31 + inputs[0] + 2u * inputs[1];
    of->frame++;
}

static bool save(const state *of, unsigned char **buffer, int *len, int *checksum) {
    *buffer = malloc(sizeof *of);
    MUST(*buffer != NULL);
    memcpy(*buffer, of, sizeof *of);
    *len = sizeof *of;
    *checksum = (int)of->number;
    game->buffers++;
    return true;
}

static bool on_save(unsigned char **buffer, int *len, int *checksum, int frame) {
    MUST(frame == game->now.frame);
    return save(&game->now, buffer, len, checksum);
}

static bool on_load(unsigned char *buffer, int len) {
    MUST(len == sizeof(state));
    memcpy(&game->now, buffer, sizeof(state));
    return true;
}

static void on_free(void *buffer) {
    free(buffer);
    game->buffers--;
}

static bool on_advance(int flags) {
    unsigned char inputs[2];
    MUST(flags == 0 && ggpo_synchronize_input(game->session, inputs, sizeof inputs, NULL) == GGPO_OK);
    step(&game->now, inputs);
    game->again++;
    return ggpo_advance_frame(game->session) == GGPO_OK;
}

static bool on_event(GGPOEvent *info) {
    MUST(info->code != FAZGGPO_EVENTCODE_DESYNC && info->code != FAZGGPO_EVENTCODE_DROPPED);
    return true;
}

static bool can_help(void) { return helped.fails_each == 0 || ++helped.calls % helped.fails_each != 0; }

static bool helper_load(void *helper, const unsigned char *buffer, int len) {
    MUST(helper == &helped && len == sizeof(state));
    memcpy(&helped.now, buffer, sizeof(state));
    return can_help();
}

static bool helper_advance(void *helper, const void *inputs, int size, int gone) {
    MUST(helper == &helped && size == 2 && gone == 0);
    step(&helped.now, inputs);
    return can_help();
}

static bool helper_save(void *helper, unsigned char **buffer, int *len, int *checksum, int frame) {
    MUST(helper == &helped && frame == helped.now.frame);
    return can_help() && save(&helped.now, buffer, len, checksum);
}

static void begin(int me, int port) {
    GGPOSessionCallbacks calls = {
        .save_game_state = on_save, .load_game_state = on_load, .free_buffer = on_free, .advance_frame = on_advance, .on_event = on_event
    };
    GGPOPlayerHandle handle;
    game = &games[me];
    memset(game, 0, sizeof *game);
    MUST(ggpo_start_session(&game->session, &calls, "guesses", 2, 1, (unsigned short)(port + me)) == GGPO_OK);
    MUST(fazggpo_set_speed(game->session, SPEED) == GGPO_OK && ggpo_set_disconnect_timeout(game->session, 0) == GGPO_OK);
    MUST(fazggpo_set_line(game->session, LAG, 0, 0) == GGPO_OK);
    for (int player = 0; player < 2; player++) {
        GGPOPlayer added = { .size = sizeof added, .type = GGPO_PLAYERTYPE_REMOTE, .player_num = player + 1 };
        memcpy(added.u.remote.ip_address, "127.0.0.1", 10);
        added.u.remote.port = (unsigned short)(port + player);
        if (player == me)
            added.type = GGPO_PLAYERTYPE_LOCAL;
        MUST(ggpo_add_player(game->session, &added, &handle) == GGPO_OK);
    }
}

static void turn(int me) {
    unsigned char input = input_of(me, games[me].now.frame), inputs[2];
    game = &games[me];
    GGPOErrorCode code = ggpo_add_local_input(game->session, me + 1, &input, 1);
    MUST(code == GGPO_OK || code == GGPO_ERRORCODE_PREDICTION_THRESHOLD || code == GGPO_ERRORCODE_NOT_SYNCHRONIZED);
    if (code == GGPO_OK) {
        MUST(ggpo_synchronize_input(game->session, inputs, sizeof inputs, NULL) == GGPO_OK);
        step(&game->now, inputs);
        MUST(ggpo_advance_frame(game->session) == GGPO_OK);
    }
    MUST(ggpo_idle(game->session, TURN) == GGPO_OK);
}

/* The helper runs all jobs of a session that are there. A session isn't closed while it is at work. */
static void help(int me) {
    const FazggpoHelper helper = {
        .helper = &helped, .load_state = helper_load, .advance_state = helper_advance, .save_state = helper_save
    };
    FazggpoJob *job;
    game = &games[me];
    while ((job = fazggpo_fetch_job(game->session, 0)) != NULL) {
        MUST(ggpo_close_session(game->session) == GGPO_ERRORCODE_INVALID_REQUEST);
        fazggpo_run_job(job, &helper);
    }
}

/* How many frames are settled, whose state has to be the one of a plain run. */
static int settled(int me) {
    unsigned char *buffer;
    state seen;
    int frame, length;
    if (fazggpo_get_settled_state(games[me].session, &frame, &buffer, &length) != GGPO_OK)
        return 0;
    MUST(length == sizeof seen);
    memcpy(&seen, buffer, sizeof seen);
    MUST(seen.frame == frame && frame < FRAMES + 100 && seen.number == plain[frame]);
    return frame;
}

static void play_plain(void) {
    state now = { 0, 0 };
    while (now.frame + 1 < FRAMES + 100) {
        unsigned char inputs[2] = { input_of(0, now.frame), input_of(1, now.frame) };
        step(&now, inputs);
        plain[now.frame] = now.number;
    }
}

/* Adds what became of a session's guesses, and of its frames, and ends it. */
static void end(int me, FazggpoGuesses *sum, int *again) {
    FazggpoGuesses guesses;
    game = &games[me];
    MUST(fazggpo_get_guesses(game->session, &guesses) == GGPO_OK);
    sum->made += guesses.made;
    sum->run += guesses.run;
    sum->grafted += guesses.grafted;
    sum->used += guesses.used;
    *again += game->again;
    MUST(ggpo_close_session(game->session) == GGPO_OK && game->buffers == 0);
}

/* Plays a match with so many jobs after each frame, and says what became of them and how many frames were played again. */
static FazggpoGuesses play(int port, int jobs, int *again) {
    FazggpoGuesses guesses = { 0, 0, 0, 0 };
    *again = 0;
    for (int me = 0; me < 2; me++) {
        begin(me, port);
        MUST(jobs == 0 || fazggpo_guess(game->session, jobs) == GGPO_OK);
    }
    for (int turns = 0; settled(0) < FRAMES || settled(1) < FRAMES; turns++) {
        MUST(turns < 20 * FRAMES);
        turn(turns % 2);
        help(turns % 2);
    }
    for (int me = 0; me < 2; me++)
        end(me, &guesses, again);
    return guesses;
}

static void refused(int port) {
    FazggpoGuesses guesses;
    begin(0, port);
    MUST(fazggpo_guess(NULL, 1) == GGPO_ERRORCODE_INVALID_SESSION);
    MUST(fazggpo_guess(game->session, -1) == GGPO_ERRORCODE_INVALID_REQUEST);
    MUST(fazggpo_guess(game->session, 65) == GGPO_ERRORCODE_INVALID_REQUEST);
    MUST(fazggpo_get_guesses(NULL, &guesses) == GGPO_ERRORCODE_INVALID_SESSION);
    MUST(fazggpo_get_guesses(game->session, NULL) == GGPO_ERRORCODE_INVALID_REQUEST);
    MUST(fazggpo_fetch_job(NULL, 1) == NULL && fazggpo_fetch_job(game->session, 1) == NULL);
    MUST(fazggpo_guess(game->session, 64) == GGPO_OK && fazggpo_fetch_job(game->session, 0) == NULL);
    MUST(ggpo_close_session(game->session) == GGPO_OK);
}

int main(int count, char **words) {
    int unguessed, guessed, failing;
    MUST(count == 2);
    int port = atoi(words[1]);
    play_plain();
    refused(port);
    FazggpoGuesses none = play(port, 0, &unguessed);
    MUST(none.made == 0 && none.used == 0);
    FazggpoGuesses some = play(port, JOBS, &guessed);
    MUST(some.made >= some.run && some.run > 100 && some.grafted > 100 && some.used > 10 && guessed < unguessed);
    helped.fails_each = 7;
    FazggpoGuesses few = play(port, JOBS, &failing);
    MUST(few.run > 100 && few.grafted < some.grafted);
    return 0;
}
