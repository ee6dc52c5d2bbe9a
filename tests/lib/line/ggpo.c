/* A game over GGPO's calls whose wire is lines: two machines and a spectator of the second one, in one process. They must come to what
 * a plain run comes to, and each pair must have the number that its line has. Then the same without a spectator, and the second machine
 * stops, and comes back over another line. It prints nothing if all is right. */
#define _POSIX_C_SOURCE 200809L

#include "../../check.h"
#include "faz_line.h"

#include <ggponet.h>
#include <stdio.h>
#include <stdlib.h>
#include <string.h>
#include <time.h>

enum { PLAYERS = 2, VIEWER = 2, ALL = 3, FRAMES = 300, MOST = 3000, SPEED = 10, PATIENCE = 20000 /* turns */ };

static struct game {
    int frame;
    unsigned number;
    unsigned at[MOST]; /* the number at each frame, as it was played last */
    int again, buffers, epochs;
    GGPOSession *session;
    faz_line *lines[ALL]; /* to each other machine; null if there is none */
} games[ALL];

/* The one of whom a call is being made: GGPO's callbacks aren't told. */
static struct game *game;

static uint32_t millis(void) {
    struct timespec now;
    clock_gettime(CLOCK_MONOTONIC, &now);
    return (uint32_t)((uint64_t)now.tv_sec * 1000 + (uint64_t)now.tv_nsec / 1000000);
}

/* ---- lines */

/* What is named so: the second machine is the spectator's host. */
static GGPOPlayerHandle name_of(const struct game *of, int machine) {
    return of == &games[VIEWER] ? 0 : machine == VIEWER ? 1000 : machine + 1;
}

static void on_send(void *wire, GGPOPlayerHandle to, const unsigned char *bytes, int length) {
    struct game *of = wire;
    for (int machine = 0; machine < ALL; machine++)
        if (of->lines[machine] != NULL && name_of(of, machine) == to)
            (void)faz_line_send(of->lines[machine], bytes, (size_t)length);
}

static bool on_receive(void *wire, GGPOPlayerHandle *from, unsigned char *bytes, int room, int *length) {
    struct game *of = wire;
    for (int machine = 0; machine < ALL; machine++) {
        size_t size;
        if (of->lines[machine] == NULL || !faz_line_receive(of->lines[machine], bytes, (size_t)room, &size))
            continue;
        *from = name_of(of, machine);
        *length = (int)size;
        return true;
    }
    return false;
}

static void open_end(int me, int other, faz_line_keys *keys, const uint8_t *their) {
    faz_line_settings settings = { .me = (uint32_t)me, .other = (uint32_t)other, .keys = keys, .their = their, .any_sender = true };
    const char *why;
    games[me].lines[other] = faz_line_open(&settings, &why);
    MUST(games[me].lines[other] != NULL);
}

static void open_pair(int one, int other) {
    faz_line_keys keys[2];
    uint8_t open[2][FAZ_LINE_KEY];
    for (int at = 0; at < 2; at++) {
        MUST(faz_line_draw(&keys[at]));
        memcpy(open[at], keys[at].open, FAZ_LINE_KEY);
    }
    open_end(one, other, &keys[0], open[1]);
    open_end(other, one, &keys[1], open[0]);
    MUST(faz_line_number(games[one].lines[other]) == faz_line_number(games[other].lines[one]));
}

static void close_pair(int one, int other) {
    faz_line_close(games[one].lines[other]);
    faz_line_close(games[other].lines[one]);
    games[one].lines[other] = games[other].lines[one] = NULL;
}

/* What a line tells is carried to its other end at once. */
static void turn_lines(int me) {
    for (int other = 0; other < ALL; other++) {
        faz_line *line = games[me].lines[other], *end = games[other].lines[me];
        uint8_t bytes[FAZ_LINE_SIGNAL];
        size_t length;
        if (line == NULL)
            continue;
        faz_line_turn(line, millis());
        while (faz_line_signal(line, bytes, sizeof bytes, &length))
            MUST(faz_line_signalled(end, bytes, length));
    }
}

/* Whether all datagrams that came were taken: none was forged, or in another's name. */
static void is_clean(int me, int other) {
    faz_line_state state;
    faz_line_look(games[me].lines[other], &state);
    MUST(state.stage == FAZ_LINE_UP && state.way == FAZ_LINE_LAN && state.received > 100);
    MUST(state.forged == 0 && state.misnamed == 0 && state.dropped == 0);
}

/* ---- the game */

static unsigned short input_of(int player, int frame) {
    return (unsigned short)((unsigned)(frame / (player + 1) * 7 + player) * 2654435761u >> 16);
}

static unsigned step_of(unsigned number, const unsigned short *inputs) { return (number * 31 + inputs[0]) * 31 + inputs[1]; }

static void note(void) {
    MUST(game->frame < MOST);
    game->at[game->frame] = game->number;
}

static void step(const unsigned short *inputs) {
    game->number = step_of(game->number, inputs);
    game->frame++;
    note();
}

static bool on_save(unsigned char **buffer, int *len, int *checksum, int frame) {
    MUST(frame == game->frame);
    *len = 2 * sizeof(int);
    *buffer = malloc((size_t)*len);
    MUST(*buffer != NULL);
    memcpy(*buffer, game, (size_t)*len);
    *checksum = (int)game->number;
    game->buffers++;
    return true;
}

static bool on_load(unsigned char *buffer, int len) {
    MUST(len == 2 * sizeof(int));
    memcpy(game, buffer, (size_t)len);
    note();
    return true;
}

static void on_free(void *buffer) {
    free(buffer);
    game->buffers--;
}

static bool on_advance(int flags) {
    unsigned short inputs[PLAYERS];
    MUST(flags == 0 && ggpo_synchronize_input(game->session, inputs, sizeof inputs, NULL) == GGPO_OK);
    game->again++;
    step(inputs);
    return ggpo_advance_frame(game->session) == GGPO_OK;
}

static bool on_event(GGPOEvent *info) {
    MUST(info->code != FAZGGPO_EVENTCODE_DESYNC && info->code != FAZGGPO_EVENTCODE_DROPPED);
    game->epochs += info->code == FAZGGPO_EVENTCODE_EPOCH;
    return true;
}

static GGPOSessionCallbacks calls = {
    .save_game_state = on_save, .load_game_state = on_load, .free_buffer = on_free, .advance_frame = on_advance, .on_event = on_event
};
static char name[] = "lines", nowhere[] = "240.0.0.1";

/* It loses a tenth of what it sends, and keeps the rest for a while. */
static void set_up(int me) {
    FazggpoWire wire = { &games[me], on_send, on_receive };
    MUST(fazggpo_set_wire(game->session, &wire) == GGPO_OK && fazggpo_set_line(game->session, 40, 10, 0) == GGPO_OK);
    MUST(fazggpo_set_speed(game->session, SPEED) == GGPO_OK && ggpo_set_disconnect_timeout(game->session, 0) == GGPO_OK);
}

static void add(GGPOPlayerType type, int number, int machine) {
    GGPOPlayer added = { .size = sizeof added, .type = type, .player_num = number };
    GGPOPlayerHandle handle;
    memcpy(added.u.remote.ip_address, nowhere, sizeof nowhere);
    added.u.remote.port = (unsigned short)(1 + machine);
    MUST(ggpo_add_player(game->session, &added, &handle) == GGPO_OK);
}

/* The numbers of pairs are those of their lines. */
static void say_numbers(int me) {
    for (int other = 0; other < ALL; other++) {
        faz_line *line = games[me].lines[other];
        MUST(line == NULL || fazggpo_set_number(game->session, name_of(game, other), faz_line_number(line)) == GGPO_OK);
    }
}

static void begin(int me) {
    game = &games[me];
    MUST(ggpo_start_session(&game->session, &calls, name, PLAYERS, sizeof(short), 0) == GGPO_OK);
    set_up(me);
    for (int player = 0; player < PLAYERS; player++)
        add(player == me ? GGPO_PLAYERTYPE_LOCAL : GGPO_PLAYERTYPE_REMOTE, player + 1, player);
    if (game->lines[VIEWER] != NULL)
        add(GGPO_PLAYERTYPE_SPECTATOR, 0, VIEWER);
}

static void begin_viewer(void) {
    game = &games[VIEWER];
    MUST(ggpo_start_spectating(&game->session, &calls, name, PLAYERS, sizeof(short), 0, nowhere, 2) == GGPO_OK);
    set_up(VIEWER);
}

static void turn(int me) {
    unsigned short input = input_of(me, games[me].frame), inputs[PLAYERS];
    game = &games[me];
    turn_lines(me);
    GGPOErrorCode code = ggpo_add_local_input(game->session, me + 1, &input, sizeof input);
    if (code == GGPO_OK)
        code = ggpo_synchronize_input(game->session, inputs, sizeof inputs, NULL);
    MUST(code == GGPO_OK || code == GGPO_ERRORCODE_PREDICTION_THRESHOLD || code == GGPO_ERRORCODE_NOT_SYNCHRONIZED);
    if (code == GGPO_OK) {
        step(inputs);
        MUST(ggpo_advance_frame(game->session) == GGPO_OK);
    }
    MUST(ggpo_idle(game->session, 10) == GGPO_OK);
}

static void turn_all(int count) {
    for (int me = 0; me < count; me++)
        turn(me);
}

static int settled(int me) {
    int frame = 0;
    return fazggpo_get_settled(games[me].session, &frame) == GGPO_OK ? frame : 0;
}

static int settled_by_both(void) { return settled(0) < settled(1) ? settled(0) : settled(1); }

static void end(int me) {
    game = &games[me];
    MUST(ggpo_close_session(game->session) == GGPO_OK && game->buffers == 0);
}

/* ---- what is tried */

static void plays(void) {
    unsigned number = 0;
    open_pair(0, 1);
    open_pair(1, VIEWER);
    for (int me = 0; me < PLAYERS; me++)
        begin(me);
    begin_viewer();
    for (int me = 0; me < ALL; me++) {
        game = &games[me];
        say_numbers(me);
    }
    for (int turns = 0; settled_by_both() < FRAMES || games[VIEWER].frame < FRAMES; turns++) {
        MUST(turns < PATIENCE);
        turn_all(ALL);
    }
    for (int frame = 0; frame < FRAMES; frame++) {
        unsigned short inputs[PLAYERS] = { input_of(0, frame), input_of(1, frame) };
        number = step_of(number, inputs);
        for (int me = 0; me < ALL; me++)
            MUST(games[me].at[frame + 1] == number);
    }
    MUST(games[0].again > 0 && games[1].again > 0);
    is_clean(0, 1), is_clean(1, 0), is_clean(1, VIEWER), is_clean(VIEWER, 1);
    for (int me = 0; me < ALL; me++)
        end(me);
    close_pair(0, 1);
    close_pair(1, VIEWER);
}

/* Without the line there is no way, so that what the stopped machine still says is heard by nobody. */
static void stop(int me) {
    close_pair(0, 1);
    end(me);
    memset(&games[me], 0, sizeof games[me]);
}

static void comes_back(void) {
    int from = 0;
    memset(games, 0, sizeof games);
    open_pair(0, 1);
    for (int me = 0; me < PLAYERS; me++) {
        begin(me);
        MUST(fazggpo_rejoin(game->session) == GGPO_OK);
    }
    while (games[0].frame < 100)
        turn_all(PLAYERS);
    stop(1);
    for (int turns = 0; turns < 20; turns++)
        turn(0);
    open_pair(0, 1);
    begin(1);
    MUST(fazggpo_rejoin(game->session) == GGPO_OK);
    for (int turns = 0; games[1].epochs == 0 || settled_by_both() < games[1].frame - 20 || games[1].frame < 400; turns++) {
        MUST(turns < PATIENCE);
        turn_all(PLAYERS);
    }
    MUST(fazggpo_get_settled_from(games[1].session, &from) == GGPO_OK && settled_by_both() > from + 50);
    for (int frame = from; frame < settled_by_both(); frame++) {
        unsigned short inputs[PLAYERS];
        MUST(fazggpo_get_settled_input(games[0].session, frame, inputs, sizeof inputs, NULL) == GGPO_OK);
        MUST(games[0].at[frame + 1] == step_of(games[0].at[frame], inputs) && games[1].at[frame + 1] == games[0].at[frame + 1]);
    }
    is_clean(0, 1), is_clean(1, 0);
    for (int me = 0; me < PLAYERS; me++)
        end(me);
    close_pair(0, 1);
}

int main(void) {
    plays();
    comes_back();
    return 0;
}
