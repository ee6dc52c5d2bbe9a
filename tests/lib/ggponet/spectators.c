/* Spectators in one process with the two players of their match. They must step by the inputs of a plain run, and be told the
 * events that they should; whatever they do, the players must play on. It prints nothing if all is right. spectators PORT */
#include "../../check.h"

#include <ggponet.h>
#include <stdio.h>
#include <stdlib.h>
#include <string.h>

enum { FRAMES = 400, PLAYERS = 2, VIEWERS = 3, ALL = PLAYERS + VIEWERS, TIMEOUT = 5000, HOST = 0 };

/* A player, or from PLAYERS on a viewer. All watch the machine of player 1. */
static struct game {
    int frame;
    unsigned number;
    unsigned at[FRAMES + 100]; /* the number at each frame, as it was played last */
    int buffers;
    char events[400]; /* what it was told of lines */
    GGPOSession *session;
} games[ALL];

/* The one of whom a call is being made: GGPO's callbacks aren't told. */
static struct game *game;
static int port, speed, timeout; /* the clock's speed, and the time after which who is silent is gone */

static unsigned short input_of(int player, int frame) {
    return (unsigned short)((unsigned)(frame / (player + 1) * 7 + player) * 2654435761u >> 16);
}

static void step(const unsigned short *inputs) {
    game->number = game->number * 31 + inputs[0] + 2u * inputs[1];
    game->frame++;
    if (game->frame < FRAMES + 100)
        game->at[game->frame] = game->number;
}

static bool on_save(unsigned char **buffer, int *len, int *checksum, int frame) {
    MUST(frame == game->frame && game < games + PLAYERS);
    *len = 2 * sizeof(int);
    *buffer = malloc((size_t)*len);
    MUST(*buffer != NULL);
    memcpy(*buffer, game, (size_t)*len);
    *checksum = (int)game->number;
    game->buffers++;
    return true;
}

static bool on_load(unsigned char *buffer, int len) {
    MUST(game < games + PLAYERS);
    memcpy(game, buffer, (size_t)len);
    return true;
}

static void on_free(void *buffer) {
    free(buffer);
    game->buffers--;
}

static bool on_advance(int flags) {
    unsigned short inputs[2];
    MUST(flags == 0 && game < games + PLAYERS);
    MUST(ggpo_synchronize_input(game->session, inputs, sizeof inputs, NULL) == GGPO_OK);
    step(inputs);
    return ggpo_advance_frame(game->session) == GGPO_OK;
}

/* Notes an event of a line by its number, and at a host the viewer's. */
static bool on_event(GGPOEvent *info) {
    char text[40];
    int handle = info->u.connected.player;
    if (info->code == GGPO_EVENTCODE_TIMESYNC || (game < games + PLAYERS && handle < 1000))
        return true;
    MUST(game < games + PLAYERS || handle == 0);
    if (info->code == GGPO_EVENTCODE_SYNCHRONIZING_WITH_PEER)
        MUST(info->u.synchronizing.count == 1 && info->u.synchronizing.total == 2);
    int left = info->u.connection_interrupted.disconnect_timeout;
    if (info->code == GGPO_EVENTCODE_CONNECTION_INTERRUPTED)
        MUST(left >= 0 && left < TIMEOUT); /* 0 if this process stood still meanwhile */
    snprintf(text, sizeof text, handle == 0 ? "%d " : "%d:%d ", info->code, handle);
    MUST(strlen(game->events) + strlen(text) < sizeof game->events);
    strcat(game->events, text);
    return true;
}

static GGPOSessionCallbacks calls = {
    .save_game_state = on_save, .load_game_state = on_load, .free_buffer = on_free, .advance_frame = on_advance, .on_event = on_event
};

static void set_up(void) {
    MUST(fazggpo_set_speed(game->session, speed) == GGPO_OK);
    MUST(ggpo_set_disconnect_timeout(game->session, timeout) == GGPO_OK);
    MUST(fazggpo_set_opening(game->session, 5) == GGPO_OK);
    MUST(timeout != 0 || ggpo_set_disconnect_notify_start(game->session, 1000000) == GGPO_OK);
}

static GGPOErrorCode add(GGPOPlayerType type, int number, int at) {
    GGPOPlayer added = { .size = sizeof added, .type = type, .player_num = number };
    GGPOPlayerHandle handle;
    memcpy(added.u.remote.ip_address, "127.0.0.1", 10);
    added.u.remote.port = (unsigned short)at;
    GGPOErrorCode code = ggpo_add_player(game->session, &added, &handle);
    MUST(code != GGPO_OK || type != GGPO_PLAYERTYPE_SPECTATOR || handle == 1000 + at - port - PLAYERS);
    return code;
}

static void begin_player(int me, uint64_t number) {
    game = &games[me];
    MUST(ggpo_start_session(&game->session, &calls, "spectators", 2, sizeof(short), (unsigned short)(port + me)) == GGPO_OK);
    set_up();
    MUST(fazggpo_set_match(game->session, 77) == GGPO_OK);
    if (number != 0)
        MUST(fazggpo_set_spectators(game->session, number) == GGPO_OK);
    for (int player = 0; player < PLAYERS; player++)
        MUST(add(player == me ? GGPO_PLAYERTYPE_LOCAL : GGPO_PLAYERTYPE_REMOTE, player + 1, port + player) == GGPO_OK);
    for (int viewer = PLAYERS; viewer < ALL && me == HOST; viewer++)
        MUST(add(GGPO_PLAYERTYPE_SPECTATOR, 0, port + viewer) == GGPO_OK);
}

static void begin_viewer(int me, uint64_t number, int input_size) {
    char host[] = "127.0.0.1";
    game = &games[me];
    MUST(ggpo_start_spectating(&game->session, &calls, "spectators", 2, input_size, (unsigned short)(port + me), host,
                               (unsigned short)(port + HOST))
         == GGPO_OK);
    set_up();
    MUST(fazggpo_set_spectators(game->session, number) == GGPO_OK);
}

static void begin(uint64_t number, bool is_timed) {
    memset(games, 0, sizeof games);
    speed = is_timed ? 10 : 100;
    timeout = is_timed ? TIMEOUT : 0;
    for (int me = 0; me < PLAYERS; me++)
        begin_player(me, number);
}

/* A turn of each one whose bit is set. */
static void turn(unsigned who) {
    for (int me = 0; me < ALL; me++) {
        unsigned short input = input_of(me, games[me].frame), inputs[2];
        int flags = 5;
        game = &games[me];
        if ((who >> me & 1) == 0)
            continue;
        GGPOErrorCode code = ggpo_add_local_input(game->session, me + 1, &input, sizeof input);
        MUST(me < PLAYERS || code == GGPO_OK);
        if (code == GGPO_OK)
            code = ggpo_synchronize_input(game->session, inputs, sizeof inputs, &flags);
        if (code == GGPO_OK && me >= PLAYERS) /* the same again, as it wasn't played */
            MUST(ggpo_synchronize_input(game->session, inputs, sizeof inputs, &flags) == GGPO_OK && flags == 0);
        if (code == GGPO_OK) {
            step(inputs);
            MUST(ggpo_advance_frame(game->session) == GGPO_OK);
        }
        MUST(ggpo_idle(game->session, 16) == GGPO_OK);
    }
}

/* Turns, until one was told an event. */
static void until(unsigned who, int me, const char *event) {
    for (int turns = 0; strstr(games[me].events, event) == NULL; turns++) {
        MUST(turns < 3000);
        turn(who);
    }
}

static void close_one(int me) {
    game = &games[me];
    MUST(ggpo_close_session(game->session) == GGPO_OK && game->buffers == 0);
}

static void is_told(int me, const char *events) {
    if (strcmp(games[me].events, events) == 0)
        return;
    fprintf(stderr, "%d was told %s\nand not %s\n", me, games[me].events, events);
    exit(1);
}

static void is_right(int me, int frames) {
    unsigned number = 0;
    MUST(games[me].frame >= frames);
    for (int frame = 0; frame < frames; frame++) {
        number = number * 31 + input_of(0, frame) + 2u * input_of(1, frame);
        MUST(games[me].at[frame + 1] == number);
    }
}

static int watched(int viewer) {
    int frame = -1;
    return fazggpo_get_watched(games[HOST].session, 1000 + viewer, &frame) == GGPO_OK ? frame : -1;
}

/* Viewer 0 is there from the beginning, viewer 1 comes late, viewer 2 never. Then the host leaves. */
static void right(void) {
    int settled;
    unsigned short inputs[2];
    begin(99, false);
    begin_viewer(2, 99, sizeof(short));
    MUST(fazggpo_get_settled(games[2].session, &settled) == GGPO_ERRORCODE_NOT_SYNCHRONIZED);
    MUST(ggpo_synchronize_input(games[2].session, inputs, sizeof inputs, NULL) == GGPO_ERRORCODE_NOT_SYNCHRONIZED);
    while (games[0].frame < 150)
        turn(7);
    MUST(watched(0) > 100 && watched(1) == -1);
    begin_viewer(3, 99, sizeof(short));
    while (games[0].frame < 350 || games[1].frame < 350)
        turn(15);
    MUST(fazggpo_get_settled(games[3].session, &settled) == GGPO_OK && settled > 300 && games[3].frame < settled - 50);
    while (watched(0) < 340 || watched(1) < 340)
        turn(15);
    close_one(1);
    close_one(HOST);
    for (int me = 2; me < 4; me++) {
        until(1u << me, me, "1004 ");
        for (int turns = 0; turns < 100; turns++)
            turn(1u << me);
        is_right(me, 340);
        is_told(me, "1000 1001 1002 1003 1004 ");
        game = &games[me];
        MUST(ggpo_synchronize_input(game->session, inputs, sizeof inputs, NULL) == GGPO_ERRORCODE_PLAYER_DISCONNECTED);
        close_one(me);
    }
    is_told(HOST, "1000:1000 1001:1000 1002:1000 1000:1001 1001:1001 1002:1001 ");
}

/* Viewer 0 is silent, for a while and then for good, and hears of that; viewer 1 has a wrong number; viewer 2 leaves. */
static void silent(void) {
    begin(0, true);
    begin_viewer(2, 77, sizeof(short));
    begin_viewer(3, 99, sizeof(short));
    begin_viewer(4, 77, sizeof(short));
    while (games[0].frame < 30 || games[4].frame < 10)
        turn(31);
    close_one(4);
    until(7, HOST, "1004:1002 ");
    until(3, HOST, "1006:1000 ");
    until(7, HOST, "1007:1000 ");
    until(3, HOST, "1004:1000 ");
    MUST(watched(0) == -1 && games[0].frame > 100);
    is_told(3, "");
    is_right(HOST, games[0].frame - 20 < FRAMES ? games[0].frame - 20 : FRAMES);
    until(4, 2, "1004 ");
    for (int me = 0; me < 4; me++)
        close_one(me);
}

/* Viewer 1 means another game by its size of inputs, or by its opening. */
static void other_game(int input_size, uint64_t opening) {
    unsigned short inputs[2];
    begin(99, false);
    begin_viewer(2, 99, sizeof(short));
    begin_viewer(3, 99, input_size);
    MUST(fazggpo_set_opening(game->session, opening) == GGPO_OK);
    until(15, 3, "1103 ");
    until(15, HOST, "1004:1001 ");
    while (watched(0) < 60)
        turn(15);
    is_told(3, strncmp(games[3].events, "1000 ", 5) == 0 ? "1000 1001 1103 " : "1103 "); /* by which of the two was heard first */
    MUST(ggpo_synchronize_input(games[3].session, inputs, 2 * input_size, NULL) == GGPO_ERRORCODE_PLAYER_DISCONNECTED);
    MUST(watched(1) == -1);
    for (int me = 0; me < 4; me++)
        close_one(me);
}

int main(int count, char **words) {
    MUST(count == 2);
    port = atoi(words[1]);
    right();
    silent();
    other_game(1, 5);
    other_game(sizeof(short), 6);
    return 0;
}
