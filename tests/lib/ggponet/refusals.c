/* What ggponet.c refuses, and a sync test of a game that has a counter beside its state. It prints nothing if all is right. */
#include "../../check.h"

#include <ggponet.h>
#include <stdio.h>
#include <stdlib.h>
#include <string.h>
#include <sys/types.h>

/* A game of one number, which may have a counter beside its state, and can be told to fail. */
static struct {
    int frame, number, hidden;
    bool has_hidden, has_checksum, fails_to_save, tries_all;
    int buffers, logged, running, desyncs, desync_frame;
    GGPOSession *session;
} game;

static bool on_save(unsigned char **buffer, int *len, int *checksum, int frame) {
    MUST(frame == game.frame);
    if (game.fails_to_save)
        return false;
    *buffer = malloc(2 * sizeof(int));
    MUST(*buffer != NULL);
    memcpy(*buffer, &game, 2 * sizeof(int));
    *len = 2 * sizeof(int);
    *checksum = game.has_checksum ? game.number + 1 : 0;
    game.buffers++;
    return true;
}

static bool on_load(unsigned char *buffer, int len) {
    MUST(len == 2 * sizeof(int));
    memcpy(&game, buffer, (size_t)len);
    return true;
}

static void on_free(void *buffer) {
    free(buffer);
    game.buffers--;
}

static bool on_log(char *filename, unsigned char *buffer, int len) {
    MUST(filename != NULL && buffer != NULL && len == 2 * sizeof(int));
    game.logged++;
    return true;
}

static void step(const short *inputs) {
    game.frame++;
    game.number = (10 * game.number + inputs[0] + 2 * inputs[1]) % 1000000;
    if (game.has_hidden && ++game.hidden % 10 == 0)
        game.number++;
    ggpo_advance_frame(game.session);
}

static bool on_advance(int flags) {
    short inputs[2];
    MUST(flags == 0);
    if (game.tries_all) {
        MUST(ggpo_idle(game.session, 0) == GGPO_ERRORCODE_IN_ROLLBACK);
        MUST(ggpo_add_local_input(game.session, 1, inputs, sizeof inputs[0]) == GGPO_ERRORCODE_IN_ROLLBACK);
        MUST(ggpo_disconnect_player(game.session, 1) == GGPO_ERRORCODE_IN_ROLLBACK);
        MUST(ggpo_close_session(game.session) == GGPO_ERRORCODE_IN_ROLLBACK);
    }
    MUST(ggpo_synchronize_input(game.session, inputs, sizeof inputs, NULL) == GGPO_OK);
    step(inputs);
    return true;
}

static bool on_event(GGPOEvent *info) {
    game.running += info->code == GGPO_EVENTCODE_RUNNING;
    if (info->code == FAZGGPO_EVENTCODE_DESYNC) {
        game.desyncs++;
        game.desync_frame = info->u.desync.frame;
    }
    return true;
}

static GGPOSessionCallbacks calls = { .save_game_state = on_save,
                                      .load_game_state = on_load,
                                      .log_game_state = on_log,
                                      .free_buffer = on_free,
                                      .advance_frame = on_advance,
                                      .on_event = on_event };
static char name[] = "refusals";

/* Plays so many frames of a sync test, and says after how many it was refused. */
static int play(int frames, int at_once) {
    GGPOPlayerHandle handle;
    game.frame = game.number = 0;
    MUST(ggpo_start_synctest(&game.session, &calls, name, 2, sizeof(short), at_once) == GGPO_OK);
    for (int number = 1; number <= 2; number++) {
        GGPOPlayer player = { .size = sizeof player, .type = GGPO_PLAYERTYPE_LOCAL, .player_num = number };
        MUST(ggpo_add_player(game.session, &player, &handle) == GGPO_OK && handle == number);
    }
    int at = 0, flags = 1;
    for (; at < frames; at++) {
        short inputs[2] = { (short)(at * 7 % 5), (short)(at * 3 % 4) }, given[3] = { 9, 9, 9 };
        if (at == 0)
            MUST(ggpo_add_local_input(game.session, 1, inputs, sizeof inputs[0]) == GGPO_ERRORCODE_NOT_SYNCHRONIZED);
        ggpo_idle(game.session, 0);
        MUST(game.running == 1);
        if (ggpo_add_local_input(game.session, 1, &inputs[0], sizeof inputs[0]) != GGPO_OK)
            break;
        MUST(ggpo_add_local_input(game.session, 2, &inputs[1], sizeof inputs[1]) == GGPO_OK);
        MUST(ggpo_synchronize_input(game.session, given, sizeof given, &flags) == GGPO_OK);
        MUST(flags == 0 && given[0] == inputs[0] && given[1] == inputs[1] && given[2] == 0);
        step(given);
    }
    return at;
}

static void end(void) {
    MUST(ggpo_close_session(game.session) == GGPO_OK && game.buffers == 0);
    memset(&game, 0, sizeof game);
}

static void sync_tests(void) {
    for (int at_once = 1; at_once <= 8; at_once++) {
        game.tries_all = true;
        MUST(play(100, at_once) == 100 && game.desyncs == 0 && game.logged == 0 && game.frame == 100);
        end();
    }
    for (int checksums = 0; checksums < 2; checksums++) {
        game.has_hidden = true;
        game.has_checksum = checksums != 0;
        MUST(play(100, 4) == 8 && game.desyncs == 1 && game.desync_frame == 6 && game.logged == 2);
        MUST(strncmp(ggpo_last_error(game.session), "frame 6 came out different", 26) == 0);
        MUST(ggpo_advance_frame(game.session) == GGPO_ERRORCODE_GENERAL_FAILURE);
        end();
    }
}

static GGPOErrorCode add(GGPOPlayerType type, int number, const char *address) {
    GGPOPlayer player = { .size = sizeof player, .type = type, .player_num = number };
    GGPOPlayerHandle handle;
    if (type != GGPO_PLAYERTYPE_LOCAL) {
        memcpy(player.u.remote.ip_address, address, strlen(address) + 1);
        player.u.remote.port = (unsigned short)(9 + number);
    }
    GGPOErrorCode code = ggpo_add_player(game.session, &player, &handle);
    /* A spectator's handle comes of the order in which they are added. */
    MUST(handle == (code != GGPO_OK ? GGPO_INVALID_HANDLE : type == GGPO_PLAYERTYPE_SPECTATOR ? 997 + number : number));
    return code;
}

static void refused_sessions(void) {
    GGPOSessionCallbacks less = calls;
    char host[] = "127.0.0.1";
    less.free_buffer = NULL;
    MUST(ggpo_start_session(&game.session, &calls, name, 2, 17, 0) == GGPO_ERRORCODE_UNSUPPORTED && game.session == NULL);
    MUST(strcmp(ggpo_last_error(NULL), "an input of 17 bytes; this library takes 16 at most") == 0);
    MUST(ggpo_start_session(&game.session, &calls, name, 3, 9, 0) == GGPO_ERRORCODE_UNSUPPORTED && game.session == NULL);
    MUST(strcmp(ggpo_last_error(NULL), "3 players with inputs of 9 bytes; this library takes 32 bytes in all, each input rounded up to 4")
         == 0);
    MUST(ggpo_start_session(&game.session, &calls, name, 2, 0, 0) == GGPO_ERRORCODE_INVALID_REQUEST);
    MUST(ggpo_start_session(&game.session, &calls, name, 5, 4, 0) == GGPO_ERRORCODE_PLAYER_OUT_OF_RANGE);
    MUST(ggpo_start_session(&game.session, &less, name, 2, 4, 0) == GGPO_ERRORCODE_INVALID_REQUEST);
    MUST(ggpo_start_session(NULL, &calls, name, 2, 4, 0) == GGPO_ERRORCODE_INVALID_REQUEST);
    MUST(ggpo_start_synctest(&game.session, &calls, name, 2, 4, 0) == GGPO_ERRORCODE_INVALID_REQUEST);
    MUST(ggpo_start_synctest(&game.session, &calls, name, 2, 4, 65) == GGPO_ERRORCODE_INVALID_REQUEST);
    MUST(ggpo_start_spectating(NULL, &calls, name, 2, 4, 0, host, 9) == GGPO_ERRORCODE_INVALID_REQUEST);
    MUST(ggpo_start_spectating(&game.session, &calls, name, 2, 17, 0, host, 9) == GGPO_ERRORCODE_UNSUPPORTED);
    MUST(ggpo_start_spectating(&game.session, &calls, name, 2, 4, 0, NULL, 9) == GGPO_ERRORCODE_INVALID_REQUEST);
    MUST(ggpo_start_spectating(&game.session, &calls, name, 2, 4, 0, name, 9) == GGPO_ERRORCODE_INVALID_REQUEST);
    MUST(game.session == NULL && strcmp(ggpo_last_error(NULL), "the host has no IPv4 address") == 0);
    MUST(ggpo_start_spectating(&game.session, &calls, name, 2, 4, 0, host, 0) == GGPO_ERRORCODE_INVALID_REQUEST);
    MUST(game.session == NULL && strcmp(ggpo_last_error(NULL), "the host has no port") == 0);
    MUST(ggpo_idle(NULL, 0) == GGPO_ERRORCODE_INVALID_SESSION && ggpo_close_session(NULL) == GGPO_ERRORCODE_INVALID_SESSION);
}

/* A session that watches a host who never comes. */
static void refused_watchers(void) {
    GGPONetworkStats stats;
    char host[] = "127.0.0.1";
    unsigned char *buffer;
    int inputs[2], frame, length;
    MUST(ggpo_start_spectating(&game.session, &calls, name, 2, 4, 0, host, 9) == GGPO_OK);
    MUST(ggpo_add_local_input(game.session, 7, NULL, 0) == GGPO_OK);
    for (int at = 0; at < 2; at++) {
        MUST(ggpo_synchronize_input(game.session, inputs, sizeof inputs, NULL) == GGPO_ERRORCODE_NOT_SYNCHRONIZED);
        MUST(ggpo_idle(game.session, 0) == GGPO_OK && game.running == 0);
    }
    MUST(ggpo_synchronize_input(game.session, inputs, sizeof inputs[0], NULL) == GGPO_ERRORCODE_INVALID_REQUEST);
    MUST(ggpo_advance_frame(game.session) == GGPO_ERRORCODE_INVALID_REQUEST);
    MUST(add(GGPO_PLAYERTYPE_LOCAL, 1, NULL) == GGPO_ERRORCODE_UNSUPPORTED);
    MUST(add(GGPO_PLAYERTYPE_SPECTATOR, 3, host) == GGPO_ERRORCODE_UNSUPPORTED);
    MUST(ggpo_set_frame_delay(game.session, 1, 1) == GGPO_ERRORCODE_UNSUPPORTED);
    MUST(ggpo_disconnect_player(game.session, 1) == GGPO_ERRORCODE_UNSUPPORTED);
    MUST(ggpo_get_network_stats(game.session, 1, &stats) == GGPO_ERRORCODE_UNSUPPORTED);
    MUST(ggpo_set_disconnect_timeout(game.session, 1) == GGPO_ERRORCODE_UNSUPPORTED);
    MUST(fazggpo_set_spectators(game.session, 1) == GGPO_ERRORCODE_UNSUPPORTED);
    MUST(fazggpo_rejoin(game.session) == GGPO_ERRORCODE_UNSUPPORTED);
    MUST(fazggpo_tell_missing(game.session) == GGPO_ERRORCODE_UNSUPPORTED);
    MUST(fazggpo_get_settled_input(game.session, 0, inputs, sizeof inputs, NULL) == GGPO_ERRORCODE_INVALID_REQUEST);
    MUST(fazggpo_get_settled_from(game.session, &frame) == GGPO_ERRORCODE_NOT_SYNCHRONIZED);
    MUST(fazggpo_get_watched(game.session, 1000, &frame) == GGPO_ERRORCODE_INVALID_PLAYER_HANDLE);
    MUST(fazggpo_get_settled(game.session, &frame) == GGPO_OK && frame == 0);
    MUST(fazggpo_get_peer(game.session) == NULL && fazggpo_get_peer(NULL) == NULL);
    MUST(fazggpo_get_settled_state(game.session, &frame, &buffer, &length) == GGPO_ERRORCODE_NOT_SYNCHRONIZED);
    MUST(fazggpo_get_settled_state(game.session, &frame, NULL, &length) == GGPO_ERRORCODE_INVALID_REQUEST);
    MUST(fazggpo_get_settled_state(NULL, &frame, &buffer, &length) == GGPO_ERRORCODE_INVALID_SESSION);
    end();
}

static void refused_spectators(void) {
    int frame;
    MUST(add(GGPO_PLAYERTYPE_SPECTATOR, 3, "localhost") == GGPO_ERRORCODE_INVALID_REQUEST);
    for (int number = 3; number < 35; number++) {
        MUST(add(GGPO_PLAYERTYPE_SPECTATOR, number, "127.0.0.1") == GGPO_OK);
        if (number == 3)
            MUST(add(GGPO_PLAYERTYPE_SPECTATOR, number, "127.0.0.1") == GGPO_ERRORCODE_INVALID_REQUEST);
    }
    MUST(add(GGPO_PLAYERTYPE_SPECTATOR, 35, "127.0.0.1") == GGPO_ERRORCODE_TOO_MANY_SPECTATORS);
    MUST(fazggpo_get_watched(game.session, 1000, &frame) == GGPO_ERRORCODE_NOT_SYNCHRONIZED);
    MUST(fazggpo_get_watched(game.session, 1032, &frame) == GGPO_ERRORCODE_INVALID_PLAYER_HANDLE);
    MUST(fazggpo_get_watched(game.session, 1, &frame) == GGPO_ERRORCODE_INVALID_PLAYER_HANDLE);
    MUST(fazggpo_get_watched(game.session, 1031, NULL) == GGPO_ERRORCODE_INVALID_REQUEST);
    MUST(fazggpo_get_watched(NULL, 1000, &frame) == GGPO_ERRORCODE_INVALID_SESSION);
    MUST(fazggpo_set_spectators(NULL, 1) == GGPO_ERRORCODE_INVALID_SESSION);
    MUST(fazggpo_set_opening(NULL, 1) == GGPO_ERRORCODE_INVALID_SESSION);
}

/* A spectator is added before the match opens. */
static void late_spectator(void) {
    MUST(ggpo_start_session(&game.session, &calls, name, 2, sizeof(int), 0) == GGPO_OK);
    MUST(add(GGPO_PLAYERTYPE_LOCAL, 1, NULL) == GGPO_OK && add(GGPO_PLAYERTYPE_REMOTE, 2, "127.0.0.1") == GGPO_OK);
    MUST(add(GGPO_PLAYERTYPE_SPECTATOR, 3, "127.0.0.1") == GGPO_OK && ggpo_idle(game.session, 0) == GGPO_OK);
    MUST(add(GGPO_PLAYERTYPE_SPECTATOR, 4, "127.0.0.1") == GGPO_ERRORCODE_INVALID_REQUEST);
    MUST(fazggpo_set_spectators(game.session, 1) == GGPO_ERRORCODE_UNSUPPORTED);
    end();
    MUST(ggpo_start_synctest(&game.session, &calls, name, 2, sizeof(int), 1) == GGPO_OK);
    MUST(add(GGPO_PLAYERTYPE_SPECTATOR, 3, "127.0.0.1") == GGPO_ERRORCODE_INVALID_REQUEST);
    end();
}

/* Players come back into a match that isn't open yet, and has no spectators. */
static void refused_rejoins(void) {
    int inputs[2], frame;
    MUST(fazggpo_rejoin(NULL) == GGPO_ERRORCODE_INVALID_SESSION && fazggpo_tell_missing(NULL) == GGPO_ERRORCODE_INVALID_SESSION);
    MUST(ggpo_start_session(&game.session, &calls, name, 2, sizeof(int), 0) == GGPO_OK);
    MUST(fazggpo_rejoin(game.session) == GGPO_OK && fazggpo_rejoin(game.session) == GGPO_OK);
    MUST(add(GGPO_PLAYERTYPE_LOCAL, 1, NULL) == GGPO_OK && add(GGPO_PLAYERTYPE_REMOTE, 2, "127.0.0.1") == GGPO_OK);
    MUST(add(GGPO_PLAYERTYPE_SPECTATOR, 3, "127.0.0.1") == GGPO_ERRORCODE_UNSUPPORTED);
    MUST(ggpo_idle(game.session, 0) == GGPO_OK && fazggpo_rejoin(game.session) == GGPO_ERRORCODE_UNSUPPORTED);
    MUST(fazggpo_tell_missing(game.session) == GGPO_ERRORCODE_UNSUPPORTED);
    MUST(fazggpo_get_settled_input(game.session, 0, inputs, sizeof inputs, NULL) == GGPO_ERRORCODE_INVALID_REQUEST);
    MUST(fazggpo_get_settled_input(game.session, -1, inputs, sizeof inputs, NULL) == GGPO_ERRORCODE_INVALID_REQUEST);
    MUST(fazggpo_get_settled_input(game.session, 0, inputs, sizeof inputs - 1, NULL) == GGPO_ERRORCODE_INVALID_REQUEST);
    MUST(fazggpo_get_settled_input(NULL, 0, inputs, sizeof inputs, NULL) == GGPO_ERRORCODE_INVALID_SESSION);
    MUST(fazggpo_get_settled_from(game.session, &frame) == GGPO_ERRORCODE_NOT_SYNCHRONIZED);
    MUST(fazggpo_get_settled_from(game.session, NULL) == GGPO_ERRORCODE_INVALID_REQUEST);
    MUST(fazggpo_get_settled_from(NULL, &frame) == GGPO_ERRORCODE_INVALID_SESSION);
    end();
    MUST(ggpo_start_session(&game.session, &calls, name, 2, sizeof(int), 0) == GGPO_OK);
    MUST(add(GGPO_PLAYERTYPE_SPECTATOR, 3, "127.0.0.1") == GGPO_OK);
    MUST(fazggpo_rejoin(game.session) == GGPO_ERRORCODE_UNSUPPORTED);
    end();
    MUST(ggpo_start_synctest(&game.session, &calls, name, 2, sizeof(int), 1) == GGPO_OK);
    MUST(fazggpo_rejoin(game.session) == GGPO_ERRORCODE_UNSUPPORTED);
    end();
}

/* Nobody plays a player in a match that isn't open yet, and into which others come; of a machine all players are vacant or none. */
static void refused_vacancies(void) {
    MUST(fazggpo_set_vacant(NULL, 1) == GGPO_ERRORCODE_INVALID_SESSION);
    MUST(ggpo_start_session(&game.session, &calls, name, 3, sizeof(int), 0) == GGPO_OK);
    MUST(add(GGPO_PLAYERTYPE_LOCAL, 1, NULL) == GGPO_OK && add(GGPO_PLAYERTYPE_REMOTE, 2, "127.0.0.1") == GGPO_OK);
    MUST(fazggpo_set_vacant(game.session, 2) == GGPO_ERRORCODE_INVALID_REQUEST);
    MUST(fazggpo_rejoin(game.session) == GGPO_OK);
    MUST(fazggpo_set_vacant(game.session, 3) == GGPO_ERRORCODE_INVALID_PLAYER_HANDLE);
    MUST(fazggpo_set_vacant(game.session, 2) == GGPO_OK && fazggpo_set_vacant(game.session, 2) == GGPO_OK);
    MUST(add(GGPO_PLAYERTYPE_REMOTE, 3, "127.0.0.1") == GGPO_OK && ggpo_idle(game.session, 0) == GGPO_OK);
    MUST(fazggpo_set_vacant(game.session, 3) == GGPO_ERRORCODE_UNSUPPORTED);
    MUST(ggpo_disconnect_player(game.session, 2) == GGPO_ERRORCODE_PLAYER_DISCONNECTED);
    end();
    MUST(ggpo_start_session(&game.session, &calls, name, 3, sizeof(int), 0) == GGPO_OK && fazggpo_rejoin(game.session) == GGPO_OK);
    MUST(add(GGPO_PLAYERTYPE_LOCAL, 1, NULL) == GGPO_OK && add(GGPO_PLAYERTYPE_REMOTE, 2, "127.0.0.1") == GGPO_OK);
    MUST(add(GGPO_PLAYERTYPE_LOCAL, 3, NULL) == GGPO_OK && fazggpo_set_vacant(game.session, 3) == GGPO_OK);
    MUST(ggpo_idle(game.session, 0) == GGPO_ERRORCODE_INVALID_REQUEST);
    MUST(fazggpo_set_vacant(game.session, 1) == GGPO_OK && ggpo_idle(game.session, 0) == GGPO_OK);
    end();
}

#ifndef _WIN32 /* whose random source can't be taken away */
/* In the place of the system's random source, which may have none. */
static bool has_no_random;

ssize_t getrandom(void *to, size_t size, unsigned flags);
ssize_t getrandom(void *to, size_t size, unsigned flags) {
    static unsigned char next;
    MUST(flags == 0);
    memset(to, ++next, size);
    return has_no_random ? -1 : (ssize_t)size;
}

/* Without random bits nothing is opened. */
static void nothing_random(void) {
    char host[] = "127.0.0.1";
    has_no_random = true;
    MUST(ggpo_start_session(&game.session, &calls, name, 2, sizeof(int), 0) == GGPO_OK);
    MUST(add(GGPO_PLAYERTYPE_LOCAL, 1, NULL) == GGPO_OK && add(GGPO_PLAYERTYPE_REMOTE, 2, "127.0.0.1") == GGPO_OK);
    for (int times = 0; times < 2; times++) {
        MUST(ggpo_idle(game.session, 0) == GGPO_ERRORCODE_GENERAL_FAILURE);
        MUST(strcmp(ggpo_last_error(game.session), "the system gives no random bits") == 0);
    }
    has_no_random = false;
    MUST(ggpo_idle(game.session, 0) == GGPO_OK);
    end();
    has_no_random = true;
    MUST(ggpo_start_spectating(&game.session, &calls, name, 2, 4, 0, host, 9) == GGPO_OK);
    MUST(ggpo_idle(game.session, 0) == GGPO_ERRORCODE_GENERAL_FAILURE);
    has_no_random = false;
    end();
}
#endif

static void refused_players(void) {
    GGPOPlayer nowhere = { .size = sizeof nowhere, .type = GGPO_PLAYERTYPE_REMOTE, .player_num = 2 };
    GGPOPlayerHandle handle;
    int input = 1;
    memcpy(nowhere.u.remote.ip_address, "127.0.0.1", sizeof "127.0.0.1");
    MUST(ggpo_add_player(game.session, &nowhere, &handle) == GGPO_ERRORCODE_INVALID_REQUEST && handle == GGPO_INVALID_HANDLE);
    MUST(strcmp(ggpo_last_error(game.session), "127.0.0.1 without a port") == 0);
    MUST(ggpo_set_disconnect_timeout(game.session, -5) == GGPO_ERRORCODE_INVALID_REQUEST);
    MUST(ggpo_set_disconnect_notify_start(game.session, -1) == GGPO_ERRORCODE_INVALID_REQUEST);
    MUST(strcmp(ggpo_last_error(game.session), "-1 milliseconds; 0 or more were expected") == 0);
    MUST(ggpo_set_disconnect_timeout(NULL, 1) == GGPO_ERRORCODE_INVALID_SESSION);
    MUST(add(GGPO_PLAYERTYPE_LOCAL, 3, NULL) == GGPO_ERRORCODE_PLAYER_OUT_OF_RANGE);
    MUST(add(GGPO_PLAYERTYPE_REMOTE, 2, "localhost") == GGPO_ERRORCODE_INVALID_REQUEST);
    MUST(add((GGPOPlayerType)7, 1, "127.0.0.1") == GGPO_ERRORCODE_INVALID_REQUEST);
    MUST(strcmp(ggpo_last_error(game.session), "7 is no type of a player") == 0);
    MUST(add(GGPO_PLAYERTYPE_LOCAL, 1, NULL) == GGPO_OK);
    MUST(add(GGPO_PLAYERTYPE_LOCAL, 1, NULL) == GGPO_ERRORCODE_INVALID_REQUEST);
    MUST(ggpo_idle(game.session, 0) == GGPO_OK);
    MUST(ggpo_add_local_input(game.session, 1, &input, sizeof input) == GGPO_ERRORCODE_NOT_SYNCHRONIZED);
    MUST(ggpo_set_frame_delay(game.session, 2, 1) == GGPO_ERRORCODE_INVALID_PLAYER_HANDLE);
    MUST(ggpo_set_frame_delay(game.session, 1, 9) == GGPO_ERRORCODE_INVALID_REQUEST);
    MUST(ggpo_set_frame_delay(game.session, 1, 8) == GGPO_OK);
}

static void refused_calls(void) {
    GGPONetworkStats stats;
    int inputs[2] = { 1, 1 };
    MUST(add(GGPO_PLAYERTYPE_REMOTE, 2, "127.0.0.1") == GGPO_OK && ggpo_idle(game.session, 0) == GGPO_OK);
    MUST(ggpo_set_frame_delay(game.session, 1, 1) == GGPO_ERRORCODE_UNSUPPORTED);
    MUST(ggpo_set_disconnect_timeout(game.session, 1) == GGPO_ERRORCODE_UNSUPPORTED);
    MUST(ggpo_set_disconnect_notify_start(game.session, 1) == GGPO_ERRORCODE_UNSUPPORTED);
    MUST(fazggpo_set_match(game.session, 1) == GGPO_ERRORCODE_UNSUPPORTED);
    MUST(fazggpo_set_opening(game.session, 1) == GGPO_ERRORCODE_UNSUPPORTED);
    MUST(strcmp(ggpo_last_error(game.session), "the opening's digest has to be said before the match opens") == 0);
    MUST(ggpo_add_local_input(game.session, 2, inputs, sizeof inputs[0]) == GGPO_ERRORCODE_INVALID_PLAYER_HANDLE);
    MUST(ggpo_add_local_input(game.session, 1, inputs, sizeof inputs) == GGPO_ERRORCODE_INVALID_REQUEST);
    MUST(ggpo_add_local_input(game.session, 1, NULL, sizeof inputs[0]) == GGPO_ERRORCODE_INVALID_REQUEST);
    MUST(strcmp(ggpo_last_error(game.session), "no input") == 0);
    MUST(ggpo_add_local_input(game.session, 1, inputs, sizeof inputs[0]) == GGPO_ERRORCODE_NOT_SYNCHRONIZED);
    MUST(ggpo_synchronize_input(game.session, inputs, sizeof inputs, NULL) == GGPO_ERRORCODE_NOT_SYNCHRONIZED);
    MUST(ggpo_synchronize_input(game.session, inputs, sizeof inputs[0], NULL) == GGPO_ERRORCODE_INVALID_REQUEST);
    MUST(ggpo_advance_frame(game.session) == GGPO_ERRORCODE_INVALID_REQUEST);
    MUST(ggpo_get_network_stats(game.session, 3, &stats) == GGPO_ERRORCODE_INVALID_PLAYER_HANDLE);
    MUST(ggpo_get_network_stats(game.session, 2, &stats) == GGPO_OK && stats.network.ping == 0);
}

/* The other machine never comes, and is put out: then this one plays alone. */
static void play_alone(void) {
    int flags = 0, inputs[2] = { 0, 0 };
    MUST(ggpo_disconnect_player(game.session, 3) == GGPO_ERRORCODE_INVALID_PLAYER_HANDLE);
    MUST(ggpo_disconnect_player(game.session, 2) == GGPO_OK && ggpo_idle(game.session, 1) == GGPO_OK && game.running == 1);
    MUST(ggpo_disconnect_player(game.session, 2) == GGPO_ERRORCODE_PLAYER_DISCONNECTED);
    for (int at = 0; at < 40; at++) {
        int input = at, settled, length;
        unsigned char *buffer;
        MUST(ggpo_add_local_input(game.session, 1, &input, sizeof input) == GGPO_OK);
        MUST(ggpo_synchronize_input(game.session, inputs, sizeof inputs, &flags) == GGPO_OK);
        MUST(flags == 2 && inputs[0] == (at < 8 ? 0 : at - 8) && inputs[1] == 0);
        game.frame++;
        MUST(ggpo_advance_frame(game.session) == GGPO_OK && ggpo_idle(game.session, 0) == GGPO_OK);
        MUST(fazggpo_get_settled(game.session, &settled) == GGPO_OK && settled == game.frame);
        MUST(fazggpo_get_settled_state(game.session, &settled, &buffer, &length) == GGPO_OK && settled == game.frame);
    }
    MUST(game.frame == 40 && fazggpo_get_peer(game.session) != NULL);
    /* A frame that the game steps without an input of its own is refused, and its step taken back. */
    MUST(ggpo_synchronize_input(game.session, inputs, sizeof inputs, NULL) == GGPO_OK);
    game.frame++;
    MUST(ggpo_advance_frame(game.session) == GGPO_ERRORCODE_INVALID_REQUEST && game.frame == 40);
    /* A callback that fails ends the session. */
    int input = 1;
    game.fails_to_save = true;
    MUST(ggpo_add_local_input(game.session, 1, &input, sizeof input) == GGPO_OK);
    MUST(ggpo_synchronize_input(game.session, inputs, sizeof inputs, NULL) == GGPO_OK);
    game.frame++;
    MUST(ggpo_advance_frame(game.session) == GGPO_ERRORCODE_GENERAL_FAILURE);
    MUST(strcmp(ggpo_last_error(game.session), "save_game_state failed") == 0);
    MUST(ggpo_idle(game.session, 0) == GGPO_ERRORCODE_GENERAL_FAILURE);
    end();
}

int main(void) {
    sync_tests();
    refused_sessions();
    refused_watchers();
    late_spectator();
    refused_rejoins();
    refused_vacancies();
#ifndef _WIN32
    nothing_random();
#endif
    MUST(ggpo_start_session(&game.session, &calls, name, 2, sizeof(int), 0) == GGPO_OK);
    refused_players();
    refused_spectators();
    refused_calls();
    play_alone();
    return 0;
}
