/* A match is published and watched without waiting for a broker: one that takes connections and says nothing. */
#define _POSIX_C_SOURCE 200809L
#include "faz_cast.h"
#include "../../../programs/duel/duel_game.h"
#include "faz_view.h"
#include "../../check.h"

#include <arpa/inet.h>
#include <stdio.h>
#include <sys/socket.h>
#include <time.h>
#include <unistd.h>

/* Milliseconds: a game's turn has less than this, and a broker's answer is waited for longer. */
enum { TURN = 300, ROOM = 64 };

static long now(void) {
    struct timespec time;
    clock_gettime(CLOCK_MONOTONIC, &time);
    return (long)(time.tv_sec * 1000 + time.tv_nsec / 1000000);
}

/* A port of this machine that takes connections, and its address. */
static int silent_broker(char *servers) {
    struct sockaddr_in address = { .sin_family = AF_INET, .sin_addr.s_addr = htonl(INADDR_LOOPBACK) };
    socklen_t size = sizeof address;
    int port = socket(AF_INET, SOCK_STREAM, 0);
    if (port < 0 || bind(port, (struct sockaddr *)&address, size) != 0 || listen(port, 8) != 0
        || getsockname(port, (struct sockaddr *)&address, &size) != 0)
        return -1;
    snprintf(servers, ROOM, "nats://127.0.0.1:%d", ntohs(address.sin_port));
    return port;
}

static void cast(const char *servers) {
    const char *why;
    duel opening;
    fazgrond_settings session = fazgrond_settings_for(2);
    fazgrond_row row = { .count = 2 };
    faz_cast_state state;
    duel_open(&opening, 2);
    long begun = now();
    faz_cast *made = faz_cast_open(
        &(faz_cast_settings){
            .servers = servers, .match = "cup", .me = "me", .game = &duel_game, .opening = &opening, .session = &session, .rate = 60 },
        &why);
    CHECK_SAY(made != NULL && now() - begun < TURN, "a match is published at once");
    begun = now();
    for (int frame = 0; frame < 600; frame++)
        faz_cast_row(made, &row);
    CHECK_SAY(now() - begun < TURN, "rows are taken at once");
    begun = now();
    CHECK_SAY(!faz_cast_close(made, 10, &state) && now() - begun < 10 + TURN, "it is closed without the broker");
    CHECK_SAY(state.rows == 600 && state.stored == 0, "nothing was stored");
}

static void view(const char *servers) {
    const char *why;
    faz_view_state state;
    long begun = now();
    faz_view *made = faz_view_open(&(faz_view_settings){ .servers = servers, .match = "cup", .game = &duel_game, .from = FAZ_LATEST },
                                   &why);
    CHECK_SAY(made != NULL && now() - begun < TURN, "a match is watched at once");
    begun = now();
    faz_view_look(made, &state);
    CHECK_SAY(!state.is_shown && now() - begun < TURN, "nothing is shown");
    begun = now();
    faz_view_close(made);
    CHECK_SAY(now() - begun < TURN, "it is closed");
}

/* Texts that are no servers are refused when it is opened. */
static void refuse(void) {
    static const char *const texts[] = { "", "nats://", "http://127.0.0.1:4222", "nats://127.0.0.1:4222,", "nats://a b", ",tls://a" };
    for (size_t at = 0; at < sizeof texts / sizeof *texts; at++) {
        const char *why = NULL;
        CHECK_SAY(faz_view_open(&(faz_view_settings){ .servers = texts[at], .match = "cup", .game = &duel_game }, &why) == NULL
                      && why != NULL,
                  "%s", texts[at]);
    }
}

int main(void) {
    char servers[ROOM];
    int port = silent_broker(servers);
    if (port < 0)
        return 2;
    cast(servers);
    view(servers);
    refuse();
    close(port);
    return checks_end();
}
