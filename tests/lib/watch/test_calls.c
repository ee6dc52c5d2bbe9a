/* How long the calls of a game take that publishes a match and watches it, while the broker comes and goes:
 *     test_calls SERVERS MATCH SECONDS PATIENCE    plays so long, and gives what is left so many milliseconds
 *     test_calls --silent PORT                     takes connections at that port, and says nothing
 * It prints what the broker has, and fails if a call waited. */
#define _POSIX_C_SOURCE 200809L
#include "faz_cast.h"
#include "../../../programs/duel/duel_game.h"
#include "faz_view.h"
#include "../../check.h"

#include <arpa/inet.h>
#include <stdio.h>
#include <stdlib.h>
#include <string.h>
#include <sys/socket.h>
#include <time.h>
#include <unistd.h>

/* Milliseconds. A broker's answer is waited for by threads that stand beside the game, for a second and more. */
enum { MOST = 250, FRAMES = 600 /* a second */ };

static struct {
    faz_cast *cast;
    faz_view *view;
    duel field;
    const char *longest;
    double most;
} self;

static double now(void) {
    struct timespec time;
    clock_gettime(CLOCK_MONOTONIC, &time);
    return (double)time.tv_sec * 1000 + (double)time.tv_nsec / 1e6;
}

/* A call that began then has ended; so long it may have waited. */
static void note(const char *call, double begun, double may) {
    double took = now() - begun - may;
    if (took > self.most) {
        self.most = took;
        self.longest = call;
    }
    CHECK_SAY(took <= MOST, "%s took %.0f ms", call, took + may);
}

#define TIMED(call) \
    do { \
        double begun = now(); \
        call; \
        note(#call, begun, 0); \
    } while (0)

static void begin(const char *servers, const char *match) {
    const char *why = NULL;
    fazgrond_settings session = fazgrond_settings_for(2);
    duel_open(&self.field, 2);
    faz_cast_settings to = {
        .servers = servers, .match = match, .me = "me", .game = &duel_game, .opening = &self.field, .session = &session, .rate = 60
    };
    faz_view_settings from = { .servers = servers, .match = match, .game = &duel_game, .from = FAZ_LATEST };
    TIMED(self.cast = faz_cast_open(&to, &why));
    TIMED(self.view = faz_view_open(&from, &why));
    if (self.cast == NULL || self.view == NULL) {
        printf("it can't begin: %s\n", why);
        exit(2);
    }
}

static void turn(uint32_t frame) {
    fazgrond_row row = { .count = 2, .words = { frame / 9 % 16, frame / 7 % 16 } };
    faz_cast_state cast;
    faz_view_state view;
    duel_step(&self.field, row.words);
    TIMED(faz_cast_row(self.cast, &row));
    TIMED(faz_cast_settled(self.cast, frame + 1, &self.field));
    TIMED(faz_cast_look(self.cast, &cast));
    TIMED(faz_view_turn(self.view, NULL, NULL));
    TIMED(faz_view_look(self.view, &view));
    if (frame % FRAMES == FRAMES / 2)
        TIMED(faz_view_seek(self.view, frame / 2));
    if (frame % FRAMES == 0)
        TIMED(faz_view_follow(self.view));
}

static void end(uint32_t patience) {
    faz_cast_state state;
    TIMED(faz_cast_end(self.cast, "it is over"));
    double begun = now();
    bool has_all = faz_cast_close(self.cast, patience, &state);
    note("faz_cast_close", begun, patience);
    TIMED(faz_view_close(self.view));
    printf("%s: %u of %u rows stored, %u lost; the longest call: %s, %.1f ms\n", has_all ? "all" : "not all", state.stored, state.rows,
           state.lost, self.longest, self.most);
}

static int be_silent(int port) {
    struct sockaddr_in address = { .sin_family = AF_INET, .sin_addr.s_addr = htonl(INADDR_LOOPBACK), .sin_port = htons((uint16_t)port) };
    int is_one = 1, door = socket(AF_INET, SOCK_STREAM, 0);
    setsockopt(door, SOL_SOCKET, SO_REUSEADDR, &is_one, sizeof is_one);
    if (door < 0 || bind(door, (struct sockaddr *)&address, sizeof address) != 0 || listen(door, 64) != 0)
        return 2;
    puts("silent");
    fflush(stdout);
    return pause();
}

int main(int count, char **words) {
    if (count == 3 && strcmp(words[1], "--silent") == 0)
        return be_silent(atoi(words[2]));
    if (count != 5)
        return 2;
    uint32_t frames = (uint32_t)atoi(words[3]) * FRAMES;
    double begun = now();
    begin(words[1], words[2]);
    for (uint32_t frame = 0; frame < frames; frame++) {
        turn(frame);
        while (now() - begun < (double)(frame + 1) * 1000 / FRAMES)
            nanosleep(&(struct timespec){ .tv_nsec = 500000 }, NULL);
    }
    end((uint32_t)atoi(words[4]));
    return checks_end();
}
