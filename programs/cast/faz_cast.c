/* Publishes a match of the duel. `usage` says how it is begun. */
#define _POSIX_C_SOURCE 200809L
#include "../../lib/watch/broker.h"
#include "faz_cast.h"
#include "../duel/duel_game.h"

#include "../common/bot.h"
#include "../common/clock.h"
#include "../common/options.h"
#include "../common/stops.h"

#include <stdio.h>

static const char usage[] = "faz-cast [OPTIONS] MATCH PLAYERS    publishes a match of bots, with this name\n"
                            "faz-cast --create [OPTIONS]         makes the stream that has all matches, and ends\n"
                            "  --broker URL    of the broker: nats://127.0.0.1:4222, or several with a comma between each two\n"
                            "  --replicas N    so many servers keep the stream (1)\n"
                            "  --me NAME       who publishes (bots): another name at each who publishes this match\n"
                            "  --seed N        of the bots (1)\n"
                            "  --frames N      ends after so many frames, and prints the state (3600)\n"
                            "  --speed N       so many times as fast\n"
                            "To publish a match that is played, see duel --cast.\n";

static struct {
    const char *broker, *me;
    long replicas, seed, frames, speed;
    bool is_create;
} self = { .broker = "nats://127.0.0.1:4222", .me = "bots", .replicas = 1, .seed = 1, .frames = 3600, .speed = 1 };

static int fail(const char *why) {
    fprintf(stderr, "faz-cast: %s\n", why);
    return 2;
}

static int create(void) {
    faz_broker broker;
    char said[128];
    if (!faz_broker_open(&broker, self.broker) || !faz_broker_reach(&broker))
        return fail("the servers can't be read");
    natsStatus status = faz_broker_create(&broker, (int)self.replicas);
    if (status == NATS_OK)
        status = faz_broker_look(&broker, said, sizeof said);
    if (status == NATS_OK)
        puts(said);
    else
        fprintf(stderr, "faz-cast: %s\n", faz_broker_why(status));
    faz_broker_close(&broker);
    return status == NATS_OK ? 0 : 1;
}

/* So many frames were played. */
static uint32_t play(faz_cast *cast, duel *field) {
    duel_bot bots[DUEL_SHIPS];
    int64_t due = 0;
    uint32_t frame = 0;
    for (uint32_t at = 0; at < field->ships; at++)
        bots[at] = duel_bot_of(self.seed, (int)at + 1);
    for (; frame < (uint32_t)self.frames && !is_stopped(); frame++) {
        fazgrond_row row = { .count = field->ships };
        for (uint32_t at = 0; at < field->ships; at++) {
            row.words[at] = bots[at].word;
            duel_bot_draw(&bots[at]);
        }
        clock_wait_for_turn(&due, self.speed);
        duel_step(field, row.words);
        faz_cast_row(cast, &row);
        faz_cast_settled(cast, frame + 1, field);
    }
    return frame;
}

static int publish(const char *match, long players) {
    duel field;
    char text[512];
    const char *why;
    faz_cast_state seen;
    if (!duel_open(&field, (uint32_t)players))
        return fail("a duel has 2 to 4 players");
    fazgrond_settings session = fazgrond_settings_for((uint32_t)players);
    faz_cast *cast = faz_cast_open(
        &(faz_cast_settings){
            .servers = self.broker, .match = match, .me = self.me, .game = &duel_game, .opening = &field, .session = &session, .rate = 60 },
        &why);
    if (cast == NULL)
        return fail(why);
    uint32_t frames = play(cast, &field);
    faz_cast_end(cast, is_stopped() ? "the match was closed" : "the bots are done");
    bool has_all = faz_cast_close(cast, 5000, &seen);
    fprintf(stderr, "%u rows lost, %u messages sent again, %u disputed\n", seen.lost, seen.again, seen.disputed);
    if (!has_all)
        fprintf(stderr, "faz-cast: the broker doesn't have all of it: %s\n", seen.why != NULL ? seen.why : "it is too slow");
    duel_text(&field, text, sizeof text);
    printf("frame %u state %s\n", frames, text);
    return has_all ? 0 : 1;
}

int main(int count, char **words) {
    static const option options[] = {
        { "--broker", NULL, &self.broker, NULL },     { "--me", NULL, &self.me, NULL },
        { "--replicas", &self.replicas, NULL, NULL }, { "--seed", &self.seed, NULL, NULL },
        { "--frames", &self.frames, NULL, NULL },     { "--speed", &self.speed, NULL, NULL },
        { "--create", NULL, NULL, &self.is_create },  { NULL, NULL, NULL, NULL },
    };
    if (is_help(words, usage))
        return 0;
    int at = read_options(words, options);
    long players = 0;
    stops_begin();
    if (at == 0 || self.speed < 1 || count != at + (self.is_create ? 0 : 2) || (!self.is_create && !read_number(words[at + 1], &players))) {
        fputs(usage, stderr);
        return 2;
    }
    return self.is_create ? create() : publish(words[at], players);
}
