/* A match of the duel over GGPO's calls. `usage` says how it is begun. */
#define _POSIX_C_SOURCE 200809L
#include "../common/bot.h"
#include "casting.h"
#include "../common/clock.h"
#include "helpers.h"
#include "online.h"
#include "../common/options.h"
#include "state.h"
#include "../common/stops.h"
#include "../common/window.h"

#include <fazgrond.h>
#include <ggponet.h>
#include <stdio.h>
#include <stdlib.h>
#include <string.h>

static const char usage[] =
    "duel [OPTIONS] PORT PLAYER PLAYER [PLAYER [PLAYER]] [viewer:ADDRESS ..]    a duel of ships for two to four\n"
    "duel [OPTIONS] --watch PLAYERS PORT ADDRESS    watches one, at a machine that has this one as a viewer\n"
    "duel [OPTIONS] --host PLAYERS    waits for friends over the internet, who join by the code that it prints\n"
    "duel [OPTIONS] --join CODE       joins one; with - in the place of CODE it is typed once the broker is there\n"
    "  PLAYER        local, or the address of a machine, as 10.0.0.7:7001; the same order at all machines. With --rejoin later:local or\n"
    "                later:ADDRESS is one who comes later, for whom the match doesn't wait\n"
    "  --bot SEED    plays by itself (SEED is 1 or more)\n"
    "  --headless    no window; ships stay where they are without --bot\n"
    "  --frames N    ends once frame N is settled, and prints its state\n"
    "  --delay N     local inputs count N frames later (1)\n"
    "  --timeout MS  a machine that is silent so long is gone (5000, over the internet 10000)\n"
    "  --match N     the number that the machines of this match know\n"
    "  --lag MS --loss PERCENT --junk PERCENT    makes the line worse for what this machine sends\n"
    "  --speed N     a clock that runs N times as fast\n"
    "  --synctest N  no network: all players are local, and each N frames are played twice\n"
    "  --helpers N   so many threads play what may come ahead, up to 8\n"
    "  --rejoin      who stops can come back, if all machines say so: begin it again with the same words\n"
    "  --cast MATCH --broker URL    publishes the match with this name, on a broker (nats://127.0.0.1:4222)\n"
    "over the internet:\n"
    "  --broker URL  where friends meet (nats://127.0.0.1:4222)      --trusted FILE  certificates by which it is believed\n"
    "  --stun ADDRESS[:PORT]  --relay USER:PASSWORD@ADDRESS[:PORT]  --tcp-relay the same, by TCP  --relay-only\n"
    "  --name NAME   as friends see it                               --ask           who joins has to be let in\n"
    "  --door        the broker has a door: codes are short, who joins has to be let in, and relays are the door's\n"
    "  --begin-with N    with --host and --rejoin: the match begins once N are there, and who comes later has a ship too\n";

enum {
    TURN = 16667,
    PAST_LAST = 32,
    LINES = 12,
    WIDE = 78 /* signs of a line */,
    MOST_BEHIND = 6,
    CATCH_UP = 8,
    TIMEOUT = FAZGROND_SILENT_AFTER,
    TIMEOUT_ONLINE = 10000,
    LATE = 60000 /* milliseconds for which who was never heard is waited for once its time is over */,
    ENDING = 90 /* turns in which the others can find that, too */
};

/* What is told of a player: `number` counts down the seconds until `until`, if that isn't 0. */
typedef struct telling {
    const char *what;
    int number;
    uint64_t until;
} telling;

/* All that there is: GGPO's callbacks are told nothing but what they are to do. */
static struct {
    duel_state now;
    GGPOSession *session;
    int players, locals, viewers;
    GGPOPlayerHandle local[DUEL_SHIPS], viewer[GGPO_MAX_SPECTATORS];
    int behind, most_behind; /* by how many frames this one is behind what it watches */
    int wait;                /* turns to wait, since this machine is ahead */
    bool is_over;            /* the match can't go on, */
    char why[192];           /* for this reason */
    bool has_parted;         /* there was a desync, or another match is meant, .. */
    int ending;              /* .. and it is over after so many turns */
    bool is_heard[DUEL_SHIPS + 1], has_strangers;
    uint64_t over_at; /* then it is over, as this player is missing; 0: none is */
    int missing;
    int again, all_again; /* frames that were played again: in this turn, and in all */
    duel_bot bots[DUEL_SHIPS];
    char at_last[512];            /* the state at the frame of --frames */
    telling told[DUEL_SHIPS + 1]; /* of each player, and before them of the host that is watched */
    /* What the command line says. */
    long frames, lag, loss, junk, speed, delay, timeout, sync_frames, bot, match, watch, helpers;
    bool is_headless, can_rejoin;
    bool is_vacant[DUEL_SHIPS]; /* nobody has played it yet */
    casting cast;
    online online;
} self = { .speed = 1, .delay = 1, .timeout = -1, .cast = { .broker = "nats://127.0.0.1:4222", .rate = 60 } };

static void note_last(void) {
    if (self.frames > 0 && self.now.frame == self.frames)
        duel_text(&self.now.field, self.at_last, sizeof self.at_last);
}

/* A frame, played for the first time or again. */
static void advance(const uint32_t *words) {
    duel_step(&self.now.field, words);
    self.now.frame++;
    note_last();
    ggpo_advance_frame(self.session);
}

static bool on_advance(int flags) {
    uint32_t words[DUEL_SHIPS];
    (void)flags;
    if (!GGPO_SUCCEEDED(ggpo_synchronize_input(self.session, words, sizeof words, NULL)))
        return false;
    self.again++;
    advance(words);
    return true;
}

static bool on_save(unsigned char **buffer, int *length, int *checksum, int frame) {
    (void)frame;
    return duel_save(&self.now, buffer, length, checksum);
}

static bool on_load(unsigned char *buffer, int length) {
    if (!duel_load(&self.now, buffer, length))
        return false;
    note_last();
    return true;
}

static void on_free(void *buffer) { free(buffer); }

/* Microseconds, as --speed has them. */
static uint64_t micros(void) { return (uint64_t)clock_micros() * (uint64_t)self.speed; }

/* A line on somebody: a player, a viewer from 1000 on, or at 0 the host that is watched. */
static void line_of(int player, const telling *it, char *out, size_t room) {
    char who[32] = "the host", text[64];
    if (player > 0)
        snprintf(who, sizeof who, player > self.players ? "viewer %d" : "player %d", player > self.players ? player - 999 : player);
    snprintf(text, sizeof text, it->what, it->number);
    snprintf(out, room, "%s%s", who, text);
}

static void print(int player, const telling *it) {
    char line[128];
    line_of(player, it, line, sizeof line);
    fprintf(stderr, "%s\n", line);
}

/* Notes a line, which the window shows, or says it; if there are milliseconds, the seconds in it count down. What is of a viewer is
 * said. */
static void say(int player, const char *what, int milliseconds) {
    telling it = { what, (milliseconds + 999) / 1000, milliseconds > 0 ? micros() + (uint64_t)milliseconds * 1000 : 0 };
    if (player >= 0 && player <= self.players)
        self.told[player] = it;
    if (*what != 0 && (self.is_headless || player < 1 || player > self.players))
        print(player, &it);
}

static void count_down(void) {
    uint64_t now = micros();
    for (int player = 0; player <= self.players; player++) {
        telling *it = &self.told[player];
        int left = it->until > now ? (int)((it->until - now + 999999) / 1000000) : 0;
        if (it->until == 0 || left >= it->number || left == 0)
            continue;
        it->number = left;
        if (self.is_headless && (left <= 10 || left % 10 == 0))
            print(player, it);
    }
}

static void tell_end(const char *why, int number) {
    char text[160];
    snprintf(text, sizeof text, why, number);
    snprintf(self.why, sizeof self.why, "the match is over: %s", text);
    fprintf(stderr, "%s\n", self.why);
}

/* The match can't go on. */
static void end(const char *why, int number) {
    if (self.is_over)
        return;
    tell_end(why, number);
    self.is_over = true;
}

static void say_silent(int player, int milliseconds) {
    bool is_counted = milliseconds < INT32_MAX && player <= self.players;
    say(player, is_counted ? " is silent: gone in %d s" : " is silent", is_counted ? milliseconds : 0);
}

/* A machine isn't there. Whoever was met by a code, or is heard, may be in a match that doesn't take this program back: it isn't waited
 * for any longer than as long again. */
static void say_missing(int player) {
    bool is_late = self.online.players == 0 && !self.is_heard[player];
    int wait = is_late ? LATE : (int)self.timeout;
    if (self.can_rejoin)
        return;
    uint64_t at = micros() + (uint64_t)wait * 1000;
    if (self.over_at != 0 && at >= self.over_at) {
        if (player != self.missing)
            say(player, " isn't there", 0);
        return;
    }
    self.over_at = at;
    self.missing = player;
    say(player, " isn't there: over in %d s", wait);
}

static void look_at_missing(void) {
    if (self.over_at == 0 || self.has_parted || micros() < self.over_at)
        return;
    end(self.has_strangers ? "player %d isn't there; datagrams came of another version, game, number of players or --match"
            : self.is_heard[self.missing] || self.online.players > 0
            ? "player %d isn't there. If it plays a match that this program was in before, that takes nobody back without --rejoin"
            : "player %d hasn't come",
        self.missing);
}

/* It plays no more, but goes on for a while, so that the others see it too. */
static void stay(void) {
    self.has_parted = true;
    self.ending = ENDING;
}

static void part(int player, int frame) {
    if (self.has_parted)
        return;
    stay();
    if (player > 0)
        say(player, " has another state", 0);
    snprintf(self.why, sizeof self.why, "desync: the states have parted by frame %d", frame);
    fprintf(stderr, "%s\n", self.why);
}

/* What another one means by the match differs. */
static void differ(int field, int player) {
    if (self.has_parted)
        return;
    stay();
    tell_end(field == FAZGGPO_FIELD_OPENING ? "player %d begins from another state" : "player %d means another match", player);
}

/* Of who leaves after that it is known why. */
static void say_left(int player) {
    online_left(player);
    if (self.has_parted && player <= self.players)
        say(player, " has left too", 0);
    else
        say(player, " has left", 0);
}

/* Another part of the match has begun. */
static void tell_epoch(int frame, int came) {
    fprintf(stderr, "the match goes on from frame %d\n", frame);
    for (int player = 1; player <= self.players; player++)
        if ((came >> (player - 1) & 1) != 0)
            say(player, self.is_vacant[player - 1] ? " comes in" : " is back", 0);
    for (int player = 0; player < self.players; player++)
        self.is_vacant[player] = self.is_vacant[player] && (came >> player & 1) == 0;
}

static void begin(void) {
    memset(self.told, 0, sizeof self.told);
    self.over_at = 0;
    fputs("the match begins\n", stderr);
}

static void say_heard(int player) { say(player, player >= 1 && player <= self.players ? "" : " is heard again", 0); }

/* Whoever sends them is there, and means another match. */
static void say_strangers(int player, int count) {
    fprintf(stderr, "%d datagrams came that aren't of this match: the others have another version, game, number of players or --match\n",
            count);
    self.is_heard[player] = self.has_strangers = true;
    say_missing(player);
}

static bool on_event(GGPOEvent *event) {
    switch (event->code) {
    case GGPO_EVENTCODE_CONNECTED_TO_PEER:
        if (event->u.connected.player <= self.players)
            self.is_heard[event->u.connected.player] = true;
        say(event->u.connected.player, ": there", 0);
        break;
    case GGPO_EVENTCODE_SYNCHRONIZED_WITH_PEER: say(event->u.synchronized.player, ": ready", 0); break;
    case GGPO_EVENTCODE_RUNNING: begin(); break;
    case GGPO_EVENTCODE_DISCONNECTED_FROM_PEER: say_left(event->u.disconnected.player); break;
    case GGPO_EVENTCODE_TIMESYNC: self.wait = event->u.timesync.frames_ahead; break;
    case GGPO_EVENTCODE_CONNECTION_INTERRUPTED:
        say_silent(event->u.connection_interrupted.player, event->u.connection_interrupted.disconnect_timeout);
        break;
    case GGPO_EVENTCODE_CONNECTION_RESUMED: say_heard(event->u.connection_resumed.player); break;
    case FAZGGPO_EVENTCODE_EPOCH: tell_epoch(event->u.epoch.frame, event->u.epoch.came); break;
    case FAZGGPO_EVENTCODE_DESYNC: part(event->u.desync.player, event->u.desync.frame); break;
    case FAZGGPO_EVENTCODE_MISMATCH: differ(event->u.mismatch.field, event->u.mismatch.player); break;
    case FAZGGPO_EVENTCODE_DROPPED: end("the others regard this machine as gone, or too few are heard", 0); break;
    case FAZGGPO_EVENTCODE_MISSING: say_missing(event->u.missing.player); break;
    case FAZGGPO_EVENTCODE_STRANGERS: say_strangers(event->u.strangers.player, event->u.strangers.count); break;
    default: break;
    }
    return true;
}

/* A turn of the main loop, as GGPO's guide has it, and whether it played a frame. A viewer's inputs are ignored. */
static bool turn(void) {
    uint32_t words[DUEL_SHIPS];
    int gone = 0;
    GGPOErrorCode code = GGPO_OK;
    if (self.wait > 0) {
        self.wait--;
        return false;
    }
    for (int at = 0; at < self.locals && GGPO_SUCCEEDED(code); at++) {
        uint32_t word = self.bot > 0 ? self.bots[at].word : window_word(at);
        code = ggpo_add_local_input(self.session, self.local[at], &word, sizeof word);
        if (GGPO_SUCCEEDED(code))
            duel_bot_draw(&self.bots[at]);
    }
    if (GGPO_SUCCEEDED(code))
        code = ggpo_synchronize_input(self.session, words, sizeof words, &gone);
    if (GGPO_SUCCEEDED(code))
        advance(words);
    if (GGPO_SUCCEEDED(code) && self.watch > 0)
        casting_frame(words, (uint32_t)gone, self.now.frame, &self.now.field);
    if (code == GGPO_ERRORCODE_GENERAL_FAILURE || (self.watch > 0 && code == GGPO_ERRORCODE_PLAYER_DISCONNECTED)) {
        fprintf(stderr, "duel: %s\n", ggpo_last_error(self.session));
        self.is_over = true;
    }
    return GGPO_SUCCEEDED(code);
}

/* Whether this one watches, and is to play more than one frame in a turn. */
static bool is_behind(void) {
    int settled;
    if (self.watch == 0 || !GGPO_SUCCEEDED(fazggpo_get_settled(self.session, &settled)))
        return false;
    self.behind = settled - self.now.frame;
    if (self.behind > self.most_behind)
        self.most_behind = self.behind;
    return self.behind > MOST_BEHIND && self.now.frame != self.frames;
}

/* A text in as many lines as it takes: how many there are then. */
static int wrap(const char *text, char lines[][128], int count) {
    while (*text != 0 && count < LINES) {
        int length = (int)strlen(text) < WIDE ? (int)strlen(text) : WIDE;
        while (text[length] != 0 && text[length] != ' ' && length > 1)
            length--;
        snprintf(lines[count++], sizeof lines[0], "%.*s", length, text);
        text += length + (text[length] == ' ');
    }
    return count;
}

static void draw(void) {
    char lines[LINES][128];
    const char *shown[LINES];
    int count = 0;
    for (int player = 0; player <= self.players; player++) {
        const telling *it = &self.told[player];
        GGPONetworkStats stats;
        if (it->what != NULL && *it->what != 0)
            line_of(player, it, lines[count++], sizeof lines[0]);
        else if (GGPO_SUCCEEDED(ggpo_get_network_stats(self.session, player, &stats)) && stats.network.ping > 0)
            snprintf(lines[count++], sizeof lines[0], "to player %d: ping %d ms, ahead %d", player, stats.network.ping,
                     -stats.timesync.local_frames_behind);
    }
    if (self.watch > 0)
        snprintf(lines[count++], sizeof lines[0], "frame %d, behind %d", self.now.frame, self.behind);
    else
        snprintf(lines[count++], sizeof lines[0], "frame %d, again %d, in all %d", self.now.frame, self.again, self.all_again);
    count = wrap(self.why, lines, count);
    count = wrap(online_question(), lines, count);
    for (int at = 0; at < count; at++)
        shown[at] = lines[at];
    window_draw(&self.now.field, self.local[0], shown, count);
}

/* Whether the frame of --frames is settled, here and elsewhere: who sent inputs of a much later frame has all of this one, and
 * viewers say how many they have. Who watches has it once it is played. */
static bool is_done(void) {
    int settled;
    if (self.frames == 0 || self.watch > 0)
        return self.frames > 0 && self.now.frame >= self.frames;
    for (int at = 0; at < self.viewers; at++)
        if (GGPO_SUCCEEDED(fazggpo_get_watched(self.session, self.viewer[at], &settled)) && settled < self.frames)
            return false;
    return GGPO_SUCCEEDED(fazggpo_get_settled(self.session, &settled)) && settled >= self.frames + PAST_LAST;
}

/* Where the field is in a state that was saved. */
static const duel *field_of(const unsigned char *buffer, int length) {
    return length == (int)sizeof(duel_state) ? &((const duel_state *)(const void *)buffer)->field : NULL;
}

/* A state that a helper has come to can be loaded past the frame of --frames, which isn't played here then. So the settled words are
 * played once more, and have to lead to the state that the session has settled. */
static bool play_settled(void) {
    fazgrond_session *match = fazggpo_get_session(self.session);
    char straight[sizeof self.at_last], shown[sizeof self.at_last];
    unsigned char *buffer;
    int settled, length;
    duel field;
    if (!GGPO_SUCCEEDED(fazggpo_get_settled_state(self.session, &settled, &buffer, &length)) || field_of(buffer, length) == NULL)
        return false;
    duel_open(&field, (uint32_t)self.players);
    for (int frame = 0; frame < settled; frame++) {
        fazgrond_row row;
        if (frame == self.frames)
            duel_text(&field, self.at_last, sizeof self.at_last);
        if (fazgrond_settled_row(match, (uint32_t)frame, &row) != FAZGROND_OK)
            return false;
        duel_step(&field, row.words);
    }
    duel_text(&field, straight, sizeof straight);
    duel_text(field_of(buffer, length), shown, sizeof shown);
    return strcmp(straight, shown) == 0;
}

/* Whether the player wants to go on: the window isn't closed, and nobody has asked the program to end. */
static bool goes_on(void) { return !is_stopped() && (self.is_headless || window_goes_on()); }

/* Shows how the match has ended, until the window is closed. */
static void linger(void) {
    while (self.is_over && self.why[0] != 0 && !self.is_headless && goes_on()) {
        draw();
        ggpo_idle(self.session, TURN / 1000);
    }
}

static void play_turn(void) {
    for (int frames = 0; frames < CATCH_UP && !self.has_parted && turn() && is_behind(); frames++) {
    }
    casting_turn(self.session, field_of);
    count_down();
    look_at_missing();
    if (self.has_parted)
        self.is_over |= --self.ending <= 0;
    if (self.is_headless)
        return;
    char letter = window_letter();
    if (letter == 'y' || letter == 'n')
        online_answer(letter == 'y');
    draw();
}

static int play(void) {
    uint64_t next = micros();
    while (!self.is_over && goes_on() && !is_done()) {
        uint64_t now = micros();
        if (now >= next) {
            play_turn();
            self.all_again += self.again;
            self.again = 0;
            next = now > next + 20 * TURN ? now : next + TURN;
        }
        now = micros();
        ggpo_idle(self.session, now < next ? (int)((next - now) / 1000) : 0);
    }
    linger();
    if (self.helpers > 0 && self.frames > 0 && !play_settled()) {
        fputs("duel: the settled words lead to another state\n", stderr);
        self.is_over = true;
    }
    if (self.at_last[0] != 0)
        printf("frame %ld state %s\n", self.frames, self.at_last);
    fprintf(stderr, "played %d frames, and %d again; %d behind at most\n", self.now.frame, self.all_again, self.most_behind);
    return self.is_over;
}

/* The command line. */

static int fail(const char *why) {
    fprintf(stderr, "duel: %s\n%s", *why != 0 ? why : "an address can't be read", usage);
    return 2;
}

static const option options[] = {
    { "--bot", &self.bot, NULL, NULL },
    { "--frames", &self.frames, NULL, NULL },
    { "--lag", &self.lag, NULL, NULL },
    { "--loss", &self.loss, NULL, NULL },
    { "--junk", &self.junk, NULL, NULL },
    { "--speed", &self.speed, NULL, NULL },
    { "--delay", &self.delay, NULL, NULL },
    { "--match", &self.match, NULL, NULL },
    { "--timeout", &self.timeout, NULL, NULL },
    { "--synctest", &self.sync_frames, NULL, NULL },
    { "--watch", &self.watch, NULL, NULL },
    { "--helpers", &self.helpers, NULL, NULL },
    { "--cast", NULL, &self.cast.match, NULL },
    { "--broker", NULL, &self.cast.broker, NULL },
    { "--headless", NULL, NULL, &self.is_headless },
    { "--rejoin", NULL, NULL, &self.can_rejoin },
    { "--host", &self.online.host, NULL, NULL },
    { "--join", NULL, &self.online.code, NULL },
    { "--trusted", NULL, &self.online.trusted, NULL },
    { "--stun", NULL, &self.online.stun, NULL },
    { "--relay", NULL, &self.online.relay, NULL },
    { "--tcp-relay", NULL, &self.online.tcp_relay, NULL },
    { "--name", NULL, &self.online.name, NULL },
    { "--relay-only", NULL, NULL, &self.online.relay_only },
    { "--ask", NULL, NULL, &self.online.asks },
    { "--door", NULL, NULL, &self.online.by_door },
    { "--begin-with", &self.online.begin_with, NULL, NULL },
    { NULL, NULL, NULL, NULL },
};

static bool is_viewer(const char *word) { return strncmp(word, "viewer:", 7) == 0; }

static bool read_address(const char *word, GGPOPlayer *player) {
    const char *colon = strchr(word, ':');
    long port;
    if (colon == NULL || colon - word >= (long)sizeof player->u.remote.ip_address || !read_number(colon + 1, &port))
        return false;
    memcpy(player->u.remote.ip_address, word, (size_t)(colon - word));
    player->u.remote.port = (unsigned short)port;
    return true;
}

static bool add(GGPOPlayer *player, bool is_vacant) {
    GGPOPlayerHandle handle;
    if (!GGPO_SUCCEEDED(ggpo_add_player(self.session, player, &handle))
        || (is_vacant && !GGPO_SUCCEEDED(fazggpo_set_vacant(self.session, handle))))
        return false;
    if (is_vacant)
        self.is_vacant[player->player_num - 1] = true;
    if (player->type == GGPO_PLAYERTYPE_LOCAL) {
        self.bots[self.locals] = duel_bot_of(self.bot, player->player_num);
        self.local[self.locals++] = handle;
        ggpo_set_frame_delay(self.session, handle, (int)self.delay);
    } else if (player->type == GGPO_PLAYERTYPE_SPECTATOR)
        self.viewer[self.viewers++] = handle;
    return true;
}

static bool add_player(const char *word, int number) {
    GGPOPlayer player = { .size = sizeof player, .type = GGPO_PLAYERTYPE_LOCAL, .player_num = number };
    bool is_vacant = strncmp(word, "later:", 6) == 0;
    word += is_vacant ? 6 : 0;
    if (strcmp(word, "local") != 0) {
        player.type = is_viewer(word) ? GGPO_PLAYERTYPE_SPECTATOR : GGPO_PLAYERTYPE_REMOTE;
        if (!read_address(is_viewer(word) ? word + 7 : word, &player))
            return false;
    }
    return add(&player, is_vacant);
}

/* All players of a match whose machines have met by a code. */
static bool add_met(void) {
    bool is_ready = online_take(self.session);
    for (int number = 1; number <= self.players && is_ready; number++) {
        GGPOPlayer player = { .size = sizeof player, .player_num = number };
        online_player(&self.online, number, &player);
        is_ready = add(&player, self.online.is_vacant[number - 1]);
    }
    return is_ready && (self.can_rejoin || online_seal(self.session));
}

static GGPOErrorCode start(unsigned short port, const char *host_word) {
    GGPOSessionCallbacks calls = {
        .save_game_state = on_save, .load_game_state = on_load, .free_buffer = on_free, .advance_frame = on_advance, .on_event = on_event
    };
    char name[] = "duel";
    GGPOPlayer host = { .size = sizeof host };
    if (self.watch > 0 && !read_address(host_word, &host))
        return GGPO_ERRORCODE_INVALID_REQUEST;
    if (self.watch > 0)
        return ggpo_start_spectating(&self.session, &calls, name, self.players, sizeof(uint32_t), port, host.u.remote.ip_address,
                                     host.u.remote.port);
    if (self.sync_frames > 0)
        return ggpo_start_synctest(&self.session, &calls, name, self.players, sizeof(uint32_t), (int)self.sync_frames);
    return ggpo_start_session(&self.session, &calls, name, self.players, sizeof(uint32_t), port);
}

static bool set_up(void) {
    if (self.timeout < 0)
        self.timeout = self.online.players > 0 ? TIMEOUT_ONLINE : TIMEOUT;
    ggpo_set_disconnect_timeout(self.session, (int)self.timeout);
    if (self.watch == 0 && self.sync_frames == 0)
        fazggpo_tell_missing(self.session);
    if (self.match > 0)
        fazggpo_set_match(self.session, (uint64_t)self.match);
    fazggpo_set_opening(self.session, duel_checksum(&self.now.field));
    if (self.can_rejoin && !GGPO_SUCCEEDED(fazggpo_rejoin(self.session)))
        return false;
    return GGPO_SUCCEEDED(fazggpo_set_line(self.session, (int)self.lag, (int)self.loss, (int)self.junk))
        && GGPO_SUCCEEDED(fazggpo_set_speed(self.session, (int)self.speed));
}

/* Publishes the match, if that is asked for, under a name that no other machine has at this address. */
static bool start_casting(int port) {
    char name[32];
    snprintf(name, sizeof name, "%s%d-%d", self.watch > 0 ? "watcher" : "player", self.local[0], port);
    self.cast.me = name;
    self.cast.players = self.players;
    self.cast.frames = self.frames;
    return casting_open(&self.cast, &self.now.field);
}

/* Plays with the session, whose players are added, and gives all back. */
static int run(bool is_ready, int port) {
    int status = 2;
    if (!is_ready || self.locals == 0)
        fail(is_ready ? "no player is local" : ggpo_last_error(self.session));
    else if (!self.is_headless && !window_open(self.local[0]))
        fail("no window can be opened: --headless plays without");
    else if (!helpers_begin(self.session, self.helpers))
        fail("no helpers for this");
    else if (start_casting(port))
        status = play();
    helpers_end(self.session);
    ggpo_close_session(self.session);
    if (status != 2 && !casting_close(self.is_over ? "the match can't go on" : "the match was closed"))
        status = 1;
    if (!self.is_headless)
        window_close();
    return status;
}

/* With friends who meet by a code. */
static int run_online(void) {
    int status = 2;
    self.online.broker = self.cast.broker;
    self.online.lasts = self.can_rejoin;
    self.online.is_stopped = is_stopped;
    if (online_meet(&self.online)) {
        self.players = self.online.players;
        duel_open(&self.now.field, (uint32_t)self.players);
        status = GGPO_SUCCEEDED(start(0, NULL)) ? run(set_up() && add_met(), 0) : fail(ggpo_last_error(NULL));
    } else if (is_stopped())
        status = 0;
    online_close();
    return status;
}

int main(int count, char **words) {
    if (is_help(words, usage))
        return 0;
    int at = read_options(words, options);
    bool is_online = self.online.host > 0 || self.online.code != NULL;
    long port;
    if (fazgrond_version() >> 8 != FAZGROND_VERSION >> 8) /* the same major and minor number */
        return fail("this was compiled for another version of the library");
    stops_begin();
    if (at > 0 && is_online)
        return words[at] != NULL || self.online.host > DUEL_SHIPS ? fail("two to four players were expected, and no addresses")
                                                                  : run_online();
    if (at == 0 || !read_number(words[at], &port) || port > 65535)
        return fail("the options or the port can't be read");
    self.players = (int)self.watch;
    while (self.watch == 0 && words[at + 1 + self.players] != NULL && !is_viewer(words[at + 1 + self.players]))
        self.players++;
    if (!duel_open(&self.now.field, (uint32_t)self.players) || (self.watch > 0 && count != at + 2))
        return fail("two to four players were expected, or the one machine that is watched");
    if (!GGPO_SUCCEEDED(start((unsigned short)port, words[at + 1])))
        return fail(ggpo_last_error(NULL));
    bool is_ready = set_up();
    for (int player = 1; player < count - at && self.watch == 0 && is_ready; player++)
        is_ready = add_player(words[at + player], player);
    if (self.watch > 0) /* its window stands beside those of the players, and no ship is its own */
        self.local[self.locals++] = self.players + 1;
    return run(is_ready, (int)port);
}
