/* One machine of a lobby: meet host PLAYERS [OPTION..] | meet join CODE [OPTION..]
 *
 * It tells each event, meets the others, and then sends each of them datagrams with their number, 60 a second. What was agreed
 * on and what came is told at the end.
 *
 *     --broker URL --trusted FILE --stun ADDRESS:PORT --relay USER:PASSWORD@ADDRESS:PORT --tcp-relay the same --relay-only, as words.h
 *     --name NAME        --digest N      --here N      --common TEXT
 *     --lasts            whoever stops can come back
 *     --open             and seats that nobody has when the host begins stay open
 *     --door             codes are short, and relays are the door's
 *     --asks yes|no      the host's player lets all in, or nobody
 *     --begin N          the host begins once so many machines are there
 *     --count N          so many datagrams from each of the others are waited for (60)
 *     --stay SECONDS     and it stays at least so long after that (0)
 *     --within N         give up after so many seconds (40)
 *
 * By SIGUSR1 it stays no longer, and leaves a lobby whose match hasn't begun. */
#define _POSIX_C_SOURCE 200809L

#include "../../../lib/lobby/words.h"

#include <inttypes.h>
#include <signal.h>
#include <stdio.h>
#include <stdlib.h>
#include <string.h>
#include <time.h>

enum { PERIOD = 16667, SIZE = 45, TAIL = 500 };

typedef struct machine {
    uint32_t next;            /* the number of the next datagram to it */
    uint64_t came, gap, last; /* microseconds: the longest time between two */
} machine;

static struct {
    faz_lobby_settings settings;
    lobby_words words;
    faz_lobby *lobby;
    faz_lobby_match match;
    const char *asks;
    long begin, count, stay, within, friends;
    machine machine[FAZGROND_MACHINES];
    uint64_t begun, ready, due, wrong, most, turns, busy;
    bool stays_open, is_there, has_match, has_all, is_over; /* is_there: at the broker */
} self = { .words = { .broker = "nats://127.0.0.1:4222" }, .count = 60, .within = 40 };

static volatile sig_atomic_t is_asked_to_end;

static void ask_to_end(int signal) { is_asked_to_end = signal; }

static uint64_t micros_of(clockid_t clock) {
    struct timespec now;
    clock_gettime(clock, &now);
    return (uint64_t)now.tv_sec * 1000000 + (uint64_t)now.tv_nsec / 1000;
}

static uint64_t micros(void) { return micros_of(CLOCK_MONOTONIC); }

static long millis(void) { return (long)((micros() - self.begun) / 1000); }

static const char *const WHATS[] = { "code",   "away",    "asks",  "joined", "left",    "full",      "up",
                                     "silent", "blocked", "ended", "comes",  "refused", "unanswered" };
static const char *const WHYS[] = { "-",      "no-such-code", "no-seat",  "other-game", "not-let-in", "host-left", "other-library",
                                    "system", "wrong-code",   "too-many", "a-page" };

static void tell_events(void) {
    faz_lobby_event event;
    while (faz_lobby_next_event(self.lobby, &event)) {
        printf("at %ld %s machine %u who %u why %s name [%s] text [%s]\n", millis(), WHATS[event.what], event.machine, event.who,
               WHYS[event.why], event.name, event.text);
        if (event.what == FAZ_LOBBY_ASKS && self.settings.players > 0 && self.asks != NULL)
            printf("let in: %d\n", faz_lobby_let_in(self.lobby, event.who, strcmp(self.asks, "yes") == 0));
        self.friends += (event.what == FAZ_LOBBY_JOINED) - (event.what == FAZ_LOBBY_LEFT);
        self.is_over = self.is_over || event.what == FAZ_LOBBY_ENDED;
        if (event.what == FAZ_LOBBY_COMES)
            faz_lobby_get_match(self.lobby, &self.match);
    }
    fflush(stdout);
}

static void receive(void) {
    uint8_t bytes[FAZGROND_DATAGRAM];
    uint32_t from;
    size_t length;
    while (faz_lobby_receive(self.lobby, &from, bytes, sizeof bytes, &length)) {
        machine *of = &self.machine[from];
        uint64_t now = micros();
        if (length != SIZE || bytes[8] != from || bytes[9] != self.match.me)
            self.wrong++;
        if (of->came++ == 0)
            printf("at %ld first datagram of machine %u\n", millis(), from);
        else if (now - of->last > of->gap)
            of->gap = now - of->last;
        of->last = now;
    }
}

static void send_due(void) {
    uint8_t bytes[SIZE] = { 0 };
    for (; self.due <= micros(); self.due += PERIOD)
        for (uint32_t to = 0; to < self.match.machines; to++) {
            bytes[8] = (uint8_t)self.match.me;
            bytes[9] = (uint8_t)to;
            memcpy(bytes, &self.machine[to].next, 4);
            if (to != self.match.me && faz_lobby_send(self.lobby, to, bytes, sizeof bytes))
                self.machine[to].next++;
        }
}

static bool has_all(void) {
    for (uint32_t from = 0; from < self.match.machines; from++)
        if (from != self.match.me && (self.match.vacant >> from & 1) == 0 && self.machine[from].came < (uint64_t)self.count)
            return false;
    return true;
}

/* Once all came, those on their way to others are waited for. */
static bool is_done(void) {
    static uint64_t since;
    if (!self.has_match || !has_all())
        return false;
    if (!self.has_all)
        since = micros();
    self.has_all = true;
    return micros() - since > (uint64_t)((is_asked_to_end ? 0 : self.stay * 1000) + TAIL) * 1000;
}

static void turn(void) {
    uint64_t before = micros_of(CLOCK_THREAD_CPUTIME_ID), begun = micros();
    faz_lobby_turn(self.lobby, (uint32_t)(begun / 1000));
    if (micros() - begun > self.most)
        self.most = micros() - begun;
    self.busy += micros_of(CLOCK_THREAD_CPUTIME_ID) - before;
    self.turns++;
    tell_events();
    if (faz_lobby_stage_of(self.lobby) != FAZ_LOBBY_REACHING && !self.is_there) {
        self.is_there = true;
        printf("at %ld reached\n", millis());
    }
    if (faz_lobby_stage_of(self.lobby) == FAZ_LOBBY_READY && !self.has_match) {
        self.has_match = faz_lobby_get_match(self.lobby, &self.match);
        self.ready = self.due = micros();
        printf("at %ld ready\n", millis());
    }
    if (self.has_match) {
        receive();
        send_due();
    }
    if (self.begin > 0 && self.is_there && self.friends + 1 >= self.begin) {
        printf("begun: %d\n", faz_lobby_begin(self.lobby));
        self.begin = 0;
    }
    self.is_over = self.is_over || (is_asked_to_end && !self.has_match);
}

static void say_result(void) {
    const faz_lobby_match *match = &self.match;
    faz_lobby_get_match(self.lobby, &self.match);
    printf("match me %u machines %u players %u owners", match->me, match->machines, match->players);
    for (uint32_t player = 0; player < match->players; player++)
        printf(" %u", match->owners[player]);
    printf(" number %016" PRIx64 " comers %016" PRIx64 " common [%.*s] names", match->number, match->comers, (int)match->common_length,
           (const char *)match->common);
    for (uint32_t at = 0; at < match->machines; at++)
        printf(" [%s] %016" PRIx64, match->names[at], match->tickets[at]);
    printf("\nlate %d vacant %" PRIx32 ", back by [%s]\n", match->is_late, match->vacant, match->code);
    for (uint32_t at = 0; at < match->machines; at++) {
        faz_line_state state;
        if (faz_lobby_look(self.lobby, at, &state))
            printf("with %u number %016" PRIx64 " came %" PRIu64 " gap %" PRIu64 " way %d forged %" PRIu64 " misnamed %" PRIu64
                   " generation %u\n",
                   at, match->numbers[at], self.machine[at].came, self.machine[at].gap / 1000, (int)state.way, state.forged, state.misnamed,
                   state.generation);
    }
    printf("turn %.1f us of the processor; the longest took %.1f ms; wrong %" PRIu64 "\n", (double)self.busy / (double)self.turns,
           (double)self.most / 1000, self.wrong);
}

/* ---- the command line */

static bool read_text(char **at, const char *name, const char **to) {
    if (strcmp(at[0], name) != 0 || at[1] == NULL)
        return false;
    *to = at[1];
    return true;
}

static bool read_number(char **at, const char *name, long *to) {
    const char *text;
    if (!read_text(at, name, &text))
        return false;
    *to = atol(text);
    return true;
}

/* How many words an option has. */
static int read_option(char **at) {
    faz_lobby_settings *to = &self.settings;
    lobby_words *words = &self.words;
    const char *text;
    long number;
    if (read_text(at, "--broker", &words->broker) || read_text(at, "--trusted", &words->trusted) || read_text(at, "--name", &words->name)
        || read_text(at, "--stun", &words->stun) || read_text(at, "--relay", &words->relay)
        || read_text(at, "--tcp-relay", &words->tcp_relay) || read_number(at, "--begin", &self.begin)
        || read_number(at, "--count", &self.count) || read_number(at, "--stay", &self.stay) || read_number(at, "--within", &self.within))
        return 2;
    if (read_number(at, "--digest", &number)) {
        to->digest = (uint64_t)number;
    } else if (read_number(at, "--here", &number)) {
        to->here = (uint32_t)number;
    } else if (read_text(at, "--common", &text)) {
        to->common = text;
        to->common_length = strlen(text);
    } else if (read_text(at, "--asks", &self.asks)) {
        words->asks = true;
    } else if (strcmp(at[0], "--lasts") == 0) {
        words->lasts = true;
        return 1;
    } else if (strcmp(at[0], "--open") == 0) {
        self.stays_open = true;
        return 1;
    } else if (strcmp(at[0], "--door") == 0) {
        words->by_door = true;
        return 1;
    } else if (strcmp(at[0], "--relay-only") == 0) {
        words->relay_only = true;
        return 1;
    } else {
        printf("no such option: %s\n", at[0]);
        exit(2);
    }
    return 2;
}

int main(int count, char **words) {
    const char *why;
    if (count < 3)
        return 2;
    bool is_host = strcmp(words[1], "host") == 0;
    self.settings.players = is_host ? (uint32_t)atoi(words[2]) : 0;
    for (char **at = words + 3; *at != NULL;)
        at += read_option(at);
    why = faz_lobby_words_read(&self.words, &self.settings);
    if (why != NULL) {
        printf("refused: %s\n", why);
        return 2;
    }
    self.settings.stays_open = self.stays_open;
    self.begun = micros();
    self.lobby = is_host ? faz_lobby_host(&self.settings, &why) : faz_lobby_join(&self.settings, words[2], &why);
    if (self.lobby == NULL) {
        printf("refused: %s\n", why);
        return 3;
    }
    sigaction(SIGUSR1, &(struct sigaction){ .sa_handler = ask_to_end }, NULL);
    while (!self.is_over && !is_done() && millis() < self.within * 1000) {
        turn();
        nanosleep(&(struct timespec){ .tv_nsec = 1000000 }, NULL);
    }
    say_result();
    uint64_t closing = micros();
    faz_lobby_close(self.lobby);
    printf("closed in %.1f ms\n", (double)(micros() - closing) / 1000);
    return self.has_all && self.wrong == 0 ? 0 : 1;
}
