#define _POSIX_C_SOURCE 200809L
#include "online.h"

#include "../../lib/lobby/words.h"
#include "../common/clock.h"

#include <string.h>

/* Keeps other games out, and other rules. */
#define DIGEST UINT64_C(0x6475656c00000001)

enum { TEXT = 256, MILLISECOND = 1000000 };

static struct {
    faz_lobby *lobby;
    faz_lobby_match match;
    lobby_words words;
    uint32_t asking; /* who waits for an answer of this player's; 0: nobody */
    char question[2 * TEXT];
    bool needs_code, has_asked; /* the code is typed at the terminal, which the player was told */
} self;

static void tell_events(void) {
    faz_lobby_event event;
    char text[TEXT];
    while (faz_lobby_next_event(self.lobby, &event)) {
        faz_lobby_words_of(self.lobby, &event, text, sizeof text);
        if (*text != 0 && !faz_lobby_words_of_left(&self.words, &event))
            fprintf(stderr, "%s\n", text);
        faz_lobby_words_begin(&self.words, self.lobby, &event);
        if (event.what != FAZ_LOBBY_ASKS || event.who == 0)
            continue;
        self.asking = event.who;
        snprintf(self.question, sizeof self.question, "%s: " LOBBY_WORDS_ANSWERS, text);
        fputs(LOBBY_WORDS_ANSWERS "\n", stderr);
    }
}

static void turn(void) {
    faz_lobby_turn(self.lobby, (uint32_t)(clock_micros() / 1000));
    tell_events();
    self.asking = faz_lobby_words_let_in(self.lobby, self.asking);
}

/* Once the broker is there, the player types the code. */
static void take_code(void) {
    if (!self.needs_code || faz_lobby_stage_of(self.lobby) != FAZ_LOBBY_MEETING)
        return;
    if (!self.has_asked)
        fputs("type the code\n", stderr);
    self.has_asked = true;
    self.needs_code = !faz_lobby_words_enter(self.lobby);
}

static bool open(const online *wish) {
    faz_lobby_settings settings = { .digest = DIGEST, .players = (uint32_t)wish->host, .any_sender = true };
    self.words = (lobby_words){ .broker = wish->broker,
                                .trusted = wish->trusted,
                                .stun = wish->stun,
                                .relay = wish->relay,
                                .tcp_relay = wish->tcp_relay,
                                .name = wish->name,
                                .relay_only = wish->relay_only,
                                .asks = wish->asks,
                                .by_door = wish->by_door,
                                .lasts = wish->lasts,
                                .begin_with = wish->begin_with };
    self.needs_code = wish->code != NULL && strcmp(wish->code, "-") == 0;
    const char *why = faz_lobby_words_read(&self.words, &settings);
    if (why == NULL)
        self.lobby = wish->host > 0 ? faz_lobby_host(&settings, &why)
            : self.needs_code       ? faz_lobby_open(&settings, &why)
                                    : faz_lobby_join(&settings, wish->code, &why);
    if (self.lobby == NULL)
        fprintf(stderr, "duel: %s\n", why);
    return self.lobby != NULL;
}

bool online_meet(online *wish) {
    if (!open(wish))
        return false;
    while (faz_lobby_stage_of(self.lobby) < FAZ_LOBBY_READY && !wish->is_stopped()) {
        turn();
        take_code();
        nanosleep(&(struct timespec){ .tv_nsec = MILLISECOND }, NULL);
    }
    if (faz_lobby_stage_of(self.lobby) != FAZ_LOBBY_READY || !faz_lobby_get_match(self.lobby, &self.match)
        || self.match.players > DUEL_SHIPS)
        return false;
    if (self.match.code[0] != 0)
        fprintf(stderr, "whoever stops comes back by --join %s\n", self.match.code);
    wish->players = (int)self.match.players;
    for (int at = 0; at < wish->players; at++) {
        wish->is_local[at] = self.match.owners[at] == self.match.me;
        wish->is_vacant[at] = wish->is_local[at] ? self.match.is_late : (self.match.vacant >> self.match.owners[at] & 1) != 0;
    }
    return true;
}

const char *online_question(void) { return self.asking != 0 ? self.question : ""; }

void online_answer(bool yes) {
    if (self.asking != 0)
        faz_lobby_let_in(self.lobby, self.asking, yes);
    self.asking = 0;
}

void online_left(int player) {
    if (self.lobby != NULL && player >= 1 && player <= (int)self.match.players)
        self.words.left |= 1u << self.match.owners[player - 1];
}

/* ---- a line in the place of a socket: a machine is named by its first player */

static void send_by_line(void *of, GGPOPlayerHandle to, const unsigned char *bytes, int length) {
    (void)of;
    if (to >= 1 && to <= (int)self.match.players)
        faz_lobby_send(self.lobby, self.match.owners[to - 1], bytes, (size_t)length);
}

static bool receive_of_lines(void *of, GGPOPlayerHandle *from, unsigned char *bytes, int room, int *length) {
    uint32_t machine;
    size_t size;
    (void)of;
    turn();
    if (!faz_lobby_receive(self.lobby, &machine, bytes, (size_t)room, &size))
        return false;
    *from = 0;
    for (uint32_t at = self.match.players; at > 0; at--)
        if (self.match.owners[at - 1] == machine)
            *from = (GGPOPlayerHandle)at;
    *length = (int)size;
    return true;
}

/* Addresses name machines, and are nobody's. */
void online_player(const online *wish, int number, GGPOPlayer *player) {
    player->type = wish->is_local[number - 1] ? GGPO_PLAYERTYPE_LOCAL : GGPO_PLAYERTYPE_REMOTE;
    if (wish->is_local[number - 1])
        return;
    snprintf(player->u.remote.ip_address, sizeof player->u.remote.ip_address, "240.0.0.%u", self.match.owners[number - 1] + 1);
    player->u.remote.port = 1;
}

bool online_take(GGPOSession *session) {
    FazggpoWire wire = { NULL, send_by_line, receive_of_lines };
    return GGPO_SUCCEEDED(fazggpo_set_wire(session, &wire)) && GGPO_SUCCEEDED(fazggpo_set_match(session, self.match.number));
}

bool online_seal(GGPOSession *session) {
    bool is_sealed = true;
    for (uint32_t at = 0; at < self.match.players; at++) {
        uint32_t machine = self.match.owners[at];
        if (machine != self.match.me)
            is_sealed = is_sealed && GGPO_SUCCEEDED(fazggpo_set_number(session, (GGPOPlayerHandle)at + 1, self.match.numbers[machine]));
    }
    return is_sealed;
}

void online_close(void) {
    faz_lobby_close(self.lobby);
    self.lobby = NULL;
}
