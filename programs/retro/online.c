#define _POSIX_C_SOURCE 200809L
#include "online.h"

#include "../common/clock.h"
#include "../../lib/lobby/words.h"

#include <string.h>

/* Machines have addresses that nobody has, counted from this one on, and the same at all of them. */
#define NOWHERE UINT32_C(0xf0000001) /* 240.0.0.1 */
/* Keeps machines of another program out. */
#define DIGEST UINT64_C(0x66617a2d72657472)

enum { TEXT = FAZ_LOBBY_TEXT_ROOM + 64 };

static struct {
    faz_lobby *lobby;
    lobby_words words;
    uint32_t asking;             /* who waits for an answer of this player's; 0: nobody */
    char code[TEXT], text[TEXT]; /* what the host was told, and what was said last */
    char question[TEXT];
} self;

static uint32_t millis(void) { return (uint32_t)(clock_micros() / 1000); }

static void tell_events(void) {
    faz_lobby_event event;
    char text[TEXT];
    while (faz_lobby_next_event(self.lobby, &event)) {
        faz_lobby_words_begin(&self.words, self.lobby, &event);
        faz_lobby_words_of(self.lobby, &event, text, sizeof text);
        if (faz_lobby_words_of_left(&self.words, &event) || *text == 0)
            continue;
        memcpy(event.what == FAZ_LOBBY_CODE ? self.code : self.text, text, sizeof text);
        fprintf(stderr, "%s\n", text);
        if (event.what != FAZ_LOBBY_ASKS || event.who == 0)
            continue;
        self.asking = event.who;
        memcpy(self.question, text, sizeof self.question);
        fputs(LOBBY_WORDS_ANSWERS "\n", stderr);
    }
}

bool online_open(const online_wish *wish) {
    faz_lobby_settings settings = { .digest = DIGEST, .players = wish->machines, .any_sender = true };
    self.words = (lobby_words){ .broker = wish->broker,
                                .trusted = wish->trusted,
                                .stun = wish->stun,
                                .relay = wish->relay,
                                .tcp_relay = wish->tcp_relay,
                                .name = wish->name,
                                .relay_only = wish->relay_only,
                                .asks = wish->asks,
                                .by_door = wish->by_door,
                                .lasts = wish->lasts,
                                .begin_with = wish->begin_with };
    const char *why = faz_lobby_words_read(&self.words, &settings);
    if (why == NULL)
        self.lobby = wish->code != NULL ? faz_lobby_join(&settings, wish->code, &why) : faz_lobby_host(&settings, &why);
    if (self.lobby == NULL)
        fprintf(stderr, "faz-retro: %s\n", why);
    return self.lobby != NULL;
}

static void turn(void) {
    faz_lobby_turn(self.lobby, millis());
    tell_events();
    self.asking = faz_lobby_words_let_in(self.lobby, self.asking);
}

online_stage online_turn(void) {
    turn();
    faz_lobby_stage stage = faz_lobby_stage_of(self.lobby);
    return stage == FAZ_LOBBY_OVER ? ONLINE_OVER : stage == FAZ_LOBBY_READY ? ONLINE_READY : ONLINE_WAITS;
}

const char *online_text(void) {
    bool is_meeting = faz_lobby_stage_of(self.lobby) == FAZ_LOBBY_MEETING;
    return self.code[0] != 0 && is_meeting ? self.code : self.text;
}

int online_question(const char *lines[2]) {
    lines[0] = self.question;
    lines[1] = LOBBY_WORDS_ANSWERS;
    return self.asking != 0 ? 2 : 0;
}

void online_answer(bool yes) {
    faz_lobby_let_in(self.lobby, self.asking, yes);
    self.asking = 0;
}

/* ---- in the place of a socket */

static address address_of(uint32_t machine) {
    address made = { .sin_family = AF_INET, .sin_port = htons(1) };
    made.sin_addr.s_addr = htonl(NOWHERE + machine);
    return made;
}

static void send_by_line(const address *to, const uint8_t *bytes, size_t length) {
    (void)faz_lobby_send(self.lobby, ntohl(to->sin_addr.s_addr) - NOWHERE, bytes, length); /* or it is lost */
}

static long next_of_lines(address *from, uint8_t *bytes, size_t room) {
    uint32_t machine;
    size_t length;
    if (!faz_lobby_receive(self.lobby, &machine, bytes, room, &length))
        return -1;
    *from = address_of(machine);
    return (long)length;
}

void online_left(const address *of) {
    uint32_t machine = ntohl(of->sin_addr.s_addr) - NOWHERE;
    if (self.lobby != NULL && machine < FAZGROND_MACHINES)
        self.words.left |= 1u << machine;
}

static const net_wire lines = { turn, send_by_line, next_of_lines };

bool online_take(net *over, meeting *with) {
    faz_lobby_match match;
    (void)faz_lobby_get_match(self.lobby, &match);
    if (match.code[0] != 0)
        fprintf(stderr, "whoever stops comes back by --join %s\n", match.code);
    net_open_wire(over, &lines);
    with->host = address_of(0);
    with->has_key = true;
    with->key = match.number;
    return match.me == 0;
}

uint32_t online_wanted(meeting *with) {
    faz_lobby_match match;
    (void)faz_lobby_get_match(self.lobby, &match);
    with->vacants = 0;
    for (uint32_t machine = 0; machine < match.machines; machine++)
        if ((match.vacant >> machine & 1) != 0)
            with->vacant[with->vacants++] = address_of(machine);
    return match.machines - with->vacants;
}

void online_close(void) {
    faz_lobby_close(self.lobby);
    self.lobby = NULL;
}
