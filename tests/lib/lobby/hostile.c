/* Strangers on the broker, and friends who lie: hostile URL [short]. Lobbies of one process, and beside them somebody who hears
 * all that is said on the broker, says it again, changes it, and says what it likes. With `short` codes are short, and there is
 * a door. */
#define _POSIX_C_SOURCE 200809L

#include "../../../lib/lobby/inside.h"
#include "../../check.h"

#include <nats/nats.h>
#include <sodium.h>
#include <stdio.h>
#include <stdlib.h>
#include <string.h>
#include <time.h>

enum { LOBBIES = 4, KEPT = 4096, WHATS = FAZ_LOBBY_UNANSWERED + 1, NAME_LENGTH = 8, PATIENCE = 30000 /* ms */ };

/* Names that junk doesn't have by chance. */
static const char HOST[] = "Annalena", FRIEND[] = "Bobbejan";

static struct {
    const char *url;
    faz_lobby *lobby[LOBBIES];
    unsigned told[LOBBIES][WHATS];
    faz_lobby_event last[LOBBIES];
    char code[FAZ_LOBBY_CODE_ROOM];
    faz_lobby_why code_why;
    uint32_t skipped; /* milliseconds that were left out */
    natsConnection *stranger;
    natsSubscription *all;
    natsMsg *kept[KEPT];
    size_t count;
    bool lasts, stays_open;      /* as the settings have them */
    char nobody[BROKER_SUBJECT]; /* an inbox that no machine hears */
} self;

static uint32_t now(void) {
    struct timespec time;
    clock_gettime(CLOCK_MONOTONIC, &time);
    return (uint32_t)((uint64_t)time.tv_sec * 1000 + (uint64_t)time.tv_nsec / 1000000) + self.skipped;
}

/* ---- lobbies */

static void turn(void) {
    for (int at = 0; at < LOBBIES; at++) {
        faz_lobby_event event;
        if (self.lobby[at] == NULL)
            continue;
        faz_lobby_turn(self.lobby[at], now());
        while (faz_lobby_next_event(self.lobby[at], &event)) {
            self.told[at][event.what]++;
            self.last[at] = event;
            if (event.what != FAZ_LOBBY_CODE)
                continue;
            strcpy(self.code, event.text);
            self.code_why = event.why;
        }
    }
    nanosleep(&(struct timespec){ .tv_nsec = 1000000 }, NULL);
}

static void run(uint32_t milliseconds) {
    for (uint32_t begun = now(); now() - begun < milliseconds;)
        turn();
}

/* Seconds pass, and nobody's is so long that others think it gone. */
static void wait_for(uint32_t milliseconds) {
    for (; milliseconds > 0; milliseconds -= milliseconds < 1000 ? milliseconds : 1000) {
        self.skipped += milliseconds < 1000 ? milliseconds : 1000;
        run(20);
    }
}

/* Whether a lobby comes to a stage in time. */
static bool comes_to(int at, faz_lobby_stage stage) {
    for (uint32_t begun = now(); now() - begun < PATIENCE && faz_lobby_stage_of(self.lobby[at]) != stage;)
        turn();
    return faz_lobby_stage_of(self.lobby[at]) == stage;
}

static bool is_told(int at, faz_lobby_what what, unsigned times) {
    for (uint32_t begun = now(); now() - begun < PATIENCE && self.told[at][what] < times;)
        turn();
    return self.told[at][what] == times;
}

static void open_host(uint32_t players, bool asks) {
    const char *why = NULL;
    faz_lobby_settings settings = {
        .broker = self.url, .name = HOST, .digest = 7, .players = players, .asks = asks, .lasts = self.lasts, .stays_open = self.stays_open
    };
    memset(self.told, 0, sizeof self.told);
    self.lobby[0] = faz_lobby_host(&settings, &why);
    CHECK_SAY(self.lobby[0] != NULL && comes_to(0, FAZ_LOBBY_MEETING), "a host");
}

static void open_friend(int at) {
    const char *why = NULL;
    faz_lobby_settings settings = { .broker = self.url, .name = FRIEND, .digest = 7, .lasts = self.lasts };
    self.lobby[at] = faz_lobby_join(&settings, self.code, &why);
    CHECK_SAY(self.lobby[at] != NULL, "a friend");
}

static void close_one(int at) {
    faz_lobby_close(self.lobby[at]);
    self.lobby[at] = NULL;
    memset(self.told[at], 0, sizeof self.told[at]);
}

static void close_all(void) {
    for (int at = LOBBIES - 1; at >= 0; at--)
        close_one(at);
}

/* ---- the stranger */

/* libnats' thread may use the old subscription until it has taken the answer to the flush. */
static bool listen(bool does) {
    natsSubscription *before = self.all;
    self.all = NULL;
    natsSubscription_Unsubscribe(before);
    bool is_so = (!does || natsConnection_SubscribeSync(&self.all, self.stranger, ">") == NATS_OK)
        && natsConnection_FlushTimeout(self.stranger, 1000) == NATS_OK;
    natsSubscription_Destroy(before);
    return is_so;
}

/* All that the broker has taken by now, and what comes right after that, as far as there is room. */
static void hear(void) {
    natsMsg *message;
    natsConnection_FlushTimeout(self.stranger, 5000);
    while (self.count < KEPT && natsSubscription_NextMsg(&message, self.all, 20) == NATS_OK)
        self.kept[self.count++] = message;
}

static void forget(void) {
    bool is_full = true;
    while (is_full) {
        hear();
        is_full = self.count == KEPT;
        while (self.count > 0)
            natsMsg_Destroy(self.kept[--self.count]);
    }
}

static void say(const char *subject, const char *reply, const uint8_t *bytes, size_t length) {
    if (reply != NULL)
        natsConnection_PublishRequest(self.stranger, subject, reply, bytes, (int)length);
    else
        natsConnection_Publish(self.stranger, subject, bytes, (int)length);
}

/* Says what was heard again: as it was, with a changed bit, and cut short. */
static void say_again(size_t first, size_t last) {
    for (size_t at = first; at < last; at++) {
        uint8_t bytes[BROKER_MESSAGE];
        size_t length = (size_t)natsMsg_GetDataLength(self.kept[at]);
        const char *subject = natsMsg_GetSubject(self.kept[at]), *reply = natsMsg_GetReply(self.kept[at]);
        if (length == 0 || length > sizeof bytes)
            continue;
        memcpy(bytes, natsMsg_GetData(self.kept[at]), length);
        say(subject, reply, bytes, length);
        say(subject, reply, bytes, length - 1 - randombytes_uniform((uint32_t)length));
        bytes[randombytes_uniform((uint32_t)length)] ^= (uint8_t)(1 << randombytes_uniform(8));
        say(subject, reply, bytes, length);
    }
    natsConnection_FlushTimeout(self.stranger, 1000);
}

/* Junk of each kind and length, to each subject that was heard. */
static void say_junk(void) {
    static const char kinds[] = "hoasg\0";
    uint8_t bytes[8000];
    for (size_t at = 0; at < self.count; at++)
        for (size_t kind = 0; kind < sizeof kinds; kind++) {
            size_t length = randombytes_uniform(at % 8 == 0 ? sizeof bytes : 200);
            randombytes_buf(bytes, sizeof bytes);
            bytes[0] = (uint8_t)kinds[kind];
            bytes[1] = (uint8_t)(bytes[1] % 8);
            say(natsMsg_GetSubject(self.kept[at]), natsMsg_GetReply(self.kept[at]), bytes, length);
        }
    natsConnection_FlushTimeout(self.stranger, 1000);
}

/* All that is said of a match of three is said again, changed and cut, and with junk in between. */
static void test_stranger(void) {
    open_host(3, false);
    open_friend(1);
    CHECK_SAY(is_told(1, FAZ_LOBBY_JOINED, 1), "a friend is in");
    hear();
    say_again(0, self.count);
    say_junk();
    run(200);
    CHECK_SAY(self.told[0][FAZ_LOBBY_JOINED] == 1 && self.told[0][FAZ_LOBBY_ENDED] == 0 && self.told[1][FAZ_LOBBY_ENDED] == 0,
              "what is said again does nothing");
    open_friend(2);
    CHECK_SAY(comes_to(0, FAZ_LOBBY_CONNECTING), "the match is known");
    hear();
    say_again(0, self.count);
    say_junk();
    for (int at = 0; at < 3; at++)
        CHECK_SAY(comes_to(at, FAZ_LOBBY_READY), "the match begins among strangers");
    hear();
    say_again(0, self.count);
    say_junk();
    run(300);
    for (int at = 0; at < 3; at++)
        /* (a busy machine may stand still for the second after which a line is silent) */
        CHECK_SAY(self.told[at][FAZ_LOBBY_FULL] == 1 && self.told[at][FAZ_LOBBY_UP] >= 2
                      && self.told[at][FAZ_LOBBY_UP] <= 2 + self.told[at][FAZ_LOBBY_SILENT]
                      && faz_lobby_stage_of(self.lobby[at]) == FAZ_LOBBY_READY,
                  "the match goes on among strangers");
    CHECK_SAY(self.told[0][FAZ_LOBBY_JOINED] == 2, "nobody else joined");
    close_all();
}

/* Nothing that was heard has the code, a name or a key in it. */
static void test_hidden(void) {
    room in;
    uint8_t code[CODE_BYTES];
    CHECK_SAY(self.count > 10 && faz_code_read(self.code, code), "something was heard");
    faz_room_of(&in, code);
    for (size_t at = 0; at < self.count; at++) {
        const char *bytes = natsMsg_GetData(self.kept[at]);
        int length = natsMsg_GetDataLength(self.kept[at]);
        for (int place = 0; place + NAME_LENGTH <= length; place++) {
            CHECK_SAY(memcmp(bytes + place, HOST, NAME_LENGTH) != 0 && memcmp(bytes + place, FRIEND, NAME_LENGTH) != 0, "a name is seen");
            CHECK_SAY(place + CODE_BYTES > length || memcmp(bytes + place, code, CODE_BYTES) != 0, "the code is seen");
            CHECK_SAY(place + KEY > length || memcmp(bytes + place, in.key, KEY) != 0, "a key is seen");
        }
    }
    forget();
}

/* Answers go to inboxes alone: nobody makes a host say something elsewhere. */
static void test_elsewhere(void) {
    char slip[BROKER_SUBJECT], longer[BROKER_SUBJECT + 1], part[BROKER_SUBJECT];
    const char *const places[] = { "faz.meet.x",
                                   "faz.in.",
                                   "faz.in.>",
                                   "elsewhere",
                                   "faz.in.0123456789abcdef0123456789abcdeF",
                                   slip,
                                   longer,
                                   "faz.in.0123456789abcdef0123456789abcdef0",
                                   "faz.in.0123456789abcdef0123456789abcde",
                                   part };
    uint8_t message[BROKER_MESSAGE];
    hello text = { .version = LOBBY_VERSION };
    strcpy(slip, self.nobody);
    slip[20] = slip[20] == 'A' ? 'B' : 'A';
    snprintf(longer, sizeof longer, "%sA", self.nobody);
    snprintf(part, sizeof part, "%.20s", self.nobody);
    open_host(2, false);
    forget();
    size_t length = faz_hello_write(&text, &self.lobby[0]->room, message);
    for (size_t at = 0; at < sizeof places / sizeof *places; at++)
        say(self.lobby[0]->room_name, places[at], message, length);
    say(self.lobby[0]->room_name, NULL, message, length);
    run(100);
    hear();
    CHECK_SAY(self.count == sizeof places / sizeof *places + 1, "the host said something elsewhere");
    say(self.lobby[0]->room_name, self.nobody, message, length);
    run(100);
    hear();
    CHECK_SAY(self.count == sizeof places / sizeof *places + 3, "the host answers in an inbox");
    close_all();
    forget();
}

/* Whether a message that was heard is an offer of this version, to somebody who has the code. */
static bool is_offer(const natsMsg *message, const char *to, const room *in) {
    offer came;
    return strcmp(natsMsg_GetSubject(message), to) == 0
        && faz_offer_read(&came, in, (const uint8_t *)natsMsg_GetData(message), (size_t)natsMsg_GetDataLength(message))
        && came.version == LOBBY_VERSION;
}

/* Who says hello by version 1, whose inboxes were 32 digits, is offered this version, and so told that it is another one. It gets no
 * seat. */
static void test_older(void) {
    static const char inbox[] = "faz.in.0123456789abcdef0123456789abcdef";
    uint8_t message[BROKER_MESSAGE], secret[KEY];
    pair between;
    hello text = { .version = 1 };
    ask asks = { .counter = 1, .digest = 7, .here = 1, .name = "old" };
    open_host(2, false);
    forget();
    const room *in = &self.lobby[0]->room;
    say(self.lobby[0]->room_name, inbox, message, faz_hello_write(&text, in, message));
    run(100);
    hear();
    CHECK_SAY(self.count == 2 && is_offer(self.kept[1], inbox, in), "an older friend is offered this version");
    crypto_kx_keypair(asks.open, secret);
    faz_pair_of(&between, in, asks.open, secret, self.lobby[0]->keys.open);
    say(self.lobby[0]->inbox_name, inbox, message, faz_ask_write(&asks, in, &between, message));
    run(100);
    CHECK_SAY(self.told[0][FAZ_LOBBY_JOINED] == 0, "an older friend has a seat");
    close_all();
    forget();
}

/* Who has the code, and answers sooner than the host, isn't taken for it. */
static void test_false_host(void) {
    uint8_t message[BROKER_MESSAGE], secret[SECRET];
    const char *why;
    offer lie = { .version = LOBBY_VERSION };
    open_host(2, false);
    open_friend(1);
    const room *in = &self.lobby[0]->room;
    faz_host_draw(lie.host, secret);
    randombytes_buf(lie.speaks, KEY);
    faz_host_vouch(lie.proof, secret, lie.speaks);
    size_t length = faz_offer_write(&lie, in, message);
    faz_lobby_turn(self.lobby[1], now());
    for (int times = 0; times < 50; times++) {
        say(self.lobby[1]->inbox_name, NULL, message, length);
        nanosleep(&(struct timespec){ .tv_nsec = 1000000 }, NULL);
        faz_lobby_turn(self.lobby[1], now());
    }
    CHECK_SAY(self.lobby[1]->joining.stage == SAYS_HELLO, "another host's key is none of this code");
    memcpy(lie.host, self.lobby[0]->hosting.open, KEY);
    length = faz_offer_write(&lie, in, message);
    say(self.lobby[1]->inbox_name, NULL, message, length);
    natsConnection_FlushTimeout(self.stranger, 1000);
    for (int times = 0; times < 50; times++) {
        nanosleep(&(struct timespec){ .tv_nsec = 1000000 }, NULL);
        faz_lobby_turn(self.lobby[1], now());
    }
    CHECK_SAY(self.lobby[1]->joining.stage == SAYS_HELLO, "the host's key without its word");
    CHECK_SAY(comes_to(1, FAZ_LOBBY_READY), "the friend comes to the real host");
    faz_lobby_settings settings = { .broker = self.url, .digest = 7 };
    self.lobby[2] = faz_lobby_join(&settings, self.code, &why);
    CHECK_SAY(self.lobby[2] != NULL && comes_to(2, FAZ_LOBBY_OVER) && self.last[2].why == FAZ_LOBBY_NO_SEAT, "all seats are taken");
    close_all();
    forget();
}

/* So many who have the code ask, by another game, and leave. */
static void come_and_leave(int many) {
    uint8_t message[BROKER_MESSAGE], secret[KEY];
    const room *in = &self.lobby[0]->room;
    for (int one = 0; one < many; one++) {
        pair between;
        ask text = { .digest = 8, .here = 1, .name = "crowd" };
        crypto_kx_keypair(text.open, secret);
        faz_pair_of(&between, in, text.open, secret, self.lobby[0]->keys.open);
        for (text.counter = 1; text.counter <= 2; text.counter++) {
            text.leaves = text.counter == 2;
            say(self.lobby[0]->room_name, self.nobody, message, faz_ask_write(&text, in, &between, message));
        }
        if (one % 16 == 0)
            run(5);
    }
    run(100);
}

/* Who has left isn't brought back by its old messages, however many have left behind it, and its seat is free. */
static void test_ghosts(void) {
    open_host(3, false);
    open_friend(1);
    CHECK_SAY(is_told(1, FAZ_LOBBY_JOINED, 1), "a friend is in");
    hear();
    close_one(1);
    CHECK_SAY(is_told(0, FAZ_LOBBY_LEFT, 1), "it has left");
    say_again(0, self.count);
    run(200);
    CHECK_SAY(self.told[0][FAZ_LOBBY_JOINED] == 1, "it is back by what it had said");
    size_t count = self.count;
    come_and_leave(300);
    say_again(0, count);
    run(200);
    CHECK_SAY(self.told[0][FAZ_LOBBY_JOINED] == 1, "it is back after 300 others have left");
    open_friend(1);
    open_friend(2);
    for (int at = 0; at < 3; at++)
        CHECK_SAY(comes_to(at, FAZ_LOBBY_READY), "both seats are taken by friends");
    close_all();
    forget();
}

/* A friend whose machine stops without a word loses its seat after ten seconds; old messages of its don't keep it. */
static void test_silence(void) {
    open_host(2, true);
    open_friend(1);
    CHECK_SAY(is_told(0, FAZ_LOBBY_ASKS, 1), "the host's player is asked");
    hear();
    faz_lobby *stopped = self.lobby[1];
    self.lobby[1] = NULL;
    for (int times = 0; times < 12; times++) {
        self.skipped += 1000;
        say_again(0, self.count);
        run(50);
    }
    CHECK_SAY(self.told[0][FAZ_LOBBY_LEFT] == 1, "who is silent is gone");
    CHECK_SAY(!faz_lobby_let_in(self.lobby[0], 1, true), "and can't be let in");
    faz_lobby_close(stopped);
    open_friend(1);
    CHECK_SAY(is_told(0, FAZ_LOBBY_ASKS, 2) && is_told(1, FAZ_LOBBY_ASKS, 1), "the next one asks");
    CHECK_SAY(strcmp(self.last[0].text, self.last[1].text) == 0 && self.last[1].what == FAZ_LOBBY_ASKS, "both see the same");
    CHECK_SAY(faz_lobby_let_in(self.lobby[0], self.last[0].who, false) && comes_to(1, FAZ_LOBBY_OVER)
                  && self.last[1].why == FAZ_LOBBY_NOT_LET_IN,
              "it isn't let in");
    close_all();
    forget();
}

/* Many who have the code ask at once: so many are remembered, and no more; a seat is left for who is let in. */
static void test_crowd(void) {
    uint8_t message[BROKER_MESSAGE];
    open_host(2, true);
    const room *in = &self.lobby[0]->room;
    for (int one = 0; one < 500; one++) {
        uint8_t secret[KEY];
        pair between;
        ask text = { .counter = 1, .digest = 7, .here = 1, .name = "crowd" };
        crypto_kx_keypair(text.open, secret);
        faz_pair_of(&between, in, text.open, secret, self.lobby[0]->keys.open);
        say(self.lobby[0]->room_name, self.nobody, message, faz_ask_write(&text, in, &between, message));
        if (one % 32 == 0)
            run(5);
    }
    run(200);
    CHECK_SAY(self.told[0][FAZ_LOBBY_ASKS] == GUESTS, "as many ask as are remembered");
    self.skipped += 11000;
    run(50);
    CHECK_SAY(self.told[0][FAZ_LOBBY_LEFT] == GUESTS, "they are gone");
    open_friend(1);
    CHECK_SAY(is_told(0, FAZ_LOBBY_ASKS, GUESTS + 1) && faz_lobby_let_in(self.lobby[0], self.last[0].who, true), "a friend is let in");
    CHECK_SAY(comes_to(1, FAZ_LOBBY_READY) && comes_to(0, FAZ_LOBBY_READY), "and plays");
    close_all();
    forget();
}

/* Another version, another game, and a code by which nobody hosts. */
static void test_refusals(void) {
    uint8_t message[BROKER_MESSAGE];
    const char *why;
    faz_lobby_settings settings = { .broker = self.url, .digest = 8 };
    offer newer = { .version = LOBBY_VERSION + 1 };
    open_host(2, false);
    self.lobby[1] = faz_lobby_join(&settings, self.code, &why);
    CHECK_SAY(comes_to(1, FAZ_LOBBY_OVER) && self.last[1].why == FAZ_LOBBY_OTHER_GAME, "another game");
    close_one(1);
    settings = (faz_lobby_settings){ .broker = self.url, .digest = 7, .here = 2 };
    self.lobby[1] = faz_lobby_join(&settings, self.code, &why);
    CHECK_SAY(comes_to(1, FAZ_LOBBY_OVER) && self.last[1].why == FAZ_LOBBY_NO_SEAT, "two at one machine, and one seat");
    close_one(1);
    room in = self.lobby[0]->room;
    close_one(0);
    open_friend(1);
    run(300);
    CHECK_SAY(faz_lobby_stage_of(self.lobby[1]) == FAZ_LOBBY_MEETING, "somebody hears, and says nothing");
    say(self.lobby[1]->inbox_name, NULL, message, faz_offer_write(&newer, &in, message));
    CHECK_SAY(comes_to(1, FAZ_LOBBY_OVER) && self.last[1].why == FAZ_LOBBY_OTHER_LIBRARY, "another version");
    close_one(1);
    open_friend(1);
    run(300);
    self.skipped += 11000;
    CHECK_SAY(comes_to(1, FAZ_LOBBY_OVER) && self.last[1].why == FAZ_LOBBY_NO_SUCH_CODE, "nobody answers");
    CHECK_SAY(self.told[1][FAZ_LOBBY_UNANSWERED] == 0, "and nobody says so");
    close_one(1);
    listen(false);
    open_friend(1);
    uint32_t begun = now();
    CHECK_SAY(is_told(1, FAZ_LOBBY_UNANSWERED, 1) && self.last[1].why == FAZ_LOBBY_NO_SUCH_CODE && now() - begun < 2000, "nobody hears");
    wait_for(8000);
    CHECK_SAY(faz_lobby_stage_of(self.lobby[1]) == FAZ_LOBBY_MEETING, "it waits for ten seconds");
    wait_for(1000);
    CHECK_SAY(comes_to(1, FAZ_LOBBY_OVER) && self.last[1].why == FAZ_LOBBY_NO_SUCH_CODE, "and no longer");
    listen(true);
    close_all();
    forget();
}

/* Says what a broker says when nobody hears, which anybody can. */
static void say_nobody(const char *subject) {
    natsMsg *message = NULL;
    if (natsMsg_Create(&message, subject, NULL, NULL, 0) == NATS_OK && natsMsgHeader_Set(message, "Status", "503") == NATS_OK)
        natsConnection_PublishMsg(self.stranger, message);
    natsMsg_Destroy(message);
    natsConnection_FlushTimeout(self.stranger, 1000);
}

/* The host is slow, and somebody says meanwhile that nobody hears the friend: that is told at once, and once, and ends nothing. */
static void test_false_nobody(void) {
    open_host(2, false);
    faz_lobby *slow = self.lobby[0];
    self.lobby[0] = NULL;
    open_friend(1);
    for (int times = 0; times < 20; times++) {
        say_nobody(self.lobby[1]->inbox_name);
        run(10);
    }
    CHECK_SAY(self.told[1][FAZ_LOBBY_UNANSWERED] == 1 && strstr(self.last[1].text, "nobody answers so far") != NULL
                  && strstr(self.last[1].text, "10 seconds") != NULL,
              "it is told, and for how long it is waited");
    wait_for(8000);
    CHECK_SAY(faz_lobby_stage_of(self.lobby[1]) == FAZ_LOBBY_MEETING, "it ends nothing");
    self.lobby[0] = slow;
    CHECK_SAY(comes_to(1, FAZ_LOBBY_READY), "the friend comes in");
    say_nobody(self.lobby[1]->inbox_name);
    run(50);
    CHECK_SAY(self.told[1][FAZ_LOBBY_UNANSWERED] == 1 && self.told[1][FAZ_LOBBY_ENDED] == 0, "and stays");
    close_all();
    forget();
}

/* The host closes its lobby: friends are told at once; who can't hear it any more is told after ten seconds. */
static void test_host_leaves(void) {
    open_host(3, false);
    open_friend(1);
    CHECK_SAY(is_told(1, FAZ_LOBBY_JOINED, 1), "a friend is in");
    close_one(0);
    uint32_t begun = now();
    CHECK_SAY(comes_to(1, FAZ_LOBBY_OVER) && self.last[1].why == FAZ_LOBBY_HOST_LEFT && now() - begun < 2000, "the host has left");
    close_all();
    open_host(3, false);
    open_friend(1);
    CHECK_SAY(is_told(1, FAZ_LOBBY_JOINED, 1), "a friend is in");
    faz_lobby *stopped = self.lobby[0];
    self.lobby[0] = NULL;
    self.skipped += 8000;
    run(300);
    CHECK_SAY(faz_lobby_stage_of(self.lobby[1]) == FAZ_LOBBY_MEETING, "it waits for a host that is silent");
    self.skipped += 3000;
    CHECK_SAY(comes_to(1, FAZ_LOBBY_OVER) && self.last[1].why == FAZ_LOBBY_HOST_LEFT, "and no longer than ten seconds");
    faz_lobby_close(stopped);
    close_all();
    forget();
}

/* A machine of the match says that another one, which is there, is somebody else; that a place is another's which isn't there;
 * and it says so in a third one's name. Nobody believes it. And who has the code gets no place of those who are there. */
static void test_false_news(void) {
    uint8_t message[BROKER_MESSAGE], secret[KEY];
    news lie = { .counter = 1, .who = { .name = "liar" } };
    self.lasts = true;
    open_host(3, false);
    open_friend(1);
    CHECK_SAY(is_told(1, FAZ_LOBBY_JOINED, 1), "a friend is in");
    open_friend(2);
    for (int at = 0; at < 3; at++)
        CHECK_SAY(comes_to(at, FAZ_LOBBY_READY), "the match begins");
    crypto_kx_keypair(lie.who.open, secret);
    for (lie.place = 0; lie.place < 9; lie.place++)
        for (uint32_t from = 0; from < 4; from++) {
            size_t length = faz_news_write(from, &lie, &self.lobby[1]->other[0].pair, message);
            say(self.lobby[0]->inbox_name, NULL, message, length);
            say(self.lobby[2]->inbox_name, NULL, message, length);
        }
    run(200);
    forget();
    open_friend(3);
    run(1500);
    for (int at = 0; at < 3; at++)
        CHECK_SAY(self.told[at][FAZ_LOBBY_COMES] == 0 && self.told[at][FAZ_LOBBY_SILENT] == 0, "nobody comes in a place that isn't free");
    CHECK_SAY(faz_lobby_stage_of(self.lobby[3]) == FAZ_LOBBY_MEETING, "and who would come waits");
    hear();
    close_one(3);
    faz_lobby *stopped = self.lobby[2];
    self.lobby[2] = NULL;
    run(1600);
    say_again(0, self.count);
    run(300);
    CHECK_SAY(self.told[0][FAZ_LOBBY_COMES] == 0 && self.told[1][FAZ_LOBBY_COMES] == 0,
              "who asked before doesn't come by what is said again");
    open_friend(3);
    CHECK_SAY(comes_to(3, FAZ_LOBBY_READY) && self.told[0][FAZ_LOBBY_COMES] == 1 && self.told[1][FAZ_LOBBY_COMES] == 1, "a friend comes");
    self.lasts = false;
    faz_lobby_close(stopped);
    close_all();
    forget();
}

/* Machine 1 tells the host that somebody has a place. */
static void tell_news(uint32_t counter, uint32_t place, const uint8_t open[KEY]) {
    uint8_t message[BROKER_MESSAGE];
    news lie = { .counter = counter, .place = place, .who = { .name = "liar" } };
    memcpy(lie.who.open, open, KEY);
    say(self.lobby[0]->inbox_name, NULL, message, faz_news_write(1, &lie, &self.lobby[1]->other[0].pair, message));
    natsConnection_FlushTimeout(self.stranger, 1000);
    run(100);
}

/* Lines that talk are heard again after this, and who has stopped isn't, of whom all has come before. */
static void fall_silent(uint32_t milliseconds) {
    run(200);
    self.skipped += milliseconds;
    run(400);
}

/* A machine of the match asks another one, which answers, for the host's place, by the key that it has itself. */
static void ask_anew(int from, int to, const char *name) {
    uint8_t message[BROKER_MESSAGE];
    pair between;
    ask text = { .counter = 1, .digest = 7, .here = 1 };
    const room *in = &self.lobby[to]->later;
    strcpy(text.name, name);
    memcpy(text.open, self.lobby[from]->keys.open, KEY);
    faz_pair_of(&between, in, text.open, self.lobby[from]->keys.secret, self.lobby[to]->keys.open);
    say(self.lobby[to]->inbox_name, self.lobby[from]->inbox_name, message, faz_ask_write(&text, in, &between, message));
    run(300);
}

/* A machine that lies has no other one open a line by a key that somebody of the match has, or had: what that seals would be sealed by the
 * same keys, and counted from the same number. A key that nobody had is taken. */
static void test_known_keys(void) {
    uint8_t before[KEY], fresh[KEY], secret[KEY];
    uint32_t counter = 0;
    self.lasts = true;
    open_host(3, false);
    open_friend(1);
    CHECK_SAY(is_told(1, FAZ_LOBBY_JOINED, 1), "a friend is in");
    open_friend(2);
    for (int at = 0; at < 3; at++)
        CHECK_SAY(comes_to(at, FAZ_LOBBY_READY), "the match begins");
    memcpy(before, self.lobby[2]->keys.open, KEY);
    faz_lobby *stopped = self.lobby[2];
    self.lobby[2] = NULL;
    fall_silent(1100);
    for (uint32_t machine = 0; machine < 3; machine++)
        tell_news(++counter, 2, self.lobby[0]->table.member[machine].open);
    CHECK_SAY(self.told[0][FAZ_LOBBY_COMES] == 0, "nobody comes by a key that somebody has");
    fall_silent(1100);
    open_friend(2);
    CHECK_SAY(comes_to(2, FAZ_LOBBY_READY) && self.told[0][FAZ_LOBBY_COMES] == 1, "a friend comes");
    faz_lobby *stopped_too = self.lobby[2];
    self.lobby[2] = NULL;
    fall_silent(1100);
    tell_news(++counter, 2, before);
    CHECK_SAY(self.told[0][FAZ_LOBBY_COMES] == 1, "nobody comes by a key that somebody had");
    crypto_kx_keypair(fresh, secret);
    tell_news(++counter, 2, fresh);
    CHECK_SAY(is_told(0, FAZ_LOBBY_COMES, 2), "by a key that nobody had somebody comes");
    faz_lobby_close(stopped);
    faz_lobby_close(stopped_too);
    close_all();
    forget();
    self.lasts = false;
}

/* Who is in the match doesn't come into it once more by its key. */
static void test_known_comer(void) {
    self.lasts = true;
    open_host(3, false);
    open_friend(1);
    CHECK_SAY(is_told(1, FAZ_LOBBY_JOINED, 1), "a friend is in");
    open_friend(2);
    for (int at = 0; at < 3; at++)
        CHECK_SAY(comes_to(at, FAZ_LOBBY_READY), "the match begins");
    faz_lobby *stopped = self.lobby[0];
    self.lobby[0] = NULL;
    fall_silent(1600);
    ask_anew(2, 1, HOST);
    CHECK_SAY(self.told[1][FAZ_LOBBY_COMES] == 0, "a machine has a second place by its own key");
    faz_lobby_close(stopped);
    close_all();
    forget();
    self.lasts = false;
}

/* Of a seat that nobody has yet nobody speaks, whatever its key, and nobody is told that it is nobody's; a friend gets it. */
static void test_false_vacancies(void) {
    uint8_t message[BROKER_MESSAGE], secret[KEY];
    news lie = { .counter = 1, .place = 2, .who = { .name = "liar" } };
    pair nobodys = { 0 };
    self.lasts = self.stays_open = true;
    open_host(3, false);
    open_friend(1);
    CHECK_SAY(is_told(1, FAZ_LOBBY_JOINED, 1) && faz_lobby_begin(self.lobby[0]) && !faz_lobby_begin(self.lobby[0]), "it begins once");
    CHECK_SAY(comes_to(0, FAZ_LOBBY_READY) && comes_to(1, FAZ_LOBBY_READY), "with two of three");
    say(self.lobby[0]->inbox_name, NULL, message, faz_news_write(1, &lie, &self.lobby[1]->other[0].pair, message));
    crypto_kx_keypair(lie.who.open, secret);
    for (lie.place = 0; lie.place < 9; lie.place++)
        say(self.lobby[0]->inbox_name, NULL, message, faz_news_write(2, &lie, &nobodys, message));
    say(self.lobby[0]->inbox_name, NULL, message, faz_signal_write(2, secret, sizeof secret, &nobodys, message));
    run(300);
    CHECK_SAY(self.told[0][FAZ_LOBBY_COMES] == 0 && faz_lobby_look(self.lobby[0], 1, &(faz_line_state){ 0 })
                  && !faz_lobby_look(self.lobby[0], 2, &(faz_line_state){ 0 }),
              "nobody comes");
    open_friend(2);
    CHECK_SAY(comes_to(2, FAZ_LOBBY_READY) && self.told[0][FAZ_LOBBY_COMES] == 1 && self.told[1][FAZ_LOBBY_COMES] == 1, "a friend comes");
    self.lasts = self.stays_open = false;
    close_all();
    forget();
}

/* Settings that are no good are refused in words, and nothing is opened. */
static void test_settings(void) {
    const char *why = NULL;
    char common[FAZ_LOBBY_COMMON + 1] = { 0 };
    faz_lobby_settings good = { .broker = self.url, .players = 2 }, bad;
    struct {
        faz_lobby_settings settings;
        const char *what;
    } hosts[] = { { good, "one player" },  { good, "nine players" }, { good, "nobody elsewhere" }, { good, "too long" },
                  { good, "no broker" },   { good, "no address" },   { good, "no user" },          { good, "open seats" },
                  { good, "half a pass" }, { good, "a token" } };
    hosts[0].settings.players = 1;
    hosts[1].settings.players = 9;
    hosts[2].settings.here = 2;
    hosts[3].settings.common = common;
    hosts[3].settings.common_length = sizeof common;
    hosts[4].settings.broker = NULL;
    hosts[5].settings.broker = "localhost";
    hosts[8].settings.broker = "nats://SAAEHIWEKULOERSUIWN3EZG5SQZ5MIZRPODLROKQ5HPRVG7BPIGWX5BNLU@127.0.0.1:1";
    hosts[9].settings.broker = "nats://127.0.0.1:1,nats://secret@127.0.0.1:2";
    hosts[6].settings.relay_count = 1;
    hosts[6].settings.relays[0] = (faz_line_relay){ .address = "127.0.0.1", .port = 1, .password = "x" };
    hosts[7].settings.stays_open = true;
    for (size_t at = 0; at < sizeof hosts / sizeof *hosts; at++, why = NULL)
        CHECK_SAY(faz_lobby_host(&hosts[at].settings, &why) == NULL && why != NULL, "%s", hosts[at].what);
    bad = good;
    CHECK_SAY(faz_lobby_join(&bad, "KXQ-4H7", &why) == NULL && why != NULL, "no code");
    CHECK_SAY(faz_lobby_join(&bad, NULL, &why) == NULL && why != NULL, "no code at all");
    faz_lobby *one = faz_lobby_open(&bad, &why);
    CHECK_SAY(one != NULL && !faz_lobby_enter(one, "KXQ-4H7") && !faz_lobby_enter(one, NULL), "no code is typed");
    CHECK_SAY(faz_lobby_enter(one, "KXQ-4H7P") && !faz_lobby_enter(one, "KXQ-4H7P"), "and then one, once");
    faz_lobby_close(one);
    one = faz_lobby_host(&good, &why);
    CHECK_SAY(one != NULL && !faz_lobby_enter(one, "KXQ-4H7P"), "who hosts types none");
    faz_lobby_close(one);
    faz_lobby_close(NULL);
}

/* ---- short codes */

static void open_short(uint32_t players) {
    const char *why = NULL;
    faz_lobby_settings settings = {
        .broker = self.url, .name = HOST, .digest = 7, .players = players, .short_code = true, .lasts = self.lasts
    };
    memset(self.told, 0, sizeof self.told);
    self.lobby[0] = faz_lobby_host(&settings, &why);
    CHECK_SAY(self.lobby[0] != NULL && is_told(0, FAZ_LOBBY_CODE, 1), "a host with a short code");
    CHECK_SAY(strlen(self.code) == 8 && self.code[3] == '-' && self.code_why == FAZ_LOBBY_NO_REASON, "it is short");
}

/* The friend is asked for, and let in. */
static void let_in(int at) {
    unsigned asked = self.told[0][FAZ_LOBBY_ASKS];
    open_friend(at);
    CHECK_SAY(is_told(0, FAZ_LOBBY_ASKS, asked + 1) && faz_lobby_let_in(self.lobby[0], self.last[0].who, true), "a friend is let in");
}

/* Somebody tries a code with another last sign. */
static faz_lobby_why try_wrong(void) {
    char right[FAZ_LOBBY_CODE_ROOM];
    strcpy(right, self.code);
    self.code[7] = self.code[7] == '7' ? '8' : '7';
    open_friend(2);
    strcpy(self.code, right);
    CHECK_SAY(is_told(2, FAZ_LOBBY_UNANSWERED, 1) && self.last[2].why == FAZ_LOBBY_WRONG_CODE, "that a code is wrong is told at once");
    for (uint32_t begun = now(); now() - begun < PATIENCE && !self.lobby[0]->door.is_answered;)
        turn(); /* the host may have another code now */
    wait_for(2000);
    CHECK_SAY(faz_lobby_stage_of(self.lobby[2]) == FAZ_LOBBY_MEETING, "it waits for three seconds");
    wait_for(1000);
    CHECK_SAY(comes_to(2, FAZ_LOBBY_OVER), "a wrong code ends it");
    faz_lobby_why why = self.last[2].why;
    close_one(2);
    return why;
}

/* Four wrong tries do no harm, and take no seat. */
static void test_wrong_tries(void) {
    open_short(2);
    for (int times = 0; times < 4; times++)
        CHECK_SAY(try_wrong() == FAZ_LOBBY_WRONG_CODE, "a wrong code is known as such");
    CHECK_SAY(self.told[0][FAZ_LOBBY_ASKS] == 0 && self.told[0][FAZ_LOBBY_CODE] == 1, "nobody was asked for");
    self.skipped += 21000;
    run(300);
    CHECK_SAY(self.told[0][FAZ_LOBBY_CODE] == 1 && self.lobby[0]->door.is_answered, "the plate is kept");
    let_in(1);
    CHECK_SAY(comes_to(0, FAZ_LOBBY_READY) && comes_to(1, FAZ_LOBBY_READY), "the friend plays");
    close_all();
    forget();
}

/* After the fifth the code is another one. Who was let in before stays. */
static void test_burnt(void) {
    char before[FAZ_LOBBY_CODE_ROOM];
    open_short(3);
    strcpy(before, self.code);
    let_in(1);
    CHECK_SAY(is_told(1, FAZ_LOBBY_JOINED, 1), "a friend is in");
    for (int times = 0; times < 5; times++)
        CHECK_SAY(try_wrong() == FAZ_LOBBY_WRONG_CODE, "a wrong code is known as such");
    CHECK_SAY(is_told(0, FAZ_LOBBY_CODE, 2) && strcmp(before, self.code) != 0, "the code is another one");
    CHECK_SAY(self.code_why == FAZ_LOBBY_WRONG_CODE, "and the host is told why");
    char now_it_is[FAZ_LOBBY_CODE_ROOM];
    strcpy(now_it_is, self.code);
    strcpy(self.code, before);
    listen(false);
    open_friend(2);
    run(300);
    wait_for(10000);
    CHECK_SAY(comes_to(2, FAZ_LOBBY_OVER) && self.last[2].why == FAZ_LOBBY_NO_SUCH_CODE, "the one before is none");
    listen(true);
    close_one(2);
    strcpy(self.code, now_it_is);
    let_in(2);
    for (int at = 0; at < 3; at++)
        CHECK_SAY(comes_to(at, FAZ_LOBBY_READY), "all play");
    close_all();
    forget();
}

/* Somebody knocks, and shows nothing. */
static void knock_once(void) {
    uint8_t message[BROKER_MESSAGE];
    knock text = { .step = 1 };
    pake *one = faz_pake_open(false, self.lobby[0]->hosting.plate, "0000");
    randombytes_buf(text.id, KNOCK_ID);
    faz_pake_turn(one, NULL, 0, text.bytes, &text.length);
    faz_pake_close(one);
    say(self.lobby[0]->room_name, self.nobody, message, faz_knock_write(&text, KNOCK, message));
    run(100);
}

/* After twenty in all there is a long code, and no short one any more, however many try. Who was let in before stays. */
static void test_all_tries(void) {
    open_short(3);
    let_in(1);
    CHECK_SAY(is_told(1, FAZ_LOBBY_JOINED, 1), "a friend is in");
    for (unsigned codes = 1; codes <= 4; codes++) {
        CHECK_SAY(is_told(0, FAZ_LOBBY_CODE, codes) && strlen(self.code) == 8, "a short code");
        for (int times = 0; times < 5; times++)
            knock_once();
        self.skipped += 6000;
        run(100);
    }
    uint8_t code[CODE_BYTES];
    CHECK_SAY(is_told(0, FAZ_LOBBY_CODE, 5) && faz_code_read(self.code, code), "a long code");
    CHECK_SAY(self.code_why == FAZ_LOBBY_WRONG_CODE, "and the host is told why");
    for (int times = 0; times < 12; times++) {
        self.skipped += 1000;
        knock_once();
    }
    CHECK_SAY(self.told[0][FAZ_LOBBY_CODE] == 5 && self.lobby[0]->hosting.wrong_all == 20, "there are no more tries");
    CHECK_SAY(self.told[0][FAZ_LOBBY_LEFT] == 0 && self.told[1][FAZ_LOBBY_ENDED] == 0, "who was let in stays");
    let_in(2);
    for (int at = 0; at < 3; at++)
        CHECK_SAY(comes_to(at, FAZ_LOBBY_READY), "all play");
    close_all();
    forget();
}

/* In a match that lasts a short code bears as many tries, and then there is none: the host is told the long one, and why. */
static void test_no_more_tries(void) {
    faz_lobby_match match;
    char before[FAZ_LOBBY_CODE_ROOM], long_one[FAZ_LOBBY_CODE_ROOM];
    self.lasts = true;
    open_short(2);
    let_in(1);
    CHECK_SAY(comes_to(0, FAZ_LOBBY_READY) && comes_to(1, FAZ_LOBBY_READY) && faz_lobby_get_match(self.lobby[0], &match), "the match runs");
    strcpy(before, self.code);
    for (int times = 0; times < 5; times++)
        CHECK_SAY(try_wrong() == FAZ_LOBBY_WRONG_CODE, "a wrong code is known as such");
    strcpy(long_one, self.code);
    strcpy(self.code, before);
    open_friend(2);
    run(2000);
    CHECK_SAY(self.told[0][FAZ_LOBBY_CODE] == 2 && self.told[0][FAZ_LOBBY_ASKS] == 1, "the code is no more");
    CHECK_SAY(strcmp(long_one, match.code) == 0 && self.code_why == FAZ_LOBBY_WRONG_CODE, "the host is told the long one");
    CHECK_SAY(faz_lobby_stage_of(self.lobby[2]) == FAZ_LOBBY_MEETING, "who has it isn't answered");
    self.lasts = false;
    close_all();
    forget();
}

/* Who never shows that it knows the code has had its try; what is said again, or is junk, does nothing. */
static void test_knocks(void) {
    uint8_t message[BROKER_MESSAGE];
    open_short(2);
    for (int times = 0; times < 3; times++)
        knock_once();
    run(300);
    self.skipped += 6000;
    run(100);
    CHECK_SAY(self.lobby[0]->hosting.wrong == 3, "three have had their tries");
    for (int times = 0; times < 300; times++) {
        knock text = { .step = (uint8_t)(times % 5), .length = randombytes_uniform(PAKE_BYTES) };
        randombytes_buf(text.id, KNOCK_ID);
        randombytes_buf(text.bytes, sizeof text.bytes);
        size_t length = faz_knock_write(&text, KNOCK, message);
        say(self.lobby[0]->room_name, self.nobody, message, times % 3 == 0 ? randombytes_uniform((uint32_t)length) : length);
        if (times % 50 == 0)
            run(20);
    }
    run(300);
    CHECK_SAY(self.told[0][FAZ_LOBBY_CODE] >= 2, "junk costs tries, and codes");
    forget();
    run(500);
    let_in(1);
    CHECK_SAY(comes_to(0, FAZ_LOBBY_READY) && comes_to(1, FAZ_LOBBY_READY), "the friend plays");
    hear();
    say_again(0, self.count);
    run(300);
    CHECK_SAY(self.told[0][FAZ_LOBBY_ASKS] == 1 && faz_lobby_stage_of(self.lobby[0]) == FAZ_LOBBY_READY, "what is said again does nothing");
    char signs[SHORT_SECRET];
    memcpy(signs, self.lobby[0]->hosting.secret_signs, SHORT_SECRET);
    for (size_t at = 0; at < self.count; at++)
        for (int place = 0; place + 4 <= natsMsg_GetDataLength(self.kept[at]); place++)
            CHECK_SAY(memcmp(natsMsg_GetData(self.kept[at]) + place, signs, 4) != 0, "the last four signs are seen");
    close_all();
    forget();
}

/* Says something in the host's place, to the last one who knocked. */
static void say_knocked(bool is_wrong, size_t length) {
    uint8_t message[BROKER_MESSAGE];
    knock text = { .step = self.lobby[1]->joining.knock.step, .is_wrong = is_wrong, .length = length };
    memcpy(text.id, self.lobby[1]->joining.knock.id, KNOCK_ID);
    randombytes_buf(text.bytes, sizeof text.bytes);
    say(self.lobby[1]->inbox_name, NULL, message, faz_knock_write(&text, KNOCKED, message));
    natsConnection_FlushTimeout(self.stranger, 1000);
    run(50);
}

/* The host is slow, and somebody who heard a friend knock answers in its place: that the code is wrong, that nobody hears, and junk that
 * spoils two proofs. It ends nothing, and the third proof lets the friend in. */
static void test_false_knocked(void) {
    open_short(2);
    faz_lobby *slow = self.lobby[0];
    self.lobby[0] = NULL;
    open_friend(1);
    for (uint32_t begun = now(); now() - begun < PATIENCE && self.lobby[1]->joining.stage != KNOCKS;)
        turn();
    for (int times = 0; times < 10; times++)
        say_knocked(true, 0);
    CHECK_SAY(self.told[1][FAZ_LOBBY_UNANSWERED] == 1 && self.last[1].why == FAZ_LOBBY_WRONG_CODE
                  && strstr(self.last[1].text, "3 seconds") != NULL,
              "it is told, and for how long it is waited");
    say_nobody(self.lobby[1]->inbox_name);
    say_knocked(false, 300);
    say_knocked(false, 0);
    CHECK_SAY(self.told[1][FAZ_LOBBY_UNANSWERED] == 2 && self.told[1][FAZ_LOBBY_ENDED] == 0, "it ends nothing");
    CHECK_SAY(self.lobby[1]->joining.knocks == 3, "it knocks anew");
    self.lobby[0] = slow;
    CHECK_SAY(is_told(0, FAZ_LOBBY_ASKS, 1) && faz_lobby_let_in(self.lobby[0], self.last[0].who, true), "the friend is let in");
    CHECK_SAY(comes_to(0, FAZ_LOBBY_READY) && comes_to(1, FAZ_LOBBY_READY), "and plays");
    close_all();
    forget();
}

/* What the host says behind its proof comes first with a bit changed: it ends nothing, and the host says it again. */
static void test_false_offer(void) {
    open_short(2);
    open_friend(1);
    for (uint32_t begun = now(); now() - begun < PATIENCE && self.lobby[1]->joining.knock.step < 2;)
        turn();
    faz_lobby *joins = self.lobby[1];
    self.lobby[1] = NULL;
    forget();
    run(100);
    hear();
    broker_message changed = { 0 };
    for (size_t at = 0; at < self.count; at++)
        if (strcmp(natsMsg_GetSubject(self.kept[at]), joins->inbox_name) == 0) {
            changed.length = (size_t)natsMsg_GetDataLength(self.kept[at]);
            memcpy(changed.bytes, natsMsg_GetData(self.kept[at]), changed.length);
        }
    CHECK_SAY(changed.length > SEAL, "the host says something");
    changed.bytes[changed.length - 1] ^= 1;
    faz_join_hear(joins, &changed);
    self.lobby[1] = joins;
    CHECK_SAY(joins->joining.has_key && !joins->is_over, "it ends nothing");
    CHECK_SAY(is_told(0, FAZ_LOBBY_ASKS, 1) && faz_lobby_let_in(self.lobby[0], self.last[0].who, true), "the friend is let in");
    CHECK_SAY(comes_to(0, FAZ_LOBBY_READY) && comes_to(1, FAZ_LOBBY_READY), "and plays");
    close_all();
    forget();
}

/* Who spoils each proof is told on by the clock: the player hears that the code is wrong, three seconds after the first one. */
static void test_no_proof(void) {
    open_short(2);
    faz_lobby *slow = self.lobby[0];
    self.lobby[0] = NULL;
    open_friend(1);
    for (uint32_t begun = now(); now() - begun < PATIENCE && self.lobby[1]->joining.stage != KNOCKS;)
        turn();
    for (int times = 0; times < 6; times++)
        say_knocked(false, 200);
    CHECK_SAY(self.lobby[1]->joining.knocks == 3 && self.told[1][FAZ_LOBBY_ENDED] == 0, "it knocks three times");
    wait_for(3000);
    CHECK_SAY(comes_to(1, FAZ_LOBBY_OVER) && self.last[1].why == FAZ_LOBBY_WRONG_CODE, "and is told in time");
    self.lobby[0] = slow;
    close_all();
    forget();
}

/* Who says again what another one knocked with isn't told what that one is told. */
static void test_knocks_again(void) {
    char other[BROKER_SUBJECT];
    uint8_t message[BROKER_MESSAGE], inbox[INBOX];
    knock text = { .step = 1 };
    open_short(2);
    pake *one = faz_pake_open(false, self.lobby[0]->hosting.plate, "0000");
    randombytes_buf(text.id, KNOCK_ID);
    faz_pake_turn(one, NULL, 0, text.bytes, &text.length);
    faz_pake_close(one);
    size_t length = faz_knock_write(&text, KNOCK, message);
    randombytes_buf(inbox, INBOX);
    faz_inbox_subject(inbox, other);
    const char *const from[] = { self.nobody, other, self.nobody };
    for (size_t at = 0; at < sizeof from / sizeof *from; at++) {
        forget();
        say(self.lobby[0]->room_name, from[at], message, length);
        run(200);
        hear();
        CHECK_SAY(self.count == (from[at] == other ? 1 : 2), "what is said to who knocks");
    }
    close_all();
    forget();
}

/* A plate that nobody has is told at once; who tries many is told to wait. */
static void test_no_plate(void) {
    const char *why;
    faz_lobby_settings settings = { .broker = self.url, .digest = 7 };
    strcpy(self.code, "ZZZ-ZZZZ");
    open_friend(1);
    uint32_t begun = now();
    CHECK_SAY(comes_to(1, FAZ_LOBBY_OVER) && self.last[1].why == FAZ_LOBBY_NO_SUCH_CODE && now() - begun < 2000, "a plate of nobody's");
    close_one(1);
    for (int times = 0; times < 120 && self.last[1].why != FAZ_LOBBY_TOO_MANY; times++) {
        self.lobby[1] = faz_lobby_join(&settings, "ZZZ ZZZ Z", &why);
        comes_to(1, FAZ_LOBBY_OVER);
        close_one(1);
    }
    CHECK_SAY(self.last[1].why == FAZ_LOBBY_TOO_MANY, "the door counts");
    close_all();
    forget();
}

typedef struct test {
    const char *name;
    void (*run)(void);
} test;

int main(int count, char **words) {
    static const test tests[] = { { "settings", test_settings },
                                  { "stranger", test_stranger },
                                  { "hidden", test_hidden },
                                  { "elsewhere", test_elsewhere },
                                  { "older", test_older },
                                  { "false host", test_false_host },
                                  { "ghosts", test_ghosts },
                                  { "silence", test_silence },
                                  { "crowd", test_crowd },
                                  { "refusals", test_refusals },
                                  { "false nobody", test_false_nobody },
                                  { "host leaves", test_host_leaves },
                                  { "false news", test_false_news },
                                  { "known keys", test_known_keys },
                                  { "known comer", test_known_comer },
                                  { "false vacancies", test_false_vacancies } };
    static const test shorts[] = { { "all tries", test_all_tries },
                                   { "wrong tries", test_wrong_tries },
                                   { "burnt", test_burnt },
                                   { "no more tries", test_no_more_tries },
                                   { "knocks", test_knocks },
                                   { "knocks again", test_knocks_again },
                                   { "false knocked", test_false_knocked },
                                   { "false offer", test_false_offer },
                                   { "no proof", test_no_proof },
                                   { "no plate", test_no_plate } };
    bool are_short = count == 3 && strcmp(words[2], "short") == 0;
    if (count != 2 && !are_short)
        return 2;
    self.url = words[1];
    uint8_t inbox[INBOX];
    if (sodium_init() < 0)
        return 2;
    randombytes_buf(inbox, INBOX);
    faz_inbox_subject(inbox, self.nobody);
    if (natsConnection_ConnectTo(&self.stranger, self.url) != NATS_OK || !listen(true))
        return 2;
    for (size_t at = 0; at < (are_short ? sizeof shorts / sizeof *shorts : sizeof tests / sizeof *tests); at++) {
        (are_short ? shorts[at].run : tests[at].run)();
        printf("%s: %s\n", are_short ? shorts[at].name : tests[at].name, checks_end_case() ? "as it should" : "not as it should");
        fflush(stdout);
    }
    listen(false);
    natsConnection_Destroy(self.stranger);
    nats_Close();
    return checks_end();
}
