/* The side of who joins. */
#include "inside.h"

#include <sodium.h>
#include <stdio.h>
#include <string.h>

/* Milliseconds: between two messages, and once there is a seat; without an answer, before there was one and after that; and until it is
 * believed that a code is wrong. */
enum { SAID_AGAIN = 500, SEATED_AGAIN = 2000, NEVER_ANSWERED = 10000, GONE_AFTER = 10000, BELIEVED = 3000 };

/* So often it knocks: who hears that can spoil a proof, and of one that isn't finished the host thinks that the code was wrong. */
enum { MOST_KNOCKS = 3 };

static void say(faz_lobby *self, const char *subject, const uint8_t *message, size_t length) {
    if (faz_lobby_broker_say(self->broker, subject, self->inbox_name, message, length)) {
        self->joining.has_said = true;
        self->joining.said_at = self->now;
    }
}

static void say_knock(faz_lobby *self) {
    uint8_t message[BROKER_MESSAGE];
    say(self, self->room_name, message, faz_knock_write(&self->joining.knock, KNOCK, message));
}

static void say_hello(faz_lobby *self) {
    uint8_t message[BROKER_MESSAGE];
    hello text = { .version = LOBBY_VERSION };
    memcpy(text.open, self->keys.open, KEY);
    say(self, self->room_name, message, faz_hello_write(&text, &self->room, message));
}

static void say_ask(faz_lobby *self, bool leaves) {
    uint8_t message[BROKER_MESSAGE];
    ask text = { .counter = ++self->joining.counter, .leaves = leaves, .digest = self->digest, .here = self->here };
    memcpy(text.open, self->keys.open, KEY);
    strcpy(text.name, self->name);
    say(self, self->joining.host_name, message, faz_ask_write(&text, &self->room, &self->joining.host, message));
}

/* ---- what the host says */

static const char *const REASONS[] = {
    [FAZ_LOBBY_NO_REASON] = "the host said no",
    [FAZ_LOBBY_NO_SUCH_CODE] = "nobody hosts a match with this code now",
    [FAZ_LOBBY_NO_SEAT] = "all seats are taken",
    [FAZ_LOBBY_OTHER_GAME] = "the host plays another game, or another version of it",
    [FAZ_LOBBY_NOT_LET_IN] = "the host's player said no",
    [FAZ_LOBBY_HOST_LEFT] = "the host has left",
    [FAZ_LOBBY_OTHER_LIBRARY] = "the host's game has another version of this library",
    [FAZ_LOBBY_SYSTEM] = "the host's system said no",
    [FAZ_LOBBY_WRONG_CODE] = "the code's last four signs are wrong",
    [FAZ_LOBBY_TOO_MANY] = "the door was asked too often from this address: try later",
    [FAZ_LOBBY_A_PAGE] = "the host plays in a browser, and this game doesn't: bindings/web/bridge joins it for this one",
};
static const char UNANSWERED[] =
    "nobody who hosts a match with this code answers: the host is gone, or its game has an older version of this library";

/* What isn't sealed may be anybody's word: it ends nothing before its time, and the player is told of it once. */
static void tell_doubt(faz_lobby *self, faz_lobby_why why, const char *what, int waits) {
    faz_lobby_event *event = faz_lobby_tell(self, FAZ_LOBBY_UNANSWERED, FAZGROND_NO_MACHINE, "");
    event->why = why;
    snprintf(event->text, sizeof event->text, "%s: waiting for %d seconds at most", what, waits / 1000);
}

/* Nobody hears the host's subject, as it seems. */
static void hear_nobody(faz_lobby *self) {
    joining *joins = &self->joining;
    if (joins->is_unheard || (joins->stage != SAYS_HELLO && joins->stage != KNOCKS))
        return;
    joins->is_unheard = true;
    tell_doubt(self, FAZ_LOBBY_NO_SUCH_CODE, "nobody answers so far", NEVER_ANSWERED);
}

/* The code is wrong, as it seems. */
static void doubt_code(faz_lobby *self) {
    joining *joins = &self->joining;
    if (joins->is_wrong)
        return;
    joins->is_wrong = true;
    joins->wrong_at = self->now;
    tell_doubt(self, FAZ_LOBBY_WRONG_CODE, "the code's last four signs may be wrong", BELIEVED);
}

/* With a short code the key by which the offer is sealed says that it is the host's. */
static bool is_of_host(const faz_lobby *self, const offer *came) {
    uint8_t code[CODE_BYTES];
    faz_code_of(code, came->host);
    return (self->joining.has_short_code || memcmp(code, self->joining.code, CODE_BYTES) == 0)
        && faz_host_vouched(came->proof, came->host, came->speaks);
}

static void hear_offer(faz_lobby *self, const uint8_t *bytes, size_t length) {
    joining *joins = &self->joining;
    offer came;
    if ((joins->stage != SAYS_HELLO && !joins->has_key) || !faz_offer_read(&came, &self->room, bytes, length))
        return;
    if (came.version != LOBBY_VERSION) {
        faz_lobby_end(self, FAZ_LOBBY_OTHER_LIBRARY, REASONS[FAZ_LOBBY_OTHER_LIBRARY]);
        return;
    }
    if (!is_of_host(self, &came) || !faz_pair_of(&joins->host, &self->room, self->keys.open, self->keys.secret, came.speaks))
        return;
    faz_inbox_subject(came.inbox, joins->host_name);
    joins->has_key = false;
    joins->stage = ASKS_TO_JOIN;
    joins->heard_at = self->now;
    say_ask(self, false);
}

/* ---- short codes */

static bool begin_to_knock(faz_lobby *self) {
    joining *joins = &self->joining;
    joins->pake = faz_pake_open(false, joins->plate, joins->secret_signs);
    if (joins->pake == NULL)
        return false;
    joins->stage = KNOCKS;
    joins->knocks++;
    joins->knock.step = 1;
    randombytes_buf(joins->knock.id, KNOCK_ID);
    return faz_pake_turn(joins->pake, NULL, 0, joins->knock.bytes, &joins->knock.length) == PAKE_MORE;
}

void faz_join_door(faz_lobby *self, const door_answer *answer) {
    if (self->joining.stage != ASKS_DOOR)
        return;
    if (answer->status == DOOR_TOO_MANY) {
        faz_lobby_end(self, FAZ_LOBBY_TOO_MANY, REASONS[FAZ_LOBBY_TOO_MANY]);
    } else if (answer->status != DOOR_OK) {
        faz_lobby_end(self, FAZ_LOBBY_NO_SUCH_CODE, REASONS[FAZ_LOBBY_NO_SUCH_CODE]);
    } else {
        faz_room_named(&self->room, answer->token);
        faz_room_subject(&self->room, self->room_name);
        self->joining.heard_at = self->now;
        if (!begin_to_knock(self))
            faz_lobby_end(self, FAZ_LOBBY_SYSTEM, "there is no memory");
        else
            say_knock(self);
    }
}

static void drop_pake(joining *joins) {
    faz_pake_close(joins->pake);
    joins->pake = NULL;
}

/* A proof that was spoilt doesn't go on: it knocks anew. */
static void knock_anew(faz_lobby *self) {
    drop_pake(&self->joining);
    if (self->joining.knocks < MOST_KNOCKS && begin_to_knock(self))
        say_knock(self);
}

static void go_on_knocking(faz_lobby *self, const knock *came) {
    joining *joins = &self->joining;
    pake_answer now = faz_pake_turn(joins->pake, came->bytes, came->length, joins->knock.bytes, &joins->knock.length);
    switch (now == PAKE_MORE && joins->knock.length == 0 ? PAKE_WRONG : now) {
    case PAKE_WRONG:
        doubt_code(self);
        knock_anew(self);
        break;
    case PAKE_MORE:
        joins->heard_at = joins->wrong_at = self->now;
        joins->knock.step++;
        say_knock(self);
        break;
    case PAKE_DONE:
        faz_pake_key(joins->pake, self->room.key);
        drop_pake(joins);
        joins->has_key = true;
        break;
    }
}

static void hear_knocked(faz_lobby *self, const broker_message *message) {
    joining *joins = &self->joining;
    knock came;
    size_t more;
    if (joins->stage != KNOCKS || !faz_knock_read(&came, KNOCKED, message->bytes, message->length, &more)
        || memcmp(came.id, joins->knock.id, KNOCK_ID) != 0 || came.step != joins->knock.step)
        return;
    if (came.is_wrong)
        doubt_code(self);
    else if (joins->pake != NULL)
        go_on_knocking(self, &came);
    if (!joins->has_key)
        return;
    /* What the host said last is behind the proof, sealed by the key that this makes. */
    hear_offer(self, message->bytes + message->length - more, more);
    if (joins->has_key && !self->is_over)
        doubt_code(self);
}

/* ---- what the host answers */

static void note_seat(faz_lobby *self, const answer *came) {
    joining *joins = &self->joining;
    if (came->what == WAITS || joins->is_seated)
        return;
    joins->is_seated = true;
    faz_pair_words(&joins->host, faz_lobby_tell(self, FAZ_LOBBY_JOINED, 0, came->name)->text);
}

/* Whether the table names this machine in its place, and whoever answers by the key that it speaks by: the host, or in a match
 * that runs any machine. */
static bool is_ours(const faz_lobby *self, const table *came) {
    bool is_named = came->me != 0 && memcmp(came->member[0].open, self->joining.host.theirs, KEY) == 0;
    for (uint32_t at = 0; at < came->machines && came->is_late; at++)
        is_named = is_named || (at != came->me && memcmp(came->member[at].open, self->joining.host.theirs, KEY) == 0);
    return is_named && memcmp(came->member[came->me].open, self->keys.open, KEY) == 0;
}

static void hear_answer(faz_lobby *self, const broker_message *message) {
    joining *joins = &self->joining;
    answer came;
    if (joins->stage != ASKS_TO_JOIN || !faz_answer_read(&came, &joins->host, message->bytes, message->length)
        || came.counter <= joins->answers)
        return;
    joins->answers = came.counter;
    joins->heard_at = self->now;
    if (came.what == REFUSED) {
        faz_lobby_end(self, came.why, REASONS[came.why <= FAZ_LOBBY_A_PAGE ? came.why : FAZ_LOBBY_NO_REASON]);
        return;
    }
    if (came.what == WAITS && !joins->is_asked) {
        joins->is_asked = true;
        faz_pair_words(&joins->host, faz_lobby_tell(self, FAZ_LOBBY_ASKS, 0, came.name)->text);
    }
    note_seat(self, &came);
    if (came.what == BEGINS && is_ours(self, &came.table)) {
        joins->stage = HAS_TABLE;
        self->table = came.table;
        faz_mesh_open(self);
    }
}

void faz_join_hear(faz_lobby *self, const broker_message *message) {
    if (message->is_nobody)
        hear_nobody(self);
    else if (message->length > 0 && message->bytes[0] == OFFER)
        hear_offer(self, message->bytes, message->length);
    else if (message->length > 0 && message->bytes[0] == KNOCKED)
        hear_knocked(self, message);
    else if (message->length > 0 && message->bytes[0] == ANSWER)
        hear_answer(self, message);
}

/* ---- a turn */

static bool is_due(const faz_lobby *self) {
    uint32_t pause = self->joining.is_seated ? SEATED_AGAIN : SAID_AGAIN;
    return !self->joining.has_said || faz_lobby_since(self, self->joining.said_at) >= pause;
}

/* Time counts while the broker is there. */
static void give_up(faz_lobby *self) {
    joining *joins = &self->joining;
    bool is_unanswered = joins->stage < ASKS_TO_JOIN;
    if (!faz_lobby_broker_is_there(self->broker) || !joins->has_said)
        joins->heard_at = joins->wrong_at = self->now;
    if (is_unanswered && joins->is_wrong && faz_lobby_since(self, joins->wrong_at) >= BELIEVED)
        faz_lobby_end(self, FAZ_LOBBY_WRONG_CODE, REASONS[FAZ_LOBBY_WRONG_CODE]);
    else if (is_unanswered && faz_lobby_since(self, joins->heard_at) >= NEVER_ANSWERED)
        faz_lobby_end(self, FAZ_LOBBY_NO_SUCH_CODE, joins->is_unheard ? REASONS[FAZ_LOBBY_NO_SUCH_CODE] : UNANSWERED);
    else if (faz_lobby_since(self, joins->heard_at) >= GONE_AFTER)
        faz_lobby_end(self, FAZ_LOBBY_HOST_LEFT, REASONS[FAZ_LOBBY_HOST_LEFT]);
}

void faz_join_turn(faz_lobby *self) {
    const joining *joins = &self->joining;
    bool is_to_say = faz_lobby_broker_is_there(self->broker) && is_due(self);
    switch (joins->stage) {
    case NO_CODE:
    case ASKS_DOOR:
    case HAS_TABLE: return;
    case KNOCKS:
        if (is_to_say && (joins->pake != NULL || joins->has_key))
            say_knock(self);
        break;
    case SAYS_HELLO:
        if (is_to_say)
            say_hello(self);
        break;
    case ASKS_TO_JOIN:
        if (is_to_say)
            say_ask(self, false);
        faz_mesh_open_ahead(self);
        break;
    }
    give_up(self);
}

void faz_join_close(faz_lobby *self) {
    if (self->joining.stage == ASKS_TO_JOIN && !self->is_over)
        say_ask(self, true);
}
