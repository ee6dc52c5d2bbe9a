/* Short codes, at the host: who knocks shows that it knows the code before anything else is said. */
#include "inside.h"

#include <sodium.h>
#include <string.h>

/* Milliseconds in which who knocks has to show that it knows the code, and then to ask. */
enum { SHOWN_WITHIN = 5000, ASKED_WITHIN = 10000 };

/* So many wrong tries a code bears, and a lobby in all: one of 50,000 guesses one of its codes. */
enum { WRONG_TRIES = 5, WRONG_IN_ALL = 20 };

static void drop(knocker *one) {
    faz_pake_close(one->pake);
    sodium_memzero(one, sizeof *one);
}

/* What was said by a code doesn't count any more. */
static void forget_code(hosting *hosts) {
    for (int at = 0; at < KNOCKERS; at++)
        if (!hosts->knocker[at].is_proven)
            drop(&hosts->knocker[at]);
    hosts->wrong = 0;
    hosts->plate[0] = 0;
}

/* Another name under which this host is heard, and another secret; the door is asked for a plate. */
void faz_knock_begin(faz_lobby *self) {
    hosting *hosts = &self->hosting;
    forget_code(hosts);
    faz_short_draw(hosts->secret_signs);
    self->door.request.plate[0] = 0;
    randombytes_buf(self->door.request.token, DOOR_TOKEN);
    self->door.is_answered = self->door.has_said = false;
    faz_room_named(&self->room, self->door.request.token);
    faz_room_subject(&self->room, self->room_name);
    faz_lobby_broker_hear(self->broker, 1, self->room_name);
}

void faz_knock_plate(faz_lobby *self, const char plate[PLATE_TEXT]) {
    hosting *hosts = &self->hosting;
    if (strcmp(hosts->plate, plate) == 0)
        return;
    faz_lobby_copy(hosts->plate, sizeof hosts->plate, plate);
    faz_lobby_copy(self->door.request.plate, sizeof self->door.request.plate, plate);
    faz_lobby_event *event = faz_lobby_tell(self, FAZ_LOBBY_CODE, 0, self->name);
    faz_short_write(hosts->plate, hosts->secret_signs, event->text);
    event->why = hosts->why;
    hosts->why = FAZ_LOBBY_NO_REASON;
}

/* From now on friends come by the long code alone, which nobody guesses. That of a match that lasts is there already. */
static void end_short_code(faz_lobby *self) {
    forget_code(&self->hosting);
    self->door.request.kind = DOOR_RELAYS;
    if (!self->is_known) {
        self->hosting.has_short_code = false;
        faz_lobby_open_by_hash(self);
    }
    if (!self->is_known || self->table.lasts)
        faz_lobby_tell_code(self, FAZ_LOBBY_WRONG_CODE);
}

/* In a match that runs no other short code is drawn. */
static void note_wrong(faz_lobby *self) {
    hosting *hosts = &self->hosting;
    hosts->wrong++;
    hosts->wrong_all++;
    if (hosts->wrong < WRONG_TRIES)
        return;
    hosts->why = FAZ_LOBBY_WRONG_CODE;
    if (self->is_known || hosts->wrong_all >= WRONG_IN_ALL)
        end_short_code(self);
    else
        faz_knock_begin(self);
}

/* The one with this id; or a free place for one that begins; or null. */
static knocker *knocker_of(faz_lobby *self, const knock *came) {
    knocker *free = NULL;
    for (int at = 0; at < KNOCKERS; at++) {
        knocker *one = &self->hosting.knocker[at];
        if (one->is_there && memcmp(one->id, came->id, KNOCK_ID) == 0)
            return one;
        if (!one->is_there)
            free = one;
    }
    return came->step == 1 ? free : NULL;
}

static bool begin(faz_lobby *self, knocker *one, const knock *came, const char *subject) {
    one->pake = faz_pake_open(true, self->hosting.plate, self->hosting.secret_signs);
    one->is_there = one->pake != NULL;
    one->begun_at = self->now;
    memcpy(one->id, came->id, KNOCK_ID);
    strcpy(one->subject, subject);
    return one->is_there;
}

/* It has shown that it knows the code: what it is told from now on is sealed by the key that both have. */
static size_t prove(faz_lobby *self, knocker *one, size_t length) {
    uint8_t text[BROKER_MESSAGE];
    one->is_proven = true;
    one->begun_at = self->now;
    faz_pake_key(one->pake, one->room.key);
    size_t more = faz_host_offer(self, &one->room, text);
    if (length + more >= BROKER_MESSAGE)
        return length;
    memcpy(one->said + length, text, more);
    return length + more;
}

static void reply(faz_lobby *self, knocker *one, const knock *came) {
    knock text = { .step = came->step };
    memcpy(text.id, one->id, KNOCK_ID);
    pake_answer now = faz_pake_turn(one->pake, came->bytes, came->length, text.bytes, &text.length);
    self->hosting.has_worked = true;
    text.is_wrong = now == PAKE_WRONG;
    one->step = came->step;
    one->length = faz_knock_write(&text, KNOCKED, one->said);
    if (now == PAKE_DONE)
        one->length = prove(self, one, one->length);
    faz_lobby_broker_say(self->broker, one->subject, NULL, one->said, one->length);
    if (now != PAKE_WRONG)
        return;
    drop(one);
    note_wrong(self);
}

void faz_knock_hear(faz_lobby *self, const broker_message *message) {
    knock came;
    size_t more;
    if (self->hosting.plate[0] == 0 || !faz_knock_read(&came, KNOCK, message->bytes, message->length, &more))
        return;
    knocker *one = knocker_of(self, &came);
    bool is_said = one != NULL && one->is_there && came.step == one->step;
    if (self->hosting.has_worked && !is_said)
        return; /* a proof takes some milliseconds, so there is one in a turn: others ask again */
    if (one == NULL || (!one->is_there && !begin(self, one, &came, message->reply)) || strcmp(one->subject, message->reply) != 0)
        return;
    if (is_said)
        faz_lobby_broker_say(self->broker, one->subject, NULL, one->said, one->length);
    else if (came.step == one->step + 1 && !one->is_proven)
        reply(self, one, &came);
}

/* Who doesn't show that it knows the code has had its try. */
void faz_knock_turn(faz_lobby *self) {
    self->hosting.has_worked = false;
    for (int at = 0; at < KNOCKERS; at++) {
        knocker *one = &self->hosting.knocker[at];
        if (!one->is_there || faz_lobby_since(self, one->begun_at) < (one->is_proven ? ASKED_WITHIN : SHOWN_WITHIN))
            continue;
        bool is_proven = one->is_proven;
        drop(one);
        if (!is_proven)
            note_wrong(self);
    }
}

void faz_knock_close(faz_lobby *self) {
    for (int at = 0; at < KNOCKERS; at++)
        drop(&self->hosting.knocker[at]);
}
