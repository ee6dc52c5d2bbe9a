/* What a lobby asks the door. */
#include "inside.h"

#include <sodium.h>
#include <stdio.h>
#include <string.h>

/* Milliseconds: between two requests, and of a host that keeps its plate; without an answer; and until lines go without relays. */
enum { ASKED_AGAIN = 1000, KEPT_AGAIN = 20000, NO_ANSWER = 3000, WITHOUT = 2000 };

/* With a pass it is a part of this machine's inbox, where nobody but the door may say anything. */
static void hear_door(faz_lobby *self) {
    uint8_t inbox[INBOX];
    randombytes_buf(inbox, INBOX);
    if (faz_lobby_broker_has_pass(self->broker))
        snprintf(self->door.inbox_name, BROKER_SUBJECT, "%.*s.door", BROKER_SUBJECT - (int)sizeof ".door", self->inbox_name);
    else
        faz_inbox_subject(inbox, self->door.inbox_name);
    faz_lobby_broker_hear(self->broker, DOOR_PLACE, self->door.inbox_name);
}

void faz_asking_begin(faz_lobby *self, door_kind kind, bool takes_relays) {
    door_asking *asks = &self->door;
    hear_door(self);
    asks->is_used = true;
    asks->takes_relays = takes_relays;
    asks->request.kind = kind;
    crypto_kx_keypair(asks->open, asks->secret);
    memcpy(asks->request.open, asks->open, KEY);
}

bool faz_asking_is_over(const faz_lobby *self) {
    const door_asking *asks = &self->door;
    return !asks->is_used || asks->is_answered || (asks->has_said && faz_lobby_since(self, asks->began_at) >= WITHOUT);
}

/* A plate is asked for again before it is somebody else's, and passwords before they end. */
static bool is_due(const faz_lobby *self) {
    const door_asking *asks = &self->door;
    bool keeps_plate = asks->request.kind == DOOR_HOSTS && (!self->is_ready || self->table.lasts);
    uint32_t half = asks->seconds > 0 && asks->seconds < UINT32_MAX / 1000 ? asks->seconds * 500 : UINT32_MAX / 2;
    return !asks->is_answered || faz_lobby_since(self, asks->answered_at) >= (keeps_plate ? KEPT_AGAIN : half);
}

static void say(faz_lobby *self) {
    door_asking *asks = &self->door;
    uint8_t message[DOOR_MESSAGE];
    if (self->is_ready && !self->table.lasts)
        asks->request.kind = DOOR_RELAYS;
    if (self->is_ready && asks->request.kind == DOOR_JOINS)
        asks->request.kind = DOOR_RELAYS;
    if (!faz_lobby_broker_say(self->broker, DOOR_SUBJECT, asks->inbox_name, message, faz_door_request_write(&asks->request, message)))
        return;
    if (!asks->has_said)
        asks->began_at = self->now;
    asks->has_said = true;
    asks->said_at = self->now;
}

static void tell_away(faz_lobby *self, const char *why) {
    faz_lobby_copy(faz_lobby_tell(self, FAZ_LOBBY_AWAY, FAZGROND_NO_MACHINE, "")->text, FAZ_LOBBY_TEXT_ROOM, why);
}

void faz_asking_turn(faz_lobby *self) {
    door_asking *asks = &self->door;
    if (!asks->is_used || !faz_lobby_broker_is_there(self->broker))
        return;
    if (is_due(self) && (!asks->has_said || faz_lobby_since(self, asks->said_at) >= ASKED_AGAIN))
        say(self);
    if (asks->is_answered || asks->is_away_told || !asks->has_said || faz_lobby_since(self, asks->began_at) < NO_ANSWER)
        return;
    asks->is_away_told = true;
    tell_away(self, "the door beside the broker doesn't answer");
}

void faz_asking_hear(faz_lobby *self, const broker_message *message) {
    door_asking *asks = &self->door;
    door_answer came;
    if (message->is_nobody || !faz_door_answer_read(&came, asks->open, asks->secret, message->bytes, message->length))
        return;
    asks->is_answered = true;
    asks->is_away_told = false;
    asks->answered_at = self->now;
    if (came.status == DOOR_OK) {
        asks->seconds = came.seconds;
        if (asks->takes_relays)
            faz_lobby_take_servers(self, &came);
    }
    if (asks->request.kind == DOOR_JOINS)
        faz_join_door(self, &came);
    else if (came.status == DOOR_OK && asks->request.kind == DOOR_HOSTS && memcmp(came.token, asks->request.token, DOOR_TOKEN) == 0)
        faz_knock_plate(self, came.plate);
    else if (came.status != DOOR_OK)
        tell_away(self, came.status == DOOR_FULL ? "the door has no codes left" : "the door was asked too often from this address");
}
