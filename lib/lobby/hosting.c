/* The host's side of a lobby. */
#include "inside.h"

#include <sodium.h>
#include <stdio.h>
#include <string.h>

/* Milliseconds without anything of a guest, who asks every two seconds. */
enum { GONE_AFTER = 10000 };

/* ---- answers */

static void say_answer(faz_lobby *self, guest *to, const answer *text) {
    uint8_t message[BROKER_MESSAGE];
    char subject[BROKER_SUBJECT];
    faz_inbox_subject(to->inbox, subject);
    faz_lobby_broker_say(self->broker, subject, NULL, message, faz_answer_write(text, &to->pair, message));
}

/* Tells a guest how it stands. */
static void tell(faz_lobby *self, guest *to) {
    answer text = { .counter = ++to->answers, .what = WAITS };
    strcpy(text.name, self->name);
    if (to->stage == GUEST_REFUSED) {
        text.what = REFUSED;
        text.why = to->why;
    } else if (to->stage == GUEST_SEATED && self->is_known) {
        text.what = BEGINS;
        text.table = self->table;
        text.table.me = to->machine;
        faz_host_vouch(text.table.proof, self->hosting.secret, to->pair.theirs);
    } else if (to->stage == GUEST_SEATED) {
        text.what = SEATED;
    }
    say_answer(self, to, &text);
}

/* ---- seats */

static uint32_t seats_left(const faz_lobby *self) {
    uint32_t taken = self->here;
    for (int at = 0; at < GUESTS; at++)
        if (self->hosting.guest[at].stage == GUEST_SEATED)
            taken += self->hosting.guest[at].here;
    return self->is_known ? 0 : self->hosting.players - taken;
}

static void refuse(guest *one, faz_lobby_why why) {
    one->stage = GUEST_REFUSED;
    one->why = why;
}

static void seat(faz_lobby *self, guest *one) {
    if (one->here > seats_left(self)) {
        refuse(one, FAZ_LOBBY_NO_SEAT);
        return;
    }
    one->stage = GUEST_SEATED;
    faz_lobby_event *event = faz_lobby_tell(self, FAZ_LOBBY_JOINED, FAZGROND_NO_MACHINE, one->name);
    event->who = one->who;
    faz_pair_words(&one->pair, event->text);
}

/* Forgets a guest, but for its key: what it has said may be said again by others. */
static void forget(faz_lobby *self, guest *one) {
    if (one->stage == GUEST_SEATED || one->stage == GUEST_ASKS)
        faz_lobby_tell(self, FAZ_LOBBY_LEFT, FAZGROND_NO_MACHINE, one->name)->who = one->who;
    faz_seen_note(&self->hosting.gone, one->pair.theirs);
    sodium_memzero(one, sizeof *one);
}

/* ---- the table */

static void place(faz_lobby *self, const uint8_t *open, const uint8_t *inbox, const char *name, uint32_t players) {
    table *to = &self->table;
    member *one = &to->member[to->machines];
    memcpy(one->open, open, KEY);
    memcpy(one->inbox, inbox, INBOX);
    strcpy(one->name, name);
    for (uint32_t at = 0; at < players; at++)
        to->owners[to->players++] = to->machines;
    to->machines++;
}

/* A machine, and a player of it, for whoever comes later. */
static void place_vacant(table *to) {
    to->member[to->machines].is_vacant = true;
    to->owners[to->players++] = to->machines++;
}

/* Machines are numbered by the places of their guests, and those that are vacant come last. */
static void lay_table(faz_lobby *self) {
    table *to = &self->table;
    uint32_t vacant = self->hosting.stays_open ? seats_left(self) : 0;
    for (int at = 0; at < FAZGROND_PLAYERS; at++)
        to->owners[at] = FAZGROND_NO_PLAYER;
    randombytes_buf(&to->number, sizeof to->number);
    randombytes_buf(to->key, KEY);
    to->lasts = self->lasts;
    to->asks = self->hosting.asks;
    memcpy(to->host, self->hosting.open, KEY);
    faz_code_of(to->code, to->host);
    faz_host_vouch(to->proof, self->hosting.secret, self->keys.open);
    place(self, self->keys.open, self->inbox, self->name, self->here);
    for (int at = 0; at < GUESTS; at++) {
        guest *one = &self->hosting.guest[at];
        if (one->stage != GUEST_SEATED)
            continue;
        one->machine = to->machines;
        place(self, one->pair.theirs, one->inbox, one->name, one->here);
    }
    for (; vacant > 0; vacant--)
        place_vacant(to);
    faz_mesh_open(self);
    for (int at = 0; at < GUESTS; at++)
        if (self->hosting.guest[at].stage == GUEST_SEATED)
            tell(self, &self->hosting.guest[at]);
}

static void look_at_seats(faz_lobby *self) {
    if (!self->is_known && seats_left(self) == 0)
        lay_table(self);
}

bool faz_lobby_begin(faz_lobby *self) {
    bool is_anybody_there = seats_left(self) + self->here < self->hosting.players;
    if (!self->is_host || self->is_known || self->is_over || !(is_anybody_there || self->hosting.stays_open))
        return false;
    lay_table(self);
    return true;
}

bool faz_lobby_let_in(faz_lobby *self, uint32_t who, bool yes) {
    if (self->is_known)
        return faz_late_let_in(self, who, yes);
    for (int at = 0; at < GUESTS && self->is_host; at++) {
        guest *one = &self->hosting.guest[at];
        if (one->stage != GUEST_ASKS || one->who != who)
            continue;
        if (yes)
            seat(self, one);
        else
            refuse(one, FAZ_LOBBY_NOT_LET_IN);
        tell(self, one);
        look_at_seats(self);
        return yes == (one->stage == GUEST_SEATED);
    }
    return false;
}

/* ---- what guests say */

size_t faz_host_offer(const faz_lobby *self, const room *in, uint8_t out[BROKER_MESSAGE]) {
    offer ours = { .version = LOBBY_VERSION };
    memcpy(ours.host, self->hosting.open, KEY);
    memcpy(ours.speaks, self->keys.open, KEY);
    memcpy(ours.inbox, self->inbox, INBOX);
    faz_host_vouch(ours.proof, self->hosting.secret, ours.speaks);
    return faz_offer_write(&ours, in, out);
}

static void hear_hello(faz_lobby *self, const broker_message *message) {
    uint8_t out[BROKER_MESSAGE];
    hello came;
    if (!self->hosting.has_short_code && faz_hello_read(&came, &self->room, message->bytes, message->length))
        faz_lobby_broker_say(self->broker, message->reply, NULL, out, faz_host_offer(self, &self->room, out));
}

/* By which room's key somebody asks, and whose key it names; null if by none. */
static const room *room_of_ask(const faz_lobby *self, uint8_t open[KEY], const broker_message *message) {
    const hosting *hosts = &self->hosting;
    if (!hosts->has_short_code && faz_ask_open(open, &self->room, message->bytes, message->length))
        return &self->room;
    for (int at = 0; at < GUESTS; at++)
        if (hosts->guest[at].stage != GUEST_NONE && faz_ask_open(open, &hosts->guest[at].room, message->bytes, message->length))
            return &hosts->guest[at].room;
    for (int at = 0; at < KNOCKERS; at++)
        if (hosts->knocker[at].is_proven && faz_ask_open(open, &hosts->knocker[at].room, message->bytes, message->length))
            return &hosts->knocker[at].room;
    return NULL;
}

/* The guest who has this key, or a free place for one; null if there is none. */
static guest *guest_of(faz_lobby *self, const uint8_t open[KEY]) {
    guest *free = NULL;
    for (int at = GUESTS - 1; at >= 0; at--) {
        guest *one = &self->hosting.guest[at];
        if (one->stage == GUEST_NONE)
            free = one;
        else if (memcmp(one->pair.theirs, open, KEY) == 0)
            return one;
    }
    return free;
}

/* Somebody asks for the first time. */
static void take_in(faz_lobby *self, guest *one) {
    one->who = ++self->hosting.named;
    if (one->here > seats_left(self)) {
        refuse(one, FAZ_LOBBY_NO_SEAT);
    } else if (!self->hosting.asks) {
        seat(self, one);
    } else {
        one->stage = GUEST_ASKS;
        faz_lobby_event *event = faz_lobby_tell(self, FAZ_LOBBY_ASKS, FAZGROND_NO_MACHINE, one->name);
        event->who = one->who;
        faz_pair_words(&one->pair, event->text);
    }
}

/* A page of the same game can't come in, and the player is told. */
static void refuse_page(faz_lobby *self, guest *one) {
    refuse(one, FAZ_LOBBY_A_PAGE);
    faz_lobby_tell(self, FAZ_LOBBY_REFUSED, FAZGROND_NO_MACHINE, one->name)->why = FAZ_LOBBY_A_PAGE;
}

static void note_ask(faz_lobby *self, guest *one, const ask *came) {
    one->counter = came->counter;
    one->heard_at = self->now;
    if (one->stage != GUEST_NONE)
        return;
    one->here = came->here;
    strcpy(one->name, came->name);
    if (came->digest == (self->digest ^ LOBBY_PAGE)) {
        refuse_page(self, one);
    } else if (came->digest != self->digest) {
        one->who = ++self->hosting.named;
        refuse(one, FAZ_LOBBY_OTHER_GAME);
    } else {
        take_in(self, one);
    }
}

/* What a guest says now; false if nobody has said so, or it is an old message. */
static bool read_ask(faz_lobby *self, guest *one, const room *in, const uint8_t open[KEY], const broker_message *message, ask *came) {
    bool is_new = one->stage == GUEST_NONE;
    if (is_new && !faz_pair_of(&one->pair, in, self->keys.open, self->keys.secret, open))
        return false;
    return faz_ask_read(came, in, &one->pair, message->bytes, message->length) && (is_new || came->counter > one->counter);
}

static void hear_ask(faz_lobby *self, const broker_message *message, const uint8_t inbox[INBOX]) {
    uint8_t open[KEY];
    ask came;
    const room *in = room_of_ask(self, open, message);
    guest *one = in != NULL && !faz_seen_has(&self->hosting.gone, open) ? guest_of(self, open) : NULL;
    if (one == NULL || !read_ask(self, one, in, open, message, &came))
        return;
    bool is_new = one->stage == GUEST_NONE;
    if (came.leaves && (is_new || (self->is_known && one->stage == GUEST_SEATED)))
        return;
    if (is_new) {
        one->room = *in;
        memcpy(one->inbox, inbox, INBOX);
    }
    note_ask(self, one, &came);
    if (came.leaves) {
        forget(self, one);
        return;
    }
    tell(self, one);
    look_at_seats(self);
}

void faz_host_hear(faz_lobby *self, const broker_message *message) {
    uint8_t inbox[INBOX];
    bool is_of_now = faz_inbox_read(message->reply, inbox);
    if (message->length == 0 || (!is_of_now && !faz_inbox_is_older(message->reply)))
        return;
    if (message->bytes[0] == KNOCK && self->hosting.has_short_code && (!self->is_ready || self->table.lasts))
        faz_knock_hear(self, message);
    else if (message->bytes[0] == HELLO)
        hear_hello(self, message);
    else if (message->bytes[0] == ASK && is_of_now)
        hear_ask(self, message, inbox);
}

/* Who is in the match stays in it: its line says whether it is there. */
void faz_host_turn(faz_lobby *self) {
    faz_knock_turn(self);
    for (int at = 0; at < GUESTS; at++) {
        guest *one = &self->hosting.guest[at];
        bool is_in = one->stage == GUEST_SEATED && self->is_known;
        if (one->stage != GUEST_NONE && !is_in && faz_lobby_since(self, one->heard_at) >= GONE_AFTER)
            forget(self, one);
    }
}

void faz_host_close(faz_lobby *self) {
    for (int at = 0; at < GUESTS; at++) {
        guest *one = &self->hosting.guest[at];
        if (one->stage != GUEST_ASKS && one->stage != GUEST_SEATED)
            continue;
        refuse(one, FAZ_LOBBY_HOST_LEFT);
        tell(self, one);
    }
}
