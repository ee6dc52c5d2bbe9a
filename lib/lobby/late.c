/* Who comes into a match that runs: the machine with the lowest number that is there answers, gives it a place that is vacant or the one
 * of a machine that is silent, and tells the others. */
#include "inside.h"

#include <sodium.h>
#include <string.h>

/* Milliseconds for which a machine has to be silent, before it may be that its player was begun anew, before that is back, and before
 * somebody else comes; between two answers and two times that the others are told, and for how long; and without anything of who
 * comes. */
enum { STOPPED_AFTER = 300, BACK_AFTER = 1500, OTHER_AFTER = 5000, TOLD_AGAIN = 500, TOLD_FOR = 10000, GONE_AFTER = 10000 };

void faz_late_begin(faz_lobby *self) {
    char subject[BROKER_SUBJECT];
    if (!self->table.lasts)
        return;
    faz_room_of(&self->later, self->table.code);
    faz_room_subject(&self->later, subject);
    faz_lobby_broker_hear(self->broker, self->is_host && !self->hosting.has_short_code ? 1 : 2, subject);
}

/* ---- places */

static uint32_t silence_of(const faz_lobby *self, uint32_t machine) {
    faz_line_state state;
    faz_line_look(self->other[machine].line, &state);
    return state.silence;
}

static uint32_t players_of(const table *self, uint32_t machine) {
    uint32_t players = 0;
    for (uint32_t at = 0; at < self->players; at++)
        players += self->owners[at] == machine;
    return players;
}

/* How well a place is for somebody, the best last. */
typedef enum fit { TAKEN, SILENT, VACANT, MAYBE_OWN, OWN } fit;

static fit fit_of(const faz_lobby *self, const comer *one, uint32_t machine) {
    if (players_of(&self->table, machine) != one->here)
        return TAKEN;
    if (!faz_mesh_has_line(self, machine))
        return faz_mesh_is_vacant(self, machine) ? VACANT : TAKEN;
    uint32_t silence = silence_of(self, machine);
    if (strcmp(self->table.member[machine].name, one->name) == 0)
        return silence >= BACK_AFTER ? OWN : silence >= STOPPED_AFTER ? MAYBE_OWN : TAKEN;
    return silence >= OTHER_AFTER ? SILENT : TAKEN;
}

/* The best place for somebody; FAZGROND_NO_MACHINE if there is none now. */
static uint32_t place_for(const faz_lobby *self, const comer *one) {
    uint32_t found = FAZGROND_NO_MACHINE;
    fit best = TAKEN;
    for (uint32_t machine = 0; machine < self->table.machines; machine++) {
        fit now = fit_of(self, one, machine);
        if (now > best) {
            best = now;
            found = machine;
        }
    }
    return best == MAYBE_OWN ? FAZGROND_NO_MACHINE : found;
}

/* Whether this machine answers: those before it don't hear who comes, or aren't there. */
static bool answers(const faz_lobby *self) {
    for (uint32_t machine = 0; machine < self->table.me; machine++)
        if (faz_mesh_has_line(self, machine) && silence_of(self, machine) < BACK_AFTER)
            return false;
    return self->is_ready;
}

/* Whoever has come, or has left, is known by its key no more. */
static void forget(faz_lobby *self, comer *one) {
    faz_seen_note(&self->hosting.gone, one->pair.theirs);
    sodium_memzero(one, sizeof *one);
}

/* ---- what is said */

static void tell(faz_lobby *self, comer *to) {
    uint8_t message[BROKER_MESSAGE];
    char subject[BROKER_SUBJECT];
    answer text = { .counter = ++to->answers, .what = to->is_placed ? BEGINS : to->is_let_in ? SEATED : WAITS };
    strcpy(text.name, self->name);
    text.table = self->table;
    text.table.me = to->place;
    text.table.is_late = true;
    memset(text.table.proof, 0, PROOF);
    if (self->is_host)
        faz_host_vouch(text.table.proof, self->hosting.secret, to->pair.theirs);
    faz_inbox_subject(to->inbox, subject);
    faz_lobby_broker_say(self->broker, subject, NULL, message, faz_answer_write(&text, &to->pair, message));
    to->told_at = self->now;
}

static void refuse(faz_lobby *self, comer *to, faz_lobby_why why) {
    uint8_t message[BROKER_MESSAGE];
    char subject[BROKER_SUBJECT];
    answer text = { .counter = ++to->answers, .what = REFUSED, .why = why };
    faz_inbox_subject(to->inbox, subject);
    faz_lobby_broker_say(self->broker, subject, NULL, message, faz_answer_write(&text, &to->pair, message));
    forget(self, to);
}

static void tell_others(faz_lobby *self, const comer *of) {
    uint8_t message[BROKER_MESSAGE];
    news text = { of->news, of->place, self->table.member[of->place] };
    for (uint32_t machine = 0; machine < self->table.machines; machine++)
        if (faz_mesh_has_line(self, machine) && machine != of->place)
            faz_lobby_broker_say(self->broker, self->other[machine].subject, NULL, message,
                                 faz_news_write(self->table.me, &text, &self->other[machine].pair, message));
}

/* Gives who comes a place, once there is one. */
static void place(faz_lobby *self, comer *one) {
    uint32_t found = one->is_let_in && !one->is_placed ? place_for(self, one) : FAZGROND_NO_MACHINE;
    if (found == FAZGROND_NO_MACHINE)
        return;
    member who = { 0 };
    memcpy(who.open, one->pair.theirs, KEY);
    memcpy(who.inbox, one->inbox, INBOX);
    strcpy(who.name, one->name);
    one->place = found;
    one->is_placed = true;
    one->placed_at = self->now;
    one->news = ++self->news;
    faz_mesh_replace(self, found, &who);
    tell_others(self, one);
    tell(self, one);
}

/* ---- what is heard */

static comer *comer_of(faz_lobby *self, const uint8_t open[KEY]) {
    comer *free = NULL;
    for (int at = 0; at < COMERS; at++) {
        comer *one = &self->comer[at];
        if (one->is_there && memcmp(one->pair.theirs, open, KEY) == 0)
            return one;
        if (!one->is_there)
            free = one;
    }
    return free;
}

static const room *room_of_ask(const faz_lobby *self, uint8_t open[KEY], const broker_message *message) {
    for (int at = 0; at < KNOCKERS; at++) {
        const knocker *one = &self->hosting.knocker[at];
        if (one->is_proven && faz_ask_open(open, &one->room, message->bytes, message->length))
            return &one->room;
    }
    for (int at = 0; at < COMERS; at++)
        if (self->comer[at].is_there && faz_ask_open(open, &self->comer[at].room, message->bytes, message->length))
            return &self->comer[at].room;
    return faz_ask_open(open, &self->later, message->bytes, message->length) ? &self->later : NULL;
}

/* Somebody asks for the first time. */
static void take_in(faz_lobby *self, comer *one, const ask *came, const room *in, const uint8_t inbox[INBOX]) {
    one->room = *in;
    one->is_there = true;
    one->who = ++self->hosting.named;
    one->here = came->here;
    one->is_let_in = !self->table.asks;
    memcpy(one->inbox, inbox, INBOX);
    strcpy(one->name, came->name);
    if (one->is_let_in)
        return;
    faz_lobby_event *event = faz_lobby_tell(self, FAZ_LOBBY_ASKS, FAZGROND_NO_MACHINE, one->name);
    event->who = one->who;
    faz_pair_words(&one->pair, event->text);
}

static void hear_ask(faz_lobby *self, const broker_message *message, const uint8_t inbox[INBOX], const room *in, const uint8_t open[KEY]) {
    ask came;
    comer *one = faz_seen_has(&self->hosting.gone, open) ? NULL : comer_of(self, open);
    if (one == NULL)
        return;
    bool is_new = !one->is_there;
    if (is_new && (faz_mesh_knows(self, open) || !faz_pair_of(&one->pair, in, self->keys.open, self->keys.secret, open)))
        return;
    if (!faz_ask_read(&came, in, &one->pair, message->bytes, message->length) || (!is_new && came.counter <= one->counter))
        return;
    if (is_new && came.leaves)
        return;
    if (is_new)
        take_in(self, one, &came, in, inbox);
    one->counter = came.counter;
    one->heard_at = self->now;
    if (came.leaves && !one->is_placed)
        forget(self, one);
    else if (came.digest != self->digest)
        refuse(self, one, came.digest == (self->digest ^ LOBBY_PAGE) ? FAZ_LOBBY_A_PAGE : FAZ_LOBBY_OTHER_GAME);
    else
        tell(self, one);
}

static void hear_hello(faz_lobby *self, const broker_message *message) {
    uint8_t out[BROKER_MESSAGE];
    hello came;
    offer ours = { .version = LOBBY_VERSION };
    if (!answers(self) || !faz_hello_read(&came, &self->later, message->bytes, message->length))
        return;
    memcpy(ours.host, self->table.host, KEY);
    memcpy(ours.speaks, self->keys.open, KEY);
    memcpy(ours.proof, self->table.proof, PROOF);
    memcpy(ours.inbox, self->inbox, INBOX);
    faz_lobby_broker_say(self->broker, message->reply, NULL, out, faz_offer_write(&ours, &self->later, out));
}

/* A guest of the host's, who asks again for the table, is the host's. */
static bool is_guest(const faz_lobby *self, const uint8_t open[KEY]) {
    for (int at = 0; at < GUESTS; at++)
        if (self->hosting.guest[at].stage != GUEST_NONE && memcmp(self->hosting.guest[at].pair.theirs, open, KEY) == 0)
            return true;
    return false;
}

bool faz_late_hear(faz_lobby *self, const broker_message *message) {
    uint8_t inbox[INBOX], open[KEY];
    if (!self->is_known || !self->table.lasts || message->is_nobody || message->length == 0)
        return false;
    bool is_of_now = faz_inbox_read(message->reply, inbox);
    if (message->bytes[0] == HELLO && (is_of_now || faz_inbox_is_older(message->reply))) {
        hear_hello(self, message);
        return true;
    }
    if (!is_of_now)
        return false;
    const room *in = message->bytes[0] == ASK ? room_of_ask(self, open, message) : NULL;
    if (in == NULL || (self->is_host && is_guest(self, open)))
        return false;
    hear_ask(self, message, inbox, in, open);
    return true;
}

void faz_late_turn(faz_lobby *self) {
    for (int at = 0; at < COMERS; at++) {
        comer *one = &self->comer[at];
        if (!one->is_there)
            continue;
        place(self, one);
        if (one->is_placed && faz_lobby_since(self, one->told_at) >= TOLD_AGAIN) {
            tell_others(self, one);
            one->told_at = self->now;
        }
        if (faz_lobby_since(self, one->is_placed ? one->placed_at : one->heard_at) >= (one->is_placed ? TOLD_FOR : GONE_AFTER))
            forget(self, one);
    }
}

bool faz_late_let_in(faz_lobby *self, uint32_t who, bool yes) {
    for (int at = 0; at < COMERS; at++) {
        comer *one = &self->comer[at];
        if (!one->is_there || one->who != who || one->is_let_in)
            continue;
        one->is_let_in = yes;
        if (!yes)
            refuse(self, one, FAZ_LOBBY_NOT_LET_IN);
        return true;
    }
    return false;
}
