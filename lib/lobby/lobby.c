#include "inside.h"

#include "../line/ice.h"

#include <sodium.h>
#include <stdlib.h>
#include <string.h>

/* Milliseconds. */
enum { LOOKED = 250, SILENT_AFTER = 10000 };

/* So many messages are taken in a turn. */
enum { TAKEN = 64 };

uint32_t faz_lobby_since(const faz_lobby *self, uint32_t moment) {
    uint32_t passed = self->now - moment;
    return passed < UINT32_C(1) << 31 ? passed : 0;
}

void faz_lobby_copy(char *out, size_t room, const char *text) {
    size_t length = strlen(text) < room ? strlen(text) : room - 1;
    memcpy(out, text, length);
    out[length] = 0;
}

/* ---- events */

faz_lobby_event *faz_lobby_tell(faz_lobby *self, faz_lobby_what what, uint32_t machine, const char *name) {
    faz_lobby_event *event = &self->events[self->last_event++ % EVENTS];
    memset(event, 0, sizeof *event);
    event->what = what;
    event->machine = machine;
    faz_lobby_copy(event->name, sizeof event->name, name);
    if (self->last_event - self->first_event > EVENTS)
        self->first_event++;
    return event;
}

bool faz_lobby_next_event(faz_lobby *self, faz_lobby_event *event) {
    if (self->first_event == self->last_event)
        return false;
    *event = self->events[self->first_event++ % EVENTS];
    return true;
}

void faz_lobby_end(faz_lobby *self, faz_lobby_why why, const char *text) {
    if (self->is_over)
        return;
    self->is_over = true;
    faz_lobby_event *event = faz_lobby_tell(self, FAZ_LOBBY_ENDED, FAZGROND_NO_MACHINE, "");
    event->why = why;
    faz_lobby_copy(event->text, sizeof event->text, text);
}

faz_lobby_stage faz_lobby_stage_of(const faz_lobby *self) {
    return self->is_ready      ? FAZ_LOBBY_READY
        : self->is_over        ? FAZ_LOBBY_OVER
        : self->is_known       ? FAZ_LOBBY_CONNECTING
        : self->has_been_there ? FAZ_LOBBY_MEETING
                               : FAZ_LOBBY_REACHING;
}

/* ---- opening and closing */

/* What is wrong with settings; null if they were taken. */
static const char *take_settings(faz_lobby *self, const faz_lobby_settings *settings) {
    self->here = settings->here != 0 ? settings->here : 1;
    self->digest = settings->digest;
    self->lasts = settings->lasts;
    self->has_door = settings->has_door;
    self->wants_relays = settings->stun == NULL && settings->relay_count == 0;
    faz_name_clean(self->name, settings->name != NULL && *settings->name != 0 ? settings->name : "a player");
    if (self->here > FAZGROND_PLAYERS)
        return "there are more players at this machine than a match has";
    if (sodium_init() < 0 || !faz_line_draw(&self->keys))
        return "the system gives no random numbers";
    return faz_lobby_copy_servers(self, settings);
}

faz_lobby *faz_lobby_open(const faz_lobby_settings *settings, const char **why) {
    faz_lobby *self = calloc(1, sizeof *self);
    *why = self == NULL ? "there is no memory" : take_settings(self, settings);
    if (*why == NULL)
        self->broker = faz_lobby_broker_open(settings->broker, settings->trusted, why);
    if (*why != NULL) {
        faz_lobby_close(self);
        return NULL;
    }
    memcpy(self->inbox, faz_lobby_broker_inbox(self->broker), INBOX);
    faz_inbox_subject(self->inbox, self->inbox_name);
    faz_lobby_broker_hear(self->broker, 0, self->inbox_name);
    self->addresses = faz_ice_addresses();
    return self;
}

static void enter(faz_lobby *self, const uint8_t code[CODE_BYTES]) {
    faz_room_of(&self->room, code);
    faz_room_subject(&self->room, self->room_name);
}

/* What is wrong with a host's settings; null if they were taken. */
static const char *take_match(faz_lobby *self, const faz_lobby_settings *settings) {
    if (settings->players < 2 || settings->players > FAZGROND_PLAYERS || self->here >= settings->players)
        return "a match has 2 to 8 players, and some of them elsewhere";
    if (settings->common_length > FAZ_LOBBY_COMMON || (settings->common_length > 0 && settings->common == NULL))
        return "what is handed to all is too long";
    if (settings->stays_open && !settings->lasts)
        return "seats stay open in a match that lasts";
    self->hosting.stays_open = settings->stays_open;
    self->hosting.players = settings->players;
    self->hosting.asks = settings->asks || settings->short_code;
    self->hosting.has_short_code = settings->short_code;
    self->table.common_length = settings->common_length;
    if (settings->common_length > 0)
        memcpy(self->table.common, settings->common, settings->common_length);
    return NULL;
}

/* It is told once friends can be heard. */
void faz_lobby_open_by_hash(faz_lobby *self) {
    uint8_t code[CODE_BYTES];
    faz_code_of(code, self->hosting.open);
    enter(self, code);
    faz_lobby_broker_hear(self->broker, 1, self->room_name);
}

void faz_lobby_tell_code(faz_lobby *self, faz_lobby_why why) {
    uint8_t code[CODE_BYTES];
    faz_lobby_event *event = faz_lobby_tell(self, FAZ_LOBBY_CODE, 0, self->name);
    faz_code_of(code, self->hosting.open);
    faz_code_write(code, event->text);
    event->why = why;
}

faz_lobby *faz_lobby_host(const faz_lobby_settings *settings, const char **why) {
    faz_lobby *self = faz_lobby_open(settings, why);
    if (self == NULL)
        return NULL;
    *why = take_match(self, settings);
    if (*why != NULL) {
        faz_lobby_close(self);
        return NULL;
    }
    self->is_host = true;
    faz_host_draw(self->hosting.open, self->hosting.secret);
    if (settings->short_code || settings->has_door)
        faz_asking_begin(self, settings->short_code ? DOOR_HOSTS : DOOR_RELAYS, self->wants_relays);
    if (settings->short_code)
        faz_knock_begin(self);
    else
        faz_lobby_open_by_hash(self);
    return self;
}

/* Takes a code, long or short. False: it is none. */
static bool take_code(faz_lobby *self, const char *code) {
    joining *joins = &self->joining;
    if (code == NULL)
        return false;
    joins->has_short_code = faz_short_read(code, joins->plate, joins->secret_signs);
    if (!joins->has_short_code && !faz_code_read(code, joins->code))
        return false;
    joins->stage = joins->has_short_code ? ASKS_DOOR : SAYS_HELLO;
    joins->heard_at = self->now;
    if (joins->has_short_code || self->has_door)
        faz_asking_begin(self, joins->has_short_code ? DOOR_JOINS : DOOR_RELAYS, self->wants_relays);
    if (joins->has_short_code)
        faz_lobby_copy(self->door.request.plate, sizeof self->door.request.plate, joins->plate);
    else
        enter(self, joins->code);
    return true;
}

bool faz_lobby_enter(faz_lobby *self, const char *code) {
    return !self->is_host && self->joining.stage == NO_CODE && take_code(self, code);
}

faz_lobby *faz_lobby_join(const faz_lobby_settings *settings, const char *code, const char **why) {
    faz_lobby *self = faz_lobby_open(settings, why);
    if (self == NULL)
        return NULL;
    if (!faz_lobby_enter(self, code)) {
        *why = "this is no code: a sign of it may be wrong or missing";
        faz_lobby_close(self);
        return NULL;
    }
    return self;
}

void faz_lobby_close(faz_lobby *self) {
    if (self == NULL)
        return;
    if (self->broker != NULL && !self->is_ready && self->is_host)
        faz_host_close(self);
    if (self->broker != NULL && !self->is_ready && !self->is_host)
        faz_join_close(self);
    faz_knock_close(self);
    faz_pake_close(self->joining.pake);
    faz_mesh_close(self);
    faz_aside_leave(self->looking);
    faz_lobby_broker_close(self->broker);
    sodium_memzero(self, sizeof *self);
    free(self);
}

/* ---- a turn */

static void hear(faz_lobby *self, const broker_message *message) {
    bool is_of_mesh = !message->is_nobody && message->length > 0 && (message->bytes[0] == SIGNAL || message->bytes[0] == NEWS);
    if (message->place == DOOR_PLACE)
        faz_asking_hear(self, message);
    else if (is_of_mesh)
        faz_mesh_hear(self, message);
    else if (faz_late_hear(self, message))
        return;
    else if (self->is_host && !message->is_nobody)
        faz_host_hear(self, message);
    else if (!self->is_host)
        faz_join_hear(self, message);
}

static void hear_all(faz_lobby *self) {
    broker_message message;
    for (int taken = 0; taken < TAKEN && faz_lobby_broker_next(self->broker, &message); taken++)
        hear(self, &message);
}

/* Tells once that the broker is away, until it is there again. */
static void look_at_broker(faz_lobby *self) {
    bool is_there = faz_lobby_broker_is_there(self->broker);
    const char *why = faz_lobby_broker_why(self->broker);
    if (!is_there && !self->is_away_told && (self->has_been_there || why != NULL)) {
        self->is_away_told = true;
        faz_lobby_copy(faz_lobby_tell(self, FAZ_LOBBY_AWAY, FAZGROND_NO_MACHINE, "")->text, FAZ_LOBBY_TEXT_ROOM,
                       why != NULL ? why : "the broker isn't there");
    }
    if (is_there)
        self->is_away_told = false;
    if (is_there && !self->has_been_there && self->is_host && !self->hosting.has_short_code)
        faz_lobby_tell_code(self, FAZ_LOBBY_NO_REASON);
    self->has_been_there = self->has_been_there || is_there;
}

static void look_at_addresses(faz_lobby *self) {
    if (faz_lobby_since(self, self->looked_at) < LOOKED)
        return;
    uint64_t addresses = faz_ice_addresses();
    if (addresses != self->addresses)
        faz_lobby_broker_renew(self->broker);
    self->addresses = addresses;
    self->looked_at = self->now;
}

void faz_lobby_turn(faz_lobby *self, uint32_t now) {
    self->now = now;
    if (!self->has_turned)
        self->looked_at = now;
    self->has_turned = true;
    if (self->is_over)
        return;
    faz_lobby_has_addresses(self);
    look_at_addresses(self);
    faz_lobby_broker_turn(self->broker, now);
    look_at_broker(self);
    faz_asking_turn(self);
    hear_all(self);
    if (self->is_host)
        faz_host_turn(self);
    else
        faz_join_turn(self);
    faz_mesh_turn(self);
    faz_late_turn(self);
}

/* ---- the match */

/* What is the same at all machines of the match, and nobody else knows: of these bytes another number than of others. */
static uint64_t number_of(const table *from, const void *bytes, size_t length) {
    uint64_t hash[2];
    crypto_generichash((uint8_t *)hash, sizeof hash, bytes, length, from->key, KEY);
    return hash[0] | 1;
}

static uint64_t comers_of(const table *from) { return number_of(from, "comers", 6); }

/* Another one for each who comes. */
static uint64_t ticket_of(const table *from, uint32_t machine) {
    return fazgrond_ticket(comers_of(from), (uint32_t)number_of(from, from->member[machine].open, KEY));
}

bool faz_lobby_get_match(const faz_lobby *self, faz_lobby_match *match) {
    if (!self->is_known)
        return false;
    memset(match, 0, sizeof *match);
    match->me = self->table.me;
    match->machines = self->table.machines;
    match->players = self->table.players;
    memcpy(match->owners, self->table.owners, sizeof match->owners);
    match->number = self->table.number;
    match->comers = comers_of(&self->table);
    match->digest = self->digest;
    match->is_late = self->table.is_late;
    if (self->table.lasts)
        faz_code_write(self->table.code, match->code);
    match->common_length = self->table.common_length;
    memcpy(match->common, self->table.common, self->table.common_length);
    for (uint32_t at = 0; at < match->machines; at++) {
        strcpy(match->names[at], self->table.member[at].name);
        match->tickets[at] = ticket_of(&self->table, at);
        match->vacant |= faz_mesh_is_vacant(self, at) ? 1u << at : 0;
        match->numbers[at] = self->other[at].line != NULL ? faz_line_number(self->other[at].line) : 0;
    }
    return true;
}

bool faz_lobby_get_peer(const faz_lobby *self, fazgrond_match *match) {
    if (!self->is_known)
        return false;
    *match = fazgrond_match_for(self->table.machines, self->table.me);
    match->digest = self->digest;
    match->comers = comers_of(&self->table);
    match->silent_after = SILENT_AFTER;
    for (uint32_t at = 0; at < self->table.machines; at++) /* with who isn't there yet: what all know who may be in the match */
        match->numbers[at] = self->other[at].line != NULL ? faz_line_number(self->other[at].line) : match->comers;
    for (uint32_t player = 0; player < FAZGROND_PLAYERS; player++) {
        uint32_t owner = self->table.owners[player];
        match->owners[player] = faz_mesh_is_vacant(self, owner) ? FAZGROND_NOBODY : owner;
    }
    return true;
}
