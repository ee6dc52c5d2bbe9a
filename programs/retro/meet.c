#include "meet.h"

#include "files.h"

#include "../../lib/sha256.h"

#include <inttypes.h>
#include <stdio.h>
#include <stdlib.h>
#include <string.h>

enum { HEAD = 12, HELLO = 1, TABLE = 2, REFUSAL = 3, PARTED = 4, OFFER = 5, RUNS = 6, VERSION = 4 };
/* How pieces of states go: whom they name as their sender; how many an ask is for, and how many asks a turn has; the most that the
 * host gives all others in so many milliseconds. */
enum { HOST = 0, GUEST = 1, ASKS = 2, MOST_GIVEN = 64, GIVEN_IN = 50 };

static const uint8_t magic[4] = { 'F', 'Z', 'R', 'M' };

/* A datagram that is written, or read. */
typedef struct cursor {
    uint8_t bytes[FAZGROND_DATAGRAM];
    size_t at, length;
    bool is_short;
} cursor;

static void put(cursor *self, uint64_t number, size_t size) {
    for (size_t at = 0; at < size; at++)
        self->bytes[self->at++] = (uint8_t)(number >> 8 * at);
}

static uint64_t take(cursor *self, size_t size) {
    uint64_t number = 0;
    self->is_short |= self->length - self->at < size;
    for (size_t at = 0; at < size && !self->is_short; at++)
        number |= (uint64_t)self->bytes[self->at++] << 8 * at;
    return number;
}

static void put_text(cursor *self, const char *text, size_t size) {
    for (size_t at = 0; at < size; at++)
        put(self, at < strlen(text) ? (uint8_t)text[at] : 0, 1);
}

static void take_text(cursor *self, char *text, size_t size) {
    for (size_t at = 0; at < size; at++)
        text[at] = (char)take(self, 1);
    text[size - 1] = 0;
}

static void put_bytes(cursor *self, const uint8_t *from, size_t size) {
    for (size_t at = 0; at < size; at++)
        put(self, from[at], 1);
}

static void take_bytes(cursor *self, uint8_t *to, size_t size) {
    for (size_t at = 0; at < size; at++)
        to[at] = (uint8_t)take(self, 1);
}

static cursor begin(uint8_t kind) {
    cursor made = { .at = HEAD };
    memcpy(made.bytes, magic, sizeof magic);
    put(&made, kind, 1);
    put(&made, VERSION, 1);
    return made;
}

static void send_by(const meeting *self, const address *to, cursor *made, uint64_t number) {
    seal(made->bytes, made->at, (seal_key){ .number = number });
    net_send(self->net, to, made->bytes, made->at);
}

static void send_sealed(const meeting *self, const address *to, cursor *made) { send_by(self, to, made, self->key); }

static void put_address(cursor *self, const address *it) {
    put(self, ntohl(it->sin_addr.s_addr), 4);
    put(self, ntohs(it->sin_port), 2);
}

static address take_address(cursor *self) {
    address made = { .sin_family = AF_INET };
    made.sin_addr.s_addr = htonl((uint32_t)take(self, 4));
    made.sin_port = htons((uint16_t)take(self, 2));
    return made;
}

/* The number that two machines seal with: of the key too, so that who only reads this line doesn't know it. */
static uint64_t number_of(const meeting *self, uint64_t draw) { return strong_digest_of((uint64_t[2]){ self->key, draw }, 16) | 1; }

static uint64_t digest_of_all(const meeting *self) {
    const facts *it = &self->facts;
    uint64_t all[] = { it->core, it->rom, it->save_ram, it->options, it->opening, it->reloads, self->all.threshold };
    return strong_digest_of(all, sizeof all);
}

/* What each says of itself. */

static void put_facts(cursor *made, const facts *from) {
    put(made, from->core, 8);
    put(made, from->rom, 8);
    put(made, from->save_ram, 8);
    put(made, from->options, 8);
    put(made, from->opening, 8);
    put(made, from->reloads, 1);
    put(made, from->lasts, 1);
    put_text(made, from->name, sizeof from->name);
}

static facts take_facts(cursor *heard) {
    facts theirs;
    theirs.core = take(heard, 8);
    theirs.rom = take(heard, 8);
    theirs.save_ram = take(heard, 8);
    theirs.options = take(heard, 8);
    theirs.opening = take(heard, 8);
    theirs.reloads = take(heard, 1) != 0;
    theirs.lasts = take(heard, 1) != 0;
    take_text(heard, theirs.name, sizeof theirs.name);
    return theirs;
}

static void send_hello(meeting *self) {
    cursor made = begin(HELLO);
    put(&made, self->nonce, 8);
    put(&made, self->players, 1);
    put_bytes(&made, self->delays, sizeof self->delays);
    put_facts(&made, &self->facts);
    send_sealed(self, &self->host, &made);
}

/* Why a guest can't be in the match; null if it can. */
static const char *difference(const meeting *self, const facts *theirs, char *text, size_t room) {
    const facts *mine = &self->facts;
    if (theirs->core != mine->core) {
        snprintf(text, room, "another core: the host has %.50s, and this one %.50s", mine->name, theirs->name);
        return text;
    }
    return theirs->rom != mine->rom          ? "another ROM than the host's"
        : theirs->reloads != mine->reloads   ? "one of the two machines hasn't checked the core: faz-retro check"
        : theirs->lasts != mine->lasts       ? mine->lasts ? "the host plays with --rejoin, and this machine without"
                                                           : "the host plays without --rejoin, and this machine with it"
        : self->has_key                      ? NULL /* it is given the rest */
        : theirs->options != mine->options   ? "other options of the core than the host's; with a key they would be sent"
        : theirs->save_ram != mine->save_ram ? "another save RAM than the host's; with a key it would be sent"
        : theirs->opening != mine->opening   ? "the game doesn't begin as it does at the host; with a key that would be sent"
                                             : NULL;
}

/* The first of what the host has otherwise; GIVEN if all is alike. */
static int first_other(const facts *one, const facts *other) {
    return one->save_ram != other->save_ram ? SAVE_RAM
        : one->options != other->options    ? CORE_OPTIONS
        : one->opening != other->opening    ? OPENING
                                            : GIVEN;
}

static void send_refusal(const meeting *self, const guest *to, const char *why) {
    cursor made = begin(REFUSAL);
    put(&made, to->nonce, 8);
    put_text(&made, why, sizeof self->why);
    send_sealed(self, &to->at, &made);
}

static void put_players(cursor *made, const agreement *all) {
    for (int at = 0; at < FAZGROND_PLAYERS; at++) {
        put(made, all->owners[at], 1);
        put(made, all->delays[at], 1);
    }
}

static void take_players(cursor *heard, agreement *all) {
    for (int at = 0; at < FAZGROND_PLAYERS; at++) {
        all->owners[at] = (uint32_t)take(heard, 1);
        all->delays[at] = (uint32_t)take(heard, 1);
    }
}

/* What the host tells a guest: the same of all but its numbers and its own place. */
static void send_table(const meeting *self, const guest *to, uint32_t place) {
    cursor made = begin(TABLE);
    put(&made, to->nonce, 8);
    put(&made, place, 1);
    put(&made, self->machines, 1);
    put(&made, self->all.players, 1);
    put(&made, self->all.threshold, 1);
    put(&made, to->line_draw, 8);
    put(&made, to->players > 0 ? self->all.draw : 0, 8);
    put(&made, self->all.vacant, 1);
    put_players(&made, &self->all);
    for (uint32_t at = 0; at < FAZGROND_MACHINES; at++) {
        put(&made, to->players > 0 ? self->draws[place][at] : 0, 8);
        put_address(&made, &self->machine[at].at);
    }
    send_sealed(self, &to->at, &made);
}

/* That the match runs. The nonce is that of a hello which this answers, else 0. */
static void send_runs(const meeting *self, const address *to, uint32_t place, uint64_t nonce, bool is_gone) {
    cursor made = begin(RUNS);
    put(&made, nonce, 8);
    put(&made, self->all.me, 1);
    put(&made, place, 1);
    put(&made, is_gone, 1);
    put(&made, self->all.base, 4);
    put(&made, self->all.machines, 1);
    put(&made, self->all.players, 1);
    put(&made, self->all.threshold, 1);
    put(&made, self->all.draw, 8);
    put(&made, self->all.digest, 8);
    put_players(&made, &self->all);
    for (uint32_t at = 0; at < FAZGROND_MACHINES; at++)
        put_address(&made, &self->all.machine[at]);
    put_facts(&made, &self->facts);
    send_sealed(self, to, &made);
}

void meeting_tell(const meeting *self, uint32_t machine, bool is_gone) {
    if (self->is_running)
        send_runs(self, &self->all.machine[machine], machine, 0, is_gone);
}

/* What the host gives: its facts, and what the states are called. One that it hasn't has no length. */
static void send_offer(const meeting *self, const guest *to) {
    cursor made = begin(OFFER);
    put(&made, to->nonce, 8);
    put(&made, self->facts.save_ram, 8);
    put(&made, self->facts.options, 8);
    put(&made, self->facts.opening, 8);
    for (int which = 0; which < GIVEN; which++) {
        fazgrond_state_name name = { 0 };
        (void)fazgrond_giver_name((fazgrond_giver *)&self->givers[which], &name);
        put(&made, name.length, 4);
        for (size_t at = 0; at < sizeof name.digest; at++)
            put(&made, name.digest[at], 1);
    }
    send_sealed(self, &to->at, &made);
}

static uint32_t seated(const meeting *self) {
    uint32_t players = 0;
    for (uint32_t at = 0; at < self->machines; at++)
        players += self->machine[at].players;
    return players;
}

/* Each is a machine of the match, with a player, for as many as it may have. */
static void seat_vacant(meeting *self) {
    uint32_t left = FAZGROND_PLAYERS - seated(self);
    for (uint32_t at = 0; at < self->vacants && at < left && self->machines < FAZGROND_MACHINES; at++) {
        self->all.vacant |= 1u << self->machines;
        self->machine[self->machines++] = (guest){ .at = self->vacant[at], .players = 1 };
    }
}

static void agree(meeting *self) {
    agreement *all = &self->all;
    seat_vacant(self);
    all->machines = self->machines;
    for (uint32_t one = 0; one < self->machines; one++)
        for (uint32_t seat = 0; seat < self->machine[one].players; seat++) {
            all->delays[all->players] = self->machine[one].delays[seat];
            all->owners[all->players++] = one;
        }
    all->draw = self->facts.lasts ? net_draw() : 0;
    for (uint32_t one = 0; one < self->machines; one++)
        for (uint32_t other = 0; other <= one; other++)
            self->draws[one][other] = self->draws[other][one] = self->facts.lasts ? all->draw : net_draw();
    for (uint32_t one = 0; one < self->machines; one++) {
        all->numbers[one] = number_of(self, self->draws[0][one]);
        all->machine[one] = self->machine[one].at;
        if (one > 0 && (all->vacant >> one & 1) == 0)
            send_table(self, &self->machine[one], one);
    }
    self->is_agreed = true;
}

/* Why there is no seat for a guest whom the host doesn't know yet; null if there is one. */
static const char *no_seat(const meeting *self, const guest *one) {
    if (one->players > 0 && (self->is_agreed || one->players + seated(self) > FAZGROND_PLAYERS))
        return "the match has begun, or there are enough players";
    return one->players == 0 && self->viewers == VIEWERS ? "enough watch it" : NULL;
}

/* Which machine of the match is there; 0 if none is. */
static uint32_t machine_at(const meeting *self, const address *from) {
    uint32_t found = 0;
    for (uint32_t at = 1; at < self->machines && self->is_agreed; at++)
        found = address_is(&self->machine[at].at, from) ? at : found;
    return found;
}

/* Somebody hasn't yet what the host has. It has no seat until it has, since it may never come to that. */
static void teach(meeting *self, const guest *one) {
    int place = 0;
    while (place < LEARNERS && self->learner[place].nonce != one->nonce)
        place++;
    if (place == LEARNERS)
        place = (int)(self->learners++ % LEARNERS);
    self->learner[place] = *one;
    send_offer(self, one);
}

/* An ask for pieces. They go to where a guest said hello, and not too many at once. */
static void give(meeting *self, const guest *to, const uint8_t *bytes, size_t length) {
    uint8_t out[FAZGROND_DATAGRAM];
    size_t size;
    uint64_t number = number_of(self, to->nonce);
    if (net_now(self->net) - self->given_at >= GIVEN_IN) {
        self->given_at = net_now(self->net);
        self->given = 0;
    }
    for (int which = 0; which < GIVEN; which++)
        for (size_t place = 0; self->given < MOST_GIVEN
             && fazgrond_giver_reply(&self->givers[which], number, HOST, bytes, length, place, out, sizeof out, &size) == FAZGROND_OK;
             place++, self->given++)
            net_send(self->net, &to->at, out, size);
}

/* A machine of the match was begun anew. How the game is by then, it is told as it comes in. */
static void welcome_back(meeting *self, const guest *one, const facts *theirs, uint32_t place) {
    char text[160];
    facts alike = *theirs;
    alike.opening = self->facts.opening;
    const char *why = difference(self, &alike, text, sizeof text);
    if (why == NULL && one->players != self->machine[place].players)
        why = "the match runs, with another number of players at this machine";
    if (why != NULL)
        send_refusal(self, one, why);
    else if (first_other(&self->facts, &alike) != GIVEN)
        teach(self, one);
    else
        send_runs(self, &one->at, place, one->nonce, true);
}

/* Somebody who isn't there yet. */
static const char *refuses(const meeting *self, const guest *one, const facts *theirs, char *text, size_t room) {
    const char *why = difference(self, theirs, text, room);
    return why != NULL ? why : no_seat(self, one);
}

static void take_hello(meeting *self, const address *from, cursor *heard) {
    guest one = { .at = *from, .nonce = take(heard, 8) };
    one.players = (uint32_t)take(heard, 1);
    take_bytes(heard, one.delays, sizeof one.delays);
    facts theirs = take_facts(heard);
    guest *list = one.players > 0 ? self->machine : self->viewer;
    uint32_t *count = one.players > 0 ? &self->machines : &self->viewers, place = 0, known = machine_at(self, from);
    char text[160];
    if (heard->is_short)
        return;
    while (place < *count && list[place].nonce != one.nonce)
        place++;
    bool is_new = place == *count;
    if (is_new && known > 0) { /* else it waits for a new match already */
        if (self->is_running)
            welcome_back(self, &one, &theirs, known);
        else if (self->is_closed)
            send_refusal(self, &one, "the match has begun, and nobody comes back into it without --rejoin");
        return;
    }
    const char *why = is_new ? refuses(self, &one, &theirs, text, sizeof text) : difference(self, &theirs, text, sizeof text);
    if (why != NULL) {
        send_refusal(self, &one, why);
        return;
    }
    if (first_other(&self->facts, &theirs) != GIVEN) {
        teach(self, &one);
        return;
    }
    if (is_new) {
        one.line_draw = net_draw();
        list[(*count)++] = one;
    }
    if (self->is_agreed)
        send_table(self, &list[place], place);
    else if (self->machines == self->wanted)
        agree(self);
}

static void take_table(meeting *self, const address *from, cursor *heard) {
    agreement *all = &self->all;
    all->me = (uint32_t)take(heard, 1);
    all->machines = (uint32_t)take(heard, 1);
    all->players = (uint32_t)take(heard, 1);
    all->threshold = (uint32_t)take(heard, 1);
    all->line = number_of(self, take(heard, 8));
    all->draw = take(heard, 8);
    all->vacant = (uint32_t)take(heard, 1);
    take_players(heard, all);
    for (int at = 0; at < FAZGROND_MACHINES; at++) {
        all->numbers[at] = number_of(self, take(heard, 8));
        all->machine[at] = take_address(heard);
    }
    all->machine[0] = *from;
    self->is_agreed = !heard->is_short && all->machines >= 2 && all->machines <= FAZGROND_MACHINES && all->players <= FAZGROND_PLAYERS;
    all->digest = digest_of_all(self);
}

/* How many players a machine of a match has. */
static uint32_t players_at(const agreement *all, uint32_t machine) {
    uint32_t players = 0;
    for (int at = 0; at < FAZGROND_PLAYERS; at++)
        players += all->owners[at] == machine;
    return players;
}

/* A match runs in which this machine was. What it hasn't as the others, a guest is given by the host first. */
static bool is_own_match(meeting *self, const agreement *all, const facts *theirs) {
    facts alike = *theirs;
    char text[160];
    alike.opening = self->facts.opening;
    bool is_one = difference(self, &alike, text, sizeof text) == NULL && first_other(&self->facts, &alike) == GIVEN
        && players_at(all, all->me) == self->players;
    if (!is_one && self->is_host && self->strange != all->draw)
        fputs("a match is played that this machine was in with another core, ROM, save RAM, options or number of players\n", stderr);
    self->strange = is_one ? 0 : all->draw;
    return is_one;
}

static void join_running(meeting *self, const agreement *all) {
    self->all = *all;
    self->machines = all->machines;
    for (uint32_t at = 0; at < all->machines; at++) {
        self->all.numbers[at] = number_of(self, all->draw);
        self->machine[at] = (guest){ .at = all->machine[at], .players = players_at(all, at) };
    }
    self->is_agreed = true;
}

/* What another machine says of a match that runs. */
typedef struct news {
    agreement all; /* with this machine's own number */
    facts facts;
    uint64_t nonce;
    uint32_t sender;
    bool is_gone;
} news;

static news take_news(cursor *heard) {
    news it = { .all.runs = true };
    it.nonce = take(heard, 8);
    it.sender = (uint32_t)take(heard, 1);
    it.all.me = (uint32_t)take(heard, 1);
    it.is_gone = take(heard, 1) != 0;
    it.all.base = (uint32_t)take(heard, 4);
    it.all.machines = (uint32_t)take(heard, 1);
    it.all.players = (uint32_t)take(heard, 1);
    it.all.threshold = (uint32_t)take(heard, 1);
    it.all.draw = take(heard, 8);
    it.all.digest = take(heard, 8);
    take_players(heard, &it.all);
    for (int at = 0; at < FAZGROND_MACHINES; at++)
        it.all.machine[at] = take_address(heard);
    it.facts = take_facts(heard);
    return it;
}

/* Who waits takes it, if it is of this machine's match. Without a key a host does, as it hears all who say hello, and a guest if its
 * own hello is answered. Who plays in the match learns that it is gone for another. */
static void take_runs(meeting *self, const address *from, cursor *heard) {
    news it = take_news(heard);
    bool is_whole = !heard->is_short && it.all.machines <= FAZGROND_MACHINES && it.all.players <= FAZGROND_PLAYERS
        && it.all.me < it.all.machines && it.sender < it.all.machines && it.sender != it.all.me;
    if (!is_whole || !self->facts.lasts || it.all.draw == self->over || (it.all.me == 0) != self->is_host)
        return;
    if (self->is_agreed) {
        self->is_out = it.is_gone && it.all.draw == self->all.draw && it.all.me == self->all.me;
        self->out_of = it.sender;
        self->out_from = it.all.base;
        return;
    }
    it.all.machine[it.sender] = *from;
    if ((self->is_host || self->has_key || it.nonce == self->nonce) && is_own_match(self, &it.all, &it.facts))
        join_running(self, &it.all);
}

/* What a guest takes. */

void meeting_refuse(meeting *self, const char *why) {
    snprintf(self->why, sizeof self->why, "%s", why);
    self->is_refused = true;
    self->is_taking = false;
}

/* Begins to take the first of what the host has otherwise. */
static void begin_to_take(meeting *self) {
    static const char *const names[GIVEN] = { "save RAM", "options", "opening" };
    int which = first_other(&self->facts, &self->theirs);
    char text[120];
    if (which == GIVEN)
        return;
    self->taking = which;
    self->is_taking = true;
    int32_t code = self->names[which].length == 0 ? FAZGROND_OK /* none, and so all of it */
                                                  : fazgrond_taker_open(&self->taker, &self->names[which], self->limits[which]);
    if (code == FAZGROND_OK && self->names[which].length > 0)
        code = fazgrond_taker_take_of(&self->taker, HOST);
    snprintf(text, sizeof text,
             code == FAZGROND_TOO_LONG        ? "the host's %s has more bytes than this game's"
                 : code == FAZGROND_NO_MEMORY ? "there is no memory for the host's %s"
                                              : "the host's %s was taken over, and is another one here",
             names[which]);
    if (code != FAZGROND_OK || self->has_taken[which])
        meeting_refuse(self, text);
    else
        fprintf(stderr, "takes the host's %s: %" PRIu32 " bytes\n", names[which], self->names[which].length);
}

/* It comes again for as long as this machine says hello. */
static void take_offer(meeting *self, cursor *heard) {
    facts theirs = self->facts;
    fazgrond_state_name names[GIVEN] = { { 0 } };
    theirs.save_ram = take(heard, 8);
    theirs.options = take(heard, 8);
    theirs.opening = take(heard, 8);
    for (int which = 0; which < GIVEN; which++) {
        names[which].which = (uint64_t)which;
        names[which].length = (uint32_t)take(heard, 4);
        for (size_t at = 0; at < sizeof names[which].digest; at++)
            names[which].digest[at] = (uint8_t)take(heard, 1);
    }
    if (heard->is_short || !self->has_key || (self->is_taking && memcmp(names, self->names, sizeof names) == 0))
        return;
    self->theirs = theirs;
    memcpy(self->names, names, sizeof names);
    begin_to_take(self);
}

static void take_piece(meeting *self, const uint8_t *from, size_t length) {
    fazgrond_heard heard;
    if (fazgrond_taker_receive(&self->taker, number_of(self, self->nonce), from, length, &heard) == FAZGROND_OK
        && heard.what == FAZGROND_STATE_WRONG)
        meeting_refuse(self, "what the host has sent isn't what it said");
}

static void send_asks(meeting *self) {
    cursor made;
    for (int count = 0; count < ASKS; count++)
        if (fazgrond_taker_send(&self->taker, number_of(self, self->nonce), GUEST, FAZGROND_ASKED, made.bytes, sizeof made.bytes,
                                &made.length)
            == FAZGROND_OK)
            net_send(self->net, &self->host, made.bytes, made.length);
}

bool meeting_has_taken(meeting *self, int *which, bytes *out) {
    fazgrond_taker_state state = { 0, 0 };
    size_t size = self->is_taking ? self->names[self->taking].length : 0;
    if (!self->is_taking || (size > 0 && (fazgrond_taker_look(&self->taker, &state) != FAZGROND_OK || state.left > 0)))
        return false;
    *out = (bytes){ malloc(size + 1), size };
    if (out->at == NULL || (size > 0 && fazgrond_taker_bytes(&self->taker, out->at, size) != FAZGROND_OK)) {
        free(out->at);
        meeting_refuse(self, "there is no memory for what the host has sent");
        return false;
    }
    *which = self->taking;
    self->has_taken[self->taking] = true;
    self->is_taking = false;
    fazgrond_taker_close(&self->taker);
    return true;
}

bool meeting_give(meeting *self, int which, const void *from, size_t size) {
    fazgrond_giver_close(&self->givers[which]);
    return size == 0 || fazgrond_giver_open(&self->givers[which], (uint64_t)which, 0, from, size) == FAZGROND_OK;
}

void meeting_close(meeting *self) {
    fazgrond_taker_close(&self->taker);
    for (int which = 0; which < GIVEN; which++)
        fazgrond_giver_close(&self->givers[which]);
}

/* In the match. */

void meeting_part(const meeting *self, uint32_t frame) {
    for (uint32_t at = 0; at < self->all.machines; at++) {
        cursor made = begin(PARTED);
        put(&made, self->all.me, 1);
        put(&made, frame, 4);
        if (at != self->all.me)
            send_by(self, &self->all.machine[at], &made, self->all.numbers[at]);
    }
}

/* It is sealed by the number of the two machines, as all in a match. */
static void take_parting(meeting *self, cursor *heard) {
    uint32_t from = (uint32_t)take(heard, 1);
    uint32_t frame = (uint32_t)take(heard, 4);
    if (heard->is_short || !self->is_agreed || from >= self->all.machines || from == self->all.me
        || !is_sealed(heard->bytes, heard->length, (seal_key){ .number = self->all.numbers[from] }))
        return;
    self->parted_with = from;
    self->parted_at = frame;
    self->has_parted = true;
}

/* A piece of a state, or an ask for some. */
static void hear_of_states(meeting *self, const address *from, const uint8_t *bytes, size_t length) {
    for (int at = 0; at < LEARNERS && self->is_host; at++)
        if (self->learner[at].nonce != 0 && address_is(&self->learner[at].at, from))
            give(self, &self->learner[at], bytes, length);
    if (!self->is_host && self->is_taking && address_is(&self->host, from))
        take_piece(self, bytes, length);
}

bool meeting_hear(meeting *self, const address *from, const uint8_t *bytes, size_t length) {
    uint8_t sender;
    if (fazgrond_state_sender(bytes, length, &sender) == FAZGROND_OK) {
        hear_of_states(self, from, bytes, length);
        return true;
    }
    cursor heard = { .at = HEAD, .length = length };
    if (length < HEAD || length > sizeof heard.bytes || memcmp(bytes, magic, sizeof magic) != 0)
        return false;
    memcpy(heard.bytes, bytes, length);
    uint64_t kind = take(&heard, 1), version = take(&heard, 1);
    if (kind == PARTED && version == VERSION)
        take_parting(self, &heard);
    if (kind == PARTED || version != VERSION || !is_sealed(bytes, length, (seal_key){ .number = self->key }))
        return true;
    if (kind == RUNS)
        take_runs(self, from, &heard);
    else if (self->is_host && kind == HELLO)
        take_hello(self, from, &heard);
    if (kind == RUNS || self->is_host)
        return true;
    if (self->is_agreed || !address_is(from, &self->host) || take(&heard, 8) != self->nonce)
        return true;
    if (kind == TABLE)
        take_table(self, from, &heard);
    else if (kind == OFFER)
        take_offer(self, &heard);
    else if (kind == REFUSAL) {
        take_text(&heard, self->why, sizeof self->why);
        self->is_refused = true;
    }
    return true;
}

static void start(meeting *self, uint32_t players) {
    self->nonce = net_draw();
    self->players = players;
    self->is_agreed = self->is_refused = self->has_parted = self->is_running = self->is_closed = self->is_out = false;
    self->machines = self->viewers = 0;
    self->is_taking = false;
    memset(self->has_taken, 0, sizeof self->has_taken);
    memset(self->learner, 0, sizeof self->learner);
    memset(&self->all, 0, sizeof self->all);
    memset(self->machine, 0, sizeof self->machine);
    for (int at = 0; at < FAZGROND_PLAYERS; at++)
        self->all.owners[at] = FAZGROND_NO_PLAYER;
}

void meeting_host(meeting *self, uint32_t wanted, uint32_t players, uint32_t threshold) {
    start(self, players);
    self->is_host = true;
    self->wanted = wanted;
    self->all.threshold = threshold;
    self->all.digest = digest_of_all(self);
    self->machine[self->machines] = (guest){ .nonce = self->nonce, .players = players };
    memcpy(self->machine[self->machines++].delays, self->delays, sizeof self->delays);
    if (self->machines == self->wanted)
        agree(self);
}

void meeting_join(meeting *self, const address *host, uint32_t players) {
    start(self, players);
    self->host = *host;
}

void meeting_turn(meeting *self) {
    if (self->is_host || self->is_agreed)
        return;
    send_hello(self);
    if (self->is_taking)
        send_asks(self);
}
