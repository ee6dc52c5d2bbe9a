#include "messages.h"

#include "cursor.h"

#include <glib.h>
#include <sodium.h>
#include <stdio.h>
#include <string.h>

static void get_name(cursor *self, char name[FAZ_LOBBY_NAME_ROOM]) {
    char text[FAZ_LOBBY_NAME_ROOM];
    faz_cursor_get_text(self, text, sizeof text);
    faz_name_clean(name, text);
}

void faz_name_clean(char out[FAZ_LOBBY_NAME_ROOM], const char *name) {
    size_t length = 0;
    while (*name != 0 && length + 1 < FAZ_LOBBY_NAME_ROOM) {
        gunichar letter = g_utf8_get_char_validated(name, -1);
        bool is_letter = letter < 0x110000 && g_unichar_isprint(letter);
        size_t size = is_letter ? (size_t)g_unichar_to_utf8(letter, NULL) : 1;
        if (length + size >= FAZ_LOBBY_NAME_ROOM)
            break;
        memcpy(out + length, is_letter ? name : "?", size);
        length += size;
        name += size;
    }
    out[length] = 0;
}

/* ---- subjects */

static const char ROOMS[] = "faz.meet.", INBOXES[] = "faz.in.";

void faz_inbox_subject(const uint8_t inbox[INBOX], char out[BROKER_SUBJECT]) {
    char key[NKEY_TEXT];
    faz_nkey_write(NKEY_USER, inbox, key);
    snprintf(out, BROKER_SUBJECT, "%s%s", INBOXES, key);
}

void faz_room_subject(const room *self, char out[BROKER_SUBJECT]) { snprintf(out, BROKER_SUBJECT, "%s%s", ROOMS, self->name); }

/* What is behind the front of all inboxes; null if that isn't there. */
static const char *inbox_name(const char *subject) {
    return strncmp(subject, INBOXES, strlen(INBOXES)) == 0 ? subject + strlen(INBOXES) : NULL;
}

bool faz_inbox_read(const char *subject, uint8_t inbox[INBOX]) {
    const char *name = inbox_name(subject);
    return name != NULL && faz_nkey_read(NKEY_USER, name, strlen(name), inbox);
}

bool faz_inbox_is_older(const char *subject) {
    const char *name = inbox_name(subject);
    return name != NULL && strlen(name) == 32 && strspn(name, "0123456789abcdef") == 32;
}

/* ---- what gets a key by a short code */

size_t faz_knock_write(const knock *self, message_kind kind, uint8_t out[BROKER_MESSAGE]) {
    cursor to = { out, BROKER_MESSAGE - 1, true };
    faz_cursor_put_number(&to, kind, 1);
    faz_cursor_put(&to, self->id, KNOCK_ID);
    faz_cursor_put_number(&to, self->step, 1);
    faz_cursor_put_number(&to, self->is_wrong, 1);
    faz_cursor_put_number(&to, self->length, 2);
    faz_cursor_put(&to, self->bytes, self->length);
    return (size_t)(to.at - out);
}

bool faz_knock_read(knock *self, message_kind kind, const uint8_t *bytes, size_t length, size_t *more) {
    uint8_t copy[BROKER_MESSAGE];
    if (length == 0 || length > sizeof copy || bytes[0] != (uint8_t)kind)
        return false;
    memcpy(copy, bytes + 1, length - 1);
    cursor from = { copy, length - 1, true };
    faz_cursor_get(&from, self->id, KNOCK_ID);
    self->step = (uint8_t)faz_cursor_get_number(&from, 1);
    self->is_wrong = faz_cursor_get_number(&from, 1) != 0;
    self->length = faz_cursor_get_number(&from, 2);
    from.is_good = from.is_good && self->length < PAKE_BYTES;
    faz_cursor_get(&from, self->bytes, from.is_good ? self->length : 0);
    *more = from.left;
    return from.is_good;
}

/* ---- what all who have the code can read */

static size_t seal_for_all(const room *in, uint8_t out[BROKER_MESSAGE], message_kind kind, const uint8_t *inside, const cursor *end) {
    size_t length = (size_t)(end->at - inside);
    out[0] = (uint8_t)kind;
    faz_room_seal(in, out + 1, (uint8_t)kind, inside, length);
    return 1 + length + SEAL;
}

/* Opens a message into `inside`, which has room for it. */
static cursor open_for_all(const room *in, uint8_t *inside, message_kind kind, const uint8_t *bytes, size_t length) {
    bool is_good = length > SEAL && length < BROKER_MESSAGE && bytes[0] == (uint8_t)kind
        && faz_room_open(in, inside, (uint8_t)kind, bytes + 1, length - 1);
    return (cursor){ inside, is_good ? length - 1 - SEAL : 0, is_good };
}

size_t faz_hello_write(const hello *self, const room *in, uint8_t out[BROKER_MESSAGE]) {
    uint8_t inside[BROKER_MESSAGE];
    cursor to = { inside, sizeof inside - SEAL - 2, true };
    faz_cursor_put_number(&to, self->version, 1);
    faz_cursor_put(&to, self->open, KEY);
    return seal_for_all(in, out, HELLO, inside, &to);
}

bool faz_hello_read(hello *self, const room *in, const uint8_t *bytes, size_t length) {
    uint8_t inside[BROKER_MESSAGE];
    cursor from = open_for_all(in, inside, HELLO, bytes, length);
    self->version = (uint8_t)faz_cursor_get_number(&from, 1);
    bool is_other = from.is_good && self->version != LOBBY_VERSION;
    faz_cursor_get(&from, self->open, KEY);
    return is_other || from.is_good;
}

size_t faz_offer_write(const offer *self, const room *in, uint8_t out[BROKER_MESSAGE]) {
    uint8_t inside[BROKER_MESSAGE];
    cursor to = { inside, sizeof inside - SEAL - 2, true };
    faz_cursor_put_number(&to, self->version, 1);
    faz_cursor_put(&to, self->host, KEY);
    faz_cursor_put(&to, self->speaks, KEY);
    faz_cursor_put(&to, self->proof, PROOF);
    faz_cursor_put(&to, self->inbox, INBOX);
    return seal_for_all(in, out, OFFER, inside, &to);
}

bool faz_offer_read(offer *self, const room *in, const uint8_t *bytes, size_t length) {
    uint8_t inside[BROKER_MESSAGE];
    cursor from = open_for_all(in, inside, OFFER, bytes, length);
    self->version = (uint8_t)faz_cursor_get_number(&from, 1);
    bool is_other = from.is_good && self->version != LOBBY_VERSION;
    faz_cursor_get(&from, self->host, KEY);
    faz_cursor_get(&from, self->speaks, KEY);
    faz_cursor_get(&from, self->proof, PROOF);
    faz_cursor_get(&from, self->inbox, INBOX);
    return is_other || from.is_good;
}

/* ---- what one asks, and is answered */

size_t faz_ask_write(const ask *self, const room *in, const pair *between, uint8_t out[BROKER_MESSAGE]) {
    uint8_t inner[BROKER_MESSAGE], inside[BROKER_MESSAGE];
    cursor to = { inner, sizeof inner - 2 * SEAL - KEY - 2, true }, all = { inside, sizeof inside - SEAL - 2, true };
    faz_cursor_put_number(&to, self->counter, 4);
    faz_cursor_put_number(&to, self->leaves, 1);
    faz_cursor_put_number(&to, self->digest, 8);
    faz_cursor_put_number(&to, self->here, 1);
    faz_cursor_put_text(&to, self->name);
    size_t length = (size_t)(to.at - inner);
    faz_cursor_put(&all, self->open, KEY);
    faz_pair_seal(between, all.at, ASK, inner, length);
    all.at += length + SEAL;
    return seal_for_all(in, out, ASK, inside, &all);
}

bool faz_ask_open(uint8_t open[KEY], const room *in, const uint8_t *bytes, size_t length) {
    uint8_t inside[BROKER_MESSAGE];
    cursor from = open_for_all(in, inside, ASK, bytes, length);
    faz_cursor_get(&from, open, KEY);
    return from.is_good;
}

bool faz_ask_read(ask *self, const room *in, const pair *between, const uint8_t *bytes, size_t length) {
    uint8_t inside[BROKER_MESSAGE], inner[BROKER_MESSAGE];
    cursor all = open_for_all(in, inside, ASK, bytes, length);
    faz_cursor_get(&all, self->open, KEY);
    bool is_good = all.is_good && all.left >= SEAL && faz_pair_open(between, inner, ASK, all.at, all.left);
    cursor from = { inner, is_good ? all.left - SEAL : 0, is_good };
    self->counter = (uint32_t)faz_cursor_get_number(&from, 4);
    self->leaves = faz_cursor_get_number(&from, 1) != 0;
    self->digest = faz_cursor_get_number(&from, 8);
    self->here = (uint32_t)faz_cursor_get_number(&from, 1);
    get_name(&from, self->name);
    return from.is_good && self->here >= 1 && self->here <= FAZGROND_PLAYERS;
}

static void put_member(cursor *to, const member *self) {
    faz_cursor_put(to, self->open, KEY);
    faz_cursor_put(to, self->inbox, INBOX);
    faz_cursor_put_text(to, self->name);
}

static void get_member(cursor *from, member *self) {
    memset(self, 0, sizeof *self);
    faz_cursor_get(from, self->open, KEY);
    faz_cursor_get(from, self->inbox, INBOX);
    get_name(from, self->name);
    self->is_vacant = sodium_is_zero(self->open, KEY);
}

static void put_table(cursor *to, const table *self) {
    faz_cursor_put_number(to, self->me, 1);
    faz_cursor_put_number(to, self->machines, 1);
    faz_cursor_put_number(to, self->players, 1);
    for (int at = 0; at < FAZGROND_PLAYERS; at++)
        faz_cursor_put_number(to, self->owners[at], 1);
    faz_cursor_put_number(to, self->number, 8);
    faz_cursor_put(to, self->key, KEY);
    faz_cursor_put_number(to, (uint64_t)self->lasts | (uint64_t)self->asks << 1 | (uint64_t)self->is_late << 2, 1);
    faz_cursor_put(to, self->code, CODE_BYTES);
    faz_cursor_put(to, self->host, KEY);
    faz_cursor_put(to, self->proof, PROOF);
    for (uint32_t at = 0; at < self->machines; at++)
        put_member(to, &self->member[at]);
    faz_cursor_put_number(to, self->common_length, 2);
    faz_cursor_put(to, self->common, self->common_length);
}

/* Whether each player has a machine, and no other place has one. */
static bool has_owners(const table *self) {
    bool is_good = self->machines >= 2 && self->machines <= FAZGROND_MACHINES && self->me < self->machines && self->players >= 2
        && self->players <= FAZGROND_PLAYERS;
    for (uint32_t at = 0; at < FAZGROND_PLAYERS; at++)
        is_good = is_good && (at < self->players ? self->owners[at] < self->machines : self->owners[at] == FAZGROND_NO_PLAYER);
    return is_good;
}

/* Whether no two machines have one key: their lines would be sealed alike. */
static bool has_own_keys(const table *self) {
    for (uint32_t at = 1; at < self->machines; at++)
        for (uint32_t before = 0; before < at && !self->member[at].is_vacant; before++)
            if (memcmp(self->member[at].open, self->member[before].open, KEY) == 0)
                return false;
    return true;
}

static void get_table(cursor *from, table *self) {
    memset(self, 0, sizeof *self);
    self->me = (uint32_t)faz_cursor_get_number(from, 1);
    self->machines = (uint32_t)faz_cursor_get_number(from, 1);
    self->players = (uint32_t)faz_cursor_get_number(from, 1);
    for (int at = 0; at < FAZGROND_PLAYERS; at++)
        self->owners[at] = (uint32_t)faz_cursor_get_number(from, 1);
    self->number = faz_cursor_get_number(from, 8);
    faz_cursor_get(from, self->key, KEY);
    uint64_t flags = faz_cursor_get_number(from, 1);
    self->lasts = (flags & 1) != 0;
    self->asks = (flags & 2) != 0;
    self->is_late = (flags & 4) != 0;
    faz_cursor_get(from, self->code, CODE_BYTES);
    faz_cursor_get(from, self->host, KEY);
    faz_cursor_get(from, self->proof, PROOF);
    from->is_good = from->is_good && has_owners(self);
    for (uint32_t at = 0; at < self->machines && from->is_good; at++) {
        get_member(from, &self->member[at]);
        from->is_good = from->is_good && (self->lasts || !self->member[at].is_vacant);
    }
    from->is_good = from->is_good && has_own_keys(self);
    self->common_length = faz_cursor_get_number(from, 2);
    from->is_good = from->is_good && self->common_length <= FAZ_LOBBY_COMMON;
    faz_cursor_get(from, self->common, from->is_good ? self->common_length : 0);
}

size_t faz_answer_write(const answer *self, const pair *between, uint8_t out[BROKER_MESSAGE]) {
    uint8_t inside[BROKER_MESSAGE];
    cursor to = { inside, sizeof inside - SEAL - 2, true };
    faz_cursor_put_number(&to, self->counter, 4);
    faz_cursor_put_number(&to, self->what, 1);
    faz_cursor_put_number(&to, self->why, 1);
    faz_cursor_put_text(&to, self->name);
    if (self->what == BEGINS)
        put_table(&to, &self->table);
    size_t length = (size_t)(to.at - inside);
    out[0] = ANSWER;
    faz_pair_seal(between, out + 1, ANSWER, inside, length);
    return 1 + length + SEAL;
}

bool faz_answer_read(answer *self, const pair *between, const uint8_t *bytes, size_t length) {
    uint8_t inside[BROKER_MESSAGE];
    bool is_good = length > SEAL && length < BROKER_MESSAGE && bytes[0] == ANSWER
        && faz_pair_open(between, inside, ANSWER, bytes + 1, length - 1);
    cursor from = { inside, is_good ? length - 1 - SEAL : 0, is_good };
    self->counter = (uint32_t)faz_cursor_get_number(&from, 4);
    self->what = (answer_what)faz_cursor_get_number(&from, 1);
    self->why = (faz_lobby_why)faz_cursor_get_number(&from, 1);
    get_name(&from, self->name);
    if (from.is_good && self->what == BEGINS)
        get_table(&from, &self->table);
    return from.is_good && self->what <= REFUSED;
}

/* ---- news of who comes */

size_t faz_news_write(uint32_t from, const news *self, const pair *between, uint8_t out[BROKER_MESSAGE]) {
    uint8_t inside[BROKER_MESSAGE];
    cursor to = { inside, sizeof inside - SEAL - SIGNAL_HEAD - 1, true };
    faz_cursor_put_number(&to, self->counter, 4);
    faz_cursor_put_number(&to, self->place, 1);
    put_member(&to, &self->who);
    size_t length = (size_t)(to.at - inside);
    out[0] = NEWS;
    out[1] = (uint8_t)from;
    faz_pair_seal(between, out + SIGNAL_HEAD, NEWS, inside, length);
    return SIGNAL_HEAD + length + SEAL;
}

bool faz_news_read(news *self, const pair *between, const uint8_t *bytes, size_t length) {
    uint8_t inside[BROKER_MESSAGE];
    bool is_good = length >= SIGNAL_HEAD + SEAL && length < BROKER_MESSAGE && bytes[0] == NEWS
        && faz_pair_open(between, inside, NEWS, bytes + SIGNAL_HEAD, length - SIGNAL_HEAD);
    cursor from = { inside, is_good ? length - SIGNAL_HEAD - SEAL : 0, is_good };
    self->counter = (uint32_t)faz_cursor_get_number(&from, 4);
    self->place = (uint32_t)faz_cursor_get_number(&from, 1);
    get_member(&from, &self->who);
    return from.is_good && !self->who.is_vacant;
}

/* ---- signals of lines */

size_t faz_signal_write(uint32_t from, const uint8_t *bytes, size_t length, const pair *between, uint8_t out[BROKER_MESSAGE]) {
    out[0] = SIGNAL;
    out[1] = (uint8_t)from;
    faz_pair_seal(between, out + SIGNAL_HEAD, SIGNAL, bytes, length);
    return SIGNAL_HEAD + length + SEAL;
}

bool faz_signal_read(uint8_t *out, size_t *size, const pair *between, const uint8_t *bytes, size_t length) {
    if (length < SIGNAL_HEAD + SEAL || length >= BROKER_MESSAGE || bytes[0] != SIGNAL)
        return false;
    *size = length - SIGNAL_HEAD - SEAL;
    return faz_pair_open(between, out, SIGNAL, bytes + SIGNAL_HEAD, length - SIGNAL_HEAD);
}
