#include "door.h"

#include "cursor.h"

#include <sodium.h>
#include <string.h>

size_t faz_door_request_write(const door_request *self, uint8_t out[DOOR_MESSAGE]) {
    cursor to = { out, DOOR_MESSAGE, true };
    faz_cursor_put_number(&to, DOOR_VERSION, 1);
    faz_cursor_put_number(&to, self->kind, 1);
    faz_cursor_put(&to, self->open, KEY);
    faz_cursor_put_text(&to, self->plate);
    faz_cursor_put(&to, self->token, DOOR_TOKEN);
    return (size_t)(to.at - out);
}

bool faz_door_request_read(door_request *self, const uint8_t *bytes, size_t length) {
    uint8_t copy[DOOR_MESSAGE];
    if (length > sizeof copy)
        return false;
    memcpy(copy, bytes, length);
    cursor from = { copy, length, true };
    bool is_ours = faz_cursor_get_number(&from, 1) == DOOR_VERSION;
    self->kind = (door_kind)faz_cursor_get_number(&from, 1);
    faz_cursor_get(&from, self->open, KEY);
    faz_cursor_get_text(&from, self->plate, sizeof self->plate);
    faz_cursor_get(&from, self->token, DOOR_TOKEN);
    return from.is_good && is_ours && (self->kind == DOOR_HOSTS || self->kind == DOOR_JOINS || self->kind == DOOR_RELAYS);
}

static void put_servers(cursor *to, const door_answer *self) {
    faz_cursor_put_text(to, self->stun);
    faz_cursor_put_number(to, self->stun_port, 2);
    faz_cursor_put_number(to, self->relays, 1);
    for (uint32_t at = 0; at < self->relays && at < FAZ_LINE_RELAYS; at++) {
        faz_cursor_put_number(to, self->relay[at].by_tcp, 1);
        faz_cursor_put_number(to, self->relay[at].port, 2);
        faz_cursor_put_text(to, self->relay[at].address);
    }
    faz_cursor_put_text(to, self->user);
    faz_cursor_put_text(to, self->password);
    faz_cursor_put_number(to, self->seconds, 4);
}

static void get_servers(cursor *from, door_answer *self) {
    faz_cursor_get_text(from, self->stun, sizeof self->stun);
    self->stun_port = (uint16_t)faz_cursor_get_number(from, 2);
    self->relays = (uint32_t)faz_cursor_get_number(from, 1);
    from->is_good = from->is_good && self->relays <= FAZ_LINE_RELAYS;
    for (uint32_t at = 0; from->is_good && at < self->relays; at++) {
        self->relay[at].by_tcp = faz_cursor_get_number(from, 1) != 0;
        self->relay[at].port = (uint16_t)faz_cursor_get_number(from, 2);
        faz_cursor_get_text(from, self->relay[at].address, sizeof self->relay[at].address);
    }
    faz_cursor_get_text(from, self->user, sizeof self->user);
    faz_cursor_get_text(from, self->password, sizeof self->password);
    self->seconds = (uint32_t)faz_cursor_get_number(from, 4);
}

size_t faz_door_answer_write(const door_answer *self, const uint8_t open[KEY], uint8_t out[DOOR_MESSAGE]) {
    uint8_t inside[DOOR_MESSAGE - 1 - crypto_box_SEALBYTES];
    cursor to = { inside, sizeof inside, true };
    faz_cursor_put_number(&to, DOOR_VERSION, 1);
    faz_cursor_put_number(&to, self->status, 1);
    faz_cursor_put_text(&to, self->plate);
    faz_cursor_put(&to, self->token, DOOR_TOKEN);
    put_servers(&to, self);
    size_t length = (size_t)(to.at - inside);
    out[0] = DOOR_ANSWER;
    return to.is_good && crypto_box_seal(out + 1, inside, length, open) == 0 ? 1 + length + crypto_box_SEALBYTES : 0;
}

bool faz_door_answer_read(door_answer *self, const uint8_t open[KEY], const uint8_t secret[KEY], const uint8_t *bytes, size_t length) {
    uint8_t inside[DOOR_MESSAGE];
    bool is_good = length > 1 + crypto_box_SEALBYTES && length <= DOOR_MESSAGE && bytes[0] == DOOR_ANSWER
        && crypto_box_seal_open(inside, bytes + 1, length - 1, open, secret) == 0;
    cursor from = { inside, is_good ? length - 1 - crypto_box_SEALBYTES : 0, is_good };
    memset(self, 0, sizeof *self);
    bool is_ours = faz_cursor_get_number(&from, 1) == DOOR_VERSION;
    self->status = (door_status)faz_cursor_get_number(&from, 1);
    faz_cursor_get_text(&from, self->plate, sizeof self->plate);
    faz_cursor_get(&from, self->token, DOOR_TOKEN);
    get_servers(&from, self);
    return from.is_good && is_ours && self->status <= DOOR_FULL;
}
