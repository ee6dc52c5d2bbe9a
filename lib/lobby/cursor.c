#include "cursor.h"

#include <string.h>

void faz_cursor_put(cursor *self, const void *bytes, size_t length) {
    self->is_good = self->is_good && length <= self->left;
    if (!self->is_good || length == 0)
        return;
    memcpy(self->at, bytes, length);
    self->at += length;
    self->left -= length;
}

void faz_cursor_get(cursor *self, void *bytes, size_t length) {
    self->is_good = self->is_good && length <= self->left;
    if (!self->is_good)
        memset(bytes, 0, length);
    if (!self->is_good || length == 0)
        return;
    memcpy(bytes, self->at, length);
    self->at += length;
    self->left -= length;
}

void faz_cursor_put_number(cursor *self, uint64_t number, int bytes) {
    uint8_t text[8];
    for (int at = 0; at < bytes; at++)
        text[at] = (uint8_t)(number >> (8 * (bytes - 1 - at)));
    faz_cursor_put(self, text, (size_t)bytes);
}

uint64_t faz_cursor_get_number(cursor *self, int bytes) {
    uint8_t text[8] = { 0 };
    uint64_t number = 0;
    faz_cursor_get(self, text, (size_t)bytes);
    for (int at = 0; at < bytes; at++)
        number = number << 8 | text[at];
    return number;
}

void faz_cursor_put_text(cursor *self, const char *text) {
    faz_cursor_put_number(self, strlen(text), 1);
    faz_cursor_put(self, text, strlen(text));
}

void faz_cursor_get_text(cursor *self, char *text, size_t room) {
    size_t length = faz_cursor_get_number(self, 1);
    self->is_good = self->is_good && length < room;
    memset(text, 0, room);
    faz_cursor_get(self, text, self->is_good ? length : 0);
}
