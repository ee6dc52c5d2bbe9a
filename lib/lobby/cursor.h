/* Bytes that are written or read one after another, for as long as there is room. Numbers have their highest byte first. */
#ifndef FAZ_CURSOR_H
#define FAZ_CURSOR_H

#include <stdbool.h>
#include <stddef.h>
#include <stdint.h>

typedef struct cursor {
    uint8_t *at;
    size_t left;
    bool is_good; /* there was room so far */
} cursor;

void faz_cursor_put(cursor *self, const void *bytes, size_t length);
void faz_cursor_put_number(cursor *self, uint64_t number, int bytes);

/* Where there isn't so much, zeros are read. */
void faz_cursor_get(cursor *self, void *bytes, size_t length);
uint64_t faz_cursor_get_number(cursor *self, int bytes);

/* A text with its length before it, less than `room` bytes. */
void faz_cursor_put_text(cursor *self, const char *text);
void faz_cursor_get_text(cursor *self, char *text, size_t room);
#endif
