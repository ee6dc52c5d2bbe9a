/* How an epoch began, as bytes, and what both ends of a line make of it. */
#include "faz_rejoin.h"

#include <string.h>

enum { VERSION = 1, LINE_MACHINES = FAZGROND_MACHINES, SILENT_AFTER = 1000 };

static uint8_t *put(uint8_t *at, uint64_t number, size_t size) {
    for (size_t place = size; place > 0; place--)
        *at++ = (uint8_t)(number >> (8 * (place - 1)));
    return at;
}

static uint64_t take(const uint8_t **at, size_t size) {
    uint64_t number = 0;
    for (size_t place = 0; place < size; place++)
        number = number << 8 | *(*at)++;
    return number;
}

void faz_table_write(const faz_table *table, uint8_t out[FAZ_TABLE_BYTES]) {
    const fazgrond_epoch *epoch = &table->epoch;
    uint8_t *at = put(out, VERSION, 1);
    at = put(at, epoch->words, 1);
    at = put(at, epoch->threshold, 1);
    at = put(at, table->came, 1);
    at = put(at, epoch->id, 8);
    at = put(at, epoch->base, 8);
    for (int player = 0; player < FAZGROND_PLAYERS; player++)
        at = put(at, epoch->owners[player], 1);
    for (int player = 0; player < FAZGROND_PLAYERS; player++)
        at = put(at, epoch->delays[player], 1);
    at = put(at, table->state.length, 4);
    memcpy(at, table->state.digest, FAZGROND_DIGEST_BYTES);
}

bool faz_table_read(const uint8_t *bytes, size_t length, faz_table *table) {
    const uint8_t *at = bytes;
    if (length != FAZ_TABLE_BYTES || take(&at, 1) != VERSION)
        return false;
    memset(table, 0, sizeof *table);
    fazgrond_epoch *epoch = &table->epoch;
    epoch->size = sizeof *epoch;
    epoch->words = (uint32_t)take(&at, 1);
    epoch->threshold = (uint32_t)take(&at, 1);
    table->came = (uint32_t)take(&at, 1);
    epoch->id = take(&at, 8);
    epoch->base = take(&at, 8);
    for (int player = 0; player < FAZGROND_PLAYERS; player++)
        epoch->owners[player] = (uint32_t)take(&at, 1);
    for (int player = 0; player < FAZGROND_PLAYERS; player++)
        epoch->delays[player] = (uint32_t)take(&at, 1);
    table->state.which = epoch->id;
    table->state.length = (uint32_t)take(&at, 4);
    memcpy(table->state.digest, at, FAZGROND_DIGEST_BYTES);
    return true;
}

uint64_t faz_draw(uint64_t *random) {
    fazgrond_state_name name;
    memset(&name, 0, sizeof name);
    *random += 1;
    return fazgrond_state_digest(&name, *random) | 1;
}

fazgrond_line_settings faz_line_in(const fazgrond_epoch *epoch, uint64_t number, uint64_t digest, uint64_t draw) {
    fazgrond_state_name name;
    fazgrond_line_settings settings;
    memset(&name, 0, sizeof name);
    memset(&settings, 0, sizeof settings);
    name.which = epoch->id;
    settings.number = fazgrond_state_digest(&name, number);
    settings.draw = draw;
    settings.digest = digest;
    settings.machines = LINE_MACHINES;
    settings.silent_after = SILENT_AFTER;
    /* A player whom nobody owns has words in the rows all the same. */
    for (int player = 0; player < FAZGROND_PLAYERS; player++)
        settings.owners[player] = epoch->owners[player] == FAZGROND_NOBODY ? 0 : epoch->owners[player];
    return settings;
}
