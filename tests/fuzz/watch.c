/* A fuzzer of what a viewer reads of a broker: messages of a match that are made up, changed, or cut. Half of them are sealed with
 * the match's number, so that they are read. The input says all that happens.
 *
 * Whatever came, a row that was there stays as it was, no frame has a row of other players, and a state that was taken can be
 * stepped. */
#include "../../programs/duel/duel_game.h"
#include "../../lib/watch/timeline.h"
#include "../../lib/sha256.h"

#define CHECKS_LEAVE abort()
#include "../check.h"

#include <stdlib.h>
#include <string.h>

enum { PLAYERS = 2, FRAMES = 120, FIRST = 4 };

static const faz_head head = { .players = PLAYERS, .rate = 60, .threshold = 8, .size = sizeof(duel), .game = "duel" };

typedef struct input {
    const uint8_t *bytes;
    size_t left;
} input;

static uint32_t take_byte(input *in) { return in->left > 0 ? in->left--, *in->bytes++ : 0; }

/* A good message, to be changed perhaps. */
static size_t make(input *in, uint8_t *bytes, uint64_t number) {
    uint32_t what = take_byte(in), frame = take_byte(in) % FRAMES, count = 1 + take_byte(in) % (FAZ_RUN - frame % FAZ_RUN);
    fazgrond_row rows[FAZ_RUN] = { 0 };
    duel state;
    for (uint32_t at = 0; at < count; at++)
        rows[at] = (fazgrond_row){ .count = PLAYERS, .gone = at > what / 16u ? 2 : 0, .words = { take_byte(in), take_byte(in) } };
    duel_open(&state, PLAYERS);
    state.ship[0].hits = what % 3;
    faz_sum sum = { what / 8 % 4 * FAZ_CHAPTER, what / 8 % 4 * frame, duel_checksum(&state) };
    switch (what % 8) {
    case 0: return faz_write_head(bytes, number, &head);
    case 1: return faz_write_sum(bytes, number, &sum);
    case 2: return faz_write_snap(bytes, number, &sum, &state, sizeof state);
    case 3: return faz_write_end(bytes, number, frame, "over");
    default: return faz_write_rows(bytes, number, frame, rows, count);
    }
}

/* Changes some bytes, or the length; and seals it anew, half of the time. */
static size_t change(input *in, uint8_t *bytes, size_t length, uint64_t number) {
    uint32_t how = take_byte(in);
    for (uint32_t count = how % 4; count > 0; count--) {
        size_t place = (take_byte(in) * 256 + take_byte(in)) % length;
        bytes[place] = (uint8_t)take_byte(in);
    }
    if ((how & 24) == 24)
        length = length * take_byte(in) / 255;
    bool is_rows = faz_kind_of(bytes, length) == FAZ_ROWS;
    uint32_t first = is_rows && length > FIRST ? (uint32_t)bytes[0] << 24 | bytes[1] << 16 | bytes[2] << 8 | bytes[3] : 0;
    seal_key key = { number + first, is_rows ? 1 : 0, is_rows ? 2 : 0 };
    if ((how & 32) != 0 && length >= FIRST + 12)
        seal(bytes + (is_rows ? FIRST : 0), length - (is_rows ? FIRST : 0), key);
    return length;
}

static void hear(faz_timeline *timeline, const uint8_t *bytes, size_t length) {
    static fazgrond_row before[FRAMES];
    static bool was_there[FRAMES];
    duel state;
    for (uint32_t frame = 0; frame < FRAMES; frame++) {
        const fazgrond_row *row = faz_timeline_row(timeline, frame);
        was_there[frame] = row != NULL;
        if (row != NULL)
            before[frame] = *row;
    }
    uint8_t *just = malloc(length > 0 ? length : 1); /* so that a sanitizer sees who reads past it */
    MUST(just != NULL);
    memcpy(just, bytes, length);
    faz_taken taken = faz_timeline_take(timeline, just, length, &state);
    if (faz_kind_of(just, length) == FAZ_SNAP && (taken == FAZ_NEW || taken == FAZ_REPEATED))
        duel_step(&state, (uint32_t[PLAYERS]){ 15, 15 });
    free(just);
    for (uint32_t frame = 0; frame < FRAMES; frame++) {
        const fazgrond_row *row = faz_timeline_row(timeline, frame);
        MUST(!was_there[frame] || (row != NULL && memcmp(row, &before[frame], sizeof *row) == 0));
        MUST(row == NULL || row->count == PLAYERS);
    }
}

int LLVMFuzzerTestOneInput(const uint8_t *data, size_t size) {
    input in = { data, size };
    uint64_t number = faz_number("cup");
    uint8_t bytes[FAZ_SMALL + sizeof(duel)];
    faz_timeline *timeline = faz_timeline_open(&duel_game, "cup");
    MUST(timeline != NULL);
    if (take_byte(&in) % 8 != 0)
        hear(timeline, bytes, faz_write_head(bytes, number, &head));
    while (in.left > 0)
        hear(timeline, bytes, change(&in, bytes, make(&in, bytes, number), number));
    faz_timeline_close(timeline);
    return 0;
}
