#include "faz_message.h"

#include "../sha256.h"

#include <stdio.h>
#include <string.h>

enum { LETTERS = 3, HEAD = 14, KIND = 13, VERSION = 4, SUM = 16, FIRST = 4, HEAD_FIELDS = 20 + 4 * FAZGROND_PLAYERS, HELLO = 61 };

/* The draws of the two ends of a run's line. They are always the same, since a run is read by whoever gets it, whenever. */
enum { HOST_DRAW = 1, VIEWER_DRAW = 2 };

/* What a run is sealed with, and what all else is. */
static seal_key key_of_rows(uint64_t number, uint32_t first) { return (seal_key){ number + first, HOST_DRAW, VIEWER_DRAW }; }

static seal_key key_of(uint64_t number) { return (seal_key){ number, 0, 0 }; }

/* Names. */

bool faz_is_name(const char *name) {
    size_t length = strspn(name, "abcdefghijklmnopqrstuvwxyzABCDEFGHIJKLMNOPQRSTUVWXYZ0123456789-_");
    return length > 0 && length < FAZ_NAME && name[length] == 0;
}

uint64_t faz_number(const char *match) {
    static const char what[] = "a match that is watched: ";
    sha256 made = sha256_begin();
    sha256_add(&made, (const uint8_t *)what, sizeof what - 1);
    sha256_add(&made, (const uint8_t *)match, strlen(match));
    return sha256_end(&made);
}

void faz_subject(char *out, const char *match, faz_kind kind, uint32_t chapter) {
    if (kind == FAZ_HEAD)
        snprintf(out, FAZ_SUBJECT, "faz.%s.head", match);
    else
        snprintf(out, FAZ_SUBJECT, "faz.%s.%s.%u", match, kind == FAZ_SNAP ? "snap" : "rows", (unsigned)chapter);
}

void faz_id(char *out, const char *match, faz_kind kind, uint32_t frame) {
    char letter = kind == FAZ_HEAD ? 'h' : kind == FAZ_SNAP ? 's' : kind == FAZ_SUM ? 'd' : kind == FAZ_END ? 'e' : 'r';
    snprintf(out, FAZ_SUBJECT, "%s.%c%u", match, letter, (unsigned)frame);
}

/* What a packet begins with; the digit behind it is the version of packets. */
static const char MARK[] = "FZG4";

/* A run begins with its first frame, which is less than these letters are as a number. */
faz_kind faz_kind_of(const uint8_t *bytes, size_t length) {
    return length > KIND && memcmp(bytes, MARK, LETTERS) == 0 ? (faz_kind)bytes[KIND] : FAZ_ROWS;
}

/* Numbers: the highest byte first. */

static void put(uint8_t *out, uint64_t number, size_t bytes) {
    for (size_t at = 0; at < bytes; at++)
        out[at] = (uint8_t)(number >> 8 * (bytes - 1 - at));
}

static uint64_t get(const uint8_t *bytes, size_t count) {
    uint64_t number = 0;
    for (size_t at = 0; at < count; at++)
        number = number << 8 | bytes[at];
    return number;
}

static uint32_t get_word(const uint8_t *bytes) { return (uint32_t)get(bytes, 4); }

uint32_t faz_frame_of(const uint8_t *bytes, size_t length) {
    faz_kind kind = faz_kind_of(bytes, length);
    size_t at = kind == FAZ_ROWS ? 0 : HEAD;
    return kind != FAZ_HEAD && length >= at + 4 ? get_word(bytes + at) : 0;
}

/* The first bytes of a packet, without its tag; the sender is 0. */
static void begin(uint8_t *out, faz_kind kind) {
    memcpy(out, MARK, 4);
    memset(out + 4, 0, HEAD - 4);
    out[KIND] = (uint8_t)kind;
}

/* Whether this is a packet of such a kind, with so many bytes behind the first ones at least. It may be of an older version, which the
 * header says. */
static bool is_packet(const uint8_t *bytes, size_t length, faz_kind kind, size_t least, uint64_t number) {
    return length >= HEAD + least && memcmp(bytes, MARK, LETTERS) == 0 && bytes[12] == 0 && bytes[KIND] == kind
        && is_sealed(bytes, length, key_of(number));
}

/* The header: version, players, rate, profile, threshold, run, chapter, size, masks, and the game's name. */

size_t faz_write_head(uint8_t *out, uint64_t number, const faz_head *head) {
    uint8_t *at = out + HEAD;
    size_t name = strlen(head->game);
    begin(out, FAZ_HEAD);
    const uint32_t fields[] = { VERSION, head->players, head->rate, head->profile, head->threshold, FAZ_RUN };
    for (size_t field = 0; field < 6; field++)
        put(at + 2 * field, fields[field], 2);
    put(at + 12, FAZ_CHAPTER, 4);
    put(at + 16, head->size, 4);
    for (size_t player = 0; player < FAZGROND_PLAYERS; player++)
        put(at + 20 + 4 * player, head->masks[player], 4);
    memcpy(at + HEAD_FIELDS, head->game, name);
    seal(out, HEAD + HEAD_FIELDS + name, key_of(number));
    return HEAD + HEAD_FIELDS + name;
}

uint32_t faz_other_version(const uint8_t *bytes, size_t length, uint64_t number) {
    uint32_t version = is_packet(bytes, length, FAZ_HEAD, 2, number) ? (uint32_t)get(bytes + HEAD, 2) : VERSION;
    return version == VERSION ? 0 : version;
}

bool faz_read_head(const uint8_t *bytes, size_t length, uint64_t number, faz_head *head) {
    if (!is_packet(bytes, length, FAZ_HEAD, HEAD_FIELDS + 1, number) || length >= HEAD + HEAD_FIELDS + FAZ_NAME)
        return false;
    const uint8_t *at = bytes + HEAD;
    faz_head read = { .players = (uint32_t)get(at + 2, 2),
                      .rate = (uint32_t)get(at + 4, 2),
                      .profile = (uint32_t)get(at + 6, 2),
                      .threshold = (uint32_t)get(at + 8, 2),
                      .size = get_word(at + 16) };
    for (size_t player = 0; player < FAZGROND_PLAYERS; player++)
        read.masks[player] = get_word(at + 20 + 4 * player);
    memcpy(read.game, at + HEAD_FIELDS, length - HEAD - HEAD_FIELDS);
    if (get(at, 2) != VERSION || get(at + 10, 2) != FAZ_RUN || get_word(at + 12) != FAZ_CHAPTER || read.players == 0
        || read.players > FAZGROND_PLAYERS || read.rate == 0 || read.size > FAZ_MOST_STATE || !faz_is_name(read.game))
        return false;
    *head = read;
    return true;
}

/* Rows: the first frame, and then a play as a host sends it by a viewer's line, on which the run's first frame is frame 0. The
 * line's number is the match's and the first frame, and its ends have draws that everybody knows. To such a line who has left stays
 * away, so where somebody comes back another run begins. */

static size_t put_short(uint8_t *out, uint32_t number) {
    size_t length = 0;
    for (; number >= 128; number >>= 7)
        out[length++] = (uint8_t)(number | 128);
    out[length++] = (uint8_t)number;
    return length;
}

static size_t put_words(uint8_t *out, const uint32_t *words, size_t count) {
    size_t length = 0, at = 0;
    uint32_t before = 0;
    while (at < count) {
        size_t from = at;
        while (at < count && words[at] == before)
            at++;
        out[length++] = (uint8_t)(at - from);
        if (at < count) {
            before = words[at++];
            length += put_short(out + length, before);
        }
    }
    return length;
}

/* In how many of these rows a player has a word: from the first on, until it left. */
static uint32_t words_of(const fazgrond_row *rows, uint32_t count, uint32_t player) {
    uint32_t words = 0;
    while (words < count && (rows[words].gone >> player & 1) == 0)
        words++;
    return words;
}

size_t faz_write_rows(uint8_t *out, uint64_t number, uint32_t first, const fazgrond_row *rows, uint32_t count) {
    uint32_t words[FAZ_RUN * FAZGROND_PLAYERS], told[FAZGROND_PLAYERS], all = 0;
    uint8_t *packet = out + FIRST, mask = 0;
    size_t length = HEAD;
    for (uint32_t player = 0; player < rows[0].count; player++) {
        told[player] = words_of(rows, count, player);
        mask = (uint8_t)(mask | (told[player] > 0) << player);
        for (uint32_t at = 0; at < told[player]; at++)
            words[all++] = rows[at].words[player];
    }
    put(out, first, FIRST);
    begin(packet, FAZ_ROWS);
    packet[length++] = 1; /* a hello came before it */
    packet[length++] = 0; /* no clocks */
    packet[length++] = 0; /* no machine is gone */
    packet[length++] = mask;
    for (uint32_t player = 0; player < rows[0].count; player++)
        if (told[player] > 0)
            length += put_short(packet + length, told[player]);
    packet[length++] = 0; /* no settled state */
    packet[length++] = mask;
    for (uint32_t player = 0; player < rows[0].count; player++)
        if (told[player] > 0) {
            packet[length++] = 0;
            packet[length++] = (uint8_t)told[player];
        }
    packet[length++] = 0; /* no marks */
    length += put_words(packet + length, words, all);
    seal(packet, length, key_of_rows(number, first));
    return FIRST + length;
}

/* The hello of a run's host, which says its draw. It is the same for all runs, so that the reader says it to itself. */
static bool greet(fazgrond_viewer *viewer, const fazgrond_line_settings *line) {
    uint8_t hello[HELLO] = { 0 }, *at = hello + HEAD;
    uint32_t taken;
    begin(hello, 0);
    at[0] = (uint8_t)line->machines;
    at[1] = 1; /* word of an input: all lines say so */
    for (uint32_t player = 0; player < FAZGROND_PLAYERS; player++)
        at[2 + player] = (uint8_t)line->owners[player];
    put(at + 10, line->digest, 8);
    put(at + 18, line->opening, 8);
    put(at + 26, HOST_DRAW, 8);
    put(at + 34, VIEWER_DRAW, 8);
    seal(hello, sizeof hello, key_of(line->number));
    return fazgrond_viewer_receive(viewer, hello, sizeof hello, 0, &taken) == FAZGROND_OK;
}

uint32_t faz_read_rows(const uint8_t *bytes, size_t length, uint64_t number, uint32_t players, uint32_t *first, fazgrond_row *rows) {
    if (length < FIRST + HEAD)
        return 0;
    uint32_t frame = get_word(bytes), count = 0, taken;
    fazgrond_viewer viewer = FAZGROND_CLOSED;
    fazgrond_line_settings line = { .number = number + frame, .draw = VIEWER_DRAW, .machines = 2 };
    const uint32_t room = FAZ_RUN - frame % FAZ_RUN;
    for (uint32_t player = 0; player < FAZGROND_PLAYERS; player++)
        line.owners[player] = player < players ? 0 : FAZGROND_NO_PLAYER;
    if (frame >= FAZ_LAST_FRAME || fazgrond_viewer_open(&viewer, &line) != FAZGROND_OK)
        return 0;
    if (bytes[FIRST + KIND] == FAZ_ROWS && greet(&viewer, &line)
        && fazgrond_viewer_receive(&viewer, bytes + FIRST, length - FIRST, 0, &taken) == FAZGROND_OK && taken <= room)
        while (count < taken && fazgrond_viewer_row(&viewer, &rows[count]) == FAZGROND_OK)
            count++;
    fazgrond_viewer_close(&viewer);
    *first = frame;
    return count;
}

/* A digest, and a snapshot: the same, and the state. */

static void put_sum(uint8_t *out, faz_kind kind, const faz_sum *sum) {
    begin(out, kind);
    put(out + HEAD, sum->frame, 4);
    put(out + HEAD + 4, sum->gap, 4);
    put(out + HEAD + 8, sum->digest, 8);
}

static bool get_sum(const uint8_t *bytes, faz_sum *sum) {
    *sum = (faz_sum){ .frame = get_word(bytes + HEAD), .gap = get_word(bytes + HEAD + 4), .digest = get(bytes + HEAD + 8, 8) };
    return sum->frame % FAZ_CHAPTER == 0 && sum->frame <= FAZ_LAST_FRAME && sum->gap <= sum->frame;
}

size_t faz_write_sum(uint8_t *out, uint64_t number, const faz_sum *sum) {
    put_sum(out, FAZ_SUM, sum);
    seal(out, HEAD + SUM, key_of(number));
    return HEAD + SUM;
}

bool faz_read_sum(const uint8_t *bytes, size_t length, uint64_t number, faz_sum *sum) {
    return length == HEAD + SUM && is_packet(bytes, length, FAZ_SUM, SUM, number) && get_sum(bytes, sum);
}

size_t faz_write_snap(uint8_t *out, uint64_t number, const faz_sum *sum, const void *state, size_t size) {
    put_sum(out, FAZ_SNAP, sum);
    memcpy(out + HEAD + SUM, state, size);
    seal(out, HEAD + SUM + size, key_of(number));
    return HEAD + SUM + size;
}

bool faz_read_snap(const uint8_t *bytes, size_t length, uint64_t number, const faz_game *game, uint32_t players, faz_sum *sum,
                   void *state) {
    if (length != HEAD + SUM + game->size || !is_packet(bytes, length, FAZ_SNAP, SUM, number) || !get_sum(bytes, sum))
        return false;
    memcpy(state, bytes + HEAD + SUM, game->size);
    return game->is_state(state, players) && game->digest(state) == sum->digest;
}

/* The end: how many frames there are, and why there are no more. */

size_t faz_write_end(uint8_t *out, uint64_t number, uint32_t frames, const char *reason) {
    size_t length = strlen(reason) < FAZ_REASON ? strlen(reason) : FAZ_REASON - 1;
    begin(out, FAZ_END);
    put(out + HEAD, frames, 4);
    memcpy(out + HEAD + 4, reason, length);
    seal(out, HEAD + 4 + length, key_of(number));
    return HEAD + 4 + length;
}

bool faz_read_end(const uint8_t *bytes, size_t length, uint64_t number, uint32_t *frames, char *reason) {
    if (!is_packet(bytes, length, FAZ_END, 4, number) || length >= HEAD + 4 + FAZ_REASON || get_word(bytes + HEAD) > FAZ_LAST_FRAME)
        return false;
    *frames = get_word(bytes + HEAD);
    memset(reason, 0, FAZ_REASON);
    for (size_t at = 0; at < length - HEAD - 4; at++)
        reason[at] = bytes[HEAD + 4 + at] < ' ' || bytes[HEAD + 4 + at] > '~' ? '?' : (char)bytes[HEAD + 4 + at];
    return true;
}
