#include "packets.h"

#include <string.h>

/* ---- Writing. */

typedef struct writer {
    uint8_t *at;
    size_t length;
} writer;

static void put(writer *out, uint32_t byte) {
    if (out->length < FAZGROND_DATAGRAM)
        out->at[out->length++] = (uint8_t)byte;
}

static void put_fixed(writer *out, uint64_t number, int bytes) {
    while (bytes-- > 0)
        put(out, (uint32_t)(number >> 8 * bytes) & 255);
}

static void put_short(writer *out, uint32_t number) {
    for (; number >= 128; number >>= 7)
        put(out, (number & 127) | 128);
    put(out, number);
}

static void put_words(writer *out, const uint32_t *words, uint32_t count) {
    uint32_t at = 0, before = 0;
    while (at < count) {
        uint32_t from = at;
        while (at < count && words[at] == before)
            at++;
        put(out, at - from);
        if (at < count) {
            before = words[at++];
            put_short(out, before);
        }
    }
}

static void put_hello(writer *out, const packet *made) {
    put(out, made->machines);
    put(out, made->input_words);
    for (int at = 0; at < 8; at++)
        put(out, made->owners[at]);
    put_fixed(out, made->digest, 8);
    put_fixed(out, made->opening, 8);
    put_fixed(out, made->draw, 8);
    put_fixed(out, made->echo, 8);
    put_fixed(out, made->patience, 4);
    put(out, made->abilities);
}

static void put_clocks(writer *out, const packet_clocks *clocks) {
    put_short(out, clocks->frame);
    put_short(out, clocks->heard_frame);
    put_short(out, clocks->clock);
    put_short(out, clocks->heard_clock);
    put_short(out, clocks->held);
}

static void put_play(writer *out, const packet *made) {
    put_short(out, made->number);
    put(out, made->has_clocks);
    if (made->has_clocks)
        put_clocks(out, &made->clocks);
    put(out, made->gone);
    put(out, made->counted);
    for (int at = 0; at < 8; at++)
        if (made->counted >> at & 1)
            put_short(out, made->counts[at]);
    put(out, made->has_settled);
    if (made->has_settled) {
        put_short(out, made->settled);
        put_fixed(out, made->settled_digest, 8);
    }
    put(out, made->offered);
    for (int at = 0; at < 8; at++)
        if (made->offered >> at & 1) {
            put_short(out, made->first[at]);
            put(out, made->count[at]);
        }
    put(out, made->marks);
    put_words(out, made->words, made->word_count);
}

size_t packet_write(const packet *made, uint8_t *out) {
    writer to = { out, 0 };
    put_fixed(&to, 0x465a4734, 4);
    put_fixed(&to, 0, 8);
    put(&to, made->sender);
    put(&to, made->kind);
    if (made->kind == HELLO)
        put_hello(&to, made);
    else if (made->kind == BYE)
        put(&to, made->why);
    else
        put_play(&to, made);
    return to.length;
}

/* ---- Reading. */

typedef struct reader {
    const uint8_t *at;
    size_t left;
    bool is_bad;
} reader;

static uint32_t take(reader *in) {
    if (in->left == 0) {
        in->is_bad = true;
        return 0;
    }
    in->left--;
    return *in->at++;
}

static uint64_t take_fixed(reader *in, int bytes) {
    uint64_t number = 0;
    while (bytes-- > 0)
        number = number << 8 | take(in);
    return number;
}

static uint32_t take_short(reader *in) {
    uint32_t number = 0, byte = 128;
    for (int at = 0; at < 5 && byte >= 128; at++) {
        byte = take(in);
        number |= (byte & 127) << 7 * at;
    }
    in->is_bad |= byte >= 128;
    return number;
}

static void take_words(reader *in, uint32_t *words, uint32_t count) {
    uint32_t at = 0, before = 0;
    while (at < count && !in->is_bad) {
        for (uint32_t run = take(in); run > 0 && at < count; run--)
            words[at++] = before;
        if (at < count)
            words[at++] = before = take_short(in);
    }
}

static void take_hello(reader *in, packet *read) {
    read->machines = (uint8_t)take(in);
    read->input_words = (uint8_t)take(in);
    for (int at = 0; at < 8; at++)
        read->owners[at] = (uint8_t)take(in);
    read->digest = take_fixed(in, 8);
    read->opening = take_fixed(in, 8);
    read->draw = take_fixed(in, 8);
    read->echo = take_fixed(in, 8);
    read->patience = (uint32_t)take_fixed(in, 4);
    read->abilities = (uint8_t)take(in);
}

static void take_clocks(reader *in, packet_clocks *clocks) {
    clocks->frame = take_short(in);
    clocks->heard_frame = take_short(in);
    clocks->clock = take_short(in);
    clocks->heard_clock = take_short(in);
    clocks->held = take_short(in);
}

static void take_play(reader *in, packet *read) {
    read->number = take_short(in);
    read->has_clocks = take(in) != 0;
    if (read->has_clocks)
        take_clocks(in, &read->clocks);
    read->gone = (uint8_t)take(in);
    read->counted = (uint8_t)take(in);
    for (int at = 0; at < 8; at++)
        read->counts[at] = read->counted >> at & 1 ? take_short(in) : 0;
    read->has_settled = take(in) != 0;
    if (read->has_settled) {
        read->settled = take_short(in);
        read->settled_digest = take_fixed(in, 8);
    }
    read->offered = (uint8_t)take(in);
    for (int at = 0; at < 8; at++)
        if (read->offered >> at & 1) {
            read->first[at] = take_short(in);
            read->count[at] = take(in);
            read->word_count += read->count[at];
        }
    read->marks = (uint8_t)take(in);
    in->is_bad |= read->word_count > PACKET_WORDS;
    if (!in->is_bad)
        take_words(in, read->words, read->word_count);
}

bool packet_read(const uint8_t *bytes, size_t length, packet *read) {
    memset(read, 0, sizeof *read);
    if (length < PACKET_BODY)
        return false;
    reader in = { bytes + PACKET_BODY, length - PACKET_BODY, false };
    read->sender = bytes[PACKET_SENDER];
    read->kind = bytes[PACKET_KIND];
    if (read->kind == HELLO)
        take_hello(&in, read);
    else if (read->kind == PLAY)
        take_play(&in, read);
    else if (read->kind == BYE)
        read->why = (uint8_t)take(&in);
    return !in.is_bad && in.left == 0 && read->kind <= BYE;
}

uint32_t packet_words_at(const packet *play, uint32_t player) {
    uint32_t at = 0;
    for (uint32_t before = 0; before < player; before++)
        at += play->offered >> before & 1 ? play->count[before] : 0;
    return at;
}
