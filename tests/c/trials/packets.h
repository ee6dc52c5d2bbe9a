/* The packets of docs/WIRE.md, written and read field by field: for trials in which a machine says what it shouldn't. What is
 * written needn't be a packet that anybody takes. */
#ifndef TRIALS_PACKETS_H
#define TRIALS_PACKETS_H

#include "../../../lib/sha256.h"

#include <fazgrond.h>
#include <stdbool.h>

enum { PACKET_TAG = 4, PACKET_SENDER = 12, PACKET_KIND = 13, PACKET_BODY = 14, PACKET_WORDS = 140 };

enum { HELLO = 0, PLAY = 1, BYE = 2 };

/* Of the abilities of a hello: its match goes on in epochs. */
enum { LASTS = 2 };

typedef struct packet_clocks {
    uint32_t frame, heard_frame, clock, heard_clock, held;
} packet_clocks;

typedef struct packet {
    uint8_t sender, kind;
    /* a hello */
    uint8_t machines, input_words, owners[8], abilities;
    uint64_t digest, opening, draw, echo;
    uint32_t patience;
    /* a bye */
    uint8_t why;
    /* a play */
    uint32_t number;
    bool has_clocks, has_settled;
    packet_clocks clocks;
    uint8_t gone, counted, offered, marks; /* masks, and the byte of marks */
    uint32_t counts[8];
    uint32_t settled;
    uint64_t settled_digest;
    uint32_t first[8], count[8]; /* an offer: the first frame, and how many words, at most 255 */
    uint32_t words[PACKET_WORDS];
    uint32_t word_count;
} packet;

/* Writes a packet, with zeros in the place of its tag. It has room for FAZGROND_DATAGRAM bytes; how many there are. */
size_t packet_write(const packet *made, uint8_t *out);

/* Reads what packet_write wrote, and what the library sends. False of most other bytes. */
bool packet_read(const uint8_t *bytes, size_t length, packet *read);

/* Where the words of a player begin among all words of a play. */
uint32_t packet_words_at(const packet *play, uint32_t player);

#endif
