/* What machines of a lobby know: a code, which is a hash of its host's key, and what follows from it; and what two of them have
 * alone. By libsodium: Ed25519 for the host, X25519 and XChaCha20-Poly1305 for messages, BLAKE2b for what follows. */
#ifndef FAZ_LOBBY_KEYS_H
#define FAZ_LOBBY_KEYS_H

#include <stdbool.h>
#include <stddef.h>
#include <stdint.h>

enum {
    CODE_BYTES = 16,
    CODE_TEXT = 40, /* room for one */
    ROOM_NAME = 33, /* room for one: 32 digits */
    KEY = 32,
    SECRET = 64, /* of the host */
    PROOF = 64,
    SEAL = 40, /* bytes that a sealed message is longer */
    WORDS = 12 /* room for them */
};

/* ---- The code. No server is trusted: it isn't what a server was told, and only its host has the key that it is a hash of. */

void faz_code_of(uint8_t code[CODE_BYTES], const uint8_t host[KEY]);

/* Four groups of seven signs, with 12 bits by which a slip of the pen is known. */
void faz_code_write(const uint8_t code[CODE_BYTES], char out[CODE_TEXT]);

/* False: it is none. */
bool faz_code_read(const char *text, uint8_t code[CODE_BYTES]);

/* ---- A short code: a plate of three signs, by which the host is found, and four that nobody is told but friends. */

enum { PLATE_TEXT = 4, SHORT_SECRET = 5 };

/* "KXQ-4H7P" */
void faz_short_write(const char plate[PLATE_TEXT], const char secret[SHORT_SECRET], char out[CODE_TEXT]);
bool faz_short_read(const char *text, char plate[PLATE_TEXT], char secret[SHORT_SECRET]);
void faz_short_draw(char secret[SHORT_SECRET]);

/* ---- What all know who have the code: under which name they meet, and a key. */

typedef struct room {
    char name[ROOM_NAME];
    uint8_t key[KEY];
} room;

void faz_room_of(room *self, const uint8_t code[CODE_BYTES]);

/* The name under which the host of a short code is heard, by what the door was told. Its key is for later. */
void faz_room_named(room *self, const uint8_t token[CODE_BYTES]);

/* ---- The host vouches for a key by which a machine speaks. */

void faz_host_draw(uint8_t open[KEY], uint8_t secret[SECRET]);
void faz_host_vouch(uint8_t proof[PROOF], const uint8_t secret[SECRET], const uint8_t speaks[KEY]);
bool faz_host_vouched(const uint8_t proof[PROOF], const uint8_t open[KEY], const uint8_t speaks[KEY]);

/* ---- What two machines have, of whom each knows the other's open key. */

typedef struct pair {
    uint8_t key[KEY];
    uint8_t ours[KEY], theirs[KEY]; /* open keys */
} pair;

/* False: theirs is none. */
bool faz_pair_of(pair *self, const room *in, const uint8_t ours[KEY], const uint8_t secret[KEY], const uint8_t theirs[KEY]);

/* Signs that both see alike, and who stands between the two can't make alike: "Q7KM-2XPA". */
void faz_pair_words(const pair *self, char out[WORDS]);

/* ---- Keys that were here, so that nobody comes by one of them again. A full list forgets the oldest one. */

enum { SEEN = 4096 };

typedef struct seen_keys {
    uint8_t key[SEEN][KEY];
    uint32_t count; /* of all that were noted */
} seen_keys;

void faz_seen_note(seen_keys *self, const uint8_t open[KEY]);
bool faz_seen_has(const seen_keys *self, const uint8_t open[KEY]);

/* ---- Messages, sealed for all who have the code, or for the other one of a pair. `kind` is sealed with them. What is made is
 * SEAL bytes longer, and what is opened as much shorter. */

void faz_room_seal(const room *self, uint8_t *out, uint8_t kind, const uint8_t *bytes, size_t length);
bool faz_room_open(const room *self, uint8_t *out, uint8_t kind, const uint8_t *bytes, size_t length);
void faz_pair_seal(const pair *self, uint8_t *out, uint8_t kind, const uint8_t *bytes, size_t length);
bool faz_pair_open(const pair *self, uint8_t *out, uint8_t kind, const uint8_t *bytes, size_t length);
#endif
