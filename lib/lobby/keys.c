#include "keys.h"

#include <sodium.h>
#include <stdio.h>
#include <string.h>

static const char SIGNS[] = "0123456789ABCDEFGHJKMNPQRSTVWXYZ";

enum { NONCE = 24, SIGN_BITS = 5, CODE_SIGNS = 28, GROUP = 7, CHECKED = 2, DIGITS = ROOM_NAME - 1 };

/* What follows from some bytes; `what` says which of it. */
static void follow(uint8_t *out, size_t length, const char *what, const uint8_t *bytes, size_t count) {
    crypto_generichash_state state;
    crypto_generichash_init(&state, NULL, 0, length);
    crypto_generichash_update(&state, (const uint8_t *)what, strlen(what) + 1);
    crypto_generichash_update(&state, bytes, count);
    crypto_generichash_final(&state, out, length);
}

/* ---- the code */

void faz_code_of(uint8_t code[CODE_BYTES], const uint8_t host[KEY]) { follow(code, CODE_BYTES, "fazgrond code 1", host, KEY); }

/* A code, and behind it 12 bits that follow from it. */
static void complete(uint8_t out[CODE_BYTES + CHECKED], const uint8_t code[CODE_BYTES]) {
    uint8_t hash[CODE_BYTES];
    memcpy(out, code, CODE_BYTES);
    follow(hash, sizeof hash, "fazgrond slip 1", code, CODE_BYTES);
    out[CODE_BYTES] = hash[0];
    out[CODE_BYTES + 1] = hash[1] & 0xf0;
}

void faz_code_write(const uint8_t code[CODE_BYTES], char out[CODE_TEXT]) {
    uint8_t all[CODE_BYTES + CHECKED];
    complete(all, code);
    for (unsigned at = 0; at < CODE_SIGNS; at++) {
        unsigned bit = at * SIGN_BITS, two = (unsigned)all[bit / 8] << 8 | (bit / 8 + 1 < sizeof all ? all[bit / 8 + 1] : 0);
        *out++ = SIGNS[two >> (16 - SIGN_BITS - bit % 8) & 31];
        if (at % GROUP == GROUP - 1 && at + 1 < CODE_SIGNS)
            *out++ = '-';
    }
    *out = 0;
}

/* Which sign it is, in small or capital letters, and for those that look alike; -1: none. */
static int sign_of(char letter) {
    char capital = letter >= 'a' && letter <= 'z' ? (char)(letter - 'a' + 'A') : letter;
    capital = capital == 'O' ? '0' : capital == 'I' || capital == 'L' ? '1' : capital;
    const char *found = capital != 0 ? strchr(SIGNS, capital) : NULL;
    return found != NULL ? (int)(found - SIGNS) : -1;
}

bool faz_code_read(const char *text, uint8_t code[CODE_BYTES]) {
    uint8_t all[CODE_BYTES + CHECKED + 1] = { 0 }, due[CODE_BYTES + CHECKED];
    unsigned bit = 0;
    for (; *text != 0; text++) {
        int sign = sign_of(*text);
        if (sign < 0 && strchr(" -\t\r\n", *text) != NULL)
            continue;
        if (sign < 0 || bit == CODE_SIGNS * SIGN_BITS)
            return false;
        unsigned two = (unsigned)sign << (16 - SIGN_BITS - bit % 8);
        all[bit / 8] |= (uint8_t)(two >> 8);
        all[bit / 8 + 1] |= (uint8_t)two;
        bit += SIGN_BITS;
    }
    memcpy(code, all, CODE_BYTES);
    complete(due, code);
    return bit == CODE_SIGNS * SIGN_BITS && memcmp(all, due, sizeof due) == 0;
}

/* ---- short codes */

enum { PLATE_SIGNS = PLATE_TEXT - 1, SHORT_SIGNS = PLATE_TEXT + SHORT_SECRET - 2 };

void faz_short_write(const char plate[PLATE_TEXT], const char secret[SHORT_SECRET], char out[CODE_TEXT]) {
    snprintf(out, CODE_TEXT, "%s-%s", plate, secret);
}

bool faz_short_read(const char *text, char plate[PLATE_TEXT], char secret[SHORT_SECRET]) {
    char signs[SHORT_SIGNS + 1] = { 0 };
    int count = 0;
    for (; *text != 0; text++) {
        int sign = sign_of(*text);
        if (sign < 0 && strchr(" -\t\r\n", *text) != NULL)
            continue;
        if (sign < 0 || count == SHORT_SIGNS)
            return false;
        signs[count++] = SIGNS[sign];
    }
    memcpy(plate, signs, PLATE_SIGNS);
    plate[PLATE_SIGNS] = 0;
    memcpy(secret, signs + PLATE_SIGNS, SHORT_SECRET);
    return count == SHORT_SIGNS;
}

void faz_short_draw(char secret[SHORT_SECRET]) {
    for (int at = 0; at < SHORT_SECRET - 1; at++)
        secret[at] = SIGNS[randombytes_uniform(sizeof SIGNS - 1)];
    secret[SHORT_SECRET - 1] = 0;
}

/* ---- rooms */

void faz_room_named(room *self, const uint8_t token[CODE_BYTES]) { sodium_bin2hex(self->name, sizeof self->name, token, CODE_BYTES); }

void faz_room_of(room *self, const uint8_t code[CODE_BYTES]) {
    uint8_t name[DIGITS / 2];
    follow(name, sizeof name, "fazgrond room 1", code, CODE_BYTES);
    sodium_bin2hex(self->name, sizeof self->name, name, sizeof name);
    follow(self->key, KEY, "fazgrond room key 1", code, CODE_BYTES);
}

/* ---- the host's word */

static const char VOUCHED[] = "fazgrond speaks 1";

void faz_host_draw(uint8_t open[KEY], uint8_t secret[SECRET]) { crypto_sign_keypair(open, secret); }

static void vouched(uint8_t out[sizeof VOUCHED + KEY], const uint8_t speaks[KEY]) {
    memcpy(out, VOUCHED, sizeof VOUCHED);
    memcpy(out + sizeof VOUCHED, speaks, KEY);
}

void faz_host_vouch(uint8_t proof[PROOF], const uint8_t secret[SECRET], const uint8_t speaks[KEY]) {
    uint8_t text[sizeof VOUCHED + KEY];
    vouched(text, speaks);
    crypto_sign_detached(proof, NULL, text, sizeof text, secret);
}

bool faz_host_vouched(const uint8_t proof[PROOF], const uint8_t open[KEY], const uint8_t speaks[KEY]) {
    uint8_t text[sizeof VOUCHED + KEY];
    vouched(text, speaks);
    return crypto_sign_verify_detached(proof, text, sizeof text, open) == 0;
}

/* ---- pairs */

bool faz_pair_of(pair *self, const room *in, const uint8_t ours[KEY], const uint8_t secret[KEY], const uint8_t theirs[KEY]) {
    static const char what[] = "fazgrond pair 1";
    crypto_generichash_state state;
    uint8_t shared[KEY];
    bool is_first = memcmp(ours, theirs, KEY) < 0;
    memcpy(self->ours, ours, KEY);
    memcpy(self->theirs, theirs, KEY);
    if (crypto_scalarmult(shared, secret, theirs) != 0)
        return false;
    crypto_generichash_init(&state, in->key, KEY, KEY);
    crypto_generichash_update(&state, (const uint8_t *)what, sizeof what);
    crypto_generichash_update(&state, shared, KEY);
    crypto_generichash_update(&state, is_first ? ours : theirs, KEY);
    crypto_generichash_update(&state, is_first ? theirs : ours, KEY);
    crypto_generichash_final(&state, self->key, KEY);
    sodium_memzero(shared, sizeof shared);
    return true;
}

void faz_pair_words(const pair *self, char out[WORDS]) {
    uint8_t hash[CODE_BYTES];
    follow(hash, sizeof hash, "fazgrond words 1", self->key, KEY);
    for (int at = 0; at < 8; at++) {
        *out++ = SIGNS[hash[at] & 31];
        if (at == 3)
            *out++ = '-';
    }
    *out = 0;
}

/* ---- keys that were here */

void faz_seen_note(seen_keys *self, const uint8_t open[KEY]) { memcpy(self->key[self->count++ % SEEN], open, KEY); }

bool faz_seen_has(const seen_keys *self, const uint8_t open[KEY]) {
    uint32_t kept = self->count < SEEN ? self->count : SEEN;
    for (uint32_t at = 0; at < kept; at++)
        if (memcmp(self->key[at], open, KEY) == 0)
            return true;
    return false;
}

/* ---- messages: a nonce, the bytes, and 16 that nobody makes without the key. `more` is sealed with them. */

static void seal(uint8_t *out, const uint8_t key[KEY], const uint8_t *bytes, size_t length, const uint8_t *more, size_t count) {
    randombytes_buf(out, NONCE);
    crypto_aead_xchacha20poly1305_ietf_encrypt(out + NONCE, NULL, bytes, length, more, count, NULL, out, key);
}

static bool open(uint8_t *out, const uint8_t key[KEY], const uint8_t *bytes, size_t length, const uint8_t *more, size_t count) {
    return length >= SEAL
        && crypto_aead_xchacha20poly1305_ietf_decrypt(out, NULL, NULL, bytes + NONCE, length - NONCE, more, count, bytes, key) == 0;
}

void faz_room_seal(const room *self, uint8_t *out, uint8_t kind, const uint8_t *bytes, size_t length) {
    seal(out, self->key, bytes, length, &kind, 1);
}

bool faz_room_open(const room *self, uint8_t *out, uint8_t kind, const uint8_t *bytes, size_t length) {
    return open(out, self->key, bytes, length, &kind, 1);
}

/* Who made it is sealed with it, so that it isn't taken back by the one who made it. */
static void of_pair(uint8_t more[1 + KEY], uint8_t kind, const uint8_t maker[KEY]) {
    more[0] = kind;
    memcpy(more + 1, maker, KEY);
}

void faz_pair_seal(const pair *self, uint8_t *out, uint8_t kind, const uint8_t *bytes, size_t length) {
    uint8_t more[1 + KEY];
    of_pair(more, kind, self->ours);
    seal(out, self->key, bytes, length, more, sizeof more);
}

bool faz_pair_open(const pair *self, uint8_t *out, uint8_t kind, const uint8_t *bytes, size_t length) {
    uint8_t more[1 + KEY];
    of_pair(more, kind, self->theirs);
    return open(out, self->key, bytes, length, more, sizeof more);
}
