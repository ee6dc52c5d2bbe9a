#include "pass.h"

#include <sodium.h>
#include <stdio.h>
#include <string.h>

static const char SIGNS[] = "ABCDEFGHIJKLMNOPQRSTUVWXYZ234567"; /* RFC 4648 */

/* A key's text has a byte for its kind before it, a seed's two, which are those of a seed and of its kind; behind both is a sum. */
enum { SIGN_BITS = 5, SUM = 2, KEY_BYTES = 1 + NKEY + SUM, SEED_BYTES = 2 + NKEY + SUM, SEED = 18 << 3, KINDS_BITS = 5 };

/* ---- texts of keys */

/* CRC-16/XMODEM. */
static uint16_t sum_of(const uint8_t *bytes, size_t length) {
    uint16_t sum = 0;
    for (size_t bit = 0; bit < 8 * length; bit++) {
        bool is_one = (bytes[bit / 8] >> (7 - bit % 8) & 1) != sum >> 15;
        sum = (uint16_t)(sum << 1 ^ (is_one ? 0x1021 : 0));
    }
    return sum;
}

static size_t signs_of(size_t bytes) { return (8 * bytes + SIGN_BITS - 1) / SIGN_BITS; }

/* Writes bytes, of which the last two are still to be their sum. */
static void write_signs(uint8_t *bytes, size_t length, char *out) {
    uint16_t sum = sum_of(bytes, length - SUM);
    bytes[length - 2] = (uint8_t)sum;
    bytes[length - 1] = (uint8_t)(sum >> 8);
    for (size_t at = 0; at < signs_of(length); at++) {
        size_t bit = SIGN_BITS * at;
        unsigned two = (unsigned)bytes[bit / 8] << 8 | (bit / 8 + 1 < length ? bytes[bit / 8 + 1] : 0);
        *out++ = SIGNS[two >> (16 - SIGN_BITS - bit % 8) & 31];
    }
    *out = 0;
}

/* Reads so many bytes. Only one text is taken for them, and no other one that would have the same. */
static bool read_signs(const char *text, size_t length, uint8_t *bytes, size_t count) {
    uint8_t all[SEED_BYTES + 1] = { 0 };
    unsigned bit = 0;
    if (length != signs_of(count))
        return false;
    for (size_t at = 0; at < length; at++, bit += SIGN_BITS) {
        const char *sign = text[at] != 0 ? strchr(SIGNS, text[at]) : NULL;
        if (sign == NULL)
            return false;
        unsigned two = (unsigned)(sign - SIGNS) << (16 - SIGN_BITS - bit % 8);
        all[bit / 8] |= (uint8_t)(two >> 8);
        all[bit / 8 + 1] |= (uint8_t)two;
    }
    unsigned sum = sum_of(all, count - SUM);
    memcpy(bytes, all, count);
    return all[count] == 0 && (all[count - 2] | all[count - 1] << 8) == (int)sum;
}

void faz_nkey_write(nkey_kind kind, const uint8_t open[NKEY], char out[NKEY_TEXT]) {
    uint8_t bytes[KEY_BYTES] = { (uint8_t)kind };
    memcpy(bytes + 1, open, NKEY);
    write_signs(bytes, sizeof bytes, out);
}

bool faz_nkey_read(nkey_kind kind, const char *text, size_t length, uint8_t open[NKEY]) {
    uint8_t bytes[KEY_BYTES];
    if (!read_signs(text, length, bytes, sizeof bytes) || bytes[0] != (uint8_t)kind)
        return false;
    memcpy(open, bytes + 1, NKEY);
    return true;
}

static void seed_head(nkey_kind kind, uint8_t head[2]) {
    head[0] = (uint8_t)(SEED | (unsigned)kind >> KINDS_BITS);
    head[1] = (uint8_t)((unsigned)kind << (8 - KINDS_BITS));
}

void faz_nkey_write_seed(const nkey *self, char out[SEED_TEXT]) {
    uint8_t bytes[SEED_BYTES];
    seed_head(self->kind, bytes);
    memcpy(bytes + 2, self->secret, NKEY);
    write_signs(bytes, sizeof bytes, out);
    sodium_memzero(bytes, sizeof bytes);
}

bool faz_nkey_read_seed(nkey *self, nkey_kind kind, const char *text, size_t length) {
    uint8_t bytes[SEED_BYTES], head[2];
    seed_head(kind, head);
    bool is_one = read_signs(text, length, bytes, sizeof bytes) && memcmp(bytes, head, sizeof head) == 0;
    if (is_one)
        faz_nkey_of_seed(self, kind, bytes + 2);
    sodium_memzero(bytes, sizeof bytes);
    return is_one;
}

/* ---- keys */

void faz_nkey_of_seed(nkey *self, nkey_kind kind, const uint8_t seed[NKEY]) {
    self->kind = kind;
    crypto_sign_seed_keypair(self->open, self->secret, seed);
}

void faz_nkey_draw(nkey *self, nkey_kind kind) {
    self->kind = kind;
    crypto_sign_keypair(self->open, self->secret);
}

/* ---- tokens */

/* Adds bytes to a text, as a token has them. False: there is no room. */
static bool add(char *out, size_t room, const void *bytes, size_t length) {
    size_t at = strlen(out);
    if (sodium_base64_ENCODED_LEN(length, sodium_base64_VARIANT_URLSAFE_NO_PADDING) > room - at)
        return false;
    sodium_bin2base64(out + at, room - at, bytes, length, sodium_base64_VARIANT_URLSAFE_NO_PADDING);
    return true;
}

static bool add_dot(char *out, size_t room) {
    size_t at = strlen(out);
    if (at + 1 >= room)
        return false;
    strcpy(out + at, ".");
    return true;
}

bool faz_token_sign(const nkey *signer, const char *claims, char *out, size_t room) {
    static const char head[] = "{\"typ\":\"JWT\",\"alg\":\"ed25519-nkey\"}";
    uint8_t signature[crypto_sign_BYTES];
    *out = 0;
    if (!add(out, room, head, sizeof head - 1) || !add_dot(out, room) || !add(out, room, claims, strlen(claims)))
        return false;
    crypto_sign_detached(signature, NULL, (const uint8_t *)out, strlen(out), signer->secret);
    return add_dot(out, room) && add(out, room, signature, sizeof signature);
}

/* ---- the pass */

void faz_pass_write(const pass *self, char out[PASS_TEXT]) {
    faz_nkey_write_seed(&self->signer, out);
    faz_nkey_write(NKEY_ACCOUNT, self->account, out + strlen(out));
}

bool faz_pass_read(pass *self, const char *text, size_t length) {
    size_t seed = SEED_TEXT - 1;
    return length == PASS_TEXT - 1 && faz_nkey_read_seed(&self->signer, NKEY_ACCOUNT, text, seed)
        && faz_nkey_read(NKEY_ACCOUNT, text + seed, length - seed, self->account);
}

/* It says nothing of what the user may: that says the broker, of all who have the pass. */
void faz_pass_token(const pass *self, const nkey *user, char out[TOKEN_TEXT]) {
    char signer[NKEY_TEXT], account[NKEY_TEXT], who[NKEY_TEXT], claims[TOKEN_TEXT];
    faz_nkey_write(NKEY_ACCOUNT, self->signer.open, signer);
    faz_nkey_write(NKEY_ACCOUNT, self->account, account);
    faz_nkey_write(NKEY_USER, user->open, who);
    snprintf(claims, sizeof claims, "{\"iss\":\"%s\",\"sub\":\"%s\",\"nats\":{\"issuer_account\":\"%s\",\"type\":\"user\",\"version\":2}}",
             signer, who, account);
    faz_token_sign(&self->signer, claims, out, TOKEN_TEXT);
}
