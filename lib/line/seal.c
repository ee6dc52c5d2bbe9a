#include "seal.h"

#include <sodium.h>
#include <string.h>

static const uint64_t COUNTERS = UINT64_C(1) << 56;

void faz_line_seal_draw(uint8_t open[SEAL_KEY], uint8_t secret[SEAL_KEY]) { crypto_kx_keypair(open, secret); }

/* What else follows from the two keys: `which` says what. */
static void follow(uint8_t *out, size_t length, const char *which, const uint8_t *first, const uint8_t *second) {
    crypto_generichash_state state;
    crypto_generichash_init(&state, first, SEAL_KEY, length);
    crypto_generichash_update(&state, (const uint8_t *)which, strlen(which));
    crypto_generichash_update(&state, second, SEAL_KEY);
    crypto_generichash_final(&state, out, length);
}

static uint64_t number_of(const uint8_t bytes[8]) {
    uint64_t number = 0;
    for (int at = 0; at < 8; at++)
        number = number << 8 | bytes[at];
    return number;
}

bool faz_line_seal_open(seal *self, bool leads, const uint8_t open[SEAL_KEY], const uint8_t secret[SEAL_KEY],
                        const uint8_t other[SEAL_KEY]) {
    memset(self, 0, sizeof *self);
    int status = leads ? crypto_kx_server_session_keys(self->theirs, self->ours, open, secret, other)
                       : crypto_kx_client_session_keys(self->theirs, self->ours, open, secret, other);
    if (status != 0)
        return false;
    follow(self->our_notes, SEAL_KEY, "fazgrond notes 1", self->ours, self->theirs);
    follow(self->their_notes, SEAL_KEY, "fazgrond notes 1", self->theirs, self->ours);
    uint8_t number[16];
    follow(number, sizeof number, "fazgrond number 1", leads ? self->ours : self->theirs, leads ? self->theirs : self->ours);
    self->number = number_of(number);
    return true;
}

void faz_line_seal_close(seal *self) { sodium_memzero(self, sizeof *self); }

/* No nonce is used twice: a key is one machine's for one line, and its counter only goes up. */
static void nonce_of(uint8_t nonce[24], const uint8_t front[SEAL_FRONT]) {
    memset(nonce, 0, 16);
    memcpy(nonce + 16, front, SEAL_FRONT);
}

size_t faz_line_seal_put(seal *self, uint8_t *out, const uint8_t *bytes, size_t length) {
    if (self->sent >= COUNTERS)
        return 0;
    uint8_t nonce[24], front[SEAL_FRONT] = { SEAL_FIRST };
    for (int at = 1; at < SEAL_FRONT; at++)
        front[at] = (uint8_t)(self->sent >> (8 * (7 - at)));
    self->sent++;
    nonce_of(nonce, front);
    crypto_aead_xchacha20poly1305_ietf_encrypt(out + SEAL_FRONT, NULL, bytes, length, front, SEAL_FRONT, NULL, nonce, self->ours);
    memcpy(out, front, SEAL_FRONT);
    return length + SEAL_OVERHEAD;
}

seal_answer faz_line_seal_take(seal *self, uint8_t *out, const uint8_t *bytes, size_t length) {
    if (length < SEAL_OVERHEAD || bytes[0] != SEAL_FIRST)
        return SEAL_FORGED;
    uint8_t nonce[24];
    uint64_t counter = number_of(bytes) % COUNTERS;
    if (!fazgrond_window_is_new(&self->came, counter))
        return SEAL_AGAIN;
    nonce_of(nonce, bytes);
    if (crypto_aead_xchacha20poly1305_ietf_decrypt(out, NULL, NULL, bytes + SEAL_FRONT, length - SEAL_FRONT, bytes, SEAL_FRONT, nonce,
                                                   self->theirs)
        != 0)
        return SEAL_FORGED;
    fazgrond_window_note(&self->came, counter);
    return SEAL_OK;
}

size_t faz_line_seal_note(const seal *self, uint8_t *out, const uint8_t *bytes, size_t length) {
    randombytes_buf(out, NOTE_NONCE);
    crypto_aead_xchacha20poly1305_ietf_encrypt(out + NOTE_NONCE, NULL, bytes, length, NULL, 0, NULL, out, self->our_notes);
    return length + NOTE_OVERHEAD;
}

bool faz_line_seal_read(const seal *self, uint8_t *out, const uint8_t *bytes, size_t length) {
    return length >= NOTE_OVERHEAD
        && crypto_aead_xchacha20poly1305_ietf_decrypt(out, NULL, NULL, bytes + NOTE_NONCE, length - NOTE_NONCE, NULL, 0, bytes,
                                                      self->their_notes)
        == 0;
}
