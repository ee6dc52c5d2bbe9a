/* SHA-256 of FIPS 180-4, and the tag of a packet (docs/WIRE.md): for tests and fuzzers, and for what is watched over a broker. */
#ifndef FAZGROND_SHA256_H
#define FAZGROND_SHA256_H

#include <stdbool.h>
#include <stddef.h>
#include <stdint.h>
#include <string.h>

static inline uint32_t sha256_turned(uint32_t word, int by) { return word >> by | word << (32 - by); }

static inline void sha256_block(uint32_t *state, const uint8_t *block) {
    static const uint32_t keys[64] = {
        0x428a2f98, 0x71374491, 0xb5c0fbcf, 0xe9b5dba5, 0x3956c25b, 0x59f111f1, 0x923f82a4, 0xab1c5ed5, 0xd807aa98, 0x12835b01, 0x243185be,
        0x550c7dc3, 0x72be5d74, 0x80deb1fe, 0x9bdc06a7, 0xc19bf174, 0xe49b69c1, 0xefbe4786, 0x0fc19dc6, 0x240ca1cc, 0x2de92c6f, 0x4a7484aa,
        0x5cb0a9dc, 0x76f988da, 0x983e5152, 0xa831c66d, 0xb00327c8, 0xbf597fc7, 0xc6e00bf3, 0xd5a79147, 0x06ca6351, 0x14292967, 0x27b70a85,
        0x2e1b2138, 0x4d2c6dfc, 0x53380d13, 0x650a7354, 0x766a0abb, 0x81c2c92e, 0x92722c85, 0xa2bfe8a1, 0xa81a664b, 0xc24b8b70, 0xc76c51a3,
        0xd192e819, 0xd6990624, 0xf40e3585, 0x106aa070, 0x19a4c116, 0x1e376c08, 0x2748774c, 0x34b0bcb5, 0x391c0cb3, 0x4ed8aa4a, 0x5b9cca4f,
        0x682e6ff3, 0x748f82ee, 0x78a5636f, 0x84c87814, 0x8cc70208, 0x90befffa, 0xa4506ceb, 0xbef9a3f7, 0xc67178f2,
    };
    uint32_t w[64], v[8];
    for (int at = 0; at < 16; at++)
        w[at] = (uint32_t)block[4 * at] << 24 | (uint32_t)block[4 * at + 1] << 16 | (uint32_t)block[4 * at + 2] << 8 | block[4 * at + 3];
    for (int at = 16; at < 64; at++) {
        uint32_t a = w[at - 15], b = w[at - 2];
        w[at] = w[at - 16] + w[at - 7] + (sha256_turned(a, 7) ^ sha256_turned(a, 18) ^ a >> 3)
            + (sha256_turned(b, 17) ^ sha256_turned(b, 19) ^ b >> 10);
    }
    memcpy(v, state, sizeof v);
    for (int at = 0; at < 64; at++) {
        uint32_t a = v[0], e = v[4];
        uint32_t one = v[7] + (sha256_turned(e, 6) ^ sha256_turned(e, 11) ^ sha256_turned(e, 25)) + ((e & v[5]) ^ (~e & v[6])) + keys[at]
            + w[at];
        uint32_t two = (sha256_turned(a, 2) ^ sha256_turned(a, 13) ^ sha256_turned(a, 22)) + ((a & v[1]) ^ (a & v[2]) ^ (v[1] & v[2]));
        memmove(v + 1, v, 7 * sizeof *v);
        v[4] += one;
        v[0] = one + two;
    }
    for (int at = 0; at < 8; at++)
        state[at] += v[at];
}

/* Bytes that come in parts. */
typedef struct sha256 {
    uint32_t state[8];
    uint8_t block[64];
    uint64_t length;
} sha256;

static inline sha256 sha256_begin(void) {
    return (sha256){ .state = { 0x6a09e667, 0xbb67ae85, 0x3c6ef372, 0xa54ff53a, 0x510e527f, 0x9b05688c, 0x1f83d9ab, 0x5be0cd19 } };
}

static inline void sha256_add(sha256 *self, const uint8_t *bytes, size_t count) {
    while (count > 0) {
        size_t kept = self->length % 64, some = count < 64 - kept ? count : 64 - kept;
        memcpy(self->block + kept, bytes, some);
        self->length += some;
        bytes += some;
        count -= some;
        if (self->length % 64 == 0)
            sha256_block(self->state, self->block);
    }
}

/* All has come: the digest is in the state. */
static inline void sha256_pad(sha256 *self) {
    static const uint8_t padding[64] = { 0x80 };
    uint64_t bits = self->length * 8;
    uint8_t last[8];
    sha256_add(self, padding, 1 + (119 - self->length % 64) % 64);
    for (int at = 0; at < 8; at++)
        last[at] = (uint8_t)(bits >> (56 - 8 * at));
    sha256_add(self, last, 8);
}

/* The first 8 bytes of the digest, as a number. */
static inline uint64_t sha256_end(sha256 *self) {
    sha256_pad(self);
    return (uint64_t)self->state[0] << 32 | self->state[1];
}

/* What a packet is sealed with: the number of the two machines, and the draw of the sender's opening and of the receiver's. In a
 * hello both draws are 0. */
typedef struct seal_key {
    uint64_t number, from, to;
} seal_key;

/* A number as 8 bytes, the highest first. */
static inline void seal_put(uint8_t *out, uint64_t number) {
    for (int at = 0; at < 8; at++)
        out[at] = (uint8_t)(number >> (56 - 8 * at));
}

/* The beginning of one of the two digests of HMAC-SHA-256 (RFC 2104) with a key: the inner one has 0x36, the outer one 0x5c. */
static inline sha256 seal_begin(seal_key key, uint8_t with) {
    sha256 made = sha256_begin();
    uint8_t block[64] = { 0 };
    seal_put(block, key.number);
    seal_put(block + 8, key.from);
    seal_put(block + 16, key.to);
    for (int at = 0; at < 64; at++)
        block[at] ^= with;
    sha256_add(&made, block, sizeof block);
    return made;
}

/* The tag of a packet of at least 12 bytes: of all of it, with the number of the two machines in the place of the tag. */
static inline uint64_t tag_of(const uint8_t *packet, size_t length, seal_key key) {
    sha256 inner = seal_begin(key, 0x36), outer = seal_begin(key, 0x5c);
    uint8_t bytes[32];
    seal_put(bytes, key.number);
    sha256_add(&inner, packet, 4);
    sha256_add(&inner, bytes, 8);
    sha256_add(&inner, packet + 12, length - 12);
    sha256_pad(&inner);
    for (int at = 0; at < 32; at++)
        bytes[at] = (uint8_t)(inner.state[at / 4] >> (24 - 8 * (at % 4)));
    sha256_add(&outer, bytes, sizeof bytes);
    return sha256_end(&outer);
}

/* Puts the tag at place 4 of a packet of at least 12 bytes. */
static inline void seal(uint8_t *packet, size_t length, seal_key key) { seal_put(packet + 4, tag_of(packet, length, key)); }

/* Whether a packet has the tag that it is to have. */
static inline bool is_sealed(const uint8_t *packet, size_t length, seal_key key) {
    uint64_t tag = 0;
    for (size_t at = 0; at < 8 && length >= 12; at++)
        tag = tag << 8 | packet[4 + at];
    return length >= 12 && tag == tag_of(packet, length, key);
}

#endif
