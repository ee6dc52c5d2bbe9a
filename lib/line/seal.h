/* What two machines hide of what they send each other, by libsodium: X25519 makes keys that only the two have, one each way, and
 * XChaCha20-Poly1305 encrypts by them. It needs no socket and no clock. */
#ifndef FAZ_SEAL_H
#define FAZ_SEAL_H

#include <fazgrond.h>
#include <stdbool.h>

/* A sealed datagram begins with f1, which is no byte that STUN, TURN, DTLS or RTP begin with, and 7 bytes of counter. */
enum { SEAL_FRONT = 8, SEAL_TAG = 16, SEAL_OVERHEAD = SEAL_FRONT + SEAL_TAG, SEAL_KEY = 32, SEAL_FIRST = 0xf1 };
enum { NOTE_NONCE = 24, NOTE_OVERHEAD = NOTE_NONCE + SEAL_TAG };

typedef enum seal_answer { SEAL_OK, SEAL_FORGED, SEAL_AGAIN } seal_answer;

typedef struct seal {
    uint8_t ours[SEAL_KEY], theirs[SEAL_KEY];           /* of datagrams */
    uint8_t our_notes[SEAL_KEY], their_notes[SEAL_KEY]; /* of what somebody else carries */
    uint64_t number;                                    /* that only the two know */
    uint64_t sent;                                      /* the next counter; it goes up for as long as the keys live */
    fazgrond_window came;
} seal;

/* Draws a pair of keys: the open one is for the other machine, the secret one for nobody. */
void faz_line_seal_draw(uint8_t open[SEAL_KEY], uint8_t secret[SEAL_KEY]);

/* Makes the keys. One of the two leads. False: the other's is no key. */
bool faz_line_seal_open(seal *self, bool leads, const uint8_t open[SEAL_KEY], const uint8_t secret[SEAL_KEY],
                        const uint8_t other[SEAL_KEY]);
void faz_line_seal_close(seal *self);

/* Seals a datagram into `out`, which has room for SEAL_OVERHEAD bytes more than it is long, and answers how long that is; 0 if all
 * counters were used. */
size_t faz_line_seal_put(seal *self, uint8_t *out, const uint8_t *bytes, size_t length);

/* Opens one into `out`, which has room for SEAL_OVERHEAD bytes less. SEAL_AGAIN: its counter came before, or is too old.
 * SEAL_FORGED: nobody sealed it who has the key. Of both nothing is left. */
seal_answer faz_line_seal_take(seal *self, uint8_t *out, const uint8_t *bytes, size_t length);

/* The same of a note that somebody else carries, who may lose it, or bring it again and later. */
size_t faz_line_seal_note(const seal *self, uint8_t *out, const uint8_t *bytes, size_t length);
bool faz_line_seal_read(const seal *self, uint8_t *out, const uint8_t *bytes, size_t length);
#endif
