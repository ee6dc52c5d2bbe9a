/* Two who know the same short secret get a key that nobody else has, and who doesn't know it gets one guess at a time: SRP of
 * RFC 5054, by a handshake of GnuTLS whose bytes the caller carries. It has no socket, and never waits. */
#ifndef FAZ_PAKE_H
#define FAZ_PAKE_H

#include <stdbool.h>
#include <stddef.h>
#include <stdint.h>

typedef struct pake pake;

enum { PAKE_KEY = 32, PAKE_BYTES = 2048 };

typedef enum pake_answer {
    PAKE_MORE, /* the other one is to say something */
    PAKE_DONE, /* both know the secret */
    PAKE_WRONG /* the other one doesn't, or isn't one who speaks so */
} pake_answer;

/* `name` says of which secret it is: both have the same. Null: there is no memory. */
pake *faz_pake_open(bool is_host, const char *name, const char *secret);

/* Takes what the other one said, if there is any, and writes what is to be said next, less than PAKE_BYTES bytes: maybe none. */
pake_answer faz_pake_turn(pake *self, const uint8_t *bytes, size_t length, uint8_t out[PAKE_BYTES], size_t *size);

/* The key, once it is done. */
void faz_pake_key(pake *self, uint8_t key[PAKE_KEY]);

/* Null is none. */
void faz_pake_close(pake *self);
#endif
