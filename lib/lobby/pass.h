/* A pass lets machines into a broker that has an operator (docs/ONLINE.md). It stands before the @ in the broker's URL, and all players
 * have the same one. By it each machine makes a user of its own, whom alone the broker lets hear `faz.in.` and its key. Keys are
 * written as NATS writes them (nkeys), and what a user shows is a JSON Web Token. */
#ifndef FAZ_LOBBY_PASS_H
#define FAZ_LOBBY_PASS_H

#include <stdbool.h>
#include <stddef.h>
#include <stdint.h>

enum {
    NKEY = 32,        /* bytes of a key, and of the seed that it is made of */
    NKEY_SECRET = 64, /* a seed, and its key behind it */
    NKEY_TEXT = 57,   /* room for a key .. */
    SEED_TEXT = 59,   /* .. and for a seed */
    PASS_TEXT = 115,
    TOKEN_TEXT = 512
};

/* Whose a key is, as the first byte of its text says. */
typedef enum nkey_kind { NKEY_ACCOUNT = 0, NKEY_OPERATOR = 14 << 3, NKEY_USER = 20 << 3 } nkey_kind;

typedef struct nkey {
    nkey_kind kind;
    uint8_t open[NKEY], secret[NKEY_SECRET];
} nkey;

void faz_nkey_draw(nkey *self, nkey_kind kind);
void faz_nkey_of_seed(nkey *self, nkey_kind kind, const uint8_t seed[NKEY]);

void faz_nkey_write(nkey_kind kind, const uint8_t open[NKEY], char out[NKEY_TEXT]);
void faz_nkey_write_seed(const nkey *self, char out[SEED_TEXT]);

/* False: it is none of this kind, or has a slip of the pen in it. */
bool faz_nkey_read(nkey_kind kind, const char *text, size_t length, uint8_t open[NKEY]);
bool faz_nkey_read_seed(nkey *self, nkey_kind kind, const char *text, size_t length);

/* Claims, which are JSON, with a signature behind them: "HEAD.CLAIMS.SIGNATURE". False: there is no room. */
bool faz_token_sign(const nkey *signer, const char *claims, char *out, size_t room);

/* The key that signs for players, and the account that they are of. */
typedef struct pass {
    nkey signer;
    uint8_t account[NKEY];
} pass;

/* The seed of the one, and the other. */
void faz_pass_write(const pass *self, char out[PASS_TEXT]);
bool faz_pass_read(pass *self, const char *text, size_t length);

/* What a user shows who has the pass. */
void faz_pass_token(const pass *self, const nkey *user, char out[TOKEN_TEXT]);
#endif
