/* The claim of a rollback (docs/CLAIMS.md): that of the states which were kept it started from the latest that is right. */
#ifndef SIM_CLAIM_H
#define SIM_CLAIM_H

#include <fazgrond.h>
#include <stdbool.h>

enum { CLAIM_ROWS = 24, CLAIM_PATHS = 256 };

/* A path: as many rows as there are from the claim's base on, up to the frame of its state. */
typedef struct claim_path {
    uint32_t count;
    fazgrond_row rows[CLAIM_ROWS];
} claim_path;

typedef struct claim_differ {
    uint32_t path, frame, player;
} claim_differ;

typedef struct claim {
    uint32_t players, base, from;
    claim_path time; /* the rows of the frames as they are now */
    uint32_t kept_count, differ_count;
    claim_path kept[CLAIM_PATHS];
    claim_differ differs[CLAIM_PATHS];
} claim;

/* Reads the claim of a session's last roll. False if there is none, or its text isn't one. */
bool claim_read(claim *self, fazgrond_session *session);

/* Whether it is right. */
bool claim_is_right(const claim *self);

bool row_is_same(const fazgrond_row *one, const fazgrond_row *other);
#endif
