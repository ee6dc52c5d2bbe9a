/* Who makes datagrams that are to deceive one machine of a match. It knows the match's number and all draws, and never seals by the key
 * that is right. */
#ifndef SIM_ENEMY_H
#define SIM_ENEMY_H

#include "network.h"

enum { ENEMY_KEEPS = 64, ENEMY_BYTES = 1300 };

/* How a datagram is to deceive: it is drawn; it is a real one with a bit changed; one that was sealed for another match or opening; one of
 * a machine that is gone; or one that was heard before, and may be heard again. */
typedef enum trick { TRICK_NOISE, TRICK_CHANGED, TRICK_FOREIGN, TRICK_GONE, TRICK_AGAIN } trick;

/* The real datagrams that were heard last. */
typedef struct heard {
    datagram *kept[ENEMY_KEEPS];
    uint32_t count, oldest;
} heard;

typedef struct enemy {
    draws draws;
    uint64_t number;                      /* of the match */
    uint64_t openings[FAZGROND_MACHINES]; /* the draws of all machines */
    uint32_t me;                          /* the machine that it deceives */
    heard lasting, parting;               /* of machines that stay, and of those that go silent */
    size_t length;                        /* what was made last */
    uint8_t bytes[ENEMY_BYTES + 4];
} enemy;

/* Sees a datagram that its machine has heard, and keeps a copy. */
void enemy_see(enemy *self, const datagram *come, bool stays);

/* Makes a datagram for its machine, which regards these machines as gone, and says how it is to deceive. */
trick enemy_make(enemy *self, const bool gone[FAZGROND_MACHINES]);

void enemy_close(enemy *self);
#endif
