/* A duel of two to four ships: the rules alone. They are those of the game `duel` of the program rollduel (docs/SCRIPTS.md). */
#ifndef DUEL_H
#define DUEL_H

#include <stdbool.h>
#include <stddef.h>
#include <stdint.h>

enum { DUEL_SHIPS = 4, DUEL_BULLETS = 32 };
/* The field, in 1/256 of a unit. It wraps. */
enum { DUEL_WIDTH = 81920, DUEL_HEIGHT = 61440 };
/* What a player holds down: the bits of a word. */
enum { DUEL_THRUST = 1, DUEL_LEFT = 2, DUEL_RIGHT = 4, DUEL_FIRE = 8 };

typedef struct duel_ship {
    int32_t x, y, vx, vy;
    uint32_t heading; /* eight of them: 0 is to the right, 2 downwards */
    uint32_t cool;    /* the frames until it can fire again */
    uint32_t hits;    /* how often it was hit */
} duel_ship;

typedef struct duel_bullet {
    uint32_t owner; /* the number of the ship that fired it, from 1 */
    uint32_t life;  /* the frames until it vanishes */
    int32_t x, y, vx, vy;
} duel_bullet;

typedef struct duel {
    uint32_t ships, bullets;
    duel_ship ship[DUEL_SHIPS];
    duel_bullet bullet[DUEL_BULLETS];
} duel;

/* What a heading adds to a speed, to the right and downwards. */
extern const int32_t duel_directions[8][2];

/* The opening, with so many ships. False if that isn't 2 to 4. */
bool duel_open(duel *field, uint32_t ships);

/* A frame, with a word for each ship. */
void duel_step(duel *field, const uint32_t *words);

/* Whether bytes of a field's size, which come from elsewhere, are a state with so many ships: then it is safe to go on from it. */
bool duel_is_state(const duel *field, uint32_t ships);

/* A number that is another for most other states. */
uint32_t duel_checksum(const duel *field);

/* The state as text, as rollduel writes it. 512 bytes are enough for it. */
void duel_text(const duel *field, char *out, size_t room);
#endif
