#include "duel.h"

#include <stdio.h>
#include <stdlib.h>
#include <string.h>

enum { HEADINGS = 8, MOST_SPEED = 512, SHOT_SPEED = 32, SHOT_LIFE = 60, COOL = 8, REACH = 2048, MOST_HITS = 65535 };

const int32_t duel_directions[8][2] = { { 16, 0 }, { 11, 11 }, { 0, 16 }, { -11, 11 }, { -16, 0 }, { -11, -11 }, { 0, -16 }, { 11, -11 } };

bool duel_open(duel *field, uint32_t ships) {
    static const duel_ship places[DUEL_SHIPS] = {
        { .x = 20480, .y = 15360, .heading = 0 },
        { .x = 61440, .y = 46080, .heading = 4 },
        { .x = 61440, .y = 15360, .heading = 4 },
        { .x = 20480, .y = 46080, .heading = 0 },
    };
    if (ships < 2 || ships > DUEL_SHIPS)
        return false;
    memset(field, 0, sizeof *field);
    field->ships = ships;
    for (uint32_t at = 0; at < ships; at++)
        field->ship[at] = places[at];
    return true;
}

/* The place after a frame at this speed, on a field of this size. */
static int32_t moved(int32_t size, int32_t place, int32_t speed) { return (place + speed + size) % size; }

static int32_t held(int32_t speed) { return speed > MOST_SPEED ? MOST_SPEED : speed < -MOST_SPEED ? -MOST_SPEED : speed; }

static void fire(duel *field, uint32_t number) {
    const duel_ship *ship = &field->ship[number - 1];
    const int32_t *direction = duel_directions[ship->heading];
    int32_t vx = ship->vx + SHOT_SPEED * direction[0], vy = ship->vy + SHOT_SPEED * direction[1];
    field->bullet[field->bullets++] = (duel_bullet){ number, SHOT_LIFE, ship->x, ship->y, vx, vy };
}

/* A ship turns, thrusts, cools its gun, fires and moves. */
static void run_ship(duel *field, uint32_t number, uint32_t word) {
    duel_ship *ship = &field->ship[number - 1];
    bool left = (word & DUEL_LEFT) != 0, right = (word & DUEL_RIGHT) != 0;
    if (left != right)
        ship->heading = (ship->heading + (left ? HEADINGS - 1 : 1)) % HEADINGS;
    if ((word & DUEL_THRUST) != 0) {
        ship->vx = held(ship->vx + duel_directions[ship->heading][0]);
        ship->vy = held(ship->vy + duel_directions[ship->heading][1]);
    }
    if (ship->cool > 0)
        ship->cool--;
    if ((word & DUEL_FIRE) != 0 && ship->cool == 0 && field->bullets < DUEL_BULLETS) {
        fire(field, number);
        ship->cool = COOL;
    }
    ship->x = moved(DUEL_WIDTH, ship->x, ship->vx);
    ship->y = moved(DUEL_HEIGHT, ship->y, ship->vy);
}

/* The way between two places, round the field if that is shorter. */
static int32_t distance(int32_t size, int32_t one, int32_t other) {
    int32_t gap = abs(one - other);
    return gap < size - gap ? gap : size - gap;
}

/* Counts a hit for the first ship that a bullet hits, and says whether there is one. */
static bool strike(duel *field, const duel_bullet *bullet) {
    for (uint32_t at = 0; at < field->ships; at++) {
        duel_ship *ship = &field->ship[at];
        if (at + 1 == bullet->owner || distance(DUEL_WIDTH, ship->x, bullet->x) > REACH
            || distance(DUEL_HEIGHT, ship->y, bullet->y) > REACH)
            continue;
        if (ship->hits < MOST_HITS)
            ship->hits++;
        return true;
    }
    return false;
}

void duel_step(duel *field, const uint32_t *words) {
    uint32_t kept = 0;
    for (uint32_t number = 1; number <= field->ships; number++)
        run_ship(field, number, words[number - 1]);
    for (uint32_t at = 0; at < field->bullets; at++) {
        duel_bullet bullet = field->bullet[at];
        bullet.x = moved(DUEL_WIDTH, bullet.x, bullet.vx);
        bullet.y = moved(DUEL_HEIGHT, bullet.y, bullet.vy);
        bullet.life--;
        if (!strike(field, &bullet) && bullet.life > 0)
            field->bullet[kept++] = bullet;
    }
    /* What is past the last bullet is always 0, so that equal states have equal bytes. */
    memset(&field->bullet[kept], 0, (field->bullets - kept) * sizeof field->bullet[0]);
    field->bullets = kept;
}

static bool is_on_field(int32_t x, int32_t y, int32_t vx, int32_t vy, int32_t speed) {
    return x >= 0 && x < DUEL_WIDTH && y >= 0 && y < DUEL_HEIGHT && vx >= -speed && vx <= speed && vy >= -speed && vy <= speed;
}

bool duel_is_state(const duel *field, uint32_t ships) {
    bool is_one = field->ships == ships && ships >= 2 && ships <= DUEL_SHIPS && field->bullets <= DUEL_BULLETS;
    for (uint32_t at = 0; is_one && at < ships; at++) {
        const duel_ship *ship = &field->ship[at];
        is_one = is_on_field(ship->x, ship->y, ship->vx, ship->vy, MOST_SPEED) && ship->heading < HEADINGS && ship->cool <= COOL
            && ship->hits <= MOST_HITS;
    }
    for (uint32_t at = 0; is_one && at < field->bullets; at++) {
        const duel_bullet *shot = &field->bullet[at];
        is_one = is_on_field(shot->x, shot->y, shot->vx, shot->vy, MOST_SPEED + 16 * SHOT_SPEED) && shot->owner >= 1 && shot->owner <= ships
            && shot->life >= 1 && shot->life <= SHOT_LIFE;
    }
    return is_one;
}

uint32_t duel_checksum(const duel *field) {
    const uint8_t *bytes = (const uint8_t *)field;
    uint32_t sum = 0x811c9dc5u;
    for (size_t at = 0; at < sizeof *field; at++)
        sum = (sum ^ bytes[at]) * 0x01000193u;
    return sum;
}

void duel_text(const duel *field, char *out, size_t room) {
    size_t length = 0;
    for (uint32_t at = 0; at < field->ships && length < room; at++) {
        const duel_ship *ship = &field->ship[at];
        length += (size_t)snprintf(out + length, room - length, "%d,%d,%d,%d,%u,%u,%u ", (int)ship->x, (int)ship->y, (int)ship->vx,
                                   (int)ship->vy, (unsigned)ship->heading, (unsigned)ship->cool, (unsigned)ship->hits);
    }
    if (length < room)
        snprintf(out + length, room - length, "b%u", (unsigned)field->bullets);
}
