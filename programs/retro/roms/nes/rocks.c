/* The NES game: two to four ships, shots, falling rocks, random numbers, scores, and a beep at each hit. */
#include <stdint.h>

extern uint8_t pads[4], signs[2];
#pragma zpsym("pads")
#pragma zpsym("signs")
extern uint8_t oam[256];
void wait_frame(void);
void read_pads(void);

#define RIGHT 1
#define LEFT 2
#define DOWN 4
#define UP 8
#define B 64
#define A 128
#define SHIPS 4
#define ROCKS 12
#define SHOTS 8

#define APU(at) (*(volatile uint8_t *)(0x4000 + (at)))

typedef struct ship {
    uint8_t x, y, reload;
    uint16_t score;
} ship;
typedef struct thing {
    uint8_t x, y, on, speed;
} thing;

static ship ships[SHIPS];
static thing rocks[ROCKS], shots[SHOTS];
static uint16_t seed = 0xace1;
static uint8_t count, next;

static uint8_t draw(void) {
    uint8_t times = 5;
    do {
        if (seed & 1)
            seed = (seed >> 1) ^ 0xb400;
        else
            seed >>= 1;
    } while (--times);
    return (uint8_t)seed;
}

static void beep(uint8_t period) {
    APU(0) = 0x86;
    APU(1) = 0;
    APU(2) = period;
    APU(3) = 0x08;
}

static void sprite(uint8_t x, uint8_t y, uint8_t tile, uint8_t colour) {
    oam[next] = y;
    oam[next + 1] = tile;
    oam[next + 2] = colour;
    oam[next + 3] = x;
    next += 4;
}

static void fire(uint8_t me, uint8_t speed) {
    uint8_t at;
    for (at = me * 2; at < me * 2 + 2; at++)
        if (!shots[at].on) {
            shots[at].on = 1;
            shots[at].x = ships[me].x;
            shots[at].y = ships[me].y - 6;
            shots[at].speed = speed;
            ships[me].reload = 8;
            return;
        }
}

static void fly(uint8_t me, uint8_t pad) {
    ship *s = &ships[me];
    if (pad & LEFT && s->x > 8)
        s->x -= 2;
    if (pad & RIGHT && s->x < 240)
        s->x += 2;
    if (pad & UP && s->y > 24)
        s->y -= 2;
    if (pad & DOWN && s->y < 216)
        s->y += 2;
    if (pad)
        draw(); /* what a player presses moves the random numbers on */
    if (s->reload)
        s->reload--;
    else if (pad & (A | B))
        fire(me, pad & B ? 3 : 5);
}

static uint8_t is_near(uint8_t a, uint8_t b) {
    uint8_t d = a - b;
    return d < 8 || d > 248;
}

static void fall(thing *r) {
    uint8_t at;
    r->y += r->speed;
    if (r->y > 224) {
        r->on = 0;
        return;
    }
    for (at = 0; at < SHOTS; at++)
        if (r->on && shots[at].on && is_near(shots[at].x, r->x) && is_near(shots[at].y, r->y)) {
            shots[at].on = 0;
            r->on = 0;
            ships[at >> 1].score += 10;
            beep(0x40 + draw());
        }
    for (at = 0; at < count; at++)
        if (r->on && is_near(ships[at].x, r->x) && is_near(ships[at].y, r->y)) {
            r->on = 0;
            if (ships[at].score)
                ships[at].score--;
            beep(0xf0);
        }
}

static void move(void) {
    uint8_t at;
    for (at = 0; at < SHOTS; at++)
        if (shots[at].on) {
            shots[at].y -= shots[at].speed;
            if (shots[at].y < 16 || shots[at].y > 240)
                shots[at].on = 0;
        }
    for (at = 0; at < ROCKS; at++)
        if (rocks[at].on)
            fall(&rocks[at]);
        else if ((draw() & 31) == 0) {
            rocks[at].on = 1;
            rocks[at].x = 8 + draw() % 232;
            rocks[at].y = 8;
            rocks[at].speed = 1 + (draw() & 1);
        }
}

static void digits(uint8_t x, uint16_t number, uint8_t colour) {
    uint8_t at;
    for (at = 0; at < 4; at++) {
        sprite(x, 10, 1 + number % 10, colour);
        number /= 10;
        x -= 8;
    }
}

static void show(void) {
    uint8_t at;
    next = 0;
    for (at = 0; at < count; at++)
        digits(40 + at * 64, ships[at].score, at); /* of nine in a line the last one isn't shown */
    for (at = 0; at < count; at++)
        sprite(ships[at].x, ships[at].y, 17, at);
    for (at = 0; at < SHOTS; at++)
        sprite(shots[at].x, shots[at].on ? shots[at].y : 255, 18, at >> 1);
    for (at = 0; at < ROCKS; at++)
        sprite(rocks[at].x, rocks[at].on ? rocks[at].y : 255, 19, 3);
    while (next)
        sprite(0, 255, 0, 0);
}

void main(void) {
    uint8_t at;
    for (at = 0; at < SHIPS; at++) {
        ships[at].x = 32 + at * 56;
        ships[at].y = 200;
    }
    for (;;) {
        wait_frame();
        read_pads();
        count = signs[0] == 0x10 && signs[1] == 0x20 ? 4 : 2;
        for (at = 0; at < count; at++)
            fly(at, pads[at]);
        move();
        show();
    }
}
