/* A pad as a hand plays it: a direction is held for some 20 frames and mostly let go between two, A is tapped, B held at times. */
#ifndef RETRO_PADS_H
#define RETRO_PADS_H

#include <stdint.h>

typedef struct hand {
    uint64_t seed;
    uint32_t frame, until[3]; /* until when the direction, A and B stay as they are */
    uint32_t held[3];
} hand;

static inline hand hand_of(uint64_t seed, uint32_t player) { return (hand){ .seed = seed * 256 + player }; }

/* A number below another one: SplitMix64. */
static inline uint32_t hand_draw(hand *self, uint32_t below) {
    uint64_t mixed = (self->seed += 0x9e3779b97f4a7c15u);
    mixed = (mixed ^ mixed >> 30) * 0xbf58476d1ce4e5b9u;
    mixed = (mixed ^ mixed >> 27) * 0x94d049bb133111ebu;
    return (uint32_t)((mixed ^ mixed >> 31) % below);
}

/* The next frame's word: always the same ones, whatever the line is. */
static inline uint32_t hand_word(hand *self) {
    static const uint32_t ways[6] = { 1 << 6, 1 << 7, 1 << 4, 1 << 5, 1 << 6, 1 << 7 }; /* as libretro numbers them */
    uint32_t frame = self->frame++;
    if (frame >= self->until[0]) {
        self->held[0] = self->held[0] != 0 && hand_draw(self, 4) != 0 ? 0 : ways[hand_draw(self, 6)];
        self->until[0] = frame + (self->held[0] != 0 ? 8 + hand_draw(self, 25) : 2 + hand_draw(self, 12));
    }
    if (frame >= self->until[1]) {
        self->held[1] ^= 1 << 8;
        self->until[1] = frame + (self->held[1] != 0 ? 4 + hand_draw(self, 4) : 6 + hand_draw(self, 15));
    }
    if (frame >= self->until[2]) {
        self->held[2] ^= 1;
        self->until[2] = frame + (self->held[2] != 0 ? 5 + hand_draw(self, 10) : 60 + hand_draw(self, 120));
    }
    return self->held[0] | self->held[1] | self->held[2];
}
#endif
