/* Numbers by chance: PCG32 (XSH RR) of a seed and a stream. Whatever has a stream of its own is drawn alike, whatever else is drawn. */
#ifndef SIM_DRAWS_H
#define SIM_DRAWS_H

#include <stdint.h>

typedef struct draws {
    uint64_t state, increment;
} draws;

static inline void draws_step(draws *self) { self->state = self->state * 6364136223846793005u + self->increment; }

static inline draws draws_of(uint64_t seed, uint64_t stream) {
    draws made = { .increment = stream << 1 | 1 };
    made.state = seed + made.increment;
    draws_step(&made);
    return made;
}

static inline uint32_t draws_next(draws *self) {
    uint64_t state = self->state;
    uint32_t mixed = (uint32_t)((state >> 18 ^ state) >> 27), turn = (uint32_t)(state >> 59);
    draws_step(self);
    return mixed >> turn | mixed << (-turn & 31);
}

/* A number below another. */
static inline uint32_t draws_below(draws *self, uint32_t count) { return draws_next(self) % count; }

/* A number of 64 bits that isn't 0. */
static inline uint64_t draws_wide(draws *self) {
    uint64_t high = draws_below(self, UINT32_MAX), low = draws_below(self, UINT32_MAX);
    return (high << 32) + low + 1;
}
#endif
