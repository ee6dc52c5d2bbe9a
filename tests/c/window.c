/* Which numbers a window takes, beside a model: window [NUMBERS]
 *
 * The model has all numbers that were taken, as a bit each, and their highest: a number is taken if its bit isn't set and it is no
 * more than 1,024 below the highest. */
#include "../check.h"

#include <fazgrond.h>
#include <stdbool.h>
#include <stdio.h>
#include <stdlib.h>
#include <string.h>

static uint64_t drawn = 88172645463325252;

static uint64_t draw(void) {
    drawn ^= drawn << 13;
    drawn ^= drawn >> 7;
    return drawn ^= drawn << 17;
}

enum { SPAN = 1 << 24, REACH = 1024 };

typedef struct model {
    uint64_t base; /* numbers from here on, SPAN of them */
    uint64_t highest;
    bool has_any;
    uint8_t *taken;
} model;

static bool model_is_new(const model *self, uint64_t number) {
    uint64_t at = number - self->base;
    return !(self->taken[at / 8] >> (at % 8) & 1) && (!self->has_any || number >= self->highest || self->highest - number <= REACH);
}

static void model_take(model *self, uint64_t number) {
    uint64_t at = number - self->base;
    self->taken[at / 8] |= (uint8_t)(1 << (at % 8));
    if (!self->has_any || number > self->highest)
        self->highest = number;
    self->has_any = true;
}

/* The next number to try: near the highest, at the edge of what is too old, taken before, or after a leap. */
static uint64_t tried(const model *self) {
    uint64_t high = self->has_any ? self->highest - self->base : 0;
    uint64_t at = high;
    switch (draw() % 8) {
    case 0: at = high + 1; break;
    case 1: at = high + draw() % 70; break;
    case 2: at = high + draw() % 2400; break;
    case 3: at = high - draw() % 5 - 1022; break;
    case 4: at = high - draw() % 1300; break;
    case 5: at = high - draw() % 64; break;
    case 6: at = high - draw() % 3000; break;
    case 7: at = draw() % 50 == 0 ? high + draw() % 40000 : high; break;
    }
    return self->base + (at < SPAN ? at : high);
}

static void beside_model(uint64_t base, long numbers) {
    model all = { .base = base, .taken = calloc(SPAN / 8, 1) };
    fazgrond_window window = { 0 };
    long taken = 0, wrong = 0;
    for (long n = 0; n < numbers; n++) {
        uint64_t number = tried(&all);
        bool due = model_is_new(&all, number);
        fazgrond_window before = window;
        wrong += fazgrond_window_is_new(&window, number) != due;
        wrong += memcmp(&before, &window, sizeof window) != 0;
        if (draw() % 8 == 0)
            continue; /* it was forged: nothing is noted */
        wrong += fazgrond_window_note(&window, number) != due;
        wrong += !due && memcmp(&before, &window, sizeof window) != 0;
        if (due) {
            model_take(&all, number);
            taken++;
        }
    }
    CHECK_IS(wrong, 0);
    CHECK_IS(window.highest, all.highest);
    CHECK_IS(taken > numbers / 8 && taken < numbers, true);
    free(all.taken);
}

/* What the oldest and the newest within reach are to each other. */
static void of_edges(uint64_t high) {
    fazgrond_window window = { 0 };
    CHECK_IS(fazgrond_window_note(&window, high), 1);
    CHECK_IS(fazgrond_window_note(&window, high), 0);
    CHECK_IS(fazgrond_window_is_new(&window, high - FAZGROND_WINDOW_REACH), 1);
    CHECK_IS(fazgrond_window_is_new(&window, high - FAZGROND_WINDOW_REACH - 1), 0);
    CHECK_IS(fazgrond_window_note(&window, high - FAZGROND_WINDOW_REACH - 1), 0);
    CHECK_IS(fazgrond_window_note(&window, high - FAZGROND_WINDOW_REACH), 1);
    CHECK_IS(fazgrond_window_note(&window, high - FAZGROND_WINDOW_REACH), 0);
    CHECK_IS(fazgrond_window_note(&window, high), 0);
    for (uint64_t below = FAZGROND_WINDOW_REACH - 1; below > 0; below--)
        CHECK_IS(fazgrond_window_note(&window, high - below), 1);
    for (uint64_t below = 0; below <= FAZGROND_WINDOW_REACH; below++)
        CHECK_IS(fazgrond_window_is_new(&window, high - below), 0);
    CHECK_IS(window.highest, high);
}

int main(int argc, char **argv) {
    long numbers = argc > 1 ? atol(argv[1]) : 70000;
    beside_model(0, numbers);
    beside_model((UINT64_C(1) << 56) - SPAN, numbers);
    beside_model(UINT64_MAX - SPAN + 1, numbers);
    for (uint64_t high = 2000; high < 2200; high++)
        of_edges(high);
    of_edges(UINT64_MAX);
    fazgrond_window window = { 0 };
    CHECK_IS(fazgrond_window_note(&window, 0), 1);
    CHECK_IS(fazgrond_window_note(&window, 0), 0);
    CHECK_IS(fazgrond_window_note(&window, UINT64_MAX), 1);
    CHECK_IS(fazgrond_window_note(&window, 0), 0);
    return checks_end();
}
