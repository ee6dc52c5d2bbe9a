/* A sync test: does a game come out the same each time that it is run? Eight frames are run, and then the same eight once more, from
 * the state before them; each must come out as it did at first. A game needs no session for it. */
#include <fazgrond.h>
#include <inttypes.h>
#include <stdbool.h>
#include <stdio.h>
#include <string.h>

#define FRAMES 8

typedef struct state {
    int32_t place;
    int32_t speed;
} state;

typedef void step_function(state *, const fazgrond_row *);

/* A game that is right: the next state is made of the state and the row, and of nothing else. */
static void right(state *now, const fazgrond_row *row) {
    now->speed += (int32_t)(row->words[0] & 3) - (int32_t)(row->words[1] & 3);
    now->place += now->speed;
}

/* A game that isn't: it has a counter beside its state. */
static void wrong(state *now, const fazgrond_row *row) {
    static uint32_t calls;
    right(now, row);
    if (++calls % 100 == 0)
        now->place++;
}

/* Two players who press something else in each frame. */
static fazgrond_row row_of(uint32_t frame) {
    fazgrond_row row = { .count = 2, .words = { frame * 7 % 5, frame * 3 % 4 } };
    return row;
}

/* Runs eight frames from this one on, and puts the state after each into `after`. */
static void run(step_function *step, state *now, uint32_t frame, state *after) {
    for (uint32_t at = 0; at < FRAMES; at++) {
        fazgrond_row row = row_of(frame + at);
        step(now, &row);
        after[at] = *now;
    }
}

/* Runs so many times eight frames. Whether all came out the same twice; if not, `frame` is the first that didn't. */
static bool is_same(step_function *step, uint32_t times, uint32_t *frame) {
    state now = { 0, 0 };
    for (*frame = 0; *frame < FRAMES * times; *frame += FRAMES) {
        state before = now, first[FRAMES], second[FRAMES];
        run(step, &now, *frame, first);
        run(step, &before, *frame, second);
        for (uint32_t at = 0; at < FRAMES; at++) {
            if (memcmp(&first[at], &second[at], sizeof(state)) != 0) {
                *frame += at;
                return false;
            }
        }
    }
    return true;
}

static void test(const char *name, step_function *step) {
    uint32_t frame;
    if (is_same(step, 10, &frame))
        printf("%s: %" PRIu32 " frames came out the same twice\n", name, frame);
    else
        printf("%s: frame %" PRIu32 " came out different\n", name, frame);
}

int main(void) {
    test("right", right);
    test("wrong", wrong);
    return 0;
}
