/* A program of scenarios: a table of what is played in a world, each for a range of two numbers. What isn't as it has to be ends its
 * case. The last line is `N passed, M failed`. A file that includes this has the program's `main`, which is
 *
 *     int main(int count, char **words) { return scenarios_play(table, sizeof table / sizeof *table, count, words); }
 *
 * and is begun with no word; with `few`, for some cases of each; with `each`, for those that look at all that a slow run has to see; or
 * with COUNT [FIRST], for so many cases of those that are drawn, from this number on. */
#ifndef SIM_SCENARIO_H
#define SIM_SCENARIO_H

#include <setjmp.h>
#include <string.h>

static struct {
    const char *name;
    unsigned one, two;
    jmp_buf way_out;
} of_case;

#define CHECKS_OF "%s (%u, %u)", of_case.name, of_case.one, of_case.two
#define CHECKS_LEAVE longjmp(of_case.way_out, 1)
#include "../check.h"
#include "world.h"

/* Numbers from one to another, each so many-th (0: the first alone); and, if few are played, each so many-th (0: the first alone). */
typedef struct range {
    uint32_t first, last, step, few;
} range;

/* Cases are played if all are, also if few are, or always; or are drawn by their first number, of which the range says how many. */
typedef enum pace { ALL, FEW, EACH, DRAWN } pace;

typedef struct scenario {
    const char *name;
    void (*play)(uint32_t one, uint32_t two);
    range one, two;
    pace pace;
} scenario;

/* Nothing is wrong with what machines did in a world. */
static inline void is_well(const world *self) {
    if (self->wrong != NULL)
        CHECKS_SAY("%s\n", self->wrong);
    MUST(self->wrong == NULL);
}

static inline void scenario_play_case(const scenario *self, uint32_t one, uint32_t two) {
    of_case.name = self->name;
    of_case.one = one;
    of_case.two = two;
    if (setjmp(of_case.way_out) == 0)
        self->play(one, two);
    checks_end_case();
}

static inline uint32_t scenario_step(const range *of, bool is_few) {
    uint32_t step = is_few ? of->few : of->step;
    return step != 0 ? step : UINT32_MAX - of->last;
}

static inline void scenario_play(const scenario *self, pace pace) {
    bool is_few = pace == FEW;
    for (uint32_t one = self->one.first; one <= self->one.last; one += scenario_step(&self->one, is_few)) {
        for (uint32_t two = self->two.first; two <= self->two.last; two += scenario_step(&self->two, is_few)) {
            scenario_play_case(self, one, two);
            if (pace == EACH)
                return;
        }
    }
}

static inline int scenarios_play(const scenario *table, size_t length, int count, char **words) {
    pace pace = count < 2 ? ALL : strcmp(words[1], "few") == 0 ? FEW : strcmp(words[1], "each") == 0 ? EACH : DRAWN;
    uint32_t cases = pace == DRAWN ? (uint32_t)strtoul(words[1], NULL, 10) : 0;
    uint32_t first = count > 2 ? (uint32_t)strtoul(words[2], NULL, 10) : 1;
    for (size_t at = 0; at < length; at++) {
        scenario one = table[at];
        if (pace == DRAWN && one.pace == DRAWN)
            one.one = (range){ first, first + cases - 1, 1, 1 };
        if (pace == DRAWN ? one.pace == DRAWN && cases > 0 : one.pace == DRAWN ? pace != EACH : one.pace >= pace)
            scenario_play(&one, pace);
    }
    return checks_end();
}

#endif
