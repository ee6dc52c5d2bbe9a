/* Matches of machines over the library, in one process and in no time, in which things go wrong. `usage` says how it is begun. */
#include "../../../programs/common/options.h"
#include "trials.h"

#include <string.h>

static const char usage[] =
    "trials                          all trials, a few cases of each; the last line is `N passed, M failed`\n"
    "trials NAME [COUNT [SEED]]      one of them: rematches, restarts, copies, clocks, stalls, standing, honest, lies,\n"
    "                                viewers, sessions, guesses, habits, lines\n"
    "trials shares [COUNT [SEED]]    what guesses by habits save: frames run again, those of GGPO, jobs, and\n"
    "                                those for whose states there was no room\n"
    "trials play [OPTIONS] [FAULT..] a match, and what its machines are told; without more it says how\n";

static char name[128];

#define CHECKS_OF "%s", name
#include "../../check.h"

void trial_case(const char *format, ...) {
    if (name[0] != 0)
        checks_end_case();
    va_list args;
    va_start(args, format);
    vsnprintf(name, sizeof name, format, args);
    va_end(args);
}

void trial_must(bool is_so, const char *what) {
    if (!is_so)
        CHECKS_SAY("%s\n", what);
}

void trial_must_of(bool is_so, uint32_t who, const char *what) {
    char text[160];
    snprintf(text, sizeof text, "machine %u: %s", (unsigned)who, what);
    trial_must(is_so, text);
}

static unsigned kind_of(uint32_t code) {
    switch (code) {
    case FAZGROND_INTERRUPTED:
    case FAZGROND_RESUMED: return MAY_INTERRUPT;
    case FAZGROND_LEFT:
    case FAZGROND_DISCONNECTED: return MAY_LEAVE;
    case FAZGROND_STALLED: return MAY_STALL;
    case FAZGROND_MISSING:
    case FAZGROND_STRANGERS: return MAY_MISS;
    case FAZGROND_RESTARTED: return MAY_RESTART;
    case FAZGROND_REFUSED: return MAY_REFUSE;
    case FAZGROND_DESYNC: return MAY_DESYNC;
    case FAZGROND_MISMATCH: return MAY_MISMATCH;
    case FAZGROND_DROPPED: return MAY_DROP;
    case FAZGROND_CUT_OFF: return MAY_BE_CUT_OFF;
    default: return 0;
    }
}

static void must_not_be_told(const told *one) {
    char text[160];
    snprintf(text, sizeof text, "at %.3f s machine %u was told %s of machine %u", (double)one->at / 1e3, (unsigned)one->who,
             world_name(one->event.code), (unsigned)one->event.machine);
    trial_must(false, text);
}

static bool is_now(const world *self, const told *one) {
    const machine *at = &self->machine[one->who];
    return at->is_open && !at->is_dead && one->opening == at->opening;
}

unsigned trial_kinds(const world *self, uint32_t who, uint32_t since) {
    unsigned kinds = 0;
    for (size_t at = 0; at < self->events; at++) {
        const told *one = &self->told[at];
        if (one->who == who && one->opening == self->machine[who].opening && one->at >= since)
            kinds |= kind_of(one->event.code);
    }
    return kinds;
}

void trial_nothing_but(const world *self, unsigned allowed) {
    trial_must(self->wrong == NULL, self->wrong != NULL ? self->wrong : "");
    for (size_t at = 0; at < self->events; at++)
        if (is_now(self, &self->told[at]) && (kind_of(self->told[at].event.code) & ~allowed) != 0)
            must_not_be_told(&self->told[at]);
}

void trial_only_of(const world *self, uint32_t of, unsigned allowed) {
    trial_nothing_but(self, allowed);
    for (size_t at = 0; at < self->events; at++) {
        const told *one = &self->told[at];
        bool is_of = one->event.code == FAZGROND_DISCONNECTED ? (one->event.player - 1) % self->setup.machines == of
                                                              : one->event.machine == of;
        if (is_now(self, one) && one->who != of && kind_of(one->event.code) != 0 && !is_of)
            must_not_be_told(one);
    }
}

static const struct {
    const char *name;
    void (*run)(uint32_t count, uint32_t seed);
    uint32_t few; /* cases */
} trials[] = {
    { "rematches", trial_rematches, 8 }, { "restarts", trial_restarts, 1 }, { "copies", trial_copies, 2 },   { "clocks", trial_clocks, 1 },
    { "stalls", trial_stalls, 1 },       { "standing", trial_standing, 1 }, { "honest", trial_honest, 8 },   { "lies", trial_lies, 1 },
    { "viewers", trial_viewers, 2 },     { "sessions", trial_sessions, 2 }, { "guesses", trial_guesses, 1 }, { "habits", trial_habits, 1 },
    { "lines", trial_lines, 4 },
};

int main(int count, char **words) {
    bool is_found = count == 1;
    if (count > 1 && strcmp(words[1], "play") == 0)
        return trial_play(count - 1, words + 1);
    if (is_help(words, usage))
        return 0;
    if (count > 1 && strcmp(words[1], "shares") == 0)
        return trial_shares(count > 2 ? (uint32_t)atoi(words[2]) : 3, count > 3 ? (uint32_t)atoi(words[3]) : 1);
    for (size_t at = 0; at < sizeof trials / sizeof *trials; at++) {
        if (count > 1 && strcmp(words[1], trials[at].name) != 0)
            continue;
        is_found = true;
        trials[at].run(count > 2 ? (uint32_t)atoi(words[2]) : trials[at].few, count > 3 ? (uint32_t)atoi(words[3]) : 1);
    }
    if (!is_found) {
        fputs(usage, stderr);
        return 2;
    }
    checks_end_case();
    return checks_end();
}
