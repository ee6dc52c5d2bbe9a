#include "plan.h"

bool plan_has(const uint32_t frames[FAZGROND_MACHINES]) {
    for (uint32_t at = 0; at < FAZGROND_MACHINES; at++)
        if (frames[at] != NEVER)
            return true;
    return false;
}

bool plan_is_late(const plan *self, uint32_t machine) { return self->stops[machine] == NEVER && self->comes[machine] != NEVER; }

/* ---- A split. */

static bool is_apart(const plan *self, uint32_t machine) { return self->splits[machine] != NEVER; }

uint32_t plan_count_with(const plan *self, uint32_t machine) {
    uint32_t count = 0;
    for (uint32_t other = 0; other < self->machines; other++)
        count += is_apart(self, other) == is_apart(self, machine);
    return count;
}

/* The larger part plays on, or of two that are as large the one with machine 0. */
static bool plays_on(const plan *self, uint32_t machine) {
    uint32_t with = plan_count_with(self, machine), without = self->machines - with;
    return without < with || (with == without && is_apart(self, machine) == is_apart(self, 0));
}

/* One of the two alone is named, and its frame has come. */
static bool is_parted(const plan *self, uint32_t one, uint32_t other, uint32_t frame) {
    uint32_t at = is_apart(self, one) ? self->splits[one] : self->splits[other];
    return is_apart(self, one) != is_apart(self, other) && at <= frame;
}

/* ---- Lines. */

static bool is_line(const line_at *line, uint32_t one, uint32_t other, uint32_t since, uint32_t last) {
    bool is_between = (line->one == one && line->other == other) || (line->one == other && line->other == one);
    return is_between && since <= line->frame && line->frame <= last;
}

static bool is_healed(const plan *self, uint32_t one, uint32_t other, uint32_t since, uint32_t last) {
    for (uint32_t at = 0; at < self->heal_count; at++)
        if (is_line(&self->heals[at], one, other, since, last))
            return true;
    return false;
}

bool plan_is_broken(const plan *self, uint32_t one, uint32_t other, uint32_t frame) {
    for (uint32_t at = 0; at < self->break_count; at++)
        if (is_line(&self->breaks[at], one, other, 0, frame) && !is_healed(self, one, other, self->breaks[at].frame, frame))
            return true;
    return is_parted(self, one, other, frame);
}

bool plan_breaks_lines(const plan *self) { return self->break_count > 0 || plan_has(self->splits); }

bool plan_goes_on(const plan *self) { return self->delay_count > 0 || plan_has(self->comes); }

/* ---- Who stays. */

bool plan_stays(const plan *self, uint32_t machine) {
    bool is_back = self->stops[machine] == NEVER || self->comes[machine] != NEVER;
    return is_back && (!plan_has(self->splits) || plays_on(self, machine));
}

uint32_t plan_first_staying(const plan *self) {
    uint32_t machine = 0;
    while (machine < self->machines && !plan_stays(self, machine))
        machine++;
    return machine;
}

uint32_t plan_count_staying(const plan *self) {
    uint32_t count = 0;
    for (uint32_t machine = 0; machine < self->machines; machine++)
        count += plan_stays(self, machine);
    return count;
}

/* ---- Delays: the one whose frame came last, of several the first. */

uint32_t plan_wanted_delay(const plan *self, uint32_t machine, uint32_t frame) {
    const delay_at *last = NULL;
    for (uint32_t at = 0; at < self->delay_count; at++) {
        const delay_at *named = &self->delays[at];
        if (named->machine == machine && named->frame <= frame && (last == NULL || last->frame < named->frame))
            last = named;
    }
    return last != NULL ? last->delay : NEVER;
}
