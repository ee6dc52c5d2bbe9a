#include "habits.h"

enum { CROSS = 0xf0, PAD = 0xffff, FAR = 20 };

habits habits_new(void) {
    habits made = { .parts = { { .mask = CROSS } } };
    for (int bit = 0, part = 1; bit < 16; bit++)
        if ((CROSS >> bit & 1) == 0)
            made.parts[part++].mask = 1u << bit;
    return made;
}

static int age_class(uint32_t age) {
    static const uint32_t ends[HABIT_AGES - 1] = { 3, 5, 7, 10, 16, 32 };
    int at = 0;
    while (at < HABIT_AGES - 1 && age >= ends[at])
        at++;
    return at;
}

static void note_turn(habit *part, uint32_t to) {
    int found = -1, least = 0;
    for (int at = 0; at < part->count; at++) {
        part->turns[at].weight *= 0.9f;
        if (part->turns[at].to == to)
            found = at;
        if (part->turns[at].weight < part->turns[least].weight)
            least = at;
    }
    if (found < 0) {
        found = part->count < HABIT_TURNS ? part->count++ : least;
        part->turns[found].to = to;
        part->turns[found].weight = 0;
    }
    part->turns[found].weight += 1;
    part->held = to;
    part->age = 0;
}

void habits_note(habits *self, uint32_t word) {
    for (int at = 0; at < HABIT_PARTS; at++) {
        habit *part = &self->parts[at];
        uint32_t now = word & part->mask;
        int side = part->held != 0, class = age_class(part->age);
        part->tally[side][class].seen = part->tally[side][class].seen * 0.99f + 1;
        part->tally[side][class].turned = part->tally[side][class].turned * 0.99f + (float)(now != part->held);
        if (now != part->held)
            note_turn(part, now);
        part->age++;
    }
    self->held = word;
}

/* How likely it is that a part changes, so many frames after what is known. */
static double chance_of(const habit *part, uint32_t later) {
    int side = part->held != 0, class = age_class(part->age + later);
    return (part->tally[side][class].turned + 0.02) / (part->tally[side][class].seen + 1.5);
}

static int guess_part(const habits *self, const habit *part, guess like, double chance, guess *out, int room) {
    double weights = 0;
    int made = 0;
    for (int at = 0; at < part->count; at++)
        weights += part->turns[at].to != part->held ? part->turns[at].weight : 0;
    for (int at = 0; at < part->count && made < room; at++) {
        if (part->turns[at].to == part->held)
            continue;
        out[made] = like;
        out[made].word = (self->held & PAD & ~part->mask) | part->turns[at].to;
        out[made++].worth = chance * part->turns[at].weight / weights * like.worth;
    }
    return made;
}

int habits_guess(const habits *self, uint32_t player, uint32_t known, uint32_t now, guess *out, int room) {
    double stays = 1; /* how likely it is that nothing has changed so far */
    int made = 0;
    for (uint32_t frame = known; frame < now && frame < known + FAR; frame++) {
        double all = 1;
        for (int at = 0; at < HABIT_PARTS; at++)
            all *= 1 - chance_of(&self->parts[at], frame - known);
        for (int at = 0; at < HABIT_PARTS; at++) {
            double turn = chance_of(&self->parts[at], frame - known);
            guess like = { .player = player, .frame = frame, .worth = (double)(now - frame) + 0.25 };
            made += guess_part(self, &self->parts[at], like, stays * all * turn / (1 - turn + 1e-6), out + made, room - made);
        }
        stays *= all;
    }
    return made;
}
