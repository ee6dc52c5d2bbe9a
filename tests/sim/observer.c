#include "observer.h"

#include "room.h"

#include <string.h>

enum { SOON = 2 };

/* ---- Rolls. */

/* The rows of the frames as they are now: from the one that was settled after the last roll, up to the current one. */
static void take_rows(const observer *self, fazgrond_session *session, shown *taken) {
    taken->count = 0;
    for (uint32_t at = self->settled; at < self->claim.base && taken->count < OBSERVER_ROWS; at++)
        if (fazgrond_settled_row(session, at, &taken->rows[taken->count]) == FAZGROND_OK)
            taken->count++;
    for (uint32_t at = 0; at < self->claim.time.count && taken->count < OBSERVER_ROWS; at++)
        taken->rows[taken->count++] = self->claim.time.rows[at];
}

/* Keeps those of the rows that aren't settled. */
static void keep_rows(observer *self, fazgrond_session *session, const shown *taken) {
    uint32_t settled = 0;
    fazgrond_settled(session, &settled);
    uint32_t passed = settled - self->settled;
    self->shown.count = taken->count > passed ? taken->count - passed : 0;
    memcpy(self->shown.rows, taken->rows + (taken->count - self->shown.count), self->shown.count * sizeof *self->shown.rows);
    self->settled = settled;
    fazgrond_frame(session, &self->frame);
}

void observer_begin(observer *self, fazgrond_session *session, uint32_t base) {
    shown taken;
    uint32_t frame = 0;
    self->base = base;
    self->frame = self->settled = self->shown.count = 0;
    fazgrond_frame(session, &frame);
    if (frame > 0 && claim_read(&self->claim, session)) {
        take_rows(self, session, &taken);
        keep_rows(self, session, &taken);
    }
}

static uint32_t first_player(const fazgrond_row *one, const fazgrond_row *other) {
    for (uint32_t at = 0; at < one->count; at++)
        if (one->words[at] != other->words[at] || ((one->gone ^ other->gone) >> at & 1) != 0)
            return at + 1;
    return 0;
}

/* What the roll was that left these rows, of a session that was at the observer's frame before. */
static roll roll_of(const observer *self, const shown *taken) {
    roll made = { .at = self->base + self->frame };
    made.rerun = self->frame > self->claim.from ? self->frame - self->claim.from : 0;
    for (uint32_t at = 0; at < self->shown.count && at < taken->count; at++) {
        const fazgrond_row *before = &self->shown.rows[at], *after = &taken->rows[at];
        if (row_is_same(before, after))
            continue;
        made.ggpo = self->frame - (self->settled + at);
        made.player = first_player(before, after);
        made.frame = self->base + self->settled + at;
        made.has_left = after->gone >> (made.player - 1) & 1;
        break;
    }
    return made;
}

static void count_roll(roll_totals *all, const roll *one) {
    all->rollbacks += one->rerun > 0;
    all->rerun += one->rerun;
    all->ggpo += one->ggpo;
    all->deepest = one->rerun > all->deepest ? one->rerun : all->deepest;
}

bool observer_note_roll(observer *self, fazgrond_session *session) {
    shown taken;
    bool is_read = claim_read(&self->claim, session);
    self->claims++;
    self->wrong += !is_read || !claim_is_right(&self->claim);
    if (!is_read)
        return false;
    take_rows(self, session, &taken);
    self->last = roll_of(self, &taken);
    count_roll(&self->totals, &self->last);
    keep_rows(self, session, &taken);
    return self->last.rerun > 0 || self->last.ggpo > 0;
}

/* ---- Words that are held back. */

static void push_until(uint32_t **turns, uint32_t *count, uint32_t *room, uint32_t until, uint32_t turn) {
    if (until > *room) {
        *room = 2 * until + 64;
        *turns = room_grown(*turns, *room, sizeof **turns);
    }
    while (*count < until)
        (*turns)[(*count)++] = turn;
}

void observer_note_turn(observer *self, fazgrond_session *session, const fazgrond_entry *waiting, size_t count, uint32_t turn) {
    uint32_t waits[FAZGROND_PLAYERS] = { 0 }, known;
    for (size_t at = 0; at < count; at++)
        waits[waiting[at].player - 1]++;
    for (uint32_t place = 0; place < FAZGROND_PLAYERS; place++) {
        hearing *of = &self->hearings[place];
        if (fazgrond_confirmed(session, (uint8_t)(place + 1), &known) != FAZGROND_OK)
            continue;
        push_until(&of->told, &of->told_count, &of->told_room, known, turn);
        push_until(&of->came, &of->came_count, &of->came_room, known + waits[place], turn);
    }
}

held_totals observer_held(const observer *self) {
    held_totals all = { 0 };
    for (uint32_t place = 0; place < FAZGROND_PLAYERS; place++)
        for (uint32_t at = 0; at < self->hearings[place].told_count; at++) {
            uint32_t turns = self->hearings[place].told[at] - self->hearings[place].came[at];
            all.words += turns > 0;
            all.soon += turns > 0 && turns <= SOON;
            all.turns += turns;
        }
    return all;
}

void observer_close(observer *self) {
    for (uint32_t place = 0; place < FAZGROND_PLAYERS; place++) {
        free(self->hearings[place].came);
        free(self->hearings[place].told);
    }
}
