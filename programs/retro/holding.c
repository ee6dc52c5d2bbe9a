#include "holding.h"

#include <string.h>

/* The first words aren't held back any more. */
static void let_go(holding *self, uint32_t count) {
    uint32_t later = self->waiting > 0 ? self->turn - self->came[0] : 0;
    count = count < self->waiting ? count : self->waiting;
    if (later > 0) {
        self->held++;
        self->later[later < HOLDING_TURNS ? later : HOLDING_TURNS]++;
    }
    self->waiting -= count;
    memmove(self->came, &self->came[count], self->waiting * sizeof *self->came);
    if (self->waiting == 0)
        helpers_let_go(self->helpers, self->session);
}

static void force(holding *self, uint32_t count) {
    self->is_forced = true;
    self->forced++;
    let_go(self, count);
}

static int32_t give(holding *self, uint32_t count) {
    int32_t code = fazgrond_peer_hand_over(self->peer, self->session, count);
    if (code == FAZGROND_OK)
        let_go(self, count);
    return code;
}

/* Whether the first words would make the session play frames again. */
static bool rolls_back(const holding *self, uint32_t count) {
    uint32_t frames;
    return fazgrond_peer_rerun(self->peer, self->session, count, &frames) != FAZGROND_OK || frames > 0;
}

/* As many as would run nothing again: they are as predicted, or a helper has played what they change. */
static int32_t give_free(holding *self) {
    uint32_t count = self->waiting;
    while (count > 0 && rolls_back(self, count))
        count--;
    return count > 0 ? give(self, count) : FAZGROND_OK;
}

int32_t holding_turn(holding *self) {
    uint32_t due = 0;
    self->turn++;
    self->is_forced = false;
    int32_t code = give_free(self);
    if (code == FAZGROND_OK)
        code = fazgrond_peer_hand_over_due(self->peer, self->session, &due);
    if (code == FAZGROND_OK && due > 0)
        force(self, due);
    return code;
}

/* Where the peer itself has handed words over, as before a player leaves, they are fewer than they were. */
int32_t holding_sort(holding *self) {
    fazgrond_entry words[FAZGROND_HELD_WORDS];
    uint32_t count = self->turns > 0 ? (uint32_t)fazgrond_peer_waiting(self->peer, words, FAZGROND_HELD_WORDS) : 0;
    if (count < self->waiting)
        force(self, self->waiting);
    while (self->waiting < count)
        self->came[self->waiting++] = self->turn;
    return give_free(self);
}

uint32_t holding_players(const holding *self) {
    fazgrond_entry words[FAZGROND_HELD_WORDS];
    size_t count = self->waiting > 0 ? fazgrond_peer_waiting(self->peer, words, FAZGROND_HELD_WORDS) : 0;
    uint32_t players = 0;
    for (size_t at = 0; at < count; at++)
        players |= 1u << (words[at].player - 1);
    return players;
}

int32_t holding_give_all(holding *self) {
    int32_t code = fazgrond_peer_hand_over(self->peer, self->session, self->waiting);
    if (code == FAZGROND_OK && self->waiting > 0)
        force(self, self->waiting);
    return code;
}

void holding_run(holding *self, uint32_t until) {
    if (self->waiting > 0)
        helpers_run_waiting(self->helpers, self->session, self->peer, until);
}

bool holding_is_run(const holding *self) { return self->waiting > 0 && self->helpers->certain != NULL; }

bool holding_go_on(holding *self, uint32_t frame) {
    bool goes_on = helpers_graft(self->helpers, self->session);
    if (goes_on && !holding_is_run(self) && self->waiting > 0 && rolls_back(self, self->waiting))
        holding_run(self, frame);
    return goes_on;
}

double holding_later(const holding *self) {
    double sum = 0;
    for (uint32_t turns = 1; turns <= HOLDING_TURNS; turns++)
        sum += (double)turns * self->later[turns];
    return self->held > 0 ? sum / self->held : 0;
}

uint32_t holding_soon(const holding *self) { return self->later[1] + self->later[2]; }
