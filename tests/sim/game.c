#include "game.h"

#include "../../programs/duel/duel.h"
#include "room.h"

#include <inttypes.h>
#include <stdio.h>
#include <string.h>

enum { GONE_ADDS = 5, TALLY_BELOW = 1000000, REQUESTS = 16 };

/* ---- Games. */

/* FNV-1a of the text of a state. */
static uint64_t digest_of(const game *of, const void *state) {
    char text[GAME_TEXT];
    uint64_t digest = 0xcbf29ce484222325u;
    of->text(state, text);
    for (const char *at = text; *at != 0; at++)
        digest = (digest ^ (uint8_t)*at) * 0x100000001b3u;
    return digest;
}

static void tally_open(void *state, uint32_t players) {
    (void)players;
    *(uint32_t *)state = 0;
}

static void tally_step(void *state, const fazgrond_row *row) {
    uint32_t *sum = state;
    uint64_t total = 10 * (uint64_t)*sum;
    for (uint32_t at = 0; at < row->count; at++)
        total += row->gone >> at & 1 ? GONE_ADDS : (uint64_t)(at + 1) * row->words[at];
    *sum = (uint32_t)(total % TALLY_BELOW);
}

static void tally_text(const void *state, char out[GAME_TEXT]) { snprintf(out, GAME_TEXT, "%" PRIu32, *(const uint32_t *)state); }

static uint64_t tally_digest(const void *state) { return digest_of(&game_tally, state); }

static void duel_game_open(void *state, uint32_t players) { duel_open(state, players); }

static void duel_game_step(void *state, const fazgrond_row *row) { duel_step(state, row->words); }

static void duel_game_text(const void *state, char out[GAME_TEXT]) { duel_text(state, out, GAME_TEXT); }

static uint64_t duel_game_digest(const void *state) { return digest_of(&game_duel, state); }

static void digest_open(void *state, uint32_t players) {
    (void)players;
    *(uint64_t *)state = 0;
}

static void digest_step(void *state, const fazgrond_row *row) {
    uint64_t *digest = state;
    for (uint32_t at = 0; at < row->count; at++)
        *digest = (*digest ^ row->words[at]) * 0x100000001b3u + (row->gone >> at & 1) + 1;
}

static void digest_text(const void *state, char out[GAME_TEXT]) { snprintf(out, GAME_TEXT, "%016" PRIx64, *(const uint64_t *)state); }

static uint64_t digest_digest(const void *state) { return *(const uint64_t *)state; }

const game game_tally = { "tally", sizeof(uint32_t), tally_open, tally_step, tally_digest, tally_text };
const game game_duel = { "duel", sizeof(duel), duel_game_open, duel_game_step, duel_game_digest, duel_game_text };
const game game_digest = { "digest", sizeof(uint64_t), digest_open, digest_step, digest_digest, digest_text };

/* ---- States: the current one, that of a job, and those in slots. */

enum { CURRENT, SETTLED, FIRST_SLOT };

static void *state_at(const states *self, size_t place) { return self->bytes + place * self->game->size; }

void *states_current(const states *self) { return state_at(self, CURRENT); }

void *states_settled(const states *self) { return state_at(self, SETTLED); }

void *states_saved(const states *self, uint32_t slot) { return state_at(self, FIRST_SLOT + slot); }

static bool must(states *self, bool is_so, const char *what) {
    if (!is_so && self->wrong == NULL)
        self->wrong = what;
    return is_so;
}

void states_open(states *self, const game *game, uint32_t players, uint32_t slots) {
    states_close(self);
    *self = (states){ .game = game, .slots = slots, .bytes = room_of(FIRST_SLOT + (size_t)slots, game->size) };
    must(self, game->size <= GAME_STATE, "a state is too large");
    game->open(states_current(self), players);
    states_begin(self, states_current(self), 0);
}

void states_close(states *self) {
    free(self->bytes);
    *self = (states){ 0 };
}

void states_begin(states *self, const void *opening, uint64_t frame) {
    memset(self->is_taken, 0, sizeof self->is_taken);
    self->is_taken[0] = true;
    self->frame = self->frames[0] = frame;
    memmove(states_current(self), opening, self->game->size);
    memcpy(states_settled(self), states_current(self), self->game->size);
    memcpy(states_saved(self, 0), states_current(self), self->game->size);
}

bool states_are_free(const states *self) {
    for (uint32_t slot = 0; slot < self->slots; slot++)
        if (self->is_taken[slot])
            return false;
    return true;
}

static void load(states *self, void *state, uint64_t *frame, uint32_t slot) {
    memcpy(state, states_saved(self, slot), self->game->size);
    *frame = self->frames[slot];
}

static void save(states *self, const void *state, uint64_t frame, uint32_t slot) {
    memcpy(states_saved(self, slot), state, self->game->size);
    self->frames[slot] = frame;
}

static bool is_kind(const fazgrond_request *request, uint32_t first, uint32_t last) {
    return request->kind >= first && request->kind <= last;
}

/* A slot that is saved to is free before, and one that is loaded or freed isn't. */
static bool is_proper(const states *self, const fazgrond_request *request, bool saves) {
    return request->slot < self->slots && self->is_taken[request->slot] != saves;
}

void states_carry_out(states *self, const fazgrond_request *request) {
    uint32_t slot = request->slot;
    bool is_step = request->kind == FAZGROND_STEP;
    if (!must(self, is_kind(request, FAZGROND_LOAD, FAZGROND_FREE), "a request's kind")
        || !must(self, is_step || is_proper(self, request, request->kind == FAZGROND_SAVE), "a request's slot"))
        return;
    switch (request->kind) {
    case FAZGROND_LOAD: load(self, states_current(self), &self->frame, slot), self->loads++; break;
    case FAZGROND_SAVE: save(self, states_current(self), self->frame, slot), self->is_taken[slot] = true; break;
    case FAZGROND_STEP: self->game->step(states_current(self), &request->row), self->frame++, self->steps++; break;
    default: self->is_taken[slot] = false; break;
    }
}

void states_carry_out_all(states *self, fazgrond_session *session) {
    fazgrond_request requests[REQUESTS];
    size_t count;
    while ((count = fazgrond_take_requests(session, requests, REQUESTS)) > 0)
        for (size_t at = 0; at < count; at++)
            states_carry_out(self, &requests[at]);
}

/* ---- Jobs. */

void job_take(job *self, states *states, fazgrond_session *session) {
    fazgrond_request *next = self->requests;
    self->count = self->done = 0;
    while (self->count < JOB_REQUESTS && fazgrond_take_requests(session, next, 1) > 0) {
        bool saves = next->kind == FAZGROND_JOB_SAVE;
        if (!must(states, is_kind(next, FAZGROND_JOB_LOAD, FAZGROND_JOB_STEP), "a kind of request of a job")
            || !must(states, !saves || is_proper(states, next, true), "a job saves to a slot that is taken"))
            return;
        if (saves)
            states->is_taken[next->slot] = true;
        next = &self->requests[++self->count];
    }
}

static void run_one(job *self, states *states) {
    const fazgrond_request *request = &self->requests[self->done++];
    bool is_step = request->kind == FAZGROND_JOB_STEP;
    if (!must(states, is_step || is_proper(states, request, false), "a job's slot isn't its own"))
        return;
    if (request->kind == FAZGROND_JOB_LOAD)
        load(states, self->state, &self->frame, request->slot);
    else if (request->kind == FAZGROND_JOB_SAVE)
        save(states, self->state, self->frame, request->slot);
    else
        states->game->step(self->state, &request->row), self->frame++, states->job_steps++;
}

bool job_run(job *self, states *states, size_t most) {
    for (; most > 0 && self->done < self->count; most--)
        run_one(self, states);
    return self->done == self->count;
}
