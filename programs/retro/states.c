#include "states.h"

#include <stdlib.h>
#include <string.h>

uint64_t path_from(uint32_t frame) { return 2 * (uint64_t)frame + 1; }

uint64_t path_after(uint64_t path, const fazgrond_row *row) {
    struct {
        uint64_t path;
        uint32_t words[FAZGROND_PLAYERS], gone, count;
    } all = { .path = path, .gone = row->gone, .count = row->count };
    memcpy(all.words, row->words, row->count * sizeof *row->words);
    return digest_of(&all, sizeof all) | 1;
}

static size_t place_of(const notes *self, uint64_t path) {
    size_t at = (path * 0x9e3779b97f4a7c15u >> 20) % self->room;
    while (self->at[at].path != 0 && self->at[at].path != path)
        at = (at + 1) % self->room;
    return at;
}

static bool grow(notes *self) {
    notes more = { .room = 2 * self->room + 4096 };
    more.at = calloc(more.room, sizeof *more.at);
    if (more.at == NULL)
        return false;
    for (size_t at = 0; at < self->room; at++)
        if (self->at[at].path != 0)
            more.at[place_of(&more, self->at[at].path)] = self->at[at];
    free(self->at);
    self->at = more.at;
    self->room = more.room;
    return true;
}

static void note(notes *self, uint64_t path, uint64_t digest) {
    pthread_mutex_lock(&self->lock);
    if (2 * self->count < self->room || grow(self)) {
        size_t at = place_of(self, path);
        self->count += self->at[at].path == 0;
        self->differing += self->at[at].path == path && self->at[at].digest != digest;
        self->at[at].path = path;
        self->at[at].digest = digest;
    }
    pthread_mutex_unlock(&self->lock);
}

uint64_t notes_find(const notes *self, uint64_t path) { return self->room == 0 ? 0 : self->at[place_of(self, path)].digest; }

const fazgrond_row *trail_row(const trail *self, uint32_t frame) {
    return frame >= self->first && frame - self->first < self->count ? &self->rows[frame - self->first] : NULL;
}

void trail_settle(trail *self, uint32_t frame, const fazgrond_row *row) {
    if (trail_row(self, frame) != NULL)
        self->rows[frame - self->first] = *row;
}

void trail_free(trail *self) {
    free(self->rows);
    memset(self, 0, sizeof *self);
}

/* All behind this frame is another course. */
static bool leave_row(trail *self, uint32_t frame, const fazgrond_row *row) {
    size_t at = frame - self->first;
    if (at >= self->room) {
        size_t room = 2 * self->room + 4096;
        fazgrond_row *more = realloc(self->rows, room * sizeof *more);
        if (more == NULL)
            return false;
        self->rows = more;
        self->room = room;
    }
    self->rows[at] = *row;
    self->count = at + 1;
    return true;
}

/* What is saved already is copied: to save twice may change a core's course. */
static bool copy(runner *self, slot *to) {
    const slot *from = self->at;
    self->at = to;
    if (from == to)
        return true;
    to->path = from->path;
    to->digest = from->digest;
    to->frame = from->frame;
    return state_copy(&to->state, &from->state);
}

static bool save(runner *self, slot *to) {
    if (self->at != NULL)
        return copy(self, to);
    self->at = to;
    to->path = self->path;
    to->digest = core_digest(&self->core);
    to->frame = self->frame;
    self->saves++;
    if (self->states->notes.is_on)
        note(&self->states->notes, to->path, to->digest);
    return core_save(&self->core, &to->state) && (!self->states->reloads || core_load(&self->core, &to->state));
}

/* At a seam frames are stepped one after another, but each is saved all the same: a save may change a core's course. */
static bool step(runner *self, const fazgrond_row *row) {
    if (self->at == NULL && !save(self, &self->spare))
        return false;
    core_step(&self->core, row->words, row->count);
    self->at = NULL;
    self->path = path_after(self->path, row);
    self->is_fresh = true;
    self->steps++;
    self->frame++;
    return self->trail == NULL || leave_row(self->trail, self->frame - 1, row);
}

bool runner_obey(runner *self, const fazgrond_request *request) {
    slot *at = &self->states->slots[request->slot];
    switch (request->kind) {
    case FAZGROND_LOAD:
    case FAZGROND_JOB_LOAD:
        self->at = at;
        self->path = at->path;
        self->frame = at->frame;
        self->is_fresh = false;
        self->loads++;
        return core_load(&self->core, &at->state);
    case FAZGROND_STEP:
    case FAZGROND_JOB_STEP: return step(self, &request->row);
    case FAZGROND_SAVE:
    case FAZGROND_JOB_SAVE: return save(self, at);
    default: return true; /* a slot keeps its room */
    }
}

bool runner_open(runner *self, const core_state *opening) {
    self->path = path_from(0);
    self->frame = 0;
    self->at = NULL;
    return core_load(&self->core, opening) && save(self, &self->states->slots[0]);
}

bool runner_open_at(runner *self, const core_state *state, uint32_t frame) {
    slot *to = &self->states->slots[0];
    if (!core_load(&self->core, state) || !state_copy(&to->state, state))
        return false;
    to->path = self->path = path_from(frame);
    to->frame = self->frame = frame;
    to->digest = core_digest(&self->core);
    self->at = to;
    if (self->trail != NULL) {
        self->trail->first = frame;
        self->trail->count = 0;
    }
    return true;
}

bool runner_follow(runner *self, const fazgrond_row *row) { return step(self, row) && save(self, &self->states->slots[0]); }

bool state_copy(core_state *to, const core_state *from) {
    uint8_t *more = realloc(to->at, from->size + 1);
    if (more == NULL)
        return false;
    memcpy(more, from->at, from->size);
    *to = (core_state){ .at = more, .room = from->size + 1, .size = from->size, .picture = from->picture };
    return true;
}

void state_write(const core_state *from, uint8_t *out) {
    for (int at = 0; at < STATE_HEAD; at++)
        out[at] = (uint8_t)(from->picture >> 8 * at);
    memcpy(out + STATE_HEAD, from->at, from->size);
}

bool state_read(uint8_t *from, size_t length, core_state *out) {
    *out = (core_state){ .at = from + STATE_HEAD, .size = length - STATE_HEAD };
    for (int at = 0; at < STATE_HEAD && length > STATE_HEAD; at++)
        out->picture |= (uint64_t)from[at] << 8 * at;
    return length > STATE_HEAD;
}

void states_begin(states *self, bool reloads, bool is_noted) {
    for (int at = 0; at < SLOTS; at++)
        free(self->slots[at].state.at);
    free(self->notes.at);
    memset(self, 0, sizeof *self);
    pthread_mutex_init(&self->notes.lock, NULL);
    self->reloads = reloads;
    self->notes.is_on = is_noted;
}
