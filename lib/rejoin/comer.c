/* Who comes into a match. */
#include "faz_rejoin.h"

#include <stdlib.h>
#include <string.h>

enum {
    ASKER = 1,       /* as which machine it names itself in what it asks: each line has a number of its own */
    PIECES = 8,      /* that are asked for in a turn */
    RARELY = 8,      /* of so many turns, in one the table is asked for, if nothing is to come soon */
    NEAR = 120,      /* rows that are stepped sooner than another state comes .. */
    FEW = 8,         /* .. and those that come in a turn or two */
    STANDS = 500,    /* milliseconds without a row after which the state of the next epoch is taken: that isn't told any more .. */
    PATIENCE = 2000, /* .. and without anything new, after which another host is followed */
    UNHOSTED = 3000  /* and without a host, after which that is said */
};

void faz_comer_begin(faz_comer *self) { self->host = self->avoided = FAZGROND_NO_MACHINE; }

/* All that came is forgotten, and another host is followed if there is one. */
static void begin_anew(faz_comer *self) {
    fazgrond_taker_close(&self->taker);
    fazgrond_viewer_close(&self->viewer);
    free(self->state);
    self->state = NULL;
    self->avoided = self->host;
    self->host = FAZGROND_NO_MACHINE;
    self->has_state = self->has_next = self->is_fresh = false;
    self->rows = 0;
    self->moved_at = self->now;
}

static void open_viewer(faz_comer *self) {
    fazgrond_line_settings settings = faz_line_in(&self->table.epoch, self->numbers[self->host], self->digest, faz_draw(&self->random));
    fazgrond_viewer_close(&self->viewer);
    (void)fazgrond_viewer_open(&self->viewer, &settings);
    self->rows = 0;
    self->moved_at = self->now;
}

/* Follows a host from the beginning of its epoch on. */
static void follow(faz_comer *self, uint32_t host, const faz_table *table) {
    if (table->state.length == 0 || fazgrond_taker_open(&self->taker, &table->state, self->limit) != FAZGROND_OK)
        return;
    free(self->state);
    self->state = NULL;
    self->host = host;
    self->table = *table;
    self->has_state = self->has_next = self->is_fresh = false;
    open_viewer(self);
}

/* Whether few rows are missing up to the end of the epoch that is followed. Else the state where the next one begins is sooner here. */
static bool is_near(const faz_comer *self, const faz_table *next) {
    return self->has_state && next->epoch.base - self->table.epoch.base <= (uint64_t)self->rows + NEAR;
}

/* A table of the host that is followed tells of its next epoch. */
static void hear_table(faz_comer *self, uint32_t machine, const faz_table *table) {
    self->told_at = self->is_told ? self->told_at : self->now;
    self->is_told = true;
    if (self->only_asks) {
        self->moved_at = self->now;
        return;
    }
    if (self->host == FAZGROND_NO_MACHINE) {
        bool is_only = (self->machines & ~(1u << self->avoided % 32)) == 0;
        if (machine != self->avoided || is_only || self->now - self->moved_at > PATIENCE)
            follow(self, machine, table);
        return;
    }
    if (machine != self->host || table->epoch.id == self->table.epoch.id || table->epoch.base <= self->table.epoch.base)
        return;
    if (!self->has_next && is_near(self, table)) {
        self->next = *table;
        self->has_next = true;
        self->moved_at = self->now;
    } else if (!self->has_next || table->epoch.base > self->next.epoch.base)
        follow(self, machine, table);
}

static void hear_state(faz_comer *self, uint32_t machine, const uint8_t *bytes, size_t length) {
    fazgrond_heard heard;
    if (machine != self->host || self->has_state
        || fazgrond_taker_receive(&self->taker, self->numbers[machine], bytes, length, &heard) != FAZGROND_OK)
        return;
    if (heard.what == FAZGROND_STATE_WRONG) {
        begin_anew(self);
        return;
    }
    if (heard.what != FAZGROND_PIECE_AGAIN)
        self->moved_at = self->now;
    if (heard.what != FAZGROND_STATE_WHOLE)
        return;
    self->state = malloc(self->table.state.length);
    if (self->state == NULL || fazgrond_taker_bytes(&self->taker, self->state, self->table.state.length) != FAZGROND_OK) {
        begin_anew(self);
        return;
    }
    fazgrond_taker_close(&self->taker);
    self->has_state = self->is_fresh = true;
}

/* A piece of a table, which has one alone. */
static void hear_piece_of_table(faz_comer *self, uint32_t machine, const fazgrond_state_name *name, const uint8_t *bytes, size_t length) {
    fazgrond_taker taker = FAZGROND_CLOSED;
    fazgrond_heard heard;
    uint8_t text[FAZ_TABLE_BYTES];
    faz_table table;
    if (fazgrond_taker_open(&taker, name, sizeof text) != FAZGROND_OK)
        return;
    if (fazgrond_taker_receive(&taker, self->numbers[machine], bytes, length, &heard) == FAZGROND_OK && heard.what == FAZGROND_STATE_WHOLE
        && fazgrond_taker_bytes(&taker, text, sizeof text) == FAZGROND_OK && faz_table_read(text, name->length, &table))
        hear_table(self, machine, &table);
    fazgrond_taker_close(&taker);
}

void faz_comer_hear(faz_comer *self, uint32_t machine, const uint8_t *bytes, size_t length, uint32_t now) {
    uint8_t sender;
    uint32_t rows = 0;
    fazgrond_state_name name;
    self->now = now;
    if (machine >= FAZGROND_MACHINES || (self->machines >> machine & 1) == 0 || self->is_in)
        return;
    if (fazgrond_state_sender(bytes, length, &sender) == FAZGROND_OK) {
        if (fazgrond_state_told(self->numbers[machine], bytes, length, &name) != FAZGROND_OK)
            return;
        if (name.which == FAZ_TABLE_STATE)
            hear_piece_of_table(self, machine, &name, bytes, length);
        else
            hear_state(self, machine, bytes, length);
    } else if (machine == self->host && fazgrond_viewer_receive(&self->viewer, bytes, length, now, &rows) == FAZGROND_OK && rows > 0)
        self->moved_at = now;
}

static void ask_for(faz_comer *self, uint32_t machine, uint64_t which, uint32_t frame) {
    uint8_t bytes[FAZGROND_DATAGRAM];
    size_t length;
    if (fazgrond_state_ask(self->numbers[machine], ASKER, which, frame, bytes, sizeof bytes, &length) == FAZGROND_OK)
        self->send(self->of, machine, bytes, length);
}

/* Whether all rows that came were stepped, but for the last few: so who comes is ready. */
static bool has_stepped_all(const faz_comer *self, const fazgrond_line_state *state) {
    return self->has_state && !self->is_fresh && state->rows <= self->rows + FEW;
}

static void ask_host(faz_comer *self) {
    uint8_t bytes[FAZGROND_DATAGRAM];
    fazgrond_line_state state = { 0 };
    size_t length;
    bool is_ready = fazgrond_viewer_look(&self->viewer, self->now, &state) == FAZGROND_OK && has_stepped_all(self, &state);
    if (is_ready && self->players != 0)
        ask_for(self, self->host, FAZ_READY_STATE, (uint32_t)self->table.epoch.id);
    if (is_ready || self->turns % RARELY == 0)
        ask_for(self, self->host, FAZ_TABLE_STATE, 0);
    if (!self->has_state
        && fazgrond_taker_send(&self->taker, self->numbers[self->host], ASKER, PIECES, bytes, sizeof bytes, &length) == FAZGROND_OK)
        self->send(self->of, self->host, bytes, length);
    if (fazgrond_viewer_send(&self->viewer, self->now, bytes, sizeof bytes, &length) == FAZGROND_OK)
        self->send(self->of, self->host, bytes, length);
}

/* Whether rows are missing up to the end of the epoch that is followed, and none comes any more: a host has the last ones of an epoch only
 * as long as it needs them for the others. */
static bool is_left_behind(faz_comer *self, uint32_t now) {
    fazgrond_line_state state = { 0 };
    return self->has_next && now - self->moved_at > STANDS && fazgrond_viewer_look(&self->viewer, now, &state) == FAZGROND_OK
        && state.rows < self->next.epoch.base - self->table.epoch.base;
}

/* Who only watches stays with a host that is heard, though the match stands still. */
static bool is_watching(faz_comer *self, uint32_t now) {
    fazgrond_line_state state;
    return self->players == 0 && self->has_state && !self->has_next && fazgrond_viewer_look(&self->viewer, now, &state) == FAZGROND_OK
        && state.is_playing != 0 && state.is_silent == 0;
}

int32_t faz_comer_turn(faz_comer *self, uint32_t now) {
    if (self->is_in)
        return FAZGROND_OK;
    self->moved_at = self->has_clock && !is_watching(self, now) ? self->moved_at : now;
    self->has_clock = true;
    self->now = now;
    if (self->host != FAZGROND_NO_MACHINE && now - self->moved_at > PATIENCE)
        begin_anew(self);
    if (self->host != FAZGROND_NO_MACHINE && is_left_behind(self, now))
        follow(self, self->host, &self->next);
    if (self->host != FAZGROND_NO_MACHINE)
        ask_host(self);
    else
        for (uint32_t machine = 0; machine < FAZGROND_MACHINES && self->turns % RARELY == 0; machine++)
            if ((self->machines >> machine & 1) != 0)
                ask_for(self, machine, FAZ_TABLE_STATE, 0);
    self->turns++;
    return self->host == FAZGROND_NO_MACHINE && now - self->moved_at >= UNHOSTED ? FAZGROND_NOTHING : FAZGROND_OK;
}

/* Which machine this one is in an epoch, if it came in with it. */
static uint32_t machine_in(const faz_comer *self, const faz_table *table) {
    for (int player = 0; player < FAZGROND_PLAYERS; player++) {
        uint32_t owner = table->epoch.owners[player];
        if ((self->players >> player & 1) != 0)
            return owner < FAZGROND_MACHINES && (table->came >> owner & 1) != 0 ? owner : FAZGROND_NO_MACHINE;
    }
    return FAZGROND_NO_MACHINE;
}

/* All rows of an epoch were stepped. Who came in with the next one begins to play, others follow it. */
static faz_next pass(faz_comer *self) {
    uint32_t me = machine_in(self, &self->next);
    self->table = self->next;
    self->has_next = false;
    if (me == FAZGROND_NO_MACHINE) {
        open_viewer(self);
        return (faz_next){ .what = FAZ_NOTHING };
    }
    self->is_in = true;
    fazgrond_viewer_close(&self->viewer);
    return (faz_next){ .what = FAZ_IN, .frame = self->table.epoch.base, .epoch = self->table.epoch, .me = me };
}

faz_next faz_comer_next(faz_comer *self) {
    faz_next next = { .what = FAZ_NOTHING };
    if (!self->has_state || self->is_in)
        return next;
    if (self->is_fresh) {
        self->is_fresh = false;
        return (faz_next){ .what = FAZ_LOAD, .frame = self->table.epoch.base, .state = self->state, .length = self->table.state.length };
    }
    free(self->state);
    self->state = NULL;
    if (self->has_next && self->rows == self->next.epoch.base - self->table.epoch.base)
        return pass(self);
    if (fazgrond_viewer_row(&self->viewer, &next.row) == FAZGROND_OK) {
        self->rows++;
        next.what = FAZ_STEP;
        next.frame = self->table.epoch.base + self->rows;
    }
    return next;
}

void faz_comer_close(faz_comer *self) {
    fazgrond_taker_close(&self->taker);
    fazgrond_viewer_close(&self->viewer);
    free(self->state);
    self->state = NULL;
    self->host = FAZGROND_NO_MACHINE;
}
