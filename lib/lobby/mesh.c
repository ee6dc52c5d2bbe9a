/* A line with each other machine. */
#include "inside.h"

#include "../line/ice.h"

#include <sodium.h>
#include <string.h>

/* Milliseconds after which another machine's word is taken that a machine is gone. */
enum { NOT_HEARD = 1000 };

/* So many of them lines have to be closed. */
enum { LAST = 300 };

/* So long a line that was opened ahead is kept: it may hold places on relays. */
enum { AHEAD = 60000 };

/* For so many of them who comes into a match that runs waits for the lines of others, once one is up: they may be gone. */
enum { WAITED_FOR = 2000 };

static bool is_other(const faz_lobby *self, uint32_t machine) {
    return self->is_known && machine < self->table.machines && machine != self->table.me;
}

bool faz_mesh_has_line(const faz_lobby *self, uint32_t machine) { return is_other(self, machine) && self->other[machine].line != NULL; }

bool faz_mesh_is_vacant(const faz_lobby *self, uint32_t machine) {
    return is_other(self, machine) && self->table.member[machine].is_vacant;
}

bool faz_mesh_knows(const faz_lobby *self, const uint8_t open[KEY]) {
    return self->members.count >= SEEN || faz_seen_has(&self->members, open);
}

/* ---- opening */

/* Each line has this machine's keys. No other line that has told a signal has them with the same machine at its other end. */
static faz_line *line_to(const faz_lobby *self, uint32_t me, uint32_t machine, const uint8_t their[KEY]) {
    const char *why;
    faz_line_keys keys = self->keys;
    faz_line_settings settings = self->line;
    settings.me = me;
    settings.other = machine;
    settings.keys = &keys;
    settings.their = their;
    faz_line *line = faz_line_open(&settings, &why);
    sodium_memzero(&keys, sizeof keys);
    return line;
}

/* The host is machine 0 of a match that begins, and its key is that by which it speaks. Which one this machine is to be isn't known: 1
 * stands for any behind the host. */
void faz_mesh_open_ahead(faz_lobby *self) {
    if (!self->was_ahead && faz_lobby_has_addresses(self)) {
        self->was_ahead = true;
        self->ahead_at = self->now;
        self->ahead = line_to(self, 1, 0, self->joining.host.theirs);
    }
    if (self->ahead != NULL)
        faz_line_turn(self->ahead, self->now);
    if (self->ahead != NULL && faz_lobby_since(self, self->ahead_at) >= AHEAD)
        faz_mesh_drop_ahead(self);
}

static bool open_line(faz_lobby *self, uint32_t machine) {
    other *to = &self->other[machine];
    const member *of = &self->table.member[machine];
    faz_inbox_subject(of->inbox, to->subject);
    if (!faz_pair_of(&to->pair, &self->mesh, self->keys.open, self->keys.secret, of->open))
        return false;
    if (machine == 0 && !self->table.is_late) {
        to->line = self->ahead;
        self->ahead = NULL;
    }
    if (to->line == NULL)
        to->line = line_to(self, self->table.me, machine, of->open);
    return to->line != NULL;
}

/* Signals may have come before the table: a broker keeps the order of one sender alone. */
static void hear_early(faz_lobby *self) {
    broker_message message = { 0 };
    for (uint32_t at = 0; at < self->earlies; at++) {
        message.length = self->early[at].length;
        memcpy(message.bytes, self->early[at].bytes, message.length);
        faz_mesh_hear(self, &message);
    }
    self->earlies = 0;
}

void faz_mesh_open(faz_lobby *self) {
    self->is_known = true;
    self->known_at = self->now;
    memcpy(self->mesh.key, self->table.key, KEY);
    self->heard = self->table.me;
    for (uint32_t machine = 0; machine < self->table.machines; machine++)
        if (!self->table.member[machine].is_vacant)
            faz_seen_note(&self->members, self->table.member[machine].open);
    faz_lobby_tell(self, FAZ_LOBBY_FULL, self->table.me, "");
    faz_late_begin(self);
}

static void open_lines(faz_lobby *self) {
    for (uint32_t machine = 0; machine < self->table.machines; machine++)
        if (is_other(self, machine) && !faz_mesh_is_vacant(self, machine) && !open_line(self, machine)) {
            faz_lobby_end(self, FAZ_LOBBY_SYSTEM, "a line can't be opened: there is no memory, or no socket, or a machine has no key");
            return;
        }
    self->has_lines = true;
    faz_mesh_drop_ahead(self);
    hear_early(self);
}

static void close_line(void *of) { faz_line_close(of); }

static void closed(void *of) { (void)of; }

/* A line is closed beside the game, since that may take a while. Null: it is closed already. */
static aside *close_aside(faz_line *line) {
    aside *job = line != NULL ? faz_aside_begin(close_line, closed, line) : NULL;
    if (job == NULL)
        faz_line_close(line);
    return job;
}

void faz_mesh_drop_ahead(faz_lobby *self) {
    faz_aside_leave(close_aside(self->ahead));
    self->ahead = NULL;
}

void faz_mesh_replace(faz_lobby *self, uint32_t place, const member *who) {
    other *to = &self->other[place];
    faz_aside_leave(close_aside(to->line));
    memset(to, 0, sizeof *to);
    self->table.member[place] = *who;
    faz_seen_note(&self->members, who->open);
    faz_lobby_tell(self, FAZ_LOBBY_COMES, place, who->name);
    if (self->has_lines)
        open_line(self, place);
}

static bool are_over(aside *const jobs[], int count) {
    for (int at = 0; at < count; at++)
        if (jobs[at] != NULL && !faz_aside_is_over(jobs[at]))
            return false;
    return true;
}

/* All at once. */
void faz_mesh_close(faz_lobby *self) {
    enum { ALL = FAZGROND_MACHINES + 1 };
    aside *jobs[ALL];
    for (int at = 0; at < FAZGROND_MACHINES; at++)
        jobs[at] = close_aside(self->other[at].line);
    jobs[FAZGROND_MACHINES] = close_aside(self->ahead);
    for (int waited = 0; !are_over(jobs, ALL) && waited < LAST; waited++)
        faz_ice_wait();
    for (int at = 0; at < ALL; at++)
        faz_aside_leave(jobs[at]);
}

/* ---- signals */

static void keep_early(faz_lobby *self, const broker_message *message) {
    if (self->has_lines || self->earlies == EARLY || message->length > EARLY_BYTES)
        return;
    early *to = &self->early[self->earlies++];
    to->length = message->length;
    memcpy(to->bytes, message->bytes, message->length);
}

/* Whether nobody has a place, or this machine doesn't hear who does. */
static bool is_silent(const faz_lobby *self, uint32_t place) {
    faz_line_state state;
    if (!faz_mesh_has_line(self, place))
        return faz_mesh_is_vacant(self, place);
    faz_line_look(self->other[place].line, &state);
    return state.silence >= NOT_HEARD;
}

/* Another machine says who is in a place now. */
static void hear_news(faz_lobby *self, uint32_t from, const broker_message *message) {
    news came;
    if (!self->table.lasts || !faz_news_read(&came, &self->other[from].pair, message->bytes, message->length)
        || came.counter <= self->other[from].news || came.place == from || !is_silent(self, came.place)
        || faz_mesh_knows(self, came.who.open))
        return;
    self->other[from].news = came.counter;
    faz_mesh_replace(self, came.place, &came.who);
}

void faz_mesh_hear(faz_lobby *self, const broker_message *message) {
    uint8_t inside[BROKER_MESSAGE];
    size_t length;
    uint32_t from = message->length > 1 ? message->bytes[1] : FAZGROND_NO_MACHINE;
    if (!self->has_lines)
        keep_early(self, message);
    else if (faz_mesh_has_line(self, from) && message->bytes[0] == NEWS)
        hear_news(self, from, message);
    else if (faz_mesh_has_line(self, from) && faz_signal_read(inside, &length, &self->other[from].pair, message->bytes, message->length))
        faz_line_signalled(self->other[from].line, inside, length);
}

static void tell_signals(faz_lobby *self, other *to) {
    uint8_t bytes[FAZ_LINE_SIGNAL], message[BROKER_MESSAGE];
    size_t length;
    while (faz_lobby_broker_is_there(self->broker) && faz_line_signal(to->line, bytes, sizeof bytes, &length))
        faz_lobby_broker_say(self->broker, to->subject, NULL, message, faz_signal_write(self->table.me, bytes, length, &to->pair, message));
}

/* ---- a turn */

static const char *const WAYS[] = { "no way", "by LAN", "directly over the internet", "by a relay" };

/* A line that is heard before this machine has a way to send isn't up yet. */
static void note_stage(faz_lobby *self, uint32_t machine) {
    other *of = &self->other[machine];
    faz_line_state state;
    faz_line_look(of->line, &state);
    if (state.stage == of->seen || (state.stage == FAZ_LINE_UP && state.way == FAZ_LINE_NO_WAY))
        return;
    of->seen = state.stage;
    of->was_up = of->was_up || state.stage == FAZ_LINE_UP;
    faz_lobby_what what = state.stage == FAZ_LINE_UP ? FAZ_LOBBY_UP : state.stage == FAZ_LINE_SILENT ? FAZ_LOBBY_SILENT : FAZ_LOBBY_BLOCKED;
    strcpy(faz_lobby_tell(self, what, machine, self->table.member[machine].name)->text, WAYS[state.way]);
}

void faz_mesh_turn(faz_lobby *self) {
    bool are_up = true, is_any_up = false;
    if (!self->is_known || !faz_lobby_has_addresses(self))
        return;
    if (!self->has_lines)
        open_lines(self);
    for (uint32_t machine = 0; machine < self->table.machines; machine++) {
        if (!faz_mesh_has_line(self, machine))
            continue;
        faz_line_turn(self->other[machine].line, self->now);
        tell_signals(self, &self->other[machine]);
        note_stage(self, machine);
        are_up = are_up && self->other[machine].was_up;
        is_any_up = is_any_up || self->other[machine].was_up;
    }
    bool is_enough = is_any_up && self->table.is_late && faz_lobby_since(self, self->known_at) >= WAITED_FOR;
    self->is_ready = self->is_ready || (self->has_lines && (are_up || is_enough));
}

/* ---- what the game sends and receives */

bool faz_lobby_send(faz_lobby *self, uint32_t machine, const uint8_t *bytes, size_t length) {
    return faz_mesh_has_line(self, machine) && faz_line_send(self->other[machine].line, bytes, length);
}

/* Of all lines in turn, so that none is behind another. */
bool faz_lobby_receive(faz_lobby *self, uint32_t *machine, uint8_t *out, size_t room, size_t *length) {
    for (uint32_t tried = 0; tried < self->table.machines; tried++) {
        self->heard = (self->heard + 1) % self->table.machines;
        if (faz_mesh_has_line(self, self->heard) && faz_line_receive(self->other[self->heard].line, out, room, length)) {
            *machine = self->heard;
            return true;
        }
    }
    return false;
}

bool faz_lobby_look(const faz_lobby *self, uint32_t machine, faz_line_state *state) {
    if (!faz_mesh_has_line(self, machine))
        return false;
    faz_line_look(self->other[machine].line, state);
    return true;
}
