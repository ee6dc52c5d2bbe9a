#include "claim.h"
#include "room.h"
#include "world.h"

#include <string.h>

enum { REQUESTS = 16, UNTOLD = 77 };

static const setup *with(const machine *self) { return &self->world->setup; }

static void must(const machine *self, bool is_so, const char *what) {
    if (!is_so && self->world->wrong == NULL)
        self->world->wrong = what;
}

void machine_must(const machine *self, bool is_so, const char *what) { must(self, is_so, what); }

/* A call is taken, or, where memory or slots may lack, refused for that alone. */
static void must_be_taken(const machine *self, int32_t code, const char *what) {
    bool lacks = code == FAZGROND_NO_MEMORY && (with(self)->slots != 0 || with(self)->lacks_memory);
    if (code != FAZGROND_OK && !lacks)
        world_refuse(self->world, code, what);
}

static uint32_t now_of(const machine *self) { return world_clock(self->world, self->me); }

/* ---- Where it is. */

const fazgrond_epoch *machine_epoch(const machine *self) { return &self->parts[self->part_count - 1].epoch; }

uint64_t machine_base(const machine *self) { return self->part_count > 0 ? machine_epoch(self)->base : 0; }

static void see_frame(machine *self) { fazgrond_frame(&self->session, &self->frame); }

uint64_t machine_frame(const machine *self) { return machine_base(self) + self->frame; }

const record *machine_record(const machine *self, uint64_t frame) { return &self->records[frame - self->from]; }

uint64_t machine_digest(const machine *self, uint64_t frame) {
    return frame == self->from ? self->opening_digest : machine_record(self, frame - 1)->after;
}

static bool is_own(const machine *self, uint32_t player) { return machine_epoch(self)->owners[player] == self->seat; }

/* ---- What is settled. */

static record *next_record(machine *self) {
    size_t at = (size_t)(self->settled++ - self->from);
    if (at == self->record_room) {
        self->record_room = 2 * self->record_room + 1024;
        self->records = room_grown(self->records, self->record_room, sizeof *self->records);
    }
    return &self->records[at];
}

/* The next settled row, of one of its epochs. Whom nobody owns is gone in it, and who is gone gives no word. */
static void keep(machine *self, uint32_t place, const fazgrond_row *row) {
    const fazgrond_epoch *epoch = &self->parts[place].epoch;
    must(self, row->count == world_players(self->world), "a row has another number of players");
    for (uint32_t player = 0; player < row->count; player++) {
        bool is_gone = (row->gone >> player & 1) != 0;
        must(self, epoch->owners[player] != FAZGROND_NOBODY || is_gone, "a player whom nobody has isn't gone");
        must(self, !is_gone || row->words[player] == 0, "a player who is gone gives a word");
    }
    self->states.game->step(states_settled(&self->states), row);
    *next_record(self) = (record){ place, *row, self->states.game->digest(states_settled(&self->states)) };
}

static bool is_settled(const machine *self, const void *state) {
    return memcmp(state, states_settled(&self->states), self->states.game->size) == 0;
}

void machine_see_settled(machine *self) {
    uint32_t frame, slot, rows;
    fazgrond_row row;
    bool is_there = fazgrond_settled_slot(&self->session, &frame, &slot) == FAZGROND_OK && machine_base(self) + frame >= self->settled
        && slot < self->states.slots;
    must(self, is_there, "the settled frame fell");
    if (!is_there)
        return;
    must(self, fazgrond_settled(&self->session, &rows) == FAZGROND_OK && rows == frame, "another number of rows is settled than frames");
    while (self->settled < machine_base(self) + frame) {
        bool is_row = fazgrond_settled_row(&self->session, (uint32_t)(self->settled - machine_base(self)), &row) == FAZGROND_OK;
        must(self, is_row, "a settled row is missing");
        if (!is_row)
            return;
        keep(self, self->part_count - 1, &row);
    }
    must(self, self->states.is_taken[slot] && is_settled(self, states_saved(&self->states, slot)),
         "the settled state isn't that of the settled rows");
}

static void note(machine *self) {
    uint32_t frame = (uint32_t)(self->settled - machine_base(self));
    if (frame == self->noted)
        return;
    self->noted = frame;
    must_be_taken(self, fazgrond_peer_note_settled(&self->peer, &self->session, machine_digest(self, self->settled)),
                  "a settled state isn't noted");
}

/* ---- Requests. */

/* At the end of an epoch the game has the state after all of its rows. */
static void end_epoch(machine *self) {
    must(self, self->settled <= self->states.frame, "an epoch ends before its settled rows do");
    while (self->settled < self->states.frame)
        keep(self, self->part_count - 2, &self->shown[self->settled % SHOWN]);
    must(self, is_settled(self, states_current(&self->states)), "an epoch doesn't end with the state of its rows");
    self->is_closing = false;
}

/* The last state of an epoch that ends goes into slot 0, when all are free. */
static void carry_out(machine *self, const fazgrond_request *request) {
    bool is_last = self->is_closing && request->kind == FAZGROND_SAVE && request->slot == 0 && states_are_free(&self->states)
        && self->states.frame == machine_base(self);
    if (request->kind == FAZGROND_STEP)
        self->shown[self->states.frame % SHOWN] = request->row;
    states_carry_out(&self->states, request);
    if (self->program->carries_out != NULL)
        self->program->carries_out(self, request);
    if (is_last)
        end_epoch(self);
}

void machine_carry_out(machine *self) {
    fazgrond_request requests[REQUESTS];
    size_t count;
    while ((count = fazgrond_take_requests(&self->session, requests, REQUESTS)) > 0)
        for (size_t at = 0; at < count; at++)
            carry_out(self, &requests[at]);
    must(self, self->states.wrong == NULL, self->states.wrong);
    see_frame(self);
    must(self, !self->is_closing, "an epoch ends without its last state");
    must(self, self->states.frame == machine_frame(self), "the game isn't at the session's frame");
}

void machine_synchronize(machine *self) {
    uint32_t has_news = UNTOLD;
    fazgrond_row row;
    fazgrond_has_news(&self->session, &has_news);
    if (has_news != 0)
        must_be_taken(self, fazgrond_synchronize_input(&self->session, &row), "news aren't played");
    machine_carry_out(self);
    machine_see_settled(self);
}

/* ---- Epochs. */

static void push_epoch(machine *self, const fazgrond_epoch *epoch) {
    if (self->part_count == self->part_room) {
        self->part_room = 2 * self->part_room + 4;
        self->parts = room_grown(self->parts, self->part_room, sizeof *self->parts);
    }
    self->parts[self->part_count++] = (part){ *epoch, self->world->now };
    self->noted = 0;
}

void machine_begin_in(machine *self, const fazgrond_epoch *epoch) {
    self->part_count = 0;
    self->from = self->settled = epoch->base;
    self->opening_digest = self->states.game->digest(states_current(&self->states));
    push_epoch(self, epoch);
    see_frame(self);
}

void machine_view(machine *self, const fazgrond_epoch *epoch, const fazgrond_row *row) {
    if (self->part_count == 0 || machine_epoch(self)->id != epoch->id)
        push_epoch(self, epoch);
    keep(self, self->part_count - 1, row);
}

/* The next epoch begins: the frame that is shown stays, unless the session may not run so far ahead any more. */
static void begin_epoch(machine *self, uint64_t before, uint32_t frames) {
    fazgrond_epoch last = *machine_epoch(self), next;
    must(self, fazgrond_peer_epoch(&self->peer, &next) == FAZGROND_OK, "there is no next epoch");
    push_epoch(self, &next);
    see_frame(self);
    must(self, next.base > last.base && next.base >= self->settled, "an epoch begins before the one before");
    must(self, self->frame == frames && machine_frame(self) <= before, "an epoch begins at another frame than is told");
    must(self, next.threshold < last.threshold || machine_frame(self) == before, "the frame that is shown falls");
    if (self->program->ends != NULL)
        self->program->ends(self);
    self->is_closing = true;
    machine_carry_out(self);
    machine_see_settled(self);
    if (self->program->begins != NULL)
        self->program->begins(self);
}

static int32_t end_epoch_if_over(machine *self, uint32_t *frames) {
    return self->program->goes_on != NULL ? self->program->goes_on(self, frames) : fazgrond_peer_go_on(&self->peer, &self->session, frames);
}

static void go_on(machine *self) {
    uint32_t frames = UNTOLD;
    bool is_fewer = self->is_fewer;
    self->is_fewer = false;
    if (!with(self)->lasts || self->stays_behind)
        return;
    uint64_t before = machine_frame(self);
    /* (once somebody has left, rows past the end may be known: they aren't played before the epoch has ended) */
    int32_t code = is_fewer || !with(self)->tells_all ? end_epoch_if_over(self, &frames) : FAZGROND_NOTHING;
    if (code == FAZGROND_NOTHING && with(self)->tells_all) {
        machine_synchronize(self);
        code = end_epoch_if_over(self, &frames);
    }
    if (code == FAZGROND_JOBS_OUT && self->program->ends_jobs != NULL) {
        self->program->ends_jobs(self);
        code = end_epoch_if_over(self, &frames);
    }
    if (code == FAZGROND_OK)
        begin_epoch(self, before, frames);
    else if (code == FAZGROND_INVALID_REQUEST && self->program->is_left_out != NULL)
        self->program->is_left_out(self);
    else
        must(self, (code == FAZGROND_NOTHING || with(self)->lacks_memory) && frames == UNTOLD, "an epoch can't end");
}

/* ---- What comes. */

void machine_post(machine *self, datagram *come) {
    if (self->waiting == self->inbox_room) {
        self->inbox_room = 2 * self->inbox_room + 64;
        self->inbox = room_grown(self->inbox, self->inbox_room, sizeof *self->inbox);
    }
    self->inbox[self->waiting++] = come;
}

void machine_empty(machine *self) {
    while (self->waiting > 0)
        free(self->inbox[--self->waiting]);
}

static void hear_one(machine *self, const datagram *come) {
    if (self->program->hears != NULL)
        self->program->hears(self, come);
    if (self->is_apart)
        return;
    int32_t code = fazgrond_peer_receive(&self->peer, &self->session, come->bytes, come->length, now_of(self));
    self->answers[code >= 0 && code < CODES ? code : CODES - 1]++;
    if (self->program->heard != NULL)
        self->program->heard(self, come, code);
}

void machine_hear(machine *self) {
    uint32_t most = with(self)->most_heard;
    size_t count = most != 0 && most < self->waiting ? most : self->waiting;
    for (size_t at = 0; at < count; at++) {
        datagram *come = self->inbox[at];
        self->inbox[at] = NULL;
        hear_one(self, come);
        free(come);
    }
    self->waiting -= count;
    if (count > 0)
        memmove(self->inbox, self->inbox + count, self->waiting * sizeof *self->inbox);
}

/* ---- Words. */

static void hand_over(machine *self) {
    uint32_t is_pressed = 0, handed;
    if (with(self)->held_turns == 0)
        return;
    if (self->program->hands_over != NULL) {
        self->program->hands_over(self);
        return;
    }
    fazgrond_peer_is_pressed(&self->peer, &self->session, &is_pressed);
    if (is_pressed != 0)
        must_be_taken(self, fazgrond_peer_hand_over(&self->peer, &self->session, FAZGROND_HELD_WORDS), "words aren't handed over");
    must_be_taken(self, fazgrond_peer_hand_over_due(&self->peer, &self->session, &handed), "words that are due aren't handed over");
}

/* The word of an own player, for the frame that its delay says. */
static int32_t give(machine *self, uint32_t player) {
    uint64_t shown = machine_frame(self);
    uint32_t frame = UNTOLD, word = self->program->word(self, player, shown);
    fazgrond_input_frame(&self->session, (uint8_t)(player + 1), &frame);
    int32_t code = fazgrond_add_local_input(&self->session, (uint8_t)(player + 1), word);
    bool is_given = code == FAZGROND_INPUT_TWICE && self->is_owed; /* the roll that it was given for is made again */
    must(self, is_given || frame == self->frame + machine_epoch(self)->delays[player],
         "a word counts in another frame than its delay says");
    if (self->program->gave != NULL && !is_given)
        self->program->gave(self, player, frame, word, code);
    return is_given ? FAZGROND_OK : code;
}

static bool gives_none(const machine *self) {
    uint64_t last = with(self)->last_frame;
    return self->is_stalled || (self->word_every != 0 && self->turns % self->word_every != 0) || (last != 0 && machine_frame(self) >= last);
}

/* Its words: all are taken, or none since the session is too far ahead, or since it gives none in this turn. */
static bool give_words(machine *self) {
    int32_t code = FAZGROND_LOCAL_INPUT_MISSING;
    if (gives_none(self))
        return false;
    if (self->wait > 0) {
        self->wait--;
        self->waited++;
        return false;
    }
    for (uint32_t player = 0; player < world_players(self->world); player++)
        if (is_own(self, player)) {
            int32_t one = give(self, player);
            must(self, code == FAZGROND_LOCAL_INPUT_MISSING || one == code, "one word is taken and another refused");
            code = one;
        }
    self->waited += code == FAZGROND_PREDICTION_THRESHOLD;
    if (code != FAZGROND_PREDICTION_THRESHOLD && code != FAZGROND_LOCAL_INPUT_MISSING)
        must_be_taken(self, code, "a word is refused");
    return code == FAZGROND_OK;
}

/* A frame, or at least what came for the frames before. */
static void play(machine *self, bool has_given) {
    fazgrond_reached reached;
    fazgrond_row row;
    uint32_t has_news = UNTOLD, steps = self->states.steps;
    int32_t code = FAZGROND_OK;
    fazgrond_has_news(&self->session, &has_news);
    self->has_rolled = has_given || has_news != 0;
    if (has_given)
        code = fazgrond_advance_frame(&self->session, &reached);
    else if (has_news != 0)
        code = fazgrond_synchronize_input(&self->session, &row);
    self->is_short = code == FAZGROND_NO_MEMORY;
    self->is_owed = has_given ? self->is_short : self->is_owed;
    must_be_taken(self, code, "a turn is refused");
    machine_carry_out(self);
    must(self, !has_given || code != FAZGROND_OK || self->states.steps - steps == reached.rerun, "other frames are run than it is told");
}

/* ---- What it tells, and what it sends. */

void machine_hear_events(machine *self) {
    fazgrond_event event;
    while (fazgrond_peer_event(&self->peer, &event) == FAZGROND_OK) {
        if (event.code == FAZGROND_TIME_SYNC)
            self->wait = event.frames_ahead;
        self->is_fewer |= event.code == FAZGROND_LEFT || event.code == FAZGROND_DISCONNECTED;
        world_tell(self->world, self->me, &event);
        if (self->program->is_told != NULL)
            self->program->is_told(self, &event);
    }
}

static void send(machine *self, uint8_t seat, int32_t code, datagram *made) {
    must(self, code == FAZGROND_OK || code == FAZGROND_NOTHING || with(self)->lacks_memory, "a datagram isn't made");
    if (code != FAZGROND_OK)
        return;
    made->from = self->me;
    made->to = self->places[seat];
    if (self->program->sends == NULL || self->program->sends(self, made))
        world_post(self->world, made);
}

/* There are so many numbers of machines. */
static uint8_t seats_of(const machine *self) {
    uint32_t lasting = with(self)->seats != 0 ? with(self)->seats : MACHINES;
    return (uint8_t)(with(self)->lasts ? lasting : with(self)->machines);
}

static void send_all(machine *self) {
    datagram made;
    for (uint8_t seat = 0; seat < seats_of(self); seat++) {
        if (seat == self->seat)
            continue;
        int32_t code = fazgrond_peer_send(&self->peer, &self->session, seat, now_of(self), made.bytes, FAZGROND_DATAGRAM, &made.length);
        send(self, seat, code, &made);
        if (with(self)->lasts) {
            code = fazgrond_peer_send_before(&self->peer, seat, now_of(self), made.bytes, FAZGROND_DATAGRAM, &made.length);
            send(self, seat, code, &made);
        }
    }
    machine_send_more(self);
}

void machine_send_more(machine *self) {
    datagram made;
    uint8_t seat;
    int32_t code;
    while ((code = fazgrond_peer_send_more(&self->peer, &seat, made.bytes, FAZGROND_DATAGRAM, &made.length)) == FAZGROND_OK) {
        self->more++;
        must(self, seat < seats_of(self) && seat != self->seat, "what is carried goes to no other machine");
        send(self, seat, code, &made);
    }
    must(self, code == FAZGROND_NOTHING || with(self)->lacks_memory, "what is carried isn't made");
}

/* ---- A turn. */

static void poll(machine *self) {
    uint32_t is_running = UNTOLD;
    bool was_running = self->is_running;
    must_be_taken(self, fazgrond_peer_poll(&self->peer, &self->session, now_of(self)), "a poll is refused");
    fazgrond_peer_is_running(&self->peer, &is_running);
    self->is_running = is_running != 0;
    must(self, self->is_running || !was_running, "a match runs no more");
    if (self->program->has_polled != NULL)
        self->program->has_polled(self);
}

/* As docs/C.md has it; or with the poll behind the words. */
static void take_turn(machine *self) {
    bool has_given = false;
    self->has_rolled = false;
    if (self->program->has_heard != NULL)
        self->program->has_heard(self);
    if (!with(self)->polls_late)
        poll(self);
    if (!self->is_apart)
        go_on(self);
    if (self->is_apart) {
        self->program->apart(self);
        return;
    }
    if (self->is_running && self->program->plays != NULL)
        self->program->plays(self);
    hand_over(self);
    if (self->is_running)
        has_given = give_words(self);
    if (with(self)->polls_late)
        poll(self);
    if (self->is_running)
        play(self, has_given);
    machine_see_settled(self);
    note(self);
    if (self->program->has_played != NULL)
        self->program->has_played(self);
    machine_hear_events(self);
    send_all(self);
}

void machine_turn(machine *self) {
    machine_hear(self);
    if (self->is_apart)
        self->program->apart(self);
    else
        take_turn(self);
    self->turns++;
}

void machine_close(machine *self) {
    fazgrond_peer_close(&self->peer);
    fazgrond_close(&self->session);
    self->is_open = self->is_running = self->is_apart = false;
    machine_empty(self);
}
