#include "world.h"

#include "claim.h"

#include <stdlib.h>
#include <string.h>

enum { BYES = 3, WORLD_STREAM = 0, NETWORK_STREAM = 32, MOST_AT_ONCE = 256, EVEN_TURN = 16 };

const setup plain = { .machines = 2,
                      .rate = 60,
                      .delay = 20,
                      .silent_after = FAZGROND_SILENT_AFTER,
                      .notify_after = FAZGROND_NOTIFY_AFTER,
                      .most_heard = MOST_AT_ONCE,
                      .seed = 1 };

const setup even = { .machines = 2,
                     .turn = EVEN_TURN * MILLISECOND,
                     .delay = 2,
                     .silent_after = 1000,
                     .notify_after = FAZGROND_NOTIFY_AFTER,
                     .comers = 0x123456789abcdef,
                     .lasts = true,
                     .seed = 1 };

static world the_world;

static void must(world *self, bool is_so, const char *what) {
    if (!is_so && self->wrong == NULL)
        self->wrong = what;
}

void world_refuse(world *self, int32_t code, const char *what) {
    if (self->wrong == NULL)
        self->refused = code;
    must(self, false, what);
}

static void must_be_taken(world *self, int32_t code, const char *what) {
    if (code != FAZGROND_OK)
        world_refuse(self, code, what);
}

/* ---- Numbers by chance, and time. */

uint32_t world_draw(world *self, uint32_t below) { return draws_below(&self->random, below); }

uint32_t world_millis(const world *self) { return (uint32_t)(self->now / MILLISECOND); }

uint32_t world_clock(const world *self, uint32_t who) {
    return (uint32_t)((int64_t)(self->now / MILLISECOND) + self->machine[who].clock_ahead);
}

/* ---- The network. */

void world_send(world *self, uint32_t from, uint32_t to, const uint8_t *bytes, size_t length, uint32_t milliseconds) {
    datagram sent = { .from = from, .to = to, .length = length };
    if (length > sizeof sent.bytes)
        abort();
    memcpy(sent.bytes, bytes, length);
    network_put(&self->network, &sent, self->now + MILLISECOND * (uint64_t)milliseconds);
}

void world_post(world *self, datagram *sent) {
    if (!self->is_cut[sent->from][sent->to] && (self->watcher == NULL || self->watcher(self, sent)))
        network_send(&self->network, sent, self->now);
}

void world_cut(world *self, uint32_t one, uint32_t other, bool is_cut) { self->is_cut[one][other] = self->is_cut[other][one] = is_cut; }

static void arrive(world *self, datagram *come) {
    machine *to = &self->machine[come->to];
    bool is_lost = come->from < MACHINES && self->machine[come->from].is_mute;
    if (!is_lost && to->is_open && !to->is_dead && !to->is_deaf)
        machine_post(to, come);
    else
        free(come);
}

void world_deliver(world *self) {
    while (network_due(&self->network) <= self->now)
        arrive(self, network_take(&self->network));
}

/* ---- The game. */

uint32_t world_slots(const world *self) { return self->setup.slots != 0 ? self->setup.slots : GAME_SLOTS; }

static const game *game_of(const world *self) { return self->setup.game != NULL ? self->setup.game : &game_digest; }

uint64_t world_state(const machine *of) { return *(const uint64_t *)states_current(&of->states); }

uint64_t world_state_after(uint64_t state, const fazgrond_row *row) {
    game_digest.step(&state, row);
    return state;
}

/* A word that changes now and then: another one at each player, the same whenever the frame is played. */
static uint32_t word_of(const world *self, uint32_t player, uint64_t frame) {
    uint64_t mixed = (self->setup.seed + 7) * 0x9e3779b97f4a7c15u + frame / (3 + player) * 0xff51afd7ed558ccdu + player;
    mixed = (mixed ^ mixed >> 29) * 0xbf58476d1ce4e5b9u;
    return self->setup.is_idle ? 0 : (uint32_t)(mixed >> 40) & (self->setup.is_button ? 1 : 0xffff);
}

uint32_t world_drawn_word(machine *self, uint32_t player, uint64_t frame) { return word_of(self->world, player, frame); }

static const program drawing = { .word = world_drawn_word };

/* ---- The match, and its machines. */

static uint32_t words_of(const world *self) { return self->setup.words != 0 ? self->setup.words : 1; }

uint32_t world_players(const world *self) { return self->setup.players != 0 ? self->setup.players : self->setup.machines * words_of(self); }

uint32_t world_owner(const world *self, uint32_t player) {
    if (self->setup.has_owners)
        return self->setup.owners[player];
    return player < world_players(self) ? player / words_of(self) % self->setup.machines : FAZGROND_NO_PLAYER;
}

fazgrond_epoch world_first_epoch(const world *self) {
    const setup *with = &self->setup;
    fazgrond_epoch made = { .size = sizeof made, .words = words_of(self), .machines = with->machines };
    made.threshold = with->threshold != 0 ? with->threshold : 8;
    for (uint32_t player = 0; player < FAZGROND_PLAYERS; player++) {
        made.owners[player] = world_owner(self, player);
        bool is_owned = made.owners[player] < MACHINES;
        made.delays[player] = with->has_owners ? with->delays[player] : is_owned ? with->input_delay : 0;
    }
    return made;
}

fazgrond_settings world_settings_in(const world *self, uint32_t seat, const fazgrond_epoch *epoch) {
    fazgrond_settings made = fazgrond_settings_for(world_players(self));
    made.threshold = epoch->threshold;
    if (self->setup.limit != 0)
        made.limit = self->setup.limit;
    for (uint32_t player = 0; player < FAZGROND_PLAYERS; player++)
        if (epoch->owners[player] == seat) {
            made.local |= 1u << player;
            made.delays[player] = epoch->delays[player];
        }
    return made;
}

fazgrond_settings world_settings(const world *self, uint32_t who) {
    fazgrond_epoch epoch = world_first_epoch(self);
    return world_settings_in(self, who, &epoch);
}

fazgrond_match world_match(const world *self, uint32_t who, uint32_t seat) {
    const setup *with = &self->setup;
    fazgrond_match made = fazgrond_match_for(with->machines, seat);
    made.draw = self->machine[who].draw;
    made.digest = 0x6d617463;
    made.comers = with->comers;
    for (uint32_t player = 0; player < FAZGROND_PLAYERS; player++)
        made.owners[player] = world_owner(self, player);
    for (uint32_t other = 0; other < MACHINES; other++)
        made.numbers[other] = self->numbers[who][other];
    made.silent_after = who == 0 && with->silent_first != 0 ? with->silent_first : with->silent_after;
    made.notify_after = with->notify_after;
    made.stalled_after = with->waits == who + 1 ? 0 : with->stalled_after;
    made.held_turns = with->held_turns;
    made.words = words_of(self);
    return made;
}

static void open_session(world *self, machine *at, const fazgrond_settings *settings) {
    must_be_taken(self, fazgrond_open(&at->session, settings), "a session doesn't open");
    if (self->setup.slots != 0)
        must_be_taken(self, fazgrond_limit_slots(&at->session, self->setup.slots), "slots can't be limited");
    states_open(&at->states, game_of(self), world_players(self), world_slots(self));
}

void world_open_session(world *self, uint32_t who) {
    fazgrond_epoch epoch = world_first_epoch(self);
    fazgrond_settings settings = world_settings_in(self, who, &epoch);
    open_session(self, &self->machine[who], &settings);
    machine_begin_in(&self->machine[who], &epoch);
}

/* How a match opens that goes on in epochs is what its peer says, but for what it doesn't read. */
static int32_t open_lasting(machine *at, const fazgrond_match *match, const fazgrond_epoch *epoch) {
    fazgrond_epoch said = { 0 };
    int32_t code = fazgrond_peer_open_lasting(&at->peer, &at->session, match, epoch);
    fazgrond_peer_epoch(&at->peer, &said);
    said.machines = epoch->machines;
    must(at->world, memcmp(&said, epoch, sizeof said) == 0, "an epoch is opened as another");
    return code;
}

static int32_t open_peer(machine *at, const fazgrond_match *match, const fazgrond_epoch *epoch) {
    if (at->world->setup.lasts)
        return open_lasting(at, match, epoch);
    return at->world->setup.carries ? fazgrond_peer_open_carrying(&at->peer, &at->session, match)
                                    : fazgrond_peer_open(&at->peer, &at->session, match);
}

/* A program is begun anew: nothing is left of what it was, but what is wrong with it, and its clock. */
static void begin_anew(machine *at, uint32_t seat) {
    machine_empty(at);
    at->seat = seat;
    for (uint32_t other = 0; other < MACHINES; other++)
        at->places[other] = other;
    at->frame = at->wait = 0;
    at->is_running = at->is_short = at->is_owed = at->is_closing = at->is_fewer = at->is_dead = at->stays_behind = at->is_apart = false;
}

/* Where turns are alike, the one that all have now, unless those behind it have begun theirs; else a moment within the first one. */
static uint64_t first_turn(world *self, uint32_t who) {
    bool is_past = self->whose < MACHINES && who <= self->whose;
    if (self->setup.turn != 0)
        return self->now + (is_past ? self->setup.turn : 0);
    return self->now + MICROSECOND * (uint64_t)world_draw(self, 1000000 / self->setup.rate);
}

void world_open_in(world *self, uint32_t who, uint32_t seat, const fazgrond_epoch *epoch, const void *state) {
    machine *at = &self->machine[who];
    begin_anew(at, seat);
    at->draw = draws_wide(&self->random);
    fazgrond_match match = world_match(self, who, seat);
    fazgrond_settings settings = world_settings_in(self, seat, epoch);
    if (at->program->opens != NULL)
        at->program->opens(at, &settings, &match);
    at->draw = match.draw;
    open_session(self, at, &settings);
    if (state != NULL)
        states_begin(&at->states, state, epoch->base);
    machine_begin_in(at, epoch);
    must_be_taken(self, open_peer(at, &match, epoch), "a machine doesn't open");
    at->opening++;
    at->is_open = true;
    at->next_turn = first_turn(self, who);
}

void world_begin_to_come(world *self, uint32_t who) {
    machine *at = &self->machine[who];
    begin_anew(at, who);
    states_open(&at->states, game_of(self), world_players(self), world_slots(self));
    at->from = at->settled = at->part_count = 0;
    at->is_apart = at->is_open = true;
    at->next_turn = first_turn(self, who);
}

void world_open(world *self, uint32_t who) {
    fazgrond_epoch epoch = world_first_epoch(self);
    world_open_in(self, who, who, &epoch, NULL);
}

void world_open_all(world *self) {
    for (uint32_t who = 0; who < self->setup.machines; who++)
        world_open(self, who);
}

uint32_t world_say_bye(world *self, uint32_t who, uint32_t times) {
    uint32_t count = 0;
    machine *at = &self->machine[who];
    datagram said = { .from = who };
    for (uint8_t seat = 0; seat < MACHINES; seat++)
        if (fazgrond_peer_bye(&at->peer, seat, FAZGROND_BYE_LEAVES, said.bytes, FAZGROND_DATAGRAM, &said.length) == FAZGROND_OK) {
            said.to = at->places[seat];
            count++;
            for (uint32_t time = 0; time < times; time++)
                world_post(self, &said);
        }
    machine_send_more(at);
    return count;
}

void world_leave(world *self, uint32_t who) {
    world_say_bye(self, who, BYES);
    machine_close(&self->machine[who]);
}

/* ---- What is told. */

void world_tell(world *self, uint32_t who, const fazgrond_event *event) {
    if (self->events < MOST_TOLD)
        self->told[self->events++] = (told){ world_millis(self), who, self->machine[who].opening, *event };
    if (self->out == NULL || event->code == FAZGROND_TIME_SYNC)
        return;
    fprintf(self->out, "%9.3f  machine %u: %s", (double)self->now / SECOND, who, world_name(event->code));
    if (event->code == FAZGROND_DISCONNECTED)
        fprintf(self->out, " player %u", event->player);
    else if (event->code != FAZGROND_RUNNING && event->code != FAZGROND_DROPPED && event->code < FAZGROND_CUT_OFF)
        fprintf(self->out, " machine %u", event->machine);
    if (event->code == FAZGROND_INTERRUPTED || event->code == FAZGROND_STALLED)
        fprintf(self->out, ", gone in %u", event->disconnect_in);
    if (event->code == FAZGROND_CUT_OFF)
        fprintf(self->out, ", over in %u", event->disconnect_in);
    if (event->code == FAZGROND_STRANGERS)
        fprintf(self->out, " %u", event->count);
    if (event->code == FAZGROND_MISMATCH)
        fprintf(self->out, ", field %u", event->field);
    if (event->code == FAZGROND_DESYNC)
        fprintf(self->out, ", frame %u", event->frame);
    fputs("\n", self->out);
}

/* ---- Time. */

static conditions conditions_of(const setup *with) {
    if (with->turn != 0)
        return (conditions){ with->delay * (uint64_t)with->turn, with->turn, with->jitter, with->loss, with->copies };
    return (conditions){ with->delay * (uint64_t)MILLISECOND, MILLISECOND, with->jitter, with->loss, with->copies };
}

world *world_begin(const setup *with) {
    world *self = &the_world;
    world_end(self);
    self->setup = *with;
    self->random = draws_of(with->seed, WORLD_STREAM);
    self->network.draws = draws_of(with->seed, NETWORK_STREAM);
    self->network.conditions = conditions_of(with);
    for (uint32_t one = 0; one < MACHINES; one++)
        for (uint32_t other = 0; other <= one; other++)
            self->numbers[one][other] = self->numbers[other][one] = with->has_pair_numbers ? draws_wide(&self->random) : 0x5eed5eed5eed5eed;
    self->now = SECOND;
    self->whose = MACHINES;
    for (uint32_t who = 0; who < MACHINES; who++) {
        self->machine[who].world = self;
        self->machine[who].me = who;
        self->machine[who].program = with->program != NULL ? with->program : &drawing;
        self->machine[who].clock_ahead = world_draw(self, 1 << 30);
    }
    return self;
}

void world_end(world *self) {
    for (uint32_t who = 0; who < MACHINES; who++) {
        machine *at = &self->machine[who];
        machine_close(at);
        states_close(&at->states);
        free(at->inbox);
        free(at->parts);
        free(at->records);
    }
    network_close(&self->network);
    memset(self, 0, sizeof *self);
}

/* The machine whose turn is next, or MACHINES if none plays. */
static uint32_t next_machine(const world *self) {
    uint32_t found = MACHINES;
    for (uint32_t who = 0; who < MACHINES; who++) {
        const machine *at = &self->machine[who];
        if (at->is_open && !at->is_dead && (found == MACHINES || at->next_turn < self->machine[found].next_turn))
            found = who;
    }
    return found;
}

/* A turn is as long as it should be, but for a twentieth, unless all are alike: no program's turns are. */
static uint64_t turn_length(world *self) {
    uint32_t whole = self->setup.turn != 0 ? self->setup.turn : 1000000 / self->setup.rate;
    return self->setup.turn != 0 ? whole : MICROSECOND * (uint64_t)(whole - whole / 20 + world_draw(self, whole / 10 + 1));
}

/* The next thing that happens before some time, if there is one. */
static bool step(world *self, uint64_t until) {
    uint32_t who = next_machine(self);
    uint64_t turn_at = who < MACHINES ? self->machine[who].next_turn : UINT64_MAX;
    uint64_t come_at = network_due(&self->network);
    uint64_t at = come_at <= turn_at ? come_at : turn_at;
    if (at >= until)
        return false;
    self->now = at > self->now ? at : self->now;
    if (come_at <= turn_at) {
        arrive(self, network_take(&self->network));
    } else {
        self->whose = who;
        self->machine[who].next_turn += turn_length(self);
        if (!self->machine[who].hangs)
            machine_turn(&self->machine[who]);
        self->whose = MACHINES;
    }
    return true;
}

void world_stand_still(world *self, uint32_t who, uint32_t milliseconds) {
    self->machine[who].next_turn = self->now + MILLISECOND * (uint64_t)milliseconds;
}

static void run_until(world *self, uint64_t moment) {
    while (step(self, moment)) {
    }
    self->now = moment;
}

void world_run(world *self, uint32_t milliseconds) { run_until(self, self->now + MILLISECOND * (uint64_t)milliseconds); }

void world_run_turns(world *self, uint32_t turns) {
    for (; turns > 0; turns--, self->turn++)
        run_until(self, self->now + self->setup.turn);
}

static bool have_settled(const world *self, uint32_t frames) {
    for (uint32_t who = 0; who < self->setup.machines; who++)
        if (self->machine[who].is_open && !self->machine[who].is_dead && self->machine[who].settled < frames)
            return false;
    return true;
}

bool world_play(world *self, uint32_t frames, uint32_t milliseconds) {
    for (uint32_t passed = 0; passed < milliseconds && !have_settled(self, frames); passed += 10)
        world_run(self, 10);
    return have_settled(self, frames);
}

/* ---- What is seen. */

static bool is_this(const world *self, const told *one, uint32_t who, uint32_t code, uint32_t of) {
    return one->who == who && one->opening == self->machine[who].opening && one->event.code == code
        && (of == NOBODY || one->event.machine == of);
}

uint32_t world_told(const world *self, uint32_t who, uint32_t code, uint32_t of) {
    uint32_t count = 0;
    for (size_t at = 0; at < self->events; at++)
        count += is_this(self, &self->told[at], who, code, of);
    return count;
}

/* What it was told first, or nothing. */
static told first_told(const world *self, uint32_t who, uint32_t code, uint32_t of) {
    for (size_t at = 0; at < self->events; at++)
        if (is_this(self, &self->told[at], who, code, of))
            return self->told[at];
    return (told){ 0 };
}

uint32_t world_told_at(const world *self, uint32_t who, uint32_t code, uint32_t of) { return (uint32_t)first_told(self, who, code, of).at; }

uint32_t world_gone_in(const world *self, uint32_t who, uint32_t code, uint32_t of) {
    return first_told(self, who, code, of).event.disconnect_in;
}

static uint64_t later(uint64_t one, uint64_t other) { return one > other ? one : other; }

static uint64_t sooner(uint64_t one, uint64_t other) { return one < other ? one : other; }

bool world_agree(const world *self, uint32_t one, uint32_t other, uint64_t frames) {
    const machine *first = &self->machine[one], *second = &self->machine[other];
    uint64_t from = later(first->from, second->from), until = sooner(first->settled, second->settled);
    bool is_so = until >= frames;
    for (uint64_t frame = from; frame < until && is_so; frame++)
        is_so = row_is_same(&machine_record(first, frame)->row, &machine_record(second, frame)->row)
            && machine_digest(first, frame + 1) == machine_digest(second, frame + 1);
    return is_so;
}

bool world_is_serial(world *self, uint32_t who, uint32_t frames) {
    uint64_t state = 0;
    machine *at = &self->machine[who];
    for (uint32_t frame = 0; frame < frames; frame++) {
        fazgrond_row row = { .count = world_players(self) };
        for (uint32_t player = 0; player < row.count; player++)
            row.words[player] = at->program->word(&self->machine[world_owner(self, player)], player, frame);
        state = world_state_after(state, &row);
    }
    return at->settled >= frames && machine_digest(at, frames) == state;
}

size_t world_log(world *self, uint32_t who) {
    size_t entries = 0;
    fazgrond_log_length(&self->machine[who].session, &entries);
    return entries;
}

const char *world_name(uint32_t code) {
    static const char *const ggpo[] = { "SYNCHRONIZING", "SYNCHRONIZED", "RUNNING", "DISCONNECTED", "TIME_SYNC", "INTERRUPTED", "RESUMED" };
    static const char *const own[] = { "LEFT",    "DESYNC",  "MISMATCH", "DROPPED", "RESTARTED",
                                       "STALLED", "REFUSED", "MISSING",  "CUT_OFF", "STRANGERS" };
    if (code >= FAZGROND_SYNCHRONIZING && code <= FAZGROND_RESUMED)
        return ggpo[code - FAZGROND_SYNCHRONIZING];
    return code >= FAZGROND_LEFT && code <= FAZGROND_STRANGERS ? own[code - FAZGROND_LEFT] : "an event that isn't known";
}
