#include "by_plan.h"

#include "hello.h"
#include "room.h"

#include <string.h>

/* The streams from which is drawn what machine 0 presses, how it is deceived, and its first and second opening; the others follow. */
enum { WORD_STREAM = 16, ENEMY_STREAM = 48, DRAW_STREAM = 64, LATER_DRAW_STREAM = 80 };
enum { CHOICES = 4, HOSTILE_EACH = 50, MOST_HEARD = 4096, TURNS_A_SECOND = 60, TWICE = 5 };

/* What a player chooses among: for the duel nothing, thrust, a turn to the left, and thrust with fire. */
static const uint32_t tally_choices[CHOICES] = { 0, 1, 2, 3 }, duel_choices[CHOICES] = { 0, 1, 2, 9 };

static const uint32_t *choices_of(const plan *with) { return with->game == &game_duel ? duel_choices : tally_choices; }

static uint64_t number_of(const plan *with) { return with->seed != 0 ? with->seed : 1; }

static uint64_t draw_in(const plan *with, uint64_t stream) {
    draws from = draws_of(with->seed, stream);
    return draws_wide(&from);
}

setup setup_of_plan(const plan *plan) {
    setup made = { .game = plan->game,
                   .program = &by_plan,
                   .machines = plan->machines,
                   .has_owners = true,
                   .threshold = plan->threshold,
                   .limit = plan->frames,
                   .turn = SECOND / TURNS_A_SECOND,
                   .delay = 1,
                   .jitter = plan->late,
                   .loss = plan->lost,
                   .copies = TWICE,
                   .last_frame = plan->frames,
                   .held_turns = plan->held,
                   .most_heard = MOST_HEARD,
                   .carries = plan_breaks_lines(plan),
                   .lasts = plan_goes_on(plan),
                   .polls_late = true,
                   .seed = plan->seed };
    for (uint32_t at = 0; at < FAZGROND_PLAYERS; at++) {
        made.owners[at] = at >= plan->machines ? FAZGROND_NO_PLAYER : plan_is_late(plan, at) ? FAZGROND_NOBODY : at;
        made.delays[at] = at < plan->machines ? plan->delay : 0;
    }
    return made;
}

/* ---- Where it is. */

static participant *own(const machine *of) { return of->own; }

static uint32_t number_of_frame(uint64_t frame) { return frame < UINT32_MAX ? (uint32_t)frame : UINT32_MAX; }

static bool is_free(const machine *of, uint32_t place) { return machine_epoch(of)->owners[place] == FAZGROND_NOBODY; }

static bool has_left(const participant *self, uint32_t place) { return (self->gone_players >> place & 1) != 0; }

uint32_t participant_left(const participant *self, uint32_t other) {
    uint32_t words = 0;
    if (self->left[other] != NEVER || !has_left(self, other) || is_free(self->machine, other))
        return self->left[other];
    fazgrond_confirmed(&self->machine->session, (uint8_t)(other + 1), &words);
    return number_of_frame(machine_base(self->machine) + words);
}

/* ---- Opening. */

static void draw_words(participant *self) {
    const plan *with = self->plan;
    draws from = draws_of(with->seed, WORD_STREAM + self->machine->me);
    uint32_t choice = 0;
    self->word_count = (size_t)with->delay + with->frames;
    self->words = room_of(self->word_count, sizeof *self->words);
    for (size_t at = with->delay; at < self->word_count; at++) {
        if (draws_below(&from, with->hold) == 0)
            choice = (choice + 1 + draws_below(&from, CHOICES - 1)) % CHOICES;
        self->words[at] = choices_of(with)[choice];
    }
}

static void open_enemy(participant *self) {
    const plan *with = self->plan;
    if (!with->is_hostile)
        return;
    self->enemy = room_of(1, sizeof *self->enemy);
    self->enemy->draws = draws_of(with->hostile, ENEMY_STREAM + self->machine->me);
    self->enemy->number = number_of(with);
    self->enemy->me = self->machine->me;
    for (uint32_t at = 0; at < FAZGROND_MACHINES; at++)
        self->enemy->openings[at] = draw_in(with, DRAW_STREAM + at);
}

void participant_open(participant *self, participant *all, const plan *plan, machine *machine, trace *trace) {
    *self = (participant){
        .plan = plan, .machine = machine, .all = all, .trace = trace, .dropped = NEVER, .brought = NEVER, .base_count = 1
    };
    machine->own = self;
    for (uint32_t at = 0; at < FAZGROND_MACHINES; at++)
        self->left[at] = self->came[at] = NEVER;
    draw_words(self);
    open_enemy(self);
    self->guesser = (guesser){ .players = plan->machines, .me = machine->me, .limit = plan->frames, .most = plan->jobs, .trace = trace };
    int32_t code = guesser_open(&self->guesser, choices_of(plan), CHOICES);
    if (code != FAZGROND_OK)
        world_refuse(machine->world, code, "habits don't open");
    if (plan_is_late(plan, machine->me))
        states_open(&machine->states, plan->game, plan->machines, world_slots(machine->world));
    else
        world_open(machine->world, machine->me);
}

void participant_close(participant *self) {
    guesser_close(&self->guesser);
    observer_close(&self->observer);
    if (self->enemy != NULL)
        enemy_close(self->enemy);
    free(self->enemy);
    free(self->words);
}

static void opens(machine *of, fazgrond_settings *settings, fazgrond_match *match) {
    participant *self = own(of);
    const plan *with = self->plan;
    *match = fazgrond_match_for(with->machines, of->me);
    fazgrond_one_number(match, number_of(with));
    match->draw = draw_in(with, (of->opening == 0 && !plan_is_late(with, of->me) ? DRAW_STREAM : LATER_DRAW_STREAM) + of->me);
    match->digest = with->frames;
    match->held_turns = with->held;
    for (uint32_t at = 0; at < with->machines; at++)
        match->owners[at] = at;
    trace_opened(self->trace, of->me, settings);
    self->gone_players = 0;
    self->log_seen = 0;
    memset(self->gone, 0, sizeof self->gone);
}

/* ---- Hearing. */

static void hears(machine *of, const datagram *come) {
    participant *self = own(of);
    (void)come;
    for (int count = 0; self->enemy != NULL && count < HOSTILE_EACH; count++) {
        trick how = enemy_make(self->enemy, self->gone);
        int32_t code = fazgrond_peer_receive(&of->peer, &of->session, self->enemy->bytes, self->enemy->length,
                                             world_clock(of->world, of->me));
        self->counts.hostile++;
        self->counts.again += code == FAZGROND_OK && how == TRICK_AGAIN;
        self->counts.fooled += code == FAZGROND_OK && how != TRICK_AGAIN;
    }
}

/* The codes that end a match: all others say why a datagram wasn't heard. */
static bool is_fault(int32_t code) { return code == FAZGROND_OTHER_SESSION || code == FAZGROND_LOG_FULL || code == FAZGROND_NO_MEMORY; }

static void was_heard(machine *of, const datagram *come, int32_t code) {
    participant *self = own(of);
    trace_came(self->trace, come->from, come->to, come->length, code);
    self->counts.ignored += code != FAZGROND_OK;
    if (code == FAZGROND_OK && self->enemy != NULL)
        enemy_see(self->enemy, come, plan_stays(self->plan, come->from));
    if (is_fault(code))
        world_refuse(of->world, code, "a datagram can't be heard");
}

/* ---- The log: who has left the session. */

static void read_log(participant *self) {
    size_t length = 0;
    fazgrond_entry entry;
    machine *of = self->machine;
    fazgrond_log_length(&of->session, &length);
    while (self->log_seen < length && fazgrond_log_entry(&of->session, self->log_seen, &entry) == FAZGROND_OK) {
        self->log_seen++;
        trace_entry(self->trace, of->me, &entry);
        if (entry.kind == FAZGROND_DISCONNECT)
            self->gone_players |= 1u << (entry.player - 1);
    }
}

/* ---- Epochs. */

/* The epoch may be over by now: who has left it is known. */
static void has_heard(machine *of) {
    participant *self = own(of);
    for (uint32_t at = 0; at < FAZGROND_MACHINES; at++)
        self->leaving[at] = participant_left(self, at);
    read_log(self);
}

/* Who is in this epoch and wasn't in the one before. */
static uint32_t newcomer(machine *of) {
    uint32_t has_stayed = 1;
    for (uint32_t at = 0; at < MACHINES; at++)
        if (machine_epoch(of)->owners[at] == at && fazgrond_peer_has_stayed(&of->peer, (uint8_t)at, &has_stayed) == FAZGROND_OK
            && has_stayed == 0)
            return at;
    return NEVER;
}

static void push_base(participant *self) {
    if (self->base_count == MOST_EPOCHS) {
        world_refuse(self->machine->world, FAZGROND_INVALID_REQUEST, "there are too many epochs");
        return;
    }
    self->bases[self->base_count++] = number_of_frame(machine_base(self->machine));
}

/* It comes into the match with what another one has. */
static void come(participant *self, const participant *host) {
    machine *of = self->machine, *with = host->machine;
    fazgrond_epoch epoch = *machine_epoch(with);
    of->hangs = false;
    self->has_come = true;
    self->base_count = host->base_count;
    memcpy(self->bases, host->bases, sizeof self->bases);
    memcpy(self->left, host->left, sizeof self->left);
    memcpy(self->came, host->came, sizeof self->came);
    world_open_in(of->world, of->me, of->me, &epoch, states_settled(&with->states));
    observer_begin(&self->observer, &of->session, number_of_frame(epoch.base));
}

/* The next epoch has begun. Whoever comes in it, and isn't there yet, comes. */
static void begins(machine *of) {
    participant *self = own(of);
    memcpy(self->left, self->leaving, sizeof self->left);
    push_base(self);
    self->log_seen = 0;
    self->gone_players = 0;
    memset(self->gone, 0, sizeof self->gone);
    fazgrond_settings settings = world_settings_in(of->world, of->seat, machine_epoch(of));
    trace_opened(self->trace, of->me, &settings);
    uint32_t comer = newcomer(of);
    if (comer != NEVER)
        self->came[comer] = number_of_frame(machine_base(of));
    self->brought = comer;
    observer_begin(&self->observer, &of->session, number_of_frame(machine_base(of)));
}

/* Who comes, and isn't there yet, comes. */
static void bring(participant *self) {
    uint32_t comer = self->brought;
    self->brought = NEVER;
    if (comer == NEVER)
        return;
    const machine *guest = self->all[comer].machine;
    bool is_there = guest->is_open && !guest->hangs && machine_epoch(guest)->id == machine_epoch(self->machine)->id;
    if (!is_there)
        come(&self->all[comer], self);
}

/* ---- Marks. */

static bool is_lowest(const participant *self) {
    bool is_so = true;
    for (uint32_t at = 0; at < self->machine->me; at++)
        is_so &= self->gone[at] || is_free(self->machine, at);
    return is_so;
}

/* The first machine that is to have come by this frame and hasn't, if its player has left, or is free. */
static uint32_t comer_to_come(const participant *self, uint32_t frame) {
    const plan *with = self->plan;
    for (uint32_t at = 0; at < with->machines; at++)
        if (with->comes[at] <= frame && with->comes[at] != NEVER && (has_left(self, at) || is_free(self->machine, at)))
            return at;
    return NEVER;
}

/* Puts a mark on its player's next word, if by this frame the player is to have another delay, or it is to let another machine in. */
static void plays(machine *of) {
    participant *self = own(of);
    uint32_t frame = number_of_frame(machine_frame(of));
    if (!plan_goes_on(self->plan))
        return;
    uint32_t delay = plan_wanted_delay(self->plan, of->me, frame), comer = is_lowest(self) ? comer_to_come(self, frame) : NEVER;
    bool is_other = delay != NEVER && delay != machine_epoch(of)->delays[of->me];
    if (!is_other && comer == NEVER)
        return;
    fazgrond_mark mark = fazgrond_mark_for();
    if (is_other)
        mark.delays[of->me] = delay;
    if (comer != NEVER) {
        mark.comes[comer] = 1;
        mark.ticket = comer + 1;
    }
    fazgrond_peer_mark(&of->peer, &of->session, (uint8_t)(of->me + 1), &mark);
}

/* ---- Words. */

static uint32_t word_of(machine *of, uint32_t player, uint64_t frame) {
    const participant *self = own(of);
    uint32_t words = 0;
    (void)frame;
    fazgrond_confirmed(&of->session, (uint8_t)(player + 1), &words);
    uint64_t at = machine_base(of) + words;
    return at < self->word_count ? self->words[at] : 0;
}

/* Of how many of the words that are held back the session needn't run any frame again: of all, or of those that the last job was of. */
static uint32_t count_free(participant *self) {
    fazgrond_entry words[FAZGROND_HELD_WORDS];
    machine *of = self->machine;
    uint32_t frames, count = (uint32_t)fazgrond_peer_waiting(&of->peer, words, FAZGROND_HELD_WORDS);
    uint32_t covered = self->covered < count ? self->covered : count;
    if (count > 0 && fazgrond_peer_rerun(&of->peer, &of->session, count, &frames) == FAZGROND_OK && frames == 0)
        return count;
    bool is_covered = covered > 0 && fazgrond_peer_rerun(&of->peer, &of->session, covered, &frames) == FAZGROND_OK && frames == 0;
    return is_covered ? covered : 0;
}

static void must_be_taken(machine *of, int32_t code, const char *what) {
    if (code != FAZGROND_OK)
        world_refuse(of->world, code, what);
}

static void hands_over(machine *of) {
    uint32_t handed;
    must_be_taken(of, fazgrond_peer_hand_over(&of->peer, &of->session, count_free(own(of))), "words aren't handed over");
    must_be_taken(of, fazgrond_peer_hand_over_due(&of->peer, &of->session, &handed), "words that are due aren't handed over");
}

/* Has its helper run the frames of the words that are held back. They count from the next turn on. */
static void run_held(participant *self) {
    fazgrond_entry words[FAZGROND_HELD_WORDS];
    machine *of = self->machine;
    job todo;
    uint32_t added;
    self->covered = (uint32_t)fazgrond_peer_waiting(&of->peer, words, FAZGROND_HELD_WORDS);
    int32_t code = self->covered > 0 ? fazgrond_peer_guess(&of->peer, &of->session, of->frame, &todo.number) : FAZGROND_NOTHING;
    if (code == FAZGROND_NOTHING)
        return;
    must_be_taken(of, code, "words that are held back aren't guessed");
    job_take(&todo, &of->states, &of->session);
    job_run(&todo, &of->states, todo.count);
    self->counts.held_jobs++;
    self->counts.held_taken += fazgrond_graft(&of->session, todo.number, &added) == FAZGROND_OK;
}

/* ---- What came of a turn. */

static void carries_out(machine *of, const fazgrond_request *request) { trace_request(own(of)->trace, of->me, request); }

/* What came of its turn is seen: the words that wait, and the roll. */
static void watch(participant *self) {
    machine *of = self->machine;
    if (self->plan->held > 0) {
        fazgrond_entry words[FAZGROND_HELD_WORDS];
        size_t count = fazgrond_peer_waiting(&of->peer, words, FAZGROND_HELD_WORDS);
        observer_note_turn(&self->observer, &of->session, words, count, of->world->turn);
    }
    if (of->has_rolled && observer_note_roll(&self->observer, &of->session))
        trace_roll(self->trace, of->me, &self->observer);
}

static void has_played(machine *of) {
    participant *self = own(of);
    read_log(self);
    watch(self);
    if (of->settled != self->settled)
        trace_settled(self->trace, of->me, number_of_frame(of->settled), machine_digest(of, of->settled));
    self->settled = of->settled;
    if (self->plan->held > 0)
        run_held(self);
    int32_t code = guesser_turn(&self->guesser, &of->session, &of->states, self->gone_players);
    must_be_taken(of, code, "a guess is refused");
    bring(self);
}

static void is_told(machine *of, const fazgrond_event *event) {
    participant *self = own(of);
    trace_told(self->trace, of->me, event);
    switch (event->code) {
    case FAZGROND_DESYNC: self->counts.desyncs++; break;
    case FAZGROND_DROPPED: self->dropped = number_of_frame(machine_frame(of)); break;
    case FAZGROND_LEFT: self->gone[event->machine] = true; break;
    default: break;
    }
}

/* On a line that is broken a datagram is lost. */
static bool sends(machine *of, datagram *made) {
    participant *self = own(of);
    const plan *with = self->plan;
    if (plan_goes_on(with) && !plan_breaks_lines(with))
        hello_says_no_carrying(made->bytes, made->length, number_of(with), machine_epoch(of)->id);
    self->counts.sent++;
    self->counts.bytes += made->length;
    trace_sent(self->trace, made->from, made->to, made->length);
    return !plan_is_broken(with, made->from, made->to, number_of_frame(machine_frame(of)));
}

const program by_plan = { .opens = opens,
                          .word = word_of,
                          .hears = hears,
                          .heard = was_heard,
                          .has_heard = has_heard,
                          .begins = begins,
                          .plays = plays,
                          .hands_over = hands_over,
                          .carries_out = carries_out,
                          .has_played = has_played,
                          .is_told = is_told,
                          .sends = sends };
