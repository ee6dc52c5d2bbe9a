/* Words that a peer holds back: that they wait, for how long, what hands them over, and that a guess with them leaves nothing to run again.
 * Then matches on a bad line: all machines come to the state of the game that is run once, whoever holds words back. */
#include "../sim/scenario.h"

enum { MOST_TURNS = 8, LATEST = 6, FRAMES = 200 };

/* How a machine holds words back: for so many turns, or not at all if they are 0; whether it hands them over before it would stand; and
 * how many turns later its helper is done with a job. */
typedef struct holding {
    uint32_t turns, is_pressed, late;
} holding;

/* What a machine keeps: of how many words that wait its last job is; how many frames it ran again, and how many steps and frames there
 * were before its turn; and the job that is done in a turn, by the turn's number. */
typedef struct holder {
    holding how;
    uint32_t covered, again, steps, frame;
    job jobs[LATEST];
} holder;

/* ---- Calls, which aren't refused. */

static uint32_t answer;

static uint32_t confirmed(machine *self, uint8_t player) { return OK(fazgrond_confirmed(&self->session, player, &answer)), answer; }

static uint32_t rerun(machine *self, uint32_t count) {
    return OK(fazgrond_peer_rerun(&self->peer, &self->session, count, &answer)), answer;
}

static uint32_t is_pressed(machine *self) { return OK(fazgrond_peer_is_pressed(&self->peer, &self->session, &answer)), answer; }

static uint32_t hand_over_due(machine *self) { return OK(fazgrond_peer_hand_over_due(&self->peer, &self->session, &answer)), answer; }

static void hand_over(machine *self, uint32_t count) { OK(fazgrond_peer_hand_over(&self->peer, &self->session, count)); }

static uint32_t waiting(machine *self) {
    fazgrond_entry entries[FAZGROND_HELD_WORDS];
    return (uint32_t)fazgrond_peer_waiting(&self->peer, entries, FAZGROND_HELD_WORDS);
}

/* ---- A machine that holds words back, and has a helper. */

static void opens(machine *self, fazgrond_settings *settings, fazgrond_match *match) {
    const holder *of = self->own;
    memset(settings->masks, 0, sizeof settings->masks);
    match->held_turns = of->how.turns;
}

/* A button or two of three. */
static uint32_t buttons(machine *self, uint32_t player, uint64_t frame) { return world_drawn_word(self, player, frame) & 7; }

/* The job whose time has come is carried out, and grafted. */
static void graft_one(machine *self) {
    uint32_t added;
    holder *of = self->own;
    job *due = &of->jobs[self->turns % LATEST];
    if (due->count == 0)
        return;
    MUST(job_run(due, &self->states, JOB_REQUESTS));
    int32_t code = fazgrond_graft(&self->session, due->number, &added);
    MUST(code != FAZGROND_PENDING && code != FAZGROND_NO_JOB);
    due->count = 0;
}

/* Hands over what would make no frame run again, what has waited for its turns, and all that the session would stand without. */
static void hands_over(machine *self) {
    const holder *of = self->own;
    uint32_t all = waiting(self);
    if (all > 0 && rerun(self, all) == 0)
        hand_over(self, all);
    else if (all > 0 && of->covered > 0 && rerun(self, of->covered) == 0)
        hand_over(self, of->covered);
    if (of->how.is_pressed != 0 && is_pressed(self) != 0)
        hand_over(self, FAZGROND_HELD_WORDS);
    hand_over_due(self);
}

/* Frames that a job has run needn't be: so there may be fewer steps than frames. */
static void count_again(machine *self, holder *of) {
    uint32_t steps = self->states.steps - of->steps, frames = self->frame - of->frame;
    of->again += steps > frames ? steps - frames : 0;
    of->steps = self->states.steps;
    of->frame = self->frame;
}

/* A guess with all words that wait, for the helper. */
static void guess_all(machine *self) {
    holder *of = self->own;
    count_again(self, of);
    job *next = &of->jobs[(self->turns + of->how.late) % LATEST];
    uint32_t until = self->frame < FRAMES ? self->frame + 1 : self->frame;
    of->covered = waiting(self);
    if (of->covered == 0)
        return;
    int32_t code = fazgrond_peer_guess(&self->peer, &self->session, until, &next->number);
    MUST(code == FAZGROND_OK || code == FAZGROND_NOTHING);
    job_take(next, &self->states, &self->session);
    MUST((next->count > 0) == (code == FAZGROND_OK));
}

static const program holding_back = {
    .opens = opens, .word = buttons, .plays = graft_one, .hands_over = hands_over, .has_played = guess_all
};

/* A world whose machines hold words back, each in its way. */
static world *opened(setup with, const holding hows[MACHINES]) {
    static holder holders[MACHINES];
    with.lasts = false;
    with.limit = with.last_frame = FRAMES;
    world *self = world_begin(&with);
    memset(holders, 0, with.machines * sizeof *holders);
    for (uint32_t who = 0; who < with.machines; who++) {
        holders[who].how = hows[who];
        self->machine[who].own = &holders[who];
    }
    world_open_all(self);
    return self;
}

static void end(world *self) {
    is_well(self);
    world_end(self);
}

/* ---- Machines of which the last holds words back, one call after another: their words are given, and handed over, beside their turns. */

static machine *one, *two; /* the last two */

static const program by_hand = { .opens = opens, .word = buttons };

/* A match that has begun. In a turn each machine hears what those before it have sent in that turn, and those behind it in the last. */
static world *begun(setup with, uint32_t threshold, uint32_t turns) {
    holding hows[MACHINES] = { { 0, 0, 0 } };
    hows[with.machines - 1].turns = turns;
    with.program = &by_hand;
    with.threshold = threshold;
    with.delay = 0;
    world *self = opened(with, hows);
    one = &self->machine[with.machines - 2];
    two = &self->machine[with.machines - 1];
    for (uint32_t who = 0; who < with.machines; who++)
        self->machine[who].is_stalled = true;
    world_run_turns(self, 8);
    MUST(one->is_running && two->is_running);
    return self;
}

/* A machine's players give a word, and it goes on. */
static fazgrond_reached give(machine *self, uint32_t word) {
    fazgrond_reached reached;
    uint32_t steps = self->states.steps;
    for (uint8_t player = 0; player < world_players(self->world); player++)
        if (world_owner(self->world, player) == self->me)
            OK(fazgrond_add_local_input(&self->session, player + 1, word));
    OK(fazgrond_advance_frame(&self->session, &reached));
    machine_carry_out(self);
    machine_see_settled(self);
    IS(self->states.steps - steps, reached.rerun);
    return reached;
}

/* How many words of one machine another hasn't acknowledged. */
static uint32_t queued(machine *self, uint8_t seat) {
    fazgrond_stats stats;
    OK(fazgrond_peer_stats(&self->peer, seat, &stats));
    return stats.words_queued;
}

/* So many words wait, and the last of them is this one. Nothing is written past them, or without room. */
static void is_waiting(machine *self, size_t count, uint32_t player, uint32_t frame, uint32_t word) {
    fazgrond_entry entries[FAZGROND_HELD_WORDS] = { 0 }, *last = &entries[count - 1];
    IS(fazgrond_peer_waiting(&self->peer, entries, 0), 0);
    IS(entries[0].kind, 0);
    IS(fazgrond_peer_waiting(&self->peer, entries, count + 1), count);
    IS(entries[count].kind, 0);
    IS(last->kind, FAZGROND_REMOTE);
    IS(last->player, player);
    IS(last->frame, frame);
    IS(last->word, word);
}

/* No frames are counted for so many words, and no guess is made up to that frame. */
static void is_not_asked(machine *self, uint32_t count, uint32_t until) {
    uint32_t number = 77;
    IS(fazgrond_peer_rerun(&self->peer, &self->session, count, &number), FAZGROND_INVALID_REQUEST);
    IS(fazgrond_peer_guess(&self->peer, &self->session, until, &number), FAZGROND_INVALID_REQUEST);
    IS(number, 77);
}

/* A word waits for as many turns as the match says, and is acknowledged at once; a second one that comes a turn later is handed over a
 * turn later. */
static void waits(uint32_t threshold, uint32_t turns) {
    world *self = begun(even, threshold, turns);
    give(two, 9);
    give(two, 9);
    give(one, 3);
    world_run_turns(self, 1);
    IS(queued(one, 1), 1);
    world_run_turns(self, 1);
    IS(queued(one, 1), 0);
    IS(confirmed(two, 1), 0);
    is_waiting(two, 1, 1, 0, 3);
    for (uint32_t turn = 1; turn < turns; turn++) {
        IS(hand_over_due(two), 0);
        IS(confirmed(two, 1), 0);
        if (turn == 1)
            give(one, 4);
        world_run_turns(self, 2);
        IS(queued(one, 1), 0);
    }
    IS(hand_over_due(two), 1);
    IS(confirmed(two, 1), 1);
    IS(waiting(two), turns > 1);
    if (turns > 1) {
        is_waiting(two, 1, 1, 1, 4);
        IS(hand_over_due(two), 1);
        IS(confirmed(two, 1), 2);
    }
    IS(hand_over_due(two), 0);
    end(self);
}

/* A guess with three words that wait is grafted, so that they make nothing run again. */
static void guess_three(machine *self) {
    static job todo;
    uint32_t number = 77, added;
    is_waiting(self, 3, 1, 2, 7);
    is_not_asked(self, 0, 40);
    IS(rerun(self, 3), 3);
    IS(rerun(self, 100), 3);
    OK(fazgrond_peer_guess(&self->peer, &self->session, self->frame, &todo.number));
    job_take(&todo, &self->states, &self->session);
    IS(todo.count, 7); /* a load, and three times a step and a save */
    IS(rerun(self, 3), 3);
    MUST(job_run(&todo, &self->states, JOB_REQUESTS));
    OK(fazgrond_graft(&self->session, todo.number, &added));
    IS(added, 3);
    IS(rerun(self, 3), 0);
    IS(fazgrond_peer_guess(&self->peer, &self->session, self->frame, &number), FAZGROND_NOTHING);
    IS(number, 77);
}

static void guesses(uint32_t threshold, uint32_t turns) {
    world *self = begun(even, threshold, turns);
    is_not_asked(two, 1, 1);
    for (uint32_t at = 0; at < 3; at++) {
        give(one, 5 + at);
        give(two, 9);
    }
    world_run_turns(self, 1);
    guess_three(two);
    hand_over(two, 0);
    IS(waiting(two), 3);
    hand_over(two, 2);
    IS(confirmed(two, 1), 2);
    is_waiting(two, 1, 1, 2, 7);
    IS(rerun(two, 1), 0);
    hand_over(two, 100);
    IS(confirmed(two, 1), 3);
    IS(waiting(two), 0);
    fazgrond_reached reached = give(two, 9);
    IS(reached.from, 3);
    IS(reached.rerun, 1); /* the frame that is new */
    end(self);
}

/* What is said of words that wait for a session that would stand without them. */
static void presses(uint32_t threshold, uint32_t turns) {
    world *self = begun(even, threshold, turns);
    IS(is_pressed(two), 0);
    give(one, 3);
    world_run_turns(self, 1);
    IS(is_pressed(two), 0);
    give(two, 9);
    IS(is_pressed(two), 1);
    give(two, 9);
    IS(fazgrond_add_local_input(&two->session, 2, 9), FAZGROND_PREDICTION_THRESHOLD);
    hand_over(two, FAZGROND_HELD_WORDS);
    IS(is_pressed(two), 0); /* none waits */
    OK(fazgrond_add_local_input(&two->session, 2, 9));
    end(self);
}

/* Before a player leaves, the session is given all of its words that wait. */
static void leaves(uint32_t threshold, uint32_t turns) {
    uint8_t bytes[FAZGROND_DATAGRAM];
    size_t length;
    fazgrond_entry last[2];
    fazgrond_row row;
    world *self = begun(even, threshold, turns);
    give(one, 3);
    give(one, 4);
    world_run_turns(self, 1);
    OK(fazgrond_peer_bye(&one->peer, 1, FAZGROND_BYE_LEAVES, bytes, sizeof bytes, &length));
    OK(fazgrond_peer_receive(&two->peer, &two->session, bytes, length, world_clock(self, 1)));
    is_waiting(two, 2, 1, 1, 4);
    OK(fazgrond_peer_poll(&two->peer, &two->session, world_clock(self, 1)));
    IS(waiting(two), 0);
    IS(confirmed(two, 1), 2);
    for (size_t at = 0; at < 2; at++)
        OK(fazgrond_log_entry(&two->session, world_log(self, 1) - 2 + at, &last[at]));
    IS(last[0].kind, FAZGROND_REMOTE);
    IS(last[0].word, 4);
    IS(last[1].kind, FAZGROND_DISCONNECT);
    for (uint32_t at = 0; at < 3; at++)
        give(two, 9);
    OK(fazgrond_settled_row(&two->session, 1, &row));
    IS(row.words[0], 4);
    IS(row.gone, 0);
    OK(fazgrond_synchronize_input(&two->session, &row));
    IS(row.gone, 1);
    end(self);
}

/* Once a player has left, the words of those who stay are held back as before. */
static void stays(uint32_t threshold, uint32_t turns) {
    setup with = even;
    with.machines = 3;
    world *self = begun(with, threshold, turns);
    world_leave(self, 0);
    world_run_turns(self, 8);
    IS(world_told(self, 2, FAZGROND_DISCONNECTED, NOBODY), 1);
    give(one, 5);
    world_run_turns(self, 4);
    IS(confirmed(two, 2), 0);
    is_waiting(two, 1, 2, 0, 5);
    IS(queued(one, 2), 0);
    end(self);
}

/* If a word comes while 64 wait, these are handed over. Those that wait from then on do so for all their turns. */
static void overflows(uint32_t threshold, uint32_t turns) {
    uint32_t there = 0, more = 7 * threshold - FAZGROND_HELD_WORDS;
    setup with = even;
    with.players = 8;
    with.has_owners = true;
    with.owners[7] = 1;
    world *self = begun(with, threshold, turns);
    give(one, 1);
    world_run_turns(self, 1);
    IS(waiting(two), 7);
    for (uint32_t turn = 1; turn < turns; turn++)
        IS(hand_over_due(two), 0);
    for (uint32_t frame = 1; frame < threshold; frame++)
        give(one, 1);
    world_run_turns(self, 5);
    IS(queued(one, 1), 0);
    for (uint8_t player = 1; player < 8; player++)
        there += confirmed(two, player);
    IS(there, FAZGROND_HELD_WORDS);
    IS(waiting(two), more);
    for (uint32_t turn = 1; turn < turns; turn++)
        IS(hand_over_due(two), 0);
    IS(hand_over_due(two), more);
    end(self);
}

/* A session that was told the words that wait by somebody else is another one, and nothing is changed. */
static void is_told_past(uint32_t threshold, uint32_t turns) {
    uint8_t bytes[FAZGROND_DATAGRAM];
    uint32_t number;
    size_t length;
    world *self = begun(even, threshold, turns);
    give(one, 3);
    world_run_turns(self, 1);
    OK(fazgrond_remote_input(&two->session, 1, 0, 3, &number));
    IS(number, 0);
    OK(fazgrond_peer_send(&one->peer, &one->session, 1, world_clock(self, 0), bytes, sizeof bytes, &length));
    IS(fazgrond_peer_receive(&two->peer, &two->session, bytes, length, world_clock(self, 1)), FAZGROND_OTHER_SESSION);
    length = number = 77;
    IS(fazgrond_peer_poll(&two->peer, &two->session, world_clock(self, 1)), FAZGROND_OTHER_SESSION);
    IS(fazgrond_peer_send(&two->peer, &two->session, 0, 0, bytes, sizeof bytes, &length), FAZGROND_OTHER_SESSION);
    IS(fazgrond_peer_hand_over(&two->peer, &two->session, 1), FAZGROND_OTHER_SESSION);
    for (uint32_t turn = 0; turn <= MOST_TURNS; turn++)
        IS(fazgrond_peer_hand_over_due(&two->peer, &two->session, &number), FAZGROND_OTHER_SESSION);
    is_not_asked(two, 1, 1);
    IS(number + length, 154);
    is_waiting(two, 1, 1, 0, 3);
    IS(fazgrond_peer_send(&two->peer, &two->session, 0, 0, bytes, FAZGROND_DATAGRAM - 1, &length), FAZGROND_TOO_SHORT);
    end(self);
}

/* A peer that holds nothing back: the session is told each word as it comes. */
static void holds_nothing(uint32_t threshold, uint32_t turns) {
    world *self = begun(even, threshold, turns);
    give(two, 9);
    give(one, 3);
    world_run_turns(self, 1);
    IS(confirmed(two, 1), 1);
    IS(waiting(two), 0);
    is_not_asked(two, 1, 1);
    hand_over(two, 1);
    IS(hand_over_due(two), 0);
    IS(is_pressed(two), 0);
    end(self);
}

static void is_closed(fazgrond_peer *peer, fazgrond_session *session) {
    uint32_t number = 77;
    IS(fazgrond_peer_rerun(peer, session, 1, &number), FAZGROND_IS_CLOSED);
    IS(fazgrond_peer_guess(peer, session, 1, &number), FAZGROND_IS_CLOSED);
    IS(fazgrond_peer_hand_over(peer, session, 1), FAZGROND_IS_CLOSED);
    IS(fazgrond_peer_hand_over_due(peer, session, &number), FAZGROND_IS_CLOSED);
    IS(fazgrond_peer_is_pressed(peer, session, &number), FAZGROND_IS_CLOSED);
    IS(number, 77);
}

/* Calls of a closed peer, or beside a closed session. */
static void closed(uint32_t threshold, uint32_t turns) {
    fazgrond_entry entry = { 9, 9, 9, 9 };
    fazgrond_peer peer = FAZGROND_CLOSED;
    fazgrond_session session = FAZGROND_CLOSED;
    world *self = begun(even, threshold, turns);
    is_closed(&peer, &session);
    is_closed(&peer, &two->session);
    is_closed(&two->peer, &session);
    IS(fazgrond_peer_waiting(&peer, &entry, 1), 0);
    IS(fazgrond_peer_waiting((fazgrond_peer *)&session, &entry, 1), 0);
    IS(entry.kind, 9);
    end(self);
}

/* Words can be held back for 8 turns at most. */
static void opens_with(uint32_t threshold, uint32_t turns) {
    fazgrond_peer peer = FAZGROND_CLOSED;
    IS(fazgrond_match_for(2, 0).held_turns, 0);
    world *self = begun(even, threshold, 0);
    fazgrond_match match = world_match(self, 0, 0);
    for (match.held_turns = 0; match.held_turns < turns; match.held_turns++) {
        bool is_held = match.held_turns <= MOST_TURNS;
        IS(fazgrond_peer_open(&peer, &one->session, &match), is_held ? FAZGROND_OK : FAZGROND_INVALID_REQUEST);
    }
    fazgrond_peer_close(&peer);
    end(self);
}

/* ---- Matches on a bad line. */

/* A match to its end; how many frames the last machine ran again. */
static uint32_t play_match(uint32_t seed, uint32_t machines, const holding hows[MACHINES]) {
    setup with = even;
    with.machines = machines;
    with.seed = seed;
    with.delay = 1;
    with.jitter = 4;
    with.loss = 20;
    with.copies = 10;
    with.silent_after = FAZGROND_SILENT_AFTER;
    with.held_turns = MOST_TURNS;
    with.program = &holding_back;
    world *self = opened(with, hows);
    const holder *last = self->machine[machines - 1].own;
    bool is_over = world_play(self, FRAMES, 50 * FRAMES * even.turn / MILLISECOND);
    is_well(self);
    MUST(is_over); /* else the match stands */
    for (uint32_t who = 0; who < machines; who++) {
        MUST(world_is_serial(self, who, FRAMES));
        for (uint32_t code = 0; code < CODES; code++)
            MUST(self->machine[who].answers[code] == 0 || code == FAZGROND_OK || code == FAZGROND_NOT_SEALED);
        for (uint32_t code = FAZGROND_LEFT; code <= FAZGROND_STRANGERS; code++)
            MUST(code == FAZGROND_STALLED || world_told(self, who, code, NOBODY) == 0);
    }
    end(self);
    return last->again;
}

/* Nobody holds words back, and there are frames to run again; or the last machine does, with a helper that is done by the next turn; or
 * all do, with one that is too late. */
static void matches(uint32_t seed, uint32_t machines) {
    uint32_t turns = 1 + seed % MOST_TURNS;
    const holding nobody[MACHINES] = { { 0, 0, 0 } };
    const holding late[MACHINES] = { { turns, 1, 3 }, { 1 + turns / 3, 1, 1 + turns / 2 }, { turns, 1, 5 } };
    holding last[MACHINES] = { { 0, 0, 0 } };
    last[machines - 1] = (holding){ turns > 1 ? turns : 2, 0, 1 };
    MUST(play_match(seed, machines, nobody) > FRAMES / 4);
    IS(play_match(seed, machines, last), 0);
    play_match(seed, machines, late);
}

/* The two numbers are the threshold, and for how many turns words are held back; or the seed, and how many machines there are. */
static const scenario scenarios[] = {
    { "a word waits", waits, { 8, 8, 1, 1 }, { 1, MOST_TURNS, 1, 7 }, FEW },
    { "a guess with all words", guesses, { 8, 8, 1, 1 }, { 1, MOST_TURNS, 1, 0 }, FEW },
    { "a session that would stand", presses, { 2, 2, 1, 1 }, { 1, MOST_TURNS, 1, 0 }, FEW },
    { "a player leaves", leaves, { 8, 8, 1, 1 }, { 1, MOST_TURNS, 1, 0 }, FEW },
    { "others stay", stays, { 8, 8, 1, 1 }, { 1, MOST_TURNS, 1, 0 }, FEW },
    { "too many words", overflows, { 10, 15, 1, 5 }, { 2, MOST_TURNS, 1, 0 }, FEW },
    { "a session is told past its peer", is_told_past, { 8, 8, 1, 1 }, { 1, MOST_TURNS, 1, 0 }, FEW },
    { "nothing is held back", holds_nothing, { 8, 8, 1, 1 }, { 0, 0, 1, 1 }, FEW },
    { "closed handles", closed, { 8, 8, 1, 1 }, { 3, 3, 1, 1 }, FEW },
    { "an opening", opens_with, { 8, 8, 1, 1 }, { 300, 300, 1, 1 }, FEW },
    { "a match on a bad line", matches, { 1, 60, 1, 30 }, { 2, 3, 1, 1 }, DRAWN },
};

int main(int count, char **words) { return scenarios_play(scenarios, sizeof scenarios / sizeof *scenarios, count, words); }
