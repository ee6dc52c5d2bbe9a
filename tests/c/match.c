/* Sessions that play a match in one handle. Two machines and three play a small game in one process, over simulated lines that lose,
 * double and reorder datagrams: with inputs of 4, 6 and 10 bytes, with two players at a machine, in epochs over a line that is cut for good
 * and with inputs held back, beside a machine that leaves, and beside one that plays by a peer. What each machine has settled is compared
 * with the game that is run once, by the inputs that this program gave, with the delays that it asked for. Then what the calls refuse.
 * `match NAME` plays one case. */
static const char *case_name = "";
#define CHECKS_OF "%s", case_name
#include "../check.h"
#include "../sim/network.h"

#include <string.h>

enum { MACHINES = 3, FRAMES = 600, ROOM = 4096, EPOCHS = 3, SLOTS = 1024, MOST_TURNS = 60000, MOST_INPUT = 16, BYE = FAZGROND_BYE_OWN + 4 };
enum { TURN_TIME = 17, FRAME_TIME = 16667, NO_MACHINE = MACHINES, REQUESTS = 8, EPOCH_FRAMES = 150, LEAVES_AT = 200 };

/* A match. `old`: the machine that plays by a peer beside its session, or NO_MACHINE. */
typedef struct setup {
    uint32_t machines, players, input_size, lost, late, held_turns, old;
    bool lasts;
    uint32_t owners[FAZGROND_PLAYERS], delays[FAZGROND_PLAYERS];
} setup;

/* A machine: its game's current state, that of a job, and the saved ones; in which epoch it is, and at which frame of it; and up to which
 * frame of the match its settled state was compared. */
typedef struct machine {
    fazgrond_session session;
    fazgrond_peer peer;
    uint32_t me, epoch, frame;
    bool is_open, is_running, gives_nothing, has_left;
    uint64_t state, job_state, saved[SLOTS], compared;
    uint32_t disconnected, left[MACHINES]; /* how many words have left, and the bye with which a machine did */
    uint32_t handed, next_in;              /* how many words turns handed over, and what the last turn said */
} machine;

static setup with;
static machine machines[MACHINES];
static network lines;
static uint32_t turns;
static bool is_cut; /* the line between the machines 0 and 1 */

/* What this program gave, for each frame of the match: an input of each player, up to which frame there is one, and from which one on the
 * player has left. At which frame of the match each epoch begins, with which delays, and how many epochs there are so far. */
static uint8_t given[FAZGROND_PLAYERS][ROOM][MOST_INPUT];
static uint64_t known[FAZGROND_PLAYERS], gone_from[FAZGROND_PLAYERS];
static uint64_t begins[EPOCHS];
static uint32_t delays[EPOCHS][FAZGROND_PLAYERS], epochs;

/* The states of the game that is run once, up to this frame. */
static uint64_t once[ROOM + 1], run_to;

/* ---- The game: each byte of each input changes all that comes after it. */

static uint64_t mixed(uint64_t state, uint64_t more) { return (state ^ more) * 0x9e3779b97f4a7c15u + (state >> 29); }

static uint64_t state_after(uint64_t state, const uint8_t *input, bool is_gone) {
    for (uint32_t at = 0; at < with.input_size; at++)
        state = mixed(state, input[at]);
    return mixed(state, is_gone ? 257 : 256);
}

static uint32_t words_of_input(void) { return (with.input_size + 3) / 4; }

static uint64_t stepped(uint64_t state, const fazgrond_row *row) {
    IS(row->count, with.players * words_of_input());
    for (uint32_t player = 0; player < with.players; player++)
        state = state_after(state, fazgrond_input_of(row, player, with.input_size), (row->gone >> player * words_of_input() & 1) != 0);
    return state;
}

/* Runs the game once, with what was given. */
static void run_once(uint64_t until) {
    static const uint8_t nothing[MOST_INPUT];
    MUST(until <= ROOM);
    for (; run_to < until; run_to++) {
        uint64_t state = once[run_to];
        for (uint32_t player = 0; player < with.players; player++) {
            bool is_gone = run_to >= gone_from[player];
            MUST(is_gone || run_to < known[player]);
            state = state_after(state, is_gone ? nothing : given[player][run_to], is_gone);
        }
        once[run_to + 1] = state;
    }
}

static void carry_out(machine *self, const fazgrond_request *request) {
    MUST(request->slot < SLOTS);
    switch (request->kind) {
    case FAZGROND_LOAD: self->state = self->saved[request->slot]; break;
    case FAZGROND_SAVE: self->saved[request->slot] = self->state; break;
    case FAZGROND_STEP: self->state = stepped(self->state, &request->row); break;
    case FAZGROND_JOB_LOAD: self->job_state = self->saved[request->slot]; break;
    case FAZGROND_JOB_SAVE: self->saved[request->slot] = self->job_state; break;
    case FAZGROND_JOB_STEP: self->job_state = stepped(self->job_state, &request->row); break;
    default: IS(request->kind, FAZGROND_FREE);
    }
}

/* How many requests there were. */
static size_t carry_out_all(machine *self) {
    fazgrond_request requests[REQUESTS];
    size_t count, all = 0;
    while ((count = fazgrond_take_requests(&self->session, requests, REQUESTS)) > 0) {
        for (size_t at = 0; at < count; at++)
            carry_out(self, &requests[at]);
        all += count;
    }
    return all;
}

/* ---- Inputs. */

/* A player's input at a frame of the match; it is held for some frames. */
static void press(uint8_t *input, uint32_t player, uint64_t frame) {
    for (uint32_t at = 0; at < with.input_size; at++)
        input[at] = (uint8_t)(mixed(mixed(77 + player, frame / 4), at + 1) >> 56);
}

static uint64_t frame_of_match(const machine *self) { return begins[self->epoch] + self->frame; }

/* The inputs of a machine's players. Comes back with how long they are. */
static size_t press_all(const machine *self, uint8_t *inputs) {
    size_t length = 0;
    for (uint32_t player = 0; player < with.players; player++)
        if (with.owners[player] == self->me) {
            press(&inputs[length], player, frame_of_match(self));
            length += with.input_size;
        }
    return length;
}

/* A frame was played with these inputs: they count for this frame and the delay. */
static void keep_all(const machine *self, const uint8_t *inputs) {
    for (uint32_t player = 0; player < with.players; player++)
        if (with.owners[player] == self->me) {
            uint64_t at = frame_of_match(self) + delays[self->epoch][player];
            MUST(at < ROOM);
            IS(known[player], at);
            memcpy(given[player][at], inputs, with.input_size);
            known[player]++;
            inputs += with.input_size;
        }
}

/* Where an epoch begins, inputs that were given past the end of the one before stay as far as the delay goes; where it goes further, the
 * last one is given again. */
static void give_again(const machine *self) {
    for (uint32_t player = 0; player < with.players; player++)
        if (with.owners[player] == self->me) {
            uint64_t until = frame_of_match(self) + delays[self->epoch][player];
            MUST(until < ROOM);
            for (uint64_t at = known[player]; at < until; at++)
                memcpy(given[player][at], given[player][at - 1], with.input_size);
            known[player] = until;
        }
}

/* ---- Openings. */

static fazgrond_match_settings settings_of(uint32_t me) {
    fazgrond_match_settings settings = fazgrond_match_settings_for(with.machines, me);
    settings.input_size = with.input_size;
    settings.draw = 70 + me;
    settings.digest = 8;
    settings.opening = 9;
    fazgrond_match_one_number(&settings, 7);
    for (uint32_t player = 0; player < with.players; player++) {
        settings.owners[player] = with.owners[player];
        settings.delays[player] = with.delays[player];
    }
    settings.profile = with.players * words_of_input() > 4 ? FAZGROND_WIDE : FAZGROND_GGPO;
    settings.held_turns = with.held_turns;
    settings.carries = settings.lasts = with.lasts;
    return settings;
}

static void open_new(machine *self) {
    fazgrond_match_settings settings = settings_of(self->me);
    fazgrond_unfit why = { 77, 77, 77 };
    OK(fazgrond_match_open(&self->session, &settings, &why));
    IS(why.setting + why.player + why.value, 0);
}

/* A session, and a peer beside it. */
static void open_old(machine *self) {
    fazgrond_settings settings = fazgrond_settings_for(with.players);
    fazgrond_match match = fazgrond_match_for(with.machines, self->me);
    match.draw = 70 + self->me;
    match.digest = 8;
    match.opening = 9;
    fazgrond_one_number(&match, 7);
    for (uint32_t player = 0; player < with.players; player++) {
        match.owners[player] = with.owners[player];
        if (with.owners[player] == self->me) {
            settings.local |= 1u << player;
            settings.delays[player] = with.delays[player];
        }
    }
    OK(fazgrond_open(&self->session, &settings));
    OK(fazgrond_peer_open(&self->peer, &self->session, &match));
}

static void begin(const setup *how) {
    with = *how;
    lines = (network){ .conditions = { .delay = 1, .step = 1, .late = with.late, .lost = with.lost, .twice = 10 },
                       .draws = draws_of(5, 1) };
    memset(machines, 0, sizeof machines);
    memset(given, 0, sizeof given);
    memset(begins, 0, sizeof begins);
    memcpy(delays[0], with.delays, sizeof with.delays);
    epochs = 1;
    turns = 0;
    is_cut = false;
    once[0] = run_to = 0;
    for (uint32_t player = 0; player < with.players; player++) {
        known[player] = with.delays[player];
        gone_from[player] = UINT64_MAX;
    }
    for (uint32_t me = 0; me < with.machines; me++) {
        machines[me].me = me;
        machines[me].is_open = true;
        if (me == with.old)
            open_old(&machines[me]);
        else
            open_new(&machines[me]);
    }
}

static void close_machine(machine *self) {
    fazgrond_peer_close(&self->peer);
    fazgrond_close(&self->session);
    fazgrond_close(&self->session);
    self->is_open = false;
}

static void end(void) {
    for (uint32_t me = 0; me < with.machines; me++)
        close_machine(&machines[me]);
    network_close(&lines);
}

/* ---- The main loop of a machine. */

/* Each machine has a clock of its own; all but the first one's wrap. */
static uint32_t clock_of(const machine *self) { return turns * TURN_TIME - self->me * 2000; }

static void hear(machine *self, const datagram *came) {
    if (!self->is_open)
        return;
    if (self->me == with.old)
        (void)fazgrond_peer_receive(&self->peer, &self->session, came->bytes, came->length, clock_of(self));
    else
        (void)fazgrond_match_receive(&self->session, came->bytes, came->length, clock_of(self));
}

static void send(const machine *self, uint32_t to, const uint8_t *bytes, size_t length) {
    datagram sent = { .from = self->me, .to = to, .length = length };
    MUST(to < with.machines && to != self->me && length > 0 && length <= FAZGROND_DATAGRAM);
    memcpy(sent.bytes, bytes, length);
    if (!is_cut || to + self->me != 1)
        network_send(&lines, &sent, turns);
}

static void send_all(machine *self) {
    uint8_t bytes[FAZGROND_DATAGRAM], to = 77;
    size_t length;
    int32_t code;
    while ((code = fazgrond_match_next(&self->session, &to, bytes, sizeof bytes, &length)) == FAZGROND_OK)
        send(self, to, bytes, length);
    IS(code, FAZGROND_NOTHING);
}

static void send_all_by_peer(machine *self) {
    uint8_t bytes[FAZGROND_DATAGRAM];
    size_t length;
    for (uint8_t to = 0; to < with.machines; to++)
        if (fazgrond_peer_send(&self->peer, &self->session, to, clock_of(self), bytes, sizeof bytes, &length) == FAZGROND_OK)
            send(self, to, bytes, length);
}

/* Nothing is told but what has to be; a machine that has left may be told anything. */
static void see(machine *self, const fazgrond_event *event) {
    if (self->has_left)
        return;
    switch (event->code) {
    case FAZGROND_DISCONNECTED: self->disconnected++; break;
    case FAZGROND_LEFT:
        MUST(event->machine < MACHINES && machines[event->machine].has_left);
        self->left[event->machine] = event->bye;
        break;
    case FAZGROND_DESYNC:
    case FAZGROND_MISMATCH:
    case FAZGROND_DROPPED:
    case FAZGROND_RESTARTED:
    case FAZGROND_REFUSED:
    case FAZGROND_MISSING:
    case FAZGROND_CUT_OFF:
    case FAZGROND_STRANGERS:
    case FAZGROND_TWO_MARKS: CHECK_IS(event->code, 0); break;
    default: break;
    }
}

static void see_all(machine *self) {
    fazgrond_event event;
    int32_t code;
    while ((code = self->me == with.old ? fazgrond_peer_event(&self->peer, &event) : fazgrond_match_event(&self->session, &event))
           == FAZGROND_OK)
        see(self, &event);
    IS(code, FAZGROND_NOTHING);
}

/* The settled state is that of the game that is run once. What is settled past the end of an epoch is run again in the next one. */
static void compare(machine *self) {
    uint32_t frame, slot;
    OK(fazgrond_settled_slot(&self->session, &frame, &slot));
    MUST(slot < SLOTS);
    uint64_t at = begins[self->epoch] + frame;
    if (self->me == with.old)
        OK(fazgrond_peer_note_settled(&self->peer, &self->session, self->saved[slot]));
    else
        OK(fazgrond_match_note(&self->session, self->saved[slot]));
    if (self->epoch + 1 < epochs && at > begins[self->epoch + 1])
        return;
    run_once(at);
    IS(self->saved[slot], once[at]);
    self->compared = at;
}

/* The epoch that a turn began is what the mark says. */
static void is_epoch(machine *self) {
    fazgrond_epoch_now now;
    OK(fazgrond_match_epoch(&self->session, &now));
    IS(now.epoch != 0, self->epoch > 0);
    IS(now.base, begins[self->epoch]);
    IS(now.machines, with.machines);
    IS(now.threshold, 8);
    for (uint32_t player = 0; player < with.players; player++) {
        IS(now.owners[player], with.owners[player]);
        IS(now.delays[player], delays[self->epoch][player]);
    }
    IS(now.owners[with.players], FAZGROND_NO_PLAYER);
    for (uint32_t me = 0; me < FAZGROND_MACHINES; me++)
        IS(now.stayed[me], self->epoch > 0 && me < with.machines);
}

/* What a turn says of a frame fits to what was given. */
static void is_told(const machine *self, const fazgrond_turn *turn, size_t length, size_t requests) {
    bool waits = turn->is_running != 0 && turn->has_played == 0 && turn->has_gone_on == 0 && length > 0;
    IS(turn->has_requests, requests > 0);
    IS(turn->failed, 0);
    IS(turn->waits_for, waits ? FAZGROND_PREDICTION_THRESHOLD : 0);
    MUST(turn->is_running != 0 || !self->is_running);
    MUST(turn->handed <= (with.held_turns > 0 ? FAZGROND_HELD_WORDS : 0));
    if (turn->has_gone_on != 0) {
        IS(turn->next_in + turn->has_played, 0);
    } else {
        IS(turn->frame, self->frame + turn->has_played);
        MUST(turn->next_in >= FRAME_TIME && turn->next_in <= FRAME_TIME + FRAME_TIME / 4);
    }
}

/* A turn. If an epoch ended in it, there is another one at once. */
static void take_turn(machine *self) {
    uint8_t inputs[FAZGROND_PLAYERS * 4];
    fazgrond_turn turn;
    do {
        size_t length = self->gives_nothing ? 0 : press_all(self, inputs);
        OK(fazgrond_match_turn(&self->session, inputs, length, clock_of(self), &turn));
        is_told(self, &turn, length, carry_out_all(self));
        if (turn.has_played != 0)
            keep_all(self, inputs);
        self->is_running = turn.is_running != 0;
        self->frame = turn.frame;
        self->handed += turn.handed;
        self->next_in = turn.next_in;
        if (turn.has_gone_on != 0) {
            MUST(++self->epoch < epochs);
            give_again(self);
            is_epoch(self);
        }
    } while (turn.has_gone_on != 0);
}

/* The inputs that wait are handed over if they would make no frame run again, or the game would stand. The last machine leaves that to its
 * turns. */
static void hand_over(machine *self) {
    fazgrond_entry entries[FAZGROND_HELD_WORDS];
    uint32_t frames = 1, is_pressed = 77;
    size_t count = fazgrond_match_waiting(&self->session, entries, FAZGROND_HELD_WORDS);
    OK(fazgrond_match_is_pressed(&self->session, &is_pressed));
    IS(fazgrond_match_rerun(&self->session, FAZGROND_HELD_WORDS, &frames), count > 0 ? FAZGROND_OK : FAZGROND_INVALID_REQUEST);
    for (size_t at = 0; at < count; at++)
        IS(entries[at].kind, FAZGROND_REMOTE);
    MUST(is_pressed <= (count > 0));
    if (self->me + 1 < with.machines && (is_pressed != 0 || frames == 0)) {
        OK(fazgrond_match_hand_over(&self->session, FAZGROND_HELD_WORDS));
        IS(fazgrond_match_waiting(&self->session, entries, FAZGROND_HELD_WORDS), 0);
    }
}

/* A guess with the inputs that wait, whose job is carried out at once. */
static void guess(machine *self) {
    fazgrond_entry entry;
    uint32_t job = 77, added;
    int32_t code = fazgrond_match_guess(&self->session, self->frame + 1, &job);
    if (fazgrond_match_waiting(&self->session, &entry, 1) == 0) {
        IS(code, FAZGROND_INVALID_REQUEST);
        return;
    }
    MUST(code == FAZGROND_OK || code == FAZGROND_NOTHING);
    IS(carry_out_all(self) > 0, code == FAZGROND_OK);
    if (code == FAZGROND_OK) {
        code = fazgrond_graft(&self->session, job, &added);
        MUST(code != FAZGROND_PENDING && code != FAZGROND_NO_JOB);
    }
}

/* A turn beside a peer: inputs are of 4 bytes. */
static void take_turn_by_peer(machine *self) {
    uint8_t inputs[FAZGROND_PLAYERS * 4];
    uint32_t flag, word;
    fazgrond_reached reached;
    fazgrond_row row;
    int32_t code;
    OK(fazgrond_peer_poll(&self->peer, &self->session, clock_of(self)));
    OK(fazgrond_peer_is_running(&self->peer, &flag));
    if (flag == 0)
        return;
    IS(press_all(self, inputs), 4);
    memcpy(&word, inputs, sizeof word);
    code = fazgrond_add_local_input(&self->session, (uint8_t)(self->me + 1), word);
    if (code == FAZGROND_OK) {
        OK(fazgrond_advance_frame(&self->session, &reached));
        keep_all(self, inputs);
        self->frame = reached.frame;
    } else {
        OK(fazgrond_has_news(&self->session, &flag));
        if (flag != 0)
            OK(fazgrond_synchronize_input(&self->session, &row));
    }
    carry_out_all(self);
}

static void play_machine(machine *self) {
    if (with.held_turns > 0)
        hand_over(self);
    take_turn(self);
    compare(self);
    if (with.held_turns > 0)
        guess(self);
    send_all(self);
    see_all(self);
}

static void play_machine_by_peer(machine *self) {
    take_turn_by_peer(self);
    compare(self);
    send_all_by_peer(self);
    see_all(self);
}

/* All machines take a turn. */
static void play_turn(void) {
    MUST(++turns < MOST_TURNS);
    while (network_due(&lines) <= turns) {
        datagram *came = network_take(&lines);
        hear(&machines[came->to], came);
        free(came);
    }
    for (uint32_t me = 0; me < with.machines; me++)
        if (me == with.old)
            play_machine_by_peer(&machines[me]);
        else if (machines[me].is_open)
            play_machine(&machines[me]);
}

static void play_turns(uint32_t count) {
    while (count-- > 0)
        play_turn();
}

/* Whether each machine that hasn't left has settled the match up to this frame. */
static bool are_at(uint64_t frame) {
    for (uint32_t me = 0; me < with.machines; me++)
        if (!machines[me].has_left && machines[me].compared < frame)
            return false;
    return true;
}

static void play_to(uint64_t frame) {
    while (!are_at(frame))
        play_turn();
}

/* ---- Matches. */

static const setup two = {
    .machines = 2, .players = 2, .input_size = 4, .lost = 30, .late = 4, .old = NO_MACHINE, .owners = { 0, 1 }, .delays = { 2, 1 }
};

static void play_two(const setup *how) {
    begin(how);
    play_to(FRAMES);
    IS(machines[0].disconnected + machines[1].disconnected, 0);
    end();
}

static void two_machines(void) { play_two(&two); }

static void long_inputs(void) {
    setup how = two;
    how.input_size = 10;
    play_two(&how);
}

/* Player 2 is the other machine's, between the two of this one. */
static void two_players_at_one(void) {
    setup how = two;
    how.input_size = 6;
    how.players = 3;
    how.owners[2] = 0;
    how.delays[2] = 3;
    play_two(&how);
}

static void beside_a_peer(void) {
    setup how = two;
    for (how.old = 0; how.old < 2; how.old++)
        play_two(&how);
}

/* A machine that is ahead of another is told to go slower, and not the other one. */
static void one_is_ahead(void) {
    setup how = two;
    how.lost = how.late = 0;
    begin(&how);
    play_to(100);
    machines[1].gives_nothing = true;
    play_turns(30);
    machines[1].gives_nothing = false;
    MUST(machines[0].next_in > FRAME_TIME);
    IS(machines[1].next_in, FRAME_TIME);
    play_to(200);
    end();
}

static const setup three = {
    .machines = 3, .players = 3, .input_size = 4, .lost = 20, .late = 2, .old = NO_MACHINE, .owners = { 0, 1, 2 }, .delays = { 2, 0, 1 }
};

/* Player 1 gets this delay: the epoch ends with the frame for which its next input counts. */
static void mark_delay(uint32_t delay) {
    machine *self = &machines[0];
    fazgrond_mark mark = fazgrond_mark_for();
    IS(fazgrond_match_mark(&self->session, 2, &mark), FAZGROND_INVALID_PLAYER);
    mark.delays[0] = 9;
    IS(fazgrond_match_mark(&self->session, 1, &mark), FAZGROND_LONG_DELAY);
    mark.delays[0] = delay;
    mark.delays[1] = 3;
    IS(fazgrond_match_mark(&self->session, 1, &mark), FAZGROND_OTHERS_DELAY);
    mark.delays[1] = FAZGROND_AS_BEFORE;
    OK(fazgrond_match_mark(&self->session, 1, &mark));
    IS(fazgrond_match_mark(&self->session, 1, &mark), FAZGROND_MARKED);
    MUST(epochs < EPOCHS);
    begins[epochs] = frame_of_match(self) + delays[self->epoch][0] + 1;
    memcpy(delays[epochs], delays[epochs - 1], sizeof delays[epochs]);
    delays[epochs][0] = delay;
    epochs++;
}

/* A greater delay from the second epoch on, and a smaller one from the third on. Before that begins, the line between the machines 0 and 1
 * is cut for good, so that machine 2 carries between them. */
static void in_epochs(void) {
    setup how = three;
    how.lost = 10;
    how.lasts = true;
    how.held_turns = 2;
    begin(&how);
    is_epoch(&machines[0]);
    for (uint32_t epoch = 0; epoch < EPOCHS - 1; epoch++) {
        while (machines[0].epoch < epoch || machines[0].frame < EPOCH_FRAMES)
            play_turn();
        is_cut = epoch > 0;
        mark_delay(epoch == 0 ? 5 : 1);
    }
    play_to(begins[EPOCHS - 1] + FRAMES);
    for (uint32_t me = 0; me < with.machines; me++) {
        IS(machines[me].epoch, EPOCHS - 1);
        IS(machines[me].disconnected, 0);
    }
    MUST(machines[2].handed > 0);
    end();
}

/* Whether all other machines have said that they have all inputs of this one. */
static bool has_told_all(machine *self) {
    for (uint8_t other = 0; other < with.machines; other++) {
        fazgrond_stats stats = { 0 };
        if (other != self->me)
            OK(fazgrond_match_stats(&self->session, other, &stats));
        if (stats.words_queued > 0)
            return false;
    }
    return true;
}

/* Once the others have all inputs of a machine, it leaves. The others play on without it from the frame of which it gave no input. */
static void leaves(uint32_t input_size) {
    setup how = three;
    machine *self = &machines[2];
    how.input_size = input_size;
    begin(&how);
    while (self->frame < LEAVES_AT)
        play_turn();
    self->gives_nothing = true;
    do
        play_turns(60);
    while (!has_told_all(self));
    IS(known[2], self->frame + with.delays[2]);
    lines.conditions.late = lines.conditions.lost = 0; /* by a bye that is lost, another machine would tell of it, without the number */
    OK(fazgrond_match_leave(&self->session, BYE));
    gone_from[2] = known[2];
    self->has_left = true;
    play_turns(60);
    close_machine(self);
    play_to(FRAMES);
    for (uint32_t me = 0; me < 2; me++) {
        IS(machines[me].left[2], BYE);
        IS(machines[me].disconnected, words_of_input());
    }
    end();
}

static void one_leaves(void) {
    leaves(4);
    leaves(8);
}

/* ---- Refusals. */

/* What calls write to. */
typedef struct written {
    fazgrond_turn turn;
    fazgrond_event event;
    fazgrond_stats stats;
    fazgrond_epoch_now epoch;
    fazgrond_entry entry;
    size_t length;
    uint32_t number;
    uint8_t machine, bytes[FAZGROND_DATAGRAM];
} written;

static written out, untouched;

static void begin_writing(void) {
    memset(&untouched, 0x5a, sizeof untouched);
    memcpy(&out, &untouched, sizeof out);
}

static void is_untouched(void) { IS(memcmp(&out, &untouched, sizeof out), 0); }

/* It isn't opened, in a closed handle and in an open one, which stays as it is. */
static void is_refused(const fazgrond_match_settings *settings, int32_t code, fazgrond_unfit due) {
    fazgrond_session closed = FAZGROND_CLOSED, open = FAZGROND_CLOSED;
    fazgrond_settings plain = fazgrond_settings_for(2);
    fazgrond_unfit why = { 77, 77, 77 };
    uint32_t frame = 77;
    plain.local = 1;
    OK(fazgrond_open(&open, &plain));
    IS(fazgrond_match_open(&closed, settings, &why), code);
    CHECK_IS(why.setting, due.setting);
    CHECK_IS(why.player, due.player);
    CHECK_IS(why.value, due.value);
    IS(fazgrond_frame(&closed, &frame), FAZGROND_IS_CLOSED);
    IS(fazgrond_match_open(&open, settings, &why), code);
    OK(fazgrond_frame(&open, &frame));
    IS(frame, 0);
    fazgrond_close(&open);
}

static void settings_out_of_range(void) {
    with = two;
    fazgrond_match_settings settings = settings_of(0);
    const fazgrond_match_settings good = settings;
#define OUT(member, given_value, ...) \
    (settings = good, settings.member = (given_value), is_refused(&settings, FAZGROND_OUT_OF_RANGE, (fazgrond_unfit){ __VA_ARGS__ }))
    OUT(me, 256, FAZGROND_SETTING_ME, 0, 256);
    OUT(machines, 300, FAZGROND_SETTING_MACHINES, 0, 300);
    OUT(input_size, 0, FAZGROND_SETTING_INPUT_SIZE, 0, 0);
    OUT(input_size, 17, FAZGROND_SETTING_INPUT_SIZE, 0, 17);
    OUT(owners[0], 256, FAZGROND_SETTING_OWNER, 1, 256);
    OUT(owners[7], UINT32_MAX, FAZGROND_SETTING_OWNER, 8, UINT32_MAX);
    OUT(delays[0], 256, FAZGROND_SETTING_DELAY, 1, 256);
    OUT(delays[1], 1000, FAZGROND_SETTING_DELAY, 2, 1000);
    OUT(profile, 2, FAZGROND_SETTING_PROFILE, 0, 2);
    OUT(threshold, 256, FAZGROND_SETTING_THRESHOLD, 0, 256);
    OUT(held_turns, 9, FAZGROND_SETTING_HELD_TURNS, 0, 9);
    OUT(frame_time, 0, FAZGROND_SETTING_FRAME_TIME, 0, 0);
    OUT(frame_time, 1000001, FAZGROND_SETTING_FRAME_TIME, 0, 1000001);
    with.input_size = 10;
    const fazgrond_match_settings good_long = settings_of(0);
    settings = good_long;
    settings.owners[1] = 256;
    is_refused(&settings, FAZGROND_OUT_OF_RANGE, (fazgrond_unfit){ FAZGROND_SETTING_OWNER, 2, 256 });
    settings = good_long;
    settings.delays[1] = 256;
    is_refused(&settings, FAZGROND_OUT_OF_RANGE, (fazgrond_unfit){ FAZGROND_SETTING_DELAY, 2, 256 });
#undef OUT
}

/* So many players with inputs of so many bytes have too many together. */
static void is_too_long(uint32_t players, uint32_t input_size, uint32_t all) {
    with = two;
    with.players = players;
    with.input_size = input_size;
    fazgrond_match_settings settings = settings_of(0);
    is_refused(&settings, FAZGROND_INPUTS_TOO_LONG, (fazgrond_unfit){ FAZGROND_SETTING_INPUT_SIZE, 0, all });
}

static void inputs_too_long(void) {
    is_too_long(3, 16, 48);
    is_too_long(3, 10, 36);
    is_too_long(5, 5, 40);
    is_too_long(8, 5, 64);
}

/* Settings that have room where they belong, and yet are none of a match. */
static void other_openings(void) {
    with = two;
    fazgrond_match_settings settings = settings_of(0);
    const fazgrond_match_settings good = settings;
#define NOT(member, given_value, code) \
    (settings = good, settings.member = (given_value), is_refused(&settings, code, (fazgrond_unfit){ 0, 0, 0 }))
    NOT(size, sizeof settings - 1, FAZGROND_OTHER_VERSION);
    NOT(size, 0, FAZGROND_OTHER_VERSION);
    NOT(me, 2, FAZGROND_INVALID_REQUEST); /* it owns no player */
    NOT(machines, 1, FAZGROND_INVALID_MACHINE);
    NOT(machines, 9, FAZGROND_INVALID_MACHINE);
    NOT(numbers[1], 0, FAZGROND_NO_NUMBER);
    NOT(draw, 0, FAZGROND_INVALID_REQUEST);
    NOT(owners[1], 5, FAZGROND_INVALID_PLAYER);
    NOT(owners[3], 1, FAZGROND_INVALID_PLAYER); /* there is no player 3 */
    NOT(owners[4], 1, FAZGROND_PLAYER_OUT_OF_RANGE);
    NOT(delays[0], 9, FAZGROND_INVALID_REQUEST);
    NOT(threshold, 9, FAZGROND_INVALID_REQUEST);
    NOT(limit, 0, FAZGROND_INVALID_REQUEST);
    NOT(limit, 1048577, FAZGROND_INVALID_REQUEST);
    NOT(log, 16777217, FAZGROND_INVALID_REQUEST);
#undef NOT
}

/* What the maker makes. */
static void made(void) {
    fazgrond_match_settings settings = fazgrond_match_settings_for(3, 2);
    IS(settings.size, sizeof settings);
    IS(settings.machines, 3);
    IS(settings.me, 2);
    IS(settings.input_size, 4);
    IS(settings.draw | settings.digest | settings.opening | settings.comers | settings.epoch | settings.base, 0);
    for (int at = 0; at < FAZGROND_PLAYERS; at++) {
        IS(settings.numbers[at], 0);
        IS(settings.owners[at], FAZGROND_NO_PLAYER);
        IS(settings.delays[at], 0);
        IS(settings.masks[at], 0xffffffff);
    }
    IS(settings.profile, FAZGROND_GGPO);
    IS(settings.threshold, 8);
    IS(settings.limit, 1048576);
    IS(settings.log, 16777216);
    IS(settings.silent_after, 5000);
    IS(settings.notify_after, 750);
    IS(settings.stalled_after | settings.held_turns | settings.carries | settings.lasts, 0);
    IS(settings.frame_time, 16667);
}

/* The same turn is refused, and nothing of it was done. */
static void is_no_turn(machine *self, const uint8_t *inputs, size_t length, int32_t code) {
    size_t before, after;
    OK(fazgrond_log_length(&self->session, &before));
    begin_writing();
    IS(fazgrond_match_turn(&self->session, inputs, length, clock_of(self), &out.turn), code);
    is_untouched();
    OK(fazgrond_log_length(&self->session, &after));
    IS(before, after);
}

/* A turn with inputs of another length plays no frame. */
static void plays_no_frame(machine *self, const uint8_t *inputs, size_t length, int32_t why) {
    uint32_t before, after;
    fazgrond_turn turn;
    OK(fazgrond_frame(&self->session, &before));
    OK(fazgrond_match_turn(&self->session, inputs, length, clock_of(self), &turn));
    IS(turn.has_played + (uint32_t)turn.failed, 0);
    IS(turn.waits_for, why);
    (void)carry_out_all(self);
    OK(fazgrond_frame(&self->session, &after));
    IS(before, after);
}

static void turns_refused(void) {
    uint8_t inputs[FAZGROND_PLAYERS * 4], longer[FAZGROND_PLAYERS * 4 + 1] = { 0 };
    fazgrond_turn turn;
    machine *self = &machines[0];
    setup how = two;
    how.players = 3;
    how.input_size = 6;
    how.owners[2] = 0;
    how.lost = 0;
    begin(&how);
    plays_no_frame(self, longer, 11, FAZGROND_OK);
    play_to(20);
    size_t length = press_all(self, inputs);
    IS(length, 12);
    for (size_t other = 1; other <= sizeof longer; other++)
        if (other != length)
            plays_no_frame(self, longer, other, FAZGROND_INPUT_LENGTH);
    do {
        OK(fazgrond_match_turn(&self->session, inputs, length, clock_of(self), &turn));
        if (turn.has_requests == 0)
            play_turns(1);
    } while (turn.has_requests == 0);
    is_no_turn(self, inputs, length, FAZGROND_PENDING);
    is_no_turn(self, inputs, 0, FAZGROND_PENDING);
    is_no_turn(self, inputs, length - 1, FAZGROND_PENDING);
    MUST(carry_out_all(self) > 0);
    OK(fazgrond_match_turn(&self->session, inputs, 0, clock_of(self), &turn));
    IS(turn.has_played + (uint32_t)turn.waits_for, 0);
    end();
}

/* Each call of a match is refused, writes nothing, and changes nothing in the session. */
static void plays_none(fazgrond_session *session) {
    fazgrond_mark mark = fazgrond_mark_for();
    begin_writing();
    IS(fazgrond_match_receive(session, untouched.bytes, 20, 0), FAZGROND_IS_CLOSED);
    IS(fazgrond_match_turn(session, untouched.bytes, 4, 0, &out.turn), FAZGROND_IS_CLOSED);
    IS(fazgrond_match_turn(session, untouched.bytes, 0, 0, &out.turn), FAZGROND_IS_CLOSED);
    IS(fazgrond_match_next(session, &out.machine, out.bytes, sizeof out.bytes, &out.length), FAZGROND_IS_CLOSED);
    IS(fazgrond_match_event(session, &out.event), FAZGROND_IS_CLOSED);
    IS(fazgrond_match_note(session, 5), FAZGROND_IS_CLOSED);
    IS(fazgrond_match_leave(session, BYE), FAZGROND_IS_CLOSED);
    IS(fazgrond_match_disconnect(session, 1), FAZGROND_IS_CLOSED);
    IS(fazgrond_match_mark(session, 1, &mark), FAZGROND_IS_CLOSED);
    IS(fazgrond_match_stats(session, 1, &out.stats), FAZGROND_IS_CLOSED);
    IS(fazgrond_match_epoch(session, &out.epoch), FAZGROND_IS_CLOSED);
    IS(fazgrond_match_waiting(session, &out.entry, 1), 0);
    IS(fazgrond_match_rerun(session, 1, &out.number), FAZGROND_IS_CLOSED);
    IS(fazgrond_match_is_pressed(session, &out.number), FAZGROND_IS_CLOSED);
    IS(fazgrond_match_guess(session, 1, &out.number), FAZGROND_IS_CLOSED);
    IS(fazgrond_match_hand_over(session, 1), FAZGROND_IS_CLOSED);
    is_untouched();
}

static void without_a_match(void) {
    fazgrond_session session = FAZGROND_CLOSED;
    fazgrond_settings settings = fazgrond_settings_for(2);
    fazgrond_request request;
    size_t entries = 77;
    uint32_t frame = 77;
    plays_none(&session);
    settings.local = 1;
    OK(fazgrond_open(&session, &settings));
    plays_none(&session);
    OK(fazgrond_log_length(&session, &entries));
    OK(fazgrond_frame(&session, &frame));
    IS(entries + frame, 0);
    IS(fazgrond_take_requests(&session, &request, 1), 0);
    OK(fazgrond_add_local_input(&session, 1, 3));
    plays_none(&session);
    fazgrond_close(&session);
}

/* What calls of a match refuse beside their turns. */
static void calls_refused(void) {
    machine *self = &machines[0];
    fazgrond_mark mark = fazgrond_mark_for();
    setup how = two;
    how.lost = 0;
    begin(&how);
    play_to(20);
    begin_writing();
    IS(fazgrond_match_next(&self->session, &out.machine, out.bytes, FAZGROND_DATAGRAM - 1, &out.length), FAZGROND_TOO_SHORT);
    IS(fazgrond_match_next(&self->session, &out.machine, out.bytes, FAZGROND_DATAGRAM, &out.length), FAZGROND_NOTHING);
    IS(fazgrond_match_event(&self->session, &out.event), FAZGROND_NOTHING);
    IS(fazgrond_match_stats(&self->session, 2, &out.stats), FAZGROND_INVALID_MACHINE);
    IS(fazgrond_match_stats(&self->session, 255, &out.stats), FAZGROND_INVALID_MACHINE);
    IS(fazgrond_match_epoch(&self->session, &out.epoch), FAZGROND_NOTHING);
    IS(fazgrond_match_rerun(&self->session, 1, &out.number), FAZGROND_INVALID_REQUEST);
    IS(fazgrond_match_guess(&self->session, 1, &out.number), FAZGROND_INVALID_REQUEST);
    IS(fazgrond_match_receive(&self->session, out.bytes, 5, clock_of(self)), FAZGROND_NOT_SEALED);
    IS(fazgrond_match_receive(&self->session, out.bytes, sizeof out.bytes, clock_of(self)), FAZGROND_INVALID_MACHINE);
    is_untouched();
    IS(fazgrond_match_disconnect(&self->session, 0), FAZGROND_OWN_MACHINE);
    IS(fazgrond_match_disconnect(&self->session, 2), FAZGROND_INVALID_MACHINE);
    IS(fazgrond_match_mark(&self->session, 1, &mark), FAZGROND_NO_MARKS);
    mark.size--;
    IS(fazgrond_match_mark(&self->session, 1, &mark), FAZGROND_OTHER_VERSION);
    OK(fazgrond_match_hand_over(&self->session, 1));
    play_to(40);
    end();
}

static const struct {
    const char *name;
    void (*play)(void);
} cases[] = {
    { "two machines", two_machines },
    { "long inputs", long_inputs },
    { "two players at one machine", two_players_at_one },
    { "epochs", in_epochs },
    { "a machine leaves", one_leaves },
    { "beside a peer", beside_a_peer },
    { "one is ahead", one_is_ahead },
    { "what is made", made },
    { "settings out of range", settings_out_of_range },
    { "inputs too long", inputs_too_long },
    { "other openings", other_openings },
    { "turns refused", turns_refused },
    { "without a match", without_a_match },
    { "calls refused", calls_refused },
};

int main(int count, char **words) {
    for (size_t at = 0; at < sizeof cases / sizeof *cases; at++) {
        case_name = cases[at].name;
        if (count < 2 || strcmp(words[1], case_name) == 0) {
            cases[at].play();
            checks_end_case();
        }
    }
    return checks_end();
}
