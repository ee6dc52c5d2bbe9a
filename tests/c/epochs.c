/* Matches that go on in epochs: what the calls answer and refuse; seams by marks that change nothing, a delay or the threshold, by two
 * marks at once and many one after another, beside a machine that stops or leaves, over broken lines, under loss and with words held
 * back; jobs that are out at one; who comes, with which ticket, or never; who watches over a seam; and worlds that were drawn. Which
 * rows each machine has settled in which epoch, by which mark an epoch ended, how the next one opened and who has stayed in it, is
 * compared with that of the others, with the words that the players gave, and with what the marks say. `epochs long` plays on past the
 * last frame that a session has. */
#include "../../lib/sha256.h"
#include "../sim/claim.h"
#include "../sim/scenario.h"

enum { MOST = 5, KEPT = 4096, MARKS = 256, PLANS = 16, TURN = 16, MOST_DELAY = 8, FIRST_DELAY = 2, UNTOLD = 77, STREAM = 1 };

/* What a machine's own players gave, of the last KEPT frames of the match: each one's word of each frame, up to which frame of the match
 * there is one, and how many it gave itself. Of each turn, whether a word was refused in it, and whether one was taken. */
typedef struct own {
    uint32_t given[FAZGROND_PLAYERS][KEPT], gave[FAZGROND_PLAYERS];
    uint64_t known[FAZGROND_PLAYERS];
    bool was_refused[KEPT], was_taken[KEPT];
    bool is_out;      /* the others put it out, and it takes its turns all the same */
    bool stalls_next; /* it gives no words from its next epoch on */
    job jobs[2];
    uint32_t jobs_out;
} own;

/* A mark that a machine has put on a word: in which epoch, and on that of which frame of it. */
typedef struct made {
    uint64_t id;
    uint32_t machine, player, frame;
    fazgrond_mark mark;
} made;

/* A mark that is still to be put, in a turn. */
typedef struct plan {
    uint32_t turn, machine, player;
    fazgrond_mark mark;
} plan;

static world *the;
static machine *all;
static own owns[MOST];
static made marks[MARKS];
static plan plans[PLANS];
static uint32_t marks_made, plans_made;
static uint64_t agreed;       /* up to which frame of the match the machines were compared */
static uint32_t seams_agreed; /* and how many seams */
static draws chance;

static uint32_t below(uint32_t count) { return draws_below(&chance, count); }

/* Half of the time 0. */
static uint32_t drawn_or_none(uint32_t count) {
    uint32_t drawn = below(count);
    return below(2) == 0 ? 0 : drawn;
}

static const fazgrond_epoch *epoch_of(uint32_t me) { return machine_epoch(&all[me]); }

static bool is_here(uint32_t me) { return all[me].is_open && !all[me].is_dead; }

static bool is_gone(const fazgrond_row *row, uint32_t player) { return (row->gone >> player & 1) != 0; }

static bool has_player(const fazgrond_epoch *epoch, uint32_t me) {
    for (uint32_t player = 0; player < FAZGROND_PLAYERS; player++)
        if (epoch->owners[player] == me)
            return true;
    return false;
}

/* Whether a machine has left by the last row of an epoch: with one player, so with all. */
static bool has_left(const fazgrond_epoch *epoch, const fazgrond_row *last, uint32_t me) {
    for (uint32_t player = 0; player < last->count; player++)
        if (epoch->owners[player] == me && is_gone(last, player))
            return true;
    return false;
}

/* ---- Marks. */

/* A mark that gives a player this delay, with all words of its input, and this threshold. */
static fazgrond_mark mark_of(uint32_t player, uint32_t delay, uint32_t threshold) {
    fazgrond_mark mark = { .size = sizeof mark, .threshold = threshold };
    uint32_t words = the->setup.words;
    for (uint32_t at = 0; at < FAZGROND_PLAYERS; at++)
        mark.delays[at] = at / words == player / words ? delay : FAZGROND_AS_BEFORE;
    return mark;
}

static fazgrond_mark mark_of_nothing(void) { return mark_of(0, FAZGROND_AS_BEFORE, 0); }

static fazgrond_mark mark_of_delay(uint32_t player, uint32_t delay) { return mark_of(player, delay, 0); }

static fazgrond_mark mark_of_threshold(uint32_t threshold) { return mark_of(0, FAZGROND_AS_BEFORE, threshold); }

static fazgrond_mark mark_of_who_comes(uint32_t player, uint64_t ticket) {
    fazgrond_mark mark = mark_of_nothing();
    mark.comes[player] = 1;
    mark.ticket = ticket;
    return mark;
}

static uint64_t ticket_of(uint32_t name) { return fazgrond_ticket(the->setup.comers, name); }

/* What a ticket with this name has in its upper half, by another SHA-256 than the library's. */
static uint64_t upper_half(uint64_t comers, uint32_t name) {
    sha256 made = sha256_begin();
    uint8_t bytes[16];
    seal_put(bytes, comers);
    seal_put(bytes + 8, name);
    sha256_add(&made, bytes, sizeof bytes);
    return sha256_end(&made) >> 32;
}

static uint32_t delay_after(const fazgrond_mark *mark, const fazgrond_epoch *epoch, uint32_t player) {
    return mark->delays[player] != FAZGROND_AS_BEFORE ? mark->delays[player] : epoch->delays[player];
}

/* Why a mark of a player of a machine that owns it is void in its epoch, by the first fault that it has; FAZGROND_OK if it isn't. */
static int32_t fault_of(uint32_t me, const fazgrond_mark *mark) {
    const fazgrond_epoch *epoch = epoch_of(me);
    uint64_t comers = the->setup.comers;
    bool is_long = false, is_others = false, is_unlike = false, has_comer = false;
    bool is_good = comers == 0 || mark->ticket >> 32 == upper_half(comers, (uint32_t)mark->ticket);
    for (uint32_t player = 0; player < world_players(the); player++) {
        bool is_given = mark->delays[player] != FAZGROND_AS_BEFORE;
        is_long |= is_given && mark->delays[player] > MOST_DELAY;
        is_others |= is_given && epoch->owners[player] != me;
        is_unlike |= delay_after(mark, epoch, player) != delay_after(mark, epoch, player - player % epoch->words);
        has_comer |= mark->comes[player] != 0;
    }
    if (mark->threshold > (world_players(the) <= 4 ? 8u : 15u))
        return FAZGROND_GREAT_THRESHOLD;
    if (is_long || is_others)
        return is_long ? FAZGROND_LONG_DELAY : FAZGROND_OTHERS_DELAY;
    if (is_unlike)
        return FAZGROND_UNLIKE_DELAYS;
    return has_comer && !is_good ? FAZGROND_WRONG_TICKET : FAZGROND_OK;
}

/* Puts a mark on the next word of a player, counted from 0, and remembers it if it is taken. */
static int32_t put(uint32_t me, uint32_t player, fazgrond_mark mark) {
    made next = { epoch_of(me)->id, me, player, 0, mark };
    int32_t code = fazgrond_peer_mark(&all[me].peer, &all[me].session, (uint8_t)(player + 1), &mark);
    if (code != FAZGROND_OK)
        return code;
    MUST(marks_made < MARKS);
    OK(fazgrond_input_frame(&all[me].session, (uint8_t)(player + 1), &next.frame));
    marks[marks_made++] = next;
    return code;
}

/* A machine marks a word of its own player, which has its number. */
static void marks_by(uint32_t me, fazgrond_mark mark) { OK(put(me, me, mark)); }

static void ends_epoch(uint32_t me) { marks_by(me, mark_of_nothing()); }

/* ---- What its program does beside the loop. */

/* A player's words: each names it, and the later ones are the greater ones, unless they are all the same. */
static uint32_t word_of(machine *self, uint32_t player, uint64_t frame) {
    (void)frame;
    return (player + 1) << 24 | (self->world->setup.is_idle ? 1 : owns[self->me].gave[player] / (player + 1) + 1);
}

static void gave(machine *self, uint32_t player, uint32_t frame, uint32_t word, int32_t code) {
    own *of = &owns[self->me];
    IS(machine_base(self) + frame, of->known[player]);
    of->was_refused[the->turn % KEPT] = code == FAZGROND_PREDICTION_THRESHOLD;
    of->was_taken[the->turn % KEPT] = code == FAZGROND_OK;
    if (code != FAZGROND_OK)
        return;
    of->given[player][of->known[player]++ % KEPT] = word;
    of->gave[player]++;
}

/* Up to this frame of the match, where an own player gave no other word, this one counts; and from it on none was given. */
static void know(uint32_t me, uint32_t player, uint64_t until, uint32_t word) {
    own *of = &owns[me];
    for (uint64_t at = of->known[player]; at < until; at++)
        of->given[player][at % KEPT] = word;
    of->known[player] = until;
}

/* Of each own player the words past the end are those that it gave, as many as count by the new delay; where it gave fewer, the last one
 * again. */
static void give_again(const machine *self) {
    for (uint32_t player = 0; player < world_players(the); player++) {
        uint64_t known = owns[self->me].known[player];
        uint32_t last = known > 0 ? owns[self->me].given[player][(known - 1) % KEPT] : 0;
        if (machine_epoch(self)->owners[player] == self->me)
            know(self->me, player, machine_frame(self) + machine_epoch(self)->delays[player], last);
    }
}

static uint32_t has_stayed(uint32_t me, uint32_t other) {
    uint32_t flag = UNTOLD;
    OK(fazgrond_peer_has_stayed(&all[me].peer, (uint8_t)other, &flag));
    return flag;
}

/* Whoever owns a player in this epoch and in the one before, and hadn't left when that ended, has stayed. Of a machine's first epoch
 * nobody has. */
static void see_who_stayed(const machine *self) {
    const part *last = &self->parts[self->part_count - 1];
    for (uint32_t other = 0; other < 256; other++) {
        bool stays = self->part_count > 1 && other < FAZGROND_MACHINES && has_player(&last->epoch, other)
            && has_player(&last[-1].epoch, other) && !has_left(&last[-1].epoch, &machine_record(self, last->epoch.base - 1)->row, other);
        IS(has_stayed(self->me, other), stays);
    }
}

/* Before the requests are taken nothing rolls. */
static void waits_for_its_requests(machine *self) {
    fazgrond_reached reached;
    uint32_t frames = UNTOLD;
    int32_t code = fazgrond_peer_go_on(&self->peer, &self->session, &frames);
    IS(code == FAZGROND_PENDING || code == FAZGROND_NOTHING, true);
    IS(frames, UNTOLD);
    IS(fazgrond_advance_frame(&self->session, &reached), FAZGROND_PENDING);
}

static void begins(machine *self) {
    see_who_stayed(self);
    give_again(self);
    self->is_stalled |= owns[self->me].stalls_next;
}

/* A guess, whose job is run at once, and is out from now on. */
static void guess(uint32_t me, uint32_t player, uint32_t word) {
    machine *self = &all[me];
    job *next = &owns[me].jobs[owns[me].jobs_out++];
    OK(fazgrond_guess(&self->session, (uint8_t)(player + 1), &word, 1, self->frame + 1, &next->number));
    job_take(next, &self->states, &self->session);
    IS(job_run(next, &self->states, JOB_REQUESTS), true);
}

/* As long as a job is out the epoch stays, and nothing is changed. The first one is forgotten, and the others are grafted, too late. */
static void end_jobs(machine *self) {
    own *of = &owns[self->me];
    uint32_t frames = UNTOLD, frame, added;
    fazgrond_epoch epoch;
    MUST(of->jobs_out > 0);
    for (; of->jobs_out > 0; of->jobs_out--) {
        uint32_t number = of->jobs[of->jobs_out - 1].number;
        IS(fazgrond_peer_go_on(&self->peer, &self->session, &frames), FAZGROND_JOBS_OUT);
        OK(fazgrond_frame(&self->session, &frame));
        OK(fazgrond_peer_epoch(&self->peer, &epoch));
        IS(frames == UNTOLD && frame == self->frame && epoch.id == machine_epoch(self)->id && epoch.base == machine_base(self), true);
        int32_t code = of->jobs_out == 1 ? FAZGROND_DEAD : fazgrond_graft(&self->session, number, &added);
        IS(code == FAZGROND_LATE ? FAZGROND_DEAD : code, FAZGROND_DEAD);
        IS(fazgrond_forget(&self->session, number), of->jobs_out == 1 ? FAZGROND_OK : FAZGROND_NO_JOB);
    }
}

static void put_planned(machine *self) {
    for (uint32_t at = 0; at < plans_made; at++)
        if (plans[at].turn == the->turn && plans[at].machine == self->me) {
            int32_t fault = fault_of(self->me, &plans[at].mark), code = put(self->me, plans[at].player, plans[at].mark);
            IS(code == FAZGROND_MARKED && fault == FAZGROND_OK ? FAZGROND_OK : code, fault);
        }
}

/* What comes may be of an epoch that is forgotten, or of who is gone. */
static void heard(machine *self, const datagram *come, int32_t code) {
    (void)come;
    bool is_due = code == FAZGROND_OK || code == FAZGROND_NOT_SEALED || code == FAZGROND_MACHINE_GONE;
    if (!is_due && self->world->wrong == NULL)
        self->world->wrong = "what came is refused";
}

/* Nobody who is there is gone or missing, plays another game or is refused. */
static void is_told(machine *self, const fazgrond_event *event) {
    uint32_t code = event->code, who = event->machine;
    bool is_there = who < MOST && is_here(who) && !owns[who].is_out;
    if (owns[self->me].is_out)
        return;
    IS(code == FAZGROND_LEFT && (is_there || who >= MOST), false);
    IS(code == FAZGROND_MISSING && is_there, false);
    IS(code == FAZGROND_DESYNC || code == FAZGROND_REFUSED || code == FAZGROND_MISMATCH, false);
    IS(code == FAZGROND_DROPPED || code == FAZGROND_RESTARTED, false);
}

static const program going_on = { .word = word_of,
                                  .gave = gave,
                                  .heard = heard,
                                  .ends_jobs = end_jobs,
                                  .ends = waits_for_its_requests,
                                  .begins = begins,
                                  .plays = put_planned,
                                  .is_told = is_told };

/* ---- A match. */

/* So many machines with a player each, and a line of two turns that loses nothing. */
static setup setup_for(uint32_t machines) {
    setup of = even;
    of.program = &going_on;
    of.machines = of.players = machines;
    of.words = 1;
    of.has_owners = true;
    for (uint32_t player = 0; player < FAZGROND_PLAYERS; player++)
        of.owners[player] = player < machines ? player : FAZGROND_NO_PLAYER;
    of.last_frame = 300;
    return of;
}

/* All players have this delay. */
static void delay_all(setup *of, uint32_t delay) {
    for (uint32_t player = 0; player < of->machines; player++)
        of->delays[player] = delay;
}

/* Who watches an epoch at one of its machines: both ends of the line, which of the machine's epochs it is, and how many rows came. */
typedef struct watcher {
    fazgrond_line line;
    fazgrond_viewer viewer;
    uint32_t host, epoch, rows;
} watcher;

static watcher watching[2];

static void end(void) {
    for (watcher *one = watching; one < watching + 2; one++) {
        fazgrond_line_close(&one->line);
        fazgrond_viewer_close(&one->viewer);
    }
    if (the != NULL)
        world_end(the);
}

static void begin(setup of) {
    end();
    the = world_begin(&of);
    all = the->machine;
    memset(owns, 0, sizeof owns);
    marks_made = plans_made = seams_agreed = 0;
    agreed = 0;
}

/* Words of own players that count before their first one are 0. */
static void has_opened(uint32_t me) {
    const fazgrond_epoch *epoch = epoch_of(me);
    for (uint32_t player = 0; player < world_players(the); player++)
        know(me, player, epoch->base + (epoch->owners[player] == me ? epoch->delays[player] : 0), 0);
    see_who_stayed(&all[me]);
    is_well(the);
}

static void open_all(setup of) {
    begin(of);
    world_open_all(the);
    for (uint32_t me = 0; me < of.machines; me++)
        has_opened(me);
}

/* Opens a machine in the epoch in which another one is, with the state at its beginning. */
static void open_beside(uint32_t me, uint32_t other) {
    fazgrond_epoch epoch = *epoch_of(other);
    uint64_t state = machine_digest(&all[other], epoch.base);
    the->setup.machines = 3;
    memset(&owns[me], 0, sizeof owns[me]);
    world_open_in(the, me, me, &epoch, &state);
    has_opened(me);
}

static void run(uint32_t turns) {
    world_run_turns(the, turns);
    is_well(the);
}

static void get_going(setup of) {
    open_all(of);
    run(80);
}

/* A machine takes no turn any more, and nothing comes to it. */
static void stop(uint32_t me) { all[me].is_dead = true; }

static void cut(uint32_t one, uint32_t other, bool is_so) { world_cut(the, one, other, is_so); }

/* ---- What all that stay have to agree on. */

static uint32_t first_here(void) {
    uint32_t me = 0;
    while (me < MOST - 1 && !is_here(me))
        me++;
    return me;
}

static uint64_t settled_by_all(void) {
    uint64_t settled = all[first_here()].settled;
    for (uint32_t me = 0; me < MOST; me++)
        if (is_here(me) && all[me].settled < settled)
            settled = all[me].settled;
    return settled;
}

static const fazgrond_epoch *epoch_at(const machine *self, uint64_t frame) {
    return &self->parts[machine_record(self, frame)->epoch].epoch;
}

/* A frame of the match is of the same epoch, and of the same frame of it, at all that stay, with the same row and state. */
static void is_one_frame(const machine *self, const machine *other, uint64_t frame) {
    IS(memcmp(epoch_at(self, frame), epoch_at(other, frame), sizeof(fazgrond_epoch)), 0);
    IS(frame >= epoch_at(self, frame)->base, true);
    IS(row_is_same(&machine_record(self, frame)->row, &machine_record(other, frame)->row), true);
    IS(machine_digest(self, frame + 1) == machine_digest(other, frame + 1), true);
}

/* The words of a row are those that the players gave for it. */
static void are_given(const machine *self, uint64_t frame) {
    const fazgrond_row *row = &machine_record(self, frame)->row;
    for (uint32_t player = 0; player < row->count; player++) {
        uint32_t owner = epoch_at(self, frame)->owners[player];
        if (is_gone(row, player))
            continue;
        MUST(owner < MOST && frame < owns[owner].known[player]);
        IS(row->words[player], owns[owner].given[player][frame % KEPT]);
    }
}

/* By which mark an epoch ended, by its last row: of those on words of it the lowest player's. */
static const made *mark_of_end(const fazgrond_epoch *epoch, uint64_t end, const fazgrond_row *last) {
    const made *found = NULL;
    for (const made *one = marks; one < marks + marks_made; one++) {
        bool is_there = one->id == epoch->id && one->frame + 1 == end && !is_gone(last, one->player);
        if (is_there && (found == NULL || one->player < found->player))
            found = one;
    }
    return found;
}

/* No mark of a machine that stays, on a word of an epoch, comes before its end. */
static void is_no_mark_before(const fazgrond_epoch *epoch, uint64_t end) {
    for (const made *one = marks; one < marks + marks_made; one++)
        IS(one->id == epoch->id && is_here(one->machine) && one->frame + 1 < end, false);
}

/* The epoch after one that a mark ends: who has left owns nothing, and who comes gets what the mark names. */
static fazgrond_epoch epoch_after(const fazgrond_epoch *epoch, const fazgrond_row *last, const fazgrond_mark *mark) {
    fazgrond_epoch next = *epoch;
    uint32_t newcomer = 0;
    next.threshold = mark->threshold != 0 ? mark->threshold : epoch->threshold;
    for (uint32_t player = 0; player < last->count; player++)
        if (has_left(epoch, last, epoch->owners[player]))
            next.owners[player] = FAZGROND_NOBODY;
    while (has_player(&next, newcomer))
        newcomer++;
    for (uint32_t player = 0; player < last->count; player++) {
        if (next.owners[player] == FAZGROND_NOBODY && mark->comes[player] != 0) {
            next.owners[player] = newcomer;
            next.delays[player] = FIRST_DELAY;
        }
        next.delays[player] = delay_after(mark, &next, player);
    }
    return next;
}

/* An epoch ends by a mark, and the next one opens as this one did, but for what the mark says and who has left. */
static void is_next(const fazgrond_epoch *epoch, const fazgrond_epoch *next, const fazgrond_row *last) {
    const made *by = mark_of_end(epoch, next->base - epoch->base, last);
    is_no_mark_before(epoch, next->base - epoch->base);
    MUST(by != NULL);
    fazgrond_epoch due = epoch_after(epoch, last, &by->mark);
    IS(next->size, due.size);
    IS(next->words, due.words);
    IS(next->threshold, due.threshold);
    for (uint32_t player = 0; player < FAZGROND_PLAYERS; player++) {
        bool is_owned = due.owners[player] < FAZGROND_MACHINES;
        IS(next->owners[player], due.owners[player]);
        IS(is_owned && due.owners[player] >= next->machines, false);
        IS(is_owned ? next->delays[player] : due.delays[player], due.delays[player]);
    }
}

/* The seams up to a frame of the match at which nothing was looked at yet. No number of an epoch comes again. */
static void are_next(const machine *self, uint64_t until) {
    for (; seams_agreed + 1 < self->part_count && self->parts[seams_agreed + 1].epoch.base <= until; seams_agreed++) {
        const part *next = &self->parts[seams_agreed + 1];
        for (uint32_t at = 0; at <= seams_agreed; at++)
            IS(self->parts[at].epoch.id == next->epoch.id, false);
        is_next(&next[-1].epoch, &next->epoch, &machine_record(self, next->epoch.base - 1)->row);
    }
}

/* All that stay agree on what all of them have settled. */
static void all_agree(void) {
    const machine *self = &all[first_here()];
    uint64_t until = settled_by_all();
    for (; agreed < until; agreed++) {
        are_given(self, agreed);
        for (uint32_t me = 0; me < MOST; me++)
            if (is_here(me) && agreed >= all[me].from)
                is_one_frame(self, &all[me], agreed);
    }
    are_next(self, until);
}

/* And they are in the same epoch, which no mark of theirs has ended. */
static void are_at_one(void) {
    const machine *self = &all[first_here()];
    for (uint32_t me = 0; me < MOST; me++)
        IS(is_here(me) && epoch_of(me)->id != machine_epoch(self)->id, false);
    IS(seams_agreed + 1, self->part_count);
    is_no_mark_before(machine_epoch(self), settled_by_all() - machine_base(self) + 1);
}

/* All that stay come to a frame of the match, in so many turns at most. */
static void run_until(uint64_t frame, uint32_t turns) {
    while (settled_by_all() < frame) {
        IS(turns-- > 0, true);
        run(1);
        if (the->turn % 1024 == 0)
            all_agree();
    }
}

static void is_in_epoch(uint32_t number) { IS(all[first_here()].part_count, number); }

/* To the last frame in so many turns at most, and on until nothing is on the way; then all agree. */
static void run_to_the_end(uint32_t turns) {
    run_until(the->setup.last_frame, turns);
    run(100);
    all_agree();
    are_at_one();
    IS(agreed, the->setup.last_frame);
}

/* And so many epochs were played. */
static void ends_in_epoch(uint32_t number, uint32_t turns) {
    run_to_the_end(turns);
    is_in_epoch(number);
}

/* On until a machine is in the second epoch. */
static void run_to_the_seam(uint32_t me) {
    for (uint32_t time = 0; all[me].part_count == 1; time++) {
        IS(time < 100, true);
        run(1);
    }
}

/* ---- Seams. */

/* A mark of the first machine or of the last that changes nothing begins frames anew. */
static void begins_anew(uint32_t machines, uint32_t is_last) {
    get_going(setup_for(machines));
    ends_epoch(is_last * (machines - 1));
    ends_in_epoch(2, 1000);
    IS(machine_base(&all[0]) > 40, true);
}

/* Jobs of all machines but one are out as the epoch ends: no other epoch begins before they are over. */
static void waits_for_jobs(uint32_t machines, uint32_t held_turns) {
    setup of = setup_for(machines);
    of.held_turns = held_turns;
    get_going(of);
    ends_epoch(0);
    for (uint32_t me = 0; me + 1 < machines; me++)
        for (uint32_t one = 0; one < 2; one++)
            guess(me, machines - 1, 99 + one);
    ends_in_epoch(2, 1000);
    for (uint32_t me = 0; me < machines; me++)
        IS(owns[me].jobs_out, 0);
}

/* An own player's words count later or sooner from the next epoch on. */
static void changes_delay(uint32_t from, uint32_t to) {
    setup of = setup_for(3);
    of.delays[1] = from;
    of.delays[2] = 1;
    get_going(of);
    marks_by(1, mark_of_delay(1, to));
    ends_in_epoch(2, 1000);
    IS(epoch_of(0)->delays[1], to);
    IS(epoch_of(0)->delays[2], 1);
}

/* The sessions may run further ahead or less far from the next epoch on. */
static void changes_threshold(uint32_t from, uint32_t to) {
    setup of = setup_for(2);
    of.threshold = from;
    of.delay = 4;
    get_going(of);
    marks_by(0, mark_of_threshold(to));
    ends_in_epoch(2, 4000);
    IS(epoch_of(1)->threshold, to);
}

/* Of two marks in one turn one counts; in the next epoch the other machine can mark again. */
static void two_at_once(uint32_t one, uint32_t other) {
    get_going(setup_for(3));
    marks_by(one, mark_of_delay(one, 2));
    marks_by(other, mark_of_delay(other, 3));
    run(60);
    all_agree();
    is_in_epoch(2);
    uint32_t loser = epoch_of(0)->delays[one] == 2 ? other : one;
    IS(epoch_of(0)->delays[loser], 0);
    marks_by(loser, mark_of_delay(loser, 4));
    ends_in_epoch(3, 1000);
    IS(epoch_of(0)->delays[loser], 4);
}

/* What can't be is no mark, and isn't put: the epoch doesn't end by it, and by another one of the same machine it does. */
static void is_a_void_mark(uint32_t delay, uint32_t threshold) {
    get_going(setup_for(2));
    fazgrond_mark mark = mark_of(0, delay, threshold);
    IS(put(0, 0, mark), threshold > 8 ? FAZGROND_GREAT_THRESHOLD : FAZGROND_LONG_DELAY);
    run(100);
    all_agree();
    is_in_epoch(1);
    ends_epoch(0);
    IS(put(0, 0, mark), fault_of(0, &mark));
    IS(put(0, 0, mark_of_nothing()), FAZGROND_MARKED);
    ends_in_epoch(2, 1000);
}

/* A mark that gives another machine's player a delay is void. */
static void is_anothers_delay(uint32_t me, uint32_t other) {
    get_going(setup_for(2));
    IS(put(me, me, mark_of_delay(other, 2)), FAZGROND_OTHERS_DELAY);
    IS(put(me, other, mark_of_delay(me, 2)), FAZGROND_INVALID_PLAYER);
    ends_in_epoch(1, 1000);
}

/* Epochs one after another, each as soon as all are in the one before. */
static void many(uint32_t epochs, uint32_t machines) {
    setup of = setup_for(machines);
    of.last_frame = 100 + 40 * epochs;
    open_all(of);
    run(60);
    for (uint32_t at = 1; at < epochs; at++) {
        uint32_t marker = at % machines;
        marks_by(marker, at % 3 == 0 ? mark_of_delay(marker, at % 4) : mark_of_nothing());
        run_until(machine_frame(&all[marker]) + 8, 400);
        is_in_epoch(at + 1);
    }
    ends_in_epoch(epochs, 10000);
}

/* A match has more frames than a session has, in epochs of so many: a session has as many and some more, or as many as it can have. */
static void goes_past_the_limit(uint32_t epochs, uint32_t frames) {
    setup of = setup_for(2);
    of.limit = frames < 1000 ? frames + 30 : 0;
    of.last_frame = epochs * frames;
    open_all(of);
    IS(of.last_frame > world_settings(the, 0).limit, true);
    for (uint32_t at = 1; at < epochs; at++) {
        run_until((uint64_t)at * frames, 2 * frames);
        ends_epoch(at % 2);
    }
    ends_in_epoch(epochs, 2 * frames + 100);
}

/* Inputs of two words, and a machine with two of them. */
static void of_two_words(uint32_t delay, uint32_t to) {
    setup of = setup_for(3);
    of.words = 2;
    of.players = 8;
    for (uint32_t player = 0; player < of.players; player++) {
        of.owners[player] = player / 2 % 3;
        of.delays[player] = player / 2 == 3 ? delay : 0;
    }
    get_going(of);
    IS(put(0, 1, mark_of_nothing()), FAZGROND_INVALID_PLAYER);
    IS(put(0, 7, mark_of_nothing()), FAZGROND_INVALID_PLAYER);
    fazgrond_mark uneven = mark_of_nothing();
    uneven.delays[7] = delay + 1;
    IS(put(0, 6, uneven), FAZGROND_UNLIKE_DELAYS);
    uneven.delays[6] = delay;
    IS(put(0, 6, uneven), FAZGROND_UNLIKE_DELAYS);
    OK(put(0, 6, mark_of_delay(6, to)));
    ends_in_epoch(2, 1000);
    IS(epoch_of(1)->delays[7], to);
    IS(epoch_of(1)->delays[1], 0);
}

/* ---- A machine that stops near a mark, or holds it up. */

enum { AROUND = 8, SOON = 600 };

/* Which of three machines stops near a mark, its own or another's, and when; and which other one doesn't hear it for so many turns
 * before. */
typedef struct stopping {
    uint32_t stopped, marker, at, deaf, unheard;
} stopping;

/* The others play on, and by the next mark it owns nothing. */
static void stops_so(setup of, const stopping *how) {
    uint32_t stopped = how->stopped, other = stopped == 0 ? 1 : 0;
    get_going(of);
    for (uint32_t time = 0; time <= 2 * AROUND; time++) {
        if (time == AROUND && is_here(how->marker))
            ends_epoch(how->marker);
        the->is_cut[stopped][how->deaf] = time < how->at && time + how->unheard >= how->at;
        if (time == how->at)
            stop(stopped);
        run(1);
    }
    run(150);
    for (uint32_t me = 0; me < 3; me++)
        IS(me == stopped || world_told(the, me, FAZGROND_LEFT, stopped) > 0, true);
    uint32_t epochs = all[other].part_count;
    IS(epochs == 1 || epochs == 2, true);
    ends_epoch(other);
    ends_in_epoch(epochs + 1, 1000);
    IS(epoch_of(other)->owners[stopped], FAZGROND_NOBODY);
    IS(is_gone(&machine_record(&all[other], of.last_frame - 1)->row, stopped), true);
}

/* Which of three stops, whose mark it is, and how many turns before it or after; each of the last come at other such turns. */
static void stops_near(uint32_t who, uint32_t at) {
    stopping how = { .stopped = who / 3, .marker = (who + 1) % 3, .at = (at + who + 2) % (2 * AROUND + 1) };
    stops_so(setup_for(3), &how);
}

/* The same where who gives no words is gone sooner than who is silent. One of the others can be in the next epoch by then, while the third
 * one lacks words of who has stopped: in the epoch before neither gives words any more, and neither is gone for that. */
static void stops_near_a_stall(uint32_t drawn, uint32_t at) {
    setup of = setup_for(3);
    stopping how = { .at = (at + drawn) % (2 * AROUND + 1) };
    chance = draws_of(drawn, STREAM);
    how.stopped = below(3);
    how.marker = below(3);
    how.deaf = (how.stopped + 1 + below(2)) % 3;
    how.unheard = drawn_or_none(6);
    of.seed = drawn;
    of.stalled_after = SOON;
    of.delay = 1 + below(4);
    of.jitter = below(3);
    of.loss = below(2) * 10;
    for (uint32_t player = 0; player < 3; player++)
        of.delays[player] = drawn_or_none(5);
    stops_so(of, &how);
}

static void cut_off(uint32_t me, bool is_so) {
    for (uint32_t other = 0; other < 3; other++)
        cut(me, other, is_so);
}

/* An epoch begins in which a player is nobody's, and one of three machines, which puts a mark at once, is alone for so many turns. Another
 * stops then, so that the third one has words of it past that mark. Nobody waits for more of them than there are. */
static void stops_as_it_begins(uint32_t alone, uint32_t how) {
    setup of = setup_for(3);
    of.stalled_after = how % 2 * SOON;
    of.players = 4;
    of.owners[3] = FAZGROND_NOBODY;
    delay_all(&of, how / 2 * 2);
    open_all(of);
    run(120);
    ends_epoch(1);
    run_to_the_seam(0);
    ends_epoch(0);
    cut_off(0, true);
    network_lose(&the->network, 0);
    run(alone);
    stop(2);
    cut_off(0, false);
    ends_in_epoch(3, 1000);
}

static void is_about(uint32_t got, uint32_t wanted) { IS(got + 2 * TURN >= wanted && got <= wanted + 2 * TURN, true); }

/* A machine was told once that another one is stalled, and that it would be gone so long after the seam, or not at all if that is 0. */
static void is_told_stalled(uint32_t me, uint32_t who, uint32_t gone_after) {
    uint32_t seam = (uint32_t)(all[me].parts[1].begun / MILLISECOND), gone_in = world_gone_in(the, me, FAZGROND_STALLED, who);
    IS(world_told(the, me, FAZGROND_STALLED, who), 1);
    if (gone_after > 0)
        is_about(world_told_at(the, me, FAZGROND_STALLED, who) - seam + gone_in, gone_after);
    else
        IS(gone_in, 0);
}

/* And it was gone as that had said. */
static void is_gone_as_told(uint32_t me, uint32_t who) {
    uint32_t left_at = world_told_at(the, me, FAZGROND_LEFT, who), stalled_at = world_told_at(the, me, FAZGROND_STALLED, who);
    IS(world_told(the, me, FAZGROND_LEFT, who), 1);
    is_about(left_at - stalled_at, world_gone_in(the, me, FAZGROND_STALLED, who));
}

/* Of so many machines none was told this of that one. */
static void is_untold(uint32_t machines, uint32_t code, uint32_t of) {
    for (uint32_t me = 0; me < machines; me++)
        IS(world_told(the, me, code, of), 0);
}

/* One of three answers, and doesn't go on in the next epoch, or goes on and gives no words there. With a delay it is at frame 0 then: all
 * is known before it would play past the end. It holds the others up, which is told, and is put out: one that gives no words as in the
 * midst of an epoch, and one that stays in the old epoch once who might have kept it there would be gone. */
static void holds_up_a_seam(uint32_t how, uint32_t delay) {
    setup of = setup_for(3);
    uint32_t who = how / 2, other = who == 0 ? 1 : 0;
    bool is_behind = how % 2 == 0;
    of.stalled_after = 2000;
    of.waits = who + 1;
    delay_all(&of, delay);
    get_going(of);
    ends_epoch(other);
    all[who].stays_behind = is_behind;
    owns[who].stalls_next = !is_behind;
    owns[who].is_out = true; /* in a while */
    run_to_the_seam(other);
    run((of.stalled_after + is_behind * 2 * of.silent_after) / TURN - 10);
    is_untold(3, FAZGROND_LEFT, who);
    run(60);
    stop(who);
    for (uint32_t me = 0; me < 3; me++) {
        if (me == who)
            continue;
        is_gone_as_told(me, who);
        if (is_behind)
            is_told_stalled(me, who, 2 * of.silent_after + of.stalled_after);
    }
    ends_in_epoch(2, 1000);
}

/* One of three stays in the old epoch until just before it would be gone for that, or for long where nobody is. That is told of it, and of
 * nobody else. Then it goes on, and they play. */
static void goes_on_late(uint32_t who, uint32_t stalled_after) {
    setup of = setup_for(3);
    uint32_t other = who == 0 ? 1 : 0, gone_after = stalled_after > 0 ? 2 * of.silent_after + stalled_after : 0;
    of.stalled_after = stalled_after;
    of.delays[1] = 2;
    of.delays[2] = 4;
    get_going(of);
    ends_epoch(other);
    all[who].stays_behind = true;
    run_to_the_seam(other);
    run(FAZGROND_NOTIFY_AFTER / TURN - 10);
    is_untold(3, FAZGROND_STALLED, who);
    run(gone_after > 0 ? gone_after / TURN - FAZGROND_NOTIFY_AFTER / TURN - 10 : 600);
    all[who].stays_behind = false;
    ends_in_epoch(2, 1000);
    for (uint32_t me = 0; me < 3; me++)
        for (uint32_t of_whom = 0; of_whom < 3; of_whom++)
            if (of_whom == who && me != who)
                is_told_stalled(me, who, gone_after);
            else
                IS(world_told(the, me, FAZGROND_STALLED, of_whom), 0);
}

/* How many words of a player a machine has. */
static uint32_t words_at(uint32_t me, uint32_t player) {
    uint32_t words;
    OK(fazgrond_confirmed(&all[me].session, (uint8_t)(player + 1), &words));
    return words;
}

/* One of three hears nothing of another, and puts a mark so many turns later. The other stops before it hears of that: the third one has
 * its words past the mark, and its own past it have come as well, before there was the mark. All are as they were predicted. Whoever takes
 * them at once has no state at the end any more. With a shorter delay words past the end would come after the mark. */
static void keeps_the_end(uint32_t delay, uint32_t late) {
    setup of = setup_for(3);
    of.is_idle = true;
    of.delays[1] = of.delays[2] = delay;
    get_going(of);
    cut(0, 2, true);
    run(late);
    ends_epoch(0);
    run(2);
    stop(2);
    uint32_t end = marks[0].frame + 1;
    IS(words_at(0, 0) > end && words_at(0, 1) > end && words_at(0, 2) < end && words_at(1, 2) > end, true);
    ends_in_epoch(2, 1000);
}

/* ---- Bad lines. */

/* Seams while a line of three is broken, with words held back or not, on lines that lose 30 % or nothing: nobody is gone. */
static void is_carried(uint32_t line, uint32_t at) {
    setup of = setup_for(3);
    uint32_t one = line, other = (line + 1) % 3, third = (line + 2) % 3, how = (line + at) % 4;
    of.held_turns = how % 2 * 3;
    of.loss = how / 2 * 30;
    of.silent_after = 2000;
    of.last_frame = 500;
    get_going(of);
    cut(one, other, true);
    run(60);
    ends_epoch(one);
    run(120);
    marks_by(other, mark_of_delay(other, 2));
    run(120);
    cut(one, other, false);
    run(40);
    ends_epoch(third);
    ends_in_epoch(4, 4000);
}

/* For so many turns nothing of the machine that puts a mark comes to one other, which then lacks words of the epoch that is over. */
static void is_unheard_at_a_seam(uint32_t turns, uint32_t machines) {
    get_going(setup_for(machines));
    ends_epoch(0);
    the->is_cut[0][1] = true;
    run(turns);
    the->is_cut[0][1] = false;
    ends_in_epoch(2, 1000);
}

/* A line breaks in the turns of the seam itself, and heals. */
static void breaks_at(uint32_t at, uint32_t turns) {
    setup of = setup_for(3);
    of.held_turns = at % 4;
    get_going(of);
    for (uint32_t time = 0; time < 120; time++) {
        if (time == AROUND)
            ends_epoch(0);
        cut(0, 1, time >= at && time < at + turns);
        run(1);
    }
    ends_in_epoch(2, 4000);
}

/* Seams over a line that loses 30 % or so many less, brings datagrams late and not in their order, and with words held back for 3 turns
 * or so many less. */
static void is_lossy(uint32_t kept, uint32_t sooner) {
    setup of = setup_for(3);
    of.loss = 30 - kept;
    of.jitter = 3;
    of.held_turns = 3 - sooner;
    of.silent_after = 2000;
    open_all(of);
    for (uint32_t me = 0; me < 3; me++) {
        run_until(60 + 70 * me, 4000);
        marks_by(me, mark_of_delay(me, me));
    }
    ends_in_epoch(4, 8000);
}

/* ---- Who stands at a seam. */

/* In how many of the 41 turns around the beginning of an epoch a word was refused, and in how many no frame was run. */
static void count_around(const machine *self, uint32_t epoch, uint32_t *refused, uint32_t *stood) {
    uint32_t seam = (uint32_t)((self->parts[epoch].begun - all[0].parts[0].begun) / the->setup.turn);
    for (uint32_t at = seam - 20; at <= seam + 20; at++) {
        *refused += owns[self->me].was_refused[at];
        *stood += !owns[self->me].was_taken[at];
    }
}

/* With a threshold of 8 frames and up to 4 turns from a machine to another, no word is refused at a seam. */
static void stands_at_no_seam(uint32_t delay, uint32_t machines) {
    setup of = setup_for(machines);
    uint32_t refused = 0, stood = 0;
    of.delay = delay;
    of.last_frame = 400;
    open_all(of);
    run(120);
    for (uint32_t me = 0; me < 2; me++) {
        ends_epoch(me);
        run(80);
        is_in_epoch(me + 2);
    }
    for (uint32_t me = 0; me < machines; me++)
        for (uint32_t epoch = 1; epoch < 3; epoch++)
            count_around(&all[me], epoch, &refused, &stood);
    printf("%u machines, %u turns from one to another: in the 41 turns around each of two seams words are refused %u times, and no "
           "frame is run %u times\n",
           (unsigned)machines, (unsigned)delay, (unsigned)refused, (unsigned)stood);
    if (delay <= 4)
        IS(refused, 0);
    ends_in_epoch(3, 4000);
}

/* ---- Who comes. */

/* A ticket that hashlib of Python has made. */
static void is_a_ticket(uint32_t at, uint32_t bits) {
    static const struct {
        uint64_t comers, ticket;
        uint32_t name;
    } known[] = {
        { 0, 0x374708ff00000000, 0 },
        { 1, 0x7838258200000000, 0 },
        { 1, 0x532deabf00000001, 1 },
        { 0x123456789abcdef, 0x59c098da00000007, 7 },
        { UINT64_MAX, 0x4ffad116ffffffff, UINT32_MAX },
        { 5, 0xc4ef8d80ffffffff, UINT32_MAX },
    };
    IS(fazgrond_ticket(known[at].comers, known[at].name) == known[at].ticket, true);
    IS(upper_half(known[at].comers, known[at].name), known[at].ticket >> bits);
}

/* So many machines, and a player whom nobody owns. */
static setup one_is_free(uint32_t machines) {
    setup of = setup_for(machines);
    of.players = machines + 1;
    of.owners[machines] = FAZGROND_NOBODY;
    return of;
}

enum { WRONG_TICKETS = 5 };

/* A tag with another bit, that of another name or of another match, halves that are exchanged, and none. */
static uint64_t wrong_ticket(uint32_t how) {
    uint64_t right = ticket_of(6), others = fazgrond_ticket(the->setup.comers + 1, 6);
    uint64_t all_wrong[WRONG_TICKETS] = { right ^ 1ull << 32, right + 1, others, right << 32 | right >> 32, 0 };
    return all_wrong[how];
}

/* A mark with a wrong ticket isn't put: nobody stands still or leaves for it, and the epoch ends by another one's mark. */
static void has_wrong_ticket(uint32_t how, uint32_t machines) {
    uint32_t marker = how % machines, other = (how + 1) % machines;
    get_going(one_is_free(machines));
    IS(put(marker, marker, mark_of_who_comes(machines, wrong_ticket(how))), FAZGROND_WRONG_TICKET);
    uint64_t settled = settled_by_all();
    run(60);
    IS(settled_by_all() >= settled + 55, true);
    all_agree();
    is_in_epoch(1);
    ends_epoch(other);
    ends_in_epoch(2, 1000);
    IS(epoch_of(0)->owners[machines], FAZGROND_NOBODY);
}

/* The one whom nobody plays at first has left. From now on the next one is looked for that has its number. */
static void forget_who_left(uint32_t machines) {
    is_untold(machines, FAZGROND_STALLED, machines);
    the->events = 0;
}

/* Who is let in and never comes has left once the time of silence has passed twice since the seam, or ten seconds if there is none: who
 * brings it may itself be kept so long in the epoch before. Some of the machines may put it out sooner: the match goes on all the same.
 * That who is stalled is gone sooner makes nothing sooner. */
static void never_comes(uint32_t silent_after, uint32_t stalled_after) {
    uint32_t patience = (silent_after > 0 ? 2 * silent_after : 10000) / TURN, put_out_by = silent_after / 1500;
    setup of = one_is_free(3);
    of.silent_after = silent_after;
    of.stalled_after = stalled_after;
    get_going(of);
    forget_who_left(3);
    marks_by(0, mark_of_who_comes(3, ticket_of(6)));
    run_to_the_seam(2);
    run(patience - 20);
    is_untold(3, FAZGROND_LEFT, 3);
    for (uint32_t me = 0; me < put_out_by; me++)
        OK(fazgrond_peer_disconnect(&all[me].peer, 3));
    run(60);
    for (uint32_t me = 0; me < 3; me++) {
        uint32_t seam = (uint32_t)(all[me].parts[1].begun / MILLISECOND), left_at = world_told_at(the, me, FAZGROND_LEFT, 3);
        IS(world_told(the, me, FAZGROND_LEFT, 3), 1);
        IS(put_out_by > 0 || left_at + 10 * TURN > seam + patience * TURN, true);
    }
    ends_in_epoch(2, 1000);
    for (uint32_t me = 0; me < 3; me++)
        IS(world_told(the, me, FAZGROND_LEFT, 3), 1);
}

/* Whom of the first three a machine knows to have been in the epoch before, as bits. */
static void have_stayed(uint32_t me, uint32_t bits) { IS(has_stayed(me, 0) | has_stayed(me, 1) << 1 | has_stayed(me, 2) << 2, bits); }

/* Who comes gets the lowest machine's number that is free and the player, opens the epoch with the state at its beginning, and
 * plays: also if it comes so many turns late, as long as twice the time of silence hasn't passed. */
static void comes(uint32_t late, uint32_t stalled_after) {
    uint32_t marker = late / 40 % 2;
    setup of = one_is_free(2);
    of.stalled_after = stalled_after;
    of.comers *= late == 0; /* or whoever has any ticket */
    of.silent_after = 3000;
    get_going(of);
    marks_by(marker, mark_of_who_comes(2, late == 0 ? ticket_of(6) : 6));
    run(60 + late);
    IS(all[0].part_count, 2);
    IS(all[1].part_count, 2);
    IS(epoch_of(0)->owners[2], 2);
    IS(epoch_of(0)->machines >= 3, true);
    open_beside(2, 0);
    for (uint32_t me = 0; me < 3; me++)
        have_stayed(me, me < 2 ? 3 : 0);
    run(150);
    IS(all[2].settled > all[2].from + 40, true);
    marks_by(2, mark_of_delay(2, 1));
    ends_in_epoch(3, 2000);
    IS(epoch_of(0)->delays[2], 1);
    for (uint32_t me = 0; me < 3; me++)
        have_stayed(me, 7);
}

/* Who comes is heard, and gives no words: that is told of it. It is put out once who might have kept it from beginning would be gone, and
 * the others play on. */
static void comes_mute(uint32_t marker, uint32_t late) {
    setup of = one_is_free(2);
    of.stalled_after = 2000;
    of.waits = 3;
    get_going(of);
    marks_by(marker, mark_of_who_comes(2, ticket_of(6)));
    run(20 + late);
    open_beside(2, 0);
    all[2].is_stalled = true;
    owns[2].is_out = true; /* in a while */
    forget_who_left(2);
    run(of.stalled_after / TURN);
    is_untold(2, FAZGROND_LEFT, 2);
    run(2 * of.silent_after / TURN + 20);
    stop(2);
    for (uint32_t me = 0; me < 2; me++) {
        is_told_stalled(me, 2, 2 * of.silent_after + of.stalled_after);
        is_gone_as_told(me, 2);
    }
    ends_in_epoch(2, 1000);
}

/* One of three stops, and whoever comes gets its player and its number: it hasn't stayed. The first one, with whose epochs and rows the
 * others' are compared, is there from the beginning. */
static void comes_in_place(uint32_t stopped, uint32_t marker) {
    get_going(setup_for(3));
    stop(stopped);
    run(120);
    all_agree();
    marks_by(marker, mark_of_who_comes(stopped, ticket_of(8)));
    run_to_the_seam(marker);
    run(30);
    IS(epoch_of(marker)->owners[stopped], stopped);
    machine_close(&all[stopped]);
    open_beside(stopped, marker);
    have_stayed(marker, 7 - (1u << stopped));
    have_stayed(stopped, 0);
    run(150);
    ends_epoch(stopped);
    ends_in_epoch(3, 2000);
    for (uint32_t me = 0; me < 3; me++)
        have_stayed(me, 7);
}

/* ---- Who leaves, and who means another match. */

/* Says bye behind the last words, which were sent in the turn before. */
static void leave(uint32_t me) {
    uint8_t bytes[FAZGROND_DATAGRAM];
    size_t length;
    for (uint8_t to = 0; to < MOST; to++)
        if (fazgrond_peer_bye(&all[me].peer, to, FAZGROND_BYE_LEAVES, bytes, sizeof bytes, &length) == FAZGROND_OK)
            world_send(the, me, to, bytes, length, (the->setup.delay - 1) * TURN);
    stop(me);
}

/* One of three leaves so many turns after a mark. In whichever turn that is heard, also in that of the seam, it is told, once. */
static void leaves_near(uint32_t turns, uint32_t delay) {
    setup of = setup_for(3);
    of.delay = delay;
    get_going(of);
    ends_epoch(0);
    run(turns + 1);
    leave(2);
    run(60);
    for (uint32_t me = 0; me < 2; me++)
        IS(world_told(the, me, FAZGROND_LEFT, 2), 1);
    ends_in_epoch(2, 1000);
}

/* Two of three put the third one out, which plays on: it is told once that the match is over. */
static void is_put_out(uint32_t between, uint32_t by) {
    get_going(setup_for(3));
    owns[2].is_out = true;
    OK(fazgrond_peer_disconnect(&all[by].peer, 2));
    run(between);
    OK(fazgrond_peer_disconnect(&all[1 - by].peer, 2));
    run(200);
    IS(world_told(the, 2, FAZGROND_DROPPED, NOBODY), 1);
    stop(2);
    ends_in_epoch(1, 1000);
}

static const program unmatched = { .word = word_of, .heard = heard };

/* Two of whom one has other comers, or goes on alone, are told that they mean other matches, and don't begin. */
static void means_another(uint32_t how, uint32_t one) {
    static const struct {
        uint64_t comers[2];
        bool lasts[2];
        uint32_t field;
    } hows[] = {
        { { 7, 8 }, { true, true }, 3 }, { { 7, 0 }, { true, true }, 3 }, { { 7, 7 }, { true, false }, 5 }, { { 0, 0 }, { true, false }, 5 }
    };
    setup of = setup_for(2);
    of.program = &unmatched;
    of.carries = true;
    begin(of);
    for (uint32_t me = 0; me < 2; me++) {
        the->setup.comers = hows[how].comers[me ^ one];
        the->setup.lasts = hows[how].lasts[me ^ one];
        world_open(the, me);
    }
    the->setup.lasts = true;
    run(60);
    for (size_t at = 0; at < the->events; at++) {
        const fazgrond_event *event = &the->told[at].event;
        IS(event->code == FAZGROND_SYNCHRONIZING || (event->code == FAZGROND_MISMATCH && event->field == hows[how].field), true);
    }
    for (uint32_t me = 0; me < 2; me++)
        IS(!all[me].is_running && world_told(the, me, FAZGROND_MISMATCH, NOBODY) > 0, true);
}

/* ---- Who watches. */

/* Somebody begins to watch the epoch in which a machine is. */
static watcher *watch_at(uint32_t host) {
    uint32_t epoch = all[host].part_count - 1;
    fazgrond_line_settings with = { .number = 1000 + epoch, .draw = 1, .host = host, .machines = the->setup.machines };
    watcher *of = &watching[epoch];
    *of = (watcher){ .host = host, .epoch = epoch };
    memcpy(with.owners, the->setup.owners, sizeof with.owners);
    OK(fazgrond_line_open(&of->line, &with));
    with.draw = 2;
    OK(fazgrond_viewer_open(&of->viewer, &with));
    return of;
}

/* What the host sends, of its epoch or of the one before. */
static int32_t tell(watcher *of, uint8_t *bytes, size_t *length) {
    machine *host = &all[of->host];
    uint32_t now = world_clock(the, of->host);
    if (of->epoch + 1 == host->part_count)
        return fazgrond_line_send(&of->line, &host->session, now, bytes, FAZGROND_DATAGRAM, length);
    return fazgrond_line_send_before(&of->line, &host->peer, now, bytes, FAZGROND_DATAGRAM, length);
}

/* Until both ends have heard each other, what tells of rows isn't sealed for the other one. */
static void is_heard(int32_t code) { IS(code == FAZGROND_NOT_SEALED ? FAZGROND_OK : code, FAZGROND_OK); }

/* The rows that came are those that the host has settled in that epoch. */
static void see_rows(watcher *of) {
    const machine *host = &all[of->host];
    fazgrond_row row;
    while (fazgrond_viewer_row(&of->viewer, &row) == FAZGROND_OK) {
        uint64_t frame = host->parts[of->epoch].epoch.base + of->rows++;
        MUST(frame < host->settled);
        IS(machine_record(host, frame)->epoch, of->epoch);
        IS(row_is_same(&machine_record(host, frame)->row, &row), true);
    }
}

static void watch(watcher *of, uint32_t turns) {
    uint8_t bytes[FAZGROND_DATAGRAM];
    uint32_t rows;
    size_t length;
    for (; turns > 0; turns--) {
        run(1);
        OK(fazgrond_viewer_send(&of->viewer, world_millis(the), bytes, sizeof bytes, &length));
        is_heard(fazgrond_line_receive(&of->line, bytes, length, world_clock(the, of->host)));
        OK(tell(of, bytes, &length));
        is_heard(fazgrond_viewer_receive(&of->viewer, bytes, length, world_millis(the), &rows));
        see_rows(of);
    }
}

/* So many turns before the mark somebody doesn't hear the host any more, or begins to watch after the seam. The host hears no machine then,
 * so that it doesn't know whether all have come, and goes on telling of the epoch before. Once it knows, it tells of that no more. */
static void is_told_past_the_seam(uint32_t unheard, uint32_t host) {
    uint8_t bytes[FAZGROND_DATAGRAM];
    size_t length = UNTOLD;
    watcher *of = NULL;
    setup all_told = setup_for(3);
    all_told.tells_all = true;
    open_all(all_told);
    run(60);
    if (unheard > 0) {
        of = watch_at(host);
        watch(of, 20);
        IS(of->rows > 40, true);
        run(unheard);
    }
    ends_epoch(1);
    if (of == NULL)
        of = watch_at(host);
    run_to_the_seam(host);
    network_lose(&the->network, host);
    cut_off(host, true);
    IS(of->rows < epoch_of(host)->base, true);
    watch(of, 20);
    IS(of->rows, epoch_of(host)->base);
    cut_off(host, false);
    run(60);
    IS(tell(of, bytes, &length), FAZGROND_NOTHING);
    IS(length, UNTOLD);
    of = watch_at(host);
    watch(of, 40);
    IS(of->rows > 40, true);
    ends_in_epoch(2, 1000);
}

/* ---- What calls refuse. */

/* A session beside which another peer stands is refused, too, and the match goes on with its own. */
static void refuses_marks(uint32_t me, uint32_t player) {
    uint32_t frames = UNTOLD;
    get_going(setup_for(2));
    fazgrond_mark mark = mark_of_nothing();
    IS(fazgrond_peer_mark(&all[me].peer, &all[1 - me].session, (uint8_t)(player + 1), &mark), FAZGROND_OTHER_SESSION);
    IS(fazgrond_peer_go_on(&all[me].peer, &all[me].session, &frames), FAZGROND_NOTHING);
    IS(frames, UNTOLD);
    for (uint32_t other = 0; other < 256; other++)
        if (other != player + 1)
            IS(fazgrond_peer_mark(&all[me].peer, &all[me].session, (uint8_t)other, &mark), FAZGROND_INVALID_PLAYER);
    mark.size--;
    IS(put(me, player, mark), FAZGROND_OTHER_VERSION);
    IS(put(me, player, mark_of_threshold(300)), FAZGROND_INVALID_REQUEST);
    IS(put(me, player, mark_of_delay(player, 300)), FAZGROND_INVALID_REQUEST);
    ends_epoch(me);
    IS(put(me, player, mark_of_nothing()), FAZGROND_MARKED);
    IS(put(me, player, mark_of_threshold(4)), FAZGROND_MARKED);
    ends_in_epoch(2, 1000);
    ends_epoch(me);
}

/* All calls about epochs answer this, and one that puts a mark that; and none writes anything. */
static void all_answer(fazgrond_peer *peer, fazgrond_line *line, int32_t code, int32_t of_mark) {
    uint8_t bytes[FAZGROND_DATAGRAM];
    uint32_t frames = UNTOLD, flag = UNTOLD;
    size_t length = UNTOLD;
    fazgrond_epoch epoch = { .id = UNTOLD };
    fazgrond_mark mark = mark_of_nothing();
    fazgrond_session *session = &all[0].session;
    IS(fazgrond_peer_epoch(peer, &epoch), code);
    IS(fazgrond_peer_has_stayed(peer, 0, &flag), code);
    IS(fazgrond_peer_mark(peer, session, 1, &mark), of_mark);
    IS(fazgrond_peer_go_on(peer, session, &frames), code);
    IS(fazgrond_peer_send_before(peer, 1, 0, bytes, sizeof bytes, &length), code);
    IS(fazgrond_line_send_before(line, peer, 0, bytes, sizeof bytes, &length), code);
    IS(epoch.id == UNTOLD && frames == UNTOLD && flag == UNTOLD && length == UNTOLD, true);
}

/* A match that doesn't go on in epochs takes no marks and has no epoch. */
static void has_no_epochs(uint32_t is_carrying, uint32_t me) {
    setup of = setup_for(2);
    of.lasts = false;
    of.carries = is_carrying != 0;
    begin(of);
    world_open(the, me);
    is_well(the);
    all_answer(&all[me].peer, &watch_at(me)->line, FAZGROND_NOTHING, FAZGROND_NO_MARKS);
}

/* Without a handle, and with one of another kind. Nobody who watches is told of an epoch before the first one. */
static void refuses_closed(uint32_t unused, uint32_t none) {
    uint8_t bytes[FAZGROND_DATAGRAM];
    uint32_t frames = UNTOLD;
    size_t length = UNTOLD;
    fazgrond_session closed = FAZGROND_CLOSED;
    fazgrond_peer gone = FAZGROND_CLOSED;
    fazgrond_line over = FAZGROND_CLOSED;
    (void)unused, (void)none;
    open_all(setup_for(2));
    fazgrond_mark mark = mark_of_nothing();
    machine *self = &all[0];
    fazgrond_line *line = &watch_at(0)->line;
    void *no_peers[] = { &gone, &self->session, line };
    void *no_lines[] = { &over, &self->peer, &self->session, &watching[0].viewer };
    for (uint32_t at = 0; at < 3; at++)
        all_answer(no_peers[at], line, FAZGROND_IS_CLOSED, FAZGROND_IS_CLOSED);
    for (uint32_t at = 0; at < 4; at++)
        IS(fazgrond_line_send_before(no_lines[at], &self->peer, 0, bytes, sizeof bytes, &length), FAZGROND_IS_CLOSED);
    IS(fazgrond_peer_mark(&self->peer, &closed, 1, &mark), FAZGROND_IS_CLOSED);
    IS(fazgrond_peer_go_on(&self->peer, &closed, &frames), FAZGROND_IS_CLOSED);
    IS(fazgrond_line_send_before(line, &self->peer, 0, bytes, sizeof bytes, &length), FAZGROND_NOTHING);
    IS(frames == UNTOLD && length == UNTOLD, true);
    OK(fazgrond_line_send(line, &self->session, 0, bytes, sizeof bytes, &length));
}

/* The session of the first of two machines is open, whose player has this delay, and no peer. */
static fazgrond_epoch open_a_session(uint32_t delay) {
    setup of = setup_for(2);
    of.delays[0] = delay;
    begin(of);
    world_open_session(the, 0);
    all[0].draw = 1;
    return world_first_epoch(the);
}

static int32_t open_by(const fazgrond_match *match, const fazgrond_epoch *epoch) {
    fazgrond_peer peer = FAZGROND_CLOSED;
    int32_t code = fazgrond_peer_open_lasting(&peer, &all[0].session, match, epoch);
    IS(peer.full, code == FAZGROND_OK);
    fazgrond_peer_close(&peer);
    return code;
}

/* An epoch that isn't this session's, a size that isn't this version's, and inputs whose words have two delays or two owners,
 * or are more than 8 in all. */
static void refuses_terms(uint32_t delay, uint32_t words) {
    static const struct {
        uint32_t words, threshold, more, delays[2], owners[2];
        int32_t code;
    } terms[] = {
        { 1, 7, 0, { 2, 0 }, { 0, 1 }, FAZGROND_INVALID_REQUEST },
        { 1, 8, 0, { 1, 0 }, { 0, 1 }, FAZGROND_INVALID_REQUEST },
        { 1, 8, 0, { 2, 3 }, { 0, 1 }, FAZGROND_OK }, /* another machine's delay */
        { 1, 8, 1, { 2, 0 }, { 0, 1 }, FAZGROND_OTHER_VERSION },
        { 1, 8, 0, { 2, 0 }, { 1, 0 }, FAZGROND_INVALID_PLAYER },
        { 2, 8, 0, { 2, 0 }, { 0, 1 }, FAZGROND_UNLIKE_DELAYS },
        { 2, 8, 0, { 2, 2 }, { 0, 1 }, FAZGROND_TWO_OWNERS },
        { 5, 8, 0, { 2, 2 }, { 0, 1 }, FAZGROND_INVALID_MACHINE },
    };
    fazgrond_epoch epoch = open_a_session(delay);
    fazgrond_match match = world_match(the, 0, 0);
    for (size_t at = 0; at < sizeof terms / sizeof *terms; at++) {
        fazgrond_epoch other = epoch;
        other.words = terms[at].words;
        other.threshold = terms[at].threshold;
        other.size += terms[at].more;
        memcpy(other.delays, terms[at].delays, sizeof terms[at].delays);
        memcpy(other.owners, terms[at].owners, sizeof terms[at].owners);
        IS(open_by(&match, &other), terms[at].code);
    }
    epoch = open_a_session(0);
    epoch.words = words;
    for (uint32_t at = 0; at < FAZGROND_PLAYERS; at++)
        epoch.owners[at] = at / words % 2;
    IS(open_by(&match, &epoch), FAZGROND_TOO_MANY_WORDS);
}

/* Sizes, draws and numbers of a match. What of the match the epoch says too isn't read. */
static void refuses_matches(uint32_t delay, uint32_t machines) {
    fazgrond_epoch epoch = open_a_session(delay);
    fazgrond_match match = world_match(the, 0, 0), other = match;
    other.size--;
    IS(open_by(&other, &epoch), FAZGROND_OTHER_VERSION);
    other = match;
    other.words = other.machines = machines;
    other.owners[0] = 1;
    other.owners[5] = 0;
    OK(open_by(&other, &epoch));
    other.machines = 256;
    IS(open_by(&other, &epoch), FAZGROND_INVALID_REQUEST);
    other = match;
    other.draw = 0;
    IS(open_by(&other, &epoch), FAZGROND_INVALID_REQUEST);
    other = match;
    other.numbers[1] = 0;
    IS(open_by(&other, &epoch), FAZGROND_NO_NUMBER);
}

/* What is sent of the epoch before, also to who watches it, needs room for a datagram; it isn't written if there is less. */
static void needs_room(uint32_t me, uint32_t other) {
    uint8_t bytes[FAZGROND_DATAGRAM], before[FAZGROND_DATAGRAM], to = (uint8_t)other;
    size_t room = sizeof bytes, length = UNTOLD;
    memset(bytes, 3, sizeof bytes);
    memcpy(before, bytes, sizeof bytes);
    get_going(setup_for(2));
    fazgrond_peer *peer = &all[me].peer;
    fazgrond_line *line = &watch_at(me)->line;
    IS(fazgrond_line_send_before(line, peer, world_clock(the, me), bytes, room - 1, &length), FAZGROND_TOO_SHORT);
    ends_epoch(me);
    run_to_the_seam(me);
    uint32_t now = world_clock(the, me);
    IS(fazgrond_peer_send_before(peer, to, now, bytes, room - 1, &length), FAZGROND_TOO_SHORT);
    IS(fazgrond_line_send_before(line, peer, now, bytes, 0, &length), FAZGROND_TOO_SHORT);
    IS(fazgrond_line_send_before(line, peer, now, bytes, room - 1, &length), FAZGROND_TOO_SHORT);
    IS(fazgrond_peer_send_before(peer, (uint8_t)me, now, bytes, room, &length), FAZGROND_NOTHING);
    IS(fazgrond_peer_send_before(peer, 9, now, bytes, room, &length), FAZGROND_NOTHING);
    IS(length, UNTOLD);
    IS(memcmp(bytes, before, sizeof bytes), 0);
    OK(fazgrond_peer_send_before(peer, to, now, bytes, room, &length));
    IS(length > 0 && length <= FAZGROND_DATAGRAM, true);
    length = UNTOLD;
    OK(fazgrond_line_send_before(line, peer, now, bytes, room, &length));
    IS(length > 0 && length <= FAZGROND_DATAGRAM, true);
    length = UNTOLD;
    IS(fazgrond_line_bye(line, bytes, room, &length), FAZGROND_NOTHING); /* they haven't heard each other */
    IS(fazgrond_line_send_before(line, peer, now, bytes, room, &length), FAZGROND_NOTHING);
    run(60); /* by then the other has come */
    IS(fazgrond_peer_send_before(peer, to, world_clock(the, me), bytes, room, &length), FAZGROND_NOTHING);
    IS(length, UNTOLD);
    run_to_the_end(1000);
}

/* ---- Worlds that are drawn. */

static uint32_t drawn_threshold(uint32_t players) { return players <= 4 ? 4 + below(5) : 5 + below(11); }

/* Two to six inputs of one or two words each, which two to five machines own in turn; delays, thresholds and lines. */
static setup drawn_setup(uint32_t drawn) {
    setup of = setup_for(2 + below(4));
    uint32_t inputs = of.machines + below(2);
    of.seed = drawn;
    of.words = below(5) == 0 && inputs <= 4 ? 2 : 1;
    of.players = inputs * of.words;
    for (uint32_t player = 0; player < of.players; player++) {
        bool is_first = player % of.words == 0;
        of.owners[player] = player / of.words % of.machines;
        of.delays[player] = is_first ? drawn_or_none(3) : of.delays[player - 1];
    }
    of.threshold = drawn_threshold(of.players);
    of.delay = 1 + below(5);
    of.jitter = below(4);
    of.loss = below(3) == 0 ? 0 : below(31);
    of.held_turns = drawn_or_none(4);
    of.silent_after = 2000;
    of.last_frame = 600;
    return of;
}

/* A mark for a player of a machine: it changes nothing, the delay, the threshold or both, or is void. */
static fazgrond_mark drawn_mark(uint32_t player) {
    uint32_t delay = below(3) == 0 ? FAZGROND_AS_BEFORE : below(8) == 0 ? 9 : below(5);
    return mark_of(player, delay, below(3) == 0 ? drawn_threshold(the->setup.players) : 0);
}

/* A mark of some player in a turn, which may come too late. */
static void plan_mark(uint32_t turn) {
    const setup *with = &the->setup;
    uint32_t player = below(with->players / with->words) * with->words;
    MUST(plans_made < PLANS);
    plans[plans_made++] = (plan){ turn, with->owners[player], player, drawn_mark(player) };
}

/* Some marks, each perhaps with another one at nearly the same time. */
static void plan_marks(uint32_t count) {
    for (; count > 0; count--) {
        uint32_t turn = 60 + below(700);
        plan_mark(turn);
        if (below(4) == 0)
            plan_mark(turn + below(4));
    }
}

/* One of three or more may stop, and a line break for a while, as long as all reach each other. */
static void is_drawn(uint32_t drawn, uint32_t turns) {
    chance = draws_of(drawn, STREAM);
    open_all(drawn_setup(drawn));
    plan_marks(1 + below(8));
    uint32_t machines = the->setup.machines, stopped = below(machines), stops_at = 70 + below(400);
    uint32_t one = below(machines), other = (one + 1 + below(machines - 1)) % machines;
    uint32_t breaks_at = 60 + below(400), heals_at = breaks_at + 20 + below(600);
    bool stops = machines >= 3 && below(3) == 0, breaks = machines >= (stops ? 4u : 3u) && below(2) == 0;
    for (uint32_t time = 0; time < turns; time++) {
        if (stops && time == stops_at)
            stop(stopped);
        cut(one, other, breaks && time >= breaks_at && time < heals_at);
        run(1);
    }
    run_to_the_end(30000);
}

static const scenario scenarios[] = {
    { "marks are refused", refuses_marks, { 0, 0, 0, 0 }, { 0, 0, 0, 0 }, EACH },
    { "closed handles", refuses_closed, { 0, 0, 0, 0 }, { 0, 0, 0, 0 }, EACH },
    { "openings with other terms are refused", refuses_terms, { 2, 2, 0, 0 }, { 3, 3, 0, 0 }, EACH },
    { "openings of other matches are refused", refuses_matches, { 0, 0, 0, 0 }, { 3, 3, 0, 0 }, EACH },
    { "a match without epochs", has_no_epochs, { 0, 0, 0, 0 }, { 0, 0, 0, 0 }, EACH },
    { "a match without epochs that carries", has_no_epochs, { 1, 1, 0, 0 }, { 0, 0, 0, 0 }, EACH },
    { "room for the epoch before", needs_room, { 0, 0, 0, 0 }, { 1, 1, 0, 0 }, EACH },
    { "frames begin anew", begins_anew, { 2, 5, 1, 3 }, { 0, 1, 1, 1 }, FEW },
    { "three epochs", many, { 3, 3, 0, 0 }, { 2, 5, 1, 3 }, EACH },
    { "thirty epochs", many, { 30, 30, 0, 0 }, { 3, 3, 0, 0 }, FEW },
    { "jobs are out", waits_for_jobs, { 2, 5, 1, 3 }, { 0, 2, 2, 2 }, FEW },
    { "a delay changes", changes_delay, { 0, MOST_DELAY, 2, 6 }, { 0, MOST_DELAY, 2, 6 }, FEW },
    { "the threshold changes", changes_threshold, { 2, 8, 2, 6 }, { 2, 8, 2, 6 }, FEW },
    { "two marks at once", two_at_once, { 0, 2, 2, 2 }, { 1, 1, 0, 0 }, EACH },
    { "a void delay", is_a_void_mark, { 9, 9, 0, 0 }, { 0, 0, 0, 0 }, FEW },
    { "a void threshold", is_a_void_mark, { 1, 1, 0, 0 }, { 9, 9, 0, 0 }, FEW },
    { "the delay of another's player", is_anothers_delay, { 0, 0, 0, 0 }, { 1, 1, 0, 0 }, FEW },
    { "more frames than a session has", goes_past_the_limit, { 7, 7, 0, 0 }, { 70, 70, 0, 0 }, FEW },
    { "inputs of two words", of_two_words, { 0, 0, 0, 0 }, { 2, 2, 0, 0 }, FEW },
    { "inputs of two words", of_two_words, { 3, 3, 0, 0 }, { 1, 1, 0, 0 }, FEW },
    { "a machine stops near a mark", stops_near, { 0, 8, 1, 1 }, { 0, 2 * AROUND, 1, 9 }, EACH },
    { "a machine stops near a mark and is stalled", stops_near_a_stall, { 1, 10, 1, 8 }, { 0, 2 * AROUND, 1, 1 }, FEW },
    { "a machine stops near a mark and is stalled", stops_near_a_stall, { 11, 60, 1, 15 }, { 0, 0, 0, 0 }, DRAWN },
    { "a machine stops as an epoch begins", stops_as_it_begins, { 0, 2 * AROUND, 1, 4 }, { 0, 5, 1, 5 }, FEW },
    { "a machine holds up a seam", holds_up_a_seam, { 0, 5, 1, 1 }, { 0, 4, 4, 4 }, FEW },
    { "a machine goes on late", goes_on_late, { 0, 2, 1, 1 }, { 0, 2000, 1000, 1000 }, FEW },
    { "who lacks words keeps the end", keeps_the_end, { 4, 8, 1, 4 }, { 8, 8, 0, 0 }, FEW },
    { "who lacks words keeps the end", keeps_the_end, { 4, 6, 1, 0 }, { 6, 7, 1, 0 }, FEW },
    { "who lacks words keeps the end", keeps_the_end, { 4, 4, 0, 0 }, { 4, 5, 1, 0 }, FEW },
    { "nothing comes from who puts a mark", is_unheard_at_a_seam, { 4, 40, 4, 12 }, { 2, 3, 1, 1 }, FEW },
    { "a line is broken", is_carried, { 0, 2, 1, 1 }, { 0, 3, 1, 0 }, FEW },
    { "a line breaks at a seam", breaks_at, { 0, 2 * AROUND, 2, 16 }, { 90, 90, 0, 0 }, FEW },
    { "a line that loses", is_lossy, { 0, 30, 10, 30 }, { 0, 3, 3, 3 }, EACH },
    { "tickets", is_a_ticket, { 0, 5, 1, 1 }, { 32, 32, 0, 0 }, FEW },
    { "a wrong ticket", has_wrong_ticket, { 0, WRONG_TICKETS - 1, 1, 1 }, { 2, 3, 1, 0 }, FEW },
    { "somebody never comes", never_comes, { 0, 3000, 1500, 1500 }, { 0, SOON, SOON, SOON }, FEW },
    { "somebody comes", comes, { 0, 280, 40, 140 }, { 0, SOON, SOON, SOON }, EACH },
    { "who comes gives no words", comes_mute, { 0, 1, 1, 1 }, { 0, 20, 20, 20 }, FEW },
    { "somebody comes in another's place", comes_in_place, { 1, 1, 0, 0 }, { 0, 2, 2, 2 }, FEW },
    { "somebody comes in another's place", comes_in_place, { 2, 2, 0, 0 }, { 0, 1, 1, 1 }, FEW },
    { "one leaves near a mark", leaves_near, { 0, 13, 1, 1 }, { 1, 2, 1, 1 }, FEW },
    { "one is put out", is_put_out, { 0, 10, 5, 5 }, { 0, 0, 0, 0 }, FEW },
    { "one means another match", means_another, { 0, 3, 1, 1 }, { 0, 1, 1, 1 }, FEW },
    { "who watches is told past the seam", is_told_past_the_seam, { 20, 40, 20, 20 }, { 0, 2, 1, 1 }, EACH },
    { "who begins to watch is told past the seam", is_told_past_the_seam, { 0, 0, 0, 0 }, { 0, 2, 1, 1 }, FEW },
    { "who stands at a seam", stands_at_no_seam, { 1, 6, 1, 3 }, { 2, 3, 1, 1 }, FEW },
    { "a world that was drawn", is_drawn, { 1, 60, 1, 15 }, { 1100, 1100, 0, 0 }, DRAWN },
};

static const scenario long_one = { "three long epochs", goes_past_the_limit, { 3, 3, 0, 0 }, { 400000, 400000, 0, 0 }, ALL };

int main(int count, char **words) {
    bool is_of_long = count > 1 && strcmp(words[1], "long") == 0;
    int status = is_of_long ? scenarios_play(&long_one, 1, 1, words)
                            : scenarios_play(scenarios, sizeof scenarios / sizeof *scenarios, count, words);
    end();
    return status;
}
