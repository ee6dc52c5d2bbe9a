/* Who comes into a match: players who come back after a crash, who come late, and who only watch (faz_rejoin.h). Of each case is looked
 * at: that who comes has the others' states, at each frame; that its words count; that nobody who is there is put out; and how many turns
 * it took. `coming COUNT` draws so many worlds: who stops when, who comes when, on which line; `coming times` says how long coming back
 * takes. */
#include "../sim/scenario.h"
#include "faz_rejoin.h"

#define COMERS 0x636f6d657273u

enum { PLACES = 5, STEPS = 16, STATE_HEAD = 16, MOST_STATE = 1 << 20, KEPT = 64, INPUT_DELAY = 2 };

typedef struct terms {
    setup setup;
    uint32_t size;    /* bytes of a state */
    uint32_t junk;    /* so many datagrams of a stranger come to each place in a turn */
    uint32_t unaware; /* this place doesn't know of the one behind the others, and has no line with it */
    bool is_lying;    /* place 0 gives another state than it has */
} terms;

/* A place is a machine of the world, at which a program runs or not. Place p has player p, if it has one, and is machine p at first. */
typedef struct place {
    faz_hosting hosting;
    faz_comer comer;
    bool is_alone;         /* nobody hosts the match into which it comes, or is there in the one into which it came */
    uint32_t begun, gave;  /* the turn in which its program was begun, and how many words it has given */
    uint32_t frames_stood; /* turns in which it was too far ahead for a word */
    uint32_t posted;       /* datagrams of its hosting */
} place;

static terms with;
static world *all;
static machine *at; /* that of each place */
static place places[PLACES];
static uint8_t bytes_of_state[MOST_STATE];

static bool plays(uint32_t one) { return at[one].is_open && at[one].is_running; }
static bool comes(uint32_t one) { return at[one].is_open && at[one].is_apart; }
static uint32_t epochs(uint32_t one) { return at[one].part_count - 1; }
static uint32_t desyncs(uint32_t one) { return world_told(all, one, FAZGROND_DESYNC, NOBODY); }
static uint32_t below(uint32_t count) { return world_draw(all, count); }
static uint32_t clock_of(const machine *self) { return world_clock(all, self->me); }
static uint32_t players_of(uint32_t one) { return one < with.setup.players ? 1u << one : 0; }

/* The number of the line between two places. */
static uint64_t number_of(uint32_t one, uint32_t other) {
    return 0x1234567890abcdefu + (one < other ? one * 16 + other : other * 16 + one);
}

/* ---- States in bytes. */

/* Those behind the digest and the frame follow from the digest. */
static void write_state(uint64_t digest, uint64_t frame) {
    memset(bytes_of_state, 0, with.size);
    memcpy(bytes_of_state, &digest, sizeof digest);
    memcpy(bytes_of_state + sizeof digest, &frame, sizeof frame);
    for (size_t byte = STATE_HEAD; byte < with.size; byte += 7)
        bytes_of_state[byte] = (uint8_t)((digest = digest * 6364136223846793005u + 1) >> 56);
}

/* A state has come, which has to be one of that frame: the match is viewed from there on. */
static void load(machine *self, const faz_comer *comer, const faz_next *next) {
    uint64_t digest = 0;
    if (next->length >= STATE_HEAD)
        memcpy(&digest, next->state, sizeof digest);
    write_state(digest, next->frame);
    machine_must(self, next->length == with.size && memcmp(bytes_of_state, next->state, with.size) == 0, "a state comes as another");
    states_begin(&self->states, &digest, next->frame);
    machine_begin_in(self, &comer->table.epoch);
    machine_must(self, self->settled == next->frame, "a state comes of another frame than that of its epoch");
}

/* ---- The program of a machine that plays: it hosts the match for all that come. */

static void send_by(void *of, uint32_t to, const uint8_t *bytes, size_t length) {
    machine *self = of;
    datagram sent = { .from = self->me, .to = to, .length = length };
    memcpy(sent.bytes, bytes, length);
    places[self->me].posted += !self->is_apart;
    world_post(all, &sent);
}

/* At which place each machine is, as its epoch has it. One that is no more in it was at its number's, so far as anything goes there. */
static void see_places(machine *self) {
    const fazgrond_epoch *epoch = machine_epoch(self);
    for (uint32_t other = 0; other < MACHINES; other++)
        self->places[other] = other;
    for (uint32_t player = 0; player < with.setup.players; player++)
        if (epoch->owners[player] < MACHINES)
            self->places[epoch->owners[player]] = player;
}

static void host(machine *self) {
    bool lies = with.is_lying && self->me == 0 && self->part_count > 1;
    see_places(self);
    write_state(machine_digest(self, machine_base(self)) + lies, machine_base(self));
    machine_must(self, faz_hosting_begin(&places[self->me].hosting, bytes_of_state, with.size) == FAZGROND_OK, "an epoch isn't hosted");
}

static void host_in_turn(machine *self) { faz_hosting_turn(&places[self->me].hosting, clock_of(self)); }

static uint32_t word(machine *self, uint32_t player, uint64_t frame) {
    (void)player, (void)frame;
    return (self->me + 1) << 24 | places[self->me].gave;
}

static void gave(machine *self, uint32_t player, uint32_t frame, uint32_t word, int32_t code) {
    (void)player, (void)frame, (void)word;
    places[self->me].gave += code == FAZGROND_OK;
    places[self->me].frames_stood += code == FAZGROND_PREDICTION_THRESHOLD;
}

static void heard(machine *self, const datagram *come, int32_t code) {
    if (code != FAZGROND_OK)
        faz_hosting_hear(&places[self->me].hosting, come->from, come->bytes, come->length, clock_of(self));
}

static void is_told(machine *self, const fazgrond_event *event) {
    uint32_t code = event->code;
    places[self->me].is_alone |= code == FAZGROND_MISSING;
    machine_must(self, code != FAZGROND_REFUSED && code != FAZGROND_MISMATCH && code != FAZGROND_DROPPED,
                 "who plays is refused, or dropped");
}

/* ---- The program of a machine that comes. */

static void hears(machine *self, const datagram *come) {
    if (self->is_apart)
        faz_comer_hear(&places[self->me].comer, come->from, come->bytes, come->length, clock_of(self));
}

/* It begins to play as a machine of an epoch, with the state that it has. */
static void begin_to_play(uint32_t one, uint32_t seat, const fazgrond_epoch *epoch, const void *state) {
    world_open_in(all, one, seat, epoch, state);
    places[one].hosting.me = seat;
    host(&at[one]);
}

static void come_in(machine *self, const faz_next *next) {
    uint64_t state = machine_digest(self, self->settled);
    machine_must(self, next->what == FAZ_IN && self->settled == next->epoch.base, "who comes is in before it has all rows");
    begin_to_play(self->me, next->me, &next->epoch, &state);
}

/* What its game is to do next; false if that is nothing, or if it is in. */
static bool do_next(machine *self, faz_comer *comer) {
    faz_next next = faz_comer_next(comer);
    if (next.what == FAZ_LOAD)
        load(self, comer, &next);
    else if (next.what == FAZ_STEP)
        machine_view(self, &comer->table.epoch, &next.row);
    else if (next.what != FAZ_NOTHING)
        come_in(self, &next);
    machine_must(self, next.what == FAZ_NOTHING || self->settled == next.frame, "who comes is at another frame than it is told");
    return next.what != FAZ_NOTHING && self->is_apart;
}

static void come(machine *self) {
    place *own = &places[self->me];
    own->is_alone = faz_comer_turn(&own->comer, clock_of(self)) == FAZGROND_NOTHING;
    for (uint32_t count = 0; count < STEPS && do_next(self, &own->comer); count++) {
    }
}

/* ---- Programs are begun, and stop. */

static const program hosting = { .apart = come,
                                 .word = word,
                                 .gave = gave,
                                 .hears = hears,
                                 .heard = heard,
                                 .has_polled = machine_hear_events,
                                 .begins = host,
                                 .plays = host_in_turn,
                                 .is_told = is_told };

static faz_seat seat_of(uint32_t one, uint32_t other) {
    bool is_known = other != one && (one != with.unaware || other != with.setup.machines);
    return (faz_seat){ is_known, number_of(one, other), fazgrond_ticket(COMERS, other), players_of(other), .is_heard = false };
}

/* It knows the seats of all other places. */
static void begin_program(uint32_t one) {
    place *own = &places[one];
    *own = (place){ .begun = all->turn };
    own->hosting = (faz_hosting){ .session = &at[one].session, .peer = &at[one].peer, .send = send_by, .of = &at[one] };
    own->comer = (faz_comer){ .players = players_of(one), .limit = MOST_STATE, .send = send_by, .of = &at[one] };
    own->hosting.digest = own->comer.digest = world_match(all, one, one).digest;
    own->hosting.random = draws_wide(&all->random);
    own->comer.random = draws_wide(&all->random);
    own->comer.machines = 31u & ~(1u << one);
    for (uint32_t other = 0; other < PLACES; other++) {
        own->hosting.seat[other] = seat_of(one, other);
        own->comer.numbers[other] = number_of(one, other);
    }
    faz_comer_begin(&own->comer);
}

static void begin_to_come(uint32_t one) {
    begin_program(one);
    world_begin_to_come(all, one);
}

static void stop(uint32_t one) {
    faz_hosting_close(&places[one].hosting);
    faz_comer_close(&places[one].comer);
    machine_close(&at[one]);
}

/* All places before one. */
static void stop_all(uint32_t before) {
    for (uint32_t one = 0; one < before; one++)
        stop(one);
}

/* What was sent a while ago, half of it with another byte. */
static datagram kept[KEPT];

static bool keep_sent(world *self, datagram *sent) {
    datagram *one = &kept[world_draw(self, KEPT)];
    *one = *sent;
    if (world_draw(self, 2) == 0)
        one->bytes[world_draw(self, (uint32_t)one->length)] ^= (uint8_t)(1 + world_draw(self, 255));
    return true;
}

static void send_junk(uint32_t to) {
    for (uint32_t count = 0; count < with.junk && at[to].is_open; count++) {
        const datagram *one = &kept[below(KEPT)];
        if (one->length > 0)
            world_send(all, one->from, to, one->bytes, one->length, 1);
    }
}

static void run(uint32_t turns) {
    for (; turns > 0; turns--) {
        for (uint32_t to = 0; to < PLACES; to++)
            send_junk(to);
        world_run_turns(all, 1);
    }
    is_well(all);
}

/* A program stops, and is begun again so many turns later. */
static void restart(uint32_t one, uint32_t after) {
    stop(one);
    run(after);
    begin_to_come(one);
}

static terms terms_for(uint32_t machines) {
    terms made = { .setup = even, .size = 65536, .unaware = NOBODY };
    made.setup.program = &hosting;
    made.setup.machines = made.setup.players = machines;
    made.setup.delay = 3;
    made.setup.silent_after = FAZGROND_SILENT_AFTER;
    made.setup.comers = COMERS;
    made.setup.tells_all = made.setup.has_owners = true;
    made.setup.seats = PLACES;
    return made;
}

static terms on_line(uint32_t machines, uint32_t latency, uint32_t loss) {
    terms made = terms_for(machines);
    made.setup.delay = latency;
    made.setup.loss = loss;
    return made;
}

/* A match begins, and goes on for so many turns. Players behind the machines are nobody's. */
static void begin(terms of, uint32_t turns) {
    if (all != NULL)
        stop_all(PLACES);
    of.setup.seed = 1 + of_case.one * 100 + of_case.two;
    for (uint32_t player = 0; player < FAZGROND_PLAYERS; player++) {
        bool is_player = player < of.setup.players;
        of.setup.owners[player] = player < of.setup.machines ? player : is_player ? FAZGROND_NOBODY : FAZGROND_NO_PLAYER;
        of.setup.delays[player] = is_player ? INPUT_DELAY : 0;
    }
    with = of;
    all = world_begin(&with.setup);
    at = all->machine;
    memset(kept, 0, sizeof kept);
    all->watcher = with.junk > 0 ? keep_sent : NULL;
    if (with.unaware != NOBODY)
        world_cut(all, with.unaware, with.setup.machines, true);
    fazgrond_epoch epoch = world_first_epoch(all);
    for (uint32_t one = 0; one < with.setup.machines; one++) {
        begin_program(one);
        begin_to_play(one, one, &epoch, NULL);
    }
    run(turns);
}

/* ---- What all have to agree on. */

/* One that plays has gone on since, and has the same rows and states as all others at the frames that both have settled. */
static void has_played(uint32_t one, uint64_t since) {
    MUST(at[one].settled >= since + 30);
    for (uint32_t other = 0; other < PLACES; other++)
        MUST(!at[other].is_open || world_agree(all, one, other, 0));
}

/* All that play agree, play on, and are `count`. */
static void all_play(uint32_t count) {
    uint32_t playing = 0;
    uint64_t settled[PLACES];
    for (uint32_t one = 0; one < PLACES; one++)
        settled[one] = at[one].settled;
    run(60);
    for (uint32_t one = 0; one < PLACES; one++)
        if (plays(one)) {
            has_played(one, settled[one]);
            playing++;
        }
    IS(playing, count);
}

/* Its words count: in the last settled row of another place its player isn't gone, and gives words. */
static void words_count(uint32_t one, uint32_t other) {
    const fazgrond_row *last = &machine_record(&at[other], at[other].settled - 1)->row;
    IS(last->gone >> one & 1, 0);
    IS(last->words[one] >> 24, one + 1);
    MUST((last->words[one] & 0xffffff) > 10);
}

static uint32_t turns_to_come(uint32_t one, uint32_t most) {
    for (uint32_t count = 0; count < most && !plays(one); count++)
        run(1);
    MUST(plays(one));
    return all->turn - places[one].begun;
}

/* It comes into a match in which then so many play. */
static uint32_t comes_into(uint32_t one, uint32_t most, uint32_t count) {
    uint32_t turns = turns_to_come(one, most);
    run(60);
    all_play(count);
    words_count(one, 0);
    return turns;
}

/* Who watches place 0 is shown what it plays, at most so many rows later. */
static void is_shown(uint32_t one, uint32_t rows) { MUST(comes(one) && at[one].settled + rows > at[0].settled); }

/* ---- Who comes back. */

/* The last of the machines stops after so many turns, and is begun again so many later. */
static uint32_t begin_again(terms of, uint32_t before, uint32_t after) {
    uint32_t one = of.setup.machines - 1;
    begin(of, before);
    all_play(of.setup.machines);
    restart(one, after);
    return one;
}

/* Who has come for so many turns. */
static uint32_t is_coming(uint32_t machines, uint32_t turns) {
    uint32_t one = begin_again(terms_for(machines), 140, 31);
    run(turns);
    return one;
}

static uint32_t come_back(terms of, uint32_t before, uint32_t after) {
    uint32_t one = begin_again(of, before, after);
    uint32_t turns = comes_into(one, 1000, of.setup.machines);
    IS(desyncs(0) + desyncs(one), 0);
    return turns;
}

static void comes_back(uint32_t machines, uint32_t after) { MUST(come_back(terms_for(machines), 200, after) < 150); }
static void comes_back_late(uint32_t machines, uint32_t after) { MUST(come_back(terms_for(machines), 1500, after) < 150); }
static void comes_back_on_a_bad_line(uint32_t machines, uint32_t loss) { (void)come_back(on_line(machines, 3, loss), 200, 31); }

/* Who came back on a line that loses much is heard, so that it stays, although what comes may not be enough to measure the line by. */
static void stays_on_a_bad_line(uint32_t draw, uint32_t loss) {
    (void)draw;
    (void)come_back(on_line(4, 5, loss), 200, 31);
    run(60);
    all_play(4);
}

static void comes_back_with_a_state(uint32_t size, uint32_t latency) {
    terms of = on_line(3, latency, 0);
    of.size = size;
    (void)come_back(of, 200, 31);
}

static void comes_back_under_junk(uint32_t machines, uint32_t junk) {
    terms of = terms_for(machines);
    of.junk = junk;
    (void)come_back(of, 200, 31);
}

static void comes_back_again(uint32_t machines, uint32_t times) {
    uint32_t one = machines - 1;
    begin(terms_for(machines), 200);
    for (; times > 0; times--) {
        restart(one, 20 + below(100));
        (void)turns_to_come(one, 1000);
        run(100);
    }
    all_play(machines);
    words_count(one, 0);
}

static void two_come_back(uint32_t machines, uint32_t after) {
    begin(terms_for(machines), 200);
    stop(machines - 1);
    stop(machines - 2);
    run(after);
    begin_to_come(machines - 1);
    run(below(20));
    begin_to_come(machines - 2);
    (void)turns_to_come(machines - 1, 2000);
    (void)comes_into(machines - 2, 2000, machines);
    words_count(machines - 1, 0);
}

/* Who comes stops in the middle, and is begun once more. */
static void is_begun_twice(uint32_t machines, uint32_t in_the_middle) {
    uint32_t one = is_coming(machines, in_the_middle);
    restart(one, 5);
    (void)comes_into(one, 2000, machines);
}

/* ---- Who comes late. */

/* A player comes whom nobody had from the beginning. */
static void come_late(terms of, uint32_t before, uint32_t most) {
    uint32_t one = of.setup.machines;
    of.setup.players = one + 1;
    begin(of, before);
    begin_to_come(one);
    MUST(comes_into(one, 1000, one + 1) < most);
    IS(desyncs(0) + desyncs(one), 0);
}

static void comes_late(uint32_t machines, uint32_t before) { come_late(terms_for(machines), before, UINT32_MAX); }

/* One of the machines was never told of who comes. Who may come is said by the ticket alone: that machine goes on as the others do, and
 * hears who came by those that carry. So two that play carry once they are three. */
static void comes_unknown_to(uint32_t machines, uint32_t unaware) {
    terms of = terms_for(machines);
    of.unaware = unaware;
    come_late(of, 100 + 450 * unaware, 400);
    words_count(machines, unaware);
    MUST(epochs(unaware) > 0);
    IS(desyncs(unaware), 0);
}

/* Who comes, and all others, know of these players of its. */
static void is_to_own(uint32_t one, uint32_t players) {
    places[one].comer.players = players;
    for (uint32_t other = 0; other < one; other++)
        places[other].hosting.seat[one].players = players;
}

/* Who watches becomes a player, once all know it. */
static void plays_after_all(uint32_t machines, uint32_t watched) {
    terms of = terms_for(machines);
    of.setup.players = machines + 1;
    begin(of, 100);
    begin_to_come(machines);
    is_to_own(machines, 0);
    run(watched);
    is_shown(machines, 30);
    is_to_own(machines, players_of(machines));
    (void)comes_into(machines, 1000, machines + 1);
}

/* ---- Those by whom one comes. */

/* The one that is followed stops in the middle. */
static void host_stops(uint32_t machines, uint32_t in_the_middle) {
    uint32_t one = is_coming(machines, in_the_middle);
    stop(comes(one) && places[one].comer.host < PLACES ? places[one].comer.host : 0);
    (void)turns_to_come(one, 2000);
    run(400); /* the others wait until it is silent for too long */
    all_play(machines - 1);
}

/* All the others stop in the middle: who comes is told that nobody hosts the match, or, if it is in already, that they aren't there. */
static void all_hosts_stop(uint32_t machines, uint32_t in_the_middle) {
    uint32_t one = is_coming(machines, in_the_middle);
    stop_all(one);
    run(400);
    MUST(places[one].is_alone || plays(one));
}

/* Of a machine that has come in, and in whose match nobody else is, nobody is told that the match runs. */
static void hosts_once_it_plays(uint32_t machines, uint32_t turns) {
    uint32_t one = is_coming(machines, turns);
    for (uint32_t count = 0; count < 1000 && comes(one); count++)
        run(1);
    MUST(!comes(one));
    stop_all(one);
    begin_to_come(0);
    run(250);
    MUST(!plays(one) && places[0].is_alone);
    IS(places[0].comer.host, FAZGROND_NO_MACHINE);
}

/* In so many turns each machine sends at most so many datagrams to seats. */
static void sends_to_seats(uint32_t machines, uint32_t turns, uint32_t most) {
    for (uint32_t one = 0; one < machines; one++)
        places[one].posted = 0;
    run(turns);
    for (uint32_t one = 0; one < machines; one++)
        MUST(places[one].posted <= most);
}

/* Beside a match into which nobody comes, and once somebody has come, nothing is sent to seats: whatever comes from their addresses. */
static void is_quiet(uint32_t machines, uint32_t junk) {
    terms of = terms_for(machines);
    of.junk = junk;
    begin(of, 0);
    sends_to_seats(machines, 150, 0);
    (void)come_back(of, 100, 31);
    run(100);
    sends_to_seats(machines, 150, junk * 150); /* what was recorded of a line has one answer */
}

/* A host that gives another state costs a try: who came by it is begun anew, and follows another one. */
static void host_lies(uint32_t machines, uint32_t after) {
    terms of = terms_for(machines);
    uint32_t one = machines - 1, avoided = FAZGROND_NO_MACHINE, tries = 0;
    of.is_lying = true;
    begin(of, 1000); /* so that an epoch has to end first, whose state is another one at the liar's */
    do {
        restart(one, tries == 0 ? after : 10);
        places[one].comer.avoided = avoided;
        (void)turns_to_come(one, 2000);
        run(200); /* another state is told once the first frame that differs is found */
        avoided = places[one].comer.host;
    } while (desyncs(one) > 0 && ++tries < 6);
    IS(desyncs(one), 0);
    all_play(machines);
    words_count(one, 1);
}

/* ---- Who watches. */

static void put_mark(uint32_t one) {
    fazgrond_mark mark = fazgrond_mark_for();
    OK(fazgrond_peer_mark(&at[one].peer, &at[one].session, (uint8_t)(one + 1), &mark));
}

/* Who only watches goes over seams. */
static void watches(uint32_t machines, uint32_t seams) {
    begin(terms_for(machines), 100);
    begin_to_come(machines);
    run(100);
    for (uint32_t count = 0; count < seams; count++) {
        put_mark(1);
        run(60 + below(60));
    }
    all_play(machines);
    MUST(epochs(0) >= seams);
    is_shown(machines, 60);
}

/* Place 2 watches place 0 of two from some frame of the match on. */
static void begin_to_watch(uint32_t loss, uint32_t size) {
    terms of = on_line(2, 3, loss);
    of.size = size;
    begin(of, 100);
    begin_to_come(2);
    places[2].comer.machines = 1;
    run(100);
    is_shown(2, 30);
}

/* It is shown all that the others play, and doesn't stand still for long. */
static void has_watched(void) {
    MUST(epochs(0) >= 2);
    is_shown(2, 40);
    all_play(2);
}

/* Two seams, so many turns apart: who watches goes on from the state there if it has to. */
static void watches_two_seams(uint32_t apart, uint32_t loss) {
    begin_to_watch(loss, 65536);
    put_mark(0);
    for (uint32_t count = 0; count < 1000 && epochs(0) == 0; count++)
        run(1);
    run(apart);
    put_mark(0);
    run(100);
    has_watched();
}

/* A player comes back, which takes two seams, and its machine has nobody beside it at the first one. Who watches is shown all frames. */
static void watches_who_comes_back(uint32_t after, uint32_t loss) {
    begin_to_watch(loss, 1000);
    uint64_t from = at[2].from;
    run(400);
    restart(1, after);
    (void)turns_to_come(1, 1000);
    run(100);
    has_watched();
    IS(at[2].from, from);
}

/* A mark is put, and the other machine stops before its words for that row have come. Once that is gone, the epoch ends. */
static void ends_once_who_stopped_is_gone(uint32_t machines, uint32_t turns) {
    begin(terms_for(machines), 100);
    put_mark(0);
    stop(machines - 1);
    run(turns);
    OK(fazgrond_peer_disconnect(&at[0].peer, (uint8_t)(machines - 1)));
    run(100);
    IS(epochs(0), 1);
}

/* ---- Worlds that are drawn: programs stop and come back, one or two at a time, on a line that may lose datagrams, under junk. */

static void stop_and_come_back(uint32_t machines) {
    uint32_t one = 1 + below(machines - 1), other = 1 + below(machines - 1);
    run(100 + below(500));
    stop(one);
    if (other != one && below(2) == 0)
        stop(other);
    run(below(500));
    begin_to_come(one);
    run(below(100));
    if (!at[other].is_open)
        begin_to_come(other);
    (void)turns_to_come(one, 3000);
    (void)turns_to_come(other, 3000);
    run(400);
    all_play(machines);
}

static void is_drawn(uint32_t number, uint32_t rounds) {
    draws random = draws_of(number, PLACES);
    uint32_t latency = 1 + draws_below(&random, 6), loss = draws_below(&random, 3) * 10;
    terms of = on_line(2 + number % 3, latency, loss);
    of.junk = draws_below(&random, 3);
    of.size = STATE_HEAD + draws_below(&random, 40000);
    begin(of, 0);
    for (; rounds > 0; rounds--)
        stop_and_come_back(of.setup.machines);
}

/* How long it takes from the second beginning of a program to its first frame, with a state of 64 KB, on a line of 50 ms each way. */
static void say_time(uint32_t machines, uint32_t after) {
    for (uint32_t before = 200; before <= 1500; before += 1300) {
        uint32_t turns = come_back(terms_for(machines), before, after);
        printf("%u machines, %.1f s after the crash, %.1f s into the match: back in %.2f s; the others stood for %u turns\n",
               (unsigned)machines, after * 0.016, before * 0.016, turns * 0.016, (unsigned)places[0].frames_stood);
    }
}

static const scenario times[] = { { "times", say_time, { 2, 4, 1, 1 }, { 31, 625, 594, 594 }, ALL } };

static const scenario scenarios[] = {
    { "comes back", comes_back, { 2, 4, 1, 0 }, { 31, 625, 594, 594 }, FEW },
    { "comes back late", comes_back_late, { 2, 4, 1, 0 }, { 31, 31, 0, 0 }, FEW },
    { "comes late", comes_late, { 2, 4, 1, 0 }, { 100, 1000, 900, 0 }, FEW },
    { "comes back again", comes_back_again, { 2, 4, 1, 0 }, { 3, 3, 0, 0 }, FEW },
    { "watches", watches, { 2, 4, 1, 0 }, { 3, 3, 0, 0 }, FEW },
    { "ends once who stopped is gone", ends_once_who_stopped_is_gone, { 2, 4, 1, 0 }, { 1, 21, 4, 4 }, FEW },
    { "plays after all", plays_after_all, { 2, 4, 1, 0 }, { 200, 200, 0, 0 }, FEW },
    { "hosts once it plays", hosts_once_it_plays, { 2, 4, 1, 0 }, { 0, 0, 0, 0 }, FEW },
    { "all hosts stop", all_hosts_stop, { 2, 4, 1, 0 }, { 1, 79, 20, 40 }, FEW },
    { "is quiet", is_quiet, { 2, 4, 1, 0 }, { 0, 2, 2, 2 }, FEW },
    { "comes back on a bad line", comes_back_on_a_bad_line, { 2, 4, 1, 0 }, { 10, 30, 10, 0 }, ALL },
    { "comes back under junk", comes_back_under_junk, { 2, 4, 1, 0 }, { 3, 3, 0, 0 }, ALL },
    { "is begun twice", is_begun_twice, { 2, 4, 1, 0 }, { 1, 79, 6, 0 }, ALL },
    { "stays on a bad line", stays_on_a_bad_line, { 1, 10, 1, 8 }, { 30, 30, 0, 0 }, FEW },
    { "watches two seams", watches_two_seams, { 1, 17, 2, 9 }, { 0, 20, 10, 10 }, FEW },
    { "watches who comes back", watches_who_comes_back, { 1, 81, 12, 48 }, { 0, 20, 10, 10 }, FEW },
    { "one of two doesn't know who comes", comes_unknown_to, { 2, 2, 0, 0 }, { 0, 1, 1, 1 }, FEW },
    { "one of three doesn't know who comes", comes_unknown_to, { 3, 3, 0, 0 }, { 0, 2, 1, 1 }, FEW },
    { "two come back", two_come_back, { 3, 4, 1, 0 }, { 31, 400, 369, 0 }, ALL },
    { "the host lies", host_lies, { 3, 4, 1, 0 }, { 31, 31, 0, 0 }, ALL },
    { "the host stops", host_stops, { 3, 4, 1, 0 }, { 4, 99, 8, 0 }, ALL },
    { "comes back with a small state", comes_back_with_a_state, { STATE_HEAD, STATE_HEAD, 0, 0 }, { 1, 1, 0, 0 }, ALL },
    { "comes back with a piece, or a byte more", comes_back_with_a_state, { 1024, 1025, 1, 0 }, { 2, 2, 0, 0 }, ALL },
    { "comes back with a great state", comes_back_with_a_state, { MOST_STATE, MOST_STATE, 0, 0 }, { 6, 6, 0, 0 }, ALL },
    { "a world", is_drawn, { 1, 0, 1, 1 }, { 4, 4, 0, 0 }, DRAWN },
};

int main(int count, char **words) {
    bool says_times = count > 1 && strcmp(words[1], "times") == 0;
    int status = says_times ? scenarios_play(times, 1, 1, words)
                            : scenarios_play(scenarios, sizeof scenarios / sizeof *scenarios, count, words);
    if (all != NULL) {
        stop_all(PLACES);
        world_end(all);
    }
    return status;
}
