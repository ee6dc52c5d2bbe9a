/* Machines that carry for each other: what the calls refuse, and matches of three and four whose lines break, both ways or one, with words
 * held back and not, with old plays that come again, and with memory refused at each place. Nobody may be gone, and all have to come to
 * the state of the game that is run once over all words. */
#include "../sim/memory.h"
#include "../sim/scenario.h"

enum { FRAMES = 400, BEFORE = 80, FRAMES_WITHOUT_MEMORY = 60, PLACES = 24 };

/* ---- A match in which what is sent in one turn arrives in the next. */

static setup match_of(uint32_t machines, uint32_t held_turns) {
    setup with = even;
    with.machines = machines;
    with.held_turns = held_turns;
    with.delay = 1;
    with.lasts = false;
    with.carries = true;
    with.limit = with.last_frame = FRAMES;
    return with;
}

static world *opened(const setup *with) {
    memory_refuse(0);
    world *self = world_begin(with);
    world_open_all(self);
    return self;
}

/* A match runs from the turn on in which that is told. */
static world *begun(const setup *with) {
    world *self = opened(with);
    for (uint32_t turn = 0; turn < BEFORE; turn++) {
        world_run_turns(self, 1);
        for (uint32_t who = 0; who < with->machines; who++)
            IS(self->machine[who].is_running, world_told(self, who, FAZGROND_RUNNING, NOBODY));
    }
    return self;
}

static void end(world *self) {
    is_well(self);
    for (uint32_t who = 0; who < self->setup.machines; who++)
        IS(world_told(self, who, FAZGROND_DESYNC, NOBODY) + world_told(self, who, FAZGROND_REFUSED, NOBODY), 0);
    world_end(self);
    IS(library_memory.blocks, 0);
}

/* How often a machine was told that somebody is gone, or it. */
static uint32_t gone(const world *self, uint32_t who) {
    return world_told(self, who, FAZGROND_LEFT, NOBODY) + world_told(self, who, FAZGROND_DISCONNECTED, NOBODY)
        + world_told(self, who, FAZGROND_DROPPED, NOBODY) + world_told(self, who, FAZGROND_CUT_OFF, NOBODY);
}

/* To the last frame, in so many turns at most: nobody is gone, and each has the state of the game that was run once. */
static void ends_whole(world *self, uint32_t turns) {
    uint32_t frames = self->setup.limit;
    bool is_over = world_play(self, frames, turns * self->setup.turn / MILLISECOND);
    is_well(self);
    MUST(is_over);
    for (uint32_t who = 0; who < self->setup.machines; who++) {
        const machine *at = &self->machine[who];
        IS(gone(self, who), 0);
        MUST(world_is_serial(self, who, frames));
        IS(world_state(at), machine_digest(at, frames));
    }
}

/* ---- Lines that break. */

typedef struct line {
    uint32_t machines, held_turns, one, other;
    bool is_both;
} line;

/* A line breaks in the middle of a match, for longer than the time of silence, and heals. */
static void breaks(uint32_t which, uint32_t none) {
    static const line lines[] = {
        { 3, 0, 0, 1, true }, { 3, 0, 1, 2, false }, { 3, 2, 0, 1, true }, { 3, 2, 2, 0, false }, { 4, 0, 1, 3, true }
    };
    (void)none;
    const line *of = &lines[which];
    setup with = match_of(of->machines, of->held_turns);
    world *self = begun(&with);
    self->is_cut[of->one][of->other] = true;
    self->is_cut[of->other][of->one] = of->is_both;
    world_run_turns(self, 200);
    world_cut(self, of->one, of->other, false);
    ends_whole(self, 1000);
    MUST(self->machine[0].more > 0);
    end(self);
}

/* The same, for good, up to the end. */
static void breaks_for_good(uint32_t held_turns, uint32_t one) {
    setup with = match_of(3, held_turns);
    world *self = begun(&with);
    world_cut(self, one, 2, true);
    ends_whole(self, 2000);
    end(self);
}

/* Of four, those of a chain hear each other alone: 0 - 1 - 2 - 3. */
static void chain(uint32_t held_turns, uint32_t machines) {
    setup with = match_of(machines, held_turns);
    world *self = begun(&with);
    world_cut(self, 0, 2, true);
    world_cut(self, 0, 3, true);
    world_cut(self, 1, 3, true);
    ends_whole(self, 2000);
    end(self);
}

/* ---- Old plays. */

/* Keeps the last play that each sends each. */
static bool keeps_plays(world *self, datagram *sent) {
    enum { SENDER = 12, KIND = 13, PLAY = 1 };
    datagram(*kept)[MACHINES] = self->watchers;
    if (sent->bytes[SENDER] == sent->from && sent->bytes[KIND] == PLAY)
        kept[sent->from][sent->to] = *sent;
    return true;
}

static void send_again(world *self, const datagram *kept) { world_send(self, kept->from, kept->to, kept->bytes, kept->length, 0); }

/* Whoever holds a line back has kept one play each way, and sends it again and again. By that nobody hears the other one. */
static void is_copied(uint32_t every, uint32_t machines) {
    datagram kept[MACHINES][MACHINES] = { 0 };
    setup with = match_of(machines, 0);
    world *self = begun(&with);
    self->watcher = keeps_plays;
    self->watchers = kept;
    world_run_turns(self, 1);
    self->watcher = NULL;
    MUST(kept[0][1].length > 0 && kept[1][0].length > 0);
    world_cut(self, 0, 1, true);
    for (uint32_t time = 0; time < 200; time++) {
        world_run_turns(self, 1);
        if (time % every == 0) {
            send_again(self, &kept[0][1]);
            send_again(self, &kept[1][0]);
        }
    }
    ends_whole(self, 1000);
    end(self);
}

/* ---- Who doesn't carry, and who leaves. */

/* Without anybody who carries the same line puts one out of the two, or tells it that it is cut off: the scenario sees it. */
static void is_not_carried(uint32_t one, uint32_t machines) {
    setup with = match_of(machines, 0);
    with.carries = false;
    world *self = begun(&with);
    world_cut(self, one, 1, true);
    world_run_turns(self, 200);
    uint32_t told = 0;
    for (uint32_t who = 0; who < machines; who++) {
        told += gone(self, who);
        IS(self->machine[who].more, 0);
    }
    MUST(told > 0);
    end(self);
}

/* One was opened by fazgrond_peer_open, as a program of an earlier version: it plays on beside others that carry. */
static void one_does_not(uint32_t which, uint32_t machines) {
    setup with = match_of(machines, 0);
    world *self = world_begin(&with);
    for (uint32_t who = 0; who < machines; who++) {
        self->setup.carries = who != which;
        world_open(self, who);
    }
    ends_whole(self, 1000);
    IS(self->machine[which].more, 0);
    end(self);
}

/* Who leaves says so to a machine that it can't reach, too. */
static void leaves(uint32_t one, uint32_t machines) {
    uint32_t other = 3 - one;
    setup with = match_of(machines, 0);
    world *self = begun(&with);
    world_cut(self, 0, one, true);
    world_run_turns(self, 60);
    for (uint32_t time = 0; time < 3; time++)
        IS(world_say_bye(self, 0, 1), 2);
    self->is_cut[0][other] = true; /* from here on nothing of it comes */
    world_run_turns(self, 10);
    IS(world_told(self, one, FAZGROND_LEFT, 0), 1);
    IS(world_told(self, other, FAZGROND_LEFT, 0), 1);
    end(self);
}

/* ---- Two machines. */

/* Of two, fazgrond_peer_open_carrying opens what fazgrond_peer_open does: each sends the same. */
static void two_machines(uint32_t held_turns, uint32_t machines) {
    static uint8_t bytes[2][FAZGROND_DATAGRAM];
    size_t length[2];
    fazgrond_peer other = FAZGROND_CLOSED;
    fazgrond_session session = FAZGROND_CLOSED;
    setup with = match_of(machines, held_turns);
    world *self = opened(&with);
    machine *at = &self->machine[0];
    fazgrond_match match = world_match(self, 0, 0);
    fazgrond_settings settings = world_settings(self, 0);
    OK(fazgrond_open(&session, &settings));
    OK(fazgrond_peer_open(&other, &session, &match));
    OK(fazgrond_peer_send(&at->peer, &at->session, 1, 0, bytes[0], FAZGROND_DATAGRAM, &length[0]));
    OK(fazgrond_peer_send(&other, &session, 1, 0, bytes[1], FAZGROND_DATAGRAM, &length[1]));
    IS(length[0], length[1]);
    IS(bytes[0][length[0] - 1], 1); /* it says that it carries, since two may become more, and that is all */
    IS(bytes[1][length[1] - 1], 0);
    fazgrond_peer_close(&other);
    fazgrond_close(&session);
    ends_whole(self, 1000);
    IS(at->more + self->machine[1].more, 0);
    end(self);
}

/* ---- Refusals. */

static void refuses_to_open(world *self) {
    fazgrond_peer peer = FAZGROND_CLOSED;
    fazgrond_session closed = FAZGROND_CLOSED, *session = &self->machine[0].session;
    fazgrond_match match = world_match(self, 0, 0);
    IS(fazgrond_peer_open_carrying(&peer, &closed, &match), FAZGROND_IS_CLOSED);
    match.size--;
    IS(fazgrond_peer_open_carrying(&peer, session, &match), FAZGROND_OTHER_VERSION);
    match = world_match(self, 0, 3);
    IS(fazgrond_peer_open_carrying(&peer, session, &match), FAZGROND_INVALID_MACHINE);
    match = world_match(self, 0, 1);
    IS(fazgrond_peer_open_carrying(&peer, session, &match), FAZGROND_INVALID_PLAYER);
}

/* In one turn of some there is a map to send: without room for it nothing is written. */
static void refuses_without_room(world *self) {
    static uint8_t bytes[FAZGROND_DATAGRAM], before[FAZGROND_DATAGRAM];
    size_t length = 77;
    uint8_t seat = 55;
    machine *at = &self->machine[0];
    memset(bytes, 3, sizeof bytes);
    memcpy(before, bytes, sizeof bytes);
    for (uint32_t turn = 0; turn < 16 && seat == 55; turn++, self->now += self->setup.turn) {
        OK(fazgrond_peer_poll(&at->peer, &at->session, world_clock(self, 0)));
        IS(fazgrond_peer_send_more(&at->peer, &seat, bytes, FAZGROND_DATAGRAM - 1, &length), FAZGROND_TOO_SHORT);
        IS(seat, 55);
        IS(length, 77);
        IS(memcmp(bytes, before, sizeof bytes), 0);
        if (fazgrond_peer_send_more(&at->peer, &seat, bytes, sizeof bytes, &length) == FAZGROND_NOTHING)
            IS(length, 77);
    }
    MUST((seat == 1 || seat == 2) && length != 77);
}

static void refuses(uint32_t held_turns, uint32_t machines) {
    uint8_t bytes[FAZGROND_DATAGRAM], seat = 55;
    size_t length = 77;
    fazgrond_peer closed = FAZGROND_CLOSED;
    setup with = match_of(machines, held_turns);
    world *self = opened(&with);
    machine *at = &self->machine[0];
    IS(fazgrond_peer_send_more(&closed, &seat, bytes, sizeof bytes, &length), FAZGROND_IS_CLOSED);
    IS(fazgrond_peer_send_more((fazgrond_peer *)&at->session, &seat, bytes, sizeof bytes, &length), FAZGROND_IS_CLOSED);
    IS(fazgrond_peer_send_more(&at->peer, &seat, bytes, sizeof bytes, &length), FAZGROND_NOTHING);
    IS(seat + length, 132);
    refuses_to_open(self);
    world_run_turns(self, BEFORE);
    refuses_without_room(self);
    end(self);
}

/* ---- Memory that is refused. */

/* Each allocation of an opening in turn: then nothing is opened, the handle is what it was, and nothing stays behind. */
static void opens_without_memory(uint32_t held_turns, uint32_t machines) {
    setup with = match_of(machines, held_turns);
    world *self = opened(&with);
    fazgrond_match match = world_match(self, 0, 0);
    int32_t code = FAZGROND_NO_MEMORY;
    uint32_t places = 0;
    for (; code == FAZGROND_NO_MEMORY; places++) {
        fazgrond_peer peer = FAZGROND_CLOSED;
        memory before = library_memory;
        memory_refuse(places + 1);
        code = fazgrond_peer_open_carrying(&peer, &self->machine[0].session, &match);
        memory_refuse(0);
        IS(peer.full, code == FAZGROND_OK);
        MUST(code == FAZGROND_OK || library_memory.blocks == before.blocks);
        fazgrond_peer_close(&peer);
        IS(library_memory.blocks, before.blocks);
        IS(library_memory.bytes, before.bytes);
    }
    OK(code);
    MUST(places > 2); /* the peer, what it carries, and the handle's own */
    end(self);
}

/* Each allocation of a match in turn: what was refused is tried again in a later turn, and all come to the same. */
static void plays_without_memory(uint32_t place, uint32_t held_turns) {
    setup with = match_of(3, held_turns);
    with.limit = with.last_frame = FRAMES_WITHOUT_MEMORY;
    with.lacks_memory = true;
    world *self = opened(&with);
    world_run_turns(self, 20);
    memory_refuse(place);
    world_cut(self, 0, 1, true);
    ends_whole(self, 400);
    MUST(library_memory.asked > PLACES / 2 && library_memory.asked < PLACES); /* there are no more */
    end(self);
}

static const scenario scenarios[] = {
    { "what is refused", refuses, { 0, 2, 2, 0 }, { 3, 3, 1, 1 }, FEW },
    { "a line breaks, and heals", breaks, { 0, 4, 1, 1 }, { 0 }, FEW },
    { "an old play comes again on a broken line", is_copied, { 1, 13, 4, 0 }, { 3, 4, 1, 1 }, FEW },
    { "a line breaks for good", breaks_for_good, { 0, 2, 2, 2 }, { 0, 1, 1, 0 }, FEW },
    { "a chain of four", chain, { 0, 2, 2, 2 }, { 4, 4, 1, 1 }, FEW },
    { "nobody carries", is_not_carried, { 0, 2, 2, 0 }, { 3, 4, 1, 0 }, FEW },
    { "one doesn't carry", one_does_not, { 0, 2, 1, 0 }, { 3, 4, 1, 0 }, FEW },
    { "a bye is carried", leaves, { 1, 2, 1, 0 }, { 3, 3, 1, 1 }, FEW },
    { "two machines", two_machines, { 0, 2, 2, 0 }, { 2, 2, 1, 1 }, FEW },
    { "an opening without memory", opens_without_memory, { 0, 2, 2, 0 }, { 3, 4, 1, 0 }, FEW },
    { "a match without memory", plays_without_memory, { 1, PLACES, 1, 12 }, { 0, 2, 2, 2 }, FEW },
};

int main(int count, char **words) { return scenarios_play(scenarios, sizeof scenarios / sizeof *scenarios, count, words); }
