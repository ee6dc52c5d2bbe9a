/* Machines of a match into which players come back, in one process: over a wire in memory, and by a clock of the test's own, so that
 * minutes pass in no time. Whoever is begun again plays on, or is told why it doesn't, also if the others stop, leave or are begun again
 * while it comes. It prints nothing if all is right. `coming_back COUNT` draws so many matches: who stops when, and who is begun again. */
#define _POSIX_C_SOURCE 200809L
#define CHECKS_OF "%s (%d, %d) at %d ms", of_what, of_one, of_two, now
#include "../../check.h"

#include <fazgrond.h>
#include <ggponet.h>
#include <stdio.h>
#include <stdlib.h>
#include <string.h>
#include <time.h>

enum { MACHINES = 3, WAITING = 4096, MOST = 8192, LATENCY = 40, TURN = 16, SECOND = 1000, TIMEOUT = 3 * SECOND, NUMBER = 7 };

static const char *of_what = "";
static int of_one, of_two, now; /* milliseconds */

typedef struct datagram {
    int from, to, due, length;
    unsigned char bytes[FAZGROND_DATAGRAM];
} datagram;

static datagram list[WAITING];
static int waiting;

typedef struct state {
    int frame;
    unsigned number;
} state;

static struct program {
    state now;
    unsigned at[MOST]; /* the number at each frame, as it was played last */
    int sent, buffers, is_running, epochs, came, missing, strangers, left, gone;
    int inputs;   /* that were taken */
    bool is_cut;  /* what it sends is lost */
    bool is_over; /* the match is, for this machine */
    GGPOSession *session;
} programs[MACHINES];

/* The one of whom a call is being made: GGPO's callbacks aren't told. */
static struct program *game;
static int machines, turn_time, loss;

/* In the place of the system's clock. */
int clock_gettime(clockid_t clock, struct timespec *time);
int clock_gettime(clockid_t clock, struct timespec *time) {
    (void)clock;
    *time = (struct timespec){ 1 + now / SECOND, now % SECOND * 1000000L };
    return 0;
}

static unsigned long long number;

static int drawn(int below) {
    number = number * 6364136223846793005u + 1442695040888963407u;
    return (int)((number >> 33) % (unsigned)below);
}

/* ---- the wire */

static void on_send(void *wire, GGPOPlayerHandle to, const unsigned char *bytes, int length) {
    struct program *of = wire;
    of->sent += to == 1 + (of == &programs[0]); /* to the lowest of the others */
    if (of->is_cut || programs[to - 1].session == NULL || drawn(100) < loss)
        return;
    MUST(waiting < WAITING);
    datagram *sent = &list[waiting++];
    *sent = (datagram){ .from = (int)(of - programs), .to = to - 1, .due = now + LATENCY, .length = length };
    memcpy(sent->bytes, bytes, (size_t)length);
}

static bool on_receive(void *wire, GGPOPlayerHandle *from, unsigned char *bytes, int room, int *length) {
    struct program *of = wire;
    for (int at = 0; at < waiting; at++) {
        datagram *one = &list[at];
        if (one->to != of - programs || one->due > now)
            continue;
        MUST(one->length <= room);
        *from = one->from + 1;
        *length = one->length;
        memcpy(bytes, one->bytes, (size_t)one->length);
        memmove(one, one + 1, (size_t)(--waiting - at) * sizeof *one);
        return true;
    }
    return false;
}

/* ---- the game */

static unsigned char input_of(int player, int frame) {
    return (unsigned char)((unsigned)(frame / (player + 1) * 7 + player) * 2654435761u >> 24);
}

static void note(void) { game->at[game->now.frame % MOST] = game->now.number; }

static void step(const unsigned char *inputs, int gone) {
    for (int at = 0; at < machines; at++)
        game->now.number = game->now.number * 31 + ((gone >> at & 1) != 0 ? 99 : inputs[at]);
    game->now.frame++;
    note();
}

static bool on_save(unsigned char **buffer, int *len, int *checksum, int frame) {
    MUST(frame == game->now.frame);
    *buffer = malloc(sizeof(state));
    MUST(*buffer != NULL);
    memcpy(*buffer, &game->now, sizeof(state));
    *len = sizeof(state);
    *checksum = (int)game->now.number;
    game->buffers++;
    return true;
}

static bool on_load(unsigned char *buffer, int len) {
    MUST(len == sizeof(state));
    memcpy(&game->now, buffer, sizeof(state));
    note();
    return true;
}

static void on_free(void *buffer) {
    free(buffer);
    game->buffers--;
}

static bool on_advance(int flags) {
    unsigned char inputs[MACHINES];
    int gone;
    MUST(flags == 0 && ggpo_synchronize_input(game->session, inputs, sizeof inputs, &gone) == GGPO_OK);
    step(inputs, gone);
    return ggpo_advance_frame(game->session) == GGPO_OK;
}

static bool on_event(GGPOEvent *info) {
    MUST(info->code != FAZGGPO_EVENTCODE_DESYNC);
    game->is_over |= info->code == FAZGGPO_EVENTCODE_DROPPED;
    game->is_running += info->code == GGPO_EVENTCODE_RUNNING;
    game->epochs += info->code == FAZGGPO_EVENTCODE_EPOCH;
    game->came |= info->code == FAZGGPO_EVENTCODE_EPOCH ? info->u.epoch.came : 0;
    game->left += info->code == FAZGGPO_EVENTCODE_MACHINE_LEFT;
    game->gone += info->code == GGPO_EVENTCODE_DISCONNECTED_FROM_PEER;
    game->missing += info->code == FAZGGPO_EVENTCODE_MISSING;
    game->strangers += info->code == FAZGGPO_EVENTCODE_STRANGERS ? info->u.strangers.count : 0;
    return true;
}

static GGPOSessionCallbacks calls = {
    .save_game_state = on_save, .load_game_state = on_load, .free_buffer = on_free, .advance_frame = on_advance, .on_event = on_event
};

/* ---- programs */

static void start(int me) {
    game = &programs[me];
    FazggpoWire wire = { game, on_send, on_receive };
    memset(game, 0, sizeof *game);
    MUST(ggpo_start_session(&game->session, &calls, "coming back", machines, 1, 0) == GGPO_OK);
    MUST(fazggpo_set_wire(game->session, &wire) == GGPO_OK && ggpo_set_disconnect_timeout(game->session, TIMEOUT) == GGPO_OK);
    for (int player = 0; player < machines; player++) {
        GGPOPlayer added = { .size = sizeof added,
                             .type = player == me ? GGPO_PLAYERTYPE_LOCAL : GGPO_PLAYERTYPE_REMOTE,
                             .player_num = player + 1 };
        GGPOPlayerHandle handle;
        memcpy(added.u.remote.ip_address, "240.0.0.1", sizeof "240.0.0.1");
        added.u.remote.port = (unsigned short)(1 + player);
        MUST(ggpo_add_player(game->session, &added, &handle) == GGPO_OK);
    }
}

static void begin(int me) {
    start(me);
    MUST(fazggpo_rejoin(game->session) == GGPO_OK && fazggpo_tell_missing(game->session) == GGPO_OK);
}

static void leave(int me) {
    game = &programs[me];
    if (game->session == NULL)
        return;
    MUST(ggpo_close_session(game->session) == GGPO_OK && game->buffers == 0);
    game->session = NULL;
}

/* Its program ends without a word. */
static void stop(int me) {
    programs[me].is_cut = true;
    leave(me);
}

static void turn(int me) {
    unsigned char input, inputs[MACHINES];
    int gone;
    game = &programs[me];
    if (game->session == NULL)
        return;
    input = input_of(me, game->now.frame);
    GGPOErrorCode code = ggpo_add_local_input(game->session, me + 1, &input, 1);
    MUST(code == GGPO_OK || code == GGPO_ERRORCODE_PREDICTION_THRESHOLD || code == GGPO_ERRORCODE_NOT_SYNCHRONIZED);
    if (code == GGPO_OK) {
        game->inputs++;
        MUST(ggpo_synchronize_input(game->session, inputs, sizeof inputs, &gone) == GGPO_OK);
        step(inputs, gone);
        MUST(ggpo_advance_frame(game->session) == GGPO_OK);
    }
    MUST(ggpo_idle(game->session, 0) == GGPO_OK);
    if (game->is_over) {
        leave(me);
        begin(me);
    }
}

static void run(int milliseconds) {
    for (int end = now + milliseconds; now < end; now += turn_time)
        for (int me = 0; me < machines; me++)
            turn(me);
}

static void open_world(int count) {
    machines = count;
    turn_time = TURN;
    waiting = loss = 0;
    for (int me = 0; me < count; me++)
        begin(me);
}

/* The first machine is begun again a second after it has stopped. */
static void begin_again(void) {
    run(3 * SECOND);
    stop(0);
    run(SECOND);
    begin(0);
}

static void close_world(void) {
    for (int me = 0; me < machines; me++)
        leave(me);
}

static int settled(int me) {
    int frame = 0;
    return fazggpo_get_settled(programs[me].session, &frame) == GGPO_OK ? frame : 0;
}

/* All were given the same for a frame, and came to the same by it. */
static void is_alike(int frame) {
    unsigned char inputs[MACHINES], others[MACHINES];
    int gone, others_gone;
    MUST(fazggpo_get_settled_input(programs[0].session, frame, inputs, sizeof inputs, &gone) == GGPO_OK);
    for (int me = 1; me < machines; me++) {
        MUST(fazggpo_get_settled_input(programs[me].session, frame, others, sizeof others, &others_gone) == GGPO_OK);
        MUST(memcmp(inputs, others, (size_t)machines) == 0 && gone == others_gone);
        MUST(programs[me].at[(frame + 1) % MOST] == programs[0].at[(frame + 1) % MOST]);
    }
}

/* Whether all play on, and alike. */
static bool all_play(void) {
    int frames[MACHINES], least = MOST, from = 0, first;
    for (int me = 0; me < machines; me++)
        frames[me] = settled(me);
    run(SECOND);
    for (int me = 0; me < machines; me++) {
        if (settled(me) < frames[me] + 30 || fazggpo_get_settled_from(programs[me].session, &first) != GGPO_OK)
            return false;
        from = first > from ? first : from;
        least = settled(me) < least ? settled(me) : least;
    }
    for (int frame = from; frame < least; frame++)
        is_alike(frame);
    return least > from;
}

static void play_within(int seconds) {
    for (; seconds > 0 && !all_play(); seconds--)
        ;
    MUST(seconds > 0);
}

/* Runs what is tried, of which the numbers are told if it fails. */
static void tries(const char *what, void (*try)(int, int), int one, int two) {
    of_what = what;
    of_one = one;
    of_two = two;
    try(one, two);
    close_world();
}

/* ---- what is tried */

/* Of two machines the first is begun again, and the second stops while it comes, and is begun again too. */
static void host_is_begun_again(int after, int away) {
    open_world(2);
    begin_again();
    run(after);
    stop(1);
    run(away);
    begin(1);
    play_within(15);
}

/* The second leaves while the first comes, with a word or without, and isn't begun again. The first is told, or plays on alone if it has
 * been in. */
static void host_goes(int after, int says_bye) {
    open_world(2);
    begin_again();
    run(after);
    if (says_bye != 0)
        leave(1);
    else
        stop(1);
    run(15 * SECOND);
    MUST(programs[0].missing > 0 || programs[0].left > 0);
    begin(1);
    play_within(15);
}

/* All three stop, one after the other, and each is begun again a while later. */
static void all_are_begun_again(int apart, int away) {
    open_world(3);
    run(3 * SECOND);
    for (int time = 0; time <= 2 * apart + away; time += 100, run(100))
        for (int me = 0; me < MACHINES; me++)
            if (time == me * apart)
                stop(me);
            else if (time == me * apart + away)
                begin(me);
    play_within(20);
}

/* Nothing of what a guest sends comes for a while from when the other has it in the match: it is given up, and comes in again. */
static void guest_is_unheard(int how_long, int lost) {
    open_world(2);
    begin_again();
    while (programs[1].came == 0)
        run(turn_time);
    programs[0].is_cut = true;
    run(how_long);
    programs[0].is_cut = false;
    loss = lost;
    play_within(15);
}

/* Programs stop, leave and are begun again at any time, on a line that may lose datagrams. */
static void is_drawn(int count, int seed) {
    number = (unsigned long long)seed;
    open_world(count);
    loss = drawn(3) * 5;
    run(3 * SECOND);
    for (int steps = 3 + drawn(5); steps > 0; steps--, run(drawn(2 * SECOND))) {
        int me = drawn(count);
        if (programs[me].session == NULL)
            begin(me);
        else if (drawn(4) == 0)
            leave(me);
        else
            stop(me);
    }
    for (int me = 0; me < count; me++)
        if (programs[me].session == NULL)
            begin(me);
    play_within(60);
}

/* Nobody plays the last player at first, of which no event tells; that it comes and goes is told. */
static void one_is_vacant(int count, int comes) {
    open_world(count - 1);
    machines = count;
    for (int me = 0; me < count - 1; me++) {
        leave(me);
        begin(me);
        MUST(fazggpo_set_vacant(game->session, count) == GGPO_OK);
    }
    run(2 * SECOND);
    for (int me = 0; me < count - 1; me++)
        MUST(settled(me) > 30 && programs[me].left == 0 && programs[me].gone == 0);
    begin(count - 1);
    MUST(fazggpo_set_vacant(game->session, count) == GGPO_OK);
    play_within(10);
    stop(count - 1);
    run(comes);
    for (int me = 0; me < count - 1; me++)
        MUST(programs[me].epochs == 1 && programs[me].left == 1 && programs[me].gone == 1);
}

/* Of whom the others aren't there is told so after the timeout: once, whether it begins a match or comes later. A game that doesn't ask
 * isn't told. */
static void nobody_comes(int comes_later, int is_asked) {
    open_world(2);
    leave(1);
    leave(0);
    start(0);
    MUST(fazggpo_rejoin(game->session) == GGPO_OK && (comes_later == 0 || fazggpo_set_vacant(game->session, 1) == GGPO_OK));
    MUST(is_asked == 0 || fazggpo_tell_missing(game->session) == GGPO_OK);
    run(TIMEOUT - TURN);
    MUST(programs[0].missing == 0);
    run(3 * SECOND);
    MUST(programs[0].missing == is_asked);
    run(10 * SECOND);
    MUST(programs[0].missing == is_asked && programs[0].strangers == 0);
}

/* Machines that know other numbers are told that datagrams come, and of no match. */
static void numbers_differ(int can_rejoin, int is_asked) {
    open_world(2);
    for (int me = 0; me < 2; me++) {
        leave(me);
        start(me);
        MUST(can_rejoin == 0 || fazggpo_rejoin(game->session) == GGPO_OK);
        MUST(is_asked == 0 || fazggpo_tell_missing(game->session) == GGPO_OK);
        MUST(fazggpo_set_match(game->session, (uint64_t)(NUMBER + me)) == GGPO_OK);
    }
    run(TIMEOUT + SECOND);
    for (int me = 0; me < 2; me++)
        MUST(programs[me].missing == is_asked && (programs[me].strangers > 0) == (is_asked != 0) && programs[me].is_running == 0);
}

/* A datagram goes out for each input, however long frames are. */
static void sends_each_input(int milliseconds, int none) {
    (void)none;
    open_world(2);
    turn_time = milliseconds;
    run(SECOND);
    for (int me = 0; me < 2; me++)
        programs[me].sent = programs[me].inputs = 0;
    run(3 * SECOND);
    for (int me = 0; me < 2; me++)
        MUST(programs[me].inputs > 3 * SECOND / milliseconds * 9 / 10 && programs[me].sent >= programs[me].inputs);
}

int main(int count, char **words) {
    int worlds = count > 1 ? atoi(words[1]) : 12;
    for (int seed = 1; seed <= worlds; seed++)
        tries("drawn", is_drawn, 2 + seed % 2, seed);
    tries("an epoch ends as somebody leaves", is_drawn, 3, 263);
    tries("an epoch ends as somebody leaves", is_drawn, 3, 299);
    for (int after = 100; after <= 1700; after += 400) {
        tries("the host is begun again", host_is_begun_again, after, 500);
        tries("the host goes", host_goes, after, after / 400 % 2);
    }
    for (int how_long = 500; how_long <= 6500; how_long += 1000)
        tries("a guest isn't heard", guest_is_unheard, how_long, 10);
    for (int apart = 200; apart <= 1400; apart += 400)
        for (int away = 400; away <= 2000; away += 800)
            tries("all are begun again", all_are_begun_again, apart, away);
    tries("one is vacant", one_is_vacant, 2, 10 * SECOND);
    tries("one is vacant", one_is_vacant, 3, 10 * SECOND);
    for (int asked = 0; asked < 2; asked++) {
        tries("nobody comes", nobody_comes, 0, asked);
        tries("nobody comes", nobody_comes, 1, asked);
        tries("numbers differ", numbers_differ, 0, asked);
        tries("numbers differ", numbers_differ, 1, asked);
    }
    tries("each input is sent", sends_each_input, 14, 0);
    tries("each input is sent", sends_each_input, 8, 0);
    return 0;
}
