/* Sessions in one process whose wire is a network in memory, which loses datagrams, brings some twice, and all of them late and in another
 * order. Three machines with four players, and a spectator, must step by the inputs of a plain run, as they do over sockets; so must a
 * machine that was stopped and comes back, also if all three guess. Then what is refused. It prints nothing if all is right. wire PORT */
#include "../../check.h"
#include "../../sim/network.h"

#include <fazgrond.h>
#include <ggponet.h>
#include <stdio.h>
#include <stdlib.h>
#include <string.h>

enum {
    PLAYERS = 4,
    MACHINES = 3,
    VIEWER = MACHINES,
    ALL,
    FRAMES = 400,
    MOST = 5000,
    LOST = 20,
    TWICE = 10,
    LATE = 12,
    JOBS = 4,
    HELD = 12,
    ROWS = 8
};

/* Where each player sits. */
static const int home[PLAYERS] = { 0, 1, 0, 2 };

/* What is on its way to each machine, turn by turn. */
static network inbox[ALL];
static uint64_t now, sent, overtaken;
static draws names;

/* The game's state has the numbers at its last frames too: a helper that plays some at once has them looked at, each of them. */
static struct game {
    int frame;
    unsigned number;
    unsigned last[ROWS];
    unsigned at[MOST]; /* the number at each frame, as it was played last */
    int again, buffers, is_running, epochs, gone;
    uint64_t newest; /* of those that came, the one that was sent last */
    bool is_cut;     /* what it sends is lost */
    bool has_helper;
    FazggpoJob *held; /* a job that its helper has fetched, and runs so many turns later */
    int turns_left;
    GGPOSession *session;
} games[ALL];

/* What the helpers play, on the same thread. */
static struct {
    int frame;
    unsigned number;
    unsigned last[ROWS];
} helped;

/* The one of whom a call is being made: GGPO's callbacks aren't told. */
static struct game *game;

/* ---- the wire */

/* Names are those of events. */
static int machine_of(int me, GGPOPlayerHandle name) {
    if (me == VIEWER) {
        MUST(name == 0);
        return 0;
    }
    if (name >= 1000) {
        MUST(name == 1000 && me == 0);
        return VIEWER;
    }
    MUST(name == 1 || name == 2 || name == 4); /* the first player of each machine */
    MUST(home[name - 1] != me);
    return home[name - 1];
}

/* Any player of a machine names it. */
static GGPOPlayerHandle name_of(int me, int machine) {
    if (me == VIEWER)
        return 0;
    if (machine == VIEWER)
        return 1000;
    int player = (int)draws_below(&names, PLAYERS);
    while (home[player] != machine)
        player = (player + 1) % PLAYERS;
    return player + 1;
}

static void on_send(void *wire, GGPOPlayerHandle to, const unsigned char *bytes, int length) {
    struct game *of = wire;
    datagram one = { .from = (uint32_t)(of - games), .length = (size_t)length };
    MUST(of == game && length > 0 && length <= FAZGROND_DATAGRAM);
    memcpy(one.bytes, bytes, one.length);
    sent++;
    if (!of->is_cut)
        network_send(&inbox[machine_of((int)one.from, to)], &one, now);
}

static bool on_receive(void *wire, GGPOPlayerHandle *from, unsigned char *bytes, int room, int *length) {
    struct game *of = wire;
    network *from_all = &inbox[of - games];
    MUST(of == game && room >= FAZGROND_DATAGRAM);
    if (network_due(from_all) > now)
        return false;
    datagram *one = network_take(from_all);
    overtaken += one->order < of->newest;
    of->newest = one->order > of->newest ? one->order : of->newest;
    *from = name_of((int)(of - games), (int)one->from);
    *length = (int)one->length;
    memcpy(bytes, one->bytes, one->length);
    free(one);
    return true;
}

/* Nothing is on its way. */
static void empty(void) {
    for (uint32_t at = 0; at < ALL; at++) {
        network_close(&inbox[at]);
        inbox[at].conditions = (conditions){ .step = 1, .late = LATE, .lost = LOST, .twice = TWICE };
        inbox[at].draws = draws_of(at, 1);
    }
    names = draws_of(0, 0);
}

/* ---- the game */

/* Players who are guessed press a button and let it go. */
static unsigned short input_of(int player, int frame) {
    if (game->has_helper)
        return frame % (10 + 2 * player) < 5 ? 1 : 2;
    return (unsigned short)((unsigned)(frame / (player + 1) * 7 + player) * 2654435761u >> 16);
}

static unsigned step_of(unsigned number, const unsigned short *inputs) {
    for (int at = 0; at < PLAYERS; at++)
        number = number * 31 + inputs[at];
    return number;
}

static void note(void) {
    MUST(game->frame < MOST);
    game->at[game->frame] = game->last[game->frame % ROWS] = game->number;
}

static void step(const unsigned short *inputs) {
    game->number = step_of(game->number, inputs);
    game->frame++;
    note();
}

static bool on_save(unsigned char **buffer, int *len, int *checksum, int frame) {
    MUST(frame == game->frame);
    *len = sizeof helped;
    *buffer = malloc((size_t)*len);
    MUST(*buffer != NULL);
    memcpy(*buffer, game, (size_t)*len);
    *checksum = (int)game->number;
    game->buffers++;
    return true;
}

static bool on_load(unsigned char *buffer, int len) {
    MUST(len == sizeof helped);
    memcpy(game, buffer, (size_t)len);
    for (int frame = game->frame; frame >= 0 && frame > game->frame - ROWS; frame--)
        game->at[frame] = game->last[frame % ROWS];
    return true;
}

static void on_free(void *buffer) {
    free(buffer);
    game->buffers--;
}

static bool on_advance(int flags) {
    unsigned short inputs[PLAYERS];
    MUST(flags == 0 && ggpo_synchronize_input(game->session, inputs, sizeof inputs, NULL) == GGPO_OK);
    game->again++;
    step(inputs);
    return ggpo_advance_frame(game->session) == GGPO_OK;
}

static bool on_event(GGPOEvent *info) {
    MUST(info->code != FAZGGPO_EVENTCODE_DESYNC && info->code != FAZGGPO_EVENTCODE_DROPPED);
    game->is_running += info->code == GGPO_EVENTCODE_RUNNING;
    game->epochs += info->code == FAZGGPO_EVENTCODE_EPOCH;
    game->gone += info->code == GGPO_EVENTCODE_DISCONNECTED_FROM_PEER;
    return true;
}

/* ---- its helper */

static bool helper_load(void *helper, const unsigned char *buffer, int len) {
    MUST(helper == &helped && len == sizeof helped);
    memcpy(&helped, buffer, sizeof helped);
    return true;
}

static bool helper_advance(void *helper, const void *inputs, int size, int gone) {
    unsigned short all[PLAYERS];
    MUST(helper == &helped && size == sizeof all && gone < 1 << PLAYERS);
    memcpy(all, inputs, sizeof all);
    helped.number = step_of(helped.number, all);
    helped.frame++;
    helped.last[helped.frame % ROWS] = helped.number;
    return true;
}

static bool helper_save(void *helper, unsigned char **buffer, int *len, int *checksum, int frame) {
    MUST(helper == &helped && frame == helped.frame);
    *len = sizeof helped;
    *buffer = malloc((size_t)*len);
    MUST(*buffer != NULL);
    memcpy(*buffer, &helped, sizeof helped);
    *checksum = (int)helped.number;
    game->buffers++;
    return true;
}

static void run(FazggpoJob *job) {
    const FazggpoHelper helper = {
        .helper = &helped, .load_state = helper_load, .advance_state = helper_advance, .save_state = helper_save
    };
    MUST(fazggpo_run_job(job, &helper));
}

static void run_held(void) {
    if (game->held != NULL)
        run(game->held);
    game->held = NULL;
}

/* It runs all jobs that are there; but one of them it holds for so long that the match may go on in another epoch meanwhile. */
static void help(void) {
    FazggpoJob *job;
    if (game->held != NULL && --game->turns_left == 0)
        run_held();
    while (game->has_helper && (job = fazggpo_fetch_job(game->session, 0)) != NULL)
        if (game->held != NULL) {
            run(job);
        } else {
            game->held = job;
            game->turns_left = HELD;
        }
}

static GGPOSessionCallbacks calls = {
    .save_game_state = on_save, .load_game_state = on_load, .free_buffer = on_free, .advance_frame = on_advance, .on_event = on_event
};
static char name[] = "wire";
static int port;
static int speed = 100, turn_time = 16; /* of the clock, and in its milliseconds */

/* ---- sessions */

typedef struct way {
    bool by_wire;     /* else over sockets */
    bool has_numbers; /* each pair has its own */
    bool can_rejoin;
    bool has_helpers;
} way;

/* On a wire addresses are names: this one isn't there. */
static char *address_by(const way *by) {
    static char nowhere[] = "240.0.0.1", here[] = "127.0.0.1";
    return by->by_wire ? nowhere : here;
}

static GGPOErrorCode add(GGPOPlayerType type, int number, const char *address, int at) {
    GGPOPlayer added = { .size = sizeof added, .type = type, .player_num = number };
    GGPOPlayerHandle handle;
    memcpy(added.u.remote.ip_address, address, strlen(address) + 1);
    added.u.remote.port = (unsigned short)at;
    return ggpo_add_player(game->session, &added, &handle);
}

static void set_up(const way *by) {
    FazggpoWire wire = { game, on_send, on_receive };
    MUST(fazggpo_set_speed(game->session, speed) == GGPO_OK && ggpo_set_disconnect_timeout(game->session, 0) == GGPO_OK);
    MUST((by->by_wire ? fazggpo_set_wire(game->session, &wire) : fazggpo_set_line(game->session, 50, LOST, 0)) == GGPO_OK);
    MUST(!by->can_rejoin || fazggpo_rejoin(game->session) == GGPO_OK);
    MUST(!by->has_helpers || fazggpo_guess(game->session, JOBS) == GGPO_OK);
    game->has_helper = by->has_helpers;
}

static uint64_t number_of(int one, int other) { return 0x1234567890abcdefu * (uint64_t)(1 + one + other + 10 * one * other); }

static void add_players(int me, const way *by) {
    for (int player = 0; player < PLAYERS; player++) {
        bool is_here = home[player] == me;
        MUST(add(is_here ? GGPO_PLAYERTYPE_LOCAL : GGPO_PLAYERTYPE_REMOTE, player + 1, address_by(by), port + home[player]) == GGPO_OK);
        if (by->has_numbers && !is_here)
            MUST(fazggpo_set_number(game->session, player + 1, number_of(me, home[player])) == GGPO_OK);
    }
}

static void begin(int me, const way *by) {
    game = &games[me];
    memset(game, 0, sizeof *game);
    MUST(ggpo_start_session(&game->session, &calls, name, PLAYERS, sizeof(short), (unsigned short)(by->by_wire ? 0 : port + me))
         == GGPO_OK);
    set_up(by);
    add_players(me, by);
    if (me != 0 || by->can_rejoin)
        return;
    MUST(add(GGPO_PLAYERTYPE_SPECTATOR, 0, address_by(by), port + VIEWER) == GGPO_OK);
    MUST(!by->has_numbers || fazggpo_set_number(game->session, 1000, number_of(0, VIEWER)) == GGPO_OK);
}

/* Without a number of the pair both ends make one of the spectator's port, which is closed once there is a wire. */
static void begin_viewer(const way *by) {
    bool needs_port = !by->by_wire || !by->has_numbers;
    game = &games[VIEWER];
    memset(game, 0, sizeof *game);
    MUST(ggpo_start_spectating(&game->session, &calls, name, PLAYERS, sizeof(short), (unsigned short)(needs_port ? port + VIEWER : 0),
                               address_by(by), (unsigned short)port)
         == GGPO_OK);
    set_up(by);
    MUST(!by->has_numbers || fazggpo_set_number(game->session, 0, number_of(0, VIEWER)) == GGPO_OK);
}

static void turn(int me) {
    unsigned short inputs[PLAYERS];
    GGPOErrorCode code = GGPO_OK;
    game = &games[me];
    for (int player = 0; player < PLAYERS && code == GGPO_OK; player++) {
        unsigned short input = input_of(player, game->frame);
        if (me != VIEWER && home[player] == me)
            code = ggpo_add_local_input(game->session, player + 1, &input, sizeof input);
    }
    if (code == GGPO_OK)
        code = ggpo_synchronize_input(game->session, inputs, sizeof inputs, NULL);
    MUST(code == GGPO_OK || code == GGPO_ERRORCODE_PREDICTION_THRESHOLD || code == GGPO_ERRORCODE_NOT_SYNCHRONIZED);
    if (code == GGPO_OK) {
        step(inputs);
        MUST(ggpo_advance_frame(game->session) == GGPO_OK);
    }
    MUST(ggpo_idle(game->session, turn_time) == GGPO_OK);
    help();
}

static void turn_all(int count) {
    now++;
    for (int me = 0; me < count; me++)
        turn(me);
}

static int settled(int me) {
    int frame = 0;
    return fazggpo_get_settled(games[me].session, &frame) == GGPO_OK ? frame : 0;
}

/* How many frames all machines have settled. */
static int settled_by_all(void) {
    int least = settled(0);
    for (int me = 1; me < MACHINES; me++)
        least = settled(me) < least ? settled(me) : least;
    return least;
}

static int guesses_used(int me) {
    FazggpoGuesses guesses;
    MUST(fazggpo_get_guesses(games[me].session, &guesses) == GGPO_OK);
    return guesses.used;
}

static void end(int me) {
    game = &games[me];
    run_held();
    MUST(ggpo_close_session(game->session) == GGPO_OK && game->buffers == 0);
}

/* ---- what is tried */

/* All four come to the numbers of a plain run. */
static void plays(const way *by) {
    int seen = 0;
    unsigned number = 0;
    empty();
    for (int me = 0; me < MACHINES; me++)
        begin(me, by);
    begin_viewer(by);
    for (int turns = 0; settled_by_all() < FRAMES || seen < FRAMES || games[VIEWER].frame < FRAMES; turns++) {
        MUST(turns < 10 * FRAMES);
        turn_all(ALL);
        (void)fazggpo_get_watched(games[0].session, 1000, &seen);
    }
    for (int frame = 0; frame < FRAMES; frame++) {
        unsigned short inputs[PLAYERS];
        for (int player = 0; player < PLAYERS; player++)
            inputs[player] = input_of(player, frame);
        number = step_of(number, inputs);
        for (int me = 0; me < ALL; me++)
            MUST(games[me].at[frame + 1] == number);
    }
    MUST(games[0].again + games[1].again + games[2].again > 0 && games[VIEWER].again == 0);
    for (int me = 0; me < ALL; me++)
        end(me);
}

/* Over the wire many were overtaken. */
static void plays_on_wire(bool has_numbers) {
    way by = { .by_wire = true, .has_numbers = has_numbers };
    sent = overtaken = 0;
    plays(&by);
    MUST(sent > 2000 && overtaken > sent / 10);
}

/* From the frame on from which machine 2 has them, all three settled the same. */
static void is_alike(int from, int last) {
    for (int frame = from; frame < last; frame++) {
        unsigned short inputs[PLAYERS];
        MUST(fazggpo_get_settled_input(games[0].session, frame, inputs, sizeof inputs, NULL) == GGPO_OK);
        MUST(games[0].at[frame + 1] == step_of(games[0].at[frame], inputs));
        MUST(games[1].at[frame + 1] == games[0].at[frame + 1] && games[2].at[frame + 1] == games[0].at[frame + 1]);
    }
}

/* Machine 2 stops without a word, and is begun anew: it comes back. Three machines take a turn in the time of one. */
static void comes_back(bool has_helpers) {
    way by = { .by_wire = true, .can_rejoin = true, .has_helpers = has_helpers };
    int from = 0, used = 0;
    speed = 4, turn_time = 5;
    empty();
    for (int me = 0; me < MACHINES; me++)
        begin(me, &by);
    while (games[0].frame < 100)
        turn_all(MACHINES);
    games[2].is_cut = true;
    end(2);
    empty();
    begin(2, &by);
    for (int turns = 0; games[2].epochs == 0 || settled_by_all() < from + 200; turns++) {
        MUST(turns < 4000);
        turn_all(MACHINES);
        used = games[2].epochs == 0 ? guesses_used(0) : used;
        (void)fazggpo_get_settled_from(games[2].session, &from);
    }
    MUST(games[0].gone > 0 && games[1].gone > 0 && games[0].epochs > 0 && games[1].epochs > 0);
    MUST(guesses_used(0) > used || !has_helpers);
    is_alike(from, settled_by_all());
    for (int me = 0; me < MACHINES; me++)
        end(me);
    speed = 100, turn_time = 16;
}

/* Two machines to whom different numbers were told don't hear each other, so that neither is in a match. */
static void strangers(void) {
    way by = { .by_wire = true, .has_numbers = true };
    empty();
    for (int me = 0; me < MACHINES; me++)
        begin(me, &by);
    MUST(fazggpo_set_number(games[2].session, 2, number_of(1, 2) + 1) == GGPO_OK);
    for (int turns = 0; turns < 200; turns++)
        turn_all(MACHINES);
    MUST(games[1].is_running + games[2].is_running == 0);
    for (int me = 0; me < MACHINES; me++)
        end(me);
}

/* ---- what is refused */

static bool says(const char *why) { return strcmp(ggpo_last_error(game->session), why) == 0; }

/* A wire closes the port. */
static void refused_wires(void) {
    FazggpoWire wire = { game, on_send, on_receive }, no_send = { game, NULL, on_receive }, no_receive = { game, on_send, NULL };
    GGPOSession *other;
    MUST(fazggpo_set_wire(NULL, &wire) == GGPO_ERRORCODE_INVALID_SESSION);
    MUST(ggpo_start_synctest(&game->session, &calls, name, 2, sizeof(short), 1) == GGPO_OK);
    MUST(fazggpo_set_wire(game->session, &wire) == GGPO_ERRORCODE_UNSUPPORTED && says("a sync test sends nothing"));
    MUST(ggpo_close_session(game->session) == GGPO_OK);
    MUST(ggpo_start_session(&game->session, &calls, name, PLAYERS, sizeof(short), (unsigned short)port) == GGPO_OK);
    MUST(fazggpo_set_wire(game->session, NULL) == GGPO_ERRORCODE_INVALID_REQUEST);
    MUST(fazggpo_set_wire(game->session, &no_send) == GGPO_ERRORCODE_INVALID_REQUEST);
    MUST(fazggpo_set_wire(game->session, &no_receive) == GGPO_ERRORCODE_INVALID_REQUEST);
    MUST(says("no wire, or a function of it is missing"));
    MUST(ggpo_start_session(&other, &calls, name, PLAYERS, sizeof(short), (unsigned short)port) == GGPO_ERRORCODE_GENERAL_FAILURE);
    MUST(fazggpo_set_wire(game->session, &wire) == GGPO_OK && fazggpo_set_wire(game->session, &wire) == GGPO_OK);
    MUST(ggpo_start_session(&other, &calls, name, PLAYERS, sizeof(short), (unsigned short)port) == GGPO_OK);
    MUST(ggpo_close_session(other) == GGPO_OK && ggpo_close_session(game->session) == GGPO_OK);
}

/* Numbers are for pairs that there are, before the match opens. */
static void refused_numbers(void) {
    way by = { .by_wire = true }, lasts = { .by_wire = true, .can_rejoin = true };
    static const GGPOPlayerHandle no[] = { -1, 0, 2, 5, 999, 1000, 1032 };
    MUST(fazggpo_set_number(NULL, 1, 1) == GGPO_ERRORCODE_INVALID_SESSION);
    begin(1, &by);
    for (size_t at = 0; at < sizeof no / sizeof no[0]; at++)
        MUST(fazggpo_set_number(game->session, no[at], 1) == GGPO_ERRORCODE_INVALID_PLAYER_HANDLE);
    MUST(says("1032 is no player elsewhere, and no spectator"));
    MUST(fazggpo_set_number(game->session, 1, 1) == GGPO_OK && fazggpo_set_number(game->session, 3, 2) == GGPO_OK);
    MUST(ggpo_idle(game->session, 0) == GGPO_ERRORCODE_INVALID_REQUEST && says("the machine of player 3 was given two numbers"));
    MUST(fazggpo_rejoin(game->session) == GGPO_ERRORCODE_UNSUPPORTED);
    MUST(fazggpo_set_number(game->session, 3, 1) == GGPO_OK && ggpo_idle(game->session, 0) == GGPO_OK);
    MUST(fazggpo_set_number(game->session, 3, 1) == GGPO_ERRORCODE_UNSUPPORTED);
    MUST(fazggpo_set_wire(game->session, &(FazggpoWire){ game, on_send, on_receive }) == GGPO_ERRORCODE_UNSUPPORTED);
    end(1);
    begin(1, &lasts);
    MUST(fazggpo_set_number(game->session, 1, 1) == GGPO_ERRORCODE_UNSUPPORTED);
    MUST(says("a match into which players come back has one number for all pairs"));
    end(1);
    begin_viewer(&by);
    MUST(fazggpo_set_number(game->session, 1, 1) == GGPO_ERRORCODE_INVALID_PLAYER_HANDLE);
    end(VIEWER);
}

/* A wire that says what can't be: of nobody, of this machine, or longer than the room. */
static bool receive_wrong(void *wire, GGPOPlayerHandle *from, unsigned char *bytes, int room, int *length) {
    static const struct {
        GGPOPlayerHandle from;
        int length;
    } wrong[] = { { -1, 20 }, { 0, 20 }, { 2, 20 }, { 5, 20 }, { 999, 20 }, { 1000, 20 }, { 1, -1 }, { 1, 1 << 20 } };
    size_t *next = wire;
    MUST(room >= 20);
    memset(bytes, 1, 20);
    *from = wrong[*next % 8].from;
    *length = wrong[*next % 8].length;
    return ++*next % 64 != 0;
}

static void send_nowhere(void *wire, GGPOPlayerHandle to, const unsigned char *bytes, int length) {
    MUST(wire != NULL && to != 2 && bytes != NULL && length > 0);
}

static void wrong_wire(void) {
    way by = { .by_wire = true };
    size_t next = 0;
    begin(1, &by);
    MUST(fazggpo_set_wire(game->session, &(FazggpoWire){ &next, send_nowhere, receive_wrong }) == GGPO_OK);
    for (int turns = 0; turns < 20; turns++)
        MUST(ggpo_idle(game->session, 16) == GGPO_OK);
    MUST(next >= 20 * 64 && game->is_running == 0);
    end(1);
}

int main(int count, char **words) {
    way by_socket = { 0 }, by_socket_with_numbers = { .has_numbers = true };
    MUST(count == 2);
    port = atoi(words[1]);
    plays(&by_socket);
    plays(&by_socket_with_numbers);
    plays_on_wire(false);
    plays_on_wire(true);
    comes_back(false);
    comes_back(true);
    strangers();
    game = &games[0];
    refused_wires();
    refused_numbers();
    wrong_wire();
    empty();
    return 0;
}
