/* What a frame costs through C: make bench
 *
 * Two players, a game of one number. Each line is the least of nine runs; a frame is all calls and requests of a turn. Beside each
 * is the same match by GGPO's policy with callbacks, in plain C: if a prediction was wrong, it loads the state before the first wrong
 * frame and runs from there on. Then come two machines with peers beside their sessions: a turn of one is all its calls, with a
 * datagram that comes and one that goes. The last lines are many sessions that take turns: the least of two runs, and a minute at 60
 * frames a second, in which each frame of all sessions has a sixtieth of a second. `c_frames 0` leaves the minute out. */
#define _POSIX_C_SOURCE 199309L
#include "../tests/check.h"

#include <fazgrond.h>
#include <stdio.h>
#include <stdlib.h>
#include <time.h>

#define SLOTS 257
#define FRAMES 20000
#define RUNS 9

typedef struct match {
    fazgrond_session session;
    uint64_t state;
    uint64_t saved[SLOTS];
    uint64_t steps;
} match;

static double now(void) {
    struct timespec time;
    clock_gettime(CLOCK_MONOTONIC, &time);
    return (double)time.tv_sec * 1e9 + (double)time.tv_nsec;
}

static void carry_out(match *game, const fazgrond_request *request) {
    switch (request->kind) {
    case FAZGROND_LOAD: game->state = game->saved[request->slot]; break;
    case FAZGROND_SAVE: game->saved[request->slot] = game->state; break;
    case FAZGROND_STEP:
        game->state = (10 * game->state + request->row.words[0] + 2 * (uint64_t)request->row.words[1]) % 1000000;
        game->steps++;
        break;
    }
}

static void carry_out_all(match *game) {
    fazgrond_request requests[32];
    size_t count;
    while ((count = fazgrond_take_requests(&game->session, requests, 32)) > 0)
        for (size_t at = 0; at < count; at++)
            carry_out(game, &requests[at]);
}

static void open_match(match *game) {
    fazgrond_settings settings = fazgrond_settings_for(2);
    settings.local = 1;
    OK(fazgrond_open(&game->session, &settings));
    game->state = game->saved[0] = 0;
    game->steps = 0;
}

/* Player 2's word of a frame: another one in each frame, or always 0. */
static void hear(match *game, uint32_t frame, int changes) {
    uint32_t repeated;
    OK(fazgrond_remote_input(&game->session, 2, frame, changes ? frame : 0, &repeated));
}

static void play(match *game, uint32_t late, int changes) {
    fazgrond_row row;
    fazgrond_reached reached;
    for (uint32_t frame = 0; frame < FRAMES; frame++) {
        if (frame >= late) {
            hear(game, frame - late, changes);
            if (late > 0) {
                OK(fazgrond_synchronize_input(&game->session, &row));
                carry_out_all(game);
            }
        }
        OK(fazgrond_add_local_input(&game->session, 1, frame));
        OK(fazgrond_advance_frame(&game->session, &reached));
        carry_out_all(game);
    }
}

/* GGPO's policy, over callbacks of the game. */
#define KEPT 16

typedef struct callbacks {
    void (*save)(void *game, uint32_t frame);
    void (*load)(void *game, uint32_t frame);
    void (*step)(void *game, const uint32_t words[2]);
} callbacks;

typedef struct policy {
    callbacks call;
    void *game;
    uint32_t frame;       /* the current one */
    uint32_t heard;       /* how many words of player 2 have come */
    uint32_t wrong;       /* the first frame that was predicted wrong, or `frame` */
    uint32_t own[KEPT];   /* player 1's words */
    uint32_t other[KEPT]; /* player 2's, as they came or as predicted */
    uint32_t last;        /* player 2's last word */
} policy;

static void run_frame(policy *ggpo, uint32_t frame) {
    if (frame >= ggpo->heard)
        ggpo->other[frame % KEPT] = ggpo->last;
    uint32_t words[2] = { ggpo->own[frame % KEPT], ggpo->other[frame % KEPT] };
    ggpo->call.step(ggpo->game, words);
    ggpo->call.save(ggpo->game, frame + 1);
}

static void roll_back(policy *ggpo) {
    if (ggpo->wrong == ggpo->frame)
        return;
    ggpo->call.load(ggpo->game, ggpo->wrong);
    for (uint32_t frame = ggpo->wrong; frame < ggpo->frame; frame++)
        run_frame(ggpo, frame);
    ggpo->wrong = ggpo->frame;
}

static void hear_by_policy(policy *ggpo, uint32_t word) {
    uint32_t frame = ggpo->heard++;
    if (frame < ggpo->frame && ggpo->other[frame % KEPT] != word && frame < ggpo->wrong)
        ggpo->wrong = frame;
    ggpo->other[frame % KEPT] = ggpo->last = word;
}

static void advance_by_policy(policy *ggpo, uint32_t word) {
    roll_back(ggpo);
    ggpo->own[ggpo->frame % KEPT] = word;
    run_frame(ggpo, ggpo->frame);
    ggpo->wrong = ++ggpo->frame;
}

static void save_state(void *game, uint32_t frame) {
    match *own = game;
    own->saved[frame % KEPT] = own->state;
}

static void load_state(void *game, uint32_t frame) {
    match *own = game;
    own->state = own->saved[frame % KEPT];
}

static void step_state(void *game, const uint32_t words[2]) {
    match *own = game;
    own->state = (10 * own->state + words[0] + 2 * (uint64_t)words[1]) % 1000000;
    own->steps++;
}

static void play_by_policy(match *game, uint32_t late, int changes) {
    policy ggpo = { { save_state, load_state, step_state }, game, 0, 0, 0, { 0 }, { 0 }, 0 };
    game->state = game->saved[0] = game->steps = 0;
    for (uint32_t frame = 0; frame < FRAMES; frame++) {
        if (frame >= late) {
            hear_by_policy(&ggpo, changes ? frame - late : 0);
            roll_back(&ggpo);
        }
        advance_by_policy(&ggpo, frame);
    }
}

static double least_of(match *game, uint32_t late, int changes, void (*plays)(match *, uint32_t, int), int opens) {
    double least = 0;
    for (int run = 0; run < RUNS; run++) {
        if (opens)
            open_match(game);
        double from = now();
        plays(game, late, changes);
        double took = (now() - from) / FRAMES;
        if (run == 0 || took < least)
            least = took;
    }
    return least;
}

static void measure(const char *what, uint32_t late, int changes) {
    static match game, other;
    double took = least_of(&game, late, changes, play, 1);
    double others = least_of(&other, late, changes, play_by_policy, 0);
    printf("%-38s %7.0f ns a frame, %4.2f steps; GGPO's policy %5.0f ns, %4.2f steps\n", what, took, (double)game.steps / FRAMES, others,
           (double)other.steps / FRAMES);
    MUST(game.state == other.state);
    fazgrond_close(&game.session);
}

/* Two machines: each hears in each turn what the other sent in the turn before. */
typedef struct machine {
    match match;
    fazgrond_peer peer;
    uint8_t bytes[FAZGROND_DATAGRAM];
    size_t length;
} machine;

static void open_machine(machine *at, uint32_t me) {
    fazgrond_settings settings = fazgrond_settings_for(2);
    fazgrond_match match = fazgrond_match_for(2, me);
    settings.local = 1u << me;
    match.owners[0] = 0;
    match.owners[1] = 1;
    match.draw = me + 1;
    fazgrond_one_number(&match, 7);
    OK(fazgrond_open(&at->match.session, &settings));
    OK(fazgrond_peer_open(&at->peer, &at->match.session, &match));
    at->match.state = at->match.saved[0] = at->match.steps = 0;
    at->length = 0;
}

static void take_turn(machine *at, uint32_t me, machine *other, uint32_t turn) {
    fazgrond_session *session = &at->match.session;
    fazgrond_reached reached;
    uint32_t is_running, now = turn * 16;
    if (at->length > 0) /* a first play can't be opened yet */
        (void)fazgrond_peer_receive(&at->peer, session, at->bytes, at->length, now);
    OK(fazgrond_peer_poll(&at->peer, session, now));
    OK(fazgrond_peer_is_running(&at->peer, &is_running));
    if (is_running != 0 && fazgrond_add_local_input(session, (uint8_t)(me + 1), turn) == FAZGROND_OK)
        OK(fazgrond_advance_frame(session, &reached));
    carry_out_all(&at->match);
    OK(fazgrond_peer_send(&at->peer, session, (uint8_t)(1 - me), now, other->bytes, sizeof other->bytes, &other->length));
}

static void measure_peers(void) {
    static machine both[2];
    uint32_t frame = 0;
    double least = 0;
    for (int run = 0; run < RUNS; run++) {
        for (uint32_t me = 0; me < 2; me++)
            open_machine(&both[me], me);
        double from = now();
        for (uint32_t turn = 0; turn < FRAMES; turn++)
            for (uint32_t me = 0; me < 2; me++)
                take_turn(&both[me], me, &both[1 - me], turn);
        double took = (now() - from) / FRAMES / 2;
        if (run == 0 || took < least)
            least = took;
    }
    OK(fazgrond_frame(&both[0].match.session, &frame));
    printf("%-38s %7.0f ns a turn, %4.2f steps, %.2f frames\n", "two peers, a turn of one", least, (double)both[0].match.steps / FRAMES,
           (double)frame / FRAMES);
    for (uint32_t me = 0; me < 2; me++) {
        fazgrond_peer_close(&both[me].peer);
        fazgrond_close(&both[me].match.session);
    }
}

/* Many sessions, each of which plays a frame in turn: the other player's word comes 2 frames late, and is another one in each. */
#define SESSIONS 10000
#define TURNS 120

static void open_all(match *games) {
    for (size_t at = 0; at < SESSIONS; at++)
        open_match(&games[at]);
}

static void play_frame(match *games, uint32_t frame) {
    fazgrond_reached reached;
    for (size_t at = 0; at < SESSIONS; at++) {
        if (frame >= 2)
            hear(&games[at], frame - 2, 1);
        OK(fazgrond_add_local_input(&games[at].session, 1, frame));
        OK(fazgrond_advance_frame(&games[at].session, &reached));
        carry_out_all(&games[at]);
    }
}

static void measure_turns(match *games) {
    double least = 0;
    for (int run = 0; run < 2; run++) {
        open_all(games);
        double from = now();
        for (uint32_t frame = 0; frame < TURNS; frame++)
            play_frame(games, frame);
        double took = (now() - from) / TURNS / SESSIONS;
        if (run == 0 || took < least)
            least = took;
    }
    printf("%-38s %7.0f ns a frame\n", "10000 sessions, words 2 frames late", least);
}

static void wait_until(double when) {
    double left = when - now();
    struct timespec time = { (time_t)(left / 1e9), (long)((int64_t)left % 1000000000) };
    if (left > 0)
        nanosleep(&time, NULL);
}

/* The next frame begins when it is due, or as soon as the one before is over. */
static void measure_minute(match *games) {
    double busy = 0, longest = 0;
    int late = 0;
    open_all(games);
    double start = now();
    for (uint32_t frame = 0; frame < 3600; frame++) {
        wait_until(start + frame * 1e9 / 60);
        double from = now();
        play_frame(games, frame);
        double took = now() - from;
        busy += took;
        longest = took > longest ? took : longest;
        late += now() > start + (frame + 1) * 1e9 / 60;
    }
    printf("%-38s %7.2f s of work in %.2f s, longest frame %.1f ms, %d of 3600 frames over late\n", "10000 sessions, a minute", busy / 1e9,
           (now() - start) / 1e9, longest / 1e6, late);
}

static void measure_many(int minute) {
    match *games = calloc(SESSIONS, sizeof(match));
    MUST(games != NULL);
    measure_turns(games);
    if (minute)
        measure_minute(games);
    for (size_t at = 0; at < SESSIONS; at++)
        fazgrond_close(&games[at].session);
    free(games);
}

int main(int count, char **words) {
    measure("each word in time, no rollback", 0, 1);
    measure("each word 6 frames late, as predicted", 6, 0);
    measure("each word 6 frames late, another one", 6, 1);
    measure("each word 2 frames late, another one", 2, 1);
    measure_peers();
    measure_many(count < 2 || words[1][0] != '0');
    return 0;
}
