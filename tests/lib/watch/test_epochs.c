/* A match of two machines that goes on in epochs, in one process: each publishes it by faz_cast_go_on and faz_cast_turn. What a
 * viewer is shown at each frame of the match has to be what the game came to there, when that frame was stepped last.
 * test_epochs BROKER MATCH */
#define _POSIX_C_SOURCE 200809L
#include "../../../programs/duel/duel_game.h"
#include "../../sim/claim.h"
#include "../../sim/world.h"
#include "faz_cast.h"
#include "faz_view.h"

#include "../../../programs/common/bot.h"
#include "../../../programs/common/clock.h"

#define CHECKS_OF "turn %u", (unsigned)(all != NULL ? all->turn : 0)
static world *all;
#include "../../check.h"

#include <string.h>

enum { PUBLISHERS = 2, FRAMES = 2000, ROOM = FRAMES + 64, SEAMS = 5, NUMBER = 7, DELAY = 1 };

/* What a machine does beside its turns: it publishes what it has settled, and remembers each frame's state as it was stepped last. */
typedef struct publisher {
    faz_cast *cast;
    duel came[ROOM]; /* after so many frames */
    duel_bot bot;
} publisher;

static publisher publishers[PUBLISHERS];
static const char *broker, *name;

static publisher *own(const machine *of) { return &publishers[of->me]; }

/* The duel's bots press what they drew last. */
static uint32_t word_of(machine *of, uint32_t player, uint64_t frame) {
    (void)player, (void)frame;
    return own(of)->bot.word;
}

static void gave(machine *of, uint32_t player, uint32_t frame, uint32_t word, int32_t code) {
    (void)player, (void)frame, (void)word;
    if (code == FAZGROND_OK)
        duel_bot_draw(&own(of)->bot);
}

static void opens(machine *of, fazgrond_settings *settings, fazgrond_match *match) {
    publisher *self = own(of);
    const char *why;
    fazgrond_one_number(match, NUMBER);
    duel_open(&self->came[0], PUBLISHERS);
    self->bot = duel_bot_of(9, (int)of->me + 1);
    self->cast = faz_cast_open(&(faz_cast_settings){ .servers = broker,
                                                     .match = name,
                                                     .me = of->me == 0 ? "one" : "two",
                                                     .game = &duel_game,
                                                     .opening = &self->came[0],
                                                     .session = settings,
                                                     .rate = 60,
                                                     .limit = FRAMES },
                               &why);
    MUST(self->cast != NULL);
}

static void carries_out(machine *of, const fazgrond_request *request) {
    MUST(of->states.frame < ROOM);
    if (request->kind == FAZGROND_STEP)
        memcpy(&own(of)->came[of->states.frame], states_current(&of->states), sizeof(duel));
}

/* As faz_cast.h has it: what came is played, then the epoch may end, and only if it doesn't are its rows published. */
static int32_t goes_on(machine *of, uint32_t *frames) {
    uint32_t frame, slot;
    int32_t code = faz_cast_go_on(own(of)->cast, &of->session, &of->peer, frames);
    if (code == FAZGROND_NOTHING && of->is_running) {
        OK(fazgrond_settled_slot(&of->session, &frame, &slot));
        faz_cast_turn(own(of)->cast, &of->session, frame, states_saved(&of->states, slot));
    }
    return code;
}

/* Seams at different places of a run and a chapter, some with another delay. */
static void plays(machine *of) {
    static const uint32_t frames[SEAMS] = { 100, 140, 601, 1205, 1500 };
    fazgrond_mark made = fazgrond_mark_for();
    uint32_t seams = of->part_count - 1;
    if (seams >= SEAMS || machine_frame(of) < frames[seams] || seams % PUBLISHERS != of->me)
        return;
    made.delays[of->me] = seams % 3;
    int32_t code = fazgrond_peer_mark(&of->peer, &of->session, (uint8_t)(of->me + 1), &made);
    MUST(code == FAZGROND_OK || code == FAZGROND_MARKED);
}

static void is_told(machine *of, const fazgrond_event *event) {
    (void)of;
    MUST(event->code != FAZGROND_DESYNC);
}

static const program publishing = {
    .opens = opens, .word = word_of, .gave = gave, .goes_on = goes_on, .plays = plays, .carries_out = carries_out, .is_told = is_told
};

static uint32_t published(const publisher *self) {
    faz_cast_state seen;
    faz_cast_look(self->cast, &seen);
    return seen.rows;
}

static void play(void) {
    setup with = even;
    with.game = &game_duel;
    with.program = &publishing;
    with.delay = 3;
    with.input_delay = DELAY;
    with.tells_all = true;
    all = world_begin(&with);
    world_open_all(all);
    while (all->turn < 2 * FRAMES && (published(&publishers[0]) < FRAMES || published(&publishers[1]) < FRAMES))
        world_run_turns(all, 1);
    MUST(all->wrong == NULL && world_agree(all, 0, 1, FRAMES));
    for (uint32_t me = 0; me < PUBLISHERS; me++)
        MUST(all->machine[me].part_count == SEAMS + 1);
}

static void close_one(publisher *self) {
    faz_cast_state seen;
    faz_cast_end(self->cast, "all frames were played");
    MUST(faz_cast_close(self->cast, 10000, &seen));
    MUST(seen.rows == FRAMES && seen.stored == FRAMES && seen.lost == 0 && seen.disputed == 0);
}

static void on_seen(const void *shown, const fazgrond_row *row, uint32_t frame, void *closure) {
    uint32_t *last = closure;
    MUST(frame == *last + 1 && row_is_same(row, &machine_record(&all->machine[0], *last)->row));
    for (uint32_t me = 0; me < PUBLISHERS; me++)
        MUST(memcmp(shown, &publishers[me].came[frame], sizeof(duel)) == 0);
    *last = frame;
}

static void watch(void) {
    const char *why;
    uint32_t last = 0;
    int64_t due = 0;
    faz_view_state seen;
    faz_view *view = faz_view_open(&(faz_view_settings){ .servers = broker, .match = name, .game = &duel_game }, &why);
    MUST(view != NULL);
    for (uint32_t turns = 0; turns < 100000 && last < FRAMES; turns++) {
        clock_wait_for_turn(&due, 20);
        (void)faz_view_turn(view, on_seen, &last);
    }
    faz_view_look(view, &seen);
    MUST(last == FRAMES && seen.gaps == 0 && seen.malformed == 0 && seen.other == 0 && seen.desync == FAZ_LATEST);
    faz_view_close(view);
}

int main(int count, char **words) {
    MUST(count == 3);
    broker = words[1];
    name = words[2];
    play();
    for (uint32_t me = 0; me < PUBLISHERS; me++)
        close_one(&publishers[me]);
    watch();
    world_end(all);
    return 0;
}
