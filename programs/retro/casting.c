#define _POSIX_C_SOURCE 200809L
#include "casting.h"

#include "window.h"

#include "../common/clock.h"
#include "faz_cast.h"
#include "faz_view.h"

#include <inttypes.h>
#include <stdlib.h>
#include <string.h>

enum { PATIENCE = 10000 /* milliseconds that the broker has at the end */, CUSHION = 30, SPARE = 8192, LINE = 96 };

/* A state as it is published: its bytes, and behind them zeros, as all have the same size there. */
typedef struct image {
    uint64_t size, picture, digest;
    uint8_t bytes[];
} image;

/* The interface of games that are published has no pointer of theirs: there is one. */
static struct {
    faz_game game;
    char name[FAZ_NAME];
    core *core; /* on which states are stepped */
    core own;   /* that of who publishes */
    core_state state;
    image *shown;
    bool reloads;
    faz_cast *cast;
    uint32_t given; /* so many rows of the match */
    FILE *digests;
    uint32_t last;
} self;

static bool write_image(image *out, const core_state *from, uint64_t digest) {
    if (from->size + sizeof *out > self.game.size)
        return false;
    memset(out, 0, self.game.size);
    *out = (image){ .size = from->size, .picture = from->picture, .digest = digest };
    memcpy(out->bytes, from->at, from->size);
    return true;
}

static void step(void *state, const fazgrond_row *row) {
    image *it = state;
    core_state before = { .at = it->bytes, .size = it->size, .picture = it->picture };
    if (!core_load(self.core, &before))
        return;
    core_step(self.core, row->words, row->count);
    uint64_t digest = core_digest(self.core);
    if (core_save(self.core, &self.state) && (!self.reloads || core_load(self.core, &self.state)))
        write_image(it, &self.state, digest);
}

static uint64_t digest_of_image(const void *state) { return ((const image *)state)->digest; }

/* Whether it can be one: what a core makes of other bytes than its own, nobody knows. So believe none but those who may publish. */
static bool is_image(const void *state, uint32_t players) {
    const image *it = state;
    return players > 0 && it->size > 0 && it->size <= self.game.size - sizeof *it;
}

static bool set_up(const facts *facts, const core_state *opening) {
    snprintf(self.name, sizeof self.name, "retro-%016" PRIx64, facts->core ^ facts->rom ^ facts->options);
    self.reloads = facts->reloads;
    self.game = (faz_game){ .name = self.name,
                            .size = sizeof(image) + (opening->size / SPARE + 2) * SPARE,
                            .step = step,
                            .digest = digest_of_image,
                            .is_state = is_image };
    self.shown = calloc(1, self.game.size);
    return self.shown != NULL;
}

/* Begins to publish, from the match's opening on if that is there. */
static bool open_from(const match *of, const core_state *opening, uint64_t digest) {
    const char *why = "there is no memory, or no core more";
    const agreement *all = &of->meeting->all;
    char me[32];
    fazgrond_settings session = fazgrond_settings_for(all->players);
    session.threshold = all->threshold;
    if (of->wish->cast == NULL)
        return true;
    snprintf(me, sizeof me, "player%" PRIu32 "-%08" PRIx32, all->me, (uint32_t)net_draw());
    self.core = &self.own;
    if (set_up(of->facts, &of->opening) && core_open(self.core, of->from) && write_image(self.shown, opening, digest)) {
        faz_cast_settings made = { .servers = of->wish->broker,
                                   .match = of->wish->cast,
                                   .me = me,
                                   .game = &self.game,
                                   .opening = self.shown,
                                   .session = &session,
                                   .limit = of->wish->frames,
                                   .rate = (uint32_t)(of->main->core.av.timing.fps + 0.5) };
        self.cast = faz_cast_open(&made, &why);
    }
    if (self.cast == NULL)
        fprintf(stderr, "the match can't be published: %s\n", why);
    return self.cast != NULL;
}

bool casting_open(const match *of) { return open_from(of, &of->opening, of->states->slots[0].digest); }

bool casting_come(const match *of) {
    if (self.cast == NULL && !open_from(of, &of->lasting.opening, of->lasting.opening_digest))
        return false;
    self.given = of->lasting.trail.first;
    if (self.cast != NULL)
        faz_cast_from(self.cast, self.given);
    return true;
}

void casting_turn(match *of) {
    uint32_t frame, slot;
    fazgrond_row row;
    if (self.cast == NULL || fazgrond_settled_slot(&of->session, &frame, &slot) != FAZGROND_OK)
        return;
    for (; match_row(of, self.given, &row); self.given++)
        faz_cast_row(self.cast, &row);
    if (write_image(self.shown, &of->states->slots[slot].state, of->states->slots[slot].digest))
        faz_cast_settled(self.cast, of->settled, self.shown);
}

static void free_all(void) {
    free(self.state.at);
    free(self.shown);
    self.state = (core_state){ 0 };
    self.shown = NULL;
}

bool casting_close(const char *reason) {
    faz_cast_state state;
    if (self.cast == NULL)
        return true;
    faz_cast_end(self.cast, reason);
    bool has_all = faz_cast_close(self.cast, PATIENCE, &state);
    fprintf(stderr, "published %u of %u frames, %u lost, %u disputed\n", state.stored, state.rows, state.lost, state.disputed);
    if (!has_all)
        fprintf(stderr, "the broker doesn't have all: %s\n", state.why != NULL ? state.why : "it is too slow");
    self.cast = NULL;
    self.given = 0;
    core_close(&self.own);
    free_all();
    return has_all;
}

static void on_seen(const void *state, const fazgrond_row *row, uint32_t frame, void *closure) {
    (void)row, (void)closure;
    self.last = frame;
    if (self.digests != NULL)
        fprintf(self.digests, "%" PRIu32 " %016" PRIx64 "\n", frame, digest_of_image(state));
}

static void turn(faz_view *view, const wish *wish, faz_view_state *now) {
    char text[LINE];
    const char *line = text;
    uint32_t played = faz_view_turn(view, on_seen, NULL);
    faz_view_look(view, now);
    snprintf(text, sizeof text, "frame %" PRIu32 " of %" PRIu32, now->frame, now->known);
    if (!wish->is_headless)
        window_show(self.core, played > 0, played > 1, &line, 1);
}

outcome casting_watch(runner *on, const wish *wish, const facts *facts, const core_state *opening) {
    const char *why = "there is no memory";
    faz_view_settings settings = {
        .servers = wish->broker, .match = wish->cast, .game = &self.game, .from = wish->from, .cushion = CUSHION
    };
    faz_view_state now = { .desync = FAZ_LATEST };
    faz_view *view = set_up(facts, opening) ? faz_view_open(&settings, &why) : NULL;
    int64_t due = clock_micros(), length = (int64_t)(1e6 / on->core.av.timing.fps / wish->speed);
    if (view == NULL)
        return fprintf(stderr, "the match can't be watched: %s\n", why), FAILED;
    self.core = &on->core;
    self.digests = wish->digests != NULL ? fopen(wish->digests, "wb") : NULL;
    while (!now.has_ended && now.version == 0 && now.desync == FAZ_LATEST && wish_goes_on(wish)
           && (wish->frames == 0 || self.last < wish->frames)) {
        turn(view, wish, &now);
        due += length;
        int64_t rest = due - clock_micros();
        if (rest > 0)
            nanosleep(&(struct timespec){ rest / 1000000, rest % 1000000 * 1000 }, NULL);
    }
    if (now.version != 0)
        fprintf(stderr, "the match is published in version %" PRIu32 " of its messages, which this program doesn't read\n", now.version);
    if (now.desync != FAZ_LATEST)
        fprintf(stderr, "desync at frame %" PRIu32 ": the players had another state\n", now.desync);
    faz_view_close(view);
    free_all();
    bool is_written = self.digests == NULL || fclose(self.digests) == 0;
    fprintf(stderr, "watched %" PRIu32 " frames\n", self.last);
    return is_written && now.version == 0 && now.desync == FAZ_LATEST ? ENDED : FAILED;
}
