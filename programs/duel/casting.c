#include "casting.h"

#include "faz_cast.h"
#include "duel_game.h"

#include <stdio.h>
#include <string.h>

enum { PATIENCE = 10000 /* milliseconds that the broker has at the end */ };

static faz_cast *cast;
static int players, published; /* of a match that is played here: so many frames */
static bool has_begun;         /* it is known from which frame on */

bool casting_open(const casting *settings, const duel *opening) {
    const char *why;
    fazgrond_settings session = fazgrond_settings_for((uint32_t)settings->players);
    faz_cast_settings made = { .servers = settings->broker,
                               .match = settings->match,
                               .me = settings->me,
                               .game = &duel_game,
                               .opening = opening,
                               .session = &session,
                               .rate = (uint32_t)settings->rate,
                               .limit = (uint32_t)settings->frames };
    if (settings->match == NULL)
        return true;
    players = settings->players;
    cast = faz_cast_open(&made, &why);
    if (cast == NULL)
        fprintf(stderr, "duel: it can't publish: %s\n", why);
    return cast != NULL;
}

/* Rows from the first one on that this machine has: it may have come into a match that ran. */
static bool begin(GGPOSession *session) {
    if (!has_begun && GGPO_SUCCEEDED(fazggpo_get_settled_from(session, &published))) {
        faz_cast_from(cast, (uint64_t)published);
        has_begun = true;
    }
    return has_begun;
}

void casting_turn(GGPOSession *session, field_in *field) {
    fazgrond_row row = { .count = (uint32_t)players };
    unsigned char *buffer;
    int frame, length, gone;
    if (cast == NULL || !GGPO_SUCCEEDED(fazggpo_get_settled_state(session, &frame, &buffer, &length)) || field(buffer, length) == NULL
        || !begin(session))
        return;
    for (; published < frame; published++) {
        if (!GGPO_SUCCEEDED(fazggpo_get_settled_input(session, published, row.words, sizeof row.words, &gone)))
            return;
        row.gone = (uint32_t)gone;
        faz_cast_row(cast, &row);
    }
    faz_cast_settled(cast, (uint32_t)frame, field(buffer, length));
}

void casting_frame(const uint32_t *words, uint32_t gone, int frame, const duel *field) {
    fazgrond_row row = { .count = (uint32_t)players, .gone = gone };
    if (cast == NULL)
        return;
    memcpy(row.words, words, row.count * sizeof *words);
    faz_cast_row(cast, &row);
    faz_cast_settled(cast, (uint32_t)frame, field);
}

bool casting_close(const char *reason) {
    faz_cast_state state;
    if (cast == NULL)
        return true;
    faz_cast_end(cast, reason);
    bool has_all = faz_cast_close(cast, PATIENCE, &state);
    fprintf(stderr, "published %u of %u frames, %u lost; %u messages sent again, %u disputed\n", state.stored, state.rows, state.lost,
            state.again, state.disputed);
    if (!has_all)
        fprintf(stderr, "duel: the broker doesn't have all: %s\n", state.why != NULL ? state.why : "it is too slow");
    cast = NULL;
    return has_all;
}
