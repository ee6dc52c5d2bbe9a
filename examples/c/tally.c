/* Tally, a game of one number, and a word of player 2 that comes late. */
#include <fazgrond.h>
#include <inttypes.h>
#include <stdio.h>
#include <stdlib.h>

#define SLOTS 257

typedef struct tally {
    uint64_t state;
    uint64_t saved[SLOTS];
} tally;

static void must(int32_t code) {
    if (code != FAZGROND_OK) {
        fprintf(stderr, "refused: %" PRId32 "\n", code);
        exit(1);
    }
}

/* Ten times the number, and of each player the number times the word, or 5 if the player has left. */
static uint64_t stepped(uint64_t state, const fazgrond_row *row) {
    uint64_t sum = 10 * state;
    for (uint32_t at = 0; at < row->count; at++)
        sum += (row->gone >> at & 1) != 0 ? 5 : (uint64_t)(at + 1) * row->words[at];
    return sum % 1000000;
}

static void carry_out(tally *game, const fazgrond_request *request) {
    switch (request->kind) {
    case FAZGROND_LOAD:
        game->state = game->saved[request->slot];
        printf("  load slot %" PRIu32 ": state %" PRIu64 "\n", request->slot, game->state);
        break;
    case FAZGROND_SAVE:
        game->saved[request->slot] = game->state;
        printf("  save slot %" PRIu32 "\n", request->slot);
        break;
    case FAZGROND_STEP:
        game->state = stepped(game->state, &request->row);
        printf("  step %" PRIu32 " %" PRIu32 ": state %" PRIu64 "\n", request->row.words[0], request->row.words[1],
               game->state);
        break;
    case FAZGROND_FREE:
        printf("  free slot %" PRIu32 "\n", request->slot);
        break;
    }
}

static void carry_out_all(tally *game, fazgrond_session *session) {
    fazgrond_request requests[16];
    size_t count;
    while ((count = fazgrond_take_requests(session, requests, 16)) > 0)
        for (size_t at = 0; at < count; at++)
            carry_out(game, &requests[at]);
}

static void advance(tally *game, fazgrond_session *session) {
    fazgrond_reached reached;
    must(fazgrond_add_local_input(session, 1, 1));
    must(fazgrond_advance_frame(session, &reached));
    carry_out_all(game, session);
    printf("frame %" PRIu32 " from %" PRIu32 " rerun %" PRIu32 " state %" PRIu64 "\n", reached.frame, reached.from,
           reached.rerun, game->state);
}

int main(void) {
    static tally game;
    fazgrond_session session = FAZGROND_CLOSED;
    fazgrond_settings settings = fazgrond_settings_for(2);
    uint32_t repeated, settled;
    fazgrond_row row;

    settings.local = 1;
    must(fazgrond_open(&session, &settings));
    game.state = game.saved[0] = 0; /* the opening */
    advance(&game, &session);
    advance(&game, &session);

    printf("player 2 gave 3 in frame 0\n");
    must(fazgrond_remote_input(&session, 2, 0, 3, &repeated));
    must(fazgrond_synchronize_input(&session, &row));
    carry_out_all(&game, &session);

    must(fazgrond_settled(&session, &settled));
    printf("settled %" PRIu32 " state %" PRIu64 "\n", settled, game.state);
    fazgrond_close(&session);
    return 0;
}
