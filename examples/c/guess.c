/* A guess that comes true: a thread runs the frames that player 2's words would make, before they come. */
#include <fazgrond.h>
#include <inttypes.h>
#include <pthread.h>
#include <stdio.h>
#include <stdlib.h>

#define SLOTS 64
#define REQUESTS 17 /* a load, and for each of at most 8 frames a step and a save */

typedef struct game {
    uint64_t state;
    uint64_t saved[SLOTS];
    int steps;
} game;

typedef struct job {
    uint64_t *saved; /* the game's */
    uint64_t state;
    fazgrond_request requests[REQUESTS];
    size_t count;
} job;

static void must(int32_t code) {
    if (code != FAZGROND_OK) {
        fprintf(stderr, "refused: %" PRId32 "\n", code);
        exit(1);
    }
}

/* Ten times the number, and of each player the number times the word, or 5 if the player has left. */
static uint64_t stepped(uint64_t state, const fazgrond_row *row) {
    uint64_t sum = 10 * state;
    for (uint32_t at = 0; at < row->count; at++)
        sum += (row->gone >> at & 1) != 0 ? 5 : (uint64_t)(at + 1) * row->words[at];
    return sum % 1000000;
}

static void carry_out(game *game, const fazgrond_request *request) {
    switch (request->kind) {
    case FAZGROND_LOAD:
        game->state = game->saved[request->slot];
        break;
    case FAZGROND_SAVE:
        game->saved[request->slot] = game->state;
        break;
    case FAZGROND_STEP:
        game->state = stepped(game->state, &request->row);
        game->steps++;
        break;
    }
}

static void carry_out_all(game *game, fazgrond_session *session) {
    fazgrond_request request;
    while (fazgrond_take_requests(session, &request, 1) == 1)
        carry_out(game, &request);
}

/* On a thread of its own: the job's slots are its alone, and what it loads stays as it is. */
static void *run(void *argument) {
    job *job = argument;
    for (size_t at = 0; at < job->count; at++) {
        const fazgrond_request *request = &job->requests[at];
        switch (request->kind) {
        case FAZGROND_JOB_LOAD:
            job->state = job->saved[request->slot];
            break;
        case FAZGROND_JOB_STEP:
            job->state = stepped(job->state, &request->row);
            break;
        case FAZGROND_JOB_SAVE:
            job->saved[request->slot] = job->state;
            break;
        }
    }
    return NULL;
}

static void advance(game *game, fazgrond_session *session) {
    fazgrond_reached reached;
    must(fazgrond_add_local_input(session, 1, 1));
    must(fazgrond_advance_frame(session, &reached));
    carry_out_all(game, session);
}

/* Three frames of player 1, and then player 2's word 3 in each of them: what a rollback costs, guessed or not. */
static void play(int is_guessed) {
    static const uint32_t words[] = { 3 };
    game game = { 0 };
    fazgrond_session session = FAZGROND_CLOSED;
    fazgrond_settings settings = fazgrond_settings_for(2);
    job job = { .saved = game.saved };
    pthread_t thread;
    uint32_t number, added, repeated;
    fazgrond_row row;

    settings.local = 1;
    must(fazgrond_open(&session, &settings));
    must(fazgrond_limit_slots(&session, SLOTS));
    advance(&game, &session);
    advance(&game, &session);

    if (is_guessed) {
        must(fazgrond_guess(&session, 2, words, 1, 3, &number));
        job.count = fazgrond_take_requests(&session, job.requests, REQUESTS);
        if (pthread_create(&thread, NULL, run, &job) != 0)
            exit(1);
    }
    advance(&game, &session); /* the game goes on meanwhile */
    if (is_guessed) {
        pthread_join(thread, NULL);
        must(fazgrond_graft(&session, number, &added));
        printf("job %" PRIu32 ": %" PRIu32 " states\n", number, added);
    }

    for (uint32_t frame = 0; frame < 3; frame++)
        must(fazgrond_remote_input(&session, 2, frame, 3, &repeated));
    game.steps = 0;
    must(fazgrond_synchronize_input(&session, &row));
    carry_out_all(&game, &session);
    printf("%s: %d frames run again, state %" PRIu64 "\n", is_guessed ? "guessed" : "not guessed", game.steps, game.state);
    fazgrond_close(&session);
}

int main(void) {
    play(0);
    play(1);
    return 0;
}
