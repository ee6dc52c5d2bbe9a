/* Guesses: frames that a helper runs on another thread, before the inputs come that would need them. */
#include "inside.h"

#include <stdatomic.h>

enum { MOST_JOBS = 64, MOST_ROWS = 8, MOST_REQUESTS = 2 * MOST_ROWS + 1, NAP = 500 /* microseconds */ };

/* Whose a job is: the session's, but for one that is fetched, which is its helper's. */
enum { IDLE, WAITING, FETCHED, DONE };

struct FazggpoJob {
    atomic_int stage;

    /* The guess: a word of an input stays as it was last, and from this frame on as it was before. */
    int player;
    uint32_t turn;
    uint32_t word;
    uint32_t number; /* the library's */
    uint32_t slots[MOST_ROWS];

    /* What the helper is handed. The buffer is that of a saved state, which stays as long as the job is out: `kept`, if the match has
     * gone on in another epoch, and forgotten the job and the state. */
    unsigned char *buffer;
    bool is_past;
    saved kept;
    int length;
    int frame;
    int rows;
    int inputs_size;
    uint8_t inputs[MOST_ROWS][FAZGROND_PLAYERS * sizeof(uint32_t)];
    int gone[MOST_ROWS];

    /* And what it makes. */
    bool is_whole;
    saved made[MOST_ROWS];
};

/* The last two different values of a word. */
typedef struct habit {
    uint32_t known; /* of how many words */
    uint32_t last;
    uint32_t before;
    bool has_before;
} habit;

struct guesses {
    int jobs;                      /* for each frame */
    habit habit[FAZGROND_PLAYERS]; /* of each word of each player */
    FazggpoGuesses count;
    FazggpoJob job[MOST_JOBS];
};

/* ---- On the helper's thread. */

static FazggpoJob *fetch(struct guesses *guesses) {
    for (int at = 0; at < MOST_JOBS; at++) {
        int waiting = WAITING;
        if (atomic_compare_exchange_strong(&guesses->job[at].stage, &waiting, FETCHED))
            return &guesses->job[at];
    }
    return NULL;
}

FazggpoJob *fazggpo_fetch_job(GGPOSession *session, int timeout) {
    struct guesses *guesses = session != NULL ? session->guesses : NULL;
    uint64_t until = ggponet_real_micros() + (timeout > 0 ? (uint64_t)timeout * 1000 : 0);
    for (;;) {
        FazggpoJob *job = guesses != NULL ? fetch(guesses) : NULL;
        if (job != NULL || ggponet_real_micros() >= until)
            return job;
        ggponet_sleep_micros(NAP);
    }
}

static bool run_row(FazggpoJob *job, const FazggpoHelper *helper, int at) {
    saved *made = &job->made[at];
    made->frame = job->frame + at + 1;
    if (!helper->advance_state(helper->helper, job->inputs[at], job->inputs_size, job->gone[at]))
        return false;
    made->taken = helper->save_state(helper->helper, &made->buffer, &made->length, &made->checksum, made->frame);
    made->is_guessed = true;
    return made->taken;
}

bool fazggpo_run_job(FazggpoJob *job, const FazggpoHelper *helper) {
    bool is_whole = helper->load_state(helper->helper, job->buffer, job->length);
    for (int at = 0; at < job->rows && is_whole; at++)
        is_whole = run_row(job, helper, at);
    job->is_whole = is_whole;
    atomic_store(&job->stage, DONE);
    return is_whole;
}

/* ---- On the game's thread. */

/* The job is over, and its buffers are given back. */
static void drop(GGPOSession *session, FazggpoJob *job) {
    saved kept = job->kept;
    memset(&job->kept, 0, sizeof job->kept);
    job->is_past = false;
    for (int at = 0; at < MOST_ROWS; at++)
        ggponet_give_back(session, &job->made[at]);
    atomic_store(&job->stage, IDLE);
    ggponet_give_back(session, &kept); /* or another job that began with it keeps it */
}

/* The states that a helper made become the session's, as far as they are kept. */
static void graft(GGPOSession *session, FazggpoJob *job) {
    uint32_t added = 0;
    for (int at = 0; at < job->rows; at++) {
        saved *slot = &session->slots[job->slots[at]];
        ggponet_give_back(session, slot);
        *slot = job->made[at];
        memset(&job->made[at], 0, sizeof job->made[at]);
    }
    int32_t answer = fazgrond_graft(&session->rollback, job->number, &added);
    for (int at = 0; at < job->rows && answer != FAZGROND_OK; at++)
        ggponet_give_back(session, &session->slots[job->slots[at]]);
    session->guesses->count.grafted += (int)added;
}

static void take_job(GGPOSession *session, FazggpoJob *job) {
    session->guesses->count.run++;
    if (job->is_past) {
        drop(session, job);
        return;
    }
    if (job->is_whole)
        graft(session, job);
    else {
        ggpo_log(session, "a helper could not run its job");
        fazgrond_forget(&session->rollback, job->number);
    }
    drop(session, job);
}

void ggponet_take_jobs(GGPOSession *session) {
    for (int at = 0; session->guesses != NULL && at < MOST_JOBS; at++)
        if (atomic_load(&session->guesses->job[at].stage) == DONE)
            take_job(session, &session->guesses->job[at]);
}

/* What a helper has fetched it runs to its end, for nothing: it writes to no slot. */
void ggponet_leave_jobs(GGPOSession *session) {
    for (int at = 0; session->guesses != NULL && at < MOST_JOBS; at++) {
        FazggpoJob *job = &session->guesses->job[at];
        int stage = WAITING;
        bool was_waiting = atomic_compare_exchange_strong(&job->stage, &stage, IDLE);
        if (stage != IDLE && !job->is_past)
            fazgrond_forget(&session->rollback, job->number);
        if (was_waiting || stage == DONE)
            drop(session, job);
        else
            job->is_past = stage == FETCHED;
    }
}

void ggponet_note_epoch(GGPOSession *session) {
    for (int at = 0; session->guesses != NULL && at < FAZGROND_PLAYERS; at++)
        session->guesses->habit[at].known = 0;
}

bool ggponet_keep_state(GGPOSession *session, const saved *state) {
    for (int at = 0; session->guesses != NULL && at < MOST_JOBS; at++) {
        FazggpoJob *job = &session->guesses->job[at];
        if (job->is_past && job->buffer == state->buffer) {
            job->kept = *state;
            return true;
        }
    }
    return false;
}

/* What no helper has fetched so far comes too late: newer jobs are worth more. */
static void withdraw(GGPOSession *session) {
    for (int at = 0; at < MOST_JOBS; at++) {
        FazggpoJob *job = &session->guesses->job[at];
        int waiting = WAITING;
        if (!atomic_compare_exchange_strong(&job->stage, &waiting, IDLE))
            continue;
        fazgrond_forget(&session->rollback, job->number);
        drop(session, job);
    }
}

/* Whether a player of the session of fazgrond.h is a word of a remote player's input. */
static bool is_remote(const GGPOSession *session, int player) {
    return session->player[ggponet_handle_of_word(session, player) - 1].type == GGPO_PLAYERTYPE_REMOTE;
}

static void note_words(GGPOSession *session, int player) {
    habit *seen = &session->guesses->habit[player - 1];
    uint32_t words = 0, word;
    if (fazgrond_confirmed(&session->rollback, (uint8_t)player, &words) != FAZGROND_OK)
        return;
    for (; seen->known < words; seen->known++) {
        if (fazgrond_confirmed_word(&session->rollback, (uint8_t)player, seen->known, &word) != FAZGROND_OK)
            continue;
        if (seen->known > 0 && word != seen->last) {
            seen->before = seen->last;
            seen->has_before = true;
        }
        seen->last = word;
    }
}

static FazggpoJob *idle_job(struct guesses *guesses) {
    for (int at = 0; at < MOST_JOBS; at++)
        if (atomic_load(&guesses->job[at].stage) == IDLE)
            return &guesses->job[at];
    return NULL;
}

/* Whether a job for the same guess is out. */
static bool is_out(struct guesses *guesses, int player, uint32_t turn, uint32_t word) {
    for (int at = 0; at < MOST_JOBS; at++) {
        const FazggpoJob *job = &guesses->job[at];
        if (atomic_load(&guesses->job[at].stage) != IDLE && job->player == player && job->turn == turn && job->word == word)
            return true;
    }
    return false;
}

/* Takes down what a request asks of a job's helper. */
static bool note_request(GGPOSession *session, FazggpoJob *job, const fazgrond_request *request) {
    const saved *from;
    switch (request->kind) {
    case FAZGROND_JOB_LOAD:
        if (request->slot >= session->slot_count || !session->slots[request->slot].taken)
            return false;
        from = &session->slots[request->slot];
        job->buffer = from->buffer;
        job->length = from->length;
        job->frame = from->frame;
        return true;
    case FAZGROND_JOB_STEP:
        if (job->rows == MOST_ROWS)
            return false;
        ggponet_write_row(session, &request->row, job->inputs[job->rows]);
        job->gone[job->rows] = ggponet_flags_of(session, &request->row);
        return true;
    case FAZGROND_JOB_SAVE:
        if (job->rows == MOST_ROWS || !ggponet_has_slot(session, request->slot))
            return false;
        job->slots[job->rows++] = request->slot;
        return true;
    default: return false;
    }
}

/* Takes the requests of a guess: into the job, if it was made. */
static bool take_requests(GGPOSession *session, FazggpoJob *job, bool is_made) {
    fazgrond_request requests[MOST_REQUESTS];
    size_t count;
    job->rows = 0;
    job->inputs_size = session->players * session->input_size;
    while ((count = fazgrond_take_requests(&session->rollback, requests, MOST_REQUESTS)) > 0)
        for (size_t at = 0; at < count && is_made; at++)
            is_made = note_request(session, job, &requests[at]);
    return is_made;
}

/* Makes a job of a guess, if there is anything to run for it: so many words as the last one, and then the one before. */
static bool make_job(GGPOSession *session, int player, uint32_t held) {
    const habit *seen = &session->guesses->habit[player - 1];
    uint32_t words[GGPO_MAX_PREDICTION_FRAMES + 1], turn = seen->known + held, frame = (uint32_t)(session->frame - session->base);
    FazggpoJob *job = idle_job(session->guesses);
    if (job == NULL || !seen->has_before || turn > frame || is_out(session->guesses, player, turn, seen->before))
        return false;
    for (uint32_t at = 0; at < held; at++)
        words[at] = seen->last;
    words[held] = seen->before;
    int32_t answer = fazgrond_guess(&session->rollback, (uint8_t)player, words, held + 1, frame + 1, &job->number);
    bool is_made = answer == FAZGROND_OK;
    if (!take_requests(session, job, is_made)) {
        if (is_made)
            fazgrond_forget(&session->rollback, job->number);
        return false;
    }
    job->player = player;
    job->turn = turn;
    job->word = seen->before;
    session->guesses->count.made++;
    atomic_store(&job->stage, WAITING);
    return true;
}

void ggponet_make_jobs(GGPOSession *session) {
    if (session->guesses == NULL)
        return;
    int left = session->guesses->jobs;
    withdraw(session);
    for (int player = 1; player <= ggponet_all_words(session); player++)
        if (is_remote(session, player))
            note_words(session, player);
    for (uint32_t held = 0; held <= GGPO_MAX_PREDICTION_FRAMES; held++)
        for (int player = 1; player <= ggponet_all_words(session) && left > 0; player++)
            if (is_remote(session, player) && make_job(session, player, held))
                left--;
}

void ggponet_note_use(GGPOSession *session, const saved *state) {
    if (state->is_guessed)
        session->guesses->count.used++;
}

bool ggponet_has_helpers(const GGPOSession *session) {
    for (int at = 0; session->guesses != NULL && at < MOST_JOBS; at++)
        if (atomic_load(&session->guesses->job[at].stage) == FETCHED)
            return true;
    return false;
}

void ggponet_free_jobs(GGPOSession *session) {
    for (int at = 0; session->guesses != NULL && at < MOST_JOBS; at++)
        drop(session, &session->guesses->job[at]);
    free(session->guesses);
    session->guesses = NULL;
}

GGPOErrorCode fazggpo_guess(GGPOSession *session, int jobs) {
    if (session == NULL)
        return GGPO_ERRORCODE_INVALID_SESSION;
    if (session->is_spectating || session->sync_frames != 0)
        return ggponet_refuse(session, GGPO_ERRORCODE_UNSUPPORTED, "guesses are for matches");
    if (jobs < 0 || jobs > MOST_JOBS)
        return ggponet_refuse(session, GGPO_ERRORCODE_INVALID_REQUEST, "%d jobs; 0 to %d were expected", jobs, MOST_JOBS);
    if (session->guesses == NULL)
        session->guesses = calloc(1, sizeof *session->guesses);
    if (session->guesses == NULL)
        return ggponet_refuse(session, GGPO_ERRORCODE_GENERAL_FAILURE, "no memory");
    session->guesses->jobs = jobs;
    return GGPO_OK;
}

GGPOErrorCode fazggpo_get_guesses(GGPOSession *session, FazggpoGuesses *guesses) {
    if (session == NULL)
        return GGPO_ERRORCODE_INVALID_SESSION;
    if (guesses == NULL)
        return ggponet_refuse(session, GGPO_ERRORCODE_INVALID_REQUEST, "no place for the numbers");
    memset(guesses, 0, sizeof *guesses);
    if (session->guesses != NULL)
        *guesses = session->guesses->count;
    return GGPO_OK;
}
