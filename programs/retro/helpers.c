#include "helpers.h"

#include <stdio.h>
#include <stdlib.h>
#include <string.h>

enum { GUESSES = 512, A_TURN = 2 /* jobs, for each helper */, PATIENCE = 2 /* turns that a job waits for a helper */ };

typedef struct helper {
    helpers *all;
    runner *runner;
    bool is_kept; /* for words that have come */
} helper;

/* The next job, once there is one; null if it is over. */
static job *fetch(helpers *all, bool is_kept) {
    job *one = NULL;
    pthread_mutex_lock(&all->lock);
    while (!all->is_over && (all->queued == 0 || (is_kept && !all->queue[0]->is_certain)))
        pthread_cond_wait(&all->wake, &all->lock);
    if (!all->is_over) {
        one = all->queue[0];
        memmove(all->queue, all->queue + 1, --all->queued * sizeof(job *));
        one->stage = JOB_RUNS;
    }
    pthread_mutex_unlock(&all->lock);
    return one;
}

static void *help(void *closure) {
    helper *self = closure;
    job *one;
    while ((one = fetch(self->all, self->is_kept)) != NULL) {
        bool goes_on = true;
        for (size_t at = 0; at < one->count && goes_on; at++)
            goes_on = runner_obey(self->runner, &one->requests[at]);
        pthread_mutex_lock(&self->all->lock);
        one->stage = JOB_DONE;
        self->all->has_failed |= !goes_on;
        pthread_cond_signal(&self->all->done);
        pthread_mutex_unlock(&self->all->lock);
    }
    free(self);
    return NULL;
}

bool helpers_begin(helpers *self, uint32_t count, bool keeps_one, const recipe *from, states *states, char *why, size_t room) {
    memset(self, 0, sizeof *self);
    self->keeps_one = keeps_one;
    pthread_mutex_init(&self->lock, NULL);
    pthread_cond_init(&self->wake, NULL);
    pthread_cond_init(&self->done, NULL);
    for (int at = 0; at < FAZGROND_PLAYERS; at++)
        self->habits[at] = habits_new();
    for (; self->count < count && self->count < HELPERS; self->count++) {
        runner *made = self->runners[self->count] = calloc(1, sizeof *made);
        helper *one = malloc(sizeof *one);
        if (made != NULL && one != NULL && core_open(&made->core, from)) {
            made->states = states;
            *one = (helper){ self, made, keeps_one && self->count == 0 };
            if (pthread_create(&self->threads[self->count], NULL, help, one) == 0)
                continue;
        }
        snprintf(why, room, "no helper: %s", made != NULL ? made->core.why : "no memory");
        free(one);
        if (made != NULL)
            core_close(&made->core);
        free(made);
        return false;
    }
    return true;
}

void helpers_end(helpers *self) {
    pthread_mutex_lock(&self->lock);
    self->is_over = true;
    pthread_cond_broadcast(&self->wake);
    pthread_mutex_unlock(&self->lock);
    for (uint32_t at = 0; at < self->count; at++) {
        pthread_join(self->threads[at], NULL);
        core_close(&self->runners[at]->core);
        free(self->runners[at]);
    }
    pthread_mutex_destroy(&self->lock);
    pthread_cond_destroy(&self->wake);
    pthread_cond_destroy(&self->done);
    self->count = 0;
}

void helpers_leave(helpers *self, fazgrond_session *session) {
    pthread_mutex_lock(&self->lock);
    self->queued = 0;
    for (int at = 0; at < JOBS; at++) {
        job *one = &self->jobs[at];
        while (one->stage == JOB_RUNS)
            pthread_cond_wait(&self->done, &self->lock);
        if (one->stage != JOB_NONE)
            (void)fazgrond_forget(session, one->number);
        one->stage = JOB_NONE;
    }
    self->certain = NULL;
    pthread_mutex_unlock(&self->lock);
}

void helpers_begin_epoch(helpers *self) { memset(self->noted, 0, sizeof self->noted); }

/* Takes a job that waits out of the queue. Whether it still waited. */
static bool take_back(helpers *self, job *one) {
    uint32_t at = 0;
    while (at < self->queued && self->queue[at] != one)
        at++;
    if (at == self->queued)
        return false;
    memmove(self->queue + at, self->queue + at + 1, (--self->queued - at) * sizeof(job *));
    return true;
}

/* Gives a job up that nobody has begun, and says whether that was so. */
static bool give_up(helpers *self, fazgrond_session *session, job *one) {
    bool is_idle = one->stage == JOB_WAITS && take_back(self, one);
    if (is_idle) {
        (void)fazgrond_forget(session, one->number);
        one->stage = JOB_NONE;
    }
    return is_idle;
}

static void graft_done(helpers *self, fazgrond_session *session) {
    uint32_t added;
    for (int at = 0; at < JOBS && self->count > 0 && !self->has_failed; at++) {
        job *one = &self->jobs[at];
        if (one->stage != JOB_DONE)
            continue;
        if (fazgrond_graft(session, one->number, &added) == FAZGROND_OK && !one->is_certain) {
            self->grafted++;
            self->added += added;
        }
        one->stage = JOB_NONE;
        self->certain = one == self->certain ? NULL : self->certain;
    }
}

bool helpers_graft(helpers *self, fazgrond_session *session) {
    pthread_mutex_lock(&self->lock);
    graft_done(self, session);
    bool goes_on = !self->has_failed;
    pthread_mutex_unlock(&self->lock);
    return goes_on;
}

bool helpers_collect(helpers *self, fazgrond_session *session) {
    pthread_mutex_lock(&self->lock);
    self->turn++;
    graft_done(self, session);
    for (int at = 0; at < JOBS && self->count > 0 && !self->has_failed; at++)
        if (!self->jobs[at].is_certain && self->turn - self->jobs[at].turn >= PATIENCE)
            give_up(self, session, &self->jobs[at]);
    bool goes_on = !self->has_failed;
    pthread_mutex_unlock(&self->lock);
    return goes_on;
}

/* A place for a guess's job; null if there is none, or the same one is out. */
static job *place_for(helpers *self, const guess *of) {
    job *found = NULL;
    for (int at = 0; at < JOBS; at++) {
        job *one = &self->jobs[at];
        if (one->stage == JOB_NONE)
            found = one;
        else if (!one->is_certain && one->of.player == of->player && one->of.frame == of->frame && one->of.word == of->word)
            return NULL;
    }
    return found;
}

/* Takes the requests of a job that the session has made if it answered so, and puts it into the queue: what is certain goes first. */
static bool begin(helpers *self, fazgrond_session *session, job *one, int32_t code) {
    fazgrond_request none;
    one->count = code == FAZGROND_OK ? fazgrond_take_requests(session, one->requests, JOB_REQUESTS) : 0;
    while (fazgrond_take_requests(session, &none, 1) > 0) {
    }
    if (code != FAZGROND_OK)
        return false;
    one->turn = self->turn;
    pthread_mutex_lock(&self->lock);
    uint32_t at = one->is_certain ? 0 : self->queued;
    memmove(&self->queue[at + 1], &self->queue[at], (self->queued++ - at) * sizeof(job *));
    self->queue[at] = one;
    one->stage = JOB_WAITS;
    pthread_cond_broadcast(&self->wake);
    pthread_mutex_unlock(&self->lock);
    return true;
}

/* A helper plays up to frame `until` what would be if a player gave these words next. */
static bool start(helpers *self, fazgrond_session *session, job *one, const uint32_t *words, size_t count, uint32_t until) {
    one->is_certain = false;
    bool is_made = begin(self, session, one, fazgrond_guess(session, (uint8_t)one->of.player, words, count, until, &one->number));
    self->made += is_made;
    return is_made;
}

bool helpers_run_waiting(helpers *self, fazgrond_session *session, fazgrond_peer *peer, uint32_t until) {
    job *one = NULL;
    pthread_mutex_lock(&self->lock);
    bool is_free = self->certain == NULL || give_up(self, session, self->certain);
    for (int at = 0; at < JOBS && is_free; at++)
        one = self->jobs[at].stage == JOB_NONE ? &self->jobs[at] : one;
    pthread_mutex_unlock(&self->lock);
    if (one == NULL)
        return false;
    one->is_certain = true;
    self->certain = begin(self, session, one, fazgrond_peer_guess(peer, session, until, &one->number)) ? one : NULL;
    return self->certain != NULL;
}

void helpers_let_go(helpers *self, fazgrond_session *session) {
    pthread_mutex_lock(&self->lock);
    if (self->certain != NULL)
        give_up(self, session, self->certain);
    self->certain = NULL;
    pthread_mutex_unlock(&self->lock);
}

/* All guesses of the players who are far; `now` is the frame that the game is at. */
static int all_guesses(helpers *self, fazgrond_session *session, uint32_t far, uint32_t now, guess *out) {
    uint32_t known, word;
    int count = 0;
    for (uint32_t player = 1; player <= FAZGROND_PLAYERS; player++) {
        if ((far >> (player - 1) & 1) == 0 || fazgrond_confirmed(session, (uint8_t)player, &known) != FAZGROND_OK)
            continue;
        uint32_t *noted = &self->noted[player - 1];
        for (; *noted < known && fazgrond_confirmed_word(session, (uint8_t)player, *noted, &word) == FAZGROND_OK; (*noted)++)
            habits_note(&self->habits[player - 1], word);
        count += habits_guess(&self->habits[player - 1], player, known, now, out + count, GUESSES - count);
    }
    return count;
}

static int by_worth(const void *one, const void *other) {
    double x = ((const guess *)one)->worth, y = ((const guess *)other)->worth;
    return (x < y) - (x > y);
}

void helpers_guess(helpers *self, fazgrond_session *session, uint32_t far) {
    guess list[GUESSES];
    uint32_t now, known, words[JOB_WORDS], made = 0, guessing = self->count - (self->keeps_one && self->count > 0);
    if (guessing == 0 || fazgrond_frame(session, &now) != FAZGROND_OK)
        return;
    int count = all_guesses(self, session, far, now, list);
    qsort(list, (size_t)count, sizeof *list, by_worth);
    for (int at = 0; at < count && made < A_TURN * guessing; at++) {
        const guess *of = &list[at];
        pthread_mutex_lock(&self->lock);
        job *one = place_for(self, of);
        pthread_mutex_unlock(&self->lock);
        if (one == NULL || fazgrond_confirmed(session, (uint8_t)of->player, &known) != FAZGROND_OK || of->frame - known >= JOB_WORDS)
            continue;
        for (uint32_t frame = known; frame < of->frame; frame++)
            words[frame - known] = self->habits[of->player - 1].held;
        words[of->frame - known] = of->word;
        one->of = *of;
        /* not past the frame that is shown: the next one is played here, with its picture and sound */
        made += start(self, session, one, words, of->frame - known + 1, now < of->frame + 8 ? now : of->frame + 8);
    }
}
