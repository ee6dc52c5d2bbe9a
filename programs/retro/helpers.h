/* Helpers: threads that play ahead what may come, each on a core of its own. */
#ifndef RETRO_HELPERS_H
#define RETRO_HELPERS_H

#include "habits.h"
#include "states.h"

enum { HELPERS = 6, JOBS = 64, JOB_REQUESTS = 17, JOB_WORDS = 24 };

/* Its requests are carried out by a helper, in their order. */
typedef struct job {
    enum { JOB_NONE, JOB_WAITS, JOB_RUNS, JOB_DONE } stage;
    uint32_t number, turn; /* the session's number; when it was made */
    bool is_certain;       /* its words have come: it is no guess */
    guess of;
    fazgrond_request requests[JOB_REQUESTS];
    size_t count;
} job;

typedef struct helpers {
    pthread_t threads[HELPERS];
    runner *runners[HELPERS];
    uint32_t count, turn;
    bool keeps_one; /* the first one is kept free for words that have come */
    pthread_mutex_t lock;
    pthread_cond_t wake, done; /* a job is there, or is done */
    job jobs[JOBS];
    job *queue[JOBS]; /* those that wait, the first one first */
    uint32_t queued;
    job *certain;             /* that of words that have come, until it is grafted or let go */
    bool is_over, has_failed; /* has_failed: a core refused a state */
    habits habits[FAZGROND_PLAYERS];
    uint32_t noted[FAZGROND_PLAYERS]; /* how many words of each player it has seen */
    uint32_t made, grafted, added;
} helpers;

/* False if a core can't be opened, and why. */
bool helpers_begin(helpers *self, uint32_t count, bool keeps_one, const recipe *from, states *states, char *why, size_t room);
/* Waits until no job runs. Before the session is closed. */
void helpers_end(helpers *self);

/* Gives all jobs up. Waits until none runs. */
void helpers_leave(helpers *self, fazgrond_session *session);

/* Words of each player are counted anew, from frame 0 of an epoch on. */
void helpers_begin_epoch(helpers *self);

/* Hands the session what is done. False if a core refused a state. */
bool helpers_graft(helpers *self, fazgrond_session *session);

/* The same once a turn, before its advance; and gives up guesses that nobody has begun. */
bool helpers_collect(helpers *self, fazgrond_session *session);

/* Has a helper play the words that wait at a peer, up to frame `until`, before all guesses. Whether there is such a job now: not if
 * one of fewer words runs still. */
bool helpers_run_waiting(helpers *self, fazgrond_session *session, fazgrond_peer *peer, uint32_t until);

/* Those words wait no more: their job is given up if nobody has begun it. */
void helpers_let_go(helpers *self, fazgrond_session *session);

/* After it: guesses what the players of other machines (bit p - 1 of `far` for player p) do, if a helper is there for it. */
void helpers_guess(helpers *self, fazgrond_session *session, uint32_t far);
#endif
