/* A game as a value of functions, and its states at one machine. */
#ifndef SIM_GAME_H
#define SIM_GAME_H

#include <fazgrond.h>
#include <stdbool.h>

enum { GAME_TEXT = 512, GAME_SLOTS = 1024, GAME_STATE = 2048 };

/* A state is `size` bytes without pointers, GAME_STATE at most: it is saved and loaded as they are. */
typedef struct game {
    const char *name;
    size_t size;
    void (*open)(void *state, uint32_t players);
    void (*step)(void *state, const fazgrond_row *row);
    uint64_t (*digest)(const void *state); /* another one for most other states */
    void (*text)(const void *state, char out[GAME_TEXT]);
} game;

/* Adds words up; ships that shoot at each other (programs/duel); and a digest of all rows. */
extern const game game_tally, game_duel, game_digest;

/* The states of a game at one machine: the current one, a job's, and those that are saved in slots. */
typedef struct states {
    const game *game;
    uint32_t slots;
    unsigned char *bytes;
    bool is_taken[GAME_SLOTS];
    uint64_t frame, frames[GAME_SLOTS]; /* the frame of the current state, and of those in slots */
    uint32_t loads, steps;
    uint64_t job_steps;
    const char *wrong; /* the first request that was no proper one; null if there was none */
} states;

/* Opens them, with room for so many saved states: the opening is the current state, and in slot 0. What was open is closed. */
void states_open(states *self, const game *game, uint32_t players, uint32_t slots);
void states_close(states *self);

/* All that is saved is forgotten, and this state of a frame is the opening: also what is settled. */
void states_begin(states *self, const void *opening, uint64_t frame);

void *states_current(const states *self);
void *states_settled(const states *self);
void *states_saved(const states *self, uint32_t slot);

/* Whether no slot is taken. */
bool states_are_free(const states *self);

/* Carries out one request. Those of jobs aren't among them. */
void states_carry_out(states *self, const fazgrond_request *request);

/* Carries out all that a session has left. */
void states_carry_out_all(states *self, fazgrond_session *session);

/* A job that a helper runs beside the session, request by request. */
enum { JOB_REQUESTS = 64 };
typedef struct job {
    uint32_t number;
    size_t count, done;
    fazgrond_request requests[JOB_REQUESTS];
    uint64_t frame;
    _Alignas(8) unsigned char state[GAME_STATE];
} job;

/* Takes the requests that a guess has left: what they save to is taken from now on. */
void job_take(job *self, states *states, fazgrond_session *session);

/* Carries out so many of them, or all that are left. Whether none is left. */
bool job_run(job *self, states *states, size_t most);
#endif
