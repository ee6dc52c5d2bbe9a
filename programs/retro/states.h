/* The states of a match, and who carries out the session's requests on them. */
#ifndef RETRO_STATES_H
#define RETRO_STATES_H

#include "core.h"

#include <fazgrond.h>
#include <pthread.h>

enum { SLOTS = 833 /* without guesses 257, and nine for each of 64 jobs */ };

/* A state. `path` is a digest of the rows that lead to it from the opening, `frame` how many frames of the match do. */
typedef struct slot {
    core_state state;
    uint64_t path, digest;
    uint32_t frame;
} slot;

/* By which row each frame was stepped last, from a frame of the match on. Rows of settled frames never change. */
typedef struct trail {
    uint32_t first;
    size_t count, room;
    fazgrond_row *rows;
} trail;

/* The digests of all states that were ever saved, by their paths, if they are asked for. */
typedef struct notes {
    bool is_on;
    pthread_mutex_t lock;
    struct {
        uint64_t path, digest;
    } * at;
    size_t room, count;
    uint32_t differing; /* states of the same path that came out otherwise */
} notes;

/* Slots never move: helpers write to theirs while others are written to. */
typedef struct states {
    slot slots[SLOTS];
    bool reloads; /* each state is loaded as it is saved */
    notes notes;
} states;

/* A core that carries out requests: the session's, or those of jobs. */
typedef struct runner {
    core core;
    states *states;
    trail *trail; /* on which its steps are kept; null: they aren't */
    slot *at;     /* which has the current state; null if it wasn't saved yet */
    slot spare;   /* for a state that nobody asked for */
    uint64_t path;
    uint32_t frame, loads, steps, saves;
    bool is_fresh; /* the last request that it carried out was a step: there is a picture and sound of it */
} runner;

/* Whether it was carried out; if not, the core refused a state, and the match can't go on. */
bool runner_obey(runner *self, const fazgrond_request *request);

/* Makes a state the current one, with nothing before it, and puts it into slot 0. */
bool runner_open(runner *self, const core_state *opening);

/* The same of the state at a frame of the match, which was saved as it is. */
bool runner_open_at(runner *self, const core_state *state, uint32_t frame);

/* Steps by a row, and saves into slot 0. */
bool runner_follow(runner *self, const fazgrond_row *row);

/* The row of a frame; null if it isn't on the trail. */
const fazgrond_row *trail_row(const trail *self, uint32_t frame);
/* The row of a frame that is on the trail is this one for good. The core may have stepped another one there, and gone on from a state
 * behind it that a helper made. */
void trail_settle(trail *self, uint32_t frame, const fazgrond_row *row);
void trail_free(trail *self);

/* Where paths begin: a machine that takes another state as it comes in begins at another frame, by rows that may be the same. */
uint64_t path_from(uint32_t frame);
uint64_t path_after(uint64_t path, const fazgrond_row *row);

/* The digest that was noted for a path; 0 if there is none. */
uint64_t notes_find(const notes *self, uint64_t path);

bool state_copy(core_state *to, const core_state *from);

/* A state as it is sent: the digest of the picture before it, and its bytes. `out` has room for so many more. */
enum { STATE_HEAD = 8 };

void state_write(const core_state *from, uint8_t *out);

/* The state that such bytes are; it lies in them. False if they are cut short. */
bool state_read(uint8_t *from, size_t length, core_state *out);

/* Begins anew, without any state. */
void states_begin(states *self, bool reloads, bool is_noted);
#endif
