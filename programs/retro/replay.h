/* What is kept of a match: its settled rows with its opening, which can be played again. */
#ifndef RETRO_REPLAY_H
#define RETRO_REPLAY_H

#include "match.h"

#include <stdio.h>

typedef struct replay {
    facts facts;
    bool reloads;
    uint32_t players, first, count; /* from this frame of the match on, so many */
    core_state opening;
    fazgrond_row *rows;
    match_part *parts; /* of a match into which players come back; the first begins at the first frame or before it */
    uint32_t part_count;
} replay;

/* Writes the files that were asked for: the replay, the digests of all settled frames, and the session's log as a script, of which
 * `rollduel play --picture` draws a picture. Whether all could be written, and no state came out in two ways. */
bool replay_write_all(match *self);

bool replay_read(const char *path, replay *out);
void replay_free(replay *self);

/* Plays settled rows one after another on a core, and digests each frame's state if a file is open for that. */
typedef struct playback {
    core *core;
    core_state state;
    bool reloads;
    uint32_t frame;
    FILE *digests;
} playback;

bool playback_begin(playback *self, const core_state *opening);
bool playback_step(playback *self, const fazgrond_row *row);
#endif
