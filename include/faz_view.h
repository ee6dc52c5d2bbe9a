/* Watches a match that is published on a broker: joins it at any time, plays its settled rows, goes back and forth in it. A
 * thread of its own talks to the broker, and no call but faz_view_close waits for that. */
#ifndef FAZ_VIEW_H
#define FAZ_VIEW_H

#include "faz_message.h"

#ifdef __cplusplus
extern "C" {
#endif

typedef struct faz_view faz_view;

#define FAZ_LATEST UINT32_MAX

typedef struct faz_view_settings {
    const char *servers; /* of the broker: nats://127.0.0.1:4222, or several with a comma between each two */
    const char *match;   /* the match's name */
    const faz_game *game;
    uint32_t from;    /* the first frame that is shown, or FAZ_LATEST: the last snapshot's, and then it follows the match */
    bool is_live;     /* with FAZ_LATEST: shows nothing before the newest frame that is there */
    uint32_t cushion; /* so many frames are kept in hand, against a line that is late at times: 30, say */
} faz_view_settings;

typedef struct faz_view_state {
    uint32_t frame; /* of the state that is shown: how many rows it has */
    uint32_t ahead; /* how many rows more are there, up to 1024 */
    uint32_t known; /* the frame after the last row that has come */
    bool is_shown;  /* a state is there */
    bool is_paused;
    bool is_following;         /* it catches up with the match if it is behind */
    bool has_ended;            /* an end has come, all frames were played, and for a while there were no more */
    const char *reason;        /* of the end */
    uint32_t desync;           /* a frame at which the state was another than the players'; FAZ_LATEST: none */
    uint32_t gaps;             /* gaps that were jumped over */
    uint32_t gap_from, gap_to; /* the last of them: these frames, but not the last one, were never published */
    uint32_t asked;            /* how often rows were asked for that had not come by themselves */
    uint32_t malformed, other; /* messages that were dropped: FAZ_MALFORMED, FAZ_OTHER */
    uint32_t version;          /* of the match's header, if this library doesn't read it; else 0 */
} faz_view_state;

/* Begins to watch. Null if it can't, and why: a text that stays. */
faz_view *faz_view_open(const faz_view_settings *settings, const char **why);

/* Ends it, within a tenth of a second: a thread that still waits for the broker then gives all back once it is done, and calls
 * nothing of the game any more. */
void faz_view_close(faz_view *view);

/* Is called with each new state, the row that led to it, and how many rows it has; it calls nothing of the view. */
typedef void faz_seen(const void *state, const fazgrond_row *row, uint32_t frame, void *closure);

/* Once in each turn, as many times a second as the match has frames: plays none, one, or up to 8 frames to catch up. How many.
 * `seen` may be null. */
uint32_t faz_view_turn(faz_view *view, faz_seen *seen, void *closure);

/* The state that is shown, and the match's header: null as long as there is none. */
const void *faz_view_shown(const faz_view *view);
const faz_head *faz_view_head(faz_view *view);

void faz_view_pause(faz_view *view, bool is_paused);
/* Goes to a frame, from the snapshot before it, and plays on from there without catching up. */
void faz_view_seek(faz_view *view, uint32_t frame);
/* Follows the match again, from its newest frame. */
void faz_view_follow(faz_view *view);

void faz_view_look(faz_view *view, faz_view_state *state);

#ifdef __cplusplus
}
#endif
#endif
