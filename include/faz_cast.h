/* Publishes a match to a broker, whose stream is there (faz-cast --create), for any number of viewers. No call but faz_cast_close
 * waits for the broker: a thread of its own does. */
#ifndef FAZ_CAST_H
#define FAZ_CAST_H

#include "faz_message.h"

#ifdef __cplusplus
extern "C" {
#endif

typedef struct faz_cast faz_cast;

typedef struct faz_cast_settings {
    const char *servers; /* of the broker: nats://127.0.0.1:4222, or several with a comma between each two */
    const char *match;   /* the match's name: the same at all who publish it */
    const char *me;      /* who publishes: another name at each */
    const faz_game *game;
    const void *opening;              /* the state before frame 0 */
    const fazgrond_settings *session; /* of whom only what all players have alike is told */
    uint32_t rate;                    /* frames a second */
    uint32_t limit;                   /* frames from this one on aren't published; 0: no limit but a session's */
} faz_cast_settings;

typedef struct faz_cast_state {
    uint32_t rows;     /* that were given */
    uint32_t stored;   /* that the broker has, from its own words */
    uint32_t lost;     /* that found no room while the broker was away: viewers are told a gap */
    uint32_t again;    /* messages that had to be sent again */
    uint32_t disputed; /* messages in whose place the broker had another one; they stand beside it */
    const char *why;   /* why the broker didn't take one at last; null if that never happened */
} faz_cast_state;

/* Begins to publish. Null if it can't, and why: a text that stays. */
faz_cast *faz_cast_open(const faz_cast_settings *settings, const char **why);

/* The next settled row, from frame 0 on. Frames are those of the match, also where it goes on in epochs. */
void faz_cast_row(faz_cast *cast, const fazgrond_row *row);

/* The state after so many settled rows, all of which were given. Give it whenever there is one: some are kept for a snapshot. */
void faz_cast_settled(faz_cast *cast, uint32_t frame, const void *state);

/* After each turn of a session: both, with its settled state (fazgrond_settled_slot). */
void faz_cast_turn(faz_cast *cast, fazgrond_session *session, uint32_t frame, const void *state);

/* The next row that is given is that of this frame: this machine came into the match there. Viewers are told that it has none of
 * those before, unless it has given them; another one who publishes may have them. A machine that came in before its first row
 * can be told of has no opening to publish, so call this before anything else then. */
void faz_cast_from(faz_cast *cast, uint64_t frame);

/* ---- A match that goes on in epochs: faz_cast_turn reads the frames of the session that it is lent, which are an epoch's.
 *
 * So many frames of the match came before the epoch in which this machine came in. Rows of them that it has are given by
 * faz_cast_row first. */
void faz_cast_epoch(faz_cast *cast, uint64_t base);

/* In the place of fazgrond_peer_go_on, whose answer it gives: publishes the rows of an epoch that is over, and goes on with the
 * next. Call fazgrond_synchronize_input before it if fazgrond_has_news, and carry out its requests; and call faz_cast_turn right
 * after it has answered FAZGROND_NOTHING, before the session is given words, and at no other place: rows that are settled later
 * may be past the end. */
int32_t faz_cast_go_on(faz_cast *cast, fazgrond_session *session, fazgrond_peer *peer, uint32_t *frames);

/* The match has ended after the rows that were given. */
void faz_cast_end(faz_cast *cast, const char *reason);

void faz_cast_look(faz_cast *cast, faz_cast_state *state);

/* Waits so many milliseconds at most until the broker has all. Whether it has, and how far it came. A thread that still waits for
 * the broker then gives all back once it is done, and calls nothing of the game any more. */
bool faz_cast_close(faz_cast *cast, uint32_t milliseconds, faz_cast_state *state);

#ifdef __cplusplus
}
#endif
#endif
