/* What is known of a match that is watched: its settled rows and the digests of its states, from messages that nobody vouches
 * for. It has no network, and one thread at a time. */
#ifndef FAZ_TIMELINE_H
#define FAZ_TIMELINE_H

#include "faz_message.h"

/* What became of a message. The first valid one of a run, a digest or the header stands. */
typedef enum faz_taken {
    FAZ_NEW,
    FAZ_REPEATED,  /* all that it says was known */
    FAZ_EARLY,     /* it can't be taken yet, and is to be asked for again: there was no header, or no memory */
    FAZ_MALFORMED, /* it isn't of this match, was changed, or has other lengths than it should */
    FAZ_OTHER      /* it says something else than what stands */
} faz_taken;

typedef struct faz_timeline faz_timeline;

/* None if there is no memory. The game is that of the match; what another one sends is refused. */
faz_timeline *faz_timeline_open(const faz_game *game, const char *match);
void faz_timeline_close(faz_timeline *timeline);

/* Takes a message. Of a snapshot `state` is made a copy, if it isn't null and the answer is FAZ_NEW or FAZ_REPEATED; else it has
 * no meaning. */
faz_taken faz_timeline_take(faz_timeline *timeline, const uint8_t *bytes, size_t length, void *state);

/* How many messages became what. */
uint32_t faz_timeline_count(const faz_timeline *timeline, faz_taken taken);

/* The header; null if it hasn't come. No other message is taken before it. */
const faz_head *faz_timeline_head(const faz_timeline *timeline);

/* If no header has come but one of another version, that version; else 0. */
uint32_t faz_timeline_version(const faz_timeline *timeline);

/* The row of this frame; null if it hasn't come. */
const fazgrond_row *faz_timeline_row(const faz_timeline *timeline, uint32_t frame);

/* How many rows are there in a row from this frame on. They are counted up to so many. */
uint32_t faz_timeline_rows(const faz_timeline *timeline, uint32_t frame, uint32_t most);

/* The frame after the last row that has come. */
uint32_t faz_timeline_known(const faz_timeline *timeline);

/* The digest that begins a chapter; null if it hasn't come. */
const faz_sum *faz_timeline_sum(const faz_timeline *timeline, uint32_t chapter);

/* The frame after frames from this one on that couldn't be published; 0 if none is known that has this one. */
uint32_t faz_timeline_gap(const faz_timeline *timeline, uint32_t frame);

/* Whether an end has come: the greatest number of frames that one says, and its reason. */
bool faz_timeline_end(const faz_timeline *timeline, uint32_t *frames, const char **reason);
#endif
