/* The duel's match on a broker, for viewers (docs/WATCH.md). Without DUEL_CAST there is none, and the NATS library isn't needed. */
#ifndef DUEL_CASTING_H
#define DUEL_CASTING_H

#include "duel.h"

#include <ggponet.h>
#include <stdio.h>

typedef struct casting {
    const char *broker, *match; /* no match: nothing is published */
    const char *me;             /* who publishes: another name at each */
    int players;
    long frames, rate; /* frames from this one on aren't published, if it isn't 0; how many a second */
} casting;

/* Where the field is in a saved state, or null if a state has another length. */
typedef const duel *field_in(const unsigned char *buffer, int length);

#ifdef DUEL_CAST
/* Begins to publish, from this opening on. False if it can't, and why is said. */
bool casting_open(const casting *settings, const duel *opening);
/* After a turn of who plays: what is settled since. */
void casting_turn(GGPOSession *session, field_in *field);
/* Of who watches: a frame, and the field after it. */
void casting_frame(const uint32_t *words, uint32_t gone, int frame, const duel *field);
/* The match is over. Whether the broker has all of it. */
bool casting_close(const char *reason);
#else
static inline bool casting_open(const casting *settings, const duel *opening) {
    (void)opening;
    return settings->match == NULL || (fputs("duel: it was built without libnats-dev: it can't publish\n", stderr), false);
}
static inline void casting_turn(GGPOSession *session, field_in *field) { (void)session, (void)field; }
static inline void casting_frame(const uint32_t *words, uint32_t gone, int frame, const duel *field) {
    (void)words, (void)gone, (void)frame, (void)field;
}
static inline bool casting_close(const char *reason) { return reason != NULL; }
#endif
#endif
