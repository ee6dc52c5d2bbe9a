/* A match on a broker, for viewers (docs/WATCH.md). Without RETRO_CAST there is none, and the NATS library isn't needed. */
#ifndef RETRO_CASTING_H
#define RETRO_CASTING_H

#include "match.h"

#include <stdio.h>

#ifdef RETRO_CAST
/* Begins to publish a match, if that is asked for. False if it can't, and why is said. */
bool casting_open(const match *of);
/* The same where this machine came into a match that ran, with what it has of it. */
bool casting_come(const match *of);
/* After a turn: what is settled since. */
void casting_turn(match *of);
/* The match is over. Whether the broker has all of it. */
bool casting_close(const char *reason);
/* Watches a match that is published, on this core. */
outcome casting_watch(runner *on, const wish *wish, const facts *facts, const core_state *opening);
#else
static inline bool casting_open(const match *of) {
    return of->wish->cast == NULL || (fputs("faz-retro was built without libnats-dev: it can't publish\n", stderr), false);
}
static inline bool casting_come(const match *of) { return casting_open(of); }
static inline void casting_turn(match *of) { (void)of; }
static inline bool casting_close(const char *reason) { return reason != NULL; }
static inline outcome casting_watch(runner *on, const wish *wish, const facts *facts, const core_state *opening) {
    (void)on, (void)wish, (void)facts, (void)opening;
    fputs("faz-retro was built without libnats-dev: it can't watch over a broker\n", stderr);
    return FAILED;
}
#endif
#endif
