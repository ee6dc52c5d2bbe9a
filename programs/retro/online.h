/* A match whose machines meet by a code, and send over the lines of a lobby (docs/ONLINE.md). Without RETRO_ONLINE there is none,
 * and neither the NATS library nor libnice is needed. */
#ifndef RETRO_ONLINE_H
#define RETRO_ONLINE_H

#include "meet.h"

#include <stdio.h>

/* What the command line says. */
typedef struct online_wish {
    const char *code; /* who hosts has none, and is told one */
    const char *broker, *trusted, *stun, *relay, *tcp_relay, *name;
    bool relay_only, asks, by_door, lasts;
    uint32_t machines; /* how many the host waits for, those that watch among them */
    long begin_with;   /* as in lobby_words */
} online_wish;

typedef enum online_stage { ONLINE_WAITS, ONLINE_READY, ONLINE_OVER } online_stage;

#ifdef RETRO_ONLINE
/* Opens the lobby. False if it can't, and why is said. */
bool online_open(const online_wish *wish);
/* While it isn't ready: once a turn. What happens is said. */
online_stage online_turn(void);
/* What it waits for, in words. */
const char *online_text(void);
/* Who waits to be let in by this player, and how that is answered, in as many lines as come back; 0: nobody does. */
int online_question(const char *lines[2]);
/* Lets in, or not. */
void online_answer(bool yes);
/* Who had this address has left: that nothing comes of it any more isn't told then. */
void online_left(const address *of);
/* Once it is ready: the meeting and its match go over the lines, and by a key that these machines alone have. Whether this machine hosts,
 * as one does that has hosted and comes back. */
bool online_take(net *over, meeting *with);
/* At the host, before it meets the others: how many it waits for. The other machines of the lobby are vacant, and may come later. */
uint32_t online_wanted(meeting *with);
/* Null is no lobby. */
void online_close(void);
#else
static inline bool online_open(const online_wish *wish) {
    (void)wish;
    fputs("faz-retro has no codes, which need pkg-config, libnats-dev, libnice-dev, libsodium-dev and libgnutls28-dev\n", stderr);
    return false;
}
static inline online_stage online_turn(void) { return ONLINE_OVER; }
static inline const char *online_text(void) { return ""; }
static inline int online_question(const char *lines[2]) { return (void)lines, 0; }
static inline void online_answer(bool yes) { (void)yes; }
static inline void online_left(const address *of) { (void)of; }
static inline bool online_take(net *over, meeting *with) { return (void)over, (void)with, false; }
static inline uint32_t online_wanted(meeting *with) { return (void)with, 0; }
static inline void online_close(void) {}
#endif
#endif
