/* A match of the duel whose machines meet by a code (docs/ONLINE.md). Without DUEL_ONLINE there is none, and neither the NATS
 * library nor libnice is needed. */
#ifndef DUEL_ONLINE_H
#define DUEL_ONLINE_H

#include "duel.h"

#include <ggponet.h>
#include <stdio.h>

/* What the command line says. */
typedef struct online {
    long host; /* so many play, and this machine hosts; 0: it joins */
    const char *code, *broker, *trusted, *stun, *relay, *tcp_relay, *name;
    bool relay_only, asks, by_door, lasts;
    long begin_with;          /* as in lobby_words */
    bool (*is_stopped)(void); /* whether the player doesn't want to wait any more */
    /* What was met. */
    int players;
    bool is_local[DUEL_SHIPS];  /* player 1 first */
    bool is_vacant[DUEL_SHIPS]; /* nobody plays it as the match begins, or as this machine comes into it */
} online;

#ifdef DUEL_ONLINE
/* Waits until all are there, and says what happens meanwhile. False if it won't come to a match, and why is said. */
bool online_meet(online *self);
/* A player as the session is to add it. */
void online_player(const online *self, int number, GGPOPlayer *player);
/* Who waits to be let in by this player, in words; empty: nobody does. */
const char *online_question(void);
/* Lets in, or not. */
void online_answer(bool yes);
/* A player has left: that nothing comes of that machine any more isn't told then. */
void online_left(int player);
/* The session goes over the lines, and its packets are sealed by numbers of the lobby: one of the match, before the players are
 * added .. */
bool online_take(GGPOSession *session);
/* .. and one of each pair, once they are, if nobody can come back. */
bool online_seal(GGPOSession *session);
void online_close(void);
#else
static inline bool online_meet(online *self) {
    (void)self;
    fputs("duel: it has no codes, which need pkg-config, libnats-dev, libnice-dev, libsodium-dev and libgnutls28-dev\n", stderr);
    return false;
}
static inline void online_player(const online *self, int number, GGPOPlayer *player) { (void)self, (void)number, (void)player; }
static inline const char *online_question(void) { return ""; }
static inline void online_answer(bool yes) { (void)yes; }
static inline void online_left(int player) { (void)player; }
static inline bool online_take(GGPOSession *session) { return session == NULL; }
static inline bool online_seal(GGPOSession *session) { return session == NULL; }
static inline void online_close(void) {}
#endif
#endif
