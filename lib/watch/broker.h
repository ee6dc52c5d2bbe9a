/* A connection to a broker, NATS with JetStream, and the stream that has all matches. */
#ifndef FAZ_BROKER_H
#define FAZ_BROKER_H

#include "faz_message.h"

#include <nats/nats.h>
#include <pthread.h>

/* The stream. The broker tells each message of rows that it has stored, once, as live.MATCH.CHAPTER. */
#define FAZ_STREAM "FAZ"
#define FAZ_LIVE "live"

typedef struct faz_broker {
    const char *servers;
    natsConnection *connection;
    jsCtx *stream;
} faz_broker;

/* A broker of these servers, nats://127.0.0.1:4222,nats://.., each with a user and a password if it wants them. They stay where
 * they are until it is closed. Nothing is connected yet, so nothing waits. False if they can't be read. */
bool faz_broker_open(faz_broker *broker, const char *servers);

/* Connects to one of them, and to another one whenever the connection is lost, for as long as it takes. The first try is waited
 * for, up to two seconds for each server, and so may every call be from then on, until a connection is made anew: all are a
 * thread's beside the game. Before it no other call is made but faz_broker_close. False if it can't be: try again. */
bool faz_broker_reach(faz_broker *broker);
void faz_broker_close(faz_broker *broker);

/* Makes the stream, kept by so many servers, unless it is there. */
natsStatus faz_broker_create(faz_broker *broker, int replicas);

/* Why the last call failed, in words. */
const char *faz_broker_why(natsStatus status);

/* Says in a line what the stream has, and who leads it. */
natsStatus faz_broker_look(faz_broker *broker, char *out, size_t room);

/* The first message of the stream from this place on with such a subject, and the last one of all; it is to be destroyed.
 * NATS_NOT_FOUND if there is none, and any other status if the broker can't be asked now. Places count from 1. */
natsStatus faz_broker_next(faz_broker *broker, natsMsg **message, const char *subject, uint64_t place);
natsStatus faz_broker_last(faz_broker *broker, natsMsg **message, const char *subject);

/* Work that waits for the broker, on a thread beside the game. It stands in what it works with. */
typedef struct faz_beside {
    void (*work)(void *of), (*drop)(void *of);
    void *of;
    pthread_t thread;
    pthread_mutex_t lock;
    pthread_cond_t end;
    bool is_over, is_left;
} faz_beside;

/* Has `work` done with `of`. False if no thread can be begun. */
bool faz_beside_begin(faz_beside *beside, void (*work)(void *of), void (*drop)(void *of), void *of);

/* The thread's: whether the game is still there, whose functions may be called then. It stays until faz_beside_let_go. */
bool faz_beside_hold(faz_beside *beside);
void faz_beside_let_go(faz_beside *beside);

/* The game's: waits until the work is over, so many milliseconds at most. */
void faz_beside_wait(faz_beside *beside, uint32_t milliseconds);

/* The game's: it leaves. `of` is dropped, now or once the work is over. */
void faz_beside_leave(faz_beside *beside);
#endif
