/* A connection to a NATS broker that is polled: what it hears is fetched, and nothing waits. It is opened, and opened anew if it
 * breaks, beside the game. What is said while it isn't there is lost. */
#ifndef FAZ_LOBBY_BROKER_H
#define FAZ_LOBBY_BROKER_H

#include "pass.h"

typedef struct broker broker;

/* A message has less bytes than BROKER_MESSAGE; a subject with its 0 not more than BROKER_SUBJECT. */
enum { BROKER_MESSAGE = 6144, BROKER_SUBJECT = 72, BROKER_WHY = 128 };

typedef struct broker_message {
    int place;      /* at which it was heard */
    bool is_nobody; /* nobody hears what this machine asked for: there is nothing else in it */
    char reply[BROKER_SUBJECT];
    size_t length;
    uint8_t bytes[BROKER_MESSAGE];
} broker_message;

/* `servers` has a comma between each two, and a pass before the @ of one if the broker wants that (pass.h); `trusted` is a file of
 * certificates, or null. Null: why. */
broker *faz_lobby_broker_open(const char *servers, const char *trusted, const char **why);

/* The key of this machine's inbox, drawn for this broker alone: it stays the same when the connection is made anew. */
const uint8_t *faz_lobby_broker_inbox(const broker *self);

bool faz_lobby_broker_has_pass(const broker *self);

/* What was said goes out before, in 0.2 seconds at most. Null is none. */
void faz_lobby_broker_close(broker *self);

void faz_lobby_broker_turn(broker *self, uint32_t now);
bool faz_lobby_broker_is_there(const broker *self);

/* Why the last try wasn't one; null if there was none since it was there. */
const char *faz_lobby_broker_why(const broker *self);

/* This machine's addresses have changed: a new connection is made beside the one that there is. */
void faz_lobby_broker_renew(broker *self);

/* Hears a subject from now on, in the place of the one that it heard there. There are four places. */
void faz_lobby_broker_hear(broker *self, int place, const char *subject);

/* False: it isn't said. `reply` may be null; else who hears it may answer there, and if nobody hears it that is told. */
bool faz_lobby_broker_say(broker *self, const char *subject, const char *reply, const uint8_t *bytes, size_t length);

/* The next message. False: there is none. */
bool faz_lobby_broker_next(broker *self, broker_message *message);
#endif
