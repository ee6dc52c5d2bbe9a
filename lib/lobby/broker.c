#include "broker.h"

#include "../line/ice.h"
#include "aside.h"

#include <nats/nats.h>
#include <sodium.h>
#include <stdio.h>
#include <stdlib.h>
#include <string.h>

enum { SERVERS = 16, TEXT = 4096, HEARD = 4, PAST = 8, KEPT = 256, KEPT_BYTES = 1 << 18 };

/* Milliseconds. */
enum { PATIENCE = 2000, AGAIN = 1000, RECONNECT = 200, PING = 2000, FLUSH = 150, LAST = 200 };

/* Of a name with both families libnats takes either, if it isn't told which first. Lines go by IPv6 where they can: so the end of one
 * family doesn't take both. */
enum { IPV4_FIRST = 46 };

/* A connection that is being made, is there, or is being closed; and its subscriptions, with those that gave way to others. The thread by
 * which libnats reads finds one under a lock, and uses it after that: so it stays until the connection, and that thread, has ended. */
typedef struct task {
    char servers[TEXT], trusted[TEXT];
    char token[TOKEN_TEXT]; /* what it shows of its user; empty if the broker wants none */
    nkey user;
    natsConnection *connection;
    natsSubscription *heard[HEARD], *past[PAST];
    uint32_t passed;
    char why[BROKER_WHY];
} task;

struct broker {
    task settings;
    aside *making;
    task *made;  /* what `making` works with */
    task *there; /* the last one that was made, or null */
    char subject[HEARD][BROKER_SUBJECT];
    bool has_turned, is_wanted; /* a connection, in the place of the one that there is */
    uint32_t now, again_at;
    char why[BROKER_WHY];
};

/* What the broker refuses is asked for by natsConnection_GetLastError. */
static void on_error(natsConnection *connection, natsSubscription *subscription, natsStatus why, void *closure) {
    (void)connection, (void)subscription, (void)why, (void)closure;
}

static natsStatus set_servers(natsOptions *options, char *text) {
    const char *servers[SERVERS];
    int count = 0;
    for (char *rest = NULL, *at = strtok_r(text, ",", &rest); at != NULL && count < SERVERS; at = strtok_r(NULL, ",", &rest))
        servers[count++] = at;
    return natsOptions_SetServers(options, servers, count);
}

/* Both are asked for while `make` waits, and libnats frees what they give. */
static natsStatus give_token(char **token, char **why, void *of) {
    const task *self = of;
    (void)why;
    *token = strdup(self->token);
    return *token != NULL ? NATS_OK : NATS_NO_MEMORY;
}

static natsStatus sign_nonce(char **why, unsigned char **signature, int *length, const char *nonce, void *of) {
    const task *self = of;
    size_t size = nonce != NULL ? strlen(nonce) : 0;
    (void)why;
    *length = crypto_sign_BYTES;
    *signature = malloc(crypto_sign_BYTES);
    if (*signature == NULL)
        return NATS_NO_MEMORY;
    crypto_sign_detached(*signature, NULL, (const uint8_t *)nonce, size, self->user.secret);
    return NATS_OK;
}

static natsStatus set_options(natsOptions *options, task *self) {
    char servers[TEXT];
    natsStatus status = set_servers(options, strcpy(servers, self->servers));
    if (status == NATS_OK && self->token[0] != 0)
        status = natsOptions_SetUserCredentialsCallbacks(options, give_token, self, sign_nonce, self);
    if (status == NATS_OK && strstr(self->servers, "tls://") != NULL)
        status = natsOptions_SetSecure(options, true);
    if (status == NATS_OK && self->trusted[0] != 0)
        status = natsOptions_LoadCATrustedCertificates(options, self->trusted);
    natsOptions_IPResolutionOrder(options, IPV4_FIRST);
    natsOptions_SetTimeout(options, PATIENCE);
    natsOptions_SetAllowReconnect(options, false); /* while it connects anew by itself all calls with it wait */
    natsOptions_SetPingInterval(options, PING);
    natsOptions_SetMaxPingsOut(options, 2);
    natsOptions_SetErrorHandler(options, on_error, NULL);
    return status;
}

/* What libnats says, without the line of its source that stands before it. */
static const char *library_words(natsStatus status) {
    const char *text = nats_GetLastError(NULL), *place = text != NULL && *text == '(' ? strstr(text, "): ") : NULL;
    if (place != NULL)
        text = place + 3;
    return text != NULL && *text != 0 ? text : natsStatus_GetText(status);
}

static const char *why_not(const task *self, natsStatus status) {
    switch (status) {
    case NATS_CONNECTION_AUTH_FAILED:
        return self->token[0] != 0 ? "the broker doesn't take this pass"
                                   : "the broker lets nobody in by this URL: it may want a pass in it";
    case NATS_NO_SERVER: return "no broker answers at this URL";
    case NATS_TIMEOUT: return "the broker doesn't answer";
    case NATS_PROTOCOL_ERROR: return "what answers at this URL is no broker";
    default: return library_words(status);
    }
}

static void make(void *of) {
    task *self = of;
    natsOptions *options = NULL;
    natsStatus status = natsOptions_Create(&options);
    if (status == NATS_OK)
        status = set_options(options, self);
    if (status == NATS_OK)
        status = natsConnection_Connect(&self->connection, options);
    if (status != NATS_OK) {
        snprintf(self->why, BROKER_WHY, "%s", why_not(self, status));
        self->connection = NULL;
    }
    natsOptions_Destroy(options);
}

static void forget(task *self) {
    sodium_memzero(self, sizeof *self);
    free(self);
}

static void drop(void *of) {
    task *self = of;
    natsConnection_Destroy(self->connection);
    for (int at = 0; at < HEARD; at++)
        natsSubscription_Destroy(self->heard[at]);
    for (int at = 0; at < PAST; at++)
        natsSubscription_Destroy(self->past[at]);
    forget(self);
}

static void finish(void *of) {
    task *self = of;
    natsConnection_FlushTimeout(self->connection, FLUSH);
    natsConnection_Destroy(self->connection);
    self->connection = NULL;
}

/* Has a connection closed beside the game, from which nothing is heard any more. Null is none. */
static aside *finish_aside(task *last) {
    if (last == NULL)
        return NULL;
    for (int at = 0; at < HEARD; at++)
        natsSubscription_Unsubscribe(last->heard[at]);
    aside *job = faz_aside_begin(finish, drop, last);
    if (job == NULL)
        drop(last);
    return job;
}

static bool is_server(const char *text) { return strncmp(text, "nats://", 7) == 0 || strncmp(text, "tls://", 6) == 0; }

/* Takes a server over, without what is before its @, unless that is a user's name and password: it is a pass, and the first one counts
 * for all. False: it can't be read. */
static bool take_server(task *to, const char *server) {
    const char *scheme = strstr(server, "://"), *host = scheme != NULL ? scheme + 3 : server, *end = strrchr(host, '@');
    bool has_pass = end != NULL && memchr(host, ':', (size_t)(end - host)) == NULL;
    size_t length = strlen(to->servers);
    pass by;
    snprintf(to->servers + length, TEXT - length, "%s%.*s%s", length > 0 ? "," : "", (int)(host - server), server,
             has_pass ? end + 1 : host);
    if (has_pass && !faz_pass_read(&by, host, (size_t)(end - host)))
        return false;
    if (has_pass && to->token[0] == 0)
        faz_pass_token(&by, &to->user, to->token);
    return true;
}

static bool take_servers(task *to, const char *servers) {
    char text[TEXT], *rest = NULL;
    bool are_good = true;
    for (char *at = strtok_r(strcpy(text, servers), ",", &rest); at != NULL; at = strtok_r(NULL, ",", &rest))
        are_good = take_server(to, at) && are_good;
    return are_good;
}

broker *faz_lobby_broker_open(const char *servers, const char *trusted, const char **why) {
    if (servers == NULL || !is_server(servers) || strlen(servers) >= TEXT || (trusted != NULL && strlen(trusted) >= TEXT)) {
        *why = "the broker's address is none: nats://ADDRESS:PORT was expected";
        return NULL;
    }
    broker *self = calloc(1, sizeof *self);
    if (self == NULL) {
        *why = "there is no memory";
        return NULL;
    }
    self->is_wanted = true;
    faz_nkey_draw(&self->settings.user, NKEY_USER);
    if (!take_servers(&self->settings, servers)) {
        *why = "the pass in the broker's address can't be read: a sign of it may be wrong or missing";
        faz_lobby_broker_close(self);
        return NULL;
    }
    if (trusted != NULL)
        strcpy(self->settings.trusted, trusted);
    return self;
}

const uint8_t *faz_lobby_broker_inbox(const broker *self) { return self->settings.user.open; }

bool faz_lobby_broker_has_pass(const broker *self) { return self->settings.token[0] != 0; }

void faz_lobby_broker_close(broker *self) {
    if (self == NULL)
        return;
    faz_aside_leave(self->making);
    aside *last = finish_aside(self->there);
    for (int waited = 0; last != NULL && !faz_aside_is_over(last) && waited < LAST; waited++)
        faz_ice_wait();
    faz_aside_leave(last);
    sodium_memzero(self, sizeof *self);
    free(self);
}

static void subscribe(broker *self, int at) {
    task *there = self->there;
    if (there == NULL || self->subject[at][0] == 0
        || natsConnection_SubscribeSync(&there->heard[at], there->connection, self->subject[at]) != NATS_OK)
        return;
    natsSubscription_SetPendingLimits(there->heard[at], KEPT, KEPT_BYTES);
}

/* A lobby does so five times at most: for four new codes, and as a match begins. Were there more than PAST, the oldest one would go. */
static void unsubscribe(task *there, int at) {
    natsSubscription **oldest = &there->past[there->passed++ % PAST];
    natsSubscription_Unsubscribe(there->heard[at]);
    natsSubscription_Destroy(*oldest);
    *oldest = there->heard[at];
    there->heard[at] = NULL;
}

static void begin(broker *self) {
    self->made = malloc(sizeof *self->made);
    if (self->made == NULL)
        return;
    *self->made = self->settings;
    self->making = faz_aside_begin(make, drop, self->made);
    if (self->making == NULL)
        forget(self->made);
}

/* A connection was made, or not. */
static void take(broker *self) {
    task *made = self->made;
    memcpy(self->why, made->why, sizeof self->why);
    faz_aside_take(self->making);
    self->making = NULL;
    self->again_at = self->now + AGAIN;
    if (made->connection == NULL) {
        forget(made);
        return;
    }
    faz_aside_leave(finish_aside(self->there));
    self->there = made;
    self->is_wanted = false;
    for (int at = 0; at < HEARD; at++)
        subscribe(self, at);
}

/* A connection that has ended is followed by another one, not at once, nor at the same time at all machines. */
static void look_at_end(broker *self) {
    if (self->is_wanted || self->there == NULL || !natsConnection_IsClosed(self->there->connection))
        return;
    self->is_wanted = true;
    self->again_at = self->now + RECONNECT + randombytes_uniform(RECONNECT);
}

void faz_lobby_broker_turn(broker *self, uint32_t now) {
    self->now = now;
    if (!self->has_turned)
        self->again_at = now;
    self->has_turned = true;
    look_at_end(self);
    if (self->making != NULL && faz_aside_is_over(self->making))
        take(self);
    else if (self->making == NULL && self->is_wanted && (int32_t)(now - self->again_at) >= 0)
        begin(self);
}

bool faz_lobby_broker_is_there(const broker *self) {
    return self->there != NULL && natsConnection_Status(self->there->connection) == NATS_CONN_STATUS_CONNECTED;
}

const char *faz_lobby_broker_why(const broker *self) { return self->why[0] != 0 ? self->why : NULL; }

void faz_lobby_broker_renew(broker *self) {
    self->is_wanted = true;
    self->again_at = self->now;
}

void faz_lobby_broker_hear(broker *self, int place, const char *subject) {
    if (place < 0 || place >= HEARD || strlen(subject) >= BROKER_SUBJECT)
        return;
    if (self->there != NULL && self->there->heard[place] != NULL)
        unsubscribe(self->there, place);
    strcpy(self->subject[place], subject);
    subscribe(self, place);
}

bool faz_lobby_broker_say(broker *self, const char *subject, const char *reply, const uint8_t *bytes, size_t length) {
    if (!faz_lobby_broker_is_there(self) || length >= BROKER_MESSAGE)
        return false;
    natsConnection *connection = self->there->connection;
    natsStatus status = reply != NULL ? natsConnection_PublishRequest(connection, subject, reply, bytes, (int)length)
                                      : natsConnection_Publish(connection, subject, bytes, (int)length);
    return status == NATS_OK;
}

/* False: it is longer than any of ours. */
static bool copy(broker_message *to, const natsMsg *from) {
    const char *reply = natsMsg_GetReply(from);
    size_t length = (size_t)natsMsg_GetDataLength(from);
    if (length >= BROKER_MESSAGE || (reply != NULL && strlen(reply) >= BROKER_SUBJECT))
        return false;
    to->is_nobody = false;
    strcpy(to->reply, reply != NULL ? reply : "");
    to->length = length;
    memcpy(to->bytes, natsMsg_GetData(from), length);
    return true;
}

bool faz_lobby_broker_next(broker *self, broker_message *message) {
    for (int at = 0; self->there != NULL && at < HEARD; at++) {
        natsMsg *came = NULL;
        natsSubscription *heard = self->there->heard[at];
        natsStatus status = heard != NULL ? natsSubscription_NextMsg(&came, heard, 0) : NATS_TIMEOUT;
        bool is_one = status == NATS_OK && copy(message, came);
        natsMsg_Destroy(came);
        if (status == NATS_NO_RESPONDERS) {
            *message = (broker_message){ .is_nobody = true };
            is_one = true;
        }
        message->place = at;
        if (is_one)
            return true;
    }
    return false;
}
