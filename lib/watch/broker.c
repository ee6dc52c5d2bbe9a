#define _POSIX_C_SOURCE 200809L
#include "broker.h"

#include <inttypes.h>
#include <stdio.h>
#include <stdlib.h>
#include <string.h>
#include <time.h>

enum { SERVERS = 16, WAIT = 2000 };
#define SECOND INT64_C(1000000000)

/* What the broker refuses to do is told to nobody else. */
static void on_error(natsConnection *connection, natsSubscription *subscription, natsStatus why, void *closure) {
    const char *text = NULL;
    (void)subscription, (void)closure;
    if (why != NATS_SLOW_CONSUMER && natsConnection_GetLastError(connection, &text) != NATS_OK && text != NULL)
        fprintf(stderr, "broker: %s\n", text);
}

/* Without such a function all tries would be waited for until there is a connection. */
static void on_connected(natsConnection *connection, void *closure) { (void)connection, (void)closure; }

static natsStatus set_servers(natsOptions *options, char *text) {
    const char *servers[SERVERS];
    int count = 0;
    for (char *at = strtok(text, ","); at != NULL && count < SERVERS; at = strtok(NULL, ","))
        servers[count++] = at;
    return natsOptions_SetServers(options, servers, count);
}

static natsStatus make_connection(faz_broker *self) {
    natsOptions *options = NULL;
    char *text = malloc(strlen(self->servers) + 1);
    natsStatus status = text != NULL ? natsOptions_Create(&options) : NATS_NO_MEMORY;
    if (status == NATS_OK)
        status = set_servers(options, strcpy(text, self->servers));
    if (status == NATS_OK) {
        natsOptions_SetMaxReconnect(options, -1);
        natsOptions_SetReconnectWait(options, 100);
        natsOptions_SetReconnectJitter(options, 100, 100);
        natsOptions_SetRetryOnFailedConnect(options, true, on_connected, NULL);
        natsOptions_SetTimeout(options, WAIT);
        natsOptions_SetWriteDeadline(options, WAIT); /* else a broker that reads nothing is waited for without an end */
        natsOptions_SetPingInterval(options, WAIT);
        natsOptions_SetErrorHandler(options, on_error, NULL);
        status = natsConnection_Connect(&self->connection, options);
    }
    natsOptions_Destroy(options);
    free(text);
    return status;
}

/* Whether a text up to a comma or its end is a server's address, with nats:// or tls:// before it or nothing. */
static bool is_server(const char *text) {
    size_t length = strcspn(text, ",");
    for (const char *at = text; at < text + length; at++)
        if (*at <= ' ' || *at > '~')
            return false;
    const char *scheme = strstr(text, "://");
    bool has_scheme = scheme != NULL && scheme < text + length;
    return length > 0
        && (!has_scheme || (strncmp(text, "nats://", 7) == 0 && length > 7) || (strncmp(text, "tls://", 6) == 0 && length > 6));
}

bool faz_broker_open(faz_broker *self, const char *servers) {
    bool are_servers = is_server(servers);
    for (const char *at = servers; are_servers && (at = strchr(at, ',')) != NULL;)
        are_servers = is_server(++at);
    *self = (faz_broker){ .servers = servers };
    return are_servers;
}

bool faz_broker_reach(faz_broker *self) {
    natsStatus status = make_connection(self);
    if (status == NATS_OK || status == NATS_NOT_YET_CONNECTED)
        status = natsConnection_JetStream(&self->stream, self->connection, NULL);
    if (status == NATS_OK)
        return true;
    natsConnection_Destroy(self->connection);
    self->connection = NULL;
    return false;
}

void faz_broker_close(faz_broker *self) {
    jsCtx_Destroy(self->stream);
    natsConnection_Destroy(self->connection);
    *self = (faz_broker){ 0 };
}

natsStatus faz_broker_create(faz_broker *self, int replicas) {
    const char *subjects[] = { "faz.>" };
    jsRePublish live;
    jsStreamConfig config;
    jsStreamInfo *info = NULL;
    jsErrCode code = 0;
    natsStatus status = js_GetStreamInfo(&info, self->stream, FAZ_STREAM, NULL, &code);
    jsStreamInfo_Destroy(info);
    if (status != NATS_NOT_FOUND)
        return status;
    jsRePublish_Init(&live);
    live.Source = "faz.*.rows.*";
    live.Destination = FAZ_LIVE ".{{wildcard(1)}}.{{wildcard(2)}}";
    jsStreamConfig_Init(&config);
    config.Name = FAZ_STREAM;
    config.Subjects = subjects;
    config.SubjectsLen = 1;
    config.Replicas = replicas;
    config.AllowDirect = true;
    config.RePublish = &live;
    config.MaxAge = 24 * 3600 * SECOND;
    config.Duplicates = 600 * SECOND;
    info = NULL;
    status = js_AddStream(&info, self->stream, &config, NULL, &code);
    jsStreamInfo_Destroy(info);
    return status;
}

/* libnats says first which line of its source found it. */
const char *faz_broker_why(natsStatus status) {
    const char *text = nats_GetLastError(NULL), *place = text != NULL && *text == '(' ? strstr(text, "): ") : NULL;
    if (status == NATS_NO_RESPONDERS)
        return "the broker there keeps no streams: is it another one than that of server/watch.conf?";
    if (status == NATS_TIMEOUT)
        return "no broker answers there";
    if (place != NULL)
        text = place + 3;
    return text != NULL && *text != 0 ? text : natsStatus_GetText(status);
}

natsStatus faz_broker_look(faz_broker *self, char *out, size_t room) {
    jsStreamInfo *info = NULL;
    natsStatus status = js_GetStreamInfo(&info, self->stream, FAZ_STREAM, NULL, NULL);
    if (status == NATS_OK)
        snprintf(out, room, "%" PRIu64 " messages, %" PRIu64 " bytes, led by %s", info->State.Msgs, info->State.Bytes,
                 info->Cluster != NULL && info->Cluster->Leader != NULL ? info->Cluster->Leader : "the one server");
    jsStreamInfo_Destroy(info);
    return status;
}

static natsStatus get(faz_broker *self, natsMsg **message, jsDirectGetMsgOptions *which) {
    jsOptions options;
    jsOptions_Init(&options);
    options.Wait = WAIT;
    return js_DirectGetMsg(message, self->stream, FAZ_STREAM, &options, which);
}

natsStatus faz_broker_next(faz_broker *self, natsMsg **message, const char *subject, uint64_t place) {
    jsDirectGetMsgOptions which;
    jsDirectGetMsgOptions_Init(&which);
    which.Sequence = place > 0 ? place : 1;
    which.NextBySubject = subject;
    return get(self, message, &which);
}

natsStatus faz_broker_last(faz_broker *self, natsMsg **message, const char *subject) {
    jsDirectGetMsgOptions which;
    jsDirectGetMsgOptions_Init(&which);
    which.LastBySubject = subject;
    return get(self, message, &which);
}

/* Work beside the game. */

static void finish(faz_beside *self) {
    pthread_cond_destroy(&self->end);
    pthread_mutex_destroy(&self->lock);
    self->drop(self->of);
}

static void *run(void *closure) {
    faz_beside *self = closure;
    self->work(self->of);
    pthread_mutex_lock(&self->lock);
    bool is_left = self->is_left;
    self->is_over = true;
    pthread_cond_signal(&self->end);
    pthread_mutex_unlock(&self->lock);
    if (is_left)
        finish(self);
    return NULL;
}

bool faz_beside_begin(faz_beside *self, void (*work)(void *of), void (*drop)(void *of), void *of) {
    pthread_condattr_t clock;
    *self = (faz_beside){ .work = work, .drop = drop, .of = of };
    pthread_condattr_init(&clock);
    pthread_condattr_setclock(&clock, CLOCK_MONOTONIC);
    pthread_mutex_init(&self->lock, NULL);
    pthread_cond_init(&self->end, &clock);
    pthread_condattr_destroy(&clock);
    if (pthread_create(&self->thread, NULL, run, self) == 0)
        return true;
    pthread_cond_destroy(&self->end);
    pthread_mutex_destroy(&self->lock);
    return false;
}

bool faz_beside_hold(faz_beside *self) {
    pthread_mutex_lock(&self->lock);
    if (!self->is_left)
        return true;
    pthread_mutex_unlock(&self->lock);
    return false;
}

void faz_beside_let_go(faz_beside *self) { pthread_mutex_unlock(&self->lock); }

void faz_beside_wait(faz_beside *self, uint32_t milliseconds) {
    struct timespec until;
    clock_gettime(CLOCK_MONOTONIC, &until);
    until.tv_sec += milliseconds / 1000 + (until.tv_nsec + milliseconds % 1000 * 1000000) / 1000000000;
    until.tv_nsec = (until.tv_nsec + milliseconds % 1000 * 1000000) % 1000000000;
    pthread_mutex_lock(&self->lock);
    while (!self->is_over && pthread_cond_timedwait(&self->end, &self->lock, &until) == 0)
        ;
    pthread_mutex_unlock(&self->lock);
}

void faz_beside_leave(faz_beside *self) {
    pthread_mutex_lock(&self->lock);
    bool is_over = self->is_over;
    self->is_left = true;
    if (!is_over)
        pthread_detach(self->thread);
    pthread_mutex_unlock(&self->lock);
    if (!is_over)
        return;
    pthread_join(self->thread, NULL);
    finish(self);
}
