#define _POSIX_C_SOURCE 200809L
#include "faz_cast.h"

#include "broker.h"

#include <semaphore.h>
#include <stdatomic.h>
#include <stdlib.h>
#include <string.h>
#include <time.h>

enum {
    KEPT = 4096,                 /* entries that wait for the broker: over a minute at 60 frames a second */
    SNAPS = 4,                   /* snapshots among them */
    PENDING = 256,               /* rows of an epoch that may end */
    NEAR = 32,                   /* a state so close before a snapshot's frame is kept, and stepped up to it */
    AFTER_GAP = FAZ_CHAPTER + 2, /* free entries that end a gap */
    ACK = 1000,                  /* milliseconds until a message is sent again */
    PAUSE = 100,
    NO_GAP = -1
};

/* What is to be published, in its order. */
typedef struct entry {
    faz_kind kind;
    uint32_t frame;
    fazgrond_row row;   /* of FAZ_ROWS */
    uint32_t slot, gap; /* of FAZ_SNAP */
} entry;

struct faz_cast {
    faz_cast_settings settings;
    faz_game game;
    char match[FAZ_NAME], me[FAZ_NAME], *servers, reason[FAZ_REASON];
    uint64_t number;
    faz_head head;

    /* The game's side. */
    uint32_t frame; /* the next row's */
    uint64_t base;  /* how many frames of the match came before those that sessions count */
    int64_t gap;    /* the first frame that viewers may lack, until a snapshot follows */
    bool is_full;   /* since that rows have found no room */
    bool is_begun;  /* the opening was given, or never is */
    bool is_near;
    uint32_t near_frame;
    void *near;
    fazgrond_row recent[2 * NEAR];

    /* Both sides: a ring with one writer and one reader. */
    entry kept[KEPT];
    atomic_size_t given, done;
    uint8_t *snaps; /* SNAPS states */
    atomic_bool is_taken[SNAPS];
    atomic_uint stored, lost, again, disputed;
    atomic_int failure; /* the status of the last message that wasn't taken */
    atomic_bool is_closing;
    atomic_llong deadline; /* in milliseconds, once it is closing */
    sem_t something;
    faz_beside beside;

    /* The sender's side. */
    faz_broker broker;
    fazgrond_row run[FAZ_RUN];
    uint32_t run_first, run_count;
    uint8_t *bytes;
};

static int64_t millis(void) {
    struct timespec time;
    clock_gettime(CLOCK_MONOTONIC, &time);
    return (int64_t)time.tv_sec * 1000 + time.tv_nsec / 1000000;
}

/* The game's side. */

static size_t room(faz_cast *self) { return KEPT - (atomic_load_explicit(&self->given, memory_order_relaxed) - atomic_load(&self->done)); }

static void push(faz_cast *self, const entry *one) {
    size_t given = atomic_load_explicit(&self->given, memory_order_relaxed);
    self->kept[given % KEPT] = *one;
    atomic_store(&self->given, given + 1);
    if (one->kind != FAZ_ROWS || (one->frame + 1) % FAZ_RUN == 0)
        sem_post(&self->something);
}

static uint8_t *snap_at(faz_cast *self, uint32_t slot) { return self->snaps + slot * self->game.size; }

/* A snapshot of the state near, which is that of this frame; it ends a gap. */
static void push_snap(faz_cast *self) {
    uint32_t slot = 0;
    while (slot < SNAPS && atomic_load(&self->is_taken[slot]))
        slot++;
    if (slot == SNAPS || room(self) < (self->is_full ? AFTER_GAP : 2))
        return;
    memcpy(snap_at(self, slot), self->near, self->game.size);
    atomic_store(&self->is_taken[slot], true);
    push(self,
         &(entry){ .kind = FAZ_SNAP, .frame = self->frame, .slot = slot, .gap = self->gap != NO_GAP ? (uint32_t)self->gap : self->frame });
    self->gap = NO_GAP;
    self->is_full = false;
}

/* The opening, which is the state near at first. */
static void push_opening(faz_cast *self) {
    if (!self->is_begun && self->frame == 0)
        push_snap(self);
    self->is_begun = true;
}

/* At a snapshot's frame: from the state that was kept close before it. */
static void note_chapter(faz_cast *self) {
    if (!self->is_near || self->frame - self->near_frame > NEAR)
        return;
    for (; self->near_frame < self->frame; self->near_frame++)
        self->game.step(self->near, &self->recent[self->near_frame % (2 * NEAR)]);
    push_snap(self);
}

void faz_cast_row(faz_cast *self, const fazgrond_row *row) {
    if (self->frame >= self->settings.limit)
        return;
    push_opening(self);
    if (!self->is_full && room(self) < 3) { /* a snapshot and the end always find room */
        self->is_full = true;
        self->gap = self->gap != NO_GAP ? self->gap : self->frame;
    }
    if (!self->is_full)
        push(self, &(entry){ .kind = FAZ_ROWS, .frame = self->frame, .row = *row });
    else
        atomic_fetch_add(&self->lost, 1);
    self->recent[self->frame % (2 * NEAR)] = *row;
    self->frame++;
    if (self->frame % FAZ_CHAPTER == 0)
        note_chapter(self);
}

void faz_cast_settled(faz_cast *self, uint32_t frame, const void *state) {
    if (frame == 0)
        push_opening(self);
    if (frame != self->frame || FAZ_CHAPTER - frame % FAZ_CHAPTER > NEAR)
        return;
    memcpy(self->near, state, self->game.size);
    self->near_frame = frame;
    self->is_near = true;
}

/* A settled row of a session, so many rows after the next one. */
static bool find_row(const faz_cast *self, fazgrond_session *session, uint32_t behind, fazgrond_row *row) {
    uint64_t frame = (uint64_t)self->frame + behind;
    return frame >= self->base && frame < self->settings.limit
        && fazgrond_settled_row(session, (uint32_t)(frame - self->base), row) == FAZGROND_OK;
}

void faz_cast_turn(faz_cast *self, fazgrond_session *session, uint32_t frame, const void *state) {
    fazgrond_row row;
    while (find_row(self, session, 0, &row))
        faz_cast_row(self, &row);
    if (self->base + frame == self->frame)
        faz_cast_settled(self, self->frame, state);
}

void faz_cast_from(faz_cast *self, uint64_t frame) {
    uint32_t from = frame < self->settings.limit ? (uint32_t)frame : self->settings.limit;
    if (from == self->frame)
        return;
    if (from > self->frame && self->gap == NO_GAP)
        self->gap = self->frame;
    self->is_begun = true;
    self->is_near = false;
    self->frame = from;
}

void faz_cast_epoch(faz_cast *self, uint64_t base) {
    self->base = base;
    faz_cast_from(self, base);
}

int32_t faz_cast_go_on(faz_cast *self, fazgrond_session *session, fazgrond_peer *peer, uint32_t *frames) {
    fazgrond_row rows[PENDING];
    fazgrond_epoch epoch;
    uint32_t count = 0, from = self->frame;
    while (count < PENDING && find_row(self, session, count, &rows[count]))
        count++;
    int32_t code = fazgrond_peer_go_on(peer, session, frames);
    if (code != FAZGROND_OK || fazgrond_peer_epoch(peer, &epoch) != FAZGROND_OK)
        return code;
    for (uint32_t at = 0; at < count && (uint64_t)from + at < epoch.base; at++) /* rows past the end are played otherwise */
        faz_cast_row(self, &rows[at]);
    faz_cast_epoch(self, epoch.base);
    return code;
}

void faz_cast_end(faz_cast *self, const char *reason) {
    push_opening(self);
    if (self->reason[0] != 0 || room(self) == 0)
        return;
    strncpy(self->reason, reason, sizeof self->reason - 1);
    push(self, &(entry){ .kind = FAZ_END, .frame = self->frame });
}

/* The sender's side. */

/* Whether what the broker has not taken yet is given up. */
static bool is_late(faz_cast *self) { return atomic_load(&self->is_closing) && millis() >= atomic_load(&self->deadline); }

/* The message's id; with `is_own` that of this publisher alone. */
static natsStatus publish(faz_cast *self, faz_kind kind, uint32_t frame, size_t length, bool is_own, jsPubAck **ack) {
    char subject[FAZ_SUBJECT], id[FAZ_SUBJECT + FAZ_NAME];
    natsMsg *message = NULL;
    jsPubOptions options;
    jsPubOptions_Init(&options);
    options.MaxWait = ACK;
    faz_subject(subject, self->match, kind, frame / FAZ_CHAPTER);
    faz_id(id, self->match, kind, frame);
    if (is_own)
        strcat(strcat(id, "."), self->me);
    natsStatus status = natsMsg_Create(&message, subject, NULL, (const char *)self->bytes, (int)length);
    if (status == NATS_OK)
        status = natsMsgHeader_Set(message, "Nats-Msg-Id", id);
    if (status == NATS_OK)
        status = js_PublishMsg(ack, self->broker.stream, message, &options, NULL);
    natsMsg_Destroy(message);
    return status;
}

/* Whether another publisher's message, of the same id, has the same bytes. Any status but NATS_OK: it can't be said now. */
static natsStatus compare(faz_cast *self, faz_kind kind, uint32_t frame, size_t length, uint64_t place, bool *is_same) {
    char subject[FAZ_SUBJECT];
    natsMsg *standing = NULL;
    faz_subject(subject, self->match, kind, frame / FAZ_CHAPTER);
    natsStatus status = faz_broker_next(&self->broker, &standing, subject, place);
    if (status == NATS_OK)
        *is_same = natsMsg_GetSequence(standing) == place && (size_t)natsMsg_GetDataLength(standing) == length
            && memcmp(natsMsg_GetData(standing), self->bytes, length) == 0;
    else if (status == NATS_NOT_FOUND) /* no longer there, or on another subject */
        *is_same = false;
    natsMsg_Destroy(standing);
    return status == NATS_NOT_FOUND ? NATS_OK : status;
}

/* Tries once; whether the broker has the message, or another publisher's with the same bytes. If it has one with others in its
 * place, it is to be sent under this publisher's own id. */
static bool try_to_send(faz_cast *self, faz_kind kind, uint32_t frame, size_t length, bool *is_own) {
    jsPubAck *ack = NULL;
    bool is_same = true;
    natsStatus status = publish(self, kind, frame, length, *is_own, &ack);
    if (status == NATS_OK && ack->Duplicate && !*is_own)
        status = compare(self, kind, frame, length, ack->Sequence, &is_same);
    jsPubAck_Destroy(ack);
    if (status != NATS_OK)
        atomic_store(&self->failure, (int)status);
    if (status == NATS_OK && !is_same) {
        *is_own = true;
        atomic_fetch_add(&self->disputed, 1);
    }
    return status == NATS_OK && is_same;
}

/* Sends the message in `bytes` until the broker has it. */
static bool deliver(faz_cast *self, faz_kind kind, uint32_t frame, size_t length) {
    bool is_own = false;
    while (!is_late(self)) {
        bool was_own = is_own;
        if (try_to_send(self, kind, frame, length, &is_own))
            return true;
        if (was_own != is_own)
            continue;
        atomic_fetch_add(&self->again, 1);
        nats_Sleep(PAUSE);
    }
    return false;
}

static bool send_run(faz_cast *self) {
    if (self->run_count == 0)
        return true;
    size_t length = faz_write_rows(self->bytes, self->number, self->run_first, self->run, self->run_count);
    bool is_sent = deliver(self, FAZ_ROWS, self->run_first, length);
    if (is_sent)
        atomic_store(&self->stored, self->run_first + self->run_count);
    self->run_count = 0;
    return is_sent;
}

/* The digest of a state. False: the game has left, and its functions may be gone. */
static bool take_digest(faz_cast *self, const uint8_t *state, uint64_t *digest) {
    if (!faz_beside_hold(&self->beside))
        return false;
    *digest = self->game.digest(state);
    faz_beside_let_go(&self->beside);
    return true;
}

static bool send_snap(faz_cast *self, const entry *one) {
    const uint8_t *state = snap_at(self, one->slot);
    size_t size = self->game.size;
    faz_sum sum = { .frame = one->frame, .gap = one->gap };
    bool is_sent = take_digest(self, state, &sum.digest) && send_run(self)
        && deliver(self, FAZ_SNAP, one->frame, faz_write_snap(self->bytes, self->number, &sum, state, size))
        && deliver(self, FAZ_SUM, one->frame, faz_write_sum(self->bytes, self->number, &sum));
    atomic_store(&self->is_taken[one->slot], false);
    return is_sent;
}

/* Whether a row goes on with the run: it is the next one, and nobody is back in it. */
static bool is_next(const faz_cast *self, const entry *one) {
    return self->run_count > 0 && one->frame == self->run_first + self->run_count
        && (self->run[self->run_count - 1].gone & ~one->row.gone) == 0;
}

static bool send_row(faz_cast *self, const entry *one) {
    if (!is_next(self, one) && !send_run(self))
        return false;
    if (self->run_count == 0)
        self->run_first = one->frame;
    self->run[self->run_count++] = one->row;
    return (one->frame + 1) % FAZ_RUN != 0 || send_run(self);
}

/* An entry; whether all that it completes is sent. */
static bool send_entry(faz_cast *self, const entry *one) {
    if (one->kind == FAZ_ROWS)
        return send_row(self, one);
    if (one->kind == FAZ_SNAP)
        return send_snap(self, one);
    return send_run(self) && deliver(self, FAZ_END, one->frame, faz_write_end(self->bytes, self->number, one->frame, self->reason));
}

/* Waits until something was given, or a while. */
static void wait_for_some(faz_cast *self) {
    struct timespec until;
    clock_gettime(CLOCK_REALTIME, &until);
    until.tv_nsec += PAUSE * 1000000;
    until.tv_sec += until.tv_nsec / 1000000000;
    until.tv_nsec %= 1000000000;
    sem_timedwait(&self->something, &until);
}

/* Connects to the broker. False: there is no time left for it. */
static bool reach(faz_cast *self) {
    while (!faz_broker_reach(&self->broker)) {
        atomic_store(&self->failure, (int)NATS_NO_SERVER);
        if (is_late(self))
            return false;
        nats_Sleep(PAUSE);
    }
    return true;
}

static void send_all(void *of) {
    faz_cast *self = of;
    size_t at = 0;
    bool goes_on = reach(self) && deliver(self, FAZ_HEAD, 0, faz_write_head(self->bytes, self->number, &self->head));
    while (goes_on) {
        if (at < atomic_load(&self->given)) {
            goes_on = send_entry(self, &self->kept[at % KEPT]);
            at++;
            if (goes_on && self->run_count == 0) /* else the run's rows stay until it is sent */
                atomic_store(&self->done, at);
        } else if (atomic_load(&self->is_closing))
            goes_on = false;
        else
            wait_for_some(self);
    }
    if (send_run(self) && at == atomic_load(&self->given))
        atomic_store(&self->done, at);
    faz_broker_close(&self->broker);
}

/* Opening and closing. */

static const char *fault_of(const faz_cast_settings *settings) {
    if (!faz_is_name(settings->match) || !faz_is_name(settings->me) || !faz_is_name(settings->game->name))
        return "a name is 1 to 32 letters, digits, - and _";
    if (settings->game->size == 0 || settings->game->size > FAZ_MOST_STATE)
        return "a state has 1 to 1,000,000 bytes: more doesn't fit into a message of the broker";
    if (settings->session->players < 1 || settings->session->players > FAZGROND_PLAYERS || settings->rate == 0 || settings->rate > 1000)
        return "a match has 1 to 8 players, and 1 to 1,000 frames a second";
    return NULL;
}

static faz_head head_of(const faz_cast_settings *settings) {
    faz_head head = { .players = settings->session->players,
                      .rate = settings->rate,
                      .profile = settings->session->profile,
                      .threshold = settings->session->threshold,
                      .size = (uint32_t)settings->game->size };
    memcpy(head.masks, settings->session->masks, sizeof head.masks);
    strcpy(head.game, settings->game->name);
    return head;
}

static void give_back(void *of) {
    faz_cast *self = of;
    sem_destroy(&self->something);
    free(self->servers);
    free(self->near);
    free(self->snaps);
    free(self->bytes);
    free(self);
}

static faz_cast *make(const faz_cast_settings *settings) {
    faz_cast *self = calloc(1, sizeof *self);
    size_t size = settings->game->size;
    if (self == NULL)
        return NULL;
    sem_init(&self->something, 0, 0);
    self->settings = *settings;
    self->game = *settings->game;
    self->near = malloc(size);
    self->snaps = malloc(SNAPS * size);
    self->bytes = malloc(FAZ_SMALL + size);
    self->servers = malloc(strlen(settings->servers) + 1);
    if (self->near != NULL && self->snaps != NULL && self->bytes != NULL && self->servers != NULL)
        return self;
    give_back(self);
    return NULL;
}

faz_cast *faz_cast_open(const faz_cast_settings *settings, const char **why) {
    faz_cast *self = (*why = fault_of(settings)) == NULL ? make(settings) : NULL;
    if (self == NULL) {
        *why = *why != NULL ? *why : "no memory";
        return NULL;
    }
    strcpy(self->servers, settings->servers);
    strcpy(self->match, settings->match);
    strcpy(self->me, settings->me);
    if (settings->limit == 0 || settings->limit > FAZ_LAST_FRAME)
        self->settings.limit = FAZ_LAST_FRAME;
    self->number = faz_number(self->match);
    self->head = head_of(settings);
    self->gap = NO_GAP;
    memcpy(self->near, settings->opening, settings->game->size);
    if (!faz_broker_open(&self->broker, self->servers)) {
        *why = "the servers can't be read: nats://HOST:PORT, or several with a comma between each two";
        give_back(self);
        return NULL;
    }
    if (faz_beside_begin(&self->beside, send_all, give_back, self))
        return self;
    *why = "no thread can be begun";
    give_back(self);
    return NULL;
}

static const char *text_of(natsStatus status) {
    switch (status) {
    case NATS_OK: return NULL;
    case NATS_NO_RESPONDERS: return "it has no stream for matches, or lost it: faz-cast --create makes one";
    case NATS_NO_SERVER_SUPPORT: /* as long as there is no connection */
    case NATS_TIMEOUT: return "it didn't answer: it is away, or this user may not publish here";
    default: return natsStatus_GetText(status);
    }
}

void faz_cast_look(faz_cast *self, faz_cast_state *state) {
    *state = (faz_cast_state){ .rows = self->frame,
                               .stored = atomic_load(&self->stored),
                               .lost = atomic_load(&self->lost),
                               .again = atomic_load(&self->again),
                               .disputed = atomic_load(&self->disputed),
                               .why = text_of((natsStatus)atomic_load(&self->failure)) };
}

bool faz_cast_close(faz_cast *self, uint32_t milliseconds, faz_cast_state *state) {
    atomic_store(&self->deadline, millis() + milliseconds);
    atomic_store(&self->is_closing, true);
    sem_post(&self->something);
    faz_beside_wait(&self->beside, milliseconds);
    bool has_all = atomic_load(&self->done) == atomic_load(&self->given);
    faz_cast_look(self, state);
    faz_beside_leave(&self->beside);
    return has_all;
}
