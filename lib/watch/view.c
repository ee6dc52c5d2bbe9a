#define _POSIX_C_SOURCE 200809L
#include "faz_view.h"

#include "broker.h"
#include "timeline.h"

#include <pthread.h>
#include <stdatomic.h>
#include <stdio.h>
#include <stdlib.h>
#include <string.h>
#include <time.h>

enum {
    AHEAD = 1024,        /* rows are looked for so far ahead of what is shown */
    CATCH_UP = 8,        /* frames in a turn, at most */
    SLACK = 2 * FAZ_RUN, /* so many frames over the cushion are played at the usual speed */
    PATIENCE = 60,       /* turns until less than a cushion is played, and until an end is believed */
    POLL = 20,
    AGAIN = 500,
    SILENCE = 1000,
    LAST = 100, /* milliseconds */
    CHECKS = 8
};

/* A state that the game's side wants of the reader, and gets: that of a chapter, or of the nearest one before it, unless it has
 * to be just this one. */
typedef struct wish {
    bool is_open, is_there, is_exact;
    uint32_t number; /* another one for each wish: what comes for one that was given up is dropped */
    uint32_t chapter, frame;
    void *state;
} wish;

/* A digest of what was played at a chapter's first frame, until it was compared. */
typedef struct check {
    bool is_open;
    uint32_t chapter;
    uint64_t digest;
} check;

struct faz_view {
    faz_view_settings settings;
    faz_game game;
    char match[FAZ_NAME], *servers;

    /* The game's side alone. */
    void *state;
    bool is_shown, is_paused, is_following, is_waiting, is_live;
    uint32_t frame, target, waited, quiet, gaps, gap_from, gap_to, desync;
    check checks[CHECKS];

    /* Under the lock. */
    pthread_mutex_t lock;
    faz_timeline *timeline;
    wish wish;
    uint32_t wanted;  /* the frame that is played next */
    uint32_t missing; /* one that the broker was asked for in vain, with rows after it; FAZ_LATEST if there is none */
    uint32_t asked;

    /* The reader's side alone. */
    faz_beside beside;
    atomic_bool is_closing;
    faz_broker broker;
    natsSubscription *live;
    void *read;
    uint32_t cursor_chapter;
    uint64_t cursor; /* the place in the stream after the last message of this chapter's rows that was read */
    int64_t heard_at, asked_at;
};

static int64_t millis(void) {
    struct timespec time;
    clock_gettime(CLOCK_MONOTONIC, &time);
    return (int64_t)time.tv_sec * 1000 + time.tv_nsec / 1000000;
}

/* The reader's side. */

/* Nothing is taken once the game has left: its functions may be gone. */
static faz_taken take(faz_view *self, natsMsg *message) {
    faz_taken taken = FAZ_OTHER;
    pthread_mutex_lock(&self->lock);
    if (faz_beside_hold(&self->beside)) {
        taken = faz_timeline_take(self->timeline, (const uint8_t *)natsMsg_GetData(message), (size_t)natsMsg_GetDataLength(message),
                                  self->read);
        faz_beside_let_go(&self->beside);
    }
    pthread_mutex_unlock(&self->lock);
    return taken;
}

/* Takes what has come by itself, and waits a moment for the first of it. */
static void hear(faz_view *self) {
    natsMsg *message;
    if (self->live == NULL) {
        nats_Sleep(POLL);
        return;
    }
    for (int64_t wait = POLL; natsSubscription_NextMsg(&message, self->live, wait) == NATS_OK; wait = 0) {
        take(self, message);
        natsMsg_Destroy(message);
        self->heard_at = millis();
        if (atomic_load(&self->is_closing))
            return;
    }
}

/* Whether this is the message that was looked for, and it is taken. */
static bool is_found(faz_view *self, natsMsg *message, faz_kind kind, uint32_t frame) {
    const uint8_t *bytes = (const uint8_t *)natsMsg_GetData(message);
    size_t length = (size_t)natsMsg_GetDataLength(message);
    faz_taken taken = take(self, message);
    return (taken == FAZ_NEW || taken == FAZ_REPEATED) && faz_kind_of(bytes, length) == kind && faz_frame_of(bytes, length) == frame;
}

/* Reads the header, or the snapshot of a frame: the first valid one. NATS_NOT_FOUND if there is none, NATS_ILLEGAL_STATE if the
 * view is being closed. */
static natsStatus find(faz_view *self, faz_kind kind, uint32_t frame) {
    char subject[FAZ_SUBJECT];
    uint64_t place = 1;
    natsStatus status = NATS_OK;
    faz_subject(subject, self->match, kind, frame / FAZ_CHAPTER);
    for (bool is_there = false; !is_there && status == NATS_OK;) {
        natsMsg *message = NULL;
        status = atomic_load(&self->is_closing) ? NATS_ILLEGAL_STATE : faz_broker_next(&self->broker, &message, subject, place);
        if (status != NATS_OK)
            continue;
        place = natsMsg_GetSequence(message) + 1;
        is_there = is_found(self, message, kind, frame);
        natsMsg_Destroy(message);
    }
    return status;
}

static bool has_head(faz_view *self) {
    pthread_mutex_lock(&self->lock);
    bool is_there = faz_timeline_head(self->timeline) != NULL;
    pthread_mutex_unlock(&self->lock);
    return is_there;
}

static void ask_head(faz_view *self) {
    if (find(self, FAZ_HEAD, 0) != NATS_OK)
        nats_Sleep(AGAIN);
}

/* The chapter of the last snapshot; 0 if it can't be said. */
static uint32_t last_chapter(faz_view *self) {
    char subject[FAZ_SUBJECT];
    natsMsg *message = NULL;
    uint32_t chapter = 0;
    snprintf(subject, sizeof subject, "faz.%s.snap.*", self->match);
    if (faz_broker_last(&self->broker, &message, subject) == NATS_OK)
        chapter = (uint32_t)strtoul(strrchr(natsMsg_GetSubject(message), '.') + 1, NULL, 10);
    natsMsg_Destroy(message);
    return chapter <= FAZ_LAST_FRAME / FAZ_CHAPTER ? chapter : FAZ_LAST_FRAME / FAZ_CHAPTER;
}

/* Reads the state of a chapter, or of the nearest one before it, but not before the first one that will do. */
static bool read_state(faz_view *self, uint32_t chapter, uint32_t first, uint32_t *found) {
    for (uint32_t at = chapter + 1; at-- > first && !atomic_load(&self->is_closing);) {
        *found = at * FAZ_CHAPTER;
        natsStatus status = find(self, FAZ_SNAP, *found);
        if (status != NATS_NOT_FOUND)
            return status == NATS_OK;
    }
    return false;
}

static void grant(faz_view *self, const wish *asked) {
    uint32_t frame, chapter = asked->chapter == FAZ_LATEST ? last_chapter(self) : asked->chapter;
    if (!read_state(self, chapter, asked->is_exact ? chapter : 0, &frame)) {
        nats_Sleep(AGAIN);
        return;
    }
    pthread_mutex_lock(&self->lock);
    if (self->wish.number == asked->number) {
        memcpy(self->wish.state, self->read, self->game.size);
        self->wish.frame = frame;
        self->wish.is_there = true;
        self->wish.is_open = false;
    }
    pthread_mutex_unlock(&self->lock);
}

/* The first frame from the wanted one on whose row is missing. */
typedef struct lack {
    uint32_t frame;
    bool is_far;    /* it is far ahead of what is shown */
    bool has_later; /* the row of a later frame has come */
} lack;

static lack first_missing(faz_view *self) {
    pthread_mutex_lock(&self->lock);
    uint32_t ahead = faz_timeline_rows(self->timeline, self->wanted, AHEAD), frame = self->wanted + ahead;
    lack found = { frame, ahead == AHEAD, faz_timeline_known(self->timeline) > frame };
    pthread_mutex_unlock(&self->lock);
    return found;
}

/* Reads the rest of a chapter. False if the broker can't be asked now. */
static bool read_chapter(faz_view *self, uint32_t chapter) {
    char subject[FAZ_SUBJECT];
    natsMsg *message = NULL;
    natsStatus status;
    faz_subject(subject, self->match, FAZ_ROWS, chapter);
    if (chapter != self->cursor_chapter)
        self->cursor = 1;
    self->cursor_chapter = chapter;
    while ((status = faz_broker_next(&self->broker, &message, subject, self->cursor)) == NATS_OK && !atomic_load(&self->is_closing)) {
        self->cursor = natsMsg_GetSequence(message) + 1;
        take(self, message);
        natsMsg_Destroy(message);
        message = NULL;
    }
    natsMsg_Destroy(message);
    return status == NATS_NOT_FOUND;
}

/* Whether it is time to ask: at once if later rows have come, or else if nothing was heard for a while. */
static bool is_to_ask(const faz_view *self, const lack *found) {
    int64_t now = millis(), since = now - self->asked_at;
    if (found->is_far || (found->frame == self->missing && since < AGAIN))
        return false;
    return found->has_later || (since >= SILENCE && now - self->heard_at >= SILENCE);
}

static void ask_rows(faz_view *self) {
    lack found = first_missing(self), still;
    if (!is_to_ask(self, &found))
        return;
    if (found.frame == self->missing) /* all of the chapter again */
        self->cursor = 1;
    bool is_read = read_chapter(self, found.frame / FAZ_CHAPTER);
    still = first_missing(self);
    self->asked_at = millis();
    pthread_mutex_lock(&self->lock);
    self->asked++;
    self->missing = is_read && still.frame == found.frame && still.has_later ? found.frame : FAZ_LATEST;
    pthread_mutex_unlock(&self->lock);
}

static void read_all(void *of) {
    faz_view *self = of;
    char subject[FAZ_SUBJECT];
    while (!faz_broker_reach(&self->broker)) {
        if (atomic_load(&self->is_closing))
            return;
        nats_Sleep(POLL);
    }
    snprintf(subject, sizeof subject, FAZ_LIVE ".%s.*", self->match);
    natsConnection_SubscribeSync(&self->live, self->broker.connection, subject);
    while (!atomic_load(&self->is_closing)) {
        hear(self);
        pthread_mutex_lock(&self->lock);
        wish asked = self->wish;
        bool is_wanted = self->wanted != FAZ_LATEST;
        pthread_mutex_unlock(&self->lock);
        if (!has_head(self))
            ask_head(self);
        else if (asked.is_open)
            grant(self, &asked);
        else if (is_wanted)
            ask_rows(self);
    }
    faz_broker_close(&self->broker);
    natsSubscription_Destroy(self->live); /* (libnats' thread that reads may use it until then) */
}

/* The game's side. All of it is under the lock. */

static void wish_for(faz_view *self, uint32_t chapter, bool is_exact) {
    self->wish.is_open = true;
    self->wish.is_there = false;
    self->wish.is_exact = is_exact;
    self->wish.chapter = chapter;
    self->wish.number++;
}

/* Notes the digest of a state that begins a chapter. */
static void note_check(faz_view *self) {
    uint32_t chapter = self->frame / FAZ_CHAPTER;
    if (self->frame % FAZ_CHAPTER == 0)
        self->checks[chapter % CHECKS] = (check){ true, chapter, self->game.digest(self->state) };
}

static void compare(faz_view *self) {
    for (size_t at = 0; at < CHECKS; at++) {
        check *one = &self->checks[at];
        const faz_sum *sum = one->is_open ? faz_timeline_sum(self->timeline, one->chapter) : NULL;
        if (sum == NULL)
            continue;
        one->is_open = false;
        if (sum->digest != one->digest && one->chapter * FAZ_CHAPTER < self->desync)
            self->desync = one->chapter * FAZ_CHAPTER;
    }
}

static const fazgrond_row *step(faz_view *self) {
    const fazgrond_row *row = faz_timeline_row(self->timeline, self->frame);
    self->game.step(self->state, row);
    self->frame++;
    note_check(self);
    return row;
}

/* Takes the state that was wished for. */
static void take_wish(faz_view *self) {
    if (!self->wish.is_there)
        return;
    self->wish.is_there = false;
    memcpy(self->state, self->wish.state, self->game.size);
    self->frame = self->wish.frame;
    self->is_shown = true;
    self->is_waiting = true;
    self->waited = 0;
    if (self->is_live && faz_timeline_known(self->timeline) > self->settings.cushion)
        self->target = faz_timeline_known(self->timeline) - self->settings.cushion;
    self->is_live = false;
    note_check(self);
}

/* Whether the rows that are there are the last ones. */
static bool is_end_near(faz_view *self, uint32_t ahead) {
    uint32_t frames;
    const char *reason;
    return faz_timeline_end(self->timeline, &frames, &reason) && self->frame + ahead >= frames;
}

/* No row is there. If it is said that it couldn't be published, goes on with the snapshot after the gap. */
static void jump(faz_view *self) {
    uint32_t to = self->missing == self->frame ? faz_timeline_gap(self->timeline, self->frame) : 0;
    if (to == 0 || self->wish.is_open)
        return;
    self->gaps++;
    self->gap_from = self->frame;
    self->gap_to = to;
    self->target = to;
    wish_for(self, to / FAZ_CHAPTER, true);
}

/* On the way to a frame no row is there: perhaps the match has ended before it. */
static void arrive_or_jump(faz_view *self) {
    if (is_end_near(self, 0))
        self->target = self->frame;
    else
        jump(self);
}

/* How many frames are to be played in this turn, of so many that are there. */
static uint32_t frames_of_turn(faz_view *self, uint32_t ahead) {
    uint32_t cushion = self->settings.cushion;
    self->quiet = ahead == 0 ? self->quiet + 1 : 0;
    if (ahead == 0) {
        jump(self);
        self->is_waiting = true;
        self->waited = 0;
        return 0;
    }
    self->waited++;
    if (self->is_waiting && ahead < cushion && self->waited < PATIENCE && !is_end_near(self, ahead))
        return 0;
    self->is_waiting = false;
    if (!self->is_following || ahead <= cushion + SLACK)
        return 1;
    return ahead - cushion < CATCH_UP ? ahead - cushion : CATCH_UP;
}

uint32_t faz_view_turn(faz_view *self, faz_seen *seen, void *closure) {
    uint32_t played = 0;
    pthread_mutex_lock(&self->lock);
    take_wish(self);
    if (self->is_shown && !self->wish.is_open) {
        uint32_t ahead = faz_timeline_rows(self->timeline, self->frame, AHEAD);
        bool is_on_the_way = self->frame < self->target; /* to where it was sent: not shown */
        uint32_t most = is_on_the_way ? self->target - self->frame : self->is_paused ? 0 : frames_of_turn(self, ahead);
        for (uint32_t at = 0; at < most && at < ahead; at++) {
            const fazgrond_row *row = step(self);
            played += !is_on_the_way;
            if (seen != NULL && !is_on_the_way)
                seen(self->state, row, self->frame, closure);
        }
        if (is_on_the_way && ahead == 0)
            arrive_or_jump(self);
        compare(self);
        self->wanted = self->frame;
    }
    pthread_mutex_unlock(&self->lock);
    return played;
}

const void *faz_view_shown(const faz_view *self) { return self->is_shown ? self->state : NULL; }

const faz_head *faz_view_head(faz_view *self) {
    pthread_mutex_lock(&self->lock);
    const faz_head *head = faz_timeline_head(self->timeline);
    pthread_mutex_unlock(&self->lock);
    return head;
}

void faz_view_pause(faz_view *self, bool is_paused) { self->is_paused = is_paused; }

static void go_to(faz_view *self, uint32_t frame, bool is_following) {
    pthread_mutex_lock(&self->lock);
    self->is_following = is_following;
    self->target = frame == FAZ_LATEST ? 0 : frame;
    wish_for(self, frame == FAZ_LATEST ? frame : frame / FAZ_CHAPTER, false);
    pthread_mutex_unlock(&self->lock);
}

void faz_view_seek(faz_view *self, uint32_t frame) { go_to(self, frame, false); }

void faz_view_follow(faz_view *self) {
    self->is_live = true;
    go_to(self, FAZ_LATEST, true);
}

void faz_view_look(faz_view *self, faz_view_state *state) {
    uint32_t frames;
    pthread_mutex_lock(&self->lock);
    *state = (faz_view_state){
        .frame = self->frame,
        .ahead = self->is_shown ? faz_timeline_rows(self->timeline, self->frame, AHEAD) : 0,
        .known = faz_timeline_known(self->timeline),
        .is_shown = self->is_shown && self->frame >= self->target,
        .is_paused = self->is_paused,
        .is_following = self->is_following,
        .desync = self->desync,
        .gaps = self->gaps,
        .gap_from = self->gap_from,
        .gap_to = self->gap_to,
        .asked = self->asked,
        .malformed = faz_timeline_count(self->timeline, FAZ_MALFORMED),
        .other = faz_timeline_count(self->timeline, FAZ_OTHER),
        .version = faz_timeline_version(self->timeline),
    };
    state->has_ended = faz_timeline_end(self->timeline, &frames, &state->reason) && self->is_shown && self->frame >= frames
        && self->quiet >= PATIENCE;
    pthread_mutex_unlock(&self->lock);
}

/* Opening and closing. */

static void give_back(void *of) {
    faz_view *self = of;
    pthread_mutex_destroy(&self->lock);
    faz_timeline_close(self->timeline);
    free(self->servers);
    free(self->state);
    free(self->wish.state);
    free(self->read);
    free(self);
}

static faz_view *make(const faz_view_settings *settings) {
    faz_view *self = calloc(1, sizeof *self);
    size_t size = settings->game->size;
    if (self == NULL)
        return NULL;
    pthread_mutex_init(&self->lock, NULL);
    self->settings = *settings;
    self->game = *settings->game;
    self->state = malloc(size);
    self->wish.state = malloc(size);
    self->read = malloc(size);
    self->servers = malloc(strlen(settings->servers) + 1);
    self->timeline = faz_timeline_open(&self->game, settings->match);
    if (self->state != NULL && self->wish.state != NULL && self->read != NULL && self->servers != NULL && self->timeline != NULL)
        return self;
    give_back(self);
    return NULL;
}

faz_view *faz_view_open(const faz_view_settings *settings, const char **why) {
    *why = faz_is_name(settings->match) ? "no memory" : "a match's name is 1 to 32 letters, digits, - and _";
    faz_view *self = faz_is_name(settings->match) ? make(settings) : NULL;
    if (self == NULL)
        return NULL;
    strcpy(self->servers, settings->servers);
    strcpy(self->match, settings->match);
    self->desync = self->wanted = self->missing = FAZ_LATEST;
    *why = "the servers can't be read: nats://HOST:PORT, or several with a comma between each two";
    if (!faz_broker_open(&self->broker, self->servers)) {
        give_back(self);
        return NULL;
    }
    self->is_live = settings->is_live;
    go_to(self, settings->from, settings->from == FAZ_LATEST);
    *why = "no thread can be begun";
    if (faz_beside_begin(&self->beside, read_all, give_back, self))
        return self;
    give_back(self);
    return NULL;
}

void faz_view_close(faz_view *self) {
    if (self == NULL)
        return;
    atomic_store(&self->is_closing, true);
    faz_beside_wait(&self->beside, LAST);
    faz_beside_leave(&self->beside);
}
