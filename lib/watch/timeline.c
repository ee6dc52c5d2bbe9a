#include "timeline.h"

#include <stdlib.h>
#include <string.h>

enum { RUNS = FAZ_LAST_FRAME / FAZ_RUN + 1, CHAPTERS = FAZ_LAST_FRAME / FAZ_CHAPTER + 1 };

/* The frames from a multiple of FAZ_RUN up to the next, with a bit for each that is there. */
typedef struct run {
    uint32_t there;
    fazgrond_row rows[FAZ_RUN];
} run;

typedef struct chapter {
    bool is_there;
    faz_sum sum;
} chapter;

struct faz_timeline {
    const faz_game *game;
    uint64_t number;
    bool has_head, has_end;
    faz_head head;
    uint32_t known, frames, version, counts[FAZ_OTHER + 1];
    char reason[FAZ_REASON];
    void *state; /* a place to read one into */
    run *runs[RUNS];
    chapter chapters[CHAPTERS];
};

faz_timeline *faz_timeline_open(const faz_game *game, const char *match) {
    faz_timeline *self = calloc(1, sizeof *self);
    if (self == NULL)
        return NULL;
    self->game = game;
    self->number = faz_number(match);
    self->state = malloc(game->size);
    if (self->state != NULL)
        return self;
    free(self);
    return NULL;
}

void faz_timeline_close(faz_timeline *self) {
    if (self == NULL)
        return;
    for (size_t at = 0; at < RUNS; at++)
        free(self->runs[at]);
    free(self->state);
    free(self);
}

static faz_taken take_head(faz_timeline *self, const uint8_t *bytes, size_t length) {
    faz_head head = { 0 };
    uint32_t version = faz_other_version(bytes, length, self->number);
    self->version = version != 0 ? version : self->version;
    if (!faz_read_head(bytes, length, self->number, &head) || head.size != self->game->size || strcmp(head.game, self->game->name) != 0)
        return FAZ_MALFORMED;
    if (self->has_head)
        return memcmp(&head, &self->head, sizeof head) == 0 ? FAZ_REPEATED : FAZ_OTHER;
    self->head = head;
    self->has_head = true;
    return FAZ_NEW;
}

static bool is_same_row(const fazgrond_row *one, const fazgrond_row *other) {
    return one->count == other->count && one->gone == other->gone
        && memcmp(one->words, other->words, one->count * sizeof one->words[0]) == 0;
}

/* Several messages may have rows of one run: who came in in its middle publishes the rest, and where a player is back another one
 * begins. */
static faz_taken take_rows(faz_timeline *self, const uint8_t *bytes, size_t length) {
    fazgrond_row rows[FAZ_RUN] = { 0 };
    uint32_t first, count = faz_read_rows(bytes, length, self->number, self->head.players, &first, rows);
    if (count == 0)
        return FAZ_MALFORMED;
    run **at = &self->runs[first / FAZ_RUN];
    if (*at == NULL)
        *at = calloc(1, sizeof **at);
    if (*at == NULL)
        return FAZ_EARLY; /* no memory: it is asked for again */
    uint32_t place = first % FAZ_RUN, told = ((1u << count) - 1) << place;
    for (uint32_t row = 0; row < count; row++)
        if (((*at)->there >> (place + row) & 1) != 0 && !is_same_row(&rows[row], &(*at)->rows[place + row]))
            return FAZ_OTHER;
    if ((told & ~(*at)->there) == 0)
        return FAZ_REPEATED;
    memcpy((*at)->rows + place, rows, count * sizeof *rows);
    (*at)->there |= told;
    if (first + count > self->known)
        self->known = first + count;
    return FAZ_NEW;
}

static faz_taken take_sum(faz_timeline *self, const faz_sum *sum) {
    chapter *at = &self->chapters[sum->frame / FAZ_CHAPTER];
    if (at->is_there && at->sum.digest != sum->digest)
        return FAZ_OTHER;
    if (at->is_there && at->sum.gap >= sum->gap)
        return FAZ_REPEATED;
    /* What one publisher lacks another may have: the shorter gap counts. */
    *at = (chapter){ .is_there = true, .sum = *sum };
    return FAZ_NEW;
}

static faz_taken take_end(faz_timeline *self, const uint8_t *bytes, size_t length) {
    char reason[FAZ_REASON];
    uint32_t frames;
    if (!faz_read_end(bytes, length, self->number, &frames, reason))
        return FAZ_MALFORMED;
    if (self->has_end && frames <= self->frames)
        return FAZ_REPEATED;
    self->frames = frames;
    self->has_end = true;
    memcpy(self->reason, reason, sizeof reason);
    return FAZ_NEW;
}

static faz_taken take(faz_timeline *self, const uint8_t *bytes, size_t length, void *state) {
    faz_kind kind = faz_kind_of(bytes, length);
    faz_sum sum;
    if (kind == FAZ_HEAD)
        return take_head(self, bytes, length);
    if (!self->has_head)
        return FAZ_EARLY;
    switch (kind) {
    case FAZ_ROWS: return take_rows(self, bytes, length);
    case FAZ_END: return take_end(self, bytes, length);
    case FAZ_SUM: return faz_read_sum(bytes, length, self->number, &sum) ? take_sum(self, &sum) : FAZ_MALFORMED;
    case FAZ_SNAP:
        return faz_read_snap(bytes, length, self->number, self->game, self->head.players, &sum, state) ? take_sum(self, &sum)
                                                                                                       : FAZ_MALFORMED;
    default: return FAZ_MALFORMED;
    }
}

faz_taken faz_timeline_take(faz_timeline *self, const uint8_t *bytes, size_t length, void *state) {
    faz_taken taken = take(self, bytes, length, state != NULL ? state : self->state);
    self->counts[taken]++;
    return taken;
}

uint32_t faz_timeline_count(const faz_timeline *self, faz_taken taken) { return self->counts[taken]; }

const faz_head *faz_timeline_head(const faz_timeline *self) { return self->has_head ? &self->head : NULL; }

uint32_t faz_timeline_version(const faz_timeline *self) { return self->has_head ? 0 : self->version; }

const fazgrond_row *faz_timeline_row(const faz_timeline *self, uint32_t frame) {
    const run *at = frame < FAZ_LAST_FRAME ? self->runs[frame / FAZ_RUN] : NULL;
    return at != NULL && (at->there >> frame % FAZ_RUN & 1) != 0 ? &at->rows[frame % FAZ_RUN] : NULL;
}

uint32_t faz_timeline_rows(const faz_timeline *self, uint32_t frame, uint32_t most) {
    uint32_t count = 0;
    while (count < most && faz_timeline_row(self, frame + count) != NULL)
        count++;
    return count;
}

uint32_t faz_timeline_known(const faz_timeline *self) { return self->known; }

const faz_sum *faz_timeline_sum(const faz_timeline *self, uint32_t number) {
    return number < CHAPTERS && self->chapters[number].is_there ? &self->chapters[number].sum : NULL;
}

uint32_t faz_timeline_gap(const faz_timeline *self, uint32_t frame) {
    for (size_t at = frame / FAZ_CHAPTER + 1; at < CHAPTERS; at++)
        if (self->chapters[at].is_there)
            return self->chapters[at].sum.gap <= frame ? self->chapters[at].sum.frame : 0;
    return 0;
}

bool faz_timeline_end(const faz_timeline *self, uint32_t *frames, const char **reason) {
    *frames = self->frames;
    *reason = self->reason;
    return self->has_end;
}
