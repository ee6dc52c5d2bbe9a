#include "claim.h"

#include <stdlib.h>
#include <string.h>

/* ---- Reading. */

typedef struct reader {
    const char *at;
    bool is_bad;
} reader;

static void take(reader *in, const char *expected) {
    size_t length = strlen(expected);
    in->is_bad |= strncmp(in->at, expected, length) != 0;
    if (!in->is_bad)
        in->at += length;
}

static uint32_t take_number(reader *in) {
    uint64_t number = 0;
    in->is_bad |= *in->at < '0' || *in->at > '9';
    for (; *in->at >= '0' && *in->at <= '9'; in->at++)
        number = number * 10 + (uint64_t)(*in->at - '0');
    return (uint32_t)number;
}

/* A line with a name and a number. */
static uint32_t take_named(reader *in, const char *name, uint32_t most) {
    take(in, name);
    take(in, " ");
    uint32_t number = take_number(in);
    take(in, "\n");
    in->is_bad |= number > most;
    return in->is_bad ? 0 : number;
}

static fazgrond_row take_row(reader *in, uint32_t players) {
    fazgrond_row row = { .count = players };
    for (uint32_t at = 0; at < players && !in->is_bad; at++) {
        if (at > 0)
            take(in, ",");
        if (*in->at == 'x') {
            row.gone |= 1u << at;
            in->at++;
        } else {
            row.words[at] = take_number(in);
        }
    }
    return row;
}

static void take_path(reader *in, claim_path *path, uint32_t players) {
    path->count = 0;
    if (*in->at == '-')
        in->at++;
    else
        do {
            in->is_bad |= path->count == CLAIM_ROWS;
            if (!in->is_bad)
                path->rows[path->count++] = take_row(in, players);
            in->at += *in->at == ' ';
        } while (*in->at != '\n' && !in->is_bad);
    take(in, "\n");
}

static claim_differ take_differ(reader *in) {
    claim_differ made;
    made.path = take_number(in);
    take(in, " ");
    made.frame = take_number(in);
    take(in, " ");
    made.player = take_number(in);
    take(in, "\n");
    return made;
}

static bool read_text(claim *self, const char *text) {
    reader in = { text, false };
    uint32_t form = take_named(&in, "rollcert", 2);
    self->players = take_named(&in, "players", FAZGROND_PLAYERS);
    in.is_bad |= self->players == 0 || form != (self->players <= 4 ? 1u : 2u);
    self->base = take_named(&in, "base", 1048576);
    self->from = take_named(&in, "from", UINT32_MAX);
    self->time.count = take_named(&in, "time", CLAIM_ROWS);
    for (uint32_t at = 0; at < self->time.count; at++) {
        self->time.rows[at] = take_row(&in, self->players);
        take(&in, "\n");
    }
    self->kept_count = take_named(&in, "kept", CLAIM_PATHS);
    for (uint32_t at = 0; at < self->kept_count && !in.is_bad; at++)
        take_path(&in, &self->kept[at], self->players);
    self->differ_count = take_named(&in, "differs", CLAIM_PATHS);
    for (uint32_t at = 0; at < self->differ_count; at++)
        self->differs[at] = take_differ(&in);
    return !in.is_bad && *in.at == 0;
}

bool claim_read(claim *self, fazgrond_session *session) {
    static char few[1 << 14];
    size_t length;
    int32_t code = fazgrond_claim(session, (uint8_t *)few, sizeof few - 1, &length);
    if (code == FAZGROND_OK) {
        few[length] = 0;
        return read_text(self, few);
    }
    char *many = code == FAZGROND_TOO_SHORT ? calloc(length + 1, 1) : NULL;
    bool is_read = many != NULL && fazgrond_claim(session, (uint8_t *)many, length, &length) == FAZGROND_OK && read_text(self, many);
    free(many);
    return is_read;
}

/* ---- Checking. */

static bool is_same_cell(const fazgrond_row *one, const fazgrond_row *other, uint32_t place) {
    return one->words[place] == other->words[place] && (one->gone >> place & 1) == (other->gone >> place & 1);
}

bool row_is_same(const fazgrond_row *one, const fazgrond_row *other) {
    bool is_same = one->count == other->count;
    for (uint32_t place = 0; place < one->count && is_same; place++)
        is_same = is_same_cell(one, other, place);
    return is_same;
}

static bool begins_time(const claim *self, const claim_path *path) {
    bool is_same = path->count <= self->time.count;
    for (uint32_t at = 0; at < path->count && is_same; at++)
        is_same = row_is_same(&path->rows[at], &self->time.rows[at]);
    return is_same;
}

static bool has_start(const claim *self) {
    for (uint32_t at = 0; at < self->kept_count; at++)
        if (self->base + self->kept[at].count == self->from && begins_time(self, &self->kept[at]))
            return true;
    return false;
}

static bool is_deeper(const claim *self, const claim_path *path) {
    return self->from < self->base + path->count && path->count <= self->time.count;
}

/* Whether a path that would have spared frames differs from the time where an entry says so. */
static bool is_ruled_out(const claim *self, const claim_differ *by) {
    if (by->path >= self->kept_count || by->frame < self->base || by->player < 1 || by->player > self->players)
        return false;
    const claim_path *path = &self->kept[by->path];
    uint32_t at = by->frame - self->base;
    return is_deeper(self, path) && at < path->count && !is_same_cell(&path->rows[at], &self->time.rows[at], by->player - 1);
}

bool claim_is_right(const claim *self) {
    bool is_named[CLAIM_PATHS] = { false };
    if (!has_start(self))
        return false;
    for (uint32_t at = 0; at < self->differ_count; at++) {
        const claim_differ *by = &self->differs[at];
        if (!is_ruled_out(self, by) || is_named[by->path])
            return false;
        is_named[by->path] = true;
    }
    for (uint32_t at = 0; at < self->kept_count; at++)
        if (is_deeper(self, &self->kept[at]) && !is_named[at])
            return false;
    return true;
}
