#include "replay.h"

#include <inttypes.h>
#include <stdlib.h>
#include <string.h>

static const char head[8] = "FZREPLAY";
enum { PART_BYTES = 4 * (3 + 2 * FAZGROND_PLAYERS) };

enum { VERSION = 1, IN_PARTS = 2 /* of a match into which players come back: its parts, from a frame on in which this machine came in */ };

/* Numbers of four bytes, the lowest first. */
static bool put(FILE *file, uint32_t number) {
    uint8_t four[4] = { (uint8_t)number, (uint8_t)(number >> 8), (uint8_t)(number >> 16), (uint8_t)(number >> 24) };
    return fwrite(four, 1, 4, file) == 4;
}

static bool put_long(FILE *file, uint64_t number) { return put(file, (uint32_t)number) && put(file, (uint32_t)(number >> 32)); }

static uint32_t take(bytes *from) {
    uint32_t number = 0;
    for (int at = 0; at < 4 && from->size >= 4; at++)
        number |= (uint32_t)from->at[at] << 8 * at;
    bool is_there = from->size >= 4;
    from->at += is_there ? 4 : 0;
    from->size = is_there ? from->size - 4 : 0;
    return number;
}

static uint64_t take_long(bytes *from) {
    uint64_t low = take(from);
    return low | (uint64_t)take(from) << 32;
}

static uint32_t last_frame(const match *self) {
    uint32_t first = self->lasting.trail.first;
    uint32_t last = self->wish->frames > 0 && self->wish->frames < self->settled ? self->wish->frames : self->settled;
    return last > first ? last : first;
}

static bool write_rows(match *self, FILE *file, uint32_t from, uint32_t to) {
    bool goes_on = true;
    for (uint32_t frame = from; frame < to && goes_on; frame++) {
        fazgrond_row row;
        goes_on = match_row(self, frame, &row) && put(file, row.gone);
        for (uint32_t at = 0; at < self->meeting->all.players && goes_on; at++)
            goes_on = put(file, row.words[at]);
    }
    return goes_on;
}

static bool put_all(FILE *file, const uint32_t *numbers) {
    bool goes_on = true;
    for (int at = 0; at < FAZGROND_PLAYERS && goes_on; at++)
        goes_on = put(file, numbers[at]);
    return goes_on;
}

/* Each part with its own rows. One that begins behind the last frame isn't written. */
static bool write_parts(match *self, FILE *file) {
    const lasting *it = &self->lasting;
    uint32_t from = it->trail.first, last = last_frame(self), count = 0;
    while (count < it->part_count && (count == 0 || it->parts[count].base < last))
        count++;
    bool goes_on = put(file, from) && put(file, count);
    for (uint32_t at = 0; at < count && goes_on; at++) {
        const match_part *one = &it->parts[at];
        uint32_t to = at + 1 < count ? one[1].base : last;
        goes_on = put(file, one->base) && put(file, one->threshold) && put_all(file, one->owners) && put_all(file, one->delays)
            && put(file, to - from) && write_rows(self, file, from, to);
        from = to;
    }
    return goes_on;
}

static bool write_replay(match *self, FILE *file) {
    const facts *it = self->facts;
    bool lasts = self->wish->lasts;
    const core_state *opening = self->lasting.opening.at != NULL ? &self->lasting.opening : &self->opening;
    return fwrite(head, 1, sizeof head, file) == sizeof head && put(file, lasts ? IN_PARTS : VERSION) && put_long(file, it->core)
        && put_long(file, it->rom) && put_long(file, it->options) && put(file, self->states->reloads)
        && put(file, self->meeting->all.players) && (lasts || put(file, last_frame(self))) && put_long(file, opening->picture)
        && put(file, (uint32_t)opening->size) && fwrite(opening->at, 1, opening->size, file) == opening->size
        && (lasts ? write_parts(self, file) : write_rows(self, file, 0, last_frame(self)));
}

/* A line for each settled frame: the digest of the state after it. */
static bool write_digests(match *self, FILE *file) {
    uint64_t path = path_from(self->lasting.trail.first);
    uint32_t lacking = 0;
    for (uint32_t frame = self->lasting.trail.first; frame < last_frame(self); frame++) {
        fazgrond_row row;
        if (!match_row(self, frame, &row))
            return false;
        path = path_after(path, &row);
        uint64_t digest = notes_find(&self->states->notes, path);
        lacking += digest == 0;
        fprintf(file, "%" PRIu32 " %016" PRIx64 "\n", frame + 1, digest);
    }
    fprintf(stderr, "%zu states were saved, %" PRIu32 " came out otherwise than before; %" PRIu32 " settled ones weren't\n",
            self->states->notes.count, self->states->notes.differing, lacking);
    return self->states->notes.differing == 0 && lacking == 0;
}

static void write_list(FILE *file, const char *name, uint32_t count, const uint32_t *numbers) {
    for (uint32_t at = 0; at < count; at++)
        fprintf(file, "%s%s%" PRIu32, at == 0 ? name : "", at == 0 ? " " : ",", numbers[at]);
}

static bool write_script(match *self, FILE *file) {
    const agreement *all = &self->meeting->all;
    uint32_t delays[FAZGROND_PLAYERS] = { 0 }, masks[FAZGROND_PLAYERS];
    fazgrond_entry one;
    size_t entries = 0;
    for (uint32_t seat = 0; seat < self->seats; seat++)
        delays[self->locals[seat] - 1] = self->wish->delays[seat];
    for (int at = 0; at < FAZGROND_PLAYERS; at++)
        masks[at] = ~(uint32_t)WORD_RESET;
    fprintf(file, "roll %d players %" PRIu32, all->threshold > 8 || all->players > 4 ? 3 : 2, all->players);
    write_list(file, " local", self->seats, self->locals);
    write_list(file, " delay", all->players, delays);
    write_list(file, " mask", all->players, masks);
    fprintf(file, " threshold %" PRIu32 "\n", all->threshold);
    bool goes_on = fazgrond_log_length(&self->session, &entries) == FAZGROND_OK;
    for (size_t at = 0; at < entries && goes_on; at++) {
        goes_on = fazgrond_log_entry(&self->session, at, &one) == FAZGROND_OK;
        switch (one.kind) {
        case FAZGROND_LOCAL: fprintf(file, "L %" PRIu32 " %" PRIu32 "\n", one.player, one.word); break;
        case FAZGROND_REMOTE: fprintf(file, "R %" PRIu32 " %" PRIu32 " %" PRIu32 "\n", one.player, one.frame, one.word); break;
        case FAZGROND_DISCONNECT: fprintf(file, "D %" PRIu32 "\n", one.player); break;
        case FAZGROND_SYNC: fputs("S\n", file); break;
        case FAZGROND_ADVANCE: fputs("A\n", file); break;
        default: break;
        }
    }
    return goes_on;
}

static bool write_one(match *self, const char *path, bool (*write)(match *, FILE *)) {
    if (path == NULL)
        return true;
    FILE *file = fopen(path, "wb");
    bool is_written = file != NULL && write(self, file);
    if (file == NULL || fclose(file) != 0 || !is_written)
        fprintf(stderr, "%s isn't as it should be\n", path);
    return is_written;
}

bool replay_write_all(match *self) {
    bool is_replay = write_one(self, self->wish->replay, write_replay);
    bool is_digests = write_one(self, self->wish->digests, write_digests);
    return write_one(self, self->wish->picture, write_script) && is_replay && is_digests;
}

/* So many rows more. */
static bool take_rows(bytes *from, replay *out, uint32_t count) {
    size_t each = 4 * ((size_t)out->players + 1), all = (size_t)out->count + count;
    if (from->size / each < count || all > UINT32_MAX)
        return false;
    fazgrond_row *more = realloc(out->rows, (all + 1) * sizeof *more);
    if (more == NULL)
        return false;
    out->rows = more;
    memset(more + out->count, 0, (count + (size_t)1) * sizeof *more);
    for (; out->count < all; out->count++) {
        fazgrond_row *row = &more[out->count];
        row->count = out->players;
        row->gone = take(from);
        for (uint32_t at = 0; at < out->players; at++)
            row->words[at] = take(from);
    }
    return true;
}

static void take_all(bytes *from, uint32_t *numbers) {
    for (int at = 0; at < FAZGROND_PLAYERS; at++)
        numbers[at] = take(from);
}

/* A part, and its rows: it begins where the one before ends, or, if it is the first, at the first frame or before it. */
static bool take_part(bytes *from, replay *out) {
    if (from->size < PART_BYTES)
        return false;
    match_part one = { .base = take(from) };
    one.threshold = take(from);
    take_all(from, one.owners);
    take_all(from, one.delays);
    uint64_t end = (uint64_t)out->first + out->count;
    match_part *more = realloc(out->parts, (out->part_count + (size_t)1) * sizeof *more);
    if (more == NULL)
        return false;
    out->parts = more;
    more[out->part_count++] = one;
    return (out->part_count == 1 ? one.base <= end : one.base == end) && take_rows(from, out, take(from));
}

static bool take_parts(bytes *from, replay *out) {
    out->first = take(from);
    uint32_t count = take(from);
    bool goes_on = count > 0;
    for (uint32_t at = 0; at < count && goes_on; at++)
        goes_on = take_part(from, out);
    return goes_on;
}

bool replay_read(const char *path, replay *out) {
    bytes all, rest;
    memset(out, 0, sizeof *out);
    if (!file_read(path, &all))
        return false;
    rest = all;
    bool is_one = all.size > sizeof head && memcmp(all.at, head, sizeof head) == 0;
    rest.at += is_one ? sizeof head : 0;
    rest.size -= is_one ? sizeof head : 0;
    uint32_t version = take(&rest);
    is_one = is_one && (version == VERSION || version == IN_PARTS);
    out->facts.core = take_long(&rest);
    out->facts.rom = take_long(&rest);
    out->facts.options = take_long(&rest);
    out->reloads = take(&rest) != 0;
    out->players = take(&rest);
    uint32_t count = version == VERSION ? take(&rest) : 0;
    core_state opening = { .picture = take_long(&rest) };
    opening.size = take(&rest);
    opening.at = rest.at;
    is_one = is_one && out->players > 0 && out->players <= FAZGROND_PLAYERS && opening.size <= rest.size
        && state_copy(&out->opening, &opening);
    if (is_one) {
        rest.at += opening.size;
        rest.size -= opening.size;
        is_one = version == VERSION ? take_rows(&rest, out, count) : take_parts(&rest, out);
    }
    free(all.at);
    if (!is_one)
        replay_free(out);
    return is_one;
}

void replay_free(replay *self) {
    free(self->opening.at);
    free(self->rows);
    free(self->parts);
}

static bool keep(playback *self) { return core_save(self->core, &self->state) && (!self->reloads || core_load(self->core, &self->state)); }

bool playback_begin(playback *self, const core_state *opening) { return core_load(self->core, opening) && keep(self); }

bool playback_step(playback *self, const fazgrond_row *row) {
    core_step(self->core, row->words, row->count);
    self->frame++;
    if (self->digests != NULL)
        fprintf(self->digests, "%" PRIu32 " %016" PRIx64 "\n", self->frame, core_digest(self->core));
    return keep(self);
}
