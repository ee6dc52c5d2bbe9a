/* Messages of a match that is watched: what is written is read, what is malformed is refused, and the first valid one stands. Says
 * nothing if all is as it has to be. */
#include "../../../programs/duel/duel_game.h"
#include "../../../lib/sha256.h"
#include "../../../lib/watch/timeline.h"
#include "../../check.h"

#include <stdio.h>
#include <stdlib.h>
#include <string.h>

enum { NUMBER = 0x7766 };

static uint8_t bytes[FAZ_SMALL + sizeof(duel)];

static fazgrond_row row_of(uint32_t players, uint32_t frame) {
    fazgrond_row row = { .count = players };
    for (uint32_t at = 0; at < players; at++)
        row.words[at] = frame / (2 + at) * 2654435761u >> (at * 4 % 28);
    return row;
}

static bool is_same(const fazgrond_row *one, const fazgrond_row *other) {
    return one->count == other->count && one->gone == other->gone && memcmp(one->words, other->words, sizeof one->words) == 0;
}

/* The words of docs/WIRE.md's first example, as it writes them, of one player. */
static void bytes_of_rows(void) {
    static const uint32_t words[] = { 0, 0, 5, 5, 5, 7 };
    static const uint8_t wanted[] = { 0, 0, 0, 15, 'F', 'Z', 'G', '4', 0, 0, 0, 0, 0, 0, 0, 0, 0, 1, /* the first frame; a play */
                                      1, 0, 0, 1,  6,   0,   1,   0,   6, 0, /* its number, counts, offers, no marks */
                                      2, 5, 2, 7 };
    fazgrond_row rows[6] = { 0 };
    for (uint32_t at = 0; at < 6; at++)
        rows[at] = (fazgrond_row){ .count = 1, .words = { words[at] } };
    size_t length = faz_write_rows(bytes, NUMBER, 15, rows, 6);
    MUST(length == sizeof wanted && is_sealed(bytes + 4, length - 4, (seal_key){ NUMBER + 15, 1, 2 }));
    memset(bytes + 8, 0, 8);
    MUST(memcmp(bytes, wanted, sizeof wanted) == 0);
}

/* Runs of all lengths and numbers of players, of whom one has left before some frame, if it isn't the only one. */
static void rows_there_and_back(void) {
    for (uint32_t players = 1; players <= FAZGROND_PLAYERS; players++)
        for (uint32_t count = 1; count <= FAZ_RUN; count++)
            for (uint32_t left = players > 1 ? 0 : count; left <= count; left++) {
                fazgrond_row rows[FAZ_RUN], back[FAZ_RUN];
                uint32_t first;
                for (uint32_t at = 0; at < count; at++) {
                    rows[at] = row_of(players, 600 + at);
                    if (at >= left) {
                        rows[at].gone = 1u << (players - 1);
                        rows[at].words[players - 1] = 0;
                    }
                }
                size_t length = faz_write_rows(bytes, NUMBER, 600, rows, count);
                MUST(length <= FAZ_SMALL && faz_kind_of(bytes, length) == FAZ_ROWS);
                MUST(faz_read_rows(bytes, length, NUMBER, players, &first, back) == count && first == 600);
                for (uint32_t at = 0; at < count; at++)
                    MUST(is_same(&rows[at], &back[at]));
            }
}

/* Runs that begin in the middle of 15 frames, up to their end. One row more is none. */
static void parts_of_runs(void) {
    for (uint32_t begin = 0; begin < FAZ_RUN; begin++)
        for (uint32_t count = 1; count <= FAZ_RUN; count++) {
            fazgrond_row rows[FAZ_RUN], back[FAZ_RUN];
            uint32_t first, most = FAZ_RUN - begin;
            for (uint32_t at = 0; at < count; at++)
                rows[at] = row_of(2, 600 + begin + at);
            size_t length = faz_write_rows(bytes, NUMBER, 600 + begin, rows, count);
            MUST(faz_read_rows(bytes, length, NUMBER, 2, &first, back) == (count <= most ? count : 0));
            for (uint32_t at = 0; at < count && count <= most; at++)
                MUST(first == 600 + begin && is_same(&rows[at], &back[at]));
        }
}

static bool is_read(size_t length, uint64_t number, uint32_t players) {
    fazgrond_row rows[FAZ_RUN];
    faz_head head;
    faz_sum sum;
    duel state;
    char reason[FAZ_REASON];
    uint32_t first;
    return faz_read_rows(bytes, length, number, players, &first, rows) > 0 || faz_read_head(bytes, length, number, &head)
        || faz_read_sum(bytes, length, number, &sum) || faz_read_end(bytes, length, number, &first, reason)
        || faz_read_snap(bytes, length, number, &duel_game, players, &sum, &state);
}

/* No byte may be another, none be missing or too many; the match has to be the same. */
static void nothing_else(size_t length) {
    MUST(is_read(length, NUMBER, 2));
    MUST(!is_read(length, NUMBER + 600, 2) && !is_read(length - 1, NUMBER, 2) && !is_read(length + 1, NUMBER, 2));
    for (size_t at = 0; at < length; at++)
        for (int bit = 0; bit < 8; bit++) {
            bytes[at] ^= (uint8_t)(1 << bit);
            MUST(!is_read(length, NUMBER, 2));
            bytes[at] ^= (uint8_t)(1 << bit);
        }
}

static const faz_head the_head = { .players = 2, .rate = 60, .threshold = 8, .size = sizeof(duel), .game = "duel" };

static size_t some_rows(uint64_t number, uint32_t first, uint32_t count, uint32_t other) {
    fazgrond_row rows[FAZ_RUN] = { 0 };
    for (uint32_t at = 0; at < count; at++)
        rows[at] = row_of(2, first + at);
    rows[count - 1].words[1] ^= other;
    return faz_write_rows(bytes, number, first, rows, count);
}

static size_t some_snap(uint64_t number, uint32_t frame, uint32_t wrong) {
    duel state;
    duel_open(&state, 2);
    faz_sum sum = { .frame = frame, .gap = frame, .digest = duel_checksum(&state) ^ wrong };
    return faz_write_snap(bytes, number, &sum, &state, sizeof state);
}

static void changed_ones(void) {
    nothing_else(some_rows(NUMBER, 600, FAZ_RUN, 0));
    nothing_else(faz_write_head(bytes, NUMBER, &the_head));
    nothing_else(faz_write_sum(bytes, NUMBER, &(faz_sum){ .frame = 600, .gap = 30, .digest = 5 }));
    nothing_else(faz_write_end(bytes, NUMBER, 1234, "all is over"));
    nothing_else(some_snap(NUMBER, 600, 0));
}

/* Sealed, and yet none. */
static void sealed_ones(void) {
    faz_head head = the_head;
    head.rate = 0;
    MUST(!is_read(faz_write_head(bytes, NUMBER, &head), NUMBER, 2));
    head = the_head;
    head.players = 9;
    MUST(!is_read(faz_write_head(bytes, NUMBER, &head), NUMBER, 2));
    MUST(is_read(some_rows(NUMBER, 614, 1, 0), NUMBER, 2) && !is_read(some_rows(NUMBER, 614, 2, 0), NUMBER, 2));
    MUST(!is_read(some_rows(NUMBER, FAZ_LAST_FRAME / 15 * 15 + 15, 1, 0), NUMBER, 2));
    MUST(!is_read(some_rows(NUMBER, 600, 1, 0), NUMBER, 1)); /* a player too many */
    MUST(!is_read(some_snap(NUMBER, 600, 1), NUMBER, 2));
    MUST(!is_read(some_snap(NUMBER, 601, 0), NUMBER, 2));
    MUST(!is_read(faz_write_sum(bytes, NUMBER, &(faz_sum){ .frame = 600, .gap = 601 }), NUMBER, 2));
    MUST(!is_read(faz_write_end(bytes, NUMBER, FAZ_LAST_FRAME + 1, ""), NUMBER, 2));
    duel state;
    duel_open(&state, 2);
    state.bullets = DUEL_BULLETS + 1; /* a state that it would not be safe to step */
    faz_sum sum = { .frame = 600, .gap = 600, .digest = duel_checksum(&state) };
    MUST(!is_read(faz_write_snap(bytes, NUMBER, &sum, &state, sizeof state), NUMBER, 2));
}

static void names(void) {
    char id[FAZ_SUBJECT], subject[FAZ_SUBJECT];
    MUST(faz_is_name("cup-2_final") && !faz_is_name("") && !faz_is_name("a.b") && !faz_is_name("a*") && !faz_is_name("a b"));
    MUST(faz_is_name("12345678901234567890123456789012") && !faz_is_name("123456789012345678901234567890123"));
    MUST(faz_number("a") != faz_number("b"));
    faz_id(id, "cup", FAZ_ROWS, 1215);
    faz_subject(subject, "cup", FAZ_ROWS, 2);
    MUST(strcmp(id, "cup.r1215") == 0 && strcmp(subject, "faz.cup.rows.2") == 0);
}

/* What a viewer knows. */
static faz_taken take(faz_timeline *timeline, size_t length) { return faz_timeline_take(timeline, bytes, length, NULL); }

static void timelines(void) {
    faz_timeline *seen = faz_timeline_open(&duel_game, "cup");
    uint64_t number = faz_number("cup");
    faz_head other = the_head;
    uint32_t frames;
    const char *reason;
    other.rate = 50;
    MUST(take(seen, some_rows(number, 0, FAZ_RUN, 0)) == FAZ_EARLY);
    MUST(take(seen, faz_write_head(bytes, number + 1, &the_head)) == FAZ_MALFORMED);
    MUST(take(seen, faz_write_head(bytes, number, &the_head)) == FAZ_NEW);
    MUST(take(seen, faz_write_head(bytes, number, &the_head)) == FAZ_REPEATED);
    MUST(take(seen, faz_write_head(bytes, number, &other)) == FAZ_OTHER);
    MUST(faz_timeline_head(seen)->rate == 60 && faz_timeline_version(seen) == 0);

    /* a part of a run, other words for it, all of it, and the same again */
    MUST(take(seen, some_rows(number, 0, 7, 0)) == FAZ_NEW && faz_timeline_rows(seen, 0, 99) == 7);
    MUST(take(seen, some_rows(number, 0, 7, 1)) == FAZ_OTHER);
    MUST(take(seen, some_rows(number, 0, FAZ_RUN, 0)) == FAZ_NEW && faz_timeline_rows(seen, 0, 99) == FAZ_RUN);
    MUST(take(seen, some_rows(number, 0, FAZ_RUN, 0)) == FAZ_REPEATED);
    MUST(take(seen, some_rows(number, 0, FAZ_RUN, 1)) == FAZ_OTHER);
    fazgrond_row wanted = row_of(2, 14);
    MUST(is_same(faz_timeline_row(seen, 14), &wanted) && faz_timeline_row(seen, 15) == NULL);
    MUST(take(seen, some_rows(number, 30, FAZ_RUN, 0)) == FAZ_NEW);
    MUST(faz_timeline_rows(seen, 0, 99) == 15 && faz_timeline_known(seen) == 45 && faz_timeline_row(seen, 30) != NULL);

    /* who came in in the middle of a run, and who has all of it */
    MUST(take(seen, some_rows(number, 97, 4, 0)) == FAZ_NEW && faz_timeline_rows(seen, 97, 99) == 4);
    MUST(faz_timeline_row(seen, 96) == NULL && faz_timeline_row(seen, 101) == NULL && faz_timeline_known(seen) == 101);
    MUST(take(seen, some_rows(number, 90, 8, 1)) == FAZ_OTHER && faz_timeline_row(seen, 96) == NULL);
    MUST(take(seen, some_rows(number, 98, 2, 0)) == FAZ_REPEATED && take(seen, some_rows(number, 90, 5, 0)) == FAZ_NEW);
    MUST(faz_timeline_rows(seen, 90, 99) == 5 && take(seen, some_rows(number, 90, FAZ_RUN, 0)) == FAZ_NEW);
    MUST(faz_timeline_rows(seen, 90, 99) == FAZ_RUN && take(seen, some_rows(number, 99, 6, 0)) == FAZ_REPEATED);
    MUST(take(seen, some_rows(number, 99, 6, 1)) == FAZ_OTHER);

    /* a gap that one publisher has, and a shorter one of another */
    MUST(take(seen, faz_write_sum(bytes, number, &(faz_sum){ 1200, 45, 7 })) == FAZ_NEW);
    MUST(faz_timeline_gap(seen, 44) == 0 && faz_timeline_gap(seen, 45) == 1200 && faz_timeline_gap(seen, 1200) == 0);
    MUST(take(seen, faz_write_sum(bytes, number, &(faz_sum){ 1200, 45, 8 })) == FAZ_OTHER);
    MUST(take(seen, faz_write_sum(bytes, number, &(faz_sum){ 1200, 900, 7 })) == FAZ_NEW);
    MUST(faz_timeline_gap(seen, 45) == 0 && faz_timeline_gap(seen, 900) == 1200 && faz_timeline_sum(seen, 2)->digest == 7);

    /* who leaves first says an end, and so does who leaves last */
    MUST(!faz_timeline_end(seen, &frames, &reason));
    MUST(take(seen, faz_write_end(bytes, number, 50, "one\nleft")) == FAZ_NEW);
    MUST(take(seen, faz_write_end(bytes, number, 70, "all left")) == FAZ_NEW);
    MUST(take(seen, faz_write_end(bytes, number, 60, "who")) == FAZ_REPEATED);
    MUST(faz_timeline_end(seen, &frames, &reason) && frames == 70 && strcmp(reason, "all left") == 0);
    MUST(faz_timeline_count(seen, FAZ_OTHER) == 6 && faz_timeline_count(seen, FAZ_MALFORMED) == 1);
    faz_timeline_close(seen);
}

/* A header of another version is refused, and which one it is can be said until one comes that is read. */
static void versions(void) {
    faz_timeline *seen = faz_timeline_open(&duel_game, "cup");
    uint64_t number = faz_number("cup");
    size_t length = faz_write_head(bytes, number, &the_head);
    MUST(faz_other_version(bytes, length, number) == 0 && bytes[14] == 0 && bytes[15] == 4);
    bytes[3] = '3'; /* that of packets too */
    bytes[15] = 3;
    MUST(take(seen, length) == FAZ_MALFORMED && faz_timeline_version(seen) == 0); /* the seal is another one */
    seal(bytes, length, (seal_key){ number, 0, 0 });
    MUST(take(seen, length) == FAZ_MALFORMED && faz_timeline_version(seen) == 3 && faz_timeline_head(seen) == NULL);
    MUST(take(seen, faz_write_head(bytes, number, &the_head)) == FAZ_NEW && faz_timeline_version(seen) == 0);
    faz_timeline_close(seen);
}

int main(void) {
    bytes_of_rows();
    rows_there_and_back();
    parts_of_runs();
    changed_ones();
    sealed_ones();
    names();
    timelines();
    versions();
    return 0;
}
