/* For tests: publishes messages that viewers have to drop, into a match that goes on. forge BROKER MATCH FRAME
 *
 * Under the ids of runs from FRAME on, which nobody has published yet, stands what is none; the players have to put theirs beside
 * it. And under ids of their own: messages of another match, too short and too long ones, rows that stand with other words,
 * snapshots and digests of other states. Prints how many are malformed, and how many say something else than what stands. */
#include "../../../lib/watch/broker.h"
#include "../../../programs/duel/duel_game.h"
#include "../../../lib/sha256.h"

#include <stdio.h>
#include <stdlib.h>
#include <string.h>

static faz_broker broker;
static const char *match;
static uint8_t bytes[FAZ_SMALL + sizeof(duel)];
static unsigned malformed, other, sent;

/* Stands beside all others, unless there is an id. */
static void publish(faz_kind kind, uint32_t frame, size_t length, const char *id) {
    char subject[FAZ_SUBJECT], own[FAZ_SUBJECT];
    natsMsg *message = NULL;
    jsPubAck *ack = NULL;
    snprintf(own, sizeof own, "%s-forged-%u", match, sent++);
    faz_subject(subject, match, kind, frame / FAZ_CHAPTER);
    natsMsg_Create(&message, subject, NULL, (const char *)bytes, (int)length);
    natsMsgHeader_Set(message, "Nats-Msg-Id", id != NULL ? id : own);
    if (js_PublishMsg(&ack, broker.stream, message, NULL, NULL) != NATS_OK || ack->Duplicate)
        exit(1);
    jsPubAck_Destroy(ack);
    natsMsg_Destroy(message);
}

static size_t rows_of(uint64_t number, uint32_t first, uint32_t word) {
    fazgrond_row rows[FAZ_RUN];
    for (uint32_t at = 0; at < FAZ_RUN; at++)
        rows[at] = (fazgrond_row){ .count = 2, .words = { word, word } };
    return faz_write_rows(bytes, number, first, rows, FAZ_RUN);
}

/* Takes the places of runs that are to come. */
static void take_places(uint64_t number, uint32_t frame) {
    for (uint32_t first = frame; first < frame + 10 * FAZ_RUN; first += FAZ_RUN) {
        char id[FAZ_SUBJECT];
        size_t length = rows_of(number, first, 77);
        bytes[length - 1] ^= 1;
        faz_id(id, match, FAZ_ROWS, first);
        publish(FAZ_ROWS, first, length, id);
        malformed++;
    }
}

static void malformed_ones(uint64_t number) {
    static const size_t lengths[] = { 0, 1, 4, 17, 18, 30 };
    publish(FAZ_ROWS, 0, rows_of(faz_number("another"), 0, 1), NULL);
    publish(FAZ_ROWS, 0, rows_of(number, 0, 1) - 1, NULL);
    publish(FAZ_ROWS, 0, rows_of(number, 0, 1) + 1, NULL);
    rows_of(number, 0, 1);
    for (size_t at = 0; at < sizeof lengths / sizeof *lengths; at++)
        publish(FAZ_ROWS, 0, lengths[at], NULL);
    publish(FAZ_ROWS, 0, faz_write_sum(bytes, number, &(faz_sum){ .frame = 1 }), NULL);
    malformed += 4 + sizeof lengths / sizeof *lengths;
}

/* Waits until rows from this frame on stand, ten seconds at most. */
static void await_rows(uint32_t frame) {
    char subject[FAZ_SUBJECT];
    uint64_t place = 1;
    bool is_there = false;
    faz_subject(subject, match, FAZ_ROWS, frame / FAZ_CHAPTER);
    for (int tries = 0; !is_there && tries < 500; tries++) {
        natsMsg *message = NULL;
        if (faz_broker_next(&broker, &message, subject, place) == NATS_OK) {
            const uint8_t *it = (const uint8_t *)natsMsg_GetData(message);
            size_t length = (size_t)natsMsg_GetDataLength(message);
            is_there = faz_kind_of(it, length) == FAZ_ROWS && faz_frame_of(it, length) >= frame;
            place = natsMsg_GetSequence(message) + 1;
        } else
            nats_Sleep(20);
        natsMsg_Destroy(message);
    }
    if (!is_there)
        exit(1);
}

/* A snapshot whose digest is another, and one whose state is none. They are read by who asks for a snapshot. */
static void bad_snapshots(uint64_t number, uint32_t frame) {
    duel state;
    duel_open(&state, 2);
    faz_sum sum = { .frame = frame, .gap = frame, .digest = duel_checksum(&state) + 1 };
    publish(FAZ_SNAP, frame, faz_write_snap(bytes, number, &sum, &state, sizeof state), NULL);
    state.bullets = 1000000;
    sum.digest = duel_checksum(&state);
    publish(FAZ_SNAP, frame, faz_write_snap(bytes, number, &sum, &state, sizeof state), NULL);
}

int main(int count, char **words) {
    if (count != 4 || !faz_broker_open(&broker, words[1]) || !faz_broker_reach(&broker))
        return 2;
    match = words[2];
    uint32_t frame = (uint32_t)atoi(words[3]) / FAZ_RUN * FAZ_RUN;
    uint64_t number = faz_number(match);
    take_places(number, frame);
    malformed_ones(number);
    await_rows(FAZ_RUN);
    publish(FAZ_ROWS, 0, rows_of(number, 0, 99), NULL);
    publish(FAZ_ROWS, 0, rows_of(number, FAZ_RUN, 99), NULL);
    other += 2;
    for (uint32_t chapter = 0; chapter <= frame / FAZ_CHAPTER + 1; chapter++)
        bad_snapshots(number, chapter * FAZ_CHAPTER);
    printf("%u malformed, %u other\n", malformed, other);
    faz_broker_close(&broker);
    return 0;
}
