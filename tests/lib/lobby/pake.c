/* Two who know the same secret have the same key, and nobody else. */
#define _POSIX_C_SOURCE 200809L

#include "../../../lib/lobby/pake.h"
#include "../../check.h"

#include <stdio.h>
#include <stdlib.h>
#include <string.h>
#include <time.h>

enum { TURNS = 8 };

typedef struct result {
    pake_answer host, joins; /* the last of each */
    int said;                /* messages */
    size_t longest;
    uint8_t host_key[PAKE_KEY], key[PAKE_KEY];
} result;

/* What comes of it; the message at a place may be changed in one bit. */
static result talk(const char *secret, const char *guess, const char *name, int changed) {
    uint8_t from_host[PAKE_BYTES], from_joins[PAKE_BYTES];
    size_t host_size = 0, joins_size = 0;
    result seen = { PAKE_MORE, PAKE_MORE, 0, 0, { 0 }, { 0 } };
    pake *host = faz_pake_open(true, "KXQ", secret), *joins = faz_pake_open(false, name, guess);
    for (int turn = 0; turn < TURNS && seen.host == PAKE_MORE && seen.joins != PAKE_WRONG; turn++) {
        seen.joins = faz_pake_turn(joins, from_host, host_size, from_joins, &joins_size);
        if (joins_size == 0)
            break;
        if (seen.said++ == changed)
            from_joins[(size_t)rand() % joins_size] ^= (uint8_t)(1 << rand() % 8);
        seen.host = faz_pake_turn(host, from_joins, joins_size, from_host, &host_size);
        if (host_size > 0 && seen.said++ == changed)
            from_host[(size_t)rand() % host_size] ^= (uint8_t)(1 << rand() % 8);
        seen.longest = host_size > seen.longest ? host_size : joins_size > seen.longest ? joins_size : seen.longest;
    }
    if (seen.host == PAKE_DONE)
        seen.joins = faz_pake_turn(joins, from_host, host_size, from_joins, &joins_size);
    faz_pake_key(host, seen.host_key);
    faz_pake_key(joins, seen.key);
    faz_pake_close(host);
    faz_pake_close(joins);
    return seen;
}

static bool has_key(const result *seen) {
    return seen->host == PAKE_DONE && seen->joins == PAKE_DONE && memcmp(seen->host_key, seen->key, PAKE_KEY) == 0;
}

static double now(void) {
    struct timespec time;
    clock_gettime(CLOCK_PROCESS_CPUTIME_ID, &time);
    return (double)time.tv_sec * 1e3 + (double)time.tv_nsec / 1e6;
}

int main(void) {
    double begun = now();
    result right = talk("4H7P", "4H7P", "KXQ", -1), again = talk("4H7P", "4H7P", "KXQ", -1);
    printf("both ends take %.1f ms; %d messages, the longest %zu bytes\n", (now() - begun) / 2, right.said, right.longest);
    CHECK_SAY(has_key(&right) && has_key(&again), "the same secret");
    CHECK_SAY(right.said == 4, "two messages of each");
    CHECK_SAY(memcmp(right.key, again.key, PAKE_KEY) != 0, "a key is another one each time");
    result wrong = talk("4H7P", "4H7Q", "KXQ", -1);
    CHECK_SAY(wrong.host == PAKE_WRONG && wrong.joins != PAKE_DONE && memcmp(wrong.key, wrong.host_key, PAKE_KEY) != 0, "another secret");
    wrong = talk("4H7P", "", "KXQ", -1);
    CHECK_SAY(wrong.joins != PAKE_DONE && wrong.host != PAKE_DONE, "no secret");
    wrong = talk("4H7P", "4H7P", "KXR", -1);
    CHECK_SAY(wrong.joins != PAKE_DONE && wrong.host != PAKE_DONE, "another name");
    for (int times = 0; times < 40; times++) {
        result changed = talk("4H7P", "4H7P", "KXQ", times % 4);
        CHECK_SAY(!has_key(&changed), "a message with a changed bit");
    }
    for (int times = 0; times < 200; times++) {
        uint8_t junk[PAKE_BYTES], out[PAKE_BYTES];
        size_t size;
        pake *host = faz_pake_open(true, "KXQ", "4H7P");
        for (size_t at = 0; at < sizeof junk; at++)
            junk[at] = (uint8_t)rand();
        if (times % 2 == 0)
            memcpy(junk, "\x16\x03\x03", 3);
        CHECK_SAY(faz_pake_turn(host, junk, (size_t)rand() % sizeof junk, out, &size) != PAKE_DONE, "junk");
        faz_pake_close(host);
    }
    pake *host = faz_pake_open(true, "KXQ", "4H7P");
    uint8_t out[PAKE_BYTES], other[PAKE_BYTES];
    size_t size, length;
    pake *joins = faz_pake_open(false, "KXQ", "4H7P");
    faz_pake_turn(joins, NULL, 0, out, &size);
    for (size_t at = 0; at < size; at++)
        CHECK_SAY(faz_pake_turn(host, out + at, 1, other, &length) == PAKE_MORE, "byte by byte");
    CHECK_SAY(length > 0, "the last byte is answered");
    faz_pake_close(joins);
    faz_pake_close(host);
    faz_pake_close(NULL);
    return checks_end();
}
