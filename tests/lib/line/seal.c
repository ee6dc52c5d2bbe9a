/* Sealed datagrams, forged ones, and those that come again or in another order; and what sealing costs: seal KEY COUNTER TEXT SEALED, of
 * which the last is what xchacha.py makes of the others. */
#define _POSIX_C_SOURCE 200809L

#include "../../../lib/line/seal.h"
#include "../../check.h"

#include <sodium.h>
#include <stdio.h>
#include <stdlib.h>
#include <string.h>
#include <time.h>

static uint64_t drawn = 88172645463325252;

static uint64_t draw(void) {
    drawn ^= drawn << 13;
    drawn ^= drawn >> 7;
    return drawn ^= drawn << 17;
}

/* ---- datagrams */

static void open_two(seal *one, seal *two) {
    uint8_t open[2][SEAL_KEY], secret[2][SEAL_KEY];
    faz_line_seal_draw(open[0], secret[0]);
    faz_line_seal_draw(open[1], secret[1]);
    CHECK_IS(faz_line_seal_open(one, true, open[0], secret[0], open[1]), true);
    CHECK_IS(faz_line_seal_open(two, false, open[1], secret[1], open[0]), true);
}

static void of_pairs(void) {
    seal one, two, three, four;
    open_two(&one, &two);
    open_two(&three, &four);
    CHECK_IS(one.number == two.number, true);
    CHECK_IS(one.number == three.number, false);
    CHECK_IS(memcmp(one.ours, two.theirs, SEAL_KEY), 0);
    CHECK_IS(memcmp(one.ours, two.ours, SEAL_KEY) == 0, false);
    uint8_t zero[SEAL_KEY] = { 0 }, open[SEAL_KEY], secret[SEAL_KEY];
    faz_line_seal_draw(open, secret);
    CHECK_IS(faz_line_seal_open(&four, true, open, secret, zero), false);
}

static void as_another_does(const char *key, const char *counter, const char *text, const char *sealed) {
    seal one = { 0 };
    uint8_t out[64];
    char hex[129];
    sodium_hex2bin(one.ours, SEAL_KEY, key, strlen(key), NULL, NULL, NULL);
    one.sent = strtoull(counter, NULL, 0);
    size_t length = faz_line_seal_put(&one, out, (const uint8_t *)text, strlen(text));
    sodium_bin2hex(hex, sizeof hex, out, length);
    CHECK_SAY(strcmp(hex, sealed) == 0, "sealed %s\nnot    %s", hex, sealed);
}

static void of_forgers(void) {
    seal one, two;
    uint8_t bytes[100], sealed[200], broken[200], out[200];
    open_two(&one, &two);
    for (int n = 0; n < 400; n++) {
        size_t length = (size_t)n % 90;
        randombytes_buf(bytes, length);
        size_t size = faz_line_seal_put(&one, sealed, bytes, length);
        CHECK_IS(size, length + 24);
        CHECK_IS(sealed[0], 0xf1);
        for (size_t bit = 0; bit < 8 * size; bit += 1 + (size_t)(draw() % 40)) {
            memcpy(broken, sealed, size);
            broken[bit / 8] ^= (uint8_t)(1 << (bit % 8));
            seal before = two;
            CHECK_IS(faz_line_seal_take(&two, out, broken, size) == SEAL_OK, false);
            CHECK_IS(memcmp(&before, &two, sizeof two), 0); /* nor is a counter of its own taken from it */
        }
        for (size_t shorter = 0; shorter < size; shorter += 7)
            CHECK_IS(faz_line_seal_take(&two, out, sealed, shorter) == SEAL_OK, false);
        CHECK_IS(faz_line_seal_take(&one, out, sealed, size) == SEAL_OK, false); /* nobody takes its own */
        CHECK_IS(faz_line_seal_take(&two, out, sealed, size), SEAL_OK);
        CHECK_IS(memcmp(out, bytes, length), 0);
        CHECK_IS(faz_line_seal_take(&two, out, sealed, size), SEAL_AGAIN);
    }
}

/* Datagrams in any order, some of them twice: each is taken once. */
static void of_orders(void) {
    enum { MANY = 1000, ROOM = 40 };
    static uint8_t sealed[MANY][ROOM];
    static int order[3 * MANY];
    seal one, two;
    uint8_t out[ROOM];
    int came[MANY] = { 0 }, taken = 0;
    open_two(&one, &two);
    for (uint32_t n = 0; n < MANY; n++)
        CHECK_IS(faz_line_seal_put(&one, sealed[n], (const uint8_t *)&n, sizeof n), 28);
    for (int n = 0; n < 3 * MANY; n++)
        order[n] = n % MANY;
    for (int n = 3 * MANY - 1; n > 0; n--) {
        int other = (int)(draw() % (uint64_t)(n + 1)), swap = order[n];
        order[n] = order[other];
        order[other] = swap;
    }
    for (int n = 0; n < 3 * MANY; n++) {
        bool is_first = came[order[n]]++ == 0;
        CHECK_IS(faz_line_seal_take(&two, out, sealed[order[n]], 28), is_first ? SEAL_OK : SEAL_AGAIN);
        taken += is_first;
    }
    CHECK_IS(taken, MANY);
}

static void of_notes(void) {
    seal one, two;
    uint8_t note[200], again[200], out[200], text[] = "c candidate";
    open_two(&one, &two);
    size_t length = faz_line_seal_note(&one, note, text, sizeof text);
    CHECK_IS(length, sizeof text + NOTE_OVERHEAD);
    CHECK_IS(faz_line_seal_read(&two, out, note, length), true);
    CHECK_IS(memcmp(out, text, sizeof text), 0);
    CHECK_IS(faz_line_seal_read(&one, out, note, length), false);
    CHECK_IS(faz_line_seal_note(&one, again, text, sizeof text), length);
    CHECK_IS(memcmp(note, again, length) == 0, false);
    for (size_t at = 0; at < length; at++) {
        note[at] ^= 1;
        CHECK_IS(faz_line_seal_read(&two, out, note, length), false);
        note[at] ^= 1;
        CHECK_IS(faz_line_seal_read(&two, out, note, at), false);
    }
}

static void of_counters(void) {
    seal one, two;
    uint8_t sealed[40], out[40];
    open_two(&one, &two);
    one.sent = (UINT64_C(1) << 56) - 1;
    CHECK_IS(faz_line_seal_put(&one, sealed, NULL, 0), 24);
    CHECK_IS(faz_line_seal_take(&two, out, sealed, 24), SEAL_OK);
    CHECK_IS(faz_line_seal_put(&one, sealed, NULL, 0), 0);
}

/* ---- what it costs */

static double micros(void) {
    struct timespec now;
    clock_gettime(CLOCK_PROCESS_CPUTIME_ID, &now);
    return (double)now.tv_sec * 1e6 + (double)now.tv_nsec / 1e3;
}

static void costs(size_t length) {
    enum { MANY = 4000, ROOM = 1200 + SEAL_OVERHEAD };
    uint8_t *sealed = malloc(MANY * ROOM), bytes[1200] = { 0 }, out[1200];
    seal one, two;
    open_two(&one, &two);
    double begun = micros();
    for (size_t n = 0; n < MANY; n++)
        faz_line_seal_put(&one, sealed + n * ROOM, bytes, length);
    double put = micros();
    for (size_t n = 0; n < MANY; n++)
        CHECK_IS(faz_line_seal_take(&two, out, sealed + n * ROOM, length + SEAL_OVERHEAD), SEAL_OK);
    double taken = micros();
    for (size_t n = 0; n < MANY; n++)
        CHECK_IS(faz_line_seal_take(&two, out, sealed + n * ROOM, length + SEAL_OVERHEAD) == SEAL_OK, false);
    double again = micros();
    printf("%zu bytes: %d more, %.2f us to seal, %.2f to open, %.3f to refuse one that came before\n", length, SEAL_OVERHEAD,
           (put - begun) / MANY, (taken - put) / MANY, (again - taken) / MANY);
    free(sealed);
}

int main(int argc, char **argv) {
    if (argc != 5 || strlen(argv[3]) > 40 || sodium_init() < 0)
        return 2;
    of_pairs();
    as_another_does(argv[1], argv[2], argv[3], argv[4]);
    of_forgers();
    of_orders();
    of_notes();
    of_counters();
    costs(45);
    costs(1110);
    return checks_end();
}
