/* What a line refuses to be opened with, what it does with keys, how it waits for the other machine, and what a process has of it that was
 * forked. HAS_RELAYS is 1, or 0 for lines on a LAN alone. */
#define _POSIX_C_SOURCE 200809L

#include "../../check.h"
#include "faz_line.h"

#include <stdio.h>
#include <string.h>
#include <sys/wait.h>
#include <time.h>
#include <unistd.h>

static bool opens(const faz_line_settings *settings) {
    const char *why = "";
    faz_line *line = faz_line_open(settings, &why);
    if (line == NULL) {
        CHECK(why != NULL && strlen(why) > 5);
        return false;
    }
    CHECK(why == NULL);
    faz_line_close(line);
    return true;
}

/* How it stands after it has had turns up to a moment, and was asked for signals, or not. */
static faz_line_state after(faz_line *line, uint32_t from, uint32_t to, bool is_asked) {
    uint8_t bytes[FAZ_LINE_SIGNAL];
    faz_line_state state;
    size_t length;
    for (uint32_t now = from; now < to; now += 100) {
        faz_line_turn(line, now);
        while (is_asked && faz_line_signal(line, bytes, sizeof bytes, &length)) {
        }
    }
    faz_line_look(line, &state);
    return state;
}

/* Time counts from when a line is asked for signals: from then on it is given up for another one after two seconds, and after six there
 * is no way. */
static void waits(void) {
    faz_line_keys keys, other;
    const char *why;
    CHECK(faz_line_draw(&keys) && faz_line_draw(&other));
    faz_line *line = faz_line_open(&(faz_line_settings){ .me = 1, .other = 0, .keys = &keys, .their = other.open }, &why);
    faz_line_state state = after(line, 0, 60000, false);
    CHECK(state.stage == FAZ_LINE_LOOKING && state.generation == 1 && state.silence == 0 && state.sent == 0);
    state = after(line, 60000, 61900, true);
    CHECK(state.stage == FAZ_LINE_LOOKING && state.generation == 1);
    state = after(line, 61900, 65900, true);
    CHECK(state.stage == FAZ_LINE_LOOKING && state.generation == 2);
    state = after(line, 65900, 67000, true);
    CHECK(state.stage == FAZ_LINE_BLOCKED && state.generation == 3 && state.sent == 0);
    faz_line_close(line);
}

/* By a relay alone no line is opened where there are none. */
static void hides(void) {
    faz_line_keys keys, other;
    CHECK(faz_line_draw(&keys) && faz_line_draw(&other));
    CHECK(opens(&(faz_line_settings){ .other = 1, .keys = &keys, .their = other.open, .relay_only = true }) == HAS_RELAYS);
}

static void turn_both(faz_line *const lines[2], uint32_t now) {
    uint8_t bytes[FAZ_LINE_SIGNAL];
    size_t length;
    for (int at = 0; at < 2; at++) {
        faz_line_turn(lines[at], now);
        while (faz_line_signal(lines[at], bytes, sizeof bytes, &length))
            CHECK(faz_line_signalled(lines[1 - at], bytes, length));
    }
    nanosleep(&(struct timespec){ .tv_nsec = 1000000 }, NULL);
}

static bool is_up(const faz_line *line) {
    faz_line_state state;
    faz_line_look(line, &state);
    return state.stage == FAZ_LINE_UP && state.way != FAZ_LINE_NO_WAY;
}

/* What a process that was forked does with a line: it ends with 0 if that is closed. */
static void use_forked(faz_line *line, uint32_t now) {
    uint8_t bytes[FAZGROND_DATAGRAM] = { 7 };
    faz_line_state state;
    bool is_closed = !faz_line_send(line, bytes, 10);
    for (uint32_t later = now; later < now + 2000; later += 100)
        faz_line_turn(line, later);
    faz_line_look(line, &state);
    is_closed = is_closed && !faz_line_send(line, bytes, 10) && state.stage == FAZ_LINE_SILENT && state.way == FAZ_LINE_NO_WAY;
    faz_line_close(line);
    _exit(is_closed ? 0 : 1);
}

static void open_both(faz_line *lines[2]) {
    faz_line_keys keys[2];
    uint8_t theirs[2][FAZ_LINE_KEY];
    const char *why;
    for (int at = 0; at < 2; at++) {
        CHECK(faz_line_draw(&keys[at]));
        memcpy(theirs[1 - at], keys[at].open, FAZ_LINE_KEY);
    }
    for (uint32_t at = 0; at < 2; at++) {
        lines[at] = faz_line_open(&(faz_line_settings){ .me = at, .other = 1 - at, .keys = &keys[at], .their = theirs[at] }, &why);
        CHECK(lines[at] != NULL);
    }
}

/* A process that was forked sends nothing by the line that it has, and takes nothing from it: the other one goes on. */
static void forks(void) {
    uint8_t bytes[FAZGROND_DATAGRAM] = { 0 };
    faz_line *lines[2];
    faz_line_state state;
    uint32_t now = 0;
    size_t length = 0;
    int status = -1, came = 0;
    open_both(lines);
    for (; now < 5000 && !(is_up(lines[0]) && is_up(lines[1])); now++)
        turn_both(lines, now);
    pid_t child = fork();
    if (child == 0)
        use_forked(lines[0], now);
    CHECK(child > 0 && waitpid(child, &status, 0) == child && status == 0);
    for (uint32_t until = now + 100; now < until; now++) {
        CHECK(faz_line_send(lines[0], bytes, 10));
        turn_both(lines, now);
        while (faz_line_receive(lines[1], bytes, sizeof bytes, &length))
            came++;
    }
    faz_line_look(lines[1], &state);
    CHECK(came >= 99 && state.again == 0 && state.forged == 0);
    faz_line_close(lines[0]);
    faz_line_close(lines[1]);
}

int main(void) {
    faz_line_keys keys, other, none = { { 0 }, { 0 } };
    char longer[300];
    uint8_t bytes[FAZGROND_DATAGRAM + 1] = { 0 };
    size_t length;
    memset(longer, 'x', sizeof longer - 1);
    longer[sizeof longer - 1] = 0;
    CHECK(faz_line_draw(&keys));
    CHECK(faz_line_draw(&other));
    CHECK(memcmp(keys.open, other.open, FAZ_LINE_KEY) != 0);
    const faz_line_settings good = { .me = 0, .other = 1, .keys = &keys, .their = other.open };
    faz_line_settings bad = good;
    bad.keys = NULL, CHECK(!opens(&bad)), bad = good;
    bad.their = NULL, CHECK(!opens(&bad)), bad = good;
    bad.other = 0, CHECK(!opens(&bad)), bad = good;
    bad.other = 8, CHECK(!opens(&bad)), bad = good;
    bad.me = 255, CHECK(!opens(&bad)), bad = good;
    bad.stun = longer, CHECK(!opens(&bad)), bad = good;
    bad.relay_count = FAZ_LINE_RELAYS + 1, CHECK(!opens(&bad)), bad = good;
    bad.relay_count = 1, CHECK(!opens(&bad));
    bad.relays[0] = (faz_line_relay){ "203.0.113.10", 3478, longer, "b", false }, CHECK(!opens(&bad)), bad = good;
    CHECK(memcmp(keys.secret, none.secret, FAZ_LINE_KEY) != 0); /* nothing of that took the keys */

    CHECK(opens(&good));
    CHECK(memcmp(&keys, &none, sizeof keys) == 0);
    CHECK(!opens(&good)); /* they are good for one line */
    CHECK(faz_line_draw(&keys));
    bad.their = none.open;
    CHECK(!opens(&bad));

    const char *why;
    faz_line_state state;
    CHECK(faz_line_draw(&keys));
    faz_line *line = faz_line_open(&good, &why);
    CHECK(line != NULL);
    CHECK(!faz_line_send(line, bytes, 10)); /* there is no way yet */
    CHECK(!faz_line_receive(line, bytes, sizeof bytes, &length));
    CHECK(!faz_line_signalled(line, bytes, 200));
    CHECK(!faz_line_signalled(line, bytes, 0));
    CHECK(!faz_line_signal(line, bytes, FAZ_LINE_SIGNAL - 1, &length));
    CHECK(!faz_line_relays(line, good.relays, 1));
    CHECK(faz_line_relays(line, good.relays, 0));
    faz_line_turn(line, UINT32_MAX);
    faz_line_turn(line, 5); /* the clock begins anew */
    faz_line_look(line, &state);
    CHECK(state.stage == FAZ_LINE_LOOKING && state.way == FAZ_LINE_NO_WAY && state.generation == 1 && state.silence == 6);
    CHECK(state.forged == 2);
    faz_line_close(line);
    faz_line_close(NULL);
    waits();
    hides();
    forks();
    return checks_end();
}
