#include "faults.h"

#include <inttypes.h>
#include <stdarg.h>
#include <stdio.h>
#include <string.h>

enum { GGPO_PLAYERS = 4, GGPO_THRESHOLD = 8, WIDE_THRESHOLD = 15, SHIPS = 4 };

static bool say(char fault[FAULT_TEXT], const char *format, ...)
#if defined(__GNUC__)
    __attribute__((format(printf, 2, 3)))
#endif
    ;

/* Writes a fault. Always false, as there is one then. */
static bool say(char fault[FAULT_TEXT], const char *format, ...) {
    va_list rest;
    va_start(rest, format);
    vsnprintf(fault, FAULT_TEXT, format, rest);
    va_end(rest);
    return false;
}

/* ---- Texts: numbers with signs between them, as 2:30 or 0-2:30. */

static bool take_number(const char **at, uint32_t *number) {
    const char *first = *at;
    uint64_t value = 0;
    for (; **at >= '0' && **at <= '9' && value <= UINT32_MAX; (*at)++)
        value = value * 10 + (uint64_t)(**at - '0');
    *number = (uint32_t)value;
    return *at > first && value <= UINT32_MAX && (*first != '0' || *at == first + 1);
}

/* Reads as many numbers as there are signs, and one more. */
static bool read_numbers(const char *text, const char *signs, uint32_t *numbers) {
    for (; *signs != 0; signs++)
        if (!take_number(&text, numbers++) || *text++ != *signs)
            return false;
    return take_number(&text, numbers) && *text == 0;
}

/* A machine and a frame, once for each machine at most. */
static bool read_at(uint32_t frames[FAZGROND_MACHINES], const char *option, const char *example, const char *text, char fault[FAULT_TEXT]) {
    uint32_t numbers[2];
    if (!read_numbers(text, ":", numbers))
        return say(fault, "--%s takes MACHINE:FRAME, as %s", option, example);
    if (numbers[0] >= FAZGROND_MACHINES)
        return say(fault, "--%s %" PRIu32 ": there is no such machine, for they are counted from 0", option, numbers[0]);
    if (frames[numbers[0]] != NEVER)
        return say(fault, "--%s %" PRIu32 ": this machine is named twice", option, numbers[0]);
    frames[numbers[0]] = numbers[1];
    return true;
}

bool read_stops(plan *to, const char *const *texts, uint32_t count, char fault[FAULT_TEXT]) {
    return count == 0 || (read_at(to->stops, "stop", "2:30", *texts, fault) && read_stops(to, texts + 1, count - 1, fault));
}

bool read_comes(plan *to, const char *const *texts, uint32_t count, char fault[FAULT_TEXT]) {
    return count == 0 || (read_at(to->comes, "come", "2:300", *texts, fault) && read_comes(to, texts + 1, count - 1, fault));
}

bool read_splits(plan *to, const char *const *texts, uint32_t count, char fault[FAULT_TEXT]) {
    return count == 0 || (read_at(to->splits, "split", "2:300", *texts, fault) && read_splits(to, texts + 1, count - 1, fault));
}

static bool read_lines(line_at lines[PLAN_LINES], const char *const *texts, uint32_t count, char fault[FAULT_TEXT]) {
    uint32_t numbers[3];
    if (count > PLAN_LINES)
        return say(fault, "--break and --heal are given 8 times each at most");
    for (uint32_t at = 0; at < count; at++) {
        if (!read_numbers(texts[at], "-:", numbers) || numbers[0] > UINT8_MAX || numbers[1] > UINT8_MAX)
            return say(fault, "--break and --heal take A-B:FRAME, as 0-2:30");
        lines[at] = (line_at){ numbers[0], numbers[1], numbers[2] };
    }
    return true;
}

bool read_breaks(plan *to, const char *const *texts, uint32_t count, char fault[FAULT_TEXT]) {
    to->break_count = count;
    return read_lines(to->breaks, texts, count, fault);
}

bool read_heals(plan *to, const char *const *texts, uint32_t count, char fault[FAULT_TEXT]) {
    to->heal_count = count;
    return read_lines(to->heals, texts, count, fault);
}

bool read_delays(plan *to, const char *const *texts, uint32_t count, char fault[FAULT_TEXT]) {
    uint32_t numbers[3];
    to->delay_count = count;
    if (count > PLAN_DELAYS)
        return say(fault, "--delay-at is given 8 times at most");
    for (uint32_t at = 0; at < count; at++) {
        if (!read_numbers(texts[at], "::", numbers) || numbers[0] > UINT8_MAX || numbers[1] > UINT8_MAX)
            return say(fault, "--delay-at takes M:D:FRAME, as 1:3:200");
        to->delays[at] = (delay_at){ numbers[0], numbers[1], numbers[2] };
    }
    return true;
}

/* ---- Plans. */

/* A line of a list that isn't between two machines. */
static bool has_lines(const plan *of, const line_at *lines, uint32_t count, char fault[FAULT_TEXT]) {
    for (uint32_t at = 0; at < count; at++)
        if (lines[at].one >= of->machines || lines[at].other >= of->machines || lines[at].one == lines[at].other)
            return say(fault, "--break %" PRIu32 "-%" PRIu32 ": there is no line between two such machines", lines[at].one,
                       lines[at].other);
    return true;
}

/* The frames of a list are of machines that there are, and of the match. */
static bool has_machines(const plan *of, const uint32_t frames[FAZGROND_MACHINES], const char *option, char fault[FAULT_TEXT]) {
    for (uint32_t at = 0; at < FAZGROND_MACHINES; at++) {
        if (frames[at] == NEVER)
            continue;
        if (at >= of->machines)
            return say(fault, "--%s %" PRIu32 ": there is no such machine, for they are counted from 0", option, at);
        if (frames[at] < 1 || frames[at] > of->frames)
            return say(fault, "--%s %" PRIu32 ": the frame has to be from 1 to the match's last", option, at);
    }
    return true;
}

static bool can_split(const plan *of, char fault[FAULT_TEXT]) {
    if (!plan_has(of->splits))
        return true;
    if (plan_has(of->stops) || plan_has(of->comes))
        return say(fault, "--split isn't played with --stop or --come");
    if (!has_machines(of, of->splits, "split", fault))
        return false;
    if (of->machines < 3)
        return say(fault, "--split takes a match of 3 machines or more");
    return plan_count_with(of, 0) < of->machines || say(fault, "--split names all machines: some have to be on each side");
}

static bool is_away(const plan *of, uint32_t machine, uint32_t frame) {
    uint32_t stop = of->stops[machine], come = of->comes[machine];
    return (stop == NEVER ? come != NEVER : stop <= frame) && (come == NEVER || frame <= come);
}

static bool can_come(const plan *of, uint32_t machine, char fault[FAULT_TEXT]) {
    uint32_t frame = of->comes[machine], stop = of->stops[machine] != NEVER ? of->stops[machine] : 0;
    if (machine >= of->machines)
        return say(fault, "--come %" PRIu32 ": there is no such machine, for they are counted from 0", machine);
    if (frame < 1 || of->frames <= frame)
        return say(fault, "--come %" PRIu32 ": the frame has to be after the first, and before the match's last", machine);
    if (frame <= stop)
        return say(fault, "--come %" PRIu32 ": the frame has to be after the one of --stop", machine);
    for (uint32_t lower = 0; lower < machine; lower++)
        if (is_away(of, lower, frame))
            return say(fault, "--come %" PRIu32 ": machine %" PRIu32 " isn't there then, and has to come first", machine, lower);
    return true;
}

static bool can_delay(const plan *of, const delay_at *named, char fault[FAULT_TEXT]) {
    if (named->machine >= of->machines)
        return say(fault, "--delay-at %" PRIu32 ": there is no such machine, for they are counted from 0", named->machine);
    if (named->delay > PLAN_LONGEST_DELAY)
        return say(fault, "--delay-at %" PRIu32 ": a delay is 0 to 8 frames", named->machine);
    if (named->frame < 1 || of->frames <= named->frame)
        return say(fault, "--delay-at %" PRIu32 ": the frame has to be after the first, and before the match's last", named->machine);
    return true;
}

static bool can_change(const plan *of, char fault[FAULT_TEXT]) {
    bool is_well = can_split(of, fault);
    for (uint32_t at = 0; at < FAZGROND_MACHINES && is_well; at++)
        is_well = of->comes[at] == NEVER || can_come(of, at, fault);
    for (uint32_t at = 0; at < of->delay_count && is_well; at++)
        is_well = can_delay(of, &of->delays[at], fault);
    return is_well;
}

bool fault_free_plan(const plan *of, char fault[FAULT_TEXT]) {
    uint32_t most = of->machines > GGPO_PLAYERS ? WIDE_THRESHOLD : GGPO_THRESHOLD;
    bool is_special = of->jobs > 0 || of->held > 0 || of->is_hostile;
    if (of->game == &game_duel && of->machines > SHIPS)
        return say(fault, "--game duel has ships for 4 machines at most");
    if (of->threshold > most)
        return say(fault, "--threshold takes 1 to %" PRIu32 " with %" PRIu32 " machines", most, of->machines);
    if (plan_count_staying(of) == 0)
        return say(fault, "--stop: at least one machine has to stay");
    if (plan_breaks_lines(of) && of->held > 0)
        return say(fault, "--break and --split aren't played with --held");
    if (plan_goes_on(of) && is_special)
        return say(fault, "--delay-at and --come aren't played with --guesses, --held or --hostile");
    return has_lines(of, of->breaks, of->break_count, fault) && has_lines(of, of->heals, of->heal_count, fault)
        && has_machines(of, of->stops, "stop", fault) && can_change(of, fault);
}
