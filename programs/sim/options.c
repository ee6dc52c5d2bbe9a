#include "options.h"

#include "../../tests/sim/room.h"

#include "faults.h"

#include <inttypes.h>
#include <stdlib.h>
#include <string.h>

/* What an option takes: a number in a range, one of the words `words`, several texts, a file, or nothing. */
typedef enum kind { NUMBER, WORD, SEVERAL, FILE_NAME, FLAG } kind;

typedef struct option {
    const char *name, *value, *help, *preset; /* `preset` is the value if it isn't given; null if there is none */
    kind kind;
    uint64_t least, most;
    const char *const *words;
    read_texts *read;
} option;

static const char *const games[] = { "tally", "duel", NULL }, *const guesses[] = { "none", "best", NULL };

/* Their places in the table. */
enum {
    FRAMES,
    SEED,
    LATE,
    LOST,
    HOLD,
    DELAY,
    THRESHOLD,
    GUESSES,
    JOBS,
    GAME,
    PEERS,
    STOP,
    BREAK,
    HEAL,
    DELAY_AT,
    COME,
    SPLIT,
    HOSTILE,
    HELD,
    JSON,
    TRACE,
    HELP,
    OPTIONS
};

static const option options[OPTIONS] = {
    [FRAMES] = { "frames", "N", "How many frames each machine plays, up to 1048576", "1000", NUMBER, 1, 1048576, NULL, NULL },
    [SEED] = { "seed", "S", "What all is drawn from: the same seed prints the same", "1", NUMBER, 0, UINT64_MAX, NULL, NULL },
    [LATE] = { "late", "L", "A datagram comes 1 to L + 1 ticks late; up to 60", "8", NUMBER, 0, 60, NULL, NULL },
    [LOST] = { "lost", "P", "How many datagrams of a hundred are lost, up to 99", "0", NUMBER, 0, 99, NULL, NULL },
    [HOLD] = { "hold", "H", "For how many frames a player holds a word on average, up to 1000000", "10", NUMBER, 1, 1000000, NULL, NULL },
    [DELAY] = { "delay", "D", "Each machine's input delay in frames, up to 8", "0", NUMBER, 0, 8, NULL, NULL },
    [THRESHOLD] = { "threshold", "K",
                    "How many frames a machine may go past the confirmed ones, from 1 to 8, or 15 if there are more than 4", "8", NUMBER, 1,
                    15, NULL, NULL },
    [GUESSES] = { "guesses", "GUESSES", "Which of the others' next words are guessed: none, or the best guesses of them", "none", WORD, 0,
                  0, guesses, NULL },
    [JOBS] = { "jobs", "J", "How many of the best guesses are run in each tick, up to 32; 4 if not given", NULL, NUMBER, 1, 32, NULL,
               NULL },
    [GAME] = { "game", "GAME", "tally adds words up; duel has a ship for each of 2 to 4 players", "tally", WORD, 0, 0, games, NULL },
    [PEERS] = { "peers", "N", "How many machines there are, 2 to 8; a duel has ships for 4", "2", NUMBER, 2, 8, NULL, NULL },
    [STOP] = { "stop", "M:FRAME", "Machine M goes silent for ever at this frame; for several machines it is given several times", NULL,
               SEVERAL, 0, 0, NULL, read_stops },
    [BREAK] = { "break", "A-B:FRAME",
                "From this frame on nothing of A's comes to B straight, nor of B's to A; for several lines it is given several times", NULL,
                SEVERAL, 0, 0, NULL, read_breaks },
    [HEAL] = { "heal", "A-B:FRAME", "From this frame on the line between A and B works again", NULL, SEVERAL, 0, 0, NULL, read_heals },
    [DELAY_AT] = { "delay-at", "M:D:FRAME",
                   "From about this frame on machine M's player has an input delay of D frames; it is given up to 8 times", NULL, SEVERAL,
                   0, 0, NULL, read_delays },
    [COME] = { "come", "M:FRAME", "Machine M comes at about this frame: anew after its --stop, or else for the first time", NULL, SEVERAL,
               0, 0, NULL, read_comes },
    [SPLIT] = { "split", "M:FRAME",
                "From this frame on machine M and others that are named so hear nothing of the rest, nor the rest of them", NULL, SEVERAL,
                0, 0, NULL, read_splits },
    [HOSTILE] = { "hostile", "SEED", "Hostile datagrams come too, drawn from this seed", NULL, NUMBER, 0, UINT64_MAX, NULL, NULL },
    [HELD] = { "held", "TURNS", "Words of others are held back for at most so many turns, 1 to 8, until a helper has run their frames",
               NULL, NUMBER, 1, 8, NULL, NULL },
    [JSON] = { "json", NULL, "Prints the same figures as JSON", NULL, FLAG, 0, 0, NULL, NULL },
    [TRACE] = { "trace", "FILE", "Writes what happens into this file: an event a line, as JSON", NULL, FILE_NAME, 0, 0, NULL, NULL },
    [HELP] = { "help", NULL, "Print help", NULL, FLAG, 0, 0, NULL, NULL },
};

/* What was given: of an option that isn't given several times a value, or null; and all words and values in their order. */
typedef struct given {
    const char *values[OPTIONS];
    const option **which;
    const char **texts;
    size_t count;
} given;

/* ---- Help. */

static const char *heading_of(const option *one, char heading[64]) {
    snprintf(heading, 64, "%s--%s%s%s%s", one == &options[HELP] ? "-h, " : "    ", one->name, one->value != NULL ? " <" : "",
             one->value != NULL ? one->value : "", one->value != NULL ? ">" : "");
    return heading;
}

static void print_words(FILE *out, const char *const *words) {
    fputs("[possible values: ", out);
    for (size_t at = 0; words[at] != NULL; at++)
        fprintf(out, "%s%s", at > 0 ? ", " : "", words[at]);
    fputs("]", out);
}

void options_help(FILE *out) {
    char heading[64];
    fputs("Plays a match over a bad network, and prints what its rollbacks cost\n\nUsage: faz-sim [OPTIONS]\n\nOptions:\n", out);
    for (const option *one = options; one < options + OPTIONS; one++) {
        fprintf(out, "  %-26s  %s", heading_of(one, heading), one->help);
        if (one->preset != NULL)
            fprintf(out, " [default: %s]", one->preset);
        if (one->words != NULL) {
            fputs(" ", out);
            print_words(out, one->words);
        }
        fputs("\n", out);
    }
    for (int at = 0; at < HELP_TEXTS; at++)
        fputs(help_texts[at], out);
}

/* ---- What is wrong with words. All of these answer false. */

static const char *usage_of(const option *one, char usage[64]) {
    snprintf(usage, 64, "--%s%s%s%s", one->name, one->value != NULL ? " <" : "", one->value != NULL ? one->value : "",
             one->value != NULL ? ">" : "");
    return usage;
}

static bool say_more(void) {
    fputs("\nFor more information, try '--help'.\n", stderr);
    return false;
}

static bool is_unexpected(const char *word) {
    fprintf(stderr, "error: unexpected argument '%s' found\n\nUsage: faz-sim [OPTIONS]\n", word);
    return say_more();
}

static bool is_without_value(const option *one) {
    char usage[64];
    fprintf(stderr, "error: a value is required for '%s' but none was supplied\n", usage_of(one, usage));
    if (one->words != NULL) {
        fputs("  ", stderr);
        print_words(stderr, one->words);
        fputs("\n", stderr);
    }
    return say_more();
}

static bool is_given_twice(const option *one) {
    char usage[64];
    fprintf(stderr, "error: the argument '%s' cannot be used multiple times\n\nUsage: faz-sim [OPTIONS]\n", usage_of(one, usage));
    return say_more();
}

static bool is_invalid(const option *one, const char *value, const char *why) {
    char usage[64];
    fprintf(stderr, "error: invalid value '%s' for '%s': %s\n", value, usage_of(one, usage), why);
    return say_more();
}

static bool has_no_value(const option *one, const char *value) {
    fprintf(stderr, "error: unexpected value '%s' for '--%s' found; no more were expected\n\nUsage: faz-sim --%s\n", value, one->name,
            one->name);
    return say_more();
}

static bool is_no_word(const option *one, const char *value) {
    char usage[64];
    fprintf(stderr, "error: invalid value '%s' for '%s'\n  ", value, usage_of(one, usage));
    print_words(stderr, one->words);
    fputs("\n", stderr);
    return say_more();
}

/* ---- Reading words. */

/* The number that digits are, one of 64 bits; null, or why they are none. */
static const char *number_fault(const char *text, uint64_t *number) {
    *number = 0;
    text += *text == '+' && text[1] != 0;
    if (*text == 0)
        return "cannot parse integer from empty string";
    for (; *text != 0; text++) {
        uint64_t digit = (uint64_t)(*text - '0');
        if (*text < '0' || *text > '9')
            return "invalid digit found in string";
        if (*number > (UINT64_MAX - digit) / 10)
            return "number too large to fit in target type";
        *number = *number * 10 + digit;
    }
    return NULL;
}

static bool is_number(const option *one, const char *value) {
    uint64_t number;
    char range[96];
    const char *why = number_fault(value, &number);
    if (why == NULL && (number < one->least || number > one->most)) {
        snprintf(range, sizeof range, "%" PRIu64 " is not in %" PRIu64 "..=%" PRIu64, number, one->least, one->most);
        why = range;
    }
    return why == NULL || is_invalid(one, value, why);
}

static bool is_word(const option *one, const char *value) {
    for (size_t at = 0; one->words[at] != NULL; at++)
        if (strcmp(one->words[at], value) == 0)
            return true;
    return is_no_word(one, value);
}

static bool is_good(const option *one, const char *value) {
    return one->kind == NUMBER ? is_number(one, value) : one->kind == WORD ? is_word(one, value) : true;
}

/* The option of a word that begins with two dashes: its name ends there, or at a =. */
static const option *option_of(const char *word, const char **value) {
    size_t length = strcspn(word + 2, "=");
    *value = word[2 + length] == '=' ? word + 3 + length : NULL;
    for (const option *one = options; one < options + OPTIONS; one++)
        if (strlen(one->name) == length && strncmp(one->name, word + 2, length) == 0)
            return one;
    return NULL;
}

static bool take(given *to, const option *one, const char *value) {
    size_t place = (size_t)(one - options);
    if (to->values[place] != NULL && one->kind != SEVERAL)
        return is_given_twice(one);
    if (!is_good(one, value))
        return false;
    to->values[place] = value;
    to->which[to->count] = one;
    to->texts[to->count++] = value;
    return true;
}

/* Reads one option, and its value, which may be the next word. Comes back with how many words these were, 0 if they can't be read. */
static size_t read_one(given *to, char **words) {
    const char *value;
    if (strcmp(words[0], "-h") == 0)
        return take(to, &options[HELP], "");
    const option *one = strncmp(words[0], "--", 2) == 0 ? option_of(words[0], &value) : NULL;
    if (one == NULL)
        return is_unexpected(words[0]);
    if (one->kind == FLAG)
        return value != NULL ? has_no_value(one, value) : take(to, one, "");
    if (value != NULL)
        return take(to, one, value);
    if (words[1] == NULL || (words[1][0] == '-' && words[1][1] != 0))
        return is_without_value(one);
    return take(to, one, words[1]) ? 2 : 0;
}

/* Reads all words, up to a call for help. */
static bool read_all(given *to, char **words) {
    while (*words != NULL && to->values[HELP] == NULL) {
        if (strcmp(*words, "--") == 0)
            return words[1] == NULL || is_unexpected(words[1]);
        size_t count = read_one(to, words);
        if (count == 0)
            return false;
        words += count;
    }
    return true;
}

/* ---- A plan. */

static uint64_t number_of(const given *from, size_t place) {
    uint64_t number = 0;
    const char *value = from->values[place] != NULL ? from->values[place] : options[place].preset;
    if (value != NULL)
        number_fault(value, &number);
    return number;
}

static bool is_named(const given *from, size_t place, const char *name) {
    return from->values[place] != NULL && strcmp(from->values[place], name) == 0;
}

static void read_numbers(const given *from, plan *to) {
    *to = (plan){ .seed = number_of(from, SEED), .hostile = number_of(from, HOSTILE) };
    to->machines = (uint32_t)number_of(from, PEERS);
    to->frames = (uint32_t)number_of(from, FRAMES);
    to->late = (uint32_t)number_of(from, LATE);
    to->lost = (uint32_t)number_of(from, LOST);
    to->hold = (uint32_t)number_of(from, HOLD);
    to->delay = (uint32_t)number_of(from, DELAY);
    to->threshold = (uint32_t)number_of(from, THRESHOLD);
    to->held = (uint32_t)number_of(from, HELD);
    to->is_hostile = from->values[HOSTILE] != NULL;
    to->game = is_named(from, GAME, "duel") ? &game_duel : &game_tally;
    if (is_named(from, GUESSES, "best"))
        to->jobs = from->values[JOBS] != NULL ? (uint32_t)number_of(from, JOBS) : 4;
    for (uint32_t at = 0; at < FAZGROND_MACHINES; at++)
        to->stops[at] = to->comes[at] = to->splits[at] = NEVER;
}

/* Reads what happens at which frames. */
static bool read_frames(const given *from, plan *to, const char **texts, char fault[FAULT_TEXT]) {
    bool is_read = true;
    for (const option *one = options; one < options + OPTIONS && is_read; one++) {
        uint32_t count = 0;
        for (size_t at = 0; at < from->count; at++)
            if (from->which[at] == one)
                texts[count++] = from->texts[at];
        is_read = one->read == NULL || one->read(to, texts, count, fault);
    }
    return is_read;
}

static bool read_plan(const given *from, request *out, const char **texts) {
    char fault[FAULT_TEXT];
    read_numbers(from, &out->plan);
    if (from->values[JOBS] != NULL && out->plan.jobs == 0)
        snprintf(fault, sizeof fault, "--jobs can't be used without --guesses best");
    else if (read_frames(from, &out->plan, texts, fault) && fault_free_plan(&out->plan, fault))
        return true;
    fprintf(stderr, "error: %s\n", fault);
    return false;
}

bool options_read(char **words, request *out) {
    size_t count = 0;
    while (words[count] != NULL)
        count++;
    given from = { .which = room_of(count + 1, sizeof *from.which), .texts = room_of(count + 1, sizeof *from.texts) };
    const char **texts = room_of(count + 1, sizeof *texts);
    bool is_read = read_all(&from, words);
    *out = (request){ .is_help = from.values[HELP] != NULL, .is_json = from.values[JSON] != NULL, .trace = from.values[TRACE] };
    is_read = is_read && (out->is_help || read_plan(&from, out, texts));
    free(texts);
    free(from.texts);
    free(from.which);
    return is_read;
}
