/* Options of a command line, each with a value or without one. */
#ifndef DUEL_OPTIONS_H
#define DUEL_OPTIONS_H

#include <stdbool.h>
#include <stdio.h>
#include <stdlib.h>
#include <string.h>

typedef struct option {
    const char *name;
    long *number;      /* where the value goes, if it is a number .. */
    const char **text; /* .. or a text .. */
    bool *flag;        /* .. or what is set, if there is none */
} option;

static inline bool read_number(const char *text, long *number) {
    char *end;
    *number = text != NULL ? strtol(text, &end, 10) : -1;
    return text != NULL && *text != 0 && *end == 0 && *number >= 0;
}

/* Whether the words ask how the program is begun: it is said then, which is no error. */
static inline bool is_help(char **words, const char *usage) {
    int at = 1;
    while (words[at] != NULL && strcmp(words[at], "--help") != 0)
        at++;
    return words[at] != NULL && fputs(usage, stdout) >= 0;
}

/* Reads the options from the second word on, and says at which word they end; 0 if they can't be read. The last option has no
 * name. */
static inline int read_options(char **words, const option *options) {
    int at = 1;
    for (; words[at] != NULL && strncmp(words[at], "--", 2) == 0; at++) {
        const option *one = options;
        while (one->name != NULL && strcmp(words[at], one->name) != 0)
            one++;
        if (one->name == NULL)
            return 0;
        if (one->flag != NULL)
            *one->flag = true;
        else if (words[++at] == NULL || (one->number != NULL && !read_number(words[at], one->number)))
            return 0;
        else if (one->text != NULL)
            *one->text = words[at];
    }
    return at;
}
#endif
