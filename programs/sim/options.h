/* The options of faz-sim, in one table: how they are read, what is wrong with words that aren't options, and their help. */
#ifndef FAZ_SIM_OPTIONS_H
#define FAZ_SIM_OPTIONS_H

#include "../../tests/sim/plan.h"

#include <stdio.h>

/* What the words ask for. */
typedef struct request {
    plan plan;
    bool is_help, is_json;
    const char *trace; /* the file for the trace, or null */
} request;

/* Reads the words after the program's name. False, and it is said why on standard error, if they ask for nothing that is played. */
bool options_read(char **words, request *out);

/* What `--help` says. */
void options_help(FILE *out);

/* What `--help` says after the options. */
enum { HELP_TEXTS = 2 };
extern const char *const help_texts[HELP_TEXTS];
#endif
