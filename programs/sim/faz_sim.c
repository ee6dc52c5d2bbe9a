/* Plays a match of several machines in one process, over a network that is drawn from a seed, and prints what its rollbacks cost. */
#include "options.h"
#include "tables.h"

#include <inttypes.h>

enum { EXIT_WELL = 0, EXIT_NOT_WELL = 1, EXIT_NOT_PLAYED = 2 };

static int cannot_write(void) {
    fputs("faz-sim: cannot write\n", stderr);
    return EXIT_NOT_PLAYED;
}

/* Plays what was asked for, and prints what came of it. */
static int play(const request *asked, trace *tracer) {
    static match the_match;
    int32_t why = match_play(&the_match, &asked->plan, tracer);
    bool is_well = why == FAZGROND_OK && tables_are_well(&the_match);
    if (why != FAZGROND_OK)
        printf("refused %" PRId32 "\n", why);
    else if (asked->is_json)
        tables_json(stdout, &the_match);
    else
        tables_print(stdout, &the_match);
    match_close(&the_match);
    if (fflush(stdout) != 0)
        return cannot_write();
    return is_well ? EXIT_WELL : EXIT_NOT_WELL;
}

int main(int count, char **words) {
    request asked;
    trace tracer = { 0 };
    (void)count;
    if (!options_read(words + 1, &asked))
        return EXIT_NOT_PLAYED;
    if (asked.is_help) {
        options_help(stdout);
        return fflush(stdout) == 0 ? EXIT_WELL : cannot_write();
    }
    if (asked.trace != NULL && (tracer.out = fopen(asked.trace, "w")) == NULL)
        return cannot_write();
    int status = play(&asked, tracer.out != NULL ? &tracer : NULL);
    if (tracer.out != NULL && fclose(tracer.out) != 0)
        return cannot_write();
    return status;
}
