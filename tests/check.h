/* What tests check. A check that isn't so says where it stands, of which case it is, and what isn't so:
 *
 *     CHECK(condition);                       goes on
 *     CHECK_SAY(condition, format, ..);       goes on, and says words too
 *     CHECK_IS(got, wanted);                  goes on, and says both integers
 *     MUST(condition);                        ends the program with status 1: without this nothing after it makes sense
 *     IS(got, wanted);                        the same, and says both integers
 *     OK(call);                               the same, of a call's code
 *     return checks_end();                    at the end of main: 1 if a check wasn't so, or 0
 *
 * What tries cases counts each by checks_end_case at its end, and checks_end says `N passed, M failed`. Before it includes this a file may
 * define which case a check is of, as printf takes it, and what is done instead of exit(1):
 *
 *     #define CHECKS_OF "%s (%u, %u)", of_what, of_one, of_two
 *     #define CHECKS_LEAVE longjmp(way_out, 1) */
#ifndef CHECK_H
#define CHECK_H

#include <inttypes.h>
#include <stdarg.h>
#include <stdbool.h>
#include <stdio.h>
#include <stdlib.h>

#ifndef CHECKS_OF
#define CHECKS_OF "%s", ""
#endif
#ifndef CHECKS_LEAVE
#define CHECKS_LEAVE exit(1)
#endif

#define CHECK(condition) ((condition) ? (void)0 : CHECKS_SAY("%s\n", #condition))
#define CHECK_SAY(condition, ...) ((condition) ? (void)0 : (CHECKS_SAY("%s: ", #condition), CHECKS_SAY_MORE(__VA_ARGS__)))
#define CHECK_IS(got, wanted) (checks_are_same((int64_t)(got), (int64_t)(wanted)) ? (void)0 : CHECKS_SAY_BOTH(#got))
#define MUST(condition) ((condition) ? (void)0 : (CHECKS_SAY("%s\n", #condition), CHECKS_LEAVE))
#define IS(got, wanted) (checks_are_same((int64_t)(got), (int64_t)(wanted)) ? (void)0 : (CHECKS_SAY_BOTH(#got), CHECKS_LEAVE))
#define OK(call) IS(call, FAZGROND_OK)

/* `is_wrong`: a check of this case wasn't so, or of the program, if it has none. Then cases; and the integers of the last such check. */
static struct {
    bool is_wrong;
    unsigned passed, failed;
    int64_t got, wanted;
} checks;

static inline bool checks_are_same(int64_t got, int64_t wanted) {
    if (got == wanted)
        return true;
    checks.got = got;
    checks.wanted = wanted;
    return false;
}

#define CHECKS_SAY(...) (checks_say_place(__FILE__, __LINE__, CHECKS_OF), (void)fprintf(stderr, __VA_ARGS__))
#define CHECKS_SAY_MORE(...) (fprintf(stderr, __VA_ARGS__), (void)fputc('\n', stderr))
#define CHECKS_SAY_BOTH(what) CHECKS_SAY("%s is %" PRId64 ", not %" PRId64 "\n", what, checks.got, checks.wanted)

static inline void checks_say_place(const char *file, int line, const char *of, ...) {
    va_list words;
    checks.is_wrong = true;
    fflush(stdout);
    fprintf(stderr, "%s:%d: ", file, line);
    va_start(words, of);
    if (vfprintf(stderr, of, words) > 0)
        fputs(": ", stderr);
    va_end(words);
}

/* Counts a case, and begins the next one; whether all of it was so. */
static inline bool checks_end_case(void) {
    bool was_wrong = checks.is_wrong;
    *(was_wrong ? &checks.failed : &checks.passed) += 1;
    checks.is_wrong = false;
    return !was_wrong;
}

static inline int checks_end(void) {
    if (checks.passed + checks.failed > 0)
        printf("%u passed, %u failed\n", checks.passed, checks.failed);
    return checks.is_wrong || checks.failed > 0;
}

#endif
