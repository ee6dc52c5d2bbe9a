/* What a player's habits answer: refusals, and guesses that were worked out by bench/choices.py. Says nothing if all is as it has
 * to be. */
#include "../check.h"

#include <fazgrond.h>
#include <stdio.h>
#include <stdlib.h>
#include <string.h>

static const uint32_t none[1], pad[] = { 240, 256 }, over[] = { 240, 256, 16 }, empty[] = { 240, 0 };

/* Which masks can't be parts. Habits stay as they are where others aren't opened. */
static void are_refused(fazgrond_habits *habits) {
    uint32_t many[33];
    for (int at = 0; at < 33; at++)
        many[at] = 1u << at % 32;
    IS(fazgrond_habits_open(habits, over, 3, none, 0), FAZGROND_INVALID_REQUEST);
    IS(fazgrond_habits_open(habits, empty, 2, none, 0), FAZGROND_INVALID_REQUEST);
    IS(fazgrond_habits_open(habits, many, 33, none, 0), FAZGROND_INVALID_REQUEST);
    IS(fazgrond_habits_open(habits, many, 32, none, 0), FAZGROND_OK);
    IS(fazgrond_habits_open(habits, over, 3, none, 0), FAZGROND_INVALID_REQUEST);
    IS(fazgrond_habits_note(habits, 1), FAZGROND_OK);
}

/* Closed handles, and those of another kind. */
static void are_closed(void) {
    fazgrond_habits habits = FAZGROND_CLOSED;
    fazgrond_session session = FAZGROND_CLOSED;
    fazgrond_foreseen best[1] = { { 5, 6, { 7 } } };
    uint32_t frame = 9;
    IS(fazgrond_habits_note(&habits, 1), FAZGROND_IS_CLOSED);
    IS(fazgrond_habits_guesses(&habits, 8, best, 1), 0);
    IS(fazgrond_habits_open(&habits, pad, 2, none, 0), FAZGROND_OK);
    IS(fazgrond_frame((fazgrond_session *)(void *)&habits, &frame), FAZGROND_IS_CLOSED);
    IS(fazgrond_habits_note((fazgrond_habits *)(void *)&session, 1), FAZGROND_IS_CLOSED);
    fazgrond_habits_close(&habits);
    IS(fazgrond_habits_note(&habits, 1), FAZGROND_IS_CLOSED);
    IS(best[0].count, 5);
    IS(frame, 9);
}

static void is_guess(const fazgrond_foreseen *best, uint32_t worth, uint32_t count, uint32_t first, uint32_t last) {
    IS(best->worth, worth);
    IS(best->count, count);
    IS(best->words[0], first);
    IS(best->words[count - 1], last);
    for (uint32_t at = count; at < FAZGROND_GUESS_WORDS; at++)
        IS(best->words[at], 0);
}

/* One who holds each of five buttons for as long as it is let go is foreseen by parts, and with no parts named by whole words. */
static void are_ranked(fazgrond_habits *habits) {
    static const uint32_t buttons[] = { 1, 2, 4, 8, 16 }, held[] = { 6, 10, 14, 9, 22 };
    fazgrond_foreseen best[40];
    IS(fazgrond_habits_open(habits, buttons, 5, none, 0), FAZGROND_OK);
    for (uint32_t frame = 0; frame < 120; frame++) {
        uint32_t word = 0;
        for (int at = 0; at < 5; at++)
            word |= frame / held[at] % 2 << at;
        IS(fazgrond_habits_note(habits, word), FAZGROND_OK);
    }
    IS(fazgrond_habits_guesses(habits, 4, best, 40), 32);
    is_guess(&best[0], 12680, 1, 26, 26);
    is_guess(&best[1], 4311, 2, 27, 26);
    is_guess(&best[4], 1728, 2, 27, 19);
    memset(best, 0, sizeof best);
    IS(fazgrond_habits_guesses(habits, 4, best, 2), 2);
    is_guess(&best[1], 4311, 2, 27, 26);
    IS(best[2].count, 0);
    IS(fazgrond_habits_guesses(habits, 0, best, 40), 0);
}

int main(void) {
    fazgrond_habits habits = FAZGROND_CLOSED;
    are_closed();
    are_refused(&habits);
    are_ranked(&habits);
    fazgrond_habits_close(&habits);
    return 0;
}
