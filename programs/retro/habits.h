/* What a player will press, guessed from what was pressed before. A pad is a cross, whose four bits are one part, and buttons, each
 * of which is one: each part changes by itself. */
#ifndef RETRO_HABITS_H
#define RETRO_HABITS_H

#include <stdint.h>

enum { HABIT_PARTS = 13, HABIT_AGES = 7, HABIT_TURNS = 6 };

typedef struct habit {
    uint32_t mask, held, age; /* what it is, since how many frames */
    struct {
        float seen, turned;
    } tally[2][HABIT_AGES]; /* let go and held, by age: how often it was seen, and changed */
    struct {
        uint32_t to;
        float weight;
    } turns[HABIT_TURNS]; /* what it changed to */
    int count;
} habit;

typedef struct habits {
    habit parts[HABIT_PARTS];
    uint32_t held; /* the last word that is known */
} habits;

/* That a player changes to a word at a frame, and how many frames that would spare. */
typedef struct guess {
    uint32_t player, frame, word;
    double worth;
} guess;

habits habits_new(void);

/* The next word that is known. */
void habits_note(habits *self, uint32_t word);

/* Guesses of what comes from frame `known` on, before frame `now`: as many as there is room for. */
int habits_guess(const habits *self, uint32_t player, uint32_t known, uint32_t now, guess *out, int room);
#endif
