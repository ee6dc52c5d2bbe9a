/* What a player may feel of a match: how long turns take. */
#ifndef RETRO_FIGURES_H
#define RETRO_FIGURES_H

#include <stdint.h>
#include <stdio.h>

enum { FIGURES_BIN = 20 /* microseconds */, FIGURES_BINS = 2500, FIGURES_SLOW = 16700 };

/* How often a time came, by bins; those past the last one count there. */
typedef struct spread {
    uint32_t counts[FIGURES_BINS], count, worst;
    uint64_t sum;
} spread;

typedef struct figures {
    spread processor; /* what the main thread took of a processor from a turn's beginning to the next one's, in microseconds */
    spread clock;     /* how long a turn was by the clock, without the rest until the next one */
    uint32_t slow;    /* how many were longer than FIGURES_SLOW by the clock */
} figures;

/* The processor time of this thread, in microseconds. */
int64_t figures_processor(void);

void figures_note(figures *self, int64_t processor, int64_t clock);

/* A name and a number in each line. */
void figures_write(const figures *self, FILE *file);

/* The time that so many of a thousand don't exceed: by the end of its bin. */
uint32_t spread_at(const spread *self, uint32_t of_thousand);
#endif
