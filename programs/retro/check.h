/* Whether a match can be played on a core, found out by playing on it. */
#ifndef RETRO_CHECK_H
#define RETRO_CHECK_H

#include "core.h"

typedef enum safety {
    NOT_TO_BE_HAD,
    SAFE_IF_RELOADED, /* if each state is loaded as it is saved */
    SAFE
} safety;

typedef struct verdict {
    safety safety;
    double step, save, load;     /* milliseconds that a frame, a save and a load take here */
    uint32_t threshold, helpers; /* that are right for that */
    char core[96], why[160];
} verdict;

/* Plays so many frames in a process of its own, which a core may end, says what came out, and keeps the verdict for this core. */
bool check_core(const recipe *from, uint32_t frames, verdict *out);

/* For how many turns a word may wait for a helper here, if one is right. */
uint32_t verdict_turns(const verdict *it);

/* The verdict that was kept for a core with this library. */
bool verdict_read(const recipe *from, verdict *out);
#endif
