/* Why a match isn't played as its options say. */
#ifndef FAZ_SIM_FAULTS_H
#define FAZ_SIM_FAULTS_H

#include "../../tests/sim/plan.h"

enum { FAULT_TEXT = 128 };

/* Reads what happens at which frames from the texts of an option. False, and the first fault is written, if one of them can't be read. */
typedef bool read_texts(plan *to, const char *const *texts, uint32_t count, char fault[FAULT_TEXT]);

extern read_texts read_stops, read_comes, read_splits, read_breaks, read_heals, read_delays;

/* Whether a match can be played by a plan; else the first fault is written. */
bool fault_free_plan(const plan *of, char fault[FAULT_TEXT]);
#endif
