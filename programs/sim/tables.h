/* What is printed of a match: its tables, whether the machines agree, and a line for scripts; or all of that as JSON. */
#ifndef FAZ_SIM_TABLES_H
#define FAZ_SIM_TABLES_H

#include "../../tests/sim/match.h"

#include <stdio.h>

void tables_print(FILE *out, const match *of);
void tables_json(FILE *out, const match *of);

/* Whether all is well: the match has ended, the machines that stay agree, and none was deceived or saw another state. */
bool tables_are_well(const match *of);
#endif
