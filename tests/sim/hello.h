/* Hellos of machines that don't carry for others, in a match that goes on in epochs: the library's always say that theirs does. */
#ifndef SIM_HELLO_H
#define SIM_HELLO_H

#include <stddef.h>
#include <stdint.h>

/* Changes what a machine of an epoch sends to another, if that is a hello, so that the two don't carry. `number` is the pair's. */
void hello_says_no_carrying(uint8_t *bytes, size_t length, uint64_t number, uint64_t epoch);
#endif
