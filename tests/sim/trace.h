/* What happens in a match, as JSON: an event a line. A trace that is null writes nothing. */
#ifndef SIM_TRACE_H
#define SIM_TRACE_H

#include "observer.h"

#include <stdio.h>

typedef struct trace {
    FILE *out;
    uint32_t turn;
} trace;

/* A datagram that a machine sends, or that comes to it and is answered by the library with a code. */
void trace_sent(trace *self, uint32_t from, uint32_t to, size_t length);
void trace_came(trace *self, uint32_t from, uint32_t to, size_t length, int32_t code);

/* A machine's session: what it is opened with, the events that it takes, guesses for which it gives a job, and whether it takes that job's
 * branch in, and what it asks of its game. Frames are those of the session. */
void trace_opened(trace *self, uint32_t machine, const fazgrond_settings *settings);
void trace_entry(trace *self, uint32_t machine, const fazgrond_entry *entry);
void trace_guess(trace *self, uint32_t machine, uint32_t player, const fazgrond_foreseen *guess, uint32_t until, bool is_taken);
void trace_request(trace *self, uint32_t machine, const fazgrond_request *request);

/* What came of a turn. Frames are those of the match. */
void trace_roll(trace *self, uint32_t machine, const observer *seen);
void trace_told(trace *self, uint32_t machine, const fazgrond_event *event);
void trace_settled(trace *self, uint32_t machine, uint32_t frame, uint64_t digest);
#endif
