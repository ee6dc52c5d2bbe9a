/* Ctrl-C and SIGTERM: a program that is asked to end leaves its match first, so that the others are told. A second Ctrl-C ends it at
 * once. Each program includes this in one file. */
#ifndef DUEL_STOPS_H
#define DUEL_STOPS_H

#include <signal.h>
#include <stdbool.h>

static volatile sig_atomic_t stops_asked;

static inline void stops_note(int number) {
    (void)number;
    stops_asked = 1;
}

static inline void stops_begin(void) {
#ifdef _WIN32
    signal(SIGINT, stops_note);
#else
    sigaction(SIGINT, &(struct sigaction){ .sa_handler = stops_note, .sa_flags = SA_RESTART | SA_RESETHAND }, NULL);
    sigaction(SIGTERM, &(struct sigaction){ .sa_handler = stops_note, .sa_flags = SA_RESTART }, NULL);
#endif
}

static inline bool is_stopped(void) { return stops_asked != 0; }
#endif
