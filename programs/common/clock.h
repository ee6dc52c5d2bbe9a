/* The clock, and the turns of a program without a window: 60 a second, or so many times as many. */
#ifndef DUEL_CLOCK_H
#define DUEL_CLOCK_H

#include <stdint.h>
#include <time.h>

static inline int64_t clock_micros(void) {
    struct timespec time;
    clock_gettime(CLOCK_MONOTONIC, &time);
    return (int64_t)time.tv_sec * 1000000 + time.tv_nsec / 1000;
}

/* Waits for the next turn, whose moment is `due`: 0 before the first. Who is late makes up for up to 20 turns. */
static inline void clock_wait_for_turn(int64_t *due, long speed) {
    int64_t now = clock_micros(), turn = 1000000 / (60 * speed);
    if (now < *due) {
        int64_t wait = *due - now;
        nanosleep(&(struct timespec){ wait / 1000000, wait % 1000000 * 1000 }, NULL);
    }
    *due = now > *due + 20 * turn ? now : *due + turn;
}
#endif
