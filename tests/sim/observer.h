/* What is seen of a session while it is played: what its rollbacks cost, by the frames of the match, and for how long words were held back
 * from it. */
#ifndef SIM_OBSERVER_H
#define SIM_OBSERVER_H

#include "claim.h"

/* A roll that ran frames again, or changed what had been shown. */
typedef struct roll {
    uint32_t at;     /* the frame of the match that it went to */
    uint32_t rerun;  /* the frames that it ran again */
    uint32_t ggpo;   /* those that GGPO runs again: from the first one on that had been predicted wrong */
    uint32_t player; /* whose word that was, or who had left, from 1; 0 if nothing changed */
    uint32_t frame;  /* and the frame of the match */
    bool has_left;
} roll;

typedef struct roll_totals {
    uint64_t rollbacks, rerun, ggpo;
    uint32_t deepest;
} roll_totals;

typedef struct held_totals {
    uint64_t words, turns, soon;
} held_totals;

/* The turn in which each word of a player came, and in which the session was told it. */
typedef struct hearing {
    uint32_t *came, *told;
    uint32_t came_count, told_count, came_room, told_room;
} hearing;

/* The rows of the frames that weren't settled after the last roll: the threshold and a frame more at most, and those of a job. */
enum { OBSERVER_ROWS = 64 };

typedef struct shown {
    uint32_t count;
    fazgrond_row rows[OBSERVER_ROWS];
} shown;

typedef struct observer {
    uint32_t base; /* how many frames were played before the session, in earlier epochs */
    uint32_t frame, settled;
    shown shown;
    hearing hearings[FAZGROND_PLAYERS];
    roll_totals totals;
    uint64_t claims, wrong;
    roll last;
    claim claim;
} observer;

/* Another session begins, with so many frames before it: what it has run by now isn't counted. */
void observer_begin(observer *self, fazgrond_session *session, uint32_t base);

/* The session has rolled just now. Whether it is to be told, as `last`. */
bool observer_note_roll(observer *self, fazgrond_session *session);

/* A turn is over, in which these words wait that are held back from the session. */
void observer_note_turn(observer *self, fazgrond_session *session, const fazgrond_entry *waiting, size_t count, uint32_t turn);

held_totals observer_held(const observer *self);

void observer_close(observer *self);
#endif
