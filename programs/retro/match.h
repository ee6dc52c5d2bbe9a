/* A match of this machine with others, from what was agreed on to its end. */
#ifndef RETRO_MATCH_H
#define RETRO_MATCH_H

#include "figures.h"
#include "holding.h"
#include "lasting.h"
#include "meet.h"
#include "pads.h"

enum { SEATS = 2, MARKS = 4, TOLD = 192 };

/* What the command line says. */
typedef struct wish {
    bool is_headless;
    uint32_t frames;        /* it ends once so many are settled; 0: as it is closed */
    uint32_t delays[SEATS]; /* of the players here */
    uint32_t helpers, silent_after;
    uint32_t hold; /* a word that came late waits for so many turns at most, while a helper plays its frames; 0: none does */
    uint64_t bot;  /* the players here play by themselves, by this seed; 0: they don't */
    const char *digests, *replay, *picture, *figures; /* files that are written; null: not */
    const char *cast, *broker; /* the name under which the match is published or watched on a broker; null: it isn't */
    uint32_t from, speed;      /* who watches there begins at this frame; the clock runs so many times as fast */
    bool lasts;                /* who has left can come back */
    bool (*is_stopped)(void);  /* whether somebody has asked the program to end */
} wish;

/* Whether the player wants to go on: that isn't so, and the window isn't closed. */
bool wish_goes_on(const wish *wish);

/* With a window: who waits to be let in by the player, in as many lines as come back. A key answers. */
int wish_ask(const char *lines[2]);

/* UNHEARD: this machine was to come into a match, and hears nobody of it. */
typedef enum outcome { ENDED, FAILED, DESYNCED, UNHEARD } outcome;

typedef struct match {
    const wish *wish;
    const recipe *from;
    meeting *meeting;
    runner *main;
    states *states;
    facts *facts;
    core_state opening;
    /* of a match */
    fazgrond_session session;
    fazgrond_peer peer;
    helpers helpers;
    holding holding;
    lasting lasting;
    uint32_t place_of[FAZGROND_MACHINES]; /* which machine of the agreement each machine of the session's peer is */
    figures figures;
    fazgrond_line lines[VIEWERS];
    uint32_t open_lines, rows_seen[VIEWERS]; /* how many rows a viewer has */
    hand hands[SEATS];
    uint32_t next_words[SEATS];
    uint32_t locals[SEATS], seats, far; /* this machine's players, and bits of the others' */
    uint32_t frame, settled, wait, waits, again, all_again, deepest;
    /* what words that are held back must never cost: new frames that weren't played here, so that they had no picture; turns in which
     * the game stood still though words of all others were there; frames that were played again though nothing was handed over by force */
    uint32_t unseen, stood, astray;
    bool jumps; /* this turn went back first */
    bool is_running, is_over, has_failed;
    uint32_t desync, ending; /* the frame at which another machine had another state, if has_desync; turns until it ends */
    bool has_desync;
    uint32_t gone; /* bits of the agreement's machines */
    struct {
        uint32_t frame;
        core_state state;
    } marks[MARKS];  /* settled states, far apart, the newest first */
    bool is_missing; /* a machine isn't there: the match is over at `missing_until`, unless it has begun */
    uint32_t missing_until;
    char counted[TOLD]; /* what is told with the seconds until `counted_until`; empty: nothing */
    uint32_t counted_until, counted_seconds;
    char told[TOLD];
} match;

/* Plays until it is over. What has to be said is said. */
outcome match_play(match *self);

/* After a desync: makes the last state that the machines have surely had alike the opening. */
bool match_go_back(match *self);

/* The settled row of a frame that was played here; false if there is none. */
bool match_row(match *self, uint32_t frame, fazgrond_row *row);

/* Gives back what a match has, but not the opening. */
void match_close(match *self);

/* What a match that lasts needs of it. `must`: what a call answers that isn't refused in a match that goes as it should. `open`:
 * its session and its peer, of which this is machine `me`. `obey`: all requests. */
void match_say(match *self, const char *what, uint32_t number);
void match_end(match *self, const char *why);
void match_fail(match *self, const char *why);
void match_must(match *self, int32_t code);
bool match_open(match *self, uint32_t me);
void match_obey(match *self);
void match_leave(match *self, uint32_t machine);
#endif
