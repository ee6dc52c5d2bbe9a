/* A match that lasts (--rejoin): who has left can come back. It goes on in epochs (fazgrond.h), and who comes is given the core's
 * state with which an epoch began (faz_rejoin.h). Frames are those of the match: those before an epoch count. */
#ifndef RETRO_LASTING_H
#define RETRO_LASTING_H

#include "net.h"
#include "states.h"

#include "faz_rejoin.h"

/* How a part of the match began: at which frame, with which owners and delays. All that this machine was in, or followed on its way in. */
typedef struct match_part {
    uint32_t base, threshold, owners[FAZGROND_PLAYERS], delays[FAZGROND_PLAYERS];
} match_part;

typedef struct lasting {
    bool is_coming, is_lost;                       /* this machine comes into the match; it hears nobody of it */
    uint32_t base;                                 /* so many frames of the match came before this epoch */
    uint32_t seen;                                 /* of so many frames of the match the trail has the settled rows */
    uint32_t heard_at[FAZGROND_MACHINES], told_at; /* when each machine was heard, and those told that weren't */
    trail trail;
    core_state opening; /* the state at the first frame of the trail, if this machine came in there, and its digest */
    uint64_t opening_digest;
    match_part *parts;
    size_t part_count;
    bool is_at_seam;
    fazgrond_epoch epoch;
    faz_hosting hosting;
    faz_comer comer;
    uint32_t followed_at[FAZ_SEATS - FAZGROND_MACHINES]; /* when each viewer was heard on a line of this epoch or one before */
} lasting;

struct match;

/* The match begins, or this machine comes into one that runs. */
void lasting_begin(struct match *self);

/* The others regard this machine as gone: it comes in again. */
void lasting_return(struct match *self);

/* By which number whoever comes has a ticket (fazgrond_ticket): one that all machines of the match know. */
uint64_t lasting_comers(const struct match *self);

/* Opens the peer beside an open session. */
int32_t lasting_open_peer(struct match *self, const fazgrond_match *match, const fazgrond_settings *settings);

/* The session is open, and its first state in slot 0. */
void lasting_host(struct match *self);

/* A datagram came that isn't of a meeting. */
void lasting_hear(struct match *self, const address *from, const uint8_t *bytes, size_t length, uint32_t now);

/* In each turn while the match runs, before it is played: goes on in the next epoch if this one is over, and lets others in. */
void lasting_turn(struct match *self, uint32_t now);

/* Somebody who watches is let in, with the number of its line; how many frames it has, UINT32_MAX if it is gone; and all of them are told
 * that this machine leaves. */
void lasting_seat_viewer(struct match *self, uint32_t viewer);
uint32_t lasting_rows_seen(struct match *self, uint32_t viewer, uint32_t now);
void lasting_bye(struct match *self);

/* A request was carried out. */
void lasting_note(struct match *self, const fazgrond_request *request);

/* Tells those that are gone, or aren't heard, that the match runs. */
void lasting_tell(struct match *self, uint32_t now);

/* Whether another machine has told this one so, and this one has to come in there. */
bool lasting_is_out(struct match *self);

/* In each turn while this machine comes in. */
void lasting_come(struct match *self, uint32_t now);

/* In each turn from then until it plays. */
void lasting_wait(struct match *self, uint32_t now);

void lasting_close(struct match *self);
#endif
