/* Before a match: who plays what with whom. The host hears all others, and tells each of them the match, by datagrams on the
 * match's own socket, which are sealed with the players' common key. Who has another core or ROM is refused, in words. If the
 * players have told a key, who has other save RAM, options or another opening is given the host's, in pieces, and is heard again
 * once it has taken them over; without a key it is refused too, since anybody could be the host. Into a match that lasts who has
 * left can come back: those who play tell a machine that isn't heard that the match runs, and it comes into that one. */
#ifndef RETRO_MEET_H
#define RETRO_MEET_H

#include "files.h"
#include "net.h"

enum { VIEWERS = 32, LEARNERS = 8 /* so many at once are given what they haven't */ };

/* What a guest takes of the host if it hasn't the same, in this order. */
enum { SAVE_RAM, CORE_OPTIONS, OPENING, GIVEN };

/* What has to be alike at all machines. */
typedef struct facts {
    uint64_t core, rom, save_ram, options, opening;
    bool reloads;  /* each state is loaded as it is saved */
    bool lasts;    /* who has left can come back */
    char name[64]; /* of the core, with its version */
} facts;

typedef struct guest {
    address at;
    uint64_t nonce, line_draw;        /* that it drew for this meeting; of a viewer's line */
    uint32_t players;                 /* how many sit there; 0: it watches */
    uint8_t delays[FAZGROND_PLAYERS]; /* by how many frames the words of each of them count later */
} guest;

/* What was agreed on. */
typedef struct agreement {
    uint32_t me, machines, players, threshold, owners[FAZGROND_PLAYERS], delays[FAZGROND_PLAYERS];
    uint64_t numbers[FAZGROND_MACHINES], line, digest; /* line: of a viewer's line */
    uint64_t draw;                                     /* of a match that lasts: all its numbers are made of it */
    bool runs;                                         /* such a match has begun already, and this machine comes into it */
    uint32_t vacant; /* a bit for each machine that isn't there as the match begins, and whose player is nobody's until it comes */
    uint32_t base;   /* how many of its frames came before its epoch */
    address machine[FAZGROND_MACHINES];
} agreement;

static inline bool agreement_is_vacant(const agreement *all, uint32_t machine) {
    return machine < FAZGROND_MACHINES && (all->vacant >> machine & 1) != 0;
}

typedef struct meeting {
    net *net;
    facts facts;
    uint64_t key, nonce;
    bool has_key;                     /* the players have told one */
    uint32_t players, wanted;         /* how many sit here; of the host: how many machines there are to be */
    uint8_t delays[FAZGROND_PLAYERS]; /* of those who sit here */
    bool is_host, is_agreed, is_refused;
    bool is_running;                 /* in a match that lasts: who is begun anew can come in */
    bool is_closed;                  /* in one that doesn't: it can't */
    uint64_t over;                   /* the draw of a match into which nobody comes any more */
    uint64_t strange;                /* that of one that was heard of, and isn't this machine's */
    bool is_out;                     /* another machine has said that this one is gone for it, .. */
    uint32_t out_of, out_from;       /* .. which one, and the base of its epoch */
    bool has_parted;                 /* in the match: another machine has said that it found a desync .. */
    uint32_t parted_with, parted_at; /* .. which one, and at which frame */
    char why[160];
    address host;
    uint32_t machines, viewers; /* of the host: who is there so far, itself the first machine */
    guest machine[FAZGROND_MACHINES], viewer[VIEWERS];
    address vacant[FAZGROND_MACHINES]; /* of the host: where machines may come from that aren't waited for */
    uint32_t vacants;
    uint64_t draws[FAZGROND_MACHINES][FAZGROND_MACHINES];
    agreement all;
    fazgrond_giver givers[GIVEN];       /* of the host; closed where it has none */
    guest learner[LEARNERS];            /* who takes of them, the oldest place first to be taken anew */
    uint32_t learners, given, given_at; /* how many there were; pieces that were given of late */
    uint32_t limits[GIVEN];             /* of a guest: the most bytes that it takes of each .. */
    facts theirs;                       /* .. what the host has .. */
    fazgrond_state_name names[GIVEN];
    fazgrond_taker taker;
    int taking; /* .. what it takes now, if anything, and which it has taken */
    bool is_taking, has_taken[GIVEN];
} meeting;

/* At the host, before it waits: what guests may take. None if there are no bytes. */
bool meeting_give(meeting *self, int which, const void *from, size_t size);

/* At the host, which waits for so many machines in all, and puts those into the match besides that are vacant. */
void meeting_host(meeting *self, uint32_t wanted, uint32_t players, uint32_t threshold);
/* Elsewhere; with no players it watches. */
void meeting_join(meeting *self, const address *host, uint32_t players);

/* Every 100 milliseconds or so, until it is agreed or refused. */
void meeting_turn(meeting *self);

/* Elsewhere: whether something of the host has come whole, which, and its bytes (none if the host has none; free `at`). Once this
 * machine has taken it over, `facts` say so, or it is refused in words. */
bool meeting_has_taken(meeting *self, int *which, bytes *out);
void meeting_refuse(meeting *self, const char *why);
void meeting_close(meeting *self);

/* In a match that lasts and runs: tells one of its machines so, and whether that is gone. */
void meeting_tell(const meeting *self, uint32_t machine, bool is_gone);

/* In a match: tells all others that this machine has found a desync at this frame. */
void meeting_part(const meeting *self, uint32_t frame);

/* Takes a datagram, if it is of a meeting. The host gives it all that come in the match, too: for viewers who come late, and those
 * that didn't hear what was agreed. */
bool meeting_hear(meeting *self, const address *from, const uint8_t *bytes, size_t length);
#endif
