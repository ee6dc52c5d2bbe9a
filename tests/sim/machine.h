/* A machine of a world: a program that plays a match over the library, turn after turn, with its game and what came of it. */
#ifndef SIM_MACHINE_H
#define SIM_MACHINE_H

#include "game.h"
#include "network.h"

enum { MACHINES = FAZGROND_MACHINES, CODES = 400, SHOWN = 256 };

typedef struct world world;
typedef struct machine machine;

/* A frame of the match that a machine has settled: in which of the epochs that it has seen, its row, and the digest of the state after. */
typedef struct record {
    uint32_t epoch;
    fazgrond_row row;
    uint64_t after;
} record;

/* An epoch as a machine has seen it, and the world's moment at which it began there. */
typedef struct part {
    fazgrond_epoch epoch;
    uint64_t begun;
} part;

/* What a program does beside the loop that all have, at these places of it. Each may be null. */
typedef struct program {
    /* Its session and its match are about to be opened. */
    void (*opens)(machine *self, fazgrond_settings *settings, fazgrond_match *match);
    /* The word of an own player, counted from 0, while this frame of the match is shown. */
    uint32_t (*word)(machine *self, uint32_t player, uint64_t frame);
    /* Such a word was given for this frame of its session, and what was answered. */
    void (*gave)(machine *self, uint32_t player, uint32_t frame, uint32_t word, int32_t code);
    /* The turn of a machine that is apart, once it has heard what is there for it (`hears`). */
    void (*apart)(machine *self);
    /* A datagram is about to be heard; and was, with what was answered. */
    void (*hears)(machine *self, const datagram *come);
    void (*heard)(machine *self, const datagram *come, int32_t code);
    /* All that has come in this turn was heard; its peer was polled. */
    void (*has_heard)(machine *self);
    void (*has_polled)(machine *self);
    /* In place of fazgrond_peer_go_on. */
    int32_t (*goes_on)(machine *self, uint32_t *frames);
    /* An epoch has ended, and its jobs are out: they are to be forgotten. */
    void (*ends_jobs)(machine *self);
    /* The next epoch begins without it. */
    void (*is_left_out)(machine *self);
    /* The next epoch is there, but for its requests; and wholly, as the frame is shown that was shown before. */
    void (*ends)(machine *self);
    void (*begins)(machine *self);
    /* A turn of a match that runs, before words that are held back, and words of its own. */
    void (*plays)(machine *self);
    /* In place of handing over what is due, and all where the session is pressed. */
    void (*hands_over)(machine *self);
    void (*carries_out)(machine *self, const fazgrond_request *request);
    /* The requests of the turn are carried out, and what is settled was seen: whether a frame or news were played is `self->has_rolled`. */
    void (*has_played)(machine *self);
    void (*is_told)(machine *self, const fazgrond_event *event);
    /* Sees what it sends, and may change it. False if it is to be lost. */
    bool (*sends)(machine *self, datagram *sent);
} program;

struct machine {
    world *world;
    const program *program;
    void *own;     /* what its program keeps beside this */
    uint32_t me;   /* its place in the world .. */
    uint32_t seat; /* .. and its number in the match, at first the same; and at which place each number is */
    uint32_t places[MACHINES];
    fazgrond_session session;
    fazgrond_peer peer;
    bool is_open, is_running, has_rolled;
    bool is_apart; /* it plays no match, not yet or not any more: its turns are its program's */
    uint64_t draw;
    uint32_t opening; /* how often it was opened */
    uint64_t next_turn, turns;
    uint32_t frame;  /* of its session */
    uint32_t wait;   /* for so many turns it gives no words, as it was advised */
    uint64_t waited; /* the turns in which it gave none for that, or since it was too far ahead */
    bool is_short;   /* a roll had no memory, or no slot: it is made again in the next turn */
    bool is_owed;    /* its words were given, and the roll for them was refused for that */

    /* Its game; the row of each frame that isn't settled as it ran last; all that it has settled, from its first frame on. */
    states states;
    fazgrond_row shown[SHOWN];
    part *parts;
    uint32_t part_count, part_room;
    uint64_t from, settled, opening_digest;
    uint32_t noted; /* how many frames of the session were settled when that was noted last */
    record *records;
    size_t record_room;
    bool is_closing; /* the requests are carried out by which an epoch ends */
    bool is_fewer;   /* somebody has left since the last turn */

    /* What is wrong with it. */
    bool is_dead;        /* it does nothing, and nothing comes */
    bool hangs;          /* it takes no turns, and what comes waits */
    bool is_mute;        /* nothing that it sends arrives */
    bool is_deaf;        /* nothing arrives at it */
    bool is_stalled;     /* it gives no words */
    bool stays_behind;   /* it goes on in no other epoch */
    uint32_t word_every; /* it gives words in one turn of so many; 0: in each */
    int64_t clock_ahead; /* of the world's, in milliseconds */

    /* What came, and what became of it. */
    datagram **inbox;
    size_t waiting, inbox_room;
    uint32_t answers[CODES]; /* how often the library gave each code to what came */
    uint32_t more;           /* how many datagrams of others it has handed on, or had handed on */
};

/* Hears what has come. */
void machine_hear(machine *self);

/* A turn: it hears what has come, plays on, and sends. */
void machine_turn(machine *self);

/* Something has come for it. The datagram is the machine's from now on. */
void machine_post(machine *self, datagram *come);

/* What isn't so is wrong with its world. */
void machine_must(const machine *self, bool is_so, const char *what);

/* Carries out the requests that its session has left, and sees what is settled by now. */
void machine_carry_out(machine *self);
void machine_see_settled(machine *self);

/* What has come is played, if anything has. */
void machine_synchronize(machine *self);

/* Tells its program, and the world, what its peer has to tell. */
void machine_hear_events(machine *self);

/* The epoch that it is in; the frame of the match that it shows, and the first one of that epoch. */
const fazgrond_epoch *machine_epoch(const machine *self);
uint64_t machine_frame(const machine *self);
uint64_t machine_base(const machine *self);

/* A settled frame, from its first one on; and the digest of the state before a frame up to the settled one. */
const record *machine_record(const machine *self, uint64_t frame);
uint64_t machine_digest(const machine *self, uint64_t frame);

/* This epoch is its first one, and its game is at the base of it. */
void machine_begin_in(machine *self, const fazgrond_epoch *epoch);

/* A row of an epoch, which others have settled, is shown to a machine that comes. */
void machine_view(machine *self, const fazgrond_epoch *epoch, const fazgrond_row *row);

/* Sends what it carries for others, or has carried. */
void machine_send_more(machine *self);

/* What has come is forgotten; and its session and peer are closed, too. */
void machine_empty(machine *self);
void machine_close(machine *self);

#endif
