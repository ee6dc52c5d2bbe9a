/* A world of machines that play a match over the library, all in one process: their games, their clocks, and the network between
 * them. There is no socket and no waiting, and the same seed always leads to the same. A trial lets time pass, has something go
 * wrong, and looks at what the machines were told. */
#ifndef SIM_WORLD_H
#define SIM_WORLD_H

#include "machine.h"

#include <stdio.h>

/* The world's moments: so many are a microsecond, that a sixtieth of a second is a whole number of them. */
enum { MICROSECOND = 3, MILLISECOND = 1000 * MICROSECOND, SECOND = 1000 * MILLISECOND };
enum { MOST_TOLD = 1 << 15, NOBODY = 99 };

typedef struct setup {
    const game *game;       /* null: the digest of all rows */
    const program *program; /* null: one that gives words by chance, and does nothing beside the loop */
    uint32_t machines;      /* each has one player, or more if there are more players */
    uint32_t players;       /* 0: as many as machines have words of an input */
    uint32_t words;         /* an input is so many players' words; 0: one */
    bool has_owners;        /* the players are owned so, with these delays; else each machine has its words in turn */
    uint32_t owners[FAZGROND_PLAYERS], delays[FAZGROND_PLAYERS];
    uint32_t threshold; /* 0: 8 */
    uint32_t limit;     /* the last frame of a session; 0: the last that there is */
    uint64_t comers;

    /* Time. With turns that are alike, all machines have theirs at the same moments, one after another; and delay and jitter are turns. */
    uint32_t rate;          /* turns a second */
    uint32_t turn;          /* or moments of a turn, which are all alike then; 0: they aren't */
    uint32_t delay, jitter; /* milliseconds one way: at least so many, and so many more at most */
    uint32_t loss, copies;  /* of a hundred datagrams: how many are lost, and how many come twice */
    uint32_t silent_after, notify_after, stalled_after;
    uint32_t silent_first; /* machine 0 has this time in the place of silent_after, if it isn't 0 */
    uint32_t input_delay;  /* frames by which all words count later, if no owners are given */
    uint32_t slots;        /* room for so many states; 0: for more than are ever needed */
    uint64_t last_frame;   /* nobody gives words from this frame of the match on; 0: no such frame */
    uint32_t held_turns;   /* for how many turns others' words wait beside the sessions */
    uint32_t most_heard;   /* so many datagrams are heard in a turn at most; 0: all */
    uint32_t waits;        /* one more than the machine that puts nobody out for giving no words; 0: there is none */
    bool carries;          /* machines hand on what others send each other whose line is broken */
    bool lasts;            /* the match goes on in epochs */
    uint32_t seats;        /* then so many numbers are sent to; 0: all that machines may have */
    bool tells_all;        /* what has come is played before an epoch ends, so that all its rows are told of it afterwards */
    bool polls_late;       /* a peer is polled behind its words in a turn */
    bool lacks_memory;     /* calls may be refused for memory: they are made again */
    bool has_pair_numbers; /* each two machines have a number of their own */
    bool is_idle;          /* all words are 0 */
    bool is_button;        /* or 0 and 1: a button that is held or not */
    uint64_t seed;
} setup;

/* Two machines and 60 turns a second, 20 milliseconds one way. */
extern const setup plain;

/* Two machines whose turns are alike and take 16 milliseconds, two turns one way, in a match that goes on in epochs. */
extern const setup even;

/* What a machine was told, and when. */
typedef struct told {
    uint64_t at; /* milliseconds of the world */
    uint32_t who, opening;
    fazgrond_event event;
} told;

/* Sees what is sent, and may change it, or send more. False if it is to be lost. */
typedef bool on_sent(world *self, datagram *sent);

struct world {
    setup setup;
    machine machine[MACHINES];
    uint64_t now;   /* moments */
    uint32_t turn;  /* how many turns have passed that are alike */
    uint32_t whose; /* the machine whose turn it is; MACHINES between two turns */
    draws random;
    uint64_t numbers[MACHINES][MACHINES];
    bool is_cut[MACHINES][MACHINES]; /* nothing goes from one to another */
    network network;
    on_sent *watcher;
    void *watchers; /* what the watcher knows */
    told told[MOST_TOLD];
    size_t events;
    FILE *out;         /* where all that is told is printed, if it isn't null */
    const char *wrong; /* what went wrong first: null if nothing */
    int32_t refused;   /* with which code a call was refused that has to be taken, if that went wrong */
};

/* A world in which no machine is open yet. What an earlier one had is given back. */
world *world_begin(const setup *with);
void world_end(world *self);

/* Opens a machine, or opens it anew; or all of them. */
void world_open(world *self, uint32_t who);
void world_open_all(world *self);

/* Opens a machine as this number of an epoch, whose base the game has come to with this state. */
void world_open_in(world *self, uint32_t who, uint32_t seat, const fazgrond_epoch *epoch, const void *state);

/* A program begins at a machine that isn't in the match: its turns are the program's own until the machine is opened. */
void world_begin_to_come(world *self, uint32_t who);

/* Opens the session of a machine anew, with its game, beside its peer as it is. */
void world_open_session(world *self, uint32_t who);

/* The epoch in which a match begins; the settings of a machine's session, and its match. */
fazgrond_epoch world_first_epoch(const world *self);
fazgrond_settings world_settings(const world *self, uint32_t who);
fazgrond_settings world_settings_in(const world *self, uint32_t seat, const fazgrond_epoch *epoch);
fazgrond_match world_match(const world *self, uint32_t who, uint32_t seat);

/* The machine says bye to all others, so many times; how many they are. Or it closes then, too. */
uint32_t world_say_bye(world *self, uint32_t who, uint32_t times);
void world_leave(world *self, uint32_t who);

/* The program of a machine stands still for so long, and then goes on. */
void world_stand_still(world *self, uint32_t who, uint32_t milliseconds);

/* Lets so many milliseconds pass, or so many turns that are alike. */
void world_run(world *self, uint32_t milliseconds);
void world_run_turns(world *self, uint32_t turns);

/* Lets time pass until all machines that play have settled so many frames. False if they haven't in so many milliseconds. */
bool world_play(world *self, uint32_t frames, uint32_t milliseconds);

/* Puts a datagram on its way, which is neither lost nor copied, and takes so long. */
void world_send(world *self, uint32_t from, uint32_t to, const uint8_t *bytes, size_t length, uint32_t milliseconds);

/* What is due by now arrives, before any turn of this moment. */
void world_deliver(world *self);

/* What a machine sends goes the way of the network: it is lost, or late, or comes twice. */
void world_post(world *self, datagram *sent);

/* No datagram goes between two machines from now on, or they do again. */
void world_cut(world *self, uint32_t one, uint32_t other, bool is_cut);

/* A call was refused that has to be taken. */
void world_refuse(world *self, int32_t code, const char *what);

/* A machine was told something. */
void world_tell(world *self, uint32_t who, const fazgrond_event *event);

/* A number below another. */
uint32_t world_draw(world *self, uint32_t below);

uint32_t world_millis(const world *self);
uint32_t world_clock(const world *self, uint32_t who);

/* How many players there are, and which machine has one at first, FAZGROND_NO_PLAYER if it is none. */
uint32_t world_players(const world *self);
uint32_t world_owner(const world *self, uint32_t player);

/* How often a machine was told this in its present opening, of this machine or (with NOBODY) of whichever; and when first, in
 * milliseconds of the world, 0 if never. */
uint32_t world_told(const world *self, uint32_t who, uint32_t code, uint32_t of);
uint32_t world_told_at(const world *self, uint32_t who, uint32_t code, uint32_t of);

/* In how many milliseconds it would be gone, as that said first. */
uint32_t world_gone_in(const world *self, uint32_t who, uint32_t code, uint32_t of);

/* Whether two machines have the same rows and the same state after each frame that both have settled, and at least so many. */
bool world_agree(const world *self, uint32_t one, uint32_t other, uint64_t frames);

/* Whether a machine's state after so many rows is that of the game which is run once over the words of all, of whom nobody has left. */
bool world_is_serial(world *self, uint32_t who, uint32_t frames);

size_t world_log(world *self, uint32_t who);

/* How many states a game has room for. */
uint32_t world_slots(const world *self);

/* The state that a machine shows, and one after one row more, of the game that is a digest. */
uint64_t world_state(const machine *of);
uint64_t world_state_after(uint64_t state, const fazgrond_row *row);

/* A word by chance, the same whenever the frame is played: what a program gives that has nothing else. */
uint32_t world_drawn_word(machine *self, uint32_t player, uint64_t frame);

/* The name of an event. */
const char *world_name(uint32_t code);

#endif
