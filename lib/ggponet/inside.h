/* What the files of this folder share. A game includes ggponet.h alone. */
#ifndef FAZGROND_GGPONET_INSIDE_H
#define FAZGROND_GGPONET_INSIDE_H

#if !defined(_WIN32) && !defined(_POSIX_C_SOURCE)
#define _POSIX_C_SOURCE 200809L
#endif
#ifdef _WIN32
#define _CRT_RAND_S /* rand_s, which is RtlGenRandom */
#endif
#include "ggponet.h"

#include <fazgrond.h>
#include "faz_rejoin.h"
#include <stdio.h>
#include <stdlib.h>
#include <string.h>

#ifdef _WIN32
#define WIN32_LEAN_AND_MEAN
#include <winsock2.h>
#include <ws2tcpip.h>
typedef SOCKET socket_t;
#else
#include <netinet/in.h>
typedef int socket_t;
#endif

enum {
    MACHINES = 8,
    MOST_SYNC_FRAMES = 64, /* of a sync test */
    SENDER_AT = 12,        /* where a packet has its sender's number */
    ROWS_BEFORE = 1024,    /* rows that are remembered of epochs that are over */
    EVENTS = 64,           /* that wait to be told, as many as of a peer */
    HOST = 0,              /* a spectator's only machine */
    HOST_HANDLE = 0,       /* GGPO's numbers for the two ends of a spectator's line */
    SPECTATOR_HANDLE = 1000
};

/* How far the other end of a spectator's line has come, as the game was told. */
typedef enum stage { UNHEARD, HEARD, PLAYING, GONE } stage;

/* A saved state, as the game made it. */
typedef struct saved {
    bool taken;
    bool is_guessed; /* a helper made it */
    unsigned char *buffer;
    int length;
    int checksum;
    int frame;
} saved;

/* The settled row of a frame of the match. */
typedef struct settled_row {
    int frame;
    fazgrond_row row;
} settled_row;

/* A datagram that is on its way for a while, on a bad line. */
typedef struct delayed {
    struct delayed *next;
    uint64_t due;
    int machine;
    size_t length;
    uint8_t bytes[FAZGROND_DATAGRAM];
} delayed;

/* The number of a pair, if the game has said one. */
typedef struct pair_number {
    bool is_said;
    uint64_t number;
} pair_number;

/* A machine of the match, or the other end of a spectator's line. */
typedef struct machine {
    struct sockaddr_in address;
    pair_number pair;
    int handle;    /* its first player's, or a spectator's */
    bool is_known; /* it was heard of, which the game was told */
    uint64_t second;
    uint32_t bytes_now;
    uint32_t bytes_before;

    /* Of a line alone. */
    stage stage;
    int32_t heard;       /* FAZGROND_OK, or FAZGROND_MISMATCHED; 1 if it wasn't heard */
    uint32_t heard_at;   /* when a datagram of it was taken last */
    uint32_t greeted_at; /* and when the first was, which the game was told */
    bool is_silent;
} machine;

typedef struct player {
    bool is_there;
    GGPOPlayerType type;
    struct sockaddr_in address;
    pair_number pair; /* with the machine of this player */
    int machine;
    int delay;
    bool is_vacant; /* nobody plays it as the match begins */
    int words_gone; /* how many of its words have left */
    bool has_left;
} player;

struct GGPOSession {
    GGPOSessionCallbacks call;
    int players;
    int input_size;
    int words; /* of an input: the session of fazgrond.h has so many players in a row for each player */
    player player[GGPO_MAX_PLAYERS];
    char error[160];
    bool is_broken; /* a callback failed: the states are no more what the library takes them for */

    /* The match: the session that plays, and its network. */
    fazgrond_session rollback;
    fazgrond_peer peer;
    bool is_open;
    bool has_begun;
    uint64_t number;
    uint64_t digest;
    uint64_t opening;
    uint32_t silent_after;
    uint32_t notify_after;
    bool tells_missing;
    int me;                        /* which machine this is, in this epoch of the match .. */
    int place;                     /* .. and in its first one: so addresses are numbered */
    int machines;                  /* how many places there are */
    fazgrond_event events[EVENTS]; /* that the game is told by the next ggpo_idle */
    int event_count;
    int place_of[MACHINES];
    machine machine[MACHINES + GGPO_MAX_SPECTATORS]; /* by places; the spectators come after all machines */

    /* A match into which players come back. */
    bool can_rejoin;
    bool is_coming;                       /* this machine follows the match, and isn't in it yet */
    bool has_no_host;                     /* and nobody plays it who is heard, .. */
    bool is_alone;                        /* .. which the game was told */
    uint32_t came_in_at;                  /* when it came in */
    bool is_at_seam;                      /* the next epoch has begun, and the state at its first frame isn't saved yet */
    bool is_fewer;                        /* somebody has left since it was last asked whether this epoch is over */
    int base;                             /* how many frames of the match came before this epoch */
    settled_row rows_before[ROWS_BEFORE]; /* the last settled rows, each at the place of its frame */
    int remembered;                       /* so many frames of the match have had theirs there, .. */
    int came_from;                        /* .. from this one on: that of the state with which this machine came in */
    fazgrond_epoch epoch;
    faz_hosting hosting;
    faz_comer comer;

    bool has_desync; /* was told of one: then its bye says so */

    /* Spectators, and what is watched if this session is one. */
    fazgrond_line line[GGPO_MAX_SPECTATORS];
    int spectators;
    bool has_line_number;
    uint64_t line_number;
    bool is_spectating;
    unsigned short port;
    fazgrond_viewer viewer;

    /* The game's states: its current one is of `frame`, and saved in slot `at` if that isn't negative. */
    saved *slots;
    size_t slot_count;
    int frame;
    int64_t at;
    uint32_t noted; /* the settled frame whose checksum the others were told last */

    /* The row that the game is given. */
    fazgrond_row row;
    uint32_t given;    /* a bit for each local player whose input was taken since ggpo_idle or a frame: others' are for the same frame */
    bool is_row_given; /* at this frame, and the game hasn't gone on from it */
    bool in_rollback;
    bool is_advanced;

    /* Socket or wire, clock and line. */
    socket_t socket;
    bool has_port;
    FazggpoWire wire; /* its functions are null if there is none */
    uint64_t start;
    uint32_t speed;
    uint64_t send_due;
    int lag;
    int loss;
    int junk;
    uint64_t random;
    delayed *first;
    delayed *last;

    /* A sync test. */
    int sync_frames; /* 0 if this is none */
    bool is_running; /* it, or what is watched */
    fazgrond_row rows[MOST_SYNC_FRAMES];
    saved after[MOST_SYNC_FRAMES + 1];

    struct guesses *guesses; /* null if the game asked for none */
};

/* ---- log.c */

#if defined(__GNUC__)
__attribute__((format(printf, 3, 4)))
#endif
/* Notes why a call is refused, and answers with that code. The session is null if none could be begun. */
GGPOErrorCode
ggponet_refuse(GGPOSession *session, GGPOErrorCode code, const char *format, ...);
/* GGPO's code for one of the library. */
GGPOErrorCode ggponet_refused(GGPOSession *session, int32_t code);
/* From now on every call is refused. */
GGPOErrorCode ggponet_broken(GGPOSession *session, const char *why);
/* Why a call can't be made now. */
GGPOErrorCode ggponet_can_call(GGPOSession *session, const char *name);
GGPOErrorCode ggponet_no_player(GGPOSession *session, GGPOPlayerHandle handle);
GGPOErrorCode ggponet_is_too_late(GGPOSession *session, const char *what);
/* Why a call isn't for a session that watches, as in GGPO. */
GGPOErrorCode ggponet_only_watches(GGPOSession *session, const char *name);

/* ---- system.c */

/* The system's clock, in microseconds; the session's, which may be faster; and that in milliseconds. */
uint64_t ggponet_real_micros(void);
uint64_t ggponet_micros(const GGPOSession *session);
uint32_t ggponet_millis(const GGPOSession *session);
void ggponet_sleep_micros(uint64_t time);
/* 64 bits of the system's source of random bits, which aren't 0. They keep openings of one match apart. */
bool ggponet_new_draw(uint64_t *bits);
GGPOErrorCode ggponet_no_draw(GGPOSession *session);

/* ---- sockets.c */

bool ggponet_read_address(const char *text, unsigned short port, struct sockaddr_in *address);
bool ggponet_is_address(const struct sockaddr_in *one, const struct sockaddr_in *other);
/* False if the port can't be opened. */
bool ggponet_open_port(GGPOSession *session, unsigned short port);
void ggponet_close_port(GGPOSession *session);
void ggponet_send_now(GGPOSession *session, int to, const uint8_t *bytes, size_t length);
/* The next datagram that came; its length, or a negative number if none is there. */
long ggponet_next_datagram(GGPOSession *session, struct sockaddr_in *from, uint8_t *bytes, size_t room);
/* Waits so many microseconds of the session, or until something came for an open match. */
void ggponet_wait_micros(GGPOSession *session, uint64_t time);

/* ---- wire.c */

bool ggponet_has_wire(const GGPOSession *session);
void ggponet_send_by_wire(GGPOSession *session, int to, const uint8_t *bytes, size_t length);
/* As ggponet_next_datagram: the address is that of the machine that the wire names. */
long ggponet_next_of_wire(GGPOSession *session, struct sockaddr_in *from, uint8_t *bytes, size_t room);
/* Whether the game has said a number for some pair. */
bool ggponet_has_pairs(const GGPOSession *session);
/* The machines have the numbers that were said for their players. */
GGPOErrorCode ggponet_take_pairs(GGPOSession *session);

/* ---- line.c */

void ggponet_send_to(GGPOSession *session, int to, const uint8_t *bytes, size_t length);
void ggponet_send_due_of_line(GGPOSession *session);
void ggponet_free_line(GGPOSession *session);

/* ---- states.c */

bool ggponet_has_slot(GGPOSession *session, uint32_t slot);
void ggponet_give_back(GGPOSession *session, saved *one);
bool ggponet_save(GGPOSession *session, saved *to);
bool ggponet_load(GGPOSession *session, const saved *from);
/* Has the game play a frame again. */
bool ggponet_step_again(GGPOSession *session, const fazgrond_row *row);
/* The game's own step is taken back, by the state that it was made from. */
bool ggponet_take_back(GGPOSession *session);
/* Carries out all requests. `is_stepped` says that the game has made the next step itself, and stays so if none of them was it. */
GGPOErrorCode ggponet_carry_out_all(GGPOSession *session, bool *is_stepped);
/* The opening is saved in slot 0 before the first input, as GGPO saves it. */
GGPOErrorCode ggponet_begin(GGPOSession *session);
/* Tells the others the checksum of the last settled state. */
void ggponet_note_settled(GGPOSession *session);
void ggponet_free_states(GGPOSession *session);

/* ---- players.c */

/* A player by handle, or null. */
player *ggponet_player_of(GGPOSession *session, GGPOPlayerHandle handle);
/* The address of a remote player or a spectator. */
GGPOErrorCode ggponet_read_address_of(GGPOSession *session, const GGPOPlayer *added, struct sockaddr_in *address);

/* ---- match.c */

/* Opens the match, if all players are there and it isn't open. */
GGPOErrorCode ggponet_open_match(GGPOSession *session);
/* Opens a match into which players come back as if the program were begun anew. */
GGPOErrorCode ggponet_open_anew(GGPOSession *session);
/* Whether nobody plays this machine's players as the match begins. */
bool ggponet_comes_later(const GGPOSession *session);
/* Opens a session with these settings, and its peer in this epoch of the match. */
GGPOErrorCode ggponet_open_lasting(GGPOSession *session, const fazgrond_settings *settings);
void ggponet_close_match(GGPOSession *session);
/* Sees who is silent, who has left, and whether the match begins. */
GGPOErrorCode ggponet_poll(GGPOSession *session);
/* Takes a local player's input, if the match has begun. */
GGPOErrorCode ggponet_give_words(GGPOSession *session, GGPOPlayerHandle handle, const uint32_t *words);
/* The row of this frame. */
GGPOErrorCode ggponet_row_of_match(GGPOSession *session);
/* Shows what came, as GGPO does while a frame has to wait. */
GGPOErrorCode ggponet_roll_back(GGPOSession *session);
/* The game has made the step that its row asked for. */
GGPOErrorCode ggponet_advance_match(GGPOSession *session);
void ggponet_send_to_machines(GGPOSession *session);
/* A datagram that says goodbye goes out more than once. */
void ggponet_send_bye(GGPOSession *session, int to, const uint8_t *bytes, size_t length);

/* ---- rejoin.c */

GGPOErrorCode ggponet_open_seats(GGPOSession *session);

/* By which number whoever comes into this match has a ticket (fazgrond_ticket). */
uint64_t ggponet_comers(const GGPOSession *session);
/* This machine comes into a match that runs. */
void ggponet_begin_to_come(GGPOSession *session);
void ggponet_close_seats(GGPOSession *session);
int ggponet_place_of(const GGPOSession *session, uint32_t machine);
/* Which machine has this place now; MACHINES if none has. */
int ggponet_machine_at(const GGPOSession *session, int place);
/* Those who come get this state, that of the first frame of an epoch. */
void ggponet_host_from(GGPOSession *session, const saved *state);
/* Goes on in the next epoch, if this one is over. */
GGPOErrorCode ggponet_go_on(GGPOSession *session);
void ggponet_host_turn(GGPOSession *session);
void ggponet_hear_who_comes(GGPOSession *session, int place, const uint8_t *bytes, size_t length);
/* A machine that isn't in the match asks whether it runs, and comes in if it does. */
void ggponet_ask_to_come(GGPOSession *session);
GGPOErrorCode ggponet_come(GGPOSession *session);

/* ---- spectators.c */

GGPOErrorCode ggponet_add_spectator(GGPOSession *session, const GGPOPlayer *added, GGPOPlayerHandle *handle);
/* Which spectator has an address, or -1. */
int ggponet_spectator_at(const GGPOSession *session, const struct sockaddr_in *address);
GGPOErrorCode ggponet_open_lines(GGPOSession *session);
/* Opens what is watched, if it isn't open. */
GGPOErrorCode ggponet_open_viewer(GGPOSession *session);
void ggponet_hear_spectator(GGPOSession *session, int at, const uint8_t *bytes, size_t length);
void ggponet_hear_host(GGPOSession *session, const uint8_t *bytes, size_t length);
void ggponet_send_to_spectators(GGPOSession *session);
void ggponet_send_to_host(GGPOSession *session);
void ggponet_tell_of_spectators(GGPOSession *session);
void ggponet_tell_of_host(GGPOSession *session);
/* The next row of what is watched. It stays the same until it is played. */
GGPOErrorCode ggponet_next_row(GGPOSession *session);
/* Says to all spectators, and to the host that is watched, that this is the end. */
void ggponet_close_lines(GGPOSession *session);

/* ---- events.c */

/* Takes the peer's events, which wait until the game is told. */
void ggponet_take_events(GGPOSession *session);
/* An event waits until the game is told, as those of the peer do. */
void ggponet_note_event(GGPOSession *session, const fazgrond_event *event);
void ggponet_tell_of_match(GGPOSession *session);
/* In how many milliseconds who is silent is gone, as GGPO has it: the most of them if it never is. */
int ggponet_disconnect_in(const GGPOSession *session, uint32_t time);

/* ---- sync_test.c */

GGPOErrorCode ggponet_begin_sync_test(GGPOSession *session);
GGPOErrorCode ggponet_advance_sync_test(GGPOSession *session);
void ggponet_run_sync_test(GGPOSession *session);

/* ---- guesses.c */

/* What helpers have done is taken in. */
void ggponet_take_jobs(GGPOSession *session);
/* Jobs for helpers are made, after an advance. */
void ggponet_make_jobs(GGPOSession *session);
/* The jobs of an epoch that is over are given up. */
void ggponet_leave_jobs(GGPOSession *session);
/* Another epoch has begun, and words are counted anew. */
void ggponet_note_epoch(GGPOSession *session);
/* Whether a job of such an epoch, which a helper still runs, takes a state over that it began with. */
bool ggponet_keep_state(GGPOSession *session, const saved *state);
/* A state that a rollback goes on from: it is counted if a helper made it. */
void ggponet_note_use(GGPOSession *session, const saved *state);
/* Whether a helper is at work. */
bool ggponet_has_helpers(const GGPOSession *session);
void ggponet_free_jobs(GGPOSession *session);

/* ---- ggponet.c */

/* How many players the session of fazgrond.h has, and which of them is a word of a player's input, the first of which is word 0. */
int ggponet_all_words(const GGPOSession *session);
int ggponet_word_player(const GGPOSession *session, GGPOPlayerHandle handle, int word);
/* The player of whose input a player of the session of fazgrond.h is a word. */
GGPOPlayerHandle ggponet_handle_of_word(const GGPOSession *session, int player);
/* GGPO's flags of who has left: all words of their inputs have. */
int ggponet_flags_of(const GGPOSession *session, const fazgrond_row *row);
/* The inputs of all players, as the game is given them: of each word the lowest byte first. */
void ggponet_write_row(const GGPOSession *session, const fazgrond_row *row, uint8_t *out);

uint64_t ggponet_hash_bytes(uint64_t hash, const void *bytes, size_t count);
GGPOErrorCode ggponet_make_session(GGPOSession **session, const GGPOSessionCallbacks *cb, const char *game, int players, int input_size);
#endif
