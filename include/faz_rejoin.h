/* Who comes into a match that goes on in epochs: a player who comes back after a crash, one who comes late, and who only watches.
 *
 * Each of them has a line with each machine of the match: an address at either end, and a number of 64 random bits that only the two know.
 * A machine of the match is a host of all of them (`faz_hosting`), with a seat for each. Who comes (`faz_comer`) follows one host at a
 * time: it takes the state with which the host's epoch began, steps it by the settled rows, and is then proposed by a mark. Once the epoch
 * ends by that, it opens a session and a peer of its own at the first frame of the next one. Nobody waits meanwhile.
 *
 * Neither end has a socket, a clock or memory but for the state: both make and take datagrams. All structs are set to zeros first. */
#ifndef FAZ_REJOIN_H
#define FAZ_REJOIN_H

#include <fazgrond.h>
#include <stdbool.h>

#ifdef __cplusplus
extern "C" {
#endif

/* Sends a datagram to the other end of a line: `to` is a seat of the hosting, or a place in the comer's `numbers`. Both stay whose they
 * are, where a player who comes back may be another machine than before: so send what the peer has by the player whose owner it names. */
typedef void faz_send(void *of, uint32_t to, const uint8_t *bytes, size_t length);

/* How an epoch began, as a host tells it. */
typedef struct faz_table {
    fazgrond_epoch epoch;
    uint32_t came;             /* a bit for each machine that wasn't in the epoch before */
    fazgrond_state_name state; /* the game's at its first frame; `length` 0: the host hasn't got it */
} faz_table;

enum { FAZ_TABLE_BYTES = 72, FAZ_SEATS = 40 };

/* ---- At a machine of the match. */

typedef struct faz_seat {
    bool is_taken;    /* there is such a seat */
    uint64_t number;  /* that of the line */
    uint64_t ticket;  /* of whoever sits there: by fazgrond_ticket, of the match's `comers` and a name of your choice */
    uint32_t players; /* a bit for each player that is to be its own; 0: it watches */

    fazgrond_line line, before; /* of this epoch, and of the one before */
    bool is_heard, is_late;     /* it follows this epoch; that had many rows when it began */
    bool is_ready;              /* it has the state, and has stepped all rows that came */
} faz_seat;

typedef struct faz_hosting {
    fazgrond_session *session;
    fazgrond_peer *peer;
    uint32_t me;     /* which machine of the epoch this is */
    uint64_t digest; /* that of the match */
    uint64_t random; /* 64 random bits of this opening of the program */
    faz_seat seat[FAZ_SEATS];
    faz_send *send;
    void *of;

    faz_table table;
    bool has_begun, is_marked, is_counted, is_told;
    uint32_t begun_at, turned_at, waited; /* when this epoch's first turn was, and the last; for how long who came is waited for */
    fazgrond_giver about, state, ready;
} faz_hosting;

/* An epoch has begun at this machine: the match, or the next epoch after fazgrond_peer_go_on. With the bytes of the game's state at its
 * first frame: those that the game saves into slot 0 while it carries out the requests of the seam and its frame is the epoch's base. */
int32_t faz_hosting_begin(faz_hosting *self, const uint8_t *state, size_t length);

/* A datagram came from a seat's address. */
void faz_hosting_hear(faz_hosting *self, uint32_t seat, const uint8_t *bytes, size_t length, uint32_t now);

/* Once a turn while the match runs, after fazgrond_peer_go_on, and before the game gives its own words. Whoever was begun anew is regarded
 * as gone, who has come up to this machine is proposed, and all are told what they lack.
 *
 * Before fazgrond_peer_go_on call fazgrond_synchronize_input if fazgrond_has_news: else who follows isn't told the last rows of the epoch.
 * But in a turn in which FAZGROND_LEFT or FAZGROND_DISCONNECTED came call fazgrond_peer_go_on first: rows past the end are known then, and
 * once they were played the epoch can't end any more. */
void faz_hosting_turn(faz_hosting *self, uint32_t now);

/* Says to all who follow this machine that it leaves. A datagram may be lost: call it a few times. */
void faz_hosting_bye(faz_hosting *self);

/* Nobody is answered any more: at the end, and once FAZGROND_DROPPED is told, as nobody could follow this machine then. */
void faz_hosting_close(faz_hosting *self);

/* ---- At who comes. */

typedef struct faz_comer {
    uint64_t numbers[FAZGROND_MACHINES]; /* of the line with each machine */
    uint32_t machines;                   /* a bit for each machine with which there is a line */
    uint32_t players;                    /* a bit for each player that it is to own; 0: it watches */
    uint32_t limit;                      /* the most bytes of a state */
    uint64_t digest;                     /* that of the match */
    uint64_t random;                     /* 64 random bits of this opening of the program */
    bool only_asks;                      /* it only asks whether the match runs, and comes in once this is set to false */
    faz_send *send;
    void *of;

    bool is_told; /* some machine has said that the match runs, at `told_at` first */
    uint32_t told_at;
    uint32_t host, avoided; /* the machine that is followed, and the one that was last; FAZGROND_NO_MACHINE if none is */
    bool has_clock, is_in, has_next, is_fresh;
    uint32_t now, moved_at, turns;
    faz_table table, next;
    fazgrond_taker taker;
    fazgrond_viewer viewer;
    uint8_t *state; /* the bytes that came, until they were asked for */
    bool has_state;
    uint32_t rows; /* so many of this epoch were stepped */
} faz_comer;

/* What the game is to do next: load a state (`state` and `length`; the frame of the match is `frame`), step it by a row, or begin to play.
 * To begin, it opens a session whose frame 0 is the state that it has, and beside it a peer by `epoch`, in which it is machine `me`. */
typedef enum faz_what { FAZ_NOTHING, FAZ_LOAD, FAZ_STEP, FAZ_IN } faz_what;

typedef struct faz_next {
    faz_what what;
    uint64_t frame;
    const uint8_t *state; /* until the next call */
    size_t length;
    fazgrond_row row;
    fazgrond_epoch epoch;
    uint32_t me;
} faz_next;

void faz_comer_begin(faz_comer *self);

/* A datagram came from a machine's address. */
void faz_comer_hear(faz_comer *self, uint32_t machine, const uint8_t *bytes, size_t length, uint32_t now);

/* Once a turn, before faz_comer_next: sends what is to be asked. FAZGROND_NOTHING: for three seconds there has been no host to follow, so
 * nobody plays the match any more, or nobody is heard. It goes on asking. Whoever is in has its peer's FAZGROND_MISSING for that. */
int32_t faz_comer_turn(faz_comer *self, uint32_t now);

/* What the game is to do next. Ask until it is FAZ_NOTHING, or as often as the game can step in a turn. */
faz_next faz_comer_next(faz_comer *self);

void faz_comer_close(faz_comer *self);

/* ---- What both share. */

void faz_table_write(const faz_table *table, uint8_t out[FAZ_TABLE_BYTES]);
/* False if these are no table's bytes. */
bool faz_table_read(const uint8_t *bytes, size_t length, faz_table *table);
/* The settings of a line in an epoch: it is sealed by another number in each. */
fazgrond_line_settings faz_line_in(const fazgrond_epoch *epoch, uint64_t number, uint64_t digest, uint64_t draw);
/* Another number of 64 bits for each call, from those that the program drew. */
uint64_t faz_draw(uint64_t *random);

/* Which states a table is, and what who comes asks for to say that it is ready. */
#define FAZ_TABLE_STATE 0x7461626c65ull
#define FAZ_READY_STATE 0x7265616479ull

#ifdef __cplusplus
}
#endif
#endif
