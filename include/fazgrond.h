/* fazgrond.h: rollback sessions for games in C, C++, Rust and any language that can call C.
 *
 * The library never calls the game. A call that may roll back (fazgrond_synchronize_input, fazgrond_advance_frame) or that makes
 * a job (fazgrond_guess) leaves a list of requests, which the game takes by fazgrond_take_requests and carries out in order:
 * load a state, save one, advance by a frame, free one. docs/C.md shows a whole game.
 *
 * A session can play a match over a network: fazgrond_match_open opens both in one handle. In a turn the game gives it the datagrams
 * that came and the inputs of its own players, carries out the requests, and sends the datagrams that it makes. The older way has two
 * handles side by side, a session and a peer: it goes in 0.4.0.
 *
 * Players are numbered from 1, frames, slots and machines from 0. An int32_t that comes back is FAZGROND_OK or says why the call
 * was refused. A refused call writes nothing through its pointers, except that fazgrond_claim says how much room it needs,
 * and fazgrond_match_open which setting doesn't fit. No pointer may be null, and a buffer must have the room that is said of it.
 */
#ifndef FAZGROND_H
#define FAZGROND_H

#include <stddef.h>
#include <stdint.h>

#ifdef __cplusplus
extern "C" {
#endif

/* The version of this header: major << 16 | minor << 8 | patch. docs/VERSIONS.md says what raises which of them. */
#define FAZGROND_VERSION 0x000300

/* The version of the library that the program runs with. While the major number is 0, a library fits a header with the same major
 * and minor number. If a library knows another size of fazgrond_settings, fazgrond_match_settings, fazgrond_match or
 * fazgrond_epoch than the header, it opens nothing and answers FAZGROND_OTHER_VERSION. */
uint32_t fazgrond_version(void);

/* What an answer or the code of an event means, in an English sentence for a log: as much of it as `out` has room for, without a
 * 0 at its end. Comes back with the length of the whole sentence; 0 if there is no such number. */
size_t fazgrond_text(int32_t code, uint8_t *out, size_t room);

/* The most players of a session. */
#define FAZGROND_PLAYERS 8

/* A session, in the game's memory. Begin with FAZGROND_CLOSED. Never copy it, move it or write into it while it is open. Make one
 * call at a time, even those that only ask: from any thread, but not from two at once. A call with two handles is a call of
 * both. */
typedef struct fazgrond_session {
    uint8_t full;
    void *at;
} fazgrond_session;

#define FAZGROND_CLOSED { 0, 0 }

/* The limits of a session: GGPO's are 4 players and 8 frames ahead, the wide ones 8 players and 15 frames. */
enum { FAZGROND_GGPO = 0, FAZGROND_WIDE = 1 };

/* Begin with fazgrond_settings_for, so that members which a later version adds have a value too. */
typedef struct fazgrond_settings {
    uint32_t size;                     /* sizeof(fazgrond_settings) */
    uint32_t profile;                  /* FAZGROND_GGPO or FAZGROND_WIDE */
    uint32_t players;                  /* how many there are */
    uint32_t local;                    /* bit p - 1 for each player p of this machine */
    uint32_t threshold;                /* how many frames the session may run ahead of the confirmed inputs */
    uint32_t limit;                    /* the last frame, at most 1048576 */
    uint32_t log;                      /* the most accepted calls, at most 16777216 */
    uint32_t delays[FAZGROND_PLAYERS]; /* by how many frames a local player's words count later; 0 for a remote one */
    uint32_t masks[FAZGROND_PLAYERS];  /* which bits of a player's last word are predicted as held: all by 0xffffffff; with
                                        * 0 the prediction is always 0 */
} fazgrond_settings;

/* Settings for so many players: with GGPO's limits for up to 4 players and the wide ones for more, as far ahead and as long as they
 * allow, without delays, and every word predicted as held. `local` has still to be set. */
static inline fazgrond_settings fazgrond_settings_for(uint32_t players) {
    fazgrond_settings settings;
    int at;
    settings.size = (uint32_t)sizeof settings;
    settings.profile = players <= 4 ? FAZGROND_GGPO : FAZGROND_WIDE;
    settings.players = players;
    settings.local = 0;
    settings.threshold = players <= 4 ? 8 : 15;
    settings.limit = 1048576;
    settings.log = 16777216;
    for (at = 0; at < FAZGROND_PLAYERS; at++) {
        settings.delays[at] = 0;
        settings.masks[at] = 0xffffffff;
    }
    return settings;
}

/* The words of all players for a frame, player 1's first. Bit p - 1 of `gone` is set for a player p who has left; its word
 * is 0. */
typedef struct fazgrond_row {
    uint32_t count;
    uint32_t gone;
    uint32_t words[FAZGROND_PLAYERS];
} fazgrond_row;

/* LOAD: make the state of this slot the current one; the slot keeps it.
 * SAVE: put a copy of the current state into this slot, which is free.
 * STEP: advance the current state by a frame with this row.
 * FREE: nothing needs the state of this slot any more.
 * JOB_LOAD, JOB_SAVE, JOB_STEP: the same as the first three, for a state that is not the current one: a job's. A guess's job is
 * one JOB_LOAD, and a JOB_STEP and a JOB_SAVE for each row, one after another.
 * A refused call leaves no requests.
 * The least free slots are always taken, so the slots are as many as states are saved at once: at most 257, and those of jobs. All
 * are below 1024. */
enum {
    FAZGROND_LOAD = 1, FAZGROND_SAVE = 2, FAZGROND_STEP = 3, FAZGROND_FREE = 4,
    FAZGROND_JOB_LOAD = 5, FAZGROND_JOB_SAVE = 6, FAZGROND_JOB_STEP = 7
};

typedef struct fazgrond_request {
    uint32_t kind;
    uint32_t slot;    /* of LOAD, SAVE and FREE, and of a job's */
    fazgrond_row row; /* of STEP, and of a job's */
} fazgrond_request;

/* Where an advance led: the new frame, the frame that it started from, and how many frames are run. */
typedef struct fazgrond_reached {
    uint32_t frame;
    uint32_t from;
    uint32_t rerun;
} fazgrond_reached;

/* An entry of the log, which has all accepted calls in their order. `player` is that of LOCAL, REMOTE and DISCONNECT, `word`
 * that of LOCAL and REMOTE, `frame` that of REMOTE. What isn't said is 0; a GRAFT says nothing more. */
enum {
    FAZGROND_LOCAL = 1, FAZGROND_REMOTE = 2, FAZGROND_DISCONNECT = 3, FAZGROND_SYNC = 4, FAZGROND_ADVANCE = 5,
    FAZGROND_GRAFT = 6
};

typedef struct fazgrond_entry {
    uint32_t kind;
    uint32_t player;
    uint32_t frame;
    uint32_t word;
} fazgrond_entry;

/* What calls answer. bindings/numbers writes the list. */
enum {
    FAZGROND_OK = 0,
    FAZGROND_INVALID_PLAYER = 2,
    FAZGROND_PLAYER_OUT_OF_RANGE = 3,       /* the settings: the number of players */
    FAZGROND_PREDICTION_THRESHOLD = 4,      /* too far ahead: wait for the others' words */
    FAZGROND_PLAYER_DISCONNECTED = 9,
    FAZGROND_INVALID_REQUEST = 11,          /* the settings: a limit, a delay, no local player .. Or a guess that goes over 24
                                             * frames past the settled one, or has no word, or over 24 */
    FAZGROND_LOCAL_INPUT_MISSING = 101,
    FAZGROND_INPUT_TWICE = 102,
    FAZGROND_GAP = 103,                     /* a word before this one has not come yet */
    FAZGROND_CONFLICT = 104,                /* another word was taken for this frame */
    FAZGROND_QUEUE_FULL = 105,              /* 128 words past the settled frame */
    FAZGROND_FRAME_LIMIT = 106,
    FAZGROND_NO_MEMORY = 107,
    FAZGROND_STRANGER = 108,                /* a job's states are not of this session */
    FAZGROND_TOO_FAR = 109,                 /* a job goes over 24 frames past the settled one: a guess's never does */
    FAZGROND_LATE = 110,                    /* a job has nothing past the settled frame */
    FAZGROND_ORPHAN = 111,                  /* the state that a job was run from is not kept any more */
    FAZGROND_DEAD = 112,                    /* a word has come that is not the guessed one */
    FAZGROND_TREE_FULL = 113,               /* as many states are kept as jobs may fill */
    FAZGROND_LOG_FULL = 114,
    FAZGROND_NO_PLAN = 117,                 /* there was no rollback yet */
    FAZGROND_FULL = 119,                    /* 64 jobs are out */
    FAZGROND_NO_JOB = 120,                  /* there is no such job */
    FAZGROND_IS_CLOSED = 201,               /* the handle, or one of the two. Also a handle of another kind */
    FAZGROND_PENDING = 202,                 /* requests were not taken yet */
    FAZGROND_NOTHING = 203,                 /* there is no such thing: no such player, row or word */
    FAZGROND_TOO_SHORT = 204,               /* the buffer has less room than what is to be written */
    FAZGROND_OTHER_VERSION = 205,           /* `size` isn't the one that this library knows: another version's header */
    /* From here on, of peers, lines, viewers, givers and takers alone. */
    FAZGROND_NOT_SEALED = 301,              /* bytes that are not of this opening of the match or line, were changed on their way,
                                             * or are too few or too many */
    FAZGROND_NO_DATAGRAM = 302,             /* they are sealed as they have to be, and no datagram of this version */
    FAZGROND_INVALID_MACHINE = 303,         /* there is no such machine in the match */
    FAZGROND_OWN_MACHINE = 304,             /* the machine is this one */
    FAZGROND_MACHINE_GONE = 305,            /* the sender is gone */
    FAZGROND_MISMATCHED = 306,              /* a line: a hello of the other end that means another match */
    FAZGROND_OVERSTATED = 307,              /* the sender sends words that it does not say that it has, or says that it has words
                                             * of this machine that it was never given */
    FAZGROND_ENDED = 308,                   /* a viewer's line has ended: one of its ends said bye */
    FAZGROND_OTHER_SENDER = 309,            /* the other end of the line didn't send them */
    FAZGROND_NO_ROWS = 310,                 /* what the host sends are no rows of this match's players */
    FAZGROND_ROWS_MISSING = 311,            /* rows before those that the host sends have not come yet */
    FAZGROND_OUTSIDE = 312,                 /* the sender tells of machines or players that the match hasn't, or not alike of all
                                             * words of an input */
    FAZGROND_OTHER_SESSION = 313,           /* the session isn't the one that this peer plays: give it that one. Or it was told of
                                             * others past the peer: then the match is over for this machine */
    FAZGROND_OTHER_KIND = 314,              /* an ask came to a taker, or a piece to a giver */
    FAZGROND_OTHER_STATE = 315,             /* the ask or the piece is of another state */
    FAZGROND_BARRED = 316,                  /* the sender alone gave a whole state that was wrong: no piece of it is taken */
    FAZGROND_NOT_NOW = 317,                 /* the pieces of another machine alone are taken for now */
    FAZGROND_PAST_THE_END = 318,            /* the state has no such piece */
    FAZGROND_WRONG_LENGTH = 319,            /* the piece has fewer or more bytes than the state's piece there has */
    FAZGROND_TOO_LONG = 320,                /* the state has more bytes than the limit that the taker was given, or 2^32 or more
                                             * */
    FAZGROND_NO_MARKS = 321,                /* the match doesn't go on in epochs, so that no word has a mark */
    FAZGROND_MARKED = 322,                  /* the player has a mark in this epoch already */
    FAZGROND_UNLIKE_DELAYS = 323,           /* the words of an input have other delays than each other: in the session, the epoch,
                                             * or after a mark */
    FAZGROND_TWO_OWNERS = 324,              /* the match: the words of an input have two owners, or some of them have none */
    FAZGROND_TOO_MANY_WORDS = 325,          /* the match: too many words. An input that a machine owns has some past the eighth
                                             * place */
    FAZGROND_NO_NUMBER = 326,               /* the match: a number with another machine is 0 */
    FAZGROND_GREAT_THRESHOLD = 327,         /* a mark: the threshold is over 15, or over what the session's limits allow */
    FAZGROND_LONG_DELAY = 328,              /* a mark: a delay is over 8 */
    FAZGROND_OTHERS_DELAY = 329,            /* a mark: it gives a delay to a player that isn't this machine's */
    FAZGROND_WRONG_TICKET = 330,            /* a mark: the ticket isn't of the match's `comers`, and the name in it */
    FAZGROND_JOBS_OUT = 331,                /* the epoch is over, and jobs are out: graft or forget them first */
    FAZGROND_INPUTS_TOO_LONG = 332,         /* the match: the inputs of all players have over 32 bytes together, each rounded up
                                             * to 4 */
    FAZGROND_OUT_OF_RANGE = 333,            /* the match: a setting is out of its range */
    FAZGROND_INPUT_LENGTH = 334             /* a turn: the inputs have another length than the match's */
};

/* Opens a session. Before the first request the game has its opening state as the current one and in slot 0. If the handle is
 * open, its session is closed once the new one is there; if the new one is refused, the old one stays. */
int32_t fazgrond_open(fazgrond_session *session, const fazgrond_settings *settings);

/* Closes it. Nothing happens if it is closed. */
void fazgrond_close(fazgrond_session *session);

/* Gives a local player's word of this frame. FAZGROND_INPUT_TWICE if it was given already: the first one counts. */
int32_t fazgrond_add_local_input(fazgrond_session *session, uint8_t player, uint32_t word);

/* Takes a remote player's next word. `repeated` is 1 if it was taken before, else 0. For a game with a network of its own: beside
 * a peer, the peer alone makes this call. */
int32_t fazgrond_remote_input(fazgrond_session *session, uint8_t player, uint32_t frame, uint32_t word,
                              uint32_t *repeated);

/* A remote player leaves. Beside a peer, the peer alone makes this call: see fazgrond_peer_disconnect. */
int32_t fazgrond_disconnect_player(fazgrond_session *session, uint8_t player);

/* The row of this frame, after a rollback if a prediction was wrong. Leaves requests. FAZGROND_PENDING if those of the last call
 * weren't taken yet. */
int32_t fazgrond_synchronize_input(fazgrond_session *session, fazgrond_row *row);

/* Goes on to the next frame, after a rollback if a prediction was wrong. Leaves requests. FAZGROND_LOCAL_INPUT_MISSING if a local
 * player gave no word for this frame. FAZGROND_PENDING as above. */
int32_t fazgrond_advance_frame(fazgrond_session *session, fazgrond_reached *reached);

/* Whether the state that is shown may be out of date: `flag` is 0 if the last entry of the log that isn't GRAFT is SYNC or
 * ADVANCE, else 1. A turn that plays no frame asks this, and calls fazgrond_synchronize_input if it is 1. If it is 0, that call
 * would change nothing but the log, by one entry more. */
int32_t fazgrond_has_news(fazgrond_session *session, uint32_t *flag);

/* The requests that were not taken yet, in order: fills `out`, which has room for so many, and says how many it wrote. After each
 * call that leaves requests, take until 0 comes back, whatever the call answered: then all are taken, or the session is
 * closed. */
size_t fazgrond_take_requests(fazgrond_session *session, fazgrond_request *out, size_t room);

/* A guess: if this player gave these words next, the first of them for the first frame whose word isn't known. Leaves the
 * requests of a job, which is to run the frames that this would make up to frame `until`, 8 at most, and gives the job a
 * number. FAZGROND_NOTHING if all of them are kept already. A job's requests may be carried out on another thread, beside all
 * others and at any time: until it is grafted or forgotten, no other request writes to the slot that it loads, and none touches
 * the slots that it saves to. When they are done, the number is handed to fazgrond_graft; if the guess
 * is right, the next rollback then starts behind these frames. */
int32_t fazgrond_guess(fazgrond_session *session, uint8_t player, const uint32_t *words, size_t count, uint32_t until,
                       uint32_t *job);

/* Takes in the states of a job all of whose requests are carried out; `added` is how many of them are kept. Whatever the answer
 * but FAZGROND_PENDING, the number is free again. */
int32_t fazgrond_graft(fazgrond_session *session, uint32_t job, uint32_t *added);

/* Gives a job up. None of its requests may be carried out any more, and its number is free again. */
int32_t fazgrond_forget(fazgrond_session *session, uint32_t job);

/* For a game with room for so many states: from now on nothing is saved in a slot from this one on. A call that would need one is
 * refused with FAZGROND_NO_MEMORY. Without guesses, the settings' threshold and two are enough. With guesses more are needed: each
 * job takes a slot for each of its rows until it is forgotten, or its states were grafted and are freed; and while it is out, the
 * slot that it loads isn't freed. A call that is refused for this has changed nothing, and can be made again: a guess once slots
 * were freed, a call that rolls back once jobs were forgotten. */
int32_t fazgrond_limit_slots(fazgrond_session *session, uint32_t slots);

/* Makes room for so many more events: none of them is then refused with FAZGROND_NO_MEMORY, but for want of slots if they are
 * limited. */
int32_t fazgrond_reserve_log(fazgrond_session *session, uint32_t events);

/* The current frame. */
int32_t fazgrond_frame(fazgrond_session *session, uint32_t *frame);

/* How many rows are settled: they never change. */
int32_t fazgrond_settled(fazgrond_session *session, uint32_t *rows);

/* A settled row. */
int32_t fazgrond_settled_row(fazgrond_session *session, uint32_t frame, fazgrond_row *row);

/* The settled frame, and the slot in which the state after all settled rows lies once the requests are carried out. It stays
 * there until the next call that leaves requests. */
int32_t fazgrond_settled_slot(fazgrond_session *session, uint32_t *frame, uint32_t *slot);

/* How many words of a player are confirmed: the frame whose word must come next. */
int32_t fazgrond_confirmed(fazgrond_session *session, uint8_t player, uint32_t *words);

/* The confirmed word of a player at a frame. */
int32_t fazgrond_confirmed_word(fazgrond_session *session, uint8_t player, uint32_t frame, uint32_t *word);

/* The frame in which a local player's next word counts. */
int32_t fazgrond_input_frame(fazgrond_session *session, uint8_t player, uint32_t *frame);

/* How many entries the log has. */
int32_t fazgrond_log_length(fazgrond_session *session, size_t *entries);

/* The entry at a place of the log, counted from 0. A log without GRAFT is a replay: a new session with the same settings, of
 * which these calls are made in turn, accepts each of them and comes to the same. */
int32_t fazgrond_log_entry(fazgrond_session *session, size_t place, fazgrond_entry *entry);

/* Notes by how many frames this machine is behind the other one, and the other behind this one, as it told last; a machine that
 * is ahead is behind by a negative number. Once a frame is often enough: the last 40 pairs count. Beside a peer this isn't
 * needed: FAZGROND_TIME_SYNC tells. */
int32_t fazgrond_note_advantages(fazgrond_session *session, int32_t local, int32_t remote);

/* How many frames this machine should wait, so that the other comes up to it: 0, or 3 to 9. */
int32_t fazgrond_frames_ahead(fazgrond_session *session, uint32_t *frames);

/* The text of the last rollback's claim: a certificate that it couldn't start from a later state, which `rollduel certify`
 * checks. It is written if `out` has room for it; `length` is how long it is, also if the answer is FAZGROND_TOO_SHORT. */
int32_t fazgrond_claim(fazgrond_session *session, uint8_t *out, size_t room, size_t *length);

/* ---- A match over a network, which a session plays. The section after this one, of peers, is the older way to play one: it goes in
 * 0.4.0.
 *
 * fazgrond_match_open opens a session and the match that it plays in one handle, and fazgrond_close closes both. The match has no
 * socket, no clock, no thread and no game: it takes and makes datagrams, and leaves requests as any session does.
 *
 * The main loop of the game, some 60 times a second:
 *   fazgrond_match_receive for each datagram that came;
 *   fazgrond_match_turn with the inputs of this machine's players;
 *   fazgrond_take_requests until it gives none: carry them out. If the turn says `has_gone_on`, begin again from the top at once;
 *   fazgrond_match_note with a digest of the settled state;
 *   fazgrond_match_next until it answers FAZGROND_NOTHING: send each datagram to the machine that it names;
 *   fazgrond_match_event until it answers FAZGROND_NOTHING;
 *   draw the game, if the turn says `has_requests`, and sleep until `next_in` microseconds have passed since the turn began.
 * It is the same for two machines and for eight, whether inputs are held back, lines break or players come and go: what the settings
 * don't ask for does nothing.
 *
 * An input is `input_size` bytes. In the session it is a word for each 4 bytes, and the last word has zeros behind its end:
 * fazgrond_input_of finds an input in a row. The settings' owners and delays, marks, and fazgrond_epoch_now count players. Everything
 * else counts words, as in a session: rows and their `gone`, the log, guesses, fazgrond_match_waiting, `handed`, `words_queued` and an
 * event's `player`. With inputs of 5 to 8 bytes player 2's are the words 3 and 4, and bit 2 of `gone` is its first one.
 *
 * The turn gives the session the inputs and advances it. A program that calls fazgrond_remote_input or fazgrond_disconnect_player of
 * this session ends the match for this machine: from then on calls answer FAZGROND_OTHER_SESSION. All else works as in any session:
 * fazgrond_synchronize_input, guesses and grafts, claims, limits of slots, the log.
 *
 * `now` is this machine's clock in milliseconds, from a moment of its own choice. It may wrap, and it may jump: time that goes back
 * counts as none, and a leap forwards alone makes nobody silent. Give the same clock to all calls.
 *
 * All calls here answer FAZGROND_IS_CLOSED if the session plays no match that was opened so. */

/* The owner of a player that doesn't exist. */
#define FAZGROND_NO_PLAYER 255

/* The owner of a player that nobody owns now, in a match that goes on in epochs: a machine that comes may get it. It is another thing
 * than FAZGROND_NO_PLAYER: such a player is in no epoch of the match. */
#define FAZGROND_NOBODY 254

/* Of a mark: the player's delay stays as it is. */
#define FAZGROND_AS_BEFORE 0xffffffff

/* The most machines of a match. */
#define FAZGROND_MACHINES 8

/* The `silent_after` and `notify_after` with which a match begins, and the `silent_after` of a line in other languages. */
#define FAZGROND_SILENT_AFTER 5000
#define FAZGROND_NOTIFY_AFTER 750

/* The most bytes of a datagram. */
#define FAZGROND_DATAGRAM 1200

/* The most words that wait beside the session. If one more comes, the session gets all of them. */
#define FAZGROND_HELD_WORDS 64

/* How a session and its match open. All machines give the same `machines`, `input_size`, `digest`, `opening`, `comers`, `epoch`, `base`,
 * `owners`, `masks`, `profile`, `threshold`, `limit` and `lasts`; with `lasts` the same `delays` too; and each two machines the same
 * number for each other. FAZGROND_MISMATCH tells what of them is compared: have `digest` depend on the others. Begin with
 * fazgrond_match_settings_for, so that members which a later version adds have a value too.
 *
 * The draw: 64 bits of the system's source of random bits (getrandom, BCryptGenRandom or the like), drawn anew for each opening, and
 * never 0. Nothing has to be agreed on for it: machines tell each other theirs, and by them a datagram of an earlier opening of the same
 * match isn't heard in this one. If a draw comes again, anybody who recorded the earlier opening can play it into this one. */
typedef struct fazgrond_match_settings {
    uint32_t size;                       /* sizeof(fazgrond_match_settings) */
    uint32_t me;                         /* which machine this is, from 0 */
    uint32_t machines;                   /* how many there are, 2 to 8. With `lasts` the owners say it, and it is 255 at most */
    uint32_t input_size;                 /* how many bytes an input of a player has, 1 to 16. All players' inputs have 32 together at
                                          * most, each rounded up to 4 */
    uint64_t numbers[FAZGROND_MACHINES]; /* with each machine a number that only these two know, 64 random bits, and never 0; that of
                                          * `me` is not read. The same in all places: the match's number */
    uint64_t draw;                       /* drawn for this opening: not 0 */
    uint64_t digest;                     /* of all else that has to be alike at all machines, but for the opening state */
    uint64_t opening;                    /* of the opening state: compared before the match begins. 0 if you have none */
    uint64_t comers;                     /* with `lasts`, which machines may come: see fazgrond_ticket. 0: any that a mark lets in */
    uint64_t epoch;                      /* with `lasts`, in which epoch this machine opens, and how many frames of the match came */
    uint64_t base;                       /* before it. A match begins with 0 and 0. A machine that comes later gives what the others'
                                          * fazgrond_match_epoch says, with its owners, delays and threshold */
    uint32_t owners[FAZGROND_PLAYERS];   /* the machine of each player, player 1 first; FAZGROND_NO_PLAYER behind the last one; with
                                          * `lasts` FAZGROND_NOBODY if nobody owns it now */
    uint32_t delays[FAZGROND_PLAYERS];   /* by how many frames each player's inputs count later, 0 to 8. Without `lasts` those of this
                                          * machine's players alone are read */
    uint32_t masks[FAZGROND_PLAYERS];    /* for each word of a row, and not for each player: which of its bits are predicted as held.
                                          * All by 0xffffffff; with 0 the prediction is always 0 */
    uint32_t profile;                    /* FAZGROND_GGPO, or FAZGROND_WIDE for over 4 words in a row or a threshold over 8 */
    uint32_t threshold;                  /* how many frames the session may run ahead of the confirmed inputs */
    uint32_t limit;                      /* the last frame of a session, at most 1048576. With `lasts` each epoch has so many */
    uint32_t log;                        /* the most accepted calls, at most 16777216, of each epoch too */
    uint32_t silent_after;               /* milliseconds after which a machine is gone that answers nothing, unless
                                          * FAZGROND_CUT_OFF is told. 0: it never is, so the match waits for it until you
                                          * disconnect it, and FAZGROND_MISSING isn't told */
    uint32_t notify_after;               /* milliseconds after which FAZGROND_INTERRUPTED tells of a machine of which nothing comes,
                                          * and FAZGROND_STALLED of one that holds this one up; 0: neither is told */
    uint32_t stalled_after;              /* milliseconds after which a machine is gone that answers, and holds this one up since it
                                          * gives no inputs, unless it hasn't begun; `silent_after` later if it takes none, or if
                                          * another may keep it. 0: it never is, and the match may stand for good */
    uint32_t held_turns;                 /* for how many turns at most the others' inputs wait beside the session, 1 to 8, while
                                          * another thread runs their frames: see fazgrond_match_guess. 0: the session gets them as
                                          * they come. Each machine has its own */
    uint32_t carries;                    /* not 0: where the line between two machines breaks, a third one that both hear hands their
                                          * datagrams on, so neither is gone for it. For 3 machines or more that
                                          * were opened so */
    uint32_t lasts;                      /* not 0: the match goes on in epochs. Marks end them, and change delays, the threshold and
                                          * the machines: see fazgrond_match_mark. The frames of each epoch begin at 0, so such a
                                          * match doesn't end at a last frame */
    uint32_t frame_time;                 /* how many microseconds a frame lasts, 1 to 1000000 */
} fazgrond_match_settings;

/* The settings of machine `me` in a match of so many machines: with GGPO's limits, inputs of 4 bytes, no delays, every bit predicted as
 * held, 60 frames a second, one epoch, and nothing held back or carried. No player has an owner, and there are no numbers and no draw
 * yet: set these. Over 4 words in a row, where an input takes a word for each 4 bytes, or a threshold over 8, want
 * `profile = FAZGROND_WIDE`. */
static inline fazgrond_match_settings fazgrond_match_settings_for(uint32_t machines, uint32_t me) {
    fazgrond_match_settings settings;
    int at;
    settings.size = (uint32_t)sizeof settings;
    settings.me = me;
    settings.machines = machines;
    settings.input_size = 4;
    for (at = 0; at < FAZGROND_MACHINES; at++)
        settings.numbers[at] = 0;
    settings.draw = 0;
    settings.digest = 0;
    settings.opening = 0;
    settings.comers = 0;
    settings.epoch = 0;
    settings.base = 0;
    for (at = 0; at < FAZGROND_PLAYERS; at++) {
        settings.owners[at] = FAZGROND_NO_PLAYER;
        settings.delays[at] = 0;
        settings.masks[at] = 0xffffffff;
    }
    settings.profile = FAZGROND_GGPO;
    settings.threshold = 8;
    settings.limit = 1048576;
    settings.log = 16777216;
    settings.silent_after = FAZGROND_SILENT_AFTER;
    settings.notify_after = FAZGROND_NOTIFY_AFTER;
    settings.stalled_after = 0;
    settings.held_turns = 0;
    settings.carries = 0;
    settings.lasts = 0;
    settings.frame_time = 16667;
    return settings;
}

/* A match that has one number, which all its machines know: each of them could speak in the name of another. */
static inline void fazgrond_match_one_number(fazgrond_match_settings *settings, uint64_t number) {
    int at;
    for (at = 0; at < FAZGROND_MACHINES; at++)
        settings->numbers[at] = number;
}

/* Which setting is out of its range: `me`, `machines`, an owner, a delay or the threshold is over 255, `input_size` isn't 1 to 16,
 * `profile` is no profile, `held_turns` is over 8, or `frame_time` isn't 1 to 1000000. */
enum {
    FAZGROND_SETTING_ME = 1, FAZGROND_SETTING_MACHINES = 2, FAZGROND_SETTING_INPUT_SIZE = 3, FAZGROND_SETTING_OWNER = 4,
    FAZGROND_SETTING_DELAY = 5, FAZGROND_SETTING_PROFILE = 6, FAZGROND_SETTING_THRESHOLD = 7, FAZGROND_SETTING_HELD_TURNS = 8,
    FAZGROND_SETTING_FRAME_TIME = 9
};

/* A setting that doesn't fit. */
typedef struct fazgrond_unfit {
    uint32_t setting; /* FAZGROND_SETTING_ME and the like; 0: none of them */
    uint32_t player;  /* of an owner or a delay: whose it is, counted from 1; else 0 */
    uint32_t value;   /* what was given for it. With FAZGROND_INPUTS_TOO_LONG how many bytes the inputs of all players have together */
} fazgrond_unfit;

/* What a turn did. */
typedef struct fazgrond_turn {
    uint32_t is_running;   /* whether the match has begun. It never becomes 0 again */
    uint32_t has_played;   /* whether the session played a frame with the inputs of this turn */
    uint32_t has_gone_on;  /* whether an epoch ended, and the next one has begun */
    uint32_t has_requests; /* whether there are requests: carry them out, and the game has something new to draw */
    uint32_t frame;        /* the session's frame, in the epoch that it plays now */
    uint32_t handed;       /* how many words the session got that had waited for `held_turns` */
    int32_t failed;        /* what couldn't be done, and is tried again in the next turn: see fazgrond_match_turn; else 0 */
    int32_t waits_for;     /* why no frame was played with inputs that were given: FAZGROND_PREDICTION_THRESHOLD, or another answer of
                            * fazgrond_advance_frame or fazgrond_add_local_input; FAZGROND_INPUT_LENGTH if they have another length. 0 if
                            * one was played, or none was due: before the match begins, and where an epoch ended */
    uint32_t next_in;      /* in how many microseconds after this turn began the next one should begin: `frame_time`, up to a quarter
                            * longer while this machine is ahead of others, or 0 after an epoch's end. With this there is no need to
                            * wait for FAZGROND_TIME_SYNC too */
} fazgrond_turn;

/* SYNCHRONIZING: `machine` was heard; `count` of `total` steps are done. SYNCHRONIZED: it and this one have heard each other.
 * RUNNING: a play of each has come, and the match begins. DISCONNECTED: `player` has left.
 * TIME_SYNC: this machine is ahead: give no word for `frames_ahead` turns.
 * INTERRUPTED: `machine` is silent, and gone in `disconnect_in` milliseconds; that is 0 if `silent_after` is. RESUMED: it was
 * heard again.
 * LEFT: `machine` is gone for good. So is one that a mark has let in, and that isn't there twice `silent_after` after the epoch
 * began (10,000 milliseconds if that is 0), and any that hasn't played on `stalled_after` later, if that isn't 0. If it said bye, `bye` is
 * why (FAZGROND_BYE_LEAVES and the like), else 0.
 * DESYNC: `machine` has another state at the settled frame `frame`. It is the first such frame, as far as both have noted digests; or
 * the least that was found in 2 seconds. Told once of each machine in an epoch.
 * MISMATCH: `machine` means another match: `field` is 1 if it has another number of machines, 2 if other owners, 3 if another
 * digest or other `comers`, 4 if inputs of another number of words, 5 if its match alone goes on in epochs, or this one's, 6 if another
 * opening state. It may come in the middle of a match too.
 * DROPPED: the match is over here. Another machine regards this one as gone, or this one was cut off for too long. Told once in an
 * epoch.
 * RESTARTED: `machine` was opened anew. It can't come back into this match: its old opening is silent from now on, and gone by
 * that, and its new one waits until you open a match anew too. Told once of each machine.
 * STALLED: `machine` is heard, and holds this one up: it gives no words, or takes none, or stays in the epoch before. If it is to be
 * gone for that, it is in `disconnect_in` milliseconds, else that is 0. Told once, until it goes on.
 * REFUSED: what `machine` sealed was refused, or a word of it was: its program is broken, or it lies. Told as RESTARTED; the stats
 * count how often.
 * MISSING: `silent_after` has passed since the match was opened here, and `machine` isn't there yet. Told once. It is waited for, until
 * you disconnect it.
 * STRANGERS: so it is, and `count` hellos have come that aren't of this match: they are sealed by another number, are of another
 * version, or name this machine's place or one that there isn't. Told once.
 * CUT_OFF: of three machines or more this one hears too few, and so regards none of them as gone. The match is over here in
 * `disconnect_in` milliseconds, as DROPPED tells then, unless it hears more of them again. Told whenever that begins.
 * TWO_MARKS: `machine` knows another mark of `player` than this machine. The player's machine told it in two ways, or one of those that
 * tell of it lies: the epochs of the two may end in two ways. Told once of each machine.
 * bindings/numbers writes the list. */
enum {
    FAZGROND_SYNCHRONIZING = 1001, FAZGROND_SYNCHRONIZED = 1002, FAZGROND_RUNNING = 1003, FAZGROND_DISCONNECTED = 1004,
    FAZGROND_TIME_SYNC = 1005, FAZGROND_INTERRUPTED = 1006, FAZGROND_RESUMED = 1007, FAZGROND_LEFT = 1101, FAZGROND_DESYNC = 1102,
    FAZGROND_MISMATCH = 1103, FAZGROND_DROPPED = 1104, FAZGROND_RESTARTED = 1105, FAZGROND_STALLED = 1106,
    FAZGROND_REFUSED = 1107, FAZGROND_MISSING = 1108, FAZGROND_CUT_OFF = 1109, FAZGROND_STRANGERS = 1110,
    FAZGROND_TWO_MARKS = 1111
};

/* What an event doesn't say is 0. */
typedef struct fazgrond_event {
    uint32_t code;
    uint32_t machine;
    uint32_t player;
    uint32_t count;
    uint32_t total;
    uint32_t frames_ahead;
    uint32_t disconnect_in;
    uint32_t frame;
    uint32_t field;
    uint32_t bye;
} fazgrond_event;

/* Why a machine says bye: it leaves, it plays another state than the others, or it can't go on. From FAZGROND_BYE_OWN to 255 they are the
 * program's own. The library tells them, and does nothing else by them. */
enum { FAZGROND_BYE_LEAVES = 1, FAZGROND_BYE_DESYNC = 2, FAZGROND_BYE_ERROR = 3, FAZGROND_BYE_OWN = 16 };

/* What was counted and measured of the datagrams between this machine and another. */
typedef struct fazgrond_stats {
    uint32_t is_measured;        /* whether the round trip was measured */
    uint32_t round_trip;         /* in milliseconds */
    uint32_t sent;
    uint32_t received;
    uint32_t lost;               /* or late */
    uint32_t words_queued;       /* words that it hasn't said that it has, at most 140 of each player; 0 if nothing is sent to it */
    int32_t frames_behind;       /* by how many frames this machine is behind the other: negative if it is ahead */
    int32_t their_frames_behind; /* and the other, as it says, behind this one */
    uint32_t refused;            /* how many datagrams that it sealed were refused, or had words that were */
    uint32_t dropped;            /* how many of its datagrams called this machine gone */
    uint32_t restarted;          /* whether it was opened anew in the middle of the match */
} fazgrond_stats;

/* How the epoch opened that the session plays now: the same at all machines, but for `stayed`. */
typedef struct fazgrond_epoch_now {
    uint64_t epoch;                     /* its number: 0 is the first one, and any other has a number of 64 bits of its own */
    uint64_t base;                      /* how many frames of the match came before it. With the session's frame it makes the match's */
    uint32_t machines;                  /* how many there are: the highest number that a machine in it has, and one */
    uint32_t threshold;                 /* as in the settings */
    uint32_t owners[FAZGROND_PLAYERS];  /* of each player, player 1 first, as in the settings */
    uint32_t delays[FAZGROND_PLAYERS];  /* of each player up to the last one. What is behind it has no meaning */
    uint32_t stayed[FAZGROND_MACHINES]; /* of each machine whether it is in this epoch and was in the one before: 0 as well if it has
                                         * come in with this epoch, and for all in the epoch with which this machine opened */
} fazgrond_epoch_now;

/* What is to be otherwise in the next epoch. Begin with fazgrond_mark_for. */
typedef struct fazgrond_mark {
    uint32_t size;                     /* sizeof(fazgrond_mark) */
    uint32_t threshold;                /* the new one, 1 to 15; 0: as before */
    uint64_t ticket;                   /* of the machine that comes: see fazgrond_ticket. Of no meaning if none comes */
    uint32_t comes[FAZGROND_PLAYERS];  /* 1 for each player that the machine that comes is to own, player 1 first, else 0. If all are
                                        * 0, no machine comes. Where a player isn't nobody's, the lowest one that is takes its place.
                                        * For fazgrond_peer_mark, of an input of several words its first one is named */
    uint32_t delays[FAZGROND_PLAYERS]; /* each player's new delay, 0 to 8, or FAZGROND_AS_BEFORE */
} fazgrond_mark;

/* A mark that changes nothing: the frames begin anew, and that is all. */
static inline fazgrond_mark fazgrond_mark_for(void) {
    fazgrond_mark mark;
    int at;
    mark.size = (uint32_t)sizeof mark;
    mark.threshold = 0;
    mark.ticket = 0;
    for (at = 0; at < FAZGROND_PLAYERS; at++) {
        mark.comes[at] = 0;
        mark.delays[at] = FAZGROND_AS_BEFORE;
    }
    return mark;
}

/* The ticket by which a machine with this name, a number of your choice, may come to a match with these `comers`: its lower half is the
 * name, and nobody can make the upper one without `comers`. So let all machines of the match know that number, drawn at random and not
 * 0, and nobody else. A machine that lies can let another in by it. With `comers` 0 any ticket is good. */
uint64_t fazgrond_ticket(uint64_t comers, uint32_t name);

/* Opens a session, and the match that it plays. Before the first request the game has its opening state as the current one and in slot
 * 0. If the handle is open, what it holds is closed once the new one is there; if the new one is refused, the old one stays.
 * `why` is written in any case. It says which setting doesn't fit by FAZGROND_OUT_OF_RANGE and FAZGROND_INPUTS_TOO_LONG; by all other
 * answers its members are 0.
 * FAZGROND_PLAYER_OUT_OF_RANGE: there is no player, or there are more words in a row than the profile allows.
 * FAZGROND_INVALID_REQUEST: `me` owns no player; a delay, the threshold, `limit` or `log` is out of the session's range; or the draw is 0.
 * FAZGROND_INVALID_MACHINE: too few or too many machines, or `me` is none of them, though it owns a player.
 * FAZGROND_INVALID_PLAYER: a player before the last one has no owner among the machines.
 * FAZGROND_NO_NUMBER: the number with another machine is 0. With `lasts`, if nobody owns a player, also that with the lowest machine that
 * isn't there.
 * FAZGROND_OTHER_VERSION: the settings are of another version's header. */
int32_t fazgrond_match_open(fazgrond_session *session, const fazgrond_match_settings *settings, fazgrond_unfit *why);

/* Takes a datagram that came to the program's socket, from wherever and however often. The session gets the inputs in it, or they wait
 * beside it. A refused datagram, by a code from 301 on, changes nothing but what is counted and told of its sender: the program can go
 * on without a look at the answer. May be called before the session's requests are taken. */
int32_t fazgrond_match_receive(fazgrond_session *session, const uint8_t *bytes, size_t length, uint32_t now);

/* A turn: machines that were silent for too long are gone, the match begins once all machines are there, inputs that have waited long
 * enough go to the session, and an epoch that is over ends. Then the session plays a frame, if the match has begun and no epoch ended
 * in this turn. Leaves requests.
 *
 * `inputs` are those of this machine's players, one after another in the order of the players, `input_size` bytes each. They count for the
 * session's frame and the delay. If an epoch gives this machine more or fewer players, the inputs are longer or shorter from then on:
 * fazgrond_match_epoch says whose players they are. If the turn says `has_played`, these inputs count. Else give them, or newer ones, in
 * the next turn; but where `waits_for` is FAZGROND_NO_MEMORY or FAZGROND_LOG_FULL the session may have taken them already, and of a frame
 * the first ones that it took count. Where no frame is played, as with a `length` of 0, the session rolls back where that is due, so
 * that the game shows what others have pressed.
 *
 * FAZGROND_PENDING: requests weren't all taken. By this and by FAZGROND_IS_CLOSED nothing has changed, and no turn was taken. Else the
 * answer is FAZGROND_OK, and what couldn't be done in the turn stands in `failed`; the next turn tries it again:
 * FAZGROND_LOG_FULL, FAZGROND_NO_MEMORY: there is no room for inputs that wait, for a player who is to leave, or for the next epoch.
 * FAZGROND_JOBS_OUT: the epoch is over, and jobs are out: graft or forget them all.
 * FAZGROND_OTHER_SESSION: the session was told of other machines past the match, which is over for this machine.
 * Others are those of fazgrond_match_open, for the next epoch; by FAZGROND_INVALID_REQUEST the others go on without this machine, since
 * it has left for them. */
int32_t fazgrond_match_turn(fazgrond_session *session, const uint8_t *inputs, size_t length, uint32_t now, fazgrond_turn *turn);

/* The next datagram of this turn, in `out`, which has room for FAZGROND_DATAGRAM bytes, how long it is, and to which machine it goes.
 * FAZGROND_NOTHING once all have gone out. FAZGROND_TOO_SHORT: there is less room, and nothing has changed. */
int32_t fazgrond_match_next(fazgrond_session *session, uint8_t *machine, uint8_t *out, size_t room, size_t *length);

/* What happened, the oldest first; FAZGROND_NOTHING if no event waits. The oldest is dropped if more than 64 wait.
 * FAZGROND_DISCONNECTED tells of each word of an input. The number of a bye is lost if another machine's word of it comes first: then
 * FAZGROND_LEFT says 0. */
int32_t fazgrond_match_event(fazgrond_session *session, fazgrond_event *event);

/* Notes the game's own digest of the session's settled state, by which the machines see that they play alike: fazgrond_settled_slot says
 * where that state lies. Once in each turn, when the requests are carried out. */
int32_t fazgrond_match_note(fazgrond_session *session, uint64_t digest);

/* This machine leaves the match: from now on fazgrond_match_next gives datagrams that say bye, and why (FAZGROND_BYE_LEAVES and the
 * like). Inputs that are given from now on go to nobody. Since datagrams get lost, make some more turns before you close the session. */
int32_t fazgrond_match_leave(fazgrond_session *session, uint8_t why);

/* Regards a machine as gone, for good. Its players leave the session at a later turn, once it is known which inputs of them the
 * remaining machines have. FAZGROND_INVALID_MACHINE: there is no such machine. FAZGROND_OWN_MACHINE: it is this one. */
int32_t fazgrond_match_disconnect(fazgrond_session *session, uint8_t machine);

/* Puts a mark on the next input that a player of this machine gives, counted from 1: the frame for which that input counts is the last one
 * of the epoch. All inputs that wait go to the session first. If another machine's mark ends the epoch before, this one is forgotten: see
 * whether the next epoch is as you wanted it, and put the mark again if it isn't. Of each player the first mark of an epoch counts alone;
 * if several count in one frame, that of the lowest player does.
 * FAZGROND_NO_MARKS: the match doesn't go on in epochs.
 * FAZGROND_INVALID_PLAYER: it is no player of this machine.
 * FAZGROND_MARKED: it has a mark in this epoch already.
 * FAZGROND_INVALID_REQUEST: a number of the mark is over 255, and a delay also no FAZGROND_AS_BEFORE.
 * FAZGROND_GREAT_THRESHOLD, FAZGROND_LONG_DELAY, FAZGROND_OTHERS_DELAY, FAZGROND_WRONG_TICKET: all machines would find the mark void.
 * FAZGROND_LOG_FULL, FAZGROND_NO_MEMORY: the session has no room for the inputs that wait.
 * FAZGROND_OTHER_VERSION: the mark is of another version's header. */
int32_t fazgrond_match_mark(fazgrond_session *session, uint8_t player, const fazgrond_mark *mark);

/* What was counted and measured of a machine. FAZGROND_INVALID_MACHINE: there is no such machine. */
int32_t fazgrond_match_stats(fazgrond_session *session, uint8_t machine, fazgrond_stats *stats);

/* How the epoch opened that is played now. FAZGROND_NOTHING: the match doesn't go on in epochs. */
int32_t fazgrond_match_epoch(fazgrond_session *session, fazgrond_epoch_now *epoch);

/* If a frame of the game is dear, an input that comes late costs what it rolls back, on the thread that draws. With `held_turns` it
 * needn't: the match keeps the others' inputs beside the session as they come. Meanwhile another thread runs the frames that they make, as
 * a guess that is right (fazgrond_match_guess). Then they are handed over, and the rollback is a load.
 *
 * In each turn of the main loop: before fazgrond_match_turn graft the jobs that are done, and hand over the words that would make no
 * frame run again (fazgrond_match_rerun), and all of them if fazgrond_match_is_pressed says 1. The turn hands over itself what has
 * waited for `held_turns` of them. After the requests are carried out, make a guess with the words that still wait.
 *
 * The words that wait, in the order in which they came, as FAZGROND_REMOTE entries: fills `out`, which has room for so many, and says how
 * many it wrote. 0 if the session plays no match. */
size_t fazgrond_match_waiting(fazgrond_session *session, fazgrond_entry *out, size_t room);

/* How many frames up to the current one the session would have to run again, if the first `count` words that wait were handed over, or
 * all if there are fewer. FAZGROND_INVALID_REQUEST if they are none. */
int32_t fazgrond_match_rerun(fazgrond_session *session, uint32_t count, uint32_t *frames);

/* Whether the game would stand without the words that wait: `flag` is 1 if some wait, and once the session has come to its next frame, it
 * would answer FAZGROND_PREDICTION_THRESHOLD to an input, unless it is given more; else 0. */
int32_t fazgrond_match_is_pressed(fazgrond_session *session, uint32_t *flag);

/* A guess with all words that wait, of several players too: leaves the requests of a job, as fazgrond_guess does, and all that is said
 * there holds. FAZGROND_NOTHING if all frames up to `until` are kept already. FAZGROND_INVALID_REQUEST if no word waits, or `until` is
 * more than 24 frames past the settled one. */
int32_t fazgrond_match_guess(fazgrond_session *session, uint32_t until, uint32_t *job);

/* Hands the first `count` words that wait over to the session, or all if there are fewer: the next turn that plays a frame rolls back for
 * them. If it is refused, nothing is changed. */
int32_t fazgrond_match_hand_over(fazgrond_session *session, uint32_t count);

/* The `input_size` bytes of a player's input in a row. The player is counted from 0 here, as the places of a list. The bytes are as the
 * player's machine gave them to fazgrond_match_turn, since words are little-endian on all platforms that the library is built for. If the
 * player has left, they are 0, and bit `player * ((input_size + 3) / 4)` of `gone` is set. The pointer is into the row. */
static inline const uint8_t *fazgrond_input_of(const fazgrond_row *row, uint32_t player, uint32_t input_size) {
    return (const uint8_t *)&row->words[player * ((input_size + 3) / 4)];
}

/* ---- Peers: the older way to play a match over a network, which goes in 0.4.0.
 *
 * A peer is the network of a match at one machine: who has which words, who is gone, what to send. It has no socket, no clock and
 * no game: it makes and takes datagrams, and stands beside the session that plays. Each call that needs the session is lent it.
 *
 * A turn, some 60 times a second:
 *   fazgrond_peer_receive for each datagram that came, then fazgrond_peer_poll;
 *   fazgrond_peer_is_running: until it says 1, give no words, and skip the next two lines;
 *   fazgrond_add_local_input for each player of this machine; if all are accepted, fazgrond_advance_frame, and else, if
 *   fazgrond_has_news says 1, fazgrond_synchronize_input. Then carry out the requests;
 *   fazgrond_peer_event until there is none, and fazgrond_peer_send for each other machine. If the peer carries, then
 *   fazgrond_peer_send_more until there is nothing.
 *
 * Always give a peer the session that it was opened with. The peer alone tells that session of the other machines: a program that
 * calls fazgrond_remote_input or fazgrond_disconnect_player itself ends the match for this machine, since from then on each call
 * that takes both answers FAZGROND_OTHER_SESSION. So does a session with other settings, with other numbers of words, or from
 * which somebody has left who hasn't left the match. Two sessions of which all this is the same aren't told apart.
 * Everything else is the session's own and works beside a peer as without one: guesses and grafts, claims, limits of slots, the
 * log.
 *
 * `now` is this machine's clock in milliseconds, from a moment of its own choice. It may wrap, and it may jump: time that goes
 * back counts as none, and a leap forwards alone makes nobody silent, since whoever is gone for its silence has left ten of this
 * machine's clocks unanswered. Give the same clock to all calls of a peer. */

/* A peer, in the game's memory, as a fazgrond_session. Begin with FAZGROND_CLOSED. */
typedef struct fazgrond_peer {
    uint8_t full;
    void *at;
} fazgrond_peer;

/* The players, limits and masks of the session are the same at each machine, and its local players are those that `me` owns; so
 * are `digest`, `opening`, `comers`, `machines`, `owners` and `words`, and the number of each two machines at both of them. Begin with
 * fazgrond_match_for, so that members which a later version adds have a value too.
 *
 * The draw: 64 bits of the system's source of random bits (getrandom, BCryptGenRandom or the like), drawn anew for each opening
 * of a peer, and never 0. Nothing has to be agreed on for it: machines tell each other theirs, and by them what was sent in an
 * earlier opening of the same match isn't heard in this one. It has to be a new one each time. If a draw comes again, whoever
 * recorded the earlier opening can play it into this one; and to the other machines two openings with one draw are one, which
 * has forgotten what it had told them. */
typedef struct fazgrond_match {
    uint32_t size;                       /* sizeof(fazgrond_match) */
    uint64_t numbers[FAZGROND_MACHINES]; /* with each machine a number that only these two know, 64 random bits, and never 0; that of
                                          * `me` is not read. The same in all places: the match's number */
    uint64_t draw;                       /* drawn for this opening: not 0 */
    uint64_t digest;                     /* of all else that has to be alike at all machines, but for the opening state */
    uint64_t opening;                    /* of the opening state: compared before the match begins. 0 if you have none */
    uint64_t comers;                     /* who may come to a match that goes on: see fazgrond_ticket. 0: anybody whom a mark has
                                          * come. Of no meaning in a match that doesn't go on */
    uint32_t me;                         /* which machine this is */
    uint32_t machines;                   /* how many there are, 2 to 8 */
    uint32_t owners[FAZGROND_PLAYERS];   /* the machine of each player, player 1 first; FAZGROND_NO_PLAYER if there is none */
    uint32_t silent_after;               /* milliseconds after which a machine is gone that answers nothing, unless
                                          * FAZGROND_CUT_OFF is told. 0: it never is, so the match waits for it until you
                                          * disconnect it, and FAZGROND_MISSING isn't told */
    uint32_t notify_after;               /* milliseconds after which FAZGROND_INTERRUPTED tells of a machine of which nothing
                                          * comes, and FAZGROND_STALLED of one that holds this one up; 0: neither is told */
    uint32_t stalled_after;              /* milliseconds after which a machine is gone that answers, and holds this one up since
                                          * it gives no words, unless it hasn't begun; `silent_after` later if it takes none, or
                                          * if another may keep it. 0: it never is, and the match may stand for good */
    uint32_t words;                      /* of how many words a player's input is, 1 to 4: so many of the session's players in a row
                                          * are one player of the match, with one owner. They leave together, and of no frame are some
                                          * of their words taken and others not. Give them one delay, in the session, in epochs and in marks */
    uint32_t held_turns;                 /* for how many turns at most the others' words wait beside the session, 1 to 8: see "Words
                                          * held back" below. 0: the session is given them as they come. No machine sees which of
                                          * them another one has */
} fazgrond_match;

/* A match of so many machines, of which this one is `me`, and to which anybody may come. No player has an owner, and there are no
 * numbers and no draw yet: set these. */
static inline fazgrond_match fazgrond_match_for(uint32_t machines, uint32_t me) {
    fazgrond_match match;
    int at;
    match.size = (uint32_t)sizeof match;
    match.draw = 0;
    match.digest = 0;
    match.opening = 0;
    match.comers = 0;
    match.me = me;
    match.machines = machines;
    for (at = 0; at < FAZGROND_MACHINES; at++)
        match.numbers[at] = 0;
    for (at = 0; at < FAZGROND_PLAYERS; at++)
        match.owners[at] = FAZGROND_NO_PLAYER;
    match.silent_after = FAZGROND_SILENT_AFTER;
    match.notify_after = FAZGROND_NOTIFY_AFTER;
    match.stalled_after = 0;
    match.words = 1;
    match.held_turns = 0;
    return match;
}

/* A match that has one number, which all its machines know: each of them could speak in the name of another. */
static inline void fazgrond_one_number(fazgrond_match *match, uint64_t number) {
    int at;
    for (at = 0; at < FAZGROND_MACHINES; at++)
        match->numbers[at] = number;
}

/* Opens a peer beside an open session, which stays the game's: close each of the two when you need it no more. Of the session
 * nothing changes. If the peer's handle is open, its peer is closed once the new one is there; if the new one is refused, the old
 * one stays. One session can get a new peer only while it has no word of another machine's player.
 * FAZGROND_INVALID_MACHINE: too few or too many machines, or `me` is none of them; or `words` is not 1 to 4.
 * FAZGROND_TWO_OWNERS: the words of an input have two owners, or some of them have none.
 * FAZGROND_TOO_MANY_WORDS: an input that a machine owns has words past the eighth place of `owners`.
 * FAZGROND_NO_NUMBER: the number with another machine is 0.
 * FAZGROND_UNLIKE_DELAYS: the words of an input of `me` have other delays than each other in the session.
 * FAZGROND_INVALID_PLAYER: the session's players are not those that machines own, or its local ones not those of `me`.
 * FAZGROND_INVALID_REQUEST: the draw is 0; or `me`, `machines` or an owner is over 255, or `held_turns` over 8; or the session has
 * words of another machine's player already, or a player has left it. */
int32_t fazgrond_peer_open(fazgrond_peer *peer, fazgrond_session *session, const fazgrond_match *match);

/* The same of a peer that carries, for a match of three machines or more: where the line between two of them breaks, a third one that
 * both hear hands their datagrams on, so nobody is gone for it. Call fazgrond_peer_send_more after fazgrond_peer_send, in each turn;
 * the latter is FAZGROND_NOTHING too if what it has for a machine is carried, or goes with what is. A machine carries with those
 * that were opened so too. Of two machines each says so, and that is all. */
int32_t fazgrond_peer_open_carrying(fazgrond_peer *peer, fazgrond_session *session, const fazgrond_match *match);

/* Closes it. Nothing happens if it is closed. The session stays open. */
static inline void fazgrond_peer_close(fazgrond_peer *peer) {
    fazgrond_close((fazgrond_session *)(void *)peer);
}

/* Takes a datagram that came, and gives the session the words in it. What is refused, by a code from 301 on, has changed nothing
 * but what is counted and told of its sender. May be called before the session's requests are taken. */
int32_t fazgrond_peer_receive(fazgrond_peer *peer, fazgrond_session *session, const uint8_t *bytes, size_t length,
                              uint32_t now);

/* Once a turn, before the session's own calls: machines that were silent too long are gone, players of who is gone leave the
 * session, and the match begins once a play of each machine has come. FAZGROND_LOG_FULL or FAZGROND_NO_MEMORY if a player who is
 * to leave is still there: all else is done, and the next poll tries again. May be called before the session's requests are
 * taken. */
int32_t fazgrond_peer_poll(fazgrond_peer *peer, fazgrond_session *session, uint32_t now);

/* Whether the match has begun: `flag` is 1 if so, else 0. Ask after fazgrond_peer_poll, and give the session no words before it is
 * 1: the session itself would take them, and run ahead of machines that aren't there yet. It never becomes 0 again. */
int32_t fazgrond_peer_is_running(fazgrond_peer *peer, uint32_t *flag);

/* The datagram to send to a machine in this turn, in `out`, which has room for FAZGROND_DATAGRAM bytes, and how long it is. If
 * there is less room, FAZGROND_TOO_SHORT, and nothing was sent. FAZGROND_NOTHING: the machine is gone, or this one, or none. */
int32_t fazgrond_peer_send(fazgrond_peer *peer, fazgrond_session *session, uint8_t machine, uint32_t now, uint8_t *out,
                           size_t room, size_t *length);

/* Once fazgrond_peer_send was called for each other machine, what a peer that carries has to send besides in this turn: a datagram, and
 * to which machine it goes. It says who hears whom, or holds what machines send each other over this one. Call it until it is
 * FAZGROND_NOTHING: of a peer that was opened by fazgrond_peer_open it always is. The room, as for fazgrond_peer_send. */
int32_t fazgrond_peer_send_more(fazgrond_peer *peer, uint8_t *machine, uint8_t *out, size_t room, size_t *length);

/* The datagram that says to a machine that this one leaves the match, and why (FAZGROND_BYE_LEAVES and the like): another one for each
 * machine. Send each a few times. A peer that carries has it carried too, if the line is broken: so call fazgrond_peer_send_more after it.
 * FAZGROND_NOTHING: the machine is gone, or this one, or none, or it and this one haven't heard each other. */
int32_t fazgrond_peer_bye(fazgrond_peer *peer, uint8_t machine, uint8_t why, uint8_t *out, size_t room, size_t *length);

/* Regards a machine as gone, for good. Its players leave the session at a later fazgrond_peer_poll, once it is known which words
 * of them the remaining machines have. */
int32_t fazgrond_peer_disconnect(fazgrond_peer *peer, uint8_t machine);

/* Notes the game's own digest of the session's settled state, by which the machines see that they play alike:
 * fazgrond_settled_slot says where that state lies. If words are held back, another session isn't told apart here. */
int32_t fazgrond_peer_note_settled(fazgrond_peer *peer, fazgrond_session *session, uint64_t digest);

/* What happened, the oldest first; FAZGROND_NOTHING if no event waits. The oldest is dropped if more than 64 wait. */
int32_t fazgrond_peer_event(fazgrond_peer *peer, fazgrond_event *event);

/* What was counted and measured of a machine. */
int32_t fazgrond_peer_stats(fazgrond_peer *peer, uint8_t machine, fazgrond_stats *stats);

/* ---- Words held back. If a frame of the game is dear, a word that comes late costs what it rolls back, on the thread that draws. It
 * needn't. With `held_turns` in the match, the peer keeps the others' words beside the session as they come, and acknowledges them.
 * Meanwhile another thread runs the frames that they make, as a guess that is right; then they are handed over, and the rollback is
 * a load.
 *
 * In a turn, after fazgrond_peer_poll: graft the jobs that are done; hand over the words that would make no frame run again
 * (fazgrond_peer_rerun), and all of them if fazgrond_peer_is_pressed says 1; call fazgrond_peer_hand_over_due. After the advance,
 * make a guess with those that still wait (fazgrond_peer_guess). docs/C.md has the loop.
 *
 * All calls here take at most what waits. If none does, or `held_turns` is 0, there is nothing to hand over, and no guess is made.
 * If the session isn't the one of the peer, they answer FAZGROND_OTHER_SESSION or what a guess does, and nothing is changed. With
 * words that wait, fazgrond_peer_receive, fazgrond_peer_poll and fazgrond_peer_send may answer FAZGROND_LOG_FULL or
 * FAZGROND_NO_MEMORY too: there is no room in the session for these words, and nothing is changed. */

/* The words that wait, in the order in which they came, as FAZGROND_REMOTE entries: fills `out`, which has room for so many, and
 * says how many it wrote. 0 if the peer is closed. */
size_t fazgrond_peer_waiting(fazgrond_peer *peer, fazgrond_entry *out, size_t room);

/* How many frames up to the current one the session would have to run again, if the first `count` words that wait were handed over,
 * or all if there are fewer. FAZGROND_INVALID_REQUEST if they are none. */
int32_t fazgrond_peer_rerun(fazgrond_peer *peer, fazgrond_session *session, uint32_t count, uint32_t *frames);

/* A guess with all words that wait, of several players too: leaves the requests of a job, as fazgrond_guess does, and all that is
 * said there holds. FAZGROND_NOTHING if all frames up to `until` are kept already. FAZGROND_INVALID_REQUEST if no word waits, or
 * `until` is more than 24 frames past the settled one. */
int32_t fazgrond_peer_guess(fazgrond_peer *peer, fazgrond_session *session, uint32_t until, uint32_t *job);

/* Hands the first `count` words that wait over to the session, or all if there are fewer: it takes them as any words of others, and
 * the next advance rolls back for them. If it is refused, nothing is changed. */
int32_t fazgrond_peer_hand_over(fazgrond_peer *peer, fazgrond_session *session, uint32_t count);

/* Once a turn: hands over the words that have waited for `held_turns` of these calls; `handed` is how many they were. If it is
 * refused, the turn doesn't count, and the next one tries it again. */
int32_t fazgrond_peer_hand_over_due(fazgrond_peer *peer, fazgrond_session *session, uint32_t *handed);

/* Whether the game would stand without the words that wait: `flag` is 1 if some wait, and once the session has come to its next
 * frame, it would answer FAZGROND_PREDICTION_THRESHOLD to a local word, unless it is given more; else 0. */
int32_t fazgrond_peer_is_pressed(fazgrond_peer *peer, fazgrond_session *session, uint32_t *flag);

/* ---- Epochs: a match that goes on with other machines, owners or delays. It is played in parts, its epochs. In each of them the
 * machines, the owners of the players, their input delays and the threshold stay the same. The frames of each begin at 0, so such a
 * match doesn't end at frame 1048576.
 *
 * An epoch ends by a mark, which a machine puts on the next word of one of its own players. The first settled row with a mark that
 * counts ends it; of several in that row, the mark of the lowest player counts. Frame 0 of the next epoch is the frame after that row.
 * All machines find the same end by themselves.
 *
 * A mark gives other delays to the players of the machine that puts it, gives another threshold, has somebody come, or changes
 * nothing: then the frames begin anew, and that is all. Whatever it says, the players of a machine that has left are nobody's in the next
 * epoch, and whoever comes may get them. Who comes gets the lowest number of a machine that nobody has. A player that gets another owner
 * has a delay of 2 frames, unless the mark says another one.
 *
 * A mark is void, as if it weren't there, if its threshold is over 15 or a delay over 8, if it gives a delay to a player of another
 * machine, if by it the words of an input have other delays than each other, or if somebody is to come with a ticket that isn't of the
 * match's `comers` (fazgrond_ticket). fazgrond_peer_mark puts none that would be void: those come of a program that is broken, or lies.
 * Of each player the first mark of an epoch counts alone, even if it is void.
 *
 * A turn of such a match:
 *   fazgrond_peer_receive for each datagram that came, then fazgrond_peer_poll;
 *   fazgrond_peer_is_running: until it says 1, give no words, and skip the next two lines;
 *   fazgrond_peer_go_on: if it is FAZGROND_OK, carry out the requests;
 *   local words, the advance and its requests, as in any match;
 *   fazgrond_peer_event until there is none. For each other machine of the epoch (fazgrond_epoch_has) fazgrond_peer_send, and then
 *   fazgrond_peer_send_before. Then fazgrond_peer_send_more until there is nothing. */

/* How an epoch opens: the same at all machines. Machines keep their numbers over all epochs, and a machine is in an epoch if it owns a
 * player there. All epochs of a match have the same players, and inputs of as many words. Begin with fazgrond_epoch_for. Who comes later
 * opens with what the others' fazgrond_peer_epoch says once its epoch has begun. */
typedef struct fazgrond_epoch {
    uint32_t size;                     /* sizeof(fazgrond_epoch) */
    uint32_t words;                    /* of how many words a player's input is, 1 to 4, as `words` of the match */
    uint32_t threshold;                /* that of its sessions */
    uint32_t machines;                 /* how many there are. It isn't read, since the owners say it */
    uint64_t id;                       /* which epoch it is: 0 is the first one, and any other has a number of 64 bits of its own */
    uint64_t base;                     /* how many frames of the match came before its first one */
    uint32_t owners[FAZGROND_PLAYERS]; /* the machine of each player, player 1 first; FAZGROND_NOBODY if nobody owns it now,
                                        * FAZGROND_NO_PLAYER if there is none */
    uint32_t delays[FAZGROND_PLAYERS]; /* by how many frames each player's words count later, 0 to 8 */
} fazgrond_epoch;

/* The first epoch of a match whose sessions have these settings: with its owners and the words of its inputs, and the settings'
 * threshold and delays. Settings have a delay for the machine's own players alone, and 0 for others. So if other machines have delays,
 * set those of their players: the epoch has to be the same at all machines. */
static inline fazgrond_epoch fazgrond_epoch_for(const fazgrond_match *match, const fazgrond_settings *settings) {
    fazgrond_epoch epoch;
    int at;
    epoch.size = (uint32_t)sizeof epoch;
    epoch.words = match->words;
    epoch.threshold = settings->threshold;
    epoch.machines = match->machines;
    epoch.id = 0;
    epoch.base = 0;
    for (at = 0; at < FAZGROND_PLAYERS; at++) {
        epoch.owners[at] = match->owners[at];
        epoch.delays[at] = settings->delays[at];
    }
    return epoch;
}

/* Whether a machine is in an epoch: 1 if it owns a player there, else 0. Send to those of which it is 1 in what fazgrond_peer_epoch says,
 * but not to `me`. A machine that has left, or never was there, has no address; the number of one that left may get another address
 * once somebody has come. */
static inline uint32_t fazgrond_epoch_has(const fazgrond_epoch *epoch, uint32_t machine) {
    int at;
    for (at = 0; at < FAZGROND_PLAYERS; at++)
        if (machine < FAZGROND_MACHINES && epoch->owners[at] == machine)
            return 1;
    return 0;
}

/* Opens a peer whose match goes on in epochs, beginning with this one. It carries, as one of fazgrond_peer_open_carrying. All machines of
 * a match are opened so, or none. Of the match `owners`, `machines` and `words` aren't read, since the epoch says them, but they have to be
 * 255 at most. Answers as fazgrond_peer_open, and these too.
 * FAZGROND_INVALID_REQUEST: the session's threshold, or a delay of its own players, isn't that of the epoch.
 * FAZGROND_UNLIKE_DELAYS: the words of an input have other delays than each other in the epoch.
 * FAZGROND_NO_NUMBER: if players are nobody's, the number with the lowest machine that isn't there is 0. Whoever comes gets it.
 * FAZGROND_OTHER_VERSION: the match or the epoch is of another version's header. */
int32_t fazgrond_peer_open_lasting(fazgrond_peer *peer, fazgrond_session *session, const fazgrond_match *match,
                                   const fazgrond_epoch *epoch);

/* How the epoch opened that is played now. At what frame of the whole match the session is: its base and fazgrond_frame, together.
 * FAZGROND_NOTHING: the match doesn't go on in epochs. */
int32_t fazgrond_peer_epoch(fazgrond_peer *peer, fazgrond_epoch *epoch);

/* Whether a machine is in this epoch and was in the one before: `flag` is 1 if so, else 0, as of one that has come in with this epoch. Of
 * the epoch with which the peer was opened it is 0 for all. FAZGROND_NOTHING: as above. */
int32_t fazgrond_peer_has_stayed(fazgrond_peer *peer, uint8_t machine, uint32_t *flag);

/* Puts a mark on the next word that this player gives, counted from 1. If another machine's mark ends the epoch before, it is forgotten:
 * see whether the next epoch is as you wanted it, and put the mark again if it isn't.
 * FAZGROND_NO_MARKS: the match doesn't go on in epochs.
 * FAZGROND_INVALID_PLAYER: it is no player of this machine, or not the first word of an input.
 * FAZGROND_MARKED: it has a mark in this epoch already.
 * FAZGROND_INVALID_REQUEST: a number of the mark is over 255, and a delay also no FAZGROND_AS_BEFORE.
 * FAZGROND_GREAT_THRESHOLD, FAZGROND_LONG_DELAY, FAZGROND_OTHERS_DELAY, FAZGROND_UNLIKE_DELAYS, FAZGROND_WRONG_TICKET: the mark would be
 * void.
 * FAZGROND_OTHER_SESSION: as in other calls that take both.
 * FAZGROND_OTHER_VERSION: the mark is of another version's header. */
int32_t fazgrond_peer_mark(fazgrond_peer *peer, fazgrond_session *session, uint8_t player, const fazgrond_mark *mark);

/* Goes on in the next epoch, if this one is over. Call it in each turn, after fazgrond_peer_poll and before the session is given words.
 * FAZGROND_NOTHING: this epoch isn't over, or the match doesn't go on in epochs.
 *
 * If it is FAZGROND_OK, the session is one that has begun anew at the end of the epoch, and the peer that of the next one. The words of
 * this machine's players that were given past the end are given again, and `frames` frames past it are run again: the session is at the
 * frame `frames`. All that is counted by frames begins anew with it: settled rows, confirmed words, the log.
 * It leaves requests, which are carried out as those of a rollback: the last ones of the old epoch, after which all slots are free but
 * slot 0, which has the state at the end, and then those of the frames that are run again.
 *
 * FAZGROND_JOBS_OUT: this epoch is over, and jobs are out, whose slots the next one gives out again. Have their threads end with them,
 * graft or forget them all, and call again.
 * FAZGROND_PENDING: the last requests of the epoch before weren't taken yet.
 * Other answers are those of fazgrond_open and fazgrond_peer_open; by FAZGROND_INVALID_REQUEST the others go on without this machine,
 * since it has left for them. If it isn't FAZGROND_OK, this epoch stays as it is, but that words held back may have been handed over. */
int32_t fazgrond_peer_go_on(fazgrond_peer *peer, fazgrond_session *session, uint32_t *frames);

/* What is to be sent to a machine in the epoch before, in each turn after fazgrond_peer_send for it: a datagram, as there. So who hasn't
 * come to this epoch yet is told how the one before ended, by others too. FAZGROND_NOTHING: there is nothing to send. */
int32_t fazgrond_peer_send_before(fazgrond_peer *peer, uint8_t machine, uint32_t now, uint8_t *out, size_t room,
                                  size_t *length);

/* ---- Spectators over a network: a viewer on another machine is sent the settled rows of a match by one of its machines, the
 * host. Each viewer has a line of its own with its host. `now` is each end's own clock, as a peer's. */

/* A host's end of a viewer's line, and the viewer's end, in the game's memory, as a fazgrond_session. Begin with
 * FAZGROND_CLOSED. */
typedef struct fazgrond_line {
    uint8_t full;
    void *at;
} fazgrond_line;

typedef struct fazgrond_viewer {
    uint8_t full;
    void *at;
} fazgrond_viewer;

/* The same at both ends, but for the draw and the time. */
typedef struct fazgrond_line_settings {
    uint64_t number;                   /* the line's own number: 64 random bits that only these two know. Not the match's */
    uint64_t draw;                     /* drawn for this opening of this end, as in the match: not 0 */
    uint64_t digest;                   /* as in the match */
    uint64_t opening;                  /* as in the match */
    uint32_t host;                     /* which machine of the match is watched, from 0 */
    uint32_t machines;                 /* as in the match */
    uint32_t owners[FAZGROND_PLAYERS]; /* as in the match */
    uint32_t silent_after;             /* milliseconds after which `is_silent` says that the other end answers nothing. 0: it
                                        * never says so */
} fazgrond_line_settings;

typedef struct fazgrond_line_state {
    uint32_t rows;       /* that the viewer has: at the host's end, that it said that it has */
    uint32_t settled;    /* the most rows that the host said to be settled: at the host's end, that the viewer was told */
    uint32_t silence;    /* milliseconds since the other end answered last, if both have heard each other; else 0 */
    uint32_t is_playing; /* whether both have heard each other */
    uint32_t has_ended;  /* whether one of the two has said bye */
    uint32_t is_silent;  /* whether the other end has answered nothing for longer than `silent_after`: close the line then. If it
                          * was opened anew, it waits until this one is too */
} fazgrond_line_state;

/* Opens a line at its host, as fazgrond_open a session. FAZGROND_INVALID_MACHINE: too few or too many machines, or `host` is none
 * of them. FAZGROND_INVALID_REQUEST: the draw is 0, or `host`, `machines` or an owner is over 255. */
int32_t fazgrond_line_open(fazgrond_line *line, const fazgrond_line_settings *settings);

/* Closes it. Nothing happens if it is closed. */
static inline void fazgrond_line_close(fazgrond_line *line) {
    fazgrond_close((fazgrond_session *)(void *)line);
}

/* Takes a datagram that came of the viewer. What is refused, by a code from 301 on, has changed nothing, but that after
 * FAZGROND_MISMATCHED no rows are sent: until a hello of the viewer means this match. */
int32_t fazgrond_line_receive(fazgrond_line *line, const uint8_t *bytes, size_t length, uint32_t now);

/* The datagram to send to the viewer in this turn, as fazgrond_peer_send: settled rows of the session from those on that the
 * viewer has, as many as fit. Always give it the same session. FAZGROND_NOTHING once the line has ended. */
int32_t fazgrond_line_send(fazgrond_line *line, fazgrond_session *session, uint32_t now, uint8_t *out, size_t room,
                           size_t *length);

/* In a match that goes on in epochs a line is of one epoch, since rows are counted from its first frame on. Once the next one has begun,
 * this call makes the datagrams of the line of the epoch before, of rows of its session, as fazgrond_line_send does of the one that is
 * played; open another line for the new epoch. Rows are settled by rollbacks alone: to have all of the epoch told, call
 * fazgrond_synchronize_input before fazgrond_peer_go_on if fazgrond_has_news, and carry out its requests, and hold no words back.
 * FAZGROND_NOTHING too if there is no epoch before, or nobody can be in it any more. */
int32_t fazgrond_line_send_before(fazgrond_line *line, fazgrond_peer *peer, uint32_t now, uint8_t *out, size_t room, size_t *length);

/* The datagram that says that the host leaves the viewer: the line has ended. Send it a few times. FAZGROND_NOTHING: the two
 * haven't heard each other, so that nobody is to be told; the line has ended all the same. */
int32_t fazgrond_line_bye(fazgrond_line *line, uint8_t *out, size_t room, size_t *length);

/* How far the two ends are. */
int32_t fazgrond_line_look(fazgrond_line *line, uint32_t now, fazgrond_line_state *state);

/* Opens a viewer, as fazgrond_line_open its host's end. */
int32_t fazgrond_viewer_open(fazgrond_viewer *viewer, const fazgrond_line_settings *settings);

/* Closes it. Nothing happens if it is closed. */
static inline void fazgrond_viewer_close(fazgrond_viewer *viewer) {
    fazgrond_close((fazgrond_session *)(void *)viewer);
}

/* Takes a datagram that came of the host, as fazgrond_line_receive. `rows` is how many rows were taken from it: 64 at most may
 * wait to be played, and the others come again. */
int32_t fazgrond_viewer_receive(fazgrond_viewer *viewer, const uint8_t *bytes, size_t length, uint32_t now, uint32_t *rows);

/* The datagram to send to the host in this turn, as fazgrond_line_send. */
int32_t fazgrond_viewer_send(fazgrond_viewer *viewer, uint32_t now, uint8_t *out, size_t room, size_t *length);

/* The datagram that says that the viewer leaves: the line has ended. Send it a few times. FAZGROND_NOTHING: the two haven't heard
 * each other, so that nobody is to be told; the line has ended all the same. */
int32_t fazgrond_viewer_bye(fazgrond_viewer *viewer, uint8_t *out, size_t room, size_t *length);

/* The next row that is to be played, from frame 0 on; FAZGROND_NOTHING if none is there. */
int32_t fazgrond_viewer_row(fazgrond_viewer *viewer, fazgrond_row *row);

/* How far the two ends are. */
int32_t fazgrond_viewer_look(fazgrond_viewer *viewer, uint32_t now, fazgrond_line_state *state);

/* ---- What another player may press next: which guesses (fazgrond_guess) are worth making, by what was seen of the player. */

/* The habits of a player, in the game's memory, as a fazgrond_session. Begin with FAZGROND_CLOSED. */
typedef struct fazgrond_habits {
    uint8_t full;
    void *at;
} fazgrond_habits;

/* The most words of a guess. */
#define FAZGROND_GUESS_WORDS 24

typedef struct fazgrond_foreseen {
    uint32_t count;                       /* how many words they are */
    uint32_t worth;                       /* the chance that they come, of 32768, times the frames from the last of them on */
    uint32_t words[FAZGROND_GUESS_WORDS]; /* the words for the next frames; the last of them is held on. Behind them are zeros */
} fazgrond_foreseen;

/* Opens the habits of a player of whom nothing was seen yet. Each of `parts` has those bits of a word that belong together: the
 * four of a cross, one for each button, those of an axis. All other bits belong together as one part more; with no parts a word
 * is one as a whole. FAZGROND_INVALID_REQUEST: they are more than 32, one has no bit, or two have a bit in common. `likely` are
 * words that the player will probably give, though none is needed: the last 8 count. A list of none needs a pointer too. */
int32_t fazgrond_habits_open(fazgrond_habits *habits, const uint32_t *parts, size_t part_count, const uint32_t *likely,
                             size_t likely_count);

/* Closes them. Nothing happens if they are closed. */
static inline void fazgrond_habits_close(fazgrond_habits *habits) {
    fazgrond_close((fazgrond_session *)(void *)habits);
}

/* Notes the player's next confirmed word. Tell each once, in the order of their frames. */
int32_t fazgrond_habits_note(fazgrond_habits *habits, uint32_t word);

/* The best guesses of the player's next words, best first, if so many frames have no word of it yet (the current frame, less
 * fazgrond_confirmed); of these the first 16 count. They are made of whole words or of their parts: of what foresaw more of the
 * player's last changes. Fills `out`, which has room for so many, and says how many it wrote: 32 at most, and 0 if the habits are
 * closed. */
size_t fazgrond_habits_guesses(fazgrond_habits *habits, uint32_t frames, fazgrond_foreseen *out, size_t room);

/* ---- A state in pieces: before a match, bytes that the others don't have (an opening state, save RAM, options) go to them over
 * the match's own sockets, by datagrams that may be lost, late, double and in any order. Who has the state opens a giver, who
 * needs it a taker. All that they send is sealed by the number that the two machines share (one of fazgrond_match's `numbers`),
 * and names its sender, a machine of the match. */

/* Who gives a state, and who takes one, in the game's memory, as a fazgrond_session. Begin with FAZGROND_CLOSED. */
typedef struct fazgrond_giver {
    uint8_t full;
    void *at;
} fazgrond_giver;

typedef struct fazgrond_taker {
    uint8_t full;
    void *at;
} fazgrond_taker;

/* The most bytes of a piece: each piece of a state has so many, but for the last one. And the most pieces that one datagram asks
 * for. */
#define FAZGROND_PIECE 1024
#define FAZGROND_ASKED 16

#define FAZGROND_DIGEST_BYTES 32

/* What a state is called. Who takes it has to know that from somebody it believes: what it has in the end are bytes with this
 * digest, whoever sent them. */
typedef struct fazgrond_state_name {
    uint64_t which;  /* which state it is: a number of your choice for each that the machines exchange */
    uint32_t frame;  /* the frame that it is of, 0 before the match */
    uint32_t length; /* how many bytes it has */
    uint8_t digest[FAZGROND_DIGEST_BYTES]; /* their SHA-256 */
} fazgrond_state_name;

/* AGAIN: the piece was there already. TAKEN: it is there now, and others are missing. WHOLE: it was the last one, and the state
 * has its digest. WRONG: it was the last one, and the state has another digest, so that all pieces are missing again. If one
 * machine gave them all, `machine` is that one, and no piece of it is taken any more (FAZGROND_BARRED). Else it is
 * FAZGROND_NO_MACHINE, and pieces of the sender of the last one are taken alone from now on, as by fazgrond_taker_take_of. */
enum { FAZGROND_PIECE_AGAIN = 1, FAZGROND_PIECE_TAKEN = 2, FAZGROND_STATE_WHOLE = 3, FAZGROND_STATE_WRONG = 4 };

#define FAZGROND_NO_MACHINE 255

typedef struct fazgrond_heard {
    uint32_t what;
    uint32_t machine; /* FAZGROND_NO_MACHINE where none is named */
} fazgrond_heard;

typedef struct fazgrond_taker_state {
    size_t pieces; /* how many the state has */
    size_t left;   /* how many are missing. 0: it is whole */
} fazgrond_taker_state;

/* Opens a giver of a copy of these bytes, as fazgrond_open a session. FAZGROND_INVALID_REQUEST: there are none.
 * FAZGROND_TOO_LONG: 2^32 or more. */
int32_t fazgrond_giver_open(fazgrond_giver *giver, uint64_t which, uint32_t frame, const uint8_t *bytes, size_t length);

/* Closes it. Nothing happens if it is closed. */
static inline void fazgrond_giver_close(fazgrond_giver *giver) {
    fazgrond_close((fazgrond_session *)(void *)giver);
}

/* What its state is called: tell it those who are to take it. */
int32_t fazgrond_giver_name(fazgrond_giver *giver, fazgrond_state_name *name);

/* Its bytes, in `out`, which has room for all of them; else FAZGROND_TOO_SHORT. */
int32_t fazgrond_giver_bytes(fazgrond_giver *giver, uint8_t *out, size_t room);

/* The datagram to send for the piece that `bytes` ask for at this place of their list, from 0, in `out`, which has room for
 * FAZGROND_DATAGRAM bytes, and how long it is. `number` is the one that this machine shares with who asks, and `me` is this
 * machine. Call it with 0, 1 and so on, as often as an ask is to be answered at most, and send each to where the machine that
 * fazgrond_state_sender names has its address: never to where the ask came from. FAZGROND_NOTHING: they ask for fewer pieces, or
 * for one that the state hasn't. FAZGROND_OTHER_STATE: for another state. Nothing is kept of who asked. */
int32_t fazgrond_giver_reply(fazgrond_giver *giver, uint64_t number, uint8_t me, const uint8_t *bytes, size_t length, size_t place,
                             uint8_t *out, size_t room, size_t *size);

/* Opens a taker of the state of this name, as fazgrond_open a session. All memory is taken now: room for its bytes, and two bytes
 * a piece. FAZGROND_TOO_LONG: it has more bytes than `limit`, and no memory was taken. FAZGROND_INVALID_REQUEST: it has none. */
int32_t fazgrond_taker_open(fazgrond_taker *taker, const fazgrond_state_name *name, uint32_t limit);

/* Closes it. Nothing happens if it is closed. */
static inline void fazgrond_taker_close(fazgrond_taker *taker) {
    fazgrond_close((fazgrond_session *)(void *)taker);
}

/* What its state is called. */
int32_t fazgrond_taker_name(fazgrond_taker *taker, fazgrond_state_name *name);

/* How many of the pieces are there. */
int32_t fazgrond_taker_look(fazgrond_taker *taker, fazgrond_taker_state *state);

/* The datagram that asks for the next missing pieces, `most` at most and no more than FAZGROND_ASKED, as fazgrond_giver_reply its
 * own. Once or a few times a turn, to one machine of which fazgrond_taker_takes_of says 1. It goes on behind those that were
 * asked for last, and begins with the first one again once the last was. FAZGROND_NOTHING: none is missing. */
int32_t fazgrond_taker_send(fazgrond_taker *taker, uint64_t number, uint8_t me, size_t most, uint8_t *out, size_t room,
                            size_t *size);

/* Takes a datagram that came, sealed by the number that this machine shares with the sender, and says what came of it. What is
 * refused has changed nothing. FAZGROND_INVALID_MACHINE: no machine of a match sent it. FAZGROND_BARRED, FAZGROND_NOT_NOW: no
 * pieces of the sender are taken. */
int32_t fazgrond_taker_receive(fazgrond_taker *taker, uint64_t number, const uint8_t *bytes, size_t length, fazgrond_heard *heard);

/* Whether pieces of a machine are taken for now: `flag` is 1 if so, else 0. FAZGROND_INVALID_MACHINE: it is FAZGROND_MACHINES or
 * more. */
int32_t fazgrond_taker_takes_of(fazgrond_taker *taker, uint8_t machine, uint32_t *flag);

/* From now on pieces of this machine alone are taken, or with FAZGROND_NO_MACHINE of each that didn't give a wrong state. Call it
 * if the one whose pieces are taken alone gives none. */
int32_t fazgrond_taker_take_of(fazgrond_taker *taker, uint8_t machine);

/* The state's bytes, in `out`, which has room for all of them; else FAZGROND_TOO_SHORT. FAZGROND_NOTHING: pieces are missing. Who
 * has them can open a giver of its own. */
int32_t fazgrond_taker_bytes(fazgrond_taker *taker, uint8_t *out, size_t room);

/* Which machine a datagram says that it is of, if it is a piece of a state or asks for some; FAZGROND_NOTHING if it is for a
 * peer. By it you know whose number to open it with. */
int32_t fazgrond_state_sender(const uint8_t *bytes, size_t length, uint8_t *machine);

/* A digest that has a state in it, beside what another has: by one call for each state, in the same order at all machines, that
 * of the match has all of them. */
uint64_t fazgrond_state_digest(const fazgrond_state_name *name, uint64_t digest);

/* If nobody has said what a state is called: the datagram that asks for the first piece of the one of this number and frame, as
 * fazgrond_taker_send, and what the state is called that a piece is of. Whether that is the right one is for you to believe. */
int32_t fazgrond_state_ask(uint64_t number, uint8_t me, uint64_t which, uint32_t frame, uint8_t *out, size_t room, size_t *size);
int32_t fazgrond_state_told(uint64_t number, const uint8_t *bytes, size_t length, fazgrond_state_name *name);

/* ---- which numbers were taken
 *
 * Whoever encrypts datagrams gives each a number that counts up, and takes none twice, so that a datagram which somebody recorded
 * and sends again does nothing. A window knows which numbers were taken, for one sender: none is taken twice, and in any order each
 * that isn't over FAZGROND_WINDOW_REACH below the highest. It takes no memory but its own; copy it as you like. All zeros is one
 * of which no number was taken: fazgrond_window window = {0}. Ask fazgrond_window_is_new first, which costs nothing, then open the
 * datagram, and only if it is genuine call fazgrond_window_note: else whoever forges datagrams takes the numbers of yours. */

#define FAZGROND_WINDOW_REACH 1024
#define FAZGROND_WINDOW_PLACES 17

typedef struct fazgrond_window {
    uint64_t highest; /* that was taken; 0 if none was */
    uint64_t runs[FAZGROND_WINDOW_PLACES]; /* which 64 numbers a place has, and a bit for each of them that was taken */
    uint64_t bits[FAZGROND_WINDOW_PLACES];
} fazgrond_window;

/* Whether a number is new: 1 if it wasn't taken and isn't too old, else 0. */
uint32_t fazgrond_window_is_new(const fazgrond_window *window, uint64_t number);

/* Takes a number, if it is new: 1 if so. Else 0, and nothing has changed. */
uint32_t fazgrond_window_note(fazgrond_window *window, uint64_t number);

#ifdef __cplusplus
}
#endif
#endif
