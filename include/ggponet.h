/* ggponet.h: the calls of the GGPO SDK over fazgrond.h, for a game that is written against GGPO.
 *
 * Names, types and numbers are GGPO's, so such a game compiles with this header as it is; it links the C files of this folder and
 * libfazgrond.a.
 * docs/C.md, "A game that is written against GGPO", has a table of what is the same and what differs. What can't be had here is
 * refused, and ggpo_last_error says why: inputs of more than 16 bytes, or of more than 32 in
 * all, and what has to be set before the match.
 * What GGPO hasn't got stands at the end.
 *
 * A session is used by one thread at a time. All times are milliseconds.
 */
#ifndef FAZGROND_GGPONET_H
#define FAZGROND_GGPONET_H

#include <stdarg.h>
#include <stdbool.h>
#include <stdint.h>

#ifdef __cplusplus
extern "C" {
#endif

/* GGPO declares its calls with these two. Here a game links the source, so that nothing is imported. */
#ifndef GGPO_API
#define GGPO_API
#endif
#if !defined(_WIN32) && !defined(__cdecl)
#define __cdecl
#endif

#define GGPO_MAX_PLAYERS 4
#define GGPO_MAX_PREDICTION_FRAMES 8
#define GGPO_MAX_SPECTATORS 32
#define GGPO_SPECTATOR_INPUT_INTERVAL 4

typedef struct GGPOSession GGPOSession;

/* A player, as a session names it: the player's number, which counts from 1. */
typedef int GGPOPlayerHandle;

#define GGPO_INVALID_HANDLE (-1)

typedef enum { GGPO_PLAYERTYPE_LOCAL, GGPO_PLAYERTYPE_REMOTE, GGPO_PLAYERTYPE_SPECTATOR } GGPOPlayerType;

/* `player_num` counts from 1, and each number is at all machines the same player's. Several players may have one address: then
 * they sit at one machine. Of a spectator the address counts alone; the machine that adds it is its host. */
typedef struct GGPOPlayer {
    int size; /* sizeof(GGPOPlayer) */
    GGPOPlayerType type;
    int player_num;
    union {
        struct {
            char unused;
        } local;
        struct {
            char ip_address[32]; /* IPv4, as "10.0.0.7" */
            unsigned short port;
        } remote;
    } u;
} GGPOPlayer;

typedef struct GGPOLocalEndpoint {
    int player_num;
} GGPOLocalEndpoint;

/* bindings/numbers writes the list. */
typedef enum {
    GGPO_OK = 0,
    GGPO_ERRORCODE_SUCCESS = 0,
    GGPO_ERRORCODE_GENERAL_FAILURE = -1,
    GGPO_ERRORCODE_INVALID_SESSION = 1,
    GGPO_ERRORCODE_INVALID_PLAYER_HANDLE = 2,
    GGPO_ERRORCODE_PLAYER_OUT_OF_RANGE = 3,
    GGPO_ERRORCODE_PREDICTION_THRESHOLD = 4,
    GGPO_ERRORCODE_UNSUPPORTED = 5,
    GGPO_ERRORCODE_NOT_SYNCHRONIZED = 6,
    GGPO_ERRORCODE_IN_ROLLBACK = 7,
    GGPO_ERRORCODE_INPUT_DROPPED = 8,
    GGPO_ERRORCODE_PLAYER_DISCONNECTED = 9,
    GGPO_ERRORCODE_TOO_MANY_SPECTATORS = 10,
    GGPO_ERRORCODE_INVALID_REQUEST = 11
} GGPOErrorCode;

#define GGPO_SUCCEEDED(result) ((result) == GGPO_ERRORCODE_SUCCESS)

/* The codes of events are plain numbers, so that a switch over GGPO's own stays whole. bindings/numbers writes the list. */
typedef int GGPOEventCode;

enum {
    GGPO_EVENTCODE_CONNECTED_TO_PEER = 1000,
    GGPO_EVENTCODE_SYNCHRONIZING_WITH_PEER = 1001,
    GGPO_EVENTCODE_SYNCHRONIZED_WITH_PEER = 1002,
    GGPO_EVENTCODE_RUNNING = 1003,
    GGPO_EVENTCODE_DISCONNECTED_FROM_PEER = 1004,
    GGPO_EVENTCODE_TIMESYNC = 1005,
    GGPO_EVENTCODE_CONNECTION_INTERRUPTED = 1006,
    GGPO_EVENTCODE_CONNECTION_RESUMED = 1007,
    /* GGPO hasn't these. */
    FAZGGPO_EVENTCODE_MACHINE_LEFT = 1101, /* a machine is gone for good; its players are told by 1004 */
    FAZGGPO_EVENTCODE_DESYNC = 1102,       /* the checksums of a frame differ, whose inputs are all known: end the match */
    FAZGGPO_EVENTCODE_MISMATCH = 1103,     /* another machine, or who is watched, has other players, inputs or opening: it can't
                                            * play */
    FAZGGPO_EVENTCODE_DROPPED = 1104       /* the match is over here: another machine takes this one for gone, or it was cut off
                                            * for too long */
};

/* Of a session that asks for them (fazggpo_tell_missing), after the disconnect timeout. A machine hasn't come: it is waited for. And so
 * many datagrams came in the place of its own that aren't of this match: with another number (fazggpo_set_match) or another name
 * of the game, or of another version. */
enum { FAZGGPO_EVENTCODE_MISSING = 1108, FAZGGPO_EVENTCODE_STRANGERS = 1110 };

/* Of a match into which players come back (fazggpo_rejoin): another part of it has begun, with who is there now. */
enum { FAZGGPO_EVENTCODE_EPOCH = 1201 };

/* What another machine has otherwise: how many machines there are, who sits where, how many words of 4 bytes an input has, whether players
 * can come back (fazggpo_rejoin), the size of inputs or the game, the opening state (fazggpo_set_opening). */
enum {
    FAZGGPO_FIELD_MACHINES = 1,
    FAZGGPO_FIELD_SEATS = 2,
    FAZGGPO_FIELD_WORDS = 4,
    FAZGGPO_FIELD_REJOIN = 5,
    FAZGGPO_FIELD_GAME = 3,
    FAZGGPO_FIELD_OPENING = 6
};

/* A machine is told by its first player, a spectator by its handle, and to a spectator its host by 0. */
typedef struct GGPOEvent {
    GGPOEventCode code;
    union {
        struct {
            GGPOPlayerHandle player;
        } connected;
        struct {
            GGPOPlayerHandle player;
            int count;
            int total;
        } synchronizing;
        struct {
            GGPOPlayerHandle player;
        } synchronized;
        struct {
            GGPOPlayerHandle player;
        } disconnected;
        struct {
            int frames_ahead;
        } timesync;
        struct {
            GGPOPlayerHandle player;
            int disconnect_timeout;
        } connection_interrupted;
        struct {
            GGPOPlayerHandle player;
        } connection_resumed;
        struct {
            GGPOPlayerHandle player;
        } left;
        struct {
            GGPOPlayerHandle player; /* in a sync test GGPO_INVALID_HANDLE */
            int frame;
        } desync;
        struct {
            GGPOPlayerHandle player;
            int field; /* what is another one there: the first of FAZGGPO_FIELD_.. that is; at a spectator 0, as that isn't known */
        } mismatch;
        struct {
            GGPOPlayerHandle player;
        } missing;
        struct {
            GGPOPlayerHandle player;
            int count;
        } strangers;
        struct {
            int frame; /* the first one of the part that begins */
            int came;  /* bit p - 1 is set if player p came in with it: it has left no more */
        } epoch;
    } u;
} GGPOEvent;

/* What a session asks of the game. Each answers whether it could. begin_game and log_game_state may be null.
 *
 * save_game_state makes a buffer with a copy of the state, and a checksum of it by which machines see that they play alike.
 * load_game_state makes the state of such a buffer the game's. free_buffer gives one back. advance_frame plays a frame that is
 * played again: ggpo_synchronize_input, the game's own step, ggpo_advance_frame. on_event hears of the others. */
typedef struct GGPOSessionCallbacks {
    bool(__cdecl *begin_game)(const char *game);
    bool(__cdecl *save_game_state)(unsigned char **buffer, int *len, int *checksum, int frame);
    bool(__cdecl *load_game_state)(unsigned char *buffer, int len);
    bool(__cdecl *log_game_state)(char *filename, unsigned char *buffer, int len);
    void(__cdecl *free_buffer)(void *buffer);
    bool(__cdecl *advance_frame)(int flags);
    bool(__cdecl *on_event)(GGPOEvent *info);
} GGPOSessionCallbacks;

typedef struct GGPONetworkStats {
    struct {
        int send_queue_len; /* words that this player's machine hasn't said that it has */
        int recv_queue_len; /* always 0, as in GGPO */
        int ping;           /* the round trip; 0 until it is known */
        int kbps_sent;      /* kilobytes in the last second, to this player's machine */
    } network;
    struct {
        int local_frames_behind; /* how many frames this machine is behind that of the player; negative if it is ahead */
        int remote_frames_behind;
    } timesync;
} GGPONetworkStats;

/* Begins a session and opens its port. Its players are added next, num_players of them. */
GGPO_API GGPOErrorCode __cdecl ggpo_start_session(GGPOSession **session, GGPOSessionCallbacks *cb, const char *game, int num_players,
                                                  int input_size, unsigned short localport);

/* Adds a player. The match opens by the first ggpo_idle or ggpo_add_local_input after the last of them, a sync test by ggpo_idle
 * alone. Spectators are added before that, up to 32, each at one machine of the match, its host. Their handles count from 1000, as in
 * GGPO. The match doesn't wait for them: a spectator may come late, and is told all frames from the first one on. */
GGPO_API GGPOErrorCode __cdecl ggpo_add_player(GGPOSession *session, GGPOPlayer *player, GGPOPlayerHandle *handle);

/* Begins a session without a network, whose players are all local, and which plays each `frames` frames twice and compares the
 * checksums, or the buffers if both checksums are 0. Where they differ it tells FAZGGPO_EVENTCODE_DESYNC, and from then on each
 * ggpo_advance_frame is refused with GGPO_ERRORCODE_GENERAL_FAILURE. */
GGPO_API GGPOErrorCode __cdecl ggpo_start_synctest(GGPOSession **session, GGPOSessionCallbacks *cb, char *game, int num_players,
                                                   int input_size, int frames);

/* Begins a session that watches a match, with the opening state that the players have: name, players and size of inputs are
 * those of the match, and its host has added a spectator with the address of this machine and `local_port`. In each turn it
 * calls ggpo_idle, and ggpo_synchronize_input, which gives the inputs of the next settled frame; then it steps and calls
 * ggpo_advance_frame. If no frame is there, ggpo_synchronize_input answers GGPO_ERRORCODE_PREDICTION_THRESHOLD, and
 * GGPO_ERRORCODE_PLAYER_DISCONNECTED once the host is gone too. Nothing is saved, loaded or played again. Who is behind, as
 * fazggpo_get_settled says, plays more than one frame in a turn. Who begins anew isn't told a match again that it has heard of
 * before: it is told after the disconnect timeout that the host has left. */
GGPO_API GGPOErrorCode __cdecl ggpo_start_spectating(GGPOSession **session, GGPOSessionCallbacks *cb, const char *game, int num_players,
                                                     int input_size, unsigned short local_port, char *host_ip, unsigned short host_port);

/* Says to the others that this machine leaves, and gives all back. Helpers have to have ended: it is refused with
 * GGPO_ERRORCODE_INVALID_REQUEST while one is at work. A spectator who hasn't all frames by then never gets them:
 * fazggpo_get_watched says how many it has. */
GGPO_API GGPOErrorCode __cdecl ggpo_close_session(GGPOSession *session);

/* By how many frames a local player's inputs count later, 0 to 8. Before the match opens. */
GGPO_API GGPOErrorCode __cdecl ggpo_set_frame_delay(GGPOSession *session, GGPOPlayerHandle player, int frame_delay);

/* Hears the others, rolls back if inputs came that weren't predicted, tells events, and sends. It may take so many milliseconds,
 * and waits as long. */
GGPO_API GGPOErrorCode __cdecl ggpo_idle(GGPOSession *session, int timeout);

/* A local player's input for this frame. If it is refused, no frame is played in this turn. Once all local players have given theirs,
 * they are sent. A second one of a player, without ggpo_idle or a frame between, is refused with GGPO_ERRORCODE_INVALID_REQUEST. */
GGPO_API GGPOErrorCode __cdecl ggpo_add_local_input(GGPOSession *session, GGPOPlayerHandle player, void *values, int size);

/* All players' inputs for this frame. `disconnect_flags` may be null; bit p - 1 is set if player p has left. The same inputs are
 * given again if nothing came since, and ggpo_advance_frame neither. */
GGPO_API GGPOErrorCode __cdecl ggpo_synchronize_input(GGPOSession *session, void *values, int size, int *disconnect_flags);

/* Puts the machine of a remote player out of the match, with all its players; of a local player, all other machines. */
GGPO_API GGPOErrorCode __cdecl ggpo_disconnect_player(GGPOSession *session, GGPOPlayerHandle player);

/* The game has stepped its state. */
GGPO_API GGPOErrorCode __cdecl ggpo_advance_frame(GGPOSession *session);

GGPO_API GGPOErrorCode __cdecl ggpo_get_network_stats(GGPOSession *session, GGPOPlayerHandle player, GGPONetworkStats *stats);

/* After how many milliseconds of silence a machine is gone: 5000 if nothing is said, and never if it is 0. Before the match
 * opens. A machine that is heard and gives no inputs is waited for, as in GGPO. */
GGPO_API GGPOErrorCode __cdecl ggpo_set_disconnect_timeout(GGPOSession *session, int timeout);

/* After how many milliseconds of silence GGPO_EVENTCODE_CONNECTION_INTERRUPTED is told: 750 if nothing is said, and never if it
 * is 0. Before the match opens. */
GGPO_API GGPOErrorCode __cdecl ggpo_set_disconnect_notify_start(GGPOSession *session, int timeout);

/* A line for the log: the file that the environment variable FAZGROND_GGPO_LOG names, `-` for standard error. All refusals and
 * events stand there, and four events that no game is told: 1105 a machine was begun anew, 1106 one is heard and gives no inputs,
 * 1107 what one sent is against the rules, 1109 this one hears too few of the others, and is dropped if that lasts. */
GGPO_API void __cdecl ggpo_log(GGPOSession *session, const char *fmt, ...);
GGPO_API void __cdecl ggpo_logv(GGPOSession *session, const char *fmt, va_list args);

/* What GGPO hasn't. */

/* Why a call of this session was last refused, in words. With a null session: why none could be begun. */
GGPO_API const char *__cdecl ggpo_last_error(GGPOSession *session);

/* The match's number, before the match opens. Each packet is sealed with it, so who doesn't know it can't make one: a lobby
 * should draw 64 random bits for the machines of a match, and tell them to these alone. GGPO has no such number. Without this
 * call it is made of the game's name, which anyone can guess. Then all that keeps
 * others out is that a packet has to come from the address of a player, as in GGPO; and addresses can be forged. Matches with one
 * number don't get mixed up: each session draws bits of its own, which its packets are sealed with too. So a rematch on the same
 * addresses needs no other number, and old packets are no matter. */
GGPO_API GGPOErrorCode __cdecl fazggpo_set_match(GGPOSession *session, uint64_t number);

/* A digest of the state in which this game begins, before the match opens. Machines and spectators with other ones are told
 * FAZGGPO_EVENTCODE_MISMATCH, and no match begins. It is for the game to say: GGPO has a state saved with the first input and not before,
 * so that a game may make it as late as GGPO_EVENTCODE_RUNNING. 0, as without this call: none. Who comes back or later says the same. */
GGPO_API GGPOErrorCode __cdecl fazggpo_set_opening(GGPOSession *session, uint64_t digest);

/* A number for spectators, in the place of the match's number. Each line of a host and a spectator has a number of its own,
 * which is made of this one and the spectator's port. Without this call it is made of the match's number: then a spectator has
 * to know that, and say it by fazggpo_set_match, so that it could make packets in the name of a player. A lobby should draw one
 * more number for each match: its machines call fazggpo_set_match with the first and this one with the second, its spectators
 * this one alone. They can make packets in each other's name, and to each other in that of a host, but none of a player. If
 * nothing is said at all, anyone can guess the numbers of lines too. */
GGPO_API GGPOErrorCode __cdecl fazggpo_set_spectators(GGPOSession *session, uint64_t number);

/* How many frames are settled: all inputs of them are known, so that they never change. Of a session that watches: how many its
 * host has said to be settled. */
GGPO_API GGPOErrorCode __cdecl fazggpo_get_settled(GGPOSession *session, int *frame);

/* How many frames a spectator has. Wait for it at the end of a match, by ggpo_idle, before the session is closed. It is refused
 * with GGPO_ERRORCODE_NOT_SYNCHRONIZED if the spectator wasn't heard yet, GGPO_ERRORCODE_PLAYER_DISCONNECTED if it is gone. */
GGPO_API GGPOErrorCode __cdecl fazggpo_get_watched(GGPOSession *session, GGPOPlayerHandle spectator, int *frame);

/* The session that plays this match, and the peer beside it, for calls of fazgrond.h that only ask: any other would end the match.
 * Null before the first input, and of a session that watches or is a sync test. */
GGPO_API struct fazgrond_session *__cdecl fazggpo_get_session(GGPOSession *session);
GGPO_API struct fazgrond_peer *__cdecl fazggpo_get_peer(GGPOSession *session);

/* The state after all settled frames, as save_game_state made it, and how many these are. It stays until the next call. It is
 * refused with GGPO_ERRORCODE_NOT_SYNCHRONIZED if there is none yet. */
GGPO_API GGPOErrorCode __cdecl fazggpo_get_settled_state(GGPOSession *session, int *frame, unsigned char **buffer, int *length);

/* What the game was given for a settled frame: all players' inputs as ggpo_synchronize_input gives them, and who had left. Of parts of a
 * match that are over (fazggpo_rejoin), and of what a machine that came back was told first, the last 1024 frames are remembered. It is
 * refused with GGPO_ERRORCODE_INVALID_REQUEST if the frame isn't settled, or isn't remembered, and for a session that watches. */
GGPO_API GGPOErrorCode __cdecl fazggpo_get_settled_input(GGPOSession *session, int frame, void *values, int size, int *disconnect_flags);

/* The first frame of which fazggpo_get_settled_input has the inputs: 0, but for a match whose parts are over, and on a machine that came
 * back. It is refused with GGPO_ERRORCODE_NOT_SYNCHRONIZED before the first input. */
GGPO_API GGPOErrorCode __cdecl fazggpo_get_settled_from(GGPOSession *session, int *frame);

/* Has the session tell FAZGGPO_EVENTCODE_MISSING and FAZGGPO_EVENTCODE_STRANGERS too. They come while a game waits for others, which
 * is no fault; so a game is told them only if it asks. Before the match opens, and for a match alone. */
GGPO_API GGPOErrorCode __cdecl fazggpo_tell_missing(GGPOSession *session);

/* ---- Players who come back.
 *
 * If all machines of a match have called this before it opens, a player whose program stopped can come back: the program is begun again
 * with the same players and addresses, and makes the same calls. The others go on meanwhile. To the program that comes back it is as a
 * rollback: within ggpo_idle load_game_state is called with a state that another machine has made, and advance_frame for each frame
 * since; until then inputs are refused with GGPO_ERRORCODE_NOT_SYNCHRONIZED. So what save_game_state makes has to mean the same at
 * each machine: no pointers. Everywhere FAZGGPO_EVENTCODE_EPOCH tells who has come. The player's inputs count 2 frames later from
 * then on, whatever ggpo_set_frame_delay said.
 *
 * If nobody of the match is left who could give that state, the program that comes is as at its beginning: load_game_state is called
 * with its own opening, and another match begins with those who are begun again too. Meanwhile FAZGGPO_EVENTCODE_MISSING tells who
 * isn't there, if fazggpo_tell_missing was called.
 *
 * Such a match has no last frame, and no spectators (GGPO_ERRORCODE_UNSUPPORTED): GGPO's are given frames and no states, so one that
 * comes late would have to be given all of them from the first one on. A machine that is heard and isn't in the match has to be that
 * of a player who stopped: its other program is put out at once. */
GGPO_API GGPOErrorCode __cdecl fazggpo_rejoin(GGPOSession *session);

/* In such a match, before it opens: nobody plays this player as the match begins, and its machine isn't waited for. Until somebody comes
 * the player counts as one who has left, of which no event tells. Every machine that begins the match calls it for the same players; one
 * may begin alone. A program that comes later calls it for its own players, and then comes in as one that comes back, without waiting for
 * a match to begin. It is refused with GGPO_ERRORCODE_INVALID_REQUEST without fazggpo_rejoin, and the match doesn't open if some players
 * of a machine are vacant and others aren't. */
GGPO_API GGPOErrorCode __cdecl fazggpo_set_vacant(GGPOSession *session, GGPOPlayerHandle player);

/* ---- Guesses: where a processor is idle, it can play frames before the inputs come that would need them. A guess is that a remote
 * player goes on with its last input for some frames, and then goes back to the one before. If it comes true, a rollback loads a
 * state that is there, and plays fewer frames again or none. What is shown is the same as without.
 *
 * A guess is a job for a helper: a thread that the game makes, with a state of its own. It fetches a job, runs it by functions of
 * its own, and fetches the next:
 *
 *     while (!atomic_load(&is_over)) {
 *         FazggpoJob *job = fazggpo_fetch_job(session, 5);
 *         if (job != NULL)
 *             fazggpo_run_job(job, &helper);
 *     }
 *
 * None of the session's callbacks is called on that thread. What is done is taken in by the next call that rolls back or advances.
 * These calls need C11's <stdatomic.h>. */

/* What a helper does, each with `helper`, on its own thread: makes the state of a buffer its own, plays a frame of it with all
 * players' inputs as ggpo_synchronize_input gives them, makes a buffer with a copy of it and its checksum. The buffer to load is
 * one of save_game_state or of another helper, and isn't the helper's. A buffer that it makes becomes the session's, which gives it
 * back by free_buffer, so make it as save_game_state does. Each answers whether it could; if not, the job is given up. */
typedef struct FazggpoHelper {
    void *helper;
    bool(__cdecl *load_state)(void *helper, const unsigned char *buffer, int len);
    bool(__cdecl *advance_state)(void *helper, const void *inputs, int size, int disconnect_flags);
    bool(__cdecl *save_state)(void *helper, unsigned char **buffer, int *len, int *checksum, int frame);
} FazggpoHelper;

typedef struct FazggpoJob FazggpoJob;

/* What became of guesses so far. */
typedef struct FazggpoGuesses {
    int made;    /* jobs */
    int run;     /* jobs that a helper has run */
    int grafted; /* states of them that were kept */
    int used;    /* and that a rollback or an advance went on from */
} FazggpoGuesses;

/* How many jobs are made after each frame, 0 to 64, from now on: at first 0. Two for each helper are enough: jobs that nobody has
 * fetched by the next frame are made anew. Call it once before the first helper begins. It is for matches alone. */
GGPO_API GGPOErrorCode __cdecl fazggpo_guess(GGPOSession *session, int jobs);

/* On a helper's thread: a job, which is waited for so many milliseconds; null if there is none. A job that was fetched has to be
 * run, and before the session is closed. */
GGPO_API FazggpoJob *__cdecl fazggpo_fetch_job(GGPOSession *session, int timeout);

/* On the thread that fetched it: runs a job, up to 8 frames, and hands it back. Whether the helper could. */
GGPO_API bool __cdecl fazggpo_run_job(FazggpoJob *job, const FazggpoHelper *helper);

GGPO_API GGPOErrorCode __cdecl fazggpo_get_guesses(GGPOSession *session, FazggpoGuesses *guesses);

/* ---- A wire of the game's own in the place of the UDP socket: lines through routers (lib/line, docs/ONLINE.md), a relay, a test's memory.
 * All goes over it that goes over the socket else: what players, spectators and those who come back send.
 *
 *     FazggpoWire wire = { lines, send, receive };
 *     ggpo_start_session(&session, &cb, "game", 2, sizeof(input), 0);   // port 0: some free one, which the next call closes
 *     fazggpo_set_wire(session, &wire);
 *     .. ggpo_add_player as ever: addresses are names then, and need not be any that there are
 *     fazggpo_set_number(session, 2, faz_line_number(line));
 *
 * Machines have the names that events have for them: 1 to 4 is a player, for the machine where that one sits; 1000 and more a
 * spectator; and to a spectator 0 is its host. */

/* What carries datagrams, each with `wire`, on the thread that calls the session: within ggpo_idle, ggpo_add_local_input,
 * ggpo_disconnect_player and ggpo_close_session. Neither waits, and neither calls the session.
 *
 * send: a datagram of 1,200 bytes at most goes to a machine, which is named by its first player. It may be lost, and come late, twice
 * and in any order, as on a network.
 * receive: the next datagram that came, of `room` bytes at most, how long it is, and of which machine it came, named by any of its
 * players. False: there is none now. What comes of whom is for the wire to know, as addresses aren't looked at: lib/line knows it. What it
 * names as of nobody is dropped. */
typedef struct FazggpoWire {
    void *wire;
    void(__cdecl *send)(void *wire, GGPOPlayerHandle to, const unsigned char *bytes, int len);
    bool(__cdecl *receive)(void *wire, GGPOPlayerHandle *from, unsigned char *bytes, int room, int *len);
} FazggpoWire;

/* Takes a wire, which is copied, and closes the session's port. Before the match opens. ggpo_idle looks once a millisecond then
 * whether something came, and waits else. It is refused with GGPO_ERRORCODE_INVALID_REQUEST if a function is missing, and with
 * GGPO_ERRORCODE_UNSUPPORTED for a sync test, which sends nothing. */
GGPO_API GGPOErrorCode __cdecl fazggpo_set_wire(GGPOSession *session, const FazggpoWire *wire);

/* A number of 64 random bits that this machine and another one know, and nobody else, as faz_line_number of lib/line: with it their
 * packets are sealed, in the place of those of fazggpo_set_match and fazggpo_set_spectators. Both say it. So neither can make packets
 * in the name of a third machine, nor to one. `other` is a player or spectator that was added, or 0 at a spectator. Of players who sit
 * at one machine one says it for all. Before the match opens; with a wire or without. It is refused with
 * GGPO_ERRORCODE_INVALID_PLAYER_HANDLE for whom the session hasn't got or who is local, and with GGPO_ERRORCODE_UNSUPPORTED in a match
 * into which players come back: there all machines know one number, that of fazggpo_set_match. */
GGPO_API GGPOErrorCode __cdecl fazggpo_set_number(GGPOSession *session, GGPOPlayerHandle other, uint64_t number);

/* ---- For tests. */

/* A bad line. What this session sends goes out so much later, and so many in a hundred are lost. Of so many in a
 * hundred a copy with a changed byte goes out too. */
GGPO_API GGPOErrorCode __cdecl fazggpo_set_line(GGPOSession *session, int lag, int loss, int junk);

/* A clock that runs so many times as fast, 1 to 100: all times of the session are by this clock. Before the match
 * opens. */
GGPO_API GGPOErrorCode __cdecl fazggpo_set_speed(GGPOSession *session, int speed);

#ifdef __cplusplus
}
#endif
#endif
