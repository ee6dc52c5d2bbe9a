/* What the files of this folder share. A game includes faz_lobby.h alone. */
#ifndef FAZ_LOBBY_INSIDE_H
#define FAZ_LOBBY_INSIDE_H

#include "aside.h"
#include "broker.h"
#include "door.h"
#include "keys.h"
#include "faz_lobby.h"
#include "messages.h"

enum {
    EVENTS = 64,
    GUESTS = 16,
    EARLY = 24,
    EARLY_BYTES = FAZ_LINE_SIGNAL + SIGNAL_HEAD + SEAL,
    FAMILIES = 2,
    ADDRESS_TEXT = 64,
    WORD_TEXT = 256
};

/* ---- The host's: who has asked to join. */

typedef enum guest_stage {
    GUEST_NONE,
    GUEST_ASKS, /* the host's player is asked */
    GUEST_SEATED,
    GUEST_REFUSED /* for `why` */
} guest_stage;

typedef struct guest {
    guest_stage stage;
    room room; /* by whose key it asks */
    faz_lobby_why why;
    uint32_t who, machine; /* `machine` once the match is known */
    pair pair;
    uint8_t inbox[INBOX];
    char name[FAZ_LOBBY_NAME_ROOM];
    uint32_t here;             /* players */
    uint32_t counter, answers; /* of the last message of each */
    uint32_t heard_at;
} guest;

/* Who knocks with a short code, and has shown that it knows it, or not yet. */
typedef struct knocker {
    bool is_there, is_proven;
    uint8_t id[KNOCK_ID];
    char subject[BROKER_SUBJECT]; /* of its inbox: nobody else is told what is said to it */
    pake *pake;
    uint8_t step;
    uint32_t begun_at;
    room room;
    size_t length; /* of what was said to it last */
    uint8_t said[BROKER_MESSAGE];
} knocker;

enum { KNOCKERS = 8 };

typedef struct hosting {
    uint8_t open[KEY], secret[SECRET];
    uint32_t players;
    bool asks, stays_open, has_short_code, has_worked; /* in this turn */
    char plate[PLATE_TEXT], secret_signs[SHORT_SECRET];
    knocker knocker[KNOCKERS];
    uint32_t wrong, wrong_all; /* tries at this code, and in all */
    faz_lobby_why why;         /* the next code is another one */
    uint32_t named;            /* the last number of a guest, or of who comes */
    guest guest[GUESTS];
    seen_keys gone; /* of those who have left, or have their places: what they said may be said again by others */
} hosting;

/* ---- Of who joins. */

typedef enum joining_stage { NO_CODE, ASKS_DOOR, KNOCKS, SAYS_HELLO, ASKS_TO_JOIN, HAS_TABLE } joining_stage;

typedef struct joining {
    joining_stage stage;
    uint8_t code[CODE_BYTES];
    bool has_short_code;
    char plate[PLATE_TEXT], secret_signs[SHORT_SECRET];
    pake *pake;
    knock knock; /* the last one that it said */
    uint32_t knocks;
    bool has_key; /* by a proof that is done; what the host says behind that isn't read yet */
    pair host;
    char host_name[BROKER_SUBJECT]; /* where that is asked */
    bool is_seated, is_asked;       /* it has a seat; the host's player is asked */
    uint32_t counter, answers;
    bool has_said;
    bool is_unheard, is_wrong; /* its code, as somebody says who may be anybody */
    uint32_t said_at, heard_at, wrong_at;
} joining;

/* ---- Who comes into a match that runs, at the machine that answers. */

typedef struct comer {
    bool is_there, is_asked, is_let_in, is_placed;
    uint32_t who, place;
    room room;
    pair pair;
    uint8_t inbox[INBOX];
    char name[FAZ_LOBBY_NAME_ROOM];
    uint32_t here, counter, answers;
    uint32_t heard_at, told_at, placed_at, news;
} comer;

enum { COMERS = 4 };

/* ---- Lines with the others. */

typedef struct other {
    pair pair;
    char subject[BROKER_SUBJECT]; /* of its inbox */
    faz_line *line;
    faz_line_stage seen;
    bool was_up;
    uint32_t news; /* the last that came of it */
} other;

typedef struct early {
    size_t length;
    uint8_t bytes[EARLY_BYTES];
} early;

/* What a server's name stands for: an address, and one of the other family (IPv4, IPv6), if it has both. */
typedef struct addresses {
    char text[FAMILIES][ADDRESS_TEXT];
} addresses;

/* Names of servers, which are looked up beside the game. */
typedef struct servers {
    char stun[WORD_TEXT], relay[FAZ_LINE_RELAYS][WORD_TEXT];
    addresses stun_at, relay_at[FAZ_LINE_RELAYS];
} servers;

/* What the door is asked, and whether it has answered. */
typedef struct door_asking {
    char inbox_name[BROKER_SUBJECT]; /* where it answers */
    bool is_used, takes_relays, has_said, is_answered, is_away_told;
    uint32_t began_at, said_at, answered_at, seconds; /* relays are good for so many */
    uint8_t open[KEY], secret[KEY];
    door_request request;
} door_asking;

struct faz_lobby {
    /* Settings. */
    faz_line_settings line; /* of each line, but for whose it is */
    servers servers;
    faz_line_relay named[FAZ_LINE_RELAYS]; /* relays, whose addresses are in `servers` */
    uint32_t named_count;
    char user[FAZ_LINE_RELAYS][WORD_TEXT], password[FAZ_LINE_RELAYS][WORD_TEXT];
    char name[FAZ_LOBBY_NAME_ROOM];
    uint64_t digest;
    uint32_t here;

    bool has_door, wants_relays; /* of the door's */

    bool is_host, is_over, is_known, is_ready, has_turned, has_addresses, has_been_there, has_lines;
    bool is_away_told;                 /* that the broker is away */
    uint32_t now, looked_at, known_at; /* known_at: the match */
    uint64_t addresses;
    broker *broker;
    aside *looking; /* up names of servers, into */
    servers *looked_up;
    room room, mesh; /* where they meet, and of those who have met: that has a key alone */
    room later;      /* where whoever comes into the match is heard, by all its machines */
    bool lasts;
    comer comer[COMERS];
    uint32_t news; /* the last that this machine told */
    uint8_t inbox[INBOX];
    char inbox_name[BROKER_SUBJECT], room_name[BROKER_SUBJECT];
    faz_line_keys keys; /* those of all its lines: each has another machine's at its other end */
    door_asking door;
    hosting hosting;
    joining joining;
    table table;
    seen_keys members; /* of all who are or were in the match. It never forgets one: once it is full nobody else comes in */
    other other[FAZGROND_MACHINES];
    faz_line *ahead; /* of who joins, to the host, before the table is there; null: there is none */
    bool was_ahead;
    uint32_t ahead_at;
    uint32_t heard; /* the machine whose line was asked last for what came */
    early early[EARLY];
    uint32_t earlies;
    faz_lobby_event events[EVENTS];
    uint32_t first_event, last_event;
};

/* ---- lobby.c */

/* For how many milliseconds a moment is past. */
uint32_t faz_lobby_since(const faz_lobby *self, uint32_t moment);
/* As much of a text as there is room for. */
void faz_lobby_copy(char *out, size_t room, const char *text);
/* An event, whose text is filled in by who asks for it. */
faz_lobby_event *faz_lobby_tell(faz_lobby *self, faz_lobby_what what, uint32_t machine, const char *name);
/* It is over. */
void faz_lobby_end(faz_lobby *self, faz_lobby_why why, const char *text);
/* A host is found by a code that is a hash of its key. */
void faz_lobby_open_by_hash(faz_lobby *self);
/* That code is told, and why there is another one. */
void faz_lobby_tell_code(faz_lobby *self, faz_lobby_why why);

/* ---- servers.c */

/* Takes servers over. What is wrong with them; null if nothing is. */
const char *faz_lobby_copy_servers(faz_lobby *self, const faz_lobby_settings *settings);
/* Looks their names up beside the game, if some are no addresses. True once all are addresses. */
bool faz_lobby_has_addresses(faz_lobby *self);

/* Relays and a STUN server of the door's: for lines that are opened later, and for those that are open. */
void faz_lobby_take_servers(faz_lobby *self, const door_answer *answer);

/* ---- asking.c: the door */

/* Where its answers are heard, among what the broker hears: so it is known that it is the door, and not a host, whom nobody hears. */
enum { DOOR_PLACE = 3 };

void faz_asking_begin(faz_lobby *self, door_kind kind, bool takes_relays);
void faz_asking_turn(faz_lobby *self);
void faz_asking_hear(faz_lobby *self, const broker_message *message);
/* Whether lines needn't wait for its relays: they are there, or long in coming. */
bool faz_asking_is_over(const faz_lobby *self);

/* ---- knocking.c: short codes, at the host */

void faz_knock_begin(faz_lobby *self);
void faz_knock_plate(faz_lobby *self, const char plate[PLATE_TEXT]);
void faz_knock_hear(faz_lobby *self, const broker_message *message);
void faz_knock_turn(faz_lobby *self);
void faz_knock_close(faz_lobby *self);

/* ---- hosting.c */

/* What the host says about itself, sealed for those who have a room's key. */
size_t faz_host_offer(const faz_lobby *self, const room *in, uint8_t out[BROKER_MESSAGE]);

void faz_host_hear(faz_lobby *self, const broker_message *message);
void faz_host_turn(faz_lobby *self);
void faz_host_close(faz_lobby *self);

/* ---- joining.c */

void faz_join_hear(faz_lobby *self, const broker_message *message);
/* What the door said of the plate. */
void faz_join_door(faz_lobby *self, const door_answer *answer);
void faz_join_turn(faz_lobby *self);
void faz_join_close(faz_lobby *self);

/* ---- late.c */

/* The match is known, and whoever comes is heard from now on. */
void faz_late_begin(faz_lobby *self);
/* False: it is nobody's who comes. */
bool faz_late_hear(faz_lobby *self, const broker_message *message);
void faz_late_turn(faz_lobby *self);
bool faz_late_let_in(faz_lobby *self, uint32_t who, bool yes);

/* ---- mesh.c */

bool faz_mesh_has_line(const faz_lobby *self, uint32_t machine);
/* Whether nobody has this place yet. */
bool faz_mesh_is_vacant(const faz_lobby *self, uint32_t machine);
/* Whether a key is or was anybody's of this match. No other line is opened by it: both would have the same keys, and count from the same
 * number. */
bool faz_mesh_knows(const faz_lobby *self, const uint8_t open[KEY]);
/* There is somebody else in a place, whose key nobody had: the line to it is another one. */
void faz_mesh_replace(faz_lobby *self, uint32_t place, const member *who);

/* Who joins opens a line to the host while that is asked, once, as soon as all servers have addresses. */
void faz_mesh_open_ahead(faz_lobby *self);
void faz_mesh_drop_ahead(faz_lobby *self);

/* The table is there: lines are opened with all others, as soon as all servers have addresses. */
void faz_mesh_open(faz_lobby *self);
void faz_mesh_hear(faz_lobby *self, const broker_message *message);
void faz_mesh_turn(faz_lobby *self);
void faz_mesh_close(faz_lobby *self);
#endif
