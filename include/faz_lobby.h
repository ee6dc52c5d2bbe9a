/* A lobby: the machines of a match meet by a code, agree on what they play, and get a line with each other (faz_line.h),
 * over the internet or a LAN. One of them hosts and gets the code; its player tells it to friends, who join by it. A broker
 * (NATS) carries what they say until the lines are there, and signals for as long as the match lasts. docs/ONLINE.md, "What others can
 * see and do", says what can be read of it, and who could stand between two.
 *
 *     faz_lobby *lobby = faz_lobby_host(&settings, &why);          // or faz_lobby_join(&settings, code, &why)
 *     ..
 *     faz_lobby_turn(lobby, now);                                  // once a turn, as long as the match lasts
 *     while (faz_lobby_next_event(lobby, &event)) ..               // the code, who joins, why it is over
 *     if (faz_lobby_stage_of(lobby) == FAZ_LOBBY_READY) ..         // all lines are up: faz_lobby_get_match, and the match begins
 *     while (faz_lobby_receive(lobby, &machine, bytes, sizeof bytes, &length)) ..
 *     faz_lobby_send(lobby, machine, bytes, length);
 *
 * It starts no thread of its own, and no call waits: libnats and GLib have threads, which wait in its place. */
#ifndef FAZ_LOBBY_H
#define FAZ_LOBBY_H

#include "faz_line.h"

#ifdef __cplusplus
extern "C" {
#endif

typedef struct faz_lobby faz_lobby;

enum {
    FAZ_LOBBY_NAME_ROOM = 32,  /* bytes of a name in UTF-8, with the 0 at its end */
    FAZ_LOBBY_CODE_ROOM = 40,  /* bytes of a code, with the 0 at its end */
    FAZ_LOBBY_TEXT_ROOM = 160, /* bytes of an event's text, with the 0 at its end */
    FAZ_LOBBY_COMMON = 4096    /* bytes that a host can hand to all */
};

/* Set it to zeros first. All that it points at is copied. */
typedef struct faz_lobby_settings {
    const char *broker;  /* nats://203.0.113.10:4222, tls://PASS@example.org:4222 with the pass of a broker that has an operator,
                            * tls://user:password@[2001:db8::10]:4222, or several with commas between them */
    const char *trusted; /* a file with the certificates that a broker is believed by; null: those of the system */
    const char *stun;    /* a STUN server, by address or name; null: none */
    uint16_t stun_port;
    faz_line_relay relays[FAZ_LINE_RELAYS]; /* TURN servers, by addresses or names */
    uint32_t relay_count;
    bool relay_only;  /* the others aren't to see this machine's address */
    bool has_door;    /* the broker has a door beside it (programs/door), which gives relays if none are named here. Without
                            * saying so, whoever has a short code asks there too */
    bool any_sender;  /* as in faz_line_settings: for a match into which players come back, and for other programs */
    const char *name; /* of who plays here, as the others see it; null: "a player" */
    uint64_t digest;  /* of all that has to be alike at all machines: another one is refused before any line is made */
    uint32_t here;    /* how many players sit at this machine; 0 is 1 */
    bool lasts;       /* whoever stops can come back into the match, or somebody else in its place (FAZ_LOBBY_COMES) */
    /* The host's alone. */
    uint32_t players;   /* how many play, 2 to FAZGROND_PLAYERS, those at this machine among them */
    bool asks;          /* who joins has to be let in by faz_lobby_let_in */
    bool stays_open;    /* if faz_lobby_begin leaves seats that nobody has, they stay: each is a player of the match whom nobody plays yet,
                            * and whoever comes later gets one (`vacant`). For a match that `lasts` */
    bool short_code;    /* a code of seven signs by the door, which can be typed. Who joins has to be let in then, in any case */
    const void *common; /* what is handed to all, as the opening's settings; FAZ_LOBBY_COMMON bytes at most */
    size_t common_length;
} faz_lobby_settings;

typedef enum faz_lobby_stage {
    FAZ_LOBBY_REACHING,   /* the broker isn't there yet */
    FAZ_LOBBY_MEETING,    /* the host waits for others, or this machine for the host */
    FAZ_LOBBY_CONNECTING, /* it is known who plays, and lines look for their ways: faz_lobby_get_match has the match */
    FAZ_LOBBY_READY,      /* every line has been up; or at who comes into a match that runs, one has, and two seconds have passed. It
                           * stays so, whatever becomes of one: faz_lobby_look says that */
    FAZ_LOBBY_OVER        /* it won't come to a match: the last event said why */
} faz_lobby_stage;

typedef enum faz_lobby_what {
    FAZ_LOBBY_CODE,      /* the host's code, in `text`: friends join by it. It is told once the broker is there. A short one is another
                        * one after five wrong tries, and a long one after 20 in all, or five in a match: `why` is
                        * FAZ_LOBBY_WRONG_CODE then */
    FAZ_LOBBY_AWAY,      /* the broker or the door isn't there, and is tried again and again, or a server's name isn't known: `text`
                        * says which */
    FAZ_LOBBY_ASKS,      /* `name` wants to join, and `who` is for faz_lobby_let_in. At who joins: the player of `name`, who hosts, is
                        * asked. Both see the same `text`, unless somebody stands between the two */
    FAZ_LOBBY_JOINED,    /* `name` is in the lobby. At who joins: this machine is in that of `name`. `text` as above */
    FAZ_LOBBY_LEFT,      /* `name` has left the lobby before the match began */
    FAZ_LOBBY_FULL,      /* all are there: the match is known */
    FAZ_LOBBY_UP,        /* the line to a machine is up, or has come back. `text` says by which way */
    FAZ_LOBBY_SILENT,    /* nothing comes from a machine for a second: another way is looked for */
    FAZ_LOBBY_BLOCKED,   /* no way to a machine was found in six seconds; it is looked for again and again */
    FAZ_LOBBY_ENDED,     /* it won't come to a match: `why`, and in words `text` */
    FAZ_LOBBY_COMES,     /* in a match that `lasts`: a machine that was silent, or nobody's, is `name`'s from now on, who has come back or
                        * is new. The line to it is another one, with another number */
    FAZ_LOBBY_REFUSED,   /* at the host: `name` can't join, for `why`: FAZ_LOBBY_A_PAGE. The player is told, since friends may wonder */
    FAZ_LOBBY_UNANSWERED /* at who joins: nobody hosts by this code, or its last four signs are wrong (`why`), as somebody says who may be
                          * anybody. It is waited for the host: `text` says for how long, and FAZ_LOBBY_ENDED comes then */
} faz_lobby_what;

typedef enum faz_lobby_why {
    FAZ_LOBBY_NO_REASON,
    FAZ_LOBBY_NO_SUCH_CODE,  /* nobody hosts by this code now */
    FAZ_LOBBY_NO_SEAT,       /* all seats are taken */
    FAZ_LOBBY_OTHER_GAME,    /* the host plays another game, or another version of it */
    FAZ_LOBBY_NOT_LET_IN,    /* the host's player said no */
    FAZ_LOBBY_HOST_LEFT,     /* the host closed its lobby, or is gone */
    FAZ_LOBBY_OTHER_LIBRARY, /* the host speaks another version of what is said in a lobby */
    FAZ_LOBBY_SYSTEM,        /* no memory, or no socket */
    FAZ_LOBBY_WRONG_CODE, /* the last four signs of a short code are wrong, or who answers doesn't know them. With a host's code: somebody
                              * has tried wrong ones */
    FAZ_LOBBY_TOO_MANY,   /* the door was asked too often from this address: later */
    FAZ_LOBBY_A_PAGE      /* the host's game is a page in a browser, and this one isn't: they have no line with each other */
} faz_lobby_why;

typedef struct faz_lobby_event {
    faz_lobby_what what;
    faz_lobby_why why;
    uint32_t machine; /* FAZGROND_NO_MACHINE if it is of none */
    uint32_t who;
    char name[FAZ_LOBBY_NAME_ROOM];
    char text[FAZ_LOBBY_TEXT_ROOM];
} faz_lobby_event;

/* What all machines of a match have alike, but for `me` and `numbers`. Machine 0 hosts. Players are numbered by their machines. */
typedef struct faz_lobby_match {
    uint32_t me, machines, players;
    uint32_t owners[FAZGROND_PLAYERS];   /* the machine of each player; FAZGROND_NO_PLAYER if there is none */
    uint32_t vacant;                     /* a bit for each machine that nobody has yet: it gets one when somebody comes */
    uint64_t numbers[FAZGROND_MACHINES]; /* with each machine a number that only these two know */
    uint64_t number;                     /* one that all machines of the match know, and nobody else */
    uint64_t comers;                     /* another such one: that of settings of a peer */
    uint64_t tickets[FAZGROND_MACHINES]; /* of each machine another one, by fazgrond_ticket, the same at all, and another one for who
                                          * comes in its place: that of a seat of lib/rejoin */
    bool is_late;                        /* this machine has come into a match that runs already */
    char code[FAZ_LOBBY_CODE_ROOM];      /* by which whoever stops comes back, if the match `lasts`; else empty */
    uint64_t digest;
    char names[FAZGROND_MACHINES][FAZ_LOBBY_NAME_ROOM];
    size_t common_length;
    uint8_t common[FAZ_LOBBY_COMMON];
} faz_lobby_match;

/* Opens a lobby as its host. Its code is told as an event. Null if the settings are no good or there is no memory: `why` says
 * so. */
faz_lobby *faz_lobby_host(const faz_lobby_settings *settings, const char **why);

/* Opens it as a friend whose code isn't typed yet: the broker is reached meanwhile, so that it goes faster then. */
faz_lobby *faz_lobby_open(const faz_lobby_settings *settings, const char **why);

/* The code was typed. False: it is none, and can be typed again; or there is one already, or this is the host's lobby. */
bool faz_lobby_enter(faz_lobby *lobby, const char *code);

/* Both: opens it as a friend who has the code, in small or capital letters, with spaces or dashes or without. Null also if that is no
 * code. */
faz_lobby *faz_lobby_join(const faz_lobby_settings *settings, const char *code, const char **why);

/* Closes it, and all its lines; before a match the others are told. It may take half a second. Null is none. */
void faz_lobby_close(faz_lobby *lobby);

/* Once a turn. `now` is the time in milliseconds, which begins anew after 2^32. */
void faz_lobby_turn(faz_lobby *lobby, uint32_t now);

/* The next thing that happened. False: there is none. Who asks for none loses the oldest ones after 64. */
bool faz_lobby_next_event(faz_lobby *lobby, faz_lobby_event *event);

faz_lobby_stage faz_lobby_stage_of(const faz_lobby *lobby);

/* At the host, after FAZ_LOBBY_ASKS: lets somebody in, or says no. False: nobody asks by this number now, or there is no seat. */
bool faz_lobby_let_in(faz_lobby *lobby, uint32_t who, bool yes);

/* At the host: the match begins with those who are there, though there are seats left. False: nobody is, and seats don't stay open; or it
 * has begun. */
bool faz_lobby_begin(faz_lobby *lobby);

/* The match, from FAZ_LOBBY_CONNECTING on. False: it isn't known yet. */
bool faz_lobby_get_match(const faz_lobby *lobby, faz_lobby_match *match);

/* The same as settings of a peer: `me`, `machines`, owners, numbers, digest and comers, and silent_after 10,000. `draw` and `opening` are
 * for you to set. Players of a vacant machine are nobody's (FAZGROND_NOBODY), which fazgrond_peer_open_lasting takes, and the number with
 * it is that of `comers`. */
bool faz_lobby_get_peer(const faz_lobby *lobby, fazgrond_match *match);

/* Sends a datagram of FAZGROND_DATAGRAM bytes at most to a machine. False, and lost: as faz_line_send, or there is no such line. */
bool faz_lobby_send(faz_lobby *lobby, uint32_t machine, const uint8_t *bytes, size_t length);

/* The next datagram that came, and from which machine, in `out`, which has room for FAZGROND_DATAGRAM bytes. False: there is
 * none. */
bool faz_lobby_receive(faz_lobby *lobby, uint32_t *machine, uint8_t *out, size_t room, size_t *length);

/* How the line to a machine stands. False: there is none. */
bool faz_lobby_look(const faz_lobby *lobby, uint32_t machine, faz_line_state *state);

/* Other relays for the ways that are looked for from now on, by addresses: before the passwords of those before end. False as
 * faz_line_relays. */
bool faz_lobby_relays(faz_lobby *lobby, const faz_line_relay *relays, uint32_t count);

#ifdef __cplusplus
}
#endif
#endif
