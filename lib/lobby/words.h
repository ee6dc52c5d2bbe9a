/* What a command line says of a lobby, and what a lobby tells, in words: for programs that a player begins at a terminal. They find these
 * calls in the archive of lobbies, which shows nothing without its prefix. */
#ifndef FAZ_LOBBY_WORDS_H
#define FAZ_LOBBY_WORDS_H

#include "faz_lobby.h"

enum { LOBBY_WORDS_ROOM = 320, LOBBY_WORDS_PORT = 3478 /* of a STUN or TURN server, if none is named */ };

/* What is said to who is asked. */
#define LOBBY_WORDS_ANSWERS "y lets in, n doesn't"

/* What was said; null or false if nothing was. `broker` has to be. */
typedef struct lobby_words {
    const char *broker;    /* --broker URL */
    const char *trusted;   /* --trusted FILE: certificates */
    const char *stun;      /* --stun ADDRESS[:PORT] */
    const char *relay;     /* --relay USER:PASSWORD@ADDRESS[:PORT] */
    const char *tcp_relay; /* --tcp-relay: the same, asked by TCP */
    const char *name;      /* --name NAME */
    bool relay_only;       /* --relay-only */
    bool asks;             /* --ask */
    bool lasts;            /* --rejoin, or what the program calls it */
    bool by_door;          /* --door: short codes, and relays if none are named */
    long begin_with;       /* --begin-with N: the host's match begins once N machines are there, and the other seats stay open; 0: once all
                            * are */
    long friends;          /* so many are in the lobby */
    uint32_t left;         /* a bit for each machine that has left the match, as the program sets them */
    char texts[3][LOBBY_WORDS_ROOM]; /* what settings point at */
} lobby_words;

/* Settings of what was said, as long as `words` is there. Null, or what can't be read. */
const char *faz_lobby_words_read(lobby_words *words, faz_lobby_settings *settings);

/* Of each event: the host's match begins, if that is what --begin-with waits for. */
void faz_lobby_words_begin(lobby_words *words, faz_lobby *lobby, const faz_lobby_event *event);

/* Enters the code that the player has typed at the terminal, if there is one. True: it is entered, and false if it is none yet, which is
 * said. */
bool faz_lobby_words_enter(faz_lobby *lobby);

/* Lets in who waits for this player's answer, or not, if the player has written y or n at the terminal. Who still waits; 0:
 * nobody. */
uint32_t faz_lobby_words_let_in(faz_lobby *lobby, uint32_t who);

/* Whether an event is of the line to a machine that has left, so that nobody has to be told. Whoever comes in its place is told of
 * again. */
bool faz_lobby_words_of_left(lobby_words *words, const faz_lobby_event *event);

/* An event of a lobby in words; an empty text if a player needs none. */
void faz_lobby_words_of(const faz_lobby *lobby, const faz_lobby_event *event, char *out, size_t room);
#endif
