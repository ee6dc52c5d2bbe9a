/* What machines of a lobby say to each other, as bytes. Who joins says hello, and the host offers the key by which it speaks;
 * then who joins asks to be let in, again and again, and is answered each time how it stands, at last with the table of the
 * match. */
#ifndef FAZ_LOBBY_MESSAGES_H
#define FAZ_LOBBY_MESSAGES_H

#include "broker.h"
#include "keys.h"
#include "faz_lobby.h"
#include "pake.h"

enum {
    LOBBY_VERSION = 3, /* another one too where packets of a match have another */
    INBOX = NKEY,      /* bytes of an inbox: the key of the user who hears it (pass.h) */
    KNOCK_ID = 16,
    SIGNAL_HEAD = 2 /* bytes before what is sealed of a signal: its kind, and the machine it is of */
};

/* A page in a browser says so by its digest, which is that of its game with these bits the other way round. It speaks as machines
 * do here, but its lines are others. */
#define LOBBY_PAGE UINT64_C(0x66617a2d70616765)

/* The first byte of a message. */
typedef enum message_kind {
    KNOCK = 'k',
    KNOCKED = 'n',
    HELLO = 'h',
    OFFER = 'o',
    ASK = 'a',
    ANSWER = 's',
    SIGNAL = 'g',
    NEWS = 'w'
} message_kind;

/* With a short code who joins and the host get a key by it first, in two messages of each (pake.h). */
typedef struct knock {
    uint8_t id[KNOCK_ID]; /* of the one who knocks */
    uint8_t step;         /* 1 or 2 */
    bool is_wrong;        /* the host's: the code is */
    size_t length;
    uint8_t bytes[PAKE_BYTES];
} knock;

typedef struct hello {
    uint8_t version;
    uint8_t open[KEY]; /* of who joins */
} hello;

typedef struct offer {
    uint8_t version;
    uint8_t host[KEY];   /* whose hash the code is */
    uint8_t speaks[KEY]; /* by which key the host speaks, and that it does */
    uint8_t proof[PROOF];
    uint8_t inbox[INBOX]; /* where it is asked from now on */
} offer;

typedef struct ask {
    uint8_t open[KEY]; /* whose it is: it is sealed for all, and what follows for the host alone */
    uint32_t counter;  /* goes up: what isn't above the last is an old one */
    bool leaves;
    uint64_t digest;
    uint32_t here;
    char name[FAZ_LOBBY_NAME_ROOM];
} ask;

typedef struct member {
    bool is_vacant; /* nobody has the place yet: its key is zeros */
    uint8_t open[KEY], inbox[INBOX];
    char name[FAZ_LOBBY_NAME_ROOM];
} member;

/* The match, but for what only pairs know. */
typedef struct table {
    uint32_t me, machines, players;
    uint32_t owners[FAZGROND_PLAYERS];
    uint64_t number;
    uint8_t key[KEY]; /* of all its machines */
    bool lasts, asks, is_late;
    uint8_t code[CODE_BYTES], host[KEY]; /* of who hosted it */
    uint8_t proof[PROOF];                /* that this machine may answer who comes */
    member member[FAZGROND_MACHINES];
    size_t common_length;
    uint8_t common[FAZ_LOBBY_COMMON];
} table;

typedef enum answer_what { WAITS, SEATED, BEGINS, REFUSED } answer_what;

typedef struct answer {
    uint32_t counter;
    answer_what what;
    faz_lobby_why why;              /* of REFUSED */
    char name[FAZ_LOBBY_NAME_ROOM]; /* of who hosts */
    table table;                    /* of BEGINS */
} answer;

/* Behind what the host says there may be an offer: `more` is how many bytes of it there are, at the message's end. */
size_t faz_knock_write(const knock *self, message_kind kind, uint8_t out[BROKER_MESSAGE]);
bool faz_knock_read(knock *self, message_kind kind, const uint8_t *bytes, size_t length, size_t *more);

/* Each writes a message of less than BROKER_MESSAGE bytes, and says how long it is. */
size_t faz_hello_write(const hello *self, const room *in, uint8_t out[BROKER_MESSAGE]);
size_t faz_offer_write(const offer *self, const room *in, uint8_t out[BROKER_MESSAGE]);
size_t faz_ask_write(const ask *self, const room *in, const pair *between, uint8_t out[BROKER_MESSAGE]);
size_t faz_answer_write(const answer *self, const pair *between, uint8_t out[BROKER_MESSAGE]);
/* Of a machine `from`: in a place there is somebody else. `counter` goes up. */
typedef struct news {
    uint32_t counter, place;
    member who;
} news;

size_t faz_news_write(uint32_t from, const news *self, const pair *between, uint8_t out[BROKER_MESSAGE]);
bool faz_news_read(news *self, const pair *between, const uint8_t *bytes, size_t length);
size_t faz_signal_write(uint32_t from, const uint8_t *bytes, size_t length, const pair *between, uint8_t out[BROKER_MESSAGE]);

/* Each reads one that begins with its kind. False: nobody made such a message who may. */
/* Of another version nothing but that is read. */
bool faz_hello_read(hello *self, const room *in, const uint8_t *bytes, size_t length);
bool faz_offer_read(offer *self, const room *in, const uint8_t *bytes, size_t length);
/* Whose it is, and then the rest, by the pair of the host and the one who asks. */
bool faz_ask_open(uint8_t open[KEY], const room *in, const uint8_t *bytes, size_t length);
bool faz_ask_read(ask *self, const room *in, const pair *between, const uint8_t *bytes, size_t length);
bool faz_answer_read(answer *self, const pair *between, const uint8_t *bytes, size_t length);
/* `out` has room for BROKER_MESSAGE bytes. */
bool faz_signal_read(uint8_t *out, size_t *size, const pair *between, const uint8_t *bytes, size_t length);

/* The subject of an inbox, and of a room. */
void faz_inbox_subject(const uint8_t inbox[INBOX], char out[BROKER_SUBJECT]);
void faz_room_subject(const room *self, char out[BROKER_SUBJECT]);

/* False: it is no inbox's. */
bool faz_inbox_read(const char *subject, uint8_t inbox[INBOX]);

/* Whether it is one of version 1, which were 32 digits: who hears it is answered, and so told that the version is another one. */
bool faz_inbox_is_older(const char *subject);

/* Takes a name over, without what isn't printed. */
void faz_name_clean(char out[FAZ_LOBBY_NAME_ROOM], const char *name);
#endif
