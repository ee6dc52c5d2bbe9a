/* What a lobby and the door say to each other, as bytes. The door is a program beside the broker: it draws short codes, of which
 * the first part is a plate, tells who has a plate where its host is heard, and gives out users and passwords of relays. It
 * never sees the second part of a code. Answers are sealed for who asked. */
#ifndef FAZ_DOOR_H
#define FAZ_DOOR_H

#include "keys.h"
#include "faz_lobby.h"

#define DOOR_SUBJECT "faz.door"

enum {
    DOOR_VERSION = 1,
    DOOR_PLATE = 3,      /* signs */
    DOOR_TOKEN = 16,     /* bytes of the name under which a host is heard */
    DOOR_MESSAGE = 1024, /* bytes at most */
    DOOR_WORD = 96,      /* room for an address, a user or a password */
    DOOR_KEPT = 60,      /* seconds for which a plate is its host's, if that doesn't ask again */
    DOOR_ANSWER = 'd'    /* the first byte of an answer */
};

typedef enum door_kind {
    DOOR_HOSTS = 'H', /* a plate for a token, or the same one for longer */
    DOOR_JOINS = 'J', /* the token of a plate */
    DOOR_RELAYS = 'R' /* neither: relays alone */
} door_kind;

typedef struct door_request {
    door_kind kind;
    uint8_t open[KEY];          /* the answer is sealed for it */
    char plate[DOOR_PLATE + 1]; /* of who hosts: the one that it has, or none */
    uint8_t token[DOOR_TOKEN];  /* of who hosts */
} door_request;

typedef enum door_status {
    DOOR_OK,
    DOOR_NO_PLATE, /* nobody hosts by this plate */
    DOOR_TOO_MANY, /* this address has asked too often */
    DOOR_FULL      /* there are no plates left */
} door_status;

typedef struct door_server {
    bool by_tcp;
    uint16_t port;
    char address[DOOR_WORD];
} door_server;

typedef struct door_answer {
    door_status status;
    char plate[DOOR_PLATE + 1];
    uint8_t token[DOOR_TOKEN];
    char stun[DOOR_WORD]; /* empty: there is none */
    uint16_t stun_port;
    uint32_t relays;
    door_server relay[FAZ_LINE_RELAYS];
    char user[DOOR_WORD], password[DOOR_WORD]; /* of all relays */
    uint32_t seconds;                          /* for which they are good */
} door_answer;

size_t faz_door_request_write(const door_request *self, uint8_t out[DOOR_MESSAGE]);
bool faz_door_request_read(door_request *self, const uint8_t *bytes, size_t length);
/* Zero: it is too long. */
size_t faz_door_answer_write(const door_answer *self, const uint8_t open[KEY], uint8_t out[DOOR_MESSAGE]);
bool faz_door_answer_read(door_answer *self, const uint8_t open[KEY], const uint8_t secret[KEY], const uint8_t *bytes, size_t length);
#endif
