/* A way between two machines, which is looked for by what they tell each other, and then carries datagrams. Nothing happens but in
 * these calls, and none of them waits. ice_nice.c finds ways by ICE, through NATs and by relays, with libnice; udp.c has a plain
 * socket, for a LAN. What goes along a way isn't hidden here, and may come from anybody. */
#ifndef FAZ_ICE_H
#define FAZ_ICE_H

/* What is compiled as a library for other languages shows these calls, and no other. */
#pragma GCC visibility push(default)
#include "faz_line.h"
#pragma GCC visibility pop

typedef struct ice ice;

typedef enum ice_state { ICE_LOOKING, ICE_THERE, ICE_NONE } ice_state;

typedef struct ice_settings {
    const faz_line_settings *line;
    bool leads; /* one of the two does */
    void (*came)(void *of, ice *from, const uint8_t *bytes, size_t length);
    void *of;
} ice_settings;

/* A text that is told has less than so many bytes, and a way tells less than so many of them. */
enum { ICE_TEXT = 256, ICE_TEXTS = 48 };

/* Begins to look for a way; null if there is no memory or no socket, or nothing to hide behind for `relay_only`. */
ice *faz_line_ice_open(const ice_settings *settings);

/* Sends and takes what is due, and calls `came` for each datagram. */
void faz_line_ice_turn(ice *self);

/* The text at this place, from 0, of those to tell the other machine's way; null if there is none yet. They stay. */
const char *faz_line_ice_text(const ice *self, size_t at);

/* Takes a text that the other machine's way tells. It may come again, and in any order. */
void faz_line_ice_told(ice *self, const char *text);

ice_state faz_line_ice_look(const ice *self);
faz_line_way faz_line_ice_way(ice *self);
bool faz_line_ice_send(ice *self, const uint8_t *bytes, size_t length);

/* The way is good as it is: lets go of what was held for others, as places on relays. */
void faz_line_ice_settle(ice *self);

/* Closes it, and whatever servers hold for it. It is called again, each turn, until it is true: then the way is gone. */
bool faz_line_ice_close(ice *self);

/* Lets go of it at once, whatever servers still hold. */
void faz_line_ice_drop(ice *self);

/* Waits for a millisecond. Lobbies call this and the next one, which are therefore seen outside of the archive of lines. */
void faz_ice_wait(void);

/* A sum of this machine's addresses: another one if they change. */
uint64_t faz_ice_addresses(void);
#endif
