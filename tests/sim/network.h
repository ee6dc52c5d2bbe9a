/* The network between machines: datagrams on their way. What becomes of each is drawn: whether it is lost, how late it comes, and whether
 * it comes twice. All of it is drawn for each datagram, so that what is lost doesn't change how late the others are.
 *
 * The world that has the network says what a moment is. */
#ifndef SIM_NETWORK_H
#define SIM_NETWORK_H

#include "draws.h"

#include <fazgrond.h>
#include <stdbool.h>

typedef struct datagram {
    uint64_t due, order; /* the moment at which it comes, and how many were put on their way before */
    uint32_t from, to;
    size_t length;
    uint8_t bytes[1500];
} datagram;

typedef struct conditions {
    uint64_t delay; /* how long a datagram takes at least */
    uint64_t step;  /* it is late by so much .. */
    uint32_t late;  /* .. at most so many times */
    uint32_t lost;  /* how many of a hundred are lost */
    uint32_t twice; /* of how many of a hundred of the others a second copy comes */
} conditions;

typedef struct network {
    conditions conditions;
    draws draws;
    datagram **way; /* what is on its way, as a heap: first what comes first */
    size_t count, room;
    uint64_t orders;
} network;

/* Sends a copy of a datagram at a moment: of it `due` and `order` aren't read. */
void network_send(network *self, const datagram *sent, uint64_t now);

/* Puts a copy on its way that is neither lost nor comes twice. */
void network_put(network *self, const datagram *sent, uint64_t due);

/* What is on its way to a machine is lost. */
void network_lose(network *self, uint32_t to);

/* When the next one comes: UINT64_MAX if none is on its way. */
uint64_t network_due(const network *self);

/* Takes the next one; it is the caller's, to be freed. */
datagram *network_take(network *self);

void network_close(network *self);

/* A copy of a datagram, with the bytes that it has alone; it is the caller's, to be freed. */
datagram *datagram_copied(const datagram *sent);
#endif
