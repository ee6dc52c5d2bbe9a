/* A UDP socket, or what stands in its place, and a line that can be made worse for what this machine sends. */
#ifndef RETRO_NET_H
#define RETRO_NET_H

#include <fazgrond.h>
#include <stdbool.h>
#ifdef _WIN32
#define WIN32_LEAN_AND_MEAN
#include <winsock2.h>
#undef far /* a word of the compilers of before */
typedef SOCKET socket_t;
#else
#include <netinet/in.h>
typedef int socket_t;
#endif

typedef struct sockaddr_in address;

/* What may stand in the place of a socket. Addresses are names then. */
typedef struct net_wire {
    void (*turn)(void); /* once a turn, or more often */
    void (*send)(const address *to, const uint8_t *bytes, size_t length);
    long (*next)(address *from, uint8_t *bytes, size_t room); /* as net_next */
} net_wire;

typedef struct net {
    socket_t socket;
    bool is_open;
    const net_wire *wire;       /* null: there is the socket */
    uint32_t lag, jitter, loss; /* milliseconds, by how many more or less, and how many of a hundred are lost */
    uint32_t speed;             /* the clock runs so many times as fast */
    uint64_t random;
    uint64_t sent_bytes;
    struct late *late; /* what is on its way */
} net;

bool net_open(net *self, unsigned short port);
/* The same over a wire, which stays as it is. */
void net_open_wire(net *self, const net_wire *wire);
void net_close(net *self);
/* Milliseconds of the clock. */
uint32_t net_now(const net *self);
void net_send(net *self, const address *to, const uint8_t *bytes, size_t length);
/* Sends what is due by now. */
void net_flush(net *self);
/* Waits until all is sent. */
void net_drain(net *self);
/* The next datagram that has come, and how long it is; below 0 if there is none. */
long net_next(net *self, address *from, uint8_t *bytes, size_t room);
/* Rests for so many microseconds, but sends meanwhile what is due. */
void net_rest(net *self, int64_t micros);

/* "10.0.0.7:7000", or a name and a port. */
bool address_read(const char *text, address *out);
bool address_is(const address *one, const address *other);

/* 64 random bits of the system, never 0. */
uint64_t net_draw(void);
#endif
