#define _DEFAULT_SOURCE
#define _CRT_RAND_S /* Windows' random bits */
#include "net.h"

#include "../common/clock.h"

#include <stdio.h>
#include <stdlib.h>
#include <string.h>
#ifdef _WIN32
#include <ws2tcpip.h>
#ifndef SIO_UDP_CONNRESET
#define SIO_UDP_CONNRESET _WSAIOW(IOC_VENDOR, 12)
#endif
#else
#include <arpa/inet.h>
#include <fcntl.h>
#include <netdb.h>
#include <sys/random.h>
#include <unistd.h>
#endif

typedef struct late {
    struct late *next;
    uint32_t due;
    address to;
    size_t length;
    uint8_t bytes[FAZGROND_DATAGRAM];
} late;

#ifdef _WIN32
/* What comes back of a datagram to a machine that isn't there yet is no news: Windows would tell of it in place of a datagram. */
static bool make_unblocking(socket_t socket) {
    u_long one = 1;
    BOOL tells = FALSE;
    DWORD size = 0;
    WSAIoctl(socket, SIO_UDP_CONNRESET, &tells, sizeof tells, NULL, 0, &size, NULL, NULL);
    return ioctlsocket(socket, FIONBIO, &one) == 0;
}

static void close_socket(socket_t socket) { closesocket(socket); }

/* Sockets have to be begun before a name can be looked up. */
static bool begin_sockets(void) {
    WSADATA data;
    return WSAStartup(MAKEWORD(2, 2), &data) == 0;
}
#else
static bool make_unblocking(socket_t socket) { return fcntl(socket, F_SETFL, O_NONBLOCK) == 0; }

static void close_socket(socket_t socket) { close(socket); }

static bool begin_sockets(void) { return true; }
#endif

bool net_open(net *self, unsigned short port) {
    address here = { .sin_family = AF_INET, .sin_port = htons(port), .sin_addr.s_addr = htonl(INADDR_ANY) };
    self->socket = begin_sockets() ? socket(AF_INET, SOCK_DGRAM, 0) : (socket_t)-1;
    self->is_open = self->socket != (socket_t)-1;
    self->random = net_draw();
    return self->is_open && bind(self->socket, (struct sockaddr *)&here, sizeof here) == 0 && make_unblocking(self->socket);
}

void net_open_wire(net *self, const net_wire *wire) {
    self->random = net_draw();
    self->wire = wire;
}

void net_close(net *self) {
    while (self->late != NULL) {
        late *one = self->late;
        self->late = one->next;
        free(one);
    }
    if (self->is_open)
        close_socket(self->socket);
    self->is_open = false;
}

uint32_t net_now(const net *self) { return (uint32_t)((uint64_t)clock_micros() * self->speed / 1000); }

static uint32_t draw_below(net *self, uint32_t below) {
    self->random ^= self->random << 13;
    self->random ^= self->random >> 7;
    self->random ^= self->random << 17;
    return (uint32_t)(self->random >> 20) % below;
}

static void send_now(const net *self, const address *to, const uint8_t *bytes, size_t length) {
    if (self->wire != NULL) {
        self->wire->send(to, bytes, length);
        return;
    }
    /* what can't be sent is lost, as it may be anyway */
    (void)!sendto(self->socket, (const char *)bytes, length, 0, (const struct sockaddr *)to, sizeof *to);
}

void net_send(net *self, const address *to, const uint8_t *bytes, size_t length) {
    self->sent_bytes += length;
    if (self->loss > 0 && draw_below(self, 100) < self->loss)
        return;
    late *made = self->lag + self->jitter > 0 && length <= sizeof made->bytes ? malloc(sizeof *made) : NULL;
    if (made == NULL) {
        send_now(self, to, bytes, length);
        return;
    }
    uint32_t by = self->lag + draw_below(self, 2 * self->jitter + 1);
    *made = (late){ .next = self->late, .due = net_now(self) + (by > self->jitter ? by - self->jitter : 0), .to = *to, .length = length };
    memcpy(made->bytes, bytes, length);
    self->late = made;
}

void net_flush(net *self) {
    uint32_t now = net_now(self);
    if (self->wire != NULL)
        self->wire->turn();
    for (late **at = &self->late; *at != NULL;) {
        late *one = *at;
        if ((int32_t)(one->due - now) > 0) {
            at = &one->next;
            continue;
        }
        send_now(self, &one->to, one->bytes, one->length);
        *at = one->next;
        free(one);
    }
}

long net_next(net *self, address *from, uint8_t *bytes, size_t room) {
    socklen_t size = sizeof *from;
    if (self->wire != NULL)
        return self->wire->next(from, bytes, room);
    memset(from, 0, sizeof *from);
    return (long)recvfrom(self->socket, (char *)bytes, room, 0, (struct sockaddr *)from, &size);
}

void net_rest(net *self, int64_t micros) {
    int64_t end = clock_micros() + micros, left;
    net_flush(self);
    while ((left = end - clock_micros()) > 0) {
        if (self->late != NULL && left > 1000)
            left = 1000;
        nanosleep(&(struct timespec){ left / 1000000, left % 1000000 * 1000 }, NULL);
        net_flush(self);
    }
}

void net_drain(net *self) {
    while (self->late != NULL)
        net_rest(self, 1000);
}

bool address_read(const char *text, address *out) {
    const char *colon = strrchr(text, ':');
    struct addrinfo wanted = { .ai_family = AF_INET, .ai_socktype = SOCK_DGRAM }, *found;
    char name[256];
    if (colon == NULL || colon - text >= (long)sizeof name || strlen(colon + 1) == 0 || !begin_sockets())
        return false;
    snprintf(name, sizeof name, "%.*s", (int)(colon - text), text);
    if (getaddrinfo(name, colon + 1, &wanted, &found) != 0)
        return false;
    memcpy(out, found->ai_addr, sizeof *out);
    freeaddrinfo(found);
    return true;
}

bool address_is(const address *one, const address *other) {
    return one->sin_addr.s_addr == other->sin_addr.s_addr && one->sin_port == other->sin_port;
}

static bool is_drawn(uint64_t *bits) {
#ifdef _WIN32
    unsigned int high, low;
    bool is_there = rand_s(&high) == 0 && rand_s(&low) == 0;
    *bits = is_there ? (uint64_t)high << 32 | low : 0;
    return is_there;
#else
    return getrandom(bits, sizeof *bits, 0) == (ssize_t)sizeof *bits;
#endif
}

uint64_t net_draw(void) {
    uint64_t bits = 0;
    while (bits == 0)
        if (!is_drawn(&bits))
            bits = 0;
    return bits;
}
