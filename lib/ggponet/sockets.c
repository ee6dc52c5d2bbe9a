/* A UDP socket. */
#include "inside.h"

#ifdef _WIN32
#ifndef SIO_UDP_CONNRESET
#define SIO_UDP_CONNRESET _WSAIOW(IOC_VENDOR, 12)
#endif
typedef WSAPOLLFD pollfd_t;
#define NO_SOCKET INVALID_SOCKET
#define close_socket closesocket
#define poll_sockets WSAPoll
#else
#include <arpa/inet.h>
#include <fcntl.h>
#include <poll.h>
#include <sys/socket.h>
#include <unistd.h>
typedef struct pollfd pollfd_t;
#define NO_SOCKET (-1)
#define close_socket close
#define poll_sockets poll
#endif

/* Microseconds: a wait for the socket, which is by milliseconds, and between two looks at a wire. */
enum { SHORTEST = 1000, LONGEST = 1000000, LOOK_EVERY = 1000 };

static bool begin_sockets(void) {
#ifdef _WIN32
    WSADATA data;
    return WSAStartup(MAKEWORD(2, 2), &data) == 0;
#else
    return true;
#endif
}

/* What comes back of a datagram to a machine that isn't there yet is no news: Windows would tell of it in place of a datagram. */
static bool make_unblocking(socket_t socket) {
#ifdef _WIN32
    u_long one = 1;
    BOOL tells = FALSE;
    DWORD size = 0;
    WSAIoctl(socket, SIO_UDP_CONNRESET, &tells, sizeof tells, NULL, 0, &size, NULL, NULL);
    return ioctlsocket(socket, FIONBIO, &one) == 0;
#else
    return fcntl(socket, F_SETFL, O_NONBLOCK) == 0;
#endif
}

static struct sockaddr_in address_of(uint32_t host, unsigned short port) {
    struct sockaddr_in address;
    memset(&address, 0, sizeof address);
    address.sin_family = AF_INET;
    address.sin_addr.s_addr = host;
    address.sin_port = htons(port);
    return address;
}

bool ggponet_read_address(const char *text, unsigned short port, struct sockaddr_in *address) {
    struct in_addr host;
    if (inet_pton(AF_INET, text, &host) != 1)
        return false;
    *address = address_of(host.s_addr, port);
    return true;
}

bool ggponet_is_address(const struct sockaddr_in *one, const struct sockaddr_in *other) {
    return one->sin_addr.s_addr == other->sin_addr.s_addr && one->sin_port == other->sin_port;
}

bool ggponet_open_port(GGPOSession *session, unsigned short port) {
    struct sockaddr_in address = address_of(htonl(INADDR_ANY), port);
    session->socket = begin_sockets() ? socket(AF_INET, SOCK_DGRAM, 0) : NO_SOCKET;
    if (session->socket == NO_SOCKET)
        return false;
    session->has_port = bind(session->socket, (struct sockaddr *)&address, sizeof address) == 0 && make_unblocking(session->socket);
    if (!session->has_port)
        close_socket(session->socket);
    return session->has_port;
}

void ggponet_close_port(GGPOSession *session) {
    if (session->has_port)
        close_socket(session->socket);
    session->has_port = false;
}

void ggponet_send_now(GGPOSession *session, int to, const uint8_t *bytes, size_t length) {
    if (ggponet_has_wire(session)) {
        ggponet_send_by_wire(session, to, bytes, length);
        return;
    }
    const struct sockaddr_in *address = &session->machine[to].address;
    /* What can't be sent is lost, as it may be anyway. */
    sendto(session->socket, (const char *)bytes, length, 0, (const struct sockaddr *)address, sizeof *address);
}

long ggponet_next_datagram(GGPOSession *session, struct sockaddr_in *from, uint8_t *bytes, size_t room) {
    socklen_t size = sizeof *from;
    if (ggponet_has_wire(session))
        return ggponet_next_of_wire(session, from, bytes, room);
    memset(from, 0, sizeof *from);
    return (long)recvfrom(session->socket, (char *)bytes, room, 0, (struct sockaddr *)from, &size);
}

void ggponet_wait_micros(GGPOSession *session, uint64_t time) {
    pollfd_t one;
    uint64_t most = ggponet_has_wire(session) ? LOOK_EVERY : LONGEST;
    time /= session->speed;
    if (time > most)
        time = most;
    if (time < SHORTEST || !session->is_open || ggponet_has_wire(session)) {
        ggponet_sleep_micros(time);
        return;
    }
    memset(&one, 0, sizeof one);
    one.fd = session->socket;
    one.events = POLLIN;
    poll_sockets(&one, 1, (int)(time / 1000));
}
