/* Ways on a LAN, by a plain UDP socket and nothing else: it tells its addresses, and asks each of the other machine's until one
 * answers, so there is none for a machine that isn't to be seen. What asks and answers has a word that the other machine's way told, so
 * that nobody else's answer counts. */
#define _DEFAULT_SOURCE

#include "ice.h"

#include <arpa/inet.h>
#include <fcntl.h>
#include <ifaddrs.h>
#include <net/if.h>
#include <sodium.h>
#include <stdio.h>
#include <stdlib.h>
#include <string.h>
#include <sys/socket.h>
#include <time.h>
#include <unistd.h>

enum {
    WORD = 8,
    PROBE = 2 + WORD,
    FIRST = 0xf2,
    ASKS = 1,
    ANSWERS = 2,
    ADDRESSES = 16,
    DATAGRAMS = 256,
    MOST = 1500,
    PAUSE = 100,
    ROOM = 1 << 20
};

struct ice {
    ice_settings settings;
    int socket;
    uint8_t ours[WORD], theirs[WORD]; /* words */
    bool has_theirs, is_there;
    struct sockaddr_in to, asked[ADDRESSES];
    size_t addresses;
    uint64_t asked_at;
    char text[ICE_TEXTS][ICE_TEXT];
    size_t texts;
};

static uint64_t clock_now(void) {
    struct timespec now;
    clock_gettime(CLOCK_MONOTONIC, &now);
    return (uint64_t)now.tv_sec * 1000 + (uint64_t)now.tv_nsec / 1000000;
}

/* Calls `each` for each IPv4 address of this machine. Where there is a network, the one that leads nowhere else isn't one. */
static void of_addresses(void (*each)(void *of, const struct sockaddr_in *address), void *of) {
    struct ifaddrs *all = NULL;
    bool has_network = false;
    if (getifaddrs(&all) != 0)
        return;
    for (int of_loopback = 0; of_loopback < 2 && !has_network; of_loopback++)
        for (struct ifaddrs *one = all; one != NULL; one = one->ifa_next)
            if (one->ifa_addr != NULL && one->ifa_addr->sa_family == AF_INET && (one->ifa_flags & IFF_UP)
                && !(one->ifa_flags & IFF_LOOPBACK) == !of_loopback) {
                each(of, (const struct sockaddr_in *)(const void *)one->ifa_addr);
                has_network = true;
            }
    freeifaddrs(all);
}

static void add_address(void *of, const struct sockaddr_in *address) {
    uint64_t *sum = of;
    *sum += UINT64_C(0x9e3779b97f4a7c15) * (address->sin_addr.s_addr + UINT64_C(1));
}

uint64_t faz_ice_addresses(void) {
    uint64_t sum = 0;
    of_addresses(add_address, &sum);
    return sum;
}

static void tell_address(void *of, const struct sockaddr_in *address) {
    ice *self = of;
    char number[INET_ADDRSTRLEN];
    struct sockaddr_in own;
    socklen_t size = sizeof own;
    if (self->texts < ICE_TEXTS && getsockname(self->socket, (struct sockaddr *)&own, &size) == 0
        && inet_ntop(AF_INET, &address->sin_addr, number, sizeof number) != NULL)
        snprintf(self->text[self->texts++], ICE_TEXT, "a %s %d", number, ntohs(own.sin_port));
}

ice *faz_line_ice_open(const ice_settings *settings) {
    struct sockaddr_in any = { .sin_family = AF_INET };
    char word[2 * WORD + 1];
    ice *self = settings->line->relay_only ? NULL : calloc(1, sizeof *self);
    if (self == NULL)
        return NULL;
    self->settings = *settings;
    self->socket = socket(AF_INET, SOCK_DGRAM, 0);
    if (self->socket < 0 || fcntl(self->socket, F_SETFL, O_NONBLOCK) != 0 || bind(self->socket, (struct sockaddr *)&any, sizeof any) != 0) {
        faz_line_ice_drop(self);
        return NULL;
    }
    setsockopt(self->socket, SOL_SOCKET, SO_RCVBUF, &(int){ ROOM }, sizeof(int));
    randombytes_buf(self->ours, WORD);
    snprintf(self->text[self->texts++], ICE_TEXT, "w %s", sodium_bin2hex(word, sizeof word, self->ours, WORD));
    of_addresses(tell_address, self);
    return self;
}

static void probe(ice *self, const struct sockaddr_in *to, uint8_t kind) {
    uint8_t bytes[PROBE] = { FIRST, kind };
    memcpy(bytes + 2, self->theirs, WORD);
    sendto(self->socket, bytes, sizeof bytes, 0, (const struct sockaddr *)to, sizeof *to);
}

/* The other machine asks or answers: its word is this one's. */
static void probed(ice *self, const struct sockaddr_in *from, const uint8_t *bytes) {
    if (!self->has_theirs || sodium_memcmp(bytes + 2, self->ours, WORD) != 0)
        return;
    if (bytes[1] == ASKS)
        probe(self, from, ANSWERS);
    if (bytes[1] == ANSWERS && !self->is_there) {
        self->to = *from;
        self->is_there = true;
    }
}

static void ask_all(ice *self) {
    if (self->is_there || !self->has_theirs || clock_now() - self->asked_at < PAUSE)
        return;
    self->asked_at = clock_now();
    for (size_t at = 0; at < self->addresses; at++)
        probe(self, &self->asked[at], ASKS);
}

void faz_line_ice_turn(ice *self) {
    uint8_t bytes[MOST];
    struct sockaddr_in from;
    ask_all(self);
    for (int n = 0; n < DATAGRAMS; n++) {
        socklen_t size = sizeof from;
        ssize_t length = recvfrom(self->socket, bytes, sizeof bytes, 0, (struct sockaddr *)&from, &size);
        if (length < 0)
            return;
        if (length == PROBE && bytes[0] == FIRST)
            probed(self, &from, bytes);
        else if (self->is_there && from.sin_addr.s_addr == self->to.sin_addr.s_addr && from.sin_port == self->to.sin_port)
            self->settings.came(self->settings.of, self, bytes, (size_t)length);
    }
}

const char *faz_line_ice_text(const ice *self, size_t at) { return at < self->texts ? self->text[at] : NULL; }

static void add(ice *self, const char *number, int port) {
    struct sockaddr_in to = { .sin_family = AF_INET, .sin_port = htons((uint16_t)port) };
    if (self->addresses == ADDRESSES || inet_pton(AF_INET, number, &to.sin_addr) != 1)
        return;
    for (size_t at = 0; at < self->addresses; at++)
        if (self->asked[at].sin_addr.s_addr == to.sin_addr.s_addr && self->asked[at].sin_port == to.sin_port)
            return;
    self->asked[self->addresses++] = to;
}

void faz_line_ice_told(ice *self, const char *text) {
    char word[64];
    int port;
    if (sscanf(text, "w %63s", word) == 1)
        self->has_theirs = sodium_hex2bin(self->theirs, WORD, word, strlen(word), NULL, NULL, NULL) == 0;
    else if (sscanf(text, "a %63s %d", word, &port) == 2 && port > 0 && port < 1 << 16)
        add(self, word, port);
}

ice_state faz_line_ice_look(const ice *self) { return self->is_there ? ICE_THERE : ICE_LOOKING; }

faz_line_way faz_line_ice_way(ice *self) { return self->is_there ? FAZ_LINE_LAN : FAZ_LINE_NO_WAY; }

bool faz_line_ice_send(ice *self, const uint8_t *bytes, size_t length) {
    return sendto(self->socket, bytes, length, 0, (const struct sockaddr *)&self->to, sizeof self->to) == (ssize_t)length;
}

void faz_line_ice_settle(ice *self) { (void)self; }

void faz_line_ice_drop(ice *self) {
    if (self->socket >= 0)
        close(self->socket);
    free(self);
}

bool faz_line_ice_close(ice *self) {
    faz_line_ice_drop(self);
    return true;
}

void faz_ice_wait(void) { nanosleep(&(struct timespec){ .tv_nsec = 1000000 }, NULL); }
