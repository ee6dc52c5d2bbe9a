/* An internet between network namespaces: wan NAMESPACE,DEVICE,MILLISECONDS,ADDRESS[,NETWORK..]..
 *
 * It makes a TUN device in each namespace, and carries packets from one to the other by their addresses, each so many milliseconds
 * late at either end. ADDRESS is the device's, of IPv4; what is for a NETWORK, as 2001:db8:1::/48, goes to it too. What a device
 * sends to its own networks comes back to it at once. On its standard input it takes lines:
 *
 *     loss DEVICE PERCENT [FAMILY]     so many of the packets of a device are lost; with 4 or 6 those of IPv4 or IPv6 alone
 *     longest                          writes how many bytes the longest packet of IPv4, and of IPv6, had since this was asked last
 *     packets                          writes how many there were of each
 *
 * It writes `up` once all devices are there, and ends with its input. */
#define _GNU_SOURCE

#include <arpa/inet.h>
#include <fcntl.h>
#include <inttypes.h>
#include <linux/if.h>
#include <linux/if_tun.h>
#include <poll.h>
#include <sched.h>
#include <stdbool.h>
#include <stdio.h>
#include <stdlib.h>
#include <string.h>
#include <sys/ioctl.h>
#include <sys/socket.h>
#include <time.h>
#include <unistd.h>

enum { FAMILIES = 2, SIDES = 8, NETWORKS = 4, QUEUE = 1 << 14, MOST = 1600, BATCH = 64 };

typedef struct network {
    int family, bits;
    uint8_t bytes[sizeof(struct in6_addr)];
} network;

typedef struct side {
    char name[IFNAMSIZ];
    network network[NETWORKS]; /* the first one is its address */
    int networks;
    uint64_t delay; /* microseconds */
    int loss[FAMILIES], device;
} side;

/* Packets between two sides take all the same time, so each pair has them in a ring, in their order. */
typedef struct packet {
    uint64_t due;
    size_t length;
    uint8_t bytes[MOST];
} packet;

typedef struct road {
    packet *ring;
    uint32_t first, last;
} road;

static side sides[SIDES];
static road roads[SIDES][SIDES];
static int count;
static size_t longest[FAMILIES]; /* of IPv4, and of IPv6 */
static uint64_t packets[FAMILIES];

static _Noreturn void fail(const char *what) {
    perror(what);
    exit(1);
}

static uint64_t micros(void) {
    struct timespec now;
    clock_gettime(CLOCK_MONOTONIC, &now);
    return (uint64_t)now.tv_sec * 1000000 + (uint64_t)now.tv_nsec / 1000;
}

static void enter(const char *path) {
    int space = open(path, O_RDONLY);
    if (space < 0 || setns(space, CLONE_NEWNET) != 0)
        fail(path);
    close(space);
}

/* Sets what an interface has by a call of a socket. */
static void set(int control, unsigned long request, struct ifreq *what) {
    if (ioctl(control, request, what) != 0)
        fail(what->ifr_name);
}

static int device(const side *of, const char *space) {
    char path[200];
    struct ifreq what = { .ifr_flags = IFF_TUN | IFF_NO_PI };
    snprintf(path, sizeof path, "/run/netns/%s", space);
    enter(path);
    int made = open("/dev/net/tun", O_RDWR | O_NONBLOCK), control = socket(AF_INET, SOCK_DGRAM, 0);
    memcpy(what.ifr_name, of->name, sizeof what.ifr_name);
    if (made < 0 || control < 0 || ioctl(made, TUNSETIFF, &what) != 0)
        fail("a TUN device");
    struct sockaddr_in address = { .sin_family = AF_INET };
    memcpy(&address.sin_addr, of->network[0].bytes, sizeof address.sin_addr);
    memcpy(&what.ifr_addr, &address, sizeof address);
    set(control, SIOCSIFADDR, &what);
    what.ifr_flags = IFF_UP;
    set(control, SIOCSIFFLAGS, &what);
    close(control);
    return made;
}

/* An address, or a network behind it: ADDRESS/BITS. */
static void add_network(side *of, char *words) {
    network *to = &of->network[of->networks++];
    char *bits = strchr(words, '/');
    if (bits != NULL)
        *bits++ = 0;
    to->family = strchr(words, ':') != NULL ? AF_INET6 : AF_INET;
    to->bits = bits != NULL ? atoi(bits) : to->family == AF_INET ? 32 : 128;
    if (of->networks > NETWORKS || inet_pton(to->family, words, to->bytes) != 1)
        fail(words);
}

/* NAMESPACE,DEVICE,MILLISECONDS,ADDRESS.. */
static void add(char *words) {
    side *of = &sides[count++];
    char *space = strtok(words, ","), *name = strtok(NULL, ","), *delay = strtok(NULL, ","), *address = strtok(NULL, ",");
    if (address == NULL || count > SIDES)
        fail("its words");
    snprintf(of->name, sizeof of->name, "%s", name);
    of->delay = (uint64_t)atol(delay) * 1000;
    for (; address != NULL; address = strtok(NULL, ","))
        add_network(of, address);
    of->device = device(of, space);
}

static bool is_in(const network *self, int family, const uint8_t *address) {
    int bytes = self->bits / 8, rest = self->bits % 8;
    return self->family == family && memcmp(self->bytes, address, (size_t)bytes) == 0
        && (rest == 0 || (self->bytes[bytes] ^ address[bytes]) >> (8 - rest) == 0);
}

static int side_at(int family, const uint8_t *address) {
    for (int at = 0; at < count; at++)
        for (int n = 0; n < sides[at].networks; n++)
            if (is_in(&sides[at].network[n], family, address))
                return at;
    return -1;
}

/* For whom a packet is. */
static int side_of(const uint8_t *bytes, size_t length) {
    if (length >= 20 && bytes[0] >> 4 == 4)
        return side_at(AF_INET, bytes + 16);
    if (length >= 40 && bytes[0] >> 4 == 6)
        return side_at(AF_INET6, bytes + 24);
    return -1;
}

static void take(int from, const uint8_t *bytes, size_t length, uint64_t now) {
    int to = side_of(bytes, length);
    int family = to >= 0 && bytes[0] >> 4 == 6;
    if (to < 0 || rand() % 100 < sides[from].loss[family] || rand() % 100 < sides[to].loss[family])
        return;
    road *by = &roads[from][to];
    if (by->last - by->first == QUEUE || (by->ring == NULL && (by->ring = calloc(QUEUE, sizeof *by->ring)) == NULL))
        return;
    packet *one = &by->ring[by->last++ % QUEUE];
    one->due = to == from ? now : now + sides[from].delay + sides[to].delay;
    one->length = length;
    memcpy(one->bytes, bytes, length);
    if (length > longest[family])
        longest[family] = length;
    packets[family]++;
}

/* Gives out what is due, and answers when something will be. */
static uint64_t give(uint64_t now) {
    uint64_t next = now + 1000000;
    for (int from = 0; from < count; from++)
        for (int to = 0; to < count; to++) {
            road *by = &roads[from][to];
            for (; by->first != by->last && by->ring[by->first % QUEUE].due <= now; by->first++) {
                packet *one = &by->ring[by->first % QUEUE];
                if (write(sides[to].device, one->bytes, one->length) < 0)
                    continue; /* the device is full */
            }
            if (by->first != by->last && by->ring[by->first % QUEUE].due < next)
                next = by->ring[by->first % QUEUE].due;
        }
    return next;
}

static void lose(const char *name, int percent, int family) {
    for (int at = 0; at < count; at++)
        for (int of = 0; of < FAMILIES && strcmp(sides[at].name, name) == 0; of++)
            if (family == 0 || family == (of == 0 ? 4 : 6))
                sides[at].loss[of] = percent;
}

static void obey(const char *line) {
    char name[IFNAMSIZ];
    int percent, family = 0;
    if (sscanf(line, "loss %15s %d %d", name, &percent, &family) >= 2)
        lose(name, percent, family);
    if (strncmp(line, "longest", 7) == 0) {
        printf("longest %zu %zu\n", longest[0], longest[1]);
        memset(longest, 0, sizeof longest);
    }
    if (strncmp(line, "packets", 7) == 0) {
        printf("packets %" PRIu64 " %" PRIu64 "\n", packets[0], packets[1]);
        memset(packets, 0, sizeof packets);
    }
    fflush(stdout);
}

int main(int argc, char **argv) {
    struct pollfd polls[SIDES + 1] = { { .fd = 0, .events = POLLIN } };
    for (int at = 1; at < argc; at++) {
        add(argv[at]);
        polls[at] = (struct pollfd){ .fd = sides[at - 1].device, .events = POLLIN };
    }
    puts("up");
    fflush(stdout);
    for (;;) {
        uint64_t now = micros(), wait = give(now) - now;
        struct timespec until = { .tv_sec = (time_t)(wait / 1000000), .tv_nsec = (long)(wait % 1000000) * 1000 };
        ppoll(polls, (nfds_t)count + 1, &until, NULL);
        for (int at = 0; at < count; at++)
            for (int n = 0; n < BATCH && (polls[at + 1].revents & POLLIN); n++) {
                uint8_t bytes[MOST];
                ssize_t length = read(sides[at].device, bytes, sizeof bytes);
                if (length <= 0)
                    break;
                take(at, bytes, (size_t)length, micros());
            }
        if (polls[0].revents != 0) {
            char line[100];
            ssize_t length = read(0, line, sizeof line - 1);
            if (length <= 0)
                return 0;
            line[length] = 0;
            obey(line);
        }
    }
}
