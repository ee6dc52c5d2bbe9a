/* A bad line between machines that are namespaces of this one: line MACHINES DELAY JITTER LOSS [order]. Machine N is the namespace
 * faz-PID-N with the address 10.77.0.N, from 1 on. Packets come DELAY milliseconds later, by up to JITTER more or less, so that
 * they overtake unless they are to keep their order, and LOSS of a hundred are lost. It needs root and no support of the kernel but TUN
 * devices. It prints its own PID once the line is there, goes on until it is told to end, and takes the namespaces away. */
#define _GNU_SOURCE
#include <fcntl.h>
#include <linux/if.h>
#include <linux/if_tun.h>
#include <poll.h>
#include <sched.h>
#include <signal.h>
#include <stdbool.h>
#include <stdint.h>
#include <stdio.h>
#include <stdlib.h>
#include <string.h>
#include <sys/ioctl.h>
#include <time.h>
#include <unistd.h>

enum { MOST = 8, FIRST_BYTES = 20, LAST_OF_TO = 19 /* of an IPv4 address in the head */ };

typedef struct packet {
    struct packet *next;
    double due;
    int to;
    size_t length;
    uint8_t bytes[2048];
} packet;

static struct {
    int count, tuns[MOST];
    double delay, jitter, loss;
    bool is_ordered;
    double last[MOST][MOST]; /* when the last packet from here to there is due */
    packet *held;
    uint64_t passed, bytes, lost;
} self;
static volatile sig_atomic_t is_over;

static void stop(int number) { is_over = number; }

static double milliseconds(void) {
    struct timespec time;
    clock_gettime(CLOCK_MONOTONIC, &time);
    return (double)time.tv_sec * 1e3 + (double)time.tv_nsec / 1e6;
}

static bool run(const char *format, int number) {
    char text[256];
    snprintf(text, sizeof text, format, (int)getpid(), number, number, (int)getpid(), number, (int)getpid(), number);
    return system(text) == 0;
}

/* A namespace whose only way out is a TUN device, which this process holds. */
static int make_machine(int number) {
    char path[64];
    struct ifreq about = { .ifr_flags = IFF_TUN | IFF_NO_PI, .ifr_name = "line" };
    if (!run("ip netns add faz-%d-%d", number))
        return -1;
    snprintf(path, sizeof path, "/run/netns/faz-%d-%d", (int)getpid(), number);
    int here = open("/proc/self/ns/net", O_RDONLY), there = open(path, O_RDONLY), tun = -1;
    if (here >= 0 && there >= 0 && setns(there, CLONE_NEWNET) == 0) {
        tun = open("/dev/net/tun", O_RDWR | O_NONBLOCK);
        if (tun >= 0 && ioctl(tun, TUNSETIFF, &about) != 0)
            tun = -1;
        if (setns(here, CLONE_NEWNET) != 0)
            tun = -1;
    }
    close(here);
    close(there);
    return tun >= 0
            && run("ip -n faz-%d-%d addr add 10.77.0.%d/24 dev line && ip -n faz-%d-%d link set line up"
                   " && ip -n faz-%d-%d link set lo up",
                   number)
        ? tun
        : -1;
}

/* Behind all that are due no later. */
static void hold(packet *one) {
    packet **at = &self.held;
    while (*at != NULL && (*at)->due <= one->due)
        at = &(*at)->next;
    one->next = *at;
    *at = one;
}

static void take(int from) {
    packet *one;
    while ((one = malloc(sizeof *one)) != NULL) {
        ssize_t length = read(self.tuns[from], one->bytes, sizeof one->bytes);
        if (length < FIRST_BYTES)
            break;
        one->to = one->bytes[LAST_OF_TO] - 1;
        one->length = (size_t)length;
        one->due = milliseconds() + self.delay + self.jitter * (2 * drand48() - 1);
        bool is_known = one->bytes[0] >> 4 == 4 && one->to >= 0 && one->to < self.count;
        if (is_known && self.is_ordered && one->due < self.last[from][one->to])
            one->due = self.last[from][one->to];
        if (is_known && drand48() * 100 >= self.loss) {
            self.last[from][one->to] = one->due;
            hold(one);
        } else {
            self.lost++;
            free(one);
        }
    }
    free(one);
}

/* Passes on what is due, and says in how many milliseconds the next is. */
static double pass(void) {
    double now = milliseconds();
    for (packet *one; (one = self.held) != NULL && one->due <= now; free(one)) {
        bool is_passed = write(self.tuns[one->to], one->bytes, one->length) == (ssize_t)one->length;
        self.passed += is_passed;
        self.bytes += is_passed ? one->length : 0;
        self.held = one->next;
    }
    return self.held != NULL && self.held->due - now < 50 ? self.held->due - now : 50;
}

static void turn(void) {
    struct pollfd files[MOST];
    double next = pass();
    struct timespec rest = { 0, next < 0.1 ? 100000 : (long)(next * 1e6) };
    for (int at = 0; at < self.count; at++)
        files[at] = (struct pollfd){ self.tuns[at], POLLIN, 0 };
    ppoll(files, (nfds_t)self.count, &rest, NULL);
    for (int at = 0; at < self.count; at++)
        take(at);
}

int main(int count, char **words) {
    if (count < 5 || count > 6 || (count == 6 && strcmp(words[5], "order") != 0))
        return 2;
    int machines = atoi(words[1]);
    bool is_made = machines > 0 && machines <= MOST;
    self.delay = atof(words[2]);
    self.jitter = atof(words[3]);
    self.loss = atof(words[4]);
    self.is_ordered = count == 6;
    srand48(1);
    signal(SIGTERM, stop);
    signal(SIGINT, stop);
    for (; self.count < machines && is_made; self.count++)
        is_made = (self.tuns[self.count] = make_machine(self.count + 1)) >= 0;
    if (is_made) {
        printf("%d\n", (int)getpid());
        fflush(stdout);
    }
    while (is_made && !is_over)
        turn();
    for (int at = 1; at <= self.count; at++)
        run("ip netns del faz-%d-%d", at);
    fprintf(stderr, "%llu packets of %llu bytes were passed on, %llu lost\n", (unsigned long long)self.passed,
            (unsigned long long)self.bytes, (unsigned long long)self.lost);
    return is_made ? 0 : 1;
}
