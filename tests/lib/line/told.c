/* What a line tells the other machine, searched for the addresses of this one: told PORT USER PASSWORD, of relay.py at this machine */
#define _DEFAULT_SOURCE

#include "faz_line.h"
#include "../../../lib/line/seal.h"
#include "../../check.h"

#include <arpa/inet.h>
#include <ifaddrs.h>
#include <net/if.h>
#include <stdio.h>
#include <stdlib.h>
#include <string.h>
#include <time.h>

enum { MILLISECONDS = 5000, ROOM = 1 << 16, ADDRESSES = 64 };

/* This machine's. */
typedef struct address {
    int family;
    bool is_near; /* nobody else reaches it */
    char text[INET6_ADDRSTRLEN];
} address;

static address addresses[ADDRESSES];
static int count;

static void find_addresses(void) {
    struct ifaddrs *all = NULL;
    getifaddrs(&all);
    for (struct ifaddrs *one = all; one != NULL && count < ADDRESSES; one = one->ifa_next) {
        address *to = &addresses[count];
        to->family = one->ifa_addr != NULL ? one->ifa_addr->sa_family : AF_UNSPEC;
        if (to->family != AF_INET && to->family != AF_INET6)
            continue;
        const struct in6_addr *six = &((const struct sockaddr_in6 *)(const void *)one->ifa_addr)->sin6_addr;
        const struct in_addr *four = &((const struct sockaddr_in *)(const void *)one->ifa_addr)->sin_addr;
        inet_ntop(to->family, to->family == AF_INET ? (const void *)four : six, to->text, sizeof to->text);
        to->is_near = (one->ifa_flags & IFF_LOOPBACK) != 0 || (to->family == AF_INET6 && IN6_IS_ADDR_LINKLOCAL(six));
        count++;
    }
    freeifaddrs(all);
}

/* Where this machine's lines ask its relay: they leave out what is near, if there is anything else. */
static const char *relay_at(int family) {
    const char *near = NULL;
    for (int at = 0; at < count; at++)
        if (addresses[at].family == family && !addresses[at].is_near)
            return addresses[at].text;
        else if (addresses[at].family == family)
            near = addresses[at].text;
    return near;
}

/* How many of this machine's addresses are in what was told, and those as which the relay sees it. */
static int found_in(const char *told) {
    int found = strstr(told, "198.51.100.7") != NULL || strstr(told, "2001:db8::7") != NULL;
    for (int at = 0; at < count; at++)
        found += strstr(told, addresses[at].text) != NULL;
    return found;
}

/* Each text that a line tells is a row of what comes back, until it has told that there are no more. */
static void tell(const faz_line_settings *how, char told[ROOM]) {
    faz_line_keys ours, theirs;
    faz_line_settings settings = *how;
    seal other;
    uint8_t bytes[FAZ_LINE_SIGNAL];
    char inside[FAZ_LINE_SIGNAL];
    const char *why;
    size_t length;
    faz_line_draw(&ours);
    faz_line_draw(&theirs);
    faz_line_seal_open(&other, false, theirs.open, theirs.secret, ours.open);
    settings.keys = &ours;
    settings.their = theirs.open;
    settings.other = 1;
    faz_line *line = faz_line_open(&settings, &why);
    CHECK_SAY(line != NULL, "a line");
    *told = 0;
    for (uint32_t now = 0; line != NULL && now < MILLISECONDS && strstr(told, "\ne") == NULL; now++) {
        faz_line_turn(line, now);
        while (faz_line_signal(line, bytes, sizeof bytes, &length)) {
            CHECK_SAY(faz_line_seal_read(&other, (uint8_t *)inside, bytes, length), "a signal is read");
            for (char *at = inside + 4; at < inside + length - NOTE_OVERHEAD; at += strlen(at) + 1)
                strcat(strcat(told, at), "\n");
        }
        nanosleep(&(struct timespec){ .tv_nsec = 1000000 }, NULL);
    }
    faz_line_close(line);
}

int main(int words, char **word) {
    static char told[ROOM], hidden[ROOM];
    if (words != 4)
        return 2;
    find_addresses();
    faz_line_settings settings = { 0 };
    for (int family = AF_INET; family != 0; family = family == AF_INET ? AF_INET6 : 0)
        if (relay_at(family) != NULL)
            settings.relays[settings.relay_count++] = (faz_line_relay){ relay_at(family), (uint16_t)atoi(word[1]), word[2], word[3],
                                                                        false };
    tell(&settings, told);
    CHECK_SAY(found_in(told) > 0 && strstr(told, "203.0.113.10 50000 typ relay") != NULL, "a line tells this machine's addresses:\n%s",
              told);
    settings.relay_only = true;
    tell(&settings, hidden);
    CHECK_SAY(found_in(hidden) == 0, "by a relay alone this machine's address is told:\n%s", hidden);
    CHECK_SAY(strstr(hidden, "203.0.113.10 50000 typ relay raddr 0.0.0.0 rport 0\n") != NULL, "a place of IPv4:\n%s", hidden);
    if (strstr(told, "2001:db8::a0") != NULL)
        CHECK_SAY(strstr(hidden, "2001:db8::a0 50000 typ relay raddr 0.0.0.0 rport 0\n") != NULL, "a place of IPv6:\n%s", hidden);
    else
        puts("skipped: a place of IPv6 (this machine has none)");
    return checks_end();
}
