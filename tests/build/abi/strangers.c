/* A machine of a match of two over UDP on this host: strangers ME PORT OTHERS_PORT. It looks for the other one for a while, and prints the
 * codes of what it was told. It is compiled with the headers of several versions. */
#define _POSIX_C_SOURCE 200809L
#include <arpa/inet.h>
#include <fazgrond.h>
#include <stdio.h>
#include <stdlib.h>
#include <sys/socket.h>
#include <time.h>
#include <unistd.h>

/* A turn takes 5 milliseconds, and 16 by the match's clock. */
enum { TURNS = 200, TURN = 16 };

static fazgrond_session session = FAZGROND_CLOSED;
static fazgrond_peer peer = FAZGROND_CLOSED;

static struct sockaddr_in address_of(const char *port) {
    struct sockaddr_in address = { .sin_family = AF_INET, .sin_port = htons((uint16_t)atoi(port)) };
    address.sin_addr.s_addr = htonl(INADDR_LOOPBACK);
    return address;
}

static int32_t open_match(uint32_t me) {
    fazgrond_settings settings = fazgrond_settings_for(2);
    fazgrond_match match = fazgrond_match_for(2, me);
    settings.local = 1u << me;
    match.owners[0] = 0;
    match.owners[1] = 1;
    match.draw = (uint64_t)getpid() << 8 | (me + 1);
    match.silent_after = 1000;
    fazgrond_one_number(&match, 7);
    int32_t code = fazgrond_open(&session, &settings);
    return code != FAZGROND_OK ? code : fazgrond_peer_open(&peer, &session, &match);
}

static void take_turn(int udp, const struct sockaddr_in *other, uint32_t me, uint32_t now) {
    uint8_t bytes[FAZGROND_DATAGRAM];
    fazgrond_event event;
    ssize_t came;
    size_t length;
    while ((came = recv(udp, bytes, sizeof bytes, MSG_DONTWAIT)) > 0)
        (void)fazgrond_peer_receive(&peer, &session, bytes, (size_t)came, now);
    (void)fazgrond_peer_poll(&peer, &session, now);
    while (fazgrond_peer_event(&peer, &event) == FAZGROND_OK)
        printf("%u\n", (unsigned)event.code);
    if (fazgrond_peer_send(&peer, &session, (uint8_t)(1 - me), now, bytes, sizeof bytes, &length) == FAZGROND_OK)
        (void)sendto(udp, bytes, length, 0, (const struct sockaddr *)other, sizeof *other);
}

int main(int count, char **words) {
    if (count != 4)
        return 2;
    uint32_t me = (uint32_t)atoi(words[1]) & 1;
    struct sockaddr_in own = address_of(words[2]), other = address_of(words[3]);
    int udp = socket(AF_INET, SOCK_DGRAM, 0);
    if (bind(udp, (const struct sockaddr *)&own, sizeof own) != 0 || open_match(me) != FAZGROND_OK)
        return 1;
    for (uint32_t turn = 0; turn < TURNS; turn++) {
        take_turn(udp, &other, me, turn * TURN);
        nanosleep(&(struct timespec){ .tv_nsec = 5000000 }, NULL);
    }
    fazgrond_peer_close(&peer);
    fazgrond_close(&session);
    return close(udp);
}
