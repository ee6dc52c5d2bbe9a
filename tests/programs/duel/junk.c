/* Sends datagrams of no match to a port of this machine: junk PORT COUNT. Some begin as those of a match do. */
#define _POSIX_C_SOURCE 200809L
#include <arpa/inet.h>
#include <netinet/in.h>
#include <stdint.h>
#include <stdlib.h>
#include <string.h>
#include <sys/socket.h>
#include <time.h>

int main(int count, char **words) {
    static const uint8_t head[] = { 0x46, 0x5a, 0x47, 0x33 };
    struct sockaddr_in to = { .sin_family = AF_INET };
    uint64_t random = 0x9e3779b97f4a7c15u;
    int made = socket(AF_INET, SOCK_DGRAM, 0);
    if (count != 3 || made < 0)
        return 2;
    to.sin_addr.s_addr = htonl(INADDR_LOOPBACK);
    to.sin_port = htons((uint16_t)atoi(words[1]));
    for (int sent = 0; sent < atoi(words[2]); sent++) {
        uint8_t bytes[1500];
        for (size_t at = 0; at < sizeof bytes; at++) {
            random ^= random << 13;
            random ^= random >> 7;
            random ^= random << 17;
            bytes[at] = (uint8_t)(random >> 32);
        }
        if (sent % 2 == 0)
            memcpy(bytes, head, sizeof head);
        bytes[12] = (uint8_t)(sent / 2 % 3);
        sendto(made, bytes, (size_t)(random >> 8) % (sizeof bytes + 1), 0, (struct sockaddr *)&to, sizeof to);
        nanosleep(&(struct timespec){ 0, 100000 }, NULL);
    }
    return 0;
}
