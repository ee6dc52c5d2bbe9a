/* Presses the buttons of faz-retro's bot on RetroArch's network pad: retro_pads PORT SEED PLAYER FRAMES, PLAYER from 0 on. */
#define _POSIX_C_SOURCE 200809L
#include "../programs/retro/pads.h"

#include <arpa/inet.h>
#include <stdlib.h>
#include <sys/socket.h>
#include <time.h>

enum { JOYPAD = 1, FRAME = 16666667 /* nanoseconds */ };

struct message {
    int port, device, index, button;
    uint16_t state;
};

int main(int count, char **words) {
    if (count != 5)
        return 2;
    hand player = hand_of((uint64_t)atol(words[2]), (uint32_t)atol(words[3]));
    struct sockaddr_in to = { .sin_family = AF_INET,
                              .sin_port = htons((uint16_t)atoi(words[1])),
                              .sin_addr.s_addr = htonl(INADDR_LOOPBACK) };
    int line = socket(AF_INET, SOCK_DGRAM, 0);
    struct timespec due;
    uint32_t last = 0;
    clock_gettime(CLOCK_MONOTONIC, &due);
    for (long frame = 0; frame < atol(words[4]); frame++) {
        uint32_t word = hand_word(&player);
        for (int button = 0; button < 16; button++) {
            struct message one = { .device = JOYPAD, .button = button, .state = word >> button & 1 };
            if (((word ^ last) >> button & 1) != 0)
                (void)!sendto(line, &one, sizeof one, 0, (struct sockaddr *)&to, sizeof to);
        }
        last = word;
        due.tv_nsec += FRAME;
        due.tv_sec += due.tv_nsec / 1000000000;
        due.tv_nsec %= 1000000000;
        clock_nanosleep(CLOCK_MONOTONIC, TIMER_ABSTIME, &due, NULL);
    }
    return 0;
}
