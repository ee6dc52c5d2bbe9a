/* What the system has: a clock and random bits. */
#include "inside.h"

#ifndef _WIN32
#include <time.h>
#include <unistd.h>
#ifdef __linux__
#include <sys/random.h>
#else
#include <fcntl.h>
#endif
#endif

uint64_t ggponet_real_micros(void) {
#ifdef _WIN32
    LARGE_INTEGER ticks, second;
    QueryPerformanceFrequency(&second);
    QueryPerformanceCounter(&ticks);
    uint64_t now = (uint64_t)ticks.QuadPart, each = (uint64_t)second.QuadPart;
    return now / each * 1000000 + now % each * 1000000 / each;
#else
    struct timespec time;
    clock_gettime(CLOCK_MONOTONIC, &time);
    return (uint64_t)time.tv_sec * 1000000 + (uint64_t)time.tv_nsec / 1000;
#endif
}

uint64_t ggponet_micros(const GGPOSession *session) { return (ggponet_real_micros() - session->start) * session->speed; }

uint32_t ggponet_millis(const GGPOSession *session) { return (uint32_t)(ggponet_micros(session) / 1000); }

void ggponet_sleep_micros(uint64_t time) {
#ifdef _WIN32
    Sleep((DWORD)(time / 1000)); /* 0 lets others run */
#else
    struct timespec some = { (time_t)(time / 1000000), (long)(time % 1000000) * 1000 };
    nanosleep(&some, NULL);
#endif
}

static bool is_drawn(uint64_t *bits) {
#ifdef _WIN32
    unsigned int high, low;
    if (rand_s(&high) != 0 || rand_s(&low) != 0)
        return false;
    *bits = (uint64_t)high << 32 | low;
    return true;
#elif defined(__linux__)
    return getrandom(bits, sizeof *bits, 0) == (ssize_t)sizeof *bits;
#else
    int file = open("/dev/urandom", O_RDONLY);
    bool is_read = file >= 0 && read(file, bits, sizeof *bits) == (ssize_t)sizeof *bits;
    if (file >= 0)
        close(file);
    return is_read;
#endif
}

bool ggponet_new_draw(uint64_t *bits) {
    *bits = 0;
    for (int tries = 0; tries < 8 && *bits == 0; tries++)
        if (!is_drawn(bits))
            *bits = 0;
    return *bits != 0;
}

GGPOErrorCode ggponet_no_draw(GGPOSession *session) {
    return ggponet_refuse(session, GGPO_ERRORCODE_GENERAL_FAILURE, "the system gives no random bits");
}
