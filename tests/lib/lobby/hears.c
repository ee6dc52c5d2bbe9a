/* Subscriptions that give way to others, and connections that end, while messages for them come: libnats' thread that reads may be about to
 * put one into what isn't heard any more. */
#include "../../../lib/lobby/broker.h"
#include "../../check.h"

#include <arpa/inet.h>
#include <nats/nats.h>
#include <poll.h>
#include <pthread.h>
#include <stdio.h>
#include <stdlib.h>
#include <string.h>
#include <sys/socket.h>
#include <time.h>
#include <unistd.h>

/* So many connections, and subjects by each; messages to each subscription; and milliseconds at most for each connection. */
enum { CONNECTIONS = 20, SUBJECTS = 100, AT_ONCE = 200, PATIENCE = 20000 };

static uint32_t now(void) {
    struct timespec time;
    clock_gettime(CLOCK_MONOTONIC, &time);
    return (uint32_t)((uint64_t)time.tv_sec * 1000 + (uint64_t)time.tv_nsec / 1000000);
}

/* ---- the broker */

static void say(int to, const char *text) { (void)!send(to, text, strlen(text), MSG_NOSIGNAL); }

static void say_all(int to, unsigned long subscription) {
    char message[64], all[sizeof message * AT_ONCE] = "";
    int length = snprintf(message, sizeof message, "MSG room %lu 4\r\nword\r\n", subscription);
    for (int at = 0; at < AT_ONCE; at++)
        memcpy(all + at * length, message, (size_t)length + 1);
    say(to, all);
}

/* Answers what is asked, and says much to each subscription, which may be over by then. */
static void talk(int to) {
    char line[4096];
    FILE *lines = fdopen(dup(to), "r");
    MUST(lines != NULL);
    say(to, "INFO {\"server_id\":\"x\",\"version\":\"2.9.10\",\"headers\":true,\"max_payload\":1048576}\r\n");
    while (fgets(line, sizeof line, lines) != NULL) {
        if (strncmp(line, "PING", 4) == 0)
            say(to, "PONG\r\n");
        if (strncmp(line, "SUB ", 4) == 0)
            say_all(to, strtoul(strrchr(line, ' '), NULL, 10));
    }
    fclose(lines);
}

static void *run_broker(void *socket) {
    for (int one; (one = accept(*(int *)socket, NULL, NULL)) >= 0; close(one))
        talk(one);
    return NULL;
}

/* ---- who hears */

static bool is_heard(broker *self, uint32_t began) {
    broker_message message;
    bool is = false;
    while (!is && now() - began < PATIENCE)
        is = faz_lobby_broker_next(self, &message) && message.place == 1;
    return is;
}

static void hear_all(const char *url) {
    const char *why = NULL;
    char subject[BROKER_SUBJECT];
    uint32_t began = now();
    broker *self = faz_lobby_broker_open(url, NULL, &why);
    MUST(self != NULL);
    while (!faz_lobby_broker_is_there(self) && now() - began < PATIENCE) {
        faz_lobby_broker_turn(self, now());
        poll(NULL, 0, 1);
    }
    for (unsigned at = 0; at < SUBJECTS && !checks.is_wrong; at++) {
        snprintf(subject, sizeof subject, "room%u", at);
        faz_lobby_broker_hear(self, 1, subject);
        CHECK(is_heard(self, began));
    }
    faz_lobby_broker_close(self);
}

int main(void) {
    struct sockaddr_in at = { .sin_family = AF_INET, .sin_addr.s_addr = htonl(INADDR_LOOPBACK) };
    socklen_t length = sizeof at;
    pthread_t thread;
    char url[64];
    int listening = socket(AF_INET, SOCK_STREAM, 0);
    MUST(bind(listening, (const struct sockaddr *)&at, sizeof at) == 0 && listen(listening, 8) == 0
         && getsockname(listening, (struct sockaddr *)&at, &length) == 0);
    MUST(pthread_create(&thread, NULL, run_broker, &listening) == 0);
    snprintf(url, sizeof url, "nats://127.0.0.1:%u", (unsigned)ntohs(at.sin_port));
    for (int times = 0; times < CONNECTIONS && !checks.is_wrong; times++)
        hear_all(url);
    shutdown(listening, SHUT_RDWR);
    pthread_join(thread, NULL);
    close(listening);
    nats_CloseAndWait(PATIENCE);
    return checks_end();
}
