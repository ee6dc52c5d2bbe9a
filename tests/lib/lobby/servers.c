/* Names of servers that are looked up slowly, have two addresses or none, or that others have taken the place of by then; brokers that say
 * nothing, and such as end each connection; and lobbies that are closed meanwhile. It is linked with --wrap for getaddrinfo,
 * natsOptions_Create and natsOptions_Destroy. */
#include "../../../lib/lobby/inside.h"
#include "../../check.h"

#include <arpa/inet.h>
#include <nats/nats.h>
#include <netdb.h>
#include <pthread.h>
#include <stdatomic.h>
#include <stdio.h>
#include <stdlib.h>
#include <string.h>
#include <sys/socket.h>
#include <time.h>
#include <unistd.h>

/* Milliseconds: at most, and for threads that are about to begin or to end. */
enum { PATIENCE = 5000, LAST = 200 };

int __real_getaddrinfo(const char *name, const char *service, const struct addrinfo *hints, struct addrinfo **found);
int __wrap_getaddrinfo(const char *name, const char *service, const struct addrinfo *hints, struct addrinfo **found);

static atomic_bool is_slow; /* names have no answer until it is false */
static atomic_int asked, answered, begun, ended;

static void wait_a_little(void) { nanosleep(&(struct timespec){ .tv_nsec = 1000000 }, NULL); }

natsStatus __real_natsOptions_Create(natsOptions **options);
natsStatus __wrap_natsOptions_Create(natsOptions **options);
void __real_natsOptions_Destroy(natsOptions *options);
void __wrap_natsOptions_Destroy(natsOptions *options);

/* Tries to connect, which go on beside what has begun them. */
natsStatus __wrap_natsOptions_Create(natsOptions **options) {
    begun++;
    return __real_natsOptions_Create(options);
}

void __wrap_natsOptions_Destroy(natsOptions *options) {
    __real_natsOptions_Destroy(options);
    ended++;
}

/* both.example has an address of each family, IPv6 first, and four.example one of IPv4. */
int __wrap_getaddrinfo(const char *name, const char *service, const struct addrinfo *hints, struct addrinfo **found) {
    bool is_name = strstr(name, ".example") != NULL && !(hints->ai_flags & AI_NUMERICHOST);
    if (!is_name)
        return __real_getaddrinfo(name, service, hints, found);
    asked++;
    while (is_slow)
        wait_a_little();
    int answer = EAI_NONAME;
    if (strcmp(name, "both.example") == 0) {
        answer = __real_getaddrinfo("2001:db8::5", service, hints, found);
        if (answer == 0)
            answer = __real_getaddrinfo("127.0.0.5", service, hints, &(*found)->ai_next);
    } else if (strcmp(name, "four.example") == 0) {
        answer = __real_getaddrinfo("127.0.0.4", service, hints, found);
    }
    answered++;
    return answer;
}

/* ---- a lobby, whose broker isn't there */

static faz_lobby *opened(const char *broker, const char *stun, const char *relay, uint32_t relays) {
    const char *why = NULL;
    faz_lobby_settings settings = { .broker = broker, .players = 2, .stun = stun, .stun_port = 3478, .relay_count = relays };
    for (uint32_t at = 0; at < relays; at++)
        settings.relays[at] = (faz_line_relay){ relay, (uint16_t)(1000 + at), "user", "before", at % 2 != 0 };
    faz_lobby *self = faz_lobby_host(&settings, &why);
    CHECK_SAY(self != NULL, "%s", why != NULL ? why : "a host");
    return self;
}

static const char *const NOBODY = "nats://127.0.0.1:1";

/* Whether its servers have addresses within some seconds. */
static bool has_addresses(faz_lobby *self) {
    uint32_t now = 0;
    for (; now < PATIENCE && !self->has_addresses; now++) {
        faz_lobby_turn(self, now);
        wait_a_little();
    }
    return self->has_addresses;
}

static bool is_relay(const faz_lobby *self, uint32_t at, const char *address, uint16_t port, const char *password) {
    const faz_line_relay *relay = &self->line.relays[at];
    return at < self->line.relay_count && strcmp(relay->address, address) == 0 && relay->port == port
        && strcmp(relay->password, password) == 0;
}

static bool is_away_told(faz_lobby *self) {
    bool is = false;
    for (faz_lobby_event event; faz_lobby_next_event(self, &event);)
        is = is || (event.what == FAZ_LOBBY_AWAY && strstr(event.text, "has no address") != NULL);
    return is;
}

/* ---- tests */

static void test_families(void) {
    faz_lobby *self = opened(NOBODY, "both.example", "both.example", 5);
    CHECK_SAY(has_addresses(self) && self->line.relay_count == 8, "eight relays of five with both families");
    for (uint32_t at = 0; at < 8; at++)
        CHECK_SAY(is_relay(self, at, at < 5 ? "2001:db8::5" : "127.0.0.5", (uint16_t)(1000 + at % 5), "before"),
                  "a relay of both families");
    CHECK_SAY(self->line.stun != NULL && strcmp(self->line.stun, "127.0.0.5") == 0, "the address of IPv4 of a STUN server");
    CHECK_SAY(!is_away_told(self), "all have addresses");
    faz_lobby_close(self);
}

static void test_nowhere(void) {
    faz_lobby *self = opened(NOBODY, "both.example", "nowhere.example", 2);
    CHECK_SAY(has_addresses(self) && self->line.relay_count == 0 && self->line.stun != NULL && is_away_told(self),
              "relays without addresses");
    faz_lobby_close(self);
}

/* Other relays come while names are looked up: by addresses, and by another name. */
static void test_overtaken(const char *address, const char *due) {
    is_slow = true;
    int before = asked;
    faz_lobby *self = opened(NOBODY, "four.example", "both.example", 2);
    door_answer answer = { .stun = "four.example", .stun_port = 1, .relays = 1, .relay[0].port = 7, .user = "user", .password = "later" };
    for (uint32_t now = 0; now < PATIENCE && asked == before; now++) {
        faz_lobby_turn(self, now);
        wait_a_little();
    }
    CHECK_SAY(self->looking != NULL && !self->has_addresses, "names are looked up");
    strcpy(answer.relay[0].address, address);
    faz_lobby_take_servers(self, &answer);
    is_slow = false;
    CHECK_SAY(has_addresses(self) && self->line.relay_count > 0 && is_relay(self, 0, due, 7, "later"), "the relay that came later");
    CHECK_SAY(self->line.stun != NULL && strcmp(self->line.stun, "127.0.0.4") == 0 && !is_away_told(self), "its STUN server");
    faz_lobby_close(self);
}

/* Closed while names are looked up, which go on beside. */
static void test_closed(void) {
    is_slow = true;
    int before = asked, after = answered;
    faz_lobby *self = opened(NOBODY, "four.example", "both.example", 2);
    for (uint32_t now = 0; now < PATIENCE && asked == before; now++) {
        faz_lobby_turn(self, now);
        wait_a_little();
    }
    faz_lobby_close(self);
    is_slow = false;
    for (uint32_t now = 0; now < PATIENCE && answered < after + 3; now++)
        wait_a_little();
    CHECK_SAY(answered == after + 3, "what was begun is ended");
}

/* ---- brokers: one that takes connections and says nothing, and one that ends each when it is there */

static struct {
    int socket;
    bool answers;
    atomic_bool is_over;
    atomic_int taken; /* connections that were there */
    char url[64];
    pthread_t thread;
} server;

/* Answers its first question, after which it is connected. */
static void talk(int to) {
    static const char info[] = "INFO {\"server_id\":\"x\",\"version\":\"2.9.10\",\"headers\":true,\"max_payload\":1048576}\r\n";
    static const char pong[] = "PONG\r\n";
    char bytes[4096];
    size_t length = 0;
    if (send(to, info, sizeof info - 1, MSG_NOSIGNAL) < 0)
        return;
    for (ssize_t more; length < sizeof bytes - 1 && (more = recv(to, bytes + length, sizeof bytes - 1 - length, 0)) > 0;) {
        length += (size_t)more;
        bytes[length] = 0;
        if (strstr(bytes, "PING\r\n") != NULL)
            break;
    }
    server.taken += send(to, pong, sizeof pong - 1, MSG_NOSIGNAL) > 0;
    nanosleep(&(struct timespec){ .tv_nsec = 10000000 }, NULL);
}

static void *run_broker(void *nothing) {
    for (int one; !server.is_over && (one = accept(server.socket, NULL, NULL)) >= 0;) {
        if (server.answers)
            talk(one);
        close(one);
    }
    return nothing;
}

static void begin_broker(bool answers) {
    struct sockaddr_in at = { .sin_family = AF_INET, .sin_addr.s_addr = htonl(INADDR_LOOPBACK) };
    socklen_t length = sizeof at;
    server.answers = answers;
    server.is_over = false;
    server.socket = socket(AF_INET, SOCK_STREAM, 0);
    CHECK_SAY(bind(server.socket, (const struct sockaddr *)&at, sizeof at) == 0 && listen(server.socket, 64) == 0
                  && getsockname(server.socket, (struct sockaddr *)&at, &length) == 0,
              "a broker");
    snprintf(server.url, sizeof server.url, "nats://127.0.0.1:%u", (unsigned)ntohs(at.sin_port));
    if (answers)
        pthread_create(&server.thread, NULL, run_broker, NULL);
}

static void end_broker(void) {
    server.is_over = true;
    shutdown(server.socket, SHUT_RDWR);
    if (server.answers)
        pthread_join(server.thread, NULL);
    close(server.socket);
}

/* Lobbies that are closed at any moment: each has had a turn more than the one before, of so many milliseconds. */
static void close_after(uint32_t most, uint32_t each) {
    for (uint32_t turns = 0; turns < most; turns++) {
        faz_lobby *self = opened(server.url, NULL, NULL, 0);
        for (uint32_t at = 0; at < turns; at++) {
            faz_lobby_turn(self, at * each);
            wait_a_little();
        }
        faz_lobby_close(self);
    }
}

static void test_silent(void) {
    begin_broker(false);
    close_after(20, 1);
    end_broker();
}

/* The game's time runs faster than the machine's, so that there are more connections. */
static void test_ending(void) {
    begin_broker(true);
    close_after(60, 20);
    faz_lobby *self = opened(server.url, NULL, NULL, 0);
    int before = server.taken;
    for (uint32_t now = 0; now < PATIENCE && server.taken < before + 3; now++) {
        faz_lobby_turn(self, now);
        wait_a_little();
    }
    CHECK_SAY(server.taken >= before + 3, "another connection each time");
    faz_lobby_close(self);
    end_broker();
}

int main(void) {
    test_families();
    test_nowhere();
    test_overtaken("203.0.113.9", "203.0.113.9");
    test_overtaken("four.example", "127.0.0.4");
    test_closed();
    test_silent();
    test_ending();
    for (uint32_t waited = 0; waited < LAST || (waited < PATIENCE && ended < begun); waited++)
        wait_a_little();
    nats_CloseAndWait(PATIENCE);
    return checks_end();
}
