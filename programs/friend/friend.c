/* Stands between a game and its friends: the machines meet by a code, and each of the others gets an address of this machine's
 * loopback, at which a game that knows of nothing but IPv4 and UDP plays with it. */
#define _POSIX_C_SOURCE 200809L
#include "../../lib/lobby/words.h"

#include "../common/options.h"
#include "../common/stops.h"

#include <arpa/inet.h>
#include <fcntl.h>
#include <inttypes.h>
#include <netinet/in.h>
#include <poll.h>
#include <stdio.h>
#include <sys/socket.h>
#include <time.h>
#include <unistd.h>

static const char usage[] =
    "faz-friend --host MACHINES --port PORT --broker URL [OPTIONS]    waits for the others, and tells the code\n"
    "faz-friend --join CODE --port PORT --broker URL [OPTIONS]        joins them\n"
    "Each machine has a game of its own at the UDP port PORT. To it, the machines of its friends are 127.0.0.2 (who hosts), 127.0.0.3\n"
    "(who joined first) and so on, all with the same port. It goes on until it is stopped.\n"
    "  --friends PORT   the port of all friends (100 more than PORT)\n"
    "  --name NAME      yours, as the others see it\n"
    "  --ask            who joins has to be let in: y or n, and Return\n"
    "  --door           the broker has a door: codes are short, who joins has to be let in, and relays are the door's\n"
    "  --stun ADDRESS[:PORT]    a STUN server: over the internet there has to be one\n"
    "  --relay USER:PASSWORD@ADDRESS[:PORT], --tcp-relay ..    a TURN server, for where no direct way is\n"
    "  --relay-only     the others don't see this machine's address\n"
    "  --rejoin         all say it: if this program stops, it is begun again by --join and the code that it tells then, and the\n"
    "                   games go on. Who has that code comes in the place of a machine that is silent\n"
    "  --begin-with N   with --host and --rejoin: goes on once N machines are there, and the others may come at any time\n"
    "  --trusted FILE   the certificates by which the broker is believed\n";

/* Keeps machines of another program out. */
#define DIGEST UINT64_C(0x66617a2d66726965)

enum { FIRST = 2 /* the last number of the host's address */, AT_ONCE = 256, REST = 1 /* a millisecond */, LONGER = 1600 };

/* The other machine, as the game here has it. */
typedef struct friend {
    int socket;              /* -1: there is none */
    struct sockaddr_in game; /* where the game sent from last; at first its port */
    uint64_t went, came, too_long, unsent;
}
friend;

static struct {
    faz_lobby *lobby;
    faz_lobby_match match;
    bool has_match;
    friend friends[FAZGROND_MACHINES];
    uint32_t asks; /* who wants to be let in; 0 if nobody */
    long host, port, friends_port;
    const char *join;
    lobby_words words;
} self;

static int fail(const char *why) {
    fprintf(stderr, "faz-friend: %s\n", why);
    return 1;
}

static uint32_t millis(void) {
    struct timespec now;
    clock_gettime(CLOCK_MONOTONIC, &now);
    return (uint32_t)((uint64_t)now.tv_sec * 1000 + (uint64_t)now.tv_nsec / 1000000);
}

/* ---- the game here */

static struct sockaddr_in loopback(uint32_t last, long port) {
    return (struct sockaddr_in){ .sin_family = AF_INET,
                                 .sin_port = htons((uint16_t)port),
                                 .sin_addr.s_addr = htonl(INADDR_LOOPBACK - 1 + last) };
}

static bool open_friend(uint32_t machine) {
    friend *it = &self.friends[machine];
    struct sockaddr_in here = loopback(FIRST + machine, self.friends_port);
    *it = (friend){ .socket = socket(AF_INET, SOCK_DGRAM, 0), .game = loopback(1, self.port) };
    if (it->socket < 0 || bind(it->socket, (struct sockaddr *)&here, sizeof here) != 0 || fcntl(it->socket, F_SETFL, O_NONBLOCK) != 0)
        return false;
    bool is_vacant = (self.match.vacant >> machine & 1) != 0;
    printf("127.0.0.%" PRIu32 ":%ld is %s\n", FIRST + machine, self.friends_port, is_vacant ? "nobody yet" : self.match.names[machine]);
    return true;
}

/* The next datagram that the game has sent to a friend, whose answers go to where it came from; its length, below 0 if there is
 * none. */
static ssize_t next_of_game(friend *it, uint8_t *bytes, size_t room) {
    struct sockaddr_in from;
    socklen_t size = sizeof from;
    ssize_t length = recvfrom(it->socket, bytes, room, 0, (struct sockaddr *)&from, &size);
    if (length >= 0)
        it->game = from;
    return length;
}

static void take_from_game(uint32_t machine) {
    friend *it = &self.friends[machine];
    uint8_t bytes[LONGER];
    ssize_t length;
    for (int count = 0; count < AT_ONCE && (length = next_of_game(it, bytes, sizeof bytes)) >= 0; count++) {
        if (length > FAZGROND_DATAGRAM) {
            if (it->too_long++ == 0)
                fprintf(stderr, "the game sends datagrams of over %d bytes: those are dropped\n", FAZGROND_DATAGRAM);
            continue;
        }
        it->went++;
        if (!faz_lobby_send(self.lobby, machine, bytes, (size_t)length))
            it->unsent++;
    }
}

static void give_to_game(void) {
    uint8_t bytes[FAZGROND_DATAGRAM];
    uint32_t machine;
    size_t length;
    while (faz_lobby_receive(self.lobby, &machine, bytes, sizeof bytes, &length)) {
        friend *it = &self.friends[machine];
        it->came++;
        (void)!sendto(it->socket, bytes, length, 0, (const struct sockaddr *)&it->game, sizeof it->game); /* the game may not be there */
    }
}

/* ---- the lobby */

/* Addresses are known with the match, before all lines are up. */
static bool open_friends(void) {
    if (self.has_match || !faz_lobby_get_match(self.lobby, &self.match))
        return true;
    self.has_match = true;
    printf("this is machine %" PRIu32 " of %" PRIu32 "\n", self.match.me, self.match.machines);
    for (uint32_t machine = 0; machine < self.match.machines; machine++)
        if (machine != self.match.me && !open_friend(machine))
            return false;
    if (self.match.code[0] != 0)
        printf("whoever stops comes back by --join %s\n", self.match.code);
    fflush(stdout);
    return true;
}

static void tell_events(void) {
    faz_lobby_event event;
    char text[FAZ_LOBBY_TEXT_ROOM + 64];
    while (faz_lobby_next_event(self.lobby, &event)) {
        faz_lobby_words_of(self.lobby, &event, text, sizeof text);
        if (event.what == FAZ_LOBBY_CODE) {
            printf("%s\n", text);
            fflush(stdout);
        } else if (*text != 0)
            fprintf(stderr, "%s%s\n", text, event.what == FAZ_LOBBY_ASKS && event.who != 0 ? ": y or n?" : "");
        if (event.what == FAZ_LOBBY_ASKS && event.who != 0)
            self.asks = event.who;
        faz_lobby_words_begin(&self.words, self.lobby, &event);
    }
}

/* What the player answers. Who can't answer lets nobody in. */
static void take_answer(void) {
    char words[64];
    ssize_t length = read(STDIN_FILENO, words, sizeof words);
    bool is_let_in = length > 0 && (words[0] == 'y' || words[0] == 'Y');
    if (!faz_lobby_let_in(self.lobby, self.asks, is_let_in))
        fputs("nobody asks any more, or there is no seat\n", stderr);
    self.asks = 0;
}

/* Until something comes of the game, but no longer than a line can wait. */
static void rest(void) {
    struct pollfd all[FAZGROND_MACHINES + 1];
    for (uint32_t machine = 0; machine < FAZGROND_MACHINES; machine++)
        all[machine] = (struct pollfd){ .fd = self.friends[machine].socket, .events = POLLIN };
    all[FAZGROND_MACHINES] = (struct pollfd){ .fd = self.asks != 0 ? STDIN_FILENO : -1, .events = POLLIN };
    if (poll(all, FAZGROND_MACHINES + 1, REST) > 0 && all[FAZGROND_MACHINES].revents != 0)
        take_answer();
}

static int run(void) {
    while (!is_stopped()) {
        faz_lobby_turn(self.lobby, millis());
        tell_events();
        if (faz_lobby_stage_of(self.lobby) == FAZ_LOBBY_OVER)
            return 1;
        if (!open_friends())
            return fail("the address of a friend can't be opened: another --friends PORT may do");
        give_to_game();
        for (uint32_t machine = 0; machine < FAZGROND_MACHINES; machine++)
            if (self.friends[machine].socket >= 0)
                take_from_game(machine);
        rest();
    }
    return 0;
}

static void end(void) {
    for (uint32_t machine = 0; machine < FAZGROND_MACHINES; machine++) {
        const friend *it = &self.friends[machine];
        if (it->socket < 0)
            continue;
        fprintf(stderr, "machine %" PRIu32 ": %" PRIu64 " datagrams went, of them %" PRIu64 " while there was no way; %" PRIu64 " came\n",
                machine, it->went, it->unsent, it->came);
        close(it->socket);
    }
    faz_lobby_close(self.lobby);
}

static const option options[] = {
    { "--host", &self.host, NULL, NULL },
    { "--join", NULL, &self.join, NULL },
    { "--port", &self.port, NULL, NULL },
    { "--friends", &self.friends_port, NULL, NULL },
    { "--broker", NULL, &self.words.broker, NULL },
    { "--trusted", NULL, &self.words.trusted, NULL },
    { "--stun", NULL, &self.words.stun, NULL },
    { "--relay", NULL, &self.words.relay, NULL },
    { "--tcp-relay", NULL, &self.words.tcp_relay, NULL },
    { "--name", NULL, &self.words.name, NULL },
    { "--relay-only", NULL, NULL, &self.words.relay_only },
    { "--ask", NULL, NULL, &self.words.asks },
    { "--door", NULL, NULL, &self.words.by_door },
    { "--rejoin", NULL, NULL, &self.words.lasts },
    { "--begin-with", &self.words.begin_with, NULL, NULL },
    { NULL, NULL, NULL, NULL },
};

/* What is wrong with the command line; null if nothing is. */
static const char *read_words(char **words) {
    int at = read_options(words, options);
    if (at == 0 || words[at] != NULL || (self.host > 0) == (self.join != NULL))
        return "the options can't be read";
    if (self.port < 1 || self.port > UINT16_MAX)
        return "--port PORT is missing";
    if (self.friends_port == 0)
        self.friends_port = self.port + 100;
    return self.friends_port > UINT16_MAX ? "--friends PORT is missing" : NULL;
}

int main(int count, char **words) {
    faz_lobby_settings settings = { .digest = DIGEST, .any_sender = true };
    (void)count;
    if (is_help(words, usage))
        return 0;
    const char *why = read_words(words);
    for (uint32_t machine = 0; machine < FAZGROND_MACHINES; machine++)
        self.friends[machine].socket = -1;
    if (why == NULL)
        why = faz_lobby_words_read(&self.words, &settings);
    if (why != NULL) {
        fprintf(stderr, "faz-friend: %s\n%s", why, usage);
        return 2;
    }
    settings.players = (uint32_t)self.host;
    self.lobby = self.join != NULL ? faz_lobby_join(&settings, self.join, &why) : faz_lobby_host(&settings, &why);
    if (self.lobby == NULL)
        return fail(why);
    stops_begin();
    int status = run();
    end();
    return status;
}
