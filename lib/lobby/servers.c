#include "inside.h"

#include <arpa/inet.h>
#include <netdb.h>
#include <netinet/in.h>
#include <stdlib.h>
#include <string.h>
#include <sys/socket.h>
#include <unistd.h>

static bool fits(const char *text, size_t room) { return text != NULL && *text != 0 && strlen(text) < room; }

static bool is_relay(const faz_line_relay *relay) {
    return fits(relay->address, WORD_TEXT) && fits(relay->user, WORD_TEXT) && fits(relay->password, WORD_TEXT);
}

/* The addresses that a name had before, if it was there. */
static void keep_addresses(servers *self, const servers *before) {
    for (int at = 0; at < FAZ_LINE_RELAYS; at++)
        for (int old = 0; old < FAZ_LINE_RELAYS; old++)
            if (strcmp(self->relay[at], before->relay[old]) == 0)
                self->relay_at[at] = before->relay_at[old];
}

/* False: they are no good, and nothing is taken over. */
static bool copy_relays(faz_lobby *self, const faz_line_relay *relays, uint32_t count) {
    servers before = self->servers;
    if (count > FAZ_LINE_RELAYS)
        return false;
    for (uint32_t at = 0; at < count; at++)
        if (!is_relay(&relays[at]))
            return false;
    memset(self->servers.relay, 0, sizeof self->servers.relay);
    memset(self->servers.relay_at, 0, sizeof self->servers.relay_at);
    for (uint32_t at = 0; at < count; at++) {
        strcpy(self->servers.relay[at], relays[at].address);
        self->named[at] = (faz_line_relay){ .port = relays[at].port,
                                            .user = strcpy(self->user[at], relays[at].user),
                                            .password = strcpy(self->password[at], relays[at].password),
                                            .by_tcp = relays[at].by_tcp };
    }
    keep_addresses(&self->servers, &before);
    self->named_count = count;
    return true;
}

const char *faz_lobby_copy_servers(faz_lobby *self, const faz_lobby_settings *settings) {
    if (settings->stun != NULL && !fits(settings->stun, WORD_TEXT))
        return "the STUN server's name is too long";
    if (settings->stun != NULL)
        strcpy(self->servers.stun, settings->stun);
    self->line.stun_port = settings->stun_port;
    self->line.relay_only = settings->relay_only;
    self->line.any_sender = settings->any_sender;
    if (!copy_relays(self, settings->relays, settings->relay_count))
        return "there are too many relays, or one has no address, user or password, or one that is too long";
    return NULL;
}

/* The first address of those found, and the first one of the other family. */
static void note_found(addresses *to, const struct addrinfo *found) {
    int family = AF_UNSPEC;
    for (int count = 0; found != NULL && count < FAMILIES; found = found->ai_next)
        if (found->ai_family != family
            && getnameinfo(found->ai_addr, found->ai_addrlen, to->text[count], ADDRESS_TEXT, NULL, 0, NI_NUMERICHOST) == 0) {
            family = found->ai_family;
            count++;
        }
}

/* The addresses that a name has; true if there is one. With AI_NUMERICHOST names have none, and it doesn't wait. */
static bool look_up(const char *name, int flags, addresses *to) {
    struct addrinfo hints = { .ai_family = AF_UNSPEC, .ai_socktype = SOCK_DGRAM, .ai_flags = flags }, *found = NULL;
    memset(to, 0, sizeof *to);
    if (getaddrinfo(name, NULL, &hints, &found) == 0) {
        note_found(to, found);
        freeaddrinfo(found);
    }
    return to->text[0][0] != 0;
}

/* Looks up what has no address yet; whether all have one. */
static bool look_all_up(servers *self, int flags) {
    bool has_all = self->stun[0] == 0 || self->stun_at.text[0][0] != 0 || look_up(self->stun, flags, &self->stun_at);
    for (int at = 0; at < FAZ_LINE_RELAYS; at++)
        if (self->relay[at][0] != 0 && self->relay_at[at].text[0][0] == 0 && !look_up(self->relay[at], flags, &self->relay_at[at]))
            has_all = false;
    return has_all;
}

static void look(void *of) { look_all_up(of, 0); }

static void drop(void *of) { free(of); }

/* Whether there is a way out to an address of IPv4: nothing is sent. */
static bool is_reached(const char *text) {
    struct sockaddr_in to = { .sin_family = AF_INET, .sin_port = htons(1) };
    int probe = inet_pton(AF_INET, text, &to.sin_addr) == 1 ? socket(AF_INET, SOCK_DGRAM, 0) : -1;
    bool is = probe >= 0 && connect(probe, (const struct sockaddr *)&to, sizeof to) == 0;
    if (probe >= 0)
        close(probe);
    return is;
}

/* Of a server's two addresses the one by IPv4, if that is reached: routers give machines other addresses there. */
static const char *choose(const addresses *from) { return is_reached(from->text[1]) ? from->text[1] : from->text[0]; }

/* Those with an address; and once more by the other family, as far as there is room. */
static uint32_t take_relays(faz_lobby *self) {
    uint32_t found = 0, count = 0;
    for (int family = 0; family < FAMILIES; family++)
        for (uint32_t at = 0; at < self->named_count && count < FAZ_LINE_RELAYS; at++) {
            const char *address = self->servers.relay_at[at].text[family];
            if (*address == 0)
                continue;
            found += family == 0;
            self->line.relays[count] = self->named[at];
            self->line.relays[count++].address = address;
        }
    self->line.relay_count = count;
    return found;
}

/* Takes the addresses that were looked up. False: other names have come meanwhile, which are still to be looked up. */
static bool take_found(servers *self, const servers *found) {
    if (strcmp(self->stun, found->stun) == 0)
        self->stun_at = found->stun_at;
    keep_addresses(self, found);
    return strcmp(self->stun, found->stun) == 0 && memcmp(self->relay, found->relay, sizeof self->relay) == 0;
}

/* Servers without an address are left out. */
static void take_addresses(faz_lobby *self) {
    const servers *of = &self->servers;
    self->line.stun = of->stun_at.text[0][0] != 0 ? choose(&of->stun_at) : NULL;
    if (take_relays(self) < self->named_count || (of->stun[0] != 0 && self->line.stun == NULL))
        strcpy(faz_lobby_tell(self, FAZ_LOBBY_AWAY, FAZGROND_NO_MACHINE, "")->text,
               "a STUN server or relay has no address: its name isn't known");
}

/* Begins to look names up. False: there are none. */
static bool begin(faz_lobby *self) {
    if (look_all_up(&self->servers, AI_NUMERICHOST))
        return false;
    self->looked_up = malloc(sizeof *self->looked_up);
    if (self->looked_up == NULL)
        return false;
    *self->looked_up = self->servers;
    self->looking = faz_aside_begin(look, drop, self->looked_up);
    if (self->looking == NULL)
        free(self->looked_up);
    return self->looking != NULL;
}

/* Other relays for lines that are there. Those whose names have no addresses yet are left out. */
static bool renew_relays(faz_lobby *self, const faz_line_relay *relays, uint32_t count) {
    if (!copy_relays(self, relays, count))
        return false;
    look_all_up(&self->servers, AI_NUMERICHOST);
    take_relays(self);
    for (uint32_t machine = 0; machine < FAZGROND_MACHINES; machine++)
        if (self->other[machine].line != NULL)
            faz_line_relays(self->other[machine].line, self->line.relays, self->line.relay_count);
    return true;
}

void faz_lobby_take_servers(faz_lobby *self, const door_answer *answer) {
    faz_line_relay relays[FAZ_LINE_RELAYS];
    for (uint32_t at = 0; at < answer->relays; at++)
        relays[at] = (faz_line_relay){ answer->relay[at].address, answer->relay[at].port, answer->user, answer->password,
                                       answer->relay[at].by_tcp };
    if (self->has_lines) {
        renew_relays(self, relays, answer->relays);
        return;
    }
    if (strcmp(self->servers.stun, answer->stun) != 0)
        self->servers.stun_at.text[0][0] = 0;
    faz_lobby_copy(self->servers.stun, sizeof self->servers.stun, answer->stun);
    self->line.stun_port = answer->stun_port;
    copy_relays(self, relays, answer->relays);
    self->has_addresses = false;
    faz_mesh_drop_ahead(self);
}

bool faz_lobby_has_addresses(faz_lobby *self) {
    if (self->has_addresses)
        return true;
    if (!faz_asking_is_over(self))
        return false;
    if (self->looking == NULL && begin(self))
        return false;
    if (self->looking != NULL && !faz_aside_is_over(self->looking))
        return false;
    if (self->looking != NULL) {
        bool are_all = take_found(&self->servers, self->looked_up);
        free(self->looked_up);
        faz_aside_take(self->looking);
        self->looking = NULL;
        if (!are_all)
            return false;
    }
    self->has_addresses = true;
    take_addresses(self);
    return true;
}

bool faz_lobby_relays(faz_lobby *self, const faz_line_relay *relays, uint32_t count) {
    addresses of;
    for (uint32_t at = 0; at < count && at < FAZ_LINE_RELAYS; at++)
        if (!is_relay(&relays[at]) || !look_up(relays[at].address, AI_NUMERICHOST, &of))
            return false;
    return renew_relays(self, relays, count);
}
