#include "words.h"

#include <stdio.h>
#include <stdlib.h>
#include <string.h>

/* Splits "ADDRESS:PORT", or "[ADDRESS]:PORT" of IPv6, in its place. A port may be missing, and without one the brackets. */
static bool split(char *text, const char **address, uint16_t *port) {
    char *end = text, *colon = strchr(text, ':');
    if (colon != NULL && strchr(colon + 1, ':') != NULL)
        colon = NULL;
    *address = text;
    *port = LOBBY_WORDS_PORT;
    if (*text == '[') {
        end = strchr(text, ']');
        if (end == NULL || (end[1] != 0 && end[1] != ':'))
            return false;
        *address = text + 1;
        colon = end[1] == ':' ? end + 1 : NULL;
        *end = 0;
    }
    if (colon == NULL)
        return **address != 0;
    long number = strtol(colon + 1, &end, 10);
    if (colon[1] < '0' || colon[1] > '9' || *end != 0 || number < 1 || number > UINT16_MAX)
        return false;
    *colon = 0;
    *port = (uint16_t)number;
    return **address != 0;
}

static bool copied(char *to, const char *text) {
    bool fits = strlen(text) < LOBBY_WORDS_ROOM;
    if (fits)
        strcpy(to, text);
    return fits;
}

/* "USER:PASSWORD@ADDRESS:PORT". A user's name may have colons, as those that a server's secret makes. */
static bool read_relay(const char *said, char *text, bool by_tcp, faz_lobby_settings *settings) {
    faz_line_relay *relay = &settings->relays[settings->relay_count];
    if (!copied(text, said))
        return false;
    char *at = strrchr(text, '@');
    if (at == NULL)
        return false;
    *at = 0;
    char *colon = strrchr(text, ':');
    if (colon == NULL || colon == text)
        return false;
    *colon = 0;
    relay->user = text;
    relay->password = colon + 1;
    relay->by_tcp = by_tcp;
    settings->relay_count++;
    return split(at + 1, &relay->address, &relay->port);
}

const char *faz_lobby_words_read(lobby_words *words, faz_lobby_settings *settings) {
    if (words->broker == NULL)
        return "--broker URL is missing";
    settings->broker = words->broker;
    settings->trusted = words->trusted;
    settings->name = words->name;
    settings->relay_only = words->relay_only;
    settings->asks = words->asks;
    settings->lasts = words->lasts;
    settings->stays_open = words->begin_with > 0;
    settings->has_door = settings->short_code = words->by_door;
    if (words->stun != NULL && (!copied(words->texts[0], words->stun) || !split(words->texts[0], &settings->stun, &settings->stun_port)))
        return "--stun has no ADDRESS:PORT";
    if (words->relay != NULL && !read_relay(words->relay, words->texts[1], false, settings))
        return "--relay has no USER:PASSWORD@ADDRESS:PORT";
    if (words->tcp_relay != NULL && !read_relay(words->tcp_relay, words->texts[2], true, settings))
        return "--tcp-relay has no USER:PASSWORD@ADDRESS:PORT";
    return NULL;
}
