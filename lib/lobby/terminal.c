#include "words.h"

#include <poll.h>
#include <stdio.h>
#include <string.h>
#include <unistd.h>

enum { SILENT = 300 /* milliseconds after which a machine may have stopped */ };

/* What was typed, a line as a rule. False: nothing was. */
static bool read_typed(char text[LOBBY_WORDS_ROOM]) {
    struct pollfd in = { .fd = STDIN_FILENO, .events = POLLIN };
    ssize_t length = poll(&in, 1, 0) == 1 ? read(STDIN_FILENO, text, LOBBY_WORDS_ROOM - 1) : 0;
    text[length > 0 ? length : 0] = 0;
    text[strcspn(text, "\r\n")] = 0;
    return text[0] != 0;
}

bool faz_lobby_words_enter(faz_lobby *lobby) {
    char text[LOBBY_WORDS_ROOM];
    if (!read_typed(text))
        return false;
    bool is_entered = faz_lobby_enter(lobby, text);
    if (!is_entered)
        fputs("this is no code: a sign of it may be wrong or missing\n", stderr);
    return is_entered;
}

uint32_t faz_lobby_words_let_in(faz_lobby *lobby, uint32_t who) {
    char text[LOBBY_WORDS_ROOM];
    if (who == 0 || !read_typed(text) || strchr("yYnN", text[0]) == NULL)
        return who;
    faz_lobby_let_in(lobby, who, text[0] == 'y' || text[0] == 'Y');
    return 0;
}

void faz_lobby_words_begin(lobby_words *words, faz_lobby *lobby, const faz_lobby_event *event) {
    if (event->what == FAZ_LOBBY_JOINED)
        words->friends++;
    if (event->what == FAZ_LOBBY_LEFT)
        words->friends--;
    if (words->begin_with > 0 && words->friends + 1 >= words->begin_with)
        faz_lobby_begin(lobby);
}

bool faz_lobby_words_of_left(lobby_words *words, const faz_lobby_event *event) {
    uint32_t bit = event->machine < FAZGROND_MACHINES ? 1u << event->machine : 0;
    if (event->what == FAZ_LOBBY_COMES)
        words->left &= ~bit;
    return (event->what == FAZ_LOBBY_SILENT || event->what == FAZ_LOBBY_BLOCKED) && (words->left & bit) != 0;
}

/* Whether a machine of the match has this name, and isn't heard. */
static bool comes_back(const faz_lobby *lobby, const char *name) {
    faz_lobby_match match;
    faz_line_state state;
    if (!faz_lobby_get_match(lobby, &match))
        return false;
    for (uint32_t at = 0; at < match.machines; at++)
        if (strcmp(match.names[at], name) == 0 && faz_lobby_look(lobby, at, &state) && state.silence >= SILENT)
            return true;
    return false;
}

void faz_lobby_words_of(const faz_lobby *lobby, const faz_lobby_event *event, char *out, size_t room) {
    const char *name = event->name, *text = event->text;
    *out = 0;
    switch (event->what) {
    case FAZ_LOBBY_CODE:
        snprintf(out, room, "%s %s",
                 event->why == FAZ_LOBBY_WRONG_CODE ? "wrong codes were tried, so the code is another one:" : "the code is", text);
        break;
    case FAZ_LOBBY_AWAY:
        snprintf(out, room, faz_lobby_stage_of(lobby) == FAZ_LOBBY_READY ? "%s: the match goes on without it" : "waiting: %s", text);
        break;
    case FAZ_LOBBY_ASKS:
        snprintf(out, room,
                 event->who == 0               ? "%s is asked; both see %s"
                     : comes_back(lobby, name) ? "%s comes back, and sees %s"
                                               : "%s wants to join, and sees %s",
                 name, text);
        break;
    case FAZ_LOBBY_JOINED: snprintf(out, room, *text != 0 ? "with %s: both see %s" : "with %s", name, text); break;
    case FAZ_LOBBY_LEFT: snprintf(out, room, "%s has left", name); break;
    case FAZ_LOBBY_FULL: snprintf(out, room, "all are there"); break;
    case FAZ_LOBBY_UP: snprintf(out, room, "the line to machine %u is up, %s", (unsigned)event->machine, text); break;
    case FAZ_LOBBY_SILENT: snprintf(out, room, "machine %u is silent: another way is looked for", (unsigned)event->machine); break;
    case FAZ_LOBBY_BLOCKED: snprintf(out, room, "no way to machine %u was found so far", (unsigned)event->machine); break;
    case FAZ_LOBBY_COMES: snprintf(out, room, "%s comes as machine %u", name, (unsigned)event->machine); break;
    case FAZ_LOBBY_REFUSED: snprintf(out, room, "%s can't join: that is a page in a browser, and this game isn't", name); break;
    case FAZ_LOBBY_UNANSWERED:
    case FAZ_LOBBY_ENDED: snprintf(out, room, "%s", text); break;
    }
}
