/* Tests that every window is on the screen, those of the players and that of who watches, and what is struck there. */
#include "../../../programs/common/window.c"
#include "../../check.h"

#include <stdio.h>

static int overhang(int from, int length, int start, int room) {
    return from < start ? start - from : SDL_max(0, from + length - start - room);
}

static void strike(SDL_Keycode key, uint8_t repeat) {
    SDL_Event event = { .key = { .type = SDL_KEYDOWN, .repeat = repeat, .keysym = { .sym = key } } };
    SDL_PushEvent(&event);
}

/* A letter is told once, and neither again while it is held nor after another key. */
static bool is_letter_told(void) {
    strike(SDLK_y, 0);
    strike(SDLK_UP, 0);
    bool is_told = window_goes_on() && window_letter() == 'y' && window_letter() == 0;
    strike(SDLK_n, 1);
    return window_goes_on() && window_letter() == 0 && is_told;
}

int main(void) {
    for (int player = 1; player <= DUEL_SHIPS + 1; player++) {
        SDL_Rect screen, seen = { 0, 0, 0, 0 };
        if (!window_open(player) || SDL_GetDisplayUsableBounds(0, &screen) != 0)
            return fputs("no window can be opened\n", stderr), 2;
        SDL_GetWindowPosition(window, &seen.x, &seen.y);
        SDL_GetWindowSize(window, &seen.w, &seen.h);
        CHECK_SAY(overhang(seen.x, seen.w, screen.x, screen.w) + overhang(seen.y, seen.h, screen.y, screen.h) == 0,
                  "the window of %d stands at %d,%d", player, seen.x, seen.y);
        CHECK_SAY(is_letter_told(), "what is struck in the window of %d isn't told", player);
        window_close();
    }
    return checks_end();
}
