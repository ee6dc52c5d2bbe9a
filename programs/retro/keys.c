#include "keys.h"

#include "files.h"

#include <stdio.h>
#include <stdlib.h>

enum { STICK = 16000 };

static const char *const names[BUTTONS] = { "b", "y", "select", "start", "up", "down", "left", "right", "a", "x", "l", "r" };

static const keys first = { {
    { SDL_SCANCODE_Z, SDL_SCANCODE_A, SDL_SCANCODE_RSHIFT, SDL_SCANCODE_RETURN, SDL_SCANCODE_UP, SDL_SCANCODE_DOWN, SDL_SCANCODE_LEFT,
      SDL_SCANCODE_RIGHT, SDL_SCANCODE_X, SDL_SCANCODE_S, SDL_SCANCODE_Q, SDL_SCANCODE_W },
    { SDL_SCANCODE_KP_0, SDL_SCANCODE_KP_1, SDL_SCANCODE_KP_7, SDL_SCANCODE_KP_9, SDL_SCANCODE_I, SDL_SCANCODE_K, SDL_SCANCODE_J,
      SDL_SCANCODE_L, SDL_SCANCODE_KP_PERIOD, SDL_SCANCODE_KP_3, SDL_SCANCODE_KP_4, SDL_SCANCODE_KP_6 },
} };

const char *button_name(int button) { return names[button]; }

void keys_read(keys *self) {
    char path[2048], line[128], name[16], key[64];
    int seat;
    *self = first;
    home_path("keys", path, sizeof path);
    FILE *file = fopen(path, "r");
    while (file != NULL && fgets(line, sizeof line, file) != NULL)
        for (int at = 0; at < BUTTONS && sscanf(line, "%d %15s %63[^\n]", &seat, name, key) == 3; at++)
            if (seat >= 1 && seat <= KEY_SEATS && SDL_strcasecmp(name, names[at]) == 0
                && SDL_GetScancodeFromName(key) != SDL_SCANCODE_UNKNOWN)
                self->of[seat - 1][at] = SDL_GetScancodeFromName(key);
    if (file != NULL)
        fclose(file);
}

void keys_write(const keys *self) {
    char path[2048], text[KEY_SEATS * BUTTONS * 96];
    size_t length = 0;
    for (int at = 0; at < KEY_SEATS * BUTTONS; at++)
        length += (size_t)snprintf(text + length, sizeof text - length, "%d %s %.63s\n", at / BUTTONS + 1, names[at % BUTTONS],
                                   SDL_GetScancodeName(self->of[at / BUTTONS][at % BUTTONS]));
    home_path("keys", path, sizeof path);
    if (!file_write(path, text, length))
        fprintf(stderr, "the keys can't be kept in %s\n", path);
}

static bool is_pressed(SDL_GameController *pad, int button) {
    /* SDL names the lower button A, as libretro names the right one */
    static const SDL_GameControllerButton at[BUTTONS] = {
        SDL_CONTROLLER_BUTTON_A,
        SDL_CONTROLLER_BUTTON_X,
        SDL_CONTROLLER_BUTTON_BACK,
        SDL_CONTROLLER_BUTTON_START,
        SDL_CONTROLLER_BUTTON_DPAD_UP,
        SDL_CONTROLLER_BUTTON_DPAD_DOWN,
        SDL_CONTROLLER_BUTTON_DPAD_LEFT,
        SDL_CONTROLLER_BUTTON_DPAD_RIGHT,
        SDL_CONTROLLER_BUTTON_B,
        SDL_CONTROLLER_BUTTON_Y,
        SDL_CONTROLLER_BUTTON_LEFTSHOULDER,
        SDL_CONTROLLER_BUTTON_RIGHTSHOULDER,
    };
    int x = SDL_GameControllerGetAxis(pad, SDL_CONTROLLER_AXIS_LEFTX);
    int y = SDL_GameControllerGetAxis(pad, SDL_CONTROLLER_AXIS_LEFTY);
    bool by_stick[4] = { y<-STICK, y> STICK, x<-STICK, x> STICK };
    return SDL_GameControllerGetButton(pad, at[button]) != 0 || (button >= 4 && button < 8 && by_stick[button - 4]);
}

uint32_t keys_held(const keys *self, int seat, SDL_GameController *pad) {
    const uint8_t *held = SDL_GetKeyboardState(NULL);
    uint32_t word = 0;
    for (int at = 0; at < BUTTONS; at++)
        if (held[self->of[seat][at]] != 0 || (pad != NULL && is_pressed(pad, at)))
            word |= 1u << at;
    return word;
}
