/* Which keys are the buttons of a pad. They are kept in a file, and can be set in the window. */
#ifndef RETRO_KEYS_H
#define RETRO_KEYS_H

#include <SDL.h>

enum { KEY_SEATS = 2, BUTTONS = 12 };

typedef struct keys {
    SDL_Scancode of[KEY_SEATS][BUTTONS]; /* in the order of libretro's buttons */
} keys;

/* The name of a button. */
const char *button_name(int button);

/* Those of the file, else as they are at first. */
void keys_read(keys *self);
void keys_write(const keys *self);

/* What is held at a seat, on the keyboard and on its pad, which may be null: a bit for each button. */
uint32_t keys_held(const keys *self, int seat, SDL_GameController *pad);
#endif
