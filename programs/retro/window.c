#include "window.h"

#include "keys.h"

#include "../common/text.h"

#include <stdio.h>
#include <stdlib.h>

enum {
    SCALE = 2,
    DOT = 2,
    LINE = 14,
    BELOW = 4 * LINE, /* room for lines */
    RATE = 48000,
    SOFT = 128,  /* samples over which a jump is made smooth */
    MOST = 8192, /* samples of a frame */
    FULL = 128,
    STEP = 16 /* of the volume */
};

static struct {
    SDL_Window *window;
    SDL_Renderer *renderer;
    SDL_Texture *texture;
    unsigned width, height; /* of the texture */
    SDL_AudioDeviceID audio;
    SDL_AudioStream *stream;
    int16_t last[2]; /* the last sample that is heard */
    bool has_jumped;
    int volume;
    SDL_GameController *pads[KEY_SEATS];
    keys keys;
    char letter; /* struck, and not asked for yet */
    int setting; /* the button whose key is to be struck, of both seats; below 0: none */
    bool is_paused, is_reset, wants_again, hides_lines;
} self = { .volume = FULL, .setting = -1 };

static bool open_sound(const core *one) {
    SDL_AudioSpec wanted = { .freq = RATE, .format = AUDIO_S16SYS, .channels = 2, .samples = 512 };
    self.audio = SDL_OpenAudioDevice(NULL, 0, &wanted, NULL, 0);
    self.stream = SDL_NewAudioStream(AUDIO_S16SYS, 2, (int)(one->av.timing.sample_rate + 0.5), AUDIO_S16SYS, 2, RATE);
    SDL_PauseAudioDevice(self.audio, 0);
    return self.audio != 0 && self.stream != NULL;
}

bool window_open(const core *one, int place) {
    int width = SCALE * (int)one->av.geometry.base_width, height = SCALE * (int)one->av.geometry.base_height + BELOW;
    if (SDL_Init(SDL_INIT_VIDEO | SDL_INIT_AUDIO | SDL_INIT_GAMECONTROLLER) != 0 && SDL_Init(SDL_INIT_VIDEO | SDL_INIT_GAMECONTROLLER) != 0)
        return false;
    self.window = SDL_CreateWindow(one->from->rom_name, 20 + place * (width + 20), 40, width, height, SDL_WINDOW_RESIZABLE);
    self.renderer = self.window != NULL ? SDL_CreateRenderer(self.window, -1, 0) : NULL;
    if (!open_sound(one))
        fprintf(stderr, "there is no sound: %s\n", SDL_GetError());
    keys_read(&self.keys);
    return self.renderer != NULL;
}

/* What is struck. */

static void strike(SDL_Scancode key) {
    if (self.setting >= 0) {
        if (key != SDL_SCANCODE_ESCAPE)
            self.keys.of[self.setting / BUTTONS][self.setting % BUTTONS] = key;
        self.setting = key == SDL_SCANCODE_ESCAPE || self.setting % BUTTONS == BUTTONS - 1 ? -1 : self.setting + 1;
        if (self.setting < 0)
            keys_write(&self.keys);
        return;
    }
    switch (key) {
    case SDL_SCANCODE_F1:
    case SDL_SCANCODE_F2: self.setting = key == SDL_SCANCODE_F1 ? 0 : BUTTONS; break;
    case SDL_SCANCODE_F3: self.is_paused = !self.is_paused; break;
    case SDL_SCANCODE_F4: self.is_reset = true; break;
    case SDL_SCANCODE_F5: self.wants_again = true; break;
    case SDL_SCANCODE_F9: self.volume = SDL_max(0, self.volume - STEP); break;
    case SDL_SCANCODE_F10: self.volume = SDL_min(FULL, self.volume + STEP); break;
    case SDL_SCANCODE_F11:
        SDL_SetWindowFullscreen(self.window,
                                SDL_GetWindowFlags(self.window) & SDL_WINDOW_FULLSCREEN_DESKTOP ? 0 : SDL_WINDOW_FULLSCREEN_DESKTOP);
        break;
    case SDL_SCANCODE_F12: self.hides_lines = !self.hides_lines; break;
    default: break;
    }
}

/* A pad that is plugged in goes to the first seat that has none. */
static void plug(int device) {
    for (int seat = 0; seat < KEY_SEATS; seat++)
        if (self.pads[seat] == NULL) {
            self.pads[seat] = SDL_GameControllerOpen(device);
            return;
        }
}

static void unplug(SDL_JoystickID id) {
    for (int seat = 0; seat < KEY_SEATS; seat++)
        if (self.pads[seat] != NULL && SDL_JoystickInstanceID(SDL_GameControllerGetJoystick(self.pads[seat])) == id) {
            SDL_GameControllerClose(self.pads[seat]);
            self.pads[seat] = NULL;
        }
}

bool window_goes_on(void) {
    SDL_Event event;
    bool goes_on = true;
    while (SDL_PollEvent(&event))
        switch (event.type) {
        case SDL_QUIT: goes_on = false; break;
        case SDL_KEYDOWN:
            goes_on &= self.setting >= 0 || event.key.keysym.scancode != SDL_SCANCODE_ESCAPE;
            if (event.key.repeat == 0 && self.setting < 0 && event.key.keysym.sym >= SDLK_a && event.key.keysym.sym <= SDLK_z)
                self.letter = (char)event.key.keysym.sym;
            if (event.key.repeat == 0)
                strike(event.key.keysym.scancode);
            break;
        case SDL_CONTROLLERDEVICEADDED: plug(event.cdevice.which); break;
        case SDL_CONTROLLERDEVICEREMOVED: unplug(event.cdevice.which); break;
        default: break;
        }
    return goes_on;
}

uint32_t window_word(int seat) {
    uint32_t word = self.setting >= 0 ? 0 : keys_held(&self.keys, seat, self.pads[seat]);
    if (seat == 0) {
        word |= (self.is_paused ? WORD_PAUSE : 0) | (self.is_reset ? WORD_RESET : 0);
        self.is_reset = false;
    }
    return word;
}

char window_letter(void) {
    char struck = self.letter;
    self.letter = 0;
    return struck;
}

bool window_wants_again(void) {
    bool wants = self.wants_again;
    self.wants_again = false;
    return wants;
}

/* What is heard. */

/* Queues samples. After a jump they begin at the last one that is heard, and go over to what they are. */
static void queue(const int16_t *from, size_t count) {
    static int16_t made[2 * MOST], ready[4 * MOST];
    for (size_t at = 0; at < count; at++)
        for (int ear = 0; ear < 2; ear++) {
            int sample = from != NULL ? from[2 * at + ear] * self.volume / FULL : 0;
            int part = self.has_jumped && at < SOFT ? (int)at : SOFT;
            made[2 * at + ear] = (int16_t)((sample * part + self.last[ear] * (SOFT - part)) / SOFT);
        }
    self.last[0] = made[2 * count - 2];
    self.last[1] = made[2 * count - 1];
    self.has_jumped = false;
    SDL_AudioStreamPut(self.stream, made, (int)(4 * count));
    int length = SDL_AudioStreamGet(self.stream, ready, sizeof ready);
    if (length > 0)
        SDL_QueueAudio(self.audio, ready, (uint32_t)length);
}

/* Keeps some 60 milliseconds in hand: silence goes first if there is nothing, and a frame is left out if there is too much. */
static void hear(const core *one, bool is_new, bool jumps) {
    uint32_t waiting = self.audio != 0 && self.stream != NULL ? SDL_GetQueuedAudioSize(self.audio) / 4 * 1000 / RATE : 0;
    if (self.audio == 0 || self.stream == NULL)
        return;
    self.has_jumped |= jumps;
    if (waiting < 10) {
        self.has_jumped = true;
        queue(NULL, (size_t)one->av.timing.sample_rate / 25);
        self.has_jumped = true;
    }
    if (!is_new || one->sound_count == 0 || one->sound_count > MOST)
        return;
    if (waiting < 120)
        queue(one->sound, one->sound_count);
    else
        self.has_jumped = true;
}

/* What is seen. */

static void draw_picture(const core *one) {
    int width, height;
    if (one->picture == NULL || one->width == 0)
        return;
    if (self.texture == NULL || self.width != one->width || self.height != one->height) {
        SDL_DestroyTexture(self.texture);
        self.texture = SDL_CreateTexture(self.renderer, SDL_PIXELFORMAT_RGB888, SDL_TEXTUREACCESS_STREAMING, (int)one->width,
                                         (int)one->height);
        self.width = one->width;
        self.height = one->height;
    }
    SDL_UpdateTexture(self.texture, NULL, one->picture, (int)one->width * 4);
    SDL_GetRendererOutputSize(self.renderer, &width, &height);
    height -= self.hides_lines ? 0 : BELOW;
    int scale = SDL_max(1, SDL_min(width / (int)one->width, height / (int)one->height));
    SDL_Rect to = { 0, 0, (int)one->width * scale, (int)one->height * scale };
    to.x = (width - to.w) / 2;
    to.y = (height - to.h) / 2;
    SDL_RenderCopy(self.renderer, self.texture, NULL, &to);
}

/* Lines from 0 on stand below the picture, and those before over it. */
static void draw_line(const char *text, int number) {
    int height;
    SDL_GetRendererOutputSize(self.renderer, NULL, &height);
    int y = height - BELOW + LINE * number;
    SDL_SetRenderDrawColor(self.renderer, 0, 0, 0, 255);
    SDL_RenderFillRect(self.renderer, &(SDL_Rect){ 4, y, (int)SDL_strlen(text) * 4 * DOT + 4, LINE });
    SDL_SetRenderDrawColor(self.renderer, 200, 210, 230, 255);
    draw_text(self.renderer, 6, y + 2, DOT, text);
}

void window_show(const core *one, bool is_new, bool jumps, const char *const *lines, int count) {
    char text[64];
    SDL_SetRenderDrawColor(self.renderer, 0, 0, 0, 255);
    SDL_RenderClear(self.renderer);
    draw_picture(one);
    for (int at = 0; at < count && !self.hides_lines; at++)
        draw_line(lines[at], at);
    if (self.setting >= 0) {
        snprintf(text, sizeof text, "seat %d, %s: strike a key, or escape", self.setting / BUTTONS + 1,
                 button_name(self.setting % BUTTONS));
        draw_line(text, -2);
    } else if (self.is_paused)
        draw_line("paused: F3 goes on", -2);
    SDL_RenderPresent(self.renderer);
    hear(one, is_new, jumps);
}

void window_close(void) {
    for (int seat = 0; seat < KEY_SEATS; seat++)
        if (self.pads[seat] != NULL)
            SDL_GameControllerClose(self.pads[seat]);
    SDL_FreeAudioStream(self.stream);
    SDL_Quit();
}
