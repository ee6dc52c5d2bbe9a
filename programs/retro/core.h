/* A libretro core as an object: an instance of its library of its own, with callbacks of its own. */
#ifndef RETRO_CORE_H
#define RETRO_CORE_H

#include "system.h"

#include <libretro.h>

enum { CORES = 12, PORTS = 8, OPTIONS = 128, OVERRIDES = OPTIONS, OPTIONS_TEXT = 8192 };

/* What a player holds: the bits of a word. The low 16 are the buttons of libretro's pad. PAUSE stops the frame for all as long as
 * one holds it; RESET begins the game anew in this frame. */
enum { WORD_PAUSE = 1 << 16, WORD_RESET = 1 << 17, WORD_PAD = 0xffff };

/* What instances are made of; all are made alike. */
typedef struct recipe {
    bytes library, rom, save_ram; /* save_ram: none, or what the game begins with */
    char rom_name[256];
    const char *overrides[OVERRIDES]; /* options of the core, as key=value */
    int override_count;
    uint32_t devices[PORTS]; /* what is plugged into each port: libretro's numbers, or those of the core */
    bool is_verbose;
} recipe;

/* A saved state. `picture` is the digest of the picture before it, which stays if a frame shows none. */
typedef struct core_state {
    uint8_t *at;
    size_t room, size;
    uint64_t picture;
} core_state;

typedef struct core {
    int set; /* which set of callbacks it has */
    library library;
    const recipe *from;
    bool is_begun, has_game;
    bool is_shown;        /* picture and sound of each frame are kept */
    bool digests_picture; /* it takes a digest of each picture: it is set if the core doesn't tell where its RAM is */
    char why[160];        /* why it couldn't be opened */
    struct retro_system_info info;
    struct retro_system_av_info av;
    enum retro_pixel_format format;
    const struct retro_controller_info *ports; /* what can be plugged in; null if the core doesn't say */
    struct {
        char *key, *value;
    } options[OPTIONS];
    int option_count;
    uint16_t pads[PORTS];
    uint32_t *picture; /* XRGB, `width` by `height` */
    size_t picture_room;
    unsigned width, height;
    uint64_t picture_digest;
    int16_t *sound; /* of the last frame: so many samples for both ears */
    size_t sound_count, sound_room;
    void (*init)(void), (*deinit)(void), (*run)(void), (*reset)(void), (*unload_game)(void);
    void (*get_system_info)(struct retro_system_info *), (*get_system_av_info)(struct retro_system_av_info *);
    bool (*load_game)(const struct retro_game_info *);
    size_t (*serialize_size)(void);
    bool (*serialize)(void *, size_t), (*unserialize)(const void *, size_t);
    void (*set_controller_port_device)(unsigned, unsigned);
    void *(*get_memory_data)(unsigned);
    size_t (*get_memory_size)(unsigned);
    unsigned (*api_version)(void);
    void (*set_environment)(retro_environment_t), (*set_video_refresh)(retro_video_refresh_t);
    void (*set_audio_sample)(retro_audio_sample_t), (*set_audio_sample_batch)(retro_audio_sample_batch_t);
    void (*set_input_poll)(retro_input_poll_t), (*set_input_state)(retro_input_state_t);
} core;

/* An instance with the game loaded and one frame run: a core's state has its size only then. It runs on any thread, on one at a
 * time. False, and `why`. */
bool core_open(core *self, const recipe *from);
void core_close(core *self);

/* The information that a library has without a game. */
bool core_about(core *self, const recipe *from);

/* A frame with a word for each player. */
void core_step(core *self, const uint32_t *words, uint32_t count);

/* A digest of what the game is at: of the RAM, else of the last picture. */
uint64_t core_digest(core *self);

/* Whether the core did it. A state's room grows if it has to; free `at`. */
bool core_save(core *self, core_state *out);
bool core_load(core *self, const core_state *from);

/* What can be plugged into the ports, on standard output. */
void core_tell_ports(const core *self);

/* All options with their values, and what is plugged in, as text. */
void core_options_text(const core *self, char *out, size_t room);

/* Puts what such a text says into a recipe, which keeps pointers into it. False if it can't be read, or something is to be plugged in
 * that this core doesn't know. Whether it has the options and their values is seen as an instance is opened. */
bool core_options_take(const core *self, char *text, recipe *to);
#endif
