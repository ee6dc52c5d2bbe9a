#define _GNU_SOURCE
#include "core.h"

#ifdef __GLIBC__
#include <malloc.h>
#endif
#include <stdarg.h>
#include <stdio.h>
#include <stdlib.h>
#include <string.h>
#include <time.h>
#include <unistd.h>

static core *cores[CORES];

#ifndef _WIN32
/* The clock that cores see stands still, at all machines at the same moment: some make their random numbers of it as they open. The
 * linker has to be told to let them see this one (--export-dynamic-symbol=time). Windows' libraries find none but their own. */
time_t time(time_t *out) {
    enum { NEW_YEAR_2000 = 946684800 };
    if (out != NULL)
        *out = NEW_YEAR_2000;
    return NEW_YEAR_2000;
}
#endif

/* What a core asks of its frontend. */

/* A folder that isn't there, so that nothing that lies in it makes two machines differ. */
static const char *no_folder(void) {
    static char folder[512];
    snprintf(folder, sizeof folder, "%.400s/faz-retro-%d", temporary_folder(), (int)getpid());
    return folder;
}

static void log_line(enum retro_log_level level, const char *format, ...) {
    va_list list;
    if (level < RETRO_LOG_ERROR)
        return;
    va_start(list, format);
    vfprintf(stderr, format, list);
    va_end(list);
}

static void log_nothing(enum retro_log_level level, const char *format, ...) { (void)level, (void)format; }

static char *copied(const char *from, size_t length) {
    char *made = calloc(1, length + 1);
    return made != NULL ? memcpy(made, from, length) : NULL;
}

/* The value of an option: what was asked for, if it is one of those that there are ("name; one|two"), else the first of them. */
static char *choose(core *self, const char *key, const char *values) {
    const char *list = strchr(values, ';');
    size_t length = strlen(key);
    list = list == NULL ? values : list + 1 + strspn(list + 1, " ");
    for (int at = 0; at < self->from->override_count; at++) {
        const char *wanted = self->from->overrides[at];
        if (strncmp(wanted, key, length) != 0 || wanted[length] != '=')
            continue;
        for (const char *one = list; *one != 0; one += one[strcspn(one, "|")] == '|' ? strcspn(one, "|") + 1 : strcspn(one, "|"))
            if (strcspn(one, "|") == strlen(wanted + length + 1) && strncmp(one, wanted + length + 1, strcspn(one, "|")) == 0)
                return copied(one, strcspn(one, "|"));
        snprintf(self->why, sizeof self->why, "the option %.60s has no such value", key);
    }
    return copied(list, strcspn(list, "|"));
}

static void declare_options(core *self, const struct retro_variable *at) {
    for (; at->key != NULL; at++) {
        int place = 0;
        while (place < self->option_count && strcmp(self->options[place].key, at->key) != 0)
            place++;
        if (place == self->option_count && place < OPTIONS) {
            self->options[place].key = strdup(at->key);
            self->options[place].value = choose(self, at->key, at->value);
            self->option_count++;
        }
    }
}

static bool option_value(const core *self, struct retro_variable *asked) {
    asked->value = NULL;
    for (int at = 0; at < self->option_count; at++)
        if (strcmp(self->options[at].key, asked->key) == 0)
            asked->value = self->options[at].value;
    return asked->value != NULL;
}

static bool answer(core *self, unsigned command, void *data) {
    switch (command) {
    case RETRO_ENVIRONMENT_GET_CAN_DUPE: return *(bool *)data = true; /* some cores refuse a ROM without it */
    case RETRO_ENVIRONMENT_GET_SYSTEM_DIRECTORY:
    case RETRO_ENVIRONMENT_GET_SAVE_DIRECTORY:
    case RETRO_ENVIRONMENT_GET_CORE_ASSETS_DIRECTORY: *(const char **)data = no_folder(); return true;
    case RETRO_ENVIRONMENT_SET_PIXEL_FORMAT: self->format = *(enum retro_pixel_format *)data; return true;
    case RETRO_ENVIRONMENT_GET_LOG_INTERFACE:
        ((struct retro_log_callback *)data)->log = self->from->is_verbose ? log_line : log_nothing;
        return true;
    case RETRO_ENVIRONMENT_SET_VARIABLES: declare_options(self, data); return true;
    case RETRO_ENVIRONMENT_GET_VARIABLE: return option_value(self, data);
    case RETRO_ENVIRONMENT_GET_VARIABLE_UPDATE:
    case RETRO_ENVIRONMENT_GET_FASTFORWARDING: *(bool *)data = false; return true;
    case RETRO_ENVIRONMENT_GET_CORE_OPTIONS_VERSION: *(unsigned *)data = 0; return true;
    case RETRO_ENVIRONMENT_GET_LANGUAGE: *(unsigned *)data = RETRO_LANGUAGE_ENGLISH; return true;
    case RETRO_ENVIRONMENT_SET_CONTROLLER_INFO: self->ports = data; return true;
    case RETRO_ENVIRONMENT_GET_INPUT_BITMASKS:
    case RETRO_ENVIRONMENT_SET_GEOMETRY:
    case RETRO_ENVIRONMENT_SET_SYSTEM_AV_INFO:
    case RETRO_ENVIRONMENT_SET_INPUT_DESCRIPTORS:
    case RETRO_ENVIRONMENT_SET_SUBSYSTEM_INFO:
    case RETRO_ENVIRONMENT_SET_MEMORY_MAPS:
    case RETRO_ENVIRONMENT_SET_PERFORMANCE_LEVEL:
    case RETRO_ENVIRONMENT_SET_SUPPORT_NO_GAME:
    case RETRO_ENVIRONMENT_SET_SUPPORT_ACHIEVEMENTS:
    case RETRO_ENVIRONMENT_SET_SERIALIZATION_QUIRKS:
    case RETRO_ENVIRONMENT_SET_MESSAGE: return true;
    case RETRO_ENVIRONMENT_SET_HW_RENDER:
        snprintf(self->why, sizeof self->why, "it draws by OpenGL or the like, which can't be had here");
        return false;
    default: return false;
    }
}

static uint32_t colour(enum retro_pixel_format format, const void *row, unsigned x) {
    if (format == RETRO_PIXEL_FORMAT_XRGB8888)
        return ((const uint32_t *)row)[x] & 0xffffff;
    uint32_t dot = ((const uint16_t *)row)[x];
    if (format == RETRO_PIXEL_FORMAT_RGB565)
        return (dot >> 11) << 19 | (dot >> 5 & 63) << 10 | (dot & 31) << 3;
    return (dot >> 10 & 31) << 19 | (dot >> 5 & 31) << 11 | (dot & 31) << 3;
}

static void keep_picture(core *self, const uint8_t *data, size_t pitch) {
    size_t needed = (size_t)self->width * self->height;
    if (needed > self->picture_room) {
        uint32_t *more = realloc(self->picture, needed * sizeof *more);
        if (more == NULL)
            return;
        self->picture = more;
        self->picture_room = needed;
    }
    for (unsigned y = 0; y < self->height; y++)
        for (unsigned x = 0; x < self->width; x++)
            self->picture[(size_t)y * self->width + x] = colour(self->format, data + y * pitch, x);
}

static void hear_picture(core *self, const void *data, unsigned width, unsigned height, size_t pitch) {
    size_t dot = self->format == RETRO_PIXEL_FORMAT_XRGB8888 ? 4 : 2;
    if (data == NULL)
        return; /* as before */
    self->width = width;
    self->height = height;
    if (self->is_shown)
        keep_picture(self, data, pitch);
    if (!self->digests_picture)
        return;
    self->picture_digest = digest_of(&(uint32_t[2]){ width, height }, 8);
    for (unsigned y = 0; y < height; y++)
        self->picture_digest = self->picture_digest * 31 + digest_of((const uint8_t *)data + y * pitch, width * dot);
}

static void hear_sound(core *self, const int16_t *data, size_t count) {
    size_t needed = 2 * (self->sound_count + count);
    if (!self->is_shown)
        return;
    if (needed > self->sound_room) {
        int16_t *more = realloc(self->sound, 2 * needed * sizeof *more);
        if (more == NULL)
            return;
        self->sound = more;
        self->sound_room = 2 * needed;
    }
    memcpy(self->sound + 2 * self->sound_count, data, 2 * count * sizeof *data);
    self->sound_count += count;
}

static int16_t pad(const core *self, unsigned port, unsigned device, unsigned button) {
    if (port >= PORTS || (device & RETRO_DEVICE_MASK) != RETRO_DEVICE_JOYPAD)
        return 0;
    if (button == RETRO_DEVICE_ID_JOYPAD_MASK)
        return (int16_t)self->pads[port];
    return button < 16 ? self->pads[port] >> button & 1 : 0;
}

/* The interface hands its callbacks no pointer of the frontend's, so each instance has a set of functions. */
/* clang-format off */
#define SET(n) \
    static bool answer_##n(unsigned c, void *d) { return answer(cores[n], c, d); } \
    static void picture_##n(const void *d, unsigned w, unsigned h, size_t p) { hear_picture(cores[n], d, w, h, p); } \
    static void sample_##n(int16_t l, int16_t r) { hear_sound(cores[n], (int16_t[2]){ l, r }, 1); } \
    static size_t batch_##n(const int16_t *d, size_t f) { hear_sound(cores[n], d, f); return f; } \
    static void poll_##n(void) {} \
    static int16_t pad_##n(unsigned p, unsigned d, unsigned i, unsigned b) { (void)i; return pad(cores[n], p, d, b); }
SET(0) SET(1) SET(2) SET(3) SET(4) SET(5) SET(6) SET(7) SET(8) SET(9) SET(10) SET(11)
#define ALL(name) { name##_0, name##_1, name##_2, name##_3, name##_4, name##_5, name##_6, name##_7, name##_8, name##_9, \
                    name##_10, name##_11 }
    /* clang-format on */
    static const retro_environment_t answers[CORES] = ALL(answer);
static const retro_video_refresh_t pictures[CORES] = ALL(picture);
static const retro_audio_sample_t samples[CORES] = ALL(sample);
static const retro_audio_sample_batch_t batches[CORES] = ALL(batch);
static const retro_input_poll_t polls[CORES] = ALL(poll);
static const retro_input_state_t pad_reads[CORES] = ALL(pad);

/* An instance. */

static bool refuse(core *self, const char *why) {
    if (self->why[0] == 0)
        snprintf(self->why, sizeof self->why, "%s", why);
    return false;
}

static bool find_calls(core *self) {
    bool has_all = true;
    void *found;
#define TAKE(name) \
    (found = library_find(&self->library, "retro_" #name), memcpy(&self->name, &found, sizeof found), has_all &= found != NULL)
    TAKE(init);
    TAKE(deinit);
    TAKE(run);
    TAKE(reset);
    TAKE(unload_game);
    TAKE(get_system_info);
    TAKE(get_system_av_info);
    TAKE(load_game);
    TAKE(serialize_size);
    TAKE(serialize);
    TAKE(unserialize);
    TAKE(set_controller_port_device);
    TAKE(get_memory_data);
    TAKE(get_memory_size);
    TAKE(api_version);
    TAKE(set_environment);
    TAKE(set_video_refresh);
    TAKE(set_audio_sample);
    TAKE(set_audio_sample_batch);
    TAKE(set_input_poll);
    TAKE(set_input_state);
    return has_all && self->api_version() == RETRO_API_VERSION ? true : refuse(self, "it is no libretro core of version 1");
}

bool core_about(core *self, const recipe *from) {
    const char *why;
    memset(self, 0, sizeof *self);
    self->from = from;
    self->format = RETRO_PIXEL_FORMAT_0RGB1555;
    while (self->set < CORES && cores[self->set] != NULL)
        self->set++;
    if (self->set == CORES)
        return refuse(self, "there are too many instances");
    cores[self->set] = self;
    if (!library_open(&self->library, &from->library, &why))
        return refuse(self, why);
    if (!find_calls(self))
        return false;
    self->get_system_info(&self->info);
    return true;
}

/* A game, as the core wants it: in memory, or as a file of its own. */
static bool load_game(core *self) {
    const recipe *from = self->from;
    struct retro_game_info game = { .path = from->rom_name, .data = from->rom.at, .size = from->rom.size };
    const char *base = strrchr(from->rom_name, '/');
    char name[1024];
    snprintf(name, sizeof name, "%.400s/faz-retro-%d-%d-%.200s", temporary_folder(), (int)getpid(), self->set,
             base != NULL ? base + 1 : from->rom_name);
    if (self->info.need_fullpath) {
        if (!file_write(name, from->rom.at, from->rom.size))
            return refuse(self, "the ROM can't be written to a file, from which this core reads it");
        game = (struct retro_game_info){ .path = name };
    }
    self->has_game = self->load_game(&game);
    if (self->info.need_fullpath)
        remove(name);
    return self->has_game ? true : refuse(self, "the core refuses this ROM");
}

static bool fill_save_ram(core *self) {
    const bytes *save = &self->from->save_ram;
    if (save->size == 0)
        return true;
    void *to = self->get_memory_data(RETRO_MEMORY_SAVE_RAM);
    if (to == NULL || self->get_memory_size(RETRO_MEMORY_SAVE_RAM) != save->size)
        return refuse(self, "the save RAM has another size than this game's");
    memcpy(to, save->at, save->size);
    return true;
}

static bool has_all_overrides(core *self) {
    for (int at = 0; at < self->from->override_count && self->why[0] == 0; at++) {
        bool is_there = false;
        for (int place = 0; place < self->option_count; place++) {
            size_t length = strlen(self->options[place].key);
            is_there |= strncmp(self->from->overrides[at], self->options[place].key, length) == 0
                && self->from->overrides[at][length] == '=';
        }
        if (!is_there)
            snprintf(self->why, sizeof self->why, "the core has no option %.60s", self->from->overrides[at]);
    }
    return self->why[0] == 0;
}

static bool start(core *self) {
    self->set_environment(answers[self->set]);
    self->init();
    self->is_begun = true;
    self->set_video_refresh(pictures[self->set]);
    self->set_audio_sample(samples[self->set]);
    self->set_audio_sample_batch(batches[self->set]);
    self->set_input_poll(polls[self->set]);
    self->set_input_state(pad_reads[self->set]);
    if (!load_game(self) || !has_all_overrides(self) || !fill_save_ram(self))
        return false;
    self->get_system_av_info(&self->av);
    for (unsigned port = 0; port < PORTS; port++)
        if (self->from->devices[port] != RETRO_DEVICE_NONE)
            self->set_controller_port_device(port, self->from->devices[port]);
    self->digests_picture = self->get_memory_size(RETRO_MEMORY_SYSTEM_RAM) == 0;
    self->run();
    return true;
}

/* What the heap gives is set to such bytes, where the C library can do so. */
static void fill_heap(int with) {
#ifdef __GLIBC__
    mallopt(M_PERTURB, with);
#else
    (void)with;
#endif
}

bool core_open(core *self, const recipe *from) {
    if (!core_about(self, from))
        return false;
    /* What a core takes from the heap and never sets is then mostly 0 in each instance, at each machine. */
    fill_heap(0xff);
    bool is_open = start(self);
    fill_heap(0);
    return is_open;
}

void core_close(core *self) {
    if (self->has_game)
        self->unload_game();
    if (self->is_begun)
        self->deinit();
    library_close(&self->library);
    for (int at = 0; at < self->option_count; at++) {
        free(self->options[at].key);
        free(self->options[at].value);
    }
    free(self->picture);
    free(self->sound);
    if (self->set < CORES && cores[self->set] == self)
        cores[self->set] = NULL;
    memset(self, 0, sizeof *self);
}

void core_step(core *self, const uint32_t *words, uint32_t count) {
    uint32_t all = 0;
    for (uint32_t at = 0; at < count && at < PORTS; at++) {
        self->pads[at] = (uint16_t)(words[at] & WORD_PAD);
        all |= words[at];
    }
    self->sound_count = 0;
    if ((all & WORD_PAUSE) != 0)
        return;
    if ((all & WORD_RESET) != 0)
        self->reset();
    self->run();
}

uint64_t core_digest(core *self) {
    const void *ram = self->get_memory_data(RETRO_MEMORY_SYSTEM_RAM);
    size_t size = self->get_memory_size(RETRO_MEMORY_SYSTEM_RAM);
    return ram == NULL || size == 0 ? self->picture_digest : digest_of(ram, size);
}

bool core_save(core *self, core_state *out) {
    out->size = self->serialize_size();
    out->picture = self->picture_digest;
    if (out->size > out->room) {
        uint8_t *more = realloc(out->at, out->size + out->size / 8);
        if (more == NULL)
            return false;
        out->at = more;
        out->room = out->size + out->size / 8;
    }
    return out->size > 0 && self->serialize(out->at, out->size);
}

bool core_load(core *self, const core_state *from) {
    self->picture_digest = from->picture;
    return self->unserialize(from->at, from->size);
}

void core_tell_ports(const core *self) {
    for (int port = 0; port < PORTS && self->ports != NULL && self->ports[port].types != NULL; port++) {
        printf("  port %d:", port + 1);
        for (unsigned at = 0; at < self->ports[port].num_types; at++)
            printf(" %u %s%s", self->ports[port].types[at].id, self->ports[port].types[at].desc,
                   at + 1 < self->ports[port].num_types ? "," : "\n");
    }
}

void core_options_text(const core *self, char *out, size_t room) {
    size_t length = 0;
    for (int port = 0; port < PORTS && length < room; port++)
        length += (size_t)snprintf(out + length, room - length, "%u\n", self->from->devices[port]);
    for (int at = 0; at < self->option_count && length < room; at++)
        length += (size_t)snprintf(out + length, room - length, "%s=%s\n", self->options[at].key, self->options[at].value);
}

/* Whether the core says that something can be plugged in there. A pad, or nothing, always can. */
static bool can_plug(const core *self, int port, uint32_t device) {
    bool can = device == RETRO_DEVICE_NONE || device == RETRO_DEVICE_JOYPAD;
    const struct retro_controller_info *at = self->ports;
    for (int place = 0; at != NULL && at[place].types != NULL && place <= port; place++)
        for (unsigned type = 0; place == port && type < at[place].num_types; type++)
            can |= at[place].types[type].id == device;
    return can;
}

static bool is_line(const char *line) {
    size_t at = 0;
    while (line[at] >= ' ' && line[at] <= '~')
        at++;
    return at > 0 && line[at] == 0;
}

bool core_options_take(const core *self, char *text, recipe *to) {
    char *rest, *line = strtok_r(text, "\n", &rest), *end;
    for (int port = 0; port < PORTS; port++, line = strtok_r(NULL, "\n", &rest)) {
        if (line == NULL || !is_line(line))
            return false;
        to->devices[port] = (uint32_t)strtoul(line, &end, 10);
        if (*end != 0 || !can_plug(self, port, to->devices[port]))
            return false;
    }
    to->override_count = 0;
    for (; line != NULL && is_line(line) && to->override_count < OVERRIDES; line = strtok_r(NULL, "\n", &rest))
        to->overrides[to->override_count++] = line;
    return line == NULL;
}
