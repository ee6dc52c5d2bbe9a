/* A libretro core for tests: RAM that every player's pad stirs. What is wrong with it says the variable FAZ_TEST_CORE, as
 * "upset=100 noram":
 *   upset=N   frame N leads to another state than elsewhere
 *   crash=N   the N-th frame that is run ends the process
 *   refuse=N  from the N-th load on it refuses states
 *   slow=N    a frame that isn't run by the process's first thread takes N milliseconds more
 *   loose     a load changes the course, but two loads are as one
 *   wild      the course isn't known from the state
 *   rest      a state has a byte that means nothing, and differs
 *   noram     it doesn't tell where its RAM is
 *   born=N    the game begins otherwise
 *   short     states have a byte less
 *   long      states have a byte more
 *   touchy    a frame goes otherwise if its state wasn't saved before it, or was saved twice
 *   deaf      a state of another beginning is taken, and changes nothing
 *   more      there is another option */
#define _GNU_SOURCE
#include <libretro.h>
#include <stddef.h>
#include <stdlib.h>
#include <string.h>
#include <time.h>
#include <unistd.h>

#ifndef TEST_VERSION
#define TEST_VERSION "1"
#endif

enum { WIDTH = 64, HEIGHT = 48, SAMPLES = 800, PADS = 8, SAVED = 64 };

static struct state {
    uint32_t frame, rest, born;
    uint8_t ram[2048], save[SAVED];
} state;
static uint32_t hidden, runs, loads, touched, speed = 1;
static bool is_loaded;
static retro_environment_t ask;
static retro_video_refresh_t show;
static retro_audio_sample_batch_t hear;
static retro_input_poll_t poll_pads;
static retro_input_state_t pad;

/* The number of a fault; 0 if it isn't asked for, 1 if it has none. */
static uint32_t fault(const char *name) {
    const char *all = getenv("FAZ_TEST_CORE"), *at = all != NULL ? strstr(all, name) : NULL;
    return at == NULL ? 0 : at[strlen(name)] == '=' ? (uint32_t)atoi(at + strlen(name) + 1) : 1;
}

static void read_options(void) {
    struct retro_variable speed_option = { "test_speed", NULL };
    if (ask(RETRO_ENVIRONMENT_GET_VARIABLE, &speed_option) && speed_option.value != NULL)
        speed = (uint32_t)atoi(speed_option.value);
}

void retro_set_environment(retro_environment_t call) {
    static const struct retro_variable options[] = { { "test_speed", "Speed; 1|2|3" }, { NULL, NULL } };
    static const struct retro_variable more[] = { { "test_speed", "Speed; 1|2|3" }, { "test_more", "More; 1" }, { NULL, NULL } };
    ask = call;
    ask(RETRO_ENVIRONMENT_SET_VARIABLES, (void *)(fault("more") != 0 ? more : options));
}
void retro_set_video_refresh(retro_video_refresh_t call) { show = call; }
void retro_set_audio_sample(retro_audio_sample_t call) { (void)call; }
void retro_set_audio_sample_batch(retro_audio_sample_batch_t call) { hear = call; }
void retro_set_input_poll(retro_input_poll_t call) { poll_pads = call; }
void retro_set_input_state(retro_input_state_t call) { pad = call; }
void retro_set_controller_port_device(unsigned port, unsigned device) { (void)port, (void)device; }

unsigned retro_api_version(void) { return RETRO_API_VERSION; }
void retro_get_system_info(struct retro_system_info *info) {
    *info = (struct retro_system_info){ .library_name = "test", .library_version = TEST_VERSION, .valid_extensions = "txt|rom" };
}
void retro_get_system_av_info(struct retro_system_av_info *info) {
    *info = (struct retro_system_av_info){ .geometry = { WIDTH, HEIGHT, WIDTH, HEIGHT, 0 }, .timing = { 60, 48000 } };
}

void retro_init(void) {}
void retro_deinit(void) {}
void retro_reset(void) {
    memset(state.ram, 0, sizeof state.ram);
    state.ram[0] = 1;
}
bool retro_load_game(const struct retro_game_info *game) {
    enum retro_pixel_format format = RETRO_PIXEL_FORMAT_RGB565;
    read_options();
    ask(RETRO_ENVIRONMENT_SET_PIXEL_FORMAT, &format);
    for (size_t at = 0; at < game->size; at++)
        state.ram[at % sizeof state.ram] += ((const uint8_t *)game->data)[at];
    state.ram[1] += (uint8_t)fault("born");
    state.born = fault("born");
    return game->size > 0;
}
bool retro_load_game_special(unsigned type, const struct retro_game_info *info, size_t count) {
    return (void)type, (void)info, (void)count, false;
}
void retro_unload_game(void) {}
unsigned retro_get_region(void) { return RETRO_REGION_NTSC; }
void retro_cheat_reset(void) {}
void retro_cheat_set(unsigned index, bool is_on, const char *code) { (void)index, (void)is_on, (void)code; }

/* Each place goes on from itself and the one before it; the pads stir some of them. */
static void stir(void) {
    for (unsigned port = 0; port < PADS; port++)
        for (unsigned button = 0; button < 16; button++)
            if (pad(port, RETRO_DEVICE_JOYPAD, 0, button) != 0)
                state.ram[(state.frame * 16 + port * 256 + button) % sizeof state.ram] += (uint8_t)(port + button + 1);
    for (size_t at = 1; at < sizeof state.ram; at++)
        state.ram[at] = (uint8_t)(state.ram[at] * 5 + state.ram[at - 1] + speed);
    state.ram[0] += (uint8_t)(state.ram[sizeof state.ram - 1] ^ state.frame ^ state.save[state.frame % SAVED]);
    state.save[state.frame % SAVED] ^= state.ram[7];
}

static void draw(void) {
    static uint16_t picture[WIDTH * HEIGHT];
    static int16_t sound[2 * SAMPLES];
    for (size_t at = 0; at < WIDTH * HEIGHT; at++)
        picture[at] = (uint16_t)(state.ram[at % sizeof state.ram] * 257);
    for (size_t at = 0; at < 2 * SAMPLES; at++)
        sound[at] = (int16_t)((at / 2 % 100) * state.ram[3]);
    show(picture, WIDTH, HEIGHT, WIDTH * sizeof *picture);
    hear(sound, SAMPLES);
}

#ifdef _WIN32
static bool is_helper(void) { return false; }
static void sleep_for(uint32_t milliseconds) { (void)milliseconds; }
#else
static bool is_helper(void) { return gettid() != getpid(); }
static void sleep_for(uint32_t milliseconds) { nanosleep(&(struct timespec){ milliseconds / 1000, milliseconds % 1000 * 1000000 }, NULL); }
#endif

/* A helper's frames take longer, if that is asked for. On Windows nothing asks for it. */
static void be_slow(void) {
    uint32_t wait = is_helper() ? fault("slow") : 0;
    if (wait > 0)
        sleep_for(wait);
}

void retro_run(void) {
    be_slow();
    poll_pads();
    if (fault("crash") == ++runs)
        abort();
    stir();
    if (fault("upset") != 0 && fault("upset") == state.frame)
        state.ram[9] ^= 1;
    if (fault("loose") != 0)
        state.ram[5] += (uint8_t)hidden;
    if (fault("wild") != 0)
        state.ram[5] += (uint8_t)runs;
    if (fault("touchy") != 0)
        state.ram[5] += (uint8_t)touched;
    touched = 0;
    is_loaded = false;
    hidden = 1;
    state.frame++;
    state.rest = fault("rest") != 0 ? runs & 0xff : 0;
    draw();
}

/* The last byte means nothing, so that a state may have one less. */
size_t retro_serialize_size(void) { return sizeof state + 1 - (fault("short") != 0) + (fault("long") != 0); }
bool retro_serialize(void *to, size_t size) {
    touched += !is_loaded;
    return size >= sizeof state && memset(to, 0, size) != NULL && memcpy(to, &state, sizeof state) != NULL;
}
bool retro_unserialize(const void *from, size_t size) {
    uint32_t born;
    if (size != retro_serialize_size() || (fault("refuse") != 0 && ++loads >= fault("refuse")))
        return false;
    memcpy(&born, (const uint8_t *)from + offsetof(struct state, born), sizeof born);
    if (fault("deaf") != 0 && born != state.born)
        return true;
    hidden = 0;
    touched = 1;
    is_loaded = true;
    memcpy(&state, from, sizeof state);
    return true;
}

void *retro_get_memory_data(unsigned id) {
    return id == RETRO_MEMORY_SAVE_RAM ? state.save : id == RETRO_MEMORY_SYSTEM_RAM && fault("noram") == 0 ? state.ram : NULL;
}
size_t retro_get_memory_size(unsigned id) {
    return id == RETRO_MEMORY_SAVE_RAM ? SAVED : id == RETRO_MEMORY_SYSTEM_RAM && fault("noram") == 0 ? sizeof state.ram : 0;
}
