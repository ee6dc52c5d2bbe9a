/* A libretro core that passes all calls on to another one, the file in SHIM_CORE, and times them: for a frontend of which only these
 * are seen. At its end it writes figures to the file SHIM_OUT, as `faz-retro --figures` does. A turn is all that lies between two
 * pauses of more than PAUSE microseconds without a call. Its processor time is that of the calls alone. */
#define _GNU_SOURCE
#include "../programs/retro/figures.h"

#include "../programs/common/clock.h"

#include <dlfcn.h>
#include <inttypes.h>
#include <libretro.h>
#include <stdio.h>
#include <stdlib.h>

enum { PAUSE = 6000 };

static struct {
    void *library;
    figures figures;
    int64_t begun, ended, processor; /* of the turn: its first and last moment, and what its calls took */
    uint32_t frames, again, deepest, runs, loads, saves;
} self;

static void *real(const char *name) {
    if (self.library == NULL)
        self.library = dlopen(getenv("SHIM_CORE"), RTLD_NOW | RTLD_LOCAL);
    void *found = self.library != NULL ? dlsym(self.library, name) : NULL;
    if (found == NULL) {
        fprintf(stderr, "%s\n", dlerror());
        exit(1);
    }
    return found;
}

static void end_turn(void) {
    if (self.frames == 0)
        return;
    figures_note(&self.figures, self.processor, self.ended - self.begun);
    self.again += self.frames - 1;
    self.deepest = self.frames - 1 > self.deepest ? self.frames - 1 : self.deepest;
    self.frames = 0;
    self.processor = 0;
}

/* A call begins: the processor time until then. */
static int64_t begin(void) {
    int64_t now = clock_micros();
    if (now - self.ended > PAUSE) {
        end_turn();
        self.begun = now;
    }
    return figures_processor();
}

static void end(int64_t processor) {
    self.processor += figures_processor() - processor;
    self.ended = clock_micros();
}

static void write_figures(void) {
    FILE *file = fopen(getenv("SHIM_OUT"), "w");
    end_turn();
    if (file == NULL)
        return;
    figures_write(&self.figures, file);
    fprintf(file, "frames %u\nagain %u\ndeepest %u\nruns %u\nloads %u\nsaves %u\n", self.figures.clock.count, self.again, self.deepest,
            self.runs, self.loads, self.saves);
    fclose(file);
}

/* clang-format off */
#define FIND(name) \
    static __typeof__(name) *to; \
    if (to == NULL) \
        *(void **)&to = real(#name)
#define PASS(result, name, list, words) \
    result name list { FIND(name); return to words; }
#define PASS_AND_TIME(result, name, list, words, counted) \
    result name list { \
        FIND(name); \
        int64_t processor = begin(); \
        result came = to words; \
        self.counted++; \
        end(processor); \
        return came; \
    }

PASS(void, retro_set_environment, (retro_environment_t call), (call))
PASS(void, retro_set_video_refresh, (retro_video_refresh_t call), (call))
PASS(void, retro_set_audio_sample, (retro_audio_sample_t call), (call))
PASS(void, retro_set_audio_sample_batch, (retro_audio_sample_batch_t call), (call))
PASS(void, retro_set_input_poll, (retro_input_poll_t call), (call))
PASS(void, retro_set_input_state, (retro_input_state_t call), (call))
PASS(void, retro_init, (void), ())
PASS(unsigned, retro_api_version, (void), ())
PASS(void, retro_get_system_info, (struct retro_system_info *info), (info))
PASS(void, retro_get_system_av_info, (struct retro_system_av_info *info), (info))
PASS(void, retro_set_controller_port_device, (unsigned port, unsigned device), (port, device))
PASS(void, retro_reset, (void), ())
PASS(void, retro_cheat_reset, (void), ())
PASS(void, retro_cheat_set, (unsigned index, bool is_on, const char *code), (index, is_on, code))
PASS(bool, retro_load_game, (const struct retro_game_info *game), (game))
PASS(bool, retro_load_game_special, (unsigned type, const struct retro_game_info *info, size_t count), (type, info, count))
PASS(void, retro_unload_game, (void), ())
PASS(unsigned, retro_get_region, (void), ())
PASS(void *, retro_get_memory_data, (unsigned id), (id))
PASS(size_t, retro_get_memory_size, (unsigned id), (id))
PASS(size_t, retro_serialize_size, (void), ())
PASS_AND_TIME(bool, retro_serialize, (void *out, size_t size), (out, size), saves)
PASS_AND_TIME(bool, retro_unserialize, (const void *from, size_t size), (from, size), loads)
/* clang-format on */

void retro_run(void) {
    FIND(retro_run);
    int64_t processor = begin();
    to();
    self.runs++;
    self.frames++;
    end(processor);
}

void retro_deinit(void) {
    FIND(retro_deinit);
    write_figures();
    to();
}
