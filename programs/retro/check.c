#define _DEFAULT_SOURCE
#include "check.h"

#include "pads.h"

#include <pthread.h>
#include <stdio.h>
#include <stdlib.h>
#include <string.h>
#include <time.h>
#include <unistd.h>
#ifndef _WIN32
#include <sys/wait.h>
#endif

enum { BACK = 8, TRIES = 240, BYTES_OF = 120, PLACES = 6, PATIENCE = 900 /* seconds */, MOST_TURNS = 5 };

/* A course of frames: played once, or each stretch of so many frames twice, with the way back by a load. */
typedef struct course {
    const recipe *from;
    const core_state *opening; /* one for all: two instances needn't open alike */
    uint32_t frames, back;     /* back: 0, or after how many frames it goes back to play them again */
    bool saves, reloads;       /* each frame's state is saved; and loaded then */
    bool goes_wrong;           /* other words at first */
    uint64_t *digests;         /* of each frame: of RAM and picture */
    uint32_t differ;           /* frames that came out otherwise the second time */
    bool is_done;
    char why[160];
} course;

/* What is pressed in a frame. In the middle of the course the game is begun anew. */
static void words_of(const course *self, uint32_t frame, bool is_wrong, uint32_t *words) {
    hand hands[2] = { hand_of(frame / BACK + 1, 0), hand_of(frame / BACK + 1, 1) };
    for (uint32_t at = 0; at <= frame % BACK; at++)
        for (int player = 0; player < 2; player++)
            words[player] = hand_word(&hands[player]) ^ (is_wrong ? 0x1ff : 0);
    if (frame == self->frames / 2)
        words[0] |= WORD_RESET;
}

static uint64_t seen(core *one) { return core_digest(one) * 31 + one->picture_digest; }

/* Saves as a session does it: once after each frame, and the opening. */
static bool save(const course *self, core *one, core_state *state) {
    return !self->saves || (core_save(one, state) && (!self->reloads || core_load(one, state)));
}

static bool play_frame(const course *self, core *one, core_state *state, uint32_t frame, bool is_wrong) {
    uint32_t words[2];
    words_of(self, frame, is_wrong, words);
    core_step(one, words, 2);
    return save(self, one, state);
}

/* A stretch of frames, twice if the course goes back. The state before it becomes that after it. */
static bool play_stretch(course *self, core *one, core_state *before, core_state *state, uint32_t from, uint32_t to) {
    bool goes_on = true;
    for (uint32_t frame = from; frame < to && goes_on; frame++) {
        goes_on = play_frame(self, one, state, frame, self->goes_wrong);
        self->digests[frame] = seen(one);
    }
    if (self->back > 0)
        goes_on = goes_on && core_load(one, before);
    for (uint32_t frame = from; frame < to && goes_on && self->back > 0; frame++) {
        goes_on = play_frame(self, one, state, frame, false);
        self->differ += !self->goes_wrong && self->digests[frame] != seen(one);
        self->digests[frame] = seen(one);
    }
    core_state other = *before;
    *before = *state;
    *state = other;
    return goes_on;
}

static void *play_course(void *closure) {
    course *self = closure;
    core_state before = { 0 }, state = { 0 };
    core *one = calloc(1, sizeof *one);
    uint32_t step = self->back > 0 ? self->back : 1;
    self->is_done = one != NULL && core_open(one, self->from);
    snprintf(self->why, sizeof self->why, "%s", one != NULL ? one->why : "no memory");
    if (self->is_done) {
        one->digests_picture = true;
        self->is_done = core_load(one, self->opening) && save(self, one, &before);
    }
    for (uint32_t frame = 0; frame + step <= self->frames && self->is_done; frame += step) {
        self->is_done = play_stretch(self, one, &before, &state, frame, frame + step);
        snprintf(self->why, sizeof self->why, "it refuses to save or load a state");
    }
    if (one != NULL)
        core_close(one);
    free(one);
    free(before.at);
    free(state.at);
    return NULL;
}

static uint32_t differing(const course *one, const course *other) {
    uint32_t count = 0;
    for (uint32_t at = 0; at < one->frames; at++)
        count += one->digests[at] != other->digests[at];
    return count;
}

/* The courses that have to come out alike, if states are safe as they are, or if each is loaded as it is saved. */
static bool is_safe(const course *like, bool reloads, char *why, size_t room) {
    static const char *const names[] = {
        "straight on", "each frame twice", "eight frames twice", "eight wrong frames, and back", "the same, beside another thread",
        "and there"
    };
    enum { COURSES = 6 };
    uint32_t frames = like->frames;
    course all[COURSES];
    pthread_t other;
    bool is_good = true;
    for (int at = 0; at < COURSES; at++)
        all[at] = (course){ .from = like->from,
                            .opening = like->opening,
                            .frames = frames,
                            .saves = true,
                            .reloads = reloads,
                            .goes_wrong = at > 2,
                            .back = at == 0 ? 0
                                : at == 1   ? 1
                                            : BACK,
                            .digests = calloc(frames, sizeof(uint64_t)) };
    for (int at = 0; at < COURSES - 1 && is_good; at++) {
        bool is_beside = at == COURSES - 2 && pthread_create(&other, NULL, play_course, &all[at + 1]) == 0;
        play_course(&all[at]);
        if (is_beside)
            pthread_join(other, NULL);
        for (int one = at; one <= at + is_beside; one++) {
            uint32_t count = all[one].is_done ? differing(&all[0], &all[one]) : frames;
            if (count < all[one].differ)
                count = all[one].differ;
            printf("  %s: %u of %u frames differ\n", names[one], count, frames);
            if (!all[one].is_done || count > 0)
                snprintf(why, room, "%s", all[one].is_done ? "after a load it plays another course" : all[one].why);
            is_good &= all[one].is_done && count == 0;
        }
    }
    for (int at = 0; at < COURSES; at++)
        free(all[at].digests);
    return is_good;
}

/* Whether a course without saves is another one: no reason against the core, as sessions save after each frame. */
static void tell_saves(const course *like) {
    course plain = *like, saved = *like;
    plain.digests = calloc(like->frames, sizeof(uint64_t));
    saved.digests = calloc(like->frames, sizeof(uint64_t));
    saved.saves = true;
    play_course(&plain);
    play_course(&saved);
    printf("  without a save after each frame: %u of %u frames differ\n", differing(&plain, &saved), like->frames);
    free(plain.digests);
    free(saved.digests);
}

/* Whether another instance opens as the first one did. Bytes that nobody has set may differ. */
static void tell_opening(const course *like) {
    core_state state = { 0 };
    core *other = calloc(1, sizeof *other);
    size_t count = 0;
    if (other != NULL && core_open(other, like->from) && core_save(other, &state))
        for (size_t at = 0; at < state.size && at < like->opening->size; at++)
            count += state.at[at] != like->opening->at[at];
    printf("  %zu bytes differ between the openings of two instances\n", count);
    if (other != NULL)
        core_close(other);
    free(other);
    free(state.at);
}

/* Of this thread's processor time; Windows counts that in steps that are too large, so there it is the clock's. */
static double milliseconds(void) {
#ifdef _WIN32
    enum { CLOCK = CLOCK_MONOTONIC };
#else
    enum { CLOCK = CLOCK_THREAD_CPUTIME_ID };
#endif
    struct timespec time;
    clock_gettime(CLOCK, &time);
    return (double)time.tv_sec * 1e3 + (double)time.tv_nsec / 1e6;
}

static int by_size(const void *one, const void *other) {
    double x = *(const double *)one, y = *(const double *)other;
    return (x > y) - (x < y);
}

/* What a frame, a save and a load cost: medians of this thread's processor time. */
static bool measure(core *one, verdict *out) {
    static double times[3][TRIES];
    core_state state = { 0 };
    bool goes_on = true;
    for (int at = 0; at < TRIES && goes_on; at++) {
        double start = milliseconds();
        core_step(one, (uint32_t[2]){ 0 }, 2);
        double stepped = milliseconds();
        goes_on = core_save(one, &state);
        double saved = milliseconds();
        goes_on = goes_on && core_load(one, &state);
        times[0][at] = stepped - start;
        times[1][at] = saved - stepped;
        times[2][at] = milliseconds() - saved;
    }
    for (int which = 0; which < 3; which++)
        qsort(times[which], TRIES, sizeof times[0][0], by_size);
    out->step = times[0][TRIES / 2];
    out->save = times[1][TRIES / 2];
    out->load = times[2][TRIES / 2];
    free(state.at);
    return goes_on;
}

/* Which bytes of a state differ if the same frame is run twice from the same state. */
static void tell_bytes(core *one, uint32_t frames) {
    core_state before = { 0 }, first = { 0 }, second = { 0 };
    uint8_t *marks = NULL;
    size_t size = 0, count = 0, shown = 0;
    bool goes_on = core_save(one, &before);
    for (uint32_t frame = 0; frame < frames && goes_on; frame++) {
        core_step(one, (uint32_t[2]){ frame & 0x1f0, 0 }, 2);
        goes_on = core_save(one, &first) && core_load(one, &before);
        core_step(one, (uint32_t[2]){ frame & 0x1f0, 0 }, 2);
        goes_on = goes_on && core_save(one, &second);
        if (marks == NULL && (marks = calloc(1, size = first.size)) == NULL)
            break;
        for (size_t at = 0; at < size && at < first.size && at < second.size; at++)
            marks[at] |= first.at[at] ^ second.at[at];
        core_state other = before;
        before = second;
        second = other;
    }
    for (size_t at = 0; at < size; at++)
        count += marks[at] != 0;
    printf("  a state has %zu bytes, %zu of which differ if a frame is run twice%s", size, count, count > 0 ? ": at" : "\n");
    for (size_t at = 0; at < size && shown < PLACES; at++)
        if (marks[at] != 0 && (at == 0 || marks[at - 1] == 0))
            printf(" %zu%s", at, ++shown == PLACES ? " ..\n" : "");
    if (shown > 0 && shown < PLACES)
        printf("\n");
    free(before.at);
    free(first.at);
    free(second.at);
    free(marks);
}

/* Which threshold and how many helpers are right: none, if eight frames can be run again within a quarter of a turn, or there is no
 * processor for one; and further ahead, the dearer a frame is, as a helper then needs longer to catch up. */
static void advise(verdict *out, double turn) {
    double frame = out->step + out->save + (out->safety == SAFE_IF_RELOADED ? out->load : 0);
    out->threshold = frame < turn / 5 ? 8 : frame < turn * 2 / 5 ? 12 : 15;
    out->helpers = out->load + 9 * frame > turn / 4 && processors() > 1;
    if (frame > turn * 3 / 5) {
        out->safety = NOT_TO_BE_HAD;
        snprintf(out->why, sizeof out->why, "a frame takes %.1f ms of the %.1f that there are", frame, turn);
    }
}

/* A helper has to play some ten frames in this time, and then those that the game has played meanwhile. */
uint32_t verdict_turns(const verdict *it) {
    double frame = it->step + it->save + (it->safety == SAFE_IF_RELOADED ? it->load : 0);
    uint32_t turns = 2;
    while (turns < MOST_TURNS && 2 * it->load + (9 + turns) * frame > turns * 16.7)
        turns++;
    return turns;
}

static bool look_at(core *one, const recipe *from, core_state *opening, verdict *out) {
    snprintf(out->why, sizeof out->why, "it refuses to save or load a state");
    if (!core_open(one, from))
        return snprintf(out->why, sizeof out->why, "%s", one->why), false;
    snprintf(out->core, sizeof out->core, "%.40s %.40s", one->info.library_name, one->info.library_version);
    printf("%s: %.3f frames a second, %s\n", out->core, one->av.timing.fps,
           one->get_memory_size(RETRO_MEMORY_SYSTEM_RAM) > 0 ? "tells its RAM" : "tells no RAM: pictures are compared");
    core_tell_ports(one);
    if (!core_save(one, opening) || !measure(one, out))
        return false;
    printf("  a frame takes %.3f ms, a save %.3f, a load %.3f\n", out->step, out->save, out->load);
    tell_bytes(one, BYTES_OF);
    return true;
}

static void check(const recipe *from, uint32_t frames, verdict *out) {
    core *one = calloc(1, sizeof *one);
    core_state opening = { 0 };
    course like = { .from = from, .opening = &opening, .frames = frames };
    if (one == NULL || !look_at(one, from, &opening, out))
        return;
    double turn = 1000 / one->av.timing.fps;
    core_close(one);
    tell_opening(&like);
    tell_saves(&like);
    if (is_safe(&like, false, out->why, sizeof out->why))
        out->safety = SAFE;
    else if (printf("  if each state is loaded as it is saved:\n") > 0 && is_safe(&like, true, out->why, sizeof out->why))
        out->safety = SAFE_IF_RELOADED;
    if (out->safety != NOT_TO_BE_HAD)
        advise(out, turn);
}

/* Verdicts are kept one a line: the core's digest, what it is, costs, advice, name. */

static void verdict_keep(const recipe *from, const verdict *it) {
    char path[2048], line[512], key[32];
    bytes old;
    home_path("verdicts", path, sizeof path);
    snprintf(key, sizeof key, "%016llx ", (unsigned long long)strong_digest_of(from->library.at, from->library.size));
    snprintf(line, sizeof line, "%s%d %.3f %.3f %.3f %u %u %s\n", key, (int)it->safety, it->step, it->save, it->load, it->threshold,
             it->helpers, it->core);
    if (!file_read(path, &old))
        old = (bytes){ calloc(1, 1), 0 };
    char *text = calloc(1, old.size + sizeof line);
    for (size_t at = 0, length; text != NULL && at < old.size; at += length) {
        const uint8_t *end = memchr(old.at + at, '\n', old.size - at);
        length = end != NULL ? (size_t)(end - old.at) - at + 1 : old.size - at;
        if (length > strlen(key) && memcmp(old.at + at, key, strlen(key)) != 0)
            memcpy(text + strlen(text), old.at + at, length);
    }
    if (text != NULL)
        strcat(text, line);
    if (text == NULL || !file_write(path, text, strlen(text)))
        fprintf(stderr, "the verdict can't be kept in %s\n", path);
    free(text);
    free(old.at);
}

bool verdict_read(const recipe *from, verdict *out) {
    char path[2048], line[512];
    unsigned long long key, wanted = strong_digest_of(from->library.at, from->library.size);
    bool is_there = false;
    int kind, core_at;
    home_path("verdicts", path, sizeof path);
    FILE *file = fopen(path, "r");
    while (file != NULL && !is_there && fgets(line, sizeof line, file) != NULL) {
        memset(out, 0, sizeof *out);
        is_there = sscanf(line, "%llx %d %lf %lf %lf %u %u %n", &key, &kind, &out->step, &out->save, &out->load, &out->threshold,
                          &out->helpers, &core_at)
                == 7
            && key == wanted;
        if (is_there) {
            out->safety = (safety)kind;
            snprintf(out->core, sizeof out->core, "%.*s", (int)strcspn(line + core_at, "\n"), line + core_at);
        }
    }
    if (file != NULL)
        fclose(file);
    return is_there;
}

#ifdef _WIN32
/* In this process: if the core ends it, that is said, and no verdict is kept. */
static bool check_apart(const recipe *from, uint32_t frames, verdict *out) {
    crashes_are_said();
    check(from, frames, out);
    return true;
}
#else
/* In a process of its own, which tells its verdict by a pipe. */
static bool check_apart(const recipe *from, uint32_t frames, verdict *out) {
    int ends[2], status = 0;
    fflush(stdout);
    if (pipe(ends) != 0)
        return false;
    pid_t child = fork();
    if (child == 0) {
        alarm(PATIENCE);
        check(from, frames, out);
        fflush(stdout);
        _exit(write(ends[1], out, sizeof *out) == (ssize_t)sizeof *out ? 0 : 1);
    }
    close(ends[1]);
    bool is_told = child > 0 && read(ends[0], out, sizeof *out) == (ssize_t)sizeof *out;
    close(ends[0]);
    if (child > 0)
        waitpid(child, &status, 0);
    if (!is_told && WIFSIGNALED(status))
        snprintf(out->why, sizeof out->why, "it ended its process (signal %d, %s)", WTERMSIG(status), strsignal(WTERMSIG(status)));
    else if (!is_told)
        snprintf(out->why, sizeof out->why, "it ended its process");
    return is_told;
}
#endif

bool check_core(const recipe *from, uint32_t frames, verdict *out) {
    memset(out, 0, sizeof *out);
    snprintf(out->core, sizeof out->core, "%.90s", from->rom_name);
    check_apart(from, frames - frames % BACK, out);
    verdict_keep(from, out);
    if (out->safety == NOT_TO_BE_HAD)
        printf("not to be had: %s\n", out->why);
    else
        printf("%s; threshold %u, helpers %u, hold %u\n", out->safety == SAFE ? "safe" : "safe if each state is loaded as it is saved",
               out->threshold, out->helpers, out->helpers > 0 ? verdict_turns(out) : 0);
    return out->safety != NOT_TO_BE_HAD;
}
