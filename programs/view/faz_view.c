/* Watches a match of the duel. `usage` says how it is begun. */
#define _POSIX_C_SOURCE 200809L
#include "../duel/duel_game.h"
#include "faz_view.h"

#include "../common/clock.h"
#include "../common/options.h"
#include "../common/stops.h"
#include "../common/window.h"

#include <poll.h>
#include <stdio.h>
#include <unistd.h>

static const char usage[] =
    "faz-view [OPTIONS] MATCH    watches a match of the duel that is published with this name\n"
    "  --broker URL    of the broker: nats://127.0.0.1:4222, or several with a comma between each two\n"
    "  --from FRAME    from this frame on, without catching up; else from the last snapshot on\n"
    "  --live          from the newest frame on\n"
    "  --cushion N     so many frames are kept in hand (30)\n"
    "  --export FILE   plays nothing: writes all of the match, or --frames N, as a script for `rollduel play --game duel`\n"
    "  --headless      no window\n"
    "  --frames N      ends once frame N is shown, and prints its state\n"
    "  --states FILE   writes each state that is shown, one a line, as rollduel shows it\n"
    "  --wait N        ends after so many seconds in which nothing came (60)\n"
    "  --speed N       so many times as fast\n"
    "Lines of standard input: `pause`, `play`, `live`, `to FRAME`, `back FRAMES`. In the window: the left arrow goes back by five\n"
    "seconds, the right one to the newest frame, and space pauses.\n";

enum { LINES = 3, BACK = 300, SOON = 2, VIEWER = 3 /* its window stands below those of two players */ };

static struct {
    faz_view *view;
    const char *broker, *export, *states;
    long from, cushion, frames, wait, speed;
    bool is_live, is_headless, is_over, is_deaf, is_waiting;
    FILE *out;
    char at_last[512];
    fazgrond_row *rows; /* of an export */
    size_t count, room;
    uint32_t held; /* of the window's keys */
    faz_view_state told;
} self = { .broker = "nats://127.0.0.1:4222", .from = -1, .cushion = 30, .wait = 60, .speed = 1 };

static int fail(const char *why) {
    fprintf(stderr, "faz-view: %s\n", why);
    return 2;
}

static int fail_of_version(uint32_t version) {
    fprintf(stderr, "faz-view: the match is published in version %u of its messages, which this program doesn't read\n", version);
    return 2;
}

/* What is shown. */

static void keep_row(const fazgrond_row *row) {
    if (self.count == self.room) {
        size_t room = 2 * self.room + 4096;
        fazgrond_row *more = realloc(self.rows, room * sizeof *more);
        if (more == NULL)
            exit(fail("no memory"));
        self.rows = more;
        self.room = room;
    }
    self.rows[self.count++] = *row;
}

static void on_seen(const void *state, const fazgrond_row *row, uint32_t frame, void *closure) {
    char text[512];
    (void)closure;
    if (self.export != NULL && !self.is_over)
        keep_row(row);
    if (self.out == NULL && (long)frame != self.frames)
        return;
    duel_text(state, text, sizeof text);
    if (self.out != NULL)
        fprintf(self.out, "%s\n", text);
    if ((long)frame == self.frames) {
        memcpy(self.at_last, text, sizeof text);
        self.is_over = true;
    }
}

/* Says what is new. */
static void tell(const faz_view_state *now) {
    if (now->is_shown && !self.told.is_shown)
        fprintf(stderr, "frame %u is the first\n", now->frame);
    if (now->gaps != self.told.gaps)
        fprintf(stderr, "gap: frames %u to %u were never published\n", now->gap_from, now->gap_to - 1);
    if (now->desync != self.told.desync && now->desync != FAZ_LATEST)
        fprintf(stderr, "Desync at frame %u: the players had another state\n", now->desync);
    if (now->has_ended && !self.told.has_ended)
        fprintf(stderr, "frame %u is the end: %s\n", now->frame, now->reason);
    self.told = *now;
}

static void draw(const faz_view_state *now) {
    char lines[LINES][128];
    const char *shown[LINES] = { lines[0], lines[1], lines[2] };
    const void *state = faz_view_shown(self.view);
    if (state == NULL)
        return;
    snprintf(lines[0], sizeof lines[0], "frame %u of %u%s", now->frame, now->known, now->is_paused ? ", paused" : "");
    snprintf(lines[1], sizeof lines[1], "dropped %u", now->malformed + now->other);
    snprintf(lines[2], sizeof lines[2], "%s", now->desync != FAZ_LATEST ? "Desync" : now->has_ended ? now->reason : "");
    window_draw(state, 0, shown, LINES);
}

/* What is asked for. */

static void go_back(uint32_t frames) {
    faz_view_state now;
    faz_view_look(self.view, &now);
    faz_view_seek(self.view, now.frame > frames ? now.frame - frames : 0);
}

static void obey(char *line) {
    unsigned frame;
    line[strcspn(line, "\n")] = 0;
    if (strcmp(line, "pause") == 0 || strcmp(line, "play") == 0)
        faz_view_pause(self.view, line[1] == 'a');
    else if (strcmp(line, "live") == 0)
        faz_view_follow(self.view);
    else if (sscanf(line, "to %u", &frame) == 1)
        faz_view_seek(self.view, frame);
    else if (sscanf(line, "back %u", &frame) == 1)
        go_back(frame);
    else
        fprintf(stderr, "faz-view: `%s` is none of pause, play, live, to FRAME, back FRAMES\n", line);
}

/* Lines that have come; it waits for none. */
static void hear_lines(void) {
    struct pollfd in = { .fd = STDIN_FILENO, .events = POLLIN };
    char line[128];
    while (!self.is_deaf && poll(&in, 1, 0) > 0)
        if (fgets(line, sizeof line, stdin) != NULL)
            obey(line);
        else
            self.is_deaf = true;
}

/* Keys of the window that were struck since the last turn. */
static void hear_keys(const faz_view_state *now) {
    uint32_t word = window_word(0), struck = word & ~self.held;
    self.held = word;
    if (struck & DUEL_LEFT)
        go_back(BACK);
    if (struck & DUEL_RIGHT)
        faz_view_follow(self.view);
    if (struck & DUEL_FIRE)
        faz_view_pause(self.view, !now->is_paused);
}

/* The main loop. */

static int watch(void) {
    int64_t due = 0, heard = clock_micros();
    faz_view_state now = { 0 };
    while (!self.is_over && !now.has_ended && !is_stopped() && (self.is_headless || window_goes_on())) {
        uint32_t known = now.known;
        hear_lines();
        uint32_t played = faz_view_turn(self.view, on_seen, NULL);
        faz_view_look(self.view, &now);
        tell(&now);
        if (!self.is_headless) {
            hear_keys(&now);
            draw(&now);
        }
        if (played > 0 || now.known != known || now.is_paused)
            heard = clock_micros();
        if (!now.is_shown && !self.is_waiting && clock_micros() - heard > SOON * 1000000) {
            fputs("faz-view: nothing of this match has come yet; it waits\n", stderr);
            self.is_waiting = true;
        }
        if (now.version != 0)
            return fail_of_version(now.version);
        if (clock_micros() - heard > self.wait * 1000000)
            return fail("nothing comes any more");
        if (self.export == NULL || played == 0) /* an export takes what is there at once */
            clock_wait_for_turn(&due, self.speed);
    }
    return 0;
}

/* The script. */

/* How many words a player has, before it left. */
static size_t words_of(uint32_t player) {
    size_t words = 0;
    while (words < self.count && (self.rows[words].gone >> player & 1) == 0)
        words++;
    return words;
}

static void write_list(FILE *file, const char *name, uint32_t players, const uint32_t *numbers) {
    fprintf(file, " %s ", name);
    for (uint32_t player = 0; player < players; player++)
        fprintf(file, "%s%u", player > 0 ? "," : "", numbers[player]);
}

static void write_header(FILE *file, const faz_head *head, uint32_t local) {
    static const uint32_t delays[FAZGROND_PLAYERS];
    fprintf(file, "roll %d players %u local %u", head->profile == FAZGROND_WIDE ? 3 : 2, head->players, local + 1);
    write_list(file, "delay", head->players, delays);
    write_list(file, "mask", head->players, head->masks);
    fprintf(file, " threshold %u\n", head->threshold);
}

static void write_frame(FILE *file, uint32_t local, size_t frame) {
    const fazgrond_row *row = &self.rows[frame];
    uint32_t before = frame > 0 ? self.rows[frame - 1].gone : 0;
    for (uint32_t player = 0; player < row->count; player++)
        if (player == local)
            fprintf(file, "L %u %u\n", player + 1, row->words[player]);
        else if ((row->gone >> player & 1) == 0)
            fprintf(file, "R %u %zu %u\n", player + 1, frame, row->words[player]);
        else if ((before >> player & 1) == 0)
            fprintf(file, "D %u\n", player + 1);
    fputs("A\n", file);
}

/* Whether somebody is back in a frame of the match: then it is no script's. */
static bool has_returned(void) {
    for (size_t frame = 1; frame < self.count; frame++)
        if ((self.rows[frame - 1].gone & ~self.rows[frame].gone) != 0) {
            fprintf(stderr,
                    "faz-view: somebody is back from frame %zu on, and a script is one session, in which who has left stays away; "
                    "`--frames %zu` writes what is before\n",
                    frame, frame);
            return true;
        }
    return false;
}

/* The player who stayed longest is the local one: a local player can't leave, so the script ends with it. */
static int write_script(void) {
    const faz_head *head = faz_view_head(self.view);
    uint32_t local = 0;
    if (has_returned())
        return 2;
    FILE *file = fopen(self.export, "w");
    if (file == NULL || head == NULL)
        return fail("the script can't be written");
    for (uint32_t player = 1; player < head->players; player++)
        if (words_of(player) > words_of(local))
            local = player;
    write_header(file, head, local);
    for (size_t frame = 0; frame < words_of(local); frame++)
        write_frame(file, local, frame);
    if (ftell(file) > 1048576)
        fputs("the script has over 1,048,576 bytes, more than rollduel takes\n", stderr);
    return fclose(file) == 0 && self.told.gaps == 0 ? 0 : fail("the script can't be written, or lacks the frames of a gap");
}

static int run(const char *match) {
    const char *why;
    faz_view_settings settings = { .servers = self.broker,
                                   .match = match,
                                   .game = &duel_game,
                                   .is_live = self.is_live,
                                   .from = self.from < 0 ? FAZ_LATEST : (uint32_t)self.from,
                                   .cushion = (uint32_t)self.cushion };
    if (self.export != NULL) {
        settings.from = settings.cushion = 0;
        self.is_headless = true;
    }
    if (self.states != NULL && (self.out = fopen(self.states, "w")) == NULL)
        return fail("the states can't be written");
    if ((self.view = faz_view_open(&settings, &why)) == NULL)
        return fail(why);
    self.told.desync = FAZ_LATEST;
    if (!self.is_headless && !window_open(VIEWER))
        return fail("no window can be opened: --headless watches without");
    int status = watch();
    if (status == 0 && self.export != NULL)
        status = write_script();
    if (self.at_last[0] != 0)
        printf("frame %ld state %s\n", self.frames, self.at_last);
    fprintf(stderr, "frame %u, %u malformed, %u other than before, %u gaps, asked %u times\n", self.told.frame, self.told.malformed,
            self.told.other, self.told.gaps, self.told.asked);
    faz_view_close(self.view);
    if (self.out != NULL)
        fclose(self.out);
    free(self.rows);
    return status != 0 ? status : self.told.desync != FAZ_LATEST;
}

int main(int count, char **words) {
    static const option options[] = {
        { "--broker", NULL, &self.broker, NULL },
        { "--from", &self.from, NULL, NULL },
        { "--cushion", &self.cushion, NULL, NULL },
        { "--export", NULL, &self.export, NULL },
        { "--frames", &self.frames, NULL, NULL },
        { "--states", NULL, &self.states, NULL },
        { "--wait", &self.wait, NULL, NULL },
        { "--speed", &self.speed, NULL, NULL },
        { "--live", NULL, NULL, &self.is_live },
        { "--headless", NULL, NULL, &self.is_headless },
        { NULL, NULL, NULL, NULL },
    };
    if (is_help(words, usage))
        return 0;
    int at = read_options(words, options);
    stops_begin();
    if (at == 0 || count != at + 1 || self.speed < 1) {
        fputs(usage, stderr);
        return 2;
    }
    return run(words[at]);
}
