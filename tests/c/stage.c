/* The program c_stage: a session over the static library, told as text, as tests/rattle/test_stage tells one of Rattle. It reads
 * commands from standard input, a line each, and writes what comes of each.
 *
 * The first line is `game tally`, behind it `limit N` and `log N` if wanted; the second is a script's header. The commands are
 * `L P W`, `R P F W`, `D P`, `S`, `A`, `G P UNTIL W,W,..` (`guess` too, and `-` for no words), `B JOB`, `reserve N`, `frames N W`,
 * `remotes N P F W` and `seen`. A player's number that is past those of any player is taken as 0, which is nobody's.
 *
 * The exit status is 0, 1 if the session doesn't open, and 2 at a line that can't be read. */
#include <fazgrond.h>
#include <inttypes.h>
#include <stdbool.h>
#include <stdio.h>
#include <stdlib.h>
#include <string.h>

#define LINE 1024
#define FIELDS 12
#define SLOTS 512
#define WORDS 64

typedef struct stage {
    fazgrond_session session;
    uint64_t state;
    uint64_t saved[SLOTS];
    fazgrond_settings settings;
} stage;

/* The fields of a line. */
typedef struct fields {
    size_t count;
    char *at[FIELDS];
} fields;

/* Where the last roll started, and what it led to, as its claim has it. */
typedef struct plan {
    uint32_t from;
    uint32_t to;
} plan;

static unsigned line_number;

_Noreturn static void unreadable(void) {
    printf("unreadable: line %u\n", line_number);
    exit(2);
}

static uint32_t number_of(const char *text) {
    char *end;
    unsigned long n = strtoul(text, &end, 10);
    if (end == text || *end != '\0' || *text == '-' || n > UINT32_MAX)
        unreadable();
    return (uint32_t)n;
}

static uint32_t number_at(const fields *line, size_t place) {
    if (place >= line->count)
        unreadable();
    return number_of(line->at[place]);
}

static uint8_t player_at(const fields *line, size_t place) {
    uint32_t n = number_at(line, place);
    return n > UINT8_MAX ? 0 : (uint8_t)n;
}

/* The numbers with a comma between each two, of which there is room for so many. */
static size_t numbers_of(char *text, uint32_t *out, size_t room) {
    size_t count = 0;
    for (char *part = strtok(text, ","); part; part = strtok(NULL, ",")) {
        if (count == room)
            unreadable();
        out[count++] = number_of(part);
    }
    return count;
}

/* The field behind the one of this name, if there is one. */
static char *behind(const fields *line, const char *name) {
    for (size_t place = 0; place + 1 < line->count; place++)
        if (strcmp(line->at[place], name) == 0)
            return line->at[place + 1];
    return NULL;
}

static bool read_line(fields *line, char *text) {
    if (!fgets(text, LINE, stdin))
        return false;
    line_number++;
    text[strcspn(text, "\n")] = '\0';
    line->count = 0;
    for (char *part = strtok(text, " "); part && line->count < FIELDS; part = strtok(NULL, " "))
        line->at[line->count++] = part;
    return true;
}

/* ---- The game: ten times the number, and of each player the number times the word, or 5 if the player has left. */

static uint64_t stepped(uint64_t state, const fazgrond_row *row) {
    uint64_t sum = 10 * state;
    for (uint32_t at = 0; at < row->count; at++)
        sum += (row->gone >> at & 1) != 0 ? 5 : (uint64_t)(at + 1) * row->words[at];
    return sum % 1000000;
}

static void carry_out(stage *on, const fazgrond_request *request) {
    if (request->slot >= SLOTS)
        abort();
    switch (request->kind) {
    case FAZGROND_LOAD: on->state = on->saved[request->slot]; break;
    case FAZGROND_SAVE: on->saved[request->slot] = on->state; break;
    case FAZGROND_STEP: on->state = stepped(on->state, &request->row); break;
    }
}

static void carry_out_all(stage *on) {
    fazgrond_request requests[16];
    size_t count;
    while ((count = fazgrond_take_requests(&on->session, requests, 16)) > 0)
        for (size_t at = 0; at < count; at++)
            carry_out(on, &requests[at]);
}

/* ---- What is seen. */

static uint32_t settled_of(stage *on) {
    uint32_t rows = 0;
    fazgrond_settled(&on->session, &rows);
    return rows;
}

static uint32_t frame_of(stage *on) {
    uint32_t frame = 0;
    fazgrond_frame(&on->session, &frame);
    return frame;
}

/* The state that the settled rows make by the rule alone. */
static uint64_t settled_state(stage *on) {
    uint64_t state = 0;
    fazgrond_row row;
    for (uint32_t frame = 0, end = settled_of(on); frame < end; frame++) {
        if (fazgrond_settled_row(&on->session, frame, &row) != FAZGROND_OK)
            abort();
        state = stepped(state, &row);
    }
    return state;
}

/* Reads the plan out of the last roll's claim. */
static int32_t plan_of(stage *on, plan *made) {
    static uint8_t text[1 << 20];
    size_t length = 0;
    uint32_t base, time;
    int32_t code = fazgrond_claim(&on->session, text, sizeof text - 1, &length);
    if (code != FAZGROND_OK)
        return code;
    text[length] = '\0';
    if (sscanf((const char *)text, "rollcert %*u players %*u base %" SCNu32 " from %" SCNu32 " time %" SCNu32, &base, &made->from, &time)
        != 3)
        abort();
    made->to = base + time;
    return FAZGROND_OK;
}

static void put_refused(int32_t code) { printf("refused %" PRId32 "\n", code); }

static void put_whether(int32_t code) {
    if (code == FAZGROND_OK)
        puts("ok");
    else
        put_refused(code);
}

static void put_rolled(stage *on, uint32_t from, uint32_t rerun) {
    printf("frame %" PRIu32 " from %" PRIu32 " rerun %" PRIu32 " settled %" PRIu32 " state %" PRIu64, frame_of(on), from, rerun,
           settled_of(on), on->state);
}

static void put_row(const fazgrond_row *row) {
    for (uint32_t at = 0; at < row->count; at++) {
        printf("%s", at > 0 ? "," : "");
        if ((row->gone >> at & 1) != 0)
            printf("x");
        else
            printf("%" PRIu32, row->words[at]);
    }
}

static void seen(stage *on) {
    size_t entries = 0;
    plan made;
    fazgrond_log_length(&on->session, &entries);
    printf("frame %" PRIu32 " settled %" PRIu32 " log %zu state %" PRIu64 " settled state %" PRIu64, frame_of(on), settled_of(on), entries,
           on->state, settled_state(on));
    if (plan_of(on, &made) == FAZGROND_OK)
        printf(" plan to %" PRIu32 " from %" PRIu32 " rerun %" PRIu32 "\n", made.to, made.from, made.to - made.from);
    else
        puts(" no plan");
}

/* ---- Calls. */

static int32_t hear(stage *on, uint8_t player, uint32_t frame, uint32_t word, uint32_t *repeated) {
    return fazgrond_remote_input(&on->session, player, frame, word, repeated);
}

static void remotes(stage *on, uint32_t count, uint8_t player, uint32_t frame, uint32_t word) {
    int32_t code = FAZGROND_INVALID_REQUEST;
    uint32_t repeated = 0;
    for (uint32_t past = 0; past < count; past++)
        code = hear(on, player, frame + past, word, &repeated);
    if (code != FAZGROND_OK)
        put_refused(code);
    else
        puts(repeated ? "repeated" : "taken");
}

static void synchronize(stage *on) {
    fazgrond_row row;
    plan made;
    int32_t code = fazgrond_synchronize_input(&on->session, &row);
    carry_out_all(on);
    if (code == FAZGROND_OK)
        code = plan_of(on, &made);
    if (code != FAZGROND_OK) {
        put_refused(code);
        return;
    }
    put_rolled(on, made.from, made.to - made.from);
    printf(" row ");
    put_row(&row);
    puts("");
}

static int32_t advance(stage *on, fazgrond_reached *reached) {
    int32_t code = fazgrond_advance_frame(&on->session, reached);
    carry_out_all(on);
    return code;
}

static void put_advanced(stage *on, int32_t code, const fazgrond_reached *reached) {
    if (code != FAZGROND_OK) {
        put_refused(code);
        return;
    }
    put_rolled(on, reached->from, reached->rerun);
    puts("");
}

/* A frame with the same word for each local player. */
static int32_t frame_with(stage *on, uint32_t word, fazgrond_reached *reached) {
    for (uint8_t player = 1; player <= FAZGROND_PLAYERS; player++) {
        if ((on->settings.local >> (player - 1) & 1) == 0)
            continue;
        int32_t code = fazgrond_add_local_input(&on->session, player, word);
        if (code != FAZGROND_OK)
            return code;
    }
    return advance(on, reached);
}

static void frames(stage *on, uint32_t count, uint32_t word) {
    fazgrond_reached reached = { 0, 0, 0 };
    int32_t code = FAZGROND_INVALID_REQUEST;
    for (uint32_t done = 0; done < count; done++)
        if ((code = frame_with(on, word, &reached)) != FAZGROND_OK)
            break;
    put_advanced(on, code, &reached);
}

static void disconnect(stage *on, uint8_t player) {
    int32_t code = fazgrond_disconnect_player(&on->session, player);
    if (code != FAZGROND_OK)
        put_refused(code);
    else
        printf("gone %u\n", player);
}

/* A guess, whose job is given up. */
static void guess(stage *on, uint8_t player, uint32_t until, char *text) {
    uint32_t words[WORDS], job;
    size_t count = strcmp(text, "-") == 0 ? 0 : numbers_of(text, words, WORDS);
    int32_t code = fazgrond_guess(&on->session, player, words, count, until, &job);
    carry_out_all(on);
    if (code == FAZGROND_NOTHING)
        puts("kept");
    else if (code != FAZGROND_OK)
        put_refused(code);
    else
        printf("job %" PRIu32 "\n", job);
}

static void graft(stage *on, uint32_t job) {
    uint32_t added;
    int32_t code = fazgrond_graft(&on->session, job, &added);
    if (code != FAZGROND_OK)
        put_refused(code);
    else
        printf("added %" PRIu32 "\n", added);
}

/* ---- Lines. */

static bool is(const fields *line, const char *name, size_t behind_it) {
    return line->count == behind_it + 1 && strcmp(line->at[0], name) == 0;
}

/* A command of a script. */
static bool play(stage *on, const fields *line) {
    fazgrond_reached reached = { 0, 0, 0 };
    if (is(line, "L", 2)) {
        put_whether(fazgrond_add_local_input(&on->session, player_at(line, 1), number_at(line, 2)));
    } else if (is(line, "R", 3)) {
        remotes(on, 1, player_at(line, 1), number_at(line, 2), number_at(line, 3));
    } else if (is(line, "D", 1)) {
        disconnect(on, player_at(line, 1));
    } else if (is(line, "S", 0)) {
        synchronize(on);
    } else if (is(line, "A", 0)) {
        int32_t code = advance(on, &reached);
        put_advanced(on, code, &reached);
    } else {
        return false;
    }
    return true;
}

static void answer(stage *on, const fields *line) {
    if (play(on, line))
        return;
    if (is(line, "G", 3) || is(line, "guess", 3))
        guess(on, player_at(line, 1), number_at(line, 2), line->at[3]);
    else if (is(line, "B", 1))
        graft(on, number_at(line, 1));
    else if (is(line, "reserve", 1))
        put_whether(fazgrond_reserve_log(&on->session, number_at(line, 1)));
    else if (is(line, "frames", 2))
        frames(on, number_at(line, 1), number_at(line, 2));
    else if (is(line, "remotes", 4))
        remotes(on, number_at(line, 1), player_at(line, 2), number_at(line, 3), number_at(line, 4));
    else if (is(line, "seen", 0))
        seen(on);
    else
        unreadable();
}

/* The settings of the first two lines. */
static void read_settings(fazgrond_settings *settings) {
    char first[LINE], second[LINE];
    fields options, header;
    uint32_t local[FAZGROND_PLAYERS];
    if (!read_line(&options, first) || options.count < 2 || strcmp(options.at[0], "game") != 0 || !read_line(&header, second))
        unreadable();
    char *players = behind(&header, "players"), *locals = behind(&header, "local"), *delays = behind(&header, "delay"),
         *masks = behind(&header, "mask"), *threshold = behind(&header, "threshold"), *version = behind(&header, "roll"),
         *limit = behind(&options, "limit"), *log = behind(&options, "log");
    if (!version || !players || !locals || !delays || !threshold)
        unreadable();
    *settings = fazgrond_settings_for(number_of(players));
    settings->profile = number_of(version) == 3 ? FAZGROND_WIDE : FAZGROND_GGPO;
    for (size_t at = 0, count = numbers_of(locals, local, FAZGROND_PLAYERS); at < count; at++)
        if (local[at] >= 1 && local[at] <= FAZGROND_PLAYERS)
            settings->local |= 1u << (local[at] - 1);
    settings->threshold = number_of(threshold);
    if (limit)
        settings->limit = number_of(limit);
    if (log)
        settings->log = number_of(log);
    numbers_of(delays, settings->delays, FAZGROND_PLAYERS);
    if (masks)
        numbers_of(masks, settings->masks, FAZGROND_PLAYERS);
}

int main(void) {
    static stage on = { .session = FAZGROND_CLOSED };
    char text[LINE];
    fields line;
    read_settings(&on.settings);
    int32_t code = fazgrond_open(&on.session, &on.settings);
    if (code != FAZGROND_OK) {
        put_refused(code);
        return 1;
    }
    while (read_line(&line, text))
        answer(&on, &line);
    fazgrond_close(&on.session);
    return 0;
}
