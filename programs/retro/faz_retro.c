/* A frontend of libretro cores for matches over a network. `usage` says how it is begun. */
#define _POSIX_C_SOURCE 200809L
#include "casting.h"
#include "check.h"
#include "online.h"
#include "watch.h"
#include "window.h"

#include "../common/options.h"
#include "../common/stops.h"

#include <inttypes.h>
#include <stdio.h>
#include <unistd.h>

static const char usage[] =
    "faz-retro check [OPTIONS] CORE ROM           whether a match can be played on a core: a minute\n"
    "faz-retro --host PORT [OPTIONS] CORE ROM     waits for the others there, and plays\n"
    "faz-retro --join ADDRESS:PORT [OPTIONS] CORE ROM     plays with those who are there\n"
    "faz-retro --watch ADDRESS:PORT [OPTIONS] CORE ROM    watches their match\n"
    "faz-retro --host --broker URL [OPTIONS] CORE ROM     the same over the internet: it tells a code, ..\n"
    "faz-retro --join CODE --broker URL [OPTIONS] CORE ROM     .. by which the others join, or --watch CODE\n"
    "faz-retro --view MATCH --broker URL [OPTIONS] CORE ROM    watches one that is published on a broker; --from FRAME\n"
    "faz-retro --play FILE [OPTIONS] CORE ROM     plays a match again that was recorded\n"
    "CORE is a libretro core, as nestopia_libretro.so, and ROM a game for it, or a .zip with one. All have to have the same.\n"
    "With a key, who joins is given the host's save RAM, options and opening; without, all have to have the same.\n"
    "  --machines N     the host waits for so many in all (2)\n"
    "  --viewers N      with a code it waits for so many besides, who watch (0)\n"
    "  --name NAME, --stun ADDRESS[:PORT], --relay USER:PASSWORD@ADDRESS[:PORT], --tcp-relay .., --relay-only, --trusted FILE\n"
    "  --ask: who joins has to be let in, by y or n; --door: the broker has a door, so that codes are short and --ask is on\n"
    "                   with a code: yours, as the others see it; servers that help to find a way; the others don't see this\n"
    "                   machine's address; the certificates by which the broker is believed\n"
    "  --seats N        one or two play at this machine (1)\n"
    "  --key WORDS      the same at all: keeps others out\n"
    "  --delay N, --delay2 N    the words of the first and the second player here count N frames later (1)\n"
    "  --save-ram FILE  what the game has saved before; the host writes it as the match ends\n"
    "  --options KEY=VALUE,..   the core's own options; --ports N,..  what is plugged in, by the numbers that the check tells\n"
    "  --record FILE    the match, to be played again; --picture FILE its course, for `rollduel play --picture`\n"
    "  --cast MATCH --broker URL    publishes the match with this name, on a broker (nats://127.0.0.1:4222)\n"
    "  --threshold N    the host says how many frames ahead one may be, --helpers N how many threads play ahead here: else as\n"
    "                   the check found it right\n"
    "  --hold N         words that come late wait for up to N turns while a helper plays their frames again (2 or more, as the\n"
    "                   check found it right; without helpers 0)\n"
    "  --rejoin         who has left comes back with the same words; all say it, also who watches, and who joins names its --port\n"
    "                   with a code there is no --port, and who has left comes back by --join and the code that is told last\n"
    "  --begin-with N   with a code and --rejoin, at the host: the match begins once N machines are there, and others come in later\n"
    "  --port N         the port of who joins or watches (any)\n"
    "  --timeout MS     a machine that is silent so long is gone (5000)\n"
    "  --headless       no window; --bot SEED plays by itself; --frames N ends then; --digests FILE has those of all frames\n"
    "  --figures FILE   how long turns took, and what was played again\n"
    "  --lag MS, --jitter MS, --loss PERCENT    makes the line worse for what this machine sends; --speed N, a faster clock\n"
    "  --again          after a desync it begins a new match without waiting for the key\n"
    "  --unchecked      plays on a core that was found unfit\n"
    "  --verbose        what the core says about errors is shown\n";

enum { MOST_AHEAD = 15, NO_PORT = 1 /* of who hosts by a code: none is opened */ };

static struct {
    recipe from;
    wish wish;
    net net;
    meeting meeting;
    facts facts;
    runner main;
    states states;
    verdict verdict;
    online_wish online;
    bool by_code;       /* machines meet by one, and send over the lines of a lobby */
    char *option_words; /* of the command line, or the host's */
    const char *options, *ports, *save, *key, *join, *watch, *play, *view;
    long from_frame, host, machines, viewers, seats, delays[SEATS], threshold, helpers, hold, port, timeout, frames, bot, lag, jitter, loss,
        speed;
    bool is_verbose, is_unchecked, goes_again, lasts;
} self = { .machines = 2,
           .seats = 1,
           .delays = { 1, 1 },
           .helpers = -1,
           .hold = -1,
           .timeout = FAZGROND_SILENT_AFTER,
           .speed = 1,
           .from_frame = -1,
           .wish = { .broker = "nats://127.0.0.1:4222" } };

static const option options[] = {
    { "--host", &self.host, NULL, NULL },
    { "--join", NULL, &self.join, NULL },
    { "--watch", NULL, &self.watch, NULL },
    { "--play", NULL, &self.play, NULL },
    { "--machines", &self.machines, NULL, NULL },
    { "--seats", &self.seats, NULL, NULL },
    { "--key", NULL, &self.key, NULL },
    { "--delay", &self.delays[0], NULL, NULL },
    { "--delay2", &self.delays[1], NULL, NULL },
    { "--save-ram", NULL, &self.save, NULL },
    { "--options", NULL, &self.options, NULL },
    { "--record", NULL, &self.wish.replay, NULL },
    { "--picture", NULL, &self.wish.picture, NULL },
    { "--digests", NULL, &self.wish.digests, NULL },
    { "--threshold", &self.threshold, NULL, NULL },
    { "--helpers", &self.helpers, NULL, NULL },
    { "--port", &self.port, NULL, NULL },
    { "--timeout", &self.timeout, NULL, NULL },
    { "--frames", &self.frames, NULL, NULL },
    { "--bot", &self.bot, NULL, NULL },
    { "--lag", &self.lag, NULL, NULL },
    { "--jitter", &self.jitter, NULL, NULL },
    { "--loss", &self.loss, NULL, NULL },
    { "--speed", &self.speed, NULL, NULL },
    { "--ports", NULL, &self.ports, NULL },
    { "--cast", NULL, &self.wish.cast, NULL },
    { "--view", NULL, &self.view, NULL },
    { "--broker", NULL, &self.wish.broker, NULL },
    { "--from", &self.from_frame, NULL, NULL },
    { "--hold", &self.hold, NULL, NULL },
    { "--figures", NULL, &self.wish.figures, NULL },
    { "--viewers", &self.viewers, NULL, NULL },
    { "--name", NULL, &self.online.name, NULL },
    { "--stun", NULL, &self.online.stun, NULL },
    { "--relay", NULL, &self.online.relay, NULL },
    { "--tcp-relay", NULL, &self.online.tcp_relay, NULL },
    { "--trusted", NULL, &self.online.trusted, NULL },
    { "--relay-only", NULL, NULL, &self.online.relay_only },
    { "--ask", NULL, NULL, &self.online.asks },
    { "--door", NULL, NULL, &self.online.by_door },
    { "--headless", NULL, NULL, &self.wish.is_headless },
    { "--again", NULL, NULL, &self.goes_again },
    { "--rejoin", NULL, NULL, &self.lasts },
    { "--begin-with", &self.online.begin_with, NULL, NULL },
    { "--unchecked", NULL, NULL, &self.is_unchecked },
    { "--verbose", NULL, NULL, &self.is_verbose },
    { NULL, NULL, NULL, NULL },
};

static int fail(const char *why) {
    fprintf(stderr, "faz-retro: %s\n", why);
    return 1;
}

/* What the command line names. */

static void take_overrides(char *list) {
    char *rest;
    for (char *at = strtok_r(list, ",", &rest); at != NULL && self.from.override_count < OVERRIDES; at = strtok_r(NULL, ",", &rest))
        self.from.overrides[self.from.override_count++] = at;
}

/* What is plugged in: pads into the first two ports, and what is said. */
static void take_devices(const char *list) {
    self.from.devices[0] = self.from.devices[1] = RETRO_DEVICE_JOYPAD;
    for (int port = 0; list != NULL && port < PORTS; port++) {
        self.from.devices[port] = (uint32_t)strtoul(list, NULL, 10);
        list = strchr(list, ',');
        list = list != NULL ? list + 1 : NULL;
    }
}

/* The core and the ROM. Which files a core takes, it says itself. */
static bool take_files(const char *library, const char *rom) {
    static core one;
    const char *why = "the core can't be read";
    bool is_there = file_read(library, &self.from.library);
    if (is_there) {
        is_there = core_about(&one, &self.from);
        why = one.why;
        if (is_there)
            is_there = rom_read(rom, one.info.block_extract ? NULL : one.info.valid_extensions, &self.from.rom, self.from.rom_name,
                                sizeof self.from.rom_name, &why);
        if (!is_there)
            fail(why);
        core_close(&one);
    } else
        fail(why);
    if (is_there && self.save != NULL && access(self.save, F_OK) == 0 && !file_read(self.save, &self.from.save_ram))
        return fail("the save RAM can't be read"), false;
    return is_there;
}

static bool take_verdict(void) {
    if (!verdict_read(&self.from, &self.verdict)) {
        self.verdict = (verdict){ .safety = SAFE, .threshold = 8 };
        fputs("this core wasn't checked on this machine: faz-retro check CORE ROM\n", stderr);
    }
    if (self.verdict.safety == NOT_TO_BE_HAD && !self.is_unchecked)
        return fail("no match can be played on this core: faz-retro check CORE ROM says why"), false;
    if (self.helpers < 0)
        self.helpers = self.verdict.helpers;
    if (self.hold < 0 || self.helpers == 0)
        self.hold = self.helpers > 0 ? verdict_turns(&self.verdict) : 0;
    if (self.threshold == 0) { /* further by as many turns as words wait, so that nobody stands still for these */
        self.threshold = (self.verdict.threshold > 0 ? self.verdict.threshold : 8) + self.hold;
        self.threshold = self.threshold < MOST_AHEAD ? self.threshold : MOST_AHEAD;
    }
    return true;
}

/* Why --rejoin can't be had with what else was said; null if it can. */
static const char *no_rejoin(void) {
    return self.host == 0 && self.join == NULL && self.watch == NULL ? "--rejoin is said with --host, --join or --watch"
        : self.join != NULL && self.port == 0 && !self.by_code       ? "--rejoin needs --port N: the same when this machine comes back"
        : self.hold > 0                                              ? "with --rejoin no word is held back"
        : self.wish.picture != NULL                                  ? "a match with --rejoin has no picture"
                                                                     : NULL;
}

/* Why what was said doesn't go with a code; null if it does. */
static const char *no_code(void) {
    return self.key != NULL                                ? "with a code there is no --key, as the code keeps others out"
        : self.machines + self.viewers > FAZGROND_MACHINES ? "by a code eight machines meet at most, those that watch among them"
        : self.online.begin_with > 0 && self.viewers > 0   ? "--begin-with isn't said with --viewers"
                                                           : NULL;
}

/* Whether machines meet by a code. */
static bool take_code(void) {
    const char *of = self.watch != NULL ? self.watch : self.join, *why = NULL;
    self.by_code |= of != NULL && strpbrk(of, ":.") == NULL; /* else it is an address */
    if (self.by_code)
        why = no_code();
    else if (self.viewers > 0)
        why = "--viewers is said with a code";
    else if (self.online.begin_with > 0)
        why = "--begin-with is said with a code";
    return why == NULL || (fail(why), false);
}

/* Whether what was said goes together. */
static bool take_rejoin(void) {
    const char *why = self.lasts ? no_rejoin() : NULL;
    if (why != NULL)
        return fail(why), false;
    if (self.lasts) {
        self.helpers = self.helpers > 0 ? self.helpers : 0;
        self.hold = 0;
    }
    return true;
}

static void take_wish(void) {
    self.wish.lasts = self.lasts;
    self.wish.is_stopped = is_stopped;
    self.wish.frames = (uint32_t)self.frames;
    self.wish.helpers = (uint32_t)self.helpers;
    self.wish.silent_after = (uint32_t)self.timeout;
    self.wish.hold = (uint32_t)self.hold;
    self.wish.speed = (uint32_t)self.speed;
    self.wish.from = self.from_frame >= 0 ? (uint32_t)self.from_frame : UINT32_MAX; /* the newest snapshot's */
    if (self.view != NULL)
        self.wish.cast = self.view;
    self.wish.bot = (uint64_t)self.bot;
    for (int seat = 0; seat < SEATS; seat++)
        self.wish.delays[seat] = (uint32_t)self.delays[seat];
    self.net.lag = (uint32_t)self.lag;
    self.net.jitter = (uint32_t)self.jitter;
    self.net.loss = (uint32_t)self.loss;
    self.net.speed = (uint32_t)self.speed;
}

static char options_text[OPTIONS_TEXT];

/* Opens the core, and what has to be alike at all machines. */
static bool open_core(core_state *opening) {
    core *one = &self.main.core;
    if (!core_open(one, &self.from) || !core_save(one, opening))
        return fail(one->why[0] != 0 ? one->why : "the core has no states"), false;
    one->is_shown = true;
    self.main.states = &self.states;
    core_options_text(one, options_text, sizeof options_text);
    self.facts = (facts){ .core = strong_digest_of(self.from.library.at, self.from.library.size),
                          .rom = strong_digest_of(self.from.rom.at, self.from.rom.size),
                          .save_ram = strong_digest_of(self.from.save_ram.at, self.from.save_ram.size),
                          .options = strong_digest_of(options_text, strlen(options_text)),
                          .opening = core_digest(one),
                          .reloads = self.verdict.safety == SAFE_IF_RELOADED,
                          .lasts = self.lasts };
    snprintf(self.facts.name, sizeof self.facts.name, "%.30s %.30s", one->info.library_name, one->info.library_version);
    return true;
}

/* The meeting. */

static bool give_all(const core_state *opening) {
    uint8_t *image = malloc(STATE_HEAD + opening->size);
    bool is_given = image != NULL;
    if (is_given)
        state_write(opening, image);
    is_given = is_given && meeting_give(&self.meeting, SAVE_RAM, self.from.save_ram.at, self.from.save_ram.size)
        && meeting_give(&self.meeting, CORE_OPTIONS, options_text, strlen(options_text))
        && meeting_give(&self.meeting, OPENING, image, STATE_HEAD + opening->size);
    free(image);
    return is_given || fail("there is no memory for what guests may take") == 0;
}

/* What this machine takes at most: as much as its core says. */
static void limit_all(void) {
    self.meeting.limits[SAVE_RAM] = (uint32_t)self.main.core.get_memory_size(RETRO_MEMORY_SAVE_RAM);
    self.meeting.limits[CORE_OPTIONS] = OPTIONS_TEXT - 1;
    self.meeting.limits[OPENING] = (uint32_t)(STATE_HEAD + self.main.core.serialize_size());
}

/* The core anew, with what was taken of the host. */
static const char *open_anew(core_state *opening) {
    core_close(&self.main.core);
    return open_core(opening) ? NULL : "the core can't be opened with what the host has sent";
}

static const char *load_opening(const bytes *came, core_state *opening) {
    core_state it;
    if (!state_read(came->at, came->size, &it))
        return "the host's opening is cut short";
    if (!core_load(&self.main.core, &it) || !state_copy(opening, &it))
        return "the core refuses the host's opening";
    self.facts.opening = core_digest(&self.main.core);
    return NULL;
}

/* What came of the host becomes this machine's, in memory alone. Why not, or null. */
static const char *take_over(int which, bytes *came, core_state *opening) {
    if (which == OPENING)
        return load_opening(came, opening);
    if (which == SAVE_RAM) {
        free(self.from.save_ram.at);
        self.from.save_ram = *came;
        came->at = NULL;
        return open_anew(opening);
    }
    char *words = malloc(came->size + 1);
    if (words != NULL)
        snprintf(words, came->size + 1, "%.*s", (int)came->size, (const char *)came->at);
    if (words == NULL || !core_options_take(&self.main.core, words, &self.from)) {
        free(words);
        self.from.override_count = 0;
        return "the host's options can't be had here";
    }
    free(self.option_words);
    self.option_words = words;
    return open_anew(opening);
}

static void take_what_came(core_state *opening) {
    bytes came;
    int which;
    if (!meeting_has_taken(&self.meeting, &which, &came))
        return;
    const char *why = take_over(which, &came, opening);
    free(came.at);
    self.meeting.facts = self.facts;
    if (why != NULL)
        meeting_refuse(&self.meeting, why);
    else
        limit_all();
}

static void show_waiting(const char *what) {
    const char *lines[3];
    if (self.wish.is_headless)
        return;
    int count = wish_ask(lines);
    lines[count++] = what;
    window_show(&self.main.core, false, false, lines, count);
}

static bool meet(core_state *opening) {
    char text[96];
    address from;
    uint8_t bytes[2048];
    long length;
    self.meeting.facts = self.facts;
    for (int seat = 0; seat < SEATS; seat++) {
        long delay = self.delays[seat];
        self.meeting.delays[seat] = (uint8_t)(delay >= 0 && delay < UINT8_MAX ? delay : UINT8_MAX);
    }
    limit_all();
    if (self.host > 0 && !give_all(opening))
        return false;
    uint32_t wanted = self.host > 0 && self.by_code ? online_wanted(&self.meeting) - (uint32_t)self.viewers : (uint32_t)self.machines;
    if (self.host > 0)
        meeting_host(&self.meeting, wanted, (uint32_t)self.seats, (uint32_t)self.threshold);
    else
        meeting_join(&self.meeting, &self.meeting.host, self.watch != NULL ? 0 : (uint32_t)self.seats);
    while (!self.meeting.is_agreed && !self.meeting.is_refused && wish_goes_on(&self.wish)) {
        while ((length = net_next(&self.net, &from, bytes, sizeof bytes)) >= 0)
            meeting_hear(&self.meeting, &from, bytes, (size_t)length);
        take_what_came(opening);
        meeting_turn(&self.meeting);
        snprintf(text, sizeof text, self.host > 0 ? "%" PRIu32 " of %" PRIu32 " machines are there" : "waiting for the host",
                 self.meeting.machines, wanted);
        show_waiting(text);
        net_rest(&self.net, 50000 / self.speed);
    }
    if (self.meeting.is_refused)
        fail(self.meeting.why);
    return self.meeting.is_agreed;
}

static bool open_port(void) {
    const char *host = self.watch != NULL ? self.watch : self.join;
    if (host != NULL && !address_read(host, &self.meeting.host))
        return fail("the host's address can't be read: it is as 10.0.0.7:7000"), false;
    if (!net_open(&self.net, (unsigned short)(self.host > 0 ? self.host : self.port)))
        return fail("the port can't be had"), false;
    self.meeting.has_key = self.key != NULL && *self.key != 0;
    self.meeting.key = strong_digest_of(self.key != NULL ? self.key : "", self.key != NULL ? strlen(self.key) : 0);
    return true;
}

/* The meeting begins once all lines are there. */
static bool open_by_code(void) {
    online_stage stage = ONLINE_WAITS;
    self.online.code = self.watch != NULL ? self.watch : self.join;
    self.online.broker = self.wish.broker;
    self.online.lasts = self.lasts;
    self.online.machines = (uint32_t)(self.machines + self.viewers);
    if (!online_open(&self.online))
        return false;
    while (stage == ONLINE_WAITS && wish_goes_on(&self.wish)) {
        stage = online_turn();
        show_waiting(online_text());
        net_rest(&self.net, 5000);
    }
    if (stage == ONLINE_READY && online_take(&self.net, &self.meeting))
        self.host = NO_PORT;
    return stage == ONLINE_READY;
}

static bool open_line(void) {
    self.meeting.net = &self.net;
    return self.by_code ? open_by_code() : open_port();
}

/* The match. */

static void write_save_ram(match *it) {
    uint32_t frame, slot;
    core *one = &self.main.core;
    if (self.host == 0 || self.save == NULL || one->get_memory_size(RETRO_MEMORY_SAVE_RAM) == 0
        || fazgrond_settled_slot(&it->session, &frame, &slot) != FAZGROND_OK || !core_load(one, &self.states.slots[slot].state))
        return;
    if (!file_write(self.save, one->get_memory_data(RETRO_MEMORY_SAVE_RAM), one->get_memory_size(RETRO_MEMORY_SAVE_RAM)))
        fail("the save RAM can't be written");
}

/* Shows how the match has ended, until the window is closed; unless all frames were played that were asked for. */
static void linger(const match *it) {
    bool has_all = self.wish.frames > 0 && it->frame >= self.wish.frames;
    while (it->is_over && !has_all && !self.wish.is_headless && wish_goes_on(&self.wish)) {
        show_waiting(it->told);
        net_rest(&self.net, 16000);
    }
}

/* After a desync: whether there is to be a new match. */
static bool wants_again(void) {
    while (!self.goes_again && !self.wish.is_headless && wish_goes_on(&self.wish)) {
        show_waiting("desync: F5 begins a new match from before it, escape ends");
        if (window_wants_again())
            return true;
        net_rest(&self.net, 16000);
    }
    return self.goes_again;
}

static int play(core_state *opening) {
    match it = { .wish = &self.wish,
                 .from = &self.from,
                 .meeting = &self.meeting,
                 .main = &self.main,
                 .states = &self.states,
                 .facts = &self.facts,
                 .opening = *opening };
    bool goes_on = meet(&it.opening);
    outcome came = is_stopped() ? ENDED : FAILED;
    while (goes_on) {
        if (self.watch != NULL)
            came = watch_match(&self.meeting, &self.main, &it.opening, &self.wish);
        else {
            came = match_play(&it);
            write_save_ram(&it);
            if (came != DESYNCED && came != UNHEARD)
                linger(&it);
        }
        goes_on = came == UNHEARD || (came == DESYNCED && wants_again() && match_go_back(&it));
        match_close(&it);
        states_begin(&self.states, self.facts.reloads, self.wish.digests != NULL);
        goes_on = goes_on && meet(&it.opening);
    }
    *opening = it.opening;
    return came == ENDED ? 0 : 1;
}

static int play_again(void) {
    replay made;
    if (!replay_read(self.play, &made))
        return fail("that is no replay");
    if (made.facts.core != self.facts.core || made.facts.rom != self.facts.rom || made.facts.options != self.facts.options) {
        replay_free(&made);
        return fail("the replay is of another core, ROM or options");
    }
    outcome came = watch_replay(&made, &self.main, &self.wish);
    replay_free(&made);
    return came == ENDED ? 0 : 1;
}

static int run(void) {
    core_state opening = { 0 };
    int status = 1;
    crashes_are_said();
    stops_begin();
    take_wish();
    if (!open_core(&opening))
        return 1;
    states_begin(&self.states, self.facts.reloads, self.wish.digests != NULL);
    if (!self.wish.is_headless && !window_open(&self.main.core, self.host > 0 ? 0 : 1))
        fail("no window can be opened: --headless plays without");
    else if (self.play != NULL)
        status = play_again();
    else if (self.view != NULL)
        status = casting_watch(&self.main, &self.wish, &self.facts, &opening) == ENDED ? 0 : 1;
    else if (open_line()) {
        status = play(&opening);
        meeting_close(&self.meeting);
        net_close(&self.net);
    } else if (is_stopped())
        status = 0;
    online_close();
    states_begin(&self.states, false, false);
    core_close(&self.main.core);
    free(opening.at);
    if (!self.wish.is_headless)
        window_close();
    return status;
}

/* Takes --host without a port out of the words: how many there are then. */
static int take_host(int count, char **words) {
    long port;
    int at = 1;
    while (at < count && (strcmp(words[at], "--host") != 0 || read_number(words[at + 1], &port)))
        at++;
    if (at >= count)
        return count;
    memmove(&words[at], &words[at + 1], (size_t)(count - at) * sizeof *words);
    self.by_code = true;
    self.host = NO_PORT;
    return count - 1;
}

int main(int count, char **words) {
    if (is_help(words, usage))
        return 0;
    count = take_host(count, words);
    bool is_check = count > 1 && strcmp(words[1], "check") == 0;
    int at = read_options(words + is_check, options);
    verdict found;
    if (self.options != NULL)
        take_overrides(self.option_words = strdup(self.options));
    self.from.is_verbose = self.is_verbose;
    take_devices(self.ports);
    if (at == 0 || count != at + is_check + 2 || self.seats < 1 || self.seats > SEATS || self.speed < 1 || self.hold > HOLDING_TURNS
        || self.machines < 2 || self.machines > FAZGROND_MACHINES
        || is_check + (self.host > 0) + (self.join != NULL) + (self.watch != NULL) + (self.play != NULL) + (self.view != NULL) != 1) {
        fputs(usage, stderr);
        return 2;
    }
    int status = take_files(words[at + is_check], words[at + is_check + 1]) ? 0 : 1;
    if (status == 0 && is_check)
        status = check_core(&self.from, self.frames > 0 ? (uint32_t)self.frames : 600, &found) ? 0 : 1;
    else if (status == 0)
        status = take_code() && take_rejoin() && take_verdict() ? run() : 1;
    free(self.option_words);
    free(self.from.library.at);
    free(self.from.rom.at);
    free(self.from.save_ram.at);
    return status;
}
