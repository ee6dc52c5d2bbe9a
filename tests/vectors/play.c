/* Plays a trace (README.md) with machines over the library in C, and compares what comes of each line with what the trace has.
 *
 *     play FILE..      what is otherwise in each file is told, the first line of it alone; the last line is `N passed, M failed` */
#include <fazgrond.h>
#include <inttypes.h>
#include <stdbool.h>
#include <stdio.h>
#include <stdlib.h>
#include <string.h>

enum { MACHINES = FAZGROND_MACHINES, PLAYERS = FAZGROND_PLAYERS, DATAGRAMS = 4096, WORDS = 40, LINE = 4096, OUT = 128, REQUESTS = 16 };

typedef struct datagram {
    size_t length;
    uint8_t bytes[FAZGROND_DATAGRAM];
} datagram;

typedef struct machine {
    fazgrond_session session;
    fazgrond_peer peer;
    uint32_t own;
} machine;

/* A trace that is played: its settings, its machines, and what each sent to each. `out` are lines that have to come next. */
typedef struct world {
    char kind[16];
    uint64_t digest, opening, comers, numbers;
    uint32_t silent_after, stalled_after;
    machine machines[MACHINES];
    datagram *sent[MACHINES][MACHINES];
    uint32_t counts[MACHINES][MACHINES];
    char out[OUT][LINE];
    uint32_t outs, taken, line, passed;
    const char *file;
    bool is_wrong;
} world;

static void fail(const char *what) {
    fprintf(stderr, "play: %s\n", what);
    exit(2);
}

/* Something isn't as the trace has it. */
static void differ(world *self, const char *due, const char *is) {
    if (!self->is_wrong)
        printf("failed: %s, line %u: %s, and not %s\n", self->file, self->line, is, due);
    self->is_wrong = true;
}

static void must(world *self, int32_t code, const char *what) {
    char is[LINE];
    snprintf(is, sizeof is, "%s answers %d", what, code);
    if (code != FAZGROND_OK)
        differ(self, "0", is);
}

/* Room for a line that has to come next. */
static char *next_out(world *self) {
    if (self->outs == OUT)
        fail("too much comes of a line");
    return self->out[self->outs++];
}

static void put_sent(world *self, uint32_t me, uint32_t to, const uint8_t *bytes, size_t length) {
    char *line = next_out(self);
    int at = snprintf(line, LINE, "sends %u %u ", me, to);
    for (size_t byte = 0; byte < length; byte++)
        at += snprintf(line + at, (size_t)(LINE - at), "%02x", bytes[byte]);
}

static machine *at(world *self, uint64_t me) {
    if (me >= MACHINES)
        fail("there is no such machine");
    return &self->machines[me];
}

static uint64_t hex(const char *word) { return strtoull(word, NULL, 16); }

static uint32_t number(const char *word) { return (uint32_t)strtoul(word, NULL, 10); }

/* ---- A machine opens. */

static fazgrond_epoch epoch_of(char **words) {
    fazgrond_epoch epoch = { .size = sizeof epoch, .words = 1, .id = hex(words[0]), .base = number(words[1]) };
    epoch.threshold = number(words[2]);
    for (int player = 0; player < PLAYERS; player++) {
        epoch.owners[player] = number(words[3 + player]);
        epoch.delays[player] = number(words[3 + PLAYERS + player]);
    }
    return epoch;
}

static void put_epoch(char *line, const fazgrond_epoch *epoch) {
    int end = sprintf(line, "%016" PRIx64 " %" PRIu64 " %u", epoch->id, epoch->base, epoch->threshold);
    for (int player = 0; player < PLAYERS; player++)
        end += sprintf(line + end, " %u", epoch->owners[player]);
    for (int player = 0; player < PLAYERS; player++)
        end += sprintf(line + end, " %u", epoch->owners[player] == FAZGROND_NO_PLAYER ? 0 : epoch->delays[player]);
}

static uint32_t own_players(const fazgrond_epoch *epoch, uint32_t me) {
    uint32_t own = 0;
    for (int player = 0; player < PLAYERS; player++)
        own |= (uint32_t)(epoch->owners[player] == me) << player;
    return own;
}

static fazgrond_settings settings_of(const fazgrond_epoch *epoch, uint32_t me) {
    uint32_t players = 0;
    while (players < PLAYERS && epoch->owners[players] != FAZGROND_NO_PLAYER)
        players++;
    fazgrond_settings settings = fazgrond_settings_for(players);
    settings.profile = FAZGROND_WIDE;
    settings.threshold = epoch->threshold;
    settings.local = own_players(epoch, me);
    for (int player = 0; player < PLAYERS; player++)
        settings.delays[player] = settings.local >> player & 1 ? epoch->delays[player] : 0;
    return settings;
}

/* One more than the greatest number of a machine, the absent one among them. */
static uint32_t machines_of(const fazgrond_epoch *epoch) {
    uint32_t machines = 2, sitting = 0, absent = 0;
    bool is_free = false;
    for (int player = 0; player < PLAYERS; player++) {
        uint32_t owner = epoch->owners[player];
        is_free = is_free || owner == FAZGROND_NOBODY;
        if (owner < MACHINES) {
            sitting |= 1u << owner;
            machines = owner >= machines ? owner + 1 : machines;
        }
    }
    while ((sitting >> absent & 1) != 0)
        absent++;
    return is_free && absent >= machines && absent < MACHINES ? absent + 1 : machines;
}

static fazgrond_match match_of(const world *self, const fazgrond_epoch *epoch, uint32_t me, uint64_t draw) {
    fazgrond_match match = fazgrond_match_for(machines_of(epoch), me);
    for (uint32_t other = 0; other < MACHINES; other++)
        match.numbers[other] = self->numbers + (me < other ? 16 * me + other : 16 * other + me);
    memcpy(match.owners, epoch->owners, sizeof match.owners);
    match.draw = draw;
    match.digest = self->digest;
    match.opening = self->opening;
    match.comers = self->comers;
    match.silent_after = self->silent_after;
    match.stalled_after = self->stalled_after;
    return match;
}

static void open_machine(world *self, uint32_t me, char **words) {
    machine *by = at(self, me);
    fazgrond_epoch epoch = epoch_of(words + 1);
    fazgrond_settings settings = settings_of(&epoch, me);
    fazgrond_match match = match_of(self, &epoch, me, hex(words[0]));
    must(self, fazgrond_open(&by->session, &settings), "a session");
    if (strcmp(self->kind, "lasting") == 0)
        must(self, fazgrond_peer_open_lasting(&by->peer, &by->session, &match, &epoch), "a peer");
    else if (strcmp(self->kind, "carrying") == 0)
        must(self, fazgrond_peer_open_carrying(&by->peer, &by->session, &match), "a peer");
    else
        must(self, fazgrond_peer_open(&by->peer, &by->session, &match), "a peer");
    by->own = settings.local;
}

/* ---- A turn. */

static void drop_requests(machine *by) {
    fazgrond_request requests[REQUESTS];
    while (fazgrond_take_requests(&by->session, requests, REQUESTS) > 0)
        ;
}

static void put_events(world *self, uint32_t me) {
    fazgrond_event event;
    while (fazgrond_peer_event(&at(self, me)->peer, &event) == FAZGROND_OK)
        switch (event.code) {
        case FAZGROND_RUNNING: sprintf(next_out(self), "begins %u", me); break;
        case FAZGROND_LEFT: sprintf(next_out(self), "gone %u %u %u", me, event.machine, event.bye); break;
        case FAZGROND_DESYNC: sprintf(next_out(self), "desync %u %u %u", me, event.machine, event.frame); break;
        case FAZGROND_TWO_MARKS: sprintf(next_out(self), "two_marks %u %u %u", me, event.machine, event.player - 1); break;
        case FAZGROND_DISCONNECTED: sprintf(next_out(self), "left %u %u", me, event.player - 1); break;
        case FAZGROND_RESTARTED: sprintf(next_out(self), "restarted %u %u", me, event.machine); break;
        default: break;
        }
}

static void go_on(world *self, uint32_t me) {
    machine *by = at(self, me);
    fazgrond_epoch epoch;
    uint32_t frames;
    if (fazgrond_peer_go_on(&by->peer, &by->session, &frames) != FAZGROND_OK)
        return;
    drop_requests(by);
    must(self, fazgrond_peer_epoch(&by->peer, &epoch), "an epoch");
    char *line = next_out(self);
    put_epoch(line + sprintf(line, "goes_on %u %u ", me, frames), &epoch);
    by->own = own_players(&epoch, me);
}

static void turn(world *self, uint32_t me, uint32_t now) {
    machine *by = at(self, me);
    uint32_t is_running = 0;
    must(self, fazgrond_peer_poll(&by->peer, &by->session, now), "a poll");
    put_events(self, me);
    must(self, fazgrond_peer_is_running(&by->peer, &is_running), "a peer");
    if (is_running && strcmp(self->kind, "lasting") == 0)
        go_on(self, me);
}

static void play_frame(world *self, uint32_t me, char **words, uint32_t count) {
    machine *by = at(self, me);
    fazgrond_reached reached;
    uint32_t word = 0;
    for (uint8_t player = 0; player < PLAYERS; player++)
        if ((by->own >> player & 1) != 0 && word < count)
            must(self, fazgrond_add_local_input(&by->session, player + 1, number(words[word++])), "a word");
    must(self, fazgrond_advance_frame(&by->session, &reached), "a frame");
    drop_requests(by);
}

static void put_mark(world *self, uint32_t me, char **words, uint32_t count) {
    fazgrond_mark mark = fazgrond_mark_for();
    mark.ticket = hex(words[2]);
    mark.threshold = number(words[3]);
    for (int player = 0; player < PLAYERS; player++)
        mark.comes[player] = number(words[1]) >> player & 1;
    for (uint32_t one = 4; one + 1 < count; one += 2)
        mark.delays[number(words[one]) % PLAYERS] = number(words[one + 1]);
    machine *by = at(self, me);
    must(self, fazgrond_peer_mark(&by->peer, &by->session, (uint8_t)(number(words[0]) + 1), &mark), "a mark");
}

static void send_all(world *self, uint32_t me, uint32_t now) {
    machine *by = at(self, me);
    uint8_t bytes[FAZGROND_DATAGRAM], to;
    size_t length;
    for (to = 0; to < MACHINES; to++) {
        if (fazgrond_peer_send(&by->peer, &by->session, to, now, bytes, sizeof bytes, &length) == FAZGROND_OK)
            put_sent(self, me, to, bytes, length);
        if (fazgrond_peer_send_before(&by->peer, to, now, bytes, sizeof bytes, &length) == FAZGROND_OK)
            put_sent(self, me, to, bytes, length);
    }
    while (fazgrond_peer_send_more(&by->peer, &to, bytes, sizeof bytes, &length) == FAZGROND_OK)
        put_sent(self, me, to, bytes, length);
}

static void say_bye(world *self, uint32_t me, uint8_t to, uint8_t why) {
    uint8_t bytes[FAZGROND_DATAGRAM];
    size_t length;
    must(self, fazgrond_peer_bye(&at(self, me)->peer, to, why, bytes, sizeof bytes, &length), "a bye");
    put_sent(self, me, to, bytes, length);
}

/* ---- The text. */

/* What was sent is kept, for those that hear it. */
static void keep(world *self, uint32_t me, uint32_t to, const char *text) {
    if (self->counts[me][to] == DATAGRAMS)
        fail("too many datagrams");
    if (self->sent[me][to] == NULL && (self->sent[me][to] = calloc(DATAGRAMS, sizeof(datagram))) == NULL)
        fail("no memory");
    datagram *new = &self->sent[me][to][self->counts[me][to]++];
    for (; text[0] != 0 && text[1] != 0 && new->length < FAZGROND_DATAGRAM; text += 2) {
        char byte[] = { text[0], text[1], 0 };
        new->bytes[new->length++] = (uint8_t)hex(byte);
    }
}

static void hear(world *self, uint32_t me, uint32_t now, uint32_t by, uint32_t place) {
    (void)at(self, by);
    if (place >= self->counts[by][me])
        fail("a datagram is heard that wasn't sent");
    const datagram *one = &self->sent[by][me][place];
    machine *to = at(self, me);
    (void)fazgrond_peer_receive(&to->peer, &to->session, one->bytes, one->length, now);
}

static bool is(char **words, const char *verb) { return strcmp(words[0], verb) == 0; }

static bool set(world *self, char **words) {
    if (is(words, "kind"))
        snprintf(self->kind, sizeof self->kind, "%s", words[1]);
    else if (is(words, "silent_after"))
        self->silent_after = number(words[1]);
    else if (is(words, "stalled_after"))
        self->stalled_after = number(words[1]);
    else if (is(words, "digest"))
        self->digest = hex(words[1]);
    else if (is(words, "opening"))
        self->opening = hex(words[1]);
    else if (is(words, "comers"))
        self->comers = hex(words[1]);
    else if (is(words, "numbers"))
        self->numbers = hex(words[1]);
    else
        return false;
    return true;
}

/* Something that a machine does. */
static bool does(world *self, char **words, uint32_t count) {
    uint32_t me = number(words[1]);
    if (is(words, "open"))
        open_machine(self, me, words + 2);
    else if (is(words, "hear"))
        hear(self, me, number(words[2]), number(words[3]), number(words[4]));
    else if (is(words, "turn"))
        turn(self, me, number(words[2]));
    else if (is(words, "play"))
        play_frame(self, me, words + 2, count - 2);
    else if (is(words, "settled"))
        must(self, fazgrond_peer_note_settled(&at(self, me)->peer, &at(self, me)->session, hex(words[2])), "a digest");
    else if (is(words, "mark"))
        put_mark(self, me, words + 2, count - 2);
    else if (is(words, "send"))
        send_all(self, me, number(words[2]));
    else if (is(words, "lies"))
        keep(self, me, number(words[2]), words[3]);
    else if (is(words, "bye"))
        say_bye(self, me, (uint8_t)number(words[2]), (uint8_t)number(words[3]));
    else
        return false;
    return true;
}

/* What has come of the last line is what stands here. */
static void compare(world *self, const char *line, char **words) {
    if (self->taken == self->outs || strcmp(self->out[self->taken], line) != 0)
        differ(self, line, self->taken == self->outs ? "nothing more" : self->out[self->taken]);
    self->taken += self->taken < self->outs;
    self->passed++;
    if (is(words, "sends"))
        keep(self, number(words[1]), number(words[2]), words[3]);
}

/* Whether a line says what has to come of those before. */
static bool is_outcome(char **words) {
    static const char *const verbs[] = { "sends", "begins", "gone", "left", "restarted", "goes_on", "desync", "two_marks" };
    for (size_t one = 0; one < sizeof verbs / sizeof *verbs; one++)
        if (is(words, verbs[one]))
            return true;
    return false;
}

static void read_line(world *self, char *text) {
    char whole[LINE], *words[WORDS] = { NULL };
    uint32_t count = 0;
    text[strcspn(text, "\n")] = 0;
    snprintf(whole, sizeof whole, "%s", text);
    for (char *word = strtok(text, " "); word != NULL && count < WORDS; word = strtok(NULL, " "))
        words[count++] = word;
    if (count < 2 || words[0][0] == '#' || set(self, words))
        return;
    if (is_outcome(words)) {
        compare(self, whole, words);
        return;
    }
    if (self->taken < self->outs)
        differ(self, "nothing more", self->out[self->taken]);
    self->outs = self->taken = 0;
    if (!does(self, words, count))
        fail("a line that says nothing known");
}

static void end(world *self) {
    for (int me = 0; me < MACHINES; me++) {
        fazgrond_peer_close(&self->machines[me].peer);
        fazgrond_close(&self->machines[me].session);
        for (int to = 0; to < MACHINES; to++)
            free(self->sent[me][to]);
    }
}

static bool play(const char *file, uint32_t *passed) {
    static world self;
    char *text = NULL;
    size_t room = 0;
    FILE *from = fopen(file, "r");
    if (from == NULL)
        fail("a file isn't there");
    memset(&self, 0, sizeof self);
    for (self.file = file, self.line = 1; getline(&text, &room, from) >= 0 && !self.is_wrong; self.line++)
        read_line(&self, text);
    if (self.taken < self.outs)
        differ(&self, "nothing more", self.out[self.taken]);
    *passed += self.passed - self.is_wrong;
    end(&self);
    free(text);
    fclose(from);
    return !self.is_wrong;
}

int main(int count, char **words) {
    uint32_t passed = 0, failed = 0;
    for (int one = 1; one < count; one++)
        failed += !play(words[one], &passed);
    printf("%u passed, %u failed\n", passed, failed);
    return failed != 0;
}
