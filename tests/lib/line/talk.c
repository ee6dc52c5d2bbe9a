/* One machine of a line: talk ME OTHER FOLDER [OPTION..]
 *
 * Two of them give each other their open keys and their signals by files in FOLDER, each of them late, and then send datagrams with
 * the time in them, 60 a second. What was seen is told at the end; those that it sent before one came are early.
 *
 *     --seconds N        how long, from the first datagram on (3)
 *     --within N         give up if none comes in so many seconds (20)
 *     --carried N        so many milliseconds a signal takes (20)
 *     --lost N           of 100 signals so many are lost
 *     --size N           bytes of a datagram (45)
 *     --stun ADDRESS PORT
 *     --relay ADDRESS PORT USER PASSWORD      --tcp-relay: the same, by TCP
 *     --relay-later SECONDS ADDRESS PORT USER PASSWORD      from so many seconds on there is this relay alone
 *     --relay-only
 *     --lies             sends packets of this library in the name of another machine too
 *     --forges           and changes one bit of each tenth signal on its way, and brings each twice */
#define _POSIX_C_SOURCE 200809L

#include "faz_line.h"

#include <inttypes.h>
#include <poll.h>
#include <stdio.h>
#include <stdlib.h>
#include <string.h>
#include <time.h>

/* Microseconds between two datagrams, and for how long it is waited for one more. */
enum { PERIOD = 16667, TAIL = 700000, MOST = 20000, WAITING = 64 };

typedef struct carried {
    uint64_t due;
    size_t length;
    uint8_t bytes[FAZ_LINE_SIGNAL];
} carried;

typedef struct talk {
    int me, other;
    const char *folder;
    long seconds, within, carried, lost, size;
    bool lies, forges;
    faz_line_settings settings;
    faz_line_relay later;
    uint64_t later_at;
    faz_line *line;
    FILE *out, *in;
    carried waiting[WAITING];
    size_t first, last;
    uint64_t begun, up, next, last_came, gap, gap_at, sent, early, count, broken, refused;
    uint32_t late[MOST];
    faz_line_state seen;
} talk;

static uint64_t micros_of(clockid_t clock) {
    struct timespec now;
    clock_gettime(clock, &now);
    return (uint64_t)now.tv_sec * 1000000 + (uint64_t)now.tv_nsec / 1000;
}

static uint64_t micros(void) { return micros_of(CLOCK_MONOTONIC); }

static void pause_a_little(void) { nanosleep(&(struct timespec){ .tv_nsec = 1000000 }, NULL); }

static _Noreturn void fail(const char *what) {
    printf("failed: %s\n", what);
    exit(2);
}

static FILE *file(const talk *self, const char *kind, int machine, const char *how) {
    char name[400];
    snprintf(name, sizeof name, "%s/%s-%d", self->folder, kind, machine);
    return fopen(name, how);
}

/* ---- keys and signals, by files */

static void exchange(talk *self, faz_line_keys *keys, uint8_t *their) {
    char from[400], to[400];
    FILE *own = file(self, "new", self->me, "wb");
    if (own == NULL || fwrite(keys->open, FAZ_LINE_KEY, 1, own) != 1 || fclose(own) != 0)
        fail("the key can't be written");
    snprintf(from, sizeof from, "%s/new-%d", self->folder, self->me);
    snprintf(to, sizeof to, "%s/key-%d", self->folder, self->me);
    self->out = file(self, "signals", self->me, "wb");
    if (self->out == NULL || rename(from, to) != 0)
        fail("the key can't be given");
    for (int tried = 0; tried < 10000; tried++, pause_a_little()) {
        FILE *key = file(self, "key", self->other, "rb");
        bool is_there = key != NULL && fread(their, FAZ_LINE_KEY, 1, key) == 1;
        if (key != NULL)
            fclose(key);
        if (is_there) {
            self->in = file(self, "signals", self->other, "rb");
            return;
        }
    }
    fail("the other machine gives no key");
}

static void put_signal(talk *self, const uint8_t *bytes, size_t length) {
    uint16_t size = (uint16_t)length;
    if (fwrite(&size, sizeof size, 1, self->out) != 1 || fwrite(bytes, length, 1, self->out) != 1 || fflush(self->out) != 0)
        fail("a signal can't be written");
}

static void carry_out(talk *self, uint64_t now) {
    uint8_t bytes[FAZ_LINE_SIGNAL];
    size_t length;
    while (faz_line_signal(self->line, bytes, sizeof bytes, &length)) {
        if (rand() % 100 < self->lost || self->last - self->first == WAITING)
            continue;
        carried *one = &self->waiting[self->last++ % WAITING];
        one->due = now + (uint64_t)self->carried * 1000;
        one->length = length;
        memcpy(one->bytes, bytes, length);
    }
    for (; self->first != self->last && self->waiting[self->first % WAITING].due <= now; self->first++) {
        carried *one = &self->waiting[self->first % WAITING];
        put_signal(self, one->bytes, one->length);
        if (self->forges) {
            put_signal(self, one->bytes, one->length);
            one->bytes[(size_t)rand() % one->length] ^= 4;
            put_signal(self, one->bytes, one->length);
        }
    }
}

static void carry_in(talk *self) {
    uint8_t bytes[FAZ_LINE_SIGNAL];
    for (;;) {
        long at = ftell(self->in);
        uint16_t size;
        if (fread(&size, sizeof size, 1, self->in) != 1 || size > sizeof bytes || fread(bytes, size, 1, self->in) != 1) {
            clearerr(self->in);
            fseek(self->in, at, SEEK_SET);
            return;
        }
        if (!faz_line_signalled(self->line, bytes, size))
            self->refused++;
    }
}

/* ---- datagrams: the time, and bytes that follow from it */

static void write_datagram(const talk *self, uint8_t *bytes, uint64_t now) {
    memcpy(bytes, &now, 8);
    for (long at = 8; at < self->size; at++)
        bytes[at] = (uint8_t)(now >> (at % 8) ^ (uint64_t)at);
}

static void take(talk *self, const uint8_t *bytes, size_t length) {
    uint8_t due[FAZGROND_DATAGRAM];
    uint64_t sent, now = micros();
    memcpy(&sent, bytes, 8);
    write_datagram(self, due, sent);
    if (length != (size_t)self->size || memcmp(due, bytes, length) != 0) {
        self->broken++;
        return;
    }
    if (self->count == 0) {
        printf("first %.0f\n", (double)(now - self->begun) / 1000);
        self->up = now;
        self->early = self->sent;
    } else if (now - self->last_came > self->gap) {
        self->gap = now - self->last_came;
        self->gap_at = now - self->up;
    }
    self->last_came = now;
    if (self->count < MOST)
        self->late[self->count] = (uint32_t)(now - sent);
    self->count++;
}

static void send_due(talk *self, uint64_t now, bool has_ended) {
    uint8_t bytes[FAZGROND_DATAGRAM] = { 0 };
    for (; self->next <= now; self->next += PERIOD) {
        if (has_ended)
            continue;
        write_datagram(self, bytes, micros());
        if (faz_line_send(self->line, bytes, (size_t)self->size))
            self->sent++;
        if (self->lies) {
            memcpy(bytes, "FZG4", 4);
            bytes[12] = (uint8_t)((self->me + 1) % 8 == self->other ? (self->me + 2) % 8 : (self->me + 1) % 8);
            faz_line_send(self->line, bytes, 53);
        }
    }
}

static const char *const WAYS[] = { "none", "lan", "direct", "relay" };
static const char *const STAGES[] = { "looking", "up", "silent", "blocked" };

static void say_changes(talk *self, uint64_t now) {
    faz_line_state state;
    faz_line_look(self->line, &state);
    if (state.stage != self->seen.stage || state.way != self->seen.way || state.generation != self->seen.generation)
        printf("at %.0f %s, way %s, generation %u\n", (double)(now - self->begun) / 1000, STAGES[state.stage], WAYS[state.way],
               state.generation);
    fflush(stdout);
    self->seen = state;
}

static int by_size(const void *one, const void *other) {
    uint32_t a = *(const uint32_t *)one, b = *(const uint32_t *)other;
    return a < b ? -1 : a > b;
}

static void say_result(talk *self) {
    faz_line_state *state = &self->seen;
    size_t count = self->count < MOST ? self->count : MOST;
    qsort(self->late, count, sizeof self->late[0], by_size);
    printf("way %s stage %s generation %u sent %" PRIu64 " came %" PRIu64, WAYS[state->way], STAGES[state->stage], state->generation,
           self->sent, self->count);
    if (count > 0)
        printf(" half %.1f most99 %.1f", self->late[count / 2] / 1000.0, self->late[count * 99 / 100] / 1000.0);
    printf(" gap %.0f at %.0f forged %" PRIu64 " again %" PRIu64 " misnamed %" PRIu64, (double)self->gap / 1000,
           (double)self->gap_at / 1000, state->forged, state->again, state->misnamed);
    printf(" dropped %" PRIu64 " broken %" PRIu64 " signals_refused %" PRIu64 " early %" PRIu64 " number %016" PRIx64 "\n", state->dropped,
           self->broken, self->refused, self->early, faz_line_number(self->line));
}

static void play(talk *self) {
    uint64_t most = 0, turns = 0, busy = 0;
    self->begun = self->next = micros();
    for (;; pause_a_little()) {
        uint64_t now = micros();
        uint8_t bytes[FAZGROND_DATAGRAM];
        size_t length;
        carry_in(self);
        if (self->later_at != 0 && now - self->begun > self->later_at) {
            self->later_at = 0;
            if (!faz_line_relays(self->line, &self->later, 1))
                fail("the later relay");
        }
        uint64_t before = micros_of(CLOCK_THREAD_CPUTIME_ID);
        faz_line_turn(self->line, (uint32_t)(now / 1000));
        uint64_t used = micros_of(CLOCK_THREAD_CPUTIME_ID) - before;
        busy += used, turns++;
        if (used > most)
            most = used;
        carry_out(self, now);
        while (faz_line_receive(self->line, bytes, sizeof bytes, &length))
            take(self, bytes, length);
        say_changes(self, now);
        uint64_t end = self->up + (uint64_t)self->seconds * 1000000;
        send_due(self, now, self->up != 0 && now > end);
        if (self->up != 0 && now > end + TAIL && now > self->last_came + TAIL)
            break;
        if (self->up == 0 && now - self->begun > (uint64_t)self->within * 1000000)
            break;
    }
    printf("turn %.1f us of the processor, %.1f at most\n", (double)busy / (double)turns, (double)most);
}

static void read_options(talk *self, int argc, char **argv) {
    const struct {
        const char *name;
        long *to;
    } numbers[] = { { "--seconds", &self->seconds },
                    { "--within", &self->within },
                    { "--carried", &self->carried },
                    { "--lost", &self->lost },
                    { "--size", &self->size } };
    for (int at = 4; at < argc; at++) {
        bool is_number = false;
        for (size_t n = 0; n < sizeof numbers / sizeof *numbers && at + 1 < argc; n++)
            if (strcmp(argv[at], numbers[n].name) == 0 && !is_number) {
                *numbers[n].to = atol(argv[++at]);
                is_number = true;
            }
        if (is_number)
            continue;
        if (strcmp(argv[at], "--stun") == 0 && at + 2 < argc) {
            self->settings.stun = argv[at + 1];
            self->settings.stun_port = (uint16_t)atoi(argv[at + 2]);
            at += 2;
        } else if ((strcmp(argv[at], "--relay") == 0 || strcmp(argv[at], "--tcp-relay") == 0) && at + 4 < argc
                   && self->settings.relay_count < FAZ_LINE_RELAYS) {
            faz_line_relay *relay = &self->settings.relays[self->settings.relay_count++];
            *relay = (faz_line_relay){ argv[at + 1], (uint16_t)atoi(argv[at + 2]), argv[at + 3], argv[at + 4], argv[at][2] == 't' };
            at += 4;
        } else if (strcmp(argv[at], "--relay-later") == 0 && at + 5 < argc) {
            self->later_at = (uint64_t)atol(argv[at + 1]) * 1000000;
            self->later = (faz_line_relay){ argv[at + 2], (uint16_t)atoi(argv[at + 3]), argv[at + 4], argv[at + 5], false };
            at += 5;
        } else if (strcmp(argv[at], "--relay-only") == 0) {
            self->settings.relay_only = true;
        } else if (strcmp(argv[at], "--lies") == 0) {
            self->lies = true;
        } else if (strcmp(argv[at], "--forges") == 0) {
            self->forges = true;
        } else {
            fail(argv[at]);
        }
    }
}

int main(int argc, char **argv) {
    static talk self = { .seconds = 3, .within = 20, .carried = 20, .size = 45 };
    faz_line_keys keys;
    uint8_t their[FAZ_LINE_KEY];
    const char *why;
    if (argc < 4)
        return 2;
    self.me = atoi(argv[1]);
    self.other = atoi(argv[2]);
    self.folder = argv[3];
    read_options(&self, argc, argv);
    if (!faz_line_draw(&keys))
        fail("no random numbers");
    srand(keys.open[0]);
    exchange(&self, &keys, their);
    self.settings.me = (uint32_t)self.me;
    self.settings.other = (uint32_t)self.other;
    self.settings.keys = &keys;
    self.settings.their = their;
    self.line = faz_line_open(&self.settings, &why);
    if (self.line == NULL)
        fail(why);
    play(&self);
    say_result(&self);
    faz_line_close(self.line);
    fclose(self.in);
    fclose(self.out);
    return self.count == 0 || self.broken != 0;
}
