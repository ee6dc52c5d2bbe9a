/* Measures matches on a broker: watch BROKER PID MATCHES VIEWERS EACH SECONDS HOW
 *
 * So many matches are published at 60 frames a second, each with so many subscriptions, EACH of them to a connection. HOW is what
 * the two players do: `hold` a button for a second, `play` as the duel's bots, or `brawl`, four players whose words are new in each
 * frame. PID is the broker's. Prints one row of bench/watch's table. */
#define _GNU_SOURCE
#include "../programs/common/bot.h"
#include "../programs/common/clock.h"
#include "../lib/watch/broker.h"
#include "faz_cast.h"
#include "../programs/duel/duel_game.h"

#include <inttypes.h>
#include <stdatomic.h>
#include <stdio.h>
#include <stdlib.h>
#include <string.h>
#include <sys/mman.h>
#include <sys/resource.h>
#include <sys/wait.h>
#include <unistd.h>

enum { MOST_MATCHES = 1000, MOST_RUNS = 1200, BINS = 20000, BIN = 100 /* microseconds */, WARM_UP = 3 };

/* What both processes see. */
typedef struct shared {
    atomic_llong settled[MOST_MATCHES][MOST_RUNS]; /* when a run's last row was settled, in microseconds */
    atomic_uint late[BINS];                        /* runs that were seen so late */
    atomic_llong seen;
    atomic_bool is_ready, is_over;
} shared;

static shared *both;
static const char *servers, *how;
static long broker_pid, matches, viewers, each, seconds;

static void die(const char *why) {
    fprintf(stderr, "watch: %s\n", why);
    exit(2);
}

static void name_of(char *out, long match) { snprintf(out, FAZ_NAME, "m%ld", match); }

/* The viewers, in a process of their own. */

static void on_message(natsConnection *connection, natsSubscription *subscription, natsMsg *message, void *closure) {
    const uint8_t *bytes = (const uint8_t *)natsMsg_GetData(message);
    uint32_t run = ((uint32_t)bytes[0] << 24 | (uint32_t)bytes[1] << 16 | (uint32_t)bytes[2] << 8 | bytes[3]) / FAZ_RUN;
    long match = (long)(intptr_t)closure;
    (void)connection, (void)subscription;
    if (run < MOST_RUNS && run > WARM_UP * 60 / FAZ_RUN) {
        int64_t late = (clock_micros() - atomic_load(&both->settled[match][run])) / BIN;
        atomic_fetch_add(&both->late[late < BINS ? late : BINS - 1], 1);
        atomic_fetch_add(&both->seen, 1);
    }
    natsMsg_Destroy(message);
}

static natsConnection *connect_pooled(void) {
    natsConnection *made = NULL;
    natsOptions *options = NULL;
    natsOptions_Create(&options);
    natsOptions_SetURL(options, servers);
    natsOptions_UseGlobalMessageDelivery(options, true);
    if (natsConnection_Connect(&made, options) != NATS_OK)
        die("the broker can't be reached");
    natsOptions_Destroy(options);
    return made;
}

static void watch(void) {
    natsConnection *connection = NULL;
    nats_SetMessageDeliveryPoolSize(4);
    for (long at = 0; at < matches * viewers; at++) {
        char name[FAZ_NAME], subject[FAZ_SUBJECT];
        natsSubscription *made;
        if (at % each == 0)
            connection = connect_pooled();
        name_of(name, at % matches);
        snprintf(subject, sizeof subject, FAZ_LIVE ".%s.*", name);
        if (natsConnection_Subscribe(&made, connection, subject, on_message, (void *)(intptr_t)(at % matches)) != NATS_OK)
            die("no more subscriptions");
        if (at % each == each - 1 || at + 1 == matches * viewers)
            natsConnection_Flush(connection);
    }
    atomic_store(&both->is_ready, true);
    while (!atomic_load(&both->is_over))
        usleep(100000);
    _exit(0);
}

/* The players. */

typedef struct match {
    duel field;
    duel_bot bots[DUEL_SHIPS];
    faz_cast *cast;
} match;

static uint32_t players(void) { return strcmp(how, "brawl") == 0 ? 4 : 2; }

static void open_match(match *self, long number) {
    char name[FAZ_NAME];
    const char *why;
    fazgrond_settings session = fazgrond_settings_for(players());
    duel_open(&self->field, players());
    for (uint32_t at = 0; at < players(); at++)
        self->bots[at] = duel_bot_of(number + 1, (int)at + 1);
    name_of(name, number);
    self->cast = faz_cast_open(&(faz_cast_settings){ .servers = servers,
                                                     .match = name,
                                                     .me = "bench",
                                                     .game = &duel_game,
                                                     .opening = &self->field,
                                                     .session = &session,
                                                     .rate = 60 },
                               &why);
    if (self->cast == NULL)
        die(why);
}

static uint32_t word_of(match *self, uint32_t player, uint32_t frame) {
    duel_bot *bot = &self->bots[player];
    if (strcmp(how, "hold") == 0)
        return (frame + 30 * player) / 60 % 2 == 0 ? DUEL_THRUST : DUEL_THRUST | DUEL_LEFT;
    uint32_t before = bot->word;
    duel_bot_draw(bot);
    if (strcmp(how, "brawl") == 0)
        bot->word = (uint32_t)(bot->seed >> 40 & 15) == before ? before ^ 1 : (uint32_t)(bot->seed >> 40 & 15);
    return bot->word;
}

static int64_t nanos(clockid_t clock) {
    struct timespec time;
    clock_gettime(clock, &time);
    return (int64_t)time.tv_sec * 1000000000 + time.tv_nsec;
}

/* How many nanoseconds the calls took that publish a frame: by the clock, and of a processor. */
typedef struct taken {
    int64_t time, work;
} taken;

static taken play(match *self, long number, uint32_t frame) {
    fazgrond_row row = { .count = players() };
    for (uint32_t at = 0; at < players(); at++)
        row.words[at] = word_of(self, at, frame);
    duel_step(&self->field, row.words);
    if (frame % FAZ_RUN == FAZ_RUN - 1)
        atomic_store(&both->settled[number][frame / FAZ_RUN], clock_micros());
    taken before = { nanos(CLOCK_MONOTONIC), nanos(CLOCK_THREAD_CPUTIME_ID) };
    faz_cast_row(self->cast, &row);
    faz_cast_settled(self->cast, frame + 1, &self->field);
    return (taken){ nanos(CLOCK_MONOTONIC) - before.time, nanos(CLOCK_THREAD_CPUTIME_ID) - before.work };
}

/* What the broker has used: processor time in hundredths of a second, and bytes that it wrote. */
static void look_at_broker(int64_t *time, int64_t *bytes) {
    char path[64], line[512];
    long user = 0, system = 0;
    snprintf(path, sizeof path, "/proc/%ld/stat", broker_pid);
    FILE *file = fopen(path, "r");
    if (file == NULL || fgets(line, sizeof line, file) == NULL
        || sscanf(strrchr(line, ')') + 1, " %*c %*d %*d %*d %*d %*d %*u %*u %*u %*u %*u %ld %ld", &user, &system) != 2)
        die("the broker is not there");
    fclose(file);
    *time = user + system;
    snprintf(path, sizeof path, "/proc/%ld/io", broker_pid);
    file = fopen(path, "r");
    while (file != NULL && fgets(line, sizeof line, file) != NULL)
        sscanf(line, "wchar: %" SCNd64, bytes);
    if (file != NULL)
        fclose(file);
}

static int by_size(const void *one, const void *other) {
    int64_t a = *(const int64_t *)one, b = *(const int64_t *)other;
    return (a > b) - (a < b);
}

/* The time, in milliseconds, within which so many of a hundred runs were seen. */
static double late_at(double percent) {
    int64_t all = atomic_load(&both->seen), sum = 0;
    size_t at = 0;
    while (at + 1 < BINS && (double)(sum += atomic_load(&both->late[at])) < (double)all * percent / 100)
        at++;
    return (double)(at + 1) * BIN / 1000;
}

static double own_time(void) {
    struct rusage used;
    getrusage(RUSAGE_SELF, &used);
    return (double)(used.ru_utime.tv_sec + used.ru_stime.tv_sec) + (double)(used.ru_utime.tv_usec + used.ru_stime.tv_usec) / 1000000;
}

static void measure(void) {
    static match all[MOST_MATCHES];
    uint32_t frames = (uint32_t)(seconds + WARM_UP) * 60;
    size_t room = (size_t)frames * (size_t)matches;
    int64_t *took = malloc(room * sizeof *took), *worked = malloc(room * sizeof *worked), due = 0, count = 0;
    int64_t time_before = 0, time_after = 0, bytes_before = 0, bytes_after = 0, began = 0;
    double own_before = 0;
    faz_cast_state state;
    uint32_t lost = 0;
    for (long number = 0; number < matches; number++)
        open_match(&all[number], number);
    for (uint32_t frame = 0; frame < frames; frame++) {
        clock_wait_for_turn(&due, 1);
        if (frame == WARM_UP * 60) {
            look_at_broker(&time_before, &bytes_before);
            own_before = own_time();
            began = clock_micros();
        }
        for (long number = 0; number < matches; number++) {
            taken one = play(&all[number], number, frame);
            took[count] = one.time;
            worked[count++] = one.work;
        }
    }
    look_at_broker(&time_after, &bytes_after);
    double passed = (double)(clock_micros() - began) / 1000000, own = own_time() - own_before;
    usleep(1000000);
    qsort(took, (size_t)count, sizeof *took, by_size);
    qsort(worked, (size_t)count, sizeof *worked, by_size);
    for (long number = 0; number < matches; number++) {
        faz_cast_end(all[number].cast, "measured");
        faz_cast_close(all[number].cast, 10000, &state);
        lost += state.lost;
    }
    double wanted = (double)matches * (double)viewers * (double)(frames / FAZ_RUN - WARM_UP * 60 / FAZ_RUN - 1);
    printf("| %ld | %ld | %ld | %s | %.0f | %.0f %% | %.1f | %.1f | %.1f / %.1f | %.1f / %.1f | %.2f %% | %.2f %% |\n", matches, viewers,
           each, how, (double)(bytes_after - bytes_before) / passed / (double)(matches * viewers),
           (double)(time_after - time_before) / (double)sysconf(_SC_CLK_TCK) / passed * 100, late_at(50), late_at(99),
           (double)took[count / 2] / 1000, (double)took[count * 99 / 100] / 1000, (double)worked[count * 99 / 100] / 1000,
           (double)worked[count - 1] / 1000, own / passed / (double)matches * 100, 100 - 100 * (double)atomic_load(&both->seen) / wanted);
    if (lost > 0)
        printf("%" PRIu32 " rows lost\n", lost);
    free(took);
    free(worked);
}

int main(int count, char **words) {
    if (count != 8)
        die("watch BROKER PID MATCHES VIEWERS EACH SECONDS hold|play|brawl");
    servers = words[1];
    broker_pid = atol(words[2]);
    matches = atol(words[3]);
    viewers = atol(words[4]);
    each = atol(words[5]);
    seconds = atol(words[6]);
    how = words[7];
    both = mmap(NULL, sizeof *both, PROT_READ | PROT_WRITE, MAP_SHARED | MAP_ANONYMOUS, -1, 0);
    if (both == MAP_FAILED || matches > MOST_MATCHES || each < 1 || (seconds + WARM_UP) * 60 / FAZ_RUN >= MOST_RUNS)
        die("too many matches, or seconds");
    pid_t child = fork();
    if (child == 0)
        watch();
    while (!atomic_load(&both->is_ready))
        if (usleep(10000) != 0 || waitpid(child, NULL, WNOHANG) == child)
            die("the viewers have ended");
    measure();
    atomic_store(&both->is_over, true);
    waitpid(child, NULL, 0);
    return 0;
}
