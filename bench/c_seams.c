/* What a seam of a match that goes on in epochs costs through C: make seams
 *
 * Machines in one process, with a state of 64 KB that the game copies as it saves and loads. Datagrams come six turns later. Machine 0
 * puts a mark that changes nothing in each fortieth turn, and each machine's own call of fazgrond_peer_go_on is timed where it goes on: by
 * itself, and with all requests that it leaves carried out. It is the processor's time, so that what else runs counts for little. What it
 * takes of memory is counted at malloc and realloc, by which it is linked (-Wl,--wrap): the library calls them alone. */
#define _POSIX_C_SOURCE 199309L
#include "../tests/check.h"

#include <fazgrond.h>
#include <stdio.h>
#include <stdlib.h>
#include <string.h>
#include <time.h>

enum { STATE = 65536, SLOTS = 257, SEAMS = 300, MARK_EVERY = 40, LATENCY = 6, UNDER_WAY = 256, MOST = FAZGROND_MACHINES };

typedef struct state {
    uint64_t mixed;
    uint8_t rest[STATE - sizeof(uint64_t)];
} state;

typedef struct datagram {
    uint32_t due;
    size_t length;
    uint8_t bytes[FAZGROND_DATAGRAM];
} datagram;

typedef struct machine {
    fazgrond_session session;
    fazgrond_peer peer;
    state now, *saved[SLOTS];
    datagram line[UNDER_WAY];
    size_t on_the_way;
    uint32_t seams;
} machine;

/* What one seam took: nanoseconds of the call and of all, frames that were run again, blocks of memory and their bytes. */
typedef struct seam {
    double call, all;
    uint32_t again;
    size_t blocks, bytes;
} seam;

static machine machines[MOST];
static seam seams[MOST * SEAMS];
static size_t seam_count, blocks, bytes_taken;

void *__real_malloc(size_t size);
void *__real_realloc(void *at, size_t size);
void *__wrap_malloc(size_t size);
void *__wrap_realloc(void *at, size_t size);

static void count(size_t size) {
    blocks++;
    bytes_taken += size;
}

void *__wrap_malloc(size_t size) {
    count(size);
    return __real_malloc(size);
}

void *__wrap_realloc(void *at, size_t size) {
    count(size);
    return __real_realloc(at, size);
}

static double now(void) {
    struct timespec time;
    clock_gettime(CLOCK_PROCESS_CPUTIME_ID, &time);
    return (double)time.tv_sec * 1e9 + (double)time.tv_nsec;
}

/* ---- The game. */

static void step(state *game, const fazgrond_row *row) {
    for (uint32_t at = 0; at < row->count; at++)
        game->mixed = (game->mixed ^ row->words[at]) * 0x100000001b3 + 1;
    game->rest[game->mixed % sizeof game->rest]++;
}

static void save(machine *self, uint32_t slot) {
    if (self->saved[slot] == NULL && (self->saved[slot] = calloc(1, sizeof(state))) == NULL)
        exit(1);
    *self->saved[slot] = self->now;
}

static void carry_out_all(machine *self) {
    fazgrond_request requests[16];
    size_t some;
    while ((some = fazgrond_take_requests(&self->session, requests, 16)) > 0)
        for (size_t at = 0; at < some; at++)
            switch (requests[at].kind) {
            case FAZGROND_LOAD: self->now = *self->saved[requests[at].slot]; break;
            case FAZGROND_SAVE: save(self, requests[at].slot); break;
            case FAZGROND_STEP: step(&self->now, &requests[at].row); break;
            }
}

/* ---- A match. */

static void open_machine(uint32_t me, uint32_t count) {
    machine *self = &machines[me];
    fazgrond_settings settings = fazgrond_settings_for(count);
    fazgrond_match match = fazgrond_match_for(count, me);
    for (uint32_t player = 0; player < count; player++)
        match.owners[player] = player;
    settings.local = 1u << me;
    for (uint32_t player = 0; player < count; player++)
        settings.delays[player] = 2;
    match.draw = me + 1;
    fazgrond_one_number(&match, 7);
    fazgrond_epoch epoch = fazgrond_epoch_for(&match, &settings);
    for (uint32_t player = 0; player < count; player++)
        settings.delays[player] = player == me ? 2 : 0;
    OK(fazgrond_open(&self->session, &settings));
    OK(fazgrond_peer_open_lasting(&self->peer, &self->session, &match, &epoch));
    save(self, 0);
}

static void hear(machine *self, uint32_t turn) {
    size_t left = 0;
    for (size_t at = 0; at < self->on_the_way; at++)
        if (self->line[at].due > turn)
            self->line[left++] = self->line[at];
        else /* what is of no epoch that is open here yet comes again */
            (void)fazgrond_peer_receive(&self->peer, &self->session, self->line[at].bytes, self->line[at].length, turn * 16);
    self->on_the_way = left;
}

static void post(uint32_t to, uint32_t turn, const uint8_t *bytes, size_t length) {
    machine *other = &machines[to];
    if (other->on_the_way == UNDER_WAY)
        return;
    datagram *sent = &other->line[other->on_the_way++];
    sent->due = turn + LATENCY;
    sent->length = length;
    memcpy(sent->bytes, bytes, length);
}

static void send_all(uint32_t me, uint32_t count, uint32_t turn) {
    machine *self = &machines[me];
    uint8_t bytes[FAZGROND_DATAGRAM], to;
    size_t length;
    for (to = 0; to < count; to++) {
        if (fazgrond_peer_send(&self->peer, &self->session, to, turn * 16, bytes, sizeof bytes, &length) == FAZGROND_OK)
            post(to, turn, bytes, length);
        if (fazgrond_peer_send_before(&self->peer, to, turn * 16, bytes, sizeof bytes, &length) == FAZGROND_OK)
            post(to, turn, bytes, length);
    }
    while (fazgrond_peer_send_more(&self->peer, &to, bytes, sizeof bytes, &length) == FAZGROND_OK)
        post(to, turn, bytes, length);
}

static void go_on(machine *self) {
    seam took = { .blocks = blocks, .bytes = bytes_taken };
    double from = now();
    int32_t code = fazgrond_peer_go_on(&self->peer, &self->session, &took.again);
    took.call = now() - from;
    took.blocks = blocks - took.blocks;
    took.bytes = bytes_taken - took.bytes;
    if (code == FAZGROND_NOTHING)
        return;
    OK(code);
    carry_out_all(self);
    took.all = now() - from;
    if (self->seams++ < SEAMS)
        seams[seam_count++] = took;
}

static void take_turn(uint32_t me, uint32_t count, uint32_t turn) {
    machine *self = &machines[me];
    fazgrond_mark mark = fazgrond_mark_for();
    fazgrond_reached reached;
    uint32_t is_running;
    hear(self, turn);
    OK(fazgrond_peer_poll(&self->peer, &self->session, turn * 16));
    OK(fazgrond_peer_is_running(&self->peer, &is_running));
    if (is_running != 0) {
        go_on(self);
        if (me == 0 && turn % MARK_EVERY == 0)
            OK(fazgrond_peer_mark(&self->peer, &self->session, 1, &mark));
        if (fazgrond_add_local_input(&self->session, (uint8_t)(me + 1), turn / 7 * (me + 1)) == FAZGROND_OK)
            OK(fazgrond_advance_frame(&self->session, &reached));
        carry_out_all(self);
    }
    send_all(me, count, turn);
}

static int is_over(uint32_t count) {
    for (uint32_t me = 0; me < count; me++)
        if (machines[me].seams < SEAMS)
            return 0;
    return 1;
}

/* ---- What it took. */

static int by_call(const void *one, const void *other) {
    double first = ((const seam *)one)->call, second = ((const seam *)other)->call;
    return (first > second) - (first < second);
}

static int by_all(const void *one, const void *other) {
    double first = ((const seam *)one)->all, second = ((const seam *)other)->all;
    return (first > second) - (first < second);
}

static void say(uint32_t count) {
    double again = 0;
    size_t most_blocks = 0, most_bytes = 0;
    for (size_t at = 0; at < seam_count; at++) {
        again += seams[at].again;
        most_blocks = seams[at].blocks > most_blocks ? seams[at].blocks : most_blocks;
        most_bytes = seams[at].bytes > most_bytes ? seams[at].bytes : most_bytes;
    }
    qsort(seams, seam_count, sizeof *seams, by_call);
    printf("%u machines, %zu seams: the call %.0f us, at worst %.0f", (unsigned)count, seam_count, seams[seam_count / 2].call / 1e3,
           seams[seam_count - 1].call / 1e3);
    qsort(seams, seam_count, sizeof *seams, by_all);
    printf("; carried out %.0f us, at worst %.0f; %.1f frames run again; at most %zu blocks of %zu bytes together\n",
           seams[seam_count / 2].all / 1e3, seams[seam_count - 1].all / 1e3, again / (double)seam_count, most_blocks, most_bytes);
}

static void measure(uint32_t count) {
    seam_count = 0;
    for (uint32_t me = 0; me < count; me++)
        open_machine(me, count);
    for (uint32_t turn = 0; !is_over(count); turn++)
        for (uint32_t me = 0; me < count; me++)
            take_turn(me, count, turn);
    say(count);
    for (uint32_t me = 0; me < count; me++) {
        machine *self = &machines[me];
        fazgrond_peer_close(&self->peer);
        fazgrond_close(&self->session);
        for (uint32_t slot = 0; slot < SLOTS; slot++)
            free(self->saved[slot]);
        memset(self, 0, sizeof *self);
    }
}

int main(void) {
    measure(2);
    measure(MOST);
    return 0;
}
