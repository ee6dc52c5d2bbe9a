#define _POSIX_C_SOURCE 200809L
#include "figures.h"

#include <inttypes.h>
#include <time.h>

int64_t figures_processor(void) {
    struct timespec time;
    clock_gettime(CLOCK_THREAD_CPUTIME_ID, &time);
    return (int64_t)time.tv_sec * 1000000 + time.tv_nsec / 1000;
}

static void note(spread *self, int64_t time) {
    int64_t bin = time / FIGURES_BIN;
    self->counts[bin < FIGURES_BINS ? bin : FIGURES_BINS - 1]++;
    self->count++;
    self->sum += (uint64_t)time;
    self->worst = time > self->worst ? (uint32_t)time : self->worst;
}

void figures_note(figures *self, int64_t processor, int64_t clock) {
    note(&self->processor, processor);
    note(&self->clock, clock);
    self->slow += clock > FIGURES_SLOW;
}

uint32_t spread_at(const spread *self, uint32_t of_thousand) {
    uint64_t wanted = ((uint64_t)self->count * of_thousand + 999) / 1000, seen = 0;
    uint32_t bin = 0;
    while (bin < FIGURES_BINS - 1 && (seen += self->counts[bin]) < wanted)
        bin++;
    uint32_t end = (bin + 1) * FIGURES_BIN;
    return bin == FIGURES_BINS - 1 || end > self->worst ? self->worst : end;
}

static void write_spread(const spread *self, const char *name, FILE *file) {
    fprintf(file, "%s_99 %u\n%s_999 %u\n%s_worst %u\n%s_sum %" PRIu64 "\n", name, spread_at(self, 990), name, spread_at(self, 999), name,
            self->worst, name, self->sum);
}

void figures_write(const figures *self, FILE *file) {
    write_spread(&self->processor, "processor", file);
    write_spread(&self->clock, "clock", file);
    fprintf(file, "turns %u\nslow %u\n", self->clock.count, self->slow);
}
