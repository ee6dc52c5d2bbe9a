#include "helpers.h"

#include "state.h"

#include <pthread.h>
#include <stdatomic.h>
#include <stdio.h>

enum { PATIENCE = 5 /* milliseconds that a helper waits for a job */ };

static struct {
    pthread_t thread[DUEL_HELPERS];
    duel_state state[DUEL_HELPERS];
    int count;
    GGPOSession *session;
    atomic_bool is_over;
} self;

static bool on_load(void *helper, const unsigned char *buffer, int length) { return duel_load(helper, buffer, length); }

static bool on_advance(void *helper, const void *inputs, int size, int gone) {
    duel_state *state = helper;
    uint32_t words[DUEL_SHIPS] = { 0 };
    (void)gone;
    memcpy(words, inputs, (size_t)size);
    duel_step(&state->field, words);
    state->frame++;
    return true;
}

static bool on_save(void *helper, unsigned char **buffer, int *length, int *checksum, int frame) {
    (void)frame;
    return duel_save(helper, buffer, length, checksum);
}

static void *help(void *state) {
    FazggpoHelper helper = { .helper = state, .load_state = on_load, .advance_state = on_advance, .save_state = on_save };
    while (!atomic_load(&self.is_over)) {
        FazggpoJob *job = fazggpo_fetch_job(self.session, PATIENCE);
        if (job != NULL)
            fazggpo_run_job(job, &helper);
    }
    return NULL;
}

bool helpers_begin(GGPOSession *session, long count) {
    if (count == 0)
        return true;
    self.session = session;
    if (count > DUEL_HELPERS || !GGPO_SUCCEEDED(fazggpo_guess(session, 2 * (int)count)))
        return false;
    while (self.count < count && pthread_create(&self.thread[self.count], NULL, help, &self.state[self.count]) == 0)
        self.count++;
    return self.count == count;
}

void helpers_end(GGPOSession *session) {
    FazggpoGuesses seen;
    atomic_store(&self.is_over, true);
    for (int at = 0; at < self.count; at++)
        pthread_join(self.thread[at], NULL);
    if (self.count > 0 && GGPO_SUCCEEDED(fazggpo_get_guesses(session, &seen)))
        fprintf(stderr, "guessed %d jobs: %d were run, %d states kept, %d used\n", seen.made, seen.run, seen.grafted, seen.used);
}
