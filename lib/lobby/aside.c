#include "aside.h"

#include <glib.h>
#include <stdatomic.h>
#include <stdlib.h>

typedef enum aside_stage { AT_WORK, DONE, LEFT } aside_stage;

struct aside {
    void (*work)(void *of);
    void (*drop)(void *of);
    void *of;
    atomic_int stage;
};

static void run(gpointer job, gpointer nothing) {
    aside *self = job;
    (void)nothing;
    self->work(self->of);
    if (atomic_exchange(&self->stage, DONE) == LEFT) {
        self->drop(self->of);
        free(self);
    }
}

/* A pool of its own, of threads that all pools share, which goes once it has nothing to do. */
aside *faz_aside_begin(void (*work)(void *of), void (*drop)(void *of), void *of) {
    aside *self = malloc(sizeof *self);
    GThreadPool *pool = self != NULL ? g_thread_pool_new(run, NULL, 1, FALSE, NULL) : NULL;
    if (pool == NULL) {
        free(self);
        return NULL;
    }
    self->work = work;
    self->drop = drop;
    self->of = of;
    atomic_init(&self->stage, AT_WORK);
    g_thread_pool_push(pool, self, NULL);
    g_thread_pool_free(pool, FALSE, FALSE);
    return self;
}

bool faz_aside_is_over(const aside *self) { return atomic_load(&self->stage) == DONE; }

void faz_aside_take(aside *self) { free(self); }

void faz_aside_leave(aside *self) {
    if (self != NULL && atomic_exchange(&self->stage, LEFT) == DONE) {
        self->drop(self->of);
        free(self);
    }
}
