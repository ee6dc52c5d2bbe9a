/* Work that waits, as for a broker, beside the game: on a thread of GLib's, so that the game's own never does. */
#ifndef FAZ_ASIDE_H
#define FAZ_ASIDE_H

#include <stdbool.h>

typedef struct aside aside;

/* Has `work` done with `of`, which is the thread's until faz_aside_is_over. Null if there is no memory. */
aside *faz_aside_begin(void (*work)(void *of), void (*drop)(void *of), void *of);

bool faz_aside_is_over(const aside *self);

/* Of work that is over: `of` is the caller's again. */
void faz_aside_take(aside *self);

/* Nobody waits for it any more: `of` is dropped, now or once the work is over. Null is none. */
void faz_aside_leave(aside *self);
#endif
