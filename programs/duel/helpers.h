/* Helpers: threads that run guesses, each with a state of its own. */
#ifndef DUEL_HELPERS_H
#define DUEL_HELPERS_H

#include <ggponet.h>

enum { DUEL_HELPERS = 8 };

/* Begins so many, of a session whose players are added. Whether it could. */
bool helpers_begin(GGPOSession *session, long count);

/* Waits until all have ended, and says what became of the guesses. Before the session is closed. */
void helpers_end(GGPOSession *session);
#endif
