/* Shows settled rows: those that a match's host sends to who watches, and those of a replay. */
#ifndef RETRO_WATCH_H
#define RETRO_WATCH_H

#include "replay.h"

/* Watches what was agreed on, from this opening on, until the host ends it. */
outcome watch_match(meeting *meeting, runner *on, const core_state *opening, const wish *wish);

/* Plays a replay to its end: at the game's pace, or, without a window, as fast as it goes. */
outcome watch_replay(const replay *from, runner *on, const wish *wish);
#endif
