/* The window, with sound, keys and pads. With RETRO_HEADLESS there is none, and SDL isn't needed. */
#ifndef RETRO_WINDOW_H
#define RETRO_WINDOW_H

#include "core.h"

#ifdef RETRO_HEADLESS
static inline bool window_open(const core *one, int place) { return (void)one, (void)place, false; }
static inline bool window_goes_on(void) { return false; }
static inline char window_letter(void) { return 0; }
static inline uint32_t window_word(int seat) { return (void)seat, 0; }
static inline bool window_wants_again(void) { return false; }
static inline void window_show(const core *one, bool is_new, bool jumps, const char *const *lines, int count) {
    (void)one, (void)is_new, (void)jumps, (void)lines, (void)count;
}
static inline void window_close(void) {}
#else
bool window_open(const core *one, int place); /* for a game; several at one machine stand side by side, by their places */
bool window_goes_on(void);                    /* hears keys and pads; false once it is closed */
char window_letter(void);                     /* the one that was struck last, once; 0: none was */
uint32_t window_word(int seat);               /* what is held at the first or the second seat of this machine */
bool window_wants_again(void);                /* whether the key for a new match was struck */
/* Shows the core's picture, and lets its sound be heard if they are new. `jumps`: frames were played again, so that the sound
 * doesn't go on from what was heard before. */
void window_show(const core *one, bool is_new, bool jumps, const char *const *lines, int count);
void window_close(void);
#endif
#endif
