/* The duel's window, keys and pad. With DUEL_HEADLESS there is none, and SDL isn't needed. */
#ifndef DUEL_WINDOW_H
#define DUEL_WINDOW_H

#include "../duel/duel.h"

#ifdef DUEL_HEADLESS
static inline bool window_open(int player) { return (void)player, false; }
static inline bool window_goes_on(void) { return true; }
static inline char window_letter(void) { return 0; }
static inline uint32_t window_word(int place) { return (void)place, 0; }
static inline void window_draw(const duel *field, int player, const char *const *lines, int count) {
    (void)field, (void)player, (void)lines, (void)count;
}
static inline void window_close(void) {}
#else
bool window_open(int player); /* for the machine of this player, from 1 on; who watches takes the next number */
bool window_goes_on(void);    /* false once it is closed */
char window_letter(void);     /* the one that was struck last, once; 0: none was */
/* What is held down on the keyboard or the pad: at place 0 arrows and space, at 1 w, a, d and f. */
uint32_t window_word(int place);
void window_draw(const duel *field, int player, const char *const *lines, int count);
void window_close(void);
#endif
#endif
