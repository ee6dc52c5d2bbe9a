/* A bot, which flies a ship of the duel. */
#ifndef DUEL_BOT_H
#define DUEL_BOT_H

#include "../duel/duel.h"

typedef struct duel_bot {
    uint64_t seed;
    uint32_t word; /* the next one */
} duel_bot;

static inline duel_bot duel_bot_of(long seed, int player) {
    return (duel_bot){ .seed = 0x9e3779b97f4a7c15u * (uint64_t)(seed * DUEL_SHIPS + player) };
}

/* Draws the next word, after one was taken. So a bot always gives the same words, whatever the line is. */
static inline void duel_bot_draw(duel_bot *bot) {
    bot->seed ^= bot->seed << 13;
    bot->seed ^= bot->seed >> 7;
    bot->seed ^= bot->seed << 17;
    if ((bot->seed >> 32 & 7) == 0)
        bot->word = bot->seed >> 40 & 15;
}
#endif
