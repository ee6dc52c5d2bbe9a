/* The duel's rules beside those of rollduel: writes a script for `rollduel play --game duel` to one file, and to another the
 * states that the program has to show, one a line. test_rules SEED PLAYERS FRAMES SCRIPT STATES */
#include "../../../programs/duel/duel.h"

#include <inttypes.h>
#include <stdio.h>
#include <stdlib.h>

static uint64_t seed;

static uint32_t draw(uint32_t below) {
    seed ^= seed << 13;
    seed ^= seed >> 7;
    seed ^= seed << 17;
    return (uint32_t)(seed >> 32) % below;
}

/* A word that is held for a while. Most have bits that mean nothing, too. */
static uint32_t next_word(uint32_t word) {
    static const uint32_t high[] = { 0, 0x10, 0xfffffff0, 0x80000000 };
    return draw(6) != 0 ? word : draw(16) | high[draw(4)];
}

int main(int count, char **words) {
    duel field;
    if (count != 6)
        return 2;
    seed = 0x9e3779b97f4a7c15u * (strtoull(words[1], NULL, 10) + 1);
    uint32_t players = (uint32_t)atoi(words[2]), frames = (uint32_t)atoi(words[3]), held[DUEL_SHIPS] = { 0 };
    FILE *script = fopen(words[4], "w"), *states = fopen(words[5], "w");
    if (script == NULL || states == NULL || !duel_open(&field, players))
        return 2;
    /* Player 1 is local. The last player leaves in the middle, and has word 0 from there on. */
    fprintf(script, "roll 1 players %" PRIu32 " local 1 delay 0%s threshold 8\n", players, &",0,0,0"[2 * (4 - players)]);
    for (uint32_t frame = 0; frame < frames; frame++) {
        for (uint32_t at = 0; at < players; at++) {
            held[at] = next_word(held[at]);
            if (at == 0)
                fprintf(script, "L 1 %" PRIu32 "\n", held[at]);
            else if (at + 1 < players || frame < frames / 2)
                fprintf(script, "R %" PRIu32 " %" PRIu32 " %" PRIu32 "\n", at + 1, frame, held[at]);
            else
                held[at] = 0;
        }
        if (frame == frames / 2)
            fprintf(script, "D %" PRIu32 "\n", players);
        fprintf(script, "A\n");
        duel_step(&field, held);
        char text[512];
        duel_text(&field, text, sizeof text);
        fprintf(states, "%s\n", text);
    }
    return fclose(script) != 0 || fclose(states) != 0;
}
