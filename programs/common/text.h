/* Text in a window: digits and letters of three by five dots. */
#ifndef DUEL_TEXT_H
#define DUEL_TEXT_H

#include <SDL.h>

/* In the renderer's colour, with dots of so many pixels. */
static inline void draw_text(SDL_Renderer *renderer, int x, int y, int dot, const char *text) {
    /* The highest of 15 bits is the upper left dot. */
    static const uint16_t glyphs[] = {
        ['0'] = 075557, ['1'] = 026227, ['2'] = 071747, ['3'] = 071317, ['4'] = 055711, ['5'] = 074717, ['6'] = 074757,
        ['7'] = 071122, ['8'] = 075757, ['9'] = 075717, ['A'] = 025755, ['B'] = 065656, ['C'] = 034443, ['D'] = 065556,
        ['E'] = 074647, ['F'] = 074644, ['G'] = 034553, ['H'] = 055755, ['I'] = 072227, ['J'] = 011152, ['K'] = 055655,
        ['L'] = 044447, ['M'] = 057755, ['N'] = 065555, ['O'] = 025552, ['P'] = 065644, ['Q'] = 025563, ['R'] = 065655,
        ['S'] = 034216, ['T'] = 072222, ['U'] = 055557, ['V'] = 055552, ['W'] = 055775, ['X'] = 055255, ['Y'] = 055222,
        ['Z'] = 071247, [','] = 000024, ['.'] = 000002, [':'] = 002020, ['-'] = 000700, ['/'] = 011244, ['\''] = 022000,
    };
    for (; *text != 0; text++, x += 4 * dot) {
        int letter = SDL_toupper((unsigned char)*text);
        for (int at = 0; at < 15 && letter < (int)SDL_arraysize(glyphs); at++)
            if ((glyphs[letter] >> (14 - at) & 1) != 0)
                SDL_RenderFillRect(renderer, &(SDL_Rect){ x + at % 3 * dot, y + at / 3 * dot, dot, dot });
    }
}
#endif
