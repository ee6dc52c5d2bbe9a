#include "window.h"

#include "text.h"

enum { WIDTH = 640, HEIGHT = 480, UNIT = DUEL_WIDTH / WIDTH, DOT = 2 };

static SDL_Window *window;
static SDL_Renderer *renderer;
static SDL_GameController *pad;
static char letter; /* struck, and not asked for yet */

static const uint8_t colours[DUEL_SHIPS][3] = { { 120, 200, 255 }, { 255, 150, 90 }, { 150, 230, 120 }, { 240, 220, 90 } };

static void use_colour(uint32_t number) {
    const uint8_t *colour = colours[(number - 1) % DUEL_SHIPS];
    SDL_SetRenderDrawColor(renderer, colour[0], colour[1], colour[2], 255);
}

/* A ship is a triangle, whose nose is where it heads. */
static void draw_ship(const duel_ship *ship, bool is_own) {
    const int32_t *to = duel_directions[ship->heading];
    int x = ship->x / UNIT, y = ship->y / UNIT, dx = (int)to[0], dy = (int)to[1], tx = x - dx * 3 / 4, ty = y - dy * 3 / 4;
    SDL_Point points[] = {
        { x + dx, y + dy }, { tx - dy / 2, ty + dx / 2 }, { x - dx / 4, y - dy / 4 }, { tx + dy / 2, ty - dx / 2 }, { x + dx, y + dy }
    };
    SDL_RenderDrawLines(renderer, points, (int)SDL_arraysize(points));
    if (is_own)
        SDL_RenderFillRect(renderer, &(SDL_Rect){ x - 1, y - 1, 3, 3 });
}

/* Windows of several players stand side by side, so that one screen can have a match. None goes over the screen's edge. */
static SDL_Point place_of(int player) {
    SDL_Point place = { 20 + (player - 1) % 2 * (WIDTH + 20), 40 + (player - 1) / 2 * (HEIGHT + 40) };
    SDL_Rect screen;
    if (SDL_GetDisplayUsableBounds(0, &screen) == 0) {
        place.x = SDL_max(screen.x, SDL_min(screen.x + place.x, screen.x + screen.w - WIDTH));
        place.y = SDL_max(screen.y, SDL_min(screen.y + place.y, screen.y + screen.h - HEIGHT));
    }
    return place;
}

bool window_open(int player) {
    if (SDL_Init(SDL_INIT_VIDEO | SDL_INIT_GAMECONTROLLER) != 0)
        return false;
    SDL_Point place = place_of(player);
    window = SDL_CreateWindow("Duel", place.x, place.y, WIDTH, HEIGHT, 0);
    renderer = window != NULL ? SDL_CreateRenderer(window, -1, 0) : NULL;
    for (int at = 0; at < SDL_NumJoysticks() && pad == NULL; at++)
        pad = SDL_IsGameController(at) ? SDL_GameControllerOpen(at) : NULL;
    return renderer != NULL;
}

bool window_goes_on(void) {
    SDL_Event event;
    bool goes_on = true;
    while (SDL_PollEvent(&event)) {
        SDL_Keycode key = event.type == SDL_KEYDOWN && event.key.repeat == 0 ? event.key.keysym.sym : SDLK_UNKNOWN;
        if (event.type == SDL_QUIT || key == SDLK_ESCAPE)
            goes_on = false;
        if (key >= SDLK_a && key <= SDLK_z)
            letter = (char)key;
    }
    return goes_on;
}

char window_letter(void) {
    char struck = letter;
    letter = 0;
    return struck;
}

uint32_t window_word(int place) {
    static const SDL_Scancode keys[2][4] = {
        { SDL_SCANCODE_UP, SDL_SCANCODE_LEFT, SDL_SCANCODE_RIGHT, SDL_SCANCODE_SPACE },
        { SDL_SCANCODE_W, SDL_SCANCODE_A, SDL_SCANCODE_D, SDL_SCANCODE_F },
    };
    static const SDL_GameControllerButton buttons[4] = { SDL_CONTROLLER_BUTTON_A, SDL_CONTROLLER_BUTTON_DPAD_LEFT,
                                                         SDL_CONTROLLER_BUTTON_DPAD_RIGHT, SDL_CONTROLLER_BUTTON_X };
    const uint8_t *held = SDL_GetKeyboardState(NULL);
    uint32_t word = 0;
    for (int at = 0; at < 4 && place < 2; at++)
        if (held[keys[place][at]] != 0 || (place == 0 && pad != NULL && SDL_GameControllerGetButton(pad, buttons[at]) != 0))
            word |= 1u << at;
    return word;
}

void window_draw(const duel *field, int player, const char *const *lines, int count) {
    SDL_SetRenderDrawColor(renderer, 12, 14, 24, 255);
    SDL_RenderClear(renderer);
    for (uint32_t at = 0; at < field->ships; at++) {
        char text[32];
        SDL_snprintf(text, sizeof text, "ship %d hit %d", (int)at + 1, (int)field->ship[at].hits);
        use_colour(at + 1);
        draw_ship(&field->ship[at], (int)at + 1 == player);
        draw_text(renderer, 8 + (int)at * 160, 8, DOT, text);
    }
    for (uint32_t at = 0; at < field->bullets; at++) {
        use_colour(field->bullet[at].owner);
        SDL_RenderFillRect(renderer, &(SDL_Rect){ field->bullet[at].x / UNIT - 1, field->bullet[at].y / UNIT - 1, 3, 3 });
    }
    SDL_SetRenderDrawColor(renderer, 170, 180, 200, 255);
    for (int at = 0; at < count; at++)
        draw_text(renderer, 8, HEIGHT - 16 * (count - at), DOT, lines[at]);
    SDL_RenderPresent(renderer);
}

void window_close(void) { SDL_Quit(); }
