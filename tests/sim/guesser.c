#include "guesser.h"

/* A ranking has so many guesses, a job so many rows past the last word of a guess, and a session takes guesses so far past its settled
 * frame. */
enum { RANKING = 32, REACH = 8, ROWS = 24 };

typedef struct ranking {
    fazgrond_foreseen guesses[RANKING];
    size_t count, next;
} ranking;

/* What came of a guess: all of it was kept already, its branch was taken in, or refused. */
typedef enum came { CAME_KEPT, CAME_TAKEN, CAME_REFUSED } came;

int32_t guesser_open(guesser *self, const uint32_t *likely, size_t count) {
    static const uint32_t no_parts[1] = { 0 };
    int32_t why = FAZGROND_OK;
    for (uint32_t at = 0; at < self->players && self->most > 0 && why == FAZGROND_OK; at++)
        if (at != self->me)
            why = fazgrond_habits_open(&self->habits[at], no_parts, 0, likely, count);
    return why;
}

void guesser_close(guesser *self) {
    for (uint32_t at = 0; at < FAZGROND_PLAYERS; at++)
        fazgrond_habits_close(&self->habits[at]);
}

static void note(guesser *self, fazgrond_session *session, uint32_t place) {
    uint32_t word;
    while (fazgrond_confirmed_word(session, (uint8_t)(place + 1), self->noted[place], &word) == FAZGROND_OK) {
        fazgrond_habits_note(&self->habits[place], word);
        self->noted[place]++;
    }
}

/* The last frame to which the session takes guesses. */
static uint32_t reach_of(const guesser *self, fazgrond_session *session, uint32_t *settled) {
    fazgrond_settled(session, settled);
    return *settled + ROWS < self->limit ? *settled + ROWS : self->limit;
}

/* The guesses of a player's words, if the session takes any. */
static void rank(guesser *self, fazgrond_session *session, uint32_t place, ranking *of) {
    uint32_t frame = 0, settled = 0;
    *of = (ranking){ 0 };
    fazgrond_frame(session, &frame);
    if (settled < reach_of(self, session, &settled) && frame > self->noted[place])
        of->count = fazgrond_habits_guesses(&self->habits[place], frame - self->noted[place], of->guesses, RANKING);
}

/* The place of the player whose next guess is worth the most; `players` if none is worth anything. */
static uint32_t best_of(const guesser *self, const ranking *rankings) {
    uint32_t best = self->players, most = 0;
    for (uint32_t place = 0; place < self->players; place++) {
        const ranking *of = &rankings[place];
        if (of->next < of->count && most < of->guesses[of->next].worth) {
            most = of->guesses[of->next].worth;
            best = place;
        }
    }
    return best;
}

/* The frame to which a guess is run: as far past its last word as a job goes. */
static uint32_t until(const guesser *self, fazgrond_session *session, uint32_t place, uint32_t words) {
    uint32_t settled = 0, reach = reach_of(self, session, &settled), wanted = self->noted[place] + words + REACH - 1;
    uint32_t least = wanted > settled ? wanted : settled + 1;
    return least < reach ? least : reach;
}

/* A guess whose job found no free slot: those of jobs that weren't taken in are freed by a rollback, which changes nothing else here. */
static int32_t guess_again(fazgrond_session *session, states *states, uint32_t place, const fazgrond_foreseen *guess, uint32_t to,
                           uint32_t *job) {
    fazgrond_row row;
    uint32_t has_news = 1;
    fazgrond_has_news(session, &has_news);
    if (has_news != 0 || fazgrond_synchronize_input(session, &row) != FAZGROND_OK)
        return FAZGROND_NO_MEMORY;
    states_carry_out_all(states, session);
    return fazgrond_guess(session, (uint8_t)(place + 1), guess->words, guess->count, to, job);
}

static int32_t make(guesser *self, fazgrond_session *session, states *states, uint32_t place, const fazgrond_foreseen *guess, came *came) {
    job todo;
    uint32_t added, to = until(self, session, place, guess->count);
    int32_t why = fazgrond_guess(session, (uint8_t)(place + 1), guess->words, guess->count, to, &todo.number);
    *came = CAME_KEPT;
    if (why == FAZGROND_NO_MEMORY)
        why = guess_again(session, states, place, guess, to, &todo.number);
    if (why != FAZGROND_OK)
        return why == FAZGROND_NOTHING ? FAZGROND_OK : why;
    job_take(&todo, states, session);
    job_run(&todo, states, todo.count);
    self->jobs++;
    why = fazgrond_graft(session, todo.number, &added);
    self->taken += why == FAZGROND_OK;
    *came = why == FAZGROND_OK ? CAME_TAKEN : CAME_REFUSED;
    trace_guess(self->trace, self->me, place + 1, guess, to, why == FAZGROND_OK);
    return why == FAZGROND_NO_MEMORY ? why : FAZGROND_OK;
}

int32_t guesser_turn(guesser *self, fazgrond_session *session, states *states, uint32_t gone) {
    if (self->most == 0)
        return FAZGROND_OK;
    ranking rankings[FAZGROND_PLAYERS] = { 0 };
    came came = CAME_KEPT;
    int32_t why = FAZGROND_OK;
    for (uint32_t place = 0; place < self->players; place++)
        if (place != self->me) {
            note(self, session, place);
            if ((gone >> place & 1) == 0)
                rank(self, session, place, &rankings[place]);
        }
    for (uint32_t taken = 0, best; taken < self->most && came != CAME_REFUSED && why == FAZGROND_OK; taken += came == CAME_TAKEN) {
        best = best_of(self, rankings);
        if (best == self->players)
            break;
        why = make(self, session, states, best, &rankings[best].guesses[rankings[best].next++], &came);
    }
    return why;
}
