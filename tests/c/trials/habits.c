/* What guesses save that are chosen by habits: two players, of whom player 2's words are heard 0 to 8 frames late, in order. After
 * each frame the best guesses are made until so many of them gave jobs, and each job is run at once. Counted are the frames that
 * are run again. bench/choices.py follows the same matches by a choice of its own, and has to count the same. */
#include "trials.h"

#include <stdlib.h>
#include <string.h>

enum { FRAMES = 1000, LATEST = 8, AHEAD = 8, ROWS = 24, RANKED = 32 };

/* ---- The players. */

/* One who plays with a pad: a direction is held for some twenty frames, A is tapped, and B now and then; and one who has four
 * words. */
typedef enum kind { PAD, FEW, KINDS } kind;

static const char *const kinds[KINDS] = { "pad", "few" };

enum { CROSS = 0xf0, A = 1 << 8, B = 1 << 0 };

static const uint32_t pad_parts[] = { CROSS, A, B, 1 << 1, 1 << 2, 1 << 3, 1 << 9, 1 << 10, 1 << 11 };

enum { PAD_PARTS = sizeof pad_parts / sizeof *pad_parts };

typedef struct player {
    uint64_t random;
    uint32_t cross, a, b;                   /* what is held, */
    uint32_t cross_until, a_until, b_until; /* and until which frame */
} player;

static uint32_t draw(player *self, uint32_t below) {
    self->random = self->random * 6364136223846793005u + 1442695040888963407u;
    return (uint32_t)((self->random >> 33) % below);
}

static void press_cross(player *self, uint32_t frame) {
    static const uint32_t ways[] = { 1 << 4, 1 << 5, 1 << 6, 1 << 7, 1 << 6, 1 << 7 };
    if (frame < self->cross_until)
        return;
    bool is_let_go = draw(self, 4) != 0 && self->cross != 0;
    self->cross = is_let_go ? 0 : ways[draw(self, 6)];
    self->cross_until = frame + (is_let_go ? 2 + draw(self, 12) : 8 + draw(self, 25));
}

static void press_a(player *self, uint32_t frame) {
    if (frame < self->a_until)
        return;
    self->a ^= A;
    bool is_pause = draw(self, 8) == 0;
    self->a_until = frame + (self->a != 0 ? 4 + draw(self, 4) : is_pause ? 60 : 6 + draw(self, 15));
}

static void press_b(player *self, uint32_t frame) {
    if (frame < self->b_until)
        return;
    self->b ^= B;
    self->b_until = frame + (self->b != 0 ? 5 + draw(self, 10) : 60 + draw(self, 120));
}

static void take_another(player *self, uint32_t frame) {
    static const uint32_t words[] = { 0, 1 << 6, 1 << 7, A };
    if (frame < self->cross_until)
        return;
    uint32_t next = words[draw(self, 4)];
    while (next == self->cross)
        next = words[draw(self, 4)];
    self->cross = next;
    self->cross_until = frame + 5 + draw(self, 11);
}

static uint32_t word_of(player *self, kind of, uint32_t frame) {
    if (of == FEW) {
        take_another(self, frame);
        return self->cross;
    }
    press_cross(self, frame);
    press_a(self, frame);
    press_b(self, frame);
    return self->cross | self->a | self->b;
}

/* ---- A match. */

typedef struct match {
    fazgrond_session session;
    fazgrond_habits habits;
    uint32_t own[FRAMES], theirs[FRAMES], when[FRAMES]; /* the words, and the frame in which player 2's is heard */
    uint32_t used[FRAMES];                              /* player 2's, by which each frame was played last */
    uint32_t heard;
    uint64_t state, saved[GAME_SLOTS];
    uint32_t again, ggpo, jobs; /* frames that were run again; that GGPO runs again; jobs, */
    uint32_t full;              /* and those for whose states there was no room */
} match;

static void draw_words(match *self, kind of, uint32_t seed) {
    player one = { .random = 2 * (uint64_t)seed }, two = { .random = 2 * (uint64_t)seed + 1 }, line = { .random = seed };
    uint32_t last = 0;
    for (uint32_t frame = 0; frame < FRAMES; frame++) {
        uint32_t when = frame + draw(&line, LATEST + 1);
        self->own[frame] = word_of(&one, of, frame);
        self->theirs[frame] = word_of(&two, of, frame);
        self->when[frame] = last = when > last ? when : last;
    }
}

static void open_match(match *self, kind of, bool has_parts, uint32_t seed) {
    fazgrond_settings settings = fazgrond_settings_for(2);
    settings.local = 1;
    memset(self, 0, sizeof *self);
    draw_words(self, of, seed);
    trial_must(fazgrond_open(&self->session, &settings) == FAZGROND_OK, "a session opens");
    trial_must(fazgrond_habits_open(&self->habits, pad_parts, has_parts ? PAD_PARTS : 0, pad_parts, 0) == FAZGROND_OK, "habits open");
}

static void close_match(match *self) {
    fazgrond_close(&self->session);
    fazgrond_habits_close(&self->habits);
}

static uint64_t after(uint64_t state, uint32_t one, uint32_t two) { return (state * 31 + one) * 31 + two + 1; }

/* Carries requests out, and says how many frames they ran. */
static uint32_t carry_out(match *self) {
    fazgrond_request request;
    uint64_t aside = 0;
    uint32_t frames = 0;
    while (fazgrond_take_requests(&self->session, &request, 1) > 0) {
        if (request.kind != FAZGROND_STEP && request.kind != FAZGROND_JOB_STEP && request.slot >= GAME_SLOTS)
            abort();
        switch (request.kind) {
        case FAZGROND_LOAD: self->state = self->saved[request.slot]; break;
        case FAZGROND_SAVE: self->saved[request.slot] = self->state; break;
        case FAZGROND_STEP:
            self->state = after(self->state, request.row.words[0], request.row.words[1]);
            frames++;
            break;
        case FAZGROND_JOB_LOAD: aside = self->saved[request.slot]; break;
        case FAZGROND_JOB_SAVE: self->saved[request.slot] = aside; break;
        case FAZGROND_JOB_STEP: aside = after(aside, request.row.words[0], request.row.words[1]); break;
        default: break;
        }
    }
    return frames;
}

static uint32_t known(const match *self, uint32_t frame) {
    return frame < self->heard ? self->theirs[frame] : self->heard > 0 ? self->theirs[self->heard - 1] : 0;
}

static void hear_word(match *self) {
    uint32_t word = self->theirs[self->heard], repeated;
    trial_must(fazgrond_remote_input(&self->session, 2, self->heard++, word, &repeated) == FAZGROND_OK, "a word is taken");
    trial_must(fazgrond_habits_note(&self->habits, word) == FAZGROND_OK, "a word is noted");
}

static uint32_t synchronize(match *self) {
    fazgrond_row row;
    trial_must(fazgrond_synchronize_input(&self->session, &row) == FAZGROND_OK, "a session is brought up to date");
    return carry_out(self);
}

/* Hears what comes in this frame, and runs again what has to be. */
static void hear(match *self, uint32_t now) {
    uint32_t told = self->heard, first = 0;
    while (self->heard < FRAMES && self->when[self->heard] == now)
        hear_word(self);
    if (self->heard == told)
        return;
    self->again += synchronize(self);
    while (first < now && self->used[first] == known(self, first))
        first++;
    self->ggpo += now - first;
    for (; first < now; first++)
        self->used[first] = known(self, first);
}

static void advance(match *self, uint32_t now) {
    fazgrond_reached reached;
    trial_must(fazgrond_add_local_input(&self->session, 1, self->own[now]) == FAZGROND_OK, "an own word is taken");
    trial_must(fazgrond_advance_frame(&self->session, &reached) == FAZGROND_OK, "a frame is played");
    carry_out(self);
    self->used[now] = known(self, now);
}

/* How far a guess is run: as far past its last word as a job goes, and as a session takes it. */
static uint32_t until(const match *self, uint32_t count, uint32_t settled) {
    uint32_t wanted = self->heard + count + AHEAD - 1, most = settled + ROWS;
    return wanted <= settled ? settled + 1 : wanted < most ? wanted : most;
}

/* Whether a guess gave a job. It is run at once, and its states are kept. */
static bool guess(match *self, const fazgrond_foreseen *best) {
    uint32_t job, added, settled;
    trial_must(fazgrond_settled(&self->session, &settled) == FAZGROND_OK, "a session is open");
    int32_t code = fazgrond_guess(&self->session, 2, best->words, best->count, until(self, best->count, settled), &job);
    carry_out(self);
    trial_must(code == FAZGROND_OK || code == FAZGROND_NOTHING, "a guess is taken");
    if (code != FAZGROND_OK)
        return false;
    int32_t kept = fazgrond_graft(&self->session, job, &added);
    trial_must(kept == FAZGROND_OK || kept == FAZGROND_TREE_FULL, "a job's states are kept");
    self->full += kept == FAZGROND_TREE_FULL;
    return true;
}

static void guess_best(match *self, uint32_t now, uint32_t jobs) {
    fazgrond_foreseen best[RANKED];
    size_t count = fazgrond_habits_guesses(&self->habits, now + 1 - self->heard, best, RANKED);
    uint32_t made = 0;
    for (size_t at = 0; at < count && made < jobs; at++)
        made += guess(self, &best[at]);
    self->jobs += made;
}

static void play(match *self, uint32_t jobs) {
    for (uint32_t now = 0; now < FRAMES; now++) {
        hear(self, now);
        advance(self, now);
        if (self->heard <= now)
            guess_best(self, now, jobs);
    }
    while (self->heard < FRAMES)
        hear_word(self);
    synchronize(self);
}

static void must_be_right(const match *self) {
    uint64_t state = 0;
    for (uint32_t frame = 0; frame < FRAMES; frame++)
        state = after(state, self->own[frame], self->theirs[frame]);
    trial_must(self->state == state, "all words lead to the state of a match without a network");
}

/* ---- The trial. */

typedef struct counts {
    uint32_t again, ggpo, jobs, full;
} counts;

static counts played(kind of, bool has_parts, uint32_t jobs, uint32_t count, uint32_t seed) {
    static match self;
    counts all = { 0, 0, 0, 0 };
    for (uint32_t at = 0; at < count; at++) {
        open_match(&self, of, has_parts, seed + at);
        play(&self, jobs);
        must_be_right(&self);
        close_match(&self);
        all.again += self.again;
        all.ggpo += self.ggpo;
        all.jobs += self.jobs;
        all.full += self.full;
    }
    return all;
}

/* Of a pad's player parts save more than whole words, and of one with few words they save about as much. */
void trial_habits(uint32_t count, uint32_t seed) {
    for (kind of = 0; of < KINDS; of++)
        for (uint32_t jobs = 4; jobs <= 16; jobs *= 2) {
            trial_case("habits of %s, %u jobs, from seed %u on", kinds[of], (unsigned)jobs, (unsigned)seed);
            counts words = played(of, false, jobs, count, seed), chosen = played(of, true, jobs, count, seed);
            trial_must(words.again < words.ggpo, "guesses by whole words save frames");
            trial_must(chosen.ggpo == words.ggpo, "the match is the same");
            trial_must(of == FEW || chosen.again * 10 < words.again * 8, "parts save more of a pad's player");
            trial_must(of == PAD || chosen.again < words.again + words.ggpo / 32, "few words are chosen whole");
        }
}

/* Prints what is counted in so many matches, a line for each kind of player, way of guessing and number of jobs. */
int trial_shares(uint32_t count, uint32_t seed) {
    static const char *const ways[] = { "words", "chosen" };
    trial_case("%s", "shares");
    for (kind of = 0; of < KINDS; of++)
        for (int way = 0; way < 2; way++)
            for (uint32_t jobs = 1; jobs <= 16; jobs *= 2) {
                counts all = played(of, way == 1, jobs, count, seed);
                printf("%s %s %u: %u %u %u %u\n", kinds[of], ways[way], (unsigned)jobs, (unsigned)all.again, (unsigned)all.ggpo,
                       (unsigned)all.jobs, (unsigned)all.full);
            }
    return 0;
}
