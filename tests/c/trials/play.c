/* A match as the command line says, and what its machines are told. `usage` says how it is begun. */
#include "../../../programs/common/options.h"
#include "trials.h"

#include <stdlib.h>
#include <string.h>

static const char usage[] =
    "trials play [OPTIONS] [FAULT ..]    a match in no time, and what its machines are told, but for TIME_SYNC\n"
    "  --machines N --players N --rate N (turns a second) --seconds N --seed N --idle (all words are 0)\n"
    "  --delay MS --jitter MS --loss PERCENT --copies PERCENT    the line; delay is one way\n"
    "  --silent MS --notify MS --stalled MS --input-delay FRAMES --last FRAME (no words from it on)\n"
    "  --pairs    each two machines have a number of their own\n"
    "  --carries  machines hand on what others send each other   --held TURNS (for which others' words wait)\n"
    "  --buttons  all words are 0 or 1   --guesses  each machine guesses the others' words (with buttons)\n"
    "A fault is MS:WHAT:MACHINE or MS:WHAT:MACHINE:NUMBER, with the milliseconds since the beginning, in their order:\n"
    "  kill  open (anew)  leave (with byes)  mute  deaf  stall (it gives no words)  heal (of these three)\n"
    "  slow (words in one turn of NUMBER)  still (for NUMBER ms)  jump (its clock, by NUMBER ms; less than 0 too)\n"
    "  cut (nothing gets from it to machine NUMBER)  join (it does again)  out (it puts machine NUMBER out)\n"
    "as in: trials play --machines 3 --seconds 12 2000:kill:2 3000:open:2\n";

static struct {
    long machines, players, rate, seconds, seed, delay, jitter, loss, copies, silent, notify, stalled, input_delay, last, held;
    bool carries, is_idle, has_pairs, has_buttons, has_guesses;
} self = {
    .machines = 2, .rate = 60, .seconds = 10, .seed = 1, .delay = 20, .silent = FAZGROND_SILENT_AFTER, .notify = FAZGROND_NOTIFY_AFTER
};

static const option options[] = {
    { "--machines", &self.machines, NULL, NULL },
    { "--players", &self.players, NULL, NULL },
    { "--rate", &self.rate, NULL, NULL },
    { "--seconds", &self.seconds, NULL, NULL },
    { "--seed", &self.seed, NULL, NULL },
    { "--delay", &self.delay, NULL, NULL },
    { "--jitter", &self.jitter, NULL, NULL },
    { "--loss", &self.loss, NULL, NULL },
    { "--copies", &self.copies, NULL, NULL },
    { "--silent", &self.silent, NULL, NULL },
    { "--notify", &self.notify, NULL, NULL },
    { "--stalled", &self.stalled, NULL, NULL },
    { "--input-delay", &self.input_delay, NULL, NULL },
    { "--last", &self.last, NULL, NULL },
    { "--held", &self.held, NULL, NULL },
    { "--carries", NULL, NULL, &self.carries },
    { "--idle", NULL, NULL, &self.is_idle },
    { "--pairs", NULL, NULL, &self.has_pairs },
    { "--buttons", NULL, NULL, &self.has_buttons },
    { "--guesses", NULL, NULL, &self.has_guesses },
    { NULL, NULL, NULL, NULL },
};

static setup setup_of(void) {
    return (setup){ .machines = (uint32_t)self.machines,
                    .players = (uint32_t)self.players,
                    .rate = (uint32_t)self.rate,
                    .delay = (uint32_t)self.delay,
                    .jitter = (uint32_t)self.jitter,
                    .loss = (uint32_t)self.loss,
                    .copies = (uint32_t)self.copies,
                    .silent_after = (uint32_t)self.silent,
                    .notify_after = (uint32_t)self.notify,
                    .stalled_after = (uint32_t)self.stalled,
                    .input_delay = (uint32_t)self.input_delay,
                    .last_frame = (uint32_t)self.last,
                    .held_turns = (uint32_t)self.held,
                    .carries = self.carries,
                    .has_pair_numbers = self.has_pairs,
                    .is_idle = self.is_idle,
                    .is_button = self.has_buttons,
                    .seed = (uint64_t)self.seed };
}

/* Does to a machine what a fault says. False if there is no such fault. */
static bool happens(world *all, const char *what, uint32_t who, long number) {
    machine *at = &all->machine[who];
    bool is_machine = number >= 0 && number < self.machines;
    if (strcmp(what, "kill") == 0)
        at->is_dead = true;
    else if (strcmp(what, "open") == 0)
        world_open(all, who);
    else if (strcmp(what, "leave") == 0)
        world_leave(all, who);
    else if (strcmp(what, "mute") == 0)
        at->is_mute = true;
    else if (strcmp(what, "deaf") == 0)
        at->is_deaf = true;
    else if (strcmp(what, "stall") == 0)
        at->is_stalled = true;
    else if (strcmp(what, "heal") == 0)
        at->is_mute = at->is_deaf = at->is_stalled = false;
    else if (strcmp(what, "slow") == 0 && number >= 0)
        at->word_every = (uint32_t)number;
    else if (strcmp(what, "still") == 0 && number >= 0)
        world_stand_still(all, who, (uint32_t)number);
    else if (strcmp(what, "jump") == 0)
        at->clock_ahead += number;
    else if ((strcmp(what, "cut") == 0 || strcmp(what, "join") == 0) && is_machine)
        all->is_cut[who][number] = strcmp(what, "cut") == 0;
    else if (strcmp(what, "out") == 0 && is_machine)
        return fazgrond_peer_disconnect(&at->peer, (uint8_t)number) == FAZGROND_OK;
    else
        return false;
    return true;
}

/* Lets time pass up to a fault, and has it happen. False if it can't be read, or is of a moment that has passed. */
static bool play_fault(world *all, uint32_t begin, const char *word) {
    char what[16] = "";
    unsigned at, who;
    long number = 0;
    int fields = sscanf(word, "%u:%15[a-z]:%u:%ld", &at, what, &who, &number);
    if (fields < 3 || who >= (unsigned)self.machines || begin + at < world_millis(all))
        return false;
    world_run(all, begin + at - world_millis(all));
    fprintf(all->out, "%9.3f  machine %u: %s", (double)all->now / SECOND, who, what);
    fprintf(all->out, fields > 3 ? " %ld\n" : "\n", number);
    return happens(all, what, who, number);
}

static void print_machines(world *all) {
    for (uint32_t who = 0; who < all->setup.machines; who++) {
        const machine *at = &all->machine[who];
        if (at->is_open)
            printf("machine %u: frame %u settled %u state %016llx log %zu, %u rollbacks, %u frames run again\n", who, at->frame,
                   (unsigned)at->settled, (unsigned long long)machine_digest(at, at->settled), world_log(all, who), at->states.loads,
                   at->states.steps - at->frame);
    }
    if (all->wrong != NULL)
        printf("wrong: %s\n", all->wrong);
}

static int fail(const char *why) {
    fprintf(stderr, "trials: %s\n%s", why, usage);
    return 2;
}

int trial_play(int count, char **words) {
    if (is_help(words, usage))
        return 0;
    int at = read_options(words, options);
    if (count == 1)
        return fail("nothing is asked for");
    if (at == 0 || self.machines < 2 || self.machines > MACHINES || self.rate < 1 || self.rate > 1000)
        return fail("the options can't be read");
    setup with = setup_of();
    world *all = world_begin(&with);
    all->out = stdout;
    if (self.has_guesses)
        trial_let_guess(all);
    world_open_all(all);
    uint32_t begin = world_millis(all);
    for (; at < count; at++)
        if (!play_fault(all, begin, words[at]))
            return fail("a fault can't be read, or done");
    if (world_millis(all) < begin + 1000 * (uint32_t)self.seconds)
        world_run(all, begin + 1000 * (uint32_t)self.seconds - world_millis(all));
    print_machines(all);
    int status = all->wrong != NULL;
    world_end(all);
    return status;
}
