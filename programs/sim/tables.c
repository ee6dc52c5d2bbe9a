#include "tables.h"

#include <inttypes.h>
#include <string.h>

enum { TURNS_A_SECOND = 60 };

/* What a machine measured of all others. */
typedef struct measured {
    uint64_t received, lost, trips, count;
} measured;

static measured measure(const participant *of) {
    measured all = { 0 };
    fazgrond_stats stats;
    for (uint32_t at = 0; at < FAZGROND_MACHINES; at++)
        if (fazgrond_peer_stats(&of->machine->peer, (uint8_t)at, &stats) == FAZGROND_OK) {
            all.received += stats.received;
            all.lost += stats.lost;
            all.trips += stats.is_measured != 0 ? stats.round_trip : 0;
            all.count += stats.is_measured != 0;
        }
    return all;
}

static uint32_t frame_of(const participant *of) { return (uint32_t)machine_frame(of->machine); }

static uint32_t settled_of(const participant *of) { return (uint32_t)of->machine->settled; }

bool tables_are_well(const match *of) { return of->has_ended && match_agrees(of) && match_is_honest(of); }

/* ---- What a machine counted, by its name. */

typedef uint64_t count_of(const participant *of);

static uint64_t rollbacks(const participant *of) { return of->observer.totals.rollbacks; }
static uint64_t rerun(const participant *of) { return of->observer.totals.rerun; }
static uint64_t ggpo(const participant *of) { return of->observer.totals.ggpo; }
static uint64_t deepest(const participant *of) { return of->observer.totals.deepest; }
static uint64_t waited(const participant *of) { return of->machine->waited; }
static uint64_t guessed(const participant *of) { return of->guesser.jobs + of->counts.held_jobs; }
static uint64_t taken(const participant *of) { return of->guesser.taken + of->counts.held_taken; }
static uint64_t ahead(const participant *of) { return of->machine->states.job_steps; }
static uint64_t claims(const participant *of) { return of->observer.claims; }
static uint64_t wrong(const participant *of) { return of->observer.wrong; }
static uint64_t held_words(const participant *of) { return observer_held(&of->observer).words; }
static uint64_t held_turns(const participant *of) { return observer_held(&of->observer).turns; }
static uint64_t held_soon(const participant *of) { return observer_held(&of->observer).soon; }
static uint64_t held_jobs(const participant *of) { return of->counts.held_jobs; }

static const struct {
    const char *name;
    count_of *count;
    bool is_of_held;
} each_count[] = {
    { "rollbacks", rollbacks, false }, { "rerun", rerun, false },          { "ggpo", ggpo, false },
    { "deepest", deepest, false },     { "waited", waited, false },        { "guessed", guessed, false },
    { "taken", taken, false },         { "ahead", ahead, false },          { "claims", claims, false },
    { "wrong", wrong, false },         { "held_words", held_words, true }, { "held_turns", held_turns, true },
    { "held_soon", held_soon, true },  { "held_jobs", held_jobs, true },
};

enum { COUNTS = sizeof each_count / sizeof *each_count };

/* ---- Tables. */

static void print_heading(FILE *out, const plan *with) {
    fprintf(out, "%" PRIu32 " machines, %" PRIu32 " frames of %s, seed %" PRIu64 "\n", with->machines, with->frames, with->game->name,
            with->seed);
    fprintf(out, "datagrams 1 to %" PRIu32 " ticks late, %" PRIu32 " in 100 lost; words held %" PRIu32 " frames on average\n",
            with->late + 1, with->lost, with->hold);
    fprintf(out, "delay %" PRIu32 ", threshold %" PRIu32, with->delay, with->threshold);
    if (with->jobs > 0)
        fprintf(out, ", guesses best, %" PRIu32 " jobs a tick", with->jobs);
    if (with->held > 0)
        fprintf(out, ", words held back for at most %" PRIu32 " turn%s", with->held, with->held > 1 ? "s" : "");
    for (uint32_t at = 0; at < with->delay_count; at++)
        fprintf(out, ", delay %" PRIu32 " of machine %" PRIu32 " from frame %" PRIu32, with->delays[at].delay, with->delays[at].machine,
                with->delays[at].frame);
    fputs("\n\n", out);
}

/* A frame, or `-` where there is none. */
static void print_frame(FILE *out, uint32_t frame, int width) {
    if (frame != NEVER)
        fprintf(out, "%*" PRIu32, width, frame);
    else
        fprintf(out, "%*s", width, "-");
}

static void print_played(FILE *out, const match *of) {
    fputs("machine    frames   settled    waited  silent at   left at      sent\n", out);
    for (uint32_t at = 0; at < of->plan->machines; at++) {
        const participant *one = &of->all[at];
        fprintf(out, "%-7" PRIu32 "%10" PRIu32 "%10" PRIu32 "%10" PRIu64, at, frame_of(one), settled_of(one), one->machine->waited);
        print_frame(out, of->plan->stops[at], 11);
        print_frame(out, participant_left(match_first(of), at), 10);
        fprintf(out, "%10" PRIu64 "\n", one->counts.sent);
    }
    fputs("\n", out);
}

static void print_rolled(FILE *out, const match *of) {
    bool guesses = of->plan->jobs > 0;
    fprintf(out, "machine rollbacks  run again   by GGPO   deepest    claims     wrong%s\n",
            guesses ? "      jobs     taken  run ahead" : "");
    for (uint32_t at = 0; at < of->plan->machines; at++) {
        const participant *one = &of->all[at];
        fprintf(out, "%-7" PRIu32 "%10" PRIu64 "%11" PRIu64 "%10" PRIu64, at, rollbacks(one), rerun(one), ggpo(one));
        fprintf(out, "%10" PRIu64 "%10" PRIu64 "%10" PRIu64, deepest(one), claims(one), wrong(one));
        if (guesses)
            fprintf(out, "%10" PRIu64 "%10" PRIu64 "%11" PRIu64, guessed(one), taken(one), ahead(one));
        fputs("\n", out);
    }
    fputs("\n", out);
}

static void print_held(FILE *out, const match *of) {
    fputs("machine words held  turns each  at most 2      jobs\n", out);
    for (uint32_t at = 0; at < of->plan->machines; at++) {
        held_totals held = observer_held(&of->all[at].observer);
        uint64_t jobs = held_jobs(&of->all[at]);
        fprintf(out, "%-7" PRIu32 "%11" PRIu64, at, held.words);
        if (held.words == 0) {
            fprintf(out, "%12s%11s%10" PRIu64 "\n", "-", "-", jobs);
            continue;
        }
        uint64_t hundredths = (held.turns * 100 + held.words / 2) / held.words;
        fprintf(out, "%9" PRIu64 ".%02" PRIu64 "%11" PRIu64 "%10" PRIu64 "\n", hundredths / 100, hundredths % 100,
                held.soon * 100 / held.words, jobs);
    }
    fputs("\n", out);
}

static uint64_t bytes_a_second(const participant *of) {
    return of->counts.bytes * TURNS_A_SECOND / (of->counts.sent > 0 ? of->counts.sent : 1);
}

static void print_measured(FILE *out, const match *of) {
    fputs("machine  bytes/s to each  received      lost   ignored  round trip\n", out);
    for (uint32_t at = 0; at < of->plan->machines; at++) {
        const participant *one = &of->all[at];
        measured all = measure(one);
        fprintf(out, "%-7" PRIu32 "%17" PRIu64 "%10" PRIu64 "%10" PRIu64 "%10" PRIu64, at, bytes_a_second(one), all.received, all.lost,
                one->counts.ignored);
        if (all.count == 0)
            fprintf(out, "%12s\n", "-");
        else
            fprintf(out, "%9" PRIu64 " ms\n", all.trips / all.count);
    }
    fputs("\n", out);
}

static void print_hostile(FILE *out, const match *of) {
    uint64_t hostile = 0, again = 0, fooled = 0;
    for (uint32_t at = 0; at < of->plan->machines; at++) {
        hostile += of->all[at].counts.hostile;
        again += of->all[at].counts.again;
        fooled += of->all[at].counts.fooled;
    }
    fprintf(out, "hostile datagrams: %" PRIu64 "; ignored: %" PRIu64 "; real ones heard again: %" PRIu64 "; deceived: %" PRIu64 "\n\n",
            hostile, hostile - again - fooled, again, fooled);
}

static void print_bases(FILE *out, const char *before, const char *between, const match *of) {
    const participant *first = match_first(of);
    for (uint32_t at = 0; at < first->base_count; at++)
        fprintf(out, "%s%" PRIu32, at == 0 ? before : between, first->bases[at]);
}

static void print_lefts(FILE *out, const match *of) {
    const participant *first = match_first(of);
    for (uint32_t at = 0; at < of->plan->machines; at++) {
        if (participant_left(first, at) != NEVER)
            fprintf(out, ", machine %" PRIu32 " left at %" PRIu32, at, participant_left(first, at));
        if (first->came[at] != NEVER)
            fprintf(out, ", machine %" PRIu32 " came at %" PRIu32, at, first->came[at]);
        if (of->all[at].dropped != NEVER)
            fprintf(out, ", machine %" PRIu32 " was cut off at %" PRIu32, at, of->all[at].dropped);
    }
}

static void print_state(FILE *out, const match *of) {
    char text[GAME_TEXT];
    of->plan->game->text(states_settled(&match_first(of)->machine->states), text);
    fputs(text, out);
}

/* Whether the machines that stay agree. */
static void print_end(FILE *out, const match *of) {
    uint32_t settled = settled_of(match_first(of)), count = plan_count_staying(of->plan);
    if (!of->has_ended) {
        fprintf(out, "THE MATCH DOESN'T END: frame %" PRIu32 " is settled\n", settled);
    } else if (!match_agrees(of)) {
        fprintf(out, "THE MACHINES DIFFER: %" PRIu32 " stay\n", count);
    } else if (of->world->wrong != NULL) {
        fprintf(out, "A MACHINE WENT WRONG: %s\n", of->world->wrong);
    } else if (!match_is_honest(of)) {
        fputs("A MACHINE WAS DECEIVED\n", out);
    } else {
        fprintf(out, "all %" PRIu32 " that stay agree: frame %" PRIu32 " settled", count, settled);
        print_lefts(out, of);
        fputs(", state ", out);
        print_state(out, of);
        fputs("\n", out);
    }
}

/* ---- The line for scripts. */

static void print_options(FILE *out, const plan *with) {
    fprintf(out, "\nmatch peers=%" PRIu32 " frames=%" PRIu32 " seed=%" PRIu64, with->machines, with->frames, with->seed);
    fprintf(out, " late=%" PRIu32 " lost=%" PRIu32 " hold=%" PRIu32, with->late, with->lost, with->hold);
    fprintf(out, " delay=%" PRIu32 " threshold=%" PRIu32, with->delay, with->threshold);
    if (with->jobs > 0)
        fprintf(out, " guesses=best jobs=%" PRIu32, with->jobs);
    else
        fputs(" guesses=none", out);
    if (with->held > 0)
        fprintf(out, " held=%" PRIu32, with->held);
    for (uint32_t at = 0; at < with->delay_count; at++)
        fprintf(out, "%s%" PRIu32 ":%" PRIu32 ":%" PRIu32, at == 0 ? " delay_at=" : ",", with->delays[at].machine, with->delays[at].delay,
                with->delays[at].frame);
    fprintf(out, " game=%s", with->game->name);
}

static void print_line(FILE *out, const match *of) {
    print_options(out, of->plan);
    for (size_t one = 0; one < COUNTS; one++) {
        if (each_count[one].is_of_held && of->plan->held == 0)
            continue;
        fprintf(out, " %s", each_count[one].name);
        for (uint32_t at = 0; at < of->plan->machines; at++)
            fprintf(out, "%c%" PRIu64, at == 0 ? '=' : ',', each_count[one].count(&of->all[at]));
    }
    if (plan_goes_on(of->plan))
        print_bases(out, " epochs=", ",", of);
    fprintf(out, " settled=%" PRIu32 " agree=%s state=", settled_of(match_first(of)), tables_are_well(of) ? "yes" : "no");
    print_state(out, of);
    fputs("\n", out);
}

void tables_print(FILE *out, const match *of) {
    print_heading(out, of->plan);
    print_played(out, of);
    print_rolled(out, of);
    if (of->plan->held > 0)
        print_held(out, of);
    print_measured(out, of);
    if (of->plan->is_hostile)
        print_hostile(out, of);
    if (plan_goes_on(of->plan)) {
        print_bases(out, "epochs begin at frames ", " ", of);
        fputs("\n\n", out);
    }
    print_end(out, of);
    print_line(out, of);
}

/* ---- JSON. */

static void json_frame(FILE *out, const char *name, uint32_t frame) {
    if (frame != NEVER)
        fprintf(out, ",\"%s\":%" PRIu32, name, frame);
}

static void json_machine(FILE *out, const match *of, uint32_t at) {
    const participant *one = &of->all[at], *first = match_first(of);
    measured all = measure(one);
    fprintf(out, "{\"machine\":%" PRIu32 ",\"frames\":%" PRIu32 ",\"settled\":%" PRIu32, at, frame_of(one), settled_of(one));
    json_frame(out, "silent_at", of->plan->stops[at]);
    json_frame(out, "left_at", participant_left(first, at));
    json_frame(out, "came_at", first->came[at]);
    json_frame(out, "cut_off_at", one->dropped);
    for (size_t count = 0; count < COUNTS; count++)
        if (!each_count[count].is_of_held || of->plan->held > 0)
            fprintf(out, ",\"%s\":%" PRIu64, each_count[count].name, each_count[count].count(one));
    fprintf(out, ",\"sent\":%" PRIu64 ",\"bytes_a_second\":%" PRIu64, one->counts.sent, bytes_a_second(one));
    fprintf(out, ",\"received\":%" PRIu64 ",\"lost\":%" PRIu64 ",\"ignored\":%" PRIu64, all.received, all.lost, one->counts.ignored);
    if (all.count > 0)
        fprintf(out, ",\"round_trip\":%" PRIu64, all.trips / all.count);
    if (of->plan->is_hostile)
        fprintf(out, ",\"hostile\":%" PRIu64 ",\"heard_again\":%" PRIu64 ",\"deceived\":%" PRIu64, one->counts.hostile, one->counts.again,
                one->counts.fooled);
    fputs("}", out);
}

static void json_plan(FILE *out, const plan *with) {
    fprintf(out, "{\"peers\":%" PRIu32 ",\"frames\":%" PRIu32 ",\"seed\":%" PRIu64, with->machines, with->frames, with->seed);
    fprintf(out, ",\"late\":%" PRIu32 ",\"lost\":%" PRIu32 ",\"hold\":%" PRIu32, with->late, with->lost, with->hold);
    fprintf(out, ",\"delay\":%" PRIu32 ",\"threshold\":%" PRIu32 ",\"jobs\":%" PRIu32, with->delay, with->threshold, with->jobs);
    fprintf(out, ",\"held\":%" PRIu32 ",\"game\":\"%s\"}", with->held, with->game->name);
}

void tables_json(FILE *out, const match *of) {
    fputs("{\"match\":", out);
    json_plan(out, of->plan);
    fputs(",\"machines\":[", out);
    for (uint32_t at = 0; at < of->plan->machines; at++) {
        fputs(at > 0 ? "," : "", out);
        json_machine(out, of, at);
    }
    fprintf(out, "],\"settled\":%" PRIu32 ",\"ended\":%s,\"agree\":%s", settled_of(match_first(of)), of->has_ended ? "true" : "false",
            tables_are_well(of) ? "true" : "false");
    print_bases(out, ",\"epochs\":[", ",", of);
    fputs("],\"state\":\"", out);
    print_state(out, of);
    fputs("\"}\n", out);
}
