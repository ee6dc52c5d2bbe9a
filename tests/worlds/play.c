/* Plays a world that is written as a text (README.md) over the library in C: the machines are peers that carry, and the network
 * between them loses and delays just those datagrams that the text names. Worlds with machines that mean harm can't be played.
 *
 *     play FILE           a match without epochs. It prints what came of it as `worlds --read` prints what comes of the model
 *     play lasting FILE   a match that goes on in epochs. It prints what each machine did, line by line, which traces.py reads */
#include "../../lib/sha256.h"
#include "../sim/room.h"
#include "../sim/world.h"

#include <inttypes.h>
#include <string.h>

enum { PLAYERS = FAZGROND_PLAYERS, BYES = 3, WORDS = 67, COPIES = WORDS - 3, MARKS = 1024, TURNS_A_SECOND = 60 };

/* Whoever has a number from FORGERS on has a ticket of other comers. A newcomer that was proposed, and hasn't come in so many turns, is
 * proposed anew. In this many turns before the end it is noted how far each machine is. */
enum { NO_NAME = 255, FORGERS = 1000, PROPOSED_ANEW = 60, LAST_TURNS = 100 };

static const uint64_t COMERS = 0x636f6d657273;

/* What becomes of the k-th datagram of a line, if it doesn't come in the next turn: it comes so many times, so many turns later. */
typedef struct fate {
    uint32_t place, copies, later[COPIES];
} fate;

/* Something that happens in a turn. */
typedef struct happening {
    uint32_t turn, count;
    char verb[8];
    uint64_t numbers[WORDS];
} happening;

/* What goes from one machine to another: how many datagrams were sent, and what becomes of them. */
typedef struct line {
    uint32_t sent, fates, room, next;
    fate *fate;
    bool is_down;
} line;

typedef enum ending { PLAYS, STOPPED, CUT_OFF, NOT_IN } ending;

/* A mark that a machine is to put on its next word; `newcomer` is NO_NAME if nobody comes by it. */
typedef struct wish {
    bool is_there;
    uint32_t newcomer;
    fazgrond_mark mark;
} wish;

/* A mark that was put: in which epoch, and on the word of which player and frame of it. */
typedef struct put {
    uint64_t id;
    uint32_t player, frame, newcomer;
} put;

/* A machine has one number in the text for good, its name, which is its place in the world; in each epoch it has a seat, and so have those
 * that it plays with. What it did in epochs is written to `trace`. How it was when it last asked whether its epoch is over, `looked` says.
 */
typedef struct played {
    bool is_over, has_left[PLAYERS], has_put, is_newcomer, has_begun;
    uint32_t gone, byes, cut_off_at, over_in, rows, met, machines;
    uint64_t draw, shown_before;
    ending ending;
    uint32_t word[PLAYERS];
    struct {
        uint32_t rows, frame;
    } looked;
    wish wish;
    FILE *trace;
    char *text;
    size_t length;
} played;

/* A newcomer: with which draw it opens, the hosts that were told of it and for which player, and since when it is proposed. */
typedef struct guest {
    bool is_coming, is_proposed;
    uint64_t draw;
    uint32_t hosts, players[MACHINES], proposed_at;
} guest;

static setup with;
static world *all;
static played of_text[MACHINES];
static guest guests[MACHINES];
static happening *happenings;
static size_t happening_count, happening_room;
static line lines[MACHINES][MACHINES];
static uint32_t turns;
static put marks_put[MARKS];
static uint32_t put_count;

static void fail(const char *what) {
    fprintf(stderr, "play: %s\n", what);
    exit(2);
}

static played *own(const machine *at) { return &of_text[at->me]; }

/* ---- The text. */

static void add_fate(const uint64_t *numbers, uint32_t count) {
    if (numbers[0] >= MACHINES || numbers[1] >= MACHINES)
        fail("there is no such machine");
    line *of = &lines[numbers[0]][numbers[1]];
    if (of->fates == of->room)
        of->fate = room_grown(of->fate, of->room = 2 * of->room + 16, sizeof *of->fate);
    fate *new = &of->fate[of->fates++];
    new->place = (uint32_t)numbers[2];
    new->copies = count - 3;
    for (uint32_t copy = 0; copy < new->copies; copy++)
        new->later[copy] = (uint32_t)numbers[3 + copy];
}

static void add_happening(uint32_t turn, const char *verb, const uint64_t *numbers, uint32_t count) {
    if (happening_count == happening_room)
        happenings = room_grown(happenings, happening_room = 2 * happening_room + 64, sizeof *happenings);
    happening *new = &happenings[happening_count++];
    new->turn = turn;
    new->count = count;
    snprintf(new->verb, sizeof new->verb, "%s", verb);
    memcpy(new->numbers, numbers, WORDS * sizeof *numbers);
}

static void set(const char *name, const uint64_t *numbers, uint32_t count) {
    if (strcmp(name, "machines") == 0)
        with.machines = (uint32_t)numbers[0];
    else if (strcmp(name, "turns") == 0)
        turns = (uint32_t)numbers[0];
    else if (strcmp(name, "threshold") == 0)
        with.threshold = (uint32_t)numbers[0];
    else if (strcmp(name, "silent_after") == 0)
        with.silent_after = (uint32_t)numbers[0];
    else if (strcmp(name, "stalled_after") == 0)
        with.stalled_after = (uint32_t)numbers[0];
    else if (strcmp(name, "relay_after") == 0 && numbers[0] != 150)
        fail("the library's relay_after is 150");
    for (uint32_t player = 0; player < PLAYERS; player++) {
        if (strcmp(name, "owners") == 0)
            with.owners[player] = player < count ? (uint32_t)numbers[player] : FAZGROND_NO_PLAYER;
        if (strcmp(name, "delays") == 0)
            with.delays[player] = player < count ? (uint32_t)numbers[player] : 0;
    }
}

static void read_line(char *text) {
    uint64_t numbers[WORDS] = { 0 };
    uint32_t count = 0;
    char *first = strtok(text, " \n"), *verb = NULL;
    if (first == NULL || *first == '#')
        return;
    bool is_happening = *first >= '0' && *first <= '9';
    if (is_happening && (verb = strtok(NULL, " \n")) == NULL)
        fail("a happening without a verb");
    for (char *word; (word = strtok(NULL, " \n")) != NULL && count < WORDS; count++)
        numbers[count] = *word == '-' ? FAZGROND_NO_PLAYER : strtoull(word, NULL, 10);
    if (!is_happening)
        set(first, numbers, count);
    else if (strcmp(verb, "lost") == 0 || strcmp(verb, "late") == 0)
        add_fate(numbers, count);
    else
        add_happening((uint32_t)strtoul(first, NULL, 10), verb, numbers, count);
}

static void read_world(FILE *from) {
    char *text = NULL;
    size_t room = 0;
    while (getline(&text, &room, from) >= 0)
        read_line(text);
    free(text);
    if (with.machines < 2 || with.machines > MACHINES)
        fail("there are 2 to 8 machines");
}

/* ---- The network. */

static void put_on_way(world *self, const datagram *sent, uint32_t later) {
    network_put(&self->network, sent, self->now + later * (uint64_t)self->setup.turn);
}

static bool goes(world *self, datagram *sent) {
    line *by = &lines[sent->from][sent->to];
    uint32_t place = by->sent++;
    while (by->next < by->fates && by->fate[by->next].place < place)
        by->next++;
    if (by->is_down)
        return false;
    if (by->next == by->fates || by->fate[by->next].place != place) {
        put_on_way(self, sent, 1);
        return false;
    }
    for (uint32_t copy = 0; copy < by->fate[by->next].copies; copy++)
        put_on_way(self, sent, by->fate[by->next].later[copy]);
    return false;
}

/* ---- A machine. */

static uint32_t clock_of(const machine *at) { return world_clock(at->world, at->me); }

static uint32_t player_count(void) {
    uint32_t players = with.lasts ? PLAYERS : 0;
    for (uint32_t player = 0; player < PLAYERS; player++)
        if (with.owners[player] != FAZGROND_NO_PLAYER && player >= players)
            players = player + 1;
    return players;
}

static void opens(machine *at, fazgrond_settings *settings, fazgrond_match *match) {
    settings->profile = FAZGROND_WIDE;
    fazgrond_one_number(match, 0x776f726c64);
    match->machines = own(at)->machines;
    match->draw = own(at)->draw;
}

static void trace_epoch(const machine *at);

/* Begins anew what isn't kept when a machine is opened again. */
static void set_up(machine *at, const uint32_t *names) {
    played was = *own(at);
    if (was.trace != NULL)
        fclose(was.trace);
    free(was.text);
    *own(at) = (played){ .draw = was.draw, .machines = was.machines, .wish = was.wish };
    memcpy(own(at)->word, was.word, sizeof was.word);
    memcpy(at->places, names, sizeof at->places);
    at->is_stalled = false;
}

static void meet_all(const machine *at) {
    for (uint32_t seat = 0; seat < MACHINES; seat++)
        if (at->places[seat] != NO_NAME)
            own(at)->met |= 1u << at->places[seat];
}

static void open_in(uint32_t who, const fazgrond_epoch *epoch, uint32_t seat, const uint32_t *names, const uint64_t *state) {
    machine *at = &all->machine[who];
    own(at)->machines = epoch->machines;
    world_open_in(all, who, seat, epoch, state);
    if (all->refused != FAZGROND_OK)
        fail("a machine doesn't open");
    set_up(at, names);
    meet_all(at);
    own(at)->trace = open_memstream(&own(at)->text, &own(at)->length);
    if (own(at)->trace == NULL)
        fail("no memory");
    trace_epoch(at);
}

static void open_machine(uint32_t who, uint64_t draw) {
    uint32_t names[MACHINES];
    fazgrond_epoch epoch = world_first_epoch(all);
    of_text[who].draw = draw;
    for (uint32_t seat = 0; seat < MACHINES; seat++)
        names[seat] = seat < with.machines ? seat : NO_NAME;
    open_in(who, &epoch, who, names, NULL);
}

static void end_as(machine *at, ending how) {
    own(at)->is_over = at->is_dead = true;
    own(at)->ending = how;
}

static void leave(machine *at, ending how) {
    if (own(at)->byes == 0 && !own(at)->is_over) {
        own(at)->byes = BYES;
        own(at)->ending = how;
        at->is_apart = true; /* from now on it only says bye */
    }
}

static void is_told(machine *at, const fazgrond_event *event) {
    played *self = own(at);
    switch (event->code) {
    case FAZGROND_TIME_SYNC: at->wait = 0; break; /* in the text nobody waits for that */
    case FAZGROND_LEFT:
        if (at->places[event->machine] != NO_NAME)
            self->gone |= 1u << at->places[event->machine];
        break;
    case FAZGROND_DISCONNECTED: self->has_left[event->player - 1] = true; break;
    case FAZGROND_CUT_OFF:
        self->cut_off_at = clock_of(at);
        self->over_in = event->disconnect_in;
        break;
    case FAZGROND_DROPPED:
        if (self->over_in != 0 && clock_of(at) - self->cut_off_at >= self->over_in)
            leave(at, CUT_OFF);
        break;
    default: break;
    }
}

static uint32_t confirmed(machine *at, uint32_t player) {
    uint32_t words = 0;
    fazgrond_confirmed(&at->session, (uint8_t)(player + 1), &words);
    return words;
}

/* So many rows are settled: no word of them can change. */
static uint32_t front(machine *at) {
    uint32_t least = UINT32_MAX;
    for (uint32_t player = 0; player < player_count(); player++)
        if (!own(at)->has_left[player] && confirmed(at, player) < least)
            least = confirmed(at, player);
    return least;
}

static uint32_t input_frame(machine *at, uint32_t player) {
    uint32_t frame = 0;
    fazgrond_input_frame(&at->session, (uint8_t)(player + 1), &frame);
    return frame;
}

static uint32_t word_of(machine *at, uint32_t player, uint64_t frame) {
    (void)frame;
    return own(at)->word[player];
}

static void gave(machine *at, uint32_t player, uint32_t frame, uint32_t word, int32_t code) {
    if (code == FAZGROND_OK)
        fprintf(own(at)->trace, "gave %u %" PRIu64 " %u\n", player, machine_base(at) + frame, word);
}

/* ---- Epochs. */

static uint32_t name_of(const machine *at, uint32_t seat) { return seat < MACHINES ? at->places[seat] : NO_NAME; }

static bool owns(const machine *at, uint32_t seat, uint32_t player) { return machine_epoch(at)->owners[player] == seat; }

/* How an epoch opened here: its number, base and threshold, how many frames were run again, which frame was shown before, how the
 * epoch before was when it wasn't over yet, and the owners and delays. */
static void trace_epoch(const machine *at) {
    const fazgrond_epoch *epoch = machine_epoch(at);
    const played *self = own(at);
    fprintf(self->trace, "epoch %" PRIu64 " %" PRIu64 " %u", epoch->id, epoch->base, epoch->threshold);
    fprintf(self->trace, " %u %" PRIu64 " %u %u", at->frame, self->shown_before, self->looked.rows, self->looked.frame);
    for (uint32_t player = 0; player < PLAYERS; player++)
        fprintf(self->trace, " %u", name_of(at, epoch->owners[player]));
    for (uint32_t player = 0; player < PLAYERS; player++)
        fprintf(self->trace, " %u", epoch->delays[player]);
    fprintf(self->trace, "\n");
}

static void trace_row(machine *at, uint32_t frame) {
    FILE *trace = own(at)->trace;
    fprintf(trace, "row %" PRIu64, machine_base(at) + frame);
    for (uint32_t player = 0; player < player_count(); player++) {
        uint32_t word;
        if (fazgrond_confirmed_word(&at->session, (uint8_t)(player + 1), frame, &word) == FAZGROND_OK)
            fprintf(trace, " %u", word);
        else
            fprintf(trace, " -");
    }
    fprintf(trace, "\n");
}

static void note_rows(machine *at) {
    for (uint32_t until = front(at); own(at)->rows < until; own(at)->rows++)
        trace_row(at, own(at)->rows);
}

/* By which mark an epoch ended: of those on words of its last row the lowest player's. */
static const put *mark_of_end(const fazgrond_epoch *ended, uint64_t base) {
    const put *found = NULL;
    for (uint32_t one = 0; one < put_count; one++) {
        const put *it = &marks_put[one];
        bool is_there = it->id == ended->id && ended->base + it->frame + 1 == base;
        if (is_there && (found == NULL || it->player < found->player))
            found = it;
    }
    return found;
}

/* Who sits at a seat of an epoch that has just begun: who sat there before, whoever came by the mark, or nobody. */
static uint32_t next_name(machine *at, uint32_t seat, uint32_t newcomer) {
    uint32_t has_stayed = 0;
    bool is_owner = false;
    for (uint32_t player = 0; player < PLAYERS; player++)
        is_owner = is_owner || owns(at, seat, player);
    fazgrond_peer_has_stayed(&at->peer, (uint8_t)seat, &has_stayed);
    if (has_stayed != 0)
        return at->places[seat];
    return is_owner ? newcomer : NO_NAME;
}

static void begins(machine *at) {
    played *self = own(at);
    const put *by = mark_of_end(&at->parts[at->part_count - 2].epoch, machine_base(at));
    for (uint32_t seat = 0; seat < MACHINES; seat++)
        at->places[seat] = next_name(at, seat, by == NULL ? NO_NAME : by->newcomer);
    meet_all(at);
    trace_epoch(at);
    memset(self->has_left, 0, sizeof self->has_left);
    memset(&self->looked, 0, sizeof self->looked);
    self->rows = 0;
    self->has_put = self->is_newcomer = false;
    self->has_begun = true;
}

static void is_left_out(machine *at) {
    at->is_apart = true;
    end_as(at, NOT_IN);
}

/* ---- Marks. */

static uint64_t ticket_of(uint64_t newcomer) { return fazgrond_ticket(newcomer < FORGERS ? COMERS : COMERS + 1, (uint32_t)newcomer); }

static bool is_void(const machine *at, const wish *it) {
    for (uint32_t player = 0; player < PLAYERS; player++) {
        uint32_t delay = it->mark.delays[player];
        if (delay != FAZGROND_AS_BEFORE && (delay > 8 || !owns(at, at->seat, player)))
            return true;
    }
    return it->mark.threshold > 15 || (it->newcomer != NO_NAME && it->newcomer >= FORGERS);
}

static uint32_t players_who_come(const fazgrond_mark *mark) {
    uint32_t players = 0;
    for (uint32_t player = 0; player < PLAYERS; player++)
        players += mark->comes[player];
    return players;
}

/* A mark on a player's word of a frame, as in a text. */
static void trace_mark(const machine *at, const wish *it, uint32_t player, uint32_t frame) {
    int newcomer = it->newcomer == NO_NAME ? -1 : (int)it->newcomer;
    fprintf(own(at)->trace, "mark %u %" PRIu64, player, machine_base(at) + frame);
    fprintf(own(at)->trace, " %d %u %u", newcomer, it->mark.threshold, players_who_come(&it->mark));
    for (uint32_t one = 0; one < PLAYERS; one++)
        if (it->mark.comes[one] != 0)
            fprintf(own(at)->trace, " %u", one);
    for (uint32_t one = 0; one < PLAYERS; one++)
        if (it->mark.delays[one] != FAZGROND_AS_BEFORE)
            fprintf(own(at)->trace, " %u %u", one, it->mark.delays[one]);
    fprintf(own(at)->trace, "\n");
}

/* A mark on the next word of an own player. False if that has one already. */
static bool put_on(machine *at, const wish *it, uint32_t player) {
    uint32_t frame = input_frame(at, player);
    int32_t code = fazgrond_peer_mark(&at->peer, &at->session, (uint8_t)(player + 1), &it->mark);
    if (code == FAZGROND_MARKED)
        return false;
    if (is_void(at, it)) { /* what would be void isn't put */
        if (code < FAZGROND_UNLIKE_DELAYS || code > FAZGROND_WRONG_TICKET)
            fail("a void mark is put");
        return true;
    }
    if (code != FAZGROND_OK || put_count == MARKS)
        fail("a mark isn't put");
    marks_put[put_count++] = (put){ machine_epoch(at)->id, player, frame, it->newcomer };
    trace_mark(at, it, player, frame);
    return true;
}

/* Puts a mark on a word of the first own player that has none, unless there is one that counts already. */
static void put_mark(machine *at, const wish *it) {
    bool is_put = own(at)->has_put;
    for (uint32_t player = 0; player < PLAYERS && !is_put; player++)
        is_put = owns(at, at->seat, player) && put_on(at, it, player);
    own(at)->has_put |= is_put && !is_void(at, it);
}

static bool is_free(const machine *at) {
    for (uint32_t player = 0; player < PLAYERS; player++)
        if (machine_epoch(at)->owners[player] == FAZGROND_NOBODY)
            return true;
    return false;
}

/* Whether a newcomer can be proposed by a machine: it never played with it, and there is a player for it. */
static bool may_come(const machine *at, uint32_t newcomer) {
    return newcomer >= MACHINES || ((own(at)->met >> newcomer & 1) == 0 && is_free(at));
}

/* Whether a newcomer was proposed, and hasn't come by that. */
static bool is_awaited(const machine *at, uint32_t newcomer) {
    const guest *it = &guests[newcomer];
    return it->is_proposed && (it->hosts >> at->me & 1) != 0 && all->turn >= it->proposed_at + PROPOSED_ANEW && may_come(at, newcomer);
}

/* Each of its hosts proposes it then. */
static void propose_anew(machine *at) {
    for (uint32_t newcomer = 0; newcomer < MACHINES; newcomer++)
        if (is_awaited(at, newcomer)) {
            wish anew = { true, newcomer, fazgrond_mark_for() };
            anew.mark.ticket = ticket_of(newcomer);
            anew.mark.comes[guests[newcomer].players[at->me]] = 1;
            put_mark(at, &anew);
        }
}

static void put_marks(machine *at) {
    wish *it = &own(at)->wish;
    if (it->is_there && may_come(at, it->newcomer))
        put_mark(at, it);
    it->is_there = false;
    propose_anew(at);
}

/* ---- Newcomers. */

/* Whether a word is known that a machine gave in this epoch. */
static bool has_given(machine *at, uint32_t seat) {
    for (uint32_t player = 0; player < PLAYERS; player++)
        if (owns(at, seat, player) && confirmed(at, player) > 0)
            return true;
    return false;
}

static bool is_another(const machine *at, uint32_t seat) { return seat != at->seat && at->places[seat] != NO_NAME; }

static bool is_gone(const machine *at, uint32_t name) { return (own(at)->gone >> name & 1) != 0; }

/* In which seat somebody sits; NO_NAME if nowhere. */
static uint32_t seat_of(const machine *at, uint32_t name) {
    for (uint32_t seat = 0; seat < MACHINES; seat++)
        if (at->places[seat] == name)
            return seat;
    return NO_NAME;
}

/* Whether a newcomer hears a host, and that one hears it. */
static bool is_host(const machine *at, const machine *by) {
    return (guests[at->me].hosts >> by->me & 1) != 0 && by->is_open && !own(by)->is_over && !lines[by->me][at->me].is_down
        && !lines[at->me][by->me].is_down;
}

/* Whether a newcomer can open the epoch of a host: it is in it, and in no other one yet that is as good. */
static bool can_open(const machine *at, const machine *by) {
    return is_host(at, by) && seat_of(by, at->me) != NO_NAME && !is_gone(by, at->me)
        && (!at->is_open || machine_base(at) < machine_base(by));
}

/* Whether nobody was heard in the epoch that a newcomer has opened. */
static bool is_unsure(machine *at) {
    for (uint32_t seat = 0; seat < MACHINES; seat++)
        if (at->is_open && is_another(at, seat) && !is_gone(at, at->places[seat]) && has_given(at, seat))
            return false;
    return !at->is_open || own(at)->is_newcomer;
}

/* A newcomer opens the epoch of a host, with the state at its base: the game's own affair, so it takes no time here. */
static void open_newcomer(machine *at) {
    if (at->is_open && !own(at)->is_over)
        machine_hear(at);
    for (uint32_t host = 0; host < MACHINES; host++) {
        const machine *by = &all->machine[host];
        if (own(at)->is_over || !is_unsure(at) || !can_open(at, by))
            continue;
        fazgrond_epoch epoch = *machine_epoch(by);
        uint64_t state = machine_digest(by, epoch.base);
        own(at)->draw = guests[at->me].draw++;
        open_in(at->me, &epoch, seat_of(by, at->me), by->places, &state);
        own(at)->is_newcomer = true;
    }
}

/* ---- Turns. */

static void has_polled(machine *at) {
    machine_hear_events(at);
    own(at)->has_begun = false;
    if (at->is_running && with.lasts && !at->is_apart) {
        note_rows(at);
        own(at)->shown_before = machine_frame(at);
    }
}

/* What a turn of a match does that goes on in epochs, before its next frame. */
static void plays(machine *at) {
    if (!with.lasts)
        return;
    if (!own(at)->has_begun) {
        own(at)->looked.rows = own(at)->rows;
        own(at)->looked.frame = at->frame;
    }
    put_marks(at);
}

static void has_played(machine *at) {
    if (at->is_running)
        note_rows(at);
}

static bool sends(machine *at, datagram *made) {
    (void)at;
    return made->to != NO_NAME;
}

/* What it hears while it says bye. */
static void hears(machine *at, const datagram *come) {
    if (at->is_apart)
        (void)fazgrond_peer_receive(&at->peer, &at->session, come->bytes, come->length, clock_of(at));
}

static void post(machine *at, uint32_t seat, datagram *made) {
    made->from = at->me;
    made->to = at->places[seat];
    world_post(all, made);
}

/* It has left: it says bye, and carries. */
static void says_bye(machine *at) {
    datagram made;
    if (own(at)->is_over)
        return;
    for (uint8_t seat = 0; seat < MACHINES; seat++) {
        if (!is_another(at, seat))
            continue;
        if (fazgrond_peer_bye(&at->peer, seat, FAZGROND_BYE_LEAVES, made.bytes, FAZGROND_DATAGRAM, &made.length) == FAZGROND_OK)
            post(at, seat, &made);
        if (fazgrond_peer_send_before(&at->peer, seat, clock_of(at), made.bytes, FAZGROND_DATAGRAM, &made.length) == FAZGROND_OK)
            post(at, seat, &made);
    }
    machine_send_more(at);
    if (--own(at)->byes == 0)
        end_as(at, own(at)->ending);
}

static const program of_texts = { .opens = opens,
                                  .word = word_of,
                                  .gave = gave,
                                  .apart = says_bye,
                                  .hears = hears,
                                  .has_polled = has_polled,
                                  .is_left_out = is_left_out,
                                  .begins = begins,
                                  .plays = plays,
                                  .has_played = has_played,
                                  .is_told = is_told,
                                  .sends = sends };

/* ---- What happens. */

static bool is(const happening *it, const char *verb) { return strcmp(it->verb, verb) == 0; }

/* A machine is to put a mark. One by which somebody comes who is to own no player can't be told to the library, and is void. */
static void wish_mark(const uint64_t *numbers) {
    wish *made = &of_text[numbers[0] % MACHINES].wish;
    uint32_t players = (uint32_t)numbers[3];
    *made = (wish){ numbers[1] == NO_NAME || players > 0, (uint32_t)numbers[1], fazgrond_mark_for() };
    made->mark.threshold = (uint32_t)numbers[2];
    made->mark.ticket = players > 0 ? ticket_of(numbers[1]) : 0;
    for (uint32_t one = 0; one < players; one++)
        made->mark.comes[numbers[4 + one] % PLAYERS] = 1;
}

static void wish_delays(const happening *it) {
    fazgrond_mark *mark = &of_text[it->numbers[0] % MACHINES].wish.mark;
    for (uint32_t one = 4 + (uint32_t)it->numbers[3]; one + 1 < it->count; one += 2)
        mark->delays[it->numbers[one] % PLAYERS] = (uint32_t)it->numbers[one + 1];
}

static void propose(uint64_t newcomer) {
    if (newcomer < MACHINES && !guests[newcomer].is_proposed) {
        guests[newcomer].is_proposed = true;
        guests[newcomer].proposed_at = all->turn;
    }
}

static void put_out_named(machine *at, uint32_t name) {
    uint32_t seat = at->is_open ? seat_of(at, name) : NO_NAME;
    if (seat != NO_NAME && fazgrond_peer_disconnect(&at->peer, (uint8_t)seat) == FAZGROND_OK)
        own(at)->gone |= 1u << name;
}

/* What happens to newcomers, and to marks. */
static bool happens_in_epochs(const happening *it) {
    const uint64_t *numbers = it->numbers;
    if (is(it, "mark")) {
        wish_mark(numbers);
        wish_delays(it);
        propose(numbers[1]);
    } else if (is(it, "come")) {
        guests[numbers[0] % MACHINES].is_coming = true;
        guests[numbers[0] % MACHINES].draw = numbers[1];
    } else if (is(it, "told")) {
        guests[numbers[1] % MACHINES].hosts |= 1u << numbers[0] % MACHINES;
        guests[numbers[1] % MACHINES].players[numbers[0] % MACHINES] = (uint32_t)numbers[2] % PLAYERS;
    } else
        return false;
    return true;
}

static void happen(const happening *it) {
    const uint64_t *numbers = it->numbers;
    machine *at = &all->machine[numbers[0] % MACHINES];
    if (is(it, "open"))
        open_machine((uint32_t)numbers[0], numbers[1]);
    else if (is(it, "word"))
        own(at)->word[numbers[1] % PLAYERS] = (uint32_t)numbers[2];
    else if (is(it, "stop")) {
        if (at->is_open || with.lasts)
            end_as(at, STOPPED);
    } else if (is(it, "leave"))
        leave(at, STOPPED);
    else if (is(it, "out"))
        put_out_named(at, (uint32_t)numbers[1]);
    else if (is(it, "down") || is(it, "up"))
        lines[numbers[0] % MACHINES][numbers[1] % MACHINES].is_down = is(it, "down");
    else if (is(it, "hang"))
        at->is_stalled = true;
    else if (is(it, "leap"))
        at->clock_ahead += (int64_t)numbers[1];
    else if (!with.lasts || !happens_in_epochs(it))
        fail("a happening that isn't played");
}

static void note_shown(void) {
    for (uint32_t who = 0; who < MACHINES; who++)
        if (all->machine[who].is_open)
            fprintf(of_text[who].trace, "shown %" PRIu64 "\n", machine_frame(&all->machine[who]));
}

static void begin(void) {
    with.program = &of_texts;
    with.players = player_count();
    with.has_owners = with.carries = true;
    with.comers = COMERS;
    with.notify_after = FAZGROND_NOTIFY_AFTER;
    with.turn = SECOND / TURNS_A_SECOND;
    for (uint32_t player = 0; player < PLAYERS; player++) /* a player that nobody owns may get an owner, if the match goes on in epochs */
        if (with.lasts && with.owners[player] == FAZGROND_NO_PLAYER)
            with.owners[player] = FAZGROND_NOBODY;
    all = world_begin(&with);
    all->now = 0;
    all->watcher = goes;
    for (uint32_t who = 0; who < MACHINES; who++)
        all->machine[who].clock_ahead = 1;
}

static void play(void) {
    size_t next = 0;
    begin();
    while (all->turn < turns) {
        for (; next < happening_count && happenings[next].turn == all->turn; next++)
            happen(&happenings[next]);
        world_deliver(all);
        for (uint32_t who = 0; who < MACHINES; who++)
            if (guests[who].is_coming)
                open_newcomer(&all->machine[who]);
        world_run_turns(all, 1);
        if (all->turn + LAST_TURNS == turns + 1)
            note_shown();
        if (all->wrong != NULL)
            fail(all->wrong);
    }
}

/* ---- What came of it. */

static uint64_t digest_of(machine *at) {
    sha256 sum = sha256_begin();
    for (uint32_t frame = 0; frame < own(at)->rows; frame++)
        for (uint32_t player = 0; player < PLAYERS; player++) {
            uint8_t word[4] = { 255, 255, 255, 255 };
            uint32_t value;
            if (player < player_count() && fazgrond_confirmed_word(&at->session, (uint8_t)(player + 1), frame, &value) == FAZGROND_OK)
                for (int byte = 0; byte < 4; byte++)
                    word[byte] = (uint8_t)(value >> (24 - 8 * byte));
            sha256_add(&sum, word, sizeof word);
        }
    return sha256_end(&sum);
}

/* Whether two machines have settled the same, as far as both have settled it. */
static bool are_alike(machine *one, machine *other) {
    uint32_t rows = own(one)->rows < own(other)->rows ? own(one)->rows : own(other)->rows;
    for (uint32_t frame = 0; frame < rows; frame++)
        for (uint32_t player = 0; player < player_count(); player++) {
            uint32_t first = 0, second = 0;
            int32_t is_there = fazgrond_confirmed_word(&one->session, (uint8_t)(player + 1), frame, &first);
            if (fazgrond_confirmed_word(&other->session, (uint8_t)(player + 1), frame, &second) != is_there || first != second)
                return false;
        }
    return true;
}

/* Those of which neither regards the other as gone have to have settled the same. */
static void print_differences(void) {
    for (uint32_t one = 0; one < with.machines; one++)
        for (uint32_t other = one + 1; other < with.machines; other++) {
            machine *first = &all->machine[one], *second = &all->machine[other];
            if (first->is_open && second->is_open && !is_gone(first, other) && !is_gone(second, one) && !are_alike(first, second))
                printf("machines %u and %u have settled other rows\n", one, other);
        }
}

static const char *const endings[] = {
    [PLAYS] = "plays", [STOPPED] = "stopped", [CUT_OFF] = "cut off", [NOT_IN] = "not in the next epoch"
};

static void print_mask(uint32_t mask) {
    char bits[] = "00000000";
    for (uint32_t bit = 0; bit < MACHINES; bit++)
        bits[MACHINES - 1 - bit] = (char)('0' + (mask >> bit & 1));
    printf("%s", bits);
}

static void print_outcome(void) {
    for (uint32_t who = 0; who < with.machines; who++) {
        machine *at = &all->machine[who];
        if (!at->is_open)
            continue;
        printf("machine %u: gone ", who);
        print_mask(own(at)->gone);
        printf(", %s, epochs 0:%016x, rows 0 to %u %016" PRIx64 "\n", endings[own(at)->ending], 0, own(at)->rows, digest_of(at));
    }
}

/* Who is in the epoch of a machine, and isn't gone. */
static uint32_t there(const machine *at) {
    uint32_t mask = 0;
    for (uint32_t seat = 0; seat < MACHINES; seat++)
        if (at->places[seat] != NO_NAME)
            mask |= 1u << at->places[seat];
    return mask & ~own(at)->gone;
}

static void print_trace(const machine *at) {
    const played *self = own(at);
    fflush(self->trace);
    printf("machine %u\n%s", at->me, self->text);
    printf("looked %u %u\nends %" PRIu64 " ", self->looked.rows, self->looked.frame, machine_frame(at));
    print_mask(there(at));
    printf(" %s\n", endings[self->ending]);
}

static void print_traces(void) {
    for (uint32_t who = 0; who < MACHINES; who++)
        if (all->machine[who].is_open)
            print_trace(&all->machine[who]);
}

int main(int count, char **words) {
    with.lasts = count == 3 && strcmp(words[1], "lasting") == 0;
    FILE *from = count == 2 || with.lasts ? fopen(words[count - 1], "r") : NULL;
    if (from == NULL)
        fail("play [lasting] FILE");
    for (uint32_t player = 0; player < PLAYERS; player++)
        with.owners[player] = FAZGROND_NO_PLAYER;
    read_world(from);
    fclose(from);
    play();
    if (with.lasts) {
        print_traces();
    } else {
        print_outcome();
        print_differences();
    }
    return 0;
}
