/* A liar inside a match: one of four machines that carry for each other, in a match that goes on in epochs. It knows all that a machine of
 * the match knows, and beside what its program says honestly it sends the others, by the hundred: maps that aren't so, packets to hand on
 * that were changed, made up, or heard long ago, plays with marks of players that aren't its own, or that can't be; and it puts marks
 * itself, void ones and good ones, in each epoch. And who takes a state in pieces is given wrong ones. Nobody is to be deceived: the three
 * others settle the same rows, in which the words of each stand in the frames for which it gave them; none of them is gone for
 * another; they play on; no epoch opens but by a mark that may open one; and no more memory is taken than without it. `hostile COUNT
 * [SEED]` sends about so many in all, in place of 20,000. */
#include "../../lib/sha256.h"
#include "trials/packets.h"
#include "../sim/memory.h"
#include "../sim/scenario.h"

enum { HONEST = 3, LIAR = HONEST, MATCH_MACHINES = HONEST + 1, DELAY = 2, THRESHOLD = 8, POOL = 256, LIES_STREAM = 64 };
enum { MAP = 3, CARRIED = 4, LABEL = 4, MOST_FRAMES = 3000, LIES_A_TURN = 24, STANDS = 400, FIRST_LIE = 100 };
enum { STATE = 100000, ASKED = 4, ROUNDS = 8000, WRONG_ONES = 20, PIECE_BODY = 66 };

static world *all;
static machine *at;
static draws chance;
static datagram pool[POOL]; /* what machines sent before, to whomever */
static uint32_t lies, answered[CODES];
static size_t most_without_lies;

static uint32_t below(uint32_t count) { return draws_below(&chance, count); }

/* ---- The match. */

static uint32_t word(machine *self, uint32_t player, uint64_t frame) {
    (void)self;
    return (player + 1) << 24 | (uint32_t)(frame / 3 + 1);
}

/* Of those who are honest none is gone for another, and all play the same. The liar is told of once in an epoch. */
static void is_told(machine *self, const fazgrond_event *event) {
    bool is_honest = self->me != LIAR, is_of_honest = is_honest && event->machine != LIAR;
    uint32_t code = event->code, refused = code == FAZGROND_REFUSED ? world_told(all, self->me, code, NOBODY) : 0;
    machine_must(self, code != FAZGROND_LEFT || !is_of_honest, "somebody who is honest is gone");
    machine_must(self, code != FAZGROND_DESYNC || !is_of_honest, "those who are honest have other states");
    machine_must(self, code != FAZGROND_REFUSED || !is_of_honest, "somebody who is honest is refused");
    machine_must(self, code != FAZGROND_DROPPED && code != FAZGROND_CUT_OFF, "somebody is cut off");
    machine_must(self, !is_honest || refused <= self->part_count, "the liar is told of twice in an epoch");
}

static void begins(machine *self) {
    const fazgrond_epoch *epoch = machine_epoch(self);
    for (uint32_t player = 0; player < MATCH_MACHINES; player++) {
        bool is_gone = epoch->owners[player] == FAZGROND_NOBODY;
        bool is_own = epoch->owners[player] == player || (is_gone && player == LIAR);
        machine_must(self, is_own, "somebody comes without a ticket, or is put out");
        machine_must(self, is_gone || epoch->delays[player] == DELAY, "a delay is another's");
    }
    machine_must(self, epoch->threshold == THRESHOLD, "a threshold that can't be");
}

static const program playing = { .word = word, .begins = begins, .is_told = is_told };

static bool keep_some(world *self, datagram *sent) {
    (void)self;
    if (below(8) == 0)
        pool[below(POOL)] = *sent;
    return true;
}

static void begin(uint32_t seed) {
    setup with = even;
    with.program = &playing;
    with.machines = with.seats = MATCH_MACHINES;
    with.silent_after = 3000;
    with.stalled_after = 1000;
    with.input_delay = DELAY;
    with.loss = 3;
    with.tells_all = with.has_pair_numbers = true;
    with.seed = seed;
    chance = draws_of(seed, LIES_STREAM);
    memset(pool, 0, sizeof pool);
    all = world_begin(&with);
    at = all->machine;
    all->watcher = keep_some;
    world_open_all(all);
}

/* ---- The lies. */

/* What the liar seals a packet with for another machine, in the epoch in which it is. */
static seal_key key_for(uint32_t to) {
    uint64_t number = all->numbers[LIAR][to], id = machine_epoch(&at[LIAR])->id;
    if (id != 0) {
        sha256 made = sha256_begin();
        uint8_t bytes[16];
        seal_put(bytes, number);
        seal_put(bytes + 8, id);
        sha256_add(&made, bytes, sizeof bytes);
        number = sha256_end(&made);
    }
    return (seal_key){ number, at[LIAR].draw, at[to].draw };
}

/* It comes in one of the next turns. */
static void send(uint32_t from, uint32_t to, const uint8_t *bytes, size_t length) {
    world_send(all, from, to, bytes, length, below(3) * (all->setup.turn / MILLISECOND));
    lies++;
}

static void tell(uint32_t to, uint8_t *bytes, size_t length) {
    seal(bytes, length, key_for(to));
    send(LIAR, to, bytes, length);
}

static size_t head(uint8_t *bytes, uint8_t kind) {
    memcpy(bytes, "FZG4", 4);
    bytes[PACKET_SENDER] = LIAR;
    bytes[PACKET_KIND] = kind;
    return PACKET_BODY;
}

static size_t some_bytes(uint8_t *bytes, size_t length, uint32_t count) {
    while (count-- > 0 && length < FAZGROND_DATAGRAM)
        bytes[length++] = (uint8_t)below(256);
    return length;
}

/* Whom each hears straight: nobody, all, itself alone, or whatever; numbers that are near, far, or the last one. */
static void tell_a_map(uint32_t to) {
    static const uint8_t masks[] = { 0, 15, 255, LIAR };
    static const uint32_t numbers[] = { 0, 1, 0x7fffffff, 0x80000000, 0xffffffff };
    uint8_t bytes[FAZGROND_DATAGRAM];
    size_t length = head(bytes, MAP);
    for (uint32_t left = below(10) == 0 ? below(9) : MATCH_MACHINES; left > 0; left--) {
        bytes[length++] = below(2) == 0 ? masks[below(4)] : (uint8_t)below(256);
        uint32_t number = below(3) == 0 ? numbers[below(5)] : all->turn + below(1000);
        for (int shift = 24; shift >= 0; shift -= 8)
            bytes[length++] = (uint8_t)(number >> shift);
    }
    tell(to, bytes, some_bytes(bytes, length, below(20) == 0 ? below(30) : 0));
}

/* What somebody sent before, with a byte changed at times, or what nobody sent. */
static size_t put_inside(uint8_t *inside) {
    const datagram *one = &pool[below(POOL)];
    size_t size = some_bytes(inside, 0, 10 + below(60));
    if (one->length > LABEL && below(4) > 0) {
        size = one->length - LABEL;
        memcpy(inside, one->bytes + LABEL, size);
        if (below(2) == 0)
            inside[below((uint32_t)size)] ^= (uint8_t)(1 + below(255));
    }
    if (size > PACKET_SENDER - LABEL + 1 && below(3) == 0)
        inside[PACKET_SENDER - LABEL] = (uint8_t)below(6);
    return size;
}

/* A packet to hand on, or for the one that hears it. */
static size_t put_parcel(uint8_t *bytes, size_t length) {
    uint8_t inside[FAZGROND_DATAGRAM];
    size_t size = put_inside(inside);
    uint32_t said = (uint32_t)size + (below(12) == 0 ? below(40) : 0);
    if (length + LABEL + size > FAZGROND_DATAGRAM)
        return length;
    bytes[length++] = (uint8_t)(below(10) == 0 ? below(256) : below(MATCH_MACHINES));
    bytes[length++] = (uint8_t)(below(4) == 0 ? below(256) : below(8));
    bytes[length++] = (uint8_t)(said >> 8);
    bytes[length++] = (uint8_t)said;
    memcpy(bytes + length, inside, size);
    return length + size;
}

static void tell_to_carry(uint32_t to) {
    uint8_t bytes[FAZGROND_DATAGRAM];
    size_t length = head(bytes, CARRIED);
    for (uint32_t count = 1 + below(5); count > 0; count--)
        length = put_parcel(bytes, length);
    tell(to, bytes, length);
}

/* A play that has no words, but offers one of a player that isn't the liar's. */
static packet play_of(uint32_t player, uint32_t to) {
    packet made = { .sender = LIAR, .kind = PLAY, .number = all->turn, .counted = (1 << MATCH_MACHINES) - 1 };
    for (uint32_t one = 0; one < HONEST; one++)
        (void)fazgrond_input_frame(&at[one].session, (uint8_t)(one + 1), &made.counts[one]);
    uint32_t frame = made.counts[player] > 3 ? made.counts[player] - below(3) : 0;
    made.offered = (uint8_t)(1 << player);
    made.first[player] = frame;
    made.count[player] = 1;
    made.counts[player] = frame + 1;
    made.counts[to] = 0;
    made.marks = (uint8_t)(below(4) == 0 ? below(256) : 1u << player);
    return made;
}

/* With a mark that a machine could put, or that is none. */
static void tell_marks(uint32_t to) {
    uint8_t bytes[FAZGROND_DATAGRAM];
    uint32_t player = below(HONEST);
    packet made = play_of(player, to);
    size_t length = packet_write(&made, bytes);
    if (below(3) > 0) {
        bytes[length++] = (uint8_t)(made.first[player] & 127); /* the frame, short; then nobody comes, no delays, no threshold */
        memset(bytes + length, 0, 3);
        length += 3;
    }
    tell(to, bytes, some_bytes(bytes, length, 1 + below(12)));
}

/* What somebody sent before comes once more. */
static void tell_again(uint32_t to) {
    const datagram *one = &pool[below(POOL)];
    if (one->length > 0)
        send(one->from, to, one->bytes, one->length);
}

static void put(uint32_t who, const fazgrond_mark *mark) {
    (void)fazgrond_peer_mark(&at[who].peer, &at[who].session, (uint8_t)(who + 1), mark);
}

/* Marks that it may put: void ones, and one that ends the epoch. */
static void put_a_mark(void) {
    fazgrond_mark mark = fazgrond_mark_for();
    switch (below(6)) {
    case 0: mark.delays[below(HONEST)] = below(9); break;
    case 1: mark.threshold = 16 + below(200); break;
    case 2:
        mark.comes[below(FAZGROND_PLAYERS)] = 1;
        mark.ticket = draws_wide(&chance);
        break;
    default: break;
    }
    put(LIAR, &mark);
}

static void lie_to_all(void) {
    static void (*const lying[])(uint32_t) = { tell_a_map, tell_to_carry, tell_marks, tell_again };
    for (uint32_t count = 0; count < LIES_A_TURN; count++)
        lying[below(4)](below(HONEST));
    if (below(100) == 0)
        put_a_mark();
}

/* ---- What has to be so. */

static uint64_t settled_by_all(void) {
    uint64_t least = at[0].settled;
    for (uint32_t who = 1; who < HONEST; who++)
        least = at[who].settled < least ? at[who].settled : least;
    return least;
}

/* Nobody who is honest is gone in a row, and a word stands where it was given. */
static void words_stand(uint32_t who) {
    for (uint64_t frame = DELAY; frame < at[who].settled; frame++) {
        const fazgrond_row *row = &machine_record(&at[who], frame)->row;
        IS(row->gone & ((1 << HONEST) - 1), 0);
        for (uint32_t player = 0; player < HONEST; player++)
            IS(row->words[player], word(&at[player], player, frame - DELAY));
    }
}

/* A turn, in which a line between two honest machines may break, so that they need a third, or the liar; and one may end the epoch. */
static void take_turn(bool has_liar) {
    fazgrond_mark mark = fazgrond_mark_for();
    world_cut(all, 0, 1, all->turn / 200 % 2 == 1);
    world_run_turns(all, 1);
    is_well(all);
    if (all->turn > FIRST_LIE && all->turn % 67 == 0)
        put(below(HONEST), &mark);
    if (all->turn > FIRST_LIE && has_liar)
        lie_to_all();
}

static void count_answers(void) {
    for (uint32_t who = 0; who < MATCH_MACHINES; who++)
        for (uint32_t code = 0; code < CODES; code++)
            answered[code] += at[who].answers[code];
}

/* A match of so many frames; how many bytes of memory it took at most. */
static size_t play_match(uint32_t seed, uint64_t frames, bool has_liar) {
    size_t most = 0;
    begin(seed);
    for (uint64_t seen = 0, stood = 0; seen < frames && stood < STANDS;) {
        take_turn(has_liar);
        stood = settled_by_all() == seen ? stood + 1 : 0;
        seen = settled_by_all();
        most = library_memory.bytes > most ? library_memory.bytes : most;
    }
    for (uint32_t who = 0; who < HONEST; who++) {
        MUST(world_agree(all, 0, who, frames));
        words_stand(who);
    }
    MUST(at[0].part_count > 3);
    count_answers();
    world_end(all);
    IS(library_memory.bytes, 0);
    return most;
}

static void without_lies(uint32_t seed, uint32_t frames) { most_without_lies = play_match(seed, frames, false); }

/* It takes no more memory than without. */
static void has_a_liar(uint32_t seed, uint32_t frames) {
    MUST(play_match(seed, frames, true) <= most_without_lies + most_without_lies / 20);
}

/* ---- A state in pieces: who takes it is given wrong ones by one who knows the key, and is whole with the right bytes alone. */

static const uint64_t honest_line = 0x686f6e657374, liars_line = 0x6c696172;
static fazgrond_giver giver;
static fazgrond_taker taker;

/* Of the pieces that are asked for on a line one comes; how long it is, 0 if it is none. */
static size_t piece_on(uint64_t number, uint8_t by, size_t place, uint8_t *made) {
    uint8_t ask[FAZGROND_DATAGRAM];
    size_t size, length = 0;
    OK(fazgrond_taker_send(&taker, number, 1, ASKED, ask, sizeof ask, &size));
    return fazgrond_giver_reply(&giver, number, by, ask, size, place, made, FAZGROND_DATAGRAM, &length) == FAZGROND_OK ? length : 0;
}

/* Whether the state is whole with these bytes. */
static bool is_whole_with(uint64_t number, const uint8_t *made, size_t length) {
    fazgrond_heard heard = { 0 };
    return fazgrond_taker_receive(&taker, number, made, length, &heard) == FAZGROND_OK && heard.what == FAZGROND_STATE_WHOLE;
}

/* A tenth of the right ones are lost. */
static bool is_whole_with_right_ones(void) {
    uint8_t made[FAZGROND_DATAGRAM];
    bool is_whole = false;
    for (size_t count = 0; count < ASKED && !is_whole; count++)
        if (below(10) > 0)
            is_whole = is_whole_with(honest_line, made, piece_on(honest_line, 0, below(ASKED), made));
    return is_whole;
}

/* A piece with other bytes, another place, length or name. */
static void give_wrong_one(void) {
    uint8_t made[FAZGROND_DATAGRAM];
    uint32_t length = (uint32_t)piece_on(liars_line, LIAR, below(ASKED), made), from = below(3) == 0 ? PACKET_BODY : PIECE_BODY;
    lies++;
    if (length == 0)
        return;
    made[from + below(length - from)] ^= (uint8_t)(1 + below(255));
    if (below(10) == 0)
        length -= below(length - PACKET_BODY);
    seal(made, length, (seal_key){ liars_line, 0, 0 });
    MUST(!is_whole_with(liars_line, made, length));
}

static void takes_a_state(uint32_t seed, uint32_t rounds) {
    static uint8_t bytes[STATE], out[STATE];
    fazgrond_state_name name;
    bool is_whole = false;
    chance = draws_of(seed, LIES_STREAM);
    for (size_t byte = 0; byte < STATE; byte++)
        bytes[byte] = (uint8_t)below(256);
    OK(fazgrond_giver_open(&giver, 7, 0, bytes, STATE));
    OK(fazgrond_giver_name(&giver, &name));
    OK(fazgrond_taker_open(&taker, &name, STATE));
    size_t before = library_memory.bytes;
    for (; rounds > 0 && !is_whole; rounds--) {
        is_whole = is_whole_with_right_ones();
        for (uint32_t count = 0; count < WRONG_ONES && !is_whole; count++)
            give_wrong_one();
        IS(library_memory.bytes, before);
    }
    MUST(is_whole);
    OK(fazgrond_taker_bytes(&taker, out, STATE));
    IS(memcmp(out, bytes, STATE), 0);
    fazgrond_taker_close(&taker);
    fazgrond_giver_close(&giver);
}

static const scenario scenarios[] = {
    { .name = "without lies", .play = without_lies },
    { .name = "a liar in the match", .play = has_a_liar },
    { .name = "a state in pieces", .play = takes_a_state },
};

int main(int count, char **words) {
    uint32_t wanted = count > 1 ? (uint32_t)strtoul(words[1], NULL, 10) : 20000;
    uint32_t seed = count > 2 ? (uint32_t)strtoul(words[2], NULL, 10) : 1;
    uint32_t frames = wanted / LIES_A_TURN < MOST_FRAMES ? wanted / LIES_A_TURN + 300 : MOST_FRAMES;
    scenario_play_case(&scenarios[0], seed, frames);
    for (; lies < wanted - wanted / 20 && checks.failed == 0; seed++)
        scenario_play_case(&scenarios[1], seed, frames);
    do
        scenario_play_case(&scenarios[2], seed++, ROUNDS);
    while (lies < wanted && checks.failed == 0);
    printf("%u lies;", (unsigned)lies);
    for (int code = 0; code < CODES; code++)
        if (answered[code] > 0)
            printf(" %d: %u", code, (unsigned)answered[code]);
    printf("\n");
    return checks_end();
}
