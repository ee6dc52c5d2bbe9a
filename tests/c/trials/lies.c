/* A machine of a match that lies: what it says, and what comes of it. Machine 2 of three lies from some moment on. Its packets are
 * those of the library, changed and sealed anew; or others that somebody else sends. */
#include "packets.h"
#include "trials.h"

#include <string.h>

enum { LIAR = 2, HONEST = 2, SILENT_AFTER = 3000, LIES_FOR = 10000 };

/* How the match of the honest ones goes on. */
typedef enum course {
    GOES_ON,
    STANDS,
    ENDS /* some other way, which isn't looked at */
} course;

/* What is sealed wrongly. */
typedef enum sealing { SEALED_WELL, ANOTHER_BIT, HALF_A_TAG, DRAWS_SWAPPED, AS_A_HELLO, ANOTHER_NUMBER, FOR_ANOTHER, NOT_AT_ALL } sealing;

typedef struct lie {
    const char *name;
    void (*says)(world *self, packet *made, uint32_t to);         /* of a play .. */
    size_t (*spoils)(world *self, uint8_t *bytes, size_t length); /* .. and of its bytes, before they are sealed */
    void (*sends)(world *self, const datagram *sent);             /* and this goes out too */
    void (*hears)(packet *made);                                  /* and of plays to it so much comes to its program */
    sealing seal;
    int32_t answer; /* what the honest ones' library says to it */
    unsigned told;  /* and what they are told, by kinds */
    unsigned maybe; /* and may be told, or not */
    unsigned first; /* but of these the first of them has to be told */
    course course;
    uint32_t words; /* of an input; 0: one */
    uint32_t stalled_after;
    uint32_t gives; /* so many words, from the first one on, and then none; 0: as many as it can */
} lie;

/* ---- What is said. */

static uint32_t time_of(const world *self) { return world_millis(self) / 100; }

static void gone_stranger(world *self, packet *made, uint32_t to) {
    (void)self, (void)to;
    made->gone |= 128;
}

static void counted_stranger(world *self, packet *made, uint32_t to) {
    (void)self, (void)to;
    made->counted |= 128;
    made->counts[7] = 5;
}

static void offered_stranger(world *self, packet *made, uint32_t to) {
    (void)self, (void)to;
    made->offered |= 8;
    made->first[3] = 0;
    made->count[3] = 1;
    if (made->word_count < PACKET_WORDS)
        made->words[made->word_count++] = 1;
}

static void overstated(world *self, packet *made, uint32_t to) {
    (void)self, (void)to;
    made->counts[LIAR] = made->first[LIAR] + made->count[LIAR] - 1;
    if ((made->offered >> LIAR & 1) == 0 || made->counts[LIAR] == 0)
        made->marks = 1;
}

static void most_of_its_own(world *self, packet *made, uint32_t to) {
    (void)self, (void)to;
    made->counts[LIAR] = UINT32_MAX;
}

static void most_of_yours(world *self, packet *made, uint32_t to) {
    (void)self;
    made->counted |= 3;
    made->counts[to] = UINT32_MAX;
}

static void most_of_others(world *self, packet *made, uint32_t to) {
    (void)self;
    made->counted |= 3;
    made->counts[1 - to] = UINT32_MAX;
}

static void fewer_of_others(world *self, packet *made, uint32_t to) {
    (void)self, (void)to;
    made->counts[0] = made->counts[1] = 1;
}

static void other_words_to_one(world *self, packet *made, uint32_t to) {
    (void)self;
    uint32_t at = packet_words_at(made, LIAR);
    for (uint32_t word = 0; word < made->count[LIAR] && to == 1; word++)
        made->words[at + word] ^= 1;
}

static void gap(world *self, packet *made, uint32_t to) {
    (void)self, (void)to;
    made->counts[LIAR] += 5;
    made->first[LIAR] += 5;
}

static void no_words(world *self, packet *made, uint32_t to) {
    (void)self, (void)to;
    made->offered = 0;
    made->word_count = 0;
}

/* As if others withheld words from the one to which it says so. */
static void no_words_and_most_of_others(world *self, packet *made, uint32_t to) {
    no_words(self, made, to);
    most_of_others(self, made, to);
}

static void no_words_to_one(world *self, packet *made, uint32_t to) {
    if (to == 1)
        no_words(self, made, to);
}

/* As if others kept it from beginning. */
static void frame_0(world *self, packet *made, uint32_t to) {
    (void)self, (void)to;
    made->clocks.frame = 0;
}

static void no_words_at_frame_0(world *self, packet *made, uint32_t to) {
    no_words(self, made, to);
    frame_0(self, made, to);
}

/* Its program hears clocks, and no words: so it says that it has none of those that come, and waits for them. */
static void no_words_heard(packet *made) {
    made->offered = 0;
    made->word_count = 0;
}

static void words_of_others(world *self, packet *made, uint32_t to) {
    (void)self, (void)to;
    uint32_t own = made->count[LIAR];
    if (made->counts[0] == 0 || own == PACKET_WORDS)
        return;
    memmove(made->words + 1, made->words, own * sizeof *made->words);
    made->words[0] = 77;
    made->word_count = own + 1;
    made->offered |= 1;
    made->count[0] = 1;
    made->first[0] = made->counts[0] - 1;
}

/* An input is two words: it says more of one than of the other .. */
static void other_count_of_a_word(world *self, packet *made, uint32_t to) {
    (void)self, (void)to;
    made->counted |= 1 << (2 * LIAR + 1);
    made->counts[2 * LIAR + 1]++;
}

/* .. or tells it of another frame, as if a word before had come. */
static void other_frame_of_a_word(world *self, packet *made, uint32_t to) {
    if ((made->offered >> (2 * LIAR + 1) & 1) == 0) {
        other_count_of_a_word(self, made, to);
        return;
    }
    made->first[2 * LIAR + 1]++;
    made->counts[2 * LIAR]++;
    made->counts[2 * LIAR + 1]++;
}

static void empty_offer(world *self, packet *made, uint32_t to) {
    (void)self, (void)to;
    made->offered |= 1;
    made->first[0] = 7;
    made->count[0] = 0;
}

static void empty_offer_of_nothing(world *self, packet *made, uint32_t to) {
    empty_offer(self, made, to);
    made->first[0] = 0;
}

static void too_many_words(world *self, packet *made, uint32_t to) {
    (void)self, (void)to;
    made->offered |= 1 << LIAR;
    made->count[LIAR] = 141;
}

static void words_past_all_frames(world *self, packet *made, uint32_t to) {
    (void)self, (void)to;
    made->offered |= 1 << LIAR;
    made->first[LIAR] = UINT32_MAX;
    made->count[LIAR] = 1;
}

static void marks(world *self, packet *made, uint32_t to) {
    (void)self, (void)to;
    made->marks = 1;
}

static void other_kinds(world *self, packet *made, uint32_t to) {
    (void)to;
    made->kind = (uint8_t)(3 + time_of(self) % 5);
}

static void kind_255(world *self, packet *made, uint32_t to) {
    (void)self, (void)to;
    made->kind = 255;
}

/* A hello in the place of one play in a tenth of a second or so, but of none that tells clocks. True if it is one. */
static bool is_hello(world *self, packet *made, uint32_t to) {
    static uint32_t last[MACHINES];
    if (last[to] == time_of(self) || made->has_clocks)
        return false;
    last[to] = time_of(self);
    memset(made, 0, sizeof *made);
    made->sender = LIAR;
    made->kind = HELLO;
    made->machines = (uint8_t)self->setup.machines;
    made->input_words = 1;
    for (uint32_t player = 0; player < FAZGROND_PLAYERS; player++)
        made->owners[player] = player < 3 ? (uint8_t)player : FAZGROND_NO_PLAYER;
    made->digest = 0x6d617463;
    made->draw = self->machine[LIAR].draw;
    made->echo = self->machine[to].draw;
    made->patience = self->setup.silent_after;
    return true;
}

static void draw_of_0(world *self, packet *made, uint32_t to) {
    if (is_hello(self, made, to))
        made->draw = 0;
}

static void hellos(world *self, packet *made, uint32_t to) { (void)is_hello(self, made, to); }

static void more_machines(world *self, packet *made, uint32_t to) {
    if (is_hello(self, made, to))
        made->machines = 4;
}

static void other_owners(world *self, packet *made, uint32_t to) {
    if (is_hello(self, made, to))
        made->owners[0] = 1;
}

static void other_digest(world *self, packet *made, uint32_t to) {
    if (is_hello(self, made, to))
        made->digest ^= 1;
}

static void other_opening(world *self, packet *made, uint32_t to) {
    if (is_hello(self, made, to))
        made->opening ^= 1;
}

/* It goes on in epochs. */
static void lasts(world *self, packet *made, uint32_t to) {
    if (is_hello(self, made, to))
        made->abilities |= LASTS;
}

static void other_fields_in_turn(world *self, packet *made, uint32_t to) {
    if (!is_hello(self, made, to))
        return;
    made->machines = time_of(self) % 2 == 0 ? 4 : made->machines;
    made->digest ^= 1;
}

static void other_fields_unechoed(world *self, packet *made, uint32_t to) {
    if (!is_hello(self, made, to))
        return;
    made->digest ^= 1;
    made->echo = 5;
}

static void restarted(world *self, packet *made, uint32_t to) {
    if (is_hello(self, made, to))
        made->draw = 12345;
}

/* Of these draws one is none. */
static void restarted_in_turn(world *self, packet *made, uint32_t to) {
    if (is_hello(self, made, to))
        made->draw = time_of(self) % 2 == 0 ? 0 : 77;
}

static void restarted_again_and_again(world *self, packet *made, uint32_t to) {
    if (is_hello(self, made, to))
        made->draw = 12345 + time_of(self);
}

static void other_draws_unechoed(world *self, packet *made, uint32_t to) {
    if (!is_hello(self, made, to))
        return;
    made->draw = 12345 + time_of(self) % 7;
    made->echo = 0;
}

static void other_patience(world *self, packet *made, uint32_t to) {
    if (is_hello(self, made, to))
        made->patience = 1;
}

static void abilities(world *self, packet *made, uint32_t to) {
    if (is_hello(self, made, to))
        made->abilities = 255 & ~LASTS;
}

static void no_clocks(world *self, packet *made, uint32_t to) {
    (void)self, (void)to;
    made->has_clocks = false;
}

static void clocks_of_the_future(world *self, packet *made, uint32_t to) {
    (void)self, (void)to;
    made->clocks.heard_clock += 100000;
}

static void clocks_that_stand(world *self, packet *made, uint32_t to) {
    (void)self, (void)to;
    made->clocks.heard_clock -= 1000000;
}

static void no_clocks_heard(world *self, packet *made, uint32_t to) {
    (void)self, (void)to;
    made->clocks.heard_clock = 0;
}

static void last_number(world *self, packet *made, uint32_t to) {
    (void)self, (void)to;
    made->number = UINT32_MAX;
}

static void held_for_ever(world *self, packet *made, uint32_t to) {
    (void)self, (void)to;
    made->clocks.held = UINT32_MAX;
}

static void far_ahead(world *self, packet *made, uint32_t to) {
    (void)self, (void)to;
    made->clocks.frame = made->clocks.heard_frame = UINT32_MAX;
}

static void far_behind(world *self, packet *made, uint32_t to) {
    (void)self, (void)to;
    made->clocks.frame = 0;
    made->clocks.heard_frame = UINT32_MAX;
}

static void other_state(world *self, packet *made, uint32_t to) {
    (void)self, (void)to;
    made->settled_digest ^= 1;
}

static void state_of_the_future(world *self, packet *made, uint32_t to) {
    (void)self, (void)to;
    made->has_settled = true;
    made->settled = UINT32_MAX;
}

static void another_is_gone(world *self, packet *made, uint32_t to) {
    (void)self;
    made->gone |= to == 0 ? 2 : 0;
}

static void itself_is_gone(world *self, packet *made, uint32_t to) {
    (void)self, (void)to;
    made->gone |= 1 << LIAR;
}

static void you_are_gone(world *self, packet *made, uint32_t to) {
    (void)self;
    made->gone |= (uint8_t)(1 << to);
}

static void bye_to_one(world *self, packet *made, uint32_t to) {
    (void)self;
    made->kind = to == 0 ? BYE : PLAY;
}

static void byes(world *self, packet *made, uint32_t to) {
    (void)self, (void)to;
    made->kind = BYE;
}

/* ---- How bytes are spoiled. */

static size_t byte_more(world *self, uint8_t *bytes, size_t length) {
    (void)self;
    bytes[length] = 0;
    return length + 1;
}

static size_t byte_less(world *self, uint8_t *bytes, size_t length) {
    (void)self, (void)bytes;
    return length - 1;
}

static size_t other_flag(world *self, uint8_t *bytes, size_t length) {
    (void)self;
    bytes[PACKET_BODY] = 2;
    return length;
}

static size_t other_version(world *self, uint8_t *bytes, size_t length) {
    (void)self;
    bytes[3] = '2';
    return length;
}

static size_t zeros(world *self, uint8_t *bytes, size_t length) {
    (void)self;
    memset(bytes + PACKET_BODY, 0xff, length - PACKET_BODY);
    return length;
}

static size_t thirteen(world *self, uint8_t *bytes, size_t length) {
    (void)self, (void)bytes, (void)length;
    return PACKET_BODY - 1;
}

static size_t too_long(world *self, uint8_t *bytes, size_t length) {
    (void)self;
    memset(bytes + length, 0, FAZGROND_DATAGRAM + 1 - length);
    return FAZGROND_DATAGRAM + 1;
}

/* ---- What goes out too. */

/* To both of the honest ones, at some moment. */
static void send_both(world *self, uint32_t from, const uint8_t *bytes, size_t length) {
    for (uint32_t to = 0; to < HONEST; to++)
        world_send(self, from, to, bytes, length, world_draw(self, 20));
}

static void junk(world *self, const datagram *sent) {
    uint8_t bytes[FAZGROND_DATAGRAM + 100];
    for (int times = 0; times < 30; times++) {
        size_t length = world_draw(self, sizeof bytes);
        for (size_t at = 0; at < length; at++)
            bytes[at] = (uint8_t)world_draw(self, 256);
        if (times % 2 == 0)
            memcpy(bytes, sent->bytes, PACKET_BODY);
        bytes[PACKET_SENDER] = (uint8_t)(times % 3 == 0 ? LIAR : times % 3 == 1 ? 1 : 255);
        send_both(self, LIAR, bytes, length);
    }
}

/* What one of the honest ones sends comes back to it, and goes to the other. */
static void reflections(world *self, const datagram *sent) {
    if (sent->from != LIAR && sent->to != LIAR)
        send_both(self, LIAR, sent->bytes, sent->length);
}

/* All that is sent comes again a little later, twice. */
static void replays(world *self, const datagram *sent) {
    for (int times = 0; times < 2; times++)
        world_send(self, sent->from, sent->to, sent->bytes, sent->length, 20 + world_draw(self, 2000));
}

static void write_and_seal(world *self, packet *made, uint32_t to, seal_key key) {
    uint8_t bytes[FAZGROND_DATAGRAM];
    size_t length = packet_write(made, bytes);
    seal(bytes, length, key);
    world_send(self, LIAR, to, bytes, length, 5);
}

/* In the name of the other honest one, sealed with what the liar knows: with one number for all it would be believed. */
static void as_another(world *self, const datagram *sent) {
    uint32_t to = sent->to, other = 1 - to;
    packet made = { .sender = (uint8_t)other, .kind = BYE };
    if (sent->from == LIAR)
        write_and_seal(self, &made, to, (seal_key){ self->numbers[to][LIAR], self->machine[other].draw, self->machine[to].draw });
}

static void hellos_by_the_hundred(world *self, const datagram *sent) {
    packet made;
    uint8_t bytes[FAZGROND_DATAGRAM];
    if (sent->from != LIAR || sent->to != 0 || time_of(self) % 10 != 0)
        return;
    memset(&made, 0, sizeof made);
    made.sender = LIAR;
    made.draw = 1 + world_draw(self, 1000);
    size_t length = packet_write(&made, bytes);
    seal(bytes, length, (seal_key){ self->numbers[0][LIAR], 0, 0 });
    for (int times = 0; times < 50; times++)
        world_send(self, LIAR, 0, bytes, length, world_draw(self, 20));
}

static void from_nobody(world *self, const datagram *sent) {
    packet made = { .sender = 3, .kind = BYE };
    if (sent->from == LIAR)
        write_and_seal(self, &made, sent->to, (seal_key){ self->numbers[0][LIAR], 0, 0 });
}

/* ---- All lies. What is refused is told once; and as nothing that the liar says is heard then, it is silent, and gone. */

enum { OUT = MAY_REFUSE | MAY_INTERRUPT | MAY_STALL | MAY_LEAVE, UNHEARD = MAY_INTERRUPT | MAY_STALL | MAY_LEAVE };

/* Who says that it has given words, and doesn't send them, isn't told from one whose words are lost, nor always called stalled. */
#define WITHHOLDS(what) \
    { .name = #what, .says = what, .answer = FAZGROND_OK, .told = 0, .maybe = MAY_STALL, .course = STANDS }
/* Who gives none, or takes none, is put out for that, whatever else it says. */
#define PUT_OUT .answer = FAZGROND_OK, .told = MAY_STALL | MAY_LEAVE, .course = GOES_ON, .stalled_after = 2000
#define HOLDS_UP(what) \
    { .name = #what, .says = what, PUT_OUT }
#define SAYS(what, code, kinds, then) \
    { .name = #what, .says = what, .answer = code, .told = kinds, .course = then }
#define OF_TWO_WORDS(what) \
    { .name = #what, .says = what, .answer = FAZGROND_OUTSIDE, .told = OUT, .course = GOES_ON, .words = 2 }
#define SPOILS(what, code, kinds) \
    { .name = #what, .spoils = what, .answer = code, .told = kinds, .course = GOES_ON }
#define SEALS(what) \
    { .name = #what, .seal = what, .answer = FAZGROND_NOT_SEALED, .told = UNHEARD, .course = GOES_ON }
#define SENDS(what, code) \
    { .name = #what, .sends = what, .answer = code, .course = GOES_ON }

static const lie lies[] = {
    SAYS(gone_stranger, FAZGROND_OUTSIDE, OUT, GOES_ON),
    SAYS(counted_stranger, FAZGROND_OUTSIDE, OUT, GOES_ON),
    SAYS(offered_stranger, FAZGROND_OUTSIDE, OUT, GOES_ON),
    { .name = "overstated", .says = overstated, .answer = FAZGROND_OVERSTATED, .told = OUT, .course = GOES_ON },
    SAYS(most_of_its_own, FAZGROND_OK, 0, GOES_ON),
    SAYS(most_of_yours, FAZGROND_OVERSTATED, OUT, GOES_ON),
    SAYS(most_of_others, FAZGROND_OK, 0, GOES_ON),
    SAYS(fewer_of_others, FAZGROND_OK, MAY_STALL, STANDS),
    SAYS(other_words_to_one, FAZGROND_OK, MAY_DESYNC, GOES_ON),
    WITHHOLDS(gap),
    WITHHOLDS(no_words),
    WITHHOLDS(no_words_to_one),
    HOLDS_UP(no_words_at_frame_0),
    HOLDS_UP(no_words_and_most_of_others),
    { .name = "no_words_heard", .hears = no_words_heard, PUT_OUT },
    { .name = "no_words_heard, for ever", .hears = no_words_heard, .answer = FAZGROND_OK, .told = MAY_STALL, .course = STANDS },
    SAYS(words_of_others, FAZGROND_OK, 0, GOES_ON),
    OF_TWO_WORDS(other_count_of_a_word),
    OF_TWO_WORDS(other_frame_of_a_word),
    SAYS(empty_offer, FAZGROND_OK, 0, GOES_ON),
    SAYS(empty_offer_of_nothing, FAZGROND_NO_DATAGRAM, OUT, GOES_ON),
    SAYS(too_many_words, FAZGROND_NO_DATAGRAM, OUT, GOES_ON),
    SAYS(words_past_all_frames, FAZGROND_NO_DATAGRAM, OUT, GOES_ON),
    SAYS(marks, FAZGROND_NO_DATAGRAM, OUT, GOES_ON),
    SAYS(other_kinds, FAZGROND_NO_DATAGRAM, OUT, GOES_ON),
    SAYS(kind_255, FAZGROND_NO_DATAGRAM, OUT, GOES_ON),
    SAYS(hellos, FAZGROND_OK, 0, GOES_ON),
    SAYS(more_machines, FAZGROND_OK, MAY_MISMATCH, GOES_ON),
    SAYS(other_owners, FAZGROND_OK, MAY_MISMATCH, GOES_ON),
    SAYS(other_digest, FAZGROND_OK, MAY_MISMATCH, GOES_ON),
    SAYS(other_opening, FAZGROND_OK, MAY_MISMATCH, GOES_ON),
    SAYS(lasts, FAZGROND_OK, MAY_MISMATCH, GOES_ON),
    SAYS(other_fields_in_turn, FAZGROND_OK, MAY_MISMATCH, GOES_ON),
    SAYS(other_fields_unechoed, FAZGROND_OK, 0, GOES_ON),
    SAYS(restarted, FAZGROND_OK, MAY_RESTART, GOES_ON),
    SAYS(restarted_again_and_again, FAZGROND_OK, MAY_RESTART, GOES_ON),
    SAYS(restarted_in_turn, FAZGROND_OK, MAY_RESTART, GOES_ON),
    SAYS(other_draws_unechoed, FAZGROND_OK, 0, GOES_ON),
    SAYS(draw_of_0, FAZGROND_OK, 0, GOES_ON),
    SAYS(other_patience, FAZGROND_OK, 0, GOES_ON),
    SAYS(abilities, FAZGROND_OK, 0, GOES_ON),
    SAYS(no_clocks, FAZGROND_OK, MAY_LEAVE, GOES_ON),
    SAYS(clocks_of_the_future, FAZGROND_OK, MAY_LEAVE, GOES_ON),
    SAYS(clocks_that_stand, FAZGROND_OK, MAY_LEAVE, GOES_ON),
    SAYS(no_clocks_heard, FAZGROND_OK, MAY_LEAVE, GOES_ON),
    /* nobody hears its later clocks then: so it regards the others as silent, and says so, which all believe */
    { .name = "last_number", .says = last_number, .told = MAY_LEAVE, .maybe = MAY_INTERRUPT | MAY_STALL | MAY_DROP, .course = ENDS },
    SAYS(held_for_ever, FAZGROND_OK, 0, GOES_ON),
    SAYS(far_ahead, FAZGROND_OK, 0, GOES_ON),
    SAYS(far_behind, FAZGROND_OK, 0, GOES_ON),
    SAYS(other_state, FAZGROND_OK, MAY_DESYNC, GOES_ON),
    SAYS(state_of_the_future, FAZGROND_OK, 0, GOES_ON),
    { .name = "another_is_gone",
      .says = another_is_gone,
      .maybe = MAY_LEAVE | MAY_INTERRUPT | MAY_STALL | MAY_DESYNC | MAY_DROP | MAY_BE_CUT_OFF,
      .first = MAY_LEAVE,
      .course = ENDS },
    SAYS(itself_is_gone, FAZGROND_OK, MAY_LEAVE, GOES_ON),
    SAYS(you_are_gone, FAZGROND_OK, MAY_DROP, GOES_ON),
    SAYS(bye_to_one, FAZGROND_OK, MAY_LEAVE, GOES_ON),
    { .name = "byes, with a byte more", .says = byes, .spoils = byte_more, .answer = FAZGROND_NO_DATAGRAM, .told = OUT, .course = GOES_ON },
    SPOILS(byte_more, FAZGROND_NO_DATAGRAM, OUT),
    SPOILS(byte_less, FAZGROND_NO_DATAGRAM, OUT),
    SPOILS(other_flag, FAZGROND_NO_DATAGRAM, OUT),
    SPOILS(other_version, FAZGROND_NO_DATAGRAM, OUT),
    SPOILS(zeros, FAZGROND_NO_DATAGRAM, OUT),
    SPOILS(thirteen, FAZGROND_NOT_SEALED, UNHEARD),
    SPOILS(too_long, FAZGROND_NOT_SEALED, UNHEARD),
    SEALS(ANOTHER_BIT),
    SEALS(HALF_A_TAG),
    SEALS(DRAWS_SWAPPED),
    SEALS(AS_A_HELLO),
    SEALS(ANOTHER_NUMBER),
    SEALS(FOR_ANOTHER),
    SEALS(NOT_AT_ALL),
    SENDS(junk, FAZGROND_NOT_SEALED),
    SENDS(reflections, FAZGROND_OWN_MACHINE),
    SENDS(replays, FAZGROND_OK),
    SENDS(hellos_by_the_hundred, FAZGROND_OK),
    SENDS(from_nobody, FAZGROND_INVALID_MACHINE),
    SENDS(as_another, FAZGROND_NOT_SEALED),
};

/* ---- A match with a liar. */

static void seal_as(const world *self, datagram *sent, sealing how) {
    uint8_t *bytes = sent->bytes;
    uint64_t own = self->machine[LIAR].draw, other = self->machine[sent->to].draw;
    seal_key key = { self->numbers[LIAR][sent->to], own, other };
    if (how == DRAWS_SWAPPED)
        key = (seal_key){ key.number, other, own };
    if (how == AS_A_HELLO || bytes[PACKET_KIND] == HELLO)
        key.from = key.to = 0;
    if (how == ANOTHER_NUMBER)
        key.number++;
    if (how == FOR_ANOTHER)
        key.to = self->machine[1 - sent->to].draw;
    if (how == NOT_AT_ALL)
        seal_put(bytes + PACKET_TAG, key.number);
    else if (sent->length >= PACKET_SENDER)
        seal(bytes, sent->length, key);
    if (how == ANOTHER_BIT)
        bytes[PACKET_TAG + world_millis(self) % 8] ^= (uint8_t)(1 << world_millis(self) / 8 % 8);
    if (how == HALF_A_TAG)
        memset(bytes + PACKET_TAG + 4, 0, 4);
}

static bool lies_now(world *self, datagram *sent) {
    const lie *one = self->watchers;
    packet made;
    if (one->sends != NULL)
        one->sends(self, sent);
    if (one->hears != NULL && sent->to == LIAR && packet_read(sent->bytes, sent->length, &made) && made.kind == PLAY) {
        one->hears(&made);
        sent->length = packet_write(&made, sent->bytes);
        seal(sent->bytes, sent->length,
             (seal_key){ self->numbers[LIAR][sent->from], self->machine[sent->from].draw, self->machine[LIAR].draw });
    }
    if (sent->from != LIAR || !packet_read(sent->bytes, sent->length, &made) || made.kind != PLAY)
        return true;
    if (one->says != NULL)
        one->says(self, &made, sent->to);
    sent->length = packet_write(&made, sent->bytes);
    if (one->spoils != NULL)
        sent->length = one->spoils(self, sent->bytes, sent->length);
    seal_as(self, sent, one->seal);
    return true;
}

static void kinds_as_text(unsigned kinds, char *out, size_t room) {
    static const char *const names[] = { "INTERRUPTED", "LEFT",   "STALLED",  "MISSING", "RESTARTED",
                                         "REFUSED",     "DESYNC", "MISMATCH", "DROPPED", "CUT_OFF" };
    size_t length = 0;
    out[0] = 0;
    for (int bit = 0; bit < 10; bit++)
        if (kinds >> bit & 1 && length < room)
            length += (size_t)snprintf(out + length, room - length, " %s", names[bit]);
}

/* What the honest machines' library answered, and what they were told. */
static void must_be_answered(world *self, const lie *one, uint32_t who, const uint32_t *before, uint32_t since) {
    machine *at = &self->machine[who];
    char text[160], kinds[100];
    for (int32_t code = FAZGROND_NOT_SEALED; code <= FAZGROND_OTHER_SESSION; code++) {
        bool is_answered = at->answers[code] > before[code];
        if (code == one->answer && !is_answered)
            trial_must_of(false, who, "the lie isn't answered as it should be");
        snprintf(text, sizeof text, "the lie is answered by %d", (int)code);
        /* what else is no other answer: after a liar is gone, and what others send in between */
        trial_must_of(code == one->answer || !is_answered || code == FAZGROND_MACHINE_GONE || one->sends != NULL, who, text);
    }
    fazgrond_stats stats = { 0 };
    uint32_t refused = at->answers[FAZGROND_NO_DATAGRAM] + at->answers[FAZGROND_OVERSTATED] + at->answers[FAZGROND_OUTSIDE];
    fazgrond_peer_stats(&at->peer, LIAR, &stats);
    trial_must_of(stats.refused == refused, who, "what is refused is counted");
    unsigned told = trial_kinds(self, who, since);
    kinds_as_text(told, kinds, sizeof kinds);
    snprintf(text, sizeof text, "it was told%s", kinds);
    trial_must_of((told & ~one->maybe) == (one->told & ~one->maybe), who, text);
    trial_must_of(who != 0 || (told & one->first) == one->first, who, text);
    trial_must_of(world_told(self, who, FAZGROND_REFUSED, LIAR) == (one->told & MAY_REFUSE ? 1 : 0), who, "REFUSED is told once");
    trial_must_of(world_told(self, who, FAZGROND_RESTARTED, LIAR) <= 1, who, "RESTARTED is told once");
}

static void lie_to_them(const lie *one, uint32_t seed) {
    setup with = plain;
    uint32_t before[HONEST][CODES];
    with.machines = 3;
    with.silent_after = SILENT_AFTER;
    with.words = one->words;
    with.stalled_after = one->stalled_after;
    with.waits = with.machines;
    with.has_pair_numbers = one->sends == as_another;
    with.input_delay = seed % 3;
    with.seed = seed;
    trial_case("a lie: %s, seed %u", one->name, (unsigned)seed);
    world *self = world_begin(&with);
    world_open_all(self);
    trial_must(world_play(self, 60, 5000), "the match begins");
    world_run(self, 500);
    uint32_t since = world_millis(self), frames = self->machine[0].settled;
    for (uint32_t who = 0; who < HONEST; who++)
        memcpy(before[who], self->machine[who].answers, sizeof before[who]);
    self->watcher = lies_now;
    self->watchers = (void *)(uintptr_t)one;
    world_run(self, LIES_FOR - 3000);
    uint32_t later = self->machine[0].settled;
    world_run(self, 3000);
    for (uint32_t who = 0; who < HONEST; who++)
        must_be_answered(self, one, who, before[who], since);
    trial_must(self->wrong == NULL, "the games are right");
    if (one->course == GOES_ON)
        trial_must(self->machine[0].settled > frames + 120 && self->machine[0].settled > later + 60, "the match goes on");
    if (one->course == STANDS)
        trial_must(self->machine[0].settled == later, "the match stands");
    trial_must(one->course == ENDS || (one->told & MAY_DESYNC) != 0 || world_agree(self, 0, 1, frames), "the honest ones agree");
    world_end(self);
}

/* ---- A liar that never was past frame 0, as it says. */

static void gives_no_more(machine *self) {
    const lie *one = self->world->watchers;
    self->is_stalled |= self->me == LIAR && self->frame + self->world->setup.input_delay >= one->gives;
}

static const program giving = { .word = world_drawn_word, .has_played = gives_no_more };

static void must_be_out(world *self, uint32_t who, bool is_out) {
    trial_must_of(world_told(self, who, FAZGROND_STALLED, LIAR) == 1, who, "STALLED is told once");
    trial_must_of((world_gone_in(self, who, FAZGROND_STALLED, LIAR) > 0) == is_out, who, "it is told whether it will be gone");
    trial_must_of(world_told(self, who, FAZGROND_LEFT, LIAR) == is_out, who, is_out ? "it is put out" : "it is waited for");
}

/* With a delay of 8 a machine gives 9 words at frame 0. If it gives no more, others may keep it from going on; else nobody does. */
static void lie_at_frame_0(uint32_t gives, uint32_t input_delay, uint32_t seed) {
    lie one = { .says = frame_0, .gives = gives };
    setup with = plain;
    bool is_out = gives > 9;
    with.machines = 3;
    with.silent_after = SILENT_AFTER;
    with.stalled_after = 2000;
    with.waits = LIAR + 1;
    with.input_delay = input_delay;
    with.program = &giving;
    with.seed = seed;
    trial_case("a lie: frame 0 after %u words, delay %u, seed %u", (unsigned)gives, (unsigned)input_delay, (unsigned)seed);
    world *self = world_begin(&with);
    self->watcher = lies_now;
    self->watchers = &one;
    world_open_all(self);
    world_run(self, LIES_FOR);
    self->machine[LIAR].is_dead = true; /* it is told that the others regard it as gone */
    for (uint32_t who = 0; who < HONEST; who++)
        must_be_out(self, who, is_out);
    trial_must(!is_out || world_agree(self, 0, 1, gives + 200), "the match goes on");
    trial_only_of(self, LIAR, MAY_STALL | MAY_LEAVE);
    world_end(self);
}

void trial_lies(uint32_t count, uint32_t seed) {
    for (uint32_t time = 0; time < count; time++) {
        for (size_t at = 0; at < sizeof lies / sizeof *lies; at++)
            lie_to_them(&lies[at], seed + time);
        for (uint32_t gives = 9; gives <= 30; gives += gives < 12 ? 1 : 18)
            for (uint32_t input_delay = 0; input_delay <= 8; input_delay += 4)
                lie_at_frame_0(gives, input_delay, seed + time);
    }
}
