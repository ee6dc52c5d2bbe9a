/* States in pieces: what both ends answer, the examples of docs/WIRE.md, and whole transfers over a line that loses, delays, doubles
 * and garbles datagrams, of two machines of which one may give wrong bytes. Says nothing if all is as it has to be. */
#include "../../lib/sha256.h"
#include "../check.h"

#include <fazgrond.h>
#include <stdio.h>
#include <stdlib.h>

/* Where things stand in a datagram, and how many bytes a piece has beside its own (docs/WIRE.md). */
enum { SENDER = 12, KIND = 13, LENGTH = 26, PLACE = 62, HEAD = 66 };
/* Two give and one takes. What is given is the third state of the program's. */
enum { HONEST = 0, HOSTILE = 1, TAKER = 2, WHICH = 3, BIG = 530000 };

static uint8_t state[BIG], taken[BIG];
static uint64_t random_bits = 1;

static uint32_t drawn(uint32_t below) {
    random_bits = random_bits * 6364136223846793005u + 1442695040888963407u;
    return (uint32_t)(random_bits >> 33) % below;
}

/* The number of the taker and a giver. */
static uint64_t number_of(uint8_t giver) { return 0x1122334455667788 + giver; }

static fazgrond_state_name name_of(size_t length) {
    fazgrond_state_name name = { .which = WHICH, .length = (uint32_t)length };
    sha256 made = sha256_begin();
    sha256_add(&made, state, length);
    sha256_pad(&made);
    for (int at = 0; at < 32; at++)
        name.digest[at] = (uint8_t)(made.state[at / 4] >> (24 - 8 * (at % 4)));
    return name;
}

static void is_name(const fazgrond_state_name *got, const fazgrond_state_name *wanted) {
    IS(got->which, wanted->which);
    IS(got->frame, wanted->frame);
    IS(got->length, wanted->length);
    IS(memcmp(got->digest, wanted->digest, 32), 0);
}

/* Nothing is written by a refused call. */
static uint8_t bytes[FAZGROND_DATAGRAM], more[FAZGROND_DATAGRAM];
static size_t length, size = 77;
static uint32_t flag = 5;
static fazgrond_heard heard = { 6, 7 };
static fazgrond_taker_state about = { 8, 9 };
static fazgrond_state_name said = { .which = 10 };

static void all_closed(fazgrond_giver *giver, fazgrond_taker *taker) {
    memset(bytes, 3, sizeof bytes);
    IS(fazgrond_giver_name(giver, &said), FAZGROND_IS_CLOSED);
    IS(fazgrond_giver_bytes(giver, bytes, 9), FAZGROND_IS_CLOSED);
    IS(fazgrond_giver_reply(giver, 1, 0, more, 66, 0, bytes, sizeof bytes, &size), FAZGROND_IS_CLOSED);
    IS(fazgrond_taker_name(taker, &said), FAZGROND_IS_CLOSED);
    IS(fazgrond_taker_look(taker, &about), FAZGROND_IS_CLOSED);
    IS(fazgrond_taker_send(taker, 1, 0, 16, bytes, sizeof bytes, &size), FAZGROND_IS_CLOSED);
    IS(fazgrond_taker_receive(taker, 1, more, 66, &heard), FAZGROND_IS_CLOSED);
    IS(fazgrond_taker_takes_of(taker, 0, &flag), FAZGROND_IS_CLOSED);
    IS(fazgrond_taker_take_of(taker, 0), FAZGROND_IS_CLOSED);
    IS(fazgrond_taker_bytes(taker, bytes, sizeof bytes), FAZGROND_IS_CLOSED);
    IS(size, 77);
    IS(flag + heard.what + heard.machine + about.pieces + about.left + said.which, 45);
    for (size_t at = 0; at < sizeof bytes; at++)
        IS(bytes[at], 3);
}

static void open_giver(fazgrond_giver *giver, size_t count) { IS(fazgrond_giver_open(giver, WHICH, 0, state, count), FAZGROND_OK); }

/* Closed handles, and those of another kind. */
static void are_closed(void) {
    fazgrond_giver giver = FAZGROND_CLOSED;
    fazgrond_taker taker = FAZGROND_CLOSED;
    fazgrond_state_name name = name_of(5);
    all_closed(&giver, &taker);
    open_giver(&giver, 5);
    IS(fazgrond_taker_open(&taker, &name, 5), FAZGROND_OK);
    all_closed((fazgrond_giver *)(void *)&taker, (fazgrond_taker *)(void *)&giver);
    IS(fazgrond_frame((fazgrond_session *)(void *)&giver, &flag), FAZGROND_IS_CLOSED);
    fazgrond_giver_close(&giver);
    fazgrond_taker_close(&taker);
    all_closed(&giver, &taker);
}

/* Which states nobody gives or takes. What is open stays so. */
static void are_refused(void) {
    fazgrond_giver giver = FAZGROND_CLOSED;
    fazgrond_taker taker = FAZGROND_CLOSED;
    fazgrond_state_name name = name_of(1500), none = name_of(0), most = { .length = 0xffffffff };
    open_giver(&giver, 1500);
    IS(fazgrond_giver_open(&giver, 1, 0, state, 0), FAZGROND_INVALID_REQUEST);
    IS(fazgrond_giver_name(&giver, &said), FAZGROND_OK);
    is_name(&said, &name);
    IS(fazgrond_giver_bytes(&giver, taken, 1499), FAZGROND_TOO_SHORT);
    IS(fazgrond_giver_bytes(&giver, taken, 1501), FAZGROND_OK);
    IS(memcmp(taken, state, 1500), 0);
    IS(fazgrond_taker_open(&taker, &name, 1500), FAZGROND_OK);
    IS(fazgrond_taker_open(&taker, &none, 1500), FAZGROND_INVALID_REQUEST);
    IS(fazgrond_taker_open(&taker, &name, 1499), FAZGROND_TOO_LONG);
    IS(fazgrond_taker_open(&taker, &most, 0xfffffffe), FAZGROND_TOO_LONG);
    IS(fazgrond_taker_name(&taker, &said), FAZGROND_OK);
    is_name(&said, &name);
    IS(fazgrond_taker_look(&taker, &about), FAZGROND_OK);
    IS(about.pieces, 2);
    IS(about.left, 2);
    IS(fazgrond_taker_bytes(&taker, taken, sizeof taken), FAZGROND_NOTHING);
    fazgrond_giver_close(&giver);
    fazgrond_taker_close(&taker);
}

static void ask_of(fazgrond_taker *taker, uint8_t giver, size_t most) {
    IS(fazgrond_taker_send(taker, number_of(giver), TAKER, most, bytes, sizeof bytes, &length), FAZGROND_OK);
}

/* A piece of an open giver, in the name of a machine. */
static void piece_of(fazgrond_giver *giver, uint8_t by, uint8_t place) {
    fazgrond_state_name name;
    IS(fazgrond_giver_name(giver, &name), FAZGROND_OK);
    IS(fazgrond_state_ask(number_of(by), TAKER, name.which, name.frame, more, sizeof more, &length), FAZGROND_OK);
    more[length - 1] = place;
    seal(more, length, (seal_key){ .number = number_of(by) });
    IS(fazgrond_giver_reply(giver, number_of(by), by, more, length, 0, bytes, sizeof bytes, &length), FAZGROND_OK);
}

static void refuses(fazgrond_taker *taker, uint8_t by, int32_t code) {
    heard = (fazgrond_heard){ 6, 7 };
    IS(fazgrond_taker_receive(taker, number_of(by), bytes, length, &heard), code);
    IS(heard.what + heard.machine, 13);
}

static void hears(fazgrond_taker *taker, uint8_t by, uint32_t what, uint32_t machine) {
    IS(fazgrond_taker_receive(taker, number_of(by), bytes, length, &heard), FAZGROND_OK);
    IS(heard.what, what);
    IS(heard.machine, machine);
}

static void change(uint8_t by, size_t place, uint8_t to) {
    bytes[place] = to;
    seal(bytes, length, (seal_key){ .number = number_of(by) });
}

/* Why a giver doesn't answer. */
static void are_not_answered(fazgrond_giver *giver, fazgrond_taker *taker) {
    uint8_t machine = 9;
    ask_of(taker, HONEST, 16);
    IS(length, PLACE + 4 * 2); /* both pieces are missing */
    IS(fazgrond_state_sender(bytes, length, &machine), FAZGROND_OK);
    IS(machine, TAKER);
    IS(fazgrond_giver_reply(giver, number_of(HONEST), 0, bytes, length, 0, more, sizeof more - 1, &size), FAZGROND_TOO_SHORT);
    IS(fazgrond_giver_reply(giver, number_of(HONEST), 0, bytes, length, 2, more, sizeof more, &size), FAZGROND_NOTHING);
    IS(fazgrond_giver_reply(giver, number_of(HOSTILE), 0, bytes, length, 0, more, sizeof more, &size), FAZGROND_NOT_SEALED);
    refuses(taker, HONEST, FAZGROND_OTHER_KIND);
    change(HONEST, PLACE + 3, 2); /* the state has two */
    IS(fazgrond_giver_reply(giver, number_of(HONEST), 0, bytes, length, 0, more, sizeof more, &size), FAZGROND_NOTHING);
    change(HONEST, PLACE - 1, (uint8_t)(bytes[PLACE - 1] + 1)); /* the last byte of the digest */
    IS(fazgrond_giver_reply(giver, number_of(HONEST), 0, bytes, length, 0, more, sizeof more, &size), FAZGROND_OTHER_STATE);
    change(HONEST, KIND, 7);
    IS(fazgrond_giver_reply(giver, number_of(HONEST), 0, bytes, length, 0, more, sizeof more, &size), FAZGROND_NO_DATAGRAM);
    IS(fazgrond_state_sender(bytes, length, &machine), FAZGROND_NOTHING);
    IS(fazgrond_state_sender(bytes, 13, &machine), FAZGROND_NOTHING);
    IS(machine, TAKER);
    piece_of(giver, HONEST, 1);
    IS(fazgrond_giver_reply(giver, number_of(HONEST), 0, bytes, length, 0, more, sizeof more, &size), FAZGROND_OTHER_KIND);
    IS(size, 77);
}

/* Why a taker takes no piece: of another state, of who is no machine, past the end, cut short. Nothing comes of it. */
static void are_not_taken(fazgrond_giver *giver, fazgrond_taker *taker) {
    piece_of(giver, HONEST, 0);
    IS(length, HEAD + FAZGROND_PIECE);
    bytes[700] ^= 1;
    refuses(taker, HONEST, FAZGROND_NOT_SEALED);
    change(HONEST, SENDER, FAZGROND_MACHINES);
    refuses(taker, HONEST, FAZGROND_INVALID_MACHINE);
    change(HONEST, SENDER, HONEST);
    change(HONEST, KIND, 0);
    refuses(taker, HONEST, FAZGROND_NO_DATAGRAM);
    change(HONEST, KIND, 5);
    change(HONEST, PLACE - 1, (uint8_t)(bytes[PLACE - 1] + 1));
    refuses(taker, HONEST, FAZGROND_OTHER_STATE);
    piece_of(giver, HONEST, 0);
    change(HONEST, PLACE + 3, 2);
    refuses(taker, HONEST, FAZGROND_PAST_THE_END);
    piece_of(giver, HONEST, 1);
    IS(length, HEAD + 1500 - FAZGROND_PIECE);
    length--; /* a state that is cut short */
    change(HONEST, PLACE + 3, 1);
    refuses(taker, HONEST, FAZGROND_WRONG_LENGTH);
    IS(fazgrond_taker_takes_of(taker, FAZGROND_MACHINES, &flag), FAZGROND_INVALID_MACHINE);
    IS(flag, 5);
    IS(fazgrond_taker_take_of(taker, FAZGROND_MACHINES), FAZGROND_INVALID_MACHINE);
    IS(fazgrond_taker_take_of(taker, HOSTILE), FAZGROND_OK);
    piece_of(giver, HONEST, 0);
    refuses(taker, HONEST, FAZGROND_NOT_NOW);
    IS(fazgrond_taker_takes_of(taker, HOSTILE, &flag), FAZGROND_OK);
    IS(flag, 1);
    IS(fazgrond_taker_takes_of(taker, HONEST, &flag), FAZGROND_OK);
    IS(flag, 0);
    IS(fazgrond_taker_take_of(taker, FAZGROND_NO_MACHINE), FAZGROND_OK);
    IS(fazgrond_taker_look(taker, &about), FAZGROND_OK);
    IS(about.left, 2);
}

/* Who gives a wrong state is named, alone or not; and in the end it is whole. */
static void is_blamed(fazgrond_giver *giver, fazgrond_taker *taker) {
    piece_of(giver, HONEST, 0);
    hears(taker, HONEST, FAZGROND_PIECE_TAKEN, FAZGROND_NO_MACHINE);
    hears(taker, HONEST, FAZGROND_PIECE_AGAIN, FAZGROND_NO_MACHINE);
    ask_of(taker, HONEST, 16);
    IS(length, PLACE + 4);
    IS(bytes[PLACE + 3], 1); /* the other one alone */
    piece_of(giver, HOSTILE, 1);
    change(HOSTILE, HEAD, (uint8_t)~bytes[HEAD]);
    hears(taker, HOSTILE, FAZGROND_STATE_WRONG, FAZGROND_NO_MACHINE);
    piece_of(giver, HONEST, 0);
    refuses(taker, HONEST, FAZGROND_NOT_NOW);
    piece_of(giver, HOSTILE, 0);
    hears(taker, HOSTILE, FAZGROND_PIECE_TAKEN, FAZGROND_NO_MACHINE);
    piece_of(giver, HOSTILE, 1);
    change(HOSTILE, HEAD, (uint8_t)~bytes[HEAD]);
    hears(taker, HOSTILE, FAZGROND_STATE_WRONG, HOSTILE);
    piece_of(giver, HOSTILE, 0);
    refuses(taker, HOSTILE, FAZGROND_BARRED);
    IS(fazgrond_taker_bytes(taker, taken, sizeof taken), FAZGROND_NOTHING);
    piece_of(giver, HONEST, 0);
    hears(taker, HONEST, FAZGROND_PIECE_TAKEN, FAZGROND_NO_MACHINE);
    piece_of(giver, HONEST, 1);
    hears(taker, HONEST, FAZGROND_STATE_WHOLE, FAZGROND_NO_MACHINE);
    IS(fazgrond_taker_send(taker, 1, TAKER, 16, bytes, sizeof bytes, &size), FAZGROND_NOTHING);
    IS(fazgrond_taker_bytes(taker, taken, 1499), FAZGROND_TOO_SHORT);
    IS(fazgrond_taker_bytes(taker, taken, 1500), FAZGROND_OK);
    IS(memcmp(taken, state, 1500), 0);
}

static void one_by_one(void) {
    fazgrond_giver giver = FAZGROND_CLOSED;
    fazgrond_taker taker = FAZGROND_CLOSED;
    fazgrond_state_name name = name_of(1500);
    open_giver(&giver, 1500);
    IS(fazgrond_taker_open(&taker, &name, 1500), FAZGROND_OK);
    IS(fazgrond_taker_send(&taker, 1, TAKER, 16, bytes, sizeof bytes - 1, &size), FAZGROND_TOO_SHORT);
    IS(fazgrond_taker_send(&taker, 1, TAKER, 0, bytes, sizeof bytes, &size), FAZGROND_NOTHING);
    are_not_answered(&giver, &taker);
    are_not_taken(&giver, &taker);
    is_blamed(&giver, &taker);
    fazgrond_giver_close(&giver);
    fazgrond_taker_close(&taker);
}

/* The examples of docs/WIRE.md: another program made their tags. */
static void are_as_on_the_page(void) {
    static const uint8_t ask[66] = {
        0x46, 0x5a, 0x47, 0x34, 0x90, 0x17, 0x08, 0x97, 0xad, 0xd6, 0x03, 0x54, 0x01, 0x06, 0x00, 0x00, 0x00, 0x00, 0x00, 0x00, 0x00, 0x02,
    };
    static const uint8_t piece[73] = {
        0x46, 0x5a, 0x47, 0x34, 0x2d, 0xe0, 0x6a, 0x13, 0xee, 0xb7, 0xe1, 0xb2, 0x00, 0x05, 0x00, 0x00, 0x00, 0x00, 0x00,
        0x00, 0x00, 0x02, 0x00, 0x00, 0x00, 0x00, 0x00, 0x00, 0x00, 0x07, 0xc4, 0xda, 0xe7, 0xf7, 0x82, 0x0b, 0x14, 0xaf,
        0xf1, 0x8e, 0x3d, 0x4e, 0xe2, 0x00, 0x47, 0x05, 0xf7, 0xd5, 0xe9, 0x9e, 0x21, 0xa6, 0xfd, 0x67, 0x5e, 0xd8, 0x80,
        0xbd, 0xbc, 0xa5, 0x06, 0xbd, 0x00, 0x00, 0x00, 0x00, 0x73, 0x70, 0x65, 0x65, 0x64, 0x3d, 0x32,
    };
    fazgrond_giver giver = FAZGROND_CLOSED;
    fazgrond_state_name name;
    IS(fazgrond_giver_open(&giver, 2, 0, (const uint8_t *)"speed=2", 7), FAZGROND_OK);
    IS(fazgrond_state_ask(0x1122334455667788, 1, 2, 0, bytes, sizeof bytes - 1, &size), FAZGROND_TOO_SHORT);
    IS(fazgrond_state_ask(0x1122334455667788, 1, 2, 0, bytes, sizeof bytes, &length), FAZGROND_OK);
    IS(length, sizeof ask);
    IS(memcmp(bytes, ask, sizeof ask), 0);
    IS(fazgrond_state_told(0x1122334455667788, ask, sizeof ask, &said), FAZGROND_OTHER_KIND);
    IS(fazgrond_giver_reply(&giver, 0x1122334455667788, 0, ask, sizeof ask, 0, bytes, sizeof bytes, &length), FAZGROND_OK);
    IS(length, sizeof piece);
    IS(memcmp(bytes, piece, sizeof piece), 0);
    IS(fazgrond_giver_name(&giver, &name), FAZGROND_OK);
    IS(fazgrond_state_told(0x1122334455667788, piece, sizeof piece, &said), FAZGROND_OK);
    is_name(&said, &name);
    IS(fazgrond_state_told(0x1122334455667789, piece, sizeof piece, &said), FAZGROND_NOT_SEALED);
    fazgrond_giver_close(&giver);
}

/* The digest of a match with a state in it is the first 8 bytes of SHA-256 over the other digest and the state's name. */
static void is_digested(void) {
    fazgrond_state_name name = name_of(3072);
    uint8_t text[56];
    sha256 made = sha256_begin();
    seal_put(text, 0x0123456789abcdef);
    seal_put(text + 8, name.which);
    seal_put(text + 16, (uint64_t)name.frame << 32 | name.length);
    memcpy(text + 24, name.digest, 32);
    sha256_add(&made, text, sizeof text);
    IS(fazgrond_state_digest(&name, 0x0123456789abcdef), sha256_end(&made));
}

/* ---- a line */

enum { ON_THE_WAY = 256 };

typedef struct late {
    uint32_t due, length;
    uint8_t to, bytes[FAZGROND_DATAGRAM];
} late;

static late line[ON_THE_WAY];
static uint32_t now, on_the_way, loss;

static void put_on(uint8_t to) {
    late *it = &line[on_the_way];
    if (on_the_way == ON_THE_WAY)
        return; /* full: it is lost */
    *it = (late){ .due = now + 1 + drawn(20), .length = (uint32_t)length, .to = to };
    memcpy(it->bytes, bytes, length);
    if (drawn(100) < 3)
        it->bytes[drawn(it->length)] ^= (uint8_t)(1 << drawn(8));
    on_the_way++;
}

/* What stands in `bytes` is lost, or comes late, and some of it twice. */
static void send_to(uint8_t to) {
    if (drawn(100) >= loss)
        put_on(to);
    if (drawn(100) < 5)
        put_on(to);
}

typedef struct world {
    fazgrond_giver givers[2];
    fazgrond_taker taker;
    uint8_t last;   /* whom the taker asked last */
    bool is_barred; /* the hostile one has been found out */
    uint32_t silence, refused;
} world;

/* The hostile one gives each piece with a wrong byte. */
static void answer(world *self, uint8_t by, const late *came) {
    for (size_t place = 0; place < FAZGROND_ASKED; place++) {
        uint8_t sender;
        if (fazgrond_state_sender(came->bytes, came->length, &sender) != FAZGROND_OK || sender != TAKER
            || fazgrond_giver_reply(&self->givers[by], number_of(by), by, came->bytes, came->length, place, bytes, sizeof bytes, &length)
                != FAZGROND_OK)
            return;
        if (by == HOSTILE)
            change(HOSTILE, HEAD + drawn((uint32_t)length - HEAD), (uint8_t)drawn(256));
        send_to(TAKER);
    }
}

static void take(world *self, const late *came) {
    uint8_t sender;
    if (fazgrond_state_sender(came->bytes, came->length, &sender) != FAZGROND_OK || sender > HOSTILE)
        return;
    int32_t code = fazgrond_taker_receive(&self->taker, number_of(sender), came->bytes, came->length, &heard);
    self->refused += code != FAZGROND_OK;
    self->silence = code == FAZGROND_OK && heard.what == FAZGROND_PIECE_TAKEN ? 0 : self->silence;
    if (code == FAZGROND_OK && heard.what == FAZGROND_STATE_WRONG && heard.machine != FAZGROND_NO_MACHINE) {
        IS(heard.machine, HOSTILE); /* no honest one is blamed */
        self->is_barred = true;
    }
}

static void ask(world *self) {
    for (uint8_t more_of = 0; more_of < 2; more_of++) {
        self->last = !self->last;
        IS(fazgrond_taker_takes_of(&self->taker, self->last, &flag), FAZGROND_OK);
        if (flag == 1 && fazgrond_taker_send(&self->taker, number_of(self->last), TAKER, 8, bytes, sizeof bytes, &length) == FAZGROND_OK)
            send_to(self->last);
    }
    if (++self->silence == 60) {
        self->silence = 0;
        IS(fazgrond_taker_take_of(&self->taker, HONEST), FAZGROND_OK);
    }
}

static void turn(world *self) {
    uint32_t kept = 0, count = on_the_way;
    for (uint32_t at = 0; at < count; at++) {
        late came = line[at];
        if (came.due > now)
            line[kept++] = came;
        else if (came.to == TAKER)
            take(self, &came);
        else
            answer(self, came.to, &came);
    }
    memmove(line + kept, line + count, (on_the_way - count) * sizeof *line);
    on_the_way -= count - kept;
    ask(self);
    now++;
}

/* Has a state of so many bytes go over, of the honest one alone or of both. */
static void goes_over(size_t count, bool has_hostile, uint32_t lost) {
    world self = { { FAZGROND_CLOSED, FAZGROND_CLOSED }, FAZGROND_CLOSED, 0, false, 0, 0 };
    fazgrond_state_name name = name_of(count);
    on_the_way = now = 0;
    loss = lost;
    memset(taken, 0, sizeof taken);
    open_giver(&self.givers[HONEST], count);
    if (has_hostile)
        open_giver(&self.givers[HOSTILE], count);
    IS(fazgrond_taker_open(&self.taker, &name, (uint32_t)count), FAZGROND_OK);
    do {
        turn(&self);
        IS(fazgrond_taker_look(&self.taker, &about), FAZGROND_OK);
        IS(about.pieces, (count + FAZGROND_PIECE - 1) / FAZGROND_PIECE);
    } while (about.left > 0 && now < 20000);
    IS(about.left, 0);
    IS(fazgrond_taker_bytes(&self.taker, taken, count), FAZGROND_OK);
    IS(memcmp(taken, state, count), 0);
    IS(count < BIG || self.refused > 0, 1);
    fazgrond_giver_close(&self.givers[HONEST]);
    fazgrond_giver_close(&self.givers[HOSTILE]);
    fazgrond_taker_close(&self.taker);
}

int main(void) {
    static const size_t sizes[] = { 1, FAZGROND_PIECE - 1, FAZGROND_PIECE, FAZGROND_PIECE + 1, 5 * FAZGROND_PIECE, BIG };
    for (size_t at = 0; at < BIG; at++)
        state[at] = (uint8_t)drawn(256);
    are_closed();
    are_refused();
    one_by_one();
    are_as_on_the_page();
    is_digested();
    for (size_t at = 0; at < sizeof sizes / sizeof *sizes; at++) {
        goes_over(sizes[at], false, 30);
        goes_over(sizes[at], true, 30);
    }
    goes_over(BIG, true, 0);
    return 0;
}
