/* The examples of docs/WIRE.md as peers send and hear them; another program made their tags. And clocks that begin anew after 2^32.
 * Says nothing if all is as it has to be. */
#include "../check.h"

#include <fazgrond.h>
#include <stdio.h>
#include <stdlib.h>
#include <string.h>

#define MATCH 0x1122334455667788
#define DIGEST 0x0123456789abcdef
#define OPENING 0x5152535455565758
#define LINE 0x99aabbccddeeff00

/* What each of the two machines drew; and the two ends of a line. */
static const uint64_t draws[2] = { 0x0102030405060708, 0x1112131415161718 };
static const uint64_t host_draw = 0xc1c2c3c4c5c6c7c8, viewer_draw = 0xd1d2d3d4d5d6d7d8;

/* clang-format off */
static const uint8_t first_hello[61] = {
    0x46, 0x5a, 0x47, 0x34, 0x39, 0xa6, 0x21, 0x44, 0x2c, 0x65, 0x56, 0xfb, 0x01, 0x00, 0x02, 0x01,
    0x00, 0x01, 0xff, 0xff, 0xff, 0xff, 0xff, 0xff, 0x01, 0x23, 0x45, 0x67, 0x89, 0xab, 0xcd, 0xef,
    0x51, 0x52, 0x53, 0x54, 0x55, 0x56, 0x57, 0x58, 0x11, 0x12, 0x13, 0x14, 0x15, 0x16, 0x17, 0x18,
    0x00, 0x00, 0x00, 0x00, 0x00, 0x00, 0x00, 0x00, 0x00, 0x00, 0x13, 0x88, 0x00,
};
static const uint8_t hello[61] = {
    0x46, 0x5a, 0x47, 0x34, 0xbe, 0xe0, 0x6b, 0x02, 0x85, 0x69, 0x6b, 0x4d, 0x01, 0x00, 0x02, 0x01,
    0x00, 0x01, 0xff, 0xff, 0xff, 0xff, 0xff, 0xff, 0x01, 0x23, 0x45, 0x67, 0x89, 0xab, 0xcd, 0xef,
    0x51, 0x52, 0x53, 0x54, 0x55, 0x56, 0x57, 0x58, 0x11, 0x12, 0x13, 0x14, 0x15, 0x16, 0x17, 0x18,
    0x01, 0x02, 0x03, 0x04, 0x05, 0x06, 0x07, 0x08, 0x00, 0x00, 0x13, 0x88, 0x00,
};
static const uint8_t turn[51] = {
    0x46, 0x5a, 0x47, 0x34, 0xfc, 0x28, 0x2e, 0x14, 0x5c, 0xcc, 0xb3, 0xc6, 0x01, 0x01, 0x82, 0x01,
    0x01, 0x78, 0x76, 0xf8, 0xbd, 0xd8, 0xa8, 0x01, 0xc8, 0x9d, 0x98, 0x28, 0x10, 0x00, 0x03, 0x77,
    0x7b, 0x01, 0x6e, 0xfe, 0xdc, 0xba, 0x98, 0x76, 0x54, 0x32, 0x10, 0x02, 0x75, 0x06, 0x00, 0x02,
    0x05, 0x02, 0x07,
};
static const uint8_t held[36] = {
    0x46, 0x5a, 0x47, 0x34, 0x12, 0x2f, 0x7a, 0xd4, 0x3e, 0xad, 0xc0, 0x1d, 0x01, 0x01, 0xaa, 0x9c,
    0x01, 0x00, 0x00, 0x03, 0x9f, 0x9c, 0x01, 0xa3, 0x9c, 0x01, 0x00, 0x02, 0x9d, 0x9c, 0x01, 0x06,
    0x00, 0x00, 0x05, 0x05,
};
static const uint8_t marked[43] = {
    0x46, 0x5a, 0x47, 0x34, 0x7b, 0xb5, 0xb5, 0x9f, 0x91, 0x36, 0xe2, 0x12, 0x01, 0x01, 0x82, 0x01,
    0x00, 0x00, 0x03, 0x77, 0x7b, 0x00, 0x02, 0x75, 0x06, 0x02, 0x79, 0x04, 0x31, 0x32, 0x33, 0x34,
    0x35, 0x36, 0x37, 0x38, 0x02, 0x03, 0x00, 0x02, 0x05, 0x02, 0x07,
};
static const uint8_t bye[15] = {
    0x46, 0x5a, 0x47, 0x34, 0x51, 0x61, 0x1d, 0x28, 0x32, 0xe4, 0x41, 0xb6, 0x01, 0x02, 0x01,
};

/* Of machines that carry for each other. */
static const uint8_t map[29] = {
    0x46, 0x5a, 0x47, 0x34, 0x0d, 0xb0, 0x1d, 0x20, 0xce, 0x16, 0x86, 0xf5, 0x01, 0x03, 0x03, 0x00,
    0x00, 0x00, 0x02, 0x07, 0x00, 0x00, 0x00, 0x02, 0x06, 0x00, 0x00, 0x00, 0x02,
};
static const uint8_t carried[29] = {
    0x46, 0x5a, 0x47, 0x34, 0x20, 0x40, 0xc8, 0x29, 0x0a, 0xcd, 0xd2, 0xc1, 0x01, 0x04, 0x00, 0x06,
    0x00, 0x0b, 0x7f, 0x75, 0x01, 0x3c, 0xd9, 0xc4, 0x1f, 0xc5, 0x02, 0x02, 0x01,
};

/* Of a viewer's line. */
static const uint8_t viewers_hello[61] = {
    0x46, 0x5a, 0x47, 0x34, 0x24, 0x45, 0xd4, 0x91, 0x08, 0x3f, 0xd3, 0x62, 0xff, 0x00, 0x02, 0x01,
    0x00, 0x01, 0xff, 0xff, 0xff, 0xff, 0xff, 0xff, 0x01, 0x23, 0x45, 0x67, 0x89, 0xab, 0xcd, 0xef,
    0x51, 0x52, 0x53, 0x54, 0x55, 0x56, 0x57, 0x58, 0xd1, 0xd2, 0xd3, 0xd4, 0xd5, 0xd6, 0xd7, 0xd8,
    0xc1, 0xc2, 0xc3, 0xc4, 0xc5, 0xc6, 0xc7, 0xc8, 0x00, 0x00, 0x0b, 0xb8, 0x00,
};
static const uint8_t rows[51] = {
    0x46, 0x5a, 0x47, 0x34, 0x35, 0x85, 0xab, 0x47, 0x1c, 0x3b, 0x85, 0xfe, 0x00, 0x01, 0x80, 0x05,
    0x01, 0xdb, 0x04, 0xdb, 0x04, 0xe8, 0xdd, 0x9b, 0xae, 0x0c, 0xd8, 0xfd, 0xdb, 0xae, 0x0d, 0x08,
    0x00, 0x03, 0xdb, 0x04, 0xd9, 0x04, 0x00, 0x03, 0xd8, 0x04, 0x03, 0x00, 0x01, 0x00, 0x00, 0x05,
    0x01, 0x09, 0x01,
};
static const uint8_t viewers_answer[26] = {
    0x46, 0x5a, 0x47, 0x34, 0x34, 0x2a, 0x07, 0xed, 0x23, 0x0e, 0xb2, 0xbe, 0xff, 0x01, 0x81, 0x05,
    0x00, 0x00, 0x03, 0xdb, 0x04, 0xdb, 0x04, 0x00, 0x00, 0x00,
};
/* clang-format on */

enum { KIND = 13, HELLO = 0, PLAY = 1, MAP = 3, CARRIED = 4 };

/* A machine: its session, and the peer beside it. */
typedef struct machine {
    fazgrond_session session;
    fazgrond_peer peer;
} machine;

static void open_machine(machine *at, uint32_t me, uint64_t number, uint64_t draw) {
    fazgrond_settings settings = fazgrond_settings_for(2);
    fazgrond_match match = fazgrond_match_for(2, me);
    settings.local = 1u << me;
    for (uint32_t player = 0; player < 2; player++) {
        settings.masks[player] = 0;
        match.owners[player] = player;
    }
    match.draw = draw;
    match.digest = DIGEST;
    match.opening = OPENING;
    fazgrond_one_number(&match, number);
    *at = (machine){ FAZGROND_CLOSED, FAZGROND_CLOSED };
    IS(fazgrond_open(&at->session, &settings), FAZGROND_OK);
    IS(fazgrond_peer_open(&at->peer, &at->session, &match), FAZGROND_OK);
}

static void close_machine(machine *at) {
    fazgrond_peer_close(&at->peer);
    fazgrond_close(&at->session);
}

/* What one of the two sends to the other. */
static size_t sent(machine *from, uint8_t to, uint32_t now, uint8_t *bytes) {
    size_t length;
    IS(fazgrond_peer_send(&from->peer, &from->session, to, now, bytes, FAZGROND_DATAGRAM, &length), FAZGROND_OK);
    return length;
}

static int32_t heard(machine *at, const uint8_t *bytes, size_t length, uint32_t now) {
    return fazgrond_peer_receive(&at->peer, &at->session, bytes, length, now);
}

static void polled(machine *at, uint32_t now) { IS(fazgrond_peer_poll(&at->peer, &at->session, now), FAZGROND_OK); }

static void pass(machine *from, machine *to, uint8_t number, uint32_t sent_at, uint32_t heard_at) {
    uint8_t bytes[FAZGROND_DATAGRAM];
    size_t length = sent(from, number, sent_at, bytes);
    IS(heard(to, bytes, length, heard_at), FAZGROND_OK);
}

static void no_event_but(machine *at, uint32_t code) {
    fazgrond_event event;
    int found = 0;
    while (fazgrond_peer_event(&at->peer, &event) == FAZGROND_OK)
        found += event.code == code;
    IS(found, code != 0);
}

/* A player's word of a frame: those of player 1 are in the examples. */
static uint32_t word_of(uint8_t player, uint32_t frame) {
    static const uint32_t told[] = { 0, 0, 5, 5, 5, 7 };
    if (player == 1 || frame < 117)
        return 0;
    return frame < 123 ? told[frame - 117] : 5;
}

/* Plays so many frames, all of which a machine may predict. */
static void play(machine *at, uint8_t player, int frames) {
    fazgrond_session *session = &at->session;
    fazgrond_request requests[8];
    fazgrond_reached reached;
    uint32_t frame;
    for (int time = 0; time < frames; time++) {
        IS(fazgrond_frame(session, &frame), FAZGROND_OK);
        IS(fazgrond_add_local_input(session, player, word_of(player, frame)), FAZGROND_OK);
        IS(fazgrond_advance_frame(session, &reached), FAZGROND_OK);
        while (fazgrond_take_requests(session, requests, 8) > 0)
            ;
    }
}

/* Both play up to a frame, and hear each other in each of them. */
static void play_up_to(machine *one, machine *two, uint32_t end) {
    uint32_t frames[2] = { 0, 0 };
    while (frames[0] < end || frames[1] < end) {
        if (frames[0] < end)
            play(one, 1, 1);
        if (frames[1] < end)
            play(two, 2, 1);
        pass(one, two, 1, 0, 0);
        pass(two, one, 0, 0, 0);
        IS(fazgrond_frame(&one->session, &frames[0]), FAZGROND_OK);
        IS(fazgrond_frame(&two->session, &frames[1]), FAZGROND_OK);
    }
}

/* Machine 0 has the words of an example, up to a frame, that it had not before. */
static void has_words(machine *one, uint32_t from, uint32_t end) {
    fazgrond_entry entry;
    uint32_t words;
    size_t entries;
    IS(fazgrond_confirmed(&one->session, 2, &words), FAZGROND_OK);
    IS(words, end);
    IS(fazgrond_log_length(&one->session, &entries), FAZGROND_OK);
    for (uint32_t frame = end; frame-- > from;) {
        IS(fazgrond_log_entry(&one->session, --entries, &entry), FAZGROND_OK);
        IS(entry.kind, FAZGROND_REMOTE);
        IS(entry.frame, frame);
        IS(entry.word, word_of(2, frame));
    }
}

/* The two come to play, and what machine 1 sends meanwhile are the examples. */
static void greet(machine *one, machine *two) {
    uint8_t bytes[FAZGROND_DATAGRAM];
    size_t length;
    IS(heard(one, turn, sizeof turn, 0), FAZGROND_NOT_SEALED); /* machine 1's draw isn't known yet */
    IS(fazgrond_peer_bye(&two->peer, 0, FAZGROND_BYE_LEAVES, bytes, sizeof bytes, &length), FAZGROND_NOTHING);
    IS(sent(two, 0, 0, bytes), sizeof first_hello);
    IS(memcmp(bytes, first_hello, sizeof first_hello), 0);
    IS(heard(one, first_hello, sizeof first_hello, 0), FAZGROND_OK);
    IS(heard(one, turn, sizeof turn, 0), FAZGROND_NOT_SEALED); /* nor is it believed yet */
    pass(one, two, 1, 0, 0);
    IS(sent(two, 0, 0, bytes) > 0, 1); /* a play, which the other can't open yet */
    IS(sent(two, 0, 0, bytes), sizeof hello);
    IS(memcmp(bytes, hello, sizeof hello), 0);
    IS(heard(one, hello, sizeof hello, 0), FAZGROND_OK);
    for (int at = 0; at < 3; at++) {
        pass(one, two, 1, 0, 0);
        pass(two, one, 0, 0, 0);
    }
    polled(one, 0);
    polled(two, 0);
}

/* Each example is heard, and what machine 1 sends is the example. The plays are heard where they may be: machine 0 has the words that
 * machine 1 says that it has of it. */
static void examples(void) {
    machine one, two;
    uint8_t bytes[FAZGROND_DATAGRAM];
    size_t length;
    open_machine(&one, 0, MATCH, draws[0]);
    open_machine(&two, 1, MATCH, draws[1]);
    greet(&one, &two);
    IS(heard(&one, turn, sizeof turn, 0), FAZGROND_OVERSTATED); /* it has no word yet, and not 119 */
    play_up_to(&one, &two, 117);
    play(&one, 1, 2);
    pass(&one, &two, 1, 0, 0);
    play(&two, 2, 6);                                                /* now both have what the example tells */
    IS(heard(&one, marked, sizeof marked, 0), FAZGROND_NO_DATAGRAM); /* its words aren't taken without their mark */
    has_words(&one, 117, 117);
    IS(heard(&one, turn, sizeof turn, 0), FAZGROND_OK);
    has_words(&one, 117, 123);
    play_up_to(&one, &two, 19997);
    play(&one, 1, 2);
    IS(heard(&one, held, sizeof held, 0), FAZGROND_OK);
    has_words(&one, 19997, 20003);
    IS(fazgrond_peer_bye(&two.peer, 0, FAZGROND_BYE_LEAVES, bytes, sizeof bytes, &length), FAZGROND_OK);
    IS(length, sizeof bye);
    IS(memcmp(bytes, bye, length), 0);
    IS(heard(&one, bye, sizeof bye, 0), FAZGROND_OK);
    IS(heard(&one, bye, sizeof bye, 0), FAZGROND_MACHINE_GONE);
    close_machine(&one);
    close_machine(&two);
}

/* An example isn't heard if any bit of it is another. What isn't of the other machine isn't even opened. Of who carries for nobody
 * the kinds of what is carried are opened, and refused, and so is a mark. */
static void is_whole(const uint8_t *text, size_t length) {
    machine one;
    uint8_t bytes[FAZGROND_DATAGRAM];
    open_machine(&one, 0, MATCH, draws[0]);
    if (text[KIND] != HELLO)
        IS(heard(&one, hello, sizeof hello, 0), FAZGROND_OK);
    memcpy(bytes, text, length);
    for (size_t bit = 0; bit < 8 * length; bit++) {
        bytes[bit / 8] ^= (uint8_t)(1 << bit % 8);
        IS(heard(&one, bytes, length, 0),
           bytes[12] == 1       ? FAZGROND_NOT_SEALED
               : bytes[12] == 0 ? FAZGROND_OWN_MACHINE
                                : FAZGROND_INVALID_MACHINE);
        bytes[bit / 8] ^= (uint8_t)(1 << bit % 8);
    }
    int32_t code = heard(&one, bytes, length, 0);
    if (text[KIND] == MAP || text[KIND] == CARRIED || text == marked)
        IS(code, FAZGROND_NO_DATAGRAM);
    else
        IS(code == FAZGROND_OK || (text[KIND] == PLAY && code == FAZGROND_OVERSTATED), 1);
    close_machine(&one);
}

/* Nor is one of another match or another opening, with the number in the place of its tag, or of another length. */
static void refused(void) {
    static const uint8_t zeros[1201] = { [12] = 1 };
    uint8_t named[sizeof bye];
    machine one, next, again;
    open_machine(&one, 0, MATCH, draws[0]);
    open_machine(&next, 0, MATCH + 1, draws[0]);
    open_machine(&again, 0, MATCH, draws[0] + 1);
    memcpy(named, bye, sizeof bye);
    for (int at = 0; at < 8; at++)
        named[4 + at] = (uint8_t)(MATCH >> (56 - 8 * at));
    IS(heard(&next, hello, sizeof hello, 0), FAZGROND_NOT_SEALED);
    IS(heard(&again, hello, sizeof hello, 0), FAZGROND_OK); /* but it answers another draw */
    IS(heard(&one, hello, sizeof hello, 0), FAZGROND_OK);
    IS(heard(&next, bye, sizeof bye, 0), FAZGROND_NOT_SEALED);
    IS(heard(&again, bye, sizeof bye, 0), FAZGROND_NOT_SEALED);
    IS(heard(&one, named, sizeof named, 0), FAZGROND_NOT_SEALED);
    for (size_t length = 0; length < sizeof bye; length++)
        IS(heard(&one, bye, length, 0), FAZGROND_NOT_SEALED);
    IS(heard(&one, zeros, sizeof zeros - 1, 0), FAZGROND_NOT_SEALED);
    IS(heard(&one, zeros, sizeof zeros, 0), FAZGROND_NOT_SEALED);
    IS(heard(&one, bye, sizeof bye, 0), FAZGROND_OK);
    close_machine(&one);
    close_machine(&next);
    close_machine(&again);
}

/* The examples of a line: what the viewer sends is the example, and each end opens what is for it. */
static void line_examples(void) {
    fazgrond_line_settings settings = {
        .number = LINE, .draw = host_draw, .digest = DIGEST, .opening = OPENING, .machines = 2, .silent_after = 5000
    };
    machine host;
    fazgrond_line line = FAZGROND_CLOSED;
    fazgrond_viewer viewer = FAZGROND_CLOSED;
    uint8_t bytes[FAZGROND_DATAGRAM];
    uint32_t taken;
    size_t length;
    open_machine(&host, 0, MATCH, draws[0]);
    for (uint32_t at = 0; at < FAZGROND_PLAYERS; at++)
        settings.owners[at] = at < 2 ? at : FAZGROND_NO_PLAYER;
    IS(fazgrond_line_open(&line, &settings), FAZGROND_OK);
    settings.draw = viewer_draw;
    settings.silent_after = 3000;
    IS(fazgrond_viewer_open(&viewer, &settings), FAZGROND_OK);
    IS(fazgrond_viewer_receive(&viewer, rows, sizeof rows, 0, &taken), FAZGROND_NOT_SEALED);
    IS(fazgrond_line_send(&line, &host.session, 0, bytes, sizeof bytes, &length), FAZGROND_OK);
    IS(fazgrond_viewer_receive(&viewer, bytes, length, 0, &taken), FAZGROND_OK);
    IS(fazgrond_viewer_send(&viewer, 0, bytes, sizeof bytes, &length), FAZGROND_OK);
    IS(length, sizeof viewers_hello);
    IS(memcmp(bytes, viewers_hello, length), 0);
    IS(fazgrond_line_receive(&line, viewers_answer, sizeof viewers_answer, 0), FAZGROND_NOT_SEALED);
    IS(fazgrond_line_receive(&line, viewers_hello, sizeof viewers_hello, 0), FAZGROND_OK);
    for (int at = 0; at < 2; at++) { /* a play that the viewer can't open yet, and a hello */
        IS(fazgrond_line_send(&line, &host.session, 0, bytes, sizeof bytes, &length), FAZGROND_OK);
        (void)fazgrond_viewer_receive(&viewer, bytes, length, 0, &taken);
    }
    IS(fazgrond_viewer_receive(&viewer, rows, sizeof rows, 0, &taken), FAZGROND_ROWS_MISSING); /* it has none before row 600 */
    IS(fazgrond_line_receive(&line, viewers_answer, sizeof viewers_answer, 0), FAZGROND_OK);
    fazgrond_line_close(&line);
    fazgrond_viewer_close(&viewer);
    close_machine(&host);
}

/* The two hear each other, and each a play of the other. A first play comes before the other can open it. */
static void meet(machine *one, machine *two, uint32_t at_one, uint32_t at_two) {
    uint8_t bytes[FAZGROND_DATAGRAM];
    pass(one, two, 1, at_one, at_two);
    pass(two, one, 0, at_two, at_one);
    IS(heard(two, bytes, sent(one, 1, at_one, bytes), at_two), FAZGROND_NOT_SEALED);
    for (int at = 0; at < 4; at++) {
        pass(one, two, 1, at_one, at_two);
        pass(two, one, 0, at_two, at_one);
    }
    polled(one, at_one);
    polled(two, at_two);
    no_event_but(one, FAZGROND_RUNNING);
    no_event_but(two, FAZGROND_RUNNING);
}

/* The clock of the first machine begins anew, and so do the clocks that it sends, a little later. A play tells clocks if the last
 * are 5000 / 16 milliseconds old. They come back after 48 milliseconds, of which the other held them for 8. */
static void clocks(void) {
    const uint32_t start = UINT32_MAX - 9;
    machine one, two;
    fazgrond_stats stats, before;
    uint8_t bytes[FAZGROND_DATAGRAM];
    open_machine(&one, 0, MATCH, draws[0] | 0xffffff00);
    open_machine(&two, 1, MATCH, draws[1]);
    meet(&one, &two, start, 500);
    play(&one, 1, 4);
    play(&two, 2, 1);
    pass(&one, &two, 1, start + 400, 900);
    play(&one, 1, 1);
    play(&two, 2, 1);
    IS(fazgrond_peer_stats(&one.peer, 1, &before), FAZGROND_OK);
    pass(&two, &one, 0, 908, start + 448);
    IS(fazgrond_peer_stats(&one.peer, 1, &stats), FAZGROND_OK);
    IS(stats.is_measured, 1);
    IS(stats.round_trip, 40);
    IS(stats.received, before.received + 1);
    IS(stats.lost, 0);
    IS(stats.frames_behind, -3);      /* the first is at frame 5 and heard of frame 2 */
    IS(stats.their_frames_behind, 3); /* the other was at 2, and took the first to be at 5: at 4 as it told, and one more */
    /* 750 milliseconds of silence aren't told, and 751 are, once */
    polled(&one, start + 448 + 750);
    no_event_but(&one, 0);
    polled(&one, start + 448 + 751);
    no_event_but(&one, FAZGROND_INTERRUPTED);
    polled(&one, start + 448 + 752);
    no_event_but(&one, 0);
    pass(&two, &one, 0, 1000, start + 1300);
    no_event_but(&one, FAZGROND_RESUMED);
    /* one of the datagrams up to the next that tells clocks isn't heard */
    sent(&two, 0, 1000, bytes);
    for (int at = 0; at < 20; at++)
        pass(&two, &one, 0, 1000 + (uint32_t)at * 16, start + 1300 + (uint32_t)at * 16);
    IS(fazgrond_peer_stats(&one.peer, 1, &stats), FAZGROND_OK);
    IS(stats.received, before.received + 22);
    IS(stats.lost, 1);
    IS(stats.refused, 0);
    close_machine(&one);
    close_machine(&two);
}

int main(void) {
    examples();
    line_examples();
    is_whole(first_hello, sizeof first_hello);
    is_whole(hello, sizeof hello);
    is_whole(turn, sizeof turn);
    is_whole(held, sizeof held);
    is_whole(marked, sizeof marked);
    is_whole(bye, sizeof bye);
    is_whole(map, sizeof map);
    is_whole(carried, sizeof carried);
    refused();
    clocks();
    return 0;
}
