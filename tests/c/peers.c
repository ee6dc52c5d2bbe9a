/* What the calls of a peer and of a viewer's line answer where nothing is to be done: on a closed handle, or one of another kind,
 * before the match, with requests that were not taken, with too little room. Says nothing if all is as it has to be. */
#include "../check.h"

#include <fazgrond.h>
#include <stdio.h>
#include <stdlib.h>
#include <string.h>

enum { SENDER = 12, KIND = 13, PLAY = 1, VIEWER = 255 };

/* A machine: its session, and the peer beside it. */
typedef struct machine {
    fazgrond_session session;
    fazgrond_peer peer;
} machine;

static fazgrond_settings settings_of(uint32_t me) {
    fazgrond_settings settings = fazgrond_settings_for(2);
    settings.local = 1u << me;
    settings.limit = 100;
    settings.log = 1000;
    for (int at = 0; at < FAZGROND_PLAYERS; at++)
        settings.masks[at] = 0;
    return settings;
}

static fazgrond_match match_of(uint32_t me) {
    fazgrond_match match = fazgrond_match_for(2, me);
    match.draw = 70 + me;
    match.digest = 8;
    fazgrond_one_number(&match, 7);
    match.numbers[me] = 123; /* it isn't read */
    match.owners[0] = 0;
    match.owners[1] = 1;
    return match;
}

/* Nothing is written by a refused call. */
static uint8_t bytes[FAZGROND_DATAGRAM];
static size_t length = 77;
static uint32_t a = 5, b = 5;
static fazgrond_row row;
static fazgrond_reached reached;
static fazgrond_event event;
static fazgrond_stats stats;
static fazgrond_entry entry;
static fazgrond_request requests[8];

/* All calls that need a peer, of which one of the two handles is closed. */
static void are_closed(fazgrond_peer *peer, fazgrond_session *session) {
    fazgrond_match match = match_of(0);
    IS(fazgrond_peer_receive(peer, session, bytes, 20, 0), FAZGROND_IS_CLOSED);
    IS(fazgrond_peer_poll(peer, session, 0), FAZGROND_IS_CLOSED);
    IS(fazgrond_peer_send(peer, session, 1, 0, bytes, sizeof bytes, &length), FAZGROND_IS_CLOSED);
    IS(fazgrond_peer_send(peer, session, 1, 0, bytes, 3, &length), FAZGROND_IS_CLOSED);
    IS(fazgrond_peer_note_settled(peer, session, 1), FAZGROND_IS_CLOSED);
    if (session->full == 0)
        IS(fazgrond_peer_open(peer, session, &match), FAZGROND_IS_CLOSED);
    IS(length, 77);
}

/* All calls that need a peer alone. */
static void is_closed(fazgrond_peer *peer) {
    IS(fazgrond_peer_is_running(peer, &a), FAZGROND_IS_CLOSED);
    IS(fazgrond_peer_bye(peer, 1, FAZGROND_BYE_LEAVES, bytes, sizeof bytes, &length), FAZGROND_IS_CLOSED);
    IS(fazgrond_peer_disconnect(peer, 1), FAZGROND_IS_CLOSED);
    IS(fazgrond_peer_event(peer, &event), FAZGROND_IS_CLOSED);
    IS(fazgrond_peer_stats(peer, 1, &stats), FAZGROND_IS_CLOSED);
    IS(a + b, 10);
    IS(length, 77);
}

static void open_session(fazgrond_session *session, uint32_t me) {
    fazgrond_settings settings = settings_of(me);
    IS(fazgrond_open(session, &settings), FAZGROND_OK);
}

static void closed(void) {
    fazgrond_peer peer = FAZGROND_CLOSED;
    fazgrond_session session = FAZGROND_CLOSED;
    fazgrond_match match = match_of(0);
    is_closed(&peer);
    are_closed(&peer, &session);
    IS(fazgrond_settled_slot(&session, &a, &b), FAZGROND_IS_CLOSED);
    IS(fazgrond_has_news(&session, &a), FAZGROND_IS_CLOSED);
    fazgrond_peer_close(&peer);
    open_session(&session, 0);
    are_closed(&peer, &session);
    IS(fazgrond_peer_open(&peer, &session, &match), FAZGROND_OK);
    fazgrond_close(&session);
    are_closed(&peer, &session);
    fazgrond_peer_close(&peer);
    fazgrond_peer_close(&peer);
    is_closed(&peer);
}

/* A handle of another kind is a closed one. */
static void of_another_kind(void) {
    fazgrond_peer peer = FAZGROND_CLOSED;
    fazgrond_session session = FAZGROND_CLOSED;
    fazgrond_match match = match_of(0);
    open_session(&session, 0);
    IS(fazgrond_peer_open(&peer, &session, &match), FAZGROND_OK);
    is_closed((fazgrond_peer *)&session);
    are_closed((fazgrond_peer *)&session, &session);
    IS(fazgrond_peer_poll(&peer, (fazgrond_session *)&peer, 0), FAZGROND_IS_CLOSED);
    IS(fazgrond_frame((fazgrond_session *)&peer, &a), FAZGROND_IS_CLOSED);
    IS((int32_t)fazgrond_take_requests((fazgrond_session *)&peer, requests, 8), 0);
    IS(fazgrond_line_look((fazgrond_line *)&peer, 0, &(fazgrond_line_state){ 0 }), FAZGROND_IS_CLOSED);
    IS(fazgrond_viewer_row((fazgrond_viewer *)&peer, &row), FAZGROND_IS_CLOSED);
    IS(a + b, 10);
    IS(fazgrond_peer_poll(&peer, &session, 0), FAZGROND_OK);
    fazgrond_peer_close(&peer);
    IS(fazgrond_frame(&session, &a), FAZGROND_OK); /* it stays open */
    a = 5;
    fazgrond_close(&session);
}

static void is_not_opened(fazgrond_session *session, const fazgrond_match *match, int32_t code) {
    fazgrond_peer peer = FAZGROND_CLOSED;
    IS(fazgrond_peer_open(&peer, session, match), code);
    IS(fazgrond_peer_event(&peer, &event), FAZGROND_IS_CLOSED);
}

static void not_opened(void) {
    fazgrond_session session = FAZGROND_CLOSED;
    fazgrond_match match = match_of(0);
    open_session(&session, 0);
    match.me = 2;
    is_not_opened(&session, &match, FAZGROND_INVALID_MACHINE);
    match.me = 256;
    is_not_opened(&session, &match, FAZGROND_INVALID_REQUEST);
    match = match_of(0);
    match.owners[7] = 256;
    is_not_opened(&session, &match, FAZGROND_INVALID_REQUEST);
    match = match_of(0);
    match.owners[2] = 1;
    is_not_opened(&session, &match, FAZGROND_INVALID_PLAYER);
    match = match_of(1); /* the local player is that of machine 0 */
    is_not_opened(&session, &match, FAZGROND_INVALID_PLAYER);
    match = match_of(0);
    match.draw = 0;
    is_not_opened(&session, &match, FAZGROND_INVALID_REQUEST);
    match = match_of(0);
    match.machines = 9;
    is_not_opened(&session, &match, FAZGROND_INVALID_MACHINE);
    match = match_of(0);
    match.numbers[1] = 0;
    is_not_opened(&session, &match, FAZGROND_NO_NUMBER);
    for (uint32_t size = 0; size < 300; size++) { /* another version's */
        match = match_of(0);
        match.size = size;
        if (size != sizeof match)
            is_not_opened(&session, &match, FAZGROND_OTHER_VERSION);
    }
    fazgrond_close(&session);
}

/* A session of so many words, of which these are local, each with its delay. */
static void open_words(fazgrond_session *session, uint32_t words, uint32_t local, uint32_t first, uint32_t second) {
    fazgrond_settings settings = fazgrond_settings_for(words);
    settings.local = local;
    settings.delays[0] = first;
    settings.delays[1] = second;
    IS(fazgrond_open(session, &settings), FAZGROND_OK);
}

/* Inputs of several words: one owner, no place past the last one, one delay, and a number of words that there may be. */
static void inputs_not_opened(void) {
    fazgrond_session session = FAZGROND_CLOSED;
    fazgrond_peer peer = FAZGROND_CLOSED;
    fazgrond_match match = match_of(0), other;
    open_words(&session, 4, 3, 1, 1);
    match.words = 2;
    is_not_opened(&session, &match, FAZGROND_TWO_OWNERS);
    match.owners[1] = 0;
    match.owners[2] = 1; /* and the second word of it is nobody's */
    is_not_opened(&session, &match, FAZGROND_TWO_OWNERS);
    match.owners[3] = 1;
    IS(fazgrond_peer_open(&peer, &session, &match), FAZGROND_OK);
    fazgrond_peer_close(&peer);
    other = match;
    other.words = 5;
    is_not_opened(&session, &other, FAZGROND_INVALID_MACHINE);
    other.words = 0;
    is_not_opened(&session, &other, FAZGROND_INVALID_MACHINE);
    open_words(&session, 4, 3, 0, 0);
    other.words = 3; /* the places 6 and 7 are too few for one more */
    for (int at = 0; at < FAZGROND_PLAYERS; at++)
        other.owners[at] = (uint32_t)at / 3 % 2;
    is_not_opened(&session, &other, FAZGROND_TOO_MANY_WORDS);
    open_words(&session, 4, 3, 1, 2);
    is_not_opened(&session, &match, FAZGROND_UNLIKE_DELAYS);
    fazgrond_close(&session);
}

/* Settings that don't open leave the session open that was there. */
static void sessions_not_opened(void) {
    fazgrond_session session = FAZGROND_CLOSED;
    fazgrond_settings settings = settings_of(0);
    settings.players = 5;
    IS(fazgrond_open(&session, &settings), FAZGROND_PLAYER_OUT_OF_RANGE);
    IS(fazgrond_frame(&session, &a), FAZGROND_IS_CLOSED);
    for (uint32_t size = 0; size < 300; size++) {
        settings = settings_of(0);
        settings.size = size;
        IS(fazgrond_open(&session, &settings), size == sizeof settings ? FAZGROND_OK : FAZGROND_OTHER_VERSION);
    }
    IS(fazgrond_frame(&session, &a), FAZGROND_OK);
    a = 5;
    fazgrond_close(&session);
}

/* A session that has heard of others can't begin a match. */
static void started(void) {
    fazgrond_session session = FAZGROND_CLOSED;
    fazgrond_match match = match_of(0);
    open_session(&session, 0);
    IS(fazgrond_remote_input(&session, 2, 0, 1, &a), FAZGROND_OK);
    is_not_opened(&session, &match, FAZGROND_INVALID_REQUEST);
    open_session(&session, 0);
    IS(fazgrond_disconnect_player(&session, 2), FAZGROND_OK);
    is_not_opened(&session, &match, FAZGROND_INVALID_REQUEST);
    open_session(&session, 0);
    IS(fazgrond_add_local_input(&session, 1, 1), FAZGROND_OK);
    IS(fazgrond_advance_frame(&session, &reached), FAZGROND_OK);
    fazgrond_peer peer = FAZGROND_CLOSED; /* own words alone don't matter, nor that requests wait */
    IS(fazgrond_peer_open(&peer, &session, &match), FAZGROND_OK);
    fazgrond_peer_close(&peer);
    fazgrond_close(&session);
    a = 5;
}

/* What the library says of itself and of numbers. */
static void says(void) {
    uint8_t text[200];
    IS((int32_t)fazgrond_version(), FAZGROND_VERSION);
    size_t whole = fazgrond_text(FAZGROND_OTHER_SESSION, text, sizeof text);
    IS(whole > 10 && whole < sizeof text, 1);
    uint8_t begin[200];
    memset(begin, '!', sizeof begin);
    IS(fazgrond_text(FAZGROND_OTHER_SESSION, begin, 4), whole);
    IS(memcmp(begin, text, 4), 0);
    IS(begin[4], '!');
    IS(fazgrond_text(FAZGROND_OK, text, 0) > 0 && fazgrond_text(FAZGROND_RUNNING, text, 0) > 0, 1);
    IS(fazgrond_text(12345, text, sizeof text), 0);
    IS(fazgrond_text(-1, text, sizeof text), 0);
}

/* What one sends the other hears, or can't open; the number of bytes. */
static size_t pass_or(machine *from, machine *to, uint8_t machine, uint32_t now, int32_t answer) {
    size_t sent;
    IS(fazgrond_peer_send(&from->peer, &from->session, machine, now, bytes, sizeof bytes, &sent), FAZGROND_OK);
    IS(fazgrond_peer_receive(&to->peer, &to->session, bytes, sent, now), answer);
    return sent;
}

static size_t pass(machine *from, machine *to, uint8_t machine, uint32_t now) { return pass_or(from, to, machine, now, FAZGROND_OK); }

/* The other hears a play: what is sent before it may be a hello. */
static void pass_play(machine *from, machine *to, uint8_t machine, uint32_t now) {
    for (int at = 0; at < 3; at++) {
        pass(from, to, machine, now);
        if (bytes[KIND] == PLAY)
            return;
    }
    IS(bytes[KIND], PLAY);
}

static void next_event(machine *at, uint32_t code, uint32_t machine) {
    IS(fazgrond_peer_event(&at->peer, &event), FAZGROND_OK);
    IS((int32_t)event.code, (int32_t)code);
    IS((int32_t)event.machine, (int32_t)machine);
}

static void no_event(machine *at) { IS(fazgrond_peer_event(&at->peer, &event), FAZGROND_NOTHING); }

static void polled(machine *at, uint32_t now) { IS(fazgrond_peer_poll(&at->peer, &at->session, now), FAZGROND_OK); }

static void is_running(machine *at, int32_t wanted) {
    uint32_t flag = 77;
    IS(fazgrond_peer_is_running(&at->peer, &flag), FAZGROND_OK);
    IS((int32_t)flag, wanted);
}

static void opened(machine *at, uint32_t me) {
    fazgrond_match match = match_of(me);
    open_session(&at->session, me);
    IS(fazgrond_peer_open(&at->peer, &at->session, &match), FAZGROND_OK);
}

static void open_both(machine *one, machine *two) {
    opened(one, 0);
    opened(two, 1);
}

static void close_both(machine *one, machine *two) {
    fazgrond_peer_close(&one->peer);
    fazgrond_close(&one->session);
    fazgrond_close(&two->session); /* the order of the two doesn't matter */
    fazgrond_peer_close(&two->peer);
}

static int32_t sent_to(machine *at, uint8_t machine, uint32_t now, size_t room, size_t *written) {
    return fazgrond_peer_send(&at->peer, &at->session, machine, now, bytes, room, written);
}

static int32_t heard_by(machine *at, size_t come, uint32_t now) { return fazgrond_peer_receive(&at->peer, &at->session, bytes, come, now); }

static int32_t bye_of(machine *at, uint8_t machine, size_t room, size_t *written) {
    return fazgrond_peer_bye(&at->peer, machine, FAZGROND_BYE_OWN, bytes, room, written);
}

static void before(machine *one, machine *two) {
    polled(one, 0);
    is_running(one, 0);
    no_event(one);
    IS(sent_to(one, 1, 0, FAZGROND_DATAGRAM - 1, &length), FAZGROND_TOO_SHORT);
    IS(sent_to(one, 0, 0, sizeof bytes, &length), FAZGROND_NOTHING);
    IS(sent_to(one, 2, 0, sizeof bytes, &length), FAZGROND_NOTHING);
    for (uint8_t machine = 0; machine < 3; machine++) /* none: there is nobody to whom it could be sealed */
        IS(bye_of(one, machine, sizeof bytes, &length), FAZGROND_NOTHING);
    IS(length, 77);
    IS(fazgrond_peer_stats(&one->peer, 2, &stats), FAZGROND_INVALID_MACHINE);
    IS(fazgrond_peer_stats(&one->peer, 1, &stats), FAZGROND_OK);
    IS((int32_t)stats.sent, 0); /* a call with too little room counts nothing */
    IS(fazgrond_peer_disconnect(&one->peer, 0), FAZGROND_OWN_MACHINE);
    IS(fazgrond_peer_disconnect(&one->peer, 2), FAZGROND_INVALID_MACHINE);
    IS(heard_by(one, 0, 0), FAZGROND_NOT_SEALED);

    pass(two, one, 0, 0);
    next_event(one, FAZGROND_SYNCHRONIZING, 1);
    IS((int32_t)event.count, 1);
    IS((int32_t)event.total, 2);
    no_event(one);
    size_t sent = pass(one, two, 1, 0);
    next_event(two, FAZGROND_SYNCHRONIZED, 0);
    IS(heard_by(one, sent, 0), FAZGROND_OWN_MACHINE);
    bytes[sent - 1] ^= 1;
    IS(heard_by(two, sent, 0), FAZGROND_NOT_SEALED);
    pass_or(two, one, 0, 0, FAZGROND_NOT_SEALED); /* a play: the first doesn't know yet what it is sealed with */
    pass(two, one, 0, 0);
    next_event(one, FAZGROND_SYNCHRONIZED, 1);
    IS(bye_of(one, 1, FAZGROND_DATAGRAM - 1, &length), FAZGROND_TOO_SHORT);
    IS(length, 77);
    polled(one, 16);
    no_event(one); /* a play of the other one has to come, too */
    is_running(one, 0);
    pass_play(two, one, 0, 16);
    pass_play(one, two, 1, 16);
    is_running(one, 0); /* a poll says so */
    polled(one, 16);
    polled(two, 16);
    is_running(one, 1);
    next_event(one, FAZGROND_RUNNING, 0);
    next_event(two, FAZGROND_RUNNING, 0);
    no_event(two);
}

/* How many words a machine hasn't said that it has. */
static void is_queued(machine *at, uint8_t machine, int32_t words) {
    IS(fazgrond_peer_stats(&at->peer, machine, &stats), FAZGROND_OK);
    IS((int32_t)stats.words_queued, words);
}

/* Whether there is something to synchronize. */
static void has_news(machine *at, int32_t wanted) {
    uint32_t flag = 77;
    IS(fazgrond_has_news(&at->session, &flag), FAZGROND_OK);
    IS((int32_t)flag, wanted);
}

static void during(machine *one, machine *two) {
    fazgrond_session *session = &one->session;
    has_news(one, 1); /* nothing was accepted yet */
    IS(fazgrond_advance_frame(session, &reached), FAZGROND_LOCAL_INPUT_MISSING);
    IS(fazgrond_add_local_input(session, 2, 3), FAZGROND_INVALID_PLAYER);
    IS(fazgrond_add_local_input(session, 1, 3), FAZGROND_OK);
    IS(fazgrond_add_local_input(session, 1, 3), FAZGROND_INPUT_TWICE);
    IS(fazgrond_advance_frame(session, &reached), FAZGROND_OK);
    IS((int32_t)reached.frame, 1);
    memset(&reached, 0, sizeof reached);
    IS(fazgrond_synchronize_input(session, &row), FAZGROND_PENDING);
    IS(fazgrond_advance_frame(session, &reached), FAZGROND_PENDING);
    IS((int32_t)reached.frame, 0);
    IS((int32_t)row.count, 0);
    has_news(one, 0);
    polled(one, 16); /* a peer doesn't mind requests that wait */
    pass_play(two, one, 0, 16);
    pass_play(one, two, 1, 16);
    while (fazgrond_take_requests(session, requests, 1) > 0)
        ;
    IS(fazgrond_synchronize_input(session, &row), FAZGROND_OK);
    IS((int32_t)row.count, 2);
    IS(fazgrond_frame(session, &a), FAZGROND_OK);
    IS((int32_t)a, 1);
    while (fazgrond_take_requests(session, requests, 1) > 0)
        ;
    is_queued(one, 1, 1);
    pass_play(one, two, 1, 32);
    is_queued(one, 1, 1); /* sent, but not yet said to be there */
    IS(fazgrond_confirmed(&two->session, 1, &a), FAZGROND_OK);
    IS((int32_t)a, 1);
    has_news(two, 1);
    IS(fazgrond_synchronize_input(&two->session, &row), FAZGROND_OK);
    while (fazgrond_take_requests(&two->session, requests, 8) > 0)
        ;
    IS((int32_t)row.words[0], 3);
    has_news(two, 0);
    pass_play(one, two, 1, 32);
    has_news(two, 0); /* the same word again is none */
    is_queued(two, 0, 0);
    IS(fazgrond_add_local_input(&two->session, 2, 4), FAZGROND_OK);
    has_news(two, 1); /* a word of its own is accepted too */
    pass_play(two, one, 0, 32);
    is_queued(two, 0, 1); /* that the peer sees it, is seen by the next call with both */
    is_queued(one, 1, 0);
    IS(fazgrond_confirmed(&two->session, 3, &a), FAZGROND_NOTHING);
    IS(fazgrond_settled_row(&two->session, 0, &row), FAZGROND_NOTHING);
    IS(fazgrond_log_length(session, &length), FAZGROND_OK);
    IS(fazgrond_log_entry(session, 0, &entry), FAZGROND_OK);
    IS((int32_t)entry.kind, FAZGROND_LOCAL);
    IS((int32_t)entry.word, 3);
    IS(fazgrond_log_entry(session, length, &entry), FAZGROND_NOTHING);
}

static void after(machine *one, machine *two) {
    size_t said;
    IS(bye_of(one, 0, sizeof bytes, &said), FAZGROND_NOTHING);
    IS(bye_of(one, 1, sizeof bytes, &said), FAZGROND_OK);
    IS(heard_by(two, said, 48), FAZGROND_OK);
    IS(heard_by(two, said, 48), FAZGROND_MACHINE_GONE);
    polled(two, 48);
    next_event(two, FAZGROND_LEFT, 0);
    IS((int32_t)event.bye, FAZGROND_BYE_OWN);
    IS(fazgrond_peer_event(&two->peer, &event), FAZGROND_OK);
    IS((int32_t)event.code, FAZGROND_DISCONNECTED);
    IS((int32_t)event.player, 1);
    has_news(two, 1);
    IS(sent_to(two, 0, 48, sizeof bytes, &said), FAZGROND_NOTHING);
    IS(bye_of(two, 0, sizeof bytes, &said), FAZGROND_NOTHING);
    is_queued(two, 0, 0); /* nothing is sent to who is gone */
    is_running(two, 1);   /* it never ends to be so */
    /* the other hears nothing any more, though it asks: its silence is told, and then it is gone */
    uint32_t now = 32; /* it was heard last then, and answered by then */
    for (; now < 5000; now += 100) {
        IS(sent_to(one, 1, now, sizeof bytes, &said), FAZGROND_OK);
        polled(one, now);
        if (now == 832) {
            next_event(one, FAZGROND_INTERRUPTED, 1);
            IS(event.disconnect_in >= 4000 && event.disconnect_in <= 4300, 1);
        }
        no_event(one);
    }
    polled(one, 5033);
    next_event(one, FAZGROND_LEFT, 1);
}

/* A silence without questions is none: a program that stood still for an hour puts nobody out. And a machine that isn't there after
 * the time of silence is told of, once. */
static void standing_still(void) {
    machine one = { FAZGROND_CLOSED, FAZGROND_CLOSED }, two = { FAZGROND_CLOSED, FAZGROND_CLOSED };
    open_both(&one, &two);
    polled(&one, 0);
    polled(&one, 5000);
    no_event(&one);
    for (uint32_t now = 5001; now < 5004; now++)
        polled(&one, now);
    next_event(&one, FAZGROND_MISSING, 1);
    no_event(&one);
    for (int at = 0; at < 4; at++) {
        size_t sent;
        IS(sent_to(&one, 1, 5100, sizeof bytes, &sent), FAZGROND_OK);
        (void)heard_by(&two, sent, 0);
        IS(sent_to(&two, 0, 0, sizeof bytes, &sent), FAZGROND_OK);
        (void)heard_by(&one, sent, 5100);
    }
    next_event(&one, FAZGROND_SYNCHRONIZED, 1);
    polled(&one, 5100);
    next_event(&one, FAZGROND_RUNNING, 0);
    polled(&one, 5100 + 3600000);
    next_event(&one, FAZGROND_INTERRUPTED, 1);
    no_event(&one);
    pass(&two, &one, 0, 10); /* and time that goes back is none */
    next_event(&one, FAZGROND_RESUMED, 1);
    close_both(&one, &two);
}

/* Another digest means another match, at both of them. The numbers of two machines alone have to be alike. */
static void others(void) {
    machine one = { FAZGROND_CLOSED, FAZGROND_CLOSED }, two = { FAZGROND_CLOSED, FAZGROND_CLOSED };
    open_both(&one, &two);
    fazgrond_match match = match_of(1);
    match.digest++;
    IS(fazgrond_peer_open(&two.peer, &two.session, &match), FAZGROND_OK);
    pass(&two, &one, 0, 0);
    next_event(&one, FAZGROND_SYNCHRONIZING, 1);
    pass(&one, &two, 1, 0);
    next_event(&two, FAZGROND_MISMATCH, 0);
    IS((int32_t)event.field, 3);
    pass(&two, &one, 0, 0);
    next_event(&one, FAZGROND_MISMATCH, 1);
    IS((int32_t)event.field, 3);
    pass(&two, &one, 0, 0);
    no_event(&one); /* told once */
    IS(bye_of(&one, 1, sizeof bytes, &length), FAZGROND_NOTHING);
    match = match_of(1);
    match.opening = 5; /* another opening state */
    IS(fazgrond_peer_open(&two.peer, &two.session, &match), FAZGROND_OK);
    match = match_of(0);
    match.opening = 6;
    IS(fazgrond_peer_open(&one.peer, &one.session, &match), FAZGROND_OK);
    pass(&two, &one, 0, 0);
    next_event(&one, FAZGROND_SYNCHRONIZING, 1);
    pass(&one, &two, 1, 0);
    next_event(&two, FAZGROND_MISMATCH, 0);
    IS((int32_t)event.field, 6);
    /* a refused match leaves the peer open that was there */
    match.me = 9;
    IS(fazgrond_peer_open(&one.peer, &one.session, &match), FAZGROND_INVALID_MACHINE);
    polled(&one, 0);
    match = match_of(0);
    match.numbers[1]++;
    IS(fazgrond_peer_open(&one.peer, &one.session, &match), FAZGROND_OK);
    pass_or(&one, &two, 1, 0, FAZGROND_NOT_SEALED);
    match = match_of(1);
    match.numbers[0]++;
    IS(fazgrond_peer_open(&two.peer, &two.session, &match), FAZGROND_OK);
    pass(&one, &two, 1, 0);
    close_both(&one, &two);
}

/* What would be the other machine's hello, but for a byte. */
static void is_no_hello_of_it(machine *to, size_t come, size_t place, uint8_t byte, int32_t answer) {
    uint8_t was = bytes[place];
    bytes[place] = byte;
    IS(heard_by(to, come, 0), answer);
    bytes[place] = was;
}

/* Hellos of no other machine of this match are told once one is missing, and how many came. What is no hello of a machine isn't. */
static void strangers(void) {
    machine one = { FAZGROND_CLOSED, FAZGROND_CLOSED }, two = { FAZGROND_CLOSED, FAZGROND_CLOSED };
    open_both(&one, &two);
    fazgrond_match match = match_of(1);
    match.numbers[0]++;
    IS(fazgrond_peer_open(&two.peer, &two.session, &match), FAZGROND_OK);
    polled(&one, 0);
    size_t come = pass_or(&two, &one, 0, 0, FAZGROND_NOT_SEALED);
    is_no_hello_of_it(&one, come, 3, '2', FAZGROND_NOT_SEALED); /* of another version */
    is_no_hello_of_it(&one, come, SENDER, 7, FAZGROND_INVALID_MACHINE);
    is_no_hello_of_it(&one, come, SENDER, 0, FAZGROND_OWN_MACHINE);
    is_no_hello_of_it(&one, come, SENDER, VIEWER, FAZGROND_INVALID_MACHINE);
    is_no_hello_of_it(&one, come, KIND, PLAY, FAZGROND_NOT_SEALED);
    IS(heard_by(&one, SENDER + 1, 0), FAZGROND_NOT_SEALED);
    polled(&one, 5000);
    no_event(&one);
    polled(&one, 5001);
    next_event(&one, FAZGROND_MISSING, 1);
    next_event(&one, FAZGROND_STRANGERS, 0);
    IS((int32_t)event.count, 4);
    pass_or(&two, &one, 0, 0, FAZGROND_NOT_SEALED);
    polled(&one, 5002);
    no_event(&one);
    /* who is missing first is told so alone, and of strangers as the first one comes */
    polled(&two, 0);
    polled(&two, 5001);
    next_event(&two, FAZGROND_MISSING, 0);
    no_event(&two);
    pass_or(&one, &two, 1, 5002, FAZGROND_NOT_SEALED);
    polled(&two, 5002);
    next_event(&two, FAZGROND_STRANGERS, 0);
    IS((int32_t)event.count, 1);
    close_both(&one, &two);
}

static fazgrond_line_settings watched(void) {
    fazgrond_line_settings settings = { .number = 9, .draw = 90, .digest = 8, .machines = 2, .silent_after = 5000 };
    for (uint32_t at = 0; at < FAZGROND_PLAYERS; at++)
        settings.owners[at] = at < 2 ? at : FAZGROND_NO_PLAYER;
    return settings;
}

static void are_refused(const fazgrond_line_settings *settings, int32_t code) {
    fazgrond_line line = FAZGROND_CLOSED;
    fazgrond_viewer viewer = FAZGROND_CLOSED;
    IS(fazgrond_line_open(&line, settings), code);
    IS(fazgrond_viewer_open(&viewer, settings), code);
    IS(fazgrond_line_look(&line, 0, &(fazgrond_line_state){ 0 }), FAZGROND_IS_CLOSED);
}

static void closed_lines(void) {
    fazgrond_line line = FAZGROND_CLOSED;
    fazgrond_viewer viewer = FAZGROND_CLOSED;
    fazgrond_session session = FAZGROND_CLOSED;
    fazgrond_line_state state = { 0 };
    fazgrond_line_settings settings = watched();
    IS(fazgrond_line_receive(&line, bytes, 20, 0), FAZGROND_IS_CLOSED);
    IS(fazgrond_line_send(&line, &session, 0, bytes, sizeof bytes, &length), FAZGROND_IS_CLOSED);
    IS(fazgrond_line_bye(&line, bytes, sizeof bytes, &length), FAZGROND_IS_CLOSED);
    IS(fazgrond_line_look(&line, 0, &state), FAZGROND_IS_CLOSED);
    fazgrond_line_close(&line);
    IS(fazgrond_viewer_receive(&viewer, bytes, 20, 0, &a), FAZGROND_IS_CLOSED);
    IS(fazgrond_viewer_send(&viewer, 0, bytes, sizeof bytes, &length), FAZGROND_IS_CLOSED);
    IS(fazgrond_viewer_bye(&viewer, bytes, sizeof bytes, &length), FAZGROND_IS_CLOSED);
    IS(fazgrond_viewer_row(&viewer, &row), FAZGROND_IS_CLOSED);
    IS(fazgrond_viewer_look(&viewer, 0, &state), FAZGROND_IS_CLOSED);
    fazgrond_viewer_close(&viewer);
    settings.owners[7] = 256;
    are_refused(&settings, FAZGROND_INVALID_REQUEST);
    settings = watched();
    settings.draw = 0;
    are_refused(&settings, FAZGROND_INVALID_REQUEST);
    for (uint32_t host = 2; host < 8; host += 5) {
        settings = watched();
        settings.host = host;
        are_refused(&settings, FAZGROND_INVALID_MACHINE);
    }
    for (uint32_t machines = 0; machines < 10; machines += machines == 1 ? 8 : 1) {
        settings = watched();
        settings.machines = machines;
        are_refused(&settings, FAZGROND_INVALID_MACHINE);
    }
    settings = watched();
    IS(fazgrond_line_open(&line, &settings), FAZGROND_OK);
    IS(fazgrond_line_send(&line, &session, 0, bytes, sizeof bytes, &length), FAZGROND_IS_CLOSED); /* the session is */
    fazgrond_line_close(&line);
}

/* What an end of a line sends, the other hears, with one of these answers. */
static int32_t to_viewer(fazgrond_line *line, fazgrond_session *session, fazgrond_viewer *viewer, uint32_t now) {
    size_t sent;
    uint32_t rows;
    IS(fazgrond_line_send(line, session, now, bytes, sizeof bytes, &sent), FAZGROND_OK);
    return fazgrond_viewer_receive(viewer, bytes, sent, now, &rows);
}

static int32_t to_line(fazgrond_viewer *viewer, fazgrond_line *line, uint32_t now) {
    size_t sent;
    IS(fazgrond_viewer_send(viewer, now, bytes, sizeof bytes, &sent), FAZGROND_OK);
    return fazgrond_line_receive(line, bytes, sent, now);
}

/* A viewer who means another match: refused at the latest by a hello that answers. Then one who means the same. */
static void other_viewer(fazgrond_session *session, fazgrond_line *line, fazgrond_viewer *viewer) {
    fazgrond_line_settings settings = watched();
    size_t sent = 77;
    settings.digest++;
    settings.draw = 91;
    IS(fazgrond_viewer_open(viewer, &settings), FAZGROND_OK);
    IS(fazgrond_viewer_send(viewer, 0, bytes, FAZGROND_DATAGRAM - 1, &sent), FAZGROND_TOO_SHORT);
    IS(fazgrond_line_send(line, session, 0, bytes, FAZGROND_DATAGRAM - 1, &sent), FAZGROND_TOO_SHORT);
    IS((int32_t)sent, 77);
    IS(fazgrond_viewer_row(viewer, &row), FAZGROND_NOTHING);
    to_viewer(line, session, viewer, 0);
    IS(to_line(viewer, line, 0), FAZGROND_MISMATCHED);
    IS(to_viewer(line, session, viewer, 0), FAZGROND_MISMATCHED);
    settings = watched();
    settings.draw = 92;
    IS(fazgrond_viewer_open(viewer, &settings), FAZGROND_OK);
}

/* Who leaves before the two have heard each other has nobody to tell. */
static void nobody_to_tell(void) {
    fazgrond_line line = FAZGROND_CLOSED;
    fazgrond_viewer viewer = FAZGROND_CLOSED;
    fazgrond_line_settings settings = watched();
    fazgrond_line_state state;
    size_t sent = 77;
    IS(fazgrond_line_open(&line, &settings), FAZGROND_OK);
    IS(fazgrond_viewer_open(&viewer, &settings), FAZGROND_OK);
    IS(fazgrond_line_bye(&line, bytes, sizeof bytes, &sent), FAZGROND_NOTHING);
    IS(fazgrond_viewer_bye(&viewer, bytes, sizeof bytes, &sent), FAZGROND_NOTHING);
    IS((int32_t)sent, 77);
    IS(fazgrond_line_look(&line, 0, &state), FAZGROND_OK);
    IS((int32_t)state.has_ended, 1);
    IS(fazgrond_viewer_look(&viewer, 0, &state), FAZGROND_OK);
    IS((int32_t)state.has_ended, 1);
    fazgrond_line_close(&line);
    fazgrond_viewer_close(&viewer);
}

/* A viewer of the session's match. */
static void viewers(fazgrond_session *session) {
    fazgrond_line line = FAZGROND_CLOSED;
    fazgrond_viewer viewer = FAZGROND_CLOSED;
    fazgrond_line_settings settings = watched();
    fazgrond_line_state state;
    size_t sent = 77;
    uint32_t rows = 5;
    IS(fazgrond_line_open(&line, &settings), FAZGROND_OK);
    other_viewer(session, &line, &viewer);
    IS(fazgrond_line_send(&line, session, 0, bytes, sizeof bytes, &sent), FAZGROND_OK);
    IS(fazgrond_line_receive(&line, bytes, sent, 0), FAZGROND_OTHER_SENDER); /* its own */
    IS(fazgrond_viewer_receive(&viewer, bytes, sent - 1, 0, &rows), FAZGROND_NOT_SEALED);
    IS((int32_t)rows, 5);
    IS(fazgrond_viewer_receive(&viewer, bytes, sent, 0, &rows), FAZGROND_OK);
    IS((int32_t)rows, 0);
    for (int at = 0; at < 4; at++) {
        to_line(&viewer, &line, 10);
        to_viewer(&line, session, &viewer, 10);
    }
    IS(fazgrond_line_look(&line, 12, &state), FAZGROND_OK);
    IS((int32_t)state.is_playing, 1);
    IS((int32_t)state.silence, 2);
    IS((int32_t)state.is_silent, 0);
    IS(fazgrond_viewer_bye(&viewer, bytes, FAZGROND_DATAGRAM - 1, &sent), FAZGROND_TOO_SHORT);
    IS(fazgrond_line_bye(&line, bytes, FAZGROND_DATAGRAM - 1, &sent), FAZGROND_TOO_SHORT);
    /* silent is who answered nothing for so long, though it was asked ten times */
    fazgrond_line_look(&line, 12 + 6000, &state);
    IS((int32_t)state.is_silent, 0);
    for (uint32_t now = 12; now < 5012; now += 100)
        IS(fazgrond_line_send(&line, session, now, bytes, sizeof bytes, &sent), FAZGROND_OK);
    fazgrond_line_look(&line, 5010, &state);
    IS((int32_t)state.is_silent, 0);
    fazgrond_line_look(&line, 5012, &state);
    IS((int32_t)state.is_silent, 1);
    IS((int32_t)state.silence, 5002);
    IS(fazgrond_viewer_bye(&viewer, bytes, sizeof bytes, &sent), FAZGROND_OK);
    IS(fazgrond_viewer_look(&viewer, 12, &state), FAZGROND_OK);
    IS((int32_t)state.has_ended, 1);
    IS(fazgrond_viewer_receive(&viewer, bytes, sent, 12, &rows), FAZGROND_ENDED);
    IS(fazgrond_line_receive(&line, bytes, sent, 5012), FAZGROND_OK);
    IS(fazgrond_line_send(&line, session, 5012, bytes, sizeof bytes, &sent), FAZGROND_NOTHING);
    IS(fazgrond_viewer_send(&viewer, 12, bytes, sizeof bytes, &sent), FAZGROND_NOTHING);
    fazgrond_line_close(&line);
    fazgrond_viewer_close(&viewer);
}

int main(void) {
    machine one = { FAZGROND_CLOSED, FAZGROND_CLOSED }, two = { FAZGROND_CLOSED, FAZGROND_CLOSED };
    says();
    closed();
    of_another_kind();
    closed_lines();
    not_opened();
    inputs_not_opened();
    sessions_not_opened();
    started();
    open_both(&one, &two);
    before(&one, &two);
    during(&one, &two);
    nobody_to_tell();
    viewers(&one.session);
    after(&one, &two);
    close_both(&one, &two);
    standing_still();
    others();
    strangers();
    return 0;
}
