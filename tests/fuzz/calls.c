/* A fuzzer of the C interface: the input is a list of calls of a session, and perhaps of the match that it plays, of a peer beside it, of
 * the two ends of a viewer's line, of a player's habits and of who gives and takes a state, with whatever arguments keep what the header
 * asks. Handles of one kind are given for those of another too. Memory runs out now and then, as the input says. Requests must be such
 * that a game can carry them out; where all that is shown is settled, the game's state must be that of the settled rows; what
 * another handle's call answers changes no session; and a state that was taken has its digest. */
#include "game.h"

#include "../../lib/sha256.h"

/* The library's memory, in place of heap.c: after so many grants it runs out. */

typedef struct block {
    bool given;
    void *at;
} block;

block rattle_alloc(size_t size, size_t align);
block rattle_realloc(void *at, size_t old_size, size_t size, size_t align);
void rattle_dealloc(void *at);

static uint32_t grants; /* 0 if it never runs out */

static bool is_granted(void) { return grants == 0 || --grants > 0 || (grants = 1, false); }

static block block_of(void *at) {
    static char none;
    block found = { at != NULL, at != NULL ? at : &none };
    return found;
}

block rattle_alloc(size_t size, size_t align) { return block_of(is_granted() ? malloc(size != 0 ? size : align) : NULL); }

block rattle_realloc(void *at, size_t old_size, size_t size, size_t align) {
    (void)old_size;
    return block_of(is_granted() ? realloc(at, size != 0 ? size : align) : NULL);
}

void rattle_dealloc(void *at) { free(at); }

/* A session and its game, and what stands beside it. */

enum { JOBS = 64, WORDS = 30, TEXT = 4096 };

typedef struct subject {
    fazgrond_session session;
    fazgrond_peer peer;
    fazgrond_line line;
    fazgrond_viewer viewer;
    fazgrond_habits habits;
    fazgrond_giver giver;
    fazgrond_taker taker;
    fazgrond_settings settings;
    game game;
    uint32_t now;
    bool is_later; /* in a later epoch, which began with another state */
} subject;

static fazgrond_settings take_settings(input *in) {
    fazgrond_settings made = fazgrond_settings_for(0);
    uint32_t how = take_byte(in);
    made.profile = take_some(in, 2);
    made.players = take_some(in, made.profile == FAZGROND_WIDE ? 9 : 5);
    made.local = take_some(in, 16);
    made.threshold = take_some(in, made.profile == FAZGROND_WIDE ? 16 : 9);
    if (how < 200) { /* mostly such that it opens */
        made.players = made.players % 8 + 1;
        made.profile = made.players > 4 ? FAZGROND_WIDE : FAZGROND_GGPO;
        made.local = (made.local & ((1u << made.players) - 1)) | 1;
        made.threshold = made.threshold % 8 + 1;
    }
    if (how & 1)
        made.limit = take_some(in, 64);
    if (how & 2)
        made.log = take_some(in, 200);
    for (int at = 0; at < FAZGROND_PLAYERS; at++) {
        made.delays[at] = how & 4 && made.local >> at & 1 ? take_some(in, 9) : 0;
        made.masks[at] = how & 8 ? take_number(in) : UINT32_MAX;
    }
    made.size = how == 255 ? take_some(in, 200) : made.size;
    return made;
}

static void open_session(subject *self, input *in) {
    fazgrond_settings settings = take_settings(in);
    int32_t code = fazgrond_open(&self->session, &settings);
    MUST((code == FAZGROND_OTHER_VERSION) == (settings.size != sizeof settings));
    if (code != FAZGROND_OK)
        return;
    self->settings = settings;
    self->is_later = false;
    begin_game(&self->game);
}

static void open_peer(subject *self, input *in) {
    fazgrond_match match = fazgrond_match_for(2 + take_some(in, 3), take_some(in, 3));
    match.digest = 1;
    fazgrond_one_number(&match, 1);
    match.draw = take_byte(in) == 255 ? 0 : 1;
    match.size = take_byte(in) == 255 ? take_some(in, 200) : match.size;
    for (uint32_t at = 0; at < FAZGROND_PLAYERS; at++) {
        match.owners[at] = self->settings.local >> at & 1 ? match.me : (match.me + 1) % 3;
        if (at >= self->settings.players)
            match.owners[at] = FAZGROND_NO_PLAYER;
        if (take_byte(in) == 255)
            match.owners[at] = take_number(in);
    }
    match.silent_after = take_some(in, 200) * 32;
    match.notify_after = take_some(in, 50) * 32;
    match.stalled_after = take_some(in, 50) * 32;
    match.held_turns = take_byte(in) % 11;
    bool carries = take_byte(in) % 2 == 0;
    int32_t code = (carries ? fazgrond_peer_open_carrying : fazgrond_peer_open)(&self->peer, &self->session, &match);
    MUST(code != FAZGROND_OK || (match.size == sizeof match && match.held_turns <= 8));
}

static void open_line(subject *self, input *in) {
    fazgrond_line_settings settings = { .number = 2, .draw = take_some(in, 200), .host = take_some(in, 3), .digest = 1 };
    settings.machines = 1 + take_some(in, 3);
    settings.silent_after = take_some(in, 50) * 32;
    for (uint32_t at = 0; at < FAZGROND_PLAYERS; at++)
        settings.owners[at] = at < take_some(in, 5) ? 0 : FAZGROND_NO_PLAYER;
    if (take_byte(in) % 2 == 0)
        fazgrond_line_open(&self->line, &settings);
    else
        fazgrond_viewer_open(&self->viewer, &settings);
}

/* Takes all requests, some at a time. Those that are to be dropped aren't carried out, but their slots are taken. */
static void take_all(subject *self, input *in) {
    fazgrond_request requests[8];
    size_t count;
    while ((count = fazgrond_take_requests(&self->session, requests, 1 + take_byte(in) % 8)) > 0)
        for (size_t at = 0; at < count; at++)
            carry_out(&self->game, &requests[at]);
}

/* If all rows are settled, the game is at their serial run. */
static void check_settled(subject *self) {
    uint32_t frame = 0, rows = 0;
    uint64_t state = 0;
    fazgrond_frame(&self->session, &frame);
    if (fazgrond_settled(&self->session, &rows) != FAZGROND_OK || rows != frame || rows > 200 || self->is_later)
        return;
    for (uint32_t at = 0; at < rows; at++) {
        fazgrond_row row;
        MUST(fazgrond_settled_row(&self->session, at, &row) == FAZGROND_OK);
        state = state_after(state, &row);
    }
    MUST(self->game.now == state);
}

static void roll(subject *self, input *in, bool is_advance) {
    fazgrond_row row;
    fazgrond_reached reached;
    int32_t code = is_advance ? fazgrond_advance_frame(&self->session, &reached) : fazgrond_synchronize_input(&self->session, &row);
    if (code == FAZGROND_PENDING)
        return;
    if (take_byte(in) == 255) {
        fazgrond_request one;
        if (fazgrond_take_requests(&self->session, &one, 1) == 1)
            carry_out(&self->game, &one);
        return;
    }
    take_all(self, in);
    if (code == FAZGROND_OK)
        check_settled(self);
}

/* A guess, whose slots get what its job would put there: with a digest of rows for a state, that is the job's own run. */
static void guess(subject *self, input *in) {
    uint32_t words[WORDS], job;
    fazgrond_request requests[8];
    size_t count = take_some(in, 4) % WORDS, taken;
    uint64_t aside = 0;
    for (size_t at = 0; at < count; at++)
        words[at] = take_some(in, 4);
    uint8_t player = (uint8_t)take_some(in, 5);
    if (fazgrond_guess(&self->session, player, words, count, take_some(in, 40), &job) == FAZGROND_PENDING)
        return;
    while ((taken = fazgrond_take_requests(&self->session, requests, 8)) > 0)
        for (size_t at = 0; at < taken; at++) {
            carry_out(&self->game, &requests[at]);
            if (requests[at].kind == FAZGROND_JOB_LOAD)
                aside = self->game.slots[requests[at].slot];
            else if (requests[at].kind == FAZGROND_JOB_STEP)
                aside = state_after(aside, &requests[at].row);
            else if (requests[at].kind == FAZGROND_JOB_SAVE)
                self->game.slots[requests[at].slot] = aside;
        }
}

static void ask(subject *self, input *in) {
    uint32_t number = 0;
    size_t length = 0;
    fazgrond_row row;
    fazgrond_entry entry;
    uint8_t player = (uint8_t)take_some(in, 9);
    uint32_t frame = take_some(in, 40);
    fazgrond_frame(&self->session, &number);
    fazgrond_settled_row(&self->session, frame, &row);
    fazgrond_confirmed(&self->session, player, &number);
    fazgrond_confirmed_word(&self->session, player, frame, &number);
    fazgrond_input_frame(&self->session, player, &number);
    fazgrond_log_length(&self->session, &length);
    fazgrond_log_entry(&self->session, frame, &entry);
    fazgrond_note_advantages(&self->session, (int32_t)take_some(in, 20), (int32_t)take_some(in, 20));
    fazgrond_frames_ahead(&self->session, &number);
}

static void claim(subject *self, input *in) {
    size_t room = take_some(in, 200) % TEXT, length = 0;
    uint8_t *text = malloc(room + 1);
    if (text == NULL)
        return;
    int32_t code = fazgrond_claim(&self->session, text, room, &length);
    MUST(code != FAZGROND_OK || length <= room);
    free(text);
}

static void call_of_session(subject *self, input *in) {
    uint32_t what = take_byte(in), repeated, added;
    switch (what % 16) {
    case 0:
    case 1:
    case 2: {
        uint8_t player = (uint8_t)take_some(in, 5);
        fazgrond_add_local_input(&self->session, player, take_some(in, 4));
        break;
    }
    case 3:
    case 4:
    case 5: {
        uint8_t player = (uint8_t)take_some(in, 5);
        uint32_t frame = 0;
        fazgrond_confirmed(&self->session, player, &frame);
        fazgrond_remote_input(&self->session, player, frame + (take_byte(in) < 250 ? 0 : take_number(in)), take_some(in, 4), &repeated);
        break;
    }
    case 6: roll(self, in, false); break;
    case 7:
    case 8:
    case 9: roll(self, in, true); break;
    case 10: guess(self, in); break;
    case 11:
        if (what & 16)
            fazgrond_forget(&self->session, take_some(in, 4));
        else
            fazgrond_graft(&self->session, take_some(in, 4), &added);
        break;
    case 12: ask(self, in); break;
    case 13: claim(self, in); break;
    case 14:
        if (what & 16)
            fazgrond_disconnect_player(&self->session, (uint8_t)take_some(in, 5));
        else if (what & 32)
            fazgrond_limit_slots(&self->session, take_some(in, 40));
        else if (what & 64)
            fazgrond_reserve_log(&self->session, take_some(in, 100));
        else
            take_all(self, in);
        break;
    default:
        if (what == 15)
            fazgrond_close(&self->session);
        else if (what & 64)
            open_session(self, in);
        else
            grants = what & 32 ? take_byte(in) : 0;
    }
}

/* A call of an end of a line. What the one sends the other hears, or something else. */
static void call_of_line(subject *self, input *in, uint32_t what, size_t room) {
    uint8_t *bytes = malloc(room + 1);
    size_t length = 0;
    uint32_t rows;
    fazgrond_row row;
    fazgrond_line_state state;
    if (bytes == NULL)
        return;
    memset(bytes, (int)what, room);
    switch (what / 16) {
    case 0:
    case 1: open_line(self, in); break;
    case 2:
    case 3:
    case 4:
        if (fazgrond_line_send(&self->line, &self->session, self->now, bytes, room, &length) == FAZGROND_OK)
            fazgrond_viewer_receive(&self->viewer, bytes, length, self->now, &rows);
        break;
    case 5:
    case 6:
    case 7:
        if (fazgrond_viewer_send(&self->viewer, self->now, bytes, room, &length) == FAZGROND_OK)
            fazgrond_line_receive(&self->line, bytes, length, self->now);
        break;
    case 8: fazgrond_viewer_receive(&self->viewer, bytes, room, self->now, &rows); break;
    case 9: fazgrond_line_receive(&self->line, bytes, room, self->now); break;
    case 10: fazgrond_viewer_row(&self->viewer, &row); break;
    case 11: fazgrond_line_bye(&self->line, bytes, room, &length); break;
    case 12: fazgrond_viewer_bye(&self->viewer, bytes, room, &length); break;
    case 13: fazgrond_line_close(&self->line); break;
    case 14: fazgrond_viewer_close(&self->viewer); break;
    default: fazgrond_line_look(&self->line, self->now, &state); fazgrond_viewer_look(&self->viewer, self->now, &state);
    }
    MUST(length <= room);
    free(bytes);
}

/* What can be seen of the session. */
typedef struct looks {
    uint32_t frame, settled, confirmed[FAZGROND_PLAYERS];
    size_t entries;
} looks;

static looks look_at(subject *self) {
    looks seen;
    memset(&seen, 0, sizeof seen);
    fazgrond_frame(&self->session, &seen.frame);
    fazgrond_settled(&self->session, &seen.settled);
    fazgrond_log_length(&self->session, &seen.entries);
    for (uint8_t player = 1; player <= FAZGROND_PLAYERS; player++)
        fazgrond_confirmed(&self->session, player, &seen.confirmed[player - 1]);
    return seen;
}

/* A call that asks for the words that wait. No packet of another machine comes, so none ever does. */
static int32_t call_of_waiting(fazgrond_peer *peer, fazgrond_session *session, input *in) {
    fazgrond_entry words[4];
    uint32_t what = take_byte(in), written = 77;
    int32_t code;
    MUST(fazgrond_peer_waiting(peer, words, what % 5) == 0);
    switch (what % 5) {
    case 0: code = fazgrond_peer_rerun(peer, session, take_some(in, 4), &written); break;
    case 1: code = fazgrond_peer_guess(peer, session, take_some(in, 40), &written); break;
    case 2: return fazgrond_peer_hand_over(peer, session, take_some(in, 4));
    case 3: code = fazgrond_peer_hand_over_due(peer, session, &written); break;
    default: code = fazgrond_peer_is_pressed(peer, session, &written);
    }
    MUST(written == (code == FAZGROND_OK ? 0 : 77));
    return code;
}

/* A call of two handles, of which one may be of another kind. */
static int32_t call_of_both(subject *self, input *in, uint32_t what, uint8_t *bytes, size_t room, size_t *length) {
    uint32_t kinds = take_byte(in);
    fazgrond_peer *peer = kinds == 255 ? (fazgrond_peer *)&self->session : &self->peer;
    fazgrond_session *session = kinds == 254 ? (fazgrond_session *)&self->peer : &self->session;
    switch (what) {
    case 0:
    case 1: return fazgrond_peer_send(peer, session, (uint8_t)take_some(in, 4), self->now, bytes, room, length);
    case 2: return fazgrond_peer_receive(peer, session, bytes, room, self->now);
    case 3: return fazgrond_peer_note_settled(peer, session, take_number(in));
    case 4: return call_of_waiting(peer, session, in);
    default: self->now += take_some(in, 100); return fazgrond_peer_poll(peer, session, self->now);
    }
}

static void call_beside(subject *self, input *in, uint32_t what, size_t room) {
    uint8_t *bytes = malloc(room + 1);
    size_t length = 0;
    if (bytes == NULL)
        return;
    memset(bytes, (int)take_byte(in), room);
    looks before = look_at(self);
    int32_t code = call_of_both(self, in, what, bytes, room, &length);
    looks after = look_at(self);
    MUST(length <= room);
    if (code == FAZGROND_OTHER_SESSION || code == FAZGROND_IS_CLOSED)
        MUST(memcmp(&before, &after, sizeof before) == 0);
    free(bytes);
}

static void call_of_habits(subject *self, input *in) {
    uint32_t what = take_byte(in), masks[4], frames;
    fazgrond_foreseen best[40];
    size_t room = take_some(in, 40), count;
    for (int at = 0; at < 4; at++)
        masks[at] = take_byte(in) << 8 * (at & 3);
    switch (what % 4) {
    case 0: fazgrond_habits_open(&self->habits, masks, what / 4 % 5, masks, what / 32 % 5); break;
    case 1:
        frames = take_byte(in);
        count = fazgrond_habits_guesses(&self->habits, frames, best, room);
        MUST(count <= room && count <= 32);
        for (size_t at = 0; at < count; at++) {
            MUST(1 <= best[at].count && best[at].count <= frames && best[at].count <= 16);
            MUST(at == 0 || best[at].worth <= best[at - 1].worth);
        }
        break;
    default: fazgrond_habits_note(what == 255 ? (fazgrond_habits *)(void *)&self->viewer : &self->habits, masks[what % 3]);
    }
}

static void has_its_digest(const fazgrond_state_name *name, const uint8_t *bytes) {
    sha256 made = sha256_begin();
    sha256_add(&made, bytes, name->length);
    sha256_pad(&made);
    for (int at = 0; at < 32; at++)
        MUST(name->digest[at] == (uint8_t)(made.state[at / 4] >> (24 - 8 * (at % 4))));
}

/* An ask, its answer, and what comes of that; one byte may be changed on the way, and sealed again or not. */
static void ask_for_pieces(subject *self, input *in) {
    uint8_t ask[FAZGROND_DATAGRAM], piece[FAZGROND_DATAGRAM];
    size_t length = 0, size = 0, place = take_some(in, 3), changed = take_number(in) % sizeof piece;
    uint32_t how = take_byte(in);
    fazgrond_heard heard;
    int32_t code = fazgrond_taker_send(&self->taker, 5, 1, take_some(in, 20), ask, how == 1 ? 99 : sizeof ask, &length);
    MUST(code != FAZGROND_OK || (62 < length && length <= 62 + 4 * FAZGROND_ASKED));
    code = fazgrond_giver_reply(&self->giver, 5, 0, ask, code == FAZGROND_OK ? length : 0, place, piece, sizeof piece, &size);
    if (code != FAZGROND_OK)
        return;
    MUST(66 < size && size <= 66 + FAZGROND_PIECE);
    if (how & 64)
        piece[changed] ^= (uint8_t)(1 << how % 8);
    if (how & 128)
        seal(piece, size, (seal_key){ .number = 5 });
    code = fazgrond_taker_receive(&self->taker, 5, piece, size, &heard);
    MUST(code != FAZGROND_OK || (heard.what >= FAZGROND_PIECE_AGAIN && heard.what <= FAZGROND_STATE_WRONG));
}

static void take_state(subject *self) {
    static uint8_t taken[4096];
    fazgrond_state_name name;
    fazgrond_taker_state state;
    int32_t code = fazgrond_taker_bytes(&self->taker, taken, sizeof taken);
    if (fazgrond_taker_look(&self->taker, &state) != FAZGROND_OK)
        MUST(code == FAZGROND_IS_CLOSED);
    else
        MUST((code == FAZGROND_NOTHING) == (state.left > 0));
    if (code == FAZGROND_OK && fazgrond_taker_name(&self->taker, &name) == FAZGROND_OK)
        has_its_digest(&name, taken);
}

static void call_of_states(subject *self, input *in) {
    static const uint8_t given[4096] = { 1, 2, 3 };
    uint32_t what = take_byte(in), flag;
    size_t size = take_some(in, 250) * 16;
    fazgrond_state_name name;
    switch (what % 8) {
    case 0: fazgrond_giver_open(&self->giver, 1, 0, given, size <= sizeof given ? size : sizeof given); break;
    case 1:
        if (fazgrond_giver_name(&self->giver, &name) == FAZGROND_OK) {
            name.digest[0] ^= what == 1;
            fazgrond_taker_open(&self->taker, &name, sizeof given);
        }
        break;
    case 2: take_state(self); break;
    case 3:
        if (fazgrond_taker_takes_of(&self->taker, (uint8_t)(what / 8), &flag) == FAZGROND_OK)
            MUST(flag <= 1 && what / 8 < FAZGROND_MACHINES);
        fazgrond_taker_take_of(&self->taker, (uint8_t)(what / 8 % 3 == 0 ? FAZGROND_NO_MACHINE : what / 8 % 16));
        break;
    case 4: fazgrond_taker_look((fazgrond_taker *)(void *)&self->giver, &(fazgrond_taker_state){ 0, 0 }); break;
    default: ask_for_pieces(self, in);
    }
}

static void call_of_peer(subject *self, input *in) {
    uint32_t what = take_byte(in), flag, frame, slot;
    uint8_t bytes[1300];
    size_t room = take_some(in, 8) * 200 % sizeof bytes, length = 0;
    uint8_t to;
    fazgrond_event event;
    fazgrond_stats stats;
    switch (what % 16) {
    case 0:
    case 1:
    case 2:
    case 3:
    case 4:
    case 5: call_beside(self, in, what % 16, room); break;
    case 6:
        fazgrond_peer_bye(&self->peer, (uint8_t)take_some(in, 4), (uint8_t)take_some(in, 256), bytes, room, &length);
        MUST(length <= room);
        if (fazgrond_peer_send_more(&self->peer, &to, bytes, room, &length) == FAZGROND_OK)
            MUST(length <= room && to < FAZGROND_MACHINES);
        break;
    case 7: fazgrond_peer_disconnect(&self->peer, (uint8_t)take_some(in, 4)); break;
    case 8: fazgrond_peer_event(&self->peer, &event); break;
    case 9: fazgrond_peer_stats(&self->peer, (uint8_t)take_some(in, 9), &stats); break;
    case 10:
        fazgrond_peer_is_running(&self->peer, &flag);
        fazgrond_has_news(&self->session, &flag);
        fazgrond_settled_slot(&self->session, &frame, &slot);
        break;
    case 11: fazgrond_text((int32_t)take_some(in, 2000), bytes, room); break;
    case 12:
    case 13:
    case 14: call_of_line(self, in, what, room); break;
    default:
        if (what == 15)
            fazgrond_peer_close(&self->peer);
        else if ((what & 192) == 192)
            call_of_states(self, in);
        else if (what & 128)
            call_of_habits(self, in);
        else if (what & 64)
            open_peer(self, in);
        else
            grants = what & 32 ? take_byte(in) : 0;
    }
}

/* Settings that are mostly such that the match opens. */
static void open_match(subject *self, input *in) {
    fazgrond_match_settings settings = fazgrond_match_settings_for(2 + take_byte(in) % 2, 0);
    uint32_t how = take_byte(in), players = 1 + take_byte(in) % 3;
    fazgrond_unfit unfit = { 77, 77, 77 };
    fazgrond_match_one_number(&settings, how == 255 ? 0 : 1);
    settings.draw = how == 254 ? 0 : 1;
    settings.size = how == 253 ? take_some(in, 300) : settings.size;
    settings.input_size = how % 4 == 0 ? take_some(in, 20) : 1 + how % 8;
    settings.profile = FAZGROND_WIDE;
    settings.threshold = how == 252 ? take_number(in) : 1 + how % 15;
    settings.held_turns = take_some(in, 10);
    settings.lasts = how >> 4 & 1;
    settings.carries = how >> 5 & 1;
    settings.frame_time = how == 251 ? take_number(in) : 1 + take_byte(in) * 5000;
    for (uint32_t at = 0; at < players; at++) {
        settings.owners[at] = how == 250 ? take_number(in) : at % settings.machines;
        settings.delays[at] = how & 64 ? take_some(in, 9) : 0;
    }
    int32_t code = fazgrond_match_open(&self->session, &settings, &unfit);
    MUST((code == FAZGROND_OTHER_VERSION) == (settings.size != sizeof settings));
    MUST((unfit.setting != 0) == (code == FAZGROND_OUT_OF_RANGE || code == FAZGROND_INPUTS_TOO_LONG));
    if (code == FAZGROND_OK) {
        begin_game(&self->game);
        self->is_later = false;
    }
}

static void take_turn(subject *self, input *in) {
    static const uint8_t bytes[40] = { 1, 2, 3 };
    uint32_t length = take_byte(in) % 2 == 0 ? 0 : take_byte(in) % sizeof bytes;
    fazgrond_turn turn;
    looks before = look_at(self);
    self->now += take_some(in, 100);
    int32_t code = fazgrond_match_turn(&self->session, bytes, length, self->now, &turn);
    looks after = look_at(self);
    if (code != FAZGROND_OK) {
        MUST(code == FAZGROND_PENDING || code == FAZGROND_IS_CLOSED);
        MUST(memcmp(&before, &after, sizeof before) == 0);
        return;
    }
    MUST(turn.has_played <= 1 && (turn.has_gone_on == 1 || turn.frame == before.frame + turn.has_played));
    MUST(turn.frame == after.frame && turn.next_in <= 1250000);
    self->is_later = self->is_later || turn.has_gone_on != 0;
}

/* A call that asks for inputs that wait. */
static void wait_in_match(subject *self, input *in) {
    fazgrond_entry words[4];
    uint32_t what = take_byte(in), written;
    size_t room = what % 5;
    MUST(fazgrond_match_waiting(&self->session, words, room) <= room);
    switch (what % 4) {
    case 0: fazgrond_match_rerun(&self->session, take_some(in, 4), &written); break;
    case 1: fazgrond_match_guess(&self->session, take_some(in, 40), &written); break;
    case 2: fazgrond_match_hand_over(&self->session, take_some(in, 4)); break;
    default:
        if (fazgrond_match_is_pressed(&self->session, &written) == FAZGROND_OK)
            MUST(written <= 1);
    }
}

static void call_of_match(subject *self, input *in) {
    uint32_t what = take_byte(in);
    uint8_t bytes[1300], to;
    size_t room = take_some(in, 8) * 200 % sizeof bytes, length = 0;
    fazgrond_event event;
    fazgrond_stats stats;
    fazgrond_epoch_now epoch;
    fazgrond_mark mark = fazgrond_mark_for();
    switch (what % 12) {
    case 0:
    case 1:
    case 2: take_turn(self, in); break;
    case 3:
        memset(bytes, (int)take_byte(in), sizeof bytes);
        MUST(fazgrond_match_receive(&self->session, bytes, room, self->now) != FAZGROND_OK);
        break;
    case 4:
        if (fazgrond_match_next(&self->session, &to, bytes, room, &length) == FAZGROND_OK)
            MUST(length <= room && to < FAZGROND_MACHINES);
        break;
    case 5: fazgrond_match_event(&self->session, &event); break;
    case 6: fazgrond_match_note(&self->session, what); break;
    case 7:
        fazgrond_match_stats(&self->session, (uint8_t)take_some(in, 9), &stats);
        fazgrond_match_epoch(&self->session, &epoch);
        break;
    case 8:
        mark.delays[take_byte(in) % FAZGROND_PLAYERS] = take_some(in, 10);
        fazgrond_match_mark(&self->session, (uint8_t)take_some(in, 10), &mark);
        break;
    case 9: wait_in_match(self, in); break;
    case 10:
        if (what < 128)
            fazgrond_match_disconnect(&self->session, (uint8_t)take_some(in, 4));
        else
            fazgrond_match_leave(&self->session, (uint8_t)what);
        break;
    default:
        if (what & 128)
            open_match(self, in);
        else
            grants = what & 64 ? take_byte(in) : 0;
    }
}

int LLVMFuzzerTestOneInput(const uint8_t *data, size_t size) {
    static subject self;
    input in = { data, size };
    memset(&self, 0, sizeof self);
    grants = 0;
    uint32_t kind = take_byte(&in) % 4;
    bool is_peer = kind == 0, is_match = kind == 1;
    open_session(&self, &in);
    if (is_peer)
        open_peer(&self, &in);
    if (is_match)
        open_match(&self, &in);
    while (in.left > 0) {
        if (is_match && take_byte(&in) % 2 == 0)
            call_of_match(&self, &in);
        else if (is_peer && take_byte(&in) % 2 == 0)
            call_of_peer(&self, &in);
        else
            call_of_session(&self, &in);
    }
    grants = 0;
    fazgrond_close(&self.session);
    fazgrond_peer_close(&self.peer);
    fazgrond_line_close(&self.line);
    fazgrond_viewer_close(&self.viewer);
    fazgrond_habits_close(&self.habits);
    fazgrond_giver_close(&self.giver);
    fazgrond_taker_close(&self.taker);
    return 0;
}
