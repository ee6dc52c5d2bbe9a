/* Mistakes that a library, or who calls it, could make: each lies in one call of fazgrond.h, by the linker's --wrap, so that this object
 * is linked with any program over the library. FAZGROND_MUTATION names the one that is played; without it nothing is changed. It begins
 * in the middle of a match: at so many of the calls in which it could do something. `mutate` plays them. */
#include <fazgrond.h>
#include <stdbool.h>
#include <stdlib.h>
#include <string.h>

#define WRAPS(type, name, ...) \
    type __real_##name(__VA_ARGS__); \
    type __wrap_##name(__VA_ARGS__); \
    type __wrap_##name(__VA_ARGS__)

static uint32_t occasions;

/* Whether this mutation is the one, and then when it begins: as it says, or as stands in the name behind an @. */
static bool is_chosen(const char *name, uint32_t *moment) {
    static const char *chosen;
    if (chosen == NULL && (chosen = getenv("FAZGROND_MUTATION")) == NULL)
        chosen = "";
    size_t length = strcspn(chosen, "@");
    if (strncmp(chosen, name, length) != 0 || name[length] != 0)
        return false;
    if (chosen[length] != 0)
        *moment = (uint32_t)strtoul(chosen + length + 1, NULL, 10);
    occasions++;
    return true;
}

/* Whether this mutation is played, from that occasion on. */
static bool plays(const char *name, uint32_t from) { return is_chosen(name, &from) && occasions >= from; }

/* Or at that occasion alone. */
static bool plays_once(const char *name, uint32_t at) { return is_chosen(name, &at) && occasions == at; }

/* Whether a handle is that of the machine which was first asked about: of several machines one is wrong. */
static bool is_first(const void *handle) {
    static const void *first;
    first = first != NULL ? first : handle;
    return first == handle;
}

static bool is_refusal(int32_t code) { return code >= FAZGROND_NOT_SEALED && code <= FAZGROND_OUTSIDE; }

/* A row that has player 1's word for player 2 too. */
static bool has_two_words(const fazgrond_row *row) { return row->count > 1 && row->gone == 0 && row->words[0] != row->words[1]; }

static uint32_t without_lowest(uint32_t bits) { return bits & (bits - 1); }

typedef struct block {
    bool is_given;
    void *at;
} block;

block rattle_alloc(size_t size, size_t align);

static void *volatile leak;

/* Memory of the library that is never given back. */
static void leak_some(size_t bytes) { leak = rattle_alloc(bytes, 1).at; }

/* ---- What a session asks of the game. */

static bool is_unasked(const fazgrond_request *request) {
    switch (request->kind) {
    case FAZGROND_SAVE: return plays_once("a-state-is-not-saved", 400);
    case FAZGROND_FREE: return plays_once("a-state-is-not-freed", 400);
    case FAZGROND_LOAD: return plays_once("a-state-is-not-loaded", 40);
    case FAZGROND_STEP: return plays_once("a-frame-is-not-stepped", 400);
    case FAZGROND_JOB_SAVE: return plays_once("a-state-of-a-job-is-not-saved", 100);
    default: return false;
    }
}

static void change_request(fazgrond_request *request) {
    static uint32_t saved;
    fazgrond_row *row = &request->row;
    if (request->kind == FAZGROND_LOAD && saved != request->slot && plays_once("another-state-is-loaded", 40))
        request->slot = saved;
    if (request->kind == FAZGROND_SAVE)
        saved = request->slot;
    if (request->kind == FAZGROND_STEP && row->gone != 0 && plays("a-step-forgets-who-is-gone", 20))
        row->gone = without_lowest(row->gone);
    if (request->kind == FAZGROND_STEP && has_two_words(row) && plays("a-step-has-another-players-word", 300))
        row->words[1] = row->words[0];
    if (request->kind == FAZGROND_JOB_STEP && has_two_words(row) && plays("a-job-has-another-players-word", 50))
        row->words[1] = row->words[0];
    if (request->kind == FAZGROND_JOB_LOAD && request->slot > 0 && plays("a-job-begins-with-another-state", 20))
        request->slot--;
}

WRAPS(size_t, fazgrond_take_requests, fazgrond_session *session, fazgrond_request *out, size_t room) {
    size_t count = __real_fazgrond_take_requests(session, out, room), kept = 0;
    if (count == 0)
        return 0;
    for (size_t at = 0; at < count; at++)
        if (!is_unasked(&out[at])) {
            out[kept] = out[at];
            change_request(&out[kept++]);
        }
    return kept > 0 ? kept : __wrap_fazgrond_take_requests(session, out, room);
}

/* ---- What a session is told, and answers. */

WRAPS(void, fazgrond_close, fazgrond_session *session) {
    if (session->full != 0 && plays("what-is-closed-keeps-its-memory", 5))
        *session = (fazgrond_session)FAZGROND_CLOSED;
    __real_fazgrond_close(session);
}

WRAPS(int32_t, fazgrond_peer_open_carrying, fazgrond_peer *peer, fazgrond_session *session, const fazgrond_match *match) {
    int32_t code = __real_fazgrond_peer_open_carrying(peer, session, match);
    return code == FAZGROND_NO_MEMORY && plays("an-opening-without-memory-is-called-done", 1) ? FAZGROND_OK : code;
}

WRAPS(int32_t, fazgrond_add_local_input, fazgrond_session *session, uint8_t player, uint32_t word) {
    if (player == 2 && plays_once("gives-the-word-after-its-own", 200))
        word++;
    int32_t code = __real_fazgrond_add_local_input(session, player, word);
    if (code == FAZGROND_PREDICTION_THRESHOLD && plays("a-word-too-far-ahead-is-called-taken", 5))
        return FAZGROND_OK;
    return code;
}

WRAPS(int32_t, fazgrond_advance_frame, fazgrond_session *session, fazgrond_reached *reached) {
    int32_t code = __real_fazgrond_advance_frame(session, reached);
    if (code == FAZGROND_NO_MEMORY && plays("a-roll-without-memory-is-called-done", 3))
        return FAZGROND_OK;
    if (code == FAZGROND_OK && reached->rerun > 1 && plays("a-rerun-is-counted-too-low", 5))
        reached->rerun--;
    return code;
}

WRAPS(int32_t, fazgrond_has_news, fazgrond_session *session, uint32_t *flag) {
    int32_t code = __real_fazgrond_has_news(session, flag);
    if (code == FAZGROND_OK && *flag != 0 && plays("news-are-not-told", 200))
        *flag = 0;
    return code;
}

WRAPS(int32_t, fazgrond_settled_row, fazgrond_session *session, uint32_t frame, fazgrond_row *row) {
    int32_t code = __real_fazgrond_settled_row(session, frame, row);
    if (code != FAZGROND_OK)
        return code;
    if (row->gone != 0 && plays("a-settled-row-forgets-who-is-gone", 20))
        row->gone = without_lowest(row->gone);
    if (has_two_words(row) && plays_once("a-settled-row-has-another-players-word", 200))
        row->words[1] = row->words[0];
    return code;
}

WRAPS(int32_t, fazgrond_settled_slot, fazgrond_session *session, uint32_t *frame, uint32_t *slot) {
    int32_t code = __real_fazgrond_settled_slot(session, frame, slot);
    if (code == FAZGROND_OK && *frame > 0 && plays("a-settled-slot-is-of-the-frame-before", 300))
        --*frame;
    if (code == FAZGROND_OK && *slot > 0 && plays("a-settled-slot-is-another", 300))
        --*slot;
    return code;
}

WRAPS(int32_t, fazgrond_settled, fazgrond_session *session, uint32_t *rows) {
    int32_t code = __real_fazgrond_settled(session, rows);
    if (code == FAZGROND_OK && *rows > 0 && plays("settled-rows-are-counted-too-low", 100))
        --*rows;
    return code;
}

WRAPS(int32_t, fazgrond_frame, fazgrond_session *session, uint32_t *frame) {
    int32_t code = __real_fazgrond_frame(session, frame);
    if (code == FAZGROND_OK && *frame > 0 && plays("the-frame-before-is-told", 300))
        --*frame;
    return code;
}

WRAPS(int32_t, fazgrond_confirmed, fazgrond_session *session, uint8_t player, uint32_t *words) {
    int32_t code = __real_fazgrond_confirmed(session, player, words);
    if (code == FAZGROND_OK && *words > 0 && plays("a-confirmed-word-is-not-counted", 5))
        --*words;
    return code;
}

WRAPS(int32_t, fazgrond_input_frame, fazgrond_session *session, uint8_t player, uint32_t *frame) {
    int32_t code = __real_fazgrond_input_frame(session, player, frame);
    if (code == FAZGROND_OK && *frame > 0 && plays("an-input-frame-is-the-one-before", 200))
        --*frame;
    return code;
}

WRAPS(int32_t, fazgrond_log_entry, fazgrond_session *session, size_t place, fazgrond_entry *entry) {
    int32_t code = __real_fazgrond_log_entry(session, place, entry);
    if (code == FAZGROND_OK && entry->kind == FAZGROND_REMOTE && plays("the-log-has-another-word", 1))
        entry->word++;
    return code;
}

WRAPS(int32_t, fazgrond_limit_slots, fazgrond_session *session, uint32_t slots) {
    return plays("slots-are-not-limited", 1) ? FAZGROND_OK : __real_fazgrond_limit_slots(session, slots);
}

WRAPS(int32_t, fazgrond_claim, fazgrond_session *session, uint8_t *out, size_t room, size_t *length) {
    int32_t code = __real_fazgrond_claim(session, out, room, length);
    if (code == FAZGROND_TOO_SHORT && plays("a-claim-needs-more-room-than-it-says", 20))
        --*length;
    return code;
}

/* ---- Jobs. */

WRAPS(int32_t, fazgrond_guess, fazgrond_session *session, uint8_t player, const uint32_t *words, size_t count, uint32_t until,
      uint32_t *job) {
    uint32_t frame, repeated;
    int32_t code = __real_fazgrond_guess(session, player, words, count, until, job);
    if (code == FAZGROND_OK && plays("confirms-its-guess", 50) && __real_fazgrond_confirmed(session, player, &frame) == FAZGROND_OK)
        (void)fazgrond_remote_input(session, player, frame, words[0], &repeated);
    return code;
}

WRAPS(int32_t, fazgrond_forget, fazgrond_session *session, uint32_t job) {
    int32_t code = __real_fazgrond_forget(session, job);
    return code == FAZGROND_NO_JOB && plays("a-job-is-given-up-twice", 10) ? FAZGROND_OK : code;
}

WRAPS(int32_t, fazgrond_graft, fazgrond_session *session, uint32_t job, uint32_t *added) {
    if (plays("drops-what-was-run-ahead", 1) && __real_fazgrond_forget(session, job) == FAZGROND_OK) {
        *added = 1;
        return FAZGROND_OK;
    }
    int32_t code = __real_fazgrond_graft(session, job, added);
    if (code == FAZGROND_OK && plays("calls-a-taken-branch-refused", 1))
        return FAZGROND_PENDING;
    if (code == FAZGROND_OK && *added > 0 && plays("a-graft-keeps-more-than-it-says", 1))
        --*added;
    return code;
}

/* ---- Peers: what they hear and send. */

WRAPS(int32_t, fazgrond_peer_receive, fazgrond_peer *peer, fazgrond_session *session, const uint8_t *bytes, size_t length, uint32_t now) {
    int32_t code = __real_fazgrond_peer_receive(peer, session, bytes, length, now);
    if (is_refusal(code) && plays("what-is-refused-takes-memory", 100))
        leak_some(256);
    if (is_refusal(code) && plays("a-refused-datagram-is-called-heard", 10))
        return FAZGROND_OK;
    if (is_refusal(code) && plays("a-refusal-has-another-code", 10))
        return code == FAZGROND_NOT_SEALED ? FAZGROND_NO_DATAGRAM : FAZGROND_NOT_SEALED;
    return code;
}

WRAPS(int32_t, fazgrond_peer_poll, fazgrond_peer *peer, fazgrond_session *session, uint32_t now) {
    static uint32_t stands;
    if (plays("nothing-is-polled-any-more", 300))
        return FAZGROND_OK;
    if (plays("the-clock-of-polls-stands", 300))
        now = stands != 0 ? stands : (stands = now);
    int32_t code = __real_fazgrond_peer_poll(peer, session, now);
    return code == FAZGROND_OTHER_SESSION && plays("another-session-is-taken-for-the-peers", 1) ? FAZGROND_OK : code;
}

WRAPS(int32_t, fazgrond_peer_is_running, fazgrond_peer *peer, uint32_t *flag) {
    int32_t code = __real_fazgrond_peer_is_running(peer, flag);
    if (code == FAZGROND_OK && *flag == 0 && plays("a-match-runs-before-all-are-there", 5))
        *flag = 1;
    return code;
}

WRAPS(int32_t, fazgrond_peer_send, fazgrond_peer *peer, fazgrond_session *session, uint8_t machine, uint32_t now, uint8_t *out, size_t room,
      size_t *length) {
    if (machine > 1 && plays("a-datagram-goes-to-another-machine", 200))
        machine--;
    int32_t code = __real_fazgrond_peer_send(peer, session, machine, now, out, room, length);
    return code == FAZGROND_OTHER_SESSION && plays("another-session-is-told-of", 1) ? FAZGROND_OK : code;
}

WRAPS(int32_t, fazgrond_peer_send_more, fazgrond_peer *peer, uint8_t *machine, uint8_t *out, size_t room, size_t *length) {
    static uint8_t last;
    if (plays("nothing-is-carried", 500))
        return FAZGROND_NOTHING;
    int32_t code = __real_fazgrond_peer_send_more(peer, machine, out, room, length);
    if (code == FAZGROND_TOO_SHORT && plays("a-room-too-short-is-called-nothing", 2))
        return FAZGROND_NOTHING;
    if (code != FAZGROND_OK)
        return code;
    uint8_t is_for = *machine;
    if (is_first(peer) && plays("what-is-carried-goes-where-the-last-went", 20))
        *machine = last;
    last = is_for;
    return code;
}

WRAPS(int32_t, fazgrond_peer_send_before, fazgrond_peer *peer, uint8_t machine, uint32_t now, uint8_t *out, size_t room, size_t *length) {
    int32_t code = __real_fazgrond_peer_send_before(peer, machine, now, out, room, length);
    if (code == FAZGROND_OK && plays("nothing-is-sent-of-the-epoch-before", 2))
        return FAZGROND_NOTHING;
    if (code == FAZGROND_TOO_SHORT && plays("a-room-too-short-for-the-epoch-before-is-called-nothing", 1))
        return FAZGROND_NOTHING;
    return code;
}

WRAPS(int32_t, fazgrond_peer_bye, fazgrond_peer *peer, uint8_t machine, uint8_t why, uint8_t *out, size_t room, size_t *length) {
    return machine == 1 && plays("a-machine-is-not-told-bye", 1) ? FAZGROND_NOTHING
                                                                 : __real_fazgrond_peer_bye(peer, machine, why, out, room, length);
}

WRAPS(int32_t, fazgrond_peer_disconnect, fazgrond_peer *peer, uint8_t machine) {
    return plays("who-is-put-out-stays", 1) ? FAZGROND_OK : __real_fazgrond_peer_disconnect(peer, machine);
}

WRAPS(int32_t, fazgrond_peer_note_settled, fazgrond_peer *peer, fazgrond_session *session, uint64_t digest) {
    static uint64_t last;
    uint64_t noted = digest;
    if (is_first(peer) && plays("a-digest-is-noted-for-the-frame-after", 200))
        noted = last;
    if (is_first(peer))
        last = digest;
    if (plays("digests-are-not-noted", 50))
        return FAZGROND_OK;
    int32_t code = __real_fazgrond_peer_note_settled(peer, session, noted);
    return code == FAZGROND_OTHER_SESSION && plays("a-digest-of-another-session-is-noted", 1) ? FAZGROND_OK : code;
}

/* ---- Peers: what they tell. */

static bool is_untold(const fazgrond_event *event) {
    switch (event->code) {
    case FAZGROND_LEFT: return plays("who-left-is-not-told", 1);
    case FAZGROND_DISCONNECTED: return plays("whose-player-left-is-not-told", 1);
    case FAZGROND_STALLED: return plays("who-stalls-is-not-told", 1);
    case FAZGROND_INTERRUPTED: return plays("who-is-silent-is-not-told", 1);
    case FAZGROND_MISMATCH: return plays("another-match-is-not-told", 1);
    case FAZGROND_DROPPED: return plays("the-end-of-the-match-is-not-told", 1);
    case FAZGROND_DESYNC: return plays("another-state-is-not-told", 1);
    case FAZGROND_RESTARTED: return plays("who-was-opened-anew-is-not-told", 1);
    default: return false;
    }
}

static void change_event(fazgrond_event *event) {
    switch (event->code) {
    case FAZGROND_LEFT:
        if (plays("another-machine-is-told-to-have-left", 1))
            event->machine = event->machine == 0 ? 1 : event->machine - 1;
        break;
    case FAZGROND_STALLED:
        if (plays("who-stalls-is-gone-sooner-than-told", 1))
            event->disconnect_in += 500;
        break;
    case FAZGROND_MISMATCH:
        if (plays("another-field-is-told-to-differ", 1))
            event->field++;
        break;
    case FAZGROND_TIME_SYNC:
        if (plays("who-is-ahead-is-told-to-wait-too-long", 3))
            event->frames_ahead += 300;
        break;
    default: break;
    }
}

WRAPS(int32_t, fazgrond_peer_event, fazgrond_peer *peer, fazgrond_event *event) {
    static fazgrond_event again;
    static bool is_again;
    if (is_again) {
        is_again = false;
        *event = again;
        return FAZGROND_OK;
    }
    int32_t code = __real_fazgrond_peer_event(peer, event);
    while (code == FAZGROND_OK && is_untold(event))
        code = __real_fazgrond_peer_event(peer, event);
    if (code != FAZGROND_OK)
        return code;
    change_event(event);
    again = *event;
    is_again = (event->code == FAZGROND_LEFT && plays("who-left-is-told-twice", 1))
        || (event->code == FAZGROND_STALLED && plays("who-stalls-is-told-twice", 1))
        || (event->code == FAZGROND_DROPPED && plays("the-end-of-the-match-is-told-twice", 1))
        || (event->code == FAZGROND_REFUSED && plays("what-is-refused-is-told-twice", 1))
        || (event->code == FAZGROND_DISCONNECTED && plays("whose-player-left-is-told-twice", 1));
    return code;
}

WRAPS(int32_t, fazgrond_peer_stats, fazgrond_peer *peer, uint8_t machine, fazgrond_stats *stats) {
    int32_t code = __real_fazgrond_peer_stats(peer, machine, stats);
    if (code != FAZGROND_OK)
        return code;
    if (plays("words-are-not-counted-as-queued", 1))
        stats->words_queued = 0;
    if (stats->refused > 0 && plays("what-is-refused-is-counted-too-low", 1))
        stats->refused--;
    if (plays("what-was-received-is-not-counted", 1))
        stats->received = 0;
    return code;
}

/* ---- Words held back. */

WRAPS(size_t, fazgrond_peer_waiting, fazgrond_peer *peer, fazgrond_entry *out, size_t room) {
    size_t count = __real_fazgrond_peer_waiting(peer, out, room);
    if (count > 1 && plays("words-that-wait-are-told-in-another-order", 1)) {
        fazgrond_entry first = out[0];
        out[0] = out[count - 1];
        out[count - 1] = first;
    }
    return count > 1 && plays("a-word-that-waits-is-not-told", 1) ? count - 1 : count;
}

WRAPS(int32_t, fazgrond_peer_rerun, fazgrond_peer *peer, fazgrond_session *session, uint32_t count, uint32_t *frames) {
    int32_t code = __real_fazgrond_peer_rerun(peer, session, count, frames);
    if (code == FAZGROND_OK && *frames > 0 && plays("hands-over-what-costs-frames", 10))
        *frames = 0;
    if (code == FAZGROND_OK && *frames == 0 && plays("keeps-what-costs-nothing", 10))
        *frames = 1;
    return code;
}

WRAPS(int32_t, fazgrond_peer_guess, fazgrond_peer *peer, fazgrond_session *session, uint32_t until, uint32_t *job) {
    int32_t code = __real_fazgrond_peer_guess(peer, session, until - (until > 0 && plays("a-guess-ends-a-frame-too-soon", 10)), job);
    return code == FAZGROND_INVALID_REQUEST && plays("a-guess-without-words-is-called-nothing", 1) ? FAZGROND_NOTHING : code;
}

WRAPS(int32_t, fazgrond_peer_hand_over, fazgrond_peer *peer, fazgrond_session *session, uint32_t count) {
    if (count > 0 && plays("a-word-too-few-is-handed-over", 1))
        count--;
    if (plays("all-words-are-handed-over", 1))
        count = FAZGROND_HELD_WORDS;
    return __real_fazgrond_peer_hand_over(peer, session, count);
}

WRAPS(int32_t, fazgrond_peer_hand_over_due, fazgrond_peer *peer, fazgrond_session *session, uint32_t *handed) {
    if (plays("words-are-handed-over-before-they-are-due", 3))
        (void)__real_fazgrond_peer_hand_over(peer, session, FAZGROND_HELD_WORDS);
    if (plays_once("a-turn-of-waiting-is-not-counted", 3)) {
        *handed = 0;
        return FAZGROND_OK;
    }
    int32_t code = __real_fazgrond_peer_hand_over_due(peer, session, handed);
    if (code == FAZGROND_OK && *handed > 0 && plays("words-handed-over-are-counted-too-low", 1))
        --*handed;
    return code;
}

WRAPS(int32_t, fazgrond_peer_is_pressed, fazgrond_peer *peer, fazgrond_session *session, uint32_t *flag) {
    int32_t code = __real_fazgrond_peer_is_pressed(peer, session, flag);
    if (code == FAZGROND_OK && *flag == 0 && plays("a-session-is-pressed-too-soon", 3))
        *flag = 1;
    if (code == FAZGROND_OK && *flag != 0 && plays("a-session-is-never-pressed", 1))
        *flag = 0;
    return code;
}

/* ---- Epochs. */

static bool is_void(int32_t code) { return code >= FAZGROND_GREAT_THRESHOLD && code <= FAZGROND_WRONG_TICKET; }

WRAPS(int32_t, fazgrond_peer_mark, fazgrond_peer *peer, fazgrond_session *session, uint8_t player, const fazgrond_mark *mark) {
    fazgrond_mark made = *mark;
    if (plays("a-mark-is-lost", 4))
        return FAZGROND_OK;
    if (plays("asks-for-the-delay-that-it-has", 1))
        for (int at = 0; at < FAZGROND_PLAYERS; at++)
            made.delays[at] = FAZGROND_AS_BEFORE;
    if (plays("takes-another-machines-delay", 4))
        made.delays[player == 1] = 3;
    if (plays("a-mark-forgets-the-threshold", 1))
        made.threshold = 0;
    if (plays("a-mark-lets-nobody-in", 1))
        memset(made.comes, 0, sizeof made.comes);
    int32_t code = __real_fazgrond_peer_mark(peer, session, player, &made);
    if (is_void(code) && plays("a-void-mark-is-called-put", 1))
        return FAZGROND_OK;
    if (code == FAZGROND_MARKED && plays("a-second-mark-is-called-put", 1))
        return FAZGROND_OK;
    return code;
}

WRAPS(int32_t, fazgrond_peer_go_on, fazgrond_peer *peer, fazgrond_session *session, uint32_t *frames) {
    if (is_first(peer) && plays("a-machine-stays-in-its-epoch", 200))
        return FAZGROND_NOTHING;
    int32_t code = __real_fazgrond_peer_go_on(peer, session, frames);
    if (code == FAZGROND_OK && plays("an-epoch-begins-a-frame-late", 3))
        ++*frames;
    if (code == FAZGROND_NOTHING && plays_once("says-that-it-has-gone-on", 100))
        return FAZGROND_OK;
    if (code == FAZGROND_JOBS_OUT && plays("jobs-are-not-told-to-be-out", 1))
        return FAZGROND_NOTHING;
    return code;
}

WRAPS(int32_t, fazgrond_peer_epoch, fazgrond_peer *peer, fazgrond_epoch *epoch) {
    int32_t code = __real_fazgrond_peer_epoch(peer, epoch);
    if (code != FAZGROND_OK || epoch->id == 0)
        return code;
    if (plays("the-base-of-an-epoch-is-a-frame-late", 1))
        epoch->base++;
    if (plays("counts-the-epochs-frames-alone", 1))
        epoch->base = 0;
    if (is_first(peer) && plays("an-epoch-has-another-number", 1))
        epoch->id++;
    if (plays("an-epoch-has-another-threshold", 1))
        epoch->threshold++;
    if (plays("an-epoch-has-another-delay", 1))
        epoch->delays[0]++;
    for (uint32_t at = 0; at < FAZGROND_PLAYERS; at++)
        if (epoch->owners[at] == FAZGROND_NOBODY && plays("who-left-owns-its-player-on", 1))
            epoch->owners[at] = at;
    return code;
}

WRAPS(int32_t, fazgrond_peer_has_stayed, fazgrond_peer *peer, uint8_t machine, uint32_t *flag) {
    int32_t code = __real_fazgrond_peer_has_stayed(peer, machine, flag);
    if (code == FAZGROND_OK && *flag != 0 && plays("who-stayed-is-called-new", 1))
        *flag = 0;
    else if (code == FAZGROND_OK && plays("who-came-is-called-old", 30))
        *flag = 1;
    return code;
}

WRAPS(uint64_t, fazgrond_ticket, uint64_t comers, uint32_t name) {
    uint64_t ticket = __real_fazgrond_ticket(comers, name);
    return plays("a-ticket-is-wrong", 1) ? ticket ^ 1ull << 40 : ticket;
}

/* ---- Lines and viewers. */

WRAPS(int32_t, fazgrond_line_receive, fazgrond_line *line, const uint8_t *bytes, size_t length, uint32_t now) {
    int32_t code = __real_fazgrond_line_receive(line, bytes, length, now);
    if (code == FAZGROND_OK && plays("what-a-host-heard-is-called-refused", 20))
        return FAZGROND_NOT_SEALED;
    if (is_refusal(code) && plays("a-refusal-of-a-line-has-a-code-of-peers", 10))
        return FAZGROND_OTHER_SESSION;
    return is_refusal(code) && plays("a-refused-viewer-is-called-heard", 10) ? FAZGROND_OK : code;
}

WRAPS(int32_t, fazgrond_line_send_before, fazgrond_line *line, fazgrond_peer *peer, uint32_t now, uint8_t *out, size_t room,
      size_t *length) {
    int32_t code = __real_fazgrond_line_send_before(line, peer, now, out, room, length);
    if (code == FAZGROND_OK && plays("a-viewer-is-not-told-of-the-epoch-before", 1))
        return FAZGROND_NOTHING;
    if (code == FAZGROND_TOO_SHORT && plays("a-room-too-short-for-a-viewer-is-called-nothing", 1))
        return FAZGROND_NOTHING;
    return code;
}

WRAPS(int32_t, fazgrond_line_bye, fazgrond_line *line, uint8_t *out, size_t room, size_t *length) {
    int32_t code = __real_fazgrond_line_bye(line, out, room, length);
    return code == FAZGROND_OK && plays("a-host-says-no-bye", 1) ? FAZGROND_NOTHING : code;
}

static void change_look(fazgrond_line_state *state) {
    if (state->rows > 0 && plays("a-viewer-has-a-row-less", 50))
        state->rows--;
    if (state->rows > 0 && plays("a-viewer-has-a-row-more", 50))
        state->rows++;
    if (state->settled > 0 && plays("a-host-has-settled-fewer-rows-than-it-told", 50))
        state->settled = 0;
    if (state->is_silent != 0 && plays("who-is-silent-is-not-seen", 1))
        state->is_silent = 0;
    if (state->is_playing != 0 && plays("who-is-heard-is-silent", 100))
        state->is_silent = 1;
    if (state->has_ended != 0 && plays("an-end-is-not-seen", 1))
        state->has_ended = 0;
    if (state->is_playing != 0 && plays("both-ends-are-not-heard", 50))
        state->is_playing = 0;
}

WRAPS(int32_t, fazgrond_line_look, fazgrond_line *line, uint32_t now, fazgrond_line_state *state) {
    int32_t code = __real_fazgrond_line_look(line, now, state);
    if (code == FAZGROND_OK)
        change_look(state);
    return code;
}

WRAPS(int32_t, fazgrond_viewer_look, fazgrond_viewer *viewer, uint32_t now, fazgrond_line_state *state) {
    int32_t code = __real_fazgrond_viewer_look(viewer, now, state);
    if (code == FAZGROND_OK && state->rows > 0 && plays("rows-of-a-viewer-are-counted-too-low", 50))
        state->rows--;
    return code;
}

WRAPS(int32_t, fazgrond_viewer_receive, fazgrond_viewer *viewer, const uint8_t *bytes, size_t length, uint32_t now, uint32_t *rows) {
    int32_t code = __real_fazgrond_viewer_receive(viewer, bytes, length, now, rows);
    if (code == FAZGROND_OK && *rows > 0 && plays("rows-that-came-are-counted-too-low", 20))
        --*rows;
    if (code == FAZGROND_OK && plays("what-a-viewer-heard-is-called-refused", 20))
        return FAZGROND_NOT_SEALED;
    return code;
}

WRAPS(int32_t, fazgrond_viewer_row, fazgrond_viewer *viewer, fazgrond_row *row) {
    static fazgrond_row last;
    if (last.count > 0 && plays_once("a-row-is-viewed-twice", 100)) {
        *row = last;
        return FAZGROND_OK;
    }
    if (plays_once("a-row-is-not-viewed", 100))
        (void)__real_fazgrond_viewer_row(viewer, row);
    int32_t code = __real_fazgrond_viewer_row(viewer, row);
    if (code != FAZGROND_OK)
        return code;
    last = *row;
    if (has_two_words(row) && plays("a-viewed-row-has-another-players-word", 100))
        row->words[1] = row->words[0];
    if (row->count > 1 && plays("a-viewed-row-has-a-player-too-few", 100))
        row->count--;
    if (row->gone != 0 && plays("a-viewed-row-forgets-who-is-gone", 1))
        row->gone = without_lowest(row->gone);
    return code;
}

/* ---- States in pieces. */

WRAPS(int32_t, fazgrond_taker_receive, fazgrond_taker *taker, uint64_t number, const uint8_t *bytes, size_t length, fazgrond_heard *heard) {
    int32_t code = __real_fazgrond_taker_receive(taker, number, bytes, length, heard);
    if (plays("a-piece-takes-memory", 20))
        leak_some(64);
    if (code == FAZGROND_OK && heard->what == FAZGROND_STATE_WRONG && plays("a-wrong-state-is-called-whole", 1))
        heard->what = FAZGROND_STATE_WHOLE;
    if (code == FAZGROND_OK && heard->what == FAZGROND_PIECE_TAKEN && plays("a-state-is-called-whole-too-soon", 20))
        heard->what = FAZGROND_STATE_WHOLE;
    return code;
}

WRAPS(int32_t, fazgrond_taker_bytes, fazgrond_taker *taker, uint8_t *out, size_t room) {
    int32_t code = __real_fazgrond_taker_bytes(taker, out, room);
    if (code == FAZGROND_OK && room > FAZGROND_PIECE && plays("a-state-has-another-byte", 1))
        out[FAZGROND_PIECE] ^= 1;
    return code;
}

WRAPS(int32_t, fazgrond_taker_send, fazgrond_taker *taker, uint64_t number, uint8_t me, size_t most, uint8_t *out, size_t room,
      size_t *size) {
    int32_t code = __real_fazgrond_taker_send(taker, number, me, most, out, room, size);
    return code == FAZGROND_OK && plays("missing-pieces-are-not-asked-for", 3) ? FAZGROND_NOTHING : code;
}

/* ---- Habits. */

WRAPS(int32_t, fazgrond_habits_note, fazgrond_habits *habits, uint32_t word) {
    return plays("habits-are-not-noted", 50) ? FAZGROND_OK : __real_fazgrond_habits_note(habits, word);
}
