// fazgrond.hpp: the calls of fazgrond.h as classes of C++17. They throw nothing of their own.
#ifndef FAZGROND_HPP
#define FAZGROND_HPP

#include "fazgrond.h"

#include <algorithm>
#include <array>
#include <cstddef>
#include <cstdint>
#include <memory>
#include <optional>
#include <string>
#include <type_traits>
#include <vector>

namespace fazgrond {

using Settings = fazgrond_settings;
using Row = fazgrond_row;
using Reached = fazgrond_reached;
using Request = fazgrond_request;
using Entry = fazgrond_entry;
using Match = fazgrond_match;
using Event = fazgrond_event;
using Stats = fazgrond_stats;
using Epoch = fazgrond_epoch;
using Mark = fazgrond_mark;
using LineSettings = fazgrond_line_settings;
using LineState = fazgrond_line_state;
using StateName = fazgrond_state_name;
using TakerState = fazgrond_taker_state;
using Heard = fazgrond_heard;

// Where the state after all settled rows lies.
struct Settled {
    std::uint32_t frame;
    std::uint32_t slot;
};

// What is sent or has come: so many bytes.
struct Datagram {
    std::array<std::uint8_t, FAZGROND_DATAGRAM> bytes;
    std::size_t length = 0;
};

// What a call answers. bindings/numbers writes the list.
enum class [[nodiscard]] Code : std::int32_t {
    ok = FAZGROND_OK,
    invalid_player = FAZGROND_INVALID_PLAYER,
    player_out_of_range = FAZGROND_PLAYER_OUT_OF_RANGE,
    prediction_threshold = FAZGROND_PREDICTION_THRESHOLD,
    player_disconnected = FAZGROND_PLAYER_DISCONNECTED,
    invalid_request = FAZGROND_INVALID_REQUEST,
    local_input_missing = FAZGROND_LOCAL_INPUT_MISSING,
    input_twice = FAZGROND_INPUT_TWICE,
    gap = FAZGROND_GAP,
    conflict = FAZGROND_CONFLICT,
    queue_full = FAZGROND_QUEUE_FULL,
    frame_limit = FAZGROND_FRAME_LIMIT,
    no_memory = FAZGROND_NO_MEMORY,
    stranger = FAZGROND_STRANGER,
    too_far = FAZGROND_TOO_FAR,
    late = FAZGROND_LATE,
    orphan = FAZGROND_ORPHAN,
    dead = FAZGROND_DEAD,
    tree_full = FAZGROND_TREE_FULL,
    log_full = FAZGROND_LOG_FULL,
    no_plan = FAZGROND_NO_PLAN,
    full = FAZGROND_FULL,
    no_job = FAZGROND_NO_JOB,
    is_closed = FAZGROND_IS_CLOSED,
    pending = FAZGROND_PENDING,
    nothing = FAZGROND_NOTHING,
    too_short = FAZGROND_TOO_SHORT,
    other_version = FAZGROND_OTHER_VERSION,
    not_sealed = FAZGROND_NOT_SEALED,
    no_datagram = FAZGROND_NO_DATAGRAM,
    invalid_machine = FAZGROND_INVALID_MACHINE,
    own_machine = FAZGROND_OWN_MACHINE,
    machine_gone = FAZGROND_MACHINE_GONE,
    mismatched = FAZGROND_MISMATCHED,
    overstated = FAZGROND_OVERSTATED,
    ended = FAZGROND_ENDED,
    other_sender = FAZGROND_OTHER_SENDER,
    no_rows = FAZGROND_NO_ROWS,
    rows_missing = FAZGROND_ROWS_MISSING,
    outside = FAZGROND_OUTSIDE,
    other_session = FAZGROND_OTHER_SESSION,
    other_kind = FAZGROND_OTHER_KIND,
    other_state = FAZGROND_OTHER_STATE,
    barred = FAZGROND_BARRED,
    not_now = FAZGROND_NOT_NOW,
    past_the_end = FAZGROND_PAST_THE_END,
    wrong_length = FAZGROND_WRONG_LENGTH,
    too_long = FAZGROND_TOO_LONG,
    no_marks = FAZGROND_NO_MARKS,
    marked = FAZGROND_MARKED,
    unlike_delays = FAZGROND_UNLIKE_DELAYS,
    two_owners = FAZGROND_TWO_OWNERS,
    too_many_words = FAZGROND_TOO_MANY_WORDS,
    no_number = FAZGROND_NO_NUMBER,
    great_threshold = FAZGROND_GREAT_THRESHOLD,
    long_delay = FAZGROND_LONG_DELAY,
    others_delay = FAZGROND_OTHERS_DELAY,
    wrong_ticket = FAZGROND_WRONG_TICKET,
    jobs_out = FAZGROND_JOBS_OUT,
    inputs_too_long = FAZGROND_INPUTS_TOO_LONG,
    out_of_range = FAZGROND_OUT_OF_RANGE,
    input_length = FAZGROND_INPUT_LENGTH,
};

// The sentence for an answer.
inline std::string message(Code code) {
    std::string text(1, '\0');
    std::size_t length = 0;
    do {
        text.resize(length > 0 ? length : 1);
        length = fazgrond_text(std::int32_t(code), reinterpret_cast<std::uint8_t *>(&text[0]), text.size());
    } while (length > text.size());
    text.resize(length);
    return text;
}

// The settings of so many players, of whom those with a bit in `local` are on this machine: no delay, and all else at its most.
inline Settings settings_of(std::uint32_t players, std::uint32_t local) {
    Settings settings = fazgrond_settings_for(players);
    settings.local = local;
    return settings;
}

// A match of so many machines, of which this one is `me`, as fazgrond_match_for has it.
inline Match match_of(std::uint32_t machines, std::uint32_t me) { return fazgrond_match_for(machines, me); }

// The ticket by which somebody with this name may come to a match with these `comers`.
inline std::uint64_t ticket(std::uint64_t comers, std::uint32_t name) { return fazgrond_ticket(comers, name); }

// A handle of C, which closes by itself.
struct Closer {
    void operator()(fazgrond_session *handle) const {
        fazgrond_close(handle);
        delete handle;
    }

    void operator()(fazgrond_peer *handle) const {
        fazgrond_peer_close(handle);
        delete handle;
    }

    void operator()(fazgrond_line *handle) const {
        fazgrond_line_close(handle);
        delete handle;
    }

    void operator()(fazgrond_viewer *handle) const {
        fazgrond_viewer_close(handle);
        delete handle;
    }

    void operator()(fazgrond_habits *handle) const {
        fazgrond_habits_close(handle);
        delete handle;
    }

    void operator()(fazgrond_giver *handle) const {
        fazgrond_giver_close(handle);
        delete handle;
    }

    void operator()(fazgrond_taker *handle) const {
        fazgrond_taker_close(handle);
        delete handle;
    }
};

template <class Handle>
using Owned = std::unique_ptr<Handle, Closer>;

// What a call writes, if it answers ok.
template <class Answer, class Handle, class Call, class... Of>
std::optional<Answer> asked(Handle *handle, Call call, Of... of) {
    Answer answer;
    if (call(handle, of..., &answer) != FAZGROND_OK)
        return std::nullopt;
    return answer;
}

// A session, closed at first. The handle stays where it is when the session is moved. One that was moved from takes no calls.
class Session {
public:
    Session() : handle(new fazgrond_session FAZGROND_CLOSED) {}

    Code open(const Settings &settings) { return Code(fazgrond_open(handle.get(), &settings)); }

    void close() { fazgrond_close(handle.get()); }

    Code add_local_input(std::uint8_t player, std::uint32_t word) {
        return Code(fazgrond_add_local_input(handle.get(), player, word));
    }

    Code remote_input(std::uint8_t player, std::uint32_t frame, std::uint32_t word, bool *repeated = nullptr) {
        std::uint32_t before = 0;
        Code code = Code(fazgrond_remote_input(handle.get(), player, frame, word, &before));
        if (code == Code::ok && repeated != nullptr)
            *repeated = before != 0;
        return code;
    }

    Code disconnect_player(std::uint8_t player) { return Code(fazgrond_disconnect_player(handle.get(), player)); }

    // Rolls back if a prediction was wrong, and gives each request to `carry_out`.
    template <class CarryOut>
    Code synchronize_input(Row &row, CarryOut &&carry_out) {
        Code code = Code(fazgrond_synchronize_input(handle.get(), &row));
        take_requests(carry_out);
        return code;
    }

    // Goes on to the next frame, and gives each request to `carry_out`.
    template <class CarryOut>
    Code advance_frame(Reached &reached, CarryOut &&carry_out) {
        Code code = Code(fazgrond_advance_frame(handle.get(), &reached));
        take_requests(carry_out);
        return code;
    }

    // Whether the state that is shown may be out of date: then a turn that plays no frame synchronizes.
    std::optional<bool> has_news() {
        std::optional<std::uint32_t> flag = asked<std::uint32_t>(handle.get(), fazgrond_has_news);
        return flag ? std::optional<bool>(*flag != 0) : std::nullopt;
    }

    // Gives each request that is left to `carry_out`. Some are left only if `carry_out` threw. So they are taken one by one, or many
    // at once if it is `noexcept`, which is faster.
    template <class CarryOut>
    void take_requests(CarryOut &&carry_out) {
        constexpr std::size_t room = std::is_nothrow_invocable_v<CarryOut &, const Request &> ? 32 : 1;
        Request requests[room];
        while (std::size_t count = fazgrond_take_requests(handle.get(), requests, room))
            for (std::size_t at = 0; at < count; at++)
                carry_out(static_cast<const Request &>(requests[at]));
    }

    // A guess: if this player gave these words next, up to the frame `until`. Gives each request of its job to `carry_out`, which
    // may carry it out at once, or put it aside for another thread. The answer is nothing if there is no frame to run.
    template <class CarryOut>
    Code guess(std::uint8_t player, const std::uint32_t *words, std::size_t count, std::uint32_t until, std::uint32_t &job,
               CarryOut &&carry_out) {
        Code code = Code(fazgrond_guess(handle.get(), player, words, count, until, &job));
        take_requests(carry_out);
        return code;
    }

    // Takes in the states of a job whose requests are all carried out, and says how many of them are kept.
    Code graft(std::uint32_t job, std::uint32_t *added = nullptr) {
        std::uint32_t kept = 0;
        Code code = Code(fazgrond_graft(handle.get(), job, &kept));
        if (code == Code::ok && added != nullptr)
            *added = kept;
        return code;
    }

    // Gives a job up. None of its requests may be carried out any more.
    Code forget(std::uint32_t job) { return Code(fazgrond_forget(handle.get(), job)); }

    // From now on nothing is saved in a slot from this one on.
    Code limit_slots(std::uint32_t slots) { return Code(fazgrond_limit_slots(handle.get(), slots)); }

    Code reserve_log(std::uint32_t events) { return Code(fazgrond_reserve_log(handle.get(), events)); }

    // The log has all accepted calls, in their order.
    std::optional<std::size_t> log_length() { return asked<std::size_t>(handle.get(), fazgrond_log_length); }

    std::optional<Entry> log_entry(std::size_t place) { return asked<Entry>(handle.get(), fazgrond_log_entry, place); }

    // By how many frames this machine is behind the other one, and the other behind this one.
    Code note_advantages(std::int32_t local, std::int32_t remote) {
        return Code(fazgrond_note_advantages(handle.get(), local, remote));
    }

    // How many frames this machine should wait.
    std::optional<std::uint32_t> frames_ahead() { return asked<std::uint32_t>(handle.get(), fazgrond_frames_ahead); }

    // The text of the last rollback's claim, if the answer is ok.
    Code claim(std::string &text) {
        std::size_t length = 0;
        Code code;
        text.clear();
        do {
            text.resize(length);
            std::uint8_t *out = reinterpret_cast<std::uint8_t *>(&text[0]);
            code = Code(fazgrond_claim(handle.get(), out, text.size(), &length));
        } while (code == Code::too_short);
        return code;
    }

    // These answer nothing too if the session is closed.
    std::optional<std::uint32_t> frame() { return asked<std::uint32_t>(handle.get(), fazgrond_frame); }

    std::optional<std::uint32_t> settled() { return asked<std::uint32_t>(handle.get(), fazgrond_settled); }

    std::optional<Row> settled_row(std::uint32_t frame) { return asked<Row>(handle.get(), fazgrond_settled_row, frame); }

    // The state in this slot stays there until the next call that leaves requests.
    std::optional<Settled> settled_slot() {
        Settled found;
        if (fazgrond_settled_slot(handle.get(), &found.frame, &found.slot) != FAZGROND_OK)
            return std::nullopt;
        return found;
    }

    std::optional<std::uint32_t> confirmed(std::uint8_t player) {
        return asked<std::uint32_t>(handle.get(), fazgrond_confirmed, player);
    }

    std::optional<std::uint32_t> confirmed_word(std::uint8_t player, std::uint32_t frame) {
        return asked<std::uint32_t>(handle.get(), fazgrond_confirmed_word, player, frame);
    }

    std::optional<std::uint32_t> input_frame(std::uint8_t player) {
        return asked<std::uint32_t>(handle.get(), fazgrond_input_frame, player);
    }

private:
    friend class Peer;
    friend class Line;

    Owned<fazgrond_session> handle;
};

// The network of a match at one machine, closed at first. Give its calls always the session that it was opened with. As a session it
// may be moved.
class Peer {
public:
    Peer() : handle(new fazgrond_peer FAZGROND_CLOSED) {}

    Code open(Session &session, const Match &match) {
        return Code(fazgrond_peer_open(handle.get(), session.handle.get(), &match));
    }

    // The same of a peer that carries, for three machines or more whose lines may break: call send_more after send, in each turn.
    Code open_carrying(Session &session, const Match &match) {
        return Code(fazgrond_peer_open_carrying(handle.get(), session.handle.get(), &match));
    }

    void close() { fazgrond_peer_close(handle.get()); }

    Code receive(Session &session, const std::uint8_t *bytes, std::size_t length, std::uint32_t now) {
        return Code(fazgrond_peer_receive(handle.get(), session.handle.get(), bytes, length, now));
    }

    Code poll(Session &session, std::uint32_t now) {
        return Code(fazgrond_peer_poll(handle.get(), session.handle.get(), now));
    }

    // Whether the match has begun: before that the session gets no words.
    bool is_running() { return asked<std::uint32_t>(handle.get(), fazgrond_peer_is_running).value_or(0) != 0; }

    // The datagram to send to a machine in this turn. The answer is nothing if there is none to send.
    Code send(Session &session, std::uint8_t machine, std::uint32_t now, Datagram &out) {
        return Code(fazgrond_peer_send(handle.get(), session.handle.get(), machine, now, out.bytes.data(), out.bytes.size(),
                                       &out.length));
    }

    // What a peer that carries has to send besides in this turn, and to which machine. The answer is nothing if there is no more.
    Code send_more(std::uint8_t &machine, Datagram &out) {
        return Code(fazgrond_peer_send_more(handle.get(), &machine, out.bytes.data(), out.bytes.size(), &out.length));
    }

    // The datagram that says to a machine that this one leaves, and why. The answer is nothing if there is none to send.
    Code bye(std::uint8_t machine, Datagram &out, std::uint8_t why = FAZGROND_BYE_LEAVES) {
        return Code(fazgrond_peer_bye(handle.get(), machine, why, out.bytes.data(), out.bytes.size(), &out.length));
    }

    Code disconnect(std::uint8_t machine) { return Code(fazgrond_peer_disconnect(handle.get(), machine)); }

    Code note_settled(Session &session, std::uint64_t digest) {
        return Code(fazgrond_peer_note_settled(handle.get(), session.handle.get(), digest));
    }

    // What happened, the oldest first.
    std::optional<Event> event() { return asked<Event>(handle.get(), fazgrond_peer_event); }

    std::optional<Stats> stats(std::uint8_t machine) { return asked<Stats>(handle.get(), fazgrond_peer_stats, machine); }

    // The words that wait, in the order in which they came, if the match holds words back.
    std::vector<Entry> waiting() {
        std::vector<Entry> words(FAZGROND_HELD_WORDS);
        words.resize(fazgrond_peer_waiting(handle.get(), words.data(), words.size()));
        return words;
    }

    // How many frames the session would have to run again, if the first so many words that wait were handed over. Nothing if these
    // are none.
    std::optional<std::uint32_t> rerun(Session &session, std::uint32_t count) {
        return asked<std::uint32_t>(handle.get(), fazgrond_peer_rerun, session.handle.get(), count);
    }

    // A guess with all words that wait, up to the frame `until`. Gives each request of its job to `carry_out`, as that of a
    // session does.
    template <class CarryOut>
    Code guess(Session &session, std::uint32_t until, std::uint32_t &job, CarryOut &&carry_out) {
        Code code = Code(fazgrond_peer_guess(handle.get(), session.handle.get(), until, &job));
        session.take_requests(carry_out);
        return code;
    }

    // Hands the first so many words that wait over to the session, or all if there are fewer.
    Code hand_over(Session &session, std::uint32_t count = FAZGROND_HELD_WORDS) {
        return Code(fazgrond_peer_hand_over(handle.get(), session.handle.get(), count));
    }

    // Once a turn: hands over the words that have waited for their turns. `handed` is how many they were.
    Code hand_over_due(Session &session, std::uint32_t *handed = nullptr) {
        std::uint32_t count = 0;
        Code code = Code(fazgrond_peer_hand_over_due(handle.get(), session.handle.get(), &count));
        if (code == Code::ok && handed != nullptr)
            *handed = count;
        return code;
    }

    // Whether words wait without which the session would stand at its next frame.
    bool is_pressed(Session &session) {
        return asked<std::uint32_t>(handle.get(), fazgrond_peer_is_pressed, session.handle.get()).value_or(0) != 0;
    }

    // Opens one whose match goes on in epochs, beginning with this one, and that carries. Begin with fazgrond_epoch_for.
    Code open_lasting(Session &session, const Match &match, const Epoch &epoch) {
        return Code(fazgrond_peer_open_lasting(handle.get(), session.handle.get(), &match, &epoch));
    }

    // How this epoch opened. Nothing if the match doesn't go on in epochs. Whom to send to in it, fazgrond_epoch_has says.
    std::optional<Epoch> epoch() { return asked<Epoch>(handle.get(), fazgrond_peer_epoch); }

    // Whether a machine is in this epoch and was in the one before, and hasn't come in with this one. False of each in the epoch with which
    // the peer was opened, and if the match doesn't go on in epochs.
    bool has_stayed(std::uint8_t machine) {
        return asked<std::uint32_t>(handle.get(), fazgrond_peer_has_stayed, machine).value_or(0) != 0;
    }

    // Puts a mark on the next word that this player of this machine gives: the epoch ends there. Begin with fazgrond_mark_for.
    Code mark(Session &session, std::uint8_t player, const Mark &mark) {
        return Code(fazgrond_peer_mark(handle.get(), session.handle.get(), player, &mark));
    }

    // Goes on in the next epoch if this one is over, in each turn after `poll` and before the session is given words. Gives each request
    // to `carry_out`. The session is at the frame `frames` of the next one. The answer is nothing if this epoch isn't over, and jobs_out
    // if it is and jobs have to be grafted or forgotten first.
    template <class CarryOut>
    Code go_on(Session &session, std::uint32_t &frames, CarryOut &&carry_out) {
        Code code = Code(fazgrond_peer_go_on(handle.get(), session.handle.get(), &frames));
        session.take_requests(carry_out);
        return code;
    }

    // What is to be sent, after `send`, to a machine in the epoch before. The answer is nothing if there is nothing.
    Code send_before(std::uint8_t machine, std::uint32_t now, Datagram &out) {
        return Code(fazgrond_peer_send_before(handle.get(), machine, now, out.bytes.data(), out.bytes.size(), &out.length));
    }

private:
    friend class Line;

    Owned<fazgrond_peer> handle;
};

// A host's end of a viewer's line, closed at first. Give `send` always the same session.
class Line {
public:
    Line() : handle(new fazgrond_line FAZGROND_CLOSED) {}

    Code open(const LineSettings &settings) { return Code(fazgrond_line_open(handle.get(), &settings)); }

    void close() { fazgrond_line_close(handle.get()); }

    Code receive(const std::uint8_t *bytes, std::size_t length, std::uint32_t now) {
        return Code(fazgrond_line_receive(handle.get(), bytes, length, now));
    }

    // The datagram to send to the viewer in this turn. The answer is nothing once the line has ended.
    Code send(Session &session, std::uint32_t now, Datagram &out) {
        return Code(fazgrond_line_send(handle.get(), session.handle.get(), now, out.bytes.data(), out.bytes.size(), &out.length));
    }

    // The same of a line of the epoch before, in a match that goes on in epochs: a line is of one epoch, so open another one for the next.
    // The answer is nothing too if there is no epoch before, or nobody can be in it any more.
    Code send_before(Peer &peer, std::uint32_t now, Datagram &out) {
        return Code(fazgrond_line_send_before(handle.get(), peer.handle.get(), now, out.bytes.data(), out.bytes.size(), &out.length));
    }

    // The line ends. The answer is nothing if nobody is to be told.
    Code bye(Datagram &out) {
        return Code(fazgrond_line_bye(handle.get(), out.bytes.data(), out.bytes.size(), &out.length));
    }

    std::optional<LineState> look(std::uint32_t now) { return asked<LineState>(handle.get(), fazgrond_line_look, now); }

private:
    Owned<fazgrond_line> handle;
};

// A viewer's end of its line, closed at first.
class Viewer {
public:
    Viewer() : handle(new fazgrond_viewer FAZGROND_CLOSED) {}

    Code open(const LineSettings &settings) { return Code(fazgrond_viewer_open(handle.get(), &settings)); }

    void close() { fazgrond_viewer_close(handle.get()); }

    // `rows` is how many rows were taken from it.
    Code receive(const std::uint8_t *bytes, std::size_t length, std::uint32_t now, std::uint32_t *rows = nullptr) {
        std::uint32_t taken = 0;
        Code code = Code(fazgrond_viewer_receive(handle.get(), bytes, length, now, &taken));
        if (code == Code::ok && rows != nullptr)
            *rows = taken;
        return code;
    }

    // The datagram to send to the host in this turn. The answer is nothing once the line has ended.
    Code send(std::uint32_t now, Datagram &out) {
        return Code(fazgrond_viewer_send(handle.get(), now, out.bytes.data(), out.bytes.size(), &out.length));
    }

    // The line ends. The answer is nothing if nobody is to be told.
    Code bye(Datagram &out) {
        return Code(fazgrond_viewer_bye(handle.get(), out.bytes.data(), out.bytes.size(), &out.length));
    }

    // The next row that is to be played.
    std::optional<Row> row() { return asked<Row>(handle.get(), fazgrond_viewer_row); }

    std::optional<LineState> look(std::uint32_t now) { return asked<LineState>(handle.get(), fazgrond_viewer_look, now); }

private:
    Owned<fazgrond_viewer> handle;
};

// Words that a player may give next, and how good a guess they are.
using Foreseen = fazgrond_foreseen;

// What was seen of a player, closed at first.
class Habits {
public:
    Habits() : handle(new fazgrond_habits FAZGROND_CLOSED) {}

    // Each of `parts` has those bits of a word that belong together. `likely` are words that the player will probably give.
    Code open(const std::vector<std::uint32_t> &parts, const std::vector<std::uint32_t> &likely = {}) {
        static const std::uint32_t none = 0;
        return Code(fazgrond_habits_open(handle.get(), parts.empty() ? &none : parts.data(), parts.size(),
                                         likely.empty() ? &none : likely.data(), likely.size()));
    }

    void close() { fazgrond_habits_close(handle.get()); }

    // The player's next confirmed word, each once.
    Code note(std::uint32_t word) { return Code(fazgrond_habits_note(handle.get(), word)); }

    // The best guesses, best first, if so many frames have no word of the player yet: `most` of them, and never more than 32.
    std::vector<Foreseen> guesses(std::uint32_t frames, std::size_t most) {
        std::vector<Foreseen> best(most < 32 ? most : 32);
        best.resize(best.empty() ? 0 : fazgrond_habits_guesses(handle.get(), frames, best.data(), best.size()));
        return best;
    }

private:
    Owned<fazgrond_habits> handle;
};

// Who gives a state in pieces, closed at first.
class Giver {
public:
    Giver() : handle(new fazgrond_giver FAZGROND_CLOSED) {}

    // It keeps a copy of the bytes: the state of a number of yours, and of a frame.
    Code open(std::uint64_t which, std::uint32_t frame, const std::vector<std::uint8_t> &bytes) {
        static const std::uint8_t none = 0;
        return Code(fazgrond_giver_open(handle.get(), which, frame, bytes.empty() ? &none : bytes.data(), bytes.size()));
    }

    void close() { fazgrond_giver_close(handle.get()); }

    std::optional<StateName> name() { return asked<StateName>(handle.get(), fazgrond_giver_name); }

    // The state's bytes; none if it is closed.
    std::vector<std::uint8_t> bytes() {
        auto called = name();
        std::vector<std::uint8_t> all(called ? called->length : 0);
        if (!all.empty() && fazgrond_giver_bytes(handle.get(), all.data(), all.size()) != FAZGROND_OK)
            all.clear();
        return all;
    }

    // The datagram to send for the piece that bytes ask for at a place of their list, from 0. The answer is nothing if there is none.
    Code reply(std::uint64_t number, std::uint8_t me, const std::uint8_t *bytes, std::size_t length, std::size_t place, Datagram &out) {
        return Code(fazgrond_giver_reply(handle.get(), number, me, bytes, length, place, out.bytes.data(), out.bytes.size(),
                                         &out.length));
    }

private:
    Owned<fazgrond_giver> handle;
};

// Who takes a state in pieces, closed at first.
class Taker {
public:
    Taker() : handle(new fazgrond_taker FAZGROND_CLOSED) {}

    // The state of this name, if it has no more bytes than `limit`. All memory is taken now.
    Code open(const StateName &name, std::uint32_t limit) { return Code(fazgrond_taker_open(handle.get(), &name, limit)); }

    void close() { fazgrond_taker_close(handle.get()); }

    std::optional<StateName> name() { return asked<StateName>(handle.get(), fazgrond_taker_name); }

    // How many of the pieces are there.
    std::optional<TakerState> look() { return asked<TakerState>(handle.get(), fazgrond_taker_look); }

    // The datagram that asks for the next missing pieces, so many at most. The answer is nothing if none is missing.
    Code send(std::uint64_t number, std::uint8_t me, std::size_t most, Datagram &out) {
        return Code(fazgrond_taker_send(handle.get(), number, me, most, out.bytes.data(), out.bytes.size(), &out.length));
    }

    // `heard` says what came of a piece.
    Code receive(std::uint64_t number, const std::uint8_t *bytes, std::size_t length, Heard &heard) {
        return Code(fazgrond_taker_receive(handle.get(), number, bytes, length, &heard));
    }

    // Whether pieces of a machine are taken for now: ask those alone.
    bool takes_of(std::uint8_t machine) {
        auto flag = asked<std::uint32_t>(handle.get(), fazgrond_taker_takes_of, machine);
        return flag && *flag != 0;
    }

    // From now on pieces of this machine alone are taken, or with FAZGROND_NO_MACHINE of each that didn't give a wrong state.
    Code take_of(std::uint8_t machine) { return Code(fazgrond_taker_take_of(handle.get(), machine)); }

    // The state's bytes, once it is whole.
    std::optional<std::vector<std::uint8_t>> bytes() {
        auto called = name();
        std::vector<std::uint8_t> all(called ? called->length : 0);
        if (all.empty() || fazgrond_taker_bytes(handle.get(), all.data(), all.size()) != FAZGROND_OK)
            return std::nullopt;
        return all;
    }

private:
    Owned<fazgrond_taker> handle;
};

// The machine that sent a piece of a state or asks for some; nothing if the datagram is for a peer.
inline std::optional<std::uint8_t> state_sender(const std::uint8_t *bytes, std::size_t length) {
    std::uint8_t machine;
    if (fazgrond_state_sender(bytes, length, &machine) != FAZGROND_OK)
        return std::nullopt;
    return machine;
}

// A digest that has a state in it, beside what another has.
inline std::uint64_t state_digest(const StateName &name, std::uint64_t digest) { return fazgrond_state_digest(&name, digest); }

// The datagram that asks for the first piece of a state, if nobody has said what it is called.
inline Code state_ask(std::uint64_t number, std::uint8_t me, std::uint64_t which, std::uint32_t frame, Datagram &out) {
    return Code(fazgrond_state_ask(number, me, which, frame, out.bytes.data(), out.bytes.size(), &out.length));
}

// What the state is called that bytes are a piece of.
inline Code state_told(std::uint64_t number, const std::uint8_t *bytes, std::size_t length, StateName &name) {
    return Code(fazgrond_state_told(number, bytes, length, &name));
}

// A sync test: does a game come out the same when it is run again? It gives `carry_out` requests as a session does: to run frames with
// these rows, `depth` at a time, to go back to the state before them, and to run them once more. The first frame that comes out another,
// or whose state before it has changed since it was saved; nothing if there is none. `digest` makes a number of the state in a slot,
// which is another one for most other states. Slots from 0 to `depth` + 1 are used.
template <class CarryOut, class Digest>
std::optional<std::size_t> sync_test(const std::vector<Row> &rows, CarryOut &&carry_out, Digest &&digest, std::size_t depth = 8) {
    auto asks = [&](std::uint32_t kind, std::size_t slot, const Row &row = Row{}) {
        const Request request = { kind, std::uint32_t(slot), row };
        carry_out(request);
    };
    auto runs = [&](const Row &row, std::size_t slot) {
        asks(FAZGROND_STEP, 0, row);
        asks(FAZGROND_SAVE, slot);
        return digest(std::uint32_t(slot));
    };
    for (std::size_t first = 0, count; first < rows.size(); first += count) {
        count = std::max<std::size_t>(1, std::min(depth, rows.size() - first));
        asks(FAZGROND_SAVE, 0);
        std::vector digests = { digest(0u) };
        for (std::size_t at = 0; at < count; at++)
            digests.push_back(runs(rows[first + at], at + 1));
        std::size_t other = count + 1;
        asks(FAZGROND_LOAD, 0);
        for (std::size_t at = 0; at < count; at++) {
            if (runs(rows[first + at], count + 1) != digests[at + 1])
                other = std::min(other, at);
            asks(FAZGROND_FREE, count + 1);
        }
        for (std::size_t at = 0; at <= count; at++) {
            if (digest(std::uint32_t(at)) != digests[at])
                other = std::min(other, at);
            asks(FAZGROND_FREE, at);
        }
        if (other <= count)
            return first + other;
    }
    return std::nullopt;
}

// Of the library that the program runs with, as FAZGROND_VERSION is of the header.
inline std::uint32_t version() { return fazgrond_version(); }

} // namespace fazgrond

#endif
