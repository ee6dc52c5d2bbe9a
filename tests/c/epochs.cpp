// The classes go on in epochs as the calls of C do: two machines mark, and come to the state of the game that is run once over all
// words, in the same epochs. Somebody watches each of them, and is told of the first epoch after its end.
#include <fazgrond.hpp>
#include <deque>

namespace {

using fazgrond::Code;

constexpr std::uint32_t turn_time = 16;
constexpr std::uint64_t frames = 200;
constexpr std::uint64_t comers = 77;

using State = std::uint64_t;

State stepped(State state, const fazgrond::Row &row) {
    for (std::uint32_t player = 0; player < row.count; player++)
        state = (31 * state + row.words[player]) % 1000003;
    return state;
}

std::uint32_t word_of(std::uint32_t player, std::uint64_t frame) { return std::uint32_t(frame / (3 + player) % 5) + player; }

struct Machine {
    std::uint32_t me;
    fazgrond::Session session;
    fazgrond::Peer peer;
    fazgrond::Line line;
    fazgrond::Viewer viewer;
    bool is_right = true;
    bool is_watched;
    State state = 0;
    std::vector<State> slots = std::vector<State>(257);
    std::vector<fazgrond::Epoch> epochs;
    std::vector<fazgrond::Datagram> here;
    std::deque<std::vector<fazgrond::Datagram>> coming; // in this turn first

    Machine(std::uint32_t number, std::size_t lag, bool watched) : me(number), is_watched(watched), coming(lag) {
        fazgrond::Settings settings = fazgrond::settings_of(2, 1u << me);
        fazgrond::Match match = fazgrond::match_of(2, me);
        is(match.silent_after == 5000 && match.notify_after == 750 && match.stalled_after == 0);
        match.owners[0] = 0;
        match.owners[1] = 1;
        match.draw = 70 + me;
        match.comers = comers;
        fazgrond_one_number(&match, 7);
        fazgrond::Epoch epoch = fazgrond_epoch_for(&match, &settings);
        for (std::uint32_t at = 0; at < 256; at++)
            is(fazgrond_epoch_has(&epoch, at) == (at < 2 ? 1u : 0u));
        must(session.open(settings));
        is(!peer.has_stayed(0) && !peer.has_stayed(1));
        must(peer.open_lasting(session, match, epoch));
        epochs.push_back(epoch);
        is(!peer.has_stayed(0) && !peer.has_stayed(1));
        open_line(match);
    }

    void open_line(const fazgrond::Match &match) {
        fazgrond::Datagram sent;
        fazgrond::LineSettings settings{};
        settings.number = 8;
        settings.host = me;
        settings.machines = 2;
        std::copy(std::begin(match.owners), std::end(match.owners), settings.owners);
        is(line.send_before(peer, 0, sent) == Code::is_closed);
        settings.draw = 21;
        must(line.open(settings));
        settings.draw = 22;
        must(viewer.open(settings));
        is(line.send_before(peer, 0, sent) == Code::nothing);
    }

    void must(Code code) { is_right = is_right && code == Code::ok; }

    void is(bool right) { is_right = is_right && right; }

    auto carry_out() {
        return [this](const fazgrond::Request &request) noexcept {
            if (request.kind == FAZGROND_LOAD)
                state = slots[request.slot];
            else if (request.kind == FAZGROND_SAVE)
                slots[request.slot] = state;
            else if (request.kind == FAZGROND_STEP)
                state = stepped(state, request.row);
        };
    }

    // The frame of the whole match.
    std::uint64_t frame() { return epochs.back().base + session.frame().value_or(0); }
};

// Who begins to watch only now is told all rows of the epoch before, since no word of the other machine in this one has come.
void tell_past(Machine &self) {
    fazgrond::Datagram sent;
    std::uint64_t rows = 0;
    for (std::uint32_t now = 0; now < 20 * turn_time; now += turn_time) {
        self.must(self.line.send_before(self.peer, now, sent));
        (void)self.viewer.receive(sent.bytes.data(), sent.length, now);
        for (; auto row = self.viewer.row(); rows++)
            self.is(row->words[0] == word_of(0, rows) && row->words[1] == word_of(1, rows));
        self.must(self.viewer.send(now, sent));
        (void)self.line.receive(sent.bytes.data(), sent.length, now);
    }
    self.is(rows == self.epochs[1].base);
}

// Where somebody watches, what has come is played first, so that all rows are told of the epoch that may be over.
void go_on(Machine &self) {
    std::uint64_t before = self.frame();
    std::uint32_t reached = 0;
    fazgrond::Row row;
    if (self.is_watched && self.session.has_news().value_or(false))
        self.must(self.session.synchronize_input(row, self.carry_out()));
    Code code = self.peer.go_on(self.session, reached, self.carry_out());
    if (code == Code::ok) {
        auto epoch = self.peer.epoch();
        self.is(epoch && self.session.frame() == reached);
        if (epoch)
            self.epochs.push_back(*epoch);
        self.is(self.peer.has_stayed(0) && self.peer.has_stayed(1) && !self.peer.has_stayed(2));
        if (self.is_watched && self.epochs.size() == 2)
            tell_past(self);
    } else
        self.is(code == Code::nothing);
    self.is(self.frame() == before);
}

// The marks of turns 40 and 120 are the first machine's. That of turn 80 is the second one's, and isn't put: nobody has its ticket.
void put_mark(Machine &self, std::uint32_t turn) {
    if ((turn != 40 && turn != 80 && turn != 120) || self.me != (turn == 80 ? 1 : 0))
        return;
    fazgrond::Mark mark = fazgrond_mark_for();
    if (turn == 80) {
        mark.ticket = fazgrond::ticket(comers, 9) + 1;
        mark.comes[0] = 1;
    } else if (turn == 120)
        mark.threshold = 6;
    Code again = turn == 80 ? Code::wrong_ticket : Code::marked;
    self.is(self.peer.mark(self.session, std::uint8_t(self.me + 1), mark) == (turn == 80 ? again : Code::ok));
    self.is(self.peer.mark(self.session, std::uint8_t(self.me + 1), mark) == again);
    self.is(self.peer.mark(self.session, std::uint8_t(2 - self.me), mark) == Code::invalid_player);
}

void play(Machine &self, std::uint32_t turn) {
    std::uint64_t frame = self.frame();
    fazgrond::Reached reached{};
    fazgrond::Row row{};
    bool is_given = false;
    if (self.peer.is_running() && frame < frames) {
        put_mark(self, turn);
        is_given = self.session.add_local_input(std::uint8_t(self.me + 1), word_of(self.me, frame)) == Code::ok;
    }
    if (is_given)
        self.must(self.session.advance_frame(reached, self.carry_out()));
    else if (self.session.has_news().value_or(false))
        self.must(self.session.synchronize_input(row, self.carry_out()));
}

void take_turn(Machine &self, Machine &other, std::uint32_t turn) {
    std::uint32_t now = turn * turn_time;
    self.here = std::move(self.coming.front());
    self.coming.pop_front();
    for (const fazgrond::Datagram &came : self.here)
        (void)self.peer.receive(self.session, came.bytes.data(), came.length, now);
    self.must(self.peer.poll(self.session, now));
    go_on(self);
    play(self, turn);
    while (auto event = self.peer.event())
        self.is(event->code != FAZGROND_LEFT && event->code != FAZGROND_DROPPED && event->code != FAZGROND_DESYNC);
    fazgrond::Datagram sent;
    other.coming.emplace_back();
    if (self.peer.send(self.session, std::uint8_t(other.me), now, sent) == Code::ok)
        other.coming.back().push_back(sent);
    if (self.peer.send_before(std::uint8_t(other.me), now, sent) == Code::ok)
        other.coming.back().push_back(sent);
}

State alone() {
    State state = 0;
    for (std::uint64_t frame = 0; frame < frames; frame++)
        state = stepped(state, { 2, 0, { word_of(0, frame), word_of(1, frame) } });
    return state;
}

// Once both have come to the next epoch, nothing is told of the one before, though the line hasn't ended.
bool is_past_over(Machine &self) {
    fazgrond::Datagram sent;
    auto seen = self.line.look(0);
    if (!self.is_watched)
        return true;
    return seen && seen->is_playing != 0 && seen->has_ended == 0 && self.line.send_before(self.peer, 0, sent) == Code::nothing;
}

bool has_come(Machine &self, const std::vector<fazgrond::Epoch> &others) {
    if (!self.is_right || !is_past_over(self) || self.epochs.size() != 3 || others.size() != 3)
        return false;
    for (std::size_t at = 0; at < 3; at++)
        if (self.epochs[at].id != others[at].id || self.epochs[at].base != others[at].base)
            return false;
    return self.epochs[1].threshold == 8 && self.epochs[2].threshold == 6 && self.state == alone()
        && self.epochs[2].base + self.session.settled().value_or(0) == frames;
}

// Two machines, each of which hears what the other sent so many turns before.
bool both_come(std::size_t lag, bool is_watched) {
    Machine one(0, lag, is_watched), two(1, lag, is_watched);
    for (std::uint32_t turn = 0; turn < 600; turn++) {
        take_turn(one, two, turn);
        take_turn(two, one, turn);
    }
    return has_come(one, two.epochs) && has_come(two, one.epochs);
}

} // namespace

// Where nobody watches, no call of the session stands between the poll and the seam.
int main() {
    bool is_ticket = fazgrond::ticket(comers, 9) == 0x91cdd58f00000009; // by hashlib of Python
    return is_ticket && both_come(1, true) && both_come(1, false) && both_come(3, false) && both_come(5, false) ? 0 : 1;
}
