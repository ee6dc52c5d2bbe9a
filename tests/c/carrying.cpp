// The classes carry as the calls of C do, which tests/c/carrying.c tries: of three machines two don't hear each other for longer than the
// time of silence, nobody is gone, and all have settled the words of all.
#include <fazgrond.hpp>

namespace {

using fazgrond::Code;

constexpr std::uint32_t machines = 3, frames = 200, turn_time = 16;

struct Machine {
    fazgrond::Session session;
    fazgrond::Peer peer;
    bool is_open, is_gone = false;
    std::vector<fazgrond::Datagram> here, coming;

    explicit Machine(std::uint32_t me) {
        fazgrond::Match match = fazgrond::match_of(machines, me);
        for (std::uint32_t at = 0; at < machines; at++)
            match.owners[at] = at;
        match.draw = 70 + me;
        match.silent_after = 500;
        fazgrond_one_number(&match, 7);
        is_open = session.open(fazgrond::settings_of(machines, 1u << me)) == Code::ok && peer.open_carrying(session, match) == Code::ok;
    }
};

// The line between machines 0 and 1 is broken from the 40th turn on.
void post(std::vector<Machine> &all, std::uint32_t from, std::uint32_t to, const fazgrond::Datagram &sent, std::uint32_t turn) {
    if (turn < 40 || from + to != 1)
        all[to].coming.push_back(sent);
}

std::uint32_t word_of(std::uint32_t player, std::uint32_t frame) { return frame / (3 + player) % 5 + player; }

bool take_turn(std::vector<Machine> &all, std::uint32_t me, std::uint32_t turn) {
    Machine &self = all[me];
    std::uint32_t now = turn * turn_time;
    fazgrond::Reached reached{};
    fazgrond::Row row{};
    fazgrond::Datagram sent;
    auto step = [](const fazgrond::Request &) {};
    for (const fazgrond::Datagram &come : self.here)
        (void)self.peer.receive(self.session, come.bytes.data(), come.length, now);
    if (self.peer.poll(self.session, now) != Code::ok)
        return false;
    auto frame = self.session.frame().value_or(0);
    bool is_given = self.peer.is_running() && frame < frames
        && self.session.add_local_input(std::uint8_t(me + 1), word_of(me, frame)) == Code::ok;
    Code played = is_given        ? self.session.advance_frame(reached, step)
        : self.session.has_news() ? self.session.synchronize_input(row, step)
                                  : Code::ok;
    if (played != Code::ok)
        return false;
    while (auto event = self.peer.event())
        self.is_gone |= event->code == FAZGROND_LEFT || event->code == FAZGROND_DROPPED || event->code == FAZGROND_CUT_OFF;
    for (std::uint8_t to = 0; to < machines; to++)
        if (self.peer.send(self.session, to, now, sent) == Code::ok)
            post(all, me, to, sent, turn);
    std::uint8_t to = 0;
    while (self.peer.send_more(to, sent) == Code::ok)
        post(all, me, to, sent, turn);
    return true;
}

bool is_right(Machine &self) {
    for (std::uint32_t frame = 0; frame < frames; frame++) {
        auto row = self.session.settled_row(frame);
        for (std::uint32_t player = 0; player < machines; player++)
            if (!row || row->words[player] != word_of(player, frame) || row->gone != 0)
                return false;
    }
    return !self.is_gone;
}

} // namespace

int main() {
    std::vector<Machine> all;
    for (std::uint32_t me = 0; me < machines; me++) {
        all.emplace_back(me);
        if (!all[me].is_open)
            return 1;
    }
    for (std::uint32_t turn = 0; turn < 600; turn++) {
        for (Machine &self : all) {
            self.here = std::move(self.coming);
            self.coming.clear();
        }
        for (std::uint32_t me = 0; me < machines; me++)
            if (!take_turn(all, me, turn))
                return 2;
    }
    for (Machine &self : all)
        if (!is_right(self))
            return 3;
    return 0;
}
