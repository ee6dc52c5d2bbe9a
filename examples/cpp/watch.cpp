// A match of two machines in one process, and a viewer who watches machine 0. One datagram in four is lost; the others come one to
// four turns later.
#include <fazgrond.hpp>
#include <algorithm>
#include <array>
#include <cstdlib>
#include <iostream>
#include <vector>

namespace {

using fazgrond::Code;
using fazgrond::Datagram;

constexpr std::uint32_t frames = 600, turn_milliseconds = 16;

void must(Code code) {
    if (code != Code::ok) {
        std::cerr << "refused: " << fazgrond::message(code) << '\n';
        std::exit(1);
    }
}

// The game, and what a player holds in a frame: as in two_peers.c.
std::uint64_t stepped(std::uint64_t state, const fazgrond::Row &row) {
    std::uint64_t sum = 31 * state;
    for (std::uint32_t at = 0; at < row.count; at++)
        sum += (row.gone >> at & 1) != 0 ? 5 : std::uint64_t(at + 1) * row.words[at];
    return sum % 1000003;
}

std::uint32_t word_of(std::uint32_t me, std::uint32_t frame) { return frame / (5 + 2 * me) * 2654435761u >> 28; }

// A game draws these 64 bits from the system's random source, another one for each end that it opens.
std::uint64_t new_draw() {
    static std::uint64_t draw;
    return draw += 0x9e3779b97f4a7c15;
}

// What is on the way from one to another.
class Way {
public:
    void send(const Datagram &sent, std::uint32_t turn) {
        static std::uint32_t seed = 1;
        seed = seed * 1664525u + 1013904223u;
        if (seed >> 30 != 0)
            under_way.push_back({ turn + 1 + (seed >> 16) % 4, sent });
    }

    // Gives each datagram that is due to `hear`.
    template <class Hear>
    void deliver(std::uint32_t turn, Hear &&hear) {
        auto is_late = [turn](const Sent &one) { return one.due > turn; };
        auto late = std::stable_partition(under_way.begin(), under_way.end(), is_late);
        for (auto one = late; one != under_way.end(); ++one)
            hear(one->datagram);
        under_way.erase(late, under_way.end());
    }

private:
    struct Sent {
        std::uint32_t due;
        Datagram datagram;
    };

    std::vector<Sent> under_way;
};

class Machine {
public:
    Way to_me;

    explicit Machine(std::uint32_t number) : me(number) {
        fazgrond::Settings settings = fazgrond::settings_of(2, 1u << me);
        fazgrond::Match match = fazgrond::match_of(2, me);
        settings.limit = frames;
        match.owners[0] = 0; // machine 0 has player 1
        match.owners[1] = 1;
        match.draw = new_draw();
        fazgrond_one_number(&match, 0x5eed5eed5eed5eed);
        must(session.open(settings));
        must(peer.open(session, match));
    }

    void take_turn(std::uint32_t turn) {
        std::uint32_t now = turn * turn_milliseconds;
        to_me.deliver(turn, [&](const Datagram &come) { // what is refused has changed nothing
            (void)peer.receive(session, come.bytes.data(), come.length, now);
        });
        must(peer.poll(session, now));
        if (peer.is_running())
            play();
        if (auto found = session.settled_slot())
            must(peer.note_settled(session, saved[found->slot])); // the state is a digest of itself
        while (auto event = peer.event())
            if (event->code == FAZGROND_DESYNC)
                std::exit(1);
    }

    void send_to(Machine &other, std::uint32_t turn) {
        Datagram sent;
        must(peer.send(session, std::uint8_t(other.me), turn * turn_milliseconds, sent));
        other.to_me.send(sent, turn);
    }

    fazgrond::Session session;

private:
    // A frame, or at least what came too late for the frames before.
    void play() {
        auto carry_out = [this](const fazgrond::Request &request) { carry_out_one(request); };
        fazgrond::Reached reached;
        fazgrond::Row row;
        if (session.add_local_input(std::uint8_t(me + 1), word_of(me, session.frame().value_or(0))) == Code::ok)
            must(session.advance_frame(reached, carry_out));
        else if (session.has_news().value_or(false))
            must(session.synchronize_input(row, carry_out));
    }

    void carry_out_one(const fazgrond::Request &request) {
        switch (request.kind) {
        case FAZGROND_LOAD: state = saved[request.slot]; break;
        case FAZGROND_SAVE: saved[request.slot] = state; break;
        case FAZGROND_STEP: state = stepped(state, request.row); break;
        }
    }

    std::uint32_t me;
    fazgrond::Peer peer;
    std::uint64_t state = 0;
    std::array<std::uint64_t, 257> saved = {};
};

// The viewer's end of the line has a way of its own, and so has the host's.
struct Watched {
    fazgrond::Line line;
    fazgrond::Viewer viewer;
    Way to_line, to_viewer;
    std::uint64_t state = 0;
    std::uint32_t rows = 0;

    Watched() {
        fazgrond::LineSettings settings = {};
        settings.number = 0x1157e2;
        settings.machines = 2;
        settings.silent_after = 5000;
        for (std::uint32_t at = 0; at < FAZGROND_PLAYERS; at++)
            settings.owners[at] = at < 2 ? at : FAZGROND_NO_PLAYER;
        settings.draw = new_draw();
        must(line.open(settings));
        settings.draw = new_draw();
        must(viewer.open(settings));
    }

    void take_turn(fazgrond::Session &session, std::uint32_t turn) {
        std::uint32_t now = turn * turn_milliseconds;
        Datagram sent;
        to_line.deliver(turn, [&](const Datagram &come) { (void)line.receive(come.bytes.data(), come.length, now); });
        if (line.send(session, now, sent) == Code::ok)
            to_viewer.send(sent, turn);
        to_viewer.deliver(turn, [&](const Datagram &come) { (void)viewer.receive(come.bytes.data(), come.length, now); });
        for (; auto row = viewer.row(); rows++)
            state = stepped(state, *row);
        must(rows < frames ? viewer.send(now, sent) : viewer.bye(sent)); // it has seen all
        to_line.send(sent, turn);
    }

    bool has_ended(std::uint32_t turn) { return line.look(turn * turn_milliseconds).value().has_ended != 0; }
};

} // namespace

int main() {
    Machine one(0), two(1);
    Watched watched;
    for (std::uint32_t turn = 0; !watched.has_ended(turn); turn++) {
        one.take_turn(turn);
        two.take_turn(turn);
        one.send_to(two, turn);
        two.send_to(one, turn);
        watched.take_turn(one.session, turn);
    }
    std::cout << "viewer: rows " << watched.rows << " state " << watched.state << '\n';
    return 0;
}
