// What a turn costs by the classes of C++: g++ -std=c++17 -O2 -Iinclude bench/cpp_frames.cpp out/libfazgrond.a, after `make`.
//
// The games are those of bench/c_frames.c: a frame is all calls and requests of a turn, and each line is the least of nine runs.
// The last one is two machines with peers beside their sessions: a turn of one is all its calls, with a datagram that comes and
// one that goes.
#include <fazgrond.hpp>
#include <algorithm>
#include <chrono>
#include <cstdio>
#include <cstdlib>

using fazgrond::Code;

constexpr std::uint32_t FRAMES = 20000;
constexpr int RUNS = 9;

static void must(Code code) {
    if (code != Code::ok) {
        std::fprintf(stderr, "refused: %d\n", int(code));
        std::exit(1);
    }
}

static double now() { return double(std::chrono::nanoseconds(std::chrono::steady_clock::now().time_since_epoch()).count()); }

struct Game {
    std::uint64_t state = 0, steps = 0, saved[257] = {};

    void operator()(const fazgrond::Request &request) noexcept {
        switch (request.kind) {
        case FAZGROND_LOAD: state = saved[request.slot]; break;
        case FAZGROND_SAVE: saved[request.slot] = state; break;
        case FAZGROND_STEP:
            state = (10 * state + request.row.words[0] + 2 * std::uint64_t(request.row.words[1])) % 1000000;
            steps++;
            break;
        }
    }
};

// A match of which player 2's words come so many frames late.
static void play(fazgrond::Session &session, Game &game, std::uint32_t late, bool changes) {
    fazgrond::Row row;
    fazgrond::Reached reached;
    for (std::uint32_t frame = 0; frame < FRAMES; frame++) {
        if (frame >= late) {
            must(session.remote_input(2, frame - late, changes ? frame - late : 0));
            if (late > 0)
                must(session.synchronize_input(row, game));
        }
        must(session.add_local_input(1, frame));
        must(session.advance_frame(reached, game));
    }
}

static void measure(const char *what, std::uint32_t late, bool changes) {
    double least = 1e18, steps = 0;
    for (int run = 0; run < RUNS; run++) {
        Game game;
        fazgrond::Session session;
        must(session.open(fazgrond::settings_of(2, 1)));
        double from = now();
        play(session, game, late, changes);
        least = std::min(least, (now() - from) / FRAMES);
        steps = double(game.steps) / FRAMES;
    }
    std::printf("%-38s %7.0f ns a frame, %4.2f steps\n", what, least, steps);
}

struct Machine {
    std::uint8_t me;
    Game game = {};
    fazgrond::Session session = {};
    fazgrond::Peer peer = {};
    fazgrond::Datagram came = {};

    explicit Machine(std::uint8_t number) : me(number) {
        fazgrond::Match match = fazgrond::match_of(2, me);
        match.owners[0] = 0;
        match.owners[1] = 1;
        match.draw = me + 1;
        fazgrond_one_number(&match, 7);
        must(session.open(fazgrond::settings_of(2, 1u << me)));
        must(peer.open(session, match));
    }

    void take_turn(Machine &other, std::uint32_t turn) {
        fazgrond::Reached reached;
        std::uint32_t at = turn * 16;
        if (came.length > 0) // a first play can't be opened yet
            (void)peer.receive(session, came.bytes.data(), came.length, at);
        must(peer.poll(session, at));
        if (peer.is_running() && session.add_local_input(me + 1, turn) == Code::ok)
            must(session.advance_frame(reached, game));
        must(peer.send(session, other.me, at, other.came));
    }
};

static void measure_peers() {
    double least = 1e18, steps = 0, frames = 0;
    for (int run = 0; run < RUNS; run++) {
        Machine one(0), two(1);
        double from = now();
        for (std::uint32_t turn = 0; turn < FRAMES; turn++) {
            one.take_turn(two, turn);
            two.take_turn(one, turn);
        }
        least = std::min(least, (now() - from) / FRAMES / 2);
        steps = double(one.game.steps) / FRAMES;
        frames = double(*one.session.frame()) / FRAMES;
    }
    std::printf("%-38s %7.0f ns a turn, %4.2f steps, %.2f frames\n", "two peers, a turn of one", least, steps, frames);
}

int main() {
    measure("each word in time, no rollback", 0, true);
    measure("each word 6 frames late, as predicted", 6, false);
    measure("each word 6 frames late, another one", 6, true);
    measure("each word 2 frames late, another one", 2, true);
    measure_peers();
    return 0;
}
