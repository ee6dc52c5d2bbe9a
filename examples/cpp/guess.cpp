// A guess that comes true: a thread runs the frames that player 2's words would make, before they come.
#include <fazgrond.hpp>
#include <array>
#include <cstdlib>
#include <iostream>
#include <thread>
#include <vector>

namespace {

using fazgrond::Code;

constexpr std::size_t slots = 64;

void must(Code code) {
    if (code != Code::ok) {
        std::cerr << "refused: " << fazgrond::message(code) << '\n';
        std::exit(1);
    }
}

// Ten times the number, and of each player the number times the word, or 5 if the player has left.
std::uint64_t stepped(std::uint64_t state, const fazgrond::Row &row) {
    std::uint64_t sum = 10 * state;
    for (std::uint32_t at = 0; at < row.count; at++)
        sum += (row.gone >> at & 1) != 0 ? 5 : std::uint64_t(at + 1) * row.words[at];
    return sum % 1000000;
}

struct Tally {
    std::uint64_t state = 0;
    std::array<std::uint64_t, slots> saved = {};
    int steps = 0;

    void operator()(const fazgrond::Request &request) {
        switch (request.kind) {
        case FAZGROND_LOAD: state = saved[request.slot]; break;
        case FAZGROND_SAVE: saved[request.slot] = state; break;
        case FAZGROND_STEP:
            state = stepped(state, request.row);
            steps++;
            break;
        }
    }

    // On a thread of its own: the job's slots are its alone, and what it loads stays as it is.
    void run(const std::vector<fazgrond::Request> &job) {
        std::uint64_t aside = 0;
        for (const fazgrond::Request &request : job) {
            switch (request.kind) {
            case FAZGROND_JOB_LOAD: aside = saved[request.slot]; break;
            case FAZGROND_JOB_STEP: aside = stepped(aside, request.row); break;
            case FAZGROND_JOB_SAVE: saved[request.slot] = aside; break;
            }
        }
    }
};

void advance(Tally &game, fazgrond::Session &session) {
    fazgrond::Reached reached;
    must(session.add_local_input(1, 1));
    must(session.advance_frame(reached, game));
}

// Three frames of player 1, and then player 2's word 3 in each of them: what a rollback costs, guessed or not.
void play(bool is_guessed) {
    const std::uint32_t words[] = { 3 };
    Tally game;
    fazgrond::Session session;
    fazgrond::Row row;
    std::vector<fazgrond::Request> job;
    std::uint32_t number = 0, added = 0;
    std::thread thread;

    must(session.open(fazgrond::settings_of(2, 1)));
    must(session.limit_slots(slots));
    advance(game, session);
    advance(game, session);

    if (is_guessed) {
        auto put_aside = [&](const fazgrond::Request &request) { job.push_back(request); };
        must(session.guess(2, words, 1, 3, number, put_aside));
        thread = std::thread([&] { game.run(job); });
    }
    advance(game, session); // the game goes on meanwhile
    if (is_guessed) {
        thread.join();
        must(session.graft(number, &added));
        std::cout << "job " << number << ": " << added << " states\n";
    }

    for (std::uint32_t frame = 0; frame < 3; frame++)
        must(session.remote_input(2, frame, 3));
    game.steps = 0;
    must(session.synchronize_input(row, game));
    std::cout << (is_guessed ? "guessed" : "not guessed") << ": " << game.steps << " frames run again, state " << game.state << '\n';

    // A guess that nobody runs is given up.
    must(session.guess(2, words, 1, 5, number, [](const fazgrond::Request &) {}));
    must(session.forget(number));
    if (session.graft(number) != Code::no_job)
        std::exit(1);
}

} // namespace

int main() {
    play(false);
    play(true);
    return 0;
}
