// Tally, a game of one number, and a word of player 2 that comes late.
#include <fazgrond.hpp>
#include <cstdlib>
#include <iostream>
#include <vector>

namespace {

using fazgrond::Code;

void must(Code code) {
    if (code != Code::ok) {
        std::cerr << "refused: " << fazgrond::message(code) << '\n';
        std::exit(1);
    }
}

class Tally {
public:
    std::uint64_t state = 0;

    void operator()(const fazgrond::Request &request) {
        switch (request.kind) {
        case FAZGROND_LOAD:
            state = saved[request.slot];
            std::cout << "  load slot " << request.slot << ": state " << state << '\n';
            break;
        case FAZGROND_SAVE:
            if (request.slot >= saved.size())
                saved.resize(request.slot + 1);
            saved[request.slot] = state;
            std::cout << "  save slot " << request.slot << '\n';
            break;
        case FAZGROND_STEP:
            step(request.row);
            std::cout << "  step " << request.row.words[0] << ' ' << request.row.words[1] << ": state " << state << '\n';
            break;
        case FAZGROND_FREE: std::cout << "  free slot " << request.slot << '\n'; break;
        }
    }

private:
    // Ten times the number, and of each player the number times the word, or 5 if the player has left.
    void step(const fazgrond::Row &row) {
        std::uint64_t sum = 10 * state;
        for (std::uint32_t at = 0; at < row.count; at++)
            sum += (row.gone >> at & 1) != 0 ? 5 : std::uint64_t(at + 1) * row.words[at];
        state = sum % 1000000;
    }

    std::vector<std::uint64_t> saved = { 0 };
};

void advance(Tally &game, fazgrond::Session &session) {
    fazgrond::Reached reached;
    must(session.add_local_input(1, 1));
    must(session.advance_frame(reached, game));
    std::cout << "frame " << reached.frame << " from " << reached.from << " rerun " << reached.rerun << " state " << game.state << '\n';
}

} // namespace

int main() {
    Tally game;
    fazgrond::Session session;
    fazgrond::Row row;

    must(session.open(fazgrond::settings_of(2, 1)));
    advance(game, session);
    advance(game, session);

    std::cout << "player 2 gave 3 in frame 0\n";
    must(session.remote_input(2, 0, 3));
    must(session.synchronize_input(row, game));

    std::cout << "settled " << session.settled().value_or(0) << " state " << game.state << '\n';
    return 0;
}
