// The sync test: a game that comes out the same passes, and of others the first frame is found that doesn't.
#include <fazgrond.hpp>

namespace {

using Sums = std::array<std::uint32_t, 2>;

enum class Fault { none, lends, borrows, hides };

// Two sums, in a list that its states may share with it.
struct Game {
    Fault fault;
    std::uint32_t steps = 0;
    std::shared_ptr<Sums> list = std::make_shared<Sums>();
    std::vector<std::shared_ptr<Sums>> slots = std::vector<std::shared_ptr<Sums>>(257);

    explicit Game(Fault of) : fault(of) {}

    void step(const fazgrond::Row &row) {
        Sums &sums = *list;
        for (std::uint32_t player = 0; player < row.count; player++)
            sums[0] = (31 * sums[0] + row.words[player]) % 1009;
        sums[1] = (sums[1] + sums[0]) % 1013;
        sums[0] += ++steps % 100 == 0 && fault == Fault::hides; // a counter beside the state
    }

    void operator()(const fazgrond::Request &request) {
        if (request.kind == FAZGROND_STEP)
            step(request.row);
        else if (request.kind == FAZGROND_SAVE) // who lends hands out its own list, which goes on to change
            slots[request.slot] = fault == Fault::lends ? list : std::make_shared<Sums>(*list);
        else if (request.kind == FAZGROND_LOAD) // who borrows goes on in the list of the slot
            list = fault == Fault::borrows ? slots[request.slot] : std::make_shared<Sums>(*slots[request.slot]);
        else
            slots[request.slot] = nullptr;
    }

    bool is_free() const {
        return std::all_of(slots.begin(), slots.end(), [](const std::shared_ptr<Sums> &slot) { return slot == nullptr; });
    }
};

std::vector<fazgrond::Row> rows() {
    std::vector<fazgrond::Row> all;
    for (std::uint32_t frame = 0; frame < 80; frame++)
        all.push_back({ 2, 0, { frame * 7 % 5, frame * 3 % 4 } });
    return all;
}

bool finds(Fault fault, std::size_t depth, std::optional<std::size_t> frame) {
    Game game(fault);
    auto digest = [&](std::uint32_t slot) { return (*game.slots[slot])[0] + 1013u * (*game.slots[slot])[1]; };
    auto found = fazgrond::sync_test(rows(), game, digest, depth);
    return found == frame && game.is_free();
}

} // namespace

// Frames are run twice, eight by eight, so that the hundredth step is that of frame 51.
int main() {
    bool is_right = finds(Fault::none, 8, std::nullopt) && finds(Fault::none, 100, std::nullopt) && finds(Fault::none, 0, std::nullopt)
        && finds(Fault::lends, 8, 0) && finds(Fault::borrows, 8, 0) && finds(Fault::hides, 8, 51) && finds(Fault::hides, 80, 19);
    return is_right ? 0 : 1;
}
