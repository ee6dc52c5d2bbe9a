// The classes' habits answer what those of C do, which tests/c/habits.c compares with guesses that were worked out elsewhere.
#include <fazgrond.hpp>

int main() {
    fazgrond::Habits habits;
    if (habits.note(1) != fazgrond::Code::is_closed || habits.open({ 1, 3 }) != fazgrond::Code::invalid_request)
        return 1;
    if (habits.open({ 1, 2, 4, 8, 16 }) != fazgrond::Code::ok)
        return 2;
    const std::uint32_t held[] = { 6, 10, 14, 9, 22 };
    for (std::uint32_t frame = 0; frame < 120; frame++) {
        std::uint32_t word = 0;
        for (int at = 0; at < 5; at++)
            word |= frame / held[at] % 2 << at;
        if (habits.note(word) != fazgrond::Code::ok)
            return 3;
    }
    auto best = habits.guesses(4, 40), first = habits.guesses(4, 1);
    if (best.size() != 32 || first.size() != 1 || habits.guesses(0, 8).size() != 0)
        return 4;
    habits.close();
    bool is_so = best[1].worth == 4311 && best[1].count == 2 && best[1].words[0] == 27 && best[1].words[1] == 26;
    return is_so && first[0].words[0] == 26 && habits.guesses(4, 8).empty() ? 0 : 5;
}
