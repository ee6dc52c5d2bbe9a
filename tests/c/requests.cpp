// A function that is noexcept gets the same requests as one that may throw. If this one throws, those after are left, in order.
#include <fazgrond.hpp>
#include <algorithm>

namespace {

using fazgrond::Code;
using Kinds = std::vector<std::uint32_t>;

// Three frames, and player 2's word of the first one, which was predicted wrong.
bool is_to_roll_back(fazgrond::Session &session) {
    auto none = [](const fazgrond::Request &) {};
    fazgrond::Reached reached;
    if (session.open(fazgrond::settings_of(2, 1)) != Code::ok)
        return false;
    for (int frame = 0; frame < 3; frame++)
        if (session.add_local_input(1, 1) != Code::ok || session.advance_frame(reached, none) != Code::ok)
            return false;
    return session.remote_input(2, 0, 3) == Code::ok;
}

Kinds many_at_a_time() {
    Kinds taken;
    fazgrond::Session session;
    fazgrond::Row row;
    auto put = [&](const fazgrond::Request &request) noexcept { taken.push_back(request.kind); };
    if (!is_to_roll_back(session) || session.synchronize_input(row, put) != Code::ok)
        taken.clear();
    return taken;
}

// It throws at each request, and is given the next ones all the same.
Kinds one_by_one() {
    Kinds taken;
    fazgrond::Session session;
    fazgrond::Row row;
    auto put = [&](const fazgrond::Request &request) {
        taken.push_back(request.kind);
        throw 1;
    };
    bool is_over = !is_to_roll_back(session);
    for (bool begins = true; !is_over; begins = false)
        try {
            if (begins)
                (void)session.synchronize_input(row, put);
            else
                session.take_requests(put);
            is_over = true;
        } catch (int) {
        }
    return taken;
}

} // namespace

int main() {
    const Kinds due = { FAZGROND_LOAD, FAZGROND_STEP, FAZGROND_SAVE, FAZGROND_STEP, FAZGROND_SAVE, FAZGROND_STEP, FAZGROND_SAVE };
    auto is_due = [&](Kinds taken) {
        taken.erase(std::remove(taken.begin(), taken.end(), std::uint32_t(FAZGROND_FREE)), taken.end());
        return taken == due;
    };
    return is_due(many_at_a_time()) && is_due(one_by_one()) ? 0 : 1;
}
