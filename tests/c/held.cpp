// The classes hold words back as the calls of C do, which tests/c/held.c tries: a word waits, a guess with it is carried out, and once it
// is handed over, no frame is run again.
#include <fazgrond.hpp>

namespace {

using fazgrond::Code;

struct Machine {
    fazgrond::Session session;
    fazgrond::Peer peer;
    std::uint32_t steps = 0, job_steps = 0;

    Machine(std::uint32_t me, std::uint32_t held_turns) {
        fazgrond::Match match = fazgrond::match_of(2, me);
        match.owners[0] = 0;
        match.owners[1] = 1;
        match.draw = 70 + me;
        fazgrond_one_number(&match, 71);
        match.held_turns = held_turns;
        is_open = session.open(fazgrond::settings_of(2, 1u << me)) == Code::ok && peer.open(session, match) == Code::ok;
    }

    bool is_open;

    void carry_out(const fazgrond::Request &request) {
        steps += request.kind == FAZGROND_STEP;
        job_steps += request.kind == FAZGROND_JOB_STEP;
    }

    // A local word, and the next frame; how many frames were run.
    std::uint32_t give(std::uint8_t player, std::uint32_t word) {
        fazgrond::Reached reached{};
        auto step = [this](const fazgrond::Request &request) { carry_out(request); };
        bool given = session.add_local_input(player, word) == Code::ok && session.advance_frame(reached, step) == Code::ok;
        return given ? reached.rerun : 99;
    }
};

// What one sends, the other hears; it may be sealed with what the other doesn't know yet.
void pass(Machine &from, Machine &to, std::uint8_t machine) {
    fazgrond::Datagram sent;
    if (from.peer.send(from.session, machine, 0, sent) == Code::ok)
        (void)to.peer.receive(to.session, sent.bytes.data(), sent.length, 0);
}

} // namespace

int main() {
    Machine one(0, 0), two(1, 2);
    if (!one.is_open || !two.is_open || Machine(0, 9).is_open)
        return 1;
    for (int turn = 0; turn < 8; turn++) {
        pass(one, two, 1);
        pass(two, one, 0);
        if (one.peer.poll(one.session, 0) != Code::ok || two.peer.poll(two.session, 0) != Code::ok)
            return 2;
    }
    if (one.give(1, 7) != 1 || two.give(2, 5) != 1 || two.give(2, 5) != 1)
        return 3;
    pass(one, two, 1);
    auto waiting = two.peer.waiting();
    if (waiting.size() != 1 || waiting[0].kind != FAZGROND_REMOTE || waiting[0].word != 7 || two.session.confirmed(1) != 0u)
        return 4;
    if (two.peer.rerun(two.session, 1) != 2u || two.peer.rerun(two.session, 0).has_value() || two.peer.is_pressed(two.session))
        return 5;
    std::uint32_t job = 0, added = 0, handed = 77;
    auto step = [&two](const fazgrond::Request &request) { two.carry_out(request); };
    if (two.peer.guess(two.session, 2, job, step) != Code::ok || two.job_steps != 2 || two.session.graft(job, &added) != Code::ok)
        return 6;
    if (added != 2 || two.peer.rerun(two.session, 1) != 0u || two.peer.guess(two.session, 2, job, step) != Code::nothing)
        return 7;
    if (two.peer.hand_over_due(two.session, &handed) != Code::ok || handed != 0 || two.peer.hand_over(two.session) != Code::ok)
        return 8;
    bool is_over = two.peer.waiting().empty() && two.session.confirmed(1) == 1u && two.give(2, 5) == 1;
    return is_over && two.steps == 3 && two.peer.hand_over_due(two.session, &handed) == Code::ok && handed == 0 ? 0 : 9;
}
