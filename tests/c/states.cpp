// The classes bring a state over, of which every third datagram is lost. tests/c/states.c has what each call answers.
#include <fazgrond.hpp>

using namespace fazgrond;

int main() {
    enum { give = 0, take = 1 };
    const std::uint64_t number = 0x1122334455667788;
    std::vector<std::uint8_t> state(100000);
    for (std::size_t at = 0; at < state.size(); at++)
        state[at] = std::uint8_t(at * at >> 7);
    Giver giver;
    Taker taker;
    Datagram ask, piece;
    Heard heard = { 0, 0 };
    if (giver.name() || taker.bytes() || giver.open(1, 0, {}) != Code::invalid_request || giver.open(1, 0, state) != Code::ok)
        return 1;
    if (taker.open(*giver.name(), 99999) != Code::too_long || taker.open(*giver.name(), 100000) != Code::ok || giver.bytes() != state)
        return 2;
    StateName told = {};
    if (state_ask(number, take, 1, 0, ask) != Code::ok || giver.reply(number, give, ask.bytes.data(), ask.length, 0, piece) != Code::ok
        || state_told(number, piece.bytes.data(), piece.length, told) != Code::ok || told.length != 100000
        || state_told(number, ask.bytes.data(), ask.length, told) != Code::other_kind
        || state_digest(told, 7) != fazgrond_state_digest(&told, 7) || state_digest(told, 7) == state_digest(told, 8)
        || version() != FAZGROND_VERSION)
        return 8;
    if (taker.take_of(8) != Code::invalid_machine || !taker.takes_of(give) || taker.takes_of(8) || taker.look()->pieces != 98)
        return 3;
    for (int turn = 0, sent = 0; turn < 100 && taker.look()->left > 0; turn++) {
        if (taker.bytes() || taker.send(number, take, 4, ask) != Code::ok || state_sender(ask.bytes.data(), ask.length) != take)
            return 4;
        for (std::size_t place = 0; giver.reply(number, give, ask.bytes.data(), ask.length, place, piece) == Code::ok; place++)
            if (++sent % 3 != 0 && taker.receive(number, piece.bytes.data(), piece.length, heard) != Code::ok)
                return 5;
    }
    if (heard.what != FAZGROND_STATE_WHOLE || taker.send(number, take, 4, ask) != Code::nothing)
        return 6;
    auto came = taker.bytes();
    taker.close();
    return came && *came == state && !taker.name() && taker.receive(number, ask.bytes.data(), ask.length, heard) == Code::is_closed ? 0 : 7;
}
