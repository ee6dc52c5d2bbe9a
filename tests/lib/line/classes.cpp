// Two machines with a line in one process, by the classes. It prints nothing if all is right.
#include "../../check.h"
#include "faz_line.hpp"

#include <chrono>
#include <cstring>
#include <thread>

using namespace fazgrond::online;

static std::uint32_t millis() {
    using namespace std::chrono;
    return static_cast<std::uint32_t>(duration_cast<milliseconds>(steady_clock::now().time_since_epoch()).count());
}

static void turn(Line &one, Line &other) {
    one.turn(millis());
    while (auto signal = one.signal())
        MUST(other.signalled(signal->bytes.data(), signal->length));
}

// The number of datagrams that came, each the next one.
static void hear(Line &line, unsigned &came) {
    while (auto datagram = line.receive()) {
        MUST(datagram->length == 1 + came * 23 && datagram->bytes[0] == came);
        came++;
    }
}

int main() {
    constexpr unsigned count = 50;
    std::optional<Keys> keys[2] = { draw(), draw() };
    MUST(keys[0] && keys[1]);
    const Keys told[2] = { *keys[0], *keys[1] };
    LineSettings settings = {};
    settings.me = 3, settings.other = 1, settings.keys = &*keys[0];
    MUST(!Line(settings).is_open() && std::strcmp(Line(settings).why(), "no keys are given") == 0);
    settings.their = told[1].open;
    Line one(settings);
    settings.me = 1, settings.other = 3, settings.keys = &*keys[1], settings.their = told[0].open;
    Line other(settings);
    MUST(one.is_open() && other.is_open() && one.number() == other.number() && keys[0]->secret[0] == 0);
    const Relay bad = { nullptr, 3478, "user", "word", false };
    MUST(!one.relays(&bad, 1) && one.relays(nullptr, 0));
    const std::uint8_t none[] = { 1, 2, 3 };
    MUST(!one.signalled(none, sizeof none) && !one.send(none, sizeof none) && !one.receive());
    unsigned sent = 0, came[2] = { 0, 0 };
    std::uint8_t bytes[FAZGROND_DATAGRAM] = {};
    for (int turns = 0; came[0] < count || came[1] < count; turns++) {
        MUST(turns < 10000);
        turn(one, other), turn(other, one);
        hear(one, came[0]), hear(other, came[1]);
        bool is_up = one.look().stage == FAZ_LINE_UP && other.look().stage == FAZ_LINE_UP;
        for (bytes[0] = static_cast<std::uint8_t>(sent); is_up && sent < count; bytes[0] = static_cast<std::uint8_t>(++sent))
            MUST(one.send(bytes, 1 + sent * 23) && other.send(bytes, 1 + sent * 23));
        std::this_thread::sleep_for(std::chrono::milliseconds(1));
    }
    MUST(one.look().way == FAZ_LINE_LAN && one.look().received == count && one.look().forged == 1 && other.look().forged == 0);
    return 0;
}
