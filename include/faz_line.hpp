// line.hpp: a line between two machines, by the calls of line.h, as a class of C++17. It throws nothing of its own.
#ifndef FAZ_LINE_HPP
#define FAZ_LINE_HPP

#include "faz_line.h"

#include <array>
#include <cstddef>
#include <cstdint>
#include <fazgrond.hpp>
#include <memory>
#include <optional>

namespace fazgrond::online {

using Keys = faz_line_keys;
using LineSettings = faz_line_settings;
using LineState = faz_line_state;
using Relay = faz_line_relay;

// What is to be carried to the other machine: so many bytes.
struct Signal {
    std::array<std::uint8_t, FAZ_LINE_SIGNAL> bytes;
    std::size_t length = 0;
};

// Keys for one line; none if the system gives no random numbers.
[[nodiscard]] inline std::optional<Keys> draw() {
    Keys keys;
    return faz_line_draw(&keys) ? std::optional(keys) : std::nullopt;
}

// A line, which is closed with its object. One that couldn't be opened says why, and gets no other call.
class Line {
public:
    explicit Line(const LineSettings &settings) : line_(faz_line_open(&settings, &why_)) {}

    [[nodiscard]] bool is_open() const { return line_ != nullptr; }
    [[nodiscard]] const char *why() const { return why_; }

    void turn(std::uint32_t now) { faz_line_turn(line_.get(), now); }
    bool relays(const Relay *relays, std::uint32_t count) { return faz_line_relays(line_.get(), relays, count); }

    [[nodiscard]] std::optional<Signal> signal() {
        Signal made;
        return faz_line_signal(line_.get(), made.bytes.data(), made.bytes.size(), &made.length) ? std::optional(made) : std::nullopt;
    }
    bool signalled(const std::uint8_t *bytes, std::size_t length) { return faz_line_signalled(line_.get(), bytes, length); }

    bool send(const std::uint8_t *bytes, std::size_t length) { return faz_line_send(line_.get(), bytes, length); }
    [[nodiscard]] std::optional<Datagram> receive() {
        Datagram came;
        return faz_line_receive(line_.get(), came.bytes.data(), came.bytes.size(), &came.length) ? std::optional(came) : std::nullopt;
    }

    [[nodiscard]] LineState look() const {
        LineState state;
        faz_line_look(line_.get(), &state);
        return state;
    }
    [[nodiscard]] std::uint64_t number() const { return faz_line_number(line_.get()); }

private:
    struct Closes {
        void operator()(faz_line *line) const { faz_line_close(line); }
    };

    const char *why_ = nullptr;
    std::unique_ptr<faz_line, Closes> line_;
};

} // namespace fazgrond::online
#endif
