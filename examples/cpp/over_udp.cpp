// One machine of the match of two_peers.c, over UDP: over_udp ME PORT ADDRESS PORT. Run one with 0 and one with 1.
#include <fazgrond.hpp>
#include <arpa/inet.h>
#include <chrono>
#include <cstdlib>
#include <iostream>
#include <random>
#include <thread>

using fazgrond::Code;

constexpr std::uint32_t frames = 600;
constexpr int past_last = 32; // turns past the end, so that the other has all of it too
constexpr int speed = 10;     // how many times as fast it goes

static void must(bool is_right, const char *what) {
    if (!is_right) {
        std::cerr << "refused: " << what << '\n';
        std::exit(1);
    }
}

static std::uint32_t milliseconds() {
    auto since = std::chrono::steady_clock::now().time_since_epoch() * speed;
    return std::uint32_t(std::chrono::duration_cast<std::chrono::milliseconds>(since).count());
}

static sockaddr_in address_of(const char *host, const char *port) {
    sockaddr_in address = {};
    address.sin_family = AF_INET;
    address.sin_port = htons(std::uint16_t(std::atoi(port)));
    must(inet_pton(AF_INET, host, &address.sin_addr) == 1, host);
    return address;
}

// 31 times the number, and of each player the number times the word.
struct Game {
    std::uint64_t state = 0, saved[257] = {};

    void operator()(const fazgrond::Request &request) noexcept {
        switch (request.kind) {
        case FAZGROND_LOAD: state = saved[request.slot]; break;
        case FAZGROND_SAVE: saved[request.slot] = state; break;
        case FAZGROND_STEP: step(request.row); break;
        }
    }

    void step(const fazgrond::Row &row) {
        state *= 31;
        for (std::uint32_t at = 0; at < row.count; at++)
            state += (row.gone >> at & 1) != 0 ? 5 : std::uint64_t(at + 1) * row.words[at];
        state %= 1000003;
    }
};

static Game game;
static fazgrond::Session session;
static fazgrond::Peer peer;
static std::uint32_t wait_turns;

static void open(std::uint8_t me) {
    std::random_device source;
    fazgrond::Settings settings = fazgrond::settings_of(2, 1u << me);
    fazgrond::Match match = fazgrond::match_of(2, me);
    settings.limit = frames;
    match.owners[0] = 0; // machine 0 has player 1
    match.owners[1] = 1;
    match.draw = std::uint64_t(source()) << 32 | source();
    match.silent_after = 100000;
    fazgrond_one_number(&match, 0x5eed5eed5eed5eed);
    must(session.open(settings) == Code::ok && peer.open(session, match) == Code::ok, "the match");
}

// What ends the match here. To a program that was begun again, and that its match doesn't take back, the other machine is missing.
static bool is_over(std::uint32_t code) {
    return code == FAZGROND_MISSING || code == FAZGROND_MISMATCH || code == FAZGROND_DROPPED || code == FAZGROND_DESYNC;
}

// A frame, or at least what came too late for the frames before.
static void play(std::uint8_t me) {
    fazgrond::Reached reached;
    fazgrond::Row row;
    std::uint32_t word = *session.frame() / (5 + 2 * me) * 2654435761u >> 28; // what the player holds
    if (wait_turns == 0 && session.add_local_input(me + 1, word) == Code::ok)
        must(session.advance_frame(reached, game) == Code::ok, "a frame");
    else if (*session.has_news()) // told to wait, or too far ahead, or at the last frame
        must(session.synchronize_input(row, game) == Code::ok, "a rollback");
    wait_turns -= wait_turns > 0;
}

static void take_turn(std::uint8_t me, int line, const sockaddr_in &other, std::uint32_t now) {
    fazgrond::Datagram one;
    for (ssize_t came; (came = recv(line, one.bytes.data(), one.bytes.size(), MSG_DONTWAIT)) >= 0;)
        (void)peer.receive(session, one.bytes.data(), std::size_t(came), now); // what is refused has changed nothing
    must(peer.poll(session, now) == Code::ok, "a turn");
    if (peer.is_running()) // all machines are there
        play(me);
    must(peer.note_settled(session, game.saved[session.settled_slot()->slot]) == Code::ok, "a digest");
    while (std::optional<fazgrond::Event> event = peer.event()) {
        if (is_over(event->code)) {
            std::cerr << "the match is over: " << fazgrond::message(Code(event->code)) << '\n';
            std::exit(1);
        }
        if (event->code == FAZGROND_TIME_SYNC)
            wait_turns = event->frames_ahead;
    }
    if (peer.send(session, 1 - me, now, one) == Code::ok)
        sendto(line, one.bytes.data(), one.length, 0, reinterpret_cast<const sockaddr *>(&other), sizeof other);
}

int main(int count, char **words) {
    must(count == 5, "over_udp ME PORT ADDRESS PORT");
    const std::uint8_t me = words[1][0] == '1';
    const sockaddr_in own = address_of("0.0.0.0", words[2]), other = address_of(words[3], words[4]);
    const int line = socket(AF_INET, SOCK_DGRAM, 0);
    must(bind(line, reinterpret_cast<const sockaddr *>(&own), sizeof own) == 0, "the port");
    open(me);
    for (int past = 0; past < past_last; past += session.settled() == frames) {
        take_turn(me, line, other, milliseconds());
        std::this_thread::sleep_for(std::chrono::microseconds(1000000 / 60 / speed));
    }
    const fazgrond::Settled settled = *session.settled_slot();
    std::cout << "machine " << int(me) << ": settled " << settled.frame << " state " << game.saved[settled.slot] << '\n';
    return 0;
}
