#!/usr/bin/python3
"""A duel of ships for two to four, on as many machines: examples/python/duel/duel.py [OPTIONS] PORT PLAYER PLAYER [PLAYER [PLAYER]]

It plays with out/duel too, whose command line it has. A PLAYER is `local`, or the address of a machine, as 10.0.0.7:7001; the
same order at all machines. Arrows and space fly the first ship of this machine, W A D and F the second.
"""
from __future__ import annotations

import argparse
import os
import random
import socket
import sys
import time
from collections.abc import Iterator
from pathlib import Path

sys.path.insert(0, str(Path(__file__).resolve().parent.parent.parent.parent / "out/python/package"))
import rules  # noqa: E402
from fazgrond import Bye, Event, Happened, Match, Peer, Refused, Session, Settings, text  # noqa: E402
from fazgrond.numbers import SILENT_AFTER  # noqa: E402

TURN, PAST_LAST, BYES = 1000 / 60, 32, 3
Address = tuple[str, int]


def hash_of(words: str) -> int:
    total = 0xCBF29CE484222325
    for byte in words.encode():
        total = (total ^ byte) * 0x100000001B3 & (1 << 64) - 1
    return total


def digest_of(game: str, players: int, input_bytes: int) -> int:
    """What all machines of a match have alike, as lib/ggponet has it."""
    return hash_of(f"{game} ggponet 1 players {players} input {input_bytes}")


def number_of(game: str) -> int:
    """The number of a match of which nothing is said, as lib/ggponet has it."""
    return hash_of(f"{game} ggponet 1 match") | 1


class Line:
    """A socket, and what makes it worse: datagrams that come late, are lost, or come a second time with a changed byte."""

    def __init__(self, port: int, lag: float, loss: int, junk: int) -> None:
        self.socket = socket.socket(socket.AF_INET, socket.SOCK_DGRAM)
        self.socket.bind(("", port))
        self.socket.setblocking(False)
        self.lag, self.loss, self.junk = lag, loss, junk
        self.under_way: list[tuple[float, bytes, Address]] = []

    def send(self, datagram: bytes, to: Address, now: float) -> None:
        if random.randrange(100) >= self.loss:
            self.under_way.append((now + self.lag, datagram, to))
        if random.randrange(100) < self.junk:
            changed = bytearray(datagram)
            changed[random.randrange(len(changed))] ^= random.randrange(1, 256)
            self.under_way.append((now + self.lag, bytes(changed), to))

    def deliver(self, now: float) -> None:
        while self.under_way and self.under_way[0][0] <= now:
            _, datagram, to = self.under_way.pop(0)
            self.send_now(datagram, to)

    def send_now(self, datagram: bytes, to: Address) -> None:
        try:
            self.socket.sendto(datagram, to)
        except OSError:
            pass  # a datagram is lost, as on any line

    def come(self) -> list[bytes]:
        """What has come since."""
        came: list[bytes] = []
        while len(came) < 256:
            try:
                came.append(self.socket.recvfrom(2048)[0])
            except BlockingIOError:
                break
            except OSError:
                pass  # nobody is there yet
        return came


class Play:
    """A match at this machine."""

    def __init__(self, options: argparse.Namespace) -> None:
        self.options = options
        self.line = Line(options.port, options.lag, options.loss, options.junk)
        count = len(options.players)
        places = list(dict.fromkeys(options.players))  # the machines, in the order of their first players
        self.machines: list[Address | None] = [None if it == "local" else address_of(it) for it in places]
        me = places.index("local")
        self.local = [player for player, it in enumerate(options.players, 1) if it == "local"]
        self.bots = [rules.Bot(options.bot, player) for player in self.local]
        self.game = rules.Duel(count, options.frames)
        digest = digest_of("duel", count, 4)
        self.session = Session(Settings(count, self.local, 8, delays={player: options.delay for player in self.local}), self.game)
        self.peer = Peer(self.session, Match(me, len(places), [places.index(it) for it in options.players],
                                             options.match or number_of("duel"), digest, silent_after=options.timeout,
                                             carries=True, opening=rules.checksum(self.game.field)))
        self.wait = self.again = 0
        self.noted = -1
        self.told: dict[str, str] = {}
        self.is_over = False  # the match can't go on
        self.why = Bye.BYE_LEAVES

    def turn(self, words: list[int], now: float) -> None:
        """A turn of the main loop; a bot's words are its own."""
        for came in self.line.come():
            self.peer.hear(came, int(now))
        if self.peer.is_running and self.wait == 0:
            self.give(words)
        self.wait = max(0, self.wait - 1)
        reached = self.peer.turn(int(now))
        self.again += reached.rerun - 1 if reached else 0
        frame, state = self.session.settled_state()
        if frame != self.noted:
            self.noted = frame
            self.peer.note_settled(rules.checksum(state))
        for event in self.peer.events():
            self.react(event)
        for machine, address in enumerate(self.machines):
            datagram = self.peer.send(machine, int(now)) if address else None
            if address and datagram:
                self.line.send(datagram, address, now)
        for address, datagram in self.more():
            self.line.send(datagram, address, now)
        self.line.deliver(now)

    def more(self) -> Iterator[tuple[Address, bytes]]:
        """What this machine carries for others, or has carried."""
        while (more := self.peer.send_more()) is not None:
            machine, datagram = more
            if (address := self.machines[machine]) is not None:
                yield address, datagram

    def give(self, words: list[int]) -> None:
        """A word for each ship of this machine, unless it is too far ahead."""
        for player, bot, word in zip(self.local, self.bots, words):
            try:
                self.session.add_local_input(player, bot.word if self.options.bot else word)
            except Refused:
                return
            bot.draw()

    def react(self, event: Event) -> None:
        if event.code == Happened.TIME_SYNC:
            self.wait = event.frames_ahead
            return
        if event.code == Happened.RUNNING:
            self.told.clear()
            print("the match begins", file=sys.stderr)
        elif event.code != Happened.SYNCHRONIZING:
            who = f"player {event.player}" if event.player else f"machine {event.machine}"
            self.told[who] = f"{who}: {text(event.code)}"
            print(self.told[who], file=sys.stderr)
        self.why = Bye.BYE_DESYNC if event.code == Happened.DESYNC else self.why
        self.is_over |= event.code in (Happened.DESYNC, Happened.MISMATCH, Happened.DROPPED, Happened.MISSING)

    @property
    def is_done(self) -> bool:
        """Whether the last frame is settled, here and at the others: who sent words of a much later frame has all of it."""
        frames: int = self.options.frames
        return 0 < frames <= self.session.settled - PAST_LAST

    def close(self) -> None:
        """Says goodbye, and closes the match."""
        for machine, address in enumerate(self.machines):
            datagram = self.peer.bye(machine, self.why) if address else None
            if address and datagram:
                for _ in range(BYES):
                    self.line.send_now(datagram, address)
        for address, datagram in self.more():
            self.line.send_now(datagram, address)
        self.peer.close()
        self.session.close()


class Window:
    """The field, and the keys that are held."""

    SIZE, UNIT = (640, 480), rules.WIDTH // 640
    COLOURS = [(120, 200, 255), (255, 150, 90), (150, 230, 120), (240, 220, 90)]

    def __init__(self, player: int) -> None:
        place = 20 + (player - 1) % 2 * 660, 40 + (player - 1) // 2 * 520  # so that one screen can have a match
        os.environ.setdefault("SDL_VIDEO_WINDOW_POS", "{},{}".format(*place))
        os.environ["PYGAME_HIDE_SUPPORT_PROMPT"] = "1"
        import pygame

        self.pygame = pygame
        pygame.display.init()
        pygame.font.init()
        pygame.display.set_caption(f"Duel: player {player}")
        self.screen = pygame.display.set_mode(self.SIZE)
        self.font = pygame.font.Font(None, 20)
        self.player = player
        self.keys = [[pygame.K_UP, pygame.K_LEFT, pygame.K_RIGHT, pygame.K_SPACE],
                     [pygame.K_w, pygame.K_a, pygame.K_d, pygame.K_f]]

    def goes_on(self) -> bool:
        ends = [it for it in self.pygame.event.get()
                if it.type == self.pygame.QUIT or it.type == self.pygame.KEYDOWN and it.key == self.pygame.K_ESCAPE]
        return not ends

    def words(self) -> list[int]:
        held = self.pygame.key.get_pressed()
        return [sum(1 << bit for bit, key in enumerate(keys) if held[key]) for keys in self.keys]

    def draw(self, field: rules.Field, lines: list[str]) -> None:
        self.screen.fill((12, 14, 24))
        for at, ship in enumerate(field.ships):
            self.draw_ship(ship, self.COLOURS[at], at + 1 == self.player)
            self.write(f"ship {at + 1} hit {ship.hits}", 8 + 160 * at, 8, self.COLOURS[at])
        for bullet in field.bullets:
            x, y = bullet.x // self.UNIT, bullet.y // self.UNIT
            self.screen.fill(self.COLOURS[bullet.owner - 1], (x - 1, y - 1, 3, 3))
        for at, line in enumerate(reversed(lines)):
            self.write(line, 8, self.SIZE[1] - 20 * (at + 1), (170, 180, 200))
        self.pygame.display.flip()

    def write(self, said: str, x: int, y: int, colour: tuple[int, int, int]) -> None:
        self.screen.blit(self.font.render(said, True, colour), (x, y))

    def draw_ship(self, ship: rules.Ship, colour: tuple[int, int, int], is_own: bool) -> None:
        """A triangle, whose nose is where it heads; this machine's is filled."""
        dx, dy = rules.DIRECTIONS[ship.heading]
        x, y = ship.x // self.UNIT, ship.y // self.UNIT
        tx, ty = x - dx * 3 / 4, y - dy * 3 / 4
        points = [(x + dx, y + dy), (tx - dy / 2, ty + dx / 2), (x - dx / 4, y - dy / 4), (tx + dy / 2, ty - dx / 2)]
        self.pygame.draw.polygon(self.screen, colour, points, 0 if is_own else 1)


def address_of(word: str) -> Address:
    host, _, port = word.rpartition(":")
    return host, int(port)


def shown(play: Play) -> list[str]:
    """What stands below the field: what was told, and how the line is."""
    lines = list(play.told.values())[-4:]
    for machine, address in enumerate(play.machines):
        stats = play.peer.stats(machine) if address else None
        if stats and stats.is_measured:
            lines.append(f"machine {machine}: {stats.round_trip} ms, {stats.lost} lost; {play.again} frames again")
    return lines


def run(play: Play, window: Window | None, speed: int) -> None:
    due = time.monotonic()
    while not play.is_over and not play.is_done and (window is None or window.goes_on()):
        play.turn(window.words() if window else [0, 0, 0, 0], time.monotonic() * 1000 * speed)
        if window:
            window.draw(play.game.field, shown(play))
        turn = TURN / 1000 / speed
        due = max(due + turn, time.monotonic() - 20 * turn)  # who is late makes up for up to 20 turns
        time.sleep(max(0.0, due - time.monotonic()))


def options_of() -> argparse.Namespace:
    reader = argparse.ArgumentParser(usage=(__doc__ or "").partition(": ")[2].partition("\n")[0])
    told = {"bot": "plays by itself, by this seed", "frames": "ends once this frame is settled, and prints its state",
            "delay": "local inputs count so many frames later",
            "timeout": "milliseconds after which a silent machine is gone, and the match over if one hasn't come",
            "match": "the number that the machines of this match know", "lag": "milliseconds by which what is sent comes late",
            "loss": "percent of it that are lost", "junk": "percent of it that come changed too",
            "speed": "how many times as fast"}
    defaults = {"delay": 1, "timeout": SILENT_AFTER, "speed": 1}
    for name, said in told.items():
        reader.add_argument(f"--{name}", type=int, default=defaults.get(name, 0), help=said)
    reader.add_argument("--headless", action="store_true", help="no window; ships stay where they are without --bot")
    reader.add_argument("port", type=int)
    reader.add_argument("players", nargs="+")
    options = reader.parse_args()
    if not 2 <= len(options.players) <= 4 or "local" not in options.players or len(set(options.players)) < 2:
        reader.error("two to four players were expected, of whom one is local and one isn't")
    return options


def main() -> int:
    options = options_of()
    play = Play(options)
    window = None if options.headless else Window(play.local[0])
    run(play, window, options.speed)
    if play.game.at_last:
        print(f"frame {options.frames} state {play.game.at_last}")
    print(f"played {play.game.field.frame} frames, and {play.again} again", file=sys.stderr)
    play.close()
    return int(play.is_over)


if __name__ == "__main__":
    sys.exit(main())
