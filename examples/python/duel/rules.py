"""A duel of two to four ships: the rules alone. They are those of the game `duel` of the program rollduel (docs/SCRIPTS.md), and
so of programs/duel/duel.c."""
from __future__ import annotations

import struct
from collections.abc import Sequence
from typing import NamedTuple

from fazgrond import Row

SHIPS, BULLETS = 4, 32
WIDTH, HEIGHT = 81920, 61440  # the field, in 1/256 of a unit; it wraps
THRUST, LEFT, RIGHT, FIRE = 1, 2, 4, 8  # what a player holds down: the bits of a word
# What a heading adds to a speed, to the right and downwards.
DIRECTIONS = [(16, 0), (11, 11), (0, 16), (-11, 11), (-16, 0), (-11, -11), (0, -16), (11, -11)]

MOST_SPEED, SHOT_SPEED, SHOT_LIFE, COOL, REACH, MOST_HITS = 512, 32, 60, 8, 2048, 65535


class Ship(NamedTuple):
    x: int
    y: int
    vx: int
    vy: int
    heading: int  # eight of them: 0 is to the right, 2 downwards
    cool: int  # the frames until it can fire again
    hits: int  # how often it was hit


class Bullet(NamedTuple):
    owner: int  # the number of the ship that fired it, from 1
    life: int  # the frames until it vanishes
    x: int
    y: int
    vx: int
    vy: int


class Field(NamedTuple):
    """A state. It is never changed, so that it is its own copy."""

    frame: int
    ships: tuple[Ship, ...]
    bullets: tuple[Bullet, ...]


PLACES = [(20480, 15360, 0), (61440, 46080, 4), (61440, 15360, 4), (20480, 46080, 0)]


def opening(ships: int) -> Field:
    if not 2 <= ships <= SHIPS:
        raise ValueError("two to four players were expected")
    return Field(0, tuple(Ship(x, y, 0, 0, heading, 0, 0) for x, y, heading in PLACES[:ships]), ())


def _held(speed: int) -> int:
    return min(max(speed, -MOST_SPEED), MOST_SPEED)


def _run_ship(ship: Ship, number: int, word: int, bullets: list[Bullet]) -> Ship:
    """A ship turns, thrusts, cools its gun, fires and moves."""
    x, y, vx, vy, heading, cool, hits = ship
    if bool(word & LEFT) != bool(word & RIGHT):
        heading = (heading + (-1 if word & LEFT else 1)) % len(DIRECTIONS)
    right, down = DIRECTIONS[heading]
    if word & THRUST:
        vx, vy = _held(vx + right), _held(vy + down)
    cool = max(0, cool - 1)
    if word & FIRE and cool == 0 and len(bullets) < BULLETS:
        bullets.append(Bullet(number, SHOT_LIFE, x, y, vx + SHOT_SPEED * right, vy + SHOT_SPEED * down))
        cool = COOL
    return Ship((x + vx) % WIDTH, (y + vy) % HEIGHT, vx, vy, heading, cool, hits)


def _is_near(size: int, one: int, other: int) -> bool:
    """Whether two places are within reach, round the field if that is shorter."""
    gap = abs(one - other)
    return min(gap, size - gap) <= REACH


def _strikes(ships: list[Ship], bullet: Bullet) -> bool:
    """Counts a hit for the first ship that a bullet hits, and says whether there is one."""
    for at, ship in enumerate(ships):
        if at + 1 != bullet.owner and _is_near(WIDTH, ship.x, bullet.x) and _is_near(HEIGHT, ship.y, bullet.y):
            ships[at] = ship._replace(hits=min(ship.hits + 1, MOST_HITS))
            return True
    return False


def step(field: Field, words: Sequence[int]) -> Field:
    """A frame, with a word for each ship."""
    fired = list(field.bullets)
    ships = [_run_ship(ship, number, word, fired) for number, (ship, word) in enumerate(zip(field.ships, words), 1)]
    kept = []
    for owner, life, x, y, vx, vy in fired:
        bullet = Bullet(owner, life - 1, (x + vx) % WIDTH, (y + vy) % HEIGHT, vx, vy)
        if not _strikes(ships, bullet) and bullet.life > 0:
            kept.append(bullet)
    return Field(field.frame + 1, tuple(ships), tuple(kept))


def checksum(field: Field) -> int:
    """A number that is another for most other states: that of duel_checksum in programs/duel/duel.c, of the state as it lies in memory
    there."""
    words = [len(field.ships), len(field.bullets)]
    for group, size in [(field.ships, 7 * SHIPS), (field.bullets, 6 * BULLETS)]:
        told = [word for it in group for word in it]
        words += told + [0] * (size - len(told))
    total = 0x811C9DC5
    for byte in struct.pack(f"<{len(words)}i", *words):
        total = (total ^ byte) * 0x01000193 & 0xFFFFFFFF
    return total


def text(field: Field) -> str:
    """The state as text, as rollduel writes it."""
    return "".join(",".join(map(str, ship)) + " " for ship in field.ships) + f"b{len(field.bullets)}"


class Duel:
    """A game of the duel, as a session plays it. It notes the state at the frame `last`."""

    def __init__(self, ships: int, last: int = 0) -> None:
        self.field, self.last, self.at_last = opening(ships), last, ""

    def save(self) -> Field:
        return self.field

    def load(self, state: Field) -> None:
        self.field = state
        self._note()

    def advance(self, row: Row) -> None:
        self.field = step(self.field, row.words)
        self._note()

    def _note(self) -> None:
        if self.field.frame == self.last:
            self.at_last = text(self.field)


class Bot:
    """A bot, which flies a ship: it always gives the same words, those of programs/common/bot.h."""

    MASK = (1 << 64) - 1

    def __init__(self, seed: int, player: int) -> None:
        self.seed = 0x9E3779B97F4A7C15 * (seed * SHIPS + player) & self.MASK
        self.word = 0

    def draw(self) -> None:
        """Draws the next word, after one was taken."""
        self.seed ^= self.seed << 13 & self.MASK
        self.seed ^= self.seed >> 7
        self.seed ^= self.seed << 17 & self.MASK
        if self.seed >> 32 & 7 == 0:
            self.word = self.seed >> 40 & 15
