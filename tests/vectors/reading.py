"""Reads the texts of packets, as docs/WIRE.md has them: with the pair's number where the tag was. What is none is refused by Refused."""
from typing import NamedTuple, Optional

import wire

LIMIT, WORDS = 1 << 32, 140


class Refused(Exception):
    """It is no packet."""


class Hello(NamedTuple):
    match: tuple
    draw: int
    echo: int
    patience: int
    abilities: int


class Play(NamedTuple):
    """Counts are of all 8 players; an offer of a player is a first frame and words, a mark a frame and its bytes."""
    number: int
    clocks: Optional[tuple]
    gone: int
    counts: tuple
    settled: Optional[tuple]
    offers: dict
    marks: dict


class Reader:
    """Bytes that are read from left to right."""

    def __init__(self, text, at):
        self.text, self.at = text, at

    def bytes(self, size):
        if self.at + size > len(self.text):
            raise Refused("Short")
        self.at += size
        return self.text[self.at - size : self.at]

    def byte(self):
        return self.bytes(1)[0]

    def fixed(self, size):
        return int.from_bytes(self.bytes(size), "big")

    def short(self):
        number, shift = 0, 0
        while True:
            byte = self.byte()
            if shift and byte == 0 or shift == 28 and byte > 15:
                raise Refused("Long")
            number += (byte & 127) << shift
            if byte < 128:
                return number
            shift += 7

    def flag(self):
        byte = self.byte()
        if byte > 1:
            raise Refused("Flag")
        return byte == 1

    def masked(self, read):
        """A mask of players, and what there is of each."""
        mask = self.byte()
        return {player: read() for player in range(8) if mask >> player & 1}

    def end(self):
        if self.at < len(self.text):
            raise Refused("Trailing")


def read_hello(text):
    """A hello."""
    reader = Reader(text, 14)
    match = reader.byte(), reader.byte(), tuple(reader.bytes(8)), reader.fixed(8), reader.fixed(8)
    hello = Hello(match, reader.fixed(8), reader.fixed(8), reader.fixed(4), reader.byte())
    reader.end()
    return hello


def read_count(reader):
    """How many words there are of a player."""
    count = reader.short()
    if count == 0:
        raise Refused("Zero")
    return count


def read_offer(reader):
    """The frame of a first word, and how many follow."""
    first, count = reader.short(), reader.byte()
    if first == count == 0:
        raise Refused("Zero")
    if first + count >= LIMIT:
        raise Refused("TooFar")
    return first, count


def read_mark(reader):
    """A word's frame, and the bytes of its mark."""
    frame, start = reader.short(), reader.at
    if reader.byte():
        reader.bytes(8)
    reader.masked(reader.byte)
    reader.byte()
    return frame, reader.text[start : reader.at]


def read_words(reader, count):
    """So many words, as runs."""
    words, before = [], 0
    while len(words) < count:
        run = reader.byte()
        if len(words) + run > count:
            raise Refused("Run")
        words += [before] * run
        if len(words) < count:
            word = reader.short()
            if word == before:
                raise Refused("Run")
            words.append(word)
            before = word
    return words


def read_play(text):
    """A play."""
    reader = Reader(text, 14)
    number = reader.short()
    clocks = tuple(reader.short() for _ in range(5)) if reader.flag() else None
    gone = reader.byte()
    counts = reader.masked(lambda: read_count(reader))
    settled = (reader.short(), reader.fixed(8)) if reader.flag() else None
    offers = reader.masked(lambda: read_offer(reader))
    total = sum(count for _, count in offers.values())
    if total > WORDS:
        raise Refused("TooMany")
    marks = reader.masked(lambda: read_mark(reader))
    words = read_words(reader, total)
    reader.end()
    told, at = {}, 0
    for player, (first, count) in offers.items():
        if count:
            told[player] = first, tuple(words[at : at + count])
        at += count
    return Play(number, clocks, gone, tuple(counts.get(player, 0) for player in range(8)), settled, told, marks)


def read_bye(text):
    """Why its sender leaves."""
    reader = Reader(text, 14)
    why = reader.byte()
    reader.end()
    return why


def read_map(text):
    """Of each machine whom it hears, and the number of what it says."""
    reader, lines = Reader(text, 14), []
    while reader.at < len(text):
        lines.append((reader.byte(), reader.fixed(4)))
    if len(lines) > 8:
        raise Refused("Trailing")
    return lines


def read_carried(text):
    """The receiver of each packet inside, its steps, and it itself."""
    reader, parcels = Reader(text, 14), []
    while reader.at < len(text):
        to, steps, length = reader.byte(), reader.byte(), reader.fixed(2)
        if length < 10:
            raise Refused("Short")
        parcels.append((to, steps, wire.MAGIC + reader.bytes(length)))
    return parcels


READERS = {wire.HELLO: read_hello, wire.PLAY: read_play, wire.BYE: read_bye, wire.MAP: read_map, wire.CARRIED: read_carried}


def read(text):
    """What a packet says that was opened."""
    if text[:4] != wire.MAGIC:
        raise Refused("Magic")
    if text[13] not in READERS:
        raise Refused("Kind")
    return READERS[text[13]](text)
