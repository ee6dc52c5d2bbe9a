"""What a session answers and asks for."""
from __future__ import annotations

from typing import Any, Iterator, NamedTuple

from ._raw import ffi
from .numbers import Call, Kind

_unpack = ffi.unpack
_STEPS = (int(Kind.STEP), int(Kind.JOB_STEP))


class Row(NamedTuple):
    """The words of all players for a frame, player 1's first. Bit p - 1 of `gone` is set for a player p who has left; its word is
    0."""

    words: tuple[int, ...]
    gone: int = 0

    def word(self, player: int) -> int | None:
        """A player's word. None if the player has left, or there is no such player."""
        if not 1 <= player <= len(self.words) or self.gone >> player - 1 & 1:
            return None
        return self.words[player - 1]

    def cells(self) -> Iterator[int | None]:
        """Each player's word, player 1's first; None in place of that of a player who has left."""
        return (self.word(player) for player in range(1, len(self.words) + 1))


def row_of(row: Any) -> Row:
    return Row(tuple(_unpack(row.words, row.count)), row.gone)


class Reached(NamedTuple):
    """Where an advance led: the new frame, the frame that it started from, and how many frames were run."""

    frame: int
    start: int
    rerun: int


class Request(NamedTuple):
    """What the game is to do next. LOAD, SAVE and FREE, and those of a job, have a slot; STEP and JOB_STEP a row."""

    kind: Kind
    slot: int
    row: Row


_NO_ROW = Row(())


def request_of(request: Any) -> Request:
    kind = request.kind
    return Request(Kind(kind), request.slot, row_of(request.row) if kind in _STEPS else _NO_ROW)


class Entry(NamedTuple):
    """An accepted call, as the log has it. What it doesn't say is 0."""

    kind: Call
    player: int
    frame: int
    word: int


def entry_of(entry: Any) -> Entry:
    return Entry(Call(entry.kind), entry.player, entry.frame, entry.word)
