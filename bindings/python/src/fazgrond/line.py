"""Spectators: a viewer on another machine is sent the settled rows of a match by one of its machines, the host."""
from __future__ import annotations

from collections.abc import Iterator, Sequence
from dataclasses import dataclass
from typing import Any, NamedTuple

from ._raw import ffi, lib
from .errors import Refused, said, said_or_nothing
from .given import Octets, clock, octets, put, put_owners, u64
from .handle import Plays
from .numbers import NO_PLAYER, PLAYERS, SILENT_AFTER, Answer
from .owned import Owned, written
from .peer import Peer, drawn
from .rows import Row, row_of


@dataclass
class LineSettings:
    """How an end of a viewer's line is opened: the same at both ends, but for the draw and the time.

    `number` is the line's own: 64 random bits that only its two ends know. `draw` is drawn for this opening, if nothing else is
    said.
    """

    number: int
    host: int
    machines: int
    owners: Sequence[int]
    digest: int = 0
    silent_after: int = SILENT_AFTER  # 5,000: milliseconds after which the other end is silent that answers nothing; 0: it never is
    draw: int | None = None
    opening: int = 0  # as of the match

    def _raw(self) -> Any:
        raw = ffi.new("fazgrond_line_settings *")
        put_owners(raw.owners, [NO_PLAYER] * PLAYERS)
        put_owners(raw.owners, self.owners)
        raw.draw = drawn() if self.draw is None else u64("draw", self.draw)
        put(raw, self, "number digest opening", u64)
        put(raw, self, "host machines silent_after")
        return raw


class LineState(NamedTuple):
    """How far the two ends of a line are."""

    rows: int  # that the viewer has
    settled: int  # the most rows that the host said to be settled
    silence: int  # milliseconds since the other end answered last
    is_playing: bool  # whether both have heard each other
    has_ended: bool  # whether one of the two has said bye
    is_silent: bool  # whether the other end has answered nothing for too long: close the line then


def state_of(seen: Any) -> LineState:
    return LineState(seen.rows, seen.settled, seen.silence, bool(seen.is_playing), bool(seen.has_ended), bool(seen.is_silent))


class Line(Owned):
    """A host's end of a viewer's line, beside the session whose rows it sends."""

    def __init__(self, session: Plays, settings: LineSettings) -> None:
        super().__init__("line", session._lock)
        self.session = session
        with self._lock:
            said(lib.fazgrond_line_open(self._at(), settings._raw()))

    def receive(self, datagram: Octets, now: int) -> None:
        """Takes a datagram that came of the viewer."""
        with self._lock:
            said(lib.fazgrond_line_receive(self._at(), *octets("datagram", datagram), clock(now)))

    def send(self, now: int) -> bytes | None:
        """The datagram to send to the viewer in this turn. None once the line has ended."""
        with self._lock:
            told = self._at(), self.session._at(), clock(now)
            return written(lambda out, room, length: lib.fazgrond_line_send(*told, out, room, length))

    def send_before(self, peer: Peer, now: int) -> bytes | None:
        """The same of a line of the epoch before, in a match that goes on in epochs: `peer` is that of the line's session. Rows are
        counted from an epoch's first frame on, so a line is of one epoch: open another one for the next. None too if there is no epoch
        before, or nobody can be in it any more."""
        if peer.session is not self.session:  # it has another lock
            raise Refused(Answer.OTHER_SESSION)
        with self._lock:
            told = self._at(), peer._at(), clock(now)
            return written(lambda out, room, length: lib.fazgrond_line_send_before(*told, out, room, length))

    def bye(self) -> bytes | None:
        """The datagram that says that the host leaves the viewer: the line has ended. None if nobody is to be told."""
        with self._lock:
            line = self._at()
            return written(lambda out, room, length: lib.fazgrond_line_bye(line, out, room, length))

    def look(self, now: int) -> LineState:
        """How far the two ends are."""
        seen = ffi.new("fazgrond_line_state *")
        with self._lock:
            said(lib.fazgrond_line_look(self._at(), clock(now), seen))
        return state_of(seen)


class Viewer(Owned):
    """A viewer's end of its line."""

    def __init__(self, settings: LineSettings) -> None:
        super().__init__("viewer")
        self._row = ffi.new("fazgrond_row *")
        said(lib.fazgrond_viewer_open(self._at(), settings._raw()))

    def receive(self, datagram: Octets, now: int) -> int:
        """Takes a datagram that came of the host, and says how many rows were taken from it."""
        rows = ffi.new("uint32_t *")
        with self._lock:
            said(lib.fazgrond_viewer_receive(self._at(), *octets("datagram", datagram), clock(now), rows))
        return int(rows[0])

    def send(self, now: int) -> bytes | None:
        """The datagram to send to the host in this turn. None once the line has ended."""
        with self._lock:
            viewer, at = self._at(), clock(now)
            return written(lambda out, room, length: lib.fazgrond_viewer_send(viewer, at, out, room, length))

    def bye(self) -> bytes | None:
        """The datagram that says that the viewer leaves: the line has ended. None if nobody is to be told."""
        with self._lock:
            viewer = self._at()
            return written(lambda out, room, length: lib.fazgrond_viewer_bye(viewer, out, room, length))

    def row(self) -> Row | None:
        """The next row that is to be played, from frame 0 on."""
        with self._lock:
            return row_of(self._row) if said_or_nothing(lib.fazgrond_viewer_row(self._at(), self._row)) else None

    def rows(self) -> Iterator[Row]:
        """All rows that are to be played."""
        while (row := self.row()) is not None:
            yield row

    def look(self, now: int) -> LineState:
        """How far the two ends are."""
        seen = ffi.new("fazgrond_line_state *")
        with self._lock:
            said(lib.fazgrond_viewer_look(self._at(), clock(now), seen))
        return state_of(seen)
