"""A line between two machines over the internet or a LAN, over libfaz_line.so: the calls of include/faz_line.h.

docs/ONLINE.md says what a line is. The library is that which the variable FAZ_LINE_LIBRARY of the environment names, else the one
that the system finds; it is loaded as this module is imported. cffi has to have pycparser, as Debian's has.
"""
from __future__ import annotations

import enum
import os
from collections.abc import Sequence
from dataclasses import dataclass
from typing import Any

from cffi import FFI  # type: ignore[import]

from ._line import CDEF
from .given import Octets

ffi = FFI()
ffi.cdef(CDEF)
lib: Any = ffi.dlopen(os.environ.get("FAZ_LINE_LIBRARY", "libfaz_line.so"))

_ROOM = 1200  # bytes of a datagram, and more than a signal has


class Stage(enum.IntEnum):
    """How far a line is."""

    LOOKING, UP, SILENT, BLOCKED = range(4)


class Way(enum.IntEnum):
    """By which way datagrams go."""

    NO_WAY, LAN, DIRECT, RELAYED = range(4)


@dataclass(frozen=True)
class Relay:
    """A TURN server. Its address is a number with dots or colons."""

    address: str
    port: int
    user: str
    password: str
    by_tcp: bool = False


@dataclass(frozen=True)
class State:
    """How a line stands."""

    stage: Stage
    way: Way
    generation: int
    silence: int
    sent: int
    received: int
    forged: int
    again: int
    misnamed: int
    dropped: int


class Keys:
    """Keys for one line: `open` is for the other machine."""

    def __init__(self) -> None:
        self._drawn = ffi.new("faz_line_keys *")
        if not lib.faz_line_draw(self._drawn):
            raise OSError("the system gives no random numbers")
        self.open = bytes(ffi.buffer(self._drawn.open))


class Line:
    """A line to the other machine of a pair, until it is closed. What is no good is a ValueError, in words."""

    def __init__(self, me: int, other: int, keys: Keys, their: bytes, stun: str | None = None, stun_port: int = 3478,
                 relays: Sequence[Relay] = (), relay_only: bool = False, any_sender: bool = False) -> None:
        made, why = ffi.new("faz_line_settings *"), ffi.new("const char **")
        if len(their) != lib.FAZ_LINE_KEY or len(relays) > lib.FAZ_LINE_RELAYS:
            raise ValueError("an open key has another length, or there are too many relays")
        key, told, address = ffi.from_buffer(their), _relays(relays), ffi.NULL if stun is None else ffi.new("char[]", stun.encode())
        made.me, made.other, made.keys, made.their = me, other, keys._drawn, key
        made.stun, made.stun_port = address, stun_port
        made.relays, made.relay_count = list(told.array), len(relays)
        made.relay_only, made.any_sender = relay_only, any_sender
        self._line = lib.faz_line_open(made, why)
        if self._line == ffi.NULL:
            raise ValueError(ffi.string(why[0]).decode())

    def turn(self, now: int) -> None:
        """Once a turn, with the time in milliseconds."""
        lib.faz_line_turn(self._line, now % 2 ** 32)

    def relays(self, relays: Sequence[Relay]) -> bool:
        """Relays for the ways that are looked for from now on. False: they are no good, and those before stay."""
        return bool(lib.faz_line_relays(self._line, _relays(relays).array, len(relays)))

    def signal(self) -> bytes | None:
        """The next signal to carry to the other machine."""
        return self._told(lib.faz_line_signal)

    def signalled(self, signal: Octets) -> bool:
        """Takes a signal of the other machine's. False: it made no such signal."""
        given = ffi.from_buffer("uint8_t[]", signal)
        return bool(lib.faz_line_signalled(self._line, given, len(given)))

    def send(self, datagram: Octets) -> bool:
        """Sends a datagram of 1,200 bytes at most. False: it is lost."""
        given = ffi.from_buffer("uint8_t[]", datagram)
        return bool(lib.faz_line_send(self._line, given, len(given)))

    def receive(self) -> bytes | None:
        """The next datagram that came."""
        return self._told(lib.faz_line_receive)

    def look(self) -> State:
        """How the line stands."""
        seen = ffi.new("faz_line_state *")
        lib.faz_line_look(self._line, seen)
        return State(Stage(seen.stage), Way(seen.way), seen.generation, seen.silence, seen.sent, seen.received, seen.forged, seen.again,
                     seen.misnamed, seen.dropped)

    def number(self) -> int:
        """The number that only the two machines know: that of the pair in a match's numbers."""
        return int(lib.faz_line_number(self._line))

    def close(self) -> None:
        """Closes it. No other call may follow."""
        lib.faz_line_close(self._line)
        self._line = ffi.NULL

    def _told(self, call: Any) -> bytes | None:
        out, length = ffi.new("uint8_t[]", _ROOM), ffi.new("size_t *")
        return bytes(ffi.buffer(out, length[0])) if call(self._line, out, _ROOM, length) else None


@dataclass
class _Relays:
    array: Any
    texts: list[Any]  # which have to stay as long as the array does


def _relays(relays: Sequence[Relay]) -> _Relays:
    made = _Relays(ffi.new("faz_line_relay[]", len(relays)), [])
    for to, relay in zip(made.array, relays):
        texts = [ffi.new("char[]", it.encode()) for it in (relay.address, relay.user, relay.password)]
        made.texts += texts
        to.address, to.user, to.password = texts
        to.port, to.by_tcp = relay.port, relay.by_tcp
    return made
