"""A state in pieces: before a match, bytes that the others don't have go to them by datagrams that may be lost."""
from __future__ import annotations

from dataclasses import dataclass
from typing import Any, NamedTuple

from ._raw import ffi, lib
from .errors import said, said_or_nothing
from .given import Octets, octets, u8, u32, u64
from .numbers import ASKED, DIGEST_BYTES, NO_MACHINE, Piece
from .owned import Owned, whole, written


@dataclass(frozen=True)
class StateName:
    """What a state is called. Who takes it has to know that from somebody it believes: what it has in the end are bytes with this
    digest, whoever sent them."""

    which: int  # a number of the program's choice for each state that the machines exchange
    frame: int  # the frame that it is of, 0 before the match
    length: int  # how many bytes it has
    digest: bytes  # their SHA-256

    def _raw(self) -> Any:
        if len(self.digest) != DIGEST_BYTES:
            raise ValueError(f"`digest` has {len(self.digest)} bytes: {DIGEST_BYTES} are needed")
        told = u64("which", self.which), u32("frame", self.frame), u32("length", self.length)
        return ffi.new("fazgrond_state_name *", [*told, list(self.digest)])

    def digest_with(self, digest: int) -> int:
        """A digest that has this state in it, beside what another has: by one call for each state, in the same order at all
        machines, that of the match has all of them."""
        return int(lib.fazgrond_state_digest(self._raw(), u64("digest", digest)))


def name_of(raw: Any) -> StateName:
    return StateName(raw.which, raw.frame, raw.length, bytes(ffi.buffer(raw.digest)))


def state_sender(datagram: Octets) -> int | None:
    """Which machine a datagram says that it is of, if it is a piece of a state or asks for some; None if it is for a peer."""
    machine = ffi.new("uint8_t *")
    return int(machine[0]) if said_or_nothing(lib.fazgrond_state_sender(*octets("datagram", datagram), machine)) else None


def state_ask(number: int, me: int, which: int, frame: int) -> bytes:
    """The datagram that asks for the first piece of the state of this number and frame, if nobody has said what it is called.
    `number` is the one that this machine, `me`, shares with who is asked."""
    told = u64("number", number), u8("me", me), u64("which", which), u32("frame", frame)
    made = written(lambda out, room, length: lib.fazgrond_state_ask(*told, out, room, length))
    assert made is not None
    return made


def state_told(number: int, datagram: Octets) -> StateName:
    """What the state is called that a datagram is a piece of. Whether that is the right one is for the program to believe."""
    raw = ffi.new("fazgrond_state_name *")
    said(lib.fazgrond_state_told(u64("number", number), *octets("datagram", datagram), raw))
    return name_of(raw)


class Heard(NamedTuple):
    """What came of a piece, and of a wrong state the machine that alone gave it, if one did."""

    what: Piece
    machine: int | None


class Giver(Owned):
    """Who gives a state in pieces to those who ask for them. It keeps a copy of the bytes, and nothing of who asked."""

    def __init__(self, which: int, frame: int, state: Octets) -> None:
        super().__init__("giver")
        said(lib.fazgrond_giver_open(self._at(), u64("which", which), u32("frame", frame), *octets("state", state)))

    @property
    def name(self) -> StateName:
        """What the state is called: tell it those who are to take it."""
        raw = ffi.new("fazgrond_state_name *")
        with self._lock:
            said(lib.fazgrond_giver_name(self._at(), raw))
        return name_of(raw)

    def state(self) -> bytes:
        """Its bytes."""
        with self._lock:
            return whole(lambda out, room: lib.fazgrond_giver_bytes(self._at(), out, room), self.name.length)

    def reply(self, number: int, me: int, ask: Octets, place: int) -> bytes | None:
        """The datagram for the piece that bytes ask for at a place of their list, from 0. None if they ask for fewer, or for one
        that the state hasn't. Send it to where the machine that `state_sender` names has its address."""
        with self._lock:
            asked = self._at(), u64("number", number), u8("me", me), *octets("ask", ask), u64("place", place)
            return written(lambda out, room, length: lib.fazgrond_giver_reply(*asked, out, room, length))


class TakerState(NamedTuple):
    """How many pieces a state has, and how many of them are missing: 0 if it is whole."""

    pieces: int
    left: int


class Taker(Owned):
    """Who takes the state of a name in pieces, of several machines if need be. All memory is taken now, for `limit` bytes at
    most."""

    def __init__(self, name: StateName, limit: int) -> None:
        super().__init__("taker")
        said(lib.fazgrond_taker_open(self._at(), name._raw(), u32("limit", limit)))

    @property
    def name(self) -> StateName:
        """What its state is called."""
        raw = ffi.new("fazgrond_state_name *")
        with self._lock:
            said(lib.fazgrond_taker_name(self._at(), raw))
        return name_of(raw)

    def look(self) -> TakerState:
        """How many of the pieces are there."""
        seen = ffi.new("fazgrond_taker_state *")
        with self._lock:
            said(lib.fazgrond_taker_look(self._at(), seen))
        return TakerState(seen.pieces, seen.left)

    def send(self, number: int, me: int, most: int = ASKED) -> bytes | None:
        """The datagram that asks for the next missing pieces, so many at most. None if none is missing."""
        with self._lock:
            told = self._at(), u64("number", number), u8("me", me), u64("most", most)
            return written(lambda out, room, length: lib.fazgrond_taker_send(*told, out, room, length))

    def receive(self, number: int, datagram: Octets) -> Heard:
        """Takes a datagram that came, sealed by the number that this machine shares with its sender."""
        heard = ffi.new("fazgrond_heard *")
        with self._lock:
            said(lib.fazgrond_taker_receive(self._at(), u64("number", number), *octets("datagram", datagram), heard))
        return Heard(Piece(heard.what), None if heard.machine == NO_MACHINE else heard.machine)

    def takes_of(self, machine: int) -> bool:
        """Whether pieces of a machine are taken for now: ask those alone."""
        flag = ffi.new("uint32_t *")
        with self._lock:
            said(lib.fazgrond_taker_takes_of(self._at(), u8("machine", machine), flag))
        return bool(flag[0])

    def take_of(self, machine: int | None) -> None:
        """From now on pieces of this machine alone are taken, or of each that didn't give a wrong state."""
        with self._lock:
            said(lib.fazgrond_taker_take_of(self._at(), NO_MACHINE if machine is None else u8("machine", machine)))

    def state(self) -> bytes | None:
        """The state's bytes, once it is whole."""
        with self._lock:
            if self.look().left > 0:
                return None
            return whole(lambda out, room: lib.fazgrond_taker_bytes(self._at(), out, room), self.name.length)
