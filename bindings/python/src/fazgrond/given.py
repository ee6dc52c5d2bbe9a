"""What a program gives to calls and settings. What can't be taken is said by its name, and nothing has changed."""
from __future__ import annotations

from collections.abc import Mapping, Sequence
from operator import index
from typing import Any, Callable, Union

from ._raw import ffi
from .numbers import NOBODY, PLAYERS

Octets = Union[bytes, bytearray, memoryview]

_CLOCK = 0xFFFFFFFF  # a clock's milliseconds wrap


def _whole(name: str, value: Any, least: int, most: int) -> int:
    try:
        number = index(value)
    except TypeError:
        raise TypeError(f"`{name}` is {value!r}: a whole number is needed") from None
    if least <= number <= most:
        return number
    raise OverflowError(f"`{name}` is {value!r}: a whole number from {least} to {most} is needed")


def u8(name: str, value: Any) -> int:
    """A number of a player or machine."""
    if type(value) is int and 0 <= value <= 0xFF:  # which most are
        return value
    return _whole(name, value, 0, 0xFF)


def u32(name: str, value: Any) -> int:
    if type(value) is int and 0 <= value <= 0xFFFFFFFF:
        return value
    return _whole(name, value, 0, 0xFFFFFFFF)


def u64(name: str, value: Any) -> int:
    return _whole(name, value, 0, 0xFFFFFFFFFFFFFFFF)


def i32(name: str, value: Any) -> int:
    return _whole(name, value, -0x80000000, 0x7FFFFFFF)


def words(name: str, values: Sequence[Any]) -> tuple[Any, int]:
    """Words as C has them, and how many they are. With none there is room for one."""
    return ffi.new("uint32_t[]", [u32(f"{name}[{at}]", value) for at, value in enumerate(values)] or [0]), len(values)


def clock(now: Any) -> int:
    """Milliseconds of a clock, as 32 bits."""
    try:
        return index(now) & _CLOCK
    except TypeError:
        raise TypeError(f"`now` is {now!r}: a whole number of milliseconds is needed") from None


def octets(name: str, data: Any) -> tuple[Any, int]:
    """Bytes as a call takes them, and how many they are."""
    if type(data) is bytes:
        return data, len(data)
    try:
        buffer = ffi.from_buffer("uint8_t[]", data)
    except TypeError:
        raise TypeError(f"`{name}` is of {type(data).__name__}: bytes, a bytearray or a memoryview are needed") from None
    return buffer, len(buffer)


def place_of(name: str, player: Any) -> int:
    """Where a player stands in a list of C."""
    if not 1 <= i32(name, player) <= PLAYERS:
        raise ValueError(f"`{name}` has {player}: players are 1 to {PLAYERS}")
    return int(player) - 1


def put(raw: Any, given: Any, names: str, number: Callable[[str, Any], int] = u32) -> None:
    """Members of a struct, as settings have them by these names."""
    for name in names.split():
        setattr(raw, name, number(name, getattr(given, name)))


def put_players(to: Any, name: str, numbers: Mapping[int, Any]) -> None:
    """Numbers by players."""
    for player, number in numbers.items():
        to[place_of(name, player)] = u32(f"{name}[{player}]", number)


def put_owners(to: Any, owners: Sequence[int | None]) -> None:
    """The machine of each player, player 1's first."""
    if len(owners) > PLAYERS:
        raise ValueError(f"`owners` has {len(owners)} players: {PLAYERS} are the most")
    for at, owner in enumerate(owners):
        to[at] = NOBODY if owner is None else u32(f"owners[{at}]", owner)
