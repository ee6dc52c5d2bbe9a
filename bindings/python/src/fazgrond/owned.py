"""What is shared by all that is open in the library."""
from __future__ import annotations

import threading
from types import TracebackType
from typing import Any, Callable, TypeVar

from ._raw import ffi, lib
from .errors import Closed, said, said_or_nothing
from .numbers import DATAGRAM

_Self = TypeVar("_Self", bound="Owned")

# What a datagram is written into, on a thread; and how long it is.
_room = threading.local()


class Owned:
    """Something open. It is closed once: by `close`, at the end of a `with`, or with the last reference to it.

    The library may be called from any thread, but for one handle not from two at once: `lock` sees to that. What lends its
    session to the library has the lock of that.
    """

    def __init__(self, kind: str, lock: Any = None) -> None:
        close: Callable[[Any], None] = lib.fazgrond_close if kind == "session" else getattr(lib, f"fazgrond_{kind}_close")
        self._kind = kind
        self._raw: Any = ffi.gc(ffi.new(f"fazgrond_{kind} *"), close)
        self._lock: Any = lock if lock is not None else threading.RLock()

    def _at(self) -> Any:
        """The handle; it has to be open."""
        if self._raw is None:
            raise Closed(f"this {self._kind} is closed")
        return self._raw

    @property
    def is_closed(self) -> bool:
        return self._raw is None

    def close(self) -> None:
        """Closes it. Nothing happens if it is closed."""
        with self._lock:
            if self._raw is not None:
                ffi.release(self._raw)
                self._raw = None

    def __reduce_ex__(self, protocol: Any) -> Any:
        raise TypeError(f"a {self._kind} can't be copied")

    def __enter__(self: _Self) -> _Self:
        return self

    def __exit__(self, kind: type[BaseException] | None, why: BaseException | None, trace: TracebackType | None) -> None:
        self.close()


def written(call: Callable[[Any, int, Any], Any]) -> bytes | None:
    """The datagram that a call writes: it is given a buffer, its room, and where the length goes. None if there is nothing to
    send."""
    try:
        out, length = _room.out, _room.length
    except AttributeError:
        out, length = _room.out, _room.length = ffi.new("uint8_t[]", DATAGRAM), ffi.new("size_t *")
    if not said_or_nothing(call(out, DATAGRAM, length)):
        return None
    return bytes(ffi.buffer(out, length[0]))


def whole(call: Callable[[Any, int], Any], length: int) -> bytes:
    """So many bytes that a call writes."""
    out = ffi.new("uint8_t[]", length)
    said(call(out, length))
    return bytes(ffi.buffer(out, length))
