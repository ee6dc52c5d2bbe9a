"""Which numbers of datagrams were taken, for whoever encrypts them."""
from __future__ import annotations

from ._raw import ffi, lib
from .given import u64


class Window:
    """Each datagram of a sender has a number that counts up, and none is taken twice.

    A number is new if it wasn't taken, and none was taken that is over `WINDOW_REACH` above it.
    """

    def __init__(self) -> None:
        self._window = ffi.new("fazgrond_window *")

    def is_new(self, number: int) -> bool:
        """Whether a number is new. Ask before the datagram is opened."""
        return bool(lib.fazgrond_window_is_new(self._window, u64("number", number)))

    def note(self, number: int) -> bool:
        """Takes a number if it is new, and says whether it was. Call it once the datagram is known to be genuine."""
        return bool(lib.fazgrond_window_note(self._window, u64("number", number)))
