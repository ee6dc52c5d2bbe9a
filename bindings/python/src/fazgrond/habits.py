"""What another player may press next: which guesses are worth making, by what was seen of the player."""
from __future__ import annotations

from collections.abc import Sequence
from typing import NamedTuple

from ._raw import ffi, lib
from .errors import said
from .given import u32, words
from .owned import Owned

_MOST = 32  # guesses that are worth making at once


class Foreseen(NamedTuple):
    """Words that a player may give next. The last of them is held on."""

    words: tuple[int, ...]
    worth: int  # the chance that they come, of 32768, times the frames from the last of them on


class Habits(Owned):
    """What was seen of a player.

    Each of `parts` has those bits of a word that belong together: the four of a cross, one for each button. `likely` are words
    that the player will probably give.
    """

    def __init__(self, parts: Sequence[int] = (), likely: Sequence[int] = ()) -> None:
        super().__init__("habits")
        said(lib.fazgrond_habits_open(self._at(), *words("parts", parts), *words("likely", likely)))

    def note(self, word: int) -> None:
        """Notes the player's next confirmed word. Tell each once, in the order of their frames."""
        with self._lock:
            said(lib.fazgrond_habits_note(self._at(), u32("word", word)))

    def guesses(self, frames: int, most: int = _MOST) -> list[Foreseen]:
        """The best guesses of the player's next words, best first, if so many frames have no word of it yet."""
        best = ffi.new("fazgrond_foreseen[]", max(1, min(most, _MOST)))
        with self._lock:
            count = lib.fazgrond_habits_guesses(self._at(), u32("frames", frames), best, max(0, min(most, _MOST)))
        return [Foreseen(tuple(ffi.unpack(it.words, it.count)), it.worth) for it in best[0:count]]
