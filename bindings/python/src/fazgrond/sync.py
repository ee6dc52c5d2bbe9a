"""Whether a game comes out the same each time that it is run."""
from __future__ import annotations

from collections.abc import Iterable
from typing import Callable, TypeVar

from .given import u32
from .rows import Row
from .session import Game

S = TypeVar("S")


def sync_test(game: Game[S], rows: Iterable[Row], digest: Callable[[S], object], depth: int = 8) -> int | None:
    """Runs these frames, `depth` at a time, goes back to the state before them and runs them once more. The first frame that comes
    out another, or whose state before it has changed since it was saved; None if there is none. `digest` makes something of a state
    that is another for most other states: `repr`, say. The game is afterwards at its last frame."""
    if u32("depth", depth) == 0:
        raise ValueError("`depth` is 0: a frame at least is needed")
    all_rows = list(rows)
    for first in range(0, len(all_rows), depth):
        found = _first_other(game, all_rows[first : first + depth], digest)
        if found is not None:
            return first + found
    return None


def _first_other(game: Game[S], rows: list[Row], digest: Callable[[S], object]) -> int | None:
    """Which of some frames is the first that comes out another."""
    states = [game.save()]
    digests = [digest(states[0])]
    for row in rows:
        game.advance(row)
        states.append(game.save())
        digests.append(digest(states[-1]))
    game.load(states[0])
    again = []
    for row in rows:
        game.advance(row)
        again.append(digest(game.save()))
    changed = [at for at, state in enumerate(states) if digest(state) != digests[at]]
    other = [at for at, found in enumerate(again) if found != digests[at + 1]]
    return min(changed + other, default=None)
