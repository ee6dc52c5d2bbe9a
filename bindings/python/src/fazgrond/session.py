"""A session that plays a game."""
from __future__ import annotations

import weakref
from collections.abc import Iterator, Sequence
from typing import TYPE_CHECKING, Any, Callable, Generic, Protocol, TypeVar

from ._raw import lib
from .errors import Refused, said, said_or_nothing
from .handle import Plays, Settings, reached_of
from .numbers import Answer, Kind
from .rows import Reached, Row, row_of

if TYPE_CHECKING:
    from .peer import Peer

S = TypeVar("S")
T = TypeVar("T")

_OK, _JOBS_OUT = int(Answer.OK), int(Answer.JOBS_OUT)
_LOAD, _SAVE, _STEP = int(Kind.LOAD), int(Kind.SAVE), int(Kind.STEP)
_JOB_LOAD, _JOB_STEP = int(Kind.JOB_LOAD), int(Kind.JOB_STEP)


class Game(Protocol[S]):
    """A game whose states can be saved, loaded, and advanced by a frame.

    It has to be deterministic: what a frame makes of a state depends on nothing but the state and the row. What `save` gives is
    kept, and `load` gets it again, perhaps several times: so `save` makes a copy, and `load` takes from it without changing it.
    """

    def save(self) -> S: ...

    def load(self, state: S) -> None: ...

    def advance(self, row: Row) -> None: ...


class Job(Generic[S]):
    """Frames of a guess that are to be run: a state to start from, and the rows that follow, 1 to 8.

    It may be run on another thread, on a game of that thread's own, while the session goes on. A job that nobody has any more is
    given up.
    """

    def __init__(self, number: int, start: S, rows: list[Row]) -> None:
        self.number = number
        self.start = start
        self.rows = rows
        self.states: list[S] | None = None  # what it made, one after each row

    def run(self, helper: Game[S]) -> Job[S]:
        """Runs it. The helper's current state becomes that of the last frame, so it isn't the game that is shown."""
        helper.load(self.start)
        states = []
        for row in self.rows:
            helper.advance(row)
            states.append(helper.save())
        self.states = states
        return self


class Session(Plays, Generic[S]):
    """An open session that plays a game: after each roll the game's current state is that of the current frame.

    If a method of the game raises, the game is left between two frames. The next call that rolls, makes a guess, grafts or asks for a
    state carries out first what is left, that method again among it: a frame from the state before it. So does `Peer.turn`.
    """

    def __init__(self, settings: Settings, game: Game[S]) -> None:
        super().__init__(settings)
        self.game = game
        self._slots: list[Any] = [game.save()]
        self._jobs: dict[int, tuple[list[int], weakref.ref[Job[S]]]] = {}
        self._request: Any = None  # the one that is to be carried out, and those after it
        self._left: Iterator[Any] = iter(())
        self._is_rolling = False
        self._is_torn = False  # whether the game raised within a frame
        self._saved: S = self._slots[0]  # the last state that was saved or loaded, and the rows that were played since
        self._rows: list[Row] = []
        self._has_begun = False  # whether a peer is to be told still that an epoch has begun

    def synchronize_input(self) -> Row:
        """The row of this frame, after a rollback if a prediction was wrong."""
        with self._lock:
            said(self._rolled(lib.fazgrond_synchronize_input, self._row))
            return row_of(self._row)

    def advance_frame(self) -> Reached:
        """Goes on to the next frame."""
        with self._lock:
            said(self._rolled(lib.fazgrond_advance_frame, self._reached))
            return reached_of(self._reached)

    def settled_state(self) -> tuple[int, S]:
        """The settled frame, and the state after all settled rows."""
        with self._lock:
            self._must_be_whole()
            frame, slot = self.settled_slot()
            return frame, self._slots[slot]

    def guess(self, player: int, words: Sequence[int], until: int) -> Job[S] | None:
        """A guess: if this player gave these 1 to 24 words next, and held the last of them. The job of running the frames that
        this would make up to the frame `until`; None if there is nothing to run. Run it, at best on another thread, and `graft`
        it."""
        return self._job_of(lambda: self._guessed(player, words, until))

    def guess_waiting(self, peer: Peer, until: int) -> Job[S] | None:
        """A guess with all words that a peer holds back from this session. It is right once they are handed over."""
        return self._job_of(lambda: self._guessed_waiting(peer, until))

    def graft(self, job: Job[S]) -> int:
        """Takes in the states of a job that was run, and says how many of them are kept."""
        with self._lock:
            self._must_be_whole()
            slots = self._slots_of(job)
            if job.states is None:
                raise Refused(Answer.PENDING)
            for slot, state in zip(slots, job.states):
                self._slots[slot] = state
            del self._jobs[job.number]
            return self._asked(lib.fazgrond_graft, job.number)

    def forget(self, job: Job[S]) -> None:
        """Gives a job up at once."""
        with self._lock:
            self._slots_of(job)
            del self._jobs[job.number]
            said(lib.fazgrond_forget(self._at(), job.number))

    def _slots_of(self, job: Job[S]) -> list[int]:
        """The slots of a job that is out."""
        slots, out = self._jobs.get(job.number, (None, None))
        if slots is None or out is None or out() is not job:
            raise Refused(Answer.NO_JOB)
        return slots

    def _must_be_whole(self) -> None:
        """Carries out what is left since a method of the game raised. From within such a method there is no way."""
        if self._is_rolling:
            raise Refused(Answer.PENDING)
        if self._request is not None:
            self._carry_out()

    def _rolled(self, call: Callable[[Any, Any], Any], out: Any) -> int:
        """What a call that rolls answers; what it leaves is carried out."""
        self._forget_dropped()
        code: int = call(self._at(), out)
        self._left = self._take()
        self._request = next(self._left, None)
        self._carry_out()
        return code

    def _carry_out(self) -> None:
        """Carries out the request that is next, and those after it."""
        game, slots, rows = self.game, self._slots, self._rows
        self._is_rolling = True
        try:
            if self._is_torn:
                self._begin_frame_again()
            while (request := self._request) is not None:
                kind = request.kind
                if kind == _STEP:
                    row = row_of(request.row)
                    self._is_torn = True  # unless the frame comes to its end
                    game.advance(row)
                    self._is_torn = False
                    rows.append(row)
                elif kind == _SAVE:
                    self._saved = game.save()
                    rows.clear()
                    self._put(request.slot, self._saved)
                elif kind == _LOAD:
                    game.load(slots[request.slot])
                    self._saved = slots[request.slot]
                    rows.clear()
                else:
                    slots[request.slot] = None
                self._request = next(self._left, None)
        finally:
            self._is_rolling = False

    def _begin_frame_again(self) -> None:
        """To the state before the frame in which the game raised."""
        self.game.load(self._saved)
        for row in self._rows:
            self.game.advance(row)
        self._is_torn = False

    def _gone_on(self, call: Callable[[Any, Any], Any], frames: Any) -> bool:
        """Whether the next epoch has begun, as a peer's call says. The jobs of the one before are given up. If a method of the game
        raised meanwhile, the next call says it."""
        self._must_be_whole()
        if not self._has_begun:
            said_or_nothing(self._rolled(lambda session, out: self._begun(call, session, out), frames))
        has_begun, self._has_begun = self._has_begun, False
        return has_begun

    def _begun(self, call: Callable[[Any, Any], Any], session: Any, out: Any) -> int:
        """Notes that an epoch has begun, if a call says so. Jobs that are out are given up first: no state of them is in a slot."""
        code: int = call(session, out)
        if code == _JOBS_OUT:
            for number in self._jobs:
                said(lib.fazgrond_forget(session, number))
            self._jobs.clear()
            code = call(session, out)
        self._has_begun = code == _OK
        return code

    def _put(self, slot: int, state: S | None) -> None:
        """The least free slots are always taken, so the next one is at most one more."""
        if slot == len(self._slots):
            self._slots.append(state)
        else:
            self._slots[slot] = state

    def _job_of(self, guess: Callable[[], int | None]) -> Job[S] | None:
        """The job of a guess, if there is anything to run."""
        with self._lock:
            self._forget_dropped()
            number = guess()
            start, rows, slots = 0, [], []
            for request in self._take():
                if request.kind == _JOB_LOAD:
                    start = request.slot
                elif request.kind == _JOB_STEP:
                    rows.append(row_of(request.row))
                else:
                    self._put(request.slot, None)
                    slots.append(request.slot)
            if number is None:
                return None
            job: Job[S] = Job(number, self._slots[start], rows)
            self._jobs[number] = slots, weakref.ref(job)
            return job

    def _forget_dropped(self) -> None:
        """Gives up the jobs that nobody has any more."""
        self._must_be_whole()
        if not self._jobs:
            return
        for number in [number for number, (_, job) in self._jobs.items() if job() is None]:
            del self._jobs[number]
            said(lib.fazgrond_forget(self._at(), number))
