"""A session without a game: what it leaves is carried out by its caller. `Session` carries it out."""
from __future__ import annotations

from collections.abc import Collection, Iterator, Mapping, Sequence
from dataclasses import dataclass, field
from typing import TYPE_CHECKING, Any, Callable

from ._raw import ffi, lib
from .errors import Refused, said, said_or_nothing
from .given import i32, place_of, put, put_players, u8, u32, u64, words as words_of
from .numbers import Answer, Profile
from .owned import Owned, whole
from .rows import Entry, Reached, Request, Row, entry_of, request_of, row_of

if TYPE_CHECKING:
    from .peer import Peer

_BATCH = 32  # requests that are taken at once


@dataclass
class Settings:
    """How a session is opened: so many players, of whom some are on this machine. What isn't said is at its most."""

    players: int
    local: Collection[int]
    threshold: int | None = None  # how many frames the session may run ahead of the confirmed words
    limit: int | None = None  # the last frame
    log: int | None = None  # the most accepted calls
    delays: Mapping[int, int] = field(default_factory=dict)  # by how many frames a local player's words count later
    masks: Mapping[int, int] = field(default_factory=dict)  # which bits of a player's last word are predicted as held
    profile: Profile | None = None

    def _raw(self) -> Any:
        raw = ffi.new("fazgrond_settings *", lib.fazgrond_settings_for(u32("players", self.players)))
        raw.local = sum({1 << place_of("local", player) for player in self.local})
        put(raw, self, " ".join(it for it in ["threshold", "limit", "log", "profile"] if getattr(self, it) is not None))
        put_players(raw.delays, "delays", self.delays)
        put_players(raw.masks, "masks", self.masks)
        return raw


class Plays(Owned):
    """What `Session` and `Handle` have alike."""

    def __init__(self, settings: Settings) -> None:
        super().__init__("session")
        self._word = ffi.new("uint32_t[2]")
        self._row = ffi.new("fazgrond_row *")
        self._reached = ffi.new("fazgrond_reached *")
        self._batch = ffi.new("fazgrond_request[]", _BATCH)
        said(lib.fazgrond_open(self._at(), settings._raw()))

    def _asked(self, call: Any, *of: Any) -> int:
        """The number that a call answers."""
        with self._lock:
            said(call(self._at(), *of, self._word))
            return int(self._word[0])

    def _asked_or_nothing(self, call: Any, *of: Any) -> int | None:
        with self._lock:
            return int(self._word[0]) if said_or_nothing(call(self._at(), *of, self._word)) else None

    def add_local_input(self, player: int, word: int) -> None:
        """Gives a local player's word of this frame."""
        with self._lock:
            said(lib.fazgrond_add_local_input(self._at(), u8("player", player), u32("word", word)))

    def remote_input(self, player: int, frame: int, word: int) -> bool:
        """Takes a remote player's next word, and says whether it is new. Beside a peer, the peer alone makes this call."""
        return self._asked(lib.fazgrond_remote_input, u8("player", player), u32("frame", frame), u32("word", word)) == 0

    def disconnect_player(self, player: int) -> None:
        """A remote player leaves. Beside a peer, the peer alone makes this call."""
        with self._lock:
            said(lib.fazgrond_disconnect_player(self._at(), u8("player", player)))

    @property
    def has_news(self) -> bool:
        """Whether the state that is shown may be out of date: then a turn that plays no frame synchronizes."""
        return self._asked(lib.fazgrond_has_news) != 0

    @property
    def frame(self) -> int:
        """The current frame."""
        return self._asked(lib.fazgrond_frame)

    @property
    def settled(self) -> int:
        """How many rows are settled: they never change."""
        return self._asked(lib.fazgrond_settled)

    def settled_row(self, frame: int) -> Row | None:
        """The row of a frame, if it is settled."""
        with self._lock:
            code = lib.fazgrond_settled_row(self._at(), u32("frame", frame), self._row)
            return row_of(self._row) if said_or_nothing(code) else None

    def settled_slot(self) -> tuple[int, int]:
        """The settled frame, and the slot of the state after all settled rows, until the next call that leaves requests."""
        with self._lock:
            said(lib.fazgrond_settled_slot(self._at(), self._word, self._word + 1))
            return self._word[0], self._word[1]

    def confirmed(self, player: int) -> int:
        """How many words of a player are confirmed: the frame whose word must come next."""
        return self._asked(lib.fazgrond_confirmed, u8("player", player))

    def confirmed_word(self, player: int, frame: int) -> int | None:
        """The confirmed word of a player at a frame, if there is one."""
        return self._asked_or_nothing(lib.fazgrond_confirmed_word, u8("player", player), u32("frame", frame))

    def input_frame(self, player: int) -> int:
        """The frame in which a local player's next word counts."""
        return self._asked(lib.fazgrond_input_frame, u8("player", player))

    def limit_slots(self, slots: int) -> None:
        """For a game with room for so many states: from now on nothing is saved in a slot from this one on."""
        with self._lock:
            said(lib.fazgrond_limit_slots(self._at(), u32("slots", slots)))

    def reserve_log(self, events: int) -> None:
        """Makes room for so many more entries of the log."""
        with self._lock:
            said(lib.fazgrond_reserve_log(self._at(), u32("events", events)))

    def log_length(self) -> int:
        """How many entries the log has: all accepted calls, in their order."""
        length = ffi.new("size_t *")
        with self._lock:
            said(lib.fazgrond_log_length(self._at(), length))
        return int(length[0])

    def log_entry(self, place: int) -> Entry | None:
        """The entry at a place of the log, from 0."""
        entry = ffi.new("fazgrond_entry *")
        with self._lock:
            code = lib.fazgrond_log_entry(self._at(), u64("place", place), entry)
            return entry_of(entry) if said_or_nothing(code) else None

    def note_advantages(self, local: int, remote: int) -> None:
        """Notes by how many frames this machine is behind the other one, and the other behind this one. Beside a peer it isn't
        needed."""
        with self._lock:
            told = i32("local", local), i32("remote", remote)
            said(lib.fazgrond_note_advantages(self._at(), *told))

    @property
    def frames_ahead(self) -> int:
        """How many frames this machine should wait: 0, or 3 to 9."""
        return self._asked(lib.fazgrond_frames_ahead)

    def claim(self) -> str:
        """The certificate of the last rollback, which `rollduel certify` checks."""
        length = ffi.new("size_t *")
        with self._lock:
            code = lib.fazgrond_claim(self._at(), ffi.new("uint8_t[1]"), 0, length)
            if code != Answer.TOO_SHORT:
                said(code)
            return whole(lambda out, room: lib.fazgrond_claim(self._at(), out, room, length), length[0]).decode()

    def _take(self) -> Iterator[Any]:
        """The requests that are left, as the library has them."""
        batch = self._batch
        while count := lib.fazgrond_take_requests(self._at(), batch, _BATCH):
            for at in range(count):
                yield batch[at]

    def _gone_on(self, call: Callable[[Any, Any], Any], frames: Any) -> bool:
        """Whether the next epoch has begun, as a peer's call says."""
        return said_or_nothing(call(self._at(), frames))

    def _guessed(self, player: int, words: Sequence[int], until: int) -> int | None:
        return self._asked_or_nothing(lib.fazgrond_guess, u8("player", player), *words_of("words", words), u32("until", until))

    def _guessed_waiting(self, peer: Peer, until: int) -> int | None:
        if peer.session is not self:  # it has another lock
            raise Refused(Answer.OTHER_SESSION)
        with self._lock:
            return int(self._word[0]) if said_or_nothing(peer._guess(self, u32("until", until), self._word)) else None


class Handle(Plays):
    """A session that leaves its requests to its caller.

    Before the first request the game has its opening state as the current one and in slot 0. Whatever a call that rolls, a guess or
    `Peer.go_on` answers, take all `requests` after it, and carry them out in their order: those of a job in their own time, on any
    thread.
    """

    def synchronize_input(self) -> Row:
        """The row of this frame, after a rollback if a prediction was wrong."""
        with self._lock:
            said(lib.fazgrond_synchronize_input(self._at(), self._row))
            return row_of(self._row)

    def advance_frame(self) -> Reached:
        """Goes on to the next frame."""
        with self._lock:
            said(lib.fazgrond_advance_frame(self._at(), self._reached))
            return reached_of(self._reached)

    def requests(self) -> list[Request]:
        """Takes all requests that are left."""
        with self._lock:
            return [request_of(it) for it in self._take()]

    def guess(self, player: int, words: Sequence[int], until: int) -> int | None:
        """A guess: if this player gave these words next. It asks for a job, and answers its number; None if there is nothing to
        run."""
        return self._guessed(player, words, until)

    def guess_waiting(self, peer: Peer, until: int) -> int | None:
        """A guess with all words that a peer holds back from this session."""
        return self._guessed_waiting(peer, until)

    def graft(self, job: int) -> int:
        """Takes in the states of a job all of whose requests are carried out, and says how many of them are kept."""
        return self._asked(lib.fazgrond_graft, u32("job", job))

    def forget(self, job: int) -> None:
        """Gives a job up: none of its requests may be carried out any more."""
        with self._lock:
            said(lib.fazgrond_forget(self._at(), u32("job", job)))


def reached_of(reached: Any) -> Reached:
    return Reached(reached.frame, getattr(reached, "from"), reached.rerun)
