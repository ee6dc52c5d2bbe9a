"""The network of a match at one machine."""
from __future__ import annotations

import secrets
from collections.abc import Iterator, Sequence
from dataclasses import dataclass, fields
from typing import Any, NamedTuple

from ._raw import ffi, lib
from .epoch import Epoch, Mark
from .errors import Refused, said, said_or_nothing
from .given import Octets, clock, octets, put, put_owners, u8, u32, u64
from .handle import Plays
from .numbers import HELD_WORDS, MACHINES, Answer, Bye, Happened
from .owned import Owned, written
from .rows import Reached
from .session import Session

_MADE = lib.fazgrond_match_for(0, 0)


def drawn() -> int:
    """64 bits of the system's random source, and never 0."""
    return secrets.randbelow((1 << 64) - 1) + 1


@dataclass
class Match:
    """How a match is opened at one machine. Machines are numbered from 0.

    `owners` are the machines of the players, player 1's first. `number` is 64 random bits that all machines of the match know;
    with a list, those that this machine shares with each. `draw` is drawn for this opening, if nothing else is said.
    """

    me: int
    machines: int
    owners: Sequence[int]
    number: int | Sequence[int]
    digest: int = _MADE.digest  # of all else that has to be alike at all machines, but for the opening state
    comers: int = _MADE.comers  # who may come to a match that goes on: see `ticket`. 0: anybody whom a mark has come
    silent_after: int = _MADE.silent_after  # 5,000: milliseconds after which a machine is gone that answers nothing; 0: it never is
    notify_after: int = _MADE.notify_after  # 750: after which INTERRUPTED and STALLED tell of one; 0: neither is told
    stalled_after: int = _MADE.stalled_after  # after which a machine is gone that holds this one up; 0: it never is
    words: int = _MADE.words  # of how many words a player's input is, 1 to 4
    held_turns: int = _MADE.held_turns  # for how many turns others' words wait beside the session, 1 to 8; 0: they don't
    carries: bool = False  # of three machines or more: hand on what two others send each other whose line is broken (`send_more`)
    draw: int | None = None
    opening: int = _MADE.opening  # a digest of the opening state, which is compared before the match begins. 0 if there is none

    def _raw(self) -> Any:
        raw = ffi.new("fazgrond_match *", lib.fazgrond_match_for(u32("machines", self.machines), u32("me", self.me)))
        if not isinstance(self.number, Sequence):
            lib.fazgrond_one_number(raw, u64("number", self.number))
        elif len(self.number) > MACHINES:
            raise ValueError(f"`number` has those of {len(self.number)} machines: {MACHINES} are the most")
        else:
            for at, number in enumerate(self.number):
                raw.numbers[at] = u64(f"number[{at}]", number)
        put_owners(raw.owners, self.owners)
        raw.draw = drawn() if self.draw is None else u64("draw", self.draw)
        put(raw, self, "digest opening comers", u64)
        put(raw, self, "silent_after notify_after stalled_after words held_turns")
        return raw


@dataclass(frozen=True)
class Event:
    """Something that a peer tells its program. What it doesn't say is 0."""

    code: Happened
    machine: int
    player: int
    count: int
    total: int
    frames_ahead: int
    disconnect_in: int
    frame: int
    field: int
    bye: int  # why a machine that is gone said bye, as `Bye`; 0 if it said none


class Stats(NamedTuple):
    """What was counted and measured of the datagrams between this machine and another."""

    is_measured: bool  # whether the round trip was
    round_trip: int  # in milliseconds
    sent: int
    received: int
    lost: int  # or late
    words_queued: int  # words that it hasn't said that it has
    frames_behind: int  # by how many frames this machine is behind the other: negative if it is ahead
    their_frames_behind: int  # and the other, as it says, behind this one
    refused: int  # datagrams that it sealed and that were refused, or had words that were
    dropped: int  # datagrams of it that called this machine gone
    restarted: bool  # whether it was opened anew in the middle of the match


class RemoteWord(NamedTuple):
    """A word of another machine's player."""

    player: int
    frame: int
    word: int


class Peer(Owned):
    """The network of a match at one machine: who has which words, who is gone, what to send. It has no socket and no clock, and
    stands beside the session that plays, which stays the program's: close each when you need it no more.

    `now` is this machine's clock in milliseconds, from a moment of its own choice; it may wrap, and it may jump.

    In each turn hear what came by `receive`, give the session its own players' words once `is_running` says that the match has
    begun, make a `turn`, and `send` to each other machine; with `carries` in the match, send what `send_more` has too.

    With an epoch the match goes on in epochs, beginning with this one, and carries; all machines are opened so, or none. The epoch says
    the owners, the machines and the words of the match, and the session's threshold and its own players' delays are those of it. In
    each turn, before the session is given words: `poll`, then `go_on`. After `send` to a machine, send it what `send_before` has too.
    """

    def __init__(self, session: Plays, match: Match, epoch: Epoch | None = None) -> None:
        super().__init__("peer", session._lock)
        self.session = session
        self._word = ffi.new("uint32_t *")
        self._frames = ffi.new("uint32_t *")
        self._machine = ffi.new("uint8_t *")
        self._event = ffi.new("fazgrond_event *")
        self._has_begun = False  # that never ends
        with self._lock:
            self._open(match, epoch)

    def _open(self, match: Match, epoch: Epoch | None) -> None:
        of = self._at(), self.session._at(), match._raw()
        if epoch is not None:
            said(lib.fazgrond_peer_open_lasting(*of, epoch._raw()))
        else:
            said((lib.fazgrond_peer_open_carrying if match.carries else lib.fazgrond_peer_open)(*of))

    def receive(self, datagram: Octets, now: int) -> None:
        """Takes a datagram that came, and gives the session the words in it. What is refused has changed nothing but what is
        counted and told of its sender."""
        with self._lock:
            said(self._heard(datagram, now))

    def hear(self, datagram: Octets, now: int) -> bool:
        """As `receive`, for what may come of anybody: whether it was taken."""
        with self._lock:
            return self._heard(datagram, now) == Answer.OK

    def _heard(self, datagram: Octets, now: int) -> int:
        code: int = lib.fazgrond_peer_receive(self._at(), self.session._at(), *octets("datagram", datagram), clock(now))
        return code

    def poll(self, now: int) -> None:
        """What a turn does before it plays: machines that were silent too long are gone, players of who is gone leave the
        session, and the match begins once all machines are there. If the session refuses a player's leaving, the next poll tries
        again."""
        with self._lock:
            said(lib.fazgrond_peer_poll(self._at(), self.session._at(), clock(now)))

    def turn(self, now: int) -> Reached | None:
        """A turn of the main loop: a `poll`, and once the match has begun, the session goes on to its next frame if its local
        words are there, and says so; else it rolls back, if anything was accepted since it last did."""
        self.poll(now)
        if not self.is_running:
            return None
        if not isinstance(self.session, Session):
            raise TypeError("a handle's requests are its caller's: poll, and roll it yourself")
        try:
            return self.session.advance_frame()
        except Refused as why:
            if why.answer != Answer.LOCAL_INPUT_MISSING:
                raise
        if self.session.has_news:
            self.session.synchronize_input()
        return None

    @property
    def is_running(self) -> bool:
        """Whether the match has begun. Before that give the session no words."""
        with self._lock:
            if not self._has_begun or self._raw is None:
                said(lib.fazgrond_peer_is_running(self._at(), self._word))
                self._has_begun = bool(self._word[0])
            return self._has_begun

    def send(self, machine: int, now: int) -> bytes | None:
        """The datagram to send to a machine in this turn. None if it is gone, or this one, or there is no such machine; and if what
        this one has for it goes by `send_more`."""
        with self._lock:
            told = self._at(), self.session._at(), u8("machine", machine), clock(now)
            return written(lambda out, room, length: lib.fazgrond_peer_send(*told, out, room, length))

    def send_more(self) -> tuple[int, bytes] | None:
        """Once `send` was called for each other machine, what a peer that carries has to send besides in this turn: a machine, and the
        datagram for it. Call it until there is none."""
        with self._lock:
            peer, to = self._at(), self._machine
            more = written(lambda out, room, length: lib.fazgrond_peer_send_more(peer, to, out, room, length))
            return None if more is None else (int(to[0]), more)

    def bye(self, machine: int, why: int = Bye.BYE_LEAVES) -> bytes | None:
        """The datagram that says to a machine that this one leaves the match, and why. Send each a few times. None if there is nobody
        to tell."""
        with self._lock:
            told = self._at(), u8("machine", machine), u8("why", why)
            return written(lambda out, room, length: lib.fazgrond_peer_bye(*told, out, room, length))

    def disconnect(self, machine: int) -> None:
        """Regards a machine as gone, for good. Its players leave the session at a later `poll`."""
        with self._lock:
            said(lib.fazgrond_peer_disconnect(self._at(), u8("machine", machine)))

    def note_settled(self, digest: int) -> None:
        """Notes the game's own digest of the session's settled state, by which the machines see that they play alike."""
        with self._lock:
            said(lib.fazgrond_peer_note_settled(self._at(), self.session._at(), u64("digest", digest)))

    def event(self) -> Event | None:
        """What happened, the oldest first. The oldest is dropped if more than 64 wait."""
        with self._lock:
            if not said_or_nothing(lib.fazgrond_peer_event(self._at(), self._event)):
                return None
            told = self._event
            return Event(Happened(told.code), *[getattr(told, it.name) for it in fields(Event)[1:]])

    def events(self) -> Iterator[Event]:
        """All that happened."""
        while (event := self.event()) is not None:
            yield event

    def stats(self, machine: int) -> Stats | None:
        """What was counted and measured of a machine. None if there is no such machine."""
        seen = ffi.new("fazgrond_stats *")
        with self._lock:
            code = lib.fazgrond_peer_stats(self._at(), u8("machine", machine), seen)
        if code == Answer.INVALID_MACHINE or not said_or_nothing(code):
            return None
        told = [getattr(seen, name) for name in Stats._fields[1:-1]]
        return Stats._make([bool(seen.is_measured), *told, bool(seen.restarted)])

    def waiting(self) -> list[RemoteWord]:
        """The words that wait, in the order in which they came. None do if the match has no `held_turns`.

        In each turn, before the session is given its own players' words: graft the jobs that are done, `hand_over` the words that
        would make no frame run again (`rerun`), and all of them if the session `is_pressed`; then call `hand_over_due`. After the
        `turn`, make a guess with those that still wait (`Session.guess_waiting`), and have its job run on another thread.
        """
        entries = ffi.new("fazgrond_entry[]", HELD_WORDS)
        with self._lock:
            count = lib.fazgrond_peer_waiting(self._at(), entries, HELD_WORDS)
        return [RemoteWord(it.player, it.frame, it.word) for it in entries[0:count]]

    def _counted(self, call: Any, *of: Any) -> int:
        with self._lock:
            said(call(self._at(), self.session._at(), *of, self._word))
            return int(self._word[0])

    def rerun(self, count: int = HELD_WORDS) -> int:
        """How many frames the session would have to run again, if the first so many words that wait were handed over."""
        return self._counted(lib.fazgrond_peer_rerun, u32("count", count))

    def _guess(self, session: Plays, until: int, job: Any) -> int:
        """The answer to a guess with all words that wait, of which a session or handle makes a job."""
        code: int = lib.fazgrond_peer_guess(self._at(), session._at(), until, job)
        return code

    def hand_over(self, count: int = HELD_WORDS) -> None:
        """Hands the first so many words that wait over to the session, or all if there are fewer."""
        with self._lock:
            said(lib.fazgrond_peer_hand_over(self._at(), self.session._at(), u32("count", count)))

    def hand_over_due(self) -> int:
        """Once a turn: hands over the words that have waited for their turns, and says how many they were."""
        return self._counted(lib.fazgrond_peer_hand_over_due)

    @property
    def is_pressed(self) -> bool:
        """Whether the session would stand at its next frame without the words that wait."""
        return self._counted(lib.fazgrond_peer_is_pressed) != 0

    def epoch(self) -> Epoch | None:
        """How the epoch opened that is played now. At what frame of the whole match the session is: the epoch's base and the session's
        frame, together. None if the match doesn't go on in epochs."""
        epoch = ffi.new("fazgrond_epoch *")
        with self._lock:
            return Epoch._of(epoch) if said_or_nothing(lib.fazgrond_peer_epoch(self._at(), epoch)) else None

    def has_stayed(self, machine: int) -> bool:
        """Whether a machine is in this epoch and was in the one before, and hasn't come in with this one. False of each in the epoch with
        which the peer was opened, and if the match doesn't go on in epochs."""
        with self._lock:
            code = lib.fazgrond_peer_has_stayed(self._at(), u8("machine", machine), self._word)
            return said_or_nothing(code) and bool(self._word[0])

    def mark(self, player: int, mark: Mark | None = None) -> None:
        """Puts a mark on the next word that a player of this machine gives: the epoch ends after that frame. If another machine's mark
        ends it before, this one is forgotten."""
        with self._lock:
            said(lib.fazgrond_peer_mark(self._at(), self.session._at(), u8("player", player), (mark or Mark())._raw()))

    def go_on(self) -> int | None:
        """Goes on in the next epoch if this one is over, after `poll` in each turn: at what frame of it the session is. None if this
        epoch isn't over, or the match doesn't go on in epochs.

        The session has begun anew then, at the end of the epoch, and so has all that is counted by frames: settled rows, confirmed
        words, the log. The words that this machine's players gave past the end are given again, and the frames past it are run again.
        The jobs of the epoch before are given up first. A handle's requests and jobs are its caller's: `JOBS_OUT` until all are grafted
        or forgotten."""
        with self._lock:
            peer, frames = self._at(), self._frames
            has_begun = self.session._gone_on(lambda session, out: lib.fazgrond_peer_go_on(peer, session, out), frames)
            return self.session.frame if has_begun else None

    def send_before(self, machine: int, now: int) -> bytes | None:
        """What is to be sent, after `send`, to a machine in the epoch before. None if there is nothing."""
        with self._lock:
            told = self._at(), u8("machine", machine), clock(now)
            return written(lambda out, room, length: lib.fazgrond_peer_send_before(*told, out, room, length))
