"""Matches that go on with other machines, owners or delays: in epochs."""
from __future__ import annotations

from collections.abc import Collection, Mapping, Sequence
from dataclasses import dataclass, field
from typing import TYPE_CHECKING, Any

from ._raw import ffi, lib
from .given import place_of, put, put_owners, put_players, u32, u64
from .handle import Settings
from .numbers import NO_PLAYER, NOBODY, PLAYERS

if TYPE_CHECKING:
    from .peer import Match

_MADE = lib.fazgrond_epoch_for([lib.fazgrond_match_for(0, 0)], [lib.fazgrond_settings_for(0)])
_MARK = lib.fazgrond_mark_for()


@dataclass
class Epoch:
    """How an epoch of a match opens: a part of it whose machines, owners, delays and threshold stay the same. It is the same at all
    machines. `owners` has the machine of each player of the match, player 1's first: None if nobody owns it now, and somebody who
    comes may get it. `delays` are those of these players.
    """

    owners: Sequence[int | None]
    delays: Sequence[int]  # by how many frames each player's words count later, 0 to 8
    threshold: int  # how many frames its sessions may run ahead of the confirmed words
    words: int = _MADE.words  # of how many words a player's input is
    id: int = _MADE.id  # which epoch it is: 0 is the first one, and any other has a number of 64 bits of its own
    base: int = _MADE.base  # how many frames of the match came before its first one
    machines: int = _MADE.machines  # how many there are. Where an epoch is opened, it isn't looked at, since the owners say it

    @classmethod
    def first(cls, match: Match, settings: Settings) -> Epoch:
        """The first epoch of a match whose sessions have these settings. These have a delay for the machine's own players alone: put
        those of the others into `delays`."""
        return cls._of(lib.fazgrond_epoch_for(match._raw(), settings._raw()))

    def has(self, machine: int) -> bool:
        """Whether a machine is in it: it owns a player. Send to those that are in the epoch which is played, but for this one."""
        return machine in self.owners

    @classmethod
    def _of(cls, raw: Any) -> Epoch:
        players = [at for at in range(PLAYERS) if raw.owners[at] != NO_PLAYER]
        owners = [None if raw.owners[at] == NOBODY else int(raw.owners[at]) for at in players]
        delays = [int(raw.delays[at]) for at in players]
        return cls(owners, delays, raw.threshold, raw.words, raw.id, raw.base, raw.machines)

    def _raw(self) -> Any:
        raw = ffi.new("fazgrond_epoch *", _MADE)
        put_owners(raw.owners, self.owners)
        put_players(raw.delays, "delays", dict(enumerate(self.delays, 1)))
        put(raw, self, "words threshold machines")
        put(raw, self, "id base", u64)
        return raw


@dataclass
class Mark:
    """What is to be otherwise in the next epoch. With nothing in it the frames begin anew, and that is all.

    It is void, and refused by its name, if its threshold is over 15 or a delay over 8, if it gives a delay to a player of another
    machine or the words of an input other delays than each other, or if somebody is to come by a ticket that isn't of the match's
    `comers`. Of each player the first mark of an epoch counts alone, even if it is void.
    """

    threshold: int = _MARK.threshold  # the new one; 0: as before
    delays: Mapping[int, int] = field(default_factory=dict)  # new delays of players of the machine that puts it
    comes: Collection[int] = ()  # the players that somebody who comes is to own
    ticket: int = _MARK.ticket  # of who comes: see the function `ticket`

    def _raw(self) -> Any:
        raw = ffi.new("fazgrond_mark *", _MARK)
        put(raw, self, "threshold")
        put(raw, self, "ticket", u64)
        put_players(raw.delays, "delays", self.delays)
        for player in self.comes:
            raw.comes[place_of("comes", player)] = 1
        return raw


def ticket(comers: int, name: int) -> int:
    """The ticket by which somebody comes to a match with these `comers`, under a name of 32 bits."""
    return int(lib.fazgrond_ticket(u64("comers", comers), u32("name", name)))
