"""Who comes to a match that is played.

A newcomer has a *line* with each machine that was told of it, its *hosts*. By such a line it is told a state with its epoch and frame,
and then the settled rows from there on, with their marks; it says how many it has. It takes a state of one host, and rows of any. A
host proposes it once it has all but 30 of its settled rows, if a player is free and there are fewer than 8 machines. It finds the end,
the id and its own place as all others do.

With its rows a host tells the digest of its state before the first of them. If the newcomer has another there, it saw rows that
those who stay never had: it throws away what it has and begins anew. It begins anew also if its epoch isn't told any more. To a newcomer
that is among the machines of a host's epoch, and wasn't heard there, the host tells how that epoch opened. So it goes on as long as
the newcomer is in no epoch, or in its first one with nobody there, who isn't gone, whom it has heard in it. Whoever begins anew
draws anew when it opens an epoch.

A newcomer is gone if no play of it was opened in twice `silent_after` from the seam on: its host may be in the old epoch still, kept for as
long as somebody is silent. A newcomer, in its first epoch, waits three times `silent_after` for a machine with which it doesn't play yet,
since that may be in the old epoch still; once it plays with one, that one's silence counts, even before a play of it was opened.
"""
from typing import NamedTuple

from epochs import MEMBERS, mark_of_row, successor
from rules import holds

ROWS = 20           # in one datagram
BEHIND = 30         # so many rows a newcomer may lack when it is proposed


class State(NamedTuple):
    """How an epoch opened, how many of its frames are settled at the host, the digest there, and who has left."""
    terms: object
    at: int
    digest: int
    left: tuple


class Rows(NamedTuple):
    """Settled rows of an epoch, and the digest of the state before them."""
    epoch: int
    first: int
    rows: tuple
    digest: int


class Had(NamedTuple):
    """How many rows of an epoch a newcomer has; None if it has nothing."""
    epoch: object
    rows: int


class View:
    """What a newcomer has seen of an epoch."""

    def __init__(self, state):
        self.terms, self.at, self.digest, self.left = state.terms, state.at, state.digest, list(state.left)
        self.mark, self.end = None, None

    def see(self, row):
        """The next row."""
        for player, word in enumerate(row):
            if word is None and self.terms.owners[player] is not None and self.left[player] is None:
                self.left[player] = self.at
        self.digest = hash((self.digest, row))
        self.at += 1
        self.mark = mark_of_row(row, self.terms)
        if self.mark:
            self.end = self.at

    def next_terms(self):
        return successor(self.terms, self.end, self.mark, self.left, self.digest)


class Newcomer:
    """The part of a machine that comes to a match. `machine` opens epochs."""

    def __init__(self, machine):
        self.machine, self.view, self.host = machine, None, None

    def is_unsure(self):
        """Whether it listens to its lines."""
        machine = self.machine
        if machine.epoch is None:
            return True
        return machine.joined == machine.epoch.terms.id and not machine.has_company() and holds("unsure")

    def hear(self, host, said, now):
        """What a host tells."""
        if not self.is_unsure():
            return
        if isinstance(said, State):
            self.hear_state(host, said, now)
        elif holds("any_host") or host == self.host:
            self.hear_rows(said, now)

    def hear_state(self, host, state, now):
        """A state is taken if there is none, or if it is of a later epoch."""
        epoch = self.machine.epoch
        if self.view is not None and not (self.view.terms.base < state.terms.base
                                          and (epoch is None or epoch.terms.id != state.terms.id)):
            return
        self.begin_anew()
        self.view, self.host = View(state), host
        self.machine.digests[state.terms.base + state.at] = state.digest
        if state.at == 0 and self.machine.name in state.terms.members:
            self.machine.join(state.terms, now)

    def begin_anew(self):
        self.view = None
        self.machine.begin_anew()

    def hear_rows(self, said, now):
        view = self.view
        if view is None or view.terms.id != said.epoch:
            return
        if said.first == view.at and said.digest != view.digest and holds("compare"):
            self.begin_anew()
            return
        if self.machine.epoch is not None:
            return
        for at, row in enumerate(said.rows):
            if said.first + at == view.at and view.end is None:
                self.machine.rows[view.terms.base + view.at] = row
                view.see(row)
                self.machine.digests[view.terms.base + view.at] = view.digest
        if view.end is not None:
            self.go_over(view.next_terms(), now)

    def go_over(self, terms, now):
        """The epoch that it saw has ended: it is in the next one, or goes on seeing it."""
        if self.machine.name in terms.members:
            self.machine.join(terms, now)
        else:
            self.view = View(State(terms, 0, terms.opening, (None,) * len(terms.owners)))

    def had(self):
        return Had(self.view.terms.id, self.view.at) if self.view else Had(None, 0)


class Host:
    """The part of a machine that lets newcomers in: those that it was told of, and what each has."""

    def __init__(self, machine):
        self.machine, self.guests = machine, {}

    def told_of(self, newcomer, player):
        """A newcomer is to come, to own this player if that is free."""
        self.guests[newcomer] = [Had(None, 0), player]

    def hear(self, newcomer, had):
        if newcomer in self.guests:
            self.guests[newcomer][0] = had

    def proposed(self):
        """A newcomer that has caught up, and isn't in yet, with its player; None if there is none."""
        epoch = self.machine.epoch
        if None not in epoch.terms.owners or len(epoch.terms.members) == MEMBERS:
            return None
        for newcomer, (had, player) in self.guests.items():
            near = had.epoch == epoch.terms.id and epoch.rows - had.rows < BEHIND
            if newcomer not in self.machine.met and (near or not holds("caught_up")):
                return newcomer, player
        return None

    def tell(self, newcomer):
        """What a newcomer is told in this turn; None if nothing."""
        machine, (had, _) = self.machine, self.guests[newcomer]
        epoch = next((it for it in machine.epochs() if it.terms.id == had.epoch), machine.epoch)
        if newcomer in machine.epoch.heard or machine.epoch.mesh.is_gone(newcomer):
            return None
        if epoch.terms.id != had.epoch:
            return self.begin(epoch, newcomer, had)
        base = epoch.terms.base
        rows = tuple(machine.rows[base + at] for at in range(had.rows, min(epoch.rows, had.rows + ROWS)))
        if not rows and epoch is machine.old and newcomer in machine.epoch.terms.members:
            return self.begin(machine.epoch, newcomer, had)
        return Rows(epoch.terms.id, had.rows, rows, machine.digests.get(base + had.rows)) if rows else None

    def begin(self, epoch, newcomer, had):
        """A state for one that has nothing, or is in an epoch that isn't told any more."""
        if had.epoch is not None and not holds("anew"):
            return None
        if newcomer in epoch.terms.members:
            return State(epoch.terms, 0, epoch.terms.opening, (None,) * len(epoch.terms.owners))
        return State(epoch.terms, epoch.rows, self.machine.digests[epoch.terms.base + epoch.rows], tuple(epoch.mesh.left))
