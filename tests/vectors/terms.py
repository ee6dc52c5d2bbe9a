"""How an epoch of a match opens, and the next one after it: "A match that goes on" of docs/WIRE.md. Inputs are of one word here."""
import hashlib
from typing import NamedTuple

import wire

FREE, NOBODY = 254, 255
PLAYERS = MACHINES = 8
FIRST_DELAY = 2


def hashed(*numbers):
    """The first 8 bytes of the SHA-256 of numbers of 8 bytes each."""
    return int.from_bytes(hashlib.sha256(b"".join(wire.fixed(number, 8) for number in numbers)).digest()[:8], "big")


def ticket(comers, name):
    """The ticket by which one of this name may come."""
    return hashed(comers, name) >> 32 << 32 | name


class Mark(NamedTuple):
    """For which players somebody comes and with which ticket, delays by player, and the threshold."""
    players: tuple = ()
    ticket: int = 0
    delays: tuple = ()
    threshold: int = 0

    def text(self):
        """As it stands in a play, but for its frame."""
        return wire.mark(self.players, self.ticket, dict(self.delays), self.threshold)

    @staticmethod
    def of(text):
        """The mark of such bytes."""
        at = 9 if text[0] else 1
        players = [p for p in range(PLAYERS) if text[0] >> p & 1]
        named = [p for p in range(PLAYERS) if text[at] >> p & 1]
        return Mark(tuple(players), int.from_bytes(text[1:9], "big") if players else 0,
                    tuple(zip(named, text[at + 1 :])), text[-1])


class Terms(NamedTuple):
    """Who owns which player, their delays, and the threshold."""
    id: int
    base: int
    owners: tuple
    delays: tuple
    threshold: int

    def sitting(self):
        """The machines that own a player."""
        return sorted({owner for owner in self.owners if owner < MACHINES})

    def absent(self):
        """The machine that counts as the owner of free players; None if there is none."""
        if FREE not in self.owners:
            return None
        return next((m for m in range(MACHINES) if m not in self.sitting()), None)

    def seats(self):
        """The owners, the absent machine among them."""
        absent = self.absent()
        return tuple(absent if owner == FREE and absent is not None else owner for owner in self.owners)

    def machines(self):
        """How many machines there are."""
        return max(2, 1 + max(owner for owner in self.seats() if owner < MACHINES))

    def is_void(self, player, mark, comers):
        """Whether a mark on a player's word is as if it weren't there."""
        unwelcome = mark.players and comers and mark.ticket != ticket(comers, mark.ticket % (1 << 32))
        others = any(delay > 8 or self.owners[p] != self.owners[player] for p, delay in mark.delays)
        return mark.threshold > 15 or others or bool(unwelcome)

    def staying(self, end, left):
        """The machines of which no player left before the end."""
        lost = {self.owners[p] for p in range(PLAYERS) if left[p] is not None and left[p] < end}
        return [m for m in self.sitting() if m not in lost]

    def next(self, end, mark, left):
        """The epoch after one that ends so, and whose players left at so many words, or None."""
        staying = self.staying(end, left)
        kept = [owner if owner in staying or owner == NOBODY else FREE for owner in self.owners]
        owners = seated(kept, staying, mark)
        delays = [self.delays[p] if kept[p] == owners[p] == self.owners[p] else FIRST_DELAY for p in range(PLAYERS)]
        for player, delay in mark.delays:
            delays[player] = delay
        text = wire.fixed(self.id, 8) + wire.fixed(end, 4) + mark.text()
        text += b"".join(wire.fixed(end if at is None else min(at, end), 4) for at in left)
        number = int.from_bytes(hashlib.sha256(text).digest()[:8], "big")
        return Terms(number, self.base + end, tuple(owners), tuple(delays), mark.threshold or self.threshold)


def seated(kept, staying, mark):
    """The owners once whoever comes by a mark has got its players."""
    owners, free = list(kept), [m for m in range(MACHINES) if m not in staying]
    for player in mark.players if free else ():
        choice = next((p for p in (player, *range(PLAYERS)) if owners[p] == FREE), None)
        if choice is not None:
            owners[choice] = free[0]
    return owners
