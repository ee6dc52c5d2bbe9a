"""Epochs: parts of a match with fixed machines, owners, delays and threshold.

A *mark* is what a word may carry beside its number: what is to be otherwise in the next epoch. A machine that wants something
otherwise puts one on the next word that it gives, if it has put none in this epoch that isn't void, and has read none in a settled
row. A mark goes wherever its word goes.

The first settled row that has a word with a mark ends the epoch; of several in it, that of the lowest player counts. The *end* is the
frame after that row. A mark is void, as if it weren't there, if its threshold or a delay is out of range, if it changes the delay of a
player that its giver doesn't own, or if its newcomer is to own no player or has a wrong ticket.

A machine closes the epoch once it knows all words before the end and has played up to it. At once it opens the next one:

- machines: those of which no player left before the end, in their order, and then the newcomer;
- owners as before; the newcomer's players as the mark says where nobody owns them, else the lowest that are free;
- its id is made of the old id, the end, the mark, and at how many words each player left, or the end if that comes before;
- gone is who was gone; its masks of the map are those of the old one, and all numbers begin anew;
- the first words of its own players are those that it gave past the end, and the last one again up to the delay. If there are more, it
  takes no new word until its frame has come up to them. What it has heard of others past the end is void;
- it plays at once as many frames as it had played past the end.

It goes on telling the old epoch, beside the new one, until it has heard in the new one each other machine of it that isn't gone: a
play, or a hello that says back its draw. Silence and who is gone are of machines, not of epochs. Whose players left before the end
isn't in the next epoch, and ends.
"""
import hashlib
from typing import NamedTuple, Optional

from lines import Lines
from mesh import DELAY_LIMIT, NO_END, PLAYERS, Mesh
from rules import holds

MEMBERS = 8
THRESHOLDS, DELAYS = range(16), range(DELAY_LIMIT + 1)
FORGERS = 1000      # newcomers from this number on have a wrong ticket


class Mark(NamedTuple):
    """What is to be otherwise: who comes, and for which players; delays of players; the threshold, 0 if as before."""
    newcomer: Optional[int]
    players: tuple
    delays: tuple
    threshold: int

    def numbers(self):
        """The newcomer or -1, the threshold, how many players and which, and players with their delays."""
        newcomer = -1 if self.newcomer is None else self.newcomer
        return (newcomer, self.threshold, len(self.players), *self.players, *(number for pair in self.delays for number in pair))

    @staticmethod
    def of(newcomer, threshold, count, *rest):
        """The mark of such numbers."""
        delays = rest[count:]
        return Mark(None if newcomer < 0 else newcomer, rest[:count], tuple(zip(delays[::2], delays[1::2])), threshold)


class Terms(NamedTuple):
    """How an epoch opens. `base` is how many frames of the match came before, `opening` the digest of the state before its first."""
    id: int
    base: int
    members: tuple
    owners: tuple
    delays: tuple
    threshold: int
    opening: int


def mask(places):
    return sum(1 << place for place in set(places))


def mark_bytes(mark):
    """A mark as it is sent, but for its frame: the players of the newcomer, its ticket, whose delays, they, and the threshold."""
    ticket = b"" if mark.newcomer is None else mark.newcomer.to_bytes(8, "big")
    delays = sorted(mark.delays)
    return bytes([mask(mark.players) if ticket else 0]) + ticket \
        + bytes([mask(p for p, _ in delays)] + [delay for _, delay in delays] + [mark.threshold])


def is_void(mark, giver, terms):
    """Whether a mark is as if it weren't there."""
    return holds("void") and (
        mark.threshold not in THRESHOLDS
        or any(delay not in DELAYS or terms.owners[p] != giver for p, delay in mark.delays)
        or mark.newcomer is not None and (not mark.players or mark.newcomer >= FORGERS))


def next_id(terms, end, mark, left):
    """The first 8 bytes of SHA-256 of the old id, the end, the mark, and of each of 8 players where it left, or the end."""
    text = terms.id.to_bytes(8, "big") + end.to_bytes(4, "big") + mark_bytes(mark)
    for at in left if holds("left_in_id") else ():
        text += (end if at is None else min(at, end)).to_bytes(4, "big")
    return int.from_bytes(hashlib.sha256(text).digest()[:8], "big")


def next_owners(terms, members, mark):
    """Who owns which player in the next epoch: the newcomer is among the machines if there is a player for it."""
    owners = [owner if owner in members else None for owner in terms.owners]
    if mark.newcomer is None or mark.newcomer in members or len(members) == MEMBERS:
        return owners
    for player in mark.players:
        free = [p for p in [player, *range(PLAYERS)] if owners[p] is None]
        if free:
            owners[free[0]] = mark.newcomer
    return owners


def successor(terms, end, mark, left, digest):
    """The epoch after one that ends there by this mark, whose players left so: the same for all that have the same rows."""
    lost = {terms.owners[p] for p, at in enumerate(left) if at is not None and at < end}
    members = tuple(m for m in terms.members if m not in lost)
    owners = next_owners(terms, members, mark)
    if mark.newcomer is not None and mark.newcomer in owners and mark.newcomer not in members:
        members += (mark.newcomer,)
    delays = [delay if owner == before else 2 for owner, before, delay in zip(owners, terms.owners, terms.delays)]
    for player, delay in mark.delays:
        delays[player] = delay
    return Terms(next_id(terms, end, mark, left), terms.base + end, members, tuple(owners), tuple(delays),
                 mark.threshold or terms.threshold, digest)


def mark_of_row(row, terms):
    """The mark of a settled row that counts: that of the lowest player that isn't void."""
    for player, word in enumerate(row):
        if word and word[1] and not is_void(word[1], terms.owners[player], terms):
            return word[1]
    return None


class Epoch:
    """An epoch at one machine."""

    def __init__(self, me, terms, first_number, old=None):
        self.terms = terms
        self.mesh = Mesh(me, terms.members, terms.owners)
        self.lines = Lines(me, terms.members, first_number)
        self.frame, self.rows, self.heard, self.came = 0, 0, set(), set()
        self.mark, self.end, self.marked = None, None, False
        self.known_end, self.looked_at = NO_END, [0] * PLAYERS
        if old:
            self.follow(old)
        for player in self.mesh.own():
            words = self.mesh.words[player]
            last = words[-1][0] if words else old.last_word(player) if old else 0
            words += [(last, None)] * (terms.delays[player] - len(words))

    def follow(self, old):
        """What of the epoch before goes on."""
        mesh = self.mesh
        if holds("seam_gone"):
            mesh.gone = old.mesh.gone & mask(m for m in mesh.members if m != mesh.me)
        for player in mesh.own() if holds("given_again") else ():
            if old.mesh.owners[player] == mesh.me:
                mesh.words[player] = [(value, None) for value, _ in old.mesh.words[player][old.end:]]
        if holds("map_over"):
            self.lines.follow(old.lines)

    def last_word(self, player):
        """The last word of a player before the end."""
        words = self.mesh.words[player][:self.end]
        return words[-1][0] if words and self.mesh.owners[player] is not None else 0

    def settled(self):
        """So many rows are settled: no word of them can change."""
        return self.mesh.front()

    def row(self, frame):
        """The words of all players in a settled frame: None of one who has left, or isn't there."""
        mesh = self.mesh
        return tuple(words[frame] if owner is not None and (left is None or frame < left) else None
                     for words, left, owner in zip(mesh.words, mesh.left, mesh.owners))

    def can_play(self):
        return self.frame < self.mesh.front() + self.terms.threshold

    def next_row(self):
        """The next settled row that wasn't read yet, up to the end; None if there is none."""
        if self.rows >= self.settled() or self.end is not None and self.rows >= self.end:
            return None
        row = self.row(self.rows)
        self.rows += 1
        if self.mark is None and holds("settled") and holds("first"):
            self.mark = mark_of_row(row, self.terms)
            self.end = self.rows if self.mark else None
        return row

    def read_marks_wrongly(self):
        """As it is without one of the two rules of which mark counts: any word's, or the lowest player's in any settled row."""
        found = [(frame, p, mark) for p in self.mesh.players for frame, (_, mark) in enumerate(self.mesh.words[p])
                 if mark and not is_void(mark, self.terms.owners[p], self.terms)
                 and (self.mesh.left[p] is None or frame < self.mesh.left[p])
                 and (not holds("settled") or frame < self.rows)]
        if found and self.mark is None:
            frame, _, self.mark = min(found, key=lambda it: it[:2] if not holds("settled") else (it[1], it[0]))
            self.end = frame + 1

    def look_for_marks(self):
        """Notes before which frame words are of use, by the marks that are known here."""
        for p in self.mesh.players:
            words = self.mesh.words[p]
            marked = (frame for frame in range(self.looked_at[p], len(words)) if words[frame][1]
                      and not is_void(words[frame][1], self.terms.owners[p], self.terms))
            self.known_end = min(self.known_end, next(marked, NO_END) + 1)
            self.looked_at[p] = len(words)

    def is_over(self):
        """Whether all words before its end are known, and it was played up to it."""
        return self.end is not None and self.rows >= self.end and self.frame >= self.end
