"""Who has which words, who is gone, and when players leave: what one machine of an epoch knows of the others.

A machine tells each other one, in each play, whom it regards as gone, how many words it has of each player, and words: those of
its own players, and of the players of gone machines, that the other hasn't said that it has.

What it believes of a play of a machine that it doesn't regard as gone:

- Whom the sender regards as gone, it regards as gone too, for good; unless it is itself among them.
- Words of a player that hasn't left, if the sender owns the player or both regard the owner as gone, and if they begin no later
  than with the next one that it needs. What it has stays as it is.
- What the sender tells of itself, unless it is older than what it told last.

The players of gone machines leave, each after as many words as there are here, once each other machine that isn't gone has told
last, in one play, the same gone machines, and the same counts of these players.

Machines are numbers, and a set of them is a mask with the bit `1 << machine`. Players are the places 0 to 7 of `owners`.
"""
from typing import NamedTuple

from rules import holds

PLAYERS = 8
WORDS_IN_A_PLAY = 140
NO_END = (1 << 32) - 1
DELAY_LIMIT = 8
GIVES, TAKES = "gives", "takes"


class View(NamedTuple):
    """What a machine tells of itself."""
    gone: int
    has: tuple


class Packet(NamedTuple):
    """What a play says: its sender, what that tells of itself, and words: a player, the first one's frame, and they."""
    sender: int
    view: View
    offers: tuple


class Mesh:
    """What one machine knows of all."""

    def __init__(self, me, members, owners):
        self.me, self.members, self.owners = me, members, owners
        self.players = [p for p, owner in enumerate(owners) if owner is not None]
        self.words = [[] for _ in owners]
        self.left = [None] * len(owners)
        self.gone, self.told = 0, {}
        self.faults = set()

    def is_gone(self, machine):
        return self.gone >> machine & 1 == 1

    def is_orphan(self, player, gone):
        """Whether the player's owner is among these."""
        return gone >> self.owners[player] & 1 == 1

    def counts(self):
        return tuple(map(len, self.words))

    def own(self):
        return [p for p in self.players if self.owners[p] == self.me]

    def staying(self):
        """The other machines that aren't gone."""
        return [m for m in self.members if m != self.me and not self.is_gone(m)]

    def front(self):
        """Before this frame all words are known, of those who haven't left."""
        return min((len(self.words[p]) for p in self.players if self.left[p] is None), default=0)

    # ---- telling

    def tell(self, to):
        """The packet for a machine."""
        acknowledged = self.told[to].has if to in self.told else (0,) * len(self.owners)
        offers, room = [], WORDS_IN_A_PLAY
        for p in self.players:
            words = self.words[p]
            if acknowledged[p] < len(words) and room and (self.owners[p] == self.me or self.is_orphan(p, self.gone)):
                some = tuple(words[acknowledged[p]:acknowledged[p] + room])
                room -= len(some)
                offers.append((p, acknowledged[p], some))
        return Packet(self.me, View(self.gone, self.counts()), tuple(offers))

    # ---- hearing

    def hear(self, packet):
        """Whether a packet was taken."""
        if packet.sender == self.me or self.is_gone(packet.sender) and holds("fence"):
            return False
        if self.overstates(packet):
            self.faults.add("LAW: an honest play was refused")
            return False
        if not packet.view.gone >> self.me & 1:
            self.gone |= packet.view.gone
        for player, first, words in packet.offers:
            if self.is_believed(packet, player) and self.left[player] is None and first <= len(self.words[player]):
                self.take(player, first, words)
        self.note(packet.sender, packet.view)
        return True

    def overstates(self, packet):
        """Whether the sender offers what it doesn't have, or has more of this machine's players than there is."""
        has = packet.view.has
        return any(first + len(words) > has[p] for p, first, words in packet.offers) \
            or any(has[p] > len(self.words[p]) for p in self.players if self.owners[p] == self.me)

    def is_believed(self, packet, player):
        return self.owners[player] == packet.sender \
            or self.is_orphan(player, self.gone) and self.is_orphan(player, packet.view.gone)

    def take(self, player, first, words):
        """Takes the words that it lacks. What is there already has to be the same: nobody gives a word twice."""
        known = self.words[player]
        if any(known[first + at] != word for at, word in enumerate(words[:len(known) - first])):
            self.faults.add("LAW: of one frame, two words")
        known.extend(words[len(known) - first:])

    def note(self, machine, view):
        """Remembers what a machine tells, unless it is older than what it told last."""
        old = self.told.get(machine)
        if old is None or old.gone & ~view.gone == 0 and all(a <= b for a, b in zip(old.has, view.has)):
            self.told[machine] = view

    # ---- leaving

    def agrees(self, machine):
        """Whether a machine has told last what has to be alike before players leave."""
        view = self.told.get(machine)
        if view is None or view.gone != self.gone and holds("sets"):
            return False
        return not holds("counts") or all(view.has[p] == len(self.words[p]) for p in self.players if self.is_orphan(p, self.gone))

    def let_leave(self):
        """The players of gone machines leave, if they may."""
        orphans = [p for p in self.players if self.left[p] is None and self.is_orphan(p, self.gone)]
        if orphans and all(map(self.agrees, self.staying())):
            for p in orphans:
                self.left[p] = len(self.words[p])

    # ---- who holds up the match

    def most_of(self, machine, has):
        """The most words that there are of a machine's players, by these counts."""
        return max((has[p] for p in self.players if self.owners[p] == machine), default=0)

    def waits_for(self, machine, threshold, end):
        """What of words this one waits for: that a machine gives its next one, if it could, or else that it takes one of this machine's;
        and which. Words from the end on are of no use. None if it waits for neither."""
        view = self.told.get(machine)
        if view is None or self.is_gone(machine):
            return None
        mine, taken = self.most_of(self.me, self.counts()), self.most_of(self.me, view.has)
        given = min((len(self.words[p]) for p in self.players if self.owners[p] == machine and self.left[p] is None), default=end)
        if given < end and given + threshold <= mine and self.could_give(machine, view, threshold):
            return GIVES, given
        return (TAKES, taken) if taken < min(mine, end) else None

    def given_by(self, machine, view):
        """How many words a machine has given that told this: no more than came here."""
        return min(self.most_of(machine, self.counts()), self.most_of(machine, view.has))

    def could_give(self, machine, view, threshold):
        """Whether no player keeps a machine that told this from giving its next word, but such as have left here."""
        given = self.given_by(machine, view)
        return all(given < view.has[p] + threshold or self.left[p] is not None for p in self.players)

    def may_be_kept(self, machine, wait, threshold):
        """Whether what isn't seen here may keep one from what is waited for: from taking words a mark; from going on a third machine, which
        is silent and not gone yet, by words that came there and not here, of which one may have a mark; or by not having told there what
        has to be told before a player leaves, who has left here."""
        view, (what, _) = self.told[machine], wait
        given = self.given_by(machine, view)
        return what == TAKES or any(
            view.has[p] > len(self.words[p]) and self.owners[p] not in (self.me, machine)
            or self.left[p] is not None and given <= view.has[p] + threshold + DELAY_LIMIT for p in self.players)
