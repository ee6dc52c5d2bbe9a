#!/usr/bin/env python3
"""Six epochs of two matches, one after the other, by the rules of epochs.py: tests/worlds/successions.py [SOURCE]

Prints the number, the owners, the delays, the threshold, the words of an input and the frames before of each, a pair's number in it, and
its seats: the owners where the machine that is absent has what is free, and how many machines there are then. A source (of Rust) is
searched for these: all numbers of each have to stand there, in this order. The last line is then `N passed, M failed`.

The number, the frames before and the threshold are those of epochs.py. Who owns what and the delays are made here: a newcomer has the
lowest number of a machine that nobody has who stays, and gets whole inputs; and a player that is free isn't one that isn't there.
"""
import hashlib
import re
import sys
from pathlib import Path

from epochs import MEMBERS, Mark, Terms, successor
from mesh import PLAYERS

PAIR = 0x1122334455667788
FREE, NOBODY = 254, 255
FIRST_DELAY = 2
# How many words an input has, the first epoch, and of each end: where it is, its mark, and at how many words players left.
MATCHES = [
    (1, Terms(0, 0, (0, 1, 2), (0, 1, 2, 1, FREE, NOBODY, FREE, NOBODY), (2, 3, 0, 1, 0, 0, 0, 0), 8, 0), [
        (120, Mark(500, (0, 2), ((1, 4),), 0), {2: 90}),
        (65_536, Mark(None, (), ((0, 0), (3, 8)), 15), {1: 65_536}),
        (7, Mark(600, (0, 1, 6), (), 3), {0: 3, 4: 5}),
    ]),
    (2, Terms(0, 0, (0, 1), (0, 0, FREE, FREE, 1, 1, NOBODY, NOBODY), (2, 2, 0, 0, 3, 3, 0, 0), 8, 0), [
        (40, Mark(700, (3, 4, 6), (), 0), {2: 0, 3: 0}),
        (100, Mark(701, (0,), (), 5), {2: 99, 3: 99, 4: 60, 5: 60}),
        (9, Mark(None, (), ((0, 1), (1, 1)), 0), {4: 0, 5: 0}),
    ]),
]


def machines_of(owners):
    """The machines that own a player."""
    return tuple(sorted({owner for owner in owners if owner < MEMBERS}))


def kept_owners(owners, end, left):
    """Who owns each player still: whose players left before the end owns none."""
    gone = {owners[p] for p, at in left.items() if at < end} - {NOBODY}
    return [FREE if owner in gone else owner for owner in owners]


def absent(owners):
    """The lowest number of a machine that nobody has; None if there is none."""
    return min(set(range(MEMBERS)) - set(owners), default=None)


def come(owners, mark, words):
    """Who owns each player once a mark's newcomer has come: of each input, the first player says who owns it."""
    owners, seat = list(owners), absent(owners)
    firsts = range(0, PLAYERS, words)
    asked = [p for p in sorted(mark.players) if p in firsts] if mark.newcomer is not None and seat is not None else []
    for first in asked:
        free = [place for place in [first, *firsts] if owners[place] == FREE]
        if free:
            owners[free[0]:free[0] + words] = [seat] * len(owners[free[0]:free[0] + words])
    return owners


def next_terms(terms, words, end, mark, left):
    """The epoch after one."""
    kept = kept_owners(terms.owners, end, left)
    owners = come(kept, mark, words)
    delays = [delay if was == is_kept == now else FIRST_DELAY
              for was, is_kept, now, delay in zip(terms.owners, kept, owners, terms.delays)]
    for player, delay in mark.delays:
        delays[player] = delay
    places = tuple(left.get(p) for p in range(PLAYERS))
    return successor(terms, end, mark, places, 0)._replace(members=machines_of(owners), owners=tuple(owners), delays=tuple(delays))


def key(number, terms):
    """By what number a pair seals in an epoch."""
    text = number.to_bytes(8, "big") + terms.id.to_bytes(8, "big")
    return int.from_bytes(hashlib.sha256(text).digest()[:8], "big") if terms.id else number


def chain():
    """The epochs after the first ones, each with the words of its inputs."""
    found = []
    for words, terms, ends in MATCHES:
        for end, mark, left in ends:
            terms = next_terms(terms, words, end, mark, left)
            found.append((terms, words))
    return found


def numbers(terms, words):
    """All that a source has to say of an epoch."""
    seats = [absent(terms.owners) if owner == FREE else owner for owner in terms.owners]
    machines = max(2, *(m + 1 for m in machines_of(seats)))
    return [terms.id, terms.base, *terms.owners, *terms.delays, terms.threshold, words, key(PAIR, terms), *seats, machines]


def main():
    said = [numbers(*it) for it in chain()]
    if len(sys.argv) < 2:
        for id_, base, *rest in said:
            print(f"{id_:#018x} {base} {rest[:8]} {rest[8:16]} {rest[16]} {rest[17]} {rest[18]:#018x} {rest[19:27]} {rest[27]}")
        return 0
    text = re.sub(r"_|\bu8\b", "", Path(sys.argv[1]).read_text())
    found = [int(it, 0) for it in re.findall(r"\b0x[0-9a-fA-F]+\b|\b[0-9]+\b", text)]
    passed = [any(found[at : at + len(it)] == it for at in range(len(found))) for it in said]
    print(f"{sum(passed)} passed, {len(passed) - sum(passed)} failed")
    return not all(passed)


if __name__ == "__main__":
    sys.exit(main())
