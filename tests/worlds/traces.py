"""What each machine of a match did that goes on in epochs, and what machines owe each other by that.

A *trace* is what a machine of the library did, as play.c wrote it, or one of the model. It has the epochs that the machine opened, its
settled rows, the words that its players gave and for which frame, and the marks on them. By its own rows and marks the model's rules say
where each epoch has to end and how the next one has to open. Frames are counted over the whole match.

What holds of all traces of a match, whenever they end:

- an epoch ends by the first settled row that has a mark which isn't void, of several by that of the lowest player, and the next one
  opens as the model's rules say: machines, owners, delays, threshold and base;
- two epochs have one number if their pasts are one by the model's rules, and else two;
- machines that opened an epoch of one number have the same rows before it, and two that are together have the same rows, and are no
  more than an epoch apart;
- the words that a machine gave stand in its rows, for the frames that they were given for.

What holds of those of the library besides, since play.c says more of them:

- an epoch ends in the first turn in which it can;
- a word in a row is the one that its player's machine gave for that frame: it gives the next one for the frame after, and at a seam its
  last word is given again up to the new delay;
- the frame that is shown stays at a seam, unless the new threshold is less;
- words that were given are withdrawn at a seam only if there are more than a smaller threshold or a shorter delay lets count.
"""
from itertools import combinations

from epochs import Mark, Terms, mark_of_row, mask, successor
from mesh import PLAYERS

NOBODY = 255
TWO_EPOCHS = 2      # two machines that are together have one of so many last epochs in common
NO_ROW = (None,) * PLAYERS


class Trace:
    """What a machine did."""

    def __init__(self, name, marks):
        self.name, self.marks = name, marks
        self.epochs, self.rows, self.gave, self.faults = [], {}, {}, set()
        self.front, self.known, self.looked = None, {}, None
        self.ending, self.there, self.shown, self.shown_before = None, 0, 0, 0

    @property
    def plays(self):
        return self.ending == "plays"

    def fail(self, fault):
        self.faults.add(f"{fault} (machine {self.name})")

    def own(self):
        """Its players in its last epoch."""
        return [player for player, owner in enumerate(self.epochs[-1].owners) if owner == self.name]

    # ---- what play.c writes

    def read(self, line):
        verb, *words = line.split(maxsplit=3) if line.startswith("ends") else line.split()
        getattr(self, "read_" + verb)(*words)

    def read_epoch(self, *words):
        """It opened an epoch."""
        number, base, threshold, again, shown, rows, frame, *places = map(int, words)
        owners = tuple(None if owner == NOBODY else owner for owner in places[:PLAYERS])
        members = tuple(sorted({owner for owner in owners if owner is not None}))
        terms = Terms(number, base, members, owners, tuple(places[PLAYERS:]), threshold, 0)
        if self.epochs:
            self.go_over(self.epochs[-1], terms, again, shown, (rows, frame))
        else:
            self.front = base
            self.known = {player: base for player, owner in enumerate(owners) if owner == self.name}
        self.epochs.append(terms)
        for player in self.own():
            self.have(player, base + again + terms.delays[player])

    def go_over(self, old, terms, again, shown, looked):
        """An epoch has ended for it."""
        end = terms.base - old.base
        if looked[0] >= end and looked[1] >= end:
            self.fail("an epoch was over, and went on")
        if self.front < terms.base:
            self.fail("an epoch ended, and rows of it are missing")
        if terms.base + again != shown and not (terms.threshold < old.threshold and again == terms.threshold):
            self.fail("the frame that is shown didn't stay")
        self.rows = {at: row for at, row in self.rows.items() if at < terms.base}
        self.front = terms.base
        for player in self.known:
            less = terms.delays[player] < old.delays[player] or terms.threshold < old.threshold
            self.withdraw(player, terms.base + again + terms.delays[player], less)

    def withdraw(self, player, until, may):
        """The words of a player from a frame on don't count."""
        if self.known[player] > until and not may:
            self.fail("a given word was withdrawn")
        for at in range(until, self.known[player]):
            del self.gave[player, at]
        self.known[player] = min(self.known[player], until)

    def have(self, player, until):
        """There are words of an own player up to a frame: the last one again, if it gave fewer."""
        last = self.gave.get((player, self.known[player] - 1), 0)
        for at in range(self.known[player], until):
            self.gave[player, at] = last
        self.known[player] = max(self.known[player], until)

    def read_gave(self, *words):
        """A word, for a frame."""
        player, at, word = map(int, words)
        if at != self.known[player]:
            self.fail("a word was given for another frame than the next")
        self.gave[player, at] = word
        self.known[player] = at + 1

    def read_mark(self, *words):
        """A mark is on the next word of a player, for a frame."""
        player, at, *numbers = map(int, words)
        self.marks[self.epochs[-1].id, at - self.epochs[-1].base, player] = Mark.of(*numbers)

    def read_row(self, at, *words):
        """A settled row."""
        if int(at) != self.front:
            self.fail("a row isn't the next one")
        self.rows[int(at)] = tuple(None if word == "-" else int(word) for word in words)
        self.front = int(at) + 1

    def read_shown(self, frame):
        """The frame that it showed some time before the end."""
        self.shown_before = int(frame)

    def read_looked(self, rows, frame):
        """How many rows of its last epoch there were, and which frame it was, when it asked last whether that is over."""
        self.looked = int(rows), int(frame)

    def read_ends(self, shown, there, ending):
        """How it ended, and who is there for it."""
        self.shown, self.there, self.ending = int(shown), int(there, 2), ending

    # ---- rows and marks

    def marked_row(self, terms, at):
        """A row of an epoch with its marks."""
        return tuple(None if word is None else (word, self.marks.get((terms.id, at - terms.base, player)))
                     for player, word in enumerate(self.rows.get(at, NO_ROW)))

    def next_terms(self, terms, number):
        """How the epoch after this one has to open by its rows, if that is known; its number in the model is given."""
        left = [None] * PLAYERS
        for at in range(terms.base, self.front):
            row = self.marked_row(terms, at)
            left = [at - terms.base if been is None and row[player] is None and terms.owners[player] is not None else been
                    for player, been in enumerate(left)]
            mark = mark_of_row(row, terms)
            if mark:
                return successor(terms._replace(id=number), at + 1 - terms.base, mark, left, 0)
        return None


def traces_of_text(text):
    """The traces that play.c wrote, by the machines' names."""
    traces, marks = {}, {}
    for line in text.splitlines():
        if line.startswith("machine "):
            trace = traces[int(line.split()[1])] = Trace(int(line.split()[1]), marks)
        else:
            trace.read(line)
    return traces


def traces_of_world(world):
    """The traces of the model's machines."""
    marks = {}
    return {name: trace_of(world, machine, marks) for name, machine in world.machines.items() if machine.epoch}


def trace_of(world, machine, marks):
    trace = Trace(machine.name, marks)
    trace.epochs = [world.known[number]._replace(opening=0) for number in machine.chain]
    first = trace.epochs[0].base
    trace.front = max(machine.rows, default=first - 1) + 1
    for terms, after in zip(trace.epochs, [*(it.base for it in trace.epochs[1:]), trace.front]):
        for at in range(terms.base, after):
            read_model_row(trace, terms, at, machine.rows[at])
    trace.gave = {(player, at): word for at, player, word in machine.promised}
    mesh = machine.epoch.mesh
    trace.there = mask(m for m in mesh.members if not mesh.is_gone(m))
    trace.ending = "stopped" if machine.stopped else machine.why or "plays"
    trace.shown, trace.shown_before = world.frames[machine.name][0], world.before.get(machine.name, 0)
    return trace


def read_model_row(trace, terms, at, row):
    trace.rows[at] = tuple(word and word[0] for word in row)
    for player, word in enumerate(row):
        if word and word[1]:
            trace.marks[terms.id, at - terms.base, player] = word[1]


# ---- what they owe

def broken(traces):
    """What machines did that can't be, in words."""
    faults = successions(traces)
    for trace in traces.values():
        faults |= trace.faults | own_words(trace)
    for a, b in combinations(traces.values(), 2):
        faults |= of_two(a, b)
    return faults


def successions(traces):
    """Whether each epoch ended, and the next one opened, as the model's rules say."""
    numbers, faults = {0: 0}, set()
    for trace in sorted(traces.values(), key=lambda it: it.epochs[0].base):
        for old, new in zip(trace.epochs, trace.epochs[1:]):
            faults |= succession(trace, old, new, numbers)
        faults |= last_epoch(trace, numbers)
    if len(set(numbers.values())) < len(numbers):
        faults.add("of one past, and of other numbers")
    return faults


def succession(trace, old, new, numbers):
    """Whether an epoch ended, and the next one opened so."""
    if old.id not in numbers:
        return {f"an epoch that nobody came to by its rows (machine {trace.name})"}
    wanted = trace.next_terms(old, numbers[old.id])
    if wanted is None or wanted.base != new.base:
        return {f"an epoch didn't end by its first mark (machine {trace.name})"}
    if opening(wanted) != opening(new):
        return {f"an epoch opened as {opening(new)}, not {opening(wanted)} (machine {trace.name})"}
    if numbers.setdefault(new.id, wanted.id) != wanted.id:
        return {f"of one number, and of other pasts (machine {trace.name})"}
    return set()


def opening(terms):
    """What of an epoch's opening is the same in the library and in the model."""
    return terms.base, set(terms.members), terms.owners, terms.delays, terms.threshold


def last_epoch(trace, numbers):
    """Whether the epoch that it is in isn't over."""
    last = trace.epochs[-1]
    if trace.looked is None or last.id not in numbers:
        return set()
    wanted = trace.next_terms(last, numbers[last.id])
    end = wanted.base - last.base if wanted else None
    return {f"an epoch is over, and goes on (machine {trace.name})"} if wanted and min(trace.looked) >= end else set()


def own_words(trace):
    """Whether the words that it gave stand in its rows."""
    given = ((trace.rows.get(at), player, word) for (player, at), word in trace.gave.items())
    return {f"a given word is lost (machine {trace.name})"} if any(row and row[player] != word for row, player, word in given) else set()


def of_two(a, b):
    """What has to hold of two machines."""
    faults, common = set(), a.rows.keys() & b.rows.keys()
    other = [at for at in common if a.rows[at] != b.rows[at]]
    shared = {terms.id: terms for terms in a.epochs}
    for terms in b.epochs:
        if terms.id in shared and opening(terms) != opening(shared[terms.id]):
            faults.add(f"of one number, and not opened alike (machines {a.name} and {b.name})")
        if terms.id in shared and other and min(other) < terms.base:
            faults.add(f"of one number, and of other pasts (machines {a.name} and {b.name})")
    if are_together(a, b):
        if other:
            faults.add(f"together, and of other rows (machines {a.name} and {b.name})")
        if not {it.id for it in a.epochs[-TWO_EPOCHS:]} & {it.id for it in b.epochs[-TWO_EPOCHS:]}:
            faults.add(f"together, and in other epochs (machines {a.name} and {b.name})")
    return faults


def are_together(a, b):
    return a.plays and b.plays and a.there >> b.name & 1 and b.there >> a.name & 1


def made_up(traces):
    """Whether each word in a row is the one that its player's machine gave for the frame; and who has left gives none any more."""
    faults = set()
    for trace in traces.values():
        for terms, after in zip(trace.epochs, [*(it.base for it in trace.epochs[1:]), trace.front]):
            for player, owner in enumerate(terms.owners):
                words = [trace.rows.get(at, NO_ROW)[player] for at in range(terms.base, after)]
                count = words.index(None) if None in words else len(words)
                if any(word is not None for word in words[count:]) or owner is None and count:
                    faults.add(f"a word of one who isn't there (player {player}, machine {trace.name})")
                gave = traces[owner].gave if owner in traces else {}
                if any(gave.get((player, terms.base + at)) != words[at] for at in range(count)):
                    faults.add(f"a word that wasn't given (player {player}, machine {trace.name})")
    return faults


def of_those_who_live(traces, live, owed):
    """What has to hold of machines that live together: of those that are owed it."""
    faults = {f"a machine isn't there: {name}" for name in owed if name not in traces}
    living = [traces[name] for name in live if name in traces and name in owed]
    for trace in living:
        if not trace.plays or any(not trace.there >> other.name & 1 for other in living):
            faults.add(f"one who lives was put out (machine {trace.name})")
        if trace.shown < trace.shown_before + 50:
            faults.add(f"the match stands (machine {trace.name})")
    return faults
