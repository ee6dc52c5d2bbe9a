"""A run as a text: its settings, and what happens in it, a line each. README.md says what the lines mean."""
import hashlib

from epochs import Mark, Terms
from machine import Settings
from mesh import PLAYERS
from world import Plan

NOBODY = "-"


class ListedFates:
    """What becomes of datagrams, as it is listed: all others come in the next turn."""

    def __init__(self):
        self.listed = {}

    def of(self, a, b, k, _turn):
        return self.listed.get((a, b, k), (1,))


class ListedWords:
    """Words as they are listed: a player's stays until the next."""

    def __init__(self):
        self.listed = {}

    def next(self, turn, machine, player):
        return self.listed.get((turn, machine, player))


class ListedMarks:
    """Marks as they are listed, by turn and machine."""

    def __init__(self):
        self.listed = {}

    def next(self, turn, machine, _guest):
        return self.listed.pop((turn, machine.name), None)


def text_of(world):
    """The text of a run that was made: whoever makes it again comes to the same."""
    plan, terms = world.plan, world.plan.terms
    owners = " ".join(NOBODY if owner is None else str(owner) for owner in terms.owners)
    head = [f"machines {len(terms.members)}", f"owners {owners}", "delays " + " ".join(map(str, terms.delays)),
            f"threshold {terms.threshold}", f"turns {plan.turns}"]
    head += [f"{name} {number}" for name, number in plan.settings._asdict().items()]
    return "\n".join(head + [" ".join(map(str, line)) for line in world.log]) + "\n"


def plan_of(text):
    """The plan of a text."""
    head, lines = {}, []
    for words in map(str.split, text.splitlines()):
        if words and words[0].isdigit():
            lines.append((int(words[0]), words[1], *map(int, words[2:])))
        elif words and not words[0].startswith("#"):
            head[words[0]] = [None if word == NOBODY else int(word) for word in words[1:]]
    owners, delays = (tuple((head[name] + [absent] * PLAYERS)[:PLAYERS]) for name, absent in (("owners", None), ("delays", 0)))
    terms = Terms(0, 0, tuple(range(head["machines"][0])), owners, delays, head["threshold"][0], 0)
    settings = Settings(*(head[name][0] for name in Settings._fields))
    plan = Plan("text", settings, terms, head["turns"][0], 0, [], ListedFates(), ListedWords(), ListedMarks())
    for line in lines:
        list_one(plan, *line)
    return plan


def list_one(plan, turn, verb, *numbers):
    """One line of a text."""
    if verb in ("lost", "late"):
        plan.fates.listed[numbers[:3]] = numbers[3:]
    elif verb == "word":
        plan.words.listed[turn, numbers[0], numbers[1]] = numbers[2]
    elif verb == "mark":
        plan.marks.listed[turn, numbers[0]] = Mark.of(*numbers[1:])
    else:
        plan.happenings.append((turn, verb, *numbers))


def rows_digest(machine):
    """Of the settled rows, in order: the word of each player of 8 in 4 bytes, or four bytes 255 if there is none."""
    digest = hashlib.sha256()
    for at in sorted(machine.rows):
        for word in machine.rows[at]:
            digest.update(b"\xff" * 4 if word is None else word[0].to_bytes(4, "big"))
    return digest.hexdigest()[:16]


def outcome(world):
    """What came of a run: of each machine whom it regards as gone, how it ended, the bases and ids of its epochs, and its settled rows."""
    lines = []
    for name, machine in sorted(world.machines.items()):
        if machine.epoch:
            epochs = " ".join(f"{world.known[id].base}:{id:016x}" for id in machine.chain)
            first, end = (min(machine.rows), max(machine.rows) + 1) if machine.rows else (0, 0)
            how = "stopped" if machine.stopped else machine.why or "plays"
            lines.append(f"machine {name}: gone {machine.epoch.mesh.gone:08b}, {how}, epochs {epochs}, "
                         f"rows {first} to {end} {rows_digest(machine)}")
    return lines
