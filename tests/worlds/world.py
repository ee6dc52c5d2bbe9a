"""A network, the machines on it, and what happens to them, turn by turn. A turn is 1/60 s.

In each turn each machine hears all that came, makes a turn, and sends. What is sent in a turn comes in the next one, if nothing else
happens to it; in which turn, whether at all, and whether it comes twice is the *fate* of the datagram, which is the k-th that
one machine sends to another. Datagrams that are sent while the line is down are lost.
"""
import random
from collections import Counter
from dataclasses import dataclass, field

from epochs import FORGERS, Mark, Terms
from machine import LINE, Machine, Settings
from newcomers import Newcomer

LINES = 1_000_000   # what a newcomer and a host tell each other is counted apart, from here on


def moment(turn):
    """The milliseconds at a turn."""
    return turn * 50 // 3 + 1


@dataclass
class Plan:
    """What a run is made of. `happenings` are a turn, a verb and numbers each, in order."""
    kind: str
    settings: Settings
    terms: Terms
    turns: int
    quiet: int
    happenings: list
    fates: object
    words: object
    marks: object
    claims: dict = field(default_factory=dict)
    triggers: dict = field(default_factory=dict)


class RandomFates:
    """What becomes of datagrams: some are lost, late or come twice, up to a turn from which on nothing happens to them."""

    def __init__(self, seed, loss, late, copies, quiet):
        self.seed, self.loss, self.late, self.copies, self.quiet = seed, loss, late, copies, quiet
        self.lines = {}

    def of(self, a, b, k, turn):
        """After how many turns it comes: none, one or two numbers."""
        draw = self.lines.get((a, b)) or self.lines.setdefault((a, b), random.Random(f"{self.seed} {a} {b}"))
        if turn >= self.quiet:
            return (1,)
        if draw.random() < self.loss:
            return ()
        delay = 1 + int(draw.random() * self.late)
        return (delay, delay + 1 + draw.randrange(40)) if self.copies and draw.random() < self.copies else (delay,)


class KeptFates:
    """As others, but what is sent over some lines in one turn comes again and again."""

    EVERY, TIMES = 8, 60

    def __init__(self, fates, lines, turn):
        self.fates, self.lines, self.turn = fates, lines, turn

    def of(self, a, b, k, turn):
        """After how many turns it comes."""
        again = range(self.EVERY, self.EVERY * self.TIMES, self.EVERY) if (a, b) in self.lines and turn == self.turn else ()
        return self.fates.of(a, b, k, turn) + tuple(again)


class RandomWords:
    """Three words in ten are new."""

    def __init__(self, seed, values=4):
        self.seed, self.values, self.players = seed, values, {}

    def next(self, _turn, machine, player):
        """The next word of a player, or None if it is the one before."""
        key = machine, player
        draw = self.players.get(key) or self.players.setdefault(key, random.Random(f"{self.seed} {machine} {player}"))
        return draw.randrange(self.values) if draw.random() < .3 else None


class RandomMarks:
    """Marks for newcomers that have caught up, and once an epoch is long enough. One machine may give marks that are void."""

    def __init__(self, seed, limit, apart, liar):
        self.draw, self.limit, self.apart, self.liar = random.Random(f"marks {seed}"), limit, apart, liar

    def next(self, _turn, machine, guest):
        """The mark of a machine's next word; None if it wants nothing."""
        draw, epoch = self.draw, machine.epoch
        if machine.name == self.liar and draw.random() < .02:
            return draw.choice([Mark(None, (), ((draw.choice(epoch.mesh.players), 9),), 0), Mark(None, (), (), 16),
                                Mark(FORGERS, (0,), (), 0), Mark(99, (), (), 0)])
        long = self.limit and epoch.frame > self.limit + machine.name * self.apart
        if not guest and not long:
            return None
        newcomer, player = guest or (None, None)
        delays = tuple((p, draw.choice([0, 1, 2, 3])) for p in epoch.mesh.own() if draw.random() < .3)
        return Mark(newcomer, () if newcomer is None else (player,), delays, draw.choice([0, 6, 8]))


class PlannedMarks:
    """Marks that machines put on their next words, each from a turn on: a turn, a machine and a mark. Else for newcomers that have caught
    up."""

    def __init__(self, planned):
        self.planned = planned

    def next(self, turn, machine, guest):
        """The mark of a machine's next word; None if it wants nothing."""
        due = next((one for one in self.planned if one[0] <= turn and one[1] == machine.name), None)
        if due:
            self.planned.remove(due)
            return due[2]
        return Mark(guest[0], (guest[1],), (), 0) if guest else None


class World:
    """A run."""

    def __init__(self, plan):
        self.plan, self.turn = plan, 0
        self.machines, self.ended = {}, []
        self.down, self.flight, self.sent = set(), {}, Counter()
        self.log, self.held, self.leaps = [], {}, Counter()
        self.frames, self.longest, self.silence = {}, 0, 0
        self.bytes, self.counted = Counter(), range(0)
        self.known, self.faults, self.hosts, self.before = {}, set(), {}, {}
        self.schedule = {}
        for turn, *happening in plan.happenings:
            self.schedule.setdefault(turn, []).append(happening)

    # ---- the program of each machine

    def word(self, machine, player):
        """The word that a program gives."""
        key = machine.name, player
        word = self.plan.words.next(self.turn, *key)
        if word is not None and word != self.held.get(key, 0):
            self.held[key] = word
            self.log.append((self.turn, "word", *key, word))
        return self.held.get(key, 0)

    def mark(self, machine, guest):
        """The mark that a program puts on its next word; None if it wants nothing otherwise."""
        mark = self.plan.marks.next(self.turn, machine, guest)
        if mark:
            self.log.append((self.turn, "mark", machine.name, *mark.numbers()))
            self.trigger("mark", machine.name)
            self.trigger("guest", mark.newcomer)
        return mark

    def be_stubborn(self, machine):
        """A program whose machine has been cut off for half a second puts out whom it doesn't hear, and goes on without them."""
        now = self.now(machine.name)
        if machine.cut_off_at is not None and now - machine.cut_off_at > 500:
            for other in machine.epoch.mesh.staying():
                if machine.contacts[other].silence(now) > self.plan.settings.silent_after // 2:
                    self.schedule.setdefault(self.turn + 1, []).append(("out", machine.name, other))

    def note(self, machine):
        """A machine has opened an epoch: all that open one of one id open it alike."""
        terms = machine.epoch.terms
        if self.known.setdefault(terms.id, terms) != terms:
            self.faults.add("LAW: of one id, and not opened alike")

    # ---- what comes of something that happened

    def trigger(self, kind, key):
        """Something is to happen so many turns after this."""
        for later, *happening in self.plan.triggers.pop((kind, key), ()):
            if self.turn + later < self.plan.turns - 2 * self.plan.quiet // 3:
                self.schedule.setdefault(self.turn + max(1, later), []).append(happening)

    # ---- the network

    def send(self, a, b, datagram):
        apart = datagram.kind == LINE
        k = self.sent[a, b, apart] + LINES * apart
        self.sent[a, b, apart] += 1
        if self.turn in self.counted:
            self.bytes[a] += datagram.size + 28
        if (a, b) in self.down:
            return
        fate = self.plan.fates.of(a, b, k, self.turn)
        if fate != (1,):
            self.log.append((self.turn, "late" if fate else "lost", a, b, k, *fate))
        for delay in fate:
            self.flight.setdefault(self.turn + delay, []).append((b, datagram))

    def now(self, name):
        return moment(self.turn) + self.leaps[name]

    # ---- happenings

    def happen(self, verb, *numbers):
        self.log.append((self.turn, verb, *numbers))
        getattr(self, "do_" + verb)(*numbers)

    def do_open(self, name, draw):
        """A machine opens the match, or opens it again."""
        if name in self.machines:
            self.ended.append(self.machines[name])
        machine = Machine(name, self.plan.settings, draw, self)
        self.machines[name] = machine
        machine.open(self.plan.terms, self.now(name))

    def do_come(self, name, draw):
        """A newcomer begins to listen to its lines."""
        machine = Machine(name, self.plan.settings, draw, self)
        machine.newcomer, machine.hosts = Newcomer(machine), self.hosts.setdefault(name, [])
        self.machines[name] = machine

    def do_told(self, name, newcomer, player):
        """A machine is told of a newcomer, and has a line with it."""
        self.machines[name].host.told_of(newcomer, player)
        self.hosts.setdefault(newcomer, []).append(name)

    def do_stop(self, name):
        """A machine's program stops, without a word."""
        if name in self.machines:
            self.machines[name].over = self.machines[name].stopped = True

    def do_leave(self, name):
        """A machine's program leaves, and says bye."""
        self.machines[name].stopped = True
        self.machines[name].leave("left")

    def do_out(self, name, other):
        """A machine's program puts another out."""
        if self.machines[name].epoch:
            self.machines[name].put_out(other)

    def do_down(self, a, b):
        """The line from a to b is down."""
        self.down.add((a, b))

    def do_up(self, a, b):
        self.down.discard((a, b))

    def do_swallow(self, name):
        """A machine hands on nothing."""
        self.machines[name].swallows = True

    def do_forge(self, name):
        """A machine says of all others that they hear everybody."""
        self.machines[name].forges = True

    def do_flood(self, name):
        """A machine gives all others more to hand on than there is room for."""
        self.machines[name].floods = True

    def do_hang(self, name):
        """A machine gives no words any more."""
        self.machines[name].hangs = True

    def do_leap(self, name, milliseconds):
        """A machine's clock leaps ahead."""
        self.leaps[name] += milliseconds

    # ---- turns

    def step(self, happenings):
        """One turn of all machines."""
        for verb, *numbers in happenings:
            self.happen(verb, *numbers)
        for to, datagram in self.flight.pop(self.turn, []):
            if to in self.machines:
                self.machines[to].receive(datagram, self.now(to))
        for name, machine in self.machines.items():
            if not machine.over:
                machine.turn(self.now(name))
                self.note_frame(machine)
                if name in self.plan.claims.get("stubborn", ()):
                    self.be_stubborn(machine)
        self.look_for_seams()
        for name, machine in self.machines.items():
            for to, datagram in machine.send(self.now(name)):
                self.send(name, to, datagram)

    def look_for_seams(self):
        """What is to happen once so many epochs are closing."""
        if self.plan.triggers:
            seams = max((len(m.chain) - 1 + (m.epoch is not None and m.epoch.end is not None) for m in self.machines.values()), default=0)
            for at in range(1, seams + 1):
                self.trigger("seam", at)

    def note_frame(self, machine):
        """For how long frames stand."""
        frame = machine.epoch.terms.base + machine.epoch.frame if machine.epoch else 0
        last, since = self.frames.get(machine.name, (-1, self.turn))
        if frame > last or not machine.running:
            self.frames[machine.name] = frame, self.turn
        else:
            self.longest = max(self.longest, self.turn - since)

    def note_silence(self):
        """For how long one who lives didn't answer another."""
        live = self.plan.claims.get("groups", [((), ())])[0][0]
        for a in live:
            machine = self.machines.get(a)
            if machine and machine.running and machine.epoch:
                self.silence = max([self.silence] + [machine.contacts[b].silence(self.now(a)) for b in machine.epoch.mesh.staying()
                                                     if b in live and machine.contacts[b].confirmed])

    def run(self):
        """All turns."""
        for self.turn in range(self.plan.turns):
            if self.turn == self.plan.turns - 100:
                self.before = {name: frame for name, (frame, _) in self.frames.items()}
            self.step(self.schedule.pop(self.turn, ()))
            if self.turn % 8 == 0:
                self.note_silence()
        return self
