"""Worlds: what can happen to machines and lines, drawn at random."""
import random

from epochs import FORGERS, Mark, Terms
from machine import Settings
from world import KeptFates, Plan, PlannedMarks, RandomFates, RandomMarks, RandomWords

QUIET = 300
OPENED = 250        # by this turn all that opened in the first turns play with each other


def connects(down, machines):
    """Whether the lines that aren't down lead from each of these machines to each other one."""
    for first in machines:
        seen, queue = {first}, [first]
        while queue:
            a = queue.pop()
            for b in machines:
                if b not in seen and (a, b) not in down:
                    seen.add(b)
                    queue.append(b)
        if len(seen) < len(machines):
            return False
    return True


class Scene:
    """A world that is being drawn."""

    def __init__(self, seed, kind, machines=(3, 3, 4, 4, 5, 6), turns=700, silent_after=None):
        self.seed, self.kind, self.turns = seed, kind, turns
        self.draw = draw = random.Random(f"{kind} {seed}")
        self.count = draw.choice(machines)
        self.loss, self.late = draw.choice([0, .02, .1, .25]), draw.choice([1, 3, 6, 12])
        self.copies = draw.choice([0, .05])
        silent_after = silent_after or draw.choice([3000, 3100, 5000])
        self.silent_turns = silent_after * 3 // 50
        self.settings = Settings(silent_after, 150, draw.choice([0, 0, 4000]), draw.choice([0, (1 << 32) - 3]))
        self.happenings, self.down, self.claims, self.triggers = [], set(), {}, {}
        self.limit, self.apart, self.liar, self.quiet, self.breaks = None, 0, None, 0, True
        extra = [draw.randrange(self.count) for _ in range(draw.choice([0, 0, 1, 2]))]
        self.owners = (list(range(self.count)) + extra)[:8]
        self.machines = list(range(self.count))

    def at(self, turn, verb, *numbers):
        self.happenings.append((turn, verb, *numbers))

    def live(self, live, stop=()):
        """These machines live together, and these stop for them."""
        self.claims.setdefault("groups", []).append((live, stop))

    def bits(self):
        return self.draw.randrange(1, 1 << 64)

    def open_all(self, late=()):
        """All machines open the match in the first turns, but for those that come later."""
        for m in self.machines:
            if m not in late:
                self.at(self.draw.randrange(4), "open", m, self.bits())

    def lines(self, turn, down):
        """From a turn on these lines are down, and no others."""
        for line in sorted(down - self.down):
            self.at(turn, "down", *line)
        for line in sorted(self.down - down):
            self.at(turn, "up", *line)
        self.down = set(down)

    def pairs(self):
        """All lines that may break."""
        return [(a, b) for a in self.machines for b in self.machines if a != b]

    def some_down(self, *connected, opening=False):
        """Lines that are down, one-way or both ways, so that each of these sets of machines stays connected: while the match is
        opened, by lines that work both ways."""
        draw, down, pairs = self.draw, set(), self.pairs()
        draw.shuffle(pairs)
        want = draw.choice([1, 2, self.count, 2 * self.count, len(pairs)])
        for a, b in pairs:
            if len(down) >= want:
                break
            more = down | ({(a, b)} if draw.random() < .3 else {(a, b), (b, a)})
            seen = more | {(b, a) for a, b in more} if opening else more
            if all(connects(seen, machines) for machines in connected):
                down = more
        return down

    def changes(self, first, last, stops=None):
        """Lines come and go, so that those that work connect all that haven't stopped. A set of them stays for so long that
        the map gets through, and clocks there and back."""
        draw, turn, stops = self.draw, first, stops or {}
        gap, one_by_one = max(60, 12 * self.late), draw.random() < .5
        while turn < last:
            later = turn + draw.randrange(gap, gap + 140)
            now = [m for m in self.machines if stops.get(m, later) > turn - 20]
            then = [m for m in self.machines if stops.get(m, later) >= later]
            if one_by_one and self.down:
                self.lines(turn, self.one_changed(now, then, opening=turn < OPENED))
            else:
                self.lines(turn, set() if draw.random() < .2 else self.some_down(now, then, opening=turn < OPENED))
            turn = later

    def one_changed(self, *connected, opening):
        """One line works again; then one that worked breaks, and so on."""
        pairs = [(a, b) for a, b in self.pairs() if a < b]
        self.draw.shuffle(pairs)
        self.breaks = not self.breaks
        for a, b in pairs:
            both = {(a, b), (b, a)}
            down = self.down | both if self.breaks else self.down - both
            seen = down | {(b, a) for a, b in down} if opening else down
            if down != self.down and all(connects(seen, machines) for machines in connected):
                return down
        return self.some_down(*connected, opening=opening)

    def plan(self):
        """The plan of the run."""
        owners = tuple(self.owners + [None] * (8 - len(self.owners)))
        delays = tuple(self.draw.choice([0, 1, 2, 3]) if owner is not None else 0 for owner in owners)
        terms = Terms(0, 0, tuple(self.machines), owners, delays, self.draw.choice([6, 8, 8]), 0)
        fates = RandomFates(self.seed, self.loss, self.late, self.copies, self.turns)
        happenings = sorted(self.happenings, key=lambda it: it[0])
        quiet = max(QUIET, self.silent_turns * 5 // 2, self.quiet)
        return Plan(self.kind, self.settings, terms, self.turns + quiet, quiet, happenings, fates, RandomWords(self.seed),
                    RandomMarks(self.seed, self.limit, self.apart, self.liar), self.claims, self.triggers)


def lines(seed):
    """Lines come and go, some one way alone; in some runs a few never work."""
    scene = Scene(seed, "lines")
    scene.open_all()
    first = scene.draw.randrange(20, 80) if scene.draw.random() < .6 else 0
    scene.changes(first, scene.turns - 200)
    scene.live(scene.machines)
    return scene.plan()


def split(seed):
    """At one moment the lines between two groups break for good. The greater one goes on, and each of the other is cut off; in some
    runs its programs put the others out then, and it goes on too."""
    scene = Scene(seed, "split")
    draw = scene.draw
    scene.open_all()
    order = list(scene.machines)
    draw.shuffle(order)
    cut = draw.randrange(1, scene.count)
    groups = [set(order[:cut]), set(order[cut:])]
    down = {(a, b) for a, b in scene.pairs() if (a in groups[0]) != (b in groups[0])}
    for group in groups:
        for a, b in scene.pairs():
            more = down | {(a, b), (b, a)}
            if a < b and a in group and b in group and draw.random() < .3 and connects(more, sorted(group)):
                down = more
    scene.lines(draw.randrange(60, 200), down)
    greater = max(groups, key=lambda group: (len(group), 0 in group))
    smaller = set(scene.machines) - greater
    scene.live(sorted(greater), sorted(smaller))
    if draw.random() < .3:
        scene.claims["stubborn"] = sorted(smaller)
        scene.live(sorted(smaller), sorted(greater))
    else:
        scene.claims["lonely"] = sorted(smaller)
    return scene.plan()


def stops(seed):
    """Machines stop or leave, one after the other, and lines come and go."""
    scene = Scene(seed, "stops")
    draw, stopped, turn = scene.draw, {}, scene.draw.randrange(60, 200)
    scene.open_all()
    for m in draw.sample(scene.machines, draw.randrange(1, min(4, scene.count - 1))):
        stopped[m] = turn
        scene.at(turn, draw.choice(["stop", "stop", "leave"]), m)
        turn += draw.randrange(scene.silent_turns * 3 // 2, scene.silent_turns * 2)
    scene.turns = turn + 200
    scene.changes(draw.randrange(20, 80), scene.turns - 200, stopped)
    scene.live([m for m in scene.machines if m not in stopped], sorted(stopped))
    return scene.plan()


def deaf(seed):
    """From some moment on one machine hears nobody, and is heard. It alone is put out."""
    scene = Scene(seed, "deaf")
    scene.open_all()
    one = scene.draw.choice(scene.machines)
    scene.lines(scene.draw.randrange(60, 200), {(a, one) for a in scene.machines if a != one})
    scene.live([m for m in scene.machines if m != one], [one])
    scene.claims["lonely"] = [one]
    return scene.plan()


def swallows(seed):
    """One machine hands on nothing of what it should carry. Some lines never work, but there are ways round it."""
    scene = Scene(seed, "swallows", turns=900)
    one = scene.draw.choice(scene.machines)
    scene.open_all()
    scene.at(10, "swallow", one)
    scene.lines(0, scene.some_down(scene.machines, [m for m in scene.machines if m != one], opening=True))
    scene.live(scene.machines)
    return scene.plan()


def forges(seed):
    """One machine hands on nothing, and says of all others that they hear everybody. It may stop the match, and puts nobody out."""
    scene = Scene(seed, "forges", turns=900)
    one = scene.draw.choice(scene.machines)
    scene.open_all()
    scene.at(100, "swallow", one)
    scene.at(100, "forge", one)
    scene.lines(0, scene.some_down(scene.machines, [m for m in scene.machines if m != one], opening=True))
    scene.live(scene.machines)
    return scene.plan()


def floods(seed):
    """One machine hands on nothing, and gives all others more to hand on than there is room for. Some lines never work, but there are
    ways round it."""
    scene = Scene(seed, "floods", machines=(4, 5, 6), turns=500)
    for m in scene.machines:
        scene.at(min(m, 1), "open", m, scene.bits())
    scene.at(60, "swallow", 0)
    scene.at(60, "flood", 0)
    scene.lines(0, scene.some_down(scene.machines, scene.machines[1:], opening=True))
    scene.live(scene.machines)
    return scene.plan()


def copies(seed):
    """The line between two machines breaks for good. Somebody has kept what went over it last, and sends it again and again."""
    scene = Scene(seed, "copies")
    a, b = scene.draw.sample(scene.machines, 2)
    turn = scene.draw.randrange(60, 200)
    scene.open_all()
    scene.lines(turn, {(a, b), (b, a)})
    scene.live(scene.machines)
    plan = scene.plan()
    plan.fates = KeptFates(plan.fates, {(a, b), (b, a)}, turn - 1)
    return plan


def openings(seed):
    """Some machines come late, or stop and are opened again before all are there; some lines don't work from the start on; or only
    one machine's work at first, and that one hands nothing on."""
    scene = Scene(seed, "openings", machines=(2, 3, 4, 5), turns=800)
    draw = scene.draw
    late = draw.sample(scene.machines, draw.randrange(0, scene.count))
    scene.open_all(late)
    all_late = draw.random() < .3
    opened = {m: draw.randrange(20, 400) if not all_late and draw.random() < .5 else draw.randrange(600, 700) for m in late}
    for m, turn in opened.items():
        scene.at(turn, "open", m, scene.bits())
    scene.lines(0, scene.some_down(scene.machines, opening=True) if scene.count > 2 else set())
    early = [m for m in scene.machines if m not in late]
    if draw.random() < .3:
        hub = draw.choice(early)
        scene.settings = scene.settings._replace(stalled_after=0)
        scene.at(5, "swallow", hub)
        scene.lines(0, {(a, b) for a, b in scene.pairs() if hub not in (a, b)})
        scene.lines(draw.randrange(150, 350), set())
    elif late and draw.random() < .5:
        one = draw.choice(early)
        stop = draw.randrange(5, 200)
        scene.at(stop, "stop", one)
        scene.lines(stop, set())
        if draw.random() < .7:
            scene.at(stop + draw.randrange(1, 60), "open", one, scene.bits())
        else:
            scene.at(750, "out", draw.choice(late), one)
        early.remove(one)
    scene.live(early + late)
    return scene.plan()


def leaps(seed):
    """Clocks leap ahead, or programs stand still for a while without having known it."""
    scene = Scene(seed, "leaps", machines=(2, 2, 3, 4))
    scene.open_all()
    for _ in range(scene.draw.randrange(1, 5)):
        scene.at(scene.draw.randrange(100, scene.turns), "leap", scene.draw.choice(scene.machines), scene.draw.randrange(2000, 20000))
    scene.live(scene.machines)
    return scene.plan()


def stalls(seed):
    """One machine answers and gives no words any more: it alone is put out."""
    scene = Scene(seed, "stalls")
    scene.open_all()
    one = scene.draw.choice(scene.machines)
    scene.settings = scene.settings._replace(stalled_after=2000)
    scene.at(scene.draw.randrange(100, 300), "hang", one)
    scene.lines(0, scene.some_down(scene.machines, [m for m in scene.machines if m != one], opening=True))
    scene.live([m for m in scene.machines if m != one], [one])
    return scene.plan()


def anything(seed):
    """Lines come and go as they like, machines stop, leave, and put others out. Only what holds always is asked."""
    scene = Scene(seed, "anything")
    draw, turn = scene.draw, scene.draw.randrange(20, 80)
    scene.open_all()
    while turn < scene.turns - 200:
        part = draw.choice([.1, .5])
        scene.lines(turn, {line for line in scene.pairs() if draw.random() < part})
        if draw.random() < .2:
            scene.at(turn, "out", *draw.sample(scene.machines, 2))
        if draw.random() < .1:
            scene.at(turn, draw.choice(["stop", "leave"]), draw.choice(scene.machines))
        turn += draw.randrange(5, 120)
    scene.lines(turn, set())
    return scene.plan()


class MarkScene(Scene):
    """A world whose marks come one after another, each once all are in the epoch before."""

    APART = 150

    def __init__(self, seed, kind):
        super().__init__(seed, kind, machines=(2, 3, 3, 4, 5), silent_after=3000)
        self.marks, self.staying, self.spent, self.stopped = [], list(self.machines), set(), {}
        self.owned = list(self.owners)
        self.turn = OPENED

    def own(self, one):
        return [p for p, owner in enumerate(self.owned) if owner == one]

    def wait(self):
        """Until all are where they will be."""
        self.turn += self.draw.randrange(self.APART, self.APART + 60)

    def give(self):
        """A mark of a machine that stays. Who has given a void one gives none any more in this epoch."""
        draw = self.draw
        able = [m for m in self.staying if m not in self.spent]
        one = draw.choice(able)
        if len(able) > 1 and draw.random() < .2:
            self.spent.add(one)
            self.marks.append((self.turn, one, self.void_mark(one)))
        else:
            self.spent = set()
            delays = tuple((p, draw.randrange(6)) for p in self.own(one) if draw.random() < .5)
            self.marks.append((self.turn, one, Mark(None, (), delays, draw.choice([0, 0, 4, 6, 8, 12]))))
        self.wait()

    def void_mark(self, one):
        """One by which nothing can be otherwise: a threshold or delay that is too great, another's delay, or a wrong ticket."""
        others = [p for p, owner in enumerate(self.owned) if owner != one]
        another = Mark(None, (), ((self.draw.choice(others), 1),), 0)
        return self.draw.choice([Mark(None, (), (), 16), Mark(None, (), ((self.own(one)[0], 9),), 0), another, Mark(FORGERS, (7,), (), 0)])

    def stop(self):
        """A machine stops, and is gone some time later."""
        one = self.draw.choice([m for m in self.staying if m in self.machines])
        self.staying.remove(one)
        self.spent.discard(one)
        self.stopped[one] = self.turn
        self.at(self.turn, "stop", one)
        self.turn += self.silent_turns * 3 // 2
        self.wait()

    def come(self, newcomer):
        """A newcomer comes for a player of somebody who is gone. All who stay are told of it."""
        player = next(p for p, owner in enumerate(self.owned) if owner in self.stopped)
        self.owned = [None if owner in self.stopped else owner for owner in self.owned]
        self.at(self.turn, "come", newcomer, self.bits())
        for m in self.staying:
            self.at(self.turn, "told", m, newcomer, player)
        self.owned[player] = newcomer
        self.staying.append(newcomer)
        self.spent = set()
        self.wait()

    def marked(self):
        """The plan, with these marks."""
        self.turns = self.turn + 100
        self.changes(self.draw.randrange(20, 80), self.turns - 100, self.stopped)
        self.live(list(self.staying), sorted(self.stopped))
        plan = self.plan()
        plan.marks = PlannedMarks(self.marks)
        return plan


def marks(seed):
    """Marks come one after another, lines come and go, and somebody may stop. Each epoch is the one that the last mark says."""
    scene = MarkScene(seed, "marks")
    scene.open_all()
    events = scene.draw.randrange(2, 5)
    stops_after = scene.draw.randrange(events) if scene.count > 2 and scene.draw.random() < .5 else None
    for at in range(events):
        scene.give()
        if at == stops_after:
            scene.stop()
    return scene.marked()


def returns(seed):
    """As marks, but somebody else comes in the place of one who stopped, perhaps twice. So may he himself, opened anew."""
    scene = MarkScene(seed, "returns")
    scene.open_all()
    for newcomer in range(scene.count, scene.count + (1 if scene.count == 2 else scene.draw.choice([1, 2]))):
        scene.stop()
        scene.come(newcomer)
        if scene.draw.random() < .7:
            scene.give()
    return scene.marked()


class EpochScene(Scene):
    """A world of a match that goes on in epochs. All lines work."""

    def __init__(self, seed, kind, hard=False, machines=(2, 2, 3, 3, 4, 5), silent_after=1700):
        super().__init__(seed, kind, machines, turns=900, silent_after=silent_after)
        draw = self.draw
        self.hard = hard
        self.loss, self.late = draw.choice([0, .05, .2, .4]), draw.choice([1, 3, 8, 12])
        if hard:
            self.loss, self.late = draw.choice([.3, .4, .5]), draw.choice([3, 8, 12])
        self.copies = .05
        self.owners = list(range(self.count)) + ([draw.randrange(self.count)] if draw.random() < .3 else [])
        self.limit, self.apart = draw.choice([None, None, 60, 150]), draw.choice([0, 3, 20])
        self.quiet = 5 * self.silent_turns
        self.coming = list(range(self.count, self.count + draw.choice([1, 2, 3] if hard else [0, 1, 1, 2, 3])))
        self.stopping, self.kicked, self.comes = [], [], {}

    def may_stop(self):
        """Whether one more can stop without a word: of fewer than five machines the others hear most only of one."""
        return len(self.stopping) + len(self.kicked) < (2 if self.count > 4 else 1)

    def stop(self, likely):
        """Somebody stops: at some time, or as an epoch closes, or just after it gave a mark."""
        draw = self.draw
        if not self.may_stop() or draw.random() > likely:
            return
        one = draw.choice([m for m in self.machines if m not in self.stopping])
        self.stopping.append(one)
        when = draw.choice(["mark", "mark", "seam"] if self.hard else ["time", "seam", "mark"])
        if when == "time":
            self.at(draw.randrange(30, 500), "stop", one)
        elif when == "seam":
            self.triggers.setdefault(("seam", draw.choice([1, 1, 2, 3])), []).append((draw.randrange(40), "stop", one))
        else:
            self.triggers.setdefault(("mark", one), []).append((draw.choice([0, 0, 1, 2, 5, 12]), "stop", one))

    def kick(self):
        """One machine puts another out, at some time or while an epoch closes."""
        draw = self.draw
        if self.count < 3 or not self.may_stop() or draw.random() > .4:
            return
        a, b = draw.sample(self.machines, 2)
        self.kicked.append(b)
        if draw.random() < .3:
            self.at(draw.randrange(30, 500), "out", a, b)
        else:
            self.triggers.setdefault(("seam", 1), []).append((draw.randrange(25), "out", a, b))

    def come(self, newcomer):
        """A newcomer comes, perhaps for a player of somebody who stopped. One machine at least is told of it, that stays."""
        draw = self.draw
        steady = [m for m in self.machines if m not in self.stopping + self.kicked]
        told = [m for m in self.machines if draw.random() < .7]
        if not set(told) & set(steady):
            told.append(draw.choice(steady))
        turn = draw.randrange(20, 450)
        player = draw.choice(self.stopping) if self.stopping and draw.random() < .6 else draw.randrange(8)
        self.comes[newcomer] = turn
        self.at(turn, "come", newcomer, self.bits())
        for m in told:
            self.at(turn, "told", m, newcomer, player)

    def stop_guest(self, one):
        """A newcomer stops some time after it came, or after somebody proposed it."""
        self.stopping.append(one)
        if self.draw.random() < .5:
            self.at(self.comes[one] + self.draw.randrange(10, 200), "stop", one)
        else:
            self.triggers.setdefault(("guest", one), []).append((self.draw.randrange(60), "stop", one))

    def fill(self):
        """All that can happen in epochs."""
        self.open_all()
        self.stop(.6)
        self.kick()
        for newcomer in self.coming:
            self.come(newcomer)
        if self.coming and self.may_stop() and self.draw.random() < .6:
            self.stop_guest(self.draw.choice(self.coming))
        live = [m for m in self.machines + self.coming if m not in self.stopping + self.kicked]
        self.live(live)
        self.claims["kicked"] = self.kicked


def epochs(seed):
    """Epochs close and open: delays and thresholds change, newcomers come, somebody stops as an epoch closes or is put out."""
    scene = EpochScene(seed, "epochs")
    scene.fill()
    scene.liar = scene.draw.choice([None, None, scene.draw.choice(scene.machines)])
    return scene.plan()


def hard(seed):
    """As epochs, with more loss, more newcomers, and more who stop just after a mark."""
    scene = EpochScene(seed, "hard", hard=True)
    scene.fill()
    return scene.plan()


def hangs(seed):
    """Somebody gives no words any more as an epoch closes, and is heard."""
    scene = EpochScene(seed, "hangs", machines=(3, 4, 5))
    one = scene.draw.choice(scene.machines)
    scene.settings, scene.limit, scene.apart = scene.settings._replace(stalled_after=2000), 150, 20
    scene.open_all()
    scene.triggers.setdefault(("mark", 0), []).append((scene.draw.randrange(12), "hang", one))
    scene.live([m for m in scene.machines if m != one], [one])
    return scene.plan()


def parted(seed):
    """The network splits for good while epochs go on. Each machine goes on with the greater side, or ends."""
    scene = EpochScene(seed, "parted", machines=(3, 4, 5))
    draw = scene.draw
    scene.open_all()
    order = list(scene.machines)
    draw.shuffle(order)
    cut = draw.randrange(1, scene.count)
    groups = [set(order[:cut]), set(order[cut:])]
    for newcomer in scene.coming:
        scene.come(newcomer)
        draw.choice(groups).add(newcomer)
    everybody = scene.machines + scene.coming
    turn = draw.randrange(40, 400)
    for a in everybody:
        for b in everybody:
            if a != b and (a in groups[0]) != (b in groups[0]):
                scene.at(turn, "down", a, b)
    scene.claims["go on"] = True
    return scene.plan()


class Everything(EpochScene):
    """Epochs, and lines that come and go, also those of newcomers; but each has one host to which its line works."""

    def __init__(self, seed):
        super().__init__(seed, "everything", silent_after=3000)
        self.loss, self.late = self.draw.choice([0, .02, .1]), self.draw.choice([1, 3, 6])
        self.kept = set()

    def pairs(self):
        everybody = self.machines + self.coming
        return [(a, b) for a in everybody for b in everybody if a != b and (a, b) not in self.kept]

    def keep_hosts(self):
        """The line of each newcomer with a host that stays works."""
        for newcomer in self.coming:
            host = next(a for _, verb, a, *rest in self.happenings
                        if verb == "told" and rest[0] == newcomer and a not in self.stopping + self.kicked)
            self.kept |= {(newcomer, host), (host, newcomer)}

    def break_lines(self):
        """Sets of lines that are down, one after the other, so that those who stay are connected, with newcomers and without."""
        gone = set(self.stopping + self.kicked)
        steady = [m for m in self.machines if m not in gone]
        sets = [self.machines, steady, self.machines + self.coming, [m for m in self.machines + self.coming if m not in gone]]
        turn = self.draw.randrange(0, 80)
        while turn < self.turns - 200:
            self.lines(turn, set() if self.draw.random() < .2 else self.some_down(*sets, opening=turn < OPENED))
            turn += self.draw.randrange(12 * self.late + 60, 300)


def everything(seed):
    """Epochs over lines that come and go, with newcomers, one who stops, and one who is put out."""
    scene = Everything(seed)
    scene.fill()
    scene.keep_hosts()
    scene.break_lines()
    return scene.plan()


KINDS = {it.__name__: it
         for it in (lines, split, stops, deaf, swallows, forges, openings, leaps, stalls, anything, marks, returns, epochs, hangs, hard,
                    parted, everything, floods, copies)}
