"""Matches that are drawn at random, as traces: lines that lose, delay, copy and break; machines that stop, leave, are started again, come,
play another state, or lie; and somebody who sends again what was sent once."""
import random

import wire
from machine import Machine
from matches import COMERS, Play, draw_of
from terms import FREE, Mark, ticket

KINDS = ["plain", "carrying", "lasting"]
TURNS = 150


class Liar(Machine):
    """A machine that knows its numbers, and says now and then what isn't so."""

    draw_from = None

    def packet(self, epoch, machine):
        """Its plays, of which some are altered."""
        data = super().packet(epoch, machine)
        random_ = self.draw_from
        if data[13] != wire.PLAY or random_.random() > .2:
            return data
        return self.lie(epoch, machine, random_)

    def lie(self, epoch, machine, random_):
        """A play that was made up for a machine."""
        mesh, contact = epoch.mesh, epoch.contacts[machine]
        counts = {p: max(0, len(mesh.words[p]) + random_.choice([0, 0, 0, 0, -3, 1, 9])) for p in mesh.players}
        offers, words = {}, []
        for player in mesh.players:
            if random_.random() < .3:
                first = max(0, len(mesh.words[player]) - random_.randrange(4))
                count = random_.randrange(1, 4)
                offers[player] = first, count
                words += [random_.randrange(5) for _ in range(count)]
        clocks = tuple(random_.choice([0, 1, 100, 1 << 20, (1 << 32) - 1, contact.answered]) for _ in range(5))
        gone = {m for m in epoch.others if random_.random() < .02} | {7} if random_.random() < .1 else set()
        marks = {p: (random_.randrange(60), self.some_mark(random_).text()) for p in mesh.players if random_.random() < .1}
        settled = (random_.randrange(40), 1) if random_.random() < .1 else None
        return self.seal(epoch, machine, wire.PLAY, wire.play, contact.sent + random_.choice([0, 0, 5]), counts, offers, words,
                         clocks if random_.random() < .3 else None, settled, gone, marks if self.match.lasts else None)

    @staticmethod
    def some_mark(random_):
        """A mark that may be void."""
        return Mark((), 0, ((random_.randrange(3), random_.randrange(10)),), random_.choice([0, 5, 16]))

    def send_more(self, epoch, out):
        """Some of its maps are false."""
        if self.draw_from.random() < .05:
            for machine in range(epoch.machines):
                if machine != self.me:
                    epoch.lines.change(machine, self.draw_from.randrange(256), epoch.lines.numbers[machine] + 1, epoch.turns)
        super().send_more(epoch, out)


class Drawn(Play):
    """A match of which all is drawn."""

    def __init__(self, seed):
        self.draw = random.Random(f"match {seed}")
        draw = self.draw
        kind, machines = draw.choice(KINDS), draw.choice([2, 2, 3, 3, 4, 4, 5, 6, 8])
        owners = [draw.randrange(machines) for _ in range(draw.randrange(machines, 9))]
        owners[:machines] = range(machines)
        draw.shuffle(owners)
        if kind == "lasting":
            owners[draw.randrange(len(owners))] = FREE
        delays = [draw.randrange(4) for _ in owners]
        super().__init__(kind, owners, draw.choice([400, 1000, 5000, 0]), delays, draw.choice([4, 8, 15]),
                         stalled_after=draw.choice([0, 300, 600]))
        self.sits = self.terms.sitting()
        self.loss, self.lateness, self.copies = draw.choice([0, .1, .25]), draw.choice([1, 3, 6]), draw.choice([0, .1, .3])
        self.liars = {draw.choice(self.sits): self.liar} if len(self.sits) > 2 and draw.random() < .5 else {}
        self.strays = {draw.choice(self.sits): draw.randrange(10, 60)} if draw.random() < .3 else {}
        self.replays, self.breaks, self.comers = draw.random() < .4, draw.choice([0, .01, .05]), {}

    @staticmethod
    def liar(*what):
        """One that lies."""
        made = Liar(*what)
        made.draw_from = random.Random(f"lies {what[-1]}")
        return made

    def post(self, me, to, data):
        """What becomes of a datagram is drawn."""
        place = me, to, len(self.sent.get((me, to), ()))
        if self.draw.random() < self.loss:
            self.lost.add(place)
        else:
            first = self.draw.randrange(1, self.lateness + 1)
            self.late[place] = (first,) + ((first + self.draw.randrange(40),) if self.draw.random() < self.copies else ())
        super().post(me, to, data)

    def digest_of(self, me, machine):
        """Digests are noted of most frames. One machine's state is another from some frame on."""
        if self.draw.random() < .2:
            return None
        terms, settled = machine.epoch.terms, machine.settled()
        is_astray = me in self.strays and terms.base + settled >= self.strays[me]
        return draw_of(f"state {terms.id} {settled}" + is_astray * f" of {me}")

    def happen(self):
        """What happens before a turn."""
        draw, here = self.draw, [me for me in self.machines if me not in self.over]
        if draw.random() < self.breaks:
            self.down.add((draw.randrange(8), draw.randrange(8)))
        if draw.random() < self.breaks:
            self.down = set()
        if draw.random() < .006 and len(here) > 1:
            self.leave(draw.choice(here))
        if self.replays:
            for line in draw.sample(sorted(self.sent), min(2, len(self.sent))):
                self.again(*line, draw.randrange(len(self.sent[line])), 0)
        if self.kind == "lasting":
            self.put_marks(draw, here)
            self.let_come()

    def leave(self, me):
        """A machine leaves, stops, or is started again; or it gives no words any more, or a liar doesn't go on in another epoch."""
        how = self.draw.choice(["bye", "stop", "again", "hang", "stay"])
        if how == "bye":
            self.bye(me, self.draw.choice([0, 1, 2, 3, 16, 255]))
        if how == "hang":
            self.hangs.add(me)
        elif how == "stay":
            self.behind.update({me} & set(self.liars))
        elif how != "again":
            self.stop(me)
        elif self.kind != "lasting":
            self.open(me, self.draw.randrange(1, 1 << 64), self.draw.randrange(1 << 32))

    def put_marks(self, draw, here):
        """Now and then somebody wants something otherwise."""
        me = draw.choice(here)
        machine = self.machines[me]
        own = machine.epoch.mesh.own()
        player = draw.choice(own) if own else None
        if draw.random() < .06 and machine.running and player is not None and player not in machine.epoch.marks and self.is_played(me):
            free = [p for p in machine.epoch.mesh.players if machine.epoch.terms.owners[p] == FREE]
            comes = tuple(sorted(draw.sample(free, draw.randrange(1, 1 + len(free))))) if free and draw.random() < .7 else ()
            delays = tuple((p, draw.randrange(5)) for p in own if draw.random() < .3)
            name = draw.randrange(1 << 32)
            self.mark(me, player, Mark(comes, ticket(COMERS, name) if comes else 0, delays, draw.choice([0, 0, 4, 15])))

    def let_come(self):
        """Who was let in opens the epoch in which it is, some turns later."""
        for by in self.machines.values():
            terms, sits = by.epoch.terms, by.epoch.terms.sitting()
            for me in sits:
                is_new = by.past and me not in by.epoch.stays and me != by.me and not by.epoch.is_gone(me)
                if is_new and self.comers.setdefault((terms.id, me), self.turn + self.draw.randrange(20)) == self.turn:
                    self.frames[me] = 0
                    self.open(me, self.draw.randrange(1, 1 << 64), self.draw.randrange(1 << 32), terms)
                    return

    def run_all(self):
        for me in self.sits:
            if self.draw.random() < .97:
                self.open(me, self.draw.randrange(1, 1 << 64), self.draw.randrange(1 << 32))
        for _ in range(TURNS):
            if self.machines:
                self.happen()
            self.run(1)


def written(seed):
    """A match as a text."""
    it = Drawn(seed)
    it.run_all()
    return "\n".join([f"# Drawn from {seed}", "", *it.text]) + "\n"
