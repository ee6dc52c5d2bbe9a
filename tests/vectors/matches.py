"""Matches by the rules alone, written down as traces: who opens, what each hears and when, and each datagram that it sends then."""
import hashlib
from collections import Counter

import wire
from machine import Machine, Match
from terms import FREE, NOBODY, Mark, Terms, ticket

NUMBERS = 0x6E756D6265720000  # the number of machines A and B is this and 16 * A + B, A being the lower
COMERS = 0x636F6D657273
DIGEST, OPENING = 0x67616D65, 0x7374617465
FIRST_ID = 0


def number_of(a, b):
    """The number of a pair."""
    return NUMBERS + 16 * min(a, b) + max(a, b)


def draw_of(text):
    """A draw, which nobody has drawn."""
    return int.from_bytes(hashlib.sha256(text.encode()).digest()[:8], "big")


def players_of(owners, fill=NOBODY):
    """The owners of 8 players."""
    return tuple(owners) + (fill,) * (8 - len(owners))


class TwoTongues(Machine):
    """A machine that tells machine 1 another mark of its player than others."""

    def marks_for(self, epoch, machine):
        marks = epoch.told_marks()
        if machine != 1:
            return marks
        own = epoch.mesh.own()
        return {p: (frame, Mark(threshold=5).text()) if p in own else (frame, mark) for p, (frame, mark) in marks.items()}


class Play:
    """A match that is played, and written down. Of machines that lie only what they send is."""

    liars = {}

    def __init__(self, kind, owners, silent_after=5000, delays=(), threshold=8, fill=NOBODY, stalled_after=0):
        self.kind, self.silent_after, self.stalled_after = kind, silent_after, stalled_after
        self.terms = Terms(FIRST_ID, 0, players_of(owners, fill), tuple(delays) + (0,) * (8 - len(delays)), threshold)
        self.machines, self.over, self.starts = {}, set(), {}
        self.sent, self.flight, self.turn = {}, {}, 0
        self.lost, self.late, self.down, self.frames = set(), {}, set(), Counter()
        self.hangs, self.behind = set(), set()  # who gives no words; who doesn't go on in another epoch
        self.text = self.head()

    def head(self):
        """What all machines are told."""
        stalled = [f"stalled_after {self.stalled_after}"] if self.stalled_after else []
        return [f"kind {self.kind}", f"silent_after {self.silent_after}", *stalled, f"digest {DIGEST:016x}", f"opening {OPENING:016x}",
                f"comers {COMERS:016x}", f"numbers {NUMBERS:016x}"]

    def say(self, *words):
        self.text.append(" ".join(map(str, words)))

    def say_of(self, me, verb, *words):
        """What a machine does, or what comes of it."""
        if self.is_played(me):
            self.say(verb, me, *words)

    def note(self, text):
        """What comes next, in words."""
        self.text += ["", f"# {text}"]

    # ---- machines

    def open(self, me, draw, start, terms=None):
        """A machine opens the match, whose program's clock shows so much in turn 0."""
        terms = terms or self.terms
        numbers = tuple(number_of(me, other) for other in range(8))
        lasts, carries = self.kind == "lasting", self.kind != "plain"
        match = Match(numbers, DIGEST, OPENING, COMERS, self.silent_after, self.stalled_after, carries, lasts)
        self.machines[me], self.starts[me] = self.make(me, match, terms, draw), start
        self.over.discard(me)
        self.say_of(me, "open", f"{draw:016x}", *epoch_words(terms))

    def make(self, *what):
        """A machine that opens it."""
        return self.liars.get(what[0], Machine)(*what)

    def is_played(self, me):
        """Whether a machine is one of those that are told of, and not only what it sends."""
        return me not in self.liars

    def now(self, me):
        return (self.starts[me] + self.turn * 50 // 3) % (1 << 32)

    def stop(self, me):
        """Its program stops, without a word."""
        self.over.add(me)

    def bye(self, me, why):
        """It says bye to all others, once."""
        for to in self.machines[me].epoch.others:
            data = self.machines[me].bye(to, why)
            if data:
                self.say_of(me, "bye", to, why)
                self.post(me, to, data)

    def mark(self, me, player, mark):
        """It puts a mark on the next word of a player."""
        self.machines[me].mark(player, mark)
        comes = sum(1 << p for p in mark.players)
        self.say_of(me, "mark", player, comes, f"{mark.ticket:016x}", mark.threshold, *(n for pair in mark.delays for n in pair))

    # ---- the network

    def post(self, me, to, data):
        """A datagram goes out, and comes in the next turn unless something is to happen to it."""
        sent = self.sent.setdefault((me, to), [])
        sent.append(data)
        self.say("sends" if self.is_played(me) else "lies", me, to, data.hex())
        place = me, to, len(sent) - 1
        if place in self.lost or (me, to) in self.down:
            return
        for later in self.late.get(place, (1,)):
            self.flight.setdefault(self.turn + later, []).append((to, me, place[2]))

    def again(self, me, to, place, later=1):
        """A copy of what was sent comes, so many turns from now on."""
        self.flight.setdefault(self.turn + later, []).append((to, me, place))

    # ---- turns

    def hear(self, me):
        for to, by, place in self.flight.get(self.turn, ()):
            if to == me:
                self.say_of(me, "hear", self.now(me), by, place)
                self.machines[me].receive(self.sent[by, me][place], self.now(me))

    def tell_events(self, me):
        for event, *numbers in self.machines[me].events:
            self.say_of(me, event, *numbers)
        self.machines[me].events.clear()

    def one(self, me, word):
        """The turn of a machine."""
        machine, now = self.machines[me], self.now(me)
        self.hear(me)
        self.say_of(me, "turn", now)
        machine.turn(now)
        self.tell_events(me)
        if machine.running:
            self.play(me, machine, word)
        self.say_of(me, "send", now)
        for to, data in machine.send(now):
            self.post(me, to, data)

    def play(self, me, machine, word):
        """Its next frame, and its next epoch."""
        if machine.match.lasts and me not in self.behind and machine.go_on():
            self.say_of(me, "goes_on", machine.epoch.frame, *epoch_words(machine.epoch.terms))
        if me in self.hangs or not machine.epoch.can_play():
            return
        words = {player: word(me, player, self.frames[me]) for player in machine.epoch.mesh.own()}
        self.frames[me] += 1
        machine.play(words)
        self.say_of(me, "play", *(words[player] for player in sorted(words)))
        digest = self.digest_of(me, machine)
        if digest:
            machine.note_settled(digest)
            self.say_of(me, "settled", f"{digest:016x}")

    def digest_of(self, _me, machine):
        """The digest of a machine's settled state, if that is noted."""
        return draw_of(f"state {machine.settled()}") if self.kind == "plain" and machine.settled() else None

    def run(self, turns, word=lambda me, player, frame: (frame // 7 + 3 * me) % 5):
        """So many turns of all."""
        for _ in range(turns):
            for me in sorted(self.machines):
                if me not in self.over:
                    self.one(me, word)
            self.turn += 1


def epoch_words(terms):
    """An epoch as words: its number, base, threshold, owners and delays."""
    return (f"{terms.id:016x}", terms.base, terms.threshold, *terms.owners, *terms.delays)


# ---- the matches


def opening():
    """Two machines come to play with each other."""
    it = Play("plain", [0, 1])
    it.note("Machine 0 opens the match, and says hello to nobody.")
    it.open(0, draw_of("a first"), 100)
    it.run(3)
    it.note("Machine 1 opens it. Its first hello is lost, the second one isn't echoed yet.")
    it.lost.add((1, 0, 0))
    it.open(1, draw_of("b first"), 7_000)
    it.run(2)
    it.note("Its program is started again before it has sent a play: its new draw takes the place of the old one.")
    it.open(1, draw_of("b second"), 9_000)
    it.run(12)
    it.note("Hellos of its first opening come again: they aren't echoed, so a hello is owed, and nothing else.")
    for later in (1, 2, 9):
        it.again(1, 0, 1, later)
    it.run(30)
    it.note("It is started again while the match is played: it can't come back, but is told of once.")
    it.open(1, draw_of("b third"), 11_000)
    it.run(24)
    return it.text


def clocks():
    """Two machines, of which one's clock wraps. Datagrams are late, lost, come twice, or in another order."""
    it = Play("plain", [0, 1], silent_after=2000, delays=(2, 1))
    for k in range(400):
        hashed = hashlib.sha256(f"fate {k}".encode()).digest()
        for line, (a, b) in enumerate([(0, 1), (1, 0)]):
            if hashed[line] < 40:
                it.lost.add((a, b, k))
            else:
                it.late[a, b, k] = (1 + hashed[line + 2] % 4,) + ((9,) if hashed[line + 4] < 20 else ())
    it.note("The clock of machine 0 begins 500 ms before it wraps; the program's own clock of machine 1 does too.")
    it.open(0, (draw_of("a") >> 32 << 32) + (1 << 32) - 500, 12)
    it.open(1, draw_of("b"), (1 << 32) - 800)
    it.run(130)
    it.note("Nothing comes through for half a second and some: clocks go in each play then.")
    it.down |= {(0, 1), (1, 0)}
    it.run(45)
    it.note("All comes through again.")
    it.down.clear()
    it.run(60)
    return it.text


def leaving():
    """Three machines. One says bye, then one is silent."""
    it = Play("plain", [0, 1, 2], silent_after=500)
    for me in range(3):
        it.open(me, draw_of(f"machine {me}"), 1000 * me)
    it.lost |= {(1, 2, k) for k in range(40, 46)}
    it.run(40)
    it.note("Machine 1 leaves. Its byes to machine 2, and its last plays to it, are lost: so machine 0 hands words of player 1 on.")
    it.bye(1, 1)
    it.stop(1)
    it.run(30)
    it.note("Machine 2 stops. Machine 0 regards it as gone once it was silent for more than 500 ms, and plays on alone.")
    it.stop(2)
    it.run(45)
    return it.text


def carrying():
    """Four machines. A line breaks both ways, then another one way, and the first one works again."""
    it = Play("carrying", [0, 1, 2, 3])
    for me in range(4):
        it.open(me, draw_of(f"carrier {me}"), 500 * me)
    it.run(18)
    it.note("The line between machines 0 and 1 breaks. Machines 2 and 3 carry between them, in turn.")
    it.down |= {(0, 1), (1, 0)}
    it.run(40)
    it.note("What machine 3 sends doesn't come to machine 1 either.")
    it.down.add((3, 1))
    it.run(24)
    it.note("The line between machines 0 and 1 works again.")
    it.down -= {(0, 1), (1, 0)}
    it.run(24)
    return it.text


def seam():
    """Two machines of a match of three players, and a third one that comes. Threshold and a delay change."""
    it = Play("lasting", [0, 1, FREE], delays=(1, 2))
    for me in range(2):
        it.open(me, draw_of(f"stays {me}"), 400 * me)
    it.run(20)
    it.note("Machine 0 puts a mark on its next word: somebody comes for player 2, player 0 gets a delay of 3, and the threshold is 6.")
    it.mark(0, 0, Mark((2,), ticket(COMERS, 7), ((0, 3),), 6))
    sent = len(it.sent[0, 1])
    it.lost |= {(0, 1, sent + k) for k in range(3)}
    it.run(4)
    it.lost |= {(1, 0, len(it.sent[1, 0]) + k) for k in range(6)}
    it.run(8)
    it.note("The third machine opens the epoch that the others have begun.")
    assert it.machines[0].epoch.terms == it.machines[1].epoch.terms and it.machines[0].epoch.terms.id
    it.open(2, draw_of("comes"), 20_000, it.machines[0].epoch.terms)
    it.run(40)
    return it.text


class Parting(Play):
    """A match in which machine 1's state is another from frame 37 on."""

    def digest_of(self, me, machine):
        return draw_of(f"state {machine.settled()}" + " of machine 1" * (me == 1 and machine.settled() >= 37))


def digests():
    """Two machines whose states part. By their digests they find the first frame that differs."""
    it = Parting("plain", [0, 1])
    for me in range(2):
        it.open(me, draw_of(f"digest {me}"), 50 * me)
    it.run(100)
    return it.text


def marks():
    """Three machines. Machine 2 tells the others two marks of its player: they find it, and go two ways."""
    it = Play("lasting", [0, 1, 2])
    it.liars = {2: TwoTongues}
    for me in range(3):
        it.open(me, draw_of(f"marks {me}"), 70 * me)
    it.run(15)
    it.note("Machine 2 gives the threshold 6 to machine 0, and 5 to machine 1, from the same frame on.")
    it.mark(2, 2, Mark(threshold=6))
    it.run(20)
    return it.text


def draws():
    """Machine 0, and what somebody sends who knows the number and is no machine: hellos with several draws."""
    it = Play("plain", [0, 1])
    it.liars = {1: Machine}
    it.open(0, draw_of("draws"), 60)
    it.note("A hello that echoes; then one with another draw, which means another match: hellos go on, by the draw that was heard first.")
    say_hello(it, 5)
    it.run(3)
    say_hello(it, 6, DIGEST + 1)
    it.run(3)
    it.note("A draw of 0 that doesn't echo is echoed as any other. Then one comes that is believed, and a play by it.")
    say_hello(it, 0, echoes=False)
    it.run(2)
    say_hello(it, 7)
    it.run(2)
    number, draw = number_of(0, 1), it.machines[0].draw
    it.post(1, 0, wire.sealed(wire.play(number, 1, 9, {}), 7, draw))
    it.run(4)
    it.note("A draw of 0 that echoes isn't told, and the next one is: its program was started again.")
    say_hello(it, 0)
    it.run(3)
    say_hello(it, 8)
    it.run(12)
    it.note("Both come again, and nothing more is told.")
    say_hello(it, 0)
    say_hello(it, 8)
    it.run(3)
    return it.text


def say_hello(it, draw, digest=DIGEST, echoes=True):
    """A hello to machine 0, in the name of machine 1."""
    machine = it.machines[0]
    machines, words, owners, _, start = machine.match_of(machine.epoch)
    match = {"machines": machines, "words": words, "owners": owners, "digest": digest, "opening": start}
    it.post(1, 0, wire.sealed(wire.hello(number_of(0, 1), 1, match, draw, echoes * machine.draw, 5000)))


class AtFrame0(Machine):
    """A machine whose clocks say that it is at frame 0, once it is past frame 40."""

    def packet(self, epoch, machine):
        frame, epoch.frame = epoch.frame, 0 if epoch.frame > 40 else epoch.frame
        made = super().packet(epoch, machine)
        epoch.frame = frame
        return made


def stalled():
    """Three machines. Two give no words any more, one after the other, and answer."""
    it = Play("plain", [0, 1, 2], stalled_after=400)
    it.liars = {2: AtFrame0}
    for me in range(3):
        it.open(me, draw_of(f"stalled {me}"), 300 * me)
    it.run(20)
    it.note("Machine 1 gives no words any more. It holds the others up, and is gone once that has lasted for more than 400 ms.")
    it.hangs.add(1)
    it.run(66)
    it.note("Machine 2 gives none either, and its clocks say that it is at frame 0. But it has begun.")
    it.hangs.add(2)
    it.run(44)
    return it.text


def behind():
    """Three machines, of which one answers, and doesn't go on in the next epoch."""
    it = Play("lasting", [0, 1, 2], silent_after=400, delays=(3, 3, 3), stalled_after=400)
    it.liars = {2: Machine}
    for me in range(3):
        it.open(me, draw_of(f"behind {me}"), 10 * me)
    it.run(16)
    it.note("Machine 0 puts a mark that changes nothing. Machine 2 stays in the old epoch: it is gone 1200 ms after the seam.")
    it.behind.add(2)
    it.mark(0, 0, Mark())
    it.run(100)
    return it.text


class TakesNone(Machine):
    """A machine that takes no words of others once it is past frame 12. Its clocks say that it is at frame 0."""

    def packet(self, epoch, machine):
        frame, epoch.frame = epoch.frame, 0
        made = super().packet(epoch, machine)
        epoch.frame = frame
        return made

    def before_end(self, epoch, sender, play, marks):
        return () if epoch.frame > 12 else super().before_end(epoch, sender, play, marks)


def waiting():
    """Three machines, of which one takes no words any more; then somebody is let in who never comes."""
    it = Play("lasting", [0, 1, 2, FREE], silent_after=300, stalled_after=400)
    it.liars = {2: TakesNone}
    for me in range(3):
        it.open(me, draw_of(f"waiting {me}"), 20 * me)
    it.run(16)
    it.note("Machine 2 takes no words any more. It has given over 9, so it has begun, though it says frame 0. It might know of a mark that "
            "the others don't know: it is gone after 700 ms.")
    it.run(54)
    it.note("Machine 0 puts a mark by which somebody comes for player 3, and nobody does: machine 2 is gone 600 ms after the seam.")
    it.mark(0, 0, Mark((3,), ticket(COMERS, 7)))
    it.run(44)
    return it.text


def kept():
    """Three machines, of which one stops as it puts a mark, which another one alone hears of: nobody else is gone."""
    it = Play("lasting", [0, 1, 2], silent_after=700, stalled_after=300)
    for me in range(3):
        it.open(me, draw_of(f"kept {me}"), 30 * me)
    it.run(16)
    it.note("Machine 2 puts a mark, which comes to machine 1 alone, and stops. Machine 1 goes on, and takes no words past the end.")
    it.mark(2, 2, Mark())
    it.down.add((2, 0))
    it.run(2)
    it.stop(2)
    it.run(16)
    it.note("For more than 300 ms machine 0 waits for words of machine 2, which is gone then, and that machine 1 takes some. But machine 1 "
            "has words of machine 2 that machine 0 lacks, so it may be kept by that one. It hands them on, and machine 0 goes on too.")
    it.run(24)
    return it.text


MATCHES = {it.__name__: it for it in (opening, draws, clocks, leaving, stalled, waiting, kept, carrying, seam, behind, digests, marks)}

BEGINNING = """\
# {what} docs/WIRE.md says why each datagram is as it is; README.md beside this file, what stands here.
"""


def written(name):
    """A trace as a text."""
    what = MATCHES[name].__doc__
    return "\n".join([BEGINNING.format(what=what) + "", *MATCHES[name]()]) + "\n"
