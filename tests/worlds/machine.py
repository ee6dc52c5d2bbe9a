"""A machine of a match: what it hears, its turns, and what it sends.

A machine that is silent is gone from then on. So is one that has begun and holds this one up: it could give a word, and gave none for
`stalled_after`, or for `silent_after` more, where a third machine may keep it from that; or it took none for both together. But such words
alone count as are of use by the marks that are known. It *has begun* once its clocks, or more words than it can give there, have shown that
it is past its first frame, in this epoch or in an earlier one: before that, others may keep it from beginning. In an epoch that follows
another one, so is a machine that hasn't told its clocks in it or hasn't begun, once twice `silent_after` and `stalled_after` have passed
since the seam: whoever could keep it from that would be gone by then. But all that only while this machine *hears most*: of the machines
that aren't gone, itself and those of which a clock came back within the last half of `silent_after` are more than half; or just half, with
the lowest of all among them; or there are only two. All machines of the match count from its opening on. A newcomer counts once a play of
it was opened, and for the newcomer itself all others count.

If a machine is silent and this one doesn't hear most, it calls nobody gone. If the match has begun, it is *cut off*, and tells its program
so. Once that has lasted for `silent_after`, it says bye to all that aren't gone, and ends. In the meantime its program can put out whom it
doesn't hear, and go on with the others.

Whoever leaves, or ends, says bye in three turns. It makes no turns of its own then, and so tells no map; but it still hands on.

A machine *hears another straight* by a play that comes from that one itself, alone or in what it carries, and that is newer than all
before.

The clock of a machine goes on in its turns, as it sends, and as a hello, a play or a bye comes, carried or not. A map, and what is
carried, is heard at the moment that the clock shows then.
"""
import hashlib
from typing import NamedTuple

from contact import Contact, Hello
from epochs import Epoch, is_void, mask, successor
from lines import STEPS
from mesh import DELAY_LIMIT
from newcomers import Had, Host
from rules import holds
import sizes

HELLO, PLAY, BYE, MAP, CARRIED, LINE = "hello", "play", "bye", "map", "carried", "line"
BYES = 3
COMES = "comes"
JUNK, FLOOD = 1186, 5      # bytes of what a liar gives others to hand on, and how many to each and for each in a turn
LEAP = 1000


class Settings(NamedTuple):
    """In milliseconds; `stalled_after` is never if it is 0."""
    silent_after: int
    relay_after: int
    stalled_after: int
    first_number: int


class Datagram:
    """What one machine seals for another. All but hellos is sealed with both draws."""
    __slots__ = ("epoch", "sender", "receiver", "kind", "draws", "body", "size")

    def __init__(self, epoch, sender, receiver, kind, draws, body, size):
        self.epoch, self.sender, self.receiver, self.kind = epoch, sender, receiver, kind
        self.draws, self.body, self.size = draws, body, size


class Machine:
    """One opening of a program at its seat. `program` gives words and marks."""

    def __init__(self, name, settings, draw, program):
        self.name, self.settings, self.draw, self.program = name, settings, draw, program
        self.epoch, self.old, self.running = None, None, False
        self.contacts, self.straight_at, self.stalls = {}, {}, {}
        self.cut_off_at, self.byes, self.over, self.why = None, 0, False, None
        self.events, self.faults = [], set()
        self.swallows, self.hangs, self.forges, self.floods, self.stopped = False, False, False, False, False
        self.rows, self.digests, self.chain, self.promised = {}, {}, [], []
        self.joined, self.opened_at = None, 0
        self.met, self.burst, self.turns = set(), 0, 0
        self.clock, self.has_turned = 0, False
        self.host, self.newcomer, self.hosts = Host(self), None, []

    # ---- epochs

    def epochs(self):
        """The epochs in which it speaks, the newest last."""
        return [epoch for epoch in (self.old, self.epoch) if epoch]

    def open(self, terms, now):
        """It opens the match."""
        self.enter(Epoch(self.name, terms, self.settings.first_number), now)

    def opening(self):
        """What its hellos say."""
        return Hello(self.epoch.terms.id, self.draw, 0, self.settings.silent_after)

    def enter(self, epoch, now):
        """It is in an epoch from now on."""
        self.epoch, self.opened_at, self.stalls = epoch, now, {}
        self.chain.append(epoch.terms.id)
        self.digests[epoch.terms.base] = epoch.terms.opening
        self.met |= set(epoch.terms.members)
        for machine in epoch.terms.members:
            if machine != self.name:
                self.contacts.setdefault(machine, Contact())
        self.program.note(self)

    def join(self, terms, now):
        """A newcomer opens its first epoch."""
        self.joined, self.running = terms.id, True
        self.open(terms, now)

    def begin_anew(self):
        """A newcomer has seen nothing, and nobody knows it."""
        if self.epoch and holds("drawn_anew"):
            self.draw = int.from_bytes(hashlib.sha256(self.draw.to_bytes(8, "big")).digest()[:8], "big")
        self.epoch, self.joined, self.cut_off_at, self.burst = None, None, None, 0
        self.contacts, self.straight_at, self.stalls, self.met = {}, {}, {}, set()
        self.rows, self.chain, self.promised = {}, [], []

    def has_company(self):
        """Whether somebody was heard in its epoch who isn't gone."""
        return any(not self.epoch.mesh.is_gone(m) for m in self.epoch.heard)

    def go_over(self, now):
        """The epoch has ended: the next one opens, and as many frames are played as were past the end."""
        old = self.epoch
        terms = successor(old.terms, old.end, old.mark, old.mesh.left, self.digests[old.terms.base + old.end])
        if self.name not in terms.members:
            self.over, self.why = True, "not in the next epoch"
            return
        if self.old and holds("until_heard") and holds("told_on"):
            self.faults.add("LAW: three epochs at once")
        self.enter(Epoch(self.name, terms, self.settings.first_number, old), now)
        self.old = old if holds("told_on") else None
        self.faults |= old.mesh.faults
        self.burst = old.frame - old.end
        while self.burst and self.epoch.can_play():
            self.burst -= 1
            self.play_frame()

    def forget(self):
        """The old epoch is told until all that stay were heard in the new one."""
        staying = self.epoch.mesh.staying()
        if self.old and (all(m in self.epoch.heard for m in staying) if holds("until_heard") else self.all_have_old_words(staying)):
            self.old = None

    def all_have_old_words(self, staying):
        mesh, end = self.old.mesh, self.old.end
        return all(m in mesh.told and all(mesh.told[m].has[p] >= min(len(mesh.words[p]), end) for p in mesh.players)
                   for m in staying if m in mesh.members)

    def share_gone(self):
        """Who is gone in one epoch is gone in both."""
        if self.old and holds("both_gone"):
            gone = self.old.mesh.gone | self.epoch.mesh.gone
            for epoch in self.epochs():
                epoch.mesh.gone |= gone & mask(m for m in epoch.terms.members if m != self.name)

    def put_out(self, machine):
        """A machine is gone, from now on."""
        for epoch in self.epochs() if holds("both_gone") else [self.epoch]:
            if machine in epoch.terms.members and machine != self.name:
                epoch.mesh.gone |= 1 << machine

    # ---- hearing

    def unseal(self, datagram):
        """The epoch in which a datagram is opened; None if it isn't."""
        epoch = next((it for it in self.epochs() if it.terms.id == datagram.epoch), None)
        if epoch is None or datagram.receiver != self.name or datagram.sender not in self.contacts:
            return None
        if datagram.sender not in epoch.terms.members or epoch.mesh.is_gone(datagram.sender) and holds("fence"):
            return None
        contact = self.contacts[datagram.sender]
        if datagram.kind != HELLO and (not contact.playing or datagram.draws != (contact.draw, self.draw)):
            return None
        return epoch

    def receive(self, datagram, now):
        """Hears what came by the network."""
        if datagram.kind == LINE:
            self.hear_line(datagram, now)
            return
        self.clock = self.clock if datagram.kind in (MAP, CARRIED) else now
        epoch = None if self.over else self.unseal(datagram)
        if epoch is None:
            return
        if datagram.kind == MAP:
            epoch.lines.learn(datagram.body, self.turns)
        elif datagram.kind == CARRIED:
            self.hear_parcels(epoch, datagram, now)
        else:
            self.hear(epoch, datagram, now, True)

    def hear_line(self, datagram, now):
        """Hears what a newcomer and a host tell each other."""
        if isinstance(datagram.body, Had):
            self.host.hear(datagram.sender, datagram.body)
        elif self.newcomer and not self.over:
            self.newcomer.hear(datagram.sender, datagram.body, now)

    def hear_parcels(self, epoch, datagram, now):
        """What was carried is for this machine, or is handed on."""
        for parcel in datagram.body:
            receiver, _, inner = parcel
            if receiver != self.name:
                if not self.swallows and not epoch.mesh.gone & (1 << receiver | 1 << inner.sender):
                    epoch.lines.hand_on(parcel, self.shut(epoch))
            elif inner.kind in (HELLO, PLAY, BYE):
                self.clock = now
                found = self.unseal(inner)
                if found:
                    self.hear(found, inner, now, inner.sender == datagram.sender)

    def hear(self, epoch, datagram, now, came_straight):
        """Hears a hello, a play or a bye."""
        sender, contact = datagram.sender, self.contacts[datagram.sender]
        if datagram.kind != HELLO or datagram.body.echo == self.draw:
            epoch.heard.add(sender)
        if datagram.kind == HELLO:
            if contact.hear_hello(self.opening(), datagram.body, now):
                self.events.append(("restarted", sender))
        elif datagram.kind == BYE:
            self.put_out(sender)
        elif self.hear_play(epoch, contact, datagram, now) and came_straight:
            self.straight_at[sender] = self.clock
        self.share_gone()

    def hear_play(self, epoch, contact, datagram, now):
        """Whether a play is newer than all before: any other may be old, and kept by somebody."""
        packet, (number, clocks) = datagram.body
        if packet.view.gone >> self.name & 1:
            self.events.append(("dropped", datagram.sender))
        if not epoch.mesh.hear(packet):
            return False
        if clocks:
            epoch.came.add(datagram.sender)
        return contact.hear_play(number, clocks, now) or not holds("newer")

    # ---- a turn

    def turn(self, now):
        """Who is silent is gone, players leave, and the match goes on by a frame."""
        if self.over or self.byes or self.epoch is None:
            return
        self.clock, self.has_turned = now, True
        self.look_after(now)
        for epoch in self.epochs():
            epoch.mesh.let_leave()
        self.begin()
        if self.running and not self.byes:
            self.play(now)

    def begin(self):
        """The match begins once a play of each other machine that isn't gone was opened."""
        if not self.running and all(self.contacts[m].confirmed for m in self.epoch.mesh.staying()):
            self.running = True
            self.events.append(("running",))

    def play(self, now):
        """The next frame, unless words of others are too far behind; and the next epoch, if this one is over."""
        for _ in range(1 + self.burst):
            if self.epoch.can_play() and not self.hangs:
                self.burst = max(0, self.burst - 1)
                self.play_frame()
        self.note_rows()
        self.forget()
        if self.epoch.is_over():
            self.go_over(now)
            self.forget()

    def play_frame(self):
        for player in self.epoch.mesh.own():
            self.give(player)
        self.epoch.frame += 1

    def give(self, player):
        """The word of an own player for this frame, unless its words are ahead."""
        epoch, words = self.epoch, self.epoch.mesh.words[player]
        if len(words) == epoch.frame + epoch.terms.delays[player]:
            word = self.program.word(self, player)
            self.promised.append((epoch.terms.base + len(words), player, word))
            words.append((word, self.proposal()))

    def proposal(self):
        """The mark of the next word, if this machine wants something otherwise."""
        epoch = self.epoch
        if epoch.mark or epoch.marked:
            return None
        mark = self.program.mark(self, self.host.proposed())
        epoch.marked = mark is not None and not is_void(mark, self.name, epoch.terms)
        return mark

    def note_rows(self):
        """Keeps the rows that are settled, and reads their marks."""
        epoch = self.epoch
        if not (holds("settled") and holds("first")):
            epoch.read_marks_wrongly()
        row = epoch.next_row()
        while row is not None:
            at = epoch.terms.base + epoch.rows
            self.rows[at - 1] = row
            self.digests[at] = hash((self.digests[at - 1], row))
            row = epoch.next_row()

    # ---- who is gone

    def heard_straight(self, epoch, now):
        """The mask of the machines of an epoch that it hears straight, with its own bit."""
        limit = now - self.settings.relay_after
        return sum(1 << m for m in epoch.terms.members if m == self.name or self.straight_at.get(m, limit - 1) >= limit)

    def is_silent(self, machine, now):
        """Whether a machine is silent, by its clocks. A newcomer waits longer for those that it hasn't heard yet."""
        contact, silent_after = self.contacts[machine], self.settings.silent_after
        is_new = self.joined is not None and self.joined == self.epoch.terms.id
        if contact.confirmed or is_new and contact.playing and holds("early"):
            return contact.is_silent(now, silent_after)
        return is_new and not contact.playing and now - self.opened_at > silent_after * (3 if holds("patient") else 1)

    def has_begun(self, machine):
        """Whether a machine has shown that it is past its first frame, where it has the words of its delay, and one more at most."""
        mesh = self.epoch.mesh
        return self.contacts[machine].begun or mesh.most_of(machine, mesh.counts()) > DELAY_LIMIT + 1

    def follows(self):
        """Whether it was in the epoch before."""
        return self.epoch.terms.id not in (0, self.joined)

    def is_late(self, machine, now):
        """Whether a machine hasn't come to this epoch, which follows another one, or hasn't begun, though whoever could keep it from
        that would be gone."""
        stalled_after, silent_after = self.settings.stalled_after, self.settings.silent_after
        overtime = now - self.opened_at - silent_after * (2 if holds("twice") else 1)
        if not self.follows():
            return False
        if not self.contacts[machine].confirmed and overtime > 0 and holds("join"):
            return True
        plays_on = machine in self.epoch.came and self.has_begun(machine)
        return not plays_on and 0 < stalled_after < overtime and holds("late")

    def waits_for(self, machine):
        """What this one waits for of a machine: that it comes to this epoch, or words; None if nothing."""
        epoch = self.epoch
        if not self.running:
            return None
        if self.follows() and self.contacts[machine].confirmed and machine not in epoch.came:
            return COMES
        return epoch.mesh.waits_for(machine, epoch.terms.threshold, epoch.known_end)

    def is_stalled(self, machine, now):
        """Whether a machine has held up the match for too long. Asked in each turn."""
        self.contacts[machine].begun = self.has_begun(machine)
        if not self.settings.stalled_after:
            return False
        wait = self.waits_for(machine)
        before, since, seen = self.stalls.get(machine, (None, now, now))
        if wait is None or wait != before or now - seen > LEAP:
            since = now
        self.stalls[machine] = wait, since, now
        if wait in (None, COMES) or not self.has_begun(machine):
            return False
        is_kept = self.epoch.mesh.may_be_kept(machine, wait, self.epoch.terms.threshold)
        return now - since > self.settings.stalled_after + self.settings.silent_after * is_kept

    def counts_among_most(self, machine):
        """Whether a machine is one of those of whom most have to be heard."""
        if machine == self.name or self.epoch.terms.id == 0 or not holds("opened"):
            return True
        return self.contacts[machine].confirmed or self.joined == self.epoch.terms.id and holds("all_count")

    def hears_most(self, now):
        """Whether it can judge who is gone."""
        there = [m for m in self.epoch.terms.members if not self.epoch.mesh.is_gone(m) and self.counts_among_most(m)]
        heard = [m for m in there if m == self.name or self.contacts[m].silence(now) <= self.settings.silent_after // 2]
        return 2 * len(heard) > len(there) or 2 * len(heard) == len(there) and there[0] in heard or len(there) == 2

    def look_after(self, now):
        """Silent and stalled machines are gone, or this one is cut off."""
        self.epoch.look_for_marks()
        staying = self.epoch.mesh.staying()
        silent = [m for m in staying if self.is_silent(m, now)]
        stalled = [m for m in staying if self.is_stalled(m, now) or self.is_late(m, now)]
        most = (silent or stalled) and self.hears_most(now)
        for machine in stalled if most or not holds("stalls") else []:
            self.put_out(machine)
        if silent and not most and holds("most"):
            if self.running or not holds("begun"):
                self.be_cut_off(now)
            return
        self.cut_off_at = None
        for machine in silent:
            self.put_out(machine)

    def be_cut_off(self, now):
        """It hears too few to say who is gone."""
        if self.cut_off_at is None:
            self.cut_off_at = now
            self.events.append(("cut off",))
        elif now - self.cut_off_at > self.settings.silent_after and holds("ends"):
            self.leave("cut off")

    def leave(self, why):
        """It says bye from now on, and then it ends."""
        if not self.byes and not self.over:
            self.byes, self.why = BYES, why

    # ---- sending

    def send(self, now):
        """All that goes out in a turn: to whom, and a datagram."""
        if self.over:
            return []
        self.turns += 1
        self.clock = now
        out = self.send_lines()
        if self.epoch is None:
            return out
        contents, epochs = self.contents(now), self.epochs()[::-1]
        for epoch in epochs:
            self.send_in(epoch, contents, now, out)
        for epoch in epochs:
            self.send_more(epoch, out)
        self.has_turned = False
        self.byes -= self.byes > 0
        self.over = self.why is not None and not self.byes
        return out

    def send_lines(self):
        """What a newcomer and its hosts tell each other."""
        if self.newcomer:
            return [(m, self.line(m, self.newcomer.had())) for m in self.hosts if self.newcomer.is_unsure()]
        told = [(m, self.host.tell(m)) for m in self.host.guests] if self.epoch and self.running else []
        return [(m, self.line(m, said)) for m, said in told if said]

    def line(self, machine, said):
        return Datagram(None, self.name, machine, LINE, None, said, sizes.HEAD)

    def contents(self, now):
        """For each other machine what goes to it: a hello, or the clocks of its plays."""
        contents = {}
        for machine in self.epoch.mesh.staying():
            contact = self.contacts[machine]
            if self.byes:
                contents[machine] = BYE, None
            elif contact.says_hello():
                contents[machine] = HELLO, contact.hello(self.opening())
            else:
                contents[machine] = PLAY, (contact.sent, contact.clocks(self.epoch.frame, now))
        return contents

    def shut(self, epoch):
        """The mask of the machines with which this one carries nothing: they are gone, or it doesn't play with them yet."""
        return epoch.mesh.gone | mask(m for m in epoch.mesh.staying() if not self.contacts[m].playing)

    def send_in(self, epoch, contents, now, out):
        """What goes to each machine in one epoch."""
        lines, shut = epoch.lines, self.shut(epoch)
        if self.has_turned:
            lines.look(self.heard_straight(epoch, now), self.turns)
        if self.forges:
            lines.forge(self.turns)
        for machine in epoch.mesh.staying():
            datagram = self.datagram(epoch, machine, *contents[machine]) if machine in contents else None
            if datagram:
                self.send_one(lines, datagram, shut, out)

    def send_more(self, epoch, out):
        """The map, and what is carried, in one epoch."""
        lines, shut, staying = epoch.lines, self.shut(epoch), epoch.mesh.staying()
        for machine in staying if self.has_turned and lines.tells_map(self.turns) else ():
            if not shut >> machine & 1:
                entries = lines.entries()
                out.append((machine, self.seal(epoch, machine, MAP, entries, sizes.map_size(entries))))
        for hop, size, parcels in lines.take_waiting():
            if not shut >> hop & 1:
                is_alone = len(parcels) == 1 and parcels[0][1] == 0
                out.append((hop, parcels[0][2] if is_alone else self.seal(epoch, hop, CARRIED, parcels, size)))
        if self.floods:
            out += self.flood(epoch, staying)

    def flood(self, epoch, staying):
        """What a liar gives others to hand on, which nobody can open."""
        made = {to: Datagram(epoch.terms.id, self.name, to, PLAY, (), None, JUNK) for to in staying}
        return [(hop, self.seal(epoch, hop, CARRIED, ((to, STEPS, datagram),), sizes.DATAGRAM))
                for hop in staying for to, datagram in made.items() if to != hop for _ in range(FLOOD)]

    def send_one(self, lines, datagram, shut, out):
        """A datagram goes straight, or to a carrier, or both ways. What goes straight waits to go with what is carried to the same
        machine, if there may be something; a bye doesn't."""
        machine, is_bye = datagram.receiver, datagram.kind == BYE
        carrier = lines.carrier(machine, self.name, shut) if lines.is_broken(machine) else None
        if carrier is not None:
            lines.wait(carrier, (machine, STEPS, datagram))
        if is_bye or lines.goes_straight(machine, self.turns, carrier):
            parcel = machine, 0, datagram
            if is_bye or not (lines.has_company(machine, shut) and lines.wait(machine, parcel)):
                out.append((machine, datagram))

    def datagram(self, epoch, machine, kind, content):
        """A hello, a play or a bye for a machine; None if that can't be made."""
        if kind == HELLO:
            return self.seal(epoch, machine, HELLO, content, sizes.HELLO) if epoch is self.epoch else None
        if not self.contacts[machine].playing:
            return None
        if kind == BYE:
            return self.seal(epoch, machine, BYE, None, sizes.BYE)
        packet = epoch.mesh.tell(machine)
        if not holds("marks_told_on"):
            packet = self.without_marks(packet)
        return self.seal(epoch, machine, PLAY, (packet, content), sizes.play_size(packet, content[1], epoch.frame))

    def without_marks(self, packet):
        """A packet as it would be if only their owners told marks."""
        own = self.epoch.mesh.own()
        return packet._replace(offers=tuple((p, first, words if p in own else tuple((value, None) for value, _ in words))
                                            for p, first, words in packet.offers))

    def seal(self, epoch, machine, kind, body, size):
        draws = None if kind == HELLO else (self.draw, self.contacts[machine].draw)
        return Datagram(epoch.terms.id, self.name, machine, kind, draws, body, size)
