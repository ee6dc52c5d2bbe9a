"""A machine of a match, as docs/WIRE.md has it: what it hears, its turns, and what it sends, to the byte.

It has no inputs of several words, and it refuses without a code. Who has which words, and the map of lines, are those of
the model in tests/worlds.
"""
from typing import NamedTuple

import wire
from contacts import Clock, Contact, since
from digests import Comparison, Digests
from lines import STEPS, Lines
from mesh import DELAY_LIMIT, NO_END, Mesh, Packet, View
from reading import Refused, read
from terms import NOBODY, PLAYERS, Mark, hashed

STRAIGHT = 150
COMES_IN = 10_000
LEAP = 1000
COMES = "comes"


class Match(NamedTuple):
    """What a machine is told of its match: the number with each machine, and the rest as in docs/WIRE.md."""
    numbers: tuple
    digest: int
    opening: int
    comers: int
    silent_after: int
    stalled_after: int
    carries: bool
    lasts: bool


class Own(NamedTuple):
    """What its hellos say beside the match."""
    draw: int
    patience: int
    abilities: int


class Sealed(NamedTuple):
    """A packet as it is sent."""
    sender: int
    bytes: bytes

    @property
    def size(self):
        return len(self.bytes)


class Stall(NamedTuple):
    """What a machine is waited for, since when, and when that was looked at; and whether it had begun and come by then."""
    wait: object = None
    since: int = 0
    seen: int = 0
    begun: bool = False
    came: bool = False


class Epoch:
    """What a machine knows of an epoch."""

    def __init__(self, me, terms, clock):
        self.me, self.terms, self.clock = me, terms, clock
        self.machines = terms.machines()
        self.others = [m for m in range(self.machines) if m != me]
        self.mesh = Mesh(me, range(self.machines), [None if owner == NOBODY else owner for owner in terms.seats()])
        self.contacts = {m: Contact() for m in self.others}
        self.lines, self.turns, self.straight_at = Lines(me, range(self.machines)), 0, {}
        self.marks, self.frame = {}, 0
        self.digests, self.comparisons = Digests(), {m: Comparison() for m in self.others}
        self.told_gone, self.told_left, self.stays, self.two_marks = set(), set(), set(), {}
        self.opened, self.follows, self.stalls = clock.moment, False, {m: Stall() for m in self.others}

    def is_gone(self, machine):
        return self.mesh.is_gone(machine)

    def has_begun(self, machine):
        """Whether it has ever said that it is past its first frame, or given words that show it."""
        theirs = self.contacts[machine].theirs
        gave = self.mesh.most_of(machine, self.mesh.counts()) > DELAY_LIMIT + 1
        return self.stalls[machine].begun or theirs is not None and theirs[3] > 0 or gave

    def has_come(self, machine, now):
        """Whether it has told its clocks in this epoch."""
        theirs = self.contacts[machine].theirs
        return self.stalls[machine].came or theirs is not None and since(now, theirs[2]) < since(now, self.opened)

    def carries_with(self, machine):
        """Whether the two carry for each other."""
        return machine in self.contacts and not self.is_gone(machine) and self.contacts[machine].playing \
            and self.contacts[machine].carries

    def shut(self):
        """The mask of the machines with which this one doesn't carry."""
        return sum(1 << m for m in range(8) if not self.carries_with(m))

    # ---- words

    def can_play(self):
        """Whether the words of others aren't too far behind."""
        return self.frame < self.mesh.front() + self.terms.threshold

    def give(self, player, word):
        self.mesh.words[player].append(word)

    def given_at(self, player, frame):
        """The word that an own player gave for a frame, or else the last one."""
        words = self.mesh.words[player]
        return words[frame] if frame < len(words) else words[-1] if words else 0

    # ---- marks

    def counted(self, comers, marks):
        """Those that aren't void."""
        return {p: (frame, mark) for p, (frame, mark) in marks.items() if not self.terms.is_void(p, Mark.of(mark), comers)}

    def told_marks(self):
        """What it tells of marks: those of words that are there."""
        return {p: (frame, mark) for p, (frame, mark) in self.marks.items() if frame < len(self.mesh.words[p])}

    def known_end(self, comers, marks):
        """From this frame on no words are taken, if these marks are known; NO_END if there is none that isn't void."""
        return min((frame + 1 for frame, _ in self.counted(comers, marks).values()), default=NO_END)

    def ending(self, comers):
        """The end and its mark, if all words before it are there."""
        mesh, rows = self.mesh, self.mesh.front()
        found = [(frame, p, mark) for p, (frame, mark) in self.counted(comers, self.marks).items()
                 if frame < rows and (mesh.left[p] is None or frame < mesh.left[p])]
        if not found:
            return None
        frame, _, mark = min(found)
        return frame + 1, Mark.of(mark)


class Machine:
    """One opening of a program."""

    def __init__(self, me, match, terms, draw):
        self.me, self.match, self.draw = me, match, draw
        self.epoch, self.past, self.running, self.events = Epoch(me, terms, Clock(draw)), None, False, []
        self.own = Own(draw, match.silent_after, wire.CARRIES * match.carries | wire.LASTS * match.lasts)
        for machine in self.epoch.others:
            if match.lasts and machine not in terms.sitting():
                self.epoch.mesh.gone |= 1 << machine
        for player in self.epoch.mesh.own():
            self.epoch.mesh.words[player] = [0] * terms.delays[player]

    def tell(self, epoch, *event):
        """Something that happened is told to its program, if it did in this epoch."""
        if epoch is self.epoch:
            self.events.append(event)

    # ---- seals

    def number(self, epoch, machine):
        """By which number a pair seals in an epoch."""
        number = self.match.numbers[machine]
        return hashed(number, epoch.terms.id) if epoch.terms.id else number

    def seal(self, epoch, machine, kind, make, *rest):
        """A packet for a machine."""
        text = make(self.number(epoch, machine), self.me, *rest)
        draws = () if kind == wire.HELLO else (self.draw, epoch.contacts[machine].draw)
        return wire.sealed(text, *draws)

    def unseal(self, epoch, data, kind):
        """The text of a packet of this kind; None if it isn't sealed for this machine."""
        sender = data[12]
        if kind == wire.HELLO:
            draws = ()
        elif epoch.contacts[sender].playing:
            draws = epoch.contacts[sender].draw, self.draw
        else:
            return None
        text = data[:4] + wire.fixed(self.number(epoch, sender), 8) + data[12:]
        return text if wire.tag(text, *draws) == data[4:12] else None

    # ---- hearing

    def carries_in(self, epoch):
        """Whether anything of carrying is sent and heard in an epoch: two machines have nobody between them."""
        return self.match.carries and epoch.machines > 2

    def receive(self, data, now):
        """Hears what came, in this epoch or else in the one before."""
        if not self.hear_in(self.epoch, data, now) and self.past:
            self.hear_in(self.past, data, now)

    def hear_in(self, epoch, data, now):
        """Hears what came in an epoch. Whether it can't be of the one before: it is sealed for this one, or its sender isn't there."""
        if not 14 <= len(data) <= wire.DATAGRAM_LIMIT:
            return False
        sender, kind = data[12], data[13]
        is_of_lines = self.carries_in(epoch) and kind in (wire.MAP, wire.CARRIED)
        if is_of_lines and not epoch.carries_with(sender):
            return False
        if not is_of_lines:
            epoch.clock.tick(now)
            if not self.is_here(epoch, sender):
                return True
        text = self.unseal(epoch, data, kind)
        if text is None:
            return False
        try:
            self.hear_body(epoch, sender, kind, read(text), now)
        except Refused:
            pass
        return True

    def hear_body(self, epoch, sender, kind, body, now):
        """Hears what was opened."""
        if kind in (wire.MAP, wire.CARRIED) and not self.carries_in(epoch):
            return
        if kind == wire.MAP:
            known = [(machine, mask, number) for machine, (mask, number) in enumerate(body) if machine < epoch.machines]
            epoch.lines.learn(known, epoch.turns)
        elif kind == wire.CARRIED:
            for parcel in body:
                self.hear_parcel(epoch, sender, parcel, now)
        elif self.hear_packet(epoch, sender, kind, body):
            epoch.straight_at[sender] = epoch.clock.moment

    def hear_packet(self, epoch, sender, kind, body):
        """A hello, a play or a bye. Whether it was a play that is newer than all before."""
        if kind == wire.HELLO:
            self.hear_hello(epoch, sender, body)
        elif kind == wire.BYE:
            epoch.mesh.gone |= 1 << sender
            epoch.contacts[sender].bye = body
        else:
            return self.hear_play(epoch, sender, body)
        return False

    def hear_parcel(self, epoch, carrier, parcel, now):
        """One packet of what was carried."""
        to, steps, data = parcel
        maker, kind = data[12], data[13]
        if to == self.me:
            if kind not in (wire.MAP, wire.CARRIED):
                self.hear_inside(epoch, carrier, data, now)
        elif 0 < steps <= STEPS and maker not in (self.me, to) and all(self.is_here(epoch, m) for m in (to, maker)):
            epoch.lines.hand_on((to, steps, Sealed(maker, data)), epoch.shut())

    def hear_inside(self, epoch, carrier, data, now):
        """What was carried for this machine."""
        epoch.clock.tick(now)
        maker, kind = data[12], data[13]
        text = self.unseal(epoch, data, kind) if self.is_here(epoch, maker) else None
        if text is None:
            return
        try:
            if self.hear_packet(epoch, maker, kind, read(text)) and maker == carrier:
                epoch.straight_at[maker] = epoch.clock.moment
        except Refused:
            pass

    @staticmethod
    def is_here(epoch, machine):
        return machine in epoch.contacts and not epoch.is_gone(machine)

    def match_of(self, epoch):
        """What all hellos of this match say of it."""
        digest = hashed(self.match.digest, self.match.comers) if self.match.lasts else self.match.digest
        return epoch.machines, 1, epoch.terms.seats(), digest, self.match.opening

    def hear_hello(self, epoch, sender, hello):
        lasts = bool(hello.abilities & wire.LASTS)
        is_match = hello.match == self.match_of(epoch) and lasts == self.match.lasts
        if epoch.contacts[sender].hear_hello(self.own, hello, is_match, epoch.clock.moment):
            self.tell(epoch, "restarted", sender)

    def hear_play(self, epoch, sender, play):
        """Whether a play is newer than all before."""
        if play.marks and not self.match.lasts or not self.is_inside(epoch, play) or self.overstates(epoch, sender, play):
            return False
        offered = {p: mark for p, mark in play.marks.items()
                   if p in play.offers and 0 <= mark[0] - play.offers[p][0] < len(play.offers[p][1])}
        fresh = {p: mark for p, mark in offered.items() if mark[0] >= len(epoch.mesh.words[p])}
        offers = self.before_end(epoch, sender, play, {**fresh, **epoch.marks})
        if not epoch.mesh.hear(Packet(sender, View(play.gone, play.counts), offers)):
            return False
        for player, mark in fresh.items():
            if mark[0] < len(epoch.mesh.words[player]):
                epoch.marks.setdefault(player, mark)
        self.compare_marks(epoch, sender, play)
        contact = epoch.contacts[sender]
        is_new = play.number >= contact.after
        contact.hear_play(play.number, play.clocks, epoch.frame, epoch.clock.moment)
        epoch.comparisons[sender].hear(epoch.digests, play.settled, epoch.clock.moment)
        return is_new

    @staticmethod
    def is_inside(epoch, play):
        """Whether it names machines and players of the match alone."""
        named = {p for p, count in enumerate(play.counts) if count} | set(play.offers)
        return play.gone >> epoch.machines == 0 and named <= set(epoch.mesh.players)

    @staticmethod
    def overstates(epoch, sender, play):
        """Whether it has words that its sender doesn't say that it has, or says more of this machine's players than these gave."""
        offers = tuple((p, first, words) for p, (first, words) in play.offers.items())
        return epoch.mesh.overstates(Packet(sender, View(play.gone, play.counts), offers))

    def before_end(self, epoch, sender, play, marks):
        """The words that are offered of frames before the end by these marks. Of players whose owner is gone those after it too, as long
        as one of another machine before it is waited for."""
        end, mesh = epoch.known_end(self.match.comers, marks), epoch.mesh
        waits = any(mesh.left[p] is None and mesh.owners[p] != self.me and count < end
                    for p, count in self.counts_after(epoch, sender, play).items())
        cut = []
        for player, (first, words) in play.offers.items():
            whole = waits and mesh.is_orphan(player, mesh.gone)
            cut.append((player, first, words if whole else words[: max(0, end - first)]))
        return tuple(cut)

    def counts_after(self, epoch, sender, play):
        """How many words of each player there would be if no mark were known."""
        mesh = epoch.mesh
        gone = mesh.gone if play.gone >> self.me & 1 else mesh.gone | play.gone
        counts = {p: len(mesh.words[p]) for p in mesh.players}
        for player, (first, words) in play.offers.items():
            both = mesh.is_orphan(player, gone) and mesh.is_orphan(player, play.gone)
            if (mesh.owners[player] == sender or both) and mesh.left[player] is None and first <= counts[player]:
                counts[player] = max(counts[player], first + len(words))
        return counts

    def compare_marks(self, epoch, sender, play):
        """Whether a machine knows other marks than this one."""
        mine = epoch.told_marks()
        for player in epoch.mesh.players:
            told, known = play.marks.get(player), mine.get(player)
            lacks = told and told[0] < len(epoch.mesh.words[player]) or known and known[0] < play.counts[player]
            if lacks and told != known and self.match.lasts:
                self.tell_two_marks(epoch, sender, player)
                return

    def tell_two_marks(self, epoch, machine, player):
        """Once of each machine."""
        if machine not in epoch.two_marks:
            epoch.two_marks[machine] = player
            self.tell(epoch, "two_marks", machine, player)

    # ---- a turn

    def turn(self, now):
        """Who is silent is gone, players leave, and the match begins."""
        self.share()
        epoch = self.epoch
        epoch.clock.tick(now)
        self.look_after(epoch)
        self.tell_differences(epoch)
        self.tell_who_is_gone(epoch)
        if not self.running and all(epoch.contacts[m].confirmed for m in epoch.mesh.staying()):
            self.running = True
            self.tell(epoch, "begins")
        self.look(epoch)

    def tell_differences(self, epoch):
        for machine in epoch.others:
            frame = epoch.comparisons[machine].found(epoch.digests, epoch.is_gone(machine), epoch.clock.moment)
            if frame is not None:
                self.tell(epoch, "desync", machine, frame)

    def tell_who_is_gone(self, epoch):
        """Machines that are gone, and players that leave now."""
        for machine in epoch.others:
            if epoch.is_gone(machine) and machine not in epoch.told_gone:
                epoch.told_gone.add(machine)
                self.tell(epoch, "gone", machine, epoch.contacts[machine].bye)
        epoch.mesh.let_leave()
        for player in epoch.mesh.players:
            if epoch.mesh.left[player] is not None and player not in epoch.told_left:
                epoch.told_left.add(player)
                self.tell(epoch, "left", player)

    def share(self):
        """What is known in one of two epochs is known in the other. The old one is forgotten once nobody can be there."""
        epoch, past = self.epoch, self.past
        if not past:
            return
        for machine in sorted(epoch.stays):
            if not epoch.is_gone(machine):
                self.hear_too(epoch, past, machine)
        for machine in epoch.stays:
            if epoch.is_gone(machine) or past.is_gone(machine):
                epoch.mesh.gone |= 1 << machine
                past.mesh.gone |= 1 << machine
        if all(self.has_come(machine) for machine in epoch.others):
            self.past = None
        else:
            self.look(past)

    def hear_too(self, epoch, past, machine):
        """What is known of a machine in the old epoch is known in the new one."""
        one, other = epoch.contacts[machine], past.contacts[machine]
        one.hear_too(other, epoch.clock.moment)
        if machine in past.two_marks and one.playing and other.playing and one.draw == other.draw:
            self.tell_two_marks(epoch, machine, past.two_marks[machine])

    def has_come(self, machine):
        """Whether a machine is gone, or a word of it is here in this epoch."""
        mesh = self.epoch.mesh
        return mesh.is_gone(machine) or any(mesh.words[p] for p in mesh.players if mesh.owners[p] == machine)

    @staticmethod
    def look(epoch):
        """Whom it hears straight in this turn."""
        now = epoch.clock.moment
        epoch.turns += 1
        heard = [m for m, at in epoch.straight_at.items() if since(now, at) <= STRAIGHT]
        epoch.lines.look(sum(1 << m for m in {epoch.me, *heard}), epoch.turns)

    def look_after(self, epoch):
        """Who is silent is gone, if this machine hears most."""
        now, silent_after = epoch.clock.moment, self.match.silent_after
        here = [m for m in range(epoch.machines) if m == self.me or not epoch.is_gone(m)]
        heard = [m for m in here if m == self.me or not silent_after
                 or epoch.contacts[m].confirmed and epoch.contacts[m].silence(now) <= silent_after // 2]
        most = 2 * len(heard) > len(here) or len(here) == 2 or 2 * len(heard) == len(here) and here[0] in heard
        for is_out in (self.is_out, self.is_stalled):
            for machine in epoch.others:
                if is_out(epoch, machine, now) and most:
                    epoch.mesh.gone |= 1 << machine

    def is_out(self, epoch, machine, now):
        """Whether a machine is silent, or was to come with this epoch or to play on in it and hasn't."""
        contact, silent_after, stalled_after = epoch.contacts[machine], self.match.silent_after, self.match.stalled_after
        overtime = since(now, epoch.opened) - (silent_after or COMES_IN)
        is_absent = not epoch.is_gone(machine) and not contact.confirmed and overtime > silent_after
        plays_on = epoch.is_gone(machine) or epoch.has_come(machine, now) and epoch.has_begun(machine)
        stays_behind = epoch.follows and not plays_on and 0 < stalled_after < overtime - silent_after
        return contact.is_silent(now, silent_after) or self.running and (is_absent or stays_behind)

    def waits_for(self, epoch, machine, now):
        """What a machine is waited for: that it comes to this epoch, or words; None if nothing."""
        if not self.running or epoch.is_gone(machine):
            return None
        if epoch.follows and epoch.contacts[machine].confirmed and not epoch.has_come(machine, now):
            return COMES
        return epoch.mesh.waits_for(machine, epoch.terms.threshold, epoch.known_end(self.match.comers, epoch.marks))

    def is_stalled(self, epoch, machine, now):
        """Whether a machine that has begun, and has come, has held this one up for too long. It is looked at in each turn."""
        wait, stall = self.waits_for(epoch, machine, now), epoch.stalls[machine]
        goes_on = wait is not None and wait == stall.wait and since(now, stall.seen) <= LEAP
        began = stall.since if goes_on else now
        epoch.stalls[machine] = Stall(wait, began, now, epoch.has_begun(machine), epoch.has_come(machine, now))
        if wait in (None, COMES) or not epoch.has_begun(machine) or self.match.stalled_after == 0:
            return False
        is_kept = epoch.mesh.may_be_kept(machine, wait, epoch.terms.threshold)
        return since(now, began) > self.match.stalled_after + (self.match.silent_after or COMES_IN) * is_kept

    # ---- what its program does

    def play(self, words):
        """Gives these words, by player, and plays the next frame."""
        for player, word in words.items():
            self.epoch.give(player, word)
        self.epoch.frame += 1

    def settled(self):
        """Before this frame all is final."""
        return min(self.epoch.mesh.front(), self.epoch.frame)

    def note_settled(self, digest):
        self.epoch.digests.note(self.settled(), digest)

    def mark(self, player, mark):
        """Puts a mark on the next word of an own player."""
        self.epoch.marks[player] = len(self.epoch.mesh.words[player]), mark.text()

    def go_on(self):
        """The next epoch, if this one is over. Whether it is."""
        old, ending = self.epoch, self.epoch.ending(self.match.comers)
        if not ending or old.frame < ending[0]:
            return False
        end, mark = ending
        left = [old.mesh.left[p] if p in old.mesh.players else None for p in range(PLAYERS)]
        new = Epoch(self.me, old.terms.next(end, mark, left), old.clock)
        self.follow(new, old, end, left)
        self.epoch, self.past = new, old
        self.play_again(new, old, end)
        return True

    def follow(self, new, old, end, left):
        """What goes over from the old epoch."""
        new.clock, new.follows = Clock(0), True
        new.clock.moment, new.clock.last = old.clock.moment, old.clock.last
        new.stays = {m for m in old.terms.staying(end, left) if m in new.contacts and m in old.contacts}
        for machine in new.others:
            if machine in new.stays:
                new.contacts[machine] = old.contacts[machine].copy()
                new.stalls[machine] = Stall(begun=old.has_begun(machine))
                new.two_marks.update({m: player for m, player in old.two_marks.items() if m == machine})
            if machine not in new.terms.sitting() or machine in new.stays and old.is_gone(machine):
                new.mesh.gone |= 1 << machine
                new.told_gone.add(machine)

    def play_again(self, new, old, end):
        """The words past the end are given again, and the frames past it played again."""
        own = new.mesh.own()
        for player in own:
            new.mesh.words[player] = [old.given_at(player, end + at) for at in range(new.terms.delays[player])]
        for frame in range(end, old.frame):
            if new.can_play():
                self.play({player: old.given_at(player, frame + new.terms.delays[player]) for player in own})

    # ---- sending

    def send(self, now):
        """All that goes out in a turn: to whom, and the bytes."""
        out = []
        for machine in self.epoch.others:
            self.send_in(self.epoch, machine, now, out)
            if self.past and machine in self.past.contacts:
                self.send_in(self.past, machine, now, out)
        for epoch in (self.epoch, self.past):
            if epoch and self.carries_in(epoch):
                self.send_more(epoch, out)
        return out

    def send_in(self, epoch, machine, now, out):
        """The hello or the play for a machine."""
        epoch.clock.tick(now)
        if not epoch.is_gone(machine):
            self.pass_on(epoch, machine, Sealed(self.me, self.packet(epoch, machine)), out)

    def packet(self, epoch, machine):
        """What is made for a machine in this turn."""
        contact, now = epoch.contacts[machine], epoch.clock.moment
        number = contact.sent
        if contact.says_hello():
            contact.owes_hello, contact.sent = False, number + 1
            machines, words, owners, digest, opening = self.match_of(epoch)
            match = {"machines": machines, "words": words, "owners": owners, "digest": digest, "opening": opening}
            echo = contact.draw if contact.playing else contact.echo
            return self.seal(epoch, machine, wire.HELLO, wire.hello, match, self.draw, echo, self.own.patience, self.own.abilities)
        told = epoch.mesh.tell(machine)
        offers = {p: (first, len(words)) for p, first, words in told.offers}
        words = [word for _, _, some in told.offers for word in some]
        clocks = contact.clocks(epoch.frame, now)
        settled = epoch.comparisons[machine].tells(epoch.digests, number, now)
        contact.sent = number + 1
        gone = [m for m in range(8) if told.view.gone >> m & 1]
        return self.seal(epoch, machine, wire.PLAY, wire.play, number, dict(enumerate(told.view.has)), offers, words, clocks, settled, gone,
                         self.marks_for(epoch, machine))

    def marks_for(self, epoch, _machine):
        """The marks that a machine is told."""
        return epoch.told_marks()

    def pass_on(self, epoch, machine, sealed, out):
        """It goes straight, to a carrier, or both."""
        lines, shut = epoch.lines, epoch.shut()
        if not self.carries_in(epoch):
            out.append((machine, sealed.bytes))
            return
        carrier = lines.carrier(machine, self.me, shut) if lines.is_broken(machine) else None
        if carrier is not None:
            lines.wait(carrier, (machine, STEPS, sealed))
        if lines.goes_straight(machine, epoch.turns, carrier):
            if not (lines.has_company(machine, shut) and lines.wait(machine, (machine, 0, sealed))):
                out.append((machine, sealed.bytes))

    def send_more(self, epoch, out):
        """The map, and what is carried."""
        ready = [m for m in epoch.others if epoch.carries_with(m)]
        if epoch.turns and epoch.lines.tells_map(epoch.turns):
            told = [(mask_places(mask), number) for _, mask, number in epoch.lines.entries()]
            out += [(m, self.seal(epoch, m, wire.MAP, wire.line_map, told)) for m in ready]
        for hop, _, parcels in sorted(epoch.lines.take_waiting(), key=lambda it: it[0]):
            if hop in ready and len(parcels) == 1 and parcels[0][1] == 0:
                out.append((hop, parcels[0][2].bytes))
            elif hop in ready:
                inside = [(to, steps, sealed.bytes) for to, steps, sealed in parcels]
                out.append((hop, self.seal(epoch, hop, wire.CARRIED, wire.carried, inside)))

    def bye(self, machine, why):
        """What says to a machine that this one leaves, in this epoch; None if it can't be said."""
        epoch = self.epoch
        if epoch.is_gone(machine) or not epoch.contacts[machine].playing:
            return None
        return self.seal(epoch, machine, wire.BYE, wire.bye, why)


def mask_places(mask):
    """The places of a mask."""
    return [place for place in range(8) if mask >> place & 1]
