"""Lines between machines that break: the map of them, and how datagrams are carried round.

A datagram comes *straight* if the machine that sent it made it. Machine b *hears a straight* if a play that is newer than all before came
straight of a within the last `relay_after`.

The map has an entry for each machine of the epoch: a mask of the machines that it hears straight, and a number. At first all masks
are empty: nobody is known to hear anybody. A machine makes its own mask anew in each turn, and its number rises by one when that
changes. It tells the whole map to each other machine that isn't shut, straight, in a datagram of its own: in each of the 16 turns
after an entry changed, else in one turn of 16. Of a map it takes each entry with a number that is greater than the one it has. Of
itself it takes none: if that has another mask, and a number that isn't less than its own, its own becomes one more. Two machines have
no map.

A machine is *shut* if it is gone, or doesn't play with this one yet. By the map a line *works* from a to b if b hears a straight. A *way*
to a machine goes over such lines by machines that aren't shut.

A datagram (hello, play or bye) for machine m goes straight

- in each turn, if the line to m works by the map, or nobody can carry for m, or it is a bye;
- else in one turn of 17: by an even number of turns hellos and plays, which go in turn, would never change places.

It is also handed to a carrier if the line to m doesn't work by the map, or this machine doesn't hear m straight. A carrier for m is a
machine to which the line works and from which a way leads to m, neither by this machine nor by the one that made the datagram. The
carriers take turns, the nearest first, and after every 16 datagrams one is passed over: so none of them gets all of what comes in
an even rhythm.

Who gets a datagram that is for another hands it on in the same turn, with one step less left: straight to that one if by the map each
of the two hears the other straight, else to a carrier; the straight way counts as one if it works by the map. It drops it if no step is
left, if its maker or its receiver is gone, or if there is no room. Who gets one for itself hears it as if it had come straight, but
only who handed it over was heard straight.

What is carried to one next machine in a turn, its own and what it hands on, goes in one datagram of at most 1,200 bytes, or in up to
four, after the map. Of what waits for that machine no maker has more than its *share*, which is these bytes divided by one less than the
machines of the match, unless it is one datagram alone: so a liar that floods a carrier doesn't keep others from being carried. What goes
straight to that machine, but for byes, waits to go with it if there is some, or may be: if a line of this machine doesn't work both ways,
of those to machines that aren't shut. If it is alone then, it goes as it is. Each of these parcels says in four bytes for whom it is, how
many steps are left, and its length. They stand in the place of the first four of the datagram, which are the same in all.
"""
from collections import deque

from rules import holds
from sizes import DATAGRAM, HEAD, LABEL

STEPS = 7
TURNS = 16          # for so many turns news are told, and in one of so many all else is
DATAGRAMS = 4       # so many wait for one next machine
NUMBERS = 1 << 32


def is_later(number, other):
    """Whether a number is greater than another, where they begin anew after 2^32."""
    return 0 < (number - other) % NUMBERS < NUMBERS // 2


class Lines:
    """The map of an epoch at one machine, and what waits to be handed over."""

    def __init__(self, me, members, first_number=0):
        self.me, self.members = me, members
        self.hears = {m: 0 for m in members}
        self.numbers = {m: first_number for m in members}
        self.changed_at = -TURNS
        self.known_ways, self.known_shut, self.taken_turns = {}, 0, {}
        self.waiting = {}

    def follow(self, old):
        """The masks of the epoch before. Its own number is greater than what the others begin with."""
        own = sum(1 << m for m in self.members)
        for machine in self.members:
            self.hears[machine] = old.hears.get(machine, 0) & own
        self.numbers[self.me] = (self.numbers[self.me] + 1) % NUMBERS

    # ---- the map

    def works(self, a, b):
        """Whether the line from a to b works, by the map."""
        return self.hears[b] >> a & 1 == 1

    def change(self, machine, mask, number, turn):
        """An entry is another one."""
        self.numbers[machine] = number % NUMBERS
        if mask != self.hears[machine]:
            self.hears[machine] = mask
            self.changed_at = turn
            self.known_ways.clear()

    def look(self, heard, turn):
        """This machine's own entry is made anew: it hears these machines straight."""
        if heard != self.hears[self.me]:
            self.change(self.me, heard, self.numbers[self.me] + 1, turn)

    def forge(self, turn):
        """A liar says of all others that they hear everybody."""
        for machine in self.members:
            if machine != self.me:
                self.change(machine, sum(1 << m for m in self.members), self.numbers[machine] + 1, turn)

    def entries(self):
        """What is told of the map."""
        return tuple((m, self.hears[m], self.numbers[m]) for m in self.members)

    def learn(self, entries, turn):
        """A map was heard."""
        for machine, mask, number in entries:
            if machine == self.me:
                self.defend(mask, number)
            elif is_later(number, self.numbers[machine]) or not holds("numbers"):
                self.change(machine, mask, number, turn)

    def defend(self, mask, number):
        """Somebody has an entry of this machine that isn't so: its own becomes greater, and so it gets through."""
        if mask != self.hears[self.me] and not is_later(self.numbers[self.me], number) and holds("own_entry"):
            self.numbers[self.me] = (number + 1) % NUMBERS

    def has_news(self, turn):
        """Whether an entry changed within the last 16 turns."""
        return turn - self.changed_at < TURNS

    def tells_map(self, turn):
        return len(self.members) > 2 and (self.has_news(turn) and holds("news") or (turn + self.me) % TURNS == 0 and holds("again"))

    # ---- straight, or carried

    def is_broken(self, machine):
        """Whether what goes to a machine is carried, since the line doesn't work both ways."""
        return not self.works(self.me, machine) or not self.works(machine, self.me) and holds("one_way")

    def has_company(self, machine, shut):
        """Whether something may be carried to a machine with which what goes straight can go."""
        others = [m for m in self.members if m != self.me and not shut >> m & 1]
        return machine in others and holds("together") and (machine in self.waiting or any(map(self.is_broken, others)))

    def goes_straight(self, machine, turn, carrier):
        """Whether what goes to a machine goes straight, for which there is this carrier or none."""
        return self.works(self.me, machine) or carrier is None and holds("no_carrier") \
            or (turn + self.me) % (TURNS + holds("odd")) == TURNS // 2 and holds("probe")

    def distances(self, receiver, without, shut):
        """How many steps it is from each machine to the receiver."""
        far, queue = {receiver: 0}, deque([receiver])
        while queue:
            b = queue.popleft()
            for a in self.members:
                if a not in far and a not in without and not shut >> a & 1 and self.works(a, b):
                    far[a] = far[b] + 1
                    queue.append(a)
        return far

    def ways(self, receiver, maker, shut):
        """The machines that can be handed what one machine made for another, the nearest first."""
        if shut != self.known_shut:
            self.known_shut = shut
            self.known_ways.clear()
        key = receiver, maker
        if key not in self.known_ways:
            far = self.distances(receiver, {self.me, maker} - {receiver}, shut)
            self.known_ways[key] = [m for _, m in sorted((far[m], m) for m in far if self.works(self.me, m)
                                    and (m != receiver or maker != self.me and not shut >> m & 1))]
        return self.known_ways[key]

    def carrier(self, receiver, maker, shut):
        """Who is handed the next datagram; None if nobody can carry it."""
        ways = self.ways(receiver, maker, shut) if holds("carry") else []
        if not ways:
            return None
        count = self.taken_turns[receiver, maker] = self.taken_turns.get((receiver, maker), -1) + 1
        if not holds("in_turn"):
            return ways[0]
        return ways[(count + (count // TURNS if holds("pass_over") else 0)) % len(ways)]

    # ---- parcels

    def hand_on(self, parcel, shut):
        """Hands on what is for another machine. Whether there was somebody to take it."""
        receiver, steps, datagram = parcel
        if steps == 0 or receiver not in self.hears:
            return False
        whole = self.works(self.me, receiver) and self.works(receiver, self.me)
        sure = whole and not shut >> receiver & 1 and holds("sure")
        hop = receiver if sure else self.carrier(receiver, datagram.sender, shut)
        return hop is not None and self.wait(hop, (receiver, steps - holds("steps"), datagram))

    def share(self):
        """How many bytes of one maker wait for one next machine at most."""
        return DATAGRAMS * (DATAGRAM - HEAD) // (len(self.members) - 1)

    def passes_share(self, datagrams, parcel):
        """Whether a parcel is more than its maker's share."""
        waits = sum(other[2].size for _, parcels in datagrams for other in parcels if other[2].sender == parcel[2].sender)
        return 0 < waits and self.share() < waits + parcel[2].size and holds("share")

    def wait(self, hop, parcel):
        """A parcel waits for its next machine, in the first datagram that has room for it. Whether there was room."""
        datagrams = self.waiting.setdefault(hop, [])
        if self.passes_share(datagrams, parcel):
            return False
        size = parcel[2].size + (0 if holds("letters") else LABEL)
        for datagram in datagrams if holds("packed") else []:
            if datagram[0] + size <= DATAGRAM:
                datagram[0] += size
                datagram[1].append(parcel)
                return True
        if len(datagrams) == DATAGRAMS and holds("full"):
            return False
        datagrams.append([HEAD + size, [parcel]])
        return True

    def take_waiting(self):
        """What goes out in this turn: the next machine, the size and the parcels of each datagram."""
        out = [(hop, size, parcels) for hop, datagrams in self.waiting.items() for size, parcels in datagrams]
        self.waiting = {}
        return out
