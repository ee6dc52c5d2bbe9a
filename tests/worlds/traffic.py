"""How many bytes a second machines send, with lines that work and lines that don't."""
import random

from kinds import Scene
from sizes import UDP
from world import World

FIRST, LAST = 300, 600


class Steady(Scene):
    """A match in which nothing happens but that some lines are down from the start: nothing is lost, and all comes in the next turn."""

    def __init__(self, machines, down):
        super().__init__(1, "steady", machines=(machines,), turns=LAST, silent_after=5000)
        self.loss, self.late, self.copies, self.draw = 0, 1, 0, random.Random(1)
        self.owners, self.settings = list(range(machines)), self.settings._replace(first_number=0, stalled_after=0)
        self.open_all()
        self.lines(0, down)


def rates(machines, down):
    """Bytes a second of each machine."""
    plan = Steady(machines, down).plan()
    plan.words.values = 128
    world = World(plan)
    world.counted = range(FIRST, LAST)
    world.run()
    return [world.bytes[m] * 60 // (LAST - FIRST) for m in range(machines)]


def star(machines):
    """All lines but those of machine 0 are down."""
    return {(a, b) for a in range(1, machines) for b in range(1, machines) if a != b}


def traffic():
    """Prints a table."""
    print(f"bytes a second that machines send, with {UDP} of IP and UDP a datagram; three words in ten are new, of 7 bits")
    for machines in (4, 8):
        whole = None
        for name, down in (("all lines work", set()), ("line 0-1 is down", {(0, 1), (1, 0)}), ("star of machine 0", star(machines))):
            rate = rates(machines, down)
            whole = whole or sum(rate)
            print(f"{machines} machines, {name:18} machine 0 {rate[0]:7,}  1 {rate[1]:7,}  2 {rate[2]:7,}  3 {rate[3]:7,}"
                  f"  all {sum(rate):9,}  {sum(rate) / whole:.2f}", flush=True)
