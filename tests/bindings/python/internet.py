"""Two machines with a line in one process, by fazgrond.online. It prints nothing if all is right."""
import time

from fazgrond.online import Keys, Line, Relay, Stage, Way

COUNT = 50


def refused(why, *words, **more):
    try:
        Line(*words, **more)
    except ValueError as found:
        assert why in str(found), found
    else:
        raise AssertionError(why)


def datagram(number):
    return bytes([number]) + b"x" * (number * 23)


keys = Keys(), Keys()
assert len(keys[0].open) == 32 and keys[0].open != keys[1].open
relay = Relay("127.0.0.1", 3478, "user", "x" * 300)
refused("two machines of a match", 1, 1, keys[0], keys[1].open)
refused("another length", 0, 1, keys[0], b"short")
refused("too many relays", 0, 1, keys[0], keys[1].open, relays=[relay] * 9)
refused("too long", 0, 1, keys[0], keys[1].open, relays=[relay])
lines = Line(0, 1, keys[0], keys[1].open, stun=None), Line(1, 0, keys[1], keys[0].open)
assert lines[0].number() == lines[1].number() != 0
assert not lines[0].relays([relay]) and lines[0].relays([])
assert not lines[0].signalled(b"abc") and not lines[0].send(b"abc") and lines[0].receive() is None
came, sent, end = [0, 0], 0, time.monotonic() + 20
while min(came) < COUNT:
    assert time.monotonic() < end, came
    for at, line in enumerate(lines):
        line.turn(int(time.monotonic() * 1000))
        while (signal := line.signal()) is not None:
            assert lines[1 - at].signalled(bytearray(signal))
        while (heard := line.receive()) is not None:
            assert heard == datagram(came[at]), came
            came[at] += 1
    if sent < COUNT and all(line.look().stage == Stage.UP for line in lines):
        assert all(line.send(kind(datagram(sent))) for line, kind in zip(lines, [bytes, memoryview]))
        sent += 1
    time.sleep(0.001)
seen = lines[0].look()
assert seen.way == Way.LAN and seen.received == COUNT and seen.forged == 1 and seen.misnamed == 0
for line in lines:
    line.close()
