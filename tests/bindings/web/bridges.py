"""What strangers at a broker can make the bridge do, which joins by a code (bindings/web/meet.py): a broker of our own, and a clock
that goes faster."""
import asyncio
import os
import sys

from checks import WEB, check

sys.path.insert(0, str(WEB))
import meet  # noqa: E402


class Broker:
    """What is said comes to `answers`, and what that gives comes to the bridge; None is that nobody hears."""

    def __init__(self, answers):
        self.answers, self.came, self.said = answers, asyncio.Queue(), []

    async def open(self, url):
        pass

    def say(self, subject, data, is_asked=False):
        self.said.append((subject, data))
        for it in self.answers(data):
            self.came.put_nowait(it)

    async def hear(self):
        return await self.came.get()


async def joined(broker, code):
    """Why a bridge doesn't come in, what it has told, and how long it took; it isn't let in, but may ask for that."""
    told, began = [], asyncio.get_running_loop().time()
    lobby = meet.Lobby("nats://127.0.0.1:1", "Ben", 7, told.append)
    lobby.broker = broker
    broker.inbox = "faz.in.Ben"
    if len(code) == 7:
        lobby.ask_door = lambda plate: asyncio.sleep(0, bytes(16))
    try:
        await asyncio.wait_for(lobby.join(code, False), 20)
        why = "it is in"
    except meet.Failed as failed:
        why = str(failed)
    return why, told, asyncio.get_running_loop().time() - began


def code_of(sodium):
    """A host's keys, and its code."""
    host = sodium.user(os.urandom(32))
    code = meet.follow("fazgrond code 1", host[0], meet.CODE)
    number = int.from_bytes(code, "big") << 12 | int.from_bytes(meet.follow("fazgrond slip 1", code, 16)[:2], "big") >> 4
    return host, code, "".join(meet.SIGNS[number >> 5 * at & 31] for at in reversed(range(28)))


def offers(sodium, host, code, data):
    """A host's offer to who says hello, behind what a stranger says; it answers nothing else."""
    if data[:1] != b"h":
        return []
    speaks, key = os.urandom(32), meet.follow("fazgrond room key 1", code, 32)
    proof = sodium.signed(host[1], b"fazgrond speaks 1\0" + speaks)
    text = bytes([meet.VERSION]) + host[0] + speaks + proof + os.urandom(32)
    return [None, b"o" + os.urandom(100), b"o", b"d", None, b"o" + sodium.seal(key, text, b"o")]


def strangers_end_nothing():
    meet.AGAIN, meet.PATIENCE, meet.BELIEVED = 0.02, 1, 0.3
    sodium = meet.Sodium()
    host, code, text = code_of(sodium)
    why, told, took = asyncio.run(joined(Broker(lambda data: [None, None]), text))
    check("nobody hears the bridge", why == meet.REASONS[1] and len(told) == 1 and "nobody answers so far" in told[0], f"{why} {told}")
    check("it waits for a host", took >= meet.PATIENCE, f"{took}")
    broker = Broker(lambda data: offers(sodium, host, code, data))
    why, told, _ = asyncio.run(joined(broker, text))
    asked = [data for _, data in broker.said if data[:1] == b"a"]
    check("a host among strangers is asked", asked and why == meet.REASONS[5] and len(told) == 1, f"{why} {told}")
    for what, answer in [("wrong", b"\1\0\0"), ("junk", b"\0\0\x30" + os.urandom(48))]:
        broker = Broker(lambda data, answer=answer: [b"n" + data[1:18] + answer] if data[:1] == b"k" else [])
        why, told, took = asyncio.run(joined(broker, "KXQ4H7P"))
        check(f"a stranger says {what}", why == meet.REASONS[8] and len(told) == 1 and "may be wrong" in told[0], f"{why} {told}")
        check(f"it is waited, though a stranger says {what}", took >= meet.BELIEVED, f"{took}")
        knocks = {data[1:17] for _, data in broker.said}
        check(f"proofs after {what}", len(knocks) == (meet.KNOCKS if what == "junk" else 1), str(len(knocks)))
