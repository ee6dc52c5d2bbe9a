"""The game of two_peers.py and watch.py, and their bad line."""
from fazgrond import Row

FRAMES, TURN = 600, 16
NUMBER = 0x5EED5EED5EED5EED


class Digest:
    """31 times the number, and of each player the number times the word."""

    def __init__(self) -> None:
        self.state = 0

    def save(self) -> int:
        return self.state

    def load(self, state: int) -> None:
        self.state = state

    def advance(self, row: Row) -> None:
        told = (5 if word is None else player * word for player, word in enumerate(row.cells(), 1))
        self.state = (31 * self.state + sum(told)) % 1000003


def word_of(me: int, frame: int) -> int:
    """What a player holds in a frame."""
    return (frame // (5 + 2 * me) * 2654435761 & 0xFFFFFFFF) >> 28


class Way:
    """What is on the way to one end. One datagram in four is lost; the others come one to four turns later."""

    seed = 1

    def __init__(self) -> None:
        self.under_way: list[tuple[int, int, bytes]] = []

    def send(self, turn: int, sender: int, datagram: bytes) -> None:
        Way.seed = (Way.seed * 1664525 + 1013904223) & 0xFFFFFFFF
        if Way.seed >> 30:
            self.under_way.append((turn + 1 + (Way.seed >> 16) % 4, sender, datagram))

    def come(self, turn: int) -> list[tuple[int, bytes]]:
        """What has come by a turn, and of whom."""
        came = [(sender, datagram) for due, sender, datagram in self.under_way if due <= turn]
        self.under_way = [it for it in self.under_way if it[0] > turn]
        return came
