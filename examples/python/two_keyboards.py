"""Two players on a line, each on a machine of their own: examples/c/two_keyboards.c in Python. Both machines are in this process,
and each word reaches the other machine three turns late. A line of the input is a turn."""
import sys
from dataclasses import dataclass, field, replace

from fazgrond import Answer, Refused, Row, Session, Settings

LATE, WIDTH, REACH = 3, 20, 2
LEFT, RIGHT, HIT = 1, 2, 4


@dataclass
class Fight:
    """The game: its state, and what a frame makes of it."""

    places: list[int] = field(default_factory=lambda: [5, 14])
    points: list[int] = field(default_factory=lambda: [0, 0])

    def save(self) -> "Fight":
        return replace(self, places=self.places[:], points=self.points[:])

    def load(self, state: "Fight") -> None:
        self.places, self.points = state.places[:], state.points[:]

    def advance(self, row: Row) -> None:
        for at, word in enumerate(row.words):
            step = bool(word & RIGHT) - bool(word & LEFT)
            self.places[at] = min(max(self.places[at] + step, 0), WIDTH - 1)
        if abs(self.places[0] - self.places[1]) <= REACH:
            for at, word in enumerate(row.words):
                self.points[at] += bool(word & HIT)

    def picture(self) -> str:
        line = ["."] * WIDTH
        line[self.places[0]] = "1"
        line[self.places[1]] = "X" if self.places[0] == self.places[1] else "2"
        return f"  {''.join(line)} {self.points[0]}:{self.points[1]}"


class Machine:
    def __init__(self, me: int, other: int) -> None:
        self.me, self.other, self.game = me, other, Fight()
        masks = {player: LEFT | RIGHT for player in (1, 2)}  # a hit isn't held
        self.session = Session(Settings(players=2, local=[me], masks=masks), self.game)
        self.on_the_way: list[tuple[int, int, int]] = []  # when a word is due, and its frame

    def hear(self, turn: int) -> None:
        """Takes each word that is due, and rolls back if one was predicted wrong."""
        while self.on_the_way and self.on_the_way[0][0] <= turn:
            _, frame, word = self.on_the_way.pop(0)
            self.session.remote_input(self.other, frame, word)
        self.session.synchronize_input()

    def play(self, other: "Machine", turn: int, word: int) -> None:
        """Plays a frame, unless the machine is too far ahead of the other's words."""
        frame = self.session.input_frame(self.me)
        try:
            self.session.add_local_input(self.me, word)
        except Refused as why:
            if why.answer != Answer.PREDICTION_THRESHOLD:
                raise
            return
        other.on_the_way.append((turn + LATE, frame, word))
        self.session.advance_frame()


def buttons(keys: str, left: str, right: str, hit: str) -> int:
    return LEFT * (left in keys) | RIGHT * (right in keys) | HIT * (hit in keys)


def main() -> None:
    one, two, turn = Machine(1, 2), Machine(2, 1), 0
    with one.session, two.session:
        for keys in sys.stdin:
            one.hear(turn)
            two.hear(turn)
            one.play(two, turn, buttons(keys, *"ads"))
            two.play(one, turn, buttons(keys, *"jlk"))
            print(f"{turn:<5}{one.game.picture()}{two.game.picture()}")
            turn += 1
        one.hear(turn + LATE)
        two.hear(turn + LATE)
        print(f"end  {one.game.picture()}{two.game.picture()}")
    assert one.game == two.game


main()
