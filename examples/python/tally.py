"""Tally, a game of one number, and a word of player 2 that comes late: examples/c/tally.c in Python. It carries out its requests
itself."""
from fazgrond import Handle, Kind, Request, Row, Settings


def stepped(number: int, row: Row) -> int:
    """Ten times the number, and of each player the number times the word, or 5 if the player has left."""
    told = (5 if word is None else player * word for player, word in enumerate(row.cells(), 1))
    return (10 * number + sum(told)) % 1000000


class Tally:
    def __init__(self) -> None:
        self.state = 0
        self.saved = {0: 0}  # the opening

    def carry_out(self, request: Request) -> None:
        slot = request.slot
        if request.kind == Kind.LOAD:
            self.state = self.saved[slot]
            print(f"  load slot {slot}: state {self.state}")
        elif request.kind == Kind.SAVE:
            self.saved[slot] = self.state
            print(f"  save slot {slot}")
        elif request.kind == Kind.STEP:
            self.state = stepped(self.state, request.row)
            print(f"  step {request.row.words[0]} {request.row.words[1]}: state {self.state}")
        else:
            del self.saved[slot]
            print(f"  free slot {slot}")

    def carry_out_all(self, session: Handle) -> None:
        for request in session.requests():
            self.carry_out(request)

    def advance(self, session: Handle) -> None:
        session.add_local_input(1, 1)
        reached = session.advance_frame()
        self.carry_out_all(session)
        print(f"frame {reached.frame} from {reached.start} rerun {reached.rerun} state {self.state}")


def main() -> None:
    game = Tally()
    with Handle(Settings(players=2, local=[1])) as session:
        game.advance(session)
        game.advance(session)
        print("player 2 gave 3 in frame 0")
        session.remote_input(2, 0, 3)
        session.synchronize_input()
        game.carry_out_all(session)
        print(f"settled {session.settled} state {game.state}")


main()
