"""A guess that comes true: a thread runs the frames that player 2's words would make, before they come. examples/c/guess.c in
Python."""
from threading import Thread

from fazgrond import Row, Session, Settings


class Sum:
    """Ten times the number, and of each player the number times the word."""

    def __init__(self) -> None:
        self.state = self.steps = 0

    def save(self) -> int:
        return self.state

    def load(self, state: int) -> None:
        self.state = state

    def advance(self, row: Row) -> None:
        self.state = (10 * self.state + sum(player * word for player, word in enumerate(row.words, 1))) % 1000000
        self.steps += 1


def advance(session: Session[int]) -> None:
    session.add_local_input(1, 1)
    session.advance_frame()


def play(is_guessed: bool) -> None:
    """Three frames of player 1, and then player 2's word 3 in each of them: what a rollback costs, guessed or not."""
    game = Sum()
    with Session(Settings(players=2, local=[1]), game) as session:
        advance(session)
        advance(session)
        job = session.guess(2, [3], 3) if is_guessed else None
        helper = Thread(target=job.run, args=[Sum()]) if job else None
        if helper:
            helper.start()
        advance(session)  # the game goes on meanwhile
        if job and helper:
            helper.join()
            print(f"job {job.number}: {session.graft(job)} states")
        for frame in range(3):
            session.remote_input(2, frame, 3)
        game.steps = 0
        session.synchronize_input()
        print(f"{'guessed' if is_guessed else 'not guessed'}: {game.steps} frames run again, state {game.state}")


play(False)
play(True)
