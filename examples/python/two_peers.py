"""Two machines of a match, in one process, on a line that loses datagrams: examples/c/two_peers.c in Python. Where `Way` stands,
a game on two machines has its sockets."""
from digest import FRAMES, NUMBER, TURN, Digest, Way, word_of

from fazgrond import Answer, Happened, Match, Peer, Refused, Session, Settings


class Machine:
    def __init__(self, me: int) -> None:
        self.me, self.game, self.way, self.wait, self.rerun, self.is_alone = me, Digest(), Way(), 0, 0, False
        self.session = Session(Settings(players=2, local=[me + 1], limit=FRAMES), self.game)
        self.peer = Peer(self.session, Match(me, machines=2, owners=[0, 1], number=NUMBER))

    def turn(self, turn: int) -> None:
        """A turn of the main loop."""
        for _, datagram in self.way.come(turn):
            self.peer.hear(datagram, turn * TURN)  # what is refused has changed nothing
        if self.peer.is_running and self.wait == 0:
            self.give(word_of(self.me, self.session.frame))
        self.wait = max(0, self.wait - 1)
        reached = self.peer.turn(turn * TURN)
        self.rerun += reached.rerun if reached else 0
        self.peer.note_settled(self.session.settled_state()[1])  # the state is a digest of itself
        for event in self.peer.events():
            assert event.code != Happened.DESYNC
            if event.code == Happened.TIME_SYNC:
                self.wait = event.frames_ahead
            self.is_alone |= event.code == Happened.LEFT

    def give(self, word: int) -> None:
        """A word, unless this machine is too far ahead, or at the last frame."""
        try:
            self.session.add_local_input(self.me + 1, word)
        except Refused as why:
            if why.answer not in (Answer.PREDICTION_THRESHOLD, Answer.FRAME_LIMIT):
                raise

    def close(self) -> None:
        self.peer.close()
        self.session.close()


def main() -> None:
    both, turn = [Machine(0), Machine(1)], 0
    while min(machine.session.settled for machine in both) < FRAMES:
        for me, machine in enumerate(both):
            machine.turn(turn)
            both[1 - me].way.send(turn, me, machine.peer.send(1 - me, turn * TURN) or b"")
        turn += 1
    for machine in both:
        settled, state = machine.session.settled_state()
        print(f"machine {machine.me}: settled {settled} state {state}{', after rollbacks' if machine.rerun > FRAMES else ''}")
    bye = both[0].peer.bye(1)  # machine 0 leaves, and says so three times
    for _ in range(3):
        both[1].way.send(turn, 0, bye or b"")
    while not both[1].is_alone:
        both[1].turn(turn)
        turn += 1
    print("machine 1 is alone")
    for machine in both:
        machine.close()


main()
