"""A match of two peers in one process, and a viewer who watches machine 0: examples/c/watch.c in Python."""
from digest import FRAMES, NUMBER, TURN, Digest, Way, word_of

from fazgrond import Line, LineSettings, Match, Peer, Refused, Session, Settings, Viewer

VIEWER = 2


def play(peer: Peer, session: Session[int], me: int, turn: int) -> None:
    if peer.is_running:
        try:
            session.add_local_input(me + 1, word_of(me, session.frame))
        except Refused:
            pass  # too far ahead, or at the last frame
    peer.turn(turn * TURN)


def watch(viewer: Viewer, seen: Digest) -> int:
    """Plays the rows that are there, and says how many they were."""
    count = 0
    for row in viewer.rows():
        seen.advance(row)
        count += 1
    return count


def main() -> None:
    ways = [Way(), Way(), Way()]
    sessions = [Session(Settings(players=2, local=[me + 1], limit=FRAMES), Digest()) for me in range(2)]
    peers = [Peer(session, Match(me, machines=2, owners=[0, 1], number=NUMBER)) for me, session in enumerate(sessions)]
    settings = LineSettings(number=0x1157E2, host=0, machines=2, owners=[0, 1])
    line, viewer, seen, rows, turn = Line(sessions[0], settings), Viewer(settings), Digest(), 0, 0
    while not line.look(turn * TURN).has_ended:
        now = turn * TURN
        for me in range(2):
            for sender, datagram in ways[me].come(turn):
                try:
                    line.receive(datagram, now) if sender == VIEWER else peers[me].receive(datagram, now)
                except Refused:
                    pass  # it has changed nothing
            play(peers[me], sessions[me], me, turn)
            ways[1 - me].send(turn, me, peers[me].send(1 - me, now) or b"")
        if (shown := line.send(now)) is not None:
            ways[VIEWER].send(turn, 0, shown)
        for _, datagram in ways[VIEWER].come(turn):
            try:
                viewer.receive(datagram, now)
            except Refused:
                pass
        rows += watch(viewer, seen)
        ways[0].send(turn, VIEWER, (viewer.send(now) if rows < FRAMES else viewer.bye()) or b"")
        turn += 1
    print(f"viewer: rows {rows} state {seen.state}")
    for it in [viewer, line, *peers, *sessions]:
        it.close()


main()
