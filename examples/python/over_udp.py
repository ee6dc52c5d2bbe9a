"""One machine of the match of two_peers.py, over UDP: over_udp.py ME PORT ADDRESS PORT. Run one with 0 and one with 1."""
import socket
import sys
import time

from digest import FRAMES, NUMBER, Digest, word_of

from fazgrond import Happened, Match, Peer, Refused, Session, Settings, text

PAST_LAST = 32  # turns past the end, so that the other has all of it too
SPEED = 10  # how many times as fast it goes
# What ends the match here. To a program that was begun again, and that its match doesn't take back, the other machine is missing.
OVER = {Happened.MISSING, Happened.MISMATCH, Happened.DROPPED, Happened.DESYNC}


def milliseconds() -> int:
    return int(time.monotonic() * 1000 * SPEED)


def main(me: int, port: int, address: str, other_port: int) -> None:
    line = socket.socket(socket.AF_INET, socket.SOCK_DGRAM)
    line.bind(("", port))
    line.setblocking(False)
    other, wait, past = 1 - me, 0, 0
    with Session(Settings(players=2, local=[me + 1], limit=FRAMES), Digest()) as session, \
            Peer(session, Match(me, machines=2, owners=[0, 1], number=NUMBER, silent_after=100000)) as peer:
        while past < PAST_LAST:
            now = milliseconds()
            try:
                while True:
                    peer.hear(line.recvfrom(2048)[0], now)
            except (BlockingIOError, ConnectionRefusedError):
                pass  # no more has come, or the other isn't there
            if peer.is_running and wait == 0:
                try:
                    session.add_local_input(me + 1, word_of(me, session.frame))
                except Refused:
                    pass  # too far ahead, or at the last frame
            wait = max(0, wait - 1)
            peer.turn(now)
            peer.note_settled(session.settled_state()[1])
            for event in peer.events():
                if event.code in OVER:
                    sys.exit(f"the match is over: {text(event.code)}")
                wait = event.frames_ahead or wait
            datagram = peer.send(other, now)
            if datagram is not None:
                line.sendto(datagram, (address, other_port))
            past += session.settled == FRAMES
            time.sleep(1 / 60 / SPEED)
        settled, state = session.settled_state()
        print(f"machine {me}: settled {settled} state {state}")


main(int(sys.argv[1]), int(sys.argv[2]), sys.argv[3], int(sys.argv[4]))
