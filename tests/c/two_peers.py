"""What two_peers.c, watch.c, come_back.c and two_crashes.c have to print, without any rollback: the game is run once, with each player's
words in their frames.

    python3 two_peers.py > two_peers.stdout
    python3 two_peers.py watch > watch.stdout
    python3 two_peers.py come_back < come_back.stdout
    python3 two_peers.py two_crashes < two_crashes.stdout

Of come_back.c the frame is read at which machine 1 is back: how many turns the others take to bring it in is theirs to say. It has to be
within these bounds, and all else follows.

Each datagram takes two turns: the first hello is heard in turn 2, its answer in turn 4, the first play in turn 6, and so the match begins
in turn 7. Machine 1 plays a frame in each turn from then on, and gives the word of two frames later. What it sent in turn 199, its last
one, is heard. So of player 2 there are the words of frames 0 to 194. Machine 0 plays on by eight frames, and stands at frame 203, until
machine 1 is begun again and heard: its old player leaves, and from the next turn on a frame is played in each. The rows since take two
turns to who comes, and that it has them two turns back. Then three frames more are played, and the mark is on the word of two frames later:
frame 208, so that player 2 is back at frame 209 at the earliest. A second later is late.

Of two_crashes.c the frame is read at which machine 0 goes on alone, since when machine 1 is silent for long enough is the library's to say.
All else follows: a machine that crashes leaves those who are left eight frames further, and the mark is on the word of two frames later.
"""
import re
import sys

FRAMES, LONGER = 600, 900
GONE = 5    # in the place of the number times the word

# Of come_back.c: the turns in which the match begins, and in which machine 1's program ends; and its settings.
BEGINS, ENDED, DELAY, THRESHOLD = 7, 200, 2, 8
AT_LEAST, AT_MOST = 6, 60

# Of two_crashes.c: the turn in which machine 1 crashes, and how many frames after its last word an epoch ends.
CRASHED, SEAM = 150, THRESHOLD + DELAY + 1


def word(me, frame):
    return (frame // (5 + 2 * me) * 2654435761 & 0xFFFFFFFF) >> 28


def come_back(line):
    away = ENDED - BEGINS + DELAY   # so many first words are 0, and then one is given in each turn
    stands = away + THRESHOLD
    back = min(max(int(re.findall(r"frame (\d+)", line)[-1]), stands + AT_LEAST), stands + AT_MOST)
    state = 0
    for frame in range(LONGER):
        first = word(0, frame) if frame >= DELAY else 0
        second = word(1, frame) if DELAY <= frame < away or frame >= back + DELAY else 0
        state = (31 * state + first + (GONE if away <= frame < back else 2 * second)) % 1000003
    print(f"player 2 is away from frame {away} on, and back at frame {back}")
    for me in range(2):
        print(f"machine {me}: settled {LONGER} state {state}")


def two_crashes(lines):
    first = CRASHED - BEGINS + DELAY + SEAM
    second = int(re.findall(r"frame (\d+), with machines 0$", lines, re.MULTILINE)[-1])
    gone_from = [FRAMES, first - SEAM, second - SEAM]
    state = 0
    for frame in range(FRAMES):
        words = [GONE if frame >= gone_from[me] else (me + 1) * word(me, frame) if frame >= DELAY else 0 for me in range(3)]
        state = (31 * state + sum(words)) % 1000003
    for me in (0, 2):
        print(f"machine {me} goes on at frame {first}, with machines 0 2")
    print(f"machine 0 goes on at frame {second}, with machines 0")
    print(f"machine 0: settled {FRAMES} state {state}")


def main(words):
    state = 0
    if words == ["two_crashes"]:
        return two_crashes(sys.stdin.read())
    if words == ["come_back"]:
        return come_back(sys.stdin.readline())
    for frame in range(FRAMES):
        state = (31 * state + word(0, frame) + 2 * word(1, frame)) % 1000003
    if words == ["watch"]:
        return print(f"viewer: rows {FRAMES} state {state}")
    for me in range(2):
        print(f"machine {me}: settled {FRAMES} state {state}, after rollbacks")
    return print("machine 1 is alone")


main(sys.argv[1:])
