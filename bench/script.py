"""Makes a script of two players, in which the inputs of the second come late: python3 bench/script.py FRAMES SEED

Player 1 is local. The word of player 2 for frame f arrives 0 to 8 frames late, in order. It is told before the local
word of that frame, which the threshold would refuse without it at frame f + 8. In nine frames of ten it is the word of
the frame before, so that the prediction is right. Words are single digits, so that long scripts fit.
"""
import random
import sys

THRESHOLD = 8
MOST_BYTES = 1_048_576
DIGITS = range(10)


def arrivals(frames, draw):
    """When the word of each frame arrives."""
    last = 0
    for frame in range(frames):
        late = draw.randrange(THRESHOLD + 1)
        last = max(last, frame + late)
        yield last


def remote_words(frames, draw):
    word = 0
    for _ in range(frames):
        if draw.randrange(10) == 0:
            word = draw.choice([digit for digit in DIGITS if digit != word])
        yield word


def lines(frames, draw):
    when = list(arrivals(frames, draw))
    words = list(remote_words(frames, draw))
    heard = 0
    yield f"roll 1 players 2 local 1 delay 0,0 threshold {THRESHOLD}"
    for now in range(frames):
        before = heard
        while heard < frames and when[heard] == now:
            yield f"R 2 {heard} {words[heard]}"
            heard += 1
        if heard > before:
            yield "S"
        yield f"L 1 {draw.choice(DIGITS)}"
        yield "A"


def main():
    frames, seed = int(sys.argv[1]), int(sys.argv[2])
    text = "".join(line + "\n" for line in lines(frames, random.Random(seed)))
    if len(text) > MOST_BYTES:
        sys.exit(f"{frames} frames take {len(text)} bytes, and a script has at most {MOST_BYTES}")
    sys.stdout.write(text)


main()
