#!/usr/bin/python3
"""What a frame costs through Python: bench/python_frames.py, after `make` and bindings/python/build

The first five lines of `make bench` (bench/c_frames.c), by the classes: a frame is all calls and requests of a turn, each
line the least of five runs. `make c_frames && out/bench/c_frames 0` measures the same in C.
"""
import sys
import time
from pathlib import Path

sys.path.insert(0, str(Path(__file__).resolve().parent.parent / "out/python/package"))
from fazgrond import Match, Peer, Session, Settings  # noqa: E402

FRAMES, RUNS = 20000, 5


class Sum:
    def __init__(self):
        self.state = self.steps = 0

    def save(self):
        return self.state

    def load(self, state):
        self.state = state

    def advance(self, row):
        one, two = row.words
        self.state = (10 * self.state + one + 2 * two) % 1000000
        self.steps += 1


def play(session, late, changes):
    for frame in range(FRAMES):
        if frame >= late:
            session.remote_input(2, frame - late, frame - late if changes else 0)
            if late:
                session.synchronize_input()
        session.add_local_input(1, frame)
        session.advance_frame()


def measure(what, late, changes):
    least = 1.0
    for _ in range(RUNS):
        game = Sum()
        with Session(Settings(2, [1]), game) as session:
            start = time.process_time()
            play(session, late, changes)
            least = min(least, (time.process_time() - start) / FRAMES)
    print(f"{what:38} {least * 1e9:7.0f} ns a frame, {game.steps / FRAMES:4.2f} steps")


def take_turn(me, machine, came, turn):
    session, peer = machine
    now = turn * 16
    if came:
        peer.hear(came, now)
    if peer.is_running:
        session.add_local_input(me + 1, turn)
    peer.turn(now)
    return peer.send(1 - me, now)


def measure_peers():
    least = 1.0
    for _ in range(RUNS):
        sessions = [Session(Settings(2, [me + 1]), Sum()) for me in range(2)]
        machines = [(session, Peer(session, Match(me, 2, [0, 1], 7, draw=me + 1))) for me, session in enumerate(sessions)]
        sent = [None, None]
        start = time.process_time()
        for turn in range(FRAMES):
            for me in range(2):
                sent[1 - me] = take_turn(me, machines[me], sent[me], turn)
        least = min(least, (time.process_time() - start) / FRAMES / 2)
        steps, frames = sessions[0].game.steps, sessions[0].frame
        for session, peer in machines:
            peer.close()
            session.close()
    told = f"{least * 1e9:7.0f} ns a turn, {steps / FRAMES:4.2f} steps, {frames / FRAMES:.2f} frames"
    print(f"{'two peers, a turn of one':38} {told}")


measure("each word in time, no rollback", 0, True)
measure("each word 6 frames late, as predicted", 6, False)
measure("each word 6 frames late, another one", 6, True)
measure("each word 2 frames late, another one", 2, True)
measure_peers()
