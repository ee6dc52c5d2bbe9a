"""Plays the game of docs/PYTHON.md without a screen: play_page.py PACKAGE GAME FRAMES ME PORT ADDRESS PORT

The keys are held by a list of their own. At its end it prints the words of each settled frame of this machine, and the last
settled state: JSON.
"""
import json
import os
import sys
import time

package, game, frames = sys.argv[1], sys.argv[2], int(sys.argv[3])
sys.argv[:4] = [game]
sys.path.insert(0, package)
os.environ.update(SDL_VIDEODRIVER="dummy", PYGAME_HIDE_SUPPORT_PROMPT="1")
import pygame  # noqa: E402

state = {"turn": 0}
names = {"__name__": "game"}


class Held(dict):
    """Which keys are held in a turn: each for a while, and not the same at both machines."""

    def __missing__(self, key):
        place = [pygame.K_LEFT, pygame.K_RIGHT, pygame.K_UP, pygame.K_DOWN].index(key)
        return (state["turn"] // (7 + 2 * int(sys.argv[1])) + place) % 3 == 0


def events():
    """Quits once so many frames are settled, and a few turns more."""
    state["turn"] += 1
    session = names.get("session")
    state["past"] = state.get("past", 0) + (session is not None and session.settled >= frames)
    return [pygame.event.Event(pygame.QUIT)] if state["past"] > 40 or state["turn"] > 3000 else []


pygame.event.get = events
pygame.key.get_pressed = Held
pygame.time.Clock = lambda: type("Clock", (), {"tick": lambda self, rate: time.sleep(0.004)})()
exec(compile(open(game).read(), game, "exec"), names)
session = names["session"]
settled, places = session.settled_state()
print(json.dumps({"words": [session.settled_row(frame).words for frame in range(settled)], "places": places}))
