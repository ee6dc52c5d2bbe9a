"""Matches of pages, and the states that they have to come to."""
import contextlib
import json
import os
import re
import tempfile
from pathlib import Path

from browsers import Browser
from checks import OUT, ROOT, check, run, skip


@contextlib.contextmanager
def pages(*starts):
    """Browsers at pages, which are ended with the block."""
    begun = []
    try:
        for kind, url in starts:
            begun.append(Browser(kind, url))
        yield begun
    finally:
        for it in begun:
            it.close()


def result(server, name, wait=240):
    text = server.post.get(name, wait)
    return json.loads(text) if text else {"lacks": f"nothing came of {name} in {wait} s"}


def words_of_bot(seed, player, count, delay):
    """A bot's words, as programs/common/bot.h has them."""
    mask, state, word, found = (1 << 64) - 1, 0, 0, [0] * delay
    state = 0x9E3779B97F4A7C15 * (seed * 4 + player) & mask
    while len(found) < count:
        found.append(word)
        state ^= state << 13 & mask
        state ^= state >> 7
        state ^= state << 17 & mask
        if state >> 32 & 7 == 0:
            word = state >> 40 & 15
    return found


def expected(seed, frames, delays=(1, 1)):
    """The state of rollduel, with the bots' words, or without delays of out/duel in one process; None if neither is there."""
    rollduel = Path(os.environ.get("FAZGROND_ROLLDUEL") or ROOT / "crates/rollduel/out/rollduel")
    if not rollduel.is_file():
        return alone(seed, frames) if delays == (0, 0) else skip(f"the state beside rollduel's (no {rollduel.name})")
    rows = zip(*(words_of_bot(seed, player, frames, delay) for player, delay in zip([1, 2], delays)))
    lines = ["roll 1 players 2 local 1 delay 0,0 threshold 8"]
    for frame, (one, other) in enumerate(rows):
        lines += [f"L 1 {one}", f"R 2 {frame} {other}", "A"]
    with tempfile.NamedTemporaryFile("w", suffix=".txt") as script:
        script.write("\n".join(lines) + "\n")
        script.flush()
        said = run([rollduel, "play", "--game", "duel", script.name]).stdout
    return re.findall(r"^frame .* state (.*)$", said, re.M)[-1]


def alone(seed, frames):
    """The state of out/duel, with both ships in one program, whose words are for the frame in which they are given."""
    duel = OUT / "duel"
    if not duel.is_file():
        return skip("the state beside rollduel's, or that of out/duel (neither is here)")
    words = ["--headless", "--speed", 100, "--synctest", 1, "--bot", seed, "--frames", frames, 0, "local", "local"]
    return re.findall(r"^frame .* state (.*)$", run([duel, *words]).stdout, re.M)[-1]


def play_url(server, room, me, **more):
    told = {"name": f"{room}-{me}", "room": room, "me": me, "bot": 5, "delay": 1, "timeout": 60000, **more}
    return f"{server.url}/tests/play.html?" + "&".join(f"{name}={it}" for name, it in told.items())


def two_pages(server, kinds, frames, speed, **more):
    """Two browsers play over a data channel, on a bad line: both come to the state that rollduel comes to."""
    room = f"{'-'.join(kinds)}-{frames}"
    with pages(*((kind, play_url(server, room, me, frames=frames, speed=speed, lag=50, loss=10, **more))
                 for me, kind in enumerate(kinds))):
        found = [result(server, f"{room}-{me}", 120 + frames) for me in range(2)]
    state = expected(5, frames)
    for me, it in enumerate(found):
        wanted = state or found[1 - me].get("state")
        check(f"player {me + 1} in {kinds[me]}, {frames} frames", it.get("state") and it["state"] == wanted, str(it))
    check(f"{room}: some frames were played again", all(it.get("again", 0) > 0 for it in found), str(found))
