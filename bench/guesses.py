"""Measures what guesses save, and what they cost: python3 bench/guesses.py ROLLDUEL PLAIN

What they save: two players and 1,000 frames. Player 2's words are among four, and each is held for ten frames on
average. They are heard 0 to 8 frames late, in order, and told with a sync. After each advance some guesses of them are
made up to the frame, run, and grafted. Counted are the frames that the syncs ran again, as a share of those that GGPO
runs again on the same words: from the first frame whose word was predicted wrong.

What they cost: the time of a guess with its branch of 8 rows as a multiple of 8 frames of the plain program.
"""
import random
import subprocess
import sys
import time
from itertools import accumulate

THRESHOLD = 8
HEADER = f"roll 1 players 2 local 1 delay 0,0 threshold {THRESHOLD}"
WORDS = range(4)
RUNS = 25


def replies(program, lines):
    text = "".join(line + "\n" for line in lines).encode()
    return subprocess.run([program], input=text, stdout=subprocess.PIPE).stdout.decode().splitlines()


def drawn_words(frames, change, draw):
    word = 0
    for _ in range(frames):
        if draw.random() < change:
            word = draw.choice([other for other in WORDS if other != word])
        yield word


def arrivals(frames, draw):
    """When the word of each frame arrives: 0 to 8 frames late, and none before an earlier one."""
    return accumulate((frame + draw.randrange(THRESHOLD + 1) for frame in range(frames)), max)


def no_guesses(now, heard, last):
    return []


def four_words(now, heard, last):
    return [f"G 2 {now} {word}" for word in WORDS]


def held_words(now, heard, last):
    """The four, and the last word held for some frames more, with each of the others after it."""
    held = [[last] * k + [word] for k in range(1, min(8, now - heard - 1) + 1) for word in WORDS if word != last]
    return four_words(now, heard, last) + [f"G 2 {now} {','.join(map(str, words))}" for words in held]


def share(program, frames, change, guesses, seed):
    """The frames that the syncs run again as a share of GGPO's."""
    draw = random.Random(seed)
    words, when = list(drawn_words(frames, change, draw)), list(arrivals(frames, draw))
    lines, syncs, used, heard, jobs, ggpo = [HEADER], [], [], 0, 0, 0
    for now in range(frames):
        told = heard
        while heard < frames and when[heard] == now:
            lines.append(f"R 2 {heard} {words[heard]}")
            heard += 1
        last = words[heard - 1] if heard else 0
        if heard > told:
            syncs.append(len(lines) - 1)
            lines.append("S")
            known = words[:min(heard, now)] + [last] * (now - heard)
            wrong = next((frame for frame in range(now) if used[frame] != known[frame]), now)
            ggpo += now - wrong
            used = known
        lines += [f"L 1 {draw.choice(WORDS)}", "A"]
        used.append(words[now] if now < heard else last)
        asked = guesses(now + 1, heard, last)
        if asked:
            lines += asked
            given = sum(reply.startswith("job ") for reply in replies(program, lines)[-len(asked):])
            lines += [f"B {job}" for job in range(jobs, jobs + given)]
            jobs += given
    said = replies(program, lines)
    rerun = sum(int(said[at].split()[5]) for at in syncs)
    return rerun, ggpo, jobs


def seconds(program, text):
    start = time.perf_counter()
    subprocess.run([program], input=text, stdout=subprocess.DEVNULL, check=True)
    return time.perf_counter() - start


def cost(program, plain, frames):
    """The times of a guess with its branch of 8 rows, and of 8 frames of the plain program.

    Each guess is made of what comes after the words that were told, and the next word proves it wrong: so it saves nothing.
    """
    bare, guessed = [HEADER], [HEADER]
    for now in range(frames):
        both = [f"L 1 {now % 7}", "A", f"R 2 {now} 0"]
        bare += both
        guessed += both + [f"G 2 {now + 9} 9", f"B {now}"]
    expected = sum(line == f"job {job} rows 8" for job, line in enumerate(replies(program, guessed)[3::5]))
    added = replies(program, guessed)[4::5].count("added 8")
    if (expected, added) != (frames, frames):
        sys.exit(f"of {frames} guesses {expected} gave jobs of 8 rows, and {added} branches were added whole")
    texts = ["".join(line + "\n" for line in lines).encode() for lines in (bare, guessed)]
    without, with_them, theirs = (
        min(seconds(runner, text) for _ in range(RUNS))
        for runner, text in ((program, texts[0]), (program, texts[1]), (plain, texts[0]))
    )
    return (with_them - without) / frames, 8 * theirs / frames


def main():
    program, plain = sys.argv[1:]
    print("| Words | Guesses | Jobs | Frames run again | GGPO | Share |")
    print("|---|---|---|---|---|---|")
    for words, change in (("held for ten frames", 0.1), ("new in each frame", 1.0)):
        for name, guesses in (("none", no_guesses), ("four words", four_words), ("and held ones", held_words)):
            rerun, ggpo, jobs = share(program, 1000, change, guesses, 1)
            print(f"| {words} | {name} | {jobs} | {rerun} | {ggpo} | {rerun / ggpo:.2f} |", flush=True)
    ours, theirs = cost(program, plain, 20_000)
    print(f"A guess with its branch of 8 rows: {ours * 1e6:.1f} µs, {ours / theirs:.1f} times 8 frames of the plain program")


main()
