"""Measures what of the library needs threads, by the raw numbers that test_threads prints:

    python3 bench/threads.py links TEST_THREADS PLAIN [COUNT]
    python3 bench/threads.py match TEST_THREADS [FRAMES]

The first is the table of words through a link. PLAIN is bench/links.rs, built, which prints the rows of the standard library's
channel. Each way of the link is the fastest of 25 runs.

The second is the table of a match with 0, 1, 2 and 4 workers, at 60 frames a second and as fast as it goes. A frame of the
game takes a tenth of a millisecond: how many rounds of its arithmetic that is, is tried first.
"""
import subprocess
import sys

RUNS = 25
FRAME_COST = 100_000  # in nanoseconds


def told(program, *words):
    """What a program prints: a list of fields for each line."""
    command = [program, *map(str, words)]
    lines = subprocess.run(command, stdout=subprocess.PIPE, check=True, text=True).stdout.splitlines()
    return [line.split() for line in lines]


def numbers(lines, name):
    return [list(map(int, fields)) for first, *fields in lines if first == name]


def fastest(program, players, count):
    """The times of so many words in nanoseconds, in all and in the pumps alone: each the fastest of its runs."""
    runs = [numbers(told(program, "links", players, count), "links")[0][1:] for _ in range(RUNS)]
    return list(map(min, zip(*runs)))


def measure_links(program, plain, count=1_000_000):
    command = [plain, str(count)]
    lines = subprocess.run(command, stdout=subprocess.PIPE, check=True, text=True).stdout.splitlines()
    theirs = [[field.strip() for field in line.strip("|").split("|")] for line in lines]
    rows = [(name, float(each.split()[0])) for name, each, _ in theirs]
    least = min(each for _, each in rows)
    whole, _ = fastest(program, 0, count)
    rows.append(("`Link::next` into a `Vec`", whole / count))
    for players, name in (1, "1 remote player"), (7, "7 remote players"):
        whole, pumps = fastest(program, players, count)
        rows.append((f"`Host::pump`, {name}", pumps / count))
        rows.append(("the same, with the frames played", whole / count))
    print("| Way | A word | Words a second | Of the fastest channel |")
    print("|---|---|---|---|")
    for name, each in rows:
        print(f"| {name} | {each:.1f} ns | {1e3 / each:.1f} million | {each / least:.2f} |")


def rounds_in(program, cost):
    """How many rounds take so many nanoseconds, by the fastest of some short matches."""
    rounds, frames = 100_000, 60

    def each():
        lines = told(program, "match", 0, "free", frames, rounds)
        rerun = sum(again for _, _, again, _ in numbers(lines, "rollback"))
        return numbers(lines, "match")[0][-1] / (frames + rerun)

    return round(rounds * cost / min(each() for _ in range(RUNS)))


def ggpo(words, rollbacks, frames):
    """The frames that GGPO runs again on the same words: from the first one on whose word was predicted wrong."""
    heard, rerun, used = 0, 0, []
    upto = {frame: count for frame, count, _, _ in rollbacks}
    for now in range(frames):
        if now in upto:
            before, heard = heard, upto[now]
            known = [words[min(frame, heard - 1)] for frame in range(before, now)]
            wrong = next((at for at, word in enumerate(known) if used[before + at] != word), len(known))
            rerun += len(known) - wrong
            used[before:] = known
        used.append(words[min(now, heard - 1)] if heard else 0)
    return rerun


def measure_match(program, pace, workers, frames, rounds):
    """A match's row."""
    lines = told(program, "match", workers, pace, frames, rounds)
    rollbacks = numbers(lines, "rollback")
    ((issued, full, withdrawn, taken, added, dropped, spent),) = numbers(lines, "match")
    rerun = sum(again for _, _, again, _ in rollbacks)
    theirs = ggpo([word for (word,) in numbers(lines, "word")], rollbacks, frames)
    times = sorted(time / 1e3 for *_, time in rollbacks)
    median, rare = times[(len(times) + 1) // 2 - 1], times[len(times) - len(times) // 1000 - 1]
    name = "60" if pace == "sixty" else "as fast as it goes"
    print(
        f"| {name} | {workers} | {issued} | {taken * 1e9 / spent:.0f} | {full} | {withdrawn} | {added} | {dropped} | {rerun} | {theirs} "
        f"| {rerun / theirs:.2f} | {median:.1f} µs | {rare:.1f} µs | {times[-1]:.1f} µs |",
        flush=True,
    )


def measure_matches(program, frames=10_000):
    rounds = rounds_in(program, FRAME_COST)
    print(f"{rounds} rounds a frame", file=sys.stderr)
    print(
        "| Frames a second | Workers | Jobs | Jobs a second | No place | Withdrawn | States added | Dropped | Frames run again | GGPO "
        "| Share | Sync, median | 99.9 % | Longest |"
    )
    print("|---|---|---|---|---|---|---|---|---|---|---|---|---|---|")
    for pace in "sixty", "free":
        for workers in 0, 1, 2, 4:
            measure_match(program, pace, workers, frames, rounds)


def main():
    what, program, *others = sys.argv[1:]
    if what == "links":
        plain, *count = others
        measure_links(program, plain, *map(int, count))
    elif what == "match":
        measure_matches(program, *map(int, others))
    else:
        sys.exit(__doc__)


main()
