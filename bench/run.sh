#!/bin/bash
# Measures rollduel against the plain program, and what guesses save and cost: bench/run.sh ROLLDUEL, with faz-sim beside it
# Both play the same scripts, and must write the same bytes. A time is that of a whole run, the least of 25. Then come the pages
# that both touch at 50,000 frames, the instructions of 3,000 (by callgrind, if there is valgrind), and what a match of
# 120,000 frames with `--guesses best` takes. `st` is the share of this machine that its host took meanwhile. It takes some three
# minutes.
#
# Measures which guesses are worth making, in some two minutes; with ROLLDUEL it plays a part of each match through it too:
#     bench/run.sh --choices [ROLLDUEL]
# The same by parts of a word, in some five minutes; with the program of tests/c/trials it compares counts:
#     bench/run.sh --choices --parts [TRIALS]
#
# Measures what of the library needs threads by test_threads, both tables or one of them (`bench/threads.py`):
#     bench/run.sh --all TEST_THREADS
#     bench/run.sh --links|--match TEST_THREADS [COUNT]
# The match takes 12 minutes, the links a few.
set -euo pipefail
usage="usage: bench/run.sh ROLLDUEL|--choices [ROLLDUEL]|--choices --parts [TRIALS],
    or bench/run.sh --all|--links|--match TEST_THREADS [COUNT]"
here=$(dirname -- "$(realpath -- "$0")")
work=$(mktemp -d)
trap 'rm -rf -- "$work"' EXIT

# One table of what needs threads: words through a link, beside those through a channel of the standard library, or a match.
table() {
    local what=$1 program=$2
    shift 2
    case $what in
        links)
            rustc -O -o "$work/links" "$here/links.rs"
            python3 "$here/threads.py" links "$program" "$work/links" "$@"
            ;;
        match) python3 "$here/threads.py" match "$program" "$@" ;;
        *) echo "$usage" >&2; exit 2 ;;
    esac
}

[ $# != 0 ] || { echo "$usage" >&2; exit 2; }
if [ "$1" = --choices ]; then
    python3 "$here/choices.py" "${@:2}"
    exit
fi
if [ "$1" = --all ]; then
    [ $# = 2 ] || { echo "$usage" >&2; exit 2; }
    for what in links match; do
        printf '%s\n\n' "$what"
        table "$what" "$(realpath -- "$2")"
        echo
    done
    exit
fi
if [[ $1 = --* ]]; then
    [ $# = 2 ] || [ $# = 3 ] || { echo "$usage" >&2; exit 2; }
    table "${1#--}" "$(realpath -- "$2")" "${@:3}"
    exit
fi

[ $# = 1 ] || { echo "$usage" >&2; exit 2; }
rollduel=$(realpath -- "$1")
rustc -O -o "$work/plain" "$here/plain.rs"
for frames in 1000 3000 10000 50000; do
    python3 "$here/script.py" "$frames" 1 > "$work/$frames.roll"
done
python3 - "$rollduel" "$work" 1000 10000 50000 <<'END'
import os
import re
import shutil
import subprocess
import sys
import time
from pathlib import Path

RUNS = 25
rollduel, work, sizes = sys.argv[1], Path(sys.argv[2]), sys.argv[3:]


def seconds(program, script, output):
    with open(script, "rb") as source, open(output, "wb") as sink:
        start = time.perf_counter()
        subprocess.run([program], stdin=source, stdout=sink, check=True)
        return time.perf_counter() - start


def used(words, source=os.devnull):
    """How many seconds a run takes, how many pages it touches, and how many KB it has at most."""
    with open(source, "rb") as text:
        start = time.perf_counter()
        run = subprocess.Popen(words, stdin=text, stdout=subprocess.DEVNULL)
        _, status, used = os.wait4(run.pid, 0)
    if status:
        sys.exit(f"{words} ended with {status}")
    return time.perf_counter() - start, used.ru_minflt, used.ru_maxrss


def instructions(program, script):
    """How many instructions a run takes, in millions."""
    words = ["valgrind", "--tool=callgrind", f"--callgrind-out-file={os.devnull}", program]
    with open(script, "rb") as text:
        said = subprocess.run(words, stdin=text, stdout=subprocess.DEVNULL, stderr=subprocess.PIPE, check=True).stderr.decode()
    return int(re.search(r"Collected : (\d+)", said)[1]) / 1e6


def stolen():
    """The ticks that the host took, and all ticks."""
    ticks = [*map(int, Path("/proc/stat").read_text().split("\n")[0].split()[1:9])]
    return ticks[7], sum(ticks)


before = stolen()
print("| Frames | rollduel | plain | ratio | rollduel, a frame | plain, a frame |")
print("|---|---|---|---|---|---|")
for size in sizes:
    script, ours, theirs = (work / f"{size}.{end}" for end in ("roll", "rollduel", "plain"))
    pairs = [(seconds(rollduel, script, ours), seconds(work / "plain", script, theirs)) for _ in range(RUNS)]
    if ours.read_bytes() != theirs.read_bytes():
        sys.exit(f"{size} frames: the outputs differ")
    a, b = map(min, zip(*pairs))
    each = 1e6 / int(size)
    row = f"| {size} | {a * 1e3:.1f} ms | {b * 1e3:.1f} ms | {a / b:.2f} | {a * each:.3f} µs | {b * each:.3f} µs |"
    print(row, flush=True)
print()
pages = [used([program], work / "50000.roll")[1] for program in (rollduel, work / "plain")]
print(f"pages at 50000 frames: {pages[0]} and {pages[1]}, {pages[0] / pages[1]:.2f}")
if shutil.which("valgrind"):
    counts = [instructions(program, work / "3000.roll") for program in (rollduel, work / "plain")]
    print(f"instructions at 3000 frames: {counts[0]:.2f} M and {counts[1]:.2f} M, {counts[0] / counts[1]:.2f}")
took, _, most = used([Path(rollduel).with_name("faz-sim"), "--frames", "120000", "--guesses", "best", "--jobs", "16"])
print(f"a match of 120000 frames with 16 guesses a tick: {took:.1f} s, {most / 1000:.0f} MB, {most / 240000:.1f} KB a frame and side")
taken, ticks = (after - then for after, then in zip(stolen(), before))
print(f"st {100 * taken / ticks:.1f}\n", flush=True)
END

python3 "$here/guesses.py" "$rollduel" "$work/plain"
