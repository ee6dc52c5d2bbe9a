#!/usr/bin/env python3
"""Files of commands, each with what it prints (tests/runs, tests/sim/runs): tests/cram.py PROGRAM.. [LIBRARY.so] FILE.t..

They have the form of the tool cram: what doesn't begin with two spaces is a comment; a line `  $ ` is a command for the shell, which lines
`  > ` go on with; then comes what it prints on both streams, and `  [N]` where its status isn't 0. The commands of a file share a shell and
a new folder; the examples of the project stand in `../examples`, and its documents in `../docs`; the path of a library that is to be
preloaded, refuse.so, is `$REFUSE`. The last line is `N passed, M failed`, by commands. The scripts beside this one and below play those
that need more.
"""
import re
import subprocess
import sys
import tempfile
from pathlib import Path

ROOT = Path(__file__).resolve().parent.parent
SECONDS = 900
ENDED = "== ended "


def files(of_stage):
    """The files whose commands ask test_stage, which is tried without a proof; or the others, which ask the programs that are built."""
    return [it for it in sorted((ROOT / "tests" / "runs").glob("*.t")) if ("test_stage" in it.read_text()) == of_stage]


def commands(text):
    """The commands of a file: each with the number of its line, its own lines, and those that are to be printed."""
    found = []
    for number, line in enumerate(text.splitlines(), 1):
        mark, rest = line[:4], line[4:]
        if mark == "  $ ":
            found.append((number, [rest], []))
        elif mark == "  > ":
            found[-1][1].append(rest)
        elif line.startswith("  "):
            found[-1][2].append(line[2:])
    return found


def printed(programs, asked, variables):
    """What each of the commands prints, as lines with the status last where it isn't 0. They find programs by their names here."""
    script = "\n".join(line for _, lines, _ in asked for line in [*lines, f'echo "{ENDED}$?"'])
    with tempfile.TemporaryDirectory(prefix="cram-") as room:
        (Path(room) / "bin").mkdir()
        (Path(room) / "work").mkdir()
        for name, file in programs.items():
            (Path(room) / "bin" / name).symlink_to(Path(file).resolve())
        for name in ["docs", "examples"]:
            (Path(room) / name).symlink_to(ROOT / name)
        (Path(room) / "script").write_text(script)
        how = {"stdin": subprocess.DEVNULL, "stdout": subprocess.PIPE, "stderr": subprocess.STDOUT, "timeout": SECONDS}
        env = {"PATH": f"{room}/bin:/usr/local/bin:/usr/bin:/bin", "LC_ALL": "C", "TMPDIR": room, **variables}
        ran = subprocess.run(["sh", "../script"], cwd=f"{room}/work", env=env, **how)
    said = ran.stdout.decode("latin-1")
    parts = re.split(rf"^(.*?){ENDED}(\d+)\n", said, flags=re.MULTILINE)
    found = []
    for before, broken, status in zip(parts[0::3], parts[1::3], parts[2::3]):
        lines = before.split("\n")[:-1] + [f"{broken} (no-eol)"] * bool(broken)
        found.append(lines + [f"[{status}]"] * (status != "0"))
    return found


def play(file, programs, variables, shown=""):
    """Plays a file, tells each command that prints something else, and answers how many passed and failed."""
    asked = commands(file.read_text())
    found = printed(programs, asked, variables)
    found += [["(not run)"]] * (len(asked) - len(found))
    failed = 0
    for (number, lines, wanted), got in zip(asked, found):
        if got != wanted:
            failed += 1
            print(f"{shown}{file.name}:{number}: $ {lines[0]}")
            print("\n".join([*(f"  - {it}" for it in wanted), *(f"  + {it}" for it in got)]))
    return len(asked) - failed, failed


def main():
    given = [it for it in sys.argv[1:] if not it.endswith(".t")]
    programs = {Path(it).name: it for it in given if not it.endswith(".so")}
    libraries = {Path(it).stem.upper(): str(Path(it).resolve()) for it in given if it.endswith(".so")}
    counts = [play(Path(it), programs, libraries) for it in sys.argv[1:] if it.endswith(".t")]
    passed, failed = map(sum, zip(*counts))
    print(f"{passed} passed, {failed} failed")
    return failed != 0


if __name__ == "__main__":
    sys.exit(main())
