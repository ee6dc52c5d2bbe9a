"""The crates, and how `rt` has one checked: for the scripts beside this file."""
import collections
import shutil
import subprocess
from pathlib import Path

ROOT = Path(__file__).resolve().parent.parent
# Crates that are played without a proof, and how their files end beside what those of crates/ end in.
TRIED, TRIED_END = ROOT / "tests" / "rattle", ".in"

Crate = collections.namedtuple("Crate", "name folder of_kit own below")


def kit_folder():
    """Where the kit is."""
    return Path(subprocess.run(["rt", "doc"], stdout=subprocess.PIPE, check=True, text=True).stdout.strip()).parent


def crates_of(lines):
    """The crates of crates.txt by name, each with the libraries of the kit and its own that it names, and all own ones below it."""
    parts = [it.partition("#")[0].partition(":") for it in lines]
    uses = {name.split()[0]: used.split() for name, colon, used in parts if colon}
    found = {}

    def add(name):
        if name not in found:
            own = [add(it) for it in uses[name] if it in uses]
            below = dict.fromkeys(name for it in own for name in [*it.below, it.name])
            of_kit = ["std", *(it for it in uses[name] if it not in uses)]
            found[name] = Crate(name, ROOT / "crates" / name, of_kit, [it.name for it in own], list(below))
        return found[name]

    for name in uses:
        add(name)
    return found


def below(names):
    """The names of these crates of crates.txt, and of all below them."""
    crates = crates_of((ROOT / "crates.txt").read_text().splitlines())
    return list(dict.fromkeys(it for name in names for it in [*crates[name].below, name]))


def folder_of(name):
    """Where a crate is."""
    return TRIED / name if (TRIED / name).is_dir() else ROOT / "crates" / name


def put_crate(name, to):
    """Puts a crate into a repository's crates/, without what was built of it."""
    room = to / "crates" / name
    shutil.copytree(folder_of(name), room, ignore=shutil.ignore_patterns("out"))
    for file in sorted(room.rglob(f"*{TRIED_END}")):
        file.rename(file.with_suffix(""))


def put_repository(to):
    """Makes a repository of all crates, those too that are played without a proof."""
    lists = [(it / name).read_text() for it, name in [(ROOT, "crates.txt"), (TRIED, "crates")]]
    (to / "crates.txt").write_text("".join(lists))
    shutil.copy(ROOT / "HANDLES", to)
    for name in crates_of("".join(lists).splitlines()):
        put_crate(name, to)


def root_of(crate):
    """A crate's first file."""
    return "src/main.rt" if (crate.folder / "src/main.rt").is_file() else "src/lib.rt"


def words_of(crate, crates, kit):
    """The words by which `rt` has a crate checked."""
    words = ["--crate-name", crate.name, root_of(crate)]
    rlib = lambda name: crates[name].folder / "out" / "rlib"
    for name in crate.of_kit:
        words += ["--extern", f"{name}={kit}/rlibs/{name}.rlib"]
    words += ["-L", f"dependency={kit}/rlibs"]
    for name in crate.own:
        words += ["--extern", f"{name}={rlib(name)}/{name}.rlib"]
    for name in crate.below:
        words += ["-L", f"dependency={rlib(name)}"]
    words += ["--antt-project", f"{kit}/rattle/logic/antt-project.json", "--logic-built", f"{kit}/logic_built"]
    return [*words, "--links", f"{crate.name}=", "--jobs", "1"]
