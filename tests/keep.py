"""What earlier runs on this machine have shown, kept under ${XDG_CACHE_HOME:-~/.cache}/fazgrond by a sum of all that was read for it.

An entry is a folder, named by the sum, with a text of what was said and the files that were made. It is written beside its place
and then moved there, so an entry is whole or not there. No file of it is ever written again: files are given out as links.
"""
import functools
import hashlib
import os
import shutil
import tempfile
import time
from pathlib import Path

# The most bytes that are kept, and for how many days an entry is that nobody asks for.
MOST = 16 << 30
DAYS = 30


def folder():
    """Where all is kept."""
    return Path(os.environ.get("XDG_CACHE_HOME") or Path.home() / ".cache") / "fazgrond"


def sum_of(parts):
    """The sum of a list of texts or bytes: another list has another sum."""
    whole = hashlib.blake2b(digest_size=20)
    for it in parts:
        part = it if isinstance(it, bytes) else str(it).encode()
        whole.update(len(part).to_bytes(8, "big") + part)
    return whole.hexdigest()


def files_below(top):
    """The files below a folder, or itself if it is a file, by name."""
    if Path(top).is_file():
        return [str(top)]
    return sorted(f"{at}/{name}" for at, _, names in os.walk(top) for name in names)


def content(top):
    """The sum of all files below a folder, by their names and bytes."""
    return sum_of(part for file in files_below(top) for part in (os.path.relpath(file, top), Path(file).read_bytes()))


@functools.lru_cache(maxsize=None)
def kit_sum(kit):
    """The sum of the kit's files, by their names, sizes and times: it has too many to read."""
    found = ((file, os.stat(file)) for file in files_below(kit))
    return sum_of(part for file, it in found for part in (file, it.st_size, it.st_mtime_ns))


def script_sum(*names):
    """The sum of scripts beside this file, and of this one."""
    return sum_of((Path(__file__).parent / name).read_bytes() for name in ["keep.py", *names])


def link(file, to):
    """Puts a file elsewhere too: by a link, or copied where that can't be."""
    try:
        os.link(file, to)
    except OSError:
        shutil.copy2(file, to)


def copied(top, to):
    """Puts a folder, or a file, elsewhere too."""
    if Path(top).is_dir():
        shutil.copytree(top, to, copy_function=link)
    else:
        link(top, to)


def put(file, to):
    """Puts a file or a folder in place of what is there."""
    if to.is_dir() and not to.is_symlink():
        shutil.rmtree(to)
    else:
        to.unlink(missing_ok=True)
    to.parent.mkdir(parents=True, exist_ok=True)
    copied(file, to)


class Entry:
    """What is kept, or can be, of one thing that was shown."""

    def __init__(self, kind, parts):
        self.folder = folder() / kind / sum_of(parts)

    def said(self):
        """What was said, None if nothing is kept or if its files aren't what they were."""
        try:
            said, files = (self.folder / "said").read_text(), (self.folder / "content").read_text()
        except OSError:
            return None
        if content(self.folder / "files") != files:
            return None
        os.utime(self.folder / "said")
        return said

    def kept(self):
        """The same, and None if FAZGROND_ANEW asks for all to be shown anew."""
        return None if os.environ.get("FAZGROND_ANEW") else self.said()

    def give(self, top):
        """Puts what is kept into a folder, by the names under which it was taken."""
        for name in (self.folder / "names").read_text().splitlines():
            put(self.folder / "files" / name, top / name)

    def take(self, said, top=None, names=()):
        """Keeps what was said, and what has these names in a folder: files, and folders with all that is in them."""
        self.folder.parent.mkdir(parents=True, exist_ok=True)
        room = Path(tempfile.mkdtemp(prefix="new-", dir=self.folder.parent))
        (room / "files").mkdir()
        for name in names:
            put(top / name, room / "files" / name)
        (room / "names").write_text("".join(f"{it}\n" for it in names))
        (room / "content").write_text(content(room / "files"))
        (room / "said").write_text(said)
        shutil.rmtree(self.folder, ignore_errors=True)
        os.rename(room, self.folder)


def size(top):
    """The bytes of the files below a folder."""
    return sum(os.stat(file).st_size for file in files_below(top))


def prune(most=MOST, days=DAYS):
    """Drops what nobody has asked for in so many days, and then what was asked for the longest ago, until the rest is small enough."""
    found = []
    for said in folder().glob("*/*/said"):
        found.append((said.stat().st_mtime, said.parent))
    kept = 0
    for used, entry in sorted(found, reverse=True):
        kept += size(entry)
        if kept > most or used < time.time() - days * 86400:
            shutil.rmtree(entry, ignore_errors=True)
    for room in folder().glob("*/new-*"):
        if room.stat().st_mtime < time.time() - 86400:
            shutil.rmtree(room, ignore_errors=True)
