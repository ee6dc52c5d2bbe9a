"""The archives in release/: for release/check, release/verify and build/abi/compare."""
import io
import re
import tarfile
from pathlib import Path
from typing import NamedTuple

HERE = Path(__file__).resolve().parent
VERSION = r"(?P<version>\d+\.\d+\.\d+)"
NAME = re.compile(rf"fazgrond-{VERSION}(?:-(?P<piece>\d+))?-(?P<target>[a-z]\w*(?:-\w+)?)\.tar\.xz")
PACKAGE = re.compile(rf"libfazgrond-dev_{VERSION}(?:~(?P<piece>\d+))?_(?P<target>\w+)\.deb")


class Archive(NamedTuple):
    """An archive or a Debian package: a release's, or one of the pieces before it, which are counted from 1 on."""
    version: tuple
    piece: int
    target: str
    path: Path

    def age(self):
        return self.version, self.piece or float("inf")


def archive_of(path):
    """What a file is by its name, if it is an archive."""
    found = NAME.fullmatch(path.name) or PACKAGE.fullmatch(path.name)
    if found:
        return Archive(tuple(map(int, found["version"].split("."))), int(found["piece"] or 0), found["target"], path)
    return None


def archives(folder=HERE):
    """Those of a folder, the oldest first."""
    found = map(archive_of, sorted([*folder.glob("*.tar.xz"), *folder.glob("*.deb")]))
    return sorted((it for it in found if it), key=Archive.age)


def tar_of(path):
    """An archive's own bytes, or those in a Debian package."""
    data = path.read_bytes()
    at = 8
    while path.suffix == ".deb":
        name, size = data[at:at + 16].strip(), int(data[at + 48:at + 58])
        at += 60
        if name == b"data.tar.xz":
            return data[at:at + size]
        at += size + size % 2
    return data


def file_in(path, name):
    """The bytes of the first file of an archive that is there by this name."""
    with tarfile.open(fileobj=io.BytesIO(tar_of(path))) as tar:
        for it in tar:
            if it.isfile() and it.name.endswith(f"/{name}"):
                return tar.extractfile(it).read()
    return None
