"""Checks, which are counted, and what is skipped, with a word."""
import os
import shutil
import subprocess
from pathlib import Path

TESTS = Path(__file__).resolve().parent
ROOT = TESTS.parent.parent.parent
WEB = ROOT / "bindings/web"
OUT = Path(os.environ.get("OUT") or ROOT / "out")
SITE, PACKAGE = ROOT / "out/web/site", ROOT / "out/web/package"
counts = {"passed": 0, "failed": 0}


def check(what, is_right, said=""):
    counts["passed" if is_right else "failed"] += 1
    if not is_right:
        print(f"failed: {what}\n{said}", flush=True)
    return is_right


def skip(what):
    print(f"skipped: {what}", flush=True)


def has(program, what):
    if shutil.which(program):
        return True
    skip(f"{what} (no {program})")
    return False


def built(name, what):
    """A program of meson's, by its place in the folder, None if it isn't there."""
    if (OUT / name).is_file():
        return OUT / name
    skip(f"{what} (no out/{name}: ninja -C out {name})")
    return None


def run(words, **more):
    return subprocess.run([str(it) for it in words], stdin=subprocess.DEVNULL, stdout=subprocess.PIPE, stderr=subprocess.STDOUT,
                          text=True, errors="replace", **more)
