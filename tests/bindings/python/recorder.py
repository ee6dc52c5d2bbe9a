"""Has the package's calls noted: imported ahead of it, with the package's folder as the first word of the command line."""
import importlib.util
import sys
import types
from collections import Counter
from pathlib import Path

PACKAGE = Path(sys.argv[1])
called = Counter()  # of each call, by its name in C
opened, closed = Counter(), Counter()  # of each kind of handle


class Recorder:
    """The library's calls."""

    def __init__(self, lib):
        self._lib = lib

    def __getattr__(self, name):
        call = getattr(self._lib, name)

        def noted(*words):
            called[name] += 1
            plain = name.removesuffix("_carrying").removesuffix("_lasting")  # a peer is opened by three calls
            kind, _, what = plain.removeprefix("fazgrond_").removeprefix("match_").rpartition("_")  # a session has its match
            if what == "close" and words[0].full:
                closed[kind or "session"] += 1
            answer = call(*words)
            if what == "open" and answer == 0:
                opened[kind or "session"] += 1
            return answer

        return noted


def load():
    spec = importlib.util.spec_from_file_location("fazgrond._raw", next((PACKAGE / "fazgrond").glob("_raw*.so")))
    module = importlib.util.module_from_spec(spec)
    spec.loader.exec_module(module)
    noted = types.ModuleType("fazgrond._raw")
    noted.ffi, noted.lib = module.ffi, Recorder(module.lib)
    sys.modules["fazgrond._raw"] = noted
    sys.path.insert(0, str(PACKAGE))


load()
