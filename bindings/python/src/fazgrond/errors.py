"""What goes wrong."""
from ._raw import ffi, lib
from .numbers import Answer

_SENTENCE = 256  # longer than each sentence of the library
_OK = int(Answer.OK)
_NOTHING = int(Answer.NOTHING)


def text(code: int) -> str:
    """The sentence for an answer or for the code of an event; nothing if there is no such number."""
    out = ffi.new("uint8_t[]", _SENTENCE)
    length: int = lib.fazgrond_text(code, out, _SENTENCE)
    return bytes(ffi.buffer(out, min(length, _SENTENCE))).decode()


class Refused(Exception):
    """A call was refused, and has changed nothing: `answer` says why."""

    def __init__(self, answer: Answer) -> None:
        super().__init__(answer)
        self.answer = answer

    def __str__(self) -> str:
        return text(self.answer)


class Closed(Exception):
    """What was closed was used."""


def said(code: int) -> None:
    """Raises what an answer says, if it isn't `OK`."""
    if code != _OK:
        raise Refused(Answer(code))


def said_or_nothing(code: int) -> bool:
    """Whether an answer is `OK`, and not `NOTHING`. Raises what any other says."""
    if code == _OK:
        return True
    if code == _NOTHING:
        return False
    raise Refused(Answer(code))
