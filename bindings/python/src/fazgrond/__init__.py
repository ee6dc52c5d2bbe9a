"""Rollback sessions for lockstep games: the calls of fazgrond.h as classes. docs/PYTHON.md has a whole game."""
from ._raw import lib
from .epoch import Epoch, Mark, ticket
from .errors import Closed, Refused, text
from .habits import Foreseen, Habits
from .handle import Handle, Plays, Settings
from .line import Line, LineSettings, LineState, Viewer
from .numbers import (
    AS_BEFORE, ASKED, DATAGRAM, DIGEST_BYTES, GUESS_WORDS, HELD_WORDS, MACHINES, NO_MACHINE, NO_PLAYER, NOBODY, PIECE, PLAYERS,
    VERSION, WINDOW_REACH, Answer, Bye, Call, Happened, Kind, Piece, Profile,
)
from .peer import Event, Match, Peer, RemoteWord, Stats
from .rows import Entry, Reached, Request, Row
from .session import Game, Job, Session
from .state import Giver, Heard, StateName, Taker, TakerState, state_ask, state_sender, state_told
from .sync import sync_test
from .window import Window

__all__ = [
    "ASKED", "AS_BEFORE", "DATAGRAM", "DIGEST_BYTES", "GUESS_WORDS", "HELD_WORDS", "MACHINES", "NOBODY", "NO_MACHINE",
    "NO_PLAYER", "PIECE", "PLAYERS", "VERSION", "WINDOW_REACH", "Answer", "Bye", "Call", "Closed", "Entry", "Epoch", "Event",
    "Foreseen", "Game", "Giver", "Habits", "Handle", "Happened", "Heard", "Job", "Kind", "Line", "LineSettings", "LineState",
    "Mark", "Match", "Peer", "Piece", "Plays", "Profile", "Reached", "Refused", "RemoteWord", "Request", "Row", "Session",
    "Settings", "StateName", "Stats", "Taker", "TakerState", "Viewer", "Window", "state_ask", "state_sender", "state_told",
    "sync_test", "text", "ticket", "version",
]


def version() -> tuple[int, int, int]:
    """The version of the library."""
    number = lib.fazgrond_version()
    return number >> 16, number >> 8 & 255, number & 255
