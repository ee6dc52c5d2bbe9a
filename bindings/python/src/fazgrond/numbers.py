"""The library's numbers. It is written by bindings/python/declare; fazgrond.h says what each means."""
from enum import IntEnum

VERSION = 0x000300
PLAYERS = 8
NO_PLAYER = 255
NOBODY = 254
AS_BEFORE = 0xffffffff
MACHINES = 8
SILENT_AFTER = 5000
NOTIFY_AFTER = 750
DATAGRAM = 1200
HELD_WORDS = 64
GUESS_WORDS = 24
PIECE = 1024
ASKED = 16
DIGEST_BYTES = 32
NO_MACHINE = 255
WINDOW_REACH = 1024
WINDOW_PLACES = 17


class Profile(IntEnum):
    """The limits of a session."""

    GGPO = 0
    WIDE = 1


class Kind(IntEnum):
    """What the game is to do."""

    LOAD = 1
    SAVE = 2
    STEP = 3
    FREE = 4
    JOB_LOAD = 5
    JOB_SAVE = 6
    JOB_STEP = 7


class Call(IntEnum):
    """An accepted call, as the log has it."""

    LOCAL = 1
    REMOTE = 2
    DISCONNECT = 3
    SYNC = 4
    ADVANCE = 5
    GRAFT = 6


class Answer(IntEnum):
    """What a call answers."""

    OK = 0
    INVALID_PLAYER = 2
    PLAYER_OUT_OF_RANGE = 3
    PREDICTION_THRESHOLD = 4
    PLAYER_DISCONNECTED = 9
    INVALID_REQUEST = 11
    LOCAL_INPUT_MISSING = 101
    INPUT_TWICE = 102
    GAP = 103
    CONFLICT = 104
    QUEUE_FULL = 105
    FRAME_LIMIT = 106
    NO_MEMORY = 107
    STRANGER = 108
    TOO_FAR = 109
    LATE = 110
    ORPHAN = 111
    DEAD = 112
    TREE_FULL = 113
    LOG_FULL = 114
    NO_PLAN = 117
    FULL = 119
    NO_JOB = 120
    IS_CLOSED = 201
    PENDING = 202
    NOTHING = 203
    TOO_SHORT = 204
    OTHER_VERSION = 205
    NOT_SEALED = 301
    NO_DATAGRAM = 302
    INVALID_MACHINE = 303
    OWN_MACHINE = 304
    MACHINE_GONE = 305
    MISMATCHED = 306
    OVERSTATED = 307
    ENDED = 308
    OTHER_SENDER = 309
    NO_ROWS = 310
    ROWS_MISSING = 311
    OUTSIDE = 312
    OTHER_SESSION = 313
    OTHER_KIND = 314
    OTHER_STATE = 315
    BARRED = 316
    NOT_NOW = 317
    PAST_THE_END = 318
    WRONG_LENGTH = 319
    TOO_LONG = 320
    NO_MARKS = 321
    MARKED = 322
    UNLIKE_DELAYS = 323
    TWO_OWNERS = 324
    TOO_MANY_WORDS = 325
    NO_NUMBER = 326
    GREAT_THRESHOLD = 327
    LONG_DELAY = 328
    OTHERS_DELAY = 329
    WRONG_TICKET = 330
    JOBS_OUT = 331
    INPUTS_TOO_LONG = 332
    OUT_OF_RANGE = 333
    INPUT_LENGTH = 334


class Setting(IntEnum):
    """Which setting of a match is out of its range."""

    SETTING_ME = 1
    SETTING_MACHINES = 2
    SETTING_INPUT_SIZE = 3
    SETTING_OWNER = 4
    SETTING_DELAY = 5
    SETTING_PROFILE = 6
    SETTING_THRESHOLD = 7
    SETTING_HELD_TURNS = 8
    SETTING_FRAME_TIME = 9


class Happened(IntEnum):
    """What a peer tells of."""

    SYNCHRONIZING = 1001
    SYNCHRONIZED = 1002
    RUNNING = 1003
    DISCONNECTED = 1004
    TIME_SYNC = 1005
    INTERRUPTED = 1006
    RESUMED = 1007
    LEFT = 1101
    DESYNC = 1102
    MISMATCH = 1103
    DROPPED = 1104
    RESTARTED = 1105
    STALLED = 1106
    REFUSED = 1107
    MISSING = 1108
    CUT_OFF = 1109
    STRANGERS = 1110
    TWO_MARKS = 1111


class Bye(IntEnum):
    """Why a machine says bye. From BYE_OWN to 255 they are the program's own."""

    BYE_LEAVES = 1
    BYE_DESYNC = 2
    BYE_ERROR = 3
    BYE_OWN = 16


class Piece(IntEnum):
    """What comes of a piece of a state."""

    PIECE_AGAIN = 1
    PIECE_TAKEN = 2
    STATE_WHOLE = 3
    STATE_WRONG = 4
