#!/usr/bin/env python3
"""The packets that docs/WIRE.md tells of, made from its rules, with nothing else of the project: tests/wire.py PAGE [SOURCE..]

Whatever the page shows in hexadecimal has to be what is made here: the packets, what the table of places says of each of them, the numbers
and runs of its tables, the steps of the seal, and the sizes. All packets that are made here stand in tests/vectors/packets.txt. A source
(of Rust, or C) is searched for arrays of bytes that begin as a packet does: each has to be one of these packets, sealed or not. The last
line is `N passed, M failed`.
"""
import hashlib
import hmac
import re
import sys
from pathlib import Path

MAGIC = b"FZG4"
HELLO, PLAY, BYE, MAP, CARRIED, PIECE, ASK = 0, 1, 2, 3, 4, 5, 6
VIEWER = 255
CARRIES, LASTS = 1, 2  # what a machine can, in its hellos
LEAVES, DESYNC, ERROR, OWN_REASONS = 1, 2, 3, range(16, 256)  # why it says bye
BLOCK = 64  # of SHA-256, in bytes
# How long the table is that who comes into a match asks for.
TABLE_BYTES = int(re.search(r"FAZ_TABLE_BYTES = (\d+)", (Path(__file__).parent.parent / "include/faz_rejoin.h").read_text())[1])
PIECE_LIMIT, ASK_LIMIT = 1024, 16
DATAGRAM_LIMIT, PLACES = 1200, 8

# ---- the fields


def fixed(number, size):
    """A fixed number."""
    return number.to_bytes(size, "big")


def short(number):
    """A short number."""
    low, rest = number % 128, number // 128
    return bytes([low + 128]) + short(rest) if rest else bytes([low])


def mask(places):
    """A mask of the places that are set."""
    return bytes([sum(1 << place for place in places)])


def masked(fields):
    """A mask of the players of whom there is a field, and these fields, the lowest player first."""
    return mask(fields) + b"".join(fields[player] for player in sorted(fields))


def optional(field):
    """A flag, and the field if there is one."""
    return b"\0" if field is None else b"\1" + field


def runs(words):
    """Words as runs."""
    text, before, at = b"", 0, 0
    while at < len(words):
        end = at
        while end < len(words) and words[end] == before:
            end += 1
        text += bytes([end - at])
        if end < len(words):
            before = words[end]
            text += short(before)
        at = end + 1
    return text


# ---- the packets, with the number of the pair where the tag will be


def packet(number, sender, kind, rest=b""):
    """The 14 bytes of all packets, and the rest."""
    return MAGIC + fixed(number, 8) + bytes([sender, kind]) + rest


def hello(number, sender, match, draw, echo, patience, abilities=0):
    """A hello: the match has `machines`, `owners`, `digest` and `opening`, and each input `words` if it hasn't one."""
    owners = bytes(match["owners"]) + b"\xff" * (8 - len(match["owners"]))
    digests = fixed(match["digest"], 8) + fixed(match["opening"], 8)
    rest = bytes([match["machines"], match.get("words", 1)]) + owners + digests + fixed(draw, 8) + fixed(echo, 8) + fixed(patience, 4)
    return packet(number, sender, HELLO, rest + bytes([abilities]))


def mark(players=(), ticket=0, delays=None, threshold=0):
    """A mark without its word's frame: for which players somebody comes, and that one's ticket; delays by player; the threshold."""
    newcomer = mask(players) + (fixed(ticket, 8) if players else b"")
    return newcomer + masked({player: bytes([delay]) for player, delay in (delays or {}).items()}) + bytes([threshold])


def play(number, sender, sent, counts, offers=None, words=(), clocks=None, settled=None, gone=(), marks=None):
    """A play, before which so many packets were sent. Counts, offers and marks are by player; an offer is a first frame and how many
    words, a mark a frame and its bytes."""
    rest = short(sent) + optional(clocks and b"".join(map(short, clocks))) + mask(gone)
    rest += masked({player: short(count) for player, count in counts.items() if count})
    rest += optional(settled and short(settled[0]) + fixed(settled[1], 8))
    rest += masked({player: short(first) + bytes([count]) for player, (first, count) in (offers or {}).items()})
    rest += masked({player: short(frame) + text for player, (frame, text) in (marks or {}).items()})
    return packet(number, sender, PLAY, rest + runs(list(words)))


def bye(number, sender, why):
    """A bye."""
    return packet(number, sender, BYE, bytes([why]))


def line_map(number, sender, lines):
    """Whom each machine hears straight, machine 0 first: those, and the number of what it says."""
    return packet(number, sender, MAP, b"".join(mask(heard) + fixed(of, 4) for heard, of in lines))


def carried(number, sender, parcels):
    """Packets without their letters, each with its receiver, and with how many machines may still hand it on."""
    tails = [(to, steps, inside[len(MAGIC):]) for to, steps, inside in parcels]
    return packet(number, sender, CARRIED, b"".join(bytes([to, steps]) + fixed(len(tail), 2) + tail for to, steps, tail in tails))


def name(which, frame, state):
    """What a state is called; if it is None, that of one of which nothing is known."""
    known = (len(state), hashlib.sha256(state).digest()) if state else (0, bytes(32))
    return fixed(which, 8) + fixed(frame, 4) + fixed(known[0], 4) + known[1]


def piece(number, sender, which, frame, state, place):
    """A piece of a state."""
    part = state[PIECE_LIMIT * place : PIECE_LIMIT * (place + 1)]
    return packet(number, sender, PIECE, name(which, frame, state) + fixed(place, 4) + part)


def ask(number, sender, which, frame, state, places):
    """An ask for pieces of a state, or of one that isn't known (None)."""
    return packet(number, sender, ASK, name(which, frame, state) + b"".join(fixed(place, 4) for place in places))


# ---- the seal


def key(text, own=0, other=0):
    """The key of a packet that still has its number: a hello's has no draws."""
    return text[4:12] + fixed(own, 8) + fixed(other, 8)


def tag(text, own=0, other=0):
    """The tag of a packet that still has its number."""
    return hmac.new(key(text, own, other), text, hashlib.sha256).digest()[:8]


def sealed(text, own=0, other=0):
    """A packet as it is sent."""
    return text[:4] + tag(text, own, other) + text[12:]


def steps(text, own, other):
    """What comes of a packet on the way to its tag, without the HMAC of Python."""
    whole = key(text, own, other)
    inner, outer = (bytes(byte ^ with_what for byte in whole.ljust(BLOCK, b"\0")) for with_what in (0x36, 0x5C))
    first = hashlib.sha256(inner + text).digest()
    second = hashlib.sha256(outer + first).digest()
    return [whole, text, inner[: len(whole)], first, outer[: len(whole)], second, second[:8], text[:4] + second[:8] + text[12:]]


# ---- the examples

NUMBER = 0x1122334455667788
DRAWS = [0x0102030405060708, 0x1112131415161718]  # of machine 0, and of machine 1
MATCH = {"machines": 2, "owners": [0, 1], "digest": 0x0123456789ABCDEF, "opening": 0x5152535455565758}
THIRD_NUMBER, THIRD_DRAW = 0x8877665544332211, 0x2122232425262728  # of machines 0 and 2; and what machine 2 drew
LINE = 0x99AABBCCDDEEFF00
OPTIONS, SAVED = b"speed=2", bytes(range(256)) * 12  # two states
HOST, GUEST = 0xC1C2C3C4C5C6C7C8, 0xD1D2D3D4D5D6D7D8  # the draws of a line's ends


def clock(draw, passed):
    """The clock of who drew this, so many milliseconds after it began."""
    return (draw + passed) % (1 << 32)


def of_match(text):
    """A packet of machine 1 for machine 0, with the number and sealed: a hello, a piece and an ask have no draws in their key."""
    return text, sealed(text) if text[13] in (HELLO, PIECE, ASK) else sealed(text, DRAWS[1], DRAWS[0])


def of_line(text):
    """A packet of a line, with the number and sealed."""
    own, other = (GUEST, HOST) if text[12] == VIEWER else (HOST, GUEST)
    return text, sealed(text) if text[13] == HELLO else sealed(text, own, other)


def examples():
    """Each packet of the page by its name, with the number and sealed."""
    first_clocks = (120, 118, clock(DRAWS[1], 2016), clock(DRAWS[0], 1984), 16)
    turn = play(NUMBER, 1, 130, {0: 119, 1: 123}, {1: (117, 6)}, [0, 0, 5, 5, 5, 7], first_clocks, (110, 0xFEDCBA9876543210))
    third_bye = sealed(bye(THIRD_NUMBER, 2, LEAVES), THIRD_DRAW, DRAWS[0])
    line_clocks = (603, 603, clock(HOST, 10016), clock(GUEST, 9984), 8)
    marks = {1: (121, mark([2], 0x3132333435363738, {1: 3}))}
    known = {**marks, 0: (118, mark(threshold=6))}
    return {
        "hello": of_match(hello(NUMBER, 1, MATCH, DRAWS[1], DRAWS[0], 5000)),
        "first hello": of_match(hello(NUMBER, 1, MATCH, DRAWS[1], 0, 5000)),
        "turn": of_match(turn),
        "held": of_match(play(NUMBER, 1, 20_010, {0: 19_999, 1: 20_003}, {1: (19_997, 6)}, [5] * 6)),
        "marked": of_match(play(NUMBER, 1, 130, {0: 119, 1: 123}, {1: (117, 6)}, [0, 0, 5, 5, 5, 7], marks=marks)),
        "told on": of_match(play(NUMBER, 1, 131, {0: 119, 1: 123}, {1: (122, 1)}, [7], marks=known)),
        "bye": of_match(bye(NUMBER, 1, LEAVES)),
        "map": of_match(line_map(NUMBER, 1, [([0, 1], 2), ([0, 1, 2], 2), ([1, 2], 2)])),
        "carried": of_match(carried(NUMBER, 1, [(0, 6, third_bye)])),
        "viewer's hello": of_line(hello(LINE, VIEWER, MATCH, GUEST, HOST, 3000)),
        "rows": of_line(play(LINE, 0, 640, {0: 603, 1: 601}, {0: (600, 3), 1: (0, 1)}, [5, 5, 9, 9], line_clocks)),
        "viewer's answer": of_line(play(LINE, VIEWER, 641, {0: 603, 1: 603})),
        "first ask": of_match(ask(NUMBER, 1, 2, 0, None, [0])),
        "piece": of_match(piece(NUMBER, 0, 2, 0, OPTIONS, 0)),
        "ask": of_match(ask(NUMBER, 1, 1, 0, SAVED, [2, 0])),
    }


def room():
    """The most bytes of a packet that is carried."""
    return DATAGRAM_LIMIT - len(carried(NUMBER, 1, [(0, 7, MAGIC)])) + len(MAGIC)


def greatest():
    """The play that has the most bytes."""
    most, players = (1 << 32) - 1, range(8)
    words = [most - at % 2 for at in range(140)]
    offers = {player: (4_000_000_000, 21 if player == 7 else 17) for player in players}
    marks = dict.fromkeys(players, (4_000_000_016, mark(players, (1 << 64) - 1, dict.fromkeys(players, 255), 255)))
    return play(NUMBER, 1, most, dict.fromkeys(players, most), offers, words, [most] * 5, (most, (1 << 64) - 1), players, marks)


# ---- the page


class Tally:
    """What was compared."""

    def __init__(self):
        self.passed = self.failed = 0

    def is_so(self, is_well, what):
        """Counts something, and says what is wrong with it."""
        self.passed, self.failed = self.passed + bool(is_well), self.failed + (not is_well)
        if not is_well:
            print(f"failed: {what}")


def hexed(text):
    """Bytes as the page has them within a line."""
    return " ".join(f"{byte:02x}" for byte in text)


def bytes_in(text):
    """The bytes that stand in a text between backquotes, one after the other."""
    return bytes.fromhex("".join(re.findall(r"`([0-9a-f ]*)`", text)))


def cells(line):
    """The cells of a line of a table."""
    return [it.strip() for it in line.strip().strip("|").split("|")]


def blocks(lines):
    """The indented blocks of bytes: where each ends, and what it has."""
    found, kept = [], b""
    for number, line in enumerate([*lines, ""]):
        if re.fullmatch(r"    [0-9a-f]{2}( [0-9a-f]{2})*", line):
            kept += bytes.fromhex(line)
        elif kept:
            found.append((number, kept))
            kept = b""
    return found


def tables(lines):
    """The tables: where each begins, its head, and its other rows."""
    found, number = [], 0
    while number < len(lines):
        end = number
        while end < len(lines) and lines[end].startswith("|"):
            end += 1
        if end > number:
            found.append((number, cells(lines[number]), [cells(line) for line in lines[number + 2 : end]]))
        number = max(end, number + 1)
    return found


def compare_places(tally, rows, text, name):
    """Compares a table of places with the packet before it: each part stands there, and all behind the first place is told."""
    at = int(rows[0][0])
    for place, told, _ in rows:
        part = bytes_in(told)
        tally.is_so(int(place) == at and text[at : at + len(part)] == part, f"{name}: {told} at {place}")
        at += len(part)
    tally.is_so(at == len(text), f"{name}: the table ends at {at}, and not at {len(text)}")


def compare_fields(tally, rows, end):
    """Compares the places of fields with how long they are."""
    at = int(rows[0][0])
    for place, size, _ in rows:
        tally.is_so(int(place) == at, f"a field at {place}, and not at {at}")
        at += int(size)
    tally.is_so(at == end, f"fields up to {at}, and not to {end}")


def compare_tables(tally, lines, made, seal):
    """Compares each table of bytes. The seal's has its steps in their order."""
    named = {sealed: name for name, (_, sealed) in made.items()}
    ends = iter([14, len(made["hello"][1]), len(made["bye"][1]), 14 + len(name(0, 0, None)), TABLE_BYTES])
    found = tables(lines)
    heads = [", ".join(head) for _, head, _ in found]
    for head in ["Place, Bytes, Field", "Short number, Bytes", "Words, Bytes, Say", "Step, Bytes", "Place, Bytes, Say"]:
        tally.is_so(head in heads, f"there is no table of {head}")
    for number, head, rows in found:
        before = [text for end, text in blocks(lines) if end <= number]
        if head == ["Place", "Bytes", "Say"]:
            text = before[-1] if before else b""
            compare_places(tally, rows, text, named.get(text, "a table"))
        elif head == ["Place", "Bytes", "Field"]:
            compare_fields(tally, rows, next(ends, 0))
        elif head == ["Short number", "Bytes"]:
            for told, text in rows:
                tally.is_so(bytes_in(text) == short(int(told.replace(",", ""))), f"short number {told}")
        elif head == ["Words", "Bytes", "Say"]:
            for told, text, _ in rows:
                words = [int(it) for it in told.split(",") if it != "none"]
                tally.is_so(bytes_in(text) == runs(words), f"words {told}")
        elif head == ["Step", "Bytes"]:
            tally.is_so([bytes_in(text) for _, text in rows] == seal, "the steps of the seal")


def compare_page(tally, text, made):
    """Compares a page with what is made."""
    lines = text.splitlines()
    packets = {sealed for _, sealed in made.values()}
    shown = [block for _, block in blocks(lines)]
    for block in shown:
        tally.is_so(block in packets, f"nobody makes {hexed(block)}")
    for name in SHOWN:
        tally.is_so(made[name][1] in shown, f"the page doesn't show {name}: {hexed(made[name][1])}")
    seal = steps(made["bye"][0], DRAWS[1], DRAWS[0])
    tally.is_so(seal[-1] == made["bye"][1], "the seal by its steps, and by the HMAC of Python")
    compare_tables(tally, lines, made, seal)
    whole = " ".join(text.split())
    for saying in sayings(made):
        tally.is_so(saying in whole, f"the page doesn't say: {saying}")


SHOWN = ["hello", "turn"]


def sayings(made):
    """What the page has to say of sizes, and of the numbers behind the examples."""
    held = len(made["held"][1])
    return [
        f"`{hexed(MAGIC)}`: the letters `FZG`, and the version, `4`",
        *(f"0x{number:016x}" for number in [NUMBER, *DRAWS, MATCH["digest"], MATCH["opening"]]),
        f"A hello has {len(made['hello'][1])} bytes",
        f"It has {len(made['turn'][1])} bytes:",
        f"The greatest play has {len(greatest()):,} bytes",
        f"A mark has 4 to {len(short(1 << 31) + mark(range(8), 1, dict.fromkeys(range(8), 1)))} bytes",
        f"has {held} bytes at frame 20,000",
        f"{60 * held:,} bytes a second",
        f"A bye has {len(made['bye'][1])} bytes",
        f"A map has {len(line_map(NUMBER, 1, [([], 0)] * 3))} to {len(line_map(NUMBER, 1, [([], 0)] * PLACES))} bytes",
        f"carried has {room():,} bytes at most",
        f"A piece has {len(piece(NUMBER, 0, 1, 0, SAVED, 0)):,} bytes at most",
        f"an ask {len(ask(NUMBER, 1, 1, 0, SAVED, range(ASK_LIMIT)))}",
    ]


def compare_source(tally, path, text, made):
    """Compares the arrays of a source that begin as a packet does."""
    packets = {packet for pair in made.values() for packet in pair}
    beginning = ", ".join(f"0x{byte:02x}" for byte in MAGIC[:3])
    found = [" ".join(it.split()) for it in re.findall(r"[\[{]\s*((?:0x[0-9a-f]{2},?\s*)+)[\]}]", text)]
    found = [bytes(int(byte, 16) for byte in re.findall(r"0x(..)", it)) for it in found if it.startswith(beginning)]
    tally.is_so(found, f"{path}: it has no packets")
    for array in found:
        tally.is_so(array in packets, f"{path}: nobody makes {hexed(array)}")


def main():
    if len(sys.argv) < 2:
        sys.exit(__doc__)
    tally, made = Tally(), examples()
    compare_page(tally, Path(sys.argv[1]).read_text(), made)
    for path in sys.argv[2:]:
        compare_source(tally, path, Path(path).read_text(), made)
    print(f"{tally.passed} passed, {tally.failed} failed")
    return tally.failed != 0


if __name__ == "__main__":
    sys.exit(main())
