"""The packets of tests/wire.py as a text: what each is, its key, and what each part of it says."""
import wire

HEAD = [(4, "the version"), (8, "the tag")]
MATCH_SAYS = [(1, "2 machines"), (1, "an input is one word"), (8, "player 0 of machine 0, player 1 of machine 1, and no others"),
              (8, "the digest of what has to be alike"), (8, "the digest of the opening state")]
LENGTH_SAYS = [(4, "3,072 bytes"), (32, "their digest")]
SIX_WORDS = "six words: 0, 0, 5, 5, 5, 7"

# Of each packet: what it is, and behind the tag how many bytes say what.
TOLD = {
    "first hello": ("machine 1 says hello to machine 0 before it has heard anything", [
        (1, "sender 1"), (1, "a hello"), *MATCH_SAYS, (8, "its draw"), (8, "no draw of machine 0 was heard"),
        (4, "it is patient for 5,000 milliseconds"), (1, "it neither carries nor goes on in epochs")]),
    "hello": ("machine 1 has heard a hello of machine 0, and echoes it", [
        (1, "sender 1"), (1, "a hello"), *MATCH_SAYS, (8, "its draw"), (8, "the draw of machine 0"),
        (4, "it is patient for 5,000 milliseconds"), (1, "it neither carries nor goes on in epochs")]),
    "turn": ("a play at frame 120, with clocks and a settled state", [
        (1, "sender 1"), (1, "a play"), (2, "it had sent 130 packets before"), (1, "clocks follow"),
        (1, "it is at frame 120"), (1, "it thinks that machine 0 is at frame 118"), (5, "its clock, 0x15161718 + 2,016"),
        (4, "it heard of 0x05060708 + 1,984 on the other's clock"), (1, "16 ms ago"), (1, "it regards no machine as gone"),
        (1, "it has words of players 0 and 1"), (1, "119"), (1, "123"), (1, "a settled state follows"),
        (1, "all before frame 110 is final"), (8, "the digest there"), (1, "words of player 1 alone"), (1, "from frame 117 on"),
        (1, "6"), (1, "no marks"), (4, SIX_WORDS)]),
    "held": ("a play while a button is held, without clocks and settled state", [
        (1, "sender 1"), (1, "a play"), (3, "it had sent 20,010 packets before"), (1, "no clocks"), (1, "none gone"),
        (1, "it has words of players 0 and 1"), (3, "19,999"), (3, "20,003"), (1, "no settled state"), (1, "words of player 1 alone"),
        (3, "from frame 19,997 on"), (1, "6"), (1, "no marks"), (3, "six words: 5, 5, 5, 5, 5, 5")]),
    "marked": ("a play with a mark of its own word, in a match that goes on", [
        (1, "sender 1"), (1, "a play"), (2, "it had sent 130 packets before"), (1, "no clocks"), (1, "none gone"),
        (1, "it has words of players 0 and 1"), (1, "119"), (1, "123"), (1, "no settled state"), (1, "words of player 1 alone"),
        (1, "from frame 117 on"), (1, "6"), (1, "a mark of player 1"), (1, "on its word of frame 121"),
        (1, "somebody comes who is to own player 2"), (8, "that one's ticket"), (1, "player 1 gets another delay"), (1, "3 frames"),
        (1, "the threshold stays"), (4, SIX_WORDS)]),
    "told on": ("its next play tells the marks that it knows, though it offers neither word", [
        (1, "sender 1"), (1, "a play"), (2, "it had sent 131 packets before"), (1, "no clocks"), (1, "none gone"),
        (1, "it has words of players 0 and 1"), (1, "119"), (1, "123"), (1, "no settled state"), (1, "words of player 1 alone"),
        (1, "from frame 122 on"), (1, "1"), (1, "marks of players 0 and 1"), (1, "player 0's is on its word of frame 118"),
        (1, "nobody comes"), (1, "no delays"), (1, "the threshold is 6"), (1, "player 1's is on its word of frame 121"),
        (1, "somebody comes who is to own player 2"), (8, "that one's ticket"), (1, "player 1 gets another delay"), (1, "3 frames"),
        (1, "the threshold stays"), (2, "one word: 7")]),
    "bye": ("machine 1 leaves", [(1, "sender 1"), (1, "a bye"), (1, "it leaves")]),
    "map": ("machine 1 tells machine 0 whom each of three hears: the line between 0 and 2 is broken", [
        (1, "sender 1"), (1, "a map"), (1, "machine 0 hears 0 and 1"), (4, "its mask has changed twice: at first it was 0"),
        (1, "machine 1 hears all three"), (4, "its mask has changed twice"), (1, "machine 2 hears 1 and 2"),
        (4, "its mask has changed twice")]),
    "carried": ("machine 1 brings machine 0 a bye of machine 2", [
        (1, "sender 1"), (1, "what it carries"), (1, "for machine 0"), (1, "6 machines may still hand it on"), (2, "11 bytes follow"),
        (8, "the tag of that bye: by the number and the draws of machines 2 and 0"), (1, "sender 2"), (1, "a bye"), (1, "it leaves")]),
    "viewer's hello": ("a viewer has heard its host, and says hello", [
        (1, "a viewer"), (1, "a hello"), *MATCH_SAYS, (8, "its draw"), (8, "the host's draw"),
        (4, "it is patient for 3,000 milliseconds"), (1, "nothing else")]),
    "rows": ("the host tells three rows, from row 600 on; player 1 has left, with the word of row 600 as its last", [
        (1, "sender 0, the host"), (1, "a play"), (2, "it had sent 640 packets before"), (1, "clocks follow"), (2, "it has told 603 rows"),
        (2, "603 again"), (5, "its clock, 0xc5c6c7c8 + 10,016"), (5, "it heard of 0xd5d6d7d8 + 9,984 on the viewer's clock"),
        (1, "8 ms ago"), (1, "none gone"), (1, "counts of players 0 and 1"), (2, "player 0 has a word in 603 settled rows"),
        (2, "player 1 in 601"), (1, "no settled state"), (1, "words of players 0 and 1"), (2, "from row 600 on"), (1, "3 of player 0"),
        (1, "from the same row on"), (1, "1 of player 1"), (1, "no marks"), (5, "four words: 5, 5, 9 of player 0, and 9 of player 1")]),
    "viewer's answer": ("the viewer acknowledges them", [
        (1, "a viewer"), (1, "a play"), (2, "it had sent 641 packets before"), (1, "no clocks"), (1, "none gone"),
        (1, "it has rows of players 0 and 1"), (2, "603"), (2, "603"), (1, "no settled state"), (1, "no offers"), (1, "no marks")]),
    "first ask": ("machine 1 asks for a state of which it knows the number alone", [
        (1, "sender 1"), (1, "an ask"), (8, "the state 2"), (4, "of frame 0"), (4, "how many bytes it has isn't known"),
        (32, "nor their digest"), (4, "piece 0")]),
    "piece": ("machine 0 gives it", [
        (1, "sender 0"), (1, "a piece"), (8, "the state 2"), (4, "of frame 0"), (4, "7 bytes"), (32, "their digest"), (4, "piece 0"),
        (7, "the bytes: `speed=2`")]),
    "ask": ("machine 1 asks for two pieces of a state of 3,072 bytes, 0 to 255 and so on; it has the middle one", [
        (1, "sender 1"), (1, "an ask"), (8, "the state 1"), (4, "of frame 0"), *LENGTH_SAYS, (4, "piece 2"), (4, "and piece 0")]),
}

BEGINNING = """\
# The packets of which docs/WIRE.md tells, one of each kind and some more, as they are sent. tests/vectors/make makes this file anew.
#
# Of each packet stand its name, the key by which it is sealed, and its bytes, in order; what they say stands behind them. All is in
# hexadecimal. What begins with # isn't part of it.
"""


def key_of(name, text):
    """By which key a packet is sealed."""
    if text[13] in (wire.HELLO, wire.PIECE, wire.ASK):
        return wire.key(text)
    ends = {"rows": (wire.HOST, wire.GUEST), "viewer's answer": (wire.GUEST, wire.HOST)}
    return wire.key(text, *ends.get(name, (wire.DRAWS[1], wire.DRAWS[0])))


def lines_of(name, text, sealed):
    """A packet as lines."""
    what, parts = TOLD[name]
    yield f"\npacket {name.replace(' ', '-')}  # {what}"
    yield f"key {key_of(name, text).hex()}"
    at = 0
    for size, says in HEAD + parts:
        yield f"{sealed[at : at + size].hex()}  # {says}"
        at += size
    assert at == len(sealed), (name, at, len(sealed))


def written():
    """All packets as a text."""
    made = wire.examples()
    assert made.keys() == TOLD.keys()
    order = sorted(made, key=list(TOLD).index)
    return BEGINNING + "".join(f"{line}\n" for name in order for line in lines_of(name, *made[name]))
