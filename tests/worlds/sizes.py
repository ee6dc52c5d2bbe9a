"""How many bytes datagrams have."""

DATAGRAM = 1200
HEAD, HELLO, BYE = 14, 61, 15
LABEL = 4           # of a parcel: for whom it is, how many steps are left, and its length
ENTRY = 5           # of a machine, in a map
CLOCK = 5
UDP = 28            # of IP and UDP, with each datagram


def short(number):
    """Bytes of a short number: 7 bits in each."""
    return (number.bit_length() + 6) // 7 or 1


def clocks_size(clocks, frame):
    """A flag, and six numbers. Two are clocks, which begin at some number of 32 bits."""
    if clocks is None:
        return 1
    return 1 + sum(map(short, (clocks.number, frame, frame, clocks.held))) + CLOCK + (CLOCK if clocks.heard_clock else 1)


def mark_size(frame, mark):
    """The frame of its word, and what is to be otherwise."""
    return short(frame) + 3 + (8 if mark.newcomer is not None else 0) + len(mark.delays)


def words_size(offers):
    """Words as runs: how often the word before comes again, and the next word."""
    size, before, run = 0, 0, False
    for _, _, words in offers:
        for value, _ in words:
            if value == before:
                run = True
            else:
                size += 1 + short(value)
                before, run = value, False
    return size + run


def play_size(packet, clocks, frame):
    """All fields of a play. The digest of a settled state, which stands in one play of 64, isn't counted."""
    size = HEAD + clocks_size(clocks, frame) + 1 + 1 + sum(short(n) for n in packet.view.has if n) + 1 + 1 + 1
    for player, first, words in packet.offers:
        size += short(first) + 1
        size += sum(mark_size(first + at, mark) for at, (_, mark) in enumerate(words) if mark)
    return size + words_size(packet.offers)


def map_size(entries):
    return HEAD + 1 + ENTRY * len(entries)
