#!/usr/bin/env python3
"""Seals a datagram as lib/line does, by a XChaCha20-Poly1305 of its own: xchacha.py KEY COUNTER TEXT

It is written from RFC 8439 and draft-irtf-cfrg-xchacha-03, whose example it comes to first.
"""
import struct
import sys

MASK = 0xFFFFFFFF


def quarter(x, a, b, c, d):
    for one, other, third, bits in [(a, b, d, 16), (c, d, b, 12), (a, b, d, 8), (c, d, b, 7)]:
        x[one] = x[one] + x[other] & MASK
        x[third] ^= x[one]
        x[third] = (x[third] << bits | x[third] >> (32 - bits)) & MASK


def rounds(x):
    for _ in range(10):
        for column in range(4):
            quarter(x, column, 4 + column, 8 + column, 12 + column)
        for column in range(4):
            quarter(x, column, 4 + (column + 1) % 4, 8 + (column + 2) % 4, 12 + (column + 3) % 4)


def words(data):
    return list(struct.unpack(f"<{len(data) // 4}I", data))


SIGMA = words(b"expand 32-byte k")


def block(key, counter, nonce):
    begun = SIGMA + words(key) + [counter] + words(nonce)
    x = list(begun)
    rounds(x)
    return struct.pack("<16I", *[a + b & MASK for a, b in zip(x, begun)])


def hchacha(key, nonce):
    x = SIGMA + words(key) + words(nonce)
    rounds(x)
    return struct.pack("<8I", *x[:4], *x[12:])


def poly1305(key, data):
    r = int.from_bytes(key[:16], "little") & 0x0FFFFFFC0FFFFFFC0FFFFFFC0FFFFFFF
    total = 0
    for at in range(0, len(data), 16):
        total = (total + int.from_bytes(data[at : at + 16] + b"\1", "little")) * r % (2**130 - 5)
    return (total + int.from_bytes(key[16:], "little") & 2**128 - 1).to_bytes(16, "little")


def sealed(key, nonce, text, beside):
    key, nonce = hchacha(key, nonce[:16]), bytes(4) + nonce[16:]
    stream = b"".join(block(key, 1 + at, nonce) for at in range((len(text) + 63) // 64))
    hidden = bytes(a ^ b for a, b in zip(text, stream))
    whole = beside + bytes(-len(beside) % 16) + hidden + bytes(-len(hidden) % 16) + struct.pack("<QQ", len(beside), len(hidden))
    return hidden + poly1305(block(key, 0, nonce)[:32], whole)


EXAMPLE = (
    "bd6d179d3e83d43b9576579493c0e939572a1700252bfaccbed2902c21396cbb731c7f1b0b4aa6440bf3a82f4eda7e39ae64c6708c54c216cb96b72e1213b452"
    "2f8c9ba40db5d945b11b69b982c1bb9e3f3fac2bc369488f76b2383565d3fff921f9664c97637da9768812f615c68b13b52ec0875924c1c7987947deafd8780acf49"
)


def main():
    text = b"Ladies and Gentlemen of the class of '99: If I could offer you only one tip for the future, sunscreen would be it."
    if sealed(bytes(range(0x80, 0xA0)), bytes(range(0x40, 0x58)), text, bytes.fromhex("50515253c0c1c2c3c4c5c6c7")).hex() != EXAMPLE:
        sys.exit("this is no XChaCha20-Poly1305")
    front = b"\xf1" + int(sys.argv[2], 0).to_bytes(7, "big")
    print((front + sealed(bytes.fromhex(sys.argv[1]), bytes(16) + front, sys.argv[3].encode(), front)).hex())


main()
