"""What follows from a host's key, by Python alone: code.py KEY, 64 digits. It prints the code, its room's name and the room's key."""
import hashlib
import sys

SIGNS = "0123456789ABCDEFGHJKMNPQRSTVWXYZ"


def follow(what, data, length):
    return hashlib.blake2b(what.encode() + b"\0" + data, digest_size=length).digest()


code = follow("fazgrond code 1", bytes.fromhex(sys.argv[1]), 16)
number = int.from_bytes(code, "big") << 12 | int.from_bytes(follow("fazgrond slip 1", code, 16)[:2], "big") >> 4
signs = "".join(SIGNS[number >> 5 * at & 31] for at in reversed(range(28)))
print("-".join(signs[at:at + 7] for at in range(0, 28, 7)), follow("fazgrond room 1", code, 16).hex(),
      follow("fazgrond room key 1", code, 32).hex())
