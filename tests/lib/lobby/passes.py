"""Keys and tokens of a broker with an operator, by Python alone: RFC 8032's Ed25519, nkeys' texts, and what a user shows."""
import base64
import hashlib
import json
import os

PRIME = 2 ** 255 - 19
ORDER = 2 ** 252 + 27742317777372353535851937790883648493
CURVE = -121665 * pow(121666, PRIME - 2, PRIME) % PRIME
KINDS = {"A": 0, "O": 14 << 3, "S": 18 << 3, "U": 20 << 3}


# ---- Ed25519: a point is X, Y, Z and T, with x = X/Z, y = Y/Z and xy = T/Z

def add(one, other):
    left = (one[1] - one[0]) * (other[1] - other[0])
    right = (one[1] + one[0]) * (other[1] + other[0])
    c, d = 2 * one[3] * other[3] * CURVE, 2 * one[2] * other[2]
    e, f, g, h = right - left, d - c, d + c, right + left
    return e * f % PRIME, g * h % PRIME, f * g % PRIME, e * h % PRIME


def times(number, point):
    found = (0, 1, 1, 0)
    while number:
        if number & 1:
            found = add(found, point)
        point = add(point, point)
        number >>= 1
    return found


def base():
    y = 4 * pow(5, PRIME - 2, PRIME) % PRIME
    square = (y * y - 1) * pow(CURVE * y * y + 1, PRIME - 2, PRIME) % PRIME
    x = pow(square, (PRIME + 3) // 8, PRIME)
    if (x * x - square) % PRIME:
        x = x * pow(2, (PRIME - 1) // 4, PRIME) % PRIME
    x = PRIME - x if x & 1 else x
    return x, y, 1, x * y % PRIME


BASE = base()


def packed(point):
    inverse = pow(point[2], PRIME - 2, PRIME)
    x, y = point[0] * inverse % PRIME, point[1] * inverse % PRIME
    return (y | (x & 1) << 255).to_bytes(32, "little")


def number_of(*parts):
    return int.from_bytes(hashlib.sha512(b"".join(parts)).digest(), "little")


def secret_of(seed):
    digest = hashlib.sha512(seed).digest()
    number = int.from_bytes(digest[:32], "little")
    return number & (1 << 254) - 8 | 1 << 254, digest[32:]


def open_of(seed):
    return packed(times(secret_of(seed)[0], BASE))


def signed(seed, data):
    secret, rest = secret_of(seed)
    one_time = number_of(rest, data) % ORDER
    point = packed(times(one_time, BASE))
    return point + ((one_time + number_of(point, open_of(seed), data) * secret) % ORDER).to_bytes(32, "little")


# ---- nkeys

def crc(data):
    """CRC-16/XMODEM."""
    found = 0
    for byte in data:
        found ^= byte << 8
        for _ in range(8):
            found = (found << 1 ^ (0x1021 if found & 0x8000 else 0)) & 0xFFFF
    return found


def text_of(data):
    return base64.b32encode(data + crc(data).to_bytes(2, "little")).decode().rstrip("=")


def key_text(kind, key):
    return text_of(bytes([KINDS[kind]]) + key)


def seed_text(kind, seed):
    return text_of(bytes([KINDS["S"] | KINDS[kind] >> 5, KINDS[kind] << 3 & 0xFF]) + seed)


def seed_of(text):
    data = base64.b32decode(text + "=" * (-len(text) % 8))
    assert crc(data[:-2]).to_bytes(2, "little") == data[-2:], text
    return data[2:-2]


class Key:
    def __init__(self, kind, seed=None):
        self.seed = seed or os.urandom(32)
        self.text, self.seed_text = key_text(kind, open_of(self.seed)), seed_text(kind, self.seed)


# ---- what a user shows

def encoded(data):
    return base64.urlsafe_b64encode(data).decode().rstrip("=")


def token_of(signer, claims):
    head = {"typ": "JWT", "alg": "ed25519-nkey"}
    text = ".".join(encoded(json.dumps(it, separators=(",", ":")).encode()) for it in (head, claims))
    return f"{text}.{encoded(signed(signer.seed, text.encode()))}"


def claims_of(signer, account, user, **rights):
    """Of a user of a broker whose players have a pass: its rights aren't its own to say."""
    return {"iss": signer.text, "sub": user.text, "nats": {"issuer_account": account, "type": "user", "version": 2, **rights}}


class Pass:
    """What is before the @ in a broker's URL."""

    def __init__(self, text):
        self.signer, self.account = Key("A", seed_of(text[:58])), text[58:]

    def greeting(self, info, user):
        """What is told a broker that has said who it is: the words of its INFO."""
        nonce = json.loads(info.split(b" ", 1)[1].split(b"\r\n")[0])["nonce"]
        return {"jwt": token_of(self.signer, claims_of(self.signer, self.account, user)), "sig": encoded(signed(user.seed, nonce.encode()))}
