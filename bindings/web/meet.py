"""Joins a page's lobby by a code, for bindings/web/bridge: it speaks as lib/lobby does, over a NATS broker, and says that it is a page.
What is sealed is sealed by libsodium, and short codes are proved by GnuTLS, both of which lie where aiortc does (Debian's libsodium23
and libgnutls30)."""
import asyncio
import base64
import binascii
import ctypes
import hashlib
import json
import os
import struct
import urllib.parse

SIGNS = "0123456789ABCDEFGHJKMNPQRSTVWXYZ"
PAGE = 0x66617A2D70616765
VERSION, KEY, INBOX, NONCE, SEAL = 3, 32, 32, 24, 40
# Bytes of a code, of the name of who knocks, and of a room's name. So many signals wait.
CODE = KNOCK = NAME = 16
EARLY = 64
WAITS, SEATED, BEGINS, REFUSED = range(4)
REASONS = ["the host said no", "nobody hosts a match with this code now", "all seats are taken",
           "the host plays another game, or another version of it", "the host's player said no", "the host has left",
           "the host's game has another version of this library", "the host's system said no", "the code's last four signs are wrong",
           "the door was asked too often from this address: try later",
           "the host doesn't play in a browser: a native game joins it by --join of its own"]
UNANSWERED = "nobody who hosts a match with this code answers: the host is gone, or its game has an older version of this library"
# Seconds: between two messages, without an answer, and until it is believed that a code is wrong. And so often it knocks, since who hears
# one can spoil its proof.
AGAIN, PATIENCE, BELIEVED, KNOCKS = 0.5, 10, 3, 3


class Failed(Exception):
    pass


class Spoilt(Exception):
    """A proof that can't go on, by a word that may be anybody's."""


def library(*names):
    for name in names:
        try:
            return ctypes.CDLL(name)
        except OSError:
            pass
    raise Failed(f"there is no {names[0]}")


# ---- what is sealed

class Sodium:
    def __init__(self):
        self.calls = library("libsodium.so.23", "libsodium.so.26", "libsodium.so")
        if self.calls.sodium_init() < 0:
            raise Failed("the system gives no random numbers")

    def seal(self, key, data, more):
        nonce, out = os.urandom(NONCE), ctypes.create_string_buffer(len(data) + SEAL - NONCE)
        self.calls.crypto_aead_xchacha20poly1305_ietf_encrypt(
            out, None, data, ctypes.c_ulonglong(len(data)), more, ctypes.c_ulonglong(len(more)), None, nonce, key)
        return nonce + out.raw

    def open(self, key, data, more):
        """What was sealed; None if nobody with the key has sealed this."""
        if len(data) < SEAL:
            return None
        out, rest = ctypes.create_string_buffer(max(len(data) - SEAL, 1)), data[NONCE:]
        wrong = self.calls.crypto_aead_xchacha20poly1305_ietf_decrypt(
            out, None, None, rest, ctypes.c_ulonglong(len(rest)), more, ctypes.c_ulonglong(len(more)), data[:NONCE], key)
        return None if wrong else out.raw[:len(data) - SEAL]

    def keys(self):
        """A key to be shown, and its secret."""
        shown, secret = ctypes.create_string_buffer(KEY), os.urandom(KEY)
        self.calls.crypto_scalarmult_base(shown, secret)
        return shown.raw, secret

    def shared(self, secret, theirs):
        out = ctypes.create_string_buffer(KEY)
        if self.calls.crypto_scalarmult(out, secret, theirs):
            raise ValueError("this is no key")
        return out.raw

    def vouched(self, proof, host, speaks):
        text = b"fazgrond speaks 1\0" + speaks
        return not self.calls.crypto_sign_verify_detached(proof, text, ctypes.c_ulonglong(len(text)), host)

    def user(self, seed):
        """A key of Ed25519 that follows from a seed, and its secret one."""
        shown, secret = ctypes.create_string_buffer(KEY), ctypes.create_string_buffer(2 * KEY)
        self.calls.crypto_sign_seed_keypair(shown, secret, seed)
        return shown.raw, secret.raw

    def signed(self, secret, data):
        out = ctypes.create_string_buffer(64)
        self.calls.crypto_sign_detached(out, None, data, ctypes.c_ulonglong(len(data)), secret)
        return out.raw

    def open_box(self, keys, data):
        out = ctypes.create_string_buffer(max(len(data) - 48, 1))
        wrong = len(data) < 48 or self.calls.crypto_box_seal_open(out, data, ctypes.c_ulonglong(len(data)), *keys)
        return None if wrong else out.raw[:len(data) - 48]


def follow(what, data, length):
    return hashlib.blake2b(what.encode() + b"\0" + data, digest_size=length).digest()


class Pair:
    """What two machines have, of whom each knows the other's open key."""

    def __init__(self, sodium, room_key, keys, theirs):
        self.sodium, self.ours, self.theirs = sodium, keys[0], theirs
        both = sorted([self.ours, theirs])
        text = b"fazgrond pair 1\0" + sodium.shared(keys[1], theirs) + both[0] + both[1]
        self.key = hashlib.blake2b(text, key=room_key, digest_size=KEY).digest()

    def words(self):
        signs = "".join(SIGNS[it & 31] for it in follow("fazgrond words 1", self.key, 16)[:8])
        return f"{signs[:4]}-{signs[4:]}"

    def seal(self, kind, data):
        return self.sodium.seal(self.key, data, kind + self.ours)

    def open(self, kind, data):
        return self.sodium.open(self.key, data, kind + self.theirs)


class Pake:
    """Who joins by a short code: a handshake of GnuTLS whose bytes others carry, as in lib/lobby/pake.c."""
    CLIENT, AGAIN_LATER = 1 << 1 | 1 << 3 | 1 << 6 | 1 << 10, -28

    def __init__(self, name, secret):
        self.calls, self.session, self.held = library("libgnutls.so.30", "libgnutls.so"), ctypes.c_void_p(), ctypes.c_void_p()
        self.came, self.said = b"", b""
        push = ctypes.CFUNCTYPE(ctypes.c_ssize_t, ctypes.c_void_p, ctypes.c_void_p, ctypes.c_size_t)
        wait = ctypes.CFUNCTYPE(ctypes.c_int, ctypes.c_void_p, ctypes.c_uint)
        self.kept = push(self.push), push(self.pull), wait(lambda of, time: len(self.came) > 0)
        self.call("init", ctypes.byref(self.session), self.CLIENT)
        self.call("priority_set_direct", self.session, b"NORMAL:-KX-ALL:+SRP:-VERS-ALL:+VERS-TLS1.2", None)
        self.call("srp_allocate_client_credentials", ctypes.byref(self.held))
        self.call("srp_set_client_credentials", self.held, name.encode(), secret.encode())
        self.calls.gnutls_srp_set_prime_bits(self.session, 2048)
        self.call("credentials_set", self.session, 3, self.held)
        for name, function in zip(["push", "pull", "pull_timeout"], self.kept):
            getattr(self.calls, f"gnutls_transport_set_{name}_function")(self.session, function)
        self.calls.gnutls_handshake_set_timeout(self.session, ctypes.c_uint(-2 & 0xFFFFFFFF))

    def call(self, name, *words):
        if getattr(self.calls, f"gnutls_{name}")(*words) != 0:
            raise Failed(f"GnuTLS has no SRP ({name})")

    def push(self, of, data, length):
        self.said += ctypes.string_at(data, length)
        return length

    def pull(self, of, room, length):
        taken, self.came = self.came[:length], self.came[length:]
        if not taken:
            self.calls.gnutls_transport_set_errno(self.session, 11)
            return -1
        ctypes.memmove(room, taken, len(taken))
        return len(taken)

    def turn(self, came):
        """Takes what the host said. What is to be said next; whether it is done."""
        self.came, self.said = came, b""
        status = self.calls.gnutls_handshake(self.session)
        if status not in (0, self.AGAIN_LATER) or (status and not self.said):
            raise Spoilt
        return self.said, status == 0

    def key(self):
        label, out = b"EXPORTER-fazgrond-code-1", ctypes.create_string_buffer(KEY)
        self.call("prf_rfc5705", self.session, ctypes.c_size_t(len(label)), label, ctypes.c_size_t(0), None, ctypes.c_size_t(KEY), out)
        return out.raw


# ---- codes, and bytes that are read

def read_code(text):
    """A code's bytes, or a plate and the signs behind it."""
    signs = "".join(text.split()).replace("-", "").upper().replace("O", "0").replace("I", "1").replace("L", "1")
    if set(signs) - set(SIGNS) or len(signs) not in (7, 28):
        raise Failed("this is no code: a sign of it may be wrong or missing")
    if len(signs) == 7:
        return signs[:3], signs[3:]
    number = sum(SIGNS.index(it) << 5 * at for at, it in enumerate(reversed(signs)))
    code = (number >> 12).to_bytes(CODE, "big")
    if int.from_bytes(follow("fazgrond slip 1", code, 16)[:2], "big") >> 4 != number & 0xFFF:
        raise Failed("this is no code: a sign of it may be wrong or missing")
    return code


class Reader:
    def __init__(self, data):
        self.data = data

    def take(self, count):
        if count > len(self.data):
            raise ValueError("a message is too short")
        taken, self.data = self.data[:count], self.data[count:]
        return taken

    def number(self, count):
        return int.from_bytes(self.take(count), "big")

    def text(self):
        return self.take(self.number(1)).decode(errors="replace")


def text_bytes(text):
    return bytes([len(text.encode())]) + text.encode()


# ---- passes, as lib/lobby/pass.h has them

ACCOUNT, USER, SEED = 0, 20 << 3, 18 << 3


def key_text(data):
    return base64.b32encode(data + binascii.crc_hqx(data, 0).to_bytes(2, "little")).decode().rstrip("=")


def read_key(text):
    """The bytes of such a text; none if it is none."""
    try:
        data = base64.b32decode(text + "=" * (-len(text) % 8))[:-2]
    except ValueError:
        return b""
    return data if key_text(data) == text else b""


def inbox_subject(inbox):
    return f"faz.in.{key_text(bytes([USER]) + inbox)}"


def base64_text(data):
    return base64.urlsafe_b64encode(data).decode().rstrip("=")


class Pass:
    """What is before the @ in a broker's URL, unless that is a user and a password."""

    def __init__(self, text):
        seed, self.account = read_key(text[:58]), text[58:]
        if seed[:2] != bytes([SEED, ACCOUNT]) or len(seed) != 2 + KEY or len(read_key(self.account)) != 1 + KEY or self.account[0] != "A":
            raise Failed("the pass in the broker's address can't be read: a sign of it may be wrong or missing")
        self.seed = seed[2:]

    def token(self, sodium, user):
        shown, secret = sodium.user(self.seed)
        rest = {"issuer_account": self.account, "type": "user", "version": 2}
        claims = {"iss": key_text(bytes([ACCOUNT]) + shown), "sub": user, "nats": rest}
        parts = [json.dumps(it, separators=(",", ":")).encode() for it in ({"typ": "JWT", "alg": "ed25519-nkey"}, claims)]
        text = ".".join(map(base64_text, parts))
        return f"{text}.{base64_text(sodium.signed(secret, text.encode()))}"


# ---- the broker

class Broker:
    """A connection to a NATS broker: nats://HOST:PORT or tls://HOST:PORT, maybe with a pass, or with a user and a password."""

    def __init__(self, sodium):
        self.sodium = sodium
        shown, self.secret = sodium.user(os.urandom(KEY))
        self.user = key_text(bytes([USER]) + shown)
        self.inbox = f"faz.in.{self.user}"

    async def open(self, url):
        to = urllib.parse.urlsplit(url)
        if to.scheme not in ("nats", "tls") or to.hostname is None:
            raise Failed("the broker's address is none: nats://HOST:PORT was expected")
        self.by = Pass(to.username) if to.username and to.password is None else None
        try:
            self.reader, self.writer = await asyncio.open_connection(to.hostname, to.port or 4222)
            nonce = str(json.loads((await self.reader.readline()).partition(b" ")[2] or "{}").get("nonce", ""))
            if to.scheme == "tls":
                await self.writer.start_tls(True, server_hostname=to.hostname)
        except (OSError, ValueError) as why:
            raise Failed(f"the broker isn't there: {why}") from None
        told = {"verbose": False, "pedantic": False, "headers": True, "no_responders": True, "lang": "python", "version": "1"}
        if self.by is not None:
            told.update(jwt=self.by.token(self.sodium, self.user), sig=base64_text(self.sodium.signed(self.secret, nonce.encode())))
        elif to.username is not None:
            told.update(user=urllib.parse.unquote(to.username), **{"pass": urllib.parse.unquote(to.password or "")})
        self.writer.write(f"CONNECT {json.dumps(told)}\r\nSUB {self.inbox} 1\r\n".encode())

    def say(self, subject, data, is_asked=False):
        self.writer.write(f"PUB {subject} {f'{self.inbox} ' if is_asked else ''}{len(data)}\r\n".encode() + data + b"\r\n")

    async def hear(self):
        """The next message; None if nobody hears what was asked."""
        while True:
            line = (await self.reader.readline()).decode().split()
            if not line:
                raise Failed("the broker is gone")
            if line[0] == "PING":
                self.writer.write(b"PONG\r\n")
            elif line[0] == "-ERR" and "Authorization" in " ".join(line) and self.by is not None:
                raise Failed("the broker doesn't take this pass")
            elif line[0] == "-ERR":
                raise Failed(f"the broker says: {' '.join(line[1:])}")
            elif line[0] in ("MSG", "HMSG"):
                body = (await self.reader.readexactly(int(line[-1]) + 2))[:-2]
                if line[0] == "HMSG" and body.startswith(b"NATS/1.0 503"):
                    return None
                return body[int(line[-2]):] if line[0] == "HMSG" else body

    def close(self):
        self.writer.close()


# ---- the lobby

class Lobby:
    """One that is joined: `number`, `me`, and what the door says of servers. Signals go by `say` and `hear`."""

    def __init__(self, url, name, digest, told):
        self.url, self.name, self.digest, self.told = url, name, digest ^ PAGE, told
        self.sodium, self.early, self.servers, self.counter, self.reading = Sodium(), [], [], 0, None
        self.is_unheard, self.has_doubted, self.believed = False, False, None
        self.broker, self.keys = Broker(self.sodium), self.sodium.keys()

    async def join(self, text, has_door):
        code = read_code(text)
        await self.broker.open(self.url)
        plate, secret = code if isinstance(code, tuple) else ("", "")
        token = await self.ask_door(plate) if plate or has_door else None
        if plate:
            offer = await self.knock(plate, secret, f"faz.meet.{token.hex()}")
        else:
            name = follow("fazgrond room 1", code, NAME).hex()
            self.room_key = follow("fazgrond room key 1", code, KEY)
            hello = b"h" + self.sodium.seal(self.room_key, bytes([VERSION]) + self.keys[0], b"h")
            offer = await self.answered(f"faz.meet.{name}", lambda: hello, b"o", lambda came: self.read_offer(came, code))
        await self.ask(offer)

    async def answered(self, subject, asking, kind, read, gone=REASONS[1]):
        """What is answered to what is said again and again, of a kind, and as it is read: what that gives None for may be anybody's, and is
        left aside. `gone` is why, if nobody hears it."""
        now, again = asyncio.get_running_loop().time, 0
        until, self.is_unheard = now() + PATIENCE, False
        while now() < min(until, self.believed or until):
            if now() >= again:
                self.broker.say(subject, asking(), True)
                again = now() + AGAIN
            came = await self.within(again - now(), kind)
            found = None if came is None else self.read_by(read, came)
            if found is not None:
                return found
        if self.believed is not None:
            raise Failed(REASONS[8])
        raise Failed(gone if self.is_unheard else UNANSWERED)

    @staticmethod
    def read_by(read, came):
        try:
            return read(came)
        except ValueError:
            return None

    async def within(self, seconds, kind):
        """A message of this kind; None if none comes in time. Signals are kept."""
        with_end = asyncio.get_running_loop().time() + seconds
        while True:
            try:
                came = await asyncio.wait_for(self.heard(), max(with_end - asyncio.get_running_loop().time(), 0))
            except (asyncio.TimeoutError, TimeoutError):
                return None
            if came is None:
                self.doubt_host()
            elif came[:1] == kind:
                return came
            elif came[:1] == b"g" and len(self.early) < EARLY:
                self.early.append(came)

    def doubt_host(self):
        """Nobody hears what is said, as it seems."""
        if not self.has_doubted and self.counter == 0:
            self.told(f"nobody answers so far: waiting for {PATIENCE} seconds at most")
        self.is_unheard = self.has_doubted = True

    def doubt_code(self):
        """The code is wrong, as it seems."""
        if self.believed is None:
            self.told(f"the code's last four signs may be wrong: waiting for {BELIEVED} seconds at most")
            self.believed = asyncio.get_running_loop().time() + BELIEVED

    async def heard(self):
        """The next message. A read that is given up isn't lost."""
        self.reading = self.reading or asyncio.ensure_future(self.broker.hear())
        came = await asyncio.shield(self.reading)
        self.reading = None
        return came

    async def ask_door(self, plate):
        keys = self.sodium.keys()
        asked = bytes([1]) + (b"J" if plate else b"R") + keys[0] + text_bytes(plate) + bytes(16)
        of = Reader(await self.answered("faz.door", lambda: asked, b"d", lambda came: self.sodium.open_box(keys, came[1:]),
                                        "there is no door beside this broker"))
        _, says, _, token = of.number(1), of.number(1), of.text(), of.take(16)
        if says:
            raise Failed(REASONS[9] if says == 2 else REASONS[1])
        stun, port = of.text(), of.number(2)
        relays = [(of.number(1), of.number(2), of.text()) for _ in range(of.number(1))]
        user, password = of.text(), of.text()
        self.servers = [(f"stun:{stun}:{port}", None, None)] if stun else []
        self.servers += [(f"turn:{host}:{number}?transport={'tcp' if tcp else 'udp'}", user, password) for tcp, number, host in relays]
        return token

    async def knock(self, plate, secret, subject):
        for _ in range(KNOCKS):
            try:
                offer = await self.prove(Pake(plate, secret), os.urandom(KNOCK), subject)
                self.believed = None
                return offer
            except Spoilt:
                self.doubt_code()
        await asyncio.sleep(max(self.believed - asyncio.get_running_loop().time(), 0))
        raise Failed(REASONS[8])

    async def prove(self, pake, mine, subject):
        """Shows that it knows the code: what the host offers then."""
        came, more = b"", b""
        for step in (1, 2):
            said, _ = pake.turn(came)
            knock = struct.pack(">c16sBBH", b"k", mine, step, 0, len(said)) + said
            came, more = await self.answered(subject, lambda: knock, b"n", lambda it: self.read_knocked(it, mine, step))
            self.believed = self.believed and asyncio.get_running_loop().time() + BELIEVED
        if not pake.turn(came)[1]:
            raise Spoilt
        self.room_key = pake.key()
        offer = self.read_by(self.read_offer, more)
        return offer or await self.answered(subject, lambda: knock, b"n",
                                            lambda it: self.read_offer(self.read_knocked(it, mine, 2)[1]))

    def read_knocked(self, data, mine, step):
        """What is said to who knocks, and what is behind that."""
        of = Reader(data[1:])
        theirs, at, wrong = of.take(KNOCK), of.number(1), of.number(1)
        said = of.take(of.number(2))
        if theirs != mine or at != step:
            raise ValueError("it is for another")
        if wrong:
            self.doubt_code()
            raise ValueError("it may be anybody's")
        return said, of.data

    def read_offer(self, data, code=None):
        """The host's inbox; None if this is another's. With a short code the key by which the offer is sealed says that it is the
        host's."""
        of = Reader(self.sodium.open(self.room_key, data[1:], b"o") or b"")
        if of.number(1) != VERSION:
            raise Failed(REASONS[6])
        host, speaks, proof, inbox = of.take(KEY), of.take(KEY), of.take(64), of.take(INBOX)
        if not self.sodium.vouched(proof, host, speaks) or (code is not None and follow("fazgrond code 1", host, 16) != code):
            return None
        self.pair = Pair(self.sodium, self.room_key, self.keys, speaks)
        return inbox_subject(inbox)

    def asking(self):
        self.counter += 1
        inner = struct.pack(">IBQB", self.counter, 0, self.digest, 1) + text_bytes(self.name)
        return b"a" + self.sodium.seal(self.room_key, self.keys[0] + self.pair.seal(b"a", inner), b"a")

    async def ask(self, subject):
        """Asks to be let in, until the match begins."""
        says, last, heard, again = None, 0, asyncio.get_running_loop().time(), 0
        while says != BEGINS:
            now = asyncio.get_running_loop().time()
            if now - heard > PATIENCE:
                raise Failed(REASONS[5])
            if now >= again:
                self.broker.say(subject, self.asking(), True)
                again = now + AGAIN
            came = await self.within(again - now, b"s")
            inside = None if came is None else self.pair.open(b"s", came[1:])
            of = Reader(inside or bytes(4))
            counter = of.number(4)
            if inside is None or counter <= last:
                continue
            last, heard, before = counter, asyncio.get_running_loop().time(), says
            says, why, name = of.number(1), of.number(1), of.text()
            if says == REFUSED:
                raise Failed(REASONS[why] if why < len(REASONS) else REASONS[0])
            if says != before and says in (WAITS, SEATED):
                self.told(f"{f'{name} is asked;' if says == WAITS else f'with {name}:'} both see {self.pair.words()}")
        self.take_table(of)

    def take_table(self, of):
        self.me, machines, _ = of.number(1), of.number(1), of.take(9)
        self.number, key = of.number(8), of.take(KEY)
        of.take(1 + 16 + KEY + 64)
        members = [(of.take(KEY), of.take(INBOX), of.text()) for _ in range(machines)]
        if machines != 2 or self.me != 1 or members[0][0] != self.pair.theirs or members[1][0] != self.keys[0]:
            raise Failed("this match isn't one of two, or not of this page")
        self.pair = Pair(self.sodium, key, self.keys, members[0][0])
        self.other = inbox_subject(members[0][1])

    def close(self):
        if self.reading is not None:
            self.reading.cancel()
        self.broker.close()

    # ---- signals

    def say(self, text):
        self.broker.say(self.other, b"g" + bytes([self.me]) + self.pair.seal(b"g", text.encode()))

    async def hear(self, seconds):
        """The next signal's text, or None."""
        came = self.early.pop(0) if self.early else await self.within(seconds, b"g")
        inside = None if came is None or len(came) < 2 or came[1] != 0 else self.pair.open(b"g", came[2:])
        return None if inside is None else inside.decode(errors="replace")
