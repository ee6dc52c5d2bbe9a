#!/usr/bin/env python3
"""Asks a door for more than it gives one network: door.py PORT [TURN]. The broker at PORT takes players without a pass, the door has 20
tries for an address, and relays; TURN is the port of a relay that gives each user two places. Each line that it writes is a check that
failed."""
import ctypes
import ctypes.util
import json
import os
import socket
import sys
import time

sys.dont_write_bytecode = True
sys.path.append(os.path.join(os.path.dirname(os.path.abspath(__file__)), "../line"))
from turn import Client  # noqa: E402

KEY, TOKEN, SEAL = 32, 16, 48
OK, TOO_MANY = 0, 2
TRIES, PART, USERS = 20, 4, 4
sodium = ctypes.CDLL(ctypes.util.find_library("sodium"))
failed = 0


def check(what, is_so, found):
    global failed
    if not is_so:
        print(f"{what}: {found}")
        failed = 1


class Asker:
    """A player at an address of this machine."""

    def __init__(self, address):
        self.broker = socket.create_connection(("127.0.0.1", int(sys.argv[1])), 5, (address, 0))
        self.open, self.secret = ctypes.create_string_buffer(KEY), ctypes.create_string_buffer(KEY)
        sodium.crypto_box_keypair(self.open, self.secret)
        self.inbox = f"faz.in.{os.urandom(16).hex()}"
        self.told = b""
        self.line()
        self.broker.sendall(f'CONNECT {json.dumps({"verbose": False})}\r\nSUB {self.inbox} 1\r\n'.encode())

    def more(self):
        came = self.broker.recv(65536)
        assert came, self.told
        self.told += came

    def line(self):
        while b"\r\n" not in self.told:
            self.more()
        line, _, self.told = self.told.partition(b"\r\n")
        return line

    def asks(self, kind, plate=b"", token=bytes(TOKEN), times=1):
        text = bytes([1]) + kind + self.open.raw + bytes([len(plate)]) + plate + token
        self.broker.sendall((f"PUB faz.door {self.inbox} {len(text)}\r\n".encode() + text + b"\r\n") * times)

    def asked(self, *words, **more):
        """The status of the door's answer, a host's plate, and the relays' user and password."""
        self.asks(*words, **more)
        line = self.line()
        while not line.startswith(b"MSG "):
            line = self.line()
        length = int(line.split()[-1])
        while len(self.told) < length + 2:
            self.more()
        sealed, self.told = self.told[1:length], self.told[length + 2:]
        inside = ctypes.create_string_buffer(len(sealed) - SEAL)
        assert sodium.crypto_box_seal_open(inside, sealed, ctypes.c_ulonglong(len(sealed)), self.open, self.secret) == 0
        return self.read(inside.raw)

    @staticmethod
    def read(text):
        def word():
            nonlocal text
            found, text = text[1:1 + text[0]], text[1 + text[0]:]
            return found

        status, text = text[1], text[2:]
        plate, text = word(), text[TOKEN:]
        word()
        relays, text = text[2], text[3:]
        for _ in range(relays):
            text = text[3:]
            word()
        return status, plate, word().decode(), word().decode()


def keeps():
    """A host that keeps its plate ninety times in a moment isn't given all of that."""
    host, token, begun = Asker("127.0.0.1"), os.urandom(TOKEN), time.monotonic()
    status, plate, _, _ = host.asked(b"H", token=token)
    check("a plate", status == OK and len(plate) == 3, (status, plate))
    kept = [host.asked(b"H", plate, token) for _ in range(90)]
    given = sum(it[0] == OK for it in kept)
    back = (time.monotonic() - begun) * PART * TRIES / 60
    due = PART * (TRIES - 1)
    check("how often a plate is kept", due <= given <= due + back + 1, f"{given}, not {due}")
    check("the same plate", {it[1] for it in kept if it[0] == OK} == {plate}, kept)
    check("who asks too often", host.asked(b"R")[0] == TOO_MANY, "")
    check("another address", Asker("127.0.0.2").asked(b"R")[0] == OK, "")


def users():
    """An address has one user of the relays, and all addresses of a network four."""
    first = Asker("127.1.0.1").asked(b"R")
    found = {Asker(f"127.1.0.{at}").asked(b"R")[2].split(":")[1] for at in range(1, 41)}
    check("users of one network", 1 < len(found) <= USERS, found)
    elsewhere = Asker("127.2.0.1").asked(b"R")
    check("another network's", elsewhere[2].split(":")[1] not in found, elsewhere)
    return first, elsewhere


def flood():
    """A network that asks without an end keeps the door from nobody else, who asks again each second."""
    stranger, other = Asker("127.3.0.1"), Asker("127.4.0.1")
    for _ in range(80):
        stranger.asks(b"J", b"ZZZ", times=1000)
    other.broker.settimeout(1)
    for _ in range(10):
        try:
            check("who asks beside a flood", other.asked(b"R")[0] == OK, "is refused")
            return
        except (TimeoutError, ConnectionError):
            pass
    check("who asks beside a flood", False, "isn't answered")


def places(port, first, elsewhere):
    """An address gets no more places than its user has, whichever tickets of the door it shows."""
    while True:
        again = Asker("127.1.0.1").asked(b"R")
        if again[2] != first[2]:
            break
        time.sleep(0.1)
    held = [Client(("127.0.0.1", port), 4) for _ in range(5)]
    tickets = [first, again, first, again, elsewhere]
    given = [one.allocated(*ticket[2:]) for one, ticket in zip(held, tickets)]
    check("places of one network, and of another", given == [0, 0, 486, 486, 0], given)


tickets = users()
keeps()
flood()
if len(sys.argv) > 2:
    places(int(sys.argv[2]), *tickets)
sys.exit(failed)
