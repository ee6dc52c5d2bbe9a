#!/usr/bin/env python3
"""Asks the door of a broker for one code after another, as fast as it gets them off: flood.py ADDRESS PORT SECONDS [PASS]"""
import json
import os
import socket
import sys
import threading
import time

sys.dont_write_bytecode = True
from passes import Key, Pass  # noqa: E402

SIGNS = b"0123456789ABCDEFGHJKMNPQRSTVWXYZ"
BATCH = 50


def asked(inbox):
    """A request for the code that somebody hosts by, with a plate that is drawn."""
    plate = bytes(SIGNS[byte % 32] for byte in os.urandom(3))
    bytes_ = bytes([1]) + b"J" + os.urandom(32) + bytes([3]) + plate + bytes(16)
    return b"PUB faz.door %s %d\r\n%s\r\n" % (inbox, len(bytes_), bytes_)


def count_answers(broker, counts):
    """Until the connection ends."""
    rest = b""
    while True:
        try:
            more = broker.recv(65536)
        except TimeoutError:
            continue
        except OSError:
            return
        if not more:
            return
        counts["answers"] += (rest + more).count(b"MSG faz.in.")
        rest = (rest + more)[-10:]


def main():
    sent, user, counts = 0, Key("U"), {"answers": 0}
    end = time.monotonic() + float(sys.argv[3])
    broker = socket.create_connection((sys.argv[1], int(sys.argv[2])), 5)
    info = broker.recv(65536)
    broker.settimeout(1)
    greeting = Pass(sys.argv[4]).greeting(info, user) if len(sys.argv) > 4 else {}
    greeting.update(verbose=False, headers=True, no_responders=True)
    broker.sendall(b"CONNECT " + json.dumps(greeting).encode() + f"\r\nSUB faz.in.{user.text} 1\r\n".encode())
    threading.Thread(target=count_answers, args=(broker, counts), daemon=True).start()
    while time.monotonic() < end:
        try:
            broker.sendall(b"".join(asked(f"faz.in.{user.text}".encode()) for _ in range(BATCH)))
            sent += BATCH
        except OSError:
            time.sleep(0.1)
    print(f"{sent} codes were asked for in {sys.argv[3]} seconds, and {counts['answers']} answers came")


main()
