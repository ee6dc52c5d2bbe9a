#!/usr/bin/env python3
"""A program that knows of nothing but UDP: udp.py answer PORT, or udp.py ask ADDRESS:PORT

The one sends back what comes, to wherever it came from. The other sends datagrams of each length from a port of its own that nobody was
told, until each has come back from that very address. One that is too long must not. It says how many came.
"""
import random
import socket
import sys
import time

LONGEST = 1200
LENGTHS = [1, 2, 12, 13, 100, 1100, 1199, LONGEST]


def answer(port):
    with socket.socket(socket.AF_INET, socket.SOCK_DGRAM) as here:
        here.bind(("0.0.0.0", port))
        while True:
            data, sender = here.recvfrom(4096)
            here.sendto(data, sender)


def ask(address):
    waiting = {length: random.randbytes(length) for length in LENGTHS}
    longer = random.randbytes(LONGEST + 1)
    end = time.monotonic() + 60
    with socket.socket(socket.AF_INET, socket.SOCK_DGRAM) as here:
        here.settimeout(0.1)
        while waiting and time.monotonic() < end:
            for data in [longer, *waiting.values()]:
                here.sendto(data, address)
            try:
                while True:
                    data, sender = here.recvfrom(4096)
                    assert sender == address and len(data) <= LONGEST, (sender, len(data))
                    if waiting.get(len(data)) == data:
                        del waiting[len(data)]
            except TimeoutError:
                pass
    print(f"{len(LENGTHS) - len(waiting)} came back")
    sys.exit(bool(waiting))


if sys.argv[1] == "answer":
    answer(int(sys.argv[2]))
host, port = sys.argv[2].split(":")
ask((host, int(port)))
