#!/usr/bin/env python3
"""Sends junk to a port, a third of it random, a third like sealed datagrams, a third like requests of STUN:

    junk.py ADDRESS PORT RATE SECONDS [FROM PORT]

With FROM all of it is like sealed datagrams, and says that it comes from there.
"""
import os
import random
import socket
import struct
import sys
import time

address, port, rate, seconds = sys.argv[1], int(sys.argv[2]), int(sys.argv[3]), int(sys.argv[4])
KINDS = [
    lambda: os.urandom(69),
    lambda: b"\xf1" + bytes(5) + os.urandom(63),
    lambda: bytes.fromhex("000100002112a442") + os.urandom(12),
]


def plain():
    out = socket.socket(socket.AF_INET, socket.SOCK_DGRAM)
    return lambda: out.sendto(random.choice(KINDS)(), (address, port))


def forged(whose, from_port):
    out = socket.socket(socket.AF_INET, socket.SOCK_RAW, socket.IPPROTO_RAW)
    ip = struct.pack(">BBHHHBBH4s4s", 0x45, 0, 28 + 69, 0, 0, 64, 17, 0, socket.inet_aton(whose), socket.inet_aton(address))
    front = ip + struct.pack(">HHHH", from_port, port, 8 + 69, 0)
    return lambda: out.sendto(front + KINDS[1](), (address, 0))


send = forged(sys.argv[5], int(sys.argv[6])) if len(sys.argv) > 5 else plain()
sent = 0
begun = time.monotonic()
while (now := time.monotonic()) - begun < seconds:
    while sent < (now - begun) * rate:
        send()
        sent += 1
    time.sleep(0.0005)
print(f"{sent} datagrams of junk to port {port}")
