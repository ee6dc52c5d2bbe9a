#!/usr/bin/env python3
"""A TURN server that gives whoever asks a place, and carries nothing: relay.py USER PASSWORD PROGRAM

It is written from RFC 8489 and RFC 8656. The program is told its port, the user and the password, and ends it. It sees whoever asks as
198.51.100.7 or 2001:db8::7, and gives places at 203.0.113.10 and 2001:db8::a0.
"""
import hashlib
import hmac
import os
import socket
import struct
import subprocess
import sys
import threading

COOKIE = 0x2112A442
ALLOCATE, GIVEN, REFUSED = 0x003, 0x103, 0x113
USERNAME, INTEGRITY, CODE, LIFETIME, PLACE, REALM, NONCE, SEEN = 0x06, 0x08, 0x09, 0x0D, 0x16, 0x14, 0x15, 0x20
USER, PASSWORD = (it.encode() for it in sys.argv[1:3])
ADDRESSES = {socket.AF_INET: ("198.51.100.7", "203.0.113.10"), socket.AF_INET6: ("2001:db8::7", "2001:db8::a0")}


def attribute(kind, value):
    return struct.pack(">HH", kind, len(value)) + value + bytes(-len(value) % 4)


def hidden(family, address, port, name):
    mask = struct.pack(">I", COOKIE) + name
    number = bytes(one ^ other for one, other in zip(socket.inet_pton(family, address), mask))
    return struct.pack(">BBH", 0, 1 if family == socket.AF_INET else 2, port ^ COOKIE >> 16) + number


def answer(request, family):
    """What is answered; nothing but to who asks for a place."""
    kind, length, cookie = struct.unpack(">HHI", request[:8])
    name, has_user = request[8:20], struct.pack(">HH", USERNAME, len(USER)) + USER in request
    if kind != ALLOCATE or cookie != COOKIE:
        return None
    if not has_user:
        body = attribute(CODE, b"\0\0\4\1no user") + attribute(REALM, b"test") + attribute(NONCE, os.urandom(8).hex().encode())
        return struct.pack(">HHI", REFUSED, len(body), COOKIE) + name + body
    seen, place = ADDRESSES[family]
    body = attribute(PLACE, hidden(family, place, 50000, name)) + attribute(SEEN, hidden(family, seen, 40000, name))
    body += attribute(LIFETIME, struct.pack(">I", 600))
    head = struct.pack(">HHI", GIVEN, len(body) + 24, COOKIE) + name
    key = hashlib.md5(USER + b":test:" + PASSWORD).digest()
    return head + body + attribute(INTEGRITY, hmac.new(key, head + body, hashlib.sha1).digest())


def serve(family, at):
    while True:
        request, asker = at.recvfrom(2000)
        said = answer(request, family) if len(request) >= 20 else None
        if said is not None:
            at.sendto(said, asker)


def main():
    port = 0
    for family in [socket.AF_INET, socket.AF_INET6]:
        try:
            at = socket.socket(family, socket.SOCK_DGRAM)
            if family == socket.AF_INET6:
                at.setsockopt(socket.IPPROTO_IPV6, socket.IPV6_V6ONLY, 1)
            at.bind(("", port))
        except OSError:
            continue  # (this machine has no IPv6)
        port = at.getsockname()[1]
        threading.Thread(target=serve, args=(family, at), daemon=True).start()
    sys.exit(subprocess.run([sys.argv[3], str(port), *sys.argv[1:3]]).returncode)


main()
