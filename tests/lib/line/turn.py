#!/usr/bin/env python3
"""Asks a TURN server for what it has to refuse, and for what it has to give: turn.py ADDRESS PORT SECRET PEER [loopback]

It is written from RFC 8489 and RFC 8656. PEER is an address that the server may relay to, and so is this machine's own
with `loopback`. If it is one of IPv6, that family is asked for. Each line of what it writes is a check that failed; its status is 1
if there is any.
"""
import base64
import hashlib
import hmac
import os
import socket
import struct
import sys
import time

ALLOCATE, REFRESH, PERMIT = 0x003, 0x004, 0x008
ERROR = 0x0110
COOKIE = 0x2112A442
USERNAME, INTEGRITY, CODE, LIFETIME, PEER, REALM, NONCE, FAMILY, TRANSPORT = 0x06, 0x08, 0x09, 0x0D, 0x12, 0x14, 0x15, 0x17, 0x19
PRIVATE = ["127.0.0.1", "10.1.2.3", "172.16.0.1", "192.168.1.2", "169.254.169.254", "100.64.0.1", "0.0.0.0", "224.0.0.1"]
PRIVATE_6 = ["::1", "::", "fc00::1", "fd12:3456::1", "fe80::1", "ff02::1", "::ffff:10.1.2.3", "64:ff9b::10.1.2.3", "2002:a01:203::1"]


def attribute(kind, value):
    return struct.pack(">HH", kind, len(value)) + value + bytes(-len(value) % 4)


def attributes(body):
    found = {}
    while body:
        kind, length = struct.unpack(">HH", body[:4])
        found.setdefault(kind, body[4 : 4 + length])
        body = body[4 + length + -length % 4 :]
    return found


class Client:
    """One client address, with what the server has told it."""

    def __init__(self, server, family):
        self.socket = socket.socket(socket.AF_INET6 if ":" in server[0] else socket.AF_INET, socket.SOCK_DGRAM)
        self.socket.settimeout(1)
        self.server = server
        self.family = family
        self.told = {}

    def asked(self, kind, body, user=None, password=None, name=None):
        """The code of the error that it answers, and 0 if it gives what it is asked for; None if it doesn't answer."""
        name = name or os.urandom(12)
        if user is not None:
            realm, nonce = self.told.get(REALM, b"realm"), self.told.get(NONCE, b"nonce")
            body += attribute(USERNAME, user.encode()) + attribute(REALM, realm) + attribute(NONCE, nonce)
            key = hashlib.md5(user.encode() + b":" + realm + b":" + password.encode()).digest()
            head = struct.pack(">HHI", kind, len(body) + 24, COOKIE) + name
            body += attribute(INTEGRITY, hmac.new(key, head + body, hashlib.sha1).digest())
        request = struct.pack(">HHI", kind, len(body), COOKIE) + name + body
        for _ in range(3):
            self.socket.sendto(request, self.server)
            try:
                answer = self.socket.recv(1500)
            except TimeoutError:
                continue
            if answer[8:20] != name:
                continue
            self.told.update(attributes(answer[20:]))
            if struct.unpack(">H", answer[:2])[0] & ERROR != ERROR:
                return 0
            code = attributes(answer[20:])[CODE]
            return code[2] * 100 + code[3]
        return None

    def allocated(self, user=None, password=None):
        """What comes of asking for a relayed address; the first answer to who has a password gives the nonce."""
        body = attribute(TRANSPORT, b"\x11\0\0\0")
        if self.family == 6:
            body += attribute(FAMILY, b"\2\0\0\0")
        if user is None:
            return self.asked(ALLOCATE, body)
        self.asked(ALLOCATE, body)
        return self.asked(ALLOCATE, body, user, password)

    def permitted(self, peer, user, password):
        name = os.urandom(12)
        address = socket.inet_pton(socket.AF_INET6 if self.family == 6 else socket.AF_INET, peer)
        hidden = bytes(one ^ other for one, other in zip(address, struct.pack(">I", COOKIE) + name))
        head = b"\0\2" if self.family == 6 else b"\0\1"
        return self.asked(PERMIT, attribute(PEER, head + struct.pack(">H", 9 ^ COOKIE >> 16) + hidden), user, password, name)


def main():
    server, secret, peer = (sys.argv[1], int(sys.argv[2])), sys.argv[3], sys.argv[4]
    family = 6 if ":" in peer else 4
    failed = 0

    def ticket(seconds, key=secret):
        user = f"{int(time.time()) + seconds}:match"
        return user, base64.b64encode(hmac.new(key.encode(), user.encode(), hashlib.sha1).digest()).decode()

    def check(what, found, *due):
        nonlocal failed
        if found not in due:
            print(f"{what}: {found}, not {' or '.join(str(it) for it in due)}")
            failed = 1

    check("an allocation without a password", Client(server, family).allocated(), 401)
    check("one with a password of another secret", Client(server, family).allocated(*ticket(600, "other")), 401)
    check("one with a password that has expired", Client(server, family).allocated(*ticket(-5)), 401)
    user, password = ticket(600)
    check("one with a later time than the password's", Client(server, family).allocated("9" + user, password), 401)
    check("one in nobody's name", Client(server, family).allocated("", ""), 400, 401)
    client = Client(server, family)
    check("one with a good password", client.allocated(user, password), 0)
    check("a peer elsewhere", client.permitted(peer, user, password), 0)
    for private in PRIVATE_6 if family == 6 else PRIVATE:
        is_open = private == "127.0.0.1" and sys.argv[5:] == ["loopback"]
        check(f"a peer {private}", client.permitted(private, user, password), 0 if is_open else 403)
    check("giving it back", client.asked(REFRESH, attribute(LIFETIME, bytes(4)), user, password), 0)
    sys.exit(failed)


if __name__ == "__main__":
    main()
