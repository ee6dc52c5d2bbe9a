#!/usr/bin/env python3
"""Asks a broker for what a player may do there, and what not: rights.py PORT [PASS DOOR]. With a pass it is one with an operator, where
each player has an inbox of its own, and a door is beside it, of the account DOOR. It speaks NATS' protocol, and makes keys and tokens, by
itself. Each line that it writes is a check that failed; its status is 1 if there is any."""
import json
import os
import socket
import sys

sys.dont_write_bytecode = True
from passes import Key, Pass, claims_of, encoded, key_text, signed, token_of  # noqa: E402

INBOX = "faz.in." + "0123456789abcdef" * 2
HEARD = [">", "faz.>", "faz.*.*", "$SYS.>", "_INBOX.>", "elsewhere"]
failed = 0


def check(what, told, due):
    global failed
    if due not in told:
        print(f"{what}: {told!r}, not {due!r}")
        failed = 1


def nonce_of(info):
    return json.loads(info.split(b" ", 1)[1])["nonce"].encode()


class Client:
    """One that greets the broker with what `greets` makes of its INFO."""

    def __init__(self, greets=lambda info: {}):
        self.socket = socket.create_connection(("127.0.0.1", int(sys.argv[1])), 2)
        self.told = b""
        info = self.hear(b"\n")
        self.line = "CONNECT " + json.dumps({"verbose": False, "headers": True, "no_responders": True, **greets(info)})
        self.say(self.line)

    def hear(self, until):
        while until not in self.told:
            more = self.socket.recv(65536)
            if not more:
                return self.told + b"closed"
            self.told += more
        told, self.told = self.told, b""
        return told

    def say(self, text):
        self.socket.sendall(text.encode(errors="surrogateescape") + b"\r\n")

    def answered(self, *texts, until="PONG"):
        """What comes until a PONG, or until the broker closes the connection."""
        try:
            for text in texts:
                self.say(text)
            self.say("PING")
            return self.hear(until.encode()).decode(errors="replace")
        except OSError:
            return "closed"


def may(client_of, inbox):
    """What any player may, and what not, by its own inbox."""
    client = client_of()
    check("an inbox", client.answered(f"SUB {inbox} 1", f"PUB {inbox} 2", "hi"), f"MSG {inbox} 1 2")
    check("a code of nobody's", client.answered(f"PUB faz.meet.x {inbox} 2", "hi"), "503")
    check("a room", client.answered("SUB faz.meet.y 2", "PUB faz.meet.y 2", "hi"), "MSG faz.meet.y 2 2")
    check("another place", client.answered("PUB elsewhere 2", "hi"), "Permissions Violation for Publish")
    for subject in HEARD:
        check(f"hearing {subject}", client_of().answered(f"SUB {subject} 1"), "Permissions Violation for Subscription")
    check("a long message", client_of().answered("PUB faz.meet.x 8193", "x" * 8193), "closed")
    check("a long line", client_of().answered(f"PUB faz.meet.{'x' * 2000} 2", "hi"), "closed")
    crowd = client_of()
    check("eight rooms", crowd.answered(*[f"SUB faz.meet.{at} {at}" for at in range(8)]).split("PONG")[0] or "all", "all")
    check("a ninth one", crowd.answered("SUB faz.meet.8 8"), "maximum subscriptions exceeded")


# ---- a broker with an operator

def own_inbox(client_of, user, other):
    """Nobody hears what comes to another one's inbox, nor in the part of its own where the door alone speaks."""
    inbox, theirs = f"faz.in.{user.text}", f"faz.in.{other.text}"
    for subject in [theirs, f"{theirs}.door", "faz.in.*", "faz.in.>", "faz.in.*.door", "faz.*.*", f"faz.*.{user.text}", f"{inbox}.>",
                    f"{inbox}.*", f"{theirs} crowd", "faz.in.* crowd", "faz.door", "_R_.>", "$JS.>"]:
        check(f"hearing {subject}", client_of(user).answered(f"SUB {subject} 1"), "Permissions Violation for Subscription")
    for subject in [f"{inbox}.door", f"{theirs}.door", "faz.in", "$SYS.REQ.SERVER.PING", "_R_.x"]:
        check(f"saying something to {subject}", client_of(user).answered(f"PUB {subject} 2", "hi"), "Permissions Violation for Publish")
    one, two = client_of(user), client_of(other)
    one.answered(f"SUB {inbox} 1")
    two.answered(f"SUB {theirs} 1", f"PUB {inbox} {theirs} 2", "hi")
    check("what another one says", one.answered(), f"MSG {inbox} 1 {theirs} 2\r\nhi")
    check("its answer", two.answered() if one.answered(f"PUB {theirs} 3", "you") else "", f"MSG {theirs} 1 3\r\nyou")


def asks_door(client_of, user):
    """The door's answer comes to the inbox that it is asked from, and to the part of it that nobody else may speak to."""
    asked = (bytes([1]) + b"R" + os.urandom(32) + bytes([0]) + bytes(16)).decode(errors="surrogateescape")
    for inbox in [f"faz.in.{user.text}", f"faz.in.{user.text}.door"]:
        told = client_of(user).answered(f"SUB {inbox} 1", f"PUB faz.door {inbox} 51", asked, until="MSG")
        check(f"the door's answer in {inbox}", told, "MSG")


def refused(what, greets):
    try:
        told = Client(greets).hear(b"\r\n").decode()
    except OSError as why:
        told = str(why)
    check(what, told, "Authorization Violation")


def tokens(by, user):
    """Nobody gets in by a token that says more than that it is a user's, or is another one's, or by no token."""
    def shows(user=user, signer=by.signer, account=by.account, nonce=None, seed=None, **rights):
        def greets(info):
            token = token_of(signer, claims_of(signer, account, user, **rights))
            return {"jwt": token, "sig": encoded(signed(seed or user.seed, nonce or nonce_of(info)))}
        return greets

    check("a token", Client(shows()).answered(), "PONG")
    more = {"all rights": {"pub": {"allow": [">"]}, "sub": {"allow": [">"]}}, "what it may hear": {"sub": {"allow": ["faz.in.*"]}},
            "more inboxes": {"subs": 1000}, "any length": {"payload": -1}, "that its key isn't asked for": {"bearer_token": True},
            "answers": {"resp": {"max": 1, "ttl": 1}}, "another way in": {"allowed_connection_types": ["LEAFNODE"]}}
    for what, rights in more.items():
        refused(f"a token that says: {what}", shows(**rights))
    refused("one that another key has signed", shows(signer=Key("A")))
    refused("one that it has signed itself", shows(signer=user))
    refused("one of the door's account", shows(account=sys.argv[3]))
    refused("one of another account", shows(account=key_text("A", os.urandom(32))))
    refused("one without an account", shows(account=""))
    refused("one that is shown without its key", shows(seed=os.urandom(32)))
    refused("one that is shown to another broker", shows(nonce=b"AAAAAAAAAAA"))
    refused("one without a signature", lambda info: {"jwt": shows()(info)["jwt"]})
    refused("one that was changed", lambda info: {**shows()(info), "jwt": shows()(info)["jwt"][:-8] + "AAAAAAAA"})
    refused("no token", lambda info: {})
    refused("a user's name", lambda info: {"user": "player", "pass": "player"})
    refused("a pass as it is", lambda info: {"auth_token": sys.argv[2]})
    for subject in ["*", ">", "", f"{user.text}.>", f"*.{user.text}"]:
        other = Key("U", user.seed)
        other.text = subject
        refused(f"one of the user {subject!r}", shows(user=other))


def with_operator():
    by, user, other = Pass(sys.argv[2]), Key("U"), Key("U")

    def client_of(of=user):
        return Client(lambda info: by.greeting(info, of))

    may(client_of, f"faz.in.{user.text}")
    own_inbox(client_of, user, other)
    asks_door(client_of, user)
    tokens(by, user)
    print(f"(a token of {len(by.greeting(b'INFO ' + json.dumps({'nonce': ''}).encode(), user)['jwt'])} bytes)", file=sys.stderr)


if len(sys.argv) == 4:
    with_operator()
else:
    may(Client, INBOX)
sys.exit(failed)
