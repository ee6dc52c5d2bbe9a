#!/usr/bin/env python3
"""Players of many networks come to a broker's port at which the rules of a file count: unshare -n limits.py FILE, as root. Each line that
it writes is a check that failed."""
import ctypes
import os
import resource
import selectors
import socket
import subprocess
import sys
import time

PORT = 4222
BROKER = {socket.AF_INET: "10.9.9.1", socket.AF_INET6: "2001:db8:ffff::1"}
FREEBIND = {socket.AF_INET: (socket.IPPROTO_IP, 15), socket.AF_INET6: (socket.IPPROTO_IPV6, 78)}
NEW_NET = 0x40000000
KILOBYTE = 1024
held = []
failed = 0


def check(what, is_so, found):
    global failed
    if not is_so:
        print(f"{what}: {found}", flush=True)
        failed = 1


# ---- two networks of one machine

def elsewhere():
    """A process in a network of its own, which plays once it is told to, and the line to it."""
    ours, theirs = socket.socketpair()
    child = os.fork()
    if child:
        theirs.close()
        ours.recv(1)
        return child, ours
    ours.close()
    assert ctypes.CDLL(None, use_errno=True).unshare(NEW_NET) == 0
    theirs.send(b"1")
    theirs.recv(1)
    play()
    os._exit(failed)


def ip(words, of=None):
    subprocess.run([*(["nsenter", "-t", str(of), "-n"] if of else []), "ip", *words.split()], check=True)


def plug(child):
    ip(f"link add l0 type veth peer name l1 netns {child}")
    for of, name, number in [(None, "l0", 1), (child, "l1", 2)]:
        ip("link set lo up", of)
        ip(f"link set {name} up", of)
        ip(f"addr add 10.9.9.{number}/24 dev {name}", of)
        ip(f"addr add 2001:db8:ffff::{number}/64 dev {name} nodad", of)
    ip("route add default via 10.9.9.2")
    ip("-6 route add default via 2001:db8:ffff::2")
    for family, network in [("-4", "198.18.0.0/15"), ("-6", "2001:db8::/33"), ("-6", "2a01::/16")]:
        ip(f"{family} route add local {network} dev lo", child)


# ---- who comes

def comes(address):
    """A player's connection; null if it isn't let in."""
    family = socket.AF_INET6 if ":" in address else socket.AF_INET
    player = socket.socket(family)
    player.setsockopt(*FREEBIND[family], 1)
    player.bind((address, 0))
    player.settimeout(0.3)
    try:
        player.connect((BROKER[family], PORT))
    except TimeoutError:
        return None
    held.append(player)
    return player


def come(addresses):
    """How many are let in, until three aren't."""
    count = {True: 0, False: 0}
    for it in addresses:
        count[comes(it) is not None] += 1
        if count[False] == 3:
            break
    return count[True]


def leave():
    """All leave at once, and nothing of theirs is counted any more."""
    for player in held:
        player.setsockopt(socket.SOL_SOCKET, socket.SO_LINGER, b"\1\0\0\0\0\0\0\0")
        player.close()
    held.clear()


def says(player, kilobytes, within):
    """How many of so many kilobytes have come to the broker after so many seconds at most."""
    player.setblocking(False)
    end, left, heard = time.monotonic() + within, kilobytes * KILOBYTE, 0
    with selectors.DefaultSelector() as waits:
        waits.register(player, selectors.EVENT_READ | selectors.EVENT_WRITE)
        while time.monotonic() < end and heard < kilobytes:
            for _, ready in waits.select(0.05):
                heard += len(player.recv(65536)) if ready & selectors.EVENT_READ else 0
                left -= player.send(bytes(min(left, 65536))) if ready & selectors.EVENT_WRITE else 0
            if left == 0:
                waits.modify(player, selectors.EVENT_READ)
    return heard


def play():
    for address in ("10.9.9.2", "2001:db8:ffff::2"):
        for _ in range(20):  # (until the line between the two is up)
            if comes(address):
                break
    leave()
    neighbours = [comes("198.18.1.7") for _ in range(9)]
    said = [it and says(it, 5, 5) for it in neighbours]
    check("nine players behind a provider's router", said == [5] * 9, said)
    wide = [come(["198.18.1.7"] * 248), come(f"198.18.1.{at}" for at in (8, 9, 10) for _ in range(256)), come(["198.18.1.11"])]
    check("players of one address, of a /24, and one more there", wide == [247, 768, 0], wide)
    check("one elsewhere", come(["198.18.2.7"]) == 1, "isn't let in")
    leave()
    wide = [come(f"2001:db8:1:1::{at:x}" for at in range(1, 34)), come(f"2001:db8:1:{at % 7 + 2}::1" for at in range(224)),
            come(["2001:db8:1:9::1"]), come(f"2001:db8:{at // 256 + 2}:{at % 8}::1" for at in range(768)), come(["2001:db8:9::1"])]
    check("players of a /64, of a /48, one more, of a /32, one more", wide == [32, 224, 0, 768, 0], wide)
    check("one elsewhere by IPv6", come(["2a01::1"]) == 1, "isn't let in")
    leave()
    begun = time.monotonic()
    loud = says(comes("198.18.3.7"), 4096, 0.5)
    check("kilobytes of one who says much", loud <= 256 + 16 * (1 + time.monotonic() - begun), loud)
    check("what a neighbour says meanwhile", says(comes("198.18.3.8"), 5, 5) == 5, "isn't heard")


# ---- the broker's side

def ears():
    for family, address in [(socket.AF_INET, "0.0.0.0"), (socket.AF_INET6, "::")]:
        ear = socket.socket(family)
        if family == socket.AF_INET6:
            ear.setsockopt(socket.IPPROTO_IPV6, socket.IPV6_V6ONLY, 1)
        ear.bind((address, PORT))
        ear.listen(1024)
        yield ear


def hear(end):
    """Takes all who come, and tells each for every kilobyte that it was heard, until the other side has ended."""
    heard = {}
    with selectors.DefaultSelector() as waits:
        for ear in ears():
            waits.register(ear, selectors.EVENT_READ, "ear")
        waits.register(end, selectors.EVENT_READ)
        end.send(b"1")
        while True:
            for key, _ in waits.select():
                if key.fileobj is end:
                    return
                if key.data == "ear":
                    waits.register(key.fileobj.accept()[0], selectors.EVENT_READ)
                elif not takes(heard, key.fileobj):
                    waits.unregister(key.fileobj)
                    key.fileobj.close()


def takes(heard, player):
    try:
        more, before = len(player.recv(65536)), heard.get(player, 0)
        heard[player] = before + more
        player.sendall(b"." * ((before + more) // KILOBYTE - before // KILOBYTE))
    except OSError:
        return False
    return more > 0


def main():
    most = resource.getrlimit(resource.RLIMIT_NOFILE)[1]
    resource.setrlimit(resource.RLIMIT_NOFILE, (min(most, 4096), most))
    subprocess.run(["nft", "-f", sys.argv[1]], check=True)
    child, end = elsewhere()
    plug(child)
    hear(end)
    sys.exit(os.waitstatus_to_exitcode(os.waitpid(child, 0)[1]))


main()
