"""What lobbies of pages seal, and their codes, beside libsodium, GnuTLS, Python's hashlib and what was published."""
import ctypes
import json
import os
import shutil
import sys

from bridges import strangers_end_nothing
from checks import ROOT, TESTS, WEB, built, check, has, run, skip

sys.path.insert(0, str(WEB))
import meet  # noqa: E402
import passes  # noqa: E402

LENGTHS = [0, 1, 15, 16, 17, 63, 64, 65, 127, 128, 129, 255, 256, 1000, 5000]

# RFC 7693, appendix A; RFC 8439, 2.5.2; draft-irtf-cfrg-xchacha-03, 2.2.1 and A.3.1.
ABC = ("ba80a53f981c4d0d6a2797b69f12f6e94c212f14685ac4b74b12bb6fdbffa2d1"
       "7d87c5392aab792dc252d5de4533cc9518d38aa8dbf1925ab92386edd4009923")
POLY = {"key": "85d6be7857556d337f4452fe42d506a80103808afb0db2fd4abff6af4149f51b",
        "bytes": b"Cryptographic Forum Research Group".hex(), "due": "a8061dc1305136c6c22b8baf0c0127a9"}
HCHACHA = {"key": bytes(range(32)).hex(), "bytes": "000000090000004a0000000031415927",
           "due": "82413b4227b27bfed30e42508a877d73a0f9e4d58a74a853c12ec41326d3ecdc"}
SUNSCREEN = {
    "key": bytes(range(0x80, 0xA0)).hex(), "nonce": bytes(range(0x40, 0x58)).hex(), "more": "50515253c0c1c2c3c4c5c6c7",
    "bytes": (b"Ladies and Gentlemen of the class of '99: If I could offer you only one tip for the future, sunscreen would be it.").hex(),
    "due": "bd6d179d3e83d43b9576579493c0e939572a1700252bfaccbed2902c21396cbb731c7f1b0b4aa6440bf3a82f4eda7e39ae64c6708c54c216cb96b72e1213"
           "b4522f8c9ba40db5d945b11b69b982c1bb9e3f3fac2bc369488f76b2383565d3fff921f9664c97637da9768812f615c68b13b52e"
           "c0875924c1c7987947deafd8780acf49"}


def sealed(sodium):
    found = []
    for length in LENGTHS:
        key, data, more = os.urandom(32), os.urandom(length), os.urandom(1 + length % 40)
        text = sodium.seal(key, data, more)
        found.append({"key": key, "nonce": text[:24], "bytes": data, "more": more, "due": text[24:]})
    return found


def boxes(sodium):
    found = []
    for length in LENGTHS:
        keys, data = sodium.keys(), os.urandom(length)
        box = ctypes.create_string_buffer(length + 48)
        sodium.calls.crypto_box_seal(box, data, ctypes.c_ulonglong(length), keys[0])
        found.append({"shared": sodium.shared(keys[1], box.raw[:32]), "ours": keys[0], "box": box.raw, "due": data})
    return found


def hashes():
    sizes = [(length, 16 + length % 49) for length in LENGTHS]
    data = [(os.urandom(length), size, key) for length, size in sizes for key in (b"", os.urandom(32))]
    return [{"bytes": it, "key": key, "due": meet.hashlib.blake2b(it, digest_size=size, key=key).digest()} for it, size, key in data]


def codes():
    """By a program of its own, which tests/lib/lobby/test has too."""
    found = []
    for _ in range(20):
        host = os.urandom(32)
        text, name, key = run([sys.executable, ROOT / "tests/lib/lobby/code.py", host.hex()]).stdout.split()
        found.append({"host": host, "text": text.encode(), "name": bytes.fromhex(name), "key": bytes.fromhex(key)})
    return found


def pairs(sodium):
    found = []
    for _ in range(8):
        ours, theirs, room, data = sodium.keys(), sodium.keys(), os.urandom(32), os.urandom(100)
        there = meet.Pair(sodium, room, theirs, ours[0])
        found.append({"room": room, "ours": ours[0], "secret": ours[1], "theirs": theirs[0], "due": there.key,
                      "words": there.words().encode(), "bytes": data, "sealed": there.seal(b"a", data)})
    return found


def shown():
    """What users show who have a pass, by a program of its own, which tests/lib/lobby/test has too."""
    found = []
    for at in range(4):
        signer, user, account = passes.Key("A"), passes.Key("U"), passes.Key("A").text
        it = passes.Pass(signer.seed_text + account).greeting(b'INFO {"nonce":"%d-of-a-broker"}' % at, user)
        found.append({"pass": signer.seed_text + account, "user": user.seed_text + account, "seed": user.seed,
                      "open": passes.open_of(user.seed), "nonce": f"{at}-of-a-broker", **it})
    return found


def digits(it):
    return {name: value.hex() if isinstance(value, bytes) else value for name, value in it.items()}


def cases(sodium):
    all_sealed, all_boxes, all_codes = [SUNSCREEN, *sealed(sodium)], boxes(sodium), codes()
    found = {"hash": [{"bytes": b"abc", "key": b"", "due": ABC}, *hashes()], "poly1305": [POLY], "hchacha20": [HCHACHA],
             "seal": all_sealed, "open": all_sealed, "open what was changed": all_sealed, "open by another kind": all_sealed,
             "box": all_boxes, "a box that was changed": all_boxes, "code": all_codes, "a code that is read": all_codes,
             "a room's name": all_codes, "a room's key": all_codes, "pairs": pairs(sodium), "passes": shown()}
    return {what: [digits(it) for it in of] for what, of in found.items()}


def native_side():
    """The other side of a short code, by GnuTLS."""
    side = built("tests/pake_side", "short codes beside GnuTLS")
    return [side] if side else []


def bridge_agrees(sodium):
    """The bridge shows the same, and takes no pass with a slip of the pen."""
    for it in shown():
        user = passes.key_text("U", it["open"])
        check("a token of the bridge", meet.Pass(it["pass"]).token(sodium, user) == it["jwt"], str(it))
        slip = it["pass"][:9] + ("A" if it["pass"][9] != "A" else "B") + it["pass"][10:]
        for wrong in [it["pass"][1:], it["pass"] + "A", it["pass"].lower(), it["user"], slip, ""]:
            try:
                check("a pass with a slip of the pen", False, meet.Pass(wrong))
            except meet.Failed:
                pass


def seals_agree(room):
    if not has("node", "what lobbies of pages seal"):
        return
    try:
        sodium = meet.Sodium()
    except meet.Failed as why:
        skip(f"what lobbies of pages seal ({why})")
        return
    bridge_agrees(sodium)
    strangers_end_nothing()
    shutil.copytree(WEB / "src", room / "src")
    for name in ["seals.js", "liars.js"]:
        shutil.copy(TESTS / name, room)
    (room / "package.json").write_text('{"type": "module"}')
    (room / "cases").write_text(json.dumps(cases(sodium)))
    said = run(["node", "--no-warnings", room / "seals.js", room / "cases", *native_side()])
    check("what is sealed, and codes", said.returncode == 0 and " checks, 0 failed" in said.stdout, said.stdout[-3000:])
    said = run(["node", "--no-warnings", room / "liars.js"])
    check("what liars can make a lobby do", said.returncode == 0 and " checks, 0 failed" in said.stdout, said.stdout[-3000:])
