"""Pages that meet by a code, with a broker, a relay and a door as server/serve begins them."""
import contextlib
import json
import os
import re
import socket
import subprocess
import tempfile
import threading
import time
import urllib.parse
from pathlib import Path
from types import SimpleNamespace

from checks import OUT, ROOT, WEB, check, has, run, skip
from passes import Key, Pass
from driver import driver
from matches import expected, pages, result

SERVE = ROOT / "server/serve"
WAIT = 60


def lacks(what):
    """Whether something is missing that the servers are of."""
    os.environ["PATH"] += ":/usr/sbin"
    return not all([has(program, what) for program in ["nats-server", "turnserver", "openssl"]])


class Served:
    """What server/serve began: `port` is the broker's for programs, `broker` its URL for these, and `url` that for pages."""

    def __init__(self, process, port):
        self.process, self.port = process, port
        said = {"folder": r"its files are in (.*)$", "url": r"pages on this machine: (.*)$",
                "broker": r"on this machine: --broker (\S*) --door$"}
        for line in process.stdout:
            for name, text in said.items():
                if found := re.match(text, line):
                    setattr(self, name, found.group(1))
            if line.startswith("on this machine"):
                self.folder = Path(self.folder)
                return
        raise AssertionError(f"{SERVE} doesn't serve")

    def said(self, name):
        return (self.folder / name).read_text(errors="replace")


@contextlib.contextmanager
def serving(port):
    quiet = {"stdin": subprocess.DEVNULL, "stdout": subprocess.PIPE, "stderr": subprocess.DEVNULL}
    process = subprocess.Popen([SERVE, str(port)], text=True, **quiet)
    try:
        yield Served(process, port)
    finally:
        process.terminate()
        process.communicate()


def url_of(server, served, name, **more):
    words = {"name": name, "broker": served.url, **more}
    return f"{server.url}/tests/code.html?{urllib.parse.urlencode(words)}"


def code_of(server, name, number=1, wait=WAIT):
    """The code that a page tells: its first one, or a later one."""
    code = server.post.get(f"{name}-code-{number}", wait)
    assert code, f"{name} tells no code"
    return code


def ended(found, words):
    """Whether a page has said why it won't come to a match."""
    return words in found.get("lacks", "")


def is_doubted(found, words):
    """Whether a page has said in these words what seems to be wrong, seconds before it ended."""
    events = [it for it in found.get("events", []) if it["what"] in ("unanswered", "ended")]
    return ([it["what"] for it in events] == ["unanswered", "ended"] and words in events[0]["text"]
            and events[1]["at"] - events[0]["at"] > 2000)


def taken(found):
    """Milliseconds from the page's start to the open channel."""
    return next((it["at"] for it in found.get("events", []) if it["what"] == "ready"), None)


def met(server, served, kinds, room, of_host, **of_both):
    """Two pages meet by a code, and play or talk: what came of each."""
    names = [f"{room}-{me}" for me in range(2)]
    with pages((kinds[0], url_of(server, served, names[0], **of_host, **of_both))):
        code = code_of(server, names[0])
        with pages((kinds[1], url_of(server, served, names[1], join=code.lower(), **of_both))):
            found = [result(server, name, 120) for name in names]
    for it in names:
        server.post.clear(it, f"{it}-code-1")
    return code, found


def plays(server, served, kinds, what, frames, speed, of_host, **of_both):
    """Two pages that meet by a code come to the state that rollduel comes to."""
    line = {"frames": frames, "speed": speed, "bot": 5, "delay": 0, "lag": 50, "loss": 10}
    room = f"{what}-{'-'.join(kinds)}".replace(" ", "-")
    code, found = met(server, served, kinds, room, of_host, **line, **of_both)
    state = expected(5, frames, (0, 0))
    for me, it in enumerate(found):
        wanted = state or found[1 - me].get("state")
        check(f"player {me + 1} in {kinds[me]}, {what}, {frames} frames", it.get("state") and it["state"] == wanted, str(it))
    ways = [it["text"] for one in found for it in one.get("events", []) if it["what"] == "up"]
    due = "by a relay" if "relay" in of_both else "directly"
    check(f"{room}: the way is {due}", ways == [due, due], str(ways))
    words = [it["text"] for one in found for it in one.get("events", []) if it["what"] == "joined"]
    check(f"{room}: both see the same signs", len(words) == 2 and words[0] == words[1] and len(words[0]) == 9, str(words))
    return code, found


def short_codes(server, served, pairs):
    for kinds in pairs:
        code, found = plays(server, served, kinds, "by a short code", 600, 1, {"short": 1})
        check("it has seven signs", re.fullmatch(r"[0-9A-Z]{3}-[0-9A-Z]{4}", code), code)
        check("its ways are told", all(" typ host" in it.get("told", "") for it in found), str(found))
        check("the line is as it has to be", all(it.get("kind") == {"ordered": False, "again": 0} for it in found), str(found))
        print(f"{' with '.join(kinds)}: from the friend's page to the open channel by a short code {taken(found[1])} ms", flush=True)


def long_codes(server, served, pairs):
    for kinds in pairs:
        code, found = plays(server, served, kinds, "by a long code", 600, 1, {"door": 1})
        check("it has 28 signs", re.fullmatch(r"([0-9A-Z]{7}-){3}[0-9A-Z]{7}", code), code)
        print(f"{' with '.join(kinds)}: by a long code {taken(found[1])} ms", flush=True)


def late_friends(server, served, kind):
    """Friends whose page has been open for longer than anybody waits for an answer."""
    for what, of_host in [("long", {"door": 1}), ("short", {"short": 1})]:
        with pages((kind, url_of(server, served, f"late-{what}", **of_host))):
            found = joins(server, served, kind, f"late-friend-{what}", code_of(server, f"late-{what}"), after=11000)
        check(f"who joins late by a {what} code in {kind}", max(found.get("came", [0])) >= 60, str(found))
        server.post.clear(f"late-{what}-code-1")


def tells_relays_alone(told):
    """Whether a page has told places on relays, and neither where they were asked from nor an address of this machine. (The relay's own is
    the loopback's.)"""
    own = [it for it in run(["hostname", "-I"]).stdout.split() if it != "127.0.0.1"]
    ways = re.findall(r"candidate:[^\"\\]*", told)
    relays = [it for it in ways if " typ relay" in it and " raddr 0.0.0.0 rport 0" in it]
    return len(relays) > 0 and len(relays) == sum(" typ " in it for it in ways) and not any(it in told for it in own)


def relayed(server, served, pairs):
    """Through the relay alone, with the door's tickets."""
    for kinds in pairs:
        _, found = plays(server, served, kinds, "by the relay", 600, 1, {"short": 1}, relay=1)
        for kind, it in zip(kinds, found):
            check(f"a page of {kind} tells no address by a relay alone", tells_relays_alone(it.get("told", "")), str(it))
        print(f"{' with '.join(kinds)}: by a relay {taken(found[1])} ms", flush=True)


def three_pages(server, served, kinds):
    """A match of three has a channel between each two."""
    who = [kinds[0], kinds[-1], kinds[0]]
    names = [f"three-{at}" for at in range(3)]
    with contextlib.ExitStack() as all_pages:
        all_pages.enter_context(pages((who[0], url_of(server, served, names[0], short=1, players=3))))
        code = code_of(server, names[0])
        for at in [1, 2]:
            all_pages.enter_context(pages((who[at], url_of(server, served, names[at], join=code))))
        found = [result(server, name, 60) for name in names]
    places = [it.get("me") for it in found]
    check("three pages", sorted(places, key=str) == [0, 1, 2] and places[0] == 0, str(found))
    check("each hears the two others", all(sum(it >= 60 for it in one.get("came", [])) == 2 for one in found), str(found))
    check("they have one number", len({it.get("number") for it in found}) == 1, str(found))


# ---- what is refused

def joins(server, served, kind, name, code, **more):
    server.post.clear(name)
    with pages((kind, url_of(server, served, name, join=code, **more))):
        return result(server, name, WAIT)


def other_signs(code):
    """The same plate, and other last signs."""
    return code[:-1] + ("7" if code[-1] != "7" else "8")


def wrong_codes(server, served, kind):
    with pages((kind, url_of(server, served, "wrong-host"))):
        code = code_of(server, "wrong-host")
        other = code[:-1] + ("0" if code[-1] != "0" else "1")
        check(f"a slip of the pen in {kind}", ended(joins(server, served, kind, "slip", other), "this is no code"))
    found = joins(server, served, kind, "gone", code)
    check(f"a code whose host is gone in {kind}", ended(found, "nobody hosts a match with this code now"), str(found))
    check(f"it is told at once in {kind}", is_doubted(found, "nobody answers so far: waiting for 10 seconds at most"), str(found))
    found = joins(server, served, kind, "nobody", "ZZZ-ZZZZ")
    check(f"a plate of nobody's in {kind}", ended(found, "nobody hosts a match with this code now"), str(found))
    with pages((kind, url_of(server, served, "no-host", short=1, asks="no"))):
        found = joins(server, served, kind, "no-friend", code_of(server, "no-host"))
        check(f"who isn't let in in {kind}", ended(found, "the host's player said no"), str(found))
    server.post.clear("wrong-host-code-1", "no-host-code-1")


def wrong_signs(server, served, kind, port):
    """Each try with other last signs is refused, by a page and by GnuTLS alike; after five there is another code."""
    wrong = "the code's last four signs are wrong"
    with pages((kind, url_of(server, served, "tries", short=1))):
        code = code_of(server, "tries")
        for at in range(2):
            found = joins(server, served, kind, f"try-{at}", other_signs(code))
            check(f"wrong signs in {kind}", ended(found, wrong), str(found))
            check(f"they are told at once in {kind}", is_doubted(found, "may be wrong: waiting for 3 seconds at most"), str(found))
        for _ in range(3):
            check("there are tries left", "tries-code-2" not in server.post.texts)
            said = by_bridge(served, other_signs(code), port).communicate(timeout=WAIT)
            check("wrong signs at the bridge", wrong in said[1], str(said))
        another = code_of(server, "tries", 2, 10)
        check(f"another code after five tries in {kind}", another != code, f"{code} {another}")
        found = joins(server, served, kind, "late", code)
        check(f"the first code is nobody's in {kind}", ended(found, "nobody hosts a match with this code now")
              or code[:3] == another[:3] and ended(found, wrong), str(found))
        found = joins(server, served, kind, "friend", another)
        check(f"and the other one is the host's in {kind}", len(found.get("came", [])) == 2, str(found))
    server.post.clear("tries-code-1", "tries-code-2")


def no_way(server, served, kind):
    """Pages that have to use a relay, and are told of none, are told so."""
    began = time.monotonic()
    _, found = met(server, served, (kind, kind), f"no-way-{kind}", {}, relay=1)
    check(f"no way in {kind}", all(ended(it, "no way was found to another page") for it in found), str(found))
    check(f"it is told in time in {kind}", time.monotonic() - began < 60, f"{time.monotonic() - began:.0f} s")


# ---- who listens at the broker

SECRETS = [b"candidate", b"typ host", b"sdp", b"ice-ufrag", b"webrtc", b"Anna", b"heard"]


def conf_of(name, port):
    """One of server's files for brokers with addresses of this machine."""
    text = (ROOT / "server" / name).read_text().replace("203.0.113.10:4222", f"127.0.0.1:{port}")
    return text.replace("203.0.113.10:4224", f"127.0.0.1:{port + 2}")


@contextlib.contextmanager
def begun(port, room, conf, *creds):
    """A broker by a file's text, with a door that is let in by its creds or else by a password."""
    quiet = {"stdin": subprocess.DEVNULL, "stdout": subprocess.PIPE, "stderr": subprocess.STDOUT, "cwd": room}
    programs = []
    Path(room, "conf").write_text(conf)
    try:
        env = {**os.environ, "DOOR_PASSWORD": "door"}
        programs.append(subprocess.Popen(["nats-server", "-c", "conf"], env=env, **quiet))
        time.sleep(1)
        door = [OUT / "faz-door", "--broker", f"nats://127.0.0.1:{port}", *creds]
        programs.append(subprocess.Popen(door, env=env, **quiet))
        programs[-1].stdout.readline()
        yield
    finally:
        for it in programs:
            it.kill()
            it.communicate()


@contextlib.contextmanager
def spied(port):
    """A broker without inboxes of one's own, at which one user hears what all players say: what came."""
    conf = conf_of("open.conf", port).replace("PLAYERS: {\n        users: [", "PLAYERS: {\n        users: [ { user: spy, password: spy },")
    conf += f'websocket {{ listen: "127.0.0.1:{port + 2}", no_tls: true }}\n'
    with tempfile.TemporaryDirectory() as room, begun(port, room, conf):
        yield listening(port)


def listening(port, greets=lambda info: {"user": "spy", "pass": "spy"}, subjects=(">",)):
    """All bytes that a broker hands on from now on: a list to which they are added."""
    spy, heard = socket.create_connection(("127.0.0.1", port)), [b""]
    lines = ["CONNECT " + json.dumps({"verbose": False, **greets(spy.recv(65536))})]
    lines += [f"SUB {subject} {at}" for at, subject in enumerate(subjects)]
    spy.sendall("\r\n".join([*lines, "PING", ""]).encode())

    def listen():
        while more := spy.recv(65536):
            heard[0] += more
    threading.Thread(target=listen, daemon=True).start()
    return heard


def spies(server, kind, port):
    """Who hears all that is said at the broker reads none of it: neither names nor ways."""
    with spied(port) as heard:
        served = SimpleNamespace(url=f"ws://127.0.0.1:{port + 2}")
        for at, of_host in enumerate([{"short": 1}, {}]):
            code, found = met(server, served, (kind, kind), f"spied-{at}", of_host, player="Anna")
            check(f"they meet while somebody listens in {kind}", all(len(it.get("came", [])) == 2 for it in found), str(found))
            check("the last four signs aren't said", code[-4:].encode() not in heard[0] and code.encode() not in heard[0], code)
    parts = [heard[0].count(it) for it in (b"faz.meet.", b"faz.in.")]
    check("who listens has heard all", parts[0] >= 3 and parts[1] >= 10 and len(heard[0]) > 4000, f"{parts}, {len(heard[0])} bytes")
    for it in SECRETS:
        check(f"nobody reads {it.decode()}", it not in heard[0], str(heard[0]))


def strangers(server, served, kind):
    """Who has the pass, as all players have, hears who knocks at a room, and nothing of what follows."""
    by, user = Pass(pass_of(served.url)), Key("U")
    subjects = ["faz.meet.*", "faz.in.*", "faz.in.>", "faz.>", f"faz.in.{user.text}"]
    heard = listening(served.port, lambda info: by.greeting(info, user), subjects)
    _, found = met(server, served, (kind, kind), "stranger", {"short": 1})
    check(f"they meet beside a stranger in {kind}", all(len(it.get("came", [])) == 2 for it in found), str(found))
    check("the stranger hears the room", heard[0].count(b"MSG faz.meet.") >= 2, str(heard[0]))
    check("and nothing else", heard[0].count(b"MSG ") == heard[0].count(b"MSG faz.meet."), str(heard[0]))
    refused = [heard[0].count(f'Permissions Violation for Subscription to "{it}"'.encode()) for it in ["faz.in.*", "faz.in.>", "faz.>"]]
    check("it is told so", refused == [1, 1, 1], str(heard[0]))


# ---- the broker

ASKS = """
const [url, pass, subject] = arguments;
const said = (window.said ??= {});
said[subject] = "";
import("/site/fazgrond/pass.js").then(async ({ drawUser, readPass, shown }) => {
  const user = await drawUser();
  const socket = new WebSocket(url);
  const lines = [`SUB ${subject} 1`, "PUB elsewhere 2", "hi", "PING", ""];
  socket.binaryType = "arraybuffer";
  socket.onmessage = async ({ data }) => {
    const text = new TextDecoder().decode(data), greets = said[subject] === "";
    said[subject] += text;
    if (!greets) return;
    const told = { verbose: false, ...(await shown(readPass(pass), user, JSON.parse(text.slice(5)).nonce)) };
    socket.send([`CONNECT ${JSON.stringify(told)}`, ...lines].join("\\r\\n"));
  };
});
"""


def pass_of(url):
    return urllib.parse.urlsplit(url).username


def rights(server, served, kind):
    """A page may no more at the broker than a program."""
    url = served.url.replace(f"{pass_of(served.url)}@", "")
    with driver(kind) as one:
        one.go(f"{server.url}/site/index.html")
        for subject in [">", "faz.>", "faz.*.*", "$SYS.>", "faz.in.*", f"faz.in.{Key('U').text}"]:
            one.run(ASKS, url, pass_of(served.url), subject)
            one.wait(f"return window.said[{subject!r}].includes('PONG')", 20)
            said = one.run(f"return window.said[{subject!r}]")
            are_refused = f'Permissions Violation for Subscription to "{subject}"' in said and "Permissions Violation for Publish" in said
            check(f"hearing {subject} from a page", are_refused, said)


def over_tls(server, kind, port):
    """By the block for pages in server/broker.conf: its commented lines, and a certificate of one's own."""
    conf = conf_of("broker.conf", port)
    block = re.search(r"^# (websocket \{\n(?:#.*\n)*?)# \}$", conf, re.M)
    assert block, "broker.conf has no block for pages"
    conf = conf.replace(block.group(), re.sub(r"^# ", "", block.group(), flags=re.M))
    with tempfile.TemporaryDirectory() as room:
        made = run(["openssl", "req", "-x509", "-newkey", "ec", "-pkeyopt", "ec_paramgen_curve:prime256v1", "-nodes", "-keyout",
                    f"{room}/key.pem", "-out", f"{room}/it.pem", "-days", "2", "-subj", "/CN=localhost"])
        assert made.returncode == 0, made.stdout
        conf = conf.replace("/etc/ssl/certs/broker.pem", f"{room}/it.pem").replace("/etc/ssl/private/broker.key", f"{room}/key.pem")
        served = SimpleNamespace(url=f"wss://{run([OUT / 'faz-operator', room]).stdout.strip()}@127.0.0.1:{port + 2}")
        creds = ["--creds", f"{room}/door.creds"]
        with begun(port, room, conf, *creds), driver(kind, believes=True) as one, driver(kind, believes=True) as other:
            one.go(url_of(server, served, "tls-0", short=1))
            other.go(url_of(server, served, "tls-1", join=code_of(server, "tls-0")))
            found = [result(server, f"tls-{me}", WAIT) for me in range(2)]
            check(f"over TLS in {kind}", all(len(it.get("came", [])) == 2 for it in found), str(found))
        with begun(port, room, conf, *creds), pages((kind, url_of(server, served, "unknown", short=1))):
            time.sleep(6)
            check(f"a certificate that nobody knows in {kind}", "unknown-code-1" not in server.post.texts)
    server.post.clear("tls-0", "tls-1", "tls-0-code-1")


# ---- native games

def by_bridge(served, code, port, *more):
    words = [WEB / "bridge", "--join", code, "--broker", served.broker, "--name", "Ben", *more, str(port), f"127.0.0.1:{port + 1}"]
    return subprocess.Popen(words, stdin=subprocess.DEVNULL, stdout=subprocess.PIPE, stderr=subprocess.PIPE, text=True)


def native(served, *words):
    line = [OUT / "duel", "--headless", *words, "--broker", served.broker, "--name", "Cal"]
    return subprocess.Popen(line, stdin=subprocess.DEVNULL, stdout=subprocess.PIPE, stderr=subprocess.PIPE, text=True)


def a_native_game(server, served, kind):
    """A native game and a page of the same duel can't join each other, and are told so."""
    for what in [{"short": 1}, {}]:
        name = f"native-{len(what)}-{kind}"
        with pages((kind, url_of(server, served, name, **what))):
            joined = native(served, "--join", code_of(server, name))
            found = result(server, name, WAIT)
            said = joined.communicate(timeout=WAIT)[1]
        check(f"a page of {kind} that a native game joins", ended(found, "Cal doesn't play in a browser"), str(found))
        check("the native game", "the host plays in a browser" in said and joined.returncode != 0, f"{said} {joined.returncode}")
        server.post.clear(name, f"{name}-code-1")
    for what in [["--door"], []]:
        host = native(served, "--host", "2", *what)
        code = next(line.split()[-1] for line in host.stderr if line.startswith("the code is "))
        found = joins(server, served, kind, f"page-{len(what)}-{kind}", code)
        check(f"a page of {kind} that joins a native game", ended(found, "the host doesn't play in a browser"), str(found))
        check("its host", "is a page in a browser" in next((it for it in host.stderr if "can't join" in it), ""))
        host.kill()
        host.communicate()


def bridged_by_code(server, served, kind, port, frames=1800):
    """A native game plays with a page that hosts, by the page's code."""
    name = f"bridged-by-code-{kind}"
    words = ["--headless", "--bot", "5", "--delay", "0", "--frames", frames, "--lag", "30", "--loss", "5", "--timeout", "60000"]
    line = {"frames": frames, "bot": 5, "delay": 0, "lag": 30, "loss": 5}
    with pages((kind, url_of(server, served, name, short=1, **line))):
        bridge = by_bridge(served, code_of(server, name), port)
        number = next((found.group(1) for it in bridge.stderr if (found := re.search(r"--match (\d+)", it))), None)
        duel = [OUT / "duel", *words, "--match", number, port + 1, f"127.0.0.1:{port}", "local"]
        game = subprocess.Popen([str(it) for it in duel], stdout=subprocess.PIPE, stderr=subprocess.DEVNULL, text=True)
        found = result(server, name)
        said = game.communicate(timeout=WAIT)[0]
        bridge.kill()
        bridge.communicate()
    state = expected(5, frames, (0, 0))
    check(f"the page's state, {kind} by a code", found.get("state") and state in (None, found["state"]), str(found))
    check(f"the native game's, {kind} by a code", said == f"frame {frames} state {found.get('state')}\n", said)


# ---- the page itself

def whole_page(server, served, kinds):
    """The page by its buttons: one hosts, the other types the code, is let in, and they play to the same state."""
    line = "?bot=5&lag=30&frames=300&delay=0"
    with driver(kinds[0]) as one, driver(kinds[1]) as other:
        for it, name in [(one, "Anna"), (other, "Ben")]:
            it.size(700, 1000)
            it.go(f"{server.url}/site/index.html{line}")
            it.wait("return !document.getElementById('meet').hidden")
            it.fill("meet-broker", served.url)
            it.fill("player", name)
        one.click("host")
        one.wait("return document.getElementById('code').textContent !== ''")
        other.fill("their-code", one.run("return document.getElementById('code').textContent").lower())
        other.click("join")
        one.wait("return !document.getElementById('asks').hidden")
        asked = one.run("return document.getElementById('asking').textContent")
        other.wait_until_told("Anna is asked; both see ", 20)
        seen = other.run("return document.getElementById('told').textContent")[-9:]
        check("both see the same signs", asked == f"Ben wants to join, and sees {seen}.", f"{asked} {seen}")
        one.click("let-in")
        for it in [one, other]:
            it.wait("return document.getElementById('result').textContent !== ''")
        shown = [it.run("return document.getElementById('result').textContent") for it in [one, other]]
    state = expected(5, 300, (0, 0))
    check(f"the page by a code in {' with '.join(kinds)}", shown[0] == shown[1] and shown[0].startswith("frame 300 state ")
          and state in (None, shown[0].partition(" state ")[2]), str(shown))


def by_address(server, served, kind):
    """What the page's address says for trials: who hosts, who joins, and who types nonsense."""
    with driver(kind) as one, driver(kind) as other:
        one.go(f"{server.url}/site/index.html?bot=5&broker={served.url}&host&name=Anna")
        one.wait("return document.getElementById('code')?.textContent.length === 8")
        code = one.run("return document.getElementById('code').textContent")
        other.go(f"{server.url}/site/index.html?bot=5&broker={served.url}&join={other_signs(code)}")
        other.wait_until_told("the code's last four signs are wrong", 20)
        other.go(f"{server.url}/site/index.html?bot=5&broker={served.url}&join={code}&name=Ben")
        one.wait("return !document.getElementById('asks').hidden")
        one.click("say-no")
        other.wait_until_told("the host's player said no", 20)
        for text, said in [("nonsense!", "this is no code"), ("", "this is no code")]:
            other.fill("their-code", text)
            other.forget()
            other.click("join")
            other.wait_until_told(said, 20)
        other.fill("meet-broker", "nats://127.0.0.1:4222")
        other.click("host")
        other.wait_until_told("wss://HOST:PORT was expected", 20)
        other.fill("meet-broker", "ws://nonsense@127.0.0.1:9")
        other.click("host")
        other.wait_until_told("the pass in the broker's address can't be read", 20)
        other.fill("meet-broker", "ws://127.0.0.1:9")
        other.click("host")
        other.wait_until_told("waiting: no broker is there yet", 20)
        check(f"what the page's address says in {kind}", True)


def loaded_anew(server, served, kind):
    """A page that met by a code is loaded anew in the match: both players are told what to do, and the code isn't tried once more."""
    words = f"{server.url}/site/index.html?bot=5&broker={served.url}"
    with driver(kind) as one, driver(kind) as other:
        one.go(f"{words}&host&name=Anna")
        one.wait("return document.getElementById('code')?.textContent.length === 8")
        other.go(f"{words}&name=Ben&join={one.run('return document.getElementById(`code`).textContent')}")
        one.wait("return !document.getElementById('asks').hidden")
        one.click("let-in")
        for it in [one, other]:
            it.wait("return !document.getElementById('match').hidden")
        other.refresh()
        again = "for another match host again, or ask the other one for a new code"
        one.wait_until_told(f"the other one has left: {again}", 20)
        other.wait_until_told(f"this page was loaded anew, and has left its match: {again}", 20)
        time.sleep(1)
        told = other.run("return document.getElementById('told').textContent")
        check(f"a page that is loaded anew in {kind}", told.startswith("this page"))


def two_ask(server, served, kind):
    """Two friends ask the page's player at once, who is asked of one after the other."""
    asked = "return document.getElementById('asking').textContent"
    with driver(kind) as one:
        one.go(f"{server.url}/site/index.html?bot=5&broker={served.url}&host&name=Anna")
        one.wait("return document.getElementById('code')?.textContent.length === 8")
        code = one.run("return document.getElementById('code').textContent")
        with pages((kind, url_of(server, served, "asks-first", join=code, player="Ben"))):
            one.wait_until_told("Ben wants to join", 20)
            with pages((kind, url_of(server, served, "asks-second", join=code, player="Cal"))):
                one.wait_until_told("Cal wants to join", 20)
                check(f"who asks first in {kind}", one.run(asked).startswith("Ben wants to join, and sees "), one.run(asked))
                one.click("say-no")
                found = result(server, "asks-first", WAIT)
                check(f"who asked first isn't let in in {kind}", ended(found, "the host's player said no"), str(found))
                check(f"who asks second in {kind}", one.run(asked).startswith("Cal wants to join, and sees "), one.run(asked))
                one.click("let-in")
                one.wait("return !document.getElementById('match').hidden")
                check(f"nobody asks any more in {kind}", one.run("return document.getElementById('asks').hidden"))
    server.post.clear("asks-first", "asks-second")


# ---- all of them

def one_code(server, kind, port):
    """Two pages of one browser, by a short code: some seconds, for the gate."""
    if lacks("pages that meet by a code"):
        return
    with serving(port) as served:
        code, found = met(server, served, (kind, kind), "one-code", {"short": 1})
    check("two pages by a short code", all(max(it.get("came", [0])) >= 60 for it in found), f"{code} {found}")
    check("they have one number", len({it.get("number") for it in found}) == 1, str(found))


def with_native(server, served, kinds, port):
    duel = OUT / "duel"
    has_codes = duel.is_file() and "has no codes" not in run([duel, "--join", "nonsense"]).stdout
    if not has_codes or run(["/usr/bin/python3", "-c", "import aiortc"]).returncode:
        skip("a page and a native game by a code (no out/duel with codes: make duel, or no python3-aiortc)")
        return
    for at, kind in enumerate(kinds):
        wrong_signs(server, served, kind, port)
        a_native_game(server, served, kind)
        bridged_by_code(server, served, kind, port + 2 + 2 * at)


def by_codes(server, kinds, port):
    """All of it, over servers of this machine."""
    if lacks("pages that meet by a code"):
        return
    both = [(one, other) for at, one in enumerate(kinds) for other in kinds[at:]]
    for part in [lambda served: short_codes(server, served, both), lambda served: long_codes(server, served, both),
                 lambda served: relayed(server, served, both), lambda served: late_friends(server, served, kinds[0]),
                 lambda served: three_pages(server, served, kinds),
                 lambda served: [wrong_codes(server, served, kind) for kind in kinds],
                 lambda served: with_native(server, served, kinds, port + 8),
                 lambda served: [whole_page(server, served, it) for it in both],
                 lambda served: [by_address(server, served, it) for it in kinds],
                 lambda served: [loaded_anew(server, served, it) for it in kinds],
                 lambda served: [two_ask(server, served, it) for it in kinds],
                 lambda served: [no_way(server, served, kind) for kind in kinds],
                 lambda served: [strangers(server, served, kind) for kind in kinds],
                 lambda served: [rights(server, served, kind) for kind in kinds]]:
        with serving(port) as served:  # (the door counts who asks: each part has a door of its own)
            part(served)
    for kind in kinds:
        spies(server, kind, port)
    if "chromium" in kinds:  # (a Firefox takes no unknown certificate for a WebSocket, also if it is told to)
        over_tls(server, "chromium", port)
