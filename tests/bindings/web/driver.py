"""Browsers that are driven as a person would: a Chromium by chromedriver, a Firefox by the door of its own (Marionette)."""
import base64
import contextlib
import json
import re
import shutil
import socket
import subprocess
import time
import urllib.error
import urllib.request
from pathlib import Path

from browsers import CHROMIUM, Browser, end

WAIT = 180


class Driver:
    """A browser of its own, with one tab, until the block ends. Both take the commands of WebDriver. With `believes` it takes any
    certificate."""

    def __init__(self, believes=False):
        self.believes = believes

    def __enter__(self):
        try:
            self.begin()
        except BaseException:
            self.end()
            raise
        return self

    def __exit__(self, *why):
        self.end()

    def go(self, url):
        self.command("Navigate", url=url)

    def refresh(self):
        self.command("Refresh")

    def size(self, width, height):
        self.command("SetWindowRect", width=width, height=height)

    def new_tab(self, stay=False):
        """Opens another tab, and shows it; with `stay` the tab before is gone back to."""
        before = self.command("GetWindowHandle")
        made = self.command("NewWindow", type="tab")["handle"]
        self.command("SwitchToWindow", handle=before if stay else made)

    def close_tab(self):
        left = self.command("CloseWindow")
        self.command("SwitchToWindow", handle=left[0])

    def run(self, script, *words):
        return self.command("ExecuteScript", script=script, args=list(words))

    def wait(self, script, seconds=WAIT):
        """Waits until a script says true."""
        until = time.monotonic() + seconds
        while not self.run(script):
            if time.monotonic() > until:
                raise AssertionError(f"{script}: never; the page tells: {self.run(f'return {TOLD}')}")
            time.sleep(0.2)

    def wait_until_told(self, what, seconds=WAIT):
        """Waits until the page tells something with these words."""
        self.wait(f"return {TOLD}.includes({json.dumps(what)})", seconds)

    def forget(self):
        """Takes away what the page has told: the next words are its answer to what follows."""
        self.run("document.getElementById('told').textContent = ''")

    def click(self, name):
        self.run("document.getElementById(arguments[0]).click()", name)

    def fill(self, name, text):
        self.run("document.getElementById(arguments[0]).value = arguments[1]", name, text)

    def text_of(self, name):
        """The text of a field, once there is one."""
        self.wait(f"return document.getElementById('{name}').value !== ''")
        return self.run("return document.getElementById(arguments[0]).value", name)

    def screenshot(self):
        return base64.b64decode(self.command("TakeScreenshot"))


TOLD = "(document.getElementById('told')?.textContent ?? '')"

# How WebDriver asks for what a command does, behind the session's address.
COMMANDS = {
    "Navigate": ("POST", "/url"),
    "Refresh": ("POST", "/refresh"),
    "SetWindowRect": ("POST", "/window/rect"),
    "GetWindowHandle": ("GET", "/window"),
    "NewWindow": ("POST", "/window/new"),
    "SwitchToWindow": ("POST", "/window"),
    "CloseWindow": ("DELETE", "/window"),
    "ExecuteScript": ("POST", "/execute/sync"),
    "TakeScreenshot": ("GET", "/screenshot"),
}


class Chromium(Driver):
    def begin(self):
        self.session = None
        self.process = subprocess.Popen(["chromedriver", "--port=0"], stdin=subprocess.DEVNULL, stdout=subprocess.PIPE,
                                        stderr=subprocess.DEVNULL, text=True, start_new_session=True)
        for line in self.process.stdout:
            found = re.search(r"started successfully on port (\d+)", line)
            if found:
                self.url = f"http://127.0.0.1:{found.group(1)}"
                break
        options = {"binary": shutil.which("chromium"), "args": CHROMIUM}
        wanted = {"browserName": "chrome", "acceptInsecureCerts": self.believes, "goog:chromeOptions": options}
        self.session = self.call("POST", "/session", {"capabilities": {"alwaysMatch": wanted}})["sessionId"]

    def end(self):
        if self.session is not None:
            with contextlib.suppress(OSError):
                self.call("DELETE", f"/session/{self.session}")
        end(self.process)
        self.process.stdout.close()

    def call(self, method, path, body=None):
        data = json.dumps(body).encode() if method == "POST" else None
        request = urllib.request.Request(self.url + path, data, {"Content-Type": "application/json"}, method=method)
        try:
            with urllib.request.urlopen(request, timeout=WAIT) as answer:
                return json.load(answer)["value"]
        except urllib.error.HTTPError as why:
            raise OSError(why.read().decode(errors="replace")[:2000]) from None

    def command(self, name, **words):
        method, path = COMMANDS[name]
        return self.call(method, f"/session/{self.session}{path}", words)


class Firefox(Driver):
    """What goes through its door is a length, a colon and JSON: a command's number, name and words, or the answer to it."""

    def begin(self):
        self.line = None
        self.browser = Browser("firefox", "about:blank", is_driven=True)
        port = Path(self.browser.profile, "MarionetteActivePort")
        until = time.monotonic() + WAIT
        while not (port.is_file() and port.read_text()):
            if time.monotonic() > until:
                raise OSError("firefox opens no door")
            time.sleep(0.1)
        self.line = socket.create_connection(("127.0.0.1", int(port.read_text())), WAIT)
        self.answers = self.line.makefile("rb")
        self.count = 0
        self.read()
        self.command("NewSession", capabilities={"alwaysMatch": {"acceptInsecureCerts": self.believes}})

    def end(self):
        if self.line is not None:
            self.line.close()
        self.browser.close()

    def read(self):
        length = b""
        while not length.endswith(b":"):
            letter = self.answers.read(1)
            if letter == b"":
                raise OSError("firefox has closed its door")
            length += letter
        return json.loads(self.answers.read(int(length[:-1])))

    def command(self, name, **words):
        self.count += 1
        asked = json.dumps([0, self.count, f"WebDriver:{name}", words]).encode()
        self.line.sendall(b"%d:%s" % (len(asked), asked))
        _, _, why, answer = self.read()
        if why is not None:
            raise OSError(f"{why['error']}: {why['message']}"[:2000])
        return answer["value"] if isinstance(answer, dict) and "value" in answer else answer


def driver(kind, believes=False):
    return {"chromium": Chromium, "firefox": Firefox}[kind](believes)
