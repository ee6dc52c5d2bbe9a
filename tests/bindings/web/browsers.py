"""The browsers that tests start: without a window, each with a profile of its own."""
import contextlib
import os
import re
import shutil
import signal
import subprocess
import tempfile
from pathlib import Path

# (a machine's own addresses are told as they are: tests have no names for them, and may have no network)
CHROMIUM = ["--headless=new", "--no-sandbox", "--disable-gpu", "--no-first-run", "--disable-background-networking", "--mute-audio",
            "--disable-component-update", "--disable-sync", "--disable-extensions", "--disable-dev-shm-usage",
            "--allow-loopback-in-peer-connection", "--disable-features=WebRtcHideLocalIpsWithMdns"]
PREFERENCES = {
    "media.peerconnection.ice.obfuscate_host_addresses": False,
    "media.peerconnection.ice.loopback": True,
    "datareporting.policy.dataSubmissionEnabled": False,
    "browser.shell.checkDefaultBrowser": False,
    "browser.aboutwelcome.enabled": False,
    "app.update.enabled": False,
    "network.captive-portal-service.enabled": False,
    "network.connectivity-service.enabled": False,
    "services.settings.server": "data:,",
    "browser.safebrowsing.provider.google4.updateURL": "",
    "toolkit.telemetry.enabled": False,
    "fission.autostart": False,
    "marionette.port": 0,  # (a free one)
}


class Browser:
    """A browser that is started at a page. A Firefox can be driven (driver.py)."""

    def __init__(self, kind, url, is_driven=False):
        self.kind, self.profile = kind, tempfile.mkdtemp(prefix=f"{kind}-")
        words = [*self.words(), *(["--marionette"] if is_driven else []), url]
        self.process = subprocess.Popen(words, stdin=subprocess.DEVNULL, stdout=subprocess.DEVNULL, stderr=subprocess.DEVNULL,
                                        start_new_session=True, env={**os.environ, "HOME": self.profile})

    def words(self):
        if self.kind == "chromium":
            return ["chromium", *CHROMIUM, f"--user-data-dir={self.profile}"]
        told = "".join(f'user_pref("{name}", {str(it).lower() if isinstance(it, bool) else repr(it)});\n'
                       for name, it in PREFERENCES.items())
        Path(self.profile, "user.js").write_text(told.replace("'", '"'))
        return ["firefox-esr", "--headless", "--no-remote", "--profile", self.profile]

    def close(self):
        end(self.process)
        shutil.rmtree(self.profile, ignore_errors=True)


def end(process):
    """Ends a program with all that it began, which are a group of their own."""
    with contextlib.suppress(ProcessLookupError):
        os.killpg(process.pid, signal.SIGKILL)
    process.wait()


def version(kind):
    """A browser's version, 0 if it isn't there."""
    program = {"chromium": "chromium", "firefox": "firefox-esr"}[kind]
    if shutil.which(program) is None:
        return 0
    said = subprocess.run([program, "--version"], stdout=subprocess.PIPE, stderr=subprocess.DEVNULL, text=True).stdout
    found = re.search(r"(\d+)\.", said)
    return int(found.group(1)) if found else 0
