"""Drives a browser without a window over a pipe, by the protocol of its developer tools."""
import base64
import itertools
import json
import os
import shutil
import subprocess
import time

NAMES = ("chromium", "chromium-browser", "google-chrome")
WORDS = ("--headless=new", "--no-sandbox", "--disable-gpu", "--no-first-run", "--remote-debugging-pipe", "--window-size=1280,1150")
# Seconds within which a page has to leave its result.
LIMIT = 300


class Stopped(Exception):
    """Why the browser can't go on."""


def program():
    """The path of the browser: HAGZIMOT_BROWSER, or Debian's chromium. None if there is none."""
    return os.environ.get("HAGZIMOT_BROWSER") or next(filter(None, map(shutil.which, NAMES)), None)


class Browser:
    """A browser that runs until it is closed. It reads messages on its file 3, and writes them to its file 4."""

    def __init__(self, path, profile):
        theirs, self.to = os.pipe()
        self.given, their_out = os.pipe()
        words = ("sh", "-c", f'exec "$@" 3<&{theirs} 4>&{their_out}', "sh", path, *WORDS, f"--user-data-dir={profile}")
        quiet = {"stdin": subprocess.DEVNULL, "stdout": subprocess.DEVNULL, "stderr": subprocess.DEVNULL}
        self.child = subprocess.Popen(words, pass_fds=(theirs, their_out), **quiet)
        os.close(theirs)
        os.close(their_out)
        self.numbers, self.rest = itertools.count(1), b""

    def message(self):
        """The next message of the browser; each ends in a zero."""
        while b"\0" not in self.rest:
            data = os.read(self.given, 1 << 16)
            if not data:
                raise Stopped(f"{self.child.args[4]}: it ended")
            self.rest += data
        one, _, self.rest = self.rest.partition(b"\0")
        return json.loads(one)

    def call(self, method, session=None, **parameters):
        """Calls a method, and returns its result."""
        number = next(self.numbers)
        said = {"id": number, "method": method, "params": parameters, **({"sessionId": session} if session else {})}
        data = json.dumps(said).encode() + b"\0"
        while data:
            data = data[os.write(self.to, data) :]
        while True:
            found = self.message()
            if found.get("id") == number:
                if "error" in found:
                    raise Stopped(f"{method}: {found['error']}")
                return found["result"]

    def open(self, url):
        """Opens a page, and returns its session."""
        target = self.call("Target.createTarget", url=url)["targetId"]
        return self.call("Target.attachToTarget", targetId=target, flatten=True)["sessionId"]

    def value(self, session, expression):
        """The value of an expression on a page."""
        return self.call("Runtime.evaluate", session, expression=expression, returnByValue=True)["result"].get("value")

    def result(self, session):
        """The JSON that a page leaves in its element `result`."""
        end = time.monotonic() + LIMIT
        while time.monotonic() < end:
            text = self.value(session, "document.getElementById('result')?.textContent")
            if text:
                return json.loads(text)
            time.sleep(0.1)
        raise Stopped(f"the page leaves no result in {LIMIT} seconds")

    def shoot(self, session, path):
        """Takes a picture of a page."""
        data = self.call("Page.captureScreenshot", session, format="png")["data"]
        with open(path, "wb") as file:
            file.write(base64.b64decode(data))

    def __enter__(self):
        return self

    def __exit__(self, *_):
        self.child.terminate()
        self.child.wait()
        os.close(self.to)
        os.close(self.given)
