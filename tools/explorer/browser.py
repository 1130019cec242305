"""Drives a headless browser over two pipes, by the messages of its DevTools protocol."""

import base64
import fcntl
import json
import os
import select
import shutil
import subprocess
import sys
import tempfile

NAMES = ("chromium", "chromium-browser", "google-chrome", "google-chrome-stable", "chrome")
FLAGS = (
    "--headless=new",
    "--remote-debugging-pipe",
    "--no-sandbox",
    "--disable-gpu",
    "--disable-dev-shm-usage",
    "--disable-renderer-backgrounding",
    "--disable-backgrounding-occluded-windows",
    "--no-first-run",
    "--hide-scrollbars",
)
SECONDS = 60
KEYS = {"Tab": 9, "Enter": 13, " ": 32, "PageUp": 33, "PageDown": 34, "End": 35, "Home": 36, "ArrowLeft": 37}
KEYS |= {"ArrowUp": 38, "ArrowRight": 39, "ArrowDown": 40, "b": 66, "c": 67, "p": 80, "[": 219, "]": 221}
TEXTS = {"Enter": "\r", " ": " "}
# A page unpacks what it shows, and then shows it.
IS_SHOWN = "typeof shown === 'undefined' || shown.then(() => true)"

# The browser reads messages from file 3, and writes them to file 4.
LAUNCH = """
import os, sys
os.dup2(int(sys.argv[1]), 3)
os.dup2(int(sys.argv[2]), 4)
os.execv(sys.argv[3], sys.argv[3:])
"""


class BrowserFailed(Exception):
    """What the browser says, or that it says nothing."""


def installed():
    """The path of a browser, if there is one."""
    return next(filter(None, map(shutil.which, NAMES)), None)


def high_pipe():
    """A pipe whose ends have numbers that are free for it in the browser, too."""
    ends = os.pipe()
    high = [fcntl.fcntl(end, fcntl.F_DUPFD, 10) for end in ends]
    for end in ends:
        os.close(end)
    return high


class Browser:
    """One page in a headless browser. `noticed` has its events that nobody has asked for, in order."""

    def __init__(self, path):
        self.profile = tempfile.mkdtemp()
        reading, self.writing = high_pipe()
        self.reading, writing = high_pipe()
        words = [path, *FLAGS, f"--user-data-dir={self.profile}"]
        launch = [sys.executable, "-c", LAUNCH, str(reading), str(writing)]
        quiet = {"stdin": subprocess.DEVNULL, "stdout": subprocess.DEVNULL, "stderr": subprocess.DEVNULL}
        self.process = subprocess.Popen(launch + words, pass_fds=(reading, writing), **quiet)
        os.close(reading)
        os.close(writing)
        self.received, self.noticed, self.count, self.session = b"", [], 0, None
        self.open_target()

    def __enter__(self):
        return self

    def __exit__(self, *failure):
        self.process.terminate()
        self.process.wait()
        os.close(self.reading)
        os.close(self.writing)
        shutil.rmtree(self.profile, ignore_errors=True)

    def open_target(self):
        target = self.ask("Target.createTarget", url="about:blank")["targetId"]
        self.session = self.ask("Target.attachToTarget", targetId=target, flatten=True)["sessionId"]
        for domain in ("Page", "Runtime", "Network"):
            self.ask(f"{domain}.enable")

    # Messages.

    def ask(self, method, **parameters):
        """Sends a message, and gives what is answered."""
        self.count += 1
        message = {"id": self.count, "method": method, "params": parameters}
        if self.session:
            message["sessionId"] = self.session
        os.write(self.writing, json.dumps(message).encode() + b"\0")
        while (answer := self.receive()).get("id") != self.count:
            self.noticed.append(answer)
        if "error" in answer:
            raise BrowserFailed(f"{method}: {answer['error']['message']}")
        return answer["result"]

    def receive(self):
        while b"\0" not in self.received:
            ready, _, _ = select.select([self.reading], [], [], SECONDS)
            some = os.read(self.reading, 1 << 20) if ready else b""
            if not some:
                raise BrowserFailed("it says nothing more")
            self.received += some
        message, self.received = self.received.split(b"\0", 1)
        return json.loads(message)

    def await_event(self, method):
        while not any(event.get("method") == method for event in self.noticed):
            self.noticed.append(self.receive())

    def take_events(self, method):
        """The events of this name so far, which are forgotten then."""
        found = [event["params"] for event in self.noticed if event.get("method") == method]
        self.noticed = [event for event in self.noticed if event.get("method") != method]
        return found

    # Pages.

    def resize(self, width, height):
        self.ask("Emulation.setDeviceMetricsOverride", width=width, height=height, deviceScaleFactor=1, mobile=False)

    def paint(self, scheme):
        """As one sees it who likes it light, or dark."""
        self.ask("Emulation.setEmulatedMedia", features=[{"name": "prefers-color-scheme", "value": scheme}])

    def open(self, url):
        self.noticed = []
        self.ask("Page.navigate", url="about:blank")
        self.await_event("Page.loadEventFired")
        self.noticed = []
        self.ask("Page.navigate", url=url)
        self.await_event("Page.loadEventFired")
        self.value_of(IS_SHOWN)

    def value_of(self, expression):
        found = self.ask("Runtime.evaluate", expression=expression, returnByValue=True, awaitPromise=True)
        if "exceptionDetails" in found:
            details = found["exceptionDetails"]
            raise BrowserFailed(details.get("exception", {}).get("description", details["text"]))
        return found["result"].get("value")

    def press(self, key):
        """A key as from a keyboard."""
        text = TEXTS.get(key, "")
        both = {"key": key, "windowsVirtualKeyCode": KEYS[key], "text": text}
        self.ask("Input.dispatchKeyEvent", type="keyDown" if text else "rawKeyDown", **both)
        self.ask("Input.dispatchKeyEvent", type="keyUp", **both)

    def picture(self, clip=None):
        """A picture of the page, or of a part of it, as the bytes of a PNG."""
        size = self.ask("Page.getLayoutMetrics")["cssContentSize"]
        whole = {"x": 0, "y": 0, "width": size["width"], "height": size["height"], "scale": 1}
        found = self.ask("Page.captureScreenshot", format="png", captureBeyondViewport=True, clip=clip or whole)
        return base64.b64decode(found["data"])
