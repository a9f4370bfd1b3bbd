"""A browser that is driven through its debugging pipe, by Python's own library alone."""

import base64
import contextlib
import fcntl
import json
import os
import shutil
import subprocess
import tempfile
import time
from pathlib import Path

PROGRAM = shutil.which("chromium") or shutil.which("chromium-browser") or shutil.which("google-chrome")
# Of a pipe's two ends those that the browser has, as it knows them.
READS, WRITES = 3, 4
FREE = 20  # above all numbers that the browser uses


class Browser:
    """A page in chromium without a window."""

    def __init__(self, width=1400, height=1000):
        self.folder = tempfile.mkdtemp()
        words = ["--headless=new", "--no-sandbox", "--disable-gpu", "--remote-debugging-pipe", f"--user-data-dir={self.folder}", "--hide-scrollbars", "about:blank"]
        (theirs_in, self.out), (self.into, theirs_out) = os.pipe(), os.pipe()
        theirs_in, theirs_out = (fcntl.fcntl(it, fcntl.F_DUPFD, FREE) for it in (theirs_in, theirs_out))

        def place():
            os.dup2(theirs_in, READS, inheritable=True)
            os.dup2(theirs_out, WRITES, inheritable=True)

        self.process = subprocess.Popen([PROGRAM, *words], preexec_fn=place, close_fds=False, stdout=subprocess.DEVNULL, stderr=subprocess.DEVNULL)
        os.close(theirs_in)
        os.close(theirs_out)
        self.count, self.held, self.events, self.session = 0, b"", [], None
        target = next(it for it in self.send("Target.getTargets")["targetInfos"] if it["type"] == "page")
        self.session = self.send("Target.attachToTarget", targetId=target["targetId"], flatten=True)["sessionId"]
        for it in ("Page", "Runtime", "Log"):
            self.send(it + ".enable")
        self.size(width, height)

    def message(self):
        """The next message of the browser's."""
        while b"\0" not in self.held:
            self.held += os.read(self.into, 1 << 20) or self.ended()
        one, self.held = self.held.split(b"\0", 1)
        return json.loads(one)

    @staticmethod
    def ended():
        """Nothing more comes."""
        raise EOFError("the browser ended")

    def send(self, method, **params):
        """Asks for something, and waits for the answer; what comes before it is kept."""
        self.count += 1
        packet = {"id": self.count, "method": method, "params": params} | ({"sessionId": self.session} if self.session else {})
        os.write(self.out, json.dumps(packet).encode() + b"\0")
        while (got := self.message()).get("id") != self.count:
            self.events.append(got)
        if "error" in got:
            raise RuntimeError(got["error"])
        return got["result"]

    def size(self, width, height, mobile=False):
        """The size of the window."""
        self.send("Emulation.setDeviceMetricsOverride", width=width, height=height, deviceScaleFactor=1, mobile=mobile)

    def open(self, path):
        """Opens a file, and waits until it is loaded."""
        self.events.clear()
        self.send("Page.navigate", url=f"file://{Path(path).resolve()}")
        while not any(it.get("method") == "Page.loadEventFired" for it in self.events):
            self.events.append(self.message())
        time.sleep(0.4)

    def run(self, text):
        """The value of an expression in the page."""
        got = self.send("Runtime.evaluate", expression=text, returnByValue=True, awaitPromise=True)
        if "exceptionDetails" in got:
            raise RuntimeError(json.dumps(got["exceptionDetails"])[:800])
        return got["result"].get("value")

    def errors(self):
        """What the page complained of since it was opened."""
        self.run("1")
        return [json.dumps(it["params"])[:500] for it in self.events if it.get("method") in ("Runtime.exceptionThrown", "Log.entryAdded")]

    def mouse(self, kind, x, y, **more):
        """Something that the mouse does."""
        self.send("Input.dispatchMouseEvent", type=kind, x=x, y=y, **more)
        time.sleep(0.25)

    def click(self, x, y):
        """A click of the left button."""
        self.mouse("mouseMoved", x, y)
        for it in ("mousePressed", "mouseReleased"):
            self.mouse(it, x, y, button="left", clickCount=1)

    def middle(self, expression):
        """Where an element of the page is."""
        return self.run(f"(() => {{ const box = ({expression}).getBoundingClientRect(); return [box.left + box.width / 2, box.top + box.height / 2]; }})()")

    def press(self, expression):
        """A click on an element of the page."""
        self.click(*self.middle(expression))

    def shot(self, name):
        """A picture of all of the page."""
        size = self.send("Page.getLayoutMetrics")["cssContentSize"]
        clip = {"captureBeyondViewport": True, "clip": {"x": 0, "y": 0, "width": size["width"], "height": size["height"], "scale": 1}}
        Path(name).write_bytes(base64.b64decode(self.send("Page.captureScreenshot", format="png", **clip)["data"]))

    def close(self):
        """Ends the browser."""
        with contextlib.suppress(OSError, EOFError, RuntimeError):
            self.send("Browser.close")
        self.process.wait(10)
        shutil.rmtree(self.folder, ignore_errors=True)
