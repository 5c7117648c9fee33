"""A browser without a window, Chromium, told over its pipe what to open and what to run in a page."""

import base64
import fcntl
import json
import os
import shutil
import subprocess
import tempfile

# Numbers of files that the browser's own, 3 and 4, don't stand for.
FREE = 20
# How many seconds the browser may take for one thing on the slowest machine.
SLOW = 120


def program():
    """Chromium, if it is here."""
    return next((it for it in map(shutil.which, ("chromium", "chromium-browser", "google-chrome")) if it), None)


class Browser:
    """A browser with one page."""

    def __init__(self):
        self.room = tempfile.mkdtemp(prefix="browser-")
        words = [program(), "--headless", "--no-sandbox", "--disable-gpu", "--remote-debugging-pipe", f"--user-data-dir={self.room}", "about:blank"]
        self.told, self.tells, theirs = self.pipes()

        def as_theirs():
            for number, end in zip((3, 4), theirs):
                os.dup2(end, number)

        quiet = {"stdin": subprocess.DEVNULL, "stdout": subprocess.DEVNULL, "stderr": subprocess.DEVNULL}
        self.process = subprocess.Popen(words, preexec_fn=as_theirs, close_fds=False, **quiet)
        for it in theirs:
            os.close(it)
        self.rest, self.count, self.session = b"", 0, None
        # What the browser says by itself: faults, and what it loads.
        self.faults, self.loaded = [], []
        page = next(it for it in self.call("Target.getTargets")["targetInfos"] if it["type"] == "page")
        self.session = self.call("Target.attachToTarget", targetId=page["targetId"], flatten=True)["sessionId"]
        for domain in ("Page", "Runtime", "Log", "Network"):
            self.call(f"{domain}.enable")

    @staticmethod
    def pipes():
        """The end to tell the browser by, the one that it tells by, and its own two."""
        ends = []
        for _ in range(2):
            pair = os.pipe()
            ends.append([fcntl.fcntl(it, fcntl.F_DUPFD_CLOEXEC, FREE) for it in pair])
            for it in pair:
                os.close(it)
        (theirs_read, told), (tells, theirs_write) = ends
        return told, tells, (theirs_read, theirs_write)

    def next(self):
        """The next thing that the browser tells."""
        while b"\0" not in self.rest:
            more = os.read(self.tells, 1 << 20)
            if not more:
                raise EOFError("the browser has ended")
            self.rest += more
        told, _, self.rest = self.rest.partition(b"\0")
        told = json.loads(told)
        if told.get("method") in ("Log.entryAdded", "Runtime.exceptionThrown"):
            self.faults.append(json.dumps(told["params"]))
        if told.get("method") == "Network.requestWillBeSent":
            self.loaded.append(told["params"]["request"]["url"])
        return told

    def call(self, method, **params):
        """Tells the browser to do something. Returns what it answers."""
        self.count += 1
        words = {"id": self.count, "method": method, "params": params, **({"sessionId": self.session} if self.session else {})}
        os.write(self.told, json.dumps(words).encode() + b"\0")
        while (told := self.next()).get("id") != self.count:
            pass
        if "error" in told:
            raise RuntimeError(told["error"])
        return told["result"]

    def open(self, path, fragment=""):
        """Opens a file, and waits until it is there."""
        self.call("Page.navigate", url="about:blank")
        self.call("Page.navigate", url=f"file://{path}{fragment}")
        while self.run("document.readyState + location.protocol") != "completefile:":
            pass

    def run(self, script):
        """The value of a script that is run in the page."""
        told = self.call("Runtime.evaluate", expression=script, returnByValue=True)
        if "exceptionDetails" in told:
            raise RuntimeError(told["exceptionDetails"])
        return told["result"].get("value")

    def size(self, width, height, scheme="light"):
        """Makes the page so wide and so high, by day or by night."""
        self.call("Emulation.setDeviceMetricsOverride", width=width, height=height, deviceScaleFactor=1, mobile=width < 600)
        self.call("Emulation.setEmulatedMedia", features=[{"name": "prefers-color-scheme", "value": scheme}])

    def picture(self):
        """What is seen of the page, as a PNG."""
        return base64.b64decode(self.call("Page.captureScreenshot", format="png")["data"])

    def printed(self):
        """The page on paper, as a PDF."""
        return base64.b64decode(self.call("Page.printToPDF", preferCSSPageSize=True)["data"])

    def close(self):
        """Ends the browser."""
        self.process.terminate()
        self.process.wait(timeout=SLOW)
        for it in (self.told, self.tells):
            os.close(it)
        shutil.rmtree(self.room, ignore_errors=True)
