"""A browser for testing/page: Chromium without a window, driven over its DevTools pipe. It stands on Python alone."""

import base64
import json
import os
import pathlib
import shutil
import subprocess
import tempfile
import time

KEYS = {"ArrowLeft": 37, "ArrowUp": 38, "ArrowRight": 39, "ArrowDown": 40, "Home": 36, "End": 35, "PageUp": 33, "PageDown": 34,
        "Enter": 13, "Escape": 27, "Tab": 9, " ": 32, "p": 80, "a": 65, "b": 66, "/": 191, "?": 191}
OPTIONS = ["--headless", "--no-sandbox", "--disable-gpu", "--remote-debugging-pipe", "--no-first-run", "--disable-background-networking",
           "--disable-component-update", "--disable-dev-shm-usage", "--force-color-profile=srgb", "--hide-scrollbars"]
SECONDS = 60
# A loop, and the milliseconds that it takes on a box with nothing else to do.
LOOP = "(() => { const begun = performance.now(); let sum = 0; for (let at = 0; at < 2e6; at++) sum = (sum * 31 + at) | 0; return performance.now() - begun + 0 * sum; })()"
LOOP_TAKES = 15
READY = "document.readyState === 'complete' && (!document.querySelector('#fault').hidden || document.querySelector('#main')?.dataset.compared !== undefined)"
# What the parts of a viewer have for each other is had by its name.
EXPOSE = """for (const name of Object.keys(heapViewer ?? {})) {
  if (!Object.hasOwn(globalThis, name)) Object.defineProperty(globalThis, name, { get: () => heapViewer[name], configurable: true });
}"""


def program():
    """Chromium by one of its names, or None."""
    return next((path for path in map(shutil.which, ("chromium", "chromium-browser", "google-chrome")) if path), None)


class Browser:
    """One page at a time. What it tells of messages, faults and requests is kept in `events`."""

    def __init__(self, program_path):
        read_here, self.writes = os.pipe()
        self.reads, write_here = os.pipe()

        def wire():
            ends = os.dup(read_here), os.dup(write_here)
            os.dup2(ends[0], 3)
            os.dup2(ends[1], 4)

        self.profile = tempfile.TemporaryDirectory(ignore_cleanup_errors=True)
        self.process = subprocess.Popen([program_path, *OPTIONS, "--user-data-dir=" + self.profile.name, "about:blank"],
                                        preexec_fn=wire, close_fds=False, stdout=subprocess.DEVNULL, stderr=subprocess.DEVNULL)
        os.close(read_here)
        os.close(write_here)
        self.buffer, self.events, self.number, self.session = b"", [], 0, None
        target = self.call("Target.createTarget", url="about:blank")["targetId"]
        self.session = self.call("Target.attachToTarget", targetId=target, flatten=True)["sessionId"]
        for domain in ("Page", "Runtime", "Log", "Network"):
            self.call(domain + ".enable")

    def message(self):
        while b"\0" not in self.buffer:
            piece = os.read(self.reads, 1 << 20)
            if not piece:
                raise RuntimeError("the browser ended")
            self.buffer += piece
        raw, self.buffer = self.buffer.split(b"\0", 1)
        return json.loads(raw)

    def call(self, method, **params):
        self.number += 1
        message = {"id": self.number, "method": method, "params": params}
        if self.session:
            message["sessionId"] = self.session
        os.write(self.writes, json.dumps(message).encode() + b"\0")
        while True:
            got = self.message()
            if got.get("id") == self.number:
                if "error" in got:
                    raise RuntimeError(f"{method}: {got['error']}")
                return got["result"]
            if "method" in got:
                self.events.append(got)

    def slowness(self):
        """How many times as long as there things take now, by a loop: 1 at least."""
        return max(sorted(self.run(LOOP) for _ in range(9))[4] / LOOP_TAKES, 1)

    def run(self, code):
        """The value of an expression in the page; its faults are this program's."""
        got = self.call("Runtime.evaluate", expression=code, returnByValue=True, awaitPromise=True)
        if "exceptionDetails" in got:
            raise RuntimeError(f"{code[:200]}: {got['exceptionDetails']}")
        return got["result"].get("value")

    def key(self, key):
        """Presses a real key, as a keyboard does."""
        text = {"Enter": "\r"}.get(key, key if len(key) == 1 else None)
        common = {"key": key, "code": "Space" if key == " " else key, "windowsVirtualKeyCode": KEYS.get(key, 0)}
        self.call("Input.dispatchKeyEvent", type="keyDown" if text else "rawKeyDown", **common, **({"text": text} if text else {}))
        self.call("Input.dispatchKeyEvent", type="keyUp", **common)

    def mouse(self, kind, x, y, **more):
        self.call("Input.dispatchMouseEvent", type=kind, x=x, y=y, **more)

    def click(self, x, y):
        for kind in ("mousePressed", "mouseReleased"):
            self.mouse(kind, x, y, button="left", clickCount=1)

    def touch(self, x, y):
        self.call("Emulation.setTouchEmulationEnabled", enabled=True)
        self.call("Input.dispatchTouchEvent", type="touchStart", touchPoints=[{"x": x, "y": y}])
        self.call("Input.dispatchTouchEvent", type="touchEnd", touchPoints=[])
        self.run("new Promise(done => setTimeout(done, 400))")
        self.call("Emulation.setTouchEmulationEnabled", enabled=False)

    def open(self, path, width=1440, height=900, dark=False, at=""):
        """Loads a page from disk, and waits until it has compared the data with its own decoder, or told a fault."""
        self.events.clear()
        self.call("Emulation.setDeviceMetricsOverride", width=width, height=height, deviceScaleFactor=1, mobile=False)
        self.media("", dark)
        address = pathlib.Path(path).resolve().as_uri()
        if at:  # or else the page that is open would only go to another place of itself
            self.call("Page.navigate", url="about:blank")
            self.events.clear()
        self.call("Page.navigate", url=address + at)
        until = time.monotonic() + SECONDS
        while time.monotonic() < until:
            if self.run(f"location.href.split('#')[0] === {json.dumps(address)} && {READY}"):
                return self.run(EXPOSE)
            time.sleep(0.02)
        raise RuntimeError(f"{path} is not ready after {SECONDS} s")

    def media(self, kind, dark=False, forced=False):
        features = {"prefers-color-scheme": "dark" if dark else "light", "forced-colors": "active" if forced else "none"}
        self.call("Emulation.setEmulatedMedia", media=kind, features=[{"name": name, "value": value} for name, value in features.items()])

    def picture(self, path, **more):
        pathlib.Path(path).write_bytes(base64.b64decode(self.call("Page.captureScreenshot", format="png", **more)["data"]))

    def noise(self):
        """What the console, a fault or a request told since the page was opened; of requests the page's own is expected."""
        kinds = ("Runtime.exceptionThrown", "Log.entryAdded", "Runtime.consoleAPICalled")
        told = [event["params"] for event in self.events if event["method"] in kinds]
        asked = [event["params"]["request"]["url"] for event in self.events if event["method"] == "Network.requestWillBeSent"]
        return told + [address for address in asked[1:]] + [address for address in asked[:1] if not address.startswith("file:")]

    def close(self):
        self.session = None
        try:
            self.call("Browser.close")
            self.process.wait(20)
        except (OSError, RuntimeError, subprocess.TimeoutExpired):
            self.process.kill()
            self.process.wait()
        self.profile.cleanup()
