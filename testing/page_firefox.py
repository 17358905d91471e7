"""Firefox for testing/page: without a window, driven by its own protocol, Marionette. It stands on Python alone."""

import json
import pathlib
import shutil
import socket
import subprocess
import tempfile
import time

import page_look
import page_model

SECONDS = 60
KEYS = {"ArrowLeft": "\ue012", "ArrowRight": "\ue014", "Home": "\ue011", "End": "\ue010", "Tab": "\ue004"}

# What the page's document shows of a step; the page's own variables are out of reach.
SEEN = r"""
const all = selector => [...document.querySelectorAll(selector)], text = node => (node ? node.textContent : null);
return [Number(document.querySelector('#lines [aria-current]').dataset.step), text(document.querySelector('#what .command')), text(document.querySelector('#what p:last-child')) !== '',
  all('#map [data-block]:not(.released)').map(node => [node.dataset.block, node.dataset.state]).sort(),
  all('#rows tr').map(row => [Number(row.dataset.register), Number(row.dataset.tag), row.dataset.word]),
  all('#map [data-granule]').filter(node => node.dataset.tag === '1').map(node => Number(node.dataset.granule)).sort((one, other) => one - other),
  all('#map [data-reason]').length, document.documentElement.scrollWidth <= innerWidth, document.querySelector('#fault').hidden];
"""


def program():
    return next((path for path in map(shutil.which, ("firefox-esr", "firefox")) if path), None)


class Firefox:
    def __init__(self, program_path, *switched_off):
        self.profile = tempfile.TemporaryDirectory(ignore_cleanup_errors=True)
        folder, self.buffer, self.number = pathlib.Path(self.profile.name), b"", 0
        (folder / "user.js").write_text('user_pref("marionette.port", 0);\n' + "".join(f'user_pref("{name}", false);\n' for name in switched_off))
        self.process = subprocess.Popen([program_path, "--headless", "--no-remote", "--profile", folder, "--marionette", "about:blank"],
                                        stdout=subprocess.DEVNULL, stderr=subprocess.DEVNULL)
        try:
            self.wire = socket.create_connection(("127.0.0.1", self.port(folder / "MarionetteActivePort")), SECONDS)
            self.message()
            self.call("WebDriver:NewSession")
        except (OSError, RuntimeError):
            self.close()
            raise

    def port(self, told):
        until = time.monotonic() + SECONDS
        while time.monotonic() < until:
            if told.exists() and told.read_text().strip():
                return int(told.read_text())
            time.sleep(0.1)
        raise OSError(f"Firefox has no port after {SECONDS} s")

    def read(self, count):
        while len(self.buffer) < count:
            piece = self.wire.recv(1 << 16)
            if not piece:
                raise OSError("Firefox ended")
            self.buffer += piece
        piece, self.buffer = self.buffer[:count], self.buffer[count:]
        return piece

    def message(self):
        digits = b""
        while not digits.endswith(b":"):
            digits += self.read(1)
        return json.loads(self.read(int(digits[:-1])))

    def call(self, method, **params):
        self.number += 1
        message = json.dumps([0, self.number, method, params]).encode()
        self.wire.sendall(b"%d:%s" % (len(message), message))
        _, _, fault, answer = self.message()
        if fault:
            raise RuntimeError(f"{method}: {fault}")
        return answer

    def run(self, code):
        """What the code returns; it sees the document alone."""
        return self.call("WebDriver:ExecuteScript", script=code, args=[])["value"]

    def key(self, key):
        acts = [{"type": kind, "value": KEYS.get(key, key)} for kind in ("keyDown", "keyUp")]
        self.call("WebDriver:PerformActions", actions=[{"type": "key", "id": "keyboard", "actions": acts}])

    def open(self, path):
        """Loads a page from disk, and waits until it has compared the data with its own decoder, or told a fault."""
        self.call("WebDriver:Navigate", url=pathlib.Path(path).resolve().as_uri())
        until = time.monotonic() + SECONDS
        while time.monotonic() < until:
            if self.run("return !document.querySelector('#fault').hidden || document.querySelector('#main')?.dataset.compared !== undefined"):
                return
            time.sleep(0.05)
        raise RuntimeError(f"{path} is not ready after {SECONDS} s")

    def close(self):
        self.process.terminate()
        try:
            self.process.wait(20)
        except subprocess.TimeoutExpired:
            self.process.kill()
            self.process.wait()
        self.profile.cleanup()


def seen_at(run, index):
    """What SEEN has to be."""
    state, taken = run.states[index], run.taken(index)
    reply = run.values[index]["reply"]
    is_shown = taken is not None and run.values[index]["text"].split()[0] != "malloc"
    return [index, run.trace.counted[index][1] + (f" → {reply}" if reply else ""), True,
            sorted([page_model.block_key(block), of] for block, of in state.blocks.items()),
            [[number, int(state.register(number)[0]), state.register(number)[1]] for number in run.written],
            sorted(place for place, (tag, _) in state.granules.items() if tag), len(taken[:64]) if is_shown else 0, True, True]


def lessons(tests, firefox):
    """Each lesson opens, and is stepped through by keys, forward and back."""
    for folder in tests.lessons():
        raw = (folder / "stdin").read_bytes()
        run = page_model.Run(raw, tests.data(raw))
        firefox.open(tests.page(tests.root, raw, folder.name))
        last = len(run.values) - 1
        for key, steps in (("ArrowRight", range(last + 1)), ("ArrowLeft", range(last, -1, -1)), ("End", [last]), ("Home", [0])):
            for index in steps:
                if index not in (steps[0],) or len(steps) == 1:
                    firefox.key(key)
                tests.check(f"{folder.name} in Firefox by {key}, step {index}", firefox.run(SEEN), seen_at(run, index))
                tests.check(f"{folder.name} in Firefox by {key}, step {index}: names are whole", json.loads(firefox.run("return " + page_look.CUT))[1], [])
        for letter, name in (("p", "present"), ("a", "ask")):
            firefox.key(letter)
            tests.check(f"{folder.name} in Firefox: the key {letter}", firefox.run(f"return document.querySelector('#{name}').getAttribute('aria-pressed')"), "true")
