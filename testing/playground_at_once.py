"""The playground's switch "what if freed bytes were handed out at once" against a heap of testing/log_state.py without quarantine: each
reply, register, granule and block of random traces and of the lessons for a class, and whose bytes a stale pointer reaches."""

import json
import pathlib
import random
import shutil
import subprocess

from log_state import State

ROOT = pathlib.Path(__file__).resolve().parent.parent
CLASS = ["use_after_free", "reuse_before_and_after_a_sweep", "a_derived_pointer_goes_by_its_base", "a_copy_hidden_in_memory", "an_epoch_with_a_store"]
TRACES, COMMANDS = 250, 40
SIZES = [0, 1, 16, 32, 48, 100, 1000, 4080, 5000, 20000]
HEAP = "heap 0x40000000 1\n"
# By hand: what is told of a trace's last line.
TOLD = [
    ("malloc c1 32\nfree c1\nmalloc c2 16\n", "Harm: c1, of the block that was freed at line 3, still reaches into these bytes: they have two owners now."),
    ("malloc c1 32\ncopy c3 c1\nfree c1\nmalloc c1 16\n", "Harm: c3, of the block that was freed at line 4, still reaches into these bytes: they have two owners now."),
    ("malloc c1 32\nfree c1\nmalloc c2 16\nloadcap c3 c1\n", "Harm: c1 is of the block that was freed at line 3, and reads what belongs to the block of line 4."),
    ("malloc c1 32\nfree c1\nmalloc c2 16\nwrite c1 " + "00" * 16 + "\n", "Harm: c1 is of the block that was freed at line 3, and writes over what belongs to the block of line 4."),
    ("malloc c1 32\nfree c1\nmalloc c2 32\nfree c1\n", "Harm: c1 is of the block that was freed at line 3, and takes from its owner the block of line 4."),
    ("malloc c1 32\nfree c1\nloadcap c3 c1\n", "The block of c1 was freed at line 3, and nobody has these bytes yet."),
    ("malloc c1 32\nfree c1\nfree c1\n", "Refused: these are not just the bounds of a live block. A trap changes nothing."),
    ("malloc c1 32\nfree c1\n", "The bytes are free at once: the next malloc may hand them out. No tag is taken, so c1 and its copies still work."),
]
REFUSED = [
    ("".join(f"copy c{number} c0\n" for number in range(1, 31)), "that takes two registers which the trace leaves alone"),
    ("malloc c1 16\nfree c1\n" * 101, "that is worked out for at most 2,000 commands with 100 frees"),
    ("copy c1 c0\n" * 2001, "that is worked out for at most 2,000 commands with 100 frees"),
]


class AtOnce(State):
    """A heap without quarantine. Of each place it knows the malloc from which its word comes, and of each malloc when it was freed."""

    def __init__(self, base, pages):
        super().__init__(base, pages)
        self.of, self.freed, self.owners, self.harm = {}, {}, {}, None

    def free(self, register):
        reply = super().free(register)
        if not reply.startswith("held"):
            return reply
        (block,), self.waiting = self.waiting, {}
        owner, own = self.owners.pop(block), self.of.get(("c", register))
        self.freed[owner] = self.line
        if own != owner:
            self.harm = {"kind": "freed", "names": [f"c{register}"], "freed": self.freed[own], "owner": owner}
        return "free" + reply[len("held") :]

    def does(self, line, name, operands):
        self.line, self.harm = line, None
        before = {place: self.cell_at(place) for place in self.of}
        if name in ("storecap", "write", "loadcap"):
            acting = operands[1] if name == "loadcap" else operands[0]
            self.judge_access(name, acting)
        granule = ("g", self.registers[operands[-1 if name == "loadcap" else 0]][0].address) if name in ("storecap", "write", "loadcap") else None
        source = {"loadcap": granule, "write": None}.get(name, ("c", operands[1]) if name in ("copy", "setaddr", "narrow", "andperm", "storecap") else None)
        origin = self.of.get(source)
        reply = super().does(line, name, operands)
        if reply.startswith("trap"):
            self.harm = None
        elif name == "malloc":
            self.judge_malloc(operands[0], before, reply)
        elif name in ("copy", "setaddr", "narrow", "andperm", "loadcap"):
            self.come(("c", operands[0]), origin)
        elif name in ("storecap", "write"):
            self.come(granule, origin)
        return reply

    def come(self, place, origin):
        if place != ("c", 0):
            self.of[place] = origin

    def cell_at(self, place):
        return self.registers[place[1]] if place[0] == "c" else self.granule(place[1])

    def judge_malloc(self, target, before, reply):
        if reply == "nospace":
            return self.come(("c", target), None)
        base, top = (int(word, 16) for word in reply.split()[1:3])
        self.owners = {**self.owners, (base, top): self.line}
        names = [place for place, (word, tag) in before.items() if tag and place != ("c", target) and self.of[place] in self.freed and word.base < top and base < word.top]
        if names:
            self.harm = {"kind": "shared", "names": sorted(self.name(place) for place in names), "freed": {self.freed[self.of[place]] for place in names}}
        return self.come(("c", target), self.line)

    def judge_access(self, name, register):
        own = self.of.get(("c", register))
        if own not in self.freed:
            return
        address = self.registers[register][0].address
        owner = next((line for (base, top), line in self.owners.items() if base <= address < top), None)
        kind = "nobody" if owner is None else "read" if name == "loadcap" else "written"
        self.harm = {"kind": kind, "names": [f"c{register}"], "freed": self.freed[own], "owner": owner}

    @staticmethod
    def name(place):
        return f"c{place[1]}" if place[0] == "c" else f"{place[1]:#x}"


def random_trace(seed):
    chance = random.Random(seed)
    pages = chance.choice([1, 2, 16])

    def register():
        return f"c{chance.choice([1, 1, 2, 2, 3, 4, 5, 6, 0])}"

    def address():
        return 0x40000000 + 16 * chance.randrange(20) + chance.choice([0, 0, 0, 8, 4096, 0x100000])

    lines = [f"heap 0x40000000 {pages}"]
    for _ in range(COMMANDS):
        name = chance.choice(["malloc"] * 4 + ["free"] * 3 + ["copy", "copy", "setaddr", "narrow", "andperm", "storecap", "storecap", "loadcap", "loadcap", "write", "show", "sweep", "begin", "end"])
        operands = {"malloc": lambda: [register(), chance.choice(SIZES)], "copy": lambda: [register(), register()], "setaddr": lambda: [register(), register(), hex(address())],
                    "narrow": lambda: [register(), register(), chance.choice([0, 8, 16, 16, 32])], "andperm": lambda: [register(), register(), chance.choice(["0x3d", "0x5", "0xffff"])],
                    "storecap": lambda: [register(), register()], "loadcap": lambda: [register(), register()], "write": lambda: [register(), f"{chance.getrandbits(128):032x}"]}
        lines.append(" ".join(map(str, [name, *operands.get(name, lambda: [] if name in ("sweep", "begin", "end") else [register()])()])))
    return "\n".join(lines) + "\n"


def command_of(text):
    name, *words = text.split()
    return name, [bytes.fromhex(word) if name == "write" and at else int(word[1:]) if word.startswith("c") else int(word, 0) for at, word in enumerate(words)]


def wanted_of(text):
    """What the data has of each command: reply, registers, tagged granules, blocks, and the harm."""
    state, steps = None, []
    for number, line in enumerate(text.split("\n"), 1):
        if not line or line.startswith("#"):
            continue
        if state is None:
            state = AtOnce(*(int(word, 0) for word in line.split()[1:]))
            continue
        reply = state.does(number, *command_of(line))
        state.owners = {block: line for block, line in state.owners.items() if block in state.live}
        steps.append((reply, [(word.bits, tag) for word, tag in state.registers], {at: (word.bits, tag) for at, (word, tag) in state.memory.items()},
                      set(state.live), state.harm))
    return steps


def seen_of(data):
    """The same, from the data."""
    registers, memory, blocks, steps = [(0, False)] * 32, {}, set(), []
    rows = [json.loads(row) for row in data.split("\n") if row]
    base = int(rows[0]["heap"]["base"], 16)
    for row in rows[1:-1]:
        for cell in row["registers"]:
            registers[cell["r"]] = (int.from_bytes(bytes.fromhex(cell["word"]), "little"), cell["tag"])
        for cell in row["granules"]:
            memory[base + 16 * cell["i"]] = (int.from_bytes(bytes.fromhex(cell["word"]), "little"), cell["tag"])
        for block in row["blocks"]:
            key = (int(block["base"], 16), int(block["top"], 16))
            (blocks.discard if block["state"] == "free" else blocks.add)(key)
        steps.append((row["reply"], list(registers), dict(memory), set(blocks), row["harm"]))
    return steps, rows[-1]["end"]


def is_same_harm(seen, wanted):
    if wanted and wanted["kind"] == "shared":
        return seen and {**seen, "names": sorted(seen["names"])} == {**wanted, "freed": seen["freed"]} and seen["freed"] in wanted["freed"]
    return seen == wanted


def differs(text, data):
    """What the first step is that differs, or None."""
    wanted, (seen, end) = wanted_of(text), seen_of(data)
    for number, ((reply, registers, memory, blocks, harm), (told, cells, granules, lie, done)) in enumerate(zip(wanted, seen, strict=True)):
        at = {place: granules.get(place, (0, False)) for place in memory}
        if (reply, registers[1:], memory, blocks) != (told, cells[1:], at, lie) or not is_same_harm(done, harm):
            return number, (reply, harm), (told, done)
    _, registers, memory, blocks, _ = wanted[-1]
    tags = sum(tag for _, tag in registers) + sum(tag for _, tag in memory.values())
    sums = (sum(top - base for base, top in blocks), 0, tags)
    return None if sums == (end["live"], end["held"], end["tags"]) else ("end", sums, end)


def by_model(tests):
    """Traces, the lessons for a class among them, as Node answers by the page's own module."""
    if shutil.which("node") is None:
        print("skipped: what is handed out at once, by Node: no node")
        return
    texts = [random_trace(seed) for seed in range(TRACES)] + [(ROOT / f"examples/lesson_{name}/stdin").read_text() for name in CLASS]
    given = texts + [HEAP + text for text, _ in REFUSED]
    ran = subprocess.run(["node", ROOT / "testing/at_once.mjs", ROOT], input=json.dumps(given).encode(), stdout=subprocess.PIPE, check=True)
    answers = json.loads(ran.stdout)
    for text, answer in zip(texts, answers):
        tests.check(f"at once, {text.split(chr(10))[:2]}", differs(text, answer) if isinstance(answer, str) else answer, None)
    for (_, why), answer in zip(REFUSED, answers[len(texts) :]):
        tests.check("at once, what can't be shown", answer, {"error": why})
    kinds = {step[4]["kind"] for text in texts for step in wanted_of(text) if step[4]}
    tests.check("at once, each kind of harm comes", kinds, {"shared", "read", "written", "freed", "nobody"})


def in_browser(tests, browser):
    """The switch: in the address, by its key, by its box; its mark on the screen for a class too, and what it says."""
    mark = "return document.querySelector('#unproved').getClientRects().length > 0"
    box, last = "return document.querySelector('#at-once').checked", "document.querySelector('#last').click(); return document.querySelector('#what p:last-child').textContent"
    for name in CLASS:
        count = len([line for line in (ROOT / f"examples/lesson_{name}/stdin").read_text().split("\n") if line and not line.startswith("#")])
        tests.open(browser, f"#lesson={name}&at_once&step=1&present")
        tests.answered(browser, f"{name} without quarantine", count)
        tests.check(f"{browser.name}: {name} is marked", browser.value(mark), True)
        for way in ("", "&ask"):
            tests.open(browser, f"#lesson={name}&at_once&present{way}")
            cut = ("const told = document.querySelector('#told'), cut = []; for (let at = 1; at < %d; at++) { document.querySelector('#next').click();"
                   " if (told.scrollHeight > told.clientHeight + 1) cut.push(at); } return cut")
            tests.check(f"{browser.name}: {name} without quarantine{way}: all that is told is in sight", browser.value(cut % count), [])
        tests.open(browser, f"#lesson={name}&at_once&step=1&present")
        harm = browser.value("const all = []; for (let at = 1; at < %d; at++) { document.querySelector('#next').click(); all.push(document.querySelector('#what').textContent); } return all.some(text => text.includes('Harm: '))" % count)
        tests.check(f"{browser.name}: {name} does harm", harm, True)
    tests.open(browser)
    for text, told in TOLD:
        tests.set_text(browser, HEAP + text)
        tests.answered(browser, "a trace for harm", len(text.split("\n")))
        browser.value("if (!document.querySelector('#at-once').checked) document.querySelector('#at-once').click()")
        tests.wait(browser, f"'{told}' is told", f"{last}.endsWith({json.dumps(told)})")
    browser.value("document.activeElement.blur()")
    browser.key("q")
    tests.wait(browser, "the key goes back", "return !document.querySelector('#at-once').checked && document.querySelector('#unproved').hidden && !location.hash.includes('at_once')")
    browser.key("q")
    tests.wait(browser, "the key switches it on", "return document.querySelector('#at-once').checked && !document.querySelector('#unproved').hidden && location.hash.includes('at_once')")
    text, why = REFUSED[0]
    tests.set_text(browser, HEAP + text)
    tests.wait(browser, "what can't be shown is told", f"return document.querySelector('#said').textContent === {json.dumps(f'It can’t be shown without quarantine: {why}.')}")
    tests.check(f"{browser.name}: the switch goes back", browser.value(box), False)
