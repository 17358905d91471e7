"""What a page has to show, made from the bytes of a trace and from the data of ./heap_states by plain Python: the states,
the words and the comments. Nothing here is shared with the page: words are decoded by the corrections that
docs/DEFINITIONS.md names, where the page places them in a window."""

import json
import random
import re

NULL_METADATA = 0x00001FFFFC018004
NULL_WORD = "0" * 32
# A block's name on the page, and its colour in the light scheme and its pattern: all three tell its state.
NAMES = {"live": "live", "waiting": "held", "painted": "painted"}
COLOURS = {"live": "rgb(169, 220, 184)", "waiting": "rgb(217, 153, 46)", "painted": "rgb(202, 100, 81)"}
PATTERNS = {"live": None, "waiting": 'url("#waiting-pattern")', "painted": 'url("#painted-pattern")'}


# Traces of what no lesson has: edges of the address space, long blocks, blocks that come again in one command, every trap.
TRACES = {
    "again": ["heap 0x40000000 1", "malloc c1 4096", "storecap c1 c1", "free c1", "malloc c1 4096", "free c1", "malloc c2 4096",
              "free c2", "malloc c0 16", "sweep"],
    "high": ["heap 0xfffffffffffff000 1", "malloc c1 16", "malloc c2 4080", "free c2", "copy c3 c2", "setaddr c3 c3 5", "sweep", "malloc c4 0", "show c4"],
    "low": ["heap 0 64", "malloc c1 100000", "malloc c2 70000", "setaddr c3 c1 99999", "narrow c4 c1 65536", "free c1", "free c1", "sweep", "malloc c5 262144"],
    "epochs": ["heap 0x1000 2", "malloc c1 4096", "malloc c2 32", "storecap c1 c2", "end", "free c2", "begin", "begin", "sweep", "free c1", "malloc c3 8192",
               "storecap c1 c2", "end", "begin", "end", "begin"],
    "dirty": ["heap 0x10000 4", "malloc c1 32", "malloc c2 8192", "malloc c3 32", "malloc c4 4096", "write c2 " + "a0" * 16, "storecap c3 c0",
              "narrow c5 c1 16", "andperm c6 c3 0xdf", "storecap c6 c1", "setaddr c7 c3 0x12028", "storecap c7 c1", "storecap c1 c2", "end", "begin", "begin",
              "storecap c3 c0", "storecap c2 c1", "storecap c2 c1", "begin", "free c1", "end", "storecap c3 c3", "begin", "storecap c4 c3", "storecap c1 c3", "malloc c8 16", "end", "sweep", "end"],
    "rows": ["heap 0x1000 1", "malloc c1 32", "copy c2 c1", "andperm c4 c1 0x2d", "storecap c1 c2", "loadcap c2 c4", "show c1", "show c1", "show c1"],
    "past": ["heap 0x40000000 1", "malloc c1 16", "setaddr c2 c1 0x50000000", "setaddr c3 c2 0x60000000", "setaddr c4 c3 0x60000001", "setaddr c3 c3 0x40000004",
             "setaddr c0 c1 5", "show c0", "storecap c1 c2", "loadcap c0 c1", "loadcap c5 c1", "begin", "end", "sweep", "free c1", "begin", "malloc c6 4096",
             "end", "malloc c7 4096", "malloc c8 16", "free c7", "malloc c0 16"],
    "wide": ["heap 0x40000000 1024", "malloc c1 4096", "malloc c2 4080000", "malloc c3 4096", "malloc c4 64", "storecap c4 c3", "storecap c1 c2", "free c2",
             "malloc c5 64", "sweep", "malloc c6 32", "malloc c7 200000", "setaddr c8 c7 0x40010000", "narrow c8 c8 64", "storecap c8 c1", "setaddr c9 c7 0x40031e00", "narrow c9 c9 16", "copy c9 c7", "setaddr c9 c9 0x40020008",
             "free c7", "begin", "storecap c6 c6", "malloc c0 600000", "end", "malloc c1 4194304", "show c8"],
    "traps": ["heap 0x40000000 1", "show c9", "free c9", "malloc c1 48", "narrow c2 c1 0", "narrow c2 c1 49", "setaddr c2 c1 0x40000001",
              "loadcap c3 c2", "write c2 " + "0f" * 16, "free c2", "andperm c4 c1 0", "loadcap c5 c4", "storecap c4 c1", "free c4", "free c1", "copy c0 c1", "loadcap c0 c1"],
}


def hexadecimal(number):
    return f"{number:#x}"


def grouped(number):
    return f"{number:,}"


def luminance(colour):
    """The relative luminance of a colour as #rrggbb."""
    parts = [int(colour[at:at + 2], 16) / 255 for at in (1, 3, 5)]
    red, green, blue = (part / 12.92 if part <= 0.04045 else ((part + 0.055) / 1.055) ** 2.4 for part in parts)
    return 0.2126 * red + 0.7152 * green + 0.0722 * blue


def plural(count, word):
    return f"{grouped(count)} {word}{'' if count == 1 else 's'}"


class Word:
    """The 32 digits of a word, at its own address or at another one."""

    def __init__(self, text, address=None):
        number = int.from_bytes(bytes.fromhex(text), "little")
        self.text = text
        self.address = number % 2**64 if address is None else address
        self.stored = number // 2**64
        metadata = self.stored ^ NULL_METADATA
        self.permissions = metadata >> 48
        self.reserved = metadata >> 46 & 3
        self.flag = metadata >> 45 & 1
        self.type = metadata >> 27 & 0x3FFFF
        self.internal = metadata >> 26 & 1
        self.top_field = metadata >> 14 & 0xFFF
        self.base_field = metadata & 0x3FFF
        self.take_mantissas()
        self.take_bounds()

    def take_mantissas(self):
        self.exponent, self.base_mantissa, low = 0, self.base_field, self.top_field
        if self.internal:
            self.exponent = min(52, 8 * (self.top_field & 7) + (self.base_field & 7))
            self.base_mantissa &= ~7
            low &= ~7
        carry = low < self.base_mantissa & 0xFFF
        self.top_mantissa = ((self.base_mantissa >> 12) + carry + self.internal) % 4 << 12 | low

    def take_bounds(self):
        """By the upper bits of the address and of the mantissas, each before or behind where the window begins."""
        exponent, edge = self.exponent, ((self.base_mantissa >> 11) - 1) % 8
        high, address_is_early = self.address >> exponent + 14, (self.address >> exponent + 11) % 8 < edge

        def place(mantissa):
            is_early = mantissa >> 11 < edge
            return (high + is_early - address_is_early << exponent + 14) + (mantissa << exponent)

        self.low = (high - address_is_early << exponent + 14) + (edge << exponent + 11)
        self.base = place(self.base_mantissa) % 2**64
        top = place(self.top_mantissa)
        if exponent >= 51:
            self.top = top % 2**65
        else:
            both = top % 2**64, top % 2**64 + 2**64
            self.top = next(each for each in both if ((each >> 63) - (self.base >> 63)) % 4 <= 1)

    def bounds(self):
        return self.base, self.top

    def keeps_bounds_at(self, address):
        return Word(self.text, address).bounds() == self.bounds()


def random_words(count, seed):
    """Words of every shape with an address to try, most of them near an edge of the window or of the address space."""
    chance = random.Random(seed)
    for _ in range(count):
        metadata, address = chance.getrandbits(64), chance.getrandbits(64)
        if chance.random() < 0.7:
            exponent = chance.choice((0, 1, 5, 40, 49, 50, 51, 52, 63, chance.randrange(64)))
            metadata = metadata & ~(1 << 26 | 7 << 14 | 7) | chance.randrange(2) << 26 | exponent // 8 << 14 | exponent % 8
            address = chance.choice((0, 2**64 - 1, address, address % 2**20, 2**63 + address % 256))
        text = (((metadata ^ NULL_METADATA) << 64) + address).to_bytes(16, "little").hex()
        word = Word(text)
        near = chance.choice((word.low, word.low + (1 << word.exponent + 14), word.base, word.top, address)) + chance.randrange(-3, 4)
        yield word, chance.choice((near % 2**64, chance.getrandbits(64)))


def shown(raw):
    """Bytes of a trace as the page shows them."""
    text = raw.decode("utf-8", "replace")
    return "".join(chr(0x2400 + ord(c)) if c < " " and c not in "\t\n\r" else "\u2421" if c == "\x7f" else c for c in text)


class Trace:
    """The lines of a trace that count, each with its number, its text and the notes before it."""

    def __init__(self, raw):
        self.raw, self.counted, notes, last = raw, [], [], None
        for number, line in enumerate(raw.split(b"\n"), 1):
            line = line.strip(b" \t\r")
            if line.startswith(b"#"):
                comment = shown(line.lstrip(b"#").strip(b" \t\r"))
                if last == number - 1:
                    notes[-1] += " " + comment
                else:
                    notes.append(comment)
                last = number
            elif line:
                self.counted.append((number, shown(line), [note for note in notes if note]))
                notes, last = [], None
        self.after = [note for note in notes if note]
        everything = [note for *_, of in self.counted for note in of] + self.after
        self.title = re.sub(r"\.(\s.*)?\Z", "", everything[0], count=1, flags=re.S) if everything else self.counted[0][1]


class State:
    def __init__(self, before=None, base=0):
        self.base = before.base if before else base
        self.registers = dict(before.registers) if before else {}
        self.granules = dict(before.granules) if before else {}
        self.blocks = dict(before.blocks) if before else {}
        self.born = dict(before.born) if before else {}
        self.dirty = set(before.dirty) if before else set()
        self.open = before.open if before else False

    def register(self, number):
        return self.registers.get(number, (False, NULL_WORD))

    def granule(self, number):
        return self.granules.get(number, (False, NULL_WORD))

    def block_of(self, address):
        return next((block for block in self.blocks if block[0] <= address < block[1]), None)

    def name(self, block):
        """A block by the line of its malloc, and the size that this asked for."""
        line, size = self.born[block]
        return f"line {line} ({plural(size, 'byte')})"

    def sums(self):
        """The bytes that are live and held, and the tags in memory and in registers."""
        length = {True: 0, False: 0}
        for (base, top), of in self.blocks.items():
            length[of == "live"] += top - base
        return length[True], length[False], sum(tag for cells in (self.registers, self.granules) for tag, _ in cells.values())

    def after(self, value):
        state = State(self)
        name, *words = value["text"].split()
        state.registers.update({entry["r"]: (entry["tag"], entry["word"]) for entry in value["registers"]})
        state.granules.update({entry["i"]: (entry["tag"], entry["word"]) for entry in value["granules"]})
        for entry in value["blocks"]:
            block = int(entry["base"], 16), int(entry["top"], 16)
            if entry["state"] == "free":
                del state.blocks[block]
            else:
                state.blocks[block] = entry["state"]
                if entry["state"] == "live":
                    state.born[block] = value["line"], int(words[1], 16 if words[1][1:2] in "xX" and len(words[1]) > 1 else 10)
        if not value["reply"].startswith("trap"):
            state.mark(name, [self.register(int(word[1:])) for word in words if re.fullmatch("c[0-9]+", word)])
        return state

    def mark(self, name, cells):
        """The epoch, and the dirty pages by their rule, where the command isn't trapped."""
        if name in ("begin", "end"):
            self.open = name == "begin"
        if name == "begin":
            self.dirty = set()
        if name == "storecap" and cells[1][0]:
            self.dirty.add((Word(cells[0][1]).address - self.base) // 4096)


class Run:
    """The states of a run, before and after each step; step 0 is the heap's line."""

    def __init__(self, raw, data):
        self.trace = Trace(raw)
        values = [json.loads(line) for line in data.splitlines()]
        self.base, self.pages = int(values[0]["heap"]["base"], 16), values[0]["heap"]["pages"]
        self.values = [{"text": "heap", "reply": "", "registers": [], "granules": [], "blocks": []}, *values[1:-1]]
        self.end = values[-1]["end"]
        self.states = [State(base=self.base)]
        for value in self.values[1:]:
            self.states.append(self.states[-1].after(value))
        self.written = sorted({entry["r"] for value in self.values for entry in value["registers"]})
        reach = max([(block[1] - self.base) // 16 for state in self.states for block in state.blocks], default=4)
        self.used = min(256 * self.pages, max(16, 1 << (reach - 1).bit_length()))

        self.folds = self.pages_left_out(reach)

    def pages_left_out(self, reach):
        """From the first up to the end of each 8 pages or more in a row, before the last one that is used, that have no end of a block, no granule
        that is written, and neither an end of the bounds nor the address of a word."""
        last, cells = reach - 1 >> 8, [entry for value in self.values for entry in (*value["registers"], *value["granules"])]
        blocks = {(int(entry["base"], 16), int(entry["top"], 16)) for value in self.values for entry in value["blocks"]}
        words = [Word(text) for text in {entry["word"] for entry in cells}]
        addresses = {address for low, high in (*blocks, *map(Word.bounds, words)) for address in (low, high - 1)} | {word.address for word in words}
        pages = {(address - self.base) // 4096 for address in addresses} | {entry["i"] // 256 for entry in cells if "i" in entry}
        edges = sorted({-1, last, *(page for page in pages if 0 <= page < last)})
        return [(one + 1, other) for one, other in zip(edges, edges[1:]) if other - one > 8]

    def before(self, index):
        return self.states[max(index - 1, 0)]

    def sides(self, index):
        """From where a pass can be looked at, with the state there and what is told of it: a malloc that sweeps has one more side."""
        if self.taken(index) is None:
            return {}
        if self.values[index]["text"].split()[0] != "malloc":
            return {"before": self.before(index), "after": self.states[index]}
        return {"before": self.before(index), "between": self.between(index), "after": self.states[index]}

    def between(self, index):
        """Of a malloc that swept: the tags are taken and the blocks that waited are free, and nothing else has changed."""
        state = State(self.before(index))
        for kind, number, *_ in self.taken(index):
            cells = getattr(state, kind + "s")
            cells[number] = (False, cells[number][1])
        state.blocks = {block: of for block, of in state.blocks.items() if of == "live"}
        return state

    def changes(self, index, kind):
        """What differs from the state before, found by comparing both."""
        old, new = getattr(self.before(index), kind), getattr(self.states[index], kind)
        return sorted(place for place in {*old, *new} if old.get(place, (False, NULL_WORD)) != new.get(place, (False, NULL_WORD)))

    def registers_used(self, index):
        """The registers that a command names, but for the one that it is to write."""
        name, *words = self.values[index]["text"].split()
        words = words[name in ("malloc", "copy", "setaddr", "narrow", "andperm", "loadcap"):]
        return {int(word[1:]) for word in words if re.fullmatch("c[0-9]+", word)}

    def looked(self, index):
        """The pages at which the end of an epoch looks."""
        is_end = self.values[index]["text"] == "end" and self.taken(index) is not None
        return sorted(self.before(index).dirty) if is_end else []

    def changed_at(self, kind, place):
        """The steps after which a register or a granule differs, or the block that has a granule or had it."""
        if kind != "block":
            return [index for index in range(1, len(self.states)) if place in self.changes(index, kind + "s")]
        address, steps = self.base + 16 * place, []
        for index in range(1, len(self.states)):
            old, new = self.before(index), self.states[index]
            pairs = [(block, state.blocks[block]) for state in (old, new) for block in [state.block_of(address)] if block]
            if pairs and (len(pairs) == 1 or pairs[0] != pairs[1]):
                steps.append(index)
        return steps

    def taken(self, index):
        """Each tag that the step took: its place as the page names it, its word before, and the block with its base."""
        told, old = self.values[index].get("taken"), self.before(index)
        if told is None:
            return None
        rows = [("register", number, f"c{number}", old.register(number)) for number in told["registers"]]
        rows += [("granule", number, hexadecimal(self.base + 16 * number), old.granule(number)) for number in told["granules"]]
        return [(kind, number, name, tag, Word(word), old.block_of(Word(word).base)) for kind, number, name, (tag, word) in rows]

    def followed(self, index):
        """What the inspector shows where it follows the trace."""
        if index == 0:
            return None
        value, taken = self.values[index], self.taken(index)
        names = [word for word in value["text"].split()[1:] if re.fullmatch("c[0-9]+", word)]
        if value["granules"] and taken is None:
            return "granule", value["granules"][0]["i"]
        if value["registers"]:
            return "register", value["registers"][0]["r"]
        if taken:
            return taken[0][0], taken[0][1]
        if names:
            return "register", int(names[1 if value["text"].split()[0] in ("narrow", "loadcap") else 0][1:])
        return self.followed(index - 1)


def text_of(word):
    """The bytes of a word as text, with a dot for each that is no printable one of ASCII."""
    return "".join(chr(byte) if 32 <= byte < 127 else "·" for byte in bytes.fromhex(word))


def block_key(block):
    return f"{hexadecimal(block[0])} {hexadecimal(block[1])}"


def full_trace():
    """A trace that fills 64 pages with 16,384 blocks, of which every sixth holds a capability, and then sweeps."""
    lines = ["heap 0x40000000 64"]
    for number in range(16384):
        lines.append(f"malloc c{number % 24 + 1} 16")
        if number % 6 == 5:
            lines.append(f"storecap c{number % 24 + 1} c{(number + 7) % 24 + 1}")
    lines += [f"free c{number}" for number in range(1, 25)]
    lines += ["free c3", "begin", "storecap c5 c5", "end", "malloc c2 48", "malloc c9 4096", "sweep"]
    return "\n".join(lines).encode() + b"\n"


def random_trace(commands, pages, seed):
    """A trace of so many commands that ends with many blocks, held ones too, and many tags in memory: work for the stopwatch."""
    chance, lines, count = random.Random(seed), [f"heap 0x40000000 {pages}"], 0
    while count < commands:
        one, other, choice = chance.randrange(1, 25), chance.randrange(1, 25), chance.random()
        if choice < 0.45:
            more = [f"malloc c{one} {chance.choice((16, 32, 48, 64, 160))}"]
        elif choice < 0.65:
            more = [f"storecap c{one} c{other}", f"free c{one}"]
        elif choice < 0.8:
            more = [f"storecap c{one} c{other}"]
        elif choice < 0.9:
            more = [f"write c{one} {chance.getrandbits(128):032x}"]
        elif choice < 0.998:
            lines.append(f"# What c{one} points to, if it has a tag.")
            more = [f"loadcap c{other} c{one}"]
        else:
            more = ["sweep"]
        lines += more[: commands - count]
        count += len(more)
    return "\n".join(lines).encode() + b"\n"
