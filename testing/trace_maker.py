"""Makes traces from a seed, for scripts that try programs on them: all commands and all faults, the edges of numbers, of a
capability's window and of the heap, all blanks, and bytes that are no text."""

import random

# The most bytes of a trace.
LIMIT = 4_194_304
# Edges of numbers: of granules, of lengths that round up, of pages, of 64 bits.
EDGES = [0, 1, 15, 16, 17, 31, 32, 33, 4079, 4080, 4095, 4096, 4097, 4111, 4112, 8191, 8192, 131056, 2**32, 2**63, 2**64 - 4096, 2**64 - 1]
# Edges of the window of a block of less than 4,096 bytes, from its base on.
WINDOW = [-0x801, -0x800, -0x7FF, 0x37FE, 0x37FF, 0x3800]
HEAPS = [(0x40000000, 1), (0x40000000, 7), (0x40000000, 20), (0x1000, 64), (0, 9), (2**63 - 4096, 12), (2**64 - 4096, 1), (2**64 - 17 * 4096, 17), (0x40000000, 1024)]
NAMES = ["malloc", "copy", "setaddr", "narrow", "andperm", "storecap", "loadcap", "write", "show", "free", "sweep", "begin", "end"]
WEIGHTS = [20, 6, 8, 6, 3, 8, 8, 4, 4, 8, 3, 3, 3]


class Maker:
    """Makes a trace. Its registers are few, and a source is mostly one that a block's capability was put in."""

    def __init__(self, seed):
        self.random = random.Random(seed)
        self.base, self.pages = self.random.choice(HEAPS)
        self.written = ["c1"]

    def one_in(self, n):
        return self.random.randrange(n) == 0

    def register(self):
        return f"c{self.random.randrange(32) if self.one_in(8) else self.random.randrange(7)}"

    def source(self):
        return self.register() if self.one_in(5) else self.random.choice(self.written)

    def target(self):
        """A register that a capability is put in."""
        register = self.register()
        self.written = [*self.written[-5:], register]
        return register

    def number(self, value):
        """A number below 2^64, in one of its forms."""
        value %= 2**64
        digits = f"{value:X}" if self.one_in(4) else f"{value:x}"
        forms = [str(value), f"0x{digits}", str(value).rjust(20, "0"), f"0x{digits.rjust(16, '0')}"]
        return self.random.choices(forms, [6, 6, 1, 1])[0]

    def size(self):
        near = self.random.choice([1, 16, 16, 32, 32, 48, 64, 100, 512, 4000, 5000, 20000])
        return self.number(self.random.choice(EDGES) if self.one_in(8) else near)

    def address(self):
        kind = self.random.randrange(10)
        if kind == 0:
            return self.number(self.random.choice(EDGES))
        if kind == 1:
            return self.number(self.random.getrandbits(64))
        if kind < 5:
            return self.number(self.base + 16 * self.random.randrange(40) + self.random.choice(WINDOW))
        if kind == 5:
            return self.number(self.base + 4096 * self.pages + self.random.randrange(-33, 34))
        return self.number(self.base + self.random.choice([1, 16, 16, 16]) * self.random.randrange(64))

    def mask(self):
        return self.number(self.random.choice([0, 0x3D, 0xFFFF, 0x10, 0x20, 4, 8, self.random.getrandbits(16)]))

    def data(self):
        return self.random.getrandbits(128).to_bytes(16, "big").hex()

    def operands(self, name):
        source, target = self.source, self.target
        return {
            "malloc": lambda: [target(), self.size()],
            "copy": lambda: [target(), source()],
            "setaddr": lambda: [target(), source(), self.address()],
            "narrow": lambda: [target(), source(), self.size()],
            "andperm": lambda: [target(), source(), self.mask()],
            "storecap": lambda: [source(), source()],
            "loadcap": lambda: [target(), source()],
            "write": lambda: [source(), self.data()],
            "show": lambda: [source()],
            "free": lambda: [source()],
            "sweep": lambda: [],
            "begin": lambda: [],
            "end": lambda: [],
        }[name]()

    def words(self):
        name = self.random.choices(NAMES, WEIGHTS)[0]
        return [name, *self.operands(name)]

    def line(self, words):
        """The words with blanks of all kinds between, before and after them."""
        if not self.one_in(5):
            return " ".join(words).encode()
        blank = lambda least: "".join(self.random.choices(" \t\r", k=self.random.randrange(least, 4)))
        return (blank(0) + "".join(word + blank(1) for word in words[:-1]) + words[-1] + blank(0)).encode()

    def comment(self):
        return self.random.choice([b"", b" \t\r", b"#", b"# \xff\x00\xfe sweep", b"\r# malloc c1", b"#" * 300])

    def wrong_heap(self):
        forms = [["heap", "0x40000008", "1"], ["heap", "0x40000000", "0"], ["heap", "0x40000000", "1025"], ["heap", self.number(2**64 - 4096), "2"],
                 ["heap", "0x40000000"], ["heap", "0x40000000", "1", "1"], ["heap", "c1", "1"], ["Heap", "0x40000000", "1"], ["sweep"]]
        return self.line(self.random.choice(forms))

    def wrong_line(self):
        words = self.words()
        kind = self.random.randrange(8)
        if kind == 0:
            words[0] = self.random.choice([words[0].upper(), words[0] + "s", words[0][:-1], "heap", "\u00e9"])
        elif kind == 1:
            words.append(self.random.choice(["c1", "#", "0"]))
        elif kind == 2 and len(words) > 1:
            words.pop()
        elif kind < 5 and len(words) > 1:
            at = self.random.randrange(1, len(words))
            words[at] = self.random.choice(["c32", "c01", "C1", "c", "1c", "x"])
        elif len(words) > 2:
            words[-1] = self.random.choice(["18446744073709551616", "0x", "0x00000000000000001", "-1", "65536", "1_0", "0" * 21, "00" * 15, "0g" * 16])
        line = self.line(words)
        return line.replace(b"c", b"\xff", 1) if self.one_in(8) else line

    def text(self):
        kind = self.random.randrange(100)
        if kind == 0:
            return self.random.randbytes(self.random.randrange(200))
        if kind == 1:
            return b"heap 0x40000000 1\n#" + b"x" * (LIMIT - 19 + self.random.randrange(2))
        lines = [self.comment() for _ in range(self.random.randrange(3))]
        lines.append(self.wrong_heap() if kind < 5 else self.line(["heap", self.number(self.base), self.number(self.pages)]))
        for _ in range(self.random.choice([3, 20, 60, 300])):
            lines.append(self.comment() if self.one_in(12) else self.line(self.words()))
        if kind < 20:
            lines.insert(self.random.randrange(len(lines)) + 1, self.wrong_line())
        return b"\n".join(lines) + self.random.choice([b"", b"\n"])


def trace(seed, number):
    return Maker(f"{seed} {number}").text()
