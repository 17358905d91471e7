"""Three allocators that place blocks otherwise than at the least address, each with a quarantine and sweeps, and what they
tell of a random program: a log. Each also with a fault of the kind that real ones have."""

import random

from log_state import NULL, State, overlapping, shape

HEAP_BASE = 0x40000000
PAGES = [16, 64, 256, 1024]
SIZES = [0, 1, 16, 17, 33, 64, 100, 256, 1000, 4096, 4100, 5000, 12345, 40000]
REUSED = "what is freed is reused before the sweep"
REGISTERS_PASSED_OVER = "a sweep passes over registers"
HELD_IN_LIST = "the free list hands out a held block"
TOO_SHORT = "a block is a granule too short"
FAULTS = [REUSED, REGISTERS_PASSED_OVER, HELD_IN_LIST, TOO_SHORT]


class Classes:
    """Sizes by classes, each with a free list of its own; new blocks are cut from the end of the heap downwards."""

    def __init__(self, base, top, chance):
        self.base, self.end, self.free = base, top, {}

    @staticmethod
    def rounded(size):
        """The length of the least class that holds this size, each half as long again as the one before."""
        length, unit = shape(size)
        grown = 16
        while grown < length:
            grown += grown // 2 // 16 * 16 or 16
        return shape(grown)

    def place(self, size):
        length, unit = self.rounded(size)
        if self.free.get(length):
            base = self.free[length].pop()
            return base, base + length
        base = (self.end - length) // unit * unit
        if base < self.base:
            return None
        self.end = base
        return base, base + length

    def give(self, base, top):
        self.free.setdefault(top - base, []).append(base)


class NextFit:
    """Runs of free bytes in one list, which is searched on from where the last block was placed."""

    def __init__(self, base, top, chance):
        self.runs, self.at = [(base, top)], 0

    def place(self, size):
        length, unit = shape(size)
        for k in range(len(self.runs)):
            i = (self.at + k) % len(self.runs)
            base, top = self.runs[i]
            first = -(-base // unit) * unit
            if first + length <= top:
                self.runs[i : i + 1] = [it for it in ((base, first), (first + length, top)) if it[0] < it[1]]
                self.at = i
                return first, first + length
        return None

    def give(self, base, top):
        joined = []
        for first, last in sorted([*self.runs, (base, top)]):
            if joined and joined[-1][1] == first:
                first = joined.pop()[0]
            joined.append((first, last))
        self.runs, self.at = joined, self.at % len(joined)


class Buddies:
    """Powers of two, halved and joined again. A block has what it needs of the part that holds it, at its beginning."""

    def __init__(self, base, top, chance):
        self.base, self.free, self.taken, self.random = base, {}, {}, chance
        at = 0
        for order in reversed(range(4, 32)):
            while top - base - at >= 1 << order:
                self.free.setdefault(order, []).append(at)
                at += 1 << order

    def place(self, size):
        length, unit = shape(size)
        order = max(4, (max(length, unit) - 1).bit_length())
        larger = [it for it in self.free if it >= order and self.free[it]]
        if not larger:
            return None
        least = min(larger)
        at = self.free[least].pop(self.random.randrange(len(self.free[least])))
        for half in reversed(range(order, least)):
            self.free.setdefault(half, []).append(at + (1 << half))
        self.taken[self.base + at] = order
        return self.base + at, self.base + at + length

    def give(self, base, top):
        order, at = self.taken.pop(base), base - self.base
        while at ^ 1 << order in self.free.get(order, []):
            self.free[order].remove(at ^ 1 << order)
            at &= ~(1 << order)
            order += 1
        self.free.setdefault(order, []).append(at)


ALLOCATORS = [Classes, NextFit, Buddies]


class Run:
    """A random program of so many commands over an allocator. From the middle on that has the fault, if one is given, and
    what it does then is done. `broken` is the first line in which that shows, as the run itself knows it."""

    def __init__(self, kind, seed, count, fault=None):
        self.random = random.Random(seed)
        pages = self.random.choice(PAGES)
        self.state = State(HEAP_BASE, pages)
        self.allocator = kind(self.state.base, self.state.top, self.random)
        self.quarantine, self.painted = [], []
        self.lines, self.looks = [f"heap {HEAP_BASE:#x} {pages}"], 0
        self.count, self.fault, self.broken = count, fault, None
        steps = [self.malloc] * 8 + [self.free] * 6 + [self.look] + [self.sweep, self.begin, self.end]
        steps += [self.copy, self.set_address, self.narrow, self.mask, self.store, self.store, self.load, self.load] * 2
        steps += [self.show, self.write] * 2
        while self.commands() < count:
            self.random.choice(steps)()

    def text(self):
        return "\n".join([*self.lines, ""])

    def commands(self):
        return len(self.lines) - 1 - self.looks

    def has(self, fault):
        return self.fault == fault and self.commands() > self.count // 2

    def owner(self):
        """One of the registers that get new blocks. Other commands seldom write to them, so that few blocks are lost."""
        return self.random.randrange(1, 16)

    def target(self):
        return self.owner() if self.random.randrange(50) == 0 else self.random.choice([0, *range(16, 32)])

    def source(self):
        return self.owner() if self.random.randrange(3) else self.random.randrange(32)

    # ---- what is told

    def tell(self, asked, answer, is_right=True):
        self.lines.append(f"{asked} -> {answer}")
        if not is_right and self.broken is None:
            self.broken = len(self.lines)

    def does(self, text, name, *operands):
        """A command that has one answer, as the definition answers it."""
        answer = self.state.does(len(self.lines) + 1, name, operands)
        self.tell(text, answer)
        return answer

    def look(self):
        anywhere = self.state.base + 16 * self.random.randrange(256)
        address = self.random.choice([*self.state.memory, anywhere])
        word, tag = self.state.granule(address)
        self.tell(f"granule {address:#x}", f"{tag:d} {word.data()}")
        self.looks += 1

    # ---- blocks and passes, of which the allocator knows

    def place(self, size):
        return self.allocator.place(max(16, size // 16 * 16) if self.has(TOO_SHORT) else size)

    def give(self, blocks):
        for block in blocks:
            self.allocator.give(*block)

    def taken_by_sweep(self):
        """What a sweep of this allocator takes, and whether that is all that is due."""
        due = self.state.due_in("sweep")
        taken = [it for it in due if it[0] == "granule"] if self.has(REGISTERS_PASSED_OVER) else due
        return taken, taken == due

    def give_quarantine(self):
        self.give(self.quarantine)
        self.quarantine = []

    def malloc(self):
        register, size = self.owner(), self.random.choice(SIZES)
        word, tag = self.state.registers[register]
        if tag and (word.base, word.top) in self.state.live and self.random.randrange(40):
            # The program frees most of what it has, so that a run doesn't fill its heap.
            self.free(register)
        self.state.line = len(self.lines) + 1
        swept, is_right, place = "", True, None
        is_early = self.random.randrange(12) == 0
        if not is_early:
            place = self.place(size)
        if place is None and self.state.may_sweep():
            taken, is_right = self.taken_by_sweep()
            self.state.swept(taken)
            swept = f" swept {len(taken)}"
            self.give_quarantine()
        place = place or self.place(size)
        if place is None:
            self.state.put(register, NULL, False)
            self.tell(f"malloc c{register} {size}", f"nospace{swept}", is_right)
            return
        is_there = overlapping({**self.state.live, **self.state.held()}, *place)
        is_right = is_right and not is_there and place[1] - place[0] >= max(1, size)
        self.state.hand_out(register, *place)
        self.tell(f"malloc c{register} {size}", f"block {place[0]:#x} {place[1]:#x}{swept}", is_right)

    def free(self, register=None):
        register = register or self.source()
        word, _ = self.state.registers[register]
        if self.does(f"free c{register}", "free", register).startswith("held"):
            if self.has(REUSED):
                self.allocator.give(word.base, word.top)
            else:
                self.quarantine.append((word.base, word.top))

    def sweep(self):
        if self.state.is_open:
            self.does("sweep", "sweep")
            return
        taken, is_right = self.taken_by_sweep()
        self.tell("sweep", self.state.swept(taken), is_right)
        self.give_quarantine()

    def begin(self):
        is_open = self.state.is_open
        self.does("begin", "begin")
        if not is_open:
            self.painted, self.quarantine = self.quarantine, []
            if self.has(HELD_IN_LIST):
                self.give_painted()

    def end(self):
        is_open = self.state.is_open
        self.does("end", "end")
        if is_open:
            self.give_painted()

    def give_painted(self):
        self.give(self.painted)
        self.painted = []

    # ---- what a program does with its pointers

    def copy(self):
        target, source = self.target(), self.source()
        self.does(f"copy c{target} c{source}", "copy", target, source)

    def set_address(self):
        target, source = self.target(), self.source()
        address = self.state.registers[source][0].base + 16 * self.random.randrange(64) + self.random.choice([0] * 7 + [1])
        address %= 2**64
        self.does(f"setaddr c{target} c{source} {address:#x}", "setaddr", target, source, address)

    def mask(self):
        target, source, mask = self.target(), self.source(), self.random.choice([0x3D, 0x1D, 0x2D, 0x34, 0x38, self.random.getrandbits(16)])
        self.does(f"andperm c{target} c{source} {mask:#x}", "andperm", target, source, mask)

    def narrow(self):
        target, source, length = self.target(), self.source(), 16 * self.random.randrange(5)
        self.does(f"narrow c{target} c{source} {length}", "narrow", target, source, length)

    def store(self):
        authority, source = self.source(), self.source()
        self.does(f"storecap c{authority} c{source}", "storecap", authority, source)

    def load(self):
        target, authority = self.target(), self.source()
        self.does(f"loadcap c{target} c{authority}", "loadcap", target, authority)

    def show(self):
        source = self.source()
        self.does(f"show c{source}", "show", source)

    def write(self):
        authority, data = self.source(), self.random.randbytes(16)
        self.does(f"write c{authority} {data.hex()}", "write", authority, data)
