"""Capabilities, and a heap with its memory and registers, by the definitions of docs/DEFINITIONS.md: lists and dictionaries,
words looked at one by one, no care for speed, and nothing of the crates. What commands do here is done whatever a judge
would say, so that it can also be what a faulty allocator did."""

import functools

NULL_UPPER = 0x00001FFFFC018004
LOAD, STORE, LOAD_CAPABILITY, STORE_CAPABILITY = 4, 8, 16, 32
BLOCK_PERMISSIONS = 0x3D
REGISTERS = 32


def outward(base, top, bits):
    """The bounds rounded outward to multiples of this power of two."""
    return base >> bits << bits, -(-top >> bits) << bits


def exponent_for(base, top):
    """The least exponent that holds bounds of 4,096 bytes and more, when they are rounded."""
    exponent = 0
    while True:
        first, last = outward(base, top, exponent + 3)
        if last - first < 1 << exponent + 13:
            return exponent
        exponent += 1


class Word:
    """128 bits as memory has them, and what they mean, by the window in which both bounds lie."""

    def __init__(self, bits):
        self.bits = bits
        self.address = bits % 2**64
        self.upper = bits >> 64 ^ NULL_UPPER
        self.permissions = self.upper >> 48
        self.otype = self.upper >> 27 & 0x3FFFF
        self.take_bounds(self.upper >> 26 & 1, self.upper >> 14 & 0xFFF, self.upper & 0x3FFF)

    def take_bounds(self, internal, top, base):
        self.exponent = 0
        if internal:
            self.exponent = min(8 * (top % 8) + base % 8, 52)
            top, base = top - top % 8, base - base % 8
        carry = top < base % 4096
        top += 4096 * ((base // 4096 + carry + internal) % 4)
        length = 1 << self.exponent + 14
        start = (base // 2048 - 1) % 8 << self.exponent + 11
        self.low = self.address - (self.address - start) % length
        self.base = (self.low + ((base << self.exponent) - self.low) % length) % 2**64
        self.top = (self.low + ((top << self.exponent) - self.low) % length) % 2**65
        if self.exponent < 51 and ((self.top >> 63) - (self.base >> 63)) % 4 > 1:
            self.top ^= 2**64

    def keeps_bounds_at(self, address):
        return self.exponent >= 50 or (address - self.low) % 2**64 < 1 << self.exponent + 14

    def at(self, address):
        return word_of(self.bits >> 64 << 64 | address)

    def narrowed(self, base, top):
        """With these bounds, or the least around them that a word can hold."""
        upper = self.upper >> 27 << 27
        if top - base < 4096:
            upper |= top % 4096 << 14 | base % 16384
        else:
            exponent = exponent_for(base, top)
            first, last = outward(base, top, exponent + 3)
            upper |= 1 << 26 | ((last >> exponent) % 4096 + exponent // 8) << 14 | (first >> exponent) % 16384 + exponent % 8
        return word_of((upper ^ NULL_UPPER) << 64 | base)

    def masked(self, mask):
        upper = self.upper & ~(0xFFFF << 48) | (self.permissions & mask) << 48
        return word_of((upper ^ NULL_UPPER) << 64 | self.address)

    def allows(self, *permissions):
        return all(self.permissions & it for it in permissions)

    def has(self, address, length):
        """Whether so many bytes from an address on lie within the bounds."""
        return self.base <= address and address + length <= self.top

    def data(self):
        return self.bits.to_bytes(16, "little").hex()


@functools.lru_cache(maxsize=100_000)
def word_of(bits):
    return Word(bits)


def word_of_data(data):
    return word_of(int.from_bytes(data, "little"))


NULL = word_of(0)


def is_exact(base, top):
    """Whether a word can hold these bounds as they are."""
    narrowed = NULL.narrowed(base, top)
    return (narrowed.base, narrowed.top) == (base, top)


def capability(base, top):
    """What a register is given for a block."""
    return word_of(NULL.narrowed(base, top).bits | BLOCK_PERMISSIONS << 112)


def shape(size):
    """How long the least block of this size is, and of what its base is a multiple."""
    size = -(-max(1, size) // 16) * 16
    if size < 4096:
        return size, 16
    exponent = exponent_for(0, size)
    return outward(0, size, exponent + 3)[1], max(16, 1 << exponent + 3)


def overlapping(blocks, base, top):
    """Those of the blocks that share an address with these bytes, by their bases."""
    return sorted(it for it in blocks if it[0] < top and base < it[1])


def bytes_in(blocks):
    return sum(top - base for base, top in blocks)


class State:
    """A heap, its memory and its registers. A block is a pair of base and top; `live`, `waiting` and `painted` have of each
    what was done to it last, and `line` is the line that is done now."""

    def __init__(self, base, pages):
        self.base, self.top = base, base + 4096 * pages
        self.live, self.waiting, self.painted, self.is_open = {}, {}, {}, False
        self.memory, self.registers = {}, [(NULL, False)] * REGISTERS
        self.line = 0

    def held(self):
        return {**self.waiting, **self.painted}

    def put(self, register, word, tag):
        if register:
            self.registers[register] = (word, tag)

    def has_granule(self, address):
        return address % 16 == 0 and self.base <= address < self.top

    def granule(self, address):
        return self.memory.get(address, (NULL, False))

    # ---- passes

    def due(self, blocks, with_registers=True):
        """Where the tagged words are whose base lies in one of the blocks: registers by number, then granules by address."""

        def is_due(cell):
            return cell[1] and any(base <= cell[0].base < top for base, top in blocks)

        registers = [("register", number) for number, cell in enumerate(self.registers) if with_registers and is_due(cell)]
        return registers + [("granule", address) for address, cell in sorted(self.memory.items()) if is_due(cell)]

    def due_in(self, name):
        """The same for the pass that a command makes."""
        blocks = self.painted if name == "end" else self.waiting
        return self.due(blocks, with_registers=name != "begin")

    def cell(self, place):
        kind, number = place
        return self.registers[number] if kind == "register" else self.granule(number)

    def take(self, places):
        for place in places:
            kind, number = place
            cells = self.registers if kind == "register" else self.memory
            cells[number] = (self.cell(place)[0], False)
        return len(places)

    def sweep(self):
        if self.is_open:
            return "trap open"
        return self.swept(self.due_in("sweep"))

    def swept(self, places):
        """A sweep that takes these tags."""
        released, self.waiting = bytes_in(self.waiting), {}
        return f"cleared {self.take(places)} released {released}"

    def begin(self):
        if self.is_open:
            return "trap open"
        taken = self.take(self.due_in("begin"))
        self.painted, self.waiting, self.is_open = self.waiting, {}, True
        return f"cleared {taken}"

    def end(self):
        if not self.is_open:
            return "trap notopen"
        taken, released = self.take(self.due_in("end")), bytes_in(self.painted)
        self.painted, self.is_open = {}, False
        return f"cleared {taken} released {released}"

    # ---- a revoker's own steps

    def paint(self):
        if self.is_open:
            return "trap open"
        self.painted, self.waiting, self.is_open = self.waiting, {}, True
        return "ok"

    def untagged(self, is_meant):
        """Takes the tags that are due in the granules and registers that are meant."""
        return f"cleared {self.take([it for it in self.due(self.painted) if is_meant(it)])}"

    def visit(self, page):
        first = self.base + 4096 * page
        if not self.is_open:
            return "trap notopen"
        if first >= self.top:
            return "trap bounds"
        return self.untagged(lambda place: place[0] == "granule" and first <= place[1] < first + 4096)

    def untag(self, meant):
        kind, number = meant
        if not self.is_open:
            return "trap notopen"
        if kind == "granule" and not self.base <= number < self.top:
            return "trap bounds"
        if kind == "granule" and number % 16:
            return "trap align"
        return self.untagged(lambda place: place == meant)

    def release(self):
        if not self.is_open:
            return "trap notopen"
        if self.due(self.painted):
            return "trap left"
        released, self.painted, self.is_open = bytes_in(self.painted), {}, False
        return f"released {released}"

    # ---- blocks

    def hand_out(self, register, base, top):
        self.live[base, top] = f"handed out at line {self.line}"
        self.put(register, capability(base, top), True)

    def may_sweep(self):
        return not self.is_open and bool(self.waiting)

    def least_place(self, size):
        """Where a block of this size goes by the definition of a run, or None. It begins at the heap's base or after a block."""
        length, unit = shape(size)
        blocks = [*self.live, *self.waiting, *self.painted]
        for start in sorted([self.base, *(top for _, top in blocks)]):
            base = -(-start // unit) * unit
            if base + length <= self.top and not overlapping(blocks, base, base + length):
                return base, base + length
        return None

    def malloc(self, register, size):
        """As a run does it."""
        place, swept = self.least_place(size), ""
        if place is None and self.may_sweep():
            places = self.due_in("sweep")
            self.swept(places)
            place, swept = self.least_place(size), f" swept {len(places)}"
        if place is None:
            self.put(register, NULL, False)
            return f"nospace{swept}"
        self.hand_out(register, *place)
        return f"block {place[0]:#x} {place[1]:#x}{swept}"

    def free(self, register):
        word, tag = self.registers[register]
        block = (word.base, word.top)
        if not tag:
            return "trap tag"
        if block in self.held():
            return "trap freed"
        if block not in self.live:
            return "trap notblock"
        del self.live[block]
        self.waiting[block] = f"freed at line {self.line}"
        return f"held {block[1] - block[0]}"

    # ---- words

    def copy(self, target, source):
        self.put(target, *self.registers[source])
        return "ok"

    def setaddr(self, target, source, address):
        word, tag = self.registers[source]
        stays = word.keeps_bounds_at(address)
        self.put(target, word.at(address), tag and stays)
        return "cleared" if tag and not stays else "ok"

    def narrow(self, target, source, length):
        word, tag = self.registers[source]
        if not tag:
            return "trap tag"
        if length == 0:
            return "trap empty"
        if not word.has(word.address, length):
            return "trap bounds"
        if not is_exact(word.address, word.address + length):
            return "trap inexact"
        self.put(target, word.narrowed(word.address, word.address + length), True)
        return "ok"

    def andperm(self, target, source, mask):
        word, tag = self.registers[source]
        self.put(target, word.masked(mask), tag)
        return "ok"

    def access(self, authority, *permissions):
        """The trap of an access to the granule at a register's address, if any."""
        word, tag = self.registers[authority]
        if not tag:
            return "trap tag"
        if not word.allows(*permissions):
            return "trap perm"
        if not word.has(word.address, 16):
            return "trap bounds"
        return "trap align" if word.address % 16 else None

    def storecap(self, authority, source):
        stored = self.registers[source]
        trap = self.access(authority, STORE, *([STORE_CAPABILITY] if stored[1] else []))
        if trap:
            return trap
        self.memory[self.registers[authority][0].address] = stored
        return "ok"

    def loadcap(self, target, authority):
        trap = self.access(authority, LOAD)
        if trap:
            return trap
        word, tag = self.granule(self.registers[authority][0].address)
        self.put(target, word, tag and self.registers[authority][0].allows(LOAD_CAPABILITY))
        return "ok"

    def write(self, authority, data):
        trap = self.access(authority, STORE)
        if trap:
            return trap
        self.memory[self.registers[authority][0].address] = (word_of_data(data), False)
        return "ok"

    def show(self, source):
        word, tag = self.registers[source]
        return (
            f"tag {tag:d} address {word.address:#x} base {word.base:#x} top {word.top:#x}"
            f" perms {word.permissions:#x} type {word.otype:#x} exponent {word.exponent}"
        )

    def does(self, line, name, operands):
        """A command as a run does it, and its answer."""
        self.line = line
        return getattr(self, name)(*operands)
