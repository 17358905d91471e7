"""Where the simulator places blocks: the same heap, so that a trace can be ended before one finds no place."""

GRANULE, PAGE = 16, 4096
MOST_PAGES = 1024
BASE = 0x40000000
SHORT = 1 << 12  # shorter bounds are held as they are


def unit_of(length):
    """The multiple at which bounds of this length have to begin and to end, so that a capability holds them."""
    unit = 8
    if length < SHORT:
        return 1
    while -(-length // unit) >= 1 << 10:
        unit *= 2
    return unit


def block_of(size):
    """The length of a block for so many bytes and the multiple at which it begins, both in granules."""
    unit = unit_of(size)
    length = -(-size // unit) * unit
    return max(1, -(-length // GRANULE)), max(1, unit // GRANULE)


def is_exact(base, top):
    """Whether a capability can hold these bounds as they are."""
    length, unit = top - base, 8
    if length < SHORT:
        return True
    while -(-top // unit) - base // unit >= 1 << 10:
        unit *= 2
    return base % unit == 0 and top % unit == 0


class Heap:
    """A row of granules, each free or not. Blocks are known by their first granule."""

    def __init__(self):
        self.taken = bytearray(MOST_PAGES * PAGE // GRANULE)
        self.live = {}  # how many granules
        self.waiting, self.painted = [], []
        self.live_granules = self.waiting_granules = 0
        self.is_open = False  # whether an epoch is
        self.top = 0  # the end of the highest block that there was
        # Between two passes no granule becomes free, so a place isn't looked for again where there was none.
        self.starts = {}

    def place(self, length, unit):
        """The least place for so many granules, or -1."""
        row = bytes(length)
        at = self.taken.find(row, self.starts.get((length, unit), 0))
        while at > 0 and at % unit:
            at = self.taken.find(row, -(-at // unit) * unit)
        self.starts[length, unit] = at if at >= 0 else len(self.taken)
        return at

    def hand_out(self, size):
        """The first granule of a new block, or -1 where it has no place."""
        length, unit = block_of(size)
        at = self.place(length, unit)
        if at >= 0:
            self.taken[at : at + length] = b"\1" * length
            self.live[at] = length
            self.live_granules += length
            self.top = max(self.top, at + length)
        return at

    def give_up(self, at):
        length = self.live.pop(at)
        self.live_granules -= length
        self.waiting_granules += length
        self.waiting.append((at, length))

    def release(self, blocks):
        for at, length in blocks:
            self.taken[at : at + length] = bytes(length)
        self.starts.clear()

    def sweep(self):
        self.release(self.waiting)
        self.waiting, self.waiting_granules = [], 0

    def begin(self):
        self.painted, self.waiting, self.waiting_granules, self.is_open = self.waiting, [], 0, True

    def end(self):
        self.release(self.painted)
        self.painted, self.is_open = [], False
