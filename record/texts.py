"""The texts that heap_record makes of a record: a trace for heap_tool, or a log for heap_check."""

import collections
import dataclasses

from calls import FREED, MOVED
from placement import BASE, GRANULE, MOST_PAGES, PAGE, Heap, block_of, is_exact

HEAP_BYTES = MOST_PAGES * PAGE
# A table has a quarter of the heap at most.
MOST_SLOTS = HEAP_BYTES // GRANULE // 4
# After so many calls of the program an epoch ends.
EPOCH_CALLS = 20
# Blocks of a log are moved by a multiple of this, which leaves each bound that fits into the heap as exact as it was.
STEP = 1 << 13
MOST_TITLE = 200
MOST_LAST = 600  # bytes of the last comment
# A block of so many bytes may be left out by its size.
LARGE = 1 << 16


@dataclasses.dataclass
class Options:
    is_log: bool = False
    is_cheri: bool = False
    has_epochs: bool = False
    clears: bool = False
    sweep_at: int = 25  # per cent
    at_most: int = 1 << 64  # bytes of a block
    commands: int = 1 << 64


class Full(Exception):
    """The text ends before this call; why."""


class NoPlace(Full):
    """The same, since the heap has no place for a block."""


class TooFar(NoPlace):
    """The same, since a block and those before it have no place in one heap: its call, its size and its address."""


def counted(count, one):
    return f"{count:,} {one}{'' if count == 1 else 's'}"


def title_of(words):
    """The words of a command as a comment's text: printable, and not too long."""
    text = "".join(it if " " <= it <= "~" else "?" for it in " ".join(words))
    return text if len(text) <= MOST_TITLE else text[: MOST_TITLE - 3] + "..."


def freed_again(record):
    """The calls, counted from 0, that give up a block which is freed once more before its address is handed out again."""
    live, last, again = {}, {}, set()
    for call, (kind, size, block, old) in enumerate(record):
        if old and (block or not size):  # a realloc that failed leaves its block
            if live.get(old):
                live[old] -= 1
            elif old in last:
                again.add(last[old])
            last[old] = call
        if block:
            live[block] = live.get(block, 0) + 1
            last.pop(block, None)
    return again


class Text:
    """A text to which whole calls are added. A block is known by its address, and its pointer by its slot in the table. What the
    allocator did goes in as it came: a block that is handed out while it is live has two pointers, and is freed twice."""

    every, longest = 1, 0  # how often the number of a call is told, and how many bytes a text may have

    def __init__(self, record, options, slots, again):
        self.options, self.slots, self.again = options, max(1, slots), again
        self.began_late = record.programs == 0 or record.is_blind  # whether there were blocks before the first call
        self.head = [f"# {title_of(record.words)}", "# " + self.about()]
        self.free_slots = list(range(self.slots - 1, -1, -1))
        self.blocks = {}  # address: the slot and the place of each block that is live there, the last one last; None where it is left out
        self.stale = {}  # address: the same of a block that was freed and is freed again
        self.lines, self.added = [], []
        # the longest line of a heap has room, the longest number of bytes of a table, and the last comment
        self.bytes = sum(map(len, self.head)) + 2 + len(f"heap {BASE:#x} {MOST_PAGES}\n") + len(str(GRANULE * MOST_SLOTS)) - len(str(GRANULE * self.slots)) + MOST_LAST
        self.commands = self.calls = self.pages = 0
        self.slots_now = self.most_slots = 0  # most at once: with this call, and of those that were added
        self.counts, self.counted = collections.Counter(), []  # what the calls that were added did, and what this one does
        self.ended = None  # the Full that ended it
        self.last = None  # its last comment

    def slot(self):
        if not self.free_slots:
            raise Full(f"more than {self.slots:,} pointers are kept at once")
        self.slots_now = max(self.slots_now, self.slots - len(self.free_slots) + 1)
        return self.free_slots.pop()

    def address(self, slot):
        return BASE + GRANULE * slot

    def add_all(self, record):
        """Adds calls up to the last that fits."""
        for kind, size, block, old in record:
            try:
                self.call(kind, size, block, old)
                self.commit()
            except Full as why:
                self.ended = why
                return
            self.calls += 1
            if self.counted:
                self.counts.update(self.counted)
                self.counted.clear()

    def count(self, what):
        self.counted.append(what)

    def call(self, kind, size, block, old):
        if kind == FREED or (kind == MOVED and not block and not size):
            self.take_back(old)
        elif not block:
            self.fail(size)
        elif kind == MOVED:
            self.move(size, block, old)
        else:
            self.hand_out(size, block)

    def commit(self):
        """Takes over what a call added, where it fits as a whole."""
        if not self.added:
            return
        commands = len(self.added)
        if self.lines and (self.calls + 1) % self.every == 0:
            self.added.insert(0, f"# call {self.calls + 1}")
        more = sum(map(len, self.added)) + len(self.added)
        if self.bytes + more > self.longest:
            raise Full(f"its text would have more than {self.longest:,} bytes")
        if self.commands + commands > self.options.commands:
            raise Full(f"it has {self.options.commands:,} commands at most")
        self.lines += self.added
        self.added = []
        self.bytes += more
        self.commands += commands
        self.most_slots = self.slots_now
        self.pages = self.pages_now()

    def hand_out(self, size, block):
        if block in self.blocks:
            self.count("doubled")
        if size > self.options.at_most:
            self.count("left_out")
            known = None
        else:
            known = self.new(size, block)
        self.blocks.setdefault(block, []).append(known)

    def removed(self, block):
        """Removes a block that is given up: how to tell of it, and what is known of it."""
        if owners := self.blocks.get(block):
            known = owners.pop()
            if not owners:
                del self.blocks[block]
            return self.give_up, known
        if block in self.stale:
            self.count("twice")
            return self.give_up_again, self.stale.pop(block)
        if self.began_late:
            self.count("inherited")
            return self.give_up, None
        self.count("strays")
        return self.give_up_none, None

    def tell_of(self, block, tell, known):
        """Tells of a block that was given up. Its slot keeps a pointer that is freed again."""
        if known or tell != self.give_up:
            tell(block, *(known or ()))
        if self.calls in self.again and tell != self.give_up_none:
            self.stale[block] = known
        elif known:
            self.free_slots.append(known[0])

    def take_back(self, block):
        self.tell_of(block, *self.removed(block))

    def move(self, size, block, old):
        """A realloc is a new block, and a free of the old one."""
        was = self.removed(old)
        self.hand_out(size, block)
        self.tell_of(old, *was)

    def written(self):
        """The whole text."""
        return "\n".join([*self.head, f"heap {BASE:#x} {self.pages}", *self.lines, *([f"# {self.last}"] if self.last else []), ""])


class Trace(Text):
    """The simulator places the blocks, and answers what is freed again, or is no block, with a trap."""

    every, longest = 100, 4_194_304

    def __init__(self, record, options, slots, again):
        super().__init__(record, options, slots, again)
        self.heap = Heap()
        self.heap.hand_out(GRANULE * self.slots)
        self.table = self.heap.live_granules
        self.begun = 0
        self.added.append(f"malloc c31 {GRANULE * self.slots}")
        self.commit()

    def about(self):
        passes = "begin and end of an epoch" if self.options.has_epochs else "a sweep"
        kept = "is cleared" if self.options.clears else "stays"
        return (f"Recorded by heap_record: pointers are kept in slots of the block of c31; {passes} where more than "
                f"{self.options.sweep_at} % of the live bytes wait; at a free the slot {kept}.")

    def pages_now(self):
        return -(-self.heap.top * GRANULE // PAGE)

    def call(self, kind, size, block, old):
        if self.heap.is_open and self.calls - self.begun >= EPOCH_CALLS:
            self.end()
        super().call(kind, size, block, old)
        due = self.heap.waiting_granules * 100 > self.options.sweep_at * (self.heap.live_granules - self.table)
        if due and self.options.has_epochs and not self.heap.is_open:
            self.added.append("begin")
            self.heap.begin()
            self.begun = self.calls
        elif due and not self.options.has_epochs:
            self.added.append("sweep")
            self.heap.sweep()

    def end(self):
        self.added.append("end")
        self.heap.end()

    def fail(self, size):
        self.count("failed")

    def place(self, size):
        """Where the simulator places the block; where it has no place, it sweeps by itself."""
        at = self.heap.hand_out(size)
        if at < 0 and self.heap.is_open:
            self.end()
            at = self.heap.hand_out(size)
        if at < 0 and self.heap.waiting:
            self.heap.sweep()
            at = self.heap.hand_out(size)
        if at < 0:
            raise NoPlace(f"a block of {counted(size, 'byte')} has no place in the heap of {HEAP_BYTES:,} bytes")
        return at

    def new(self, size, block):
        slot, at = self.slot(), self.place(size)
        self.added += [f"malloc c1 {size}", f"setaddr c2 c31 {self.address(slot):#x}", "storecap c2 c1"]
        return slot, at

    def free(self, slot):
        self.added += [f"setaddr c2 c31 {self.address(slot):#x}", "loadcap c1 c2", "free c1"]

    def give_up(self, block, slot, at):
        self.free(slot)
        if self.options.clears:
            self.added += ["storecap c2 c0", "copy c1 c0"]
        self.heap.give_up(at)

    def give_up_again(self, block, slot=None, at=None):
        if slot is None:
            self.give_up_none(block)
        else:
            self.free(slot)

    def give_up_none(self, block):
        self.added += [f"setaddr c1 c0 {block:#x}", "free c1"]


class Log(Text):
    """The blocks lie where the program's own allocator placed them, moved by `shift` so that they lie in the heap."""

    every, longest = 1, 16_777_216

    def __init__(self, record, options, slots, again, low):
        super().__init__(record, options, slots, again)
        table = block_of(GRANULE * self.slots)[0] * GRANULE
        # of each granule the calls that last handed it out, 0 where it isn't live, and that last freed it
        self.live_by, self.freed_by = [0] * (HEAP_BYTES // GRANULE), [0] * (HEAP_BYTES // GRANULE)
        self.first = None  # the first call that no safe allocator answers so, and what it does
        self.shift = low // STEP * STEP - (BASE + -(-table // STEP) * STEP)
        self.top = BASE + table
        self.added.append(f"malloc c31 {GRANULE * self.slots} -> block {BASE:#x} {self.top:#x}")
        self.commit()

    def about(self):
        asked = " asked as one for CHERI is," if self.options.is_cheri else ""
        return f"Recorded by heap_record: what the program's own allocator answered,{asked} moved as a whole; pointers are kept in slots of the block of c31."

    def pages_now(self):
        return -(-(self.top - BASE) // PAGE)

    def fail(self, size):
        self.count("failed")
        self.added.append(f"malloc c1 {size} -> nospace")

    def tell_first(self, told):
        self.first = self.first or (self.calls + 1, told)

    def bounds(self, size, block):
        """The bounds of a block, as granules; they have to be those of a capability, and lie in the heap."""
        length = block_of(size)[0] * GRANULE if self.options.is_cheri else max(1, -(-size // GRANULE)) * GRANULE
        base, top = block - self.shift, block - self.shift + length
        told = f"a block of {counted(size, 'byte')} at {block:#x}"
        if base % GRANULE:
            raise Full(f"{told} doesn't begin with a granule (--cheri asks for one that does)")
        if base < BASE or top > BASE + HEAP_BYTES:
            raise TooFar(self.calls + 1, size, block)
        if not is_exact(base, top):
            raise Full(f"{told} has bounds that no capability holds (--cheri asks for others, --at-most leaves out large blocks)")
        return base, top

    def granules(self, base, top):
        return slice((base - BASE) // GRANULE, (top - BASE) // GRANULE)

    def mark(self, by, bounds, call):
        granules = self.granules(*bounds)
        by[granules] = [call] * (granules.stop - granules.start)

    def move(self, size, block, old):
        """Where the block stays and its granules change, its old capability is given up before the new one is there."""
        if block != old:
            super().move(size, block, old)
            return
        known = self.blocks[old][-1] if old in self.blocks else None
        if known and size <= self.options.at_most:
            if self.bounds(size, block) == known[1]:
                return
            self.count("in_place")
        self.take_back(old)
        self.hand_out(size, block)

    def new(self, size, block):
        bounds = self.bounds(size, block)
        slot = self.slot()
        self.top = max(self.top, bounds[1])
        live_by, freed_by = (max(by[self.granules(*bounds)]) for by in (self.live_by, self.freed_by))
        if live_by:
            if block not in self.blocks:
                self.count("doubled")
            self.tell_first(f"get bytes of a live block, that of call {live_by:,}")
        elif freed_by:
            self.tell_first(f"get bytes that were freed, by call {freed_by:,}")
        self.mark(self.live_by, bounds, self.calls + 1)
        self.added += [f"malloc c1 {size} -> block {bounds[0]:#x} {bounds[1]:#x}", f"setaddr c2 c31 {self.address(slot):#x} -> ok", "storecap c2 c1 -> ok"]
        return slot, bounds

    def free(self, slot, bounds):
        self.added += [f"setaddr c2 c31 {self.address(slot):#x} -> ok", "loadcap c1 c2 -> ok", f"free c1 -> held {bounds[1] - bounds[0]}"]

    def give_up(self, block, slot, bounds):
        self.free(slot, bounds)
        self.mark(self.live_by, bounds, 0)
        self.mark(self.freed_by, bounds, self.calls + 1)

    def give_up_again(self, block, slot=None, bounds=None):
        if slot is None:
            self.give_up_none(block)
            return
        self.tell_first(f"free a block again, which call {max(self.freed_by[self.granules(*bounds)]):,} freed")
        self.free(slot, bounds)

    def give_up_none(self, block):
        """The allocator took it without a word: no bytes of the heap wait, and the pointer is one to no block."""
        self.tell_first("free what is no block")
        self.added += [f"setaddr c1 c0 {(block - self.shift) % (1 << 64):#x} -> ok", "free c1 -> held 0"]


def measured(record, options, again):
    """How many pointers are kept at once in what a text can have of the record, at most, and the lowest address of its blocks. A
    block takes three commands and 50 bytes, and in a log the blocks of a text lie near one another."""
    most = min((Log if options.is_log else Trace).longest // 50, options.commands // 3 + 1)
    live, kept, count, slots, low, high = {}, 0, 0, 0, 1 << 64, 0
    for call, (kind, size, block, old) in enumerate(record):
        if live.get(old) and (block or not size):
            live[old] -= 1
            kept -= call not in again
        if not block or size > options.at_most:
            continue
        if options.is_log and max(high, block + size) - min(low, block) > HEAP_BYTES:
            break
        live[block] = live.get(block, 0) + 1
        kept += 1
        low, high, count, slots = min(low, block), max(high, block + size), count + 1, max(slots, kept + 1)
        if count > most:
            break
    return min(slots, MOST_SLOTS), low if count else 0


def told_of_far(record, options, far):
    """Which of the blocks that have no place in one heap lies apart: the first that isn't where most of the run's blocks are."""
    handed = [(call, size, block) for call, (kind, size, block, old) in enumerate(record, 1) if block and size <= options.at_most]
    places = sorted(block for call, size, block in handed)
    start, most, low = 0, 0, 0
    for end, place in enumerate(places):
        while place - places[start] > HEAP_BYTES:
            start += 1
        if end - start >= most:
            most, low = end - start + 1, places[start]
    call, size, block = next((it for it in handed if not low <= it[2] <= low + HEAP_BYTES), far.args)
    if call > far.args[0]:
        call, size, block = far.args
    more = f"--at-most {size - 1} leaves it out" if size >= LARGE else "docs/REAL_PROGRAMS.md has what brings blocks together"
    return f"the block of {counted(size, 'byte')} at {block:#x}, of call {call:,}, lies too far from the others for a heap of {HEAP_BYTES:,} bytes ({more})"


def text_of(record, options):
    """The text of a record: its table has as many slots as the text needs."""
    again = freed_again(record)
    slots, low = measured(record, options, again)
    before = None
    while True:
        text = Log(record, options, slots, again, low) if options.is_log else Trace(record, options, slots, again)
        text.add_all(record)
        if before and before.calls == text.calls:  # what ended it is no want of slots
            text.ended = before.ended
        if text.slots <= max(1, text.most_slots) or isinstance(text.ended, NoPlace):
            break
        before, slots = text, text.most_slots
    if isinstance(text.ended, TooFar):
        text.ended = NoPlace(told_of_far(record, options, text.ended))
    return text
