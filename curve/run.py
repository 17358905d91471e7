"""A run as numbers over its commands, from the lines of JSON that heap_states writes."""

import array
import dataclasses
import json
import statistics

GRANULE, PAGE = 16, 4096
GRANULES = PAGE // GRANULE
MOST_PAGES = 1024


def counted(count, one):
    return f"{count:,} {one}{'' if count == 1 else 's'}"


@dataclasses.dataclass
class Pass:
    """A sweep, that of a `malloc` too, or the `begin` or `end` of an epoch."""

    kind: str
    at: int  # the number of its command, from 1 on
    line: int  # of the trace
    tags: int  # taken


class Run:
    """`live`, `held` and `tags` have a number for the first state and for that after each command: bytes, bytes, and how many
    registers and granules are tagged."""

    def __init__(self, heap):
        self.base, self.pages = int(heap["base"], 16), heap["pages"]
        self.live, self.held, self.tags = array.array("Q", [0]), array.array("Q", [0]), array.array("Q", [0])
        self.lines = array.array("Q", [0])
        self.passes, self.distances = [], []
        self.swept_over = 0  # bytes of the pages that passes looked at
        self.blocks = {}  # base and top: state
        self.registers = {}  # number: address, of those that are tagged
        self.tagged = set()  # granules
        self.tagged_in = [0] * MOST_PAGES  # how many of a page
        self.dirty = set()  # pages into which a tagged word was stored in the open epoch
        self.freed_at = [0] * (MOST_PAGES * GRANULES)  # of each granule the command that last freed it

    def add(self, state):
        """Adds the state after a command, from what changed."""
        name, _, words = state["text"].partition(" ")
        if name == "storecap" and state["reply"] == "ok":
            self.store(*words.split())
        if "taken" in state:
            self.add_pass(name, state)
        for it in state["registers"]:
            if it["tag"]:
                self.registers[it["r"]] = int(it["address"], 16)
            else:
                self.registers.pop(it["r"], None)
        for it in state["granules"]:
            self.tag(it["i"], it["tag"])
        self.live.append(self.live[-1])
        self.held.append(self.held[-1])
        for it in state["blocks"]:
            self.turn((it["base"], it["top"]), it["state"])
        self.tags.append(len(self.registers) + len(self.tagged))
        self.lines.append(state["line"])

    def store(self, to, of):
        if int(of[1:]) in self.registers:
            self.dirty.add((self.registers[int(to[1:])] - self.base) // PAGE)

    def tag(self, granule, is_tagged):
        if is_tagged != (granule in self.tagged):
            (self.tagged.add if is_tagged else self.tagged.remove)(granule)
            self.tagged_in[granule // GRANULES] += 1 if is_tagged else -1

    def add_pass(self, name, state):
        """What a pass looked at: all pages that hold a tag, or at the end of an epoch those that are dirty."""
        taken = state["taken"]
        kind = name if name in ("begin", "end") else "sweep"
        self.passes.append(Pass(kind, len(self.live), state["line"], len(taken["registers"]) + len(taken["granules"])))
        self.swept_over += PAGE * (len(self.dirty) if kind == "end" else sum(map(bool, self.tagged_in)))
        if kind == "begin":
            self.dirty.clear()

    def turn(self, bounds, state):
        """A block is in another state now."""
        base, top = int(bounds[0], 16), int(bounds[1], 16)
        before = self.blocks.pop(bounds, "free")
        for sums, states in ((self.live, ("live",)), (self.held, ("waiting", "painted"))):
            sums[-1] += (top - base) * ((state in states) - (before in states))
        granules = slice((base - self.base) // GRANULE, (top - self.base) // GRANULE)
        if state == "live":
            self.reuse(granules)
        elif state == "waiting":
            self.freed_at[granules] = [len(self.live) - 1] * (granules.stop - granules.start)
        if state != "free":
            self.blocks[bounds] = state

    def reuse(self, granules):
        """How many commands after the last `free` of any of its bytes a block is handed out."""
        last = max(self.freed_at[granules])
        if last:
            self.distances.append(len(self.live) - 1 - last)

    def rows(self):
        """The run's numbers as a table: names and texts."""

        def peak(values, unit):
            greatest = max(values)
            return f"{counted(greatest, unit)} after line {self.lines[values.index(greatest)]:,}" if greatest else f"0 {unit}s"

        def passes(kind):
            taken = [it.tags for it in self.passes if it.kind == kind]
            return f"{len(taken):,}" + (f", which took {counted(sum(taken), 'tag')}" if taken else "")

        yield "commands", f"{len(self.live) - 1:,}"
        yield "heap", f"{self.pages * PAGE:,} bytes"
        yield "peak live", peak(self.live, "byte")
        yield "peak held", peak(self.held, "byte")
        yield "peak tags", peak(self.tags, "tag")
        yield "sweeps", passes("sweep")
        yield "begins of an epoch", passes("begin")
        yield "ends of an epoch", passes("end")
        yield "tags taken", f"{sum(it.tags for it in self.passes):,}"
        yield "swept over", f"{self.swept_over:,} bytes: pages with a tag, and at an end dirty ones"
        yield "reuse distance", self.distance()

    def distance(self):
        if not self.distances:
            return "no byte is used again"
        least, most, median = min(self.distances), max(self.distances), statistics.median_low(self.distances)
        return f"{least:,} to {counted(most, 'command')} from a free to the next use of its bytes, median {median:,}, of {counted(len(self.distances), 'block')}"


def run_of(lines):
    """The run that lines of JSON tell of."""
    run = Run(json.loads(next(lines))["heap"])
    for line in lines:
        state = json.loads(line)
        if "end" in state:
            check_end(run, state["end"])
        else:
            run.add(state)
    return run


def check_end(run, end):
    """What was added up has to be what the simulator tells at the end."""
    told = (end["live"], end["held"], end["tags"])
    if (run.live[-1], run.held[-1], run.tags[-1]) != told:
        raise ValueError(f"the sums {run.live[-1]}, {run.held[-1]} and {run.tags[-1]} aren't those of the end, {told}")
