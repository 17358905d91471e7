"""Random programs with a revoker beside them, as logs: each of the revoker's own steps is an event between the program's. A
revoker without a fault never releases a block into which a tagged word points, whatever runs; some with a fault do, and then
the line in which it does is the first that is wrong."""

import random

from log_state import LOAD, REGISTERS, State
from log_words import ASKED, read

BASE, PAGE, GRANULE = 0x40000000, 4096, 16
# The program uses registers below this one, so that pointers are overwritten soon.
USED = 6


def told_place(place):
    kind, number = place
    return f"c{number}" if kind == "register" else f"{number:#x}"


def read_asked(asked):
    words = asked.split()
    return words[0], *read(words, ASKED)


class Beside:
    """A program of so many steps, of which one in four is the revoker's."""

    FAULTS = ()

    def __init__(self, seed, count, fault=None):
        self.chance, self.fault = random.Random(f"{seed} {type(self).__name__} {fault}"), fault
        self.pages = self.chance.choice([3, 3, 4])
        self.state, self.lines = State(BASE, self.pages), [f"heap {BASE:#x} {self.pages}"]
        self.tell(f"malloc c1 {PAGE * (self.pages - 1)}")
        # The line of a release that a word was left to, and what else may never be.
        self.broken, self.flaw = None, ""
        while len(self.lines) < count and not self.broken:
            if self.chance.randrange(4):
                self.program()
            else:
                self.revoker()

    def begins(self):
        """How what has to be said of the log begins."""
        if self.broken and self.fault:
            return f"differs {self.broken}: "
        return self.flaw or "agrees "

    def text(self):
        return "".join(f"{line}\n" for line in self.lines)

    def tell(self, asked):
        name, *operands = read_asked(asked)
        answer = self.state.does(len(self.lines) + 1, name, operands)
        self.lines.append(f"{asked} -> {answer}")
        return answer

    def release(self):
        """It takes itself to be through."""
        answer = self.tell("release")
        if answer == "trap left":
            self.broken, self.lines[-1] = len(self.lines), "release -> released 0"

    # ---- the program

    def program(self):
        """It keeps pointers in a table, which register 1 points to; register 2 is an entry of it."""
        target = self.chance.randrange(3, USED)
        tagged = [number for number in range(3, USED) if self.state.registers[number][1]]
        source = self.chance.choice(tagged or [target])
        name = self.chance.choice("malloc malloc free free storecap storecap storecap loadcap loadcap loadcap copy any".split())
        if name in ("storecap", "loadcap"):
            first, end = BASE, BASE + PAGE * (self.pages - 1)
            entry = self.chance.choice([first, first + GRANULE, end - 2 * GRANULE, end - GRANULE])
            self.command(f"setaddr c2 c1 {entry:#x}")
        asked = {
            "malloc": f"malloc c{target} {self.chance.choice([16, 16, 32, 600])}",
            "free": f"free c{source}",
            "storecap": f"storecap c2 c{source}",
            "loadcap": f"loadcap c{target} c2",
            "copy": f"copy c{target} c{source}",
            "any": self.chance.choice([f"storecap c{target} c{source}", f"loadcap c{target} c{source}", f"write c{source} {'a5' * 16}", f"free c{target}"]),
        }[name]
        self.command(asked)

    def command(self, asked):
        self.tell(asked)

    def page_of(self, pointer):
        return (self.state.registers[pointer][0].address - BASE) // PAGE

    # ---- the revoker

    def untag_registers(self):
        for number in range(1, REGISTERS):
            if self.state.registers[number][1]:
                self.tell(f"untag c{number}")

    def visit(self, page):
        self.tell(f"visit {page}")


class AnyRevoker(Beside):
    """Steps in any order, which may be trapped, and passes as well."""

    def revoker(self):
        page = self.chance.choice([*range(self.pages), self.pages, 2**32 - 1])
        places = [place for place in self.state.due(self.state.painted)] or [("register", 0)]
        address = self.chance.choice([BASE, BASE + 8, BASE - 16, BASE + PAGE * self.pages, BASE + PAGE * self.pages - 16, 2**64 - 1])
        told = [told_place(self.chance.choice(places)), told_place(self.chance.choice(places)), f"{address:#x}", f"c{self.chance.randrange(REGISTERS)}"]
        asked = ["paint", "paint", f"visit {page}", *(f"untag {it}" for it in told), "release", "release", "begin", "end", "sweep"]
        self.tell(self.chance.choice(asked))


class Cornucopia(Beside):
    """It visits pages that are dirty, whole or granule by granule, and takes the registers when it ends its epoch."""

    FAULTS = ("makes a page clean when it has looked", "takes registers first and never again", "forgets a dirty page")

    def revoker(self):
        if not self.state.is_open:
            self.tell("paint")
            # The pages into which a tagged word may have been stored, and of those that are looked at what is left.
            self.dirty, self.looked = set(range(self.pages)), {}
            if self.fault == "takes registers first and never again":
                self.untag_registers()
            return
        self.chance.choice([self.look_whole, *8 * [self.look], self.finish])()

    def look_whole(self):
        page = self.chance.randrange(self.pages)
        self.dirty.discard(page)
        self.looked.pop(page, None)
        self.visit(page)

    def look(self):
        """Goes on with a page, or begins with one that is dirty: looks at its next granule that is tagged."""
        pages = sorted({*self.looked, *self.dirty})
        if not pages:
            return self.finish()
        page = self.chance.choice(pages)
        first = BASE + PAGE * page
        if page not in self.looked:
            self.looked[page] = first
            if self.fault != "makes a page clean when it has looked":
                self.dirty.discard(page)
        tagged = [at for at, (_, tag) in sorted(self.state.memory.items()) if tag and self.looked[page] <= at < first + PAGE]
        for at in tagged[:1]:
            self.tell(f"untag {at:#x}")
            self.looked[page] = at + GRANULE
        if not tagged:
            del self.looked[page]
            if self.fault == "makes a page clean when it has looked":
                self.dirty.discard(page)

    def finish(self):
        pages = sorted(self.dirty | set(self.looked))
        for page in pages[:-1] if self.fault == "forgets a dirty page" else pages:
            self.visit(page)
        if self.fault != "takes registers first and never again":
            self.untag_registers()
        self.release()

    def command(self, asked):
        name, *operands = read_asked(asked)
        page = self.page_of(operands[0])
        answer = self.tell(asked)
        if name == "storecap" and answer == "ok" and self.state.registers[operands[1]][1] and self.state.is_open:
            self.dirty.add(page)


class Reloaded(Beside):
    """It takes the registers when it starts, and visits a page before the first load from it."""

    FAULTS = ("visits after the load", "goes by the base and not by the address", "forgets a page into which nothing was stored")

    def revoker(self):
        if not self.state.is_open:
            self.tell("paint")
            self.untag_registers()
            self.seen, self.stored = set(), set()
            return
        if self.chance.randrange(3):
            self.see(self.chance.randrange(self.pages))
        elif self.chance.randrange(2):
            self.finish()

    def see(self, page):
        self.visit(page)
        self.seen.add(page)

    def finish(self):
        for page in range(self.pages):
            is_forgotten = self.fault == "forgets a page into which nothing was stored" and page not in self.stored
            if page not in self.seen and not is_forgotten:
                self.see(page)
        self.release()

    def page_before(self, pointer):
        """The page that a load waits for, if it isn't trapped."""
        if self.state.access(pointer, LOAD):
            return None
        word, _ = self.state.registers[pointer]
        page = (word.base - BASE) // PAGE if self.fault == "goes by the base and not by the address" else self.page_of(pointer)
        return page if page not in self.seen else None

    def command(self, asked):
        name, *operands = read_asked(asked)
        is_open = self.state.is_open
        page = self.page_before(operands[1]) if is_open and name == "loadcap" else None
        if page is not None and self.fault != "visits after the load":
            self.see(page)
        stored = self.page_of(operands[0])
        answer = self.tell(asked)
        if is_open and name == "storecap" and answer == "ok":
            self.stored.add(stored)
        if page is not None and self.fault == "visits after the load":
            self.see(page)
        if is_open and not self.fault and any(kind == "register" for kind, _ in self.state.due(self.state.painted)):
            self.flaw = f"no register may point into a painted block, as one does after line {len(self.lines)}"


class Planned:
    """What heap_revoker does for a plan: `plan` has its lines, and the log besides what the revoker does at its start, before a load and at
    its end."""

    def __init__(self, seed, count):
        self.plan = []
        super().__init__(seed, count)
        self.plan[:0] = [self.lines[0], self.lines[1].split(" -> ")[0]]

    def command(self, asked):
        self.plan.append(asked)
        super().command(asked)

    def untag_registers(self):
        for kind, number in self.state.due(self.state.painted):
            if kind == "register":
                self.tell(f"untag c{number}")

    def start(self):
        self.plan.append(self.chance.choice(["paint", "begin"]))
        self.tell("paint")

    def finish(self):
        self.plan.append(self.chance.choice(["release", "end"]))
        super().finish()


class PlannedCornucopia(Planned, Cornucopia):
    def revoker(self):
        if not self.state.is_open:
            self.start()
            self.dirty, self.looked = set(range(self.pages)), {}
        elif self.chance.randrange(3):
            page = self.chance.randrange(self.pages)
            self.plan.append(f"visit {page}")
            self.dirty.discard(page)
            self.visit(page)
        else:
            self.finish()


class PlannedReloaded(Planned, Reloaded):
    def revoker(self):
        if not self.state.is_open:
            self.start()
            self.untag_registers()
            self.seen, self.stored = set(), set()
        elif self.chance.randrange(3):
            page = self.chance.randrange(self.pages)
            self.plan.append(f"visit {page}")
            self.see(page)
        else:
            self.finish()


# Each revoker with each of its faults, and without one.
KINDS = [(kind, fault) for kind in (AnyRevoker, Cornucopia, Reloaded) for fault in (None, *kind.FAULTS)]


def never_shown(seed, runs, count):
    """The faults that none of so many programs shows."""
    for kind, fault in KINDS:
        if fault and not any(kind(f"{seed} {run}", count, fault).broken for run in range(runs)):
            yield f"no program shows a revoker of the kind {kind.__name__} that {fault}"
