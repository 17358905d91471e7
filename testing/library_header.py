"""What testing/library tries of the comments in include/kernelstint.h that say of a value what it is: each has a row here with its
words and what shows that they hold, by the library itself. A comment that is new or says something else fails, and so does a row
whose comment is gone. And what it asks of the bytes of a state, as a function."""

import ctypes
import re

import language_table
import library_python
import log_state

# The comment of a value: behind a macro or a member of a struct, or in the line above a code or a permission.
BEHIND_MACRO = re.compile(r"^#define KERNELSTINT_(\w+) \w+ /\* (.*) \*/$")
BEHIND_MEMBER = re.compile(r"^    \w+ (\w+); +/\* (.*) \*/$|^    \w+ (\w+); /\* (.*) \*/$")
ABOVE_MACRO = re.compile(r"^/\* (.*) \*/\n#define KERNELSTINT_(\w+) (?:\d+|0x[0-9a-f]+)u$", re.M)
BASE = 0x40000000
# The kinds of replies and the traps, of which the last ones are a revoker's; and the first number that is no kind of a command or of a
# step of a revoker.
REPLIES = [it.case for it in language_table.REPLIES] + ["Released"]
TRAPS = [it.case for it in language_table.TRAPS] + ["Left"]
NO_KIND = len(language_table.COMMANDS) + len(language_table.STEPS)
# A state in which every command does something, and what a command doesn't use.
READY = ("malloc c1 64", "malloc c2 32", "storecap c1 c2", "malloc c4 16", "free c4")
UNUSED = {"first": 255, "second": 255, "number": 2**64 - 1, "data": b"\xff" * 16}
SHOWN = {"address": BASE, "base": BASE, "top": BASE + 32, "perms": 0x3D, "otype": 0x3FFFF, "tag": True}
DATA = bytes(range(16))


def comments_of(header):
    """Each comment of a value: its name, with that of its struct, and its words."""
    found, members = {}, []
    for line in header.splitlines():
        if told := BEHIND_MACRO.match(line):
            found[told[1]] = told[2]
        if told := BEHIND_MEMBER.match(line):
            members.append((told[1] or told[3], told[2] or told[4]))
        if told := re.match(r"^} kernelstint_(\w+);$", line):
            found.update({f"{told[1]}.{member}": words for member, words in members})
            members = []
    return {**found, **{name: words for words, name in ABOVE_MACRO.findall(header)}}


class Rows:
    """Each row's name, its comment, and whether what it says holds."""

    def __init__(self, library, without_memory):
        self.library, self.rows = library, {}
        self.row("CODE_NO_MEMORY", "malloc answered null.", without_memory, 14)
        for part in (self.commands, self.steps, self.replies, self.whys, self.codes, self.faults, self.permissions, self.words, self.members):
            part()

    def row(self, name, words, told, wanted):
        self.rows[name] = (words, told, wanted)

    def after(self, *lines):
        state = self.library.State.first(BASE, 1)
        for line in lines:
            state, _ = state.step(line)
        return state

    # ---- the machine

    def commands(self):
        """A record is the command of a line, whatever stands in what its kind doesn't use."""
        for name, words, line, lines, parts in (
            ("MALLOC", "malloc first, number: a block of `number` bytes, its capability to register `first`", "malloc c3 20", READY, {"first": 3, "number": 20}),
            ("FREE", "free first", "free c1", READY, {"first": 1}),
            ("COPY", "copy first, second: register `second` to register `first`", "copy c3 c1", READY, {"first": 3, "second": 1}),
            ("SETADDR", "setaddr first, second, number: an address", "setaddr c3 c1 0x40000010", READY, {"first": 3, "second": 1, "number": BASE + 16}),
            ("NARROW", "narrow first, second, number: a length", "narrow c3 c1 24", READY, {"first": 3, "second": 1, "number": 24}),
            ("ANDPERM", "andperm first, second, number: a mask of 16 bits", "andperm c3 c1 0x5", READY, {"first": 3, "second": 1, "number": 5}),
            ("STORECAP", "storecap first, second: register `second` to where `first` points", "storecap c2 c1", READY, {"first": 2, "second": 1}),
            ("LOADCAP", "loadcap first, second: what lies where `second` points to register `first`", "loadcap c3 c1", READY, {"first": 3, "second": 1}),
            ("WRITE", "write first: the 16 bytes of low and high to where `first` points", f"write c1 {DATA.hex()}", READY, {"first": 1, "data": DATA}),
            ("SHOW", "show first", "show c2", READY, {"first": 2}),
            ("SWEEP", "sweep", "sweep", READY, {}),
            ("BEGIN", "begin", "begin", READY, {}),
            ("END", "end", "end", (*READY, "begin"), {}),
        ):
            state, kind = self.after(*lines), self.library.CommandKind[name]
            done = [self.raised(lambda parts=them: state.step(self.library.Command(kind, **parts))) for them in (parts, {**UNUSED, **parts})]
            by_line = state.step(line)
            self.row(f"COMMAND_{name}", words, done, [by_line, by_line])

    def steps(self):
        """A record is a revoker's step, whatever stands in what its kind doesn't use."""
        it, kinds = self.library, self.library.CommandKind
        paint, taken = it.Command(kinds.PAINT), it.Reply(it.ReplyKind.BEGUN, cleared=1)
        # a word of the painted block in a register, and one in the first granule
        stale = ("malloc c1 64", "malloc c2 32", "storecap c1 c2", "free c2", paint)
        for name, words, lines, parts, answer in (
            ("PAINT", "paint: an epoch is open, and the blocks that waited are painted", READY, {}, it.Reply(it.ReplyKind.DONE)),
            ("VISIT", "visit number: a page, from 0, loses the tags of words whose base lies in a painted block", stale, {"number": 0}, taken),
            ("UNTAG", "untag number: the same of the granule at this address", stale, {"number": BASE}, taken),
            ("UNTAG_REGISTER", "untag first: the same of a register", stale, {"first": 2}, taken),
            ("RELEASE", "release: the epoch is over, and the painted blocks are free", ("malloc c1 64", "free c1", "copy c1 c0", paint), {}, it.Reply(it.ReplyKind.RELEASED, bytes=64)),
        ):
            state = self.after(*lines)
            done = [self.raised(lambda parts=them: state.step(it.Command(kinds[name], **parts))) for them in (parts, {**UNUSED, **parts})]
            tags = len(state.tags) - len(done[0][0].tags)
            self.row(f"COMMAND_{name}", words, [done[0] == done[1], done[0][1], tags], [True, answer, answer.cleared])
        left = self.after(*stale).step(it.Command(kinds.RELEASE))[1]
        self.row("TRAP_LEFT", "of a release: a tagged word has its base in a painted block", left, it.Reply(it.ReplyKind.TRAP, trap=it.Trap.LEFT))
        gone = self.after("malloc c1 16", "malloc c2 48", "free c2", "copy c2 c0", paint).step(it.Command(kinds.RELEASE))[1]
        self.row("REPLY_RELEASED", "a release: bytes, how many are free again", gone, it.Reply(it.ReplyKind.RELEASED, bytes=48))

    def replies(self):
        """A command is answered by a record of the kind that tells this, and nothing else."""
        full = ("malloc c1 4096", "copy c2 c1")
        for name, words, lines, line, told in (
            ("BLOCK", "a block: base, top", (), "malloc c1 20", {"base": BASE, "top": BASE + 32}),
            ("BLOCK_AFTER", "the same after a sweep: base, top, cleared", (*full, "free c1"), "malloc c3 16", {"base": BASE, "top": BASE + 16, "cleared": 2}),
            ("NO_SPACE", "no space", full, "malloc c3 16", {}),
            ("NO_SPACE_AFTER", "no space after a sweep: cleared", (*full, "free c1"), "malloc c3 8192", {"cleared": 2}),
            ("HELD", "a block is held: bytes, how many went into quarantine by this free", ("malloc c1 16", "malloc c2 48", "free c1"), "free c2", {"bytes": 48}),
            ("DONE", "done", READY, "copy c3 c1", {}),
            ("CLEARED", "done, and the tag was cleared, since this address would change the bounds", READY, "setaddr c3 c1 0", {}),
            ("SWEPT", "a sweep, or the end of an epoch: cleared, and bytes, how many were released by it", ("malloc c1 16", "free c1", "sweep", "malloc c1 16", "malloc c2 48", "copy c3 c2", "free c2"), "sweep", {"cleared": 2, "bytes": 48}),
            ("BEGUN", "an epoch is open, or a page, a granule or a register was looked at: cleared", ("malloc c1 16", "storecap c1 c1", "free c1"), "begin", {"cleared": 1}),
            ("SHOWN", "a register: base, top, address, otype, perms, tag, exponent", ("malloc c1 20",), "show c1", SHOWN),
            ("TRAP", "a trap: trap", ("malloc c1 20", "free c1"), "free c1", {"trap": self.library.Trap.FREED}),
        ):
            self.row(f"REPLY_{name}", words, self.raw_reply(lines, line), self.passed(self.library.ReplyKind[name], **told))
        self.row("reply.bytes", "how many this free put into quarantine, or this pass released", self.reply(("malloc c1 16", "malloc c2 48", "free c1", "begin", "free c2"), "end").bytes, 16)
        self.row("reply.cleared", "how many tags the sweep, or the pass of an epoch, cleared", [self.reply((*full, "free c1", *more), last).cleared for more, last in (((), "sweep"), (("begin",), "end"))], [2, 2])
        self.row("reply.tag", "1 or 0", [self.raw(lines, "show c1")["tag"] for lines in ((), ("malloc c1 16",))], [0, 1])
        null = self.raw((), "show c0")
        self.row("reply.top", "the top's lower 64 bits", null["top"], 0)
        self.row("reply.top_high", "what is above: the top is top + 2^64 * top_high", null["top_high"], 1)

    def whys(self):
        """An answer that isn't allowed has a reason of the kind that tells this."""
        kinds, reply = self.library.ReplyKind, self.library.Reply
        block, held = reply(kinds.BLOCK, BASE, BASE + 16), ("malloc c1 16", "copy c2 c1", "free c1")
        swept, done = reply(kinds.BLOCK_AFTER, BASE, BASE + 16, 1), reply(kinds.DONE)
        for name, words, lines, line, answer, told in (
            ("WHY_MUST_BE", "the answer must be `reply`", ("malloc c1 20",), ("SHOW", 1), done, {"reply": reply(kinds.SHOWN, **SHOWN)}),
            ("WHY_NOT_OF_MALLOC", "no malloc is answered so", (), ("MALLOC", 1), done, {}),
            ("WHY_TOO_SHORT", "the block is shorter than asked", (), ("MALLOC", 1, 0, 17), block, {}),
            ("WHY_MAY_NOT_SWEEP", "no sweep may come first: an epoch is open, or no block waits", (), ("MALLOC", 1), swept, {}),
            ("WHY_TAKES", "the sweep of the malloc takes `count` tags", held, ("MALLOC", 1), swept, {"tags": 2}),
            ("WHY_REFUSED", "the block's place is refused, for the reason `claim`", held, ("MALLOC", 1), block, {"claim": self.library.Claim.OVER_HELD, "base": BASE, "top": BASE + 16}),
        ):
            kind = self.library.WhyKind[name.removeprefix("WHY_")]
            wanted = {"kind": kind, "claim": 0, "tags": 0, "base": 0, "top": 0, **told}
            why = self.why(lines, line, answer)
            self.row(name, words, {part: getattr(why, part) for part in wanted}, wanted)
        may_not = self.why((*held, "begin"), ("MALLOC", 1), swept).kind
        self.row("WHY_MAY_NOT_SWEEP in an epoch", "", may_not, self.library.WhyKind.MAY_NOT_SWEEP)
        self.row("why.base", "the block in the way", self.why(("malloc c1 16", "malloc c2 32"), ("MALLOC", 3), reply(kinds.BLOCK, BASE + 32, BASE + 64)).base, BASE + 16)

    def why(self, lines, line, answer):
        kind, *rest = line
        command = self.library.Command(self.library.CommandKind[kind], *rest)
        return self.raised(lambda: self.after(*lines).follow(command, answer)).why

    # ---- codes and permissions

    def codes(self):
        it, state = self.library, self.after()
        malloc, block = it.Command(it.CommandKind.MALLOC, 1), it.Reply(it.ReplyKind.BLOCK, BASE, BASE + 16)
        fields = it.NULL.fields
        for name, words, *calls in (
            ("BAD_LENGTH", "The bytes are not 16.", lambda: it.Word.from_bytes(bytes(15)), lambda: it.Word.from_bytes(bytes(17))),
            ("BAD_FIELDS", "A field is past its width.", lambda: it.Word.from_fields(fields._replace(otype=1 << 18))),
            ("BAD_BOUNDS", "The bounds end before they begin, or past 2^64.", lambda: it.block_capability(16, 0), lambda: it.block_capability(0, 2**64 + 1)),
            ("BAD_STATE", "The bytes are no state's.", lambda: it.State(bytes(5934))),
            ("BAD_SIZE", "No heap has so many pages: 1 to 1,024.", lambda: it.State.first(0, 0), lambda: it.State.first(0, 1025)),
            ("BAD_BASE", "The base is no multiple of 4,096, or the end of the heap is past 2^64.", lambda: it.State.first(16, 1), lambda: it.State.first(2**64 - 4096, 2)),
            ("BAD_REGISTER", "A register of 32 or more.", lambda: state.register(32), lambda: state.register(255)),
            ("BAD_ADDRESS", "No granule starts at the address.", lambda: state.granule(BASE + 8), lambda: state.granule(BASE + 4096), lambda: state.granule(BASE - 16)),
            ("PASSED_OVER", "The line has no word, or is a comment.", lambda: state.step(" "), lambda: state.step("# show c0")),
            ("BAD_LINE", "The line is no command.", lambda: state.step("heap 0 1"), lambda: state.step("show c32")),
            ("BAD_COMMAND", "No kind of command has this number, a register is 32 or more, a mask has more than 16 bits, or a page more than 32.",
             lambda: state.step(it.Command(NO_KIND)), lambda: state.step(it.Command(it.CommandKind.VISIT, number=1 << 32)), lambda: state.step(it.Command(it.CommandKind.UNTAG_REGISTER, 32)), lambda: state.step(it.Command(it.CommandKind.FREE, 32)), lambda: state.step(it.Command(it.CommandKind.ANDPERM, 1, 1, 1 << 16))),
            ("BAD_REPLY", "No kind of a command's reply and no trap of one has this number, or a tag that is shown is above 1.",
             lambda: state.follow(malloc, it.Reply(len(language_table.REPLIES))), lambda: state.follow(malloc, it.Reply(it.ReplyKind.TRAP, trap=len(language_table.TRAPS))), lambda: state.follow(malloc, it.Reply(it.ReplyKind.SHOWN, tag=2))),
            ("DIFFERS", "The answer is not allowed.", lambda: state.follow(malloc, block._replace(base=BASE + 8))),
            ("BAD_TRACE", "The text is no trace.", lambda: it.run("show c0"), lambda: it.states("")),
        ):  # fmt: skip
            wanted = "".join(word.title() for word in name.split("_"))
            self.row(f"CODE_{name}", words, [type(self.raised(call)).__name__ for call in calls], [wanted] * len(calls))
        passed, room, short = bytes(state), (ctypes.c_uint8 * 5934)(), (ctypes.c_uint8 * 5933)()
        text, count, reply, show = (ctypes.c_uint8 * 200)(), ctypes.c_size_t(), it._Reply(), it._Command(it.CommandKind.SHOW)
        step, step_line = it._library.kernelstint_step, it._library.kernelstint_step_line
        over = ctypes.cast((ctypes.c_uint8 * 5934).from_buffer(self.buffer_of(passed)), ctypes.POINTER(ctypes.c_uint8))
        in_place = step(ctypes.cast(over, ctypes.c_char_p), 5934, show, over, 5934, reply)
        self.row("CODE_NULL", "A pointer is null.", step(None, 5934, show, room, 5934, reply), 4)
        self.row("CODE_BAD_ROOM", "The room for a state is not as long as that state.", step(passed, 5934, show, short, 5933, reply), 5)
        self.row("CODE_SHORT_TEXT", "The room for a text is too short.", step_line(passed, 5934, b"show c0", 7, room, 5934, text, 199, count), 11)
        self.row("CODE_OVERLAP", "Two places lie over one another, of which one is written.", in_place, 19)
        none, held, open_at = it._Machine(), it._Machine(), it._library.kernelstint_machine_open
        self.row("CODE_NO_MACHINE", "No machine is held there.", it._library.kernelstint_machine_step(none, it._Command(255), reply), 20)
        self.row("CODE_IS_OPEN", "A machine is held there already.", [open_at(passed, 5934, held), open_at(passed, 0, held)], [0, 21])
        it._library.kernelstint_machine_close(held)
        granule, register, told = it._library.kernelstint_granule, it._library.kernelstint_register, it._TaggedWord()
        both = [granule(passed[:7], 7, 1, told), register(passed[:7], 7, 32, told), granule(passed, 5934, 1, told)]
        self.row("the first of two codes", "", both, [6, 9, 10])

    def faults(self):
        """A text of which this is wrong first has the number of its name, and the number of its line."""
        it, told, found = self.library, {}, []
        for text, name, line in library_python.FAULTS:
            fault, data = it._Fault(), text.encode()
            told[name] = (it._library.kernelstint_trace_fault(data, len(data), fault), it._FAULTS[fault.kind - 1])
            found.append(fault.line)
        for name, words in (
            ("TOO_LONG", "too-long: the text has more than 4,194,304 bytes"),
            ("NO_HEAP", "no-heap: the first line that counts is no heap line"),
            ("BAD_HEAP", "bad-heap: the heap line is not of its form, or its numbers are out of their range"),
            ("BAD_COMMAND", "bad-command: no command has this name"),
            ("BAD_COUNT", "bad-count: the command has more or fewer words"),
            ("BAD_REGISTER", "bad-register: a word should be a register"),
            ("BAD_NUMBER", "bad-number: a word should be a number, or one in its range"),
            ("BAD_DATA", "bad-data: a word should be 32 hexadecimal digits"),
        ):
            fault = words.split(":")[0]
            self.row(f"FAULT_{name}", words, told.get(fault), (18, fault))
        lines = [line for _, _, line in library_python.FAULTS]
        self.row("fault.line", "the number of the faulty line, from 1; 0 where the text is too long", found, lines)
        untold, codes = it._Fault(7, 7), []
        for call, text in ((it._library.kernelstint_trace_fault, b"heap 0 1"), (it._library.kernelstint_line_fault, b"sweep"), (it._library.kernelstint_line_fault, b"# sweep")):
            codes.append((call(text, len(text), untold), untold.line, untold.kind))
        self.row("fault of none", "", codes, [(0, 7, 7), (0, 7, 7), (12, 7, 7)])
        of_line = it._Fault()
        code = it._library.kernelstint_line_fault(b"show c32", 8, of_line)
        self.row("fault of a line", "", (code, of_line.line, it._FAULTS[of_line.kind - 1]), (13, 1, "bad-register"))

    def buffer_of(self, data):
        self.buffer = bytearray(data)
        return self.buffer

    def permissions(self):
        """What a capability with this permission alone may do, of four accesses, and what one with all others may."""
        accesses = ("loadcap c3 c2", "write c2 " + "0" * 32, "storecap c2 c0", "storecap c2 c1")
        loaded = ("malloc c1 16", "storecap c1 c1")
        for name, words, bit, alone, without in (
            ("GLOBAL", "May be stored by way of any capability that may store capabilities.", 0x1, (), (0, 1, 2, 3)),
            ("LOAD", "May load data.", 0x4, (0,), (1, 2, 3)),
            ("STORE", "May store data.", 0x8, (1, 2), (0,)),
            ("LOAD_CAPABILITY", "May load capabilities with their tags.", 0x10, (), (0, 1, 2, 3)),
            ("STORE_CAPABILITY", "May store capabilities with their tags.", 0x20, (), (0, 1, 2)),
        ):
            done = []
            for mask in (bit, 0x3D & ~bit):
                state = self.after(*loaded, f"andperm c2 c1 {mask}")
                done.append(tuple(number for number, line in enumerate(accesses) if state.step(line)[1].kind == self.library.ReplyKind.DONE))
            keeps_tag = self.after(*loaded, f"andperm c2 c1 {0x3D & ~bit}", "loadcap c3 c2").register(3).tag
            self.row(f"PERM_{name}", words, (*done, keeps_tag), (alone, without, bit not in (0x4, 0x10)))

    # ---- words

    def words(self):
        it = self.library
        word = it.Word.from_bytes(DATA)
        halves = (int.from_bytes(DATA[:8], "little"), int.from_bytes(DATA[8:], "little"))
        passed = it._library.kernelstint_word_from_bytes(DATA, 16).word
        self.row("word.address", "the lower half: the address, or cursor", (passed.address, word.address), (halves[0], halves[0]))
        self.row("word.metadata", "the upper half", (passed.metadata, word.bits >> 64), (halves[1], halves[1]))
        for name, words, bits in (
            ("otype", "the object type, 18 bits: all ones where the word is not sealed", 18),
            ("perms", "permissions, 16 bits: KERNELSTINT_PERM_GLOBAL and others", 16),
            ("top12", "the top field, 12 bits", 12),
            ("base14", "the base field, 14 bits", 14),
            ("reserved", "2 bits", 2),
            ("flag", "the capability mode flag, 1 or 0", 1),
            ("internal", "1 where the low 3 bits of top12 and of base14 hold the exponent, else 0", 1),
        ):
            fields = it.NULL.fields._replace(**{name: (1 << bits) - 1})
            past = self.raised(lambda fields=fields, name=name, bits=bits: it.Word.from_fields(fields._replace(**{name: 1 << bits})))
            self.row(f"fields.{name}", words, (it.Word.from_fields(fields).fields, type(past)), (fields, it.BadFields))
        block = it.block_capability(BASE, BASE + 16)
        one = it.Word.from_fields(block.fields._replace(internal=True, top12=1, base14=2))
        self.row("fields.internal and the exponent", "", (block.exponent, one.exponent), (0, 8 * 1 + 2))
        self.row("fields.otype of a block", "", block.otype, 0x3FFFF)
        whole = it._library.kernelstint_bounds_of(it.NULL._passed)
        self.row("bounds.top", "the top's lower 64 bits", whole.top, 0)
        self.row("bounds.top_high", "what is above: the top 2^64 is 0 and 1", whole.top_high, 1)
        length = it._library.kernelstint_representable_length(2**64 - 1)
        self.row("length.length", "the lower 64 bits", length.length, 0)
        self.row("length.length_high", "what is above: the length 2^64 is 0 and 1", length.length_high, 1)
        made = [it._library.kernelstint_with_bounds(it.NULL._passed, it._Bounds(*bounds)) for bounds in ((16, 32, 0), (32, 16, 0), (16, 32, 1 << 32))]
        self.row("narrowed_word.exact", "false where there is a code", [(one.code, one.exact) for one in made], [(0, True), (3, False), (3, False)])

    def members(self):
        """What the members of a command are, which the rows of its kinds use."""
        state, it = self.after(*READY), self.library
        write = state.step(it.Command(it.CommandKind.WRITE, 1, data=DATA))[0]
        halves = it._passed_command(it.Command(it.CommandKind.WRITE, 1, data=DATA))
        self.row("command.first", "a register", self.code_of(first=32), "BadCommand")
        self.row("command.second", "a register", self.code_of(second=32), "BadCommand")
        self.row("command.number", "a size, an address, a length, a mask or a page", self.code_of(number=1 << 16), "BadCommand")
        self.row("command.low", "the first eight bytes of a write, little endian", (halves.low, write.granule(BASE).word.address), (int.from_bytes(DATA[:8], "little"),) * 2)
        self.row("command.high", "the last eight", (halves.high, write.granule(BASE).word.bits >> 64), (int.from_bytes(DATA[8:], "little"),) * 2)

    def code_of(self, **parts):
        command = self.library.Command(self.library.CommandKind.ANDPERM, **{"first": 1, "second": 1, "number": 1, **parts})
        return type(self.raised(lambda: self.after().step(command))).__name__

    # ---- records as they cross

    def raw_reply(self, lines, line):
        return tuple(self.raw(lines, line).values())

    def raw(self, lines, line):
        """The members of the record that answers a command."""
        it, state = self.library, bytes(self.after(*lines))
        name, *words = line.split()
        numbers = [int(word.removeprefix("c"), 0) for word in words]
        of_registers = sum(word.startswith("c") for word in words)
        parts = dict(zip(("first", "second"), numbers[:of_registers]), **({"number": numbers[-1]} if len(numbers) > of_registers else {}))
        room, reply = (ctypes.c_uint8 * len(state))(), it._Reply()
        it._library.kernelstint_step(state, len(state), it._Command(kind=it.CommandKind[name.upper()], **parts), room, len(state), reply)
        return {member: getattr(reply, member) for member, _ in it._Reply._fields_}

    def passed(self, kind, **told):
        reply = self.library._passed_reply(self.library.Reply(kind, **told))
        return tuple(getattr(reply, member) for member, _ in self.library._Reply._fields_)

    def reply(self, lines, line):
        return self.after(*lines).step(line)[1]

    def raised(self, call):
        """What a call answers, or raises."""
        try:
            return call()
        except Exception as wrong:  # whatever it is
            return wrong


def is_state(data):
    """Whether all holds of these bytes that the header asks of a state's."""
    base, pages, is_open = int.from_bytes(data[:8], "little"), int.from_bytes(data[8:12], "little"), data[12]
    if not 1 <= pages <= 1024 or len(data) != 557 + 5377 * pages or base % 4096 or base + 4096 * pages > 2**64:
        return False
    granules = [data[at : at + 21] for at in range(13, 13 + 21 * 256 * pages, 21)]
    registers = [data[at : at + 17] for at in range(13 + 21 * 256 * pages, len(data) - pages, 17)]
    marks = data[len(data) - pages :]
    blocks = [(base + 16 * at, int.from_bytes(it[17:], "little")) for at, it in enumerate(granules)]
    blocks = [(start, start + number - number % 16, number % 16) for start, number in blocks if number]
    flags = [is_open, *marks, *(it[16] for it in granules + registers)]
    if any(it > 1 for it in flags) or any(registers[0]) or any(kind not in (1, 2, 3) or kind == 3 and not is_open for _, _, kind in blocks):
        return False
    ends = [base, *(end for _, end, _ in blocks)]
    if any(start < before or start == end or end > base + 4096 * pages or not log_state.is_exact(start, end) for before, (start, end, _) in zip(ends, blocks)):
        return False
    for at, it in enumerate(granules + registers):
        word = log_state.Word(int.from_bytes(it[:16], "little"))
        around = [kind for start, end, kind in blocks if start <= word.base < word.top <= end]
        if it[16] and (not around or around == [3] and at < len(granules) and not marks[at // 256]):
            return False
    return True


def all_of(tests, library, header, without_memory):
    """The code of a step without memory is given: Python has no way to refuse it."""
    comments, rows = comments_of(header), Rows(library, without_memory).rows
    named = {name: words for name, (words, _, _) in rows.items() if words}
    for name in comments.keys() | named.keys():
        tests.expect(comments.get(name) == named.get(name), f"the header says of {name} '{comments.get(name)}', and its row '{named.get(name)}'")
    for name, (words, told, wanted) in rows.items():
        tests.expect(told == wanted, f"the header says of {name} '{words}', and it is {told}, where {wanted} was to be")
