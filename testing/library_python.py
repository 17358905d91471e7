"""What testing/library tries of bindings/python/kernelstint.py by itself: each public call with values of wrong types, which a
table has, and which is held to the module itself, so that a call or a parameter without a row fails; that values and exceptions
can be copied, pickled and handed to other processes; that a trace is done by the lines of its file; that a refusal names the fault
and its line, or says why an answer differs as heap_check does; that the lists of a state have what the library tells of it, and the
changes between two states lead from the one to the other; that its names are the interface alone; and its types, by mypy --strict."""

import concurrent.futures
import copy
import enum
import inspect
import io
import multiprocessing
import pickle
import pydoc
import shutil
import subprocess

# Values that are no number, no bytes, no text, and none of the module's records.
NO_NUMBER = (None, 1.0, 1.9, "1", b"1", 1j, (), [1])
NO_BYTES = (None, 16, 1.5, "0" * 16, [0] * 16, (0,) * 16)
NO_LINE = (None, 1, 1.5, b"show c0", ("show", 0), ["show c0"])
NO_TEXT = (None, 1, 1.5, ["heap 0 1"], ("heap 0 1",))
NO_REPLY_TEXT = (None, 1, 1.5, b"ok", ["ok"])
NO_RECORD = (None, 1, 1.5, "ok", b"ok", (), [])
NO_MEMBER = (None, 1.5, "1", b"1", ())
# What is refused by another type, and what is said of it.
TOLD_OF_TYPES = (
    ("run", 5, "a trace is a str or bytes, and no int"), ("states", None, "a trace is a str or bytes, and no NoneType"), ("State", 5, "a state is made of bytes, and no int"),
    ("State.step", 5, "a command is a str or a Command, and no int"), ("Machine.step", "show c0", "a command is a Command, and no str"),
    ("Word.from_bytes", "0", "a word is made of bytes, and no str"),
)  # fmt: skip
# Lines of which none is a command's, though parts of them are.
FALSE_LINES = ("show c0\n\n", "show c0\nshow c0", "\nshow c0", "\udcff", "malloc c1 \ud800", "heap 0x40000000 1", "")
# Commands that are answered by every kind of reply.
REPLIES = """malloc c1 2048
malloc c2 2048
malloc c3 16
setaddr c3 c1 0
copy c3 c1
free c1
begin
end
free c2
sweep
malloc c1 4096
show c1
free c1
malloc c2 16
free c2
malloc c2 5000
free c3"""
# Texts that are no reply's to the letter.
FALSE_TEXTS = (
    "", " ", "junk", "block", "block 0x1", "block 0x1 0x2 junk", "block 0x1 0x2 swept", "block 0x1 0x2 swept 1 2", "block 1 2", "block 0x01 0x2",
    "block 0x1 0X2", "block 0xA 0xB", "block  0x1 0x2", "block 0x1 0x2 ", "block 0x1 0x2\n", "nospace 1", "nospace swept", "held", "held 0x10", "held 010", "held -1",
    "held 1 2", "held \u0663", f"held {2**64}", "ok 1", "okay", "cleared 1 2", "cleared 1 released", "cleared x released 2", "released", "released 1 2", "trap", "trap none", "trap tag tag",
    "tag 2 address 0x0 base 0x0 top 0x0 perms 0x0 type 0x0 exponent 0", "tag 1", "tag 1 address 0x0", "address 0x0 tag 1",
    "tag 1 address 0x0 base 0x0 top 0x0 perms 0x0 type 0x0 exponent 0 junk 0", "tag 1 address 0x0 base 0x0 top 0x0 perms 0x0 type 0x0",
)  # fmt: skip


# Examples whose states are listed.
LISTED = ("examples/run_first_steps", "examples/lesson_an_epoch_with_a_store", "examples/lesson_a_copy_hidden_in_memory", "testing/rows/run_overwritten_capability")
# What calls answer, and none takes.
ANSWERED = {"Block", "Change", "Corrections", "Tag", "TaggedWord", "Why"}
# Methods of Python's own numbers and exceptions, which the help doesn't repeat for each kind.
HIDDEN = ("as_integer_ratio", "with_traceback")


def rows_of(library):
    """Each public call, with what calls it, and of each parameter a right value and values that are wrong."""
    word, state = library.block_capability(0x1000, 0x2000), library.State.first(0x40000000, 1)
    malloc, block = library.Command(library.CommandKind.MALLOC, 1, number=16), library.Reply(library.ReplyKind.BLOCK, 0x40000000, 0x40000010)
    shown = library.Reply(library.ReplyKind.SHOWN)
    no_trap = {"trap": (None, [it for it in NO_NUMBER if it is not None])}

    def stepped(**parts):
        return state.step(library.Command(**parts))

    def numbers(record, *more):
        return {name: (it, (*NO_NUMBER, *more)) for name, it in record._asdict().items() if name != "data"}

    return {
        "Word": (library.Word, {"bits": (1, NO_NUMBER)}),
        "Word.from_bytes": (library.Word.from_bytes, {"data": (bytes(16), NO_BYTES)}),
        "Word.from_fields": (library.Word.from_fields, {"fields": (word.fields, (*NO_RECORD, tuple(word.fields)))}),
        "Word.to_bytes": (word.to_bytes, {}),
        "Word.representable": (word.representable, {"address": (1, NO_NUMBER)}),
        "Word.is_allowed": (word.is_allowed, {"permission": (1, NO_NUMBER)}),
        "Word.set_bounds": (word.set_bounds, {"base": (0, NO_NUMBER), "top": (16, NO_NUMBER)}),
        "Word.set_address": (word.set_address, {"address": (1, NO_NUMBER)}),
        "Word.and_perms": (word.and_perms, {"mask": (1, NO_NUMBER)}),
        "Fields": (lambda **parts: library.Word.from_fields(library.Fields(**parts)), numbers(word.fields)),
        "Command": (stepped, {**numbers(malloc), "data": (bytes(16), (*NO_BYTES, b"", bytes(15)))}),
        "Reply": (lambda **parts: state.follow(malloc, library.Reply(**parts)), {**numbers(block), **no_trap}),
        "Reply.text": (lambda **parts: library.Reply(**parts).text, {**numbers(shown, -1), **no_trap}),
        "Reply.of_text": (library.Reply.of_text, {"text": ("ok", (*NO_REPLY_TEXT, *FALSE_TEXTS))}),
        "State": (library.State, {"data": (bytes(state), (*NO_BYTES, state))}),
        "State.first": (library.State.first, {"base": (0, NO_NUMBER), "pages": (1, NO_NUMBER)}),
        "State.step": (state.step, {"command": ("show c0", (*NO_LINE, tuple(malloc), block, *FALSE_LINES))}),
        "State.follow": (state.follow, {"command": (malloc, (*NO_RECORD, tuple(malloc), block)), "answer": (block, (*NO_RECORD, tuple(block), malloc))}),
        "State.changes": (state.changes, {"after": (state, (*NO_RECORD, bytes(state), library.State.first(0x40000000, 2), library.State.first(0x40001000, 1)))}),
        "State.register": (state.register, {"number": (1, (*NO_NUMBER, -1, 32))}),
        "State.granule": (state.granule, {"address": (0x40000000, (*NO_NUMBER, -1))}),
        "Machine": (library.Machine, {"state": (state, (*NO_RECORD, bytes(state)))}),
        "Machine.step": (library.Machine(state).step, {"command": (malloc, (*NO_RECORD, "show c0", tuple(malloc), block))}),
        "Machine.copy": (library.Machine(state).copy, {}),
        "Machine.close": (library.Machine(state).close, {}),
        "block_capability": (library.block_capability, {"base": (0, NO_NUMBER), "top": (16, NO_NUMBER)}),
        "representable_length": (library.representable_length, {"length": (1, NO_NUMBER)}),
        "alignment_mask": (library.alignment_mask, {"length": (1, NO_NUMBER)}),
        "run": (library.run, {"text": ("heap 0 1", (*NO_TEXT, "\ud800"))}),
        "states": (library.states, {"text": (b"heap 0 1", (*NO_TEXT, "\ud800"))}),
        **{it.__name__: (it, {"value": (1, NO_MEMBER)}) for it in enums_of(library)},
    }


def enums_of(library):
    return [it for it in map(library.__dict__.get, library.__all__) if inspect.isclass(it) and issubclass(it, enum.Enum)]


def errors_of(library):
    """The exceptions, each as it is raised."""
    why = library.Why(library.WhyKind.REFUSED, library.Claim.OVER_LIVE, 0, 16, 32, library.Reply(library.ReplyKind.DONE))
    told = {
        library.Differs: (why, library.Reply(library.ReplyKind.BLOCK, 0, 32), False), library.BadTrace: ("bad-count", 2),
        library.BadLine: ("no command: 'show'", "bad-count"),
    }  # fmt: skip
    kinds = [it for it in map(library.__dict__.get, library.__all__) if inspect.isclass(it) and issubclass(it, library.Error)]
    return [it(*told.get(it, ("what is wrong",))) for it in kinds]


# Texts that are no trace, with their first fault and its line; and the last lines as lines by themselves, but for the heap line.
FAULTS = (
    ("", "no-heap", 1), ("\n# heap 0 1\nsweep", "no-heap", 3), ("heap 1 1", "bad-heap", 1), ("heap 0 1\n\nfrob", "bad-command", 3),
    ("heap 0 1\nfree", "bad-count", 2), ("heap 0 1\nsweep\nshow c32", "bad-register", 3), ("heap 0 1\nmalloc c1 0x", "bad-number", 2),
    ("heap 0 1\nwrite c1 00", "bad-data", 2), ("heap 0 1\n" + "#" * 4194304, "too-long", 0),
)  # fmt: skip
# What a state is after these lines, and a command that an allocator answered in a way that may not be, with heap_check's words.
DIFFERENCES = (
    ((), ("MALLOC", 1, 16), "ok", "a malloc is answered by a block or by nospace, and the log says ok"),
    ((), ("MALLOC", 1, 17), "block 0x40000100 0x40000110", "block 0x40000100 0x40000110 is shorter than the size asked for"),
    ((), ("MALLOC", 1, 16), "block 0x40000108 0x40000118", "block 0x40000108 0x40000118 is not whole granules"),
    ((), ("MALLOC", 1, 16), "block 0x40010000 0x40010010", "block 0x40010000 0x40010010 lies outside the heap"),
    ((), ("MALLOC", 1, 16), "block 0x40000010 0x40004020", "block 0x40000010 0x40004020 has bounds that no capability holds"),
    (("malloc c1 32",), ("MALLOC", 2, 16), "block 0x40000010 0x40000020", "block 0x40000010 0x40000020 lies over the live block 0x40000000 0x40000020"),
    (("malloc c1 32", "free c1"), ("MALLOC", 2, 16), "block 0x40000000 0x40000010", "block 0x40000000 0x40000010 lies over the held block 0x40000000 0x40000020"),
    ((), ("MALLOC", 1, 16), "block 0x40000000 0x40000010 swept 0", "no sweep may be told: no block waits"),
    (("malloc c1 16", "free c1", "begin"), ("MALLOC", 2, 16), "nospace swept 0", "no sweep may be told: an epoch is open"),
    (("malloc c1 16", "free c1"), ("MALLOC", 2, 16), "nospace swept 0", "the sweep takes 1 tag, and the log says nospace swept 0"),
    (("malloc c1 16", "copy c2 c1", "free c1"), ("MALLOC", 2, 16), "nospace swept 0", "the sweep takes 2 tags, and the log says nospace swept 0"),
    (("malloc c1 16",), ("FREE", 1, 0), "held 32", "the answer must be held 16, and the log says held 32"),
    ((), ("FREE", 1, 0), "ok", "the answer must be trap tag, and the log says ok"),
)  # fmt: skip


def faults(tests, library):
    """A text that is no trace, and a line that is no command, is refused by the name of its fault and the number of its line."""
    state = library.State.first(0x40000000, 1)
    for text, fault, line in FAULTS:
        for call in (library.run, library.states):
            told = raised_by(lambda: call(text), {})
            tests.expect(isinstance(told, library.BadTrace) and (told.fault, told.line) == (fault, line), f"{text[:40]!r} is refused for {told!r}")
            tests.expect(str(told) == f"the text is no trace: {fault}" + (f" in line {line}" if line else ""), f"it is told as {told}")
        if text.startswith("heap 0 1") and line:
            told, last = raised_by(lambda: state.step(text.split("\n")[-1]), {}), text.split("\n")[-1]
            tests.expect(isinstance(told, library.BadLine) and told.fault == fault, f"{last!r} is refused for {told!r}")
            tests.expect(str(told) == f"no command: {last!r}: {fault}", f"it is told as {told}")


def differences(tests, library):
    """An answer that isn't allowed is refused in the words of heap_check, and its kinds and traps have names."""
    for lines, (kind, first, number), answer, wanted in DIFFERENCES:
        state = library.State.first(0x40000000, 16)
        for line in lines:
            state, _ = state.step(line)
        command = library.Command(library.CommandKind[kind], first, number=number)
        told = raised_by(lambda: state.follow(command, library.Reply.of_text(answer)), {})
        tests.expect(isinstance(told, library.Differs) and str(told) == wanted, f"{answer} differs as {told}, and not as {wanted}")
        is_refused = told.why.kind is library.WhyKind.REFUSED
        tests.expect(isinstance(told.why.claim, library.Claim) == is_refused, f"the claim of {told} has no name: {told.why}")


def calls_of(library):
    """The names of the public calls, with those of their parameters, as the module has them. An exception is raised, and no call; a
    property asks something of values that are given only where its class keeps what it is given."""
    for name in library.__all__:
        it = getattr(library, name)
        if inspect.isfunction(it):
            yield name, [*inspect.signature(it).parameters]
        if not inspect.isclass(it) or issubclass(it, Exception) or name in ANSWERED:
            continue
        parts = ["value"] if issubclass(it, enum.Enum) else [*inspect.signature(it).parameters]
        yield name, parts
        for member, value in vars(it).items():
            if member.startswith("_") or issubclass(it, enum.Enum):
                continue
            if isinstance(value, (classmethod, staticmethod)) or inspect.isfunction(value):
                yield f"{name}.{member}", [part for part in inspect.signature(getattr(it, member)).parameters if part != "self"]
            elif isinstance(value, property) and issubclass(it, tuple):
                yield f"{name}.{member}", parts


def wrong_types(tests, library):
    """Each wrong value is refused by a TypeError or an error of the module, and each right one is taken."""
    rows = rows_of(library)
    calls = dict(calls_of(library))
    tests.expect(list(calls) and set(calls) == set(rows), f"public calls without rows of wrong values, or rows without calls: {set(calls) ^ set(rows)}")
    for name, (call, parts) in rows.items():
        tests.expect(set(calls.get(name, ())) == set(parts), f"{name} takes {calls.get(name)}, and has rows for {list(parts)}")
        right = {part: it for part, (it, _) in parts.items()}
        is_enum = inspect.isclass(call) and issubclass(call, enum.Enum)
        allowed = (ValueError,) if is_enum else (TypeError, library.Error)
        wanted = [(right, None), *(({**right, part: it}, allowed) for part, (_, wrong) in parts.items() for it in wrong)]
        for given, errors in wanted:
            told = raised_by(call, given, is_enum)
            tests.expect(told is None if errors is None else isinstance(told, errors), f"{name} of {given} raises {told!r}")
    state = library.State.first(0x40000000, 1)
    for what in (lambda: delattr(state, "_bytes"), lambda: setattr(state, "_bytes", b""), lambda: delattr(library.NULL, "bits")):
        tests.expect(isinstance(raised_by(what, {}), AttributeError), "a part of a value can be set or deleted")
    tests.expect(bytes(state) == bytes(library.State.first(0x40000000, 1)), "a state has lost its bytes")
    for name, wrong, wanted in TOLD_OF_TYPES:
        told = raised_by(rows[name][0], {calls[name][0]: wrong})
        tests.expect(str(told) == wanted, f"of {name} of {wrong!r} is told: {told}")


def named_errors(tests, library):
    """What has an error of its own is raised by that, also where it is past the width that is passed."""
    state, malloc, reply = library.State.first(0x40000000, 1), library.Command(library.CommandKind.MALLOC), library.Reply(library.ReplyKind.DONE)
    for past in (-1, 2**130):
        for error, call in (
            (library.BadRegister, lambda past=past: state.register(past)), (library.BadAddress, lambda past=past: state.granule(past)),
            (library.BadSize, lambda past=past: library.State.first(0, past)), (library.BadBase, lambda past=past: library.State.first(past, 1)),
            *((library.BadCommand, lambda part=part, past=past: state.step(malloc._replace(**{part: past}))) for part in ("kind", "first", "second", "number")),
            *((library.BadReply, lambda part=part, past=past: state.follow(malloc, reply._replace(**{part: past}))) for part in ("kind", "top", "trap", "exponent")),
            (library.BadReply, lambda past=past: reply._replace(kind=library.ReplyKind.HELD, bytes=past).text),
        ):  # fmt: skip
            told = raised_by(call, {})
            tests.expect(type(told) is error, f"{told!r} is raised for {error}")
    trap = library.Reply(library.ReplyKind.TRAP)
    for call in (lambda: trap.text, lambda: state.follow(malloc, trap)):
        tests.expect(type(raised_by(call, {})) is library.BadReply, "a trap that is none of the traps is told, or may be answered")


def traps(tests, library):
    """A reply has a trap where it is one, and else none."""
    state = library.State.first(0x40000000, 1)
    for line, wanted in (("show c1", None), ("sweep", None), ("free c1", library.Trap.TAG), ("end", library.Trap.NOT_OPEN)):
        for told in (state.step(line)[1], library.Reply.of_text(state.step(line)[1].text), state.step(library.Command(library.CommandKind[line.split()[0].upper()], 1))[1]):
            tests.expect(told.trap is wanted, f"{line} is answered by {told}, whose trap is {told.trap!r}")


def lists(tests, library, examples):
    """The lists of the states of each example's trace have what the library tells of these states, and their changes are those of
    one after the other."""
    tried = {it: 0 for it in ("epoch", "register", "block", "granule", "page")}
    for trace in examples:
        before = None
        for line in trace.splitlines():
            if not line.split("#")[0].strip():
                continue
            after = before.step(line)[0] if before else library.State.first(*(int(it, 0) for it in line.split()[1:3]))
            listed(tests, library, after)
            for change in before.changes(after) if before else []:
                tried[change.part] += 1
            tests.expect(before is None or changed(before, before.changes(after)) == parts_of(after), f"{line} changes {before and before.changes(after)}")
            tests.expect(after.changes(after) == [], f"a state is changed to itself by {after.changes(after)}")
            before = after
    tests.expect(min(tried.values()) > 0, f"the examples change {tried}")


def parts_of(state):
    """A state as a dictionary of what each of its places holds."""
    granules = {("granule", at): state.granule(at) for at in range(state.base, state.base + 4096 * state.pages, 16)}
    registers = {("register", number): state.register(number) for number in range(32)}
    pages = {("page", number): it for number, it in enumerate(state.marks)}
    return {**granules, **registers, **pages, **{("block", it.base): it for it in state.blocks}, ("epoch", 0): state.is_open}


def changed(state, changes):
    """The same with these changes done, each of which has to begin with what is there."""
    parts = parts_of(state)
    for part, place, before, after in changes:
        if parts.pop((part, place), None) != before:
            return None
        if after is not None:
            parts[part, place] = after
    return parts


def listed(tests, library, state):
    blocks, kinds = state.blocks, library.BlockKind
    live = sum(it.top - it.base for it in blocks if it.kind is kinds.LIVE)
    held = sum(it.top - it.base for it in blocks if it.kind is not kinds.LIVE)
    tests.expect((live, held) == (state.live, state.held) and blocks == sorted(blocks), f"{state} has the blocks {blocks}")
    tests.expect(state.is_open or all(it.kind is not kinds.PAINTED for it in blocks), f"{state} has painted blocks: {blocks}")
    tests.expect(state.registers == [state.register(it) for it in range(32)], f"{state} has the registers {state.registers}")
    of_granules = [(at, state.granule(at)) for at in range(state.base, state.base + 4096 * state.pages, 16)]
    wanted = [("register", at, it.word) for at, it in enumerate(state.registers) if it.tag] + [("granule", at, it.word) for at, it in of_granules if it.tag]
    tests.expect([tuple(it) for it in state.tags] == wanted, f"{state} has the tags {state.tags}")
    tests.expect(state.marks == [it == 1 for it in bytes(state)[-state.pages :]] and len(state.marks) == state.pages, f"{state} has the marks {state.marks}")


def types(tests, library):
    """mypy finds nothing wrong in the file."""
    if not shutil.which("mypy"):
        print("skipped: the types of kernelstint.py: no mypy")
        return
    ran = subprocess.run(["mypy", "--strict", "--no-error-summary", f"--cache-dir={tests.scratch / 'mypy'}", library.__file__], capture_output=True, text=True)
    tests.expect(ran.returncode == 0, f"mypy --strict says of kernelstint.py: {ran.stdout}{ran.stderr}")


def raised_by(call, given, is_placed=False):
    """What a call raises, if it does."""
    try:
        call(*given.values()) if is_placed else call(**given)
    except Exception as wrong:  # whatever it is
        return wrong
    return None


def read_back(tests, library):
    """Each reply's text is read back as that reply."""
    tried = set()
    for steps in (REPLIES.splitlines(), [library.Command(library.CommandKind[it]) for it in ("PAINT", "VISIT", "RELEASE", "RELEASE")]):
        state = library.State.first(0x40000000, 1)
        for step in steps:
            state, reply = state.step(step)
            tests.expect(library.Reply.of_text(reply.text) == reply, f"{reply.text} is read as another reply")
            tried.add(reply.kind)
    tests.expect(tried == {*library.ReplyKind}, f"only {tried} were read")


def copies(tests, library):
    """Values and exceptions are the same copied, pickled, and from another process."""
    state, _ = library.State.first(0x40000000, 1).step("malloc c1 20")
    command = library.Command(library.CommandKind.MALLOC, 1, number=20)
    values = [state, state.register(1), state.register(1).word, state.register(1).word.fields, command, *map(library.Reply, library.ReplyKind)]
    values += [library.NULL.corrections, *library.Permission, library.Permission(5), *library.Trap, *library.WhyKind, *library.Claim, *errors_of(library)]
    values += [*library.BlockKind, *state.blocks, *state.tags, *library.State.first(0x40000000, 1).changes(state)]
    ways = [copy.copy, copy.deepcopy, *(lambda it, protocol=protocol: pickle.loads(pickle.dumps(it, protocol)) for protocol in range(pickle.HIGHEST_PROTOCOL + 1))]
    for value in values:
        for number, way in enumerate(ways):
            told = raised_by(lambda: tests.expect(is_same(way(value), value), f"{value!r} is another one by way {number}"), {})
            tests.expect(told is None, f"{value!r} can't be copied by way {number}: {told!r}")
    tests.expect({state: 1}[copy.deepcopy(state)] == 1 and copy.deepcopy([state, state]) == [state, state], "a copy of a state isn't its key")
    broken = pickle.dumps(state).replace(bytes(state)[:13], b"\xff" * 13)
    tests.expect(isinstance(raised_by(lambda: pickle.loads(broken), {}), library.BadState), "bytes that are no state's are unpickled as one")
    with concurrent.futures.ProcessPoolExecutor(1, multiprocessing.get_context("spawn")) as pool:
        after = pool.submit(library.State.step, state, "malloc c2 16").result()
        tests.expect(after == state.step("malloc c2 16"), f"another process does a step to {after}")
        told = raised_by(lambda: pool.submit(library.State.follow, state, command, library.Reply(library.ReplyKind.BLOCK, 0x40000000, 0x40000020)).result(), {})
        tests.expect(is_same(told, raised_by(lambda: state.follow(command, library.Reply(library.ReplyKind.BLOCK, 0x40000000, 0x40000020)), {})), f"another process raises {told!r}")


def is_same(one, other):
    """Whether both are equal, and exceptions in what they say."""
    if isinstance(other, Exception):
        return type(one) is type(other) and one.args == other.args and str(one) == str(other) and vars(one) == vars(other)
    return type(one) is type(other) and one == other


def lines(tests, library, example):
    """A trace is done by the lines of its file, each with its line feed."""
    with open(example / "stdin", encoding="utf-8") as file:
        state, replies = None, []
        for line in file:
            if line.startswith("heap"):
                state = library.State.first(*(int(it, 0) for it in line.split()[1:]))
                continue
            try:
                state, reply = state.step(line) if state else (state, None)
            except library.PassedOver:
                continue
            replies += [reply.text] if reply else []
    report = (example / "stdout").read_text(encoding="utf-8").splitlines()
    told = [line.split(" ", 2)[2] for line in report if line[0].isdigit()]
    tests.expect(len(told) > 3 and replies == told, f"the lines of a file are answered {replies}")


def interface(tests, library):
    """The module's names are its interface, and so is its help."""
    names = {it for it in dir(library) if not it.startswith("_")}
    tests.expect(names == set(library.__all__), f"no part of the interface, or not there: {names ^ set(library.__all__)}")
    told = io.StringIO()
    pydoc.Helper(output=told).help(library)
    for name in library.__all__:
        tests.expect(name in told.getvalue(), f"the help has no {name}")
    for name in HIDDEN:
        tests.expect(name not in told.getvalue(), f"the help tells of {name}")


def all_of(tests, library, example):
    wrong_types(tests, library)
    named_errors(tests, library)
    traps(tests, library)
    lists(tests, library, [(example.parent.parent / it / "stdin").read_text(encoding="utf-8") for it in LISTED])
    types(tests, library)
    read_back(tests, library)
    copies(tests, library)
    lines(tests, library, example)
    faults(tests, library)
    differences(tests, library)
    interface(tests, library)
