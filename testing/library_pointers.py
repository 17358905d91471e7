"""What testing/library tries of bindings/c/pointers.c: each pointer of each function null, and each two of its places over one
another by a byte, at both ends, touching, and one of no bytes inside another; and each machine held where none may be, and none
where one has to be. Nothing may be written beside a code. The table (calls_of) has all that is tried,
and is held to the header, so that a function with pointers, or a pointer, without a row fails. Then a pointers.c of which one
test is left out or changed is made for each of its tests, and fails just the rows of that test.

usage: library_pointers.py LIBRARY FUNCTION ..

By itself it prints the rows of each function of the library before it: the number of the two words, `right` or `wrong`, the row."""

import concurrent.futures
import ctypes
import itertools
import os
import pathlib
import re
import resource
import signal
import subprocess
import sys
from typing import NamedTuple

ROOT = pathlib.Path(__file__).resolve().parent.parent
BASE = 0x40000000
# As the header has them.
DONE, NULL, OVERLAP, NO_MACHINE, IS_OPEN = 0, 4, 19, 20, 21
# How far places that have nothing to do with one another begin apart, which is more than two of them are long; and what stands
# where nothing was written.
APART, UNWRITTEN = 16384, 0xA5


class Place(NamedTuple):
    """A place that a call is handed: its name and length in the header, and what is read there. A record is passed without its
    length, and lies where structs may."""

    name: str
    length: int
    data: bytes = b""
    is_written: bool = False
    is_record: bool = False
    # Of a machine: what stands there where it is refused, and the code of that.
    refused: tuple = ()


def read(name, data):
    return Place(name, len(data), data)


def written(name, room):
    """A room of so many bytes, or for a record of this type."""
    return Place(name, room, is_written=True) if isinstance(room, int) else Place(name, ctypes.sizeof(room), is_written=True, is_record=True)


def machines_of(library, first):
    """A machine that is held, where one has to be, and a place without one, where one is made."""
    record = library._Machine()
    library._library.kernelstint_machine_open(first, len(first), record)
    held, none = bytes(record), bytes(ctypes.sizeof(record))
    place = written("machine", library._Machine)
    return place._replace(data=held, refused=(none, NO_MACHINE)), place._replace(data=none, refused=(held, IS_OPEN))


def calls_of(library):
    """Each function that is given pointers, with what it takes in a call that is answered by the code 0."""
    first = bytes(library.State.first(BASE, 1))
    state, out, report = read("state", first), written("out", len(first)), written("out", 4000)
    malloc, block = library._Command(library.CommandKind.MALLOC, 1, number=20), library._Reply(library.ReplyKind.BLOCK, base=BASE, top=BASE + 32)
    line, trace = read("line", b"malloc c1 20"), read("trace", b"heap 0x40000000 1\nmalloc c1 20\n")
    machine, none = machines_of(library, first)
    count, word, fault = written("count", ctypes.c_size_t), written("word", library._TaggedWord), written("fault", library._Fault)
    return {
        "word_from_bytes": (read("bytes", bytes(16)),),
        "word_to_bytes": (library.NULL._passed, written("bytes", 16)),
        "first": (BASE, 1, out),
        "step": (state, malloc, out, written("reply", library._Reply)),
        "follow": (state, malloc, block, out, written("why", library._Why)),
        "step_line": (state, line, out, written("text", library._LONGEST_REPLY), count),
        "counts": (state, written("counts", library._Counts)),
        "register": (state, 1, word),
        "granule": (state, BASE, word),
        "run": (trace, report, count),
        "states": (trace, report, count),
        "trace_fault": (trace, fault),
        "line_fault": (line, fault),
        "machine_open": (state, none),
        "machine_step": (machine, malloc, written("reply", library._Reply)),
        "machine_copy": (machine._replace(is_written=False), none._replace(name="copy")),
        "machine_bytes": (machine._replace(is_written=False), out),
        "machine_close": (machine,),
    }


# ---- the rows


class Row(NamedTuple):
    """A call with its places put somewhere: where each begins, None being null; the lengths that are passed; whether its code is
    the one that is wanted, and whether another than 0 may come with something written."""

    name: str
    at: list
    lengths: list
    is_wanted: object
    may_write: bool = False
    # What stands at the places of these numbers in place of their own.
    instead: dict = {}


def pairs_of(places):
    """Each two places that may not lie over one another."""
    return [(one, other) for one, other in itertools.combinations(places, 2) if one.is_written or other.is_written]


def null_rows(place):
    return {f"{place.name} null"} | (set() if place.is_record else {f"{place.name} null beside 0"})


def refused_row(place):
    return f"{place.name} with {'one' if place.refused[1] == IS_OPEN else 'none'}"


def over_rows(*pairs):
    return {f"{first.name} into {second.name}" for pair in pairs for first, second in (pair, pair[::-1])}


def rows_of(places):
    """The rows of a call: each place null, and each reaching one byte into each other, and up to it."""
    at, lengths = [APART * (number + 1) for number in range(len(places))], [it.length for it in places]
    yield Row("apart", at, lengths, lambda code: code == DONE)
    for number, place in enumerate(places):
        nowhere = [*at[:number], None, *at[number + 1 :]]
        yield Row(f"{place.name} null", nowhere, lengths, lambda code: code == NULL)
        if not place.is_record:
            yield Row(f"{place.name} null beside 0", nowhere, [*lengths[:number], 0, *lengths[number + 1 :]], lambda code: code == NULL)
        if place.refused:
            data, wanted = place.refused
            yield Row(refused_row(place), at, lengths, lambda code, wanted=wanted: code == wanted, instead={number: data})
    for first, second in itertools.permutations(range(len(places)), 2):
        names = places[first].name, places[second].name
        is_refused = places[first].is_written or places[second].is_written
        # Two places that are read alone may share a byte, though what stands there may then be no state and no line.
        yield Row("{} into {}".format(*names), beside(places, at, first, second, 1), lengths, lambda code, is_refused=is_refused: (code == OVERLAP) == is_refused and code != NULL)
        yield Row("{} up to {}".format(*names), beside(places, at, first, second, 0), lengths, lambda code: code == DONE)
        if not places[first].is_record:
            inside, empty = [*at], [*lengths]
            inside[first], empty[first] = at[second] + 1, 0
            yield Row("{} of 0 bytes in {}".format(*names), inside, empty, lambda code: code not in (NULL, OVERLAP), True)


def beside(places, at, first, second, common):
    """Where places begin, of which the first ends so many bytes into the second. A record stays, since it has to be aligned."""
    moved = [*at]
    if places[first].is_record:
        moved[second] = at[first] + places[first].length - common
    else:
        moved[first] = at[second] - places[first].length + common
    return moved


def is_right(function, taken, row):
    """Whether the call is answered as the row wants it, and writes nothing but what it may."""
    places = [it for it in taken if isinstance(it, Place)]
    before = bytearray(bytes([UNWRITTEN]) * (APART * (len(places) + 1)))
    for number, (place, at) in enumerate(zip(places, row.at)):
        if at is not None:
            data = row.instead.get(number, place.data)
            before[at : at + len(data)] = data
    memory, handed = ctypes.create_string_buffer(bytes(before)), iter(zip(row.at, row.lengths))
    passed = []
    for it in taken:
        if isinstance(it, Place):
            at, length = next(handed)
            passed += [at and ctypes.addressof(memory) + at, *([] if it.is_record else [length])]
        else:
            passed.append(it)
    answer = function(*passed)
    code, after = getattr(answer, "code", answer), memory.raw[:-1]
    for place, at in zip(places, row.at):
        if (code == DONE or row.may_write) and place.is_written:
            before[at : at + place.length] = after[at : at + place.length]
    return row.is_wanted(code) and bytes(before) == after


def is_right_apart(function, taken, row):
    """The same in a process of its own, where a call may end by a signal, or not at all."""
    process = os.fork()
    if process == 0:
        resource.setrlimit(resource.RLIMIT_CORE, (0, 0))
        signal.alarm(60)
        is_so = False
        try:
            is_so = is_right(function, taken, row)
        finally:
            os._exit(0 if is_so else 1)
    return os.waitpid(process, 0)[1] == 0


def tell(library, asked):
    types, calls = {name: (answer, taken) for name, answer, taken in library._FUNCTIONS}, calls_of(library)
    for number, (path, name) in enumerate(zip(asked[::2], asked[1::2])):
        function = ctypes.CDLL(path)[f"kernelstint_{name}"]
        function.restype = types[name][0]
        function.argtypes = [ctypes.c_void_p if it is ctypes.c_char_p or hasattr(it, "contents") else it for it in types[name][1]]
        for row in rows_of([it for it in calls[name] if isinstance(it, Place)]):
            print(number, "right" if is_right_apart(function, calls[name], row) else "wrong", row.name, flush=True)


def told_by(asked):
    """Of each library and function its rows, and whether each is right."""
    command = [sys.executable, "-B", __file__, *(str(word) for pair in asked for word in pair)]
    ran = subprocess.run(command, capture_output=True, text=True, env={**os.environ, "PYTHONPATH": str(ROOT / "bindings" / "python")})
    if ran.returncode != 0:
        return [{f"no row, but status {ran.returncode} and {ran.stderr}": False}] * len(asked)
    told = [{} for _ in asked]
    for number, is_so, row in (line.split(" ", 2) for line in ran.stdout.splitlines()):
        told[int(number)][row] = is_so == "right"
    return told


# ---- the table, held to the header


def pointers_in(header):
    """Each function of the header that is given pointers: of each its name, whether it is written, and whether it is a record."""
    found = {}
    for name, taken in re.findall(r"^[a-z]\w+ \*?kernelstint_(\w+)\(([^()]*)\);", header, re.M):
        parts = [re.fullmatch(r"(const )?(\w+) (\*?)(\w+)", " ".join(it.split())) for it in taken.split(",") if it.strip() != "void"]
        pointers = [(it[4], it[1] is None, it[2] != "uint8_t") for it in parts if it[3]]
        if pointers:
            found[name] = pointers
    return found


# ---- a pointers.c without one of its tests


class Change(NamedTuple):
    """A pointers.c that is changed in a function, and the rows of that function that have to fail."""

    name: str
    what: str
    text: str
    rows: set


class Tested:
    """What a function of pointers.c tests: the entries of its TEST_PLACES, each its kind, its pointer and its length; of a
    function with one pointer it may be a line that asks for null."""

    def __init__(self, source, name, places):
        begun = source.index(f" kernelstint_{name}(", source.index("#define TEST_PLACES"))
        self.source, self.name, self.places, self.pairs = source, name, places, pairs_of(places)
        self.body = source[begun : source.index("\n}\n", begun)]
        self.line = re.search(r"    if \((\w+) == NULL\) return [^;]*;\n", self.body)
        self.test = re.search(r"TEST_PLACES\(([^;]*)\);", self.body)
        self.entries = re.findall(r"(READ|WRITTEN)\((\w+), ([^()]*)\)", self.test[1]) if self.test else []

    def changes(self):
        """The changes of these tests; none where they have another form."""
        names = [it.name for it in self.places]
        if self.line and [self.line[1]] == names:
            yield self.change("without its test of null", self.line[0], "", null_rows(self.places[0]))
        elif [it[1] for it in self.entries] == names:
            if self.pairs:
                yield self.tested("without its test of overlap", *([it] for it in self.entries), rows=over_rows(*self.pairs))
            for number in range(len(self.entries)):
                yield from self.of_entry(number, *self.entries[number])
            for place in self.places:
                if place.refused:
                    line = re.search(rf"    if \({place.name}->at [!=]= NULL\) return [^;]*;\n", self.body)
                    yield self.change(f"without its test of what {place.name} holds", line[0] if line else "no such line", "", {refused_row(place)})
            for one, other in self.pairs if len(self.pairs) > 1 else ():
                parts = self.without(one.name), self.without(other.name)
                yield self.tested(f"without the test of {one.name} over {other.name}", *parts, rows=over_rows((one, other)))

    def of_entry(self, number, kind, pointer, length):
        """The changes of an entry: it is left out, its kind is turned where that says something, and its length is wrong."""
        mine = [it for it in itertools.combinations(self.places, 2) if self.places[number] in it]
        tested = [it for it in mine if it in self.pairs]
        yield self.tested(f"without {pointer}", self.without(pointer), rows=null_rows(self.places[number]) | over_rows(*tested))
        turned = [it for it in mine if sum(place.is_written for place in it) == (kind == "WRITTEN")]
        if turned:
            other = "READ" if kind == "WRITTEN" else "WRITTEN"
            yield self.tested(f"with {other} for {pointer}", self.without(pointer, (other, pointer, length)), rows=over_rows(*turned))
        for more, how in ((" - 1", "into"), (" + 1", "up to")) if tested else ():
            others = {place.name for pair in tested for place in pair} - {pointer}
            rows = {f"{pointer} {how} {other}" for other in others}
            # A byte less than none is all that is behind.
            reached = {it.name for it in self.places} - {pointer} if how == "into" else others
            rows |= set() if self.places[number].is_record else {f"{pointer} of 0 bytes in {other}" for other in reached}
            yield self.tested(f"with {length}{more} for {pointer}", self.without(pointer, (kind, pointer, length + more)), rows=rows)

    def without(self, pointer, *instead):
        """The entries without that of a pointer, or with another in its place."""
        return [it for entry in self.entries for it in ([entry] if entry[1] != pointer else instead)]

    def tested(self, what, *tests, rows):
        """The function with these tests, each a list of entries, in place of its own."""
        texts = ["TEST_PLACES({});".format(", ".join("{}({}, {})".format(*it) for it in test)) for test in tests if test]
        return self.change(what, self.test[0], " ".join(texts), rows)

    def change(self, what, old, new, rows):
        return Change(self.name, what, self.source.replace(self.body, self.body.replace(old, new)), rows)


def made_with(tests, number, change, proved):
    """A library with this pointers.c; None where it can't be compiled."""
    source, made = tests.scratch / f"pointers_{number}.c", tests.scratch / f"pointers_{number}.so"
    source.write_text(change.text, encoding="utf-8")
    return made if tests.runs(["cc", "-std=c11", "-shared", "-fPIC", f"-I{ROOT / 'include'}", source, proved, "-o", made]) else None


def all_of(tests, library, header):
    calls = {name: [it for it in taken if isinstance(it, Place)] for name, taken in calls_of(library).items()}
    table = {name: [(it.name, it.is_written, it.is_record) for it in places] for name, places in calls.items()}
    declared = pointers_in(header)
    for name in declared.keys() | table.keys():
        tests.expect(declared.get(name) == table.get(name), f"pointers of {name}: the header has {declared.get(name)}, and testing/library_pointers.py {table.get(name)}")
    for name, rows in zip(calls, told_by([(ROOT / "out" / "libkernelstint.so", name) for name in calls])):
        for row, is_so in rows.items():
            tests.expect(is_so, f"pointers of {name}: {row}")
    if tests.is_portable():
        print("left out: changes of the tests in bindings/c/pointers.c, which stand over the native build")
    else:
        without_tests(tests, calls)


def without_tests(tests, calls):
    """Each change of pointers.c fails just the rows that it has to, and what isn't changed none."""
    source, proved = (ROOT / "bindings" / "c" / "pointers.c").read_text(encoding="utf-8"), tests.scratch / "proved.so"
    archive, allocator = ROOT / "crates" / "kernelstint" / "out" / "libkernelstint.a", ROOT / "bindings" / "c" / "allocator.c"
    if not tests.runs(["cc", "-std=c11", "-shared", "-fPIC", allocator, "-Wl,--whole-archive", archive, "-Wl,--no-whole-archive", "-o", proved]):
        tests.expect(False, "the proved functions make no library without bindings/c/pointers.c")
        return
    changes = []
    for name, places in calls.items():
        made = [*Tested(source, name, places).changes()]
        tests.expect(made, f"bindings/c/pointers.c tests the pointers of {name} otherwise than by TEST_PLACES, so no test can be left out")
        changes += [Change(name, "as it is", source, set()), *made]
    with concurrent.futures.ThreadPoolExecutor(os.cpu_count()) as pool:
        made = [*pool.map(lambda it: made_with(tests, *it, proved), enumerate(changes))]
        asked = [(path, change.name) for path, change in zip(made, changes) if path]
        tests.expect(len(asked) == len(changes), f"{len(changes) - len(asked)} changes of bindings/c/pointers.c can't be compiled")
        parts = [asked[first :: os.cpu_count()] for first in range(os.cpu_count())]
        told = {path: rows for part, rows_of_part in zip(parts, pool.map(told_by, parts)) for (path, _), rows in zip(part, rows_of_part)}
    for path, change in zip(made, changes):
        failed = {row for row, is_so in told.get(path, {}).items() if not is_so}
        tests.expect(failed == change.rows, f"bindings/c/pointers.c {change.what}, in {change.name}: the rows {sorted(failed)} fail in place of {sorted(change.rows)}")
    print(f"tried: {len(changes) - len(calls)} changes of the tests in bindings/c/pointers.c, which its rows refuse")


if __name__ == "__main__":
    import kernelstint

    tell(kernelstint, sys.argv[1:])
