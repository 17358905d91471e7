"""Logs with one thing wrong, or another that is allowed, made of logs that agree; and logs that begin in the middle of a
run. Of each it is known how what has to be said of it begins, or nothing where `log_model` alone can tell."""

import re
from typing import NamedTuple

from log_model import first_state, follow
from log_state import NULL, capability, is_exact, word_of_data
from log_words import TRAPS, is_answer, lines_of, read_log, words_of

# So many lines come after the one that is wrong, and of so many lines of a log one is made wrong.
AFTER, LOOKED_AT = 6, 60
# Words that are no answer: too few or too many, numbers in other forms or too large, other letters.
NO_ANSWERS = [
    "", "ok ok", "Ok", "done", "->", "-> ok", "block", "block 0x40000000", "block 1073741824 1073741840", "block 0x40000000 0x4000000G",
    "block 0X40000000 0x40000010", "block 0x040000000 0x40000010", "block 0x40000000 0x40000010 swept", "block 0x40000000 0x40000010 swept 01",
    "block 0x40000000 0x40000010 cleared 1", "block 0x4000000A 0x40000010", "block 0x10000000000000000 0x10000000000000010",
    "block 0x40000000 0x100000000000000000000000000000000", "nospace swept", "nospace swept 0x1", "nospace 1", "nospace swept 4294967296",
    "held", "held 032", "held 0x20", "held 18446744073709551616", "held +16", "cleared -1", "cleared 1 released", "cleared 1 released 1 1",
    "cleared 4294967296", "cleared 0 held 0", "trap", "trap nothing", "trap Tag", "trap tag 1", "swept 1", "0 " + "0" * 32, "held " + "1" * 5000,
    "tag 2 address 0x0 base 0x0 top 0x0 perms 0x0 type 0x0 exponent 0", "tag 0 address 0x0 base 0x0 top 0x0 perms 0x10000 type 0x0 exponent 0",
    "tag 0 address 0x0 base 0x0 top 0x0 perms 0x0 type 0x0 exponent 256", "tag 0 address 0x0 top 0x0 base 0x0 perms 0x0 type 0x0 exponent 0",
]  # fmt: skip
# The kinds of wrong given lines that are about words.
WORD_LACKS = ("register", "granule", "where none is")
# Lines that tell nothing, with their faults: what is wrong before the arrow comes first.
FAULTY_LINES = [
    ("free c32 -> nothing", "bad-register"), ("malloc c1 ->", "bad-count"), ("malloc c1 0x -> nothing", "bad-number"), ("write c1 00 -> nothing", "bad-data"),
    ("sweep 1", "bad-count"), ("sweep 1 -> nothing", "bad-count"), ("sweeps ->", "bad-command"), ("heap 0x40000000 1 -> ok", "bad-command"),
    ("granule c1 -> 2", "bad-number"), ("granule -> 0", "bad-count"), ("granule 0x40000000 1 ->", "bad-count"), ("-> ok", "bad-command"), ("-> ->", "bad-command"),
    ("andperm c1 c1 65536 -> ok", "bad-number"), ("setaddr c1 c01 0 -> ok", "bad-register"), ("free c1->held 16", "bad-count"), ("free c1 -> held 16 -> ok", "bad-answer"),
    ("paint 1 -> ok", "bad-count"), ("visit c1 -> ok", "bad-number"), ("visit 4294967296 -> cleared 0", "bad-number"), ("untag c32 -> cleared 0", "bad-register"),
    ("untag x -> cleared 0", "bad-number"), ("release -> cleared 0 released 0", "bad-answer"), ("free c1 -> trap left", "bad-answer"), ("paint -> trap tag", "bad-answer"),
    ("sweep", "bad-answer"), ("sweep ->", "bad-answer"), ("granule 0x40000000", "bad-answer"), ("given epoch", "bad-command"),
]  # fmt: skip
# What no granule holds, and first lines that are no heap.
NO_CONTENTS = ["", "0", f"2 {'0' * 32}", f"01 {'0' * 32}", f"0 {'0' * 31}", f"0 {'0' * 33}", f"0 0x{'0' * 30}", f"0 {'0' * 32} 0", "ok"]
NO_HEAPS = [
    ("heap 0x40000008 1", "bad-heap"), ("heap 0x40000000 0", "bad-heap"), ("heap 0x40000000 1025", "bad-heap"), ("heap 0xfffffffffffff000 2", "bad-heap"),
    ("heap 0x40000000", "bad-heap"), ("heap 0x40000000 1 -> ok", "bad-heap"), ("heap", "bad-heap"), ("given epoch", "no-heap"), ("sweep ->", "no-heap"),
]  # fmt: skip
# Lines that give nothing, with their faults.
NO_GIVENS = [
    ("given", "bad-count"), ("given lives 0 16", "bad-command"), ("given live 0x40000000", "bad-count"), ("given live 0x40000000 0x40000010 1", "bad-count"),
    ("given waiting 0x 0x40000010", "bad-number"), ("given painted 0x40000000 0x10000000000000001", "bad-number"), ("given epoch 1", "bad-count"),
    ("given live 0x10000000000000000 0x10000000000000000", "bad-number"), ("given register c32 0 " + "0" * 32, "bad-register"),
    ("given register c1 2 " + "0" * 32, "bad-number"), ("given register c1 0 " + "0" * 31, "bad-data"), ("given granule c1 1 " + "0" * 32, "bad-number"),
    ("given granule 0x40000000 01 " + "0" * 32, "bad-number"), ("given granule 0x40000000 1", "bad-count"), ("given granule 0x40000000 -> 1 " + "0" * 32, "bad-count"),
]  # fmt: skip


class Trial(NamedTuple):
    """What was done to a log, the log, and how what is said of it begins."""

    what: str
    text: str
    begins: str


def told(lines):
    return "".join(f"{line}\n" for line in lines)


# ---- wrong answers


def wrong_blocks(block, size, state, held):
    """Bounds that a block for this size can't have in place of these, each with what is wrong."""
    base, top = block
    length = top - base
    for kind, blocks in (("live", state.live), *held):
        for other in sorted(blocks)[:1] + sorted(blocks)[-1:]:
            yield f"over the start of a {kind} block", other[0], other[0] + length
            yield f"over the last granule of a {kind} block", other[1] - 16, other[1] - 16 + length
            yield f"up to the first granule of a {kind} block", other[0] + 16 - length, other[0] + 16
    yield "8 bytes further", base + 8, top + 8
    yield "top 8 bytes less", base, top - 8
    yield "empty", base, base
    yield "the top before the base", top, base
    yield "before the heap", state.base - length, state.base
    yield "past the heap", state.top - length + 16, state.top + 16
    yield "a bad address", base ^ 1 << 63, top ^ 1 << 63
    if size > 16:
        yield "a granule too short", base, base + -(-size // 16) * 16 - 16
    if length >= 1 << 14:
        yield "bounds that are not rounded", base + 16, top + 16
    if length > (1 << 14) + 32:
        yield "a top that is not rounded", base, top - 16


def other_blocks(block):
    """Bounds that a block may have in place of these, or not."""
    base, top = block
    for rounded in (32, 512, 4096):
        yield f"the base rounded down to {rounded}", base // rounded * rounded, top
        yield f"the top rounded up to {rounded}", base, -(-top // rounded) * rounded
    yield "a granule further", base + 16, top + 16
    yield "a granule before", base - 16, top - 16
    yield "a granule longer", base, top + 16


def block_answers(event, state):
    """Other answers than a block, and other blocks: what was done, the answer, and whether it is wrong, or None."""
    block, size = tuple(int(it, 16) for it in event.answer[1:3]), event.operands[1]
    after = "".join(f" {it}" for it in event.answer[3:])
    held = (("painted", state.painted),) if after else (("waiting", state.waiting), ("painted", state.painted))
    for what, base, top in wrong_blocks(block, size, state, held):
        yield what, f"block {base:#x} {top:#x}{after}", True
    for what, base, top in other_blocks(block):
        yield what, f"block {base:#x} {top:#x}{after}", None
    told_block = " ".join(event.answer[:3])
    if after:
        yield "a sweep that isn't told", told_block, None
    elif state.may_sweep():
        taken = len(state.due_in("sweep"))
        yield "a sweep that may be told", f"{told_block} swept {taken}", False
        yield "a sweep that may be told, with a tag too many", f"{told_block} swept {taken + 1}", True
    else:
        yield "a sweep that may not be told", f"{told_block} swept 0", True


def malloc_answers(event, state):
    for answer in ("ok", "cleared", "cleared 0", "cleared 0 released 0", "held 16", "trap tag", "tag 0 address 0x0 base 0x0 top 0x0 perms 0x0 type 0x0 exponent 0"):
        yield "no answer of a malloc", answer, True
    if event.answer[0] == "block":
        yield from block_answers(event, state)
        yield "no space", "nospace", False
        return
    if place := state.least_place(event.operands[1]):
        yield "a block where there was none", f"block {place[0]:#x} {place[1]:#x}", False
    if not state.may_sweep():
        yield "no space after a sweep that may not be told", "nospace swept 0", True


def number_answers(answer):
    """The answer with another number of tags or bytes."""
    for found in re.finditer(r"(?<= )[0-9]+\b", answer):
        number = int(found[0])
        for what, other in (("one too many", number + 1), ("one too few", number - 1), ("a granule more", number + 16), ("none", 0), ("twice as many", 2 * number)):
            if other != number:
                yield what, f"{answer[: found.start()]}{other}{answer[found.end() :]}", True


def shown_answers(words):
    """What is shown with another field."""
    for at in range(1, len(words), 2):
        other = f"{int(words[at], 16) ^ 1:#x}" if words[at].startswith("0x") else str(int(words[at]) ^ 1)
        yield f"another {words[at - 1]}", " ".join([*words[:at], other, *words[at + 1 :]]), True


def one_answers(event):
    """Other answers of a command that has one."""
    answer = " ".join(event.answer)
    for name in (*TRAPS, "left"):
        if answer != f"trap {name}":
            yield "another trap" if event.answer[0] == "trap" else "a trap", f"trap {name}", True
    for other in ("ok", "cleared", "held 32", "nospace", "cleared 1 released 16", "cleared 1", "released 16", "block 0x40000000 0x40000010"):
        if other != answer:
            yield "the answer of another command", other, True
    if event.answer[0] == "tag":
        yield from shown_answers(event.answer)


def seen_lines(event, state):
    """Other lines of a granule that was seen."""
    (address,), (tag, data) = event.operands, event.answer
    flipped = bytes([data[0] ^ 1, *data[1:]]).hex()
    yield "another byte", f"granule {address:#x} -> {tag:d} {flipped}", True
    yield "another tag", f"granule {address:#x} -> {not tag:d} {data.hex()}", True
    yield "capital letters", f"granule {address:#x} -> {tag:d} {data.hex().upper()}", False
    yield "another granule", f"granule {state.base:#x} -> {tag:d} {data.hex()}", None
    for other in (address + 8, address + 1, state.base - 16, state.top, 2**64 - 1):
        if 0 <= other < 2**64:
            yield "a granule where none is", f"granule {other:#x} -> {tag:d} {data.hex()}", True


def with_blanks(words, chance):
    """The same line with other blanks between, before and after its words."""
    blank = lambda least: "".join(chance.choices(" \t\r", k=chance.randrange(least, 4)))
    return blank(0) + "".join(word + blank(1) for word in words[:-1]) + words[-1] + blank(0)


def other_lines(event, state, line, chance):
    """Lines in place of one: what was done, the line, and whether it is wrong, or None where that isn't known."""
    yield "other blanks", with_blanks(words_of(line), chance), False
    if event.name == "granule":
        yield from seen_lines(event, state)
        return
    asked, answer = line.partition(" -> ")[0], " ".join(event.answer)
    answers = malloc_answers(event, state) if event.name == "malloc" else one_answers(event)
    for what, other, is_wrong in (*answers, *number_answers(answer)):
        if is_answer(event.name, other.split()):
            yield what, f"{asked} -> {other}", is_wrong
    if event.name == "malloc" and event.answer[0] == "block":
        length = int(event.answer[2], 16) - int(event.answer[1], 16)
        yield "a greater size", f"malloc c{event.operands[0]} {length + 1} -> {answer}", True


def changed_lines(log, lines, chance):
    """All of them for some lines of a log that agrees, each with the number of its line."""
    state, numbers = first_state(log), [event.line for event in log.events]
    looked_at = set(chance.sample(numbers, min(LOOKED_AT, len(numbers))))
    for event in log.events:
        if event.line in looked_at:
            for what, line, is_wrong in other_lines(event, state, lines[event.line - 1], chance):
                yield event.line, what, line, is_wrong
        assert not follow(state, event), (event, "a log that agrees was expected")


def changed_answer(lines, number, what, line, is_wrong):
    before, after = lines[: number - 1], lines[number:]
    if is_wrong is None:
        return Trial(f"{what} in line {number}", told([*before, line, *after]), "")
    if is_wrong:
        return Trial(f"{what} in line {number}", told([*before, line, *after[:AFTER]]), f"differs {number}: ")
    return Trial(f"{what} in line {number}, which may be", told([*before, line]), "agrees ")


def moved_line(lines, chance):
    """A line left out, told twice or told later; what that comes to only a judge can tell."""
    number = chance.randrange(2, len(lines) + 1)
    before, line, after = lines[: number - 1], lines[number - 1], lines[number:]
    what, changed = chance.choice(
        [
            ("left out", [*before, *after]),
            ("told twice", [*before, line, line, *after]),
            ("told later", [*before, *after[:3], line, *after[3:]]),
        ]
    )
    return Trial(f"line {number} {what}", told(changed), "")


def faulty_line(lines, log, chance):
    """A line that has no answer."""
    event = chance.choice(log.events)
    asked = lines[event.line - 1].partition(" -> ")[0]
    answer = chance.choice([None, *(NO_CONTENTS if event.name == "granule" else NO_ANSWERS)])
    changed = list(lines)
    changed[event.line - 1] = asked if answer is None else f"{asked} -> {answer}"
    return Trial(f"line {event.line} is answered by {answer!r:.60}", told(changed), f"fault bad-answer {event.line}\n")


def faults():
    """Each fault of a line, in a log of a few lines."""
    heap, block = "heap 0x40000000 1", "malloc c1 16 -> block 0x40000000 0x40000010"
    for line, fault in NO_HEAPS:
        yield Trial(f"the heap line '{line}'", told(["", line, block]), f"fault {fault} 2\n")
    for line, fault in NO_GIVENS:
        yield Trial(f"the given line '{line:.60}'", told([heap, line, block, "sweep"]), f"fault {fault} 2\n")
    for line, fault in FAULTY_LINES:
        yield Trial(f"the line '{line}'", told([heap, block, line, "sweep"]), f"fault {fault} 3\n")
    for asked, answers in (("free c1", NO_ANSWERS), ("granule 0x40000000", NO_CONTENTS)):
        for answer in answers:
            yield Trial(f"the answer '{answer:.60}'", told([heap, block, f"{asked} -> {answer}", "sweep"]), "fault bad-answer 3\n")
    for text, number in (("", 1), ("#\n\n \t\r\n", 4), ("# no end", 2)):
        yield Trial("no line", text, f"fault no-heap {number}\n")


def line_put_in(lines, log, chance):
    """The same with one more line, after some event."""
    line, fault = chance.choice(FAULTY_LINES)
    number = chance.choice(log.events).line + 1
    return Trial(f"line {number} is '{line}'", told([*lines[: number - 1], line, *lines[number - 1 :]]), f"fault {fault} {number}\n")


def mutants(text, chance, most):
    """So many of the logs with one thing wrong that a log with events gives; what is wrong seldom is as likely as the rest."""
    log, lines, kinds = read_log(text), [line for _, line in lines_of(text)], {}
    for number, what, line, is_wrong in changed_lines(log, lines, chance):
        kinds.setdefault(what, []).append((number, what, line, is_wrong))
    for _ in range(most if kinds else 0):
        yield changed_answer(lines, *chance.choice(kinds[chance.choice(sorted(kinds))]))
    if kinds:
        yield moved_line(lines, chance)
        yield faulty_line(lines, log, chance)
        yield line_put_in(lines, log, chance)


# ---- given states


def given_block(kind, base, top):
    return f"given {kind} {base:#x} {top:#x}"


def given_register(number, word, tag):
    return f"given register c{number} {tag:d} {word.data()}"


def given_granule(address, word, tag):
    return f"given granule {address:#x} {tag:d} {word.data()}"


def givens_of(state, chance):
    """What gives a state, in any order. What is null may be given or not."""
    lines = [given_block(kind, *block) for kind in ("live", "waiting", "painted") for block in getattr(state, kind)]
    lines += ["given epoch"] if state.is_open else []
    for number, (word, tag) in enumerate(state.registers):
        if word is not NULL or tag or chance.randrange(4) == 0:
            lines.append(given_register(number, word, tag))
    lines += [given_granule(address, *cell) for address, cell in state.memory.items()]
    chance.shuffle(lines)
    return lines


def from_the_middle(text, chance):
    """The state somewhere in a log that agrees, as given lines, and the rest of the log."""
    log, lines = read_log(text), [line for _, line in lines_of(text)]
    state, count = first_state(log), chance.randrange(len(log.events) + 1)
    for event in log.events[:count]:
        assert not follow(state, event), (event, "a log that agrees was expected")
    rest = lines[log.events[count].line - 1 :] if count < len(log.events) else []
    head = [f"heap {log.base:#x} {log.pages}", *givens_of(state, chance)]
    return told([*head, *rest])


def wrong_given_blocks(state, base, top):
    """Bounds that no block has, each with what is said of them."""
    yield base + 8, top, "is not whole granules"
    yield base, top + 1, "is not whole granules"
    yield base, base, "is empty"
    yield top, base, "is empty"
    yield state.top - 16, state.top + 16, "lies outside the heap"
    yield state.base - 16, state.base, "lies outside the heap"
    yield 0, 2**64, "lies outside the heap"
    if not is_exact(state.base + 16, state.top):
        yield state.base + 16, state.top, ""


def wrong_words(state):
    """Tagged words whose bounds lie in no block."""
    yield NULL
    for base, top in [*state.live, *state.waiting, *state.painted]:
        for first, last in ((base, top + 16), (base - 16, top), (base, base)):
            if 0 <= first and last <= 2**64 and is_exact(first, last):
                yield capability(first, last)


def wrong_blocks_given(log, state):
    """Lines in place of given blocks, or after all given lines: what is wrong, the number of the line, the line, and what is
    said of it."""
    end = 2 + len(log.givens)
    for line, kind, operands in log.givens:
        if kind not in ("live", "waiting", "painted"):
            continue
        base, top = operands
        for first, last, why in wrong_given_blocks(state, base, top):
            if 0 <= first < 2**64 and 0 <= last <= 2**64:
                said = f"the block {why or 'has bounds that no capability holds'}"
                yield why, line, given_block(kind, first, last), f"unsafe {line}: {said}\n"
        for other in ("live", "waiting"):
            over = f"the block lies over the block {base:#x} {top:#x}, given at line {line}"
            yield "over", end, given_block(other, base, top), f"unsafe {end}: {over}\n"


def wrong_words_given(log, state):
    """The same of given registers and granules."""
    for line, kind, operands in log.givens:
        if kind not in ("register", "granule") or operands[0] == 0:
            continue
        number, given = operands[0], given_register if kind == "register" else given_granule
        for word in wrong_words(state):
            yield kind, line, given(number, word, True), f"unsafe {line}: the word's bounds {word.base:#x} {word.top:#x} lie in no block\n"
        for address in (number + 8, state.base - 16, state.top) if kind == "granule" else ():
            if 0 <= address < 2**64:
                yield "where none is", line, given_granule(address, NULL, False), f"unsafe {line}: no granule of the heap lies at this address\n"


def words_given_again(log):
    """The same of lines behind all given ones that give a register or a granule again, whatever they say of it, or register 0
    another content."""
    end, givens = 2 + len(log.givens), [it for it in log.givens if it.kind in ("register", "granule")]
    for line, kind, (number, tag, data) in givens:
        given, place = (given_register, f"register c{number}") if kind == "register" else (given_granule, f"granule {number:#x}")
        for cell in ((word_of_data(data), tag), (NULL, False)):
            yield "again", end, given(number, *cell), f"unsafe {end}: {place} was given at line {line}\n"
    if not any(kind == "register" and operands[0] == 0 for _, kind, operands in givens):
        for cell in ((NULL, True), (word_of_data(bytes([1, *bytes(15)])), False)):
            yield "register 0", end, given_register(0, *cell), f"unsafe {end}: register c0 is always null\n"


def changed_given(lines, log, chance):
    """A given line left out, of another kind, or with another tag; what that comes to only a judge can tell."""
    givens = [it for it in log.givens if it.kind != "epoch"]
    if not givens:
        return None
    blocks = [it for it in givens if it.kind in ("live", "waiting", "painted")]
    line, kind, _ = chance.choice(chance.choice([givens, blocks or givens]))
    was = lines[line - 1]
    other = {
        "live": was.replace("live", "waiting"),
        "waiting": was.replace("waiting", "live"),
        "painted": was.replace("painted", "live"),
        "register": was.replace(" 1 ", " 0 "),
        "granule": was.replace(" 1 ", " 0 "),
    }[kind]
    changed = chance.choice([[], [other]])
    return Trial(f"given line {line} {'of another kind' if changed else 'left out'}", told([*lines[: line - 1], *changed, *lines[line:]]), "")


def twice_wrong(lines, changes, chance):
    """Two given lines wrong: that of a block is told first, and of two of the same sort the first."""
    one, other = (chance.choice(changes) for _ in range(2))
    if one[1] == other[1] or one[2].split()[:3] == other[2].split()[:3]:
        return None
    changed = list(lines)
    for _, number, line, _ in (one, other):
        changed[number - 1] = line
    _, _, _, begins = min(one, other, key=lambda it: (it[0] in WORD_LACKS, it[1]))
    return Trial(f"wrong given lines {one[1]} and {other[1]}", told(changed), begins)


def wrong_givens(text, chance, most):
    """So many of the logs with one thing wrong in the given lines, of a log whose given lines come right after the heap; and
    some with more."""
    log, lines = read_log(text), [line for _, line in lines_of(text)]
    if not log.givens:
        return
    state, end, kinds = first_state(log), 2 + len(log.givens), {}
    for change in (*wrong_blocks_given(log, state), *wrong_words_given(log, state), *words_given_again(log)):
        kinds.setdefault(change[0], []).append(change)
    for _ in range(most if kinds else 0):
        _, number, line, begins = chance.choice(kinds[chance.choice(sorted(kinds))])
        after = lines[number - 1 if number == end else number :]
        yield Trial(f"a wrong given line {number}", told([*lines[: number - 1], line, *after]), begins)
    changes = [it for changes in kinds.values() for it in changes if it[1] != end]
    if changes and (twice := twice_wrong(lines, changes, chance)):
        yield twice
    if changed := changed_given(lines, log, chance):
        yield changed
    line, fault = chance.choice(NO_GIVENS)
    number = chance.randrange(2, end + 1)
    yield Trial(f"given line {number} is '{line:.60}'", told([*lines[: number - 1], line, *lines[number - 1 :]]), f"fault {fault} {number}\n")
    if log.events:
        number = log.events[0].line + 1
        yield Trial(f"line {number} gives something after an event", told([*lines[: number - 1], "given epoch", *lines[number - 1 :]]), f"fault bad-command {number}\n")
