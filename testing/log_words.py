"""The text of a log as its heap, its given lines and its events, or its first fault: word by word, by what
docs/DEFINITIONS.md says of the texts of traces and of logs, and with nothing of the crates. A text is a string in which
each byte is a letter (latin-1)."""

import itertools
import re
from typing import NamedTuple

# The most bytes of a log.
LONGEST = 16_777_216
END_OF_ADDRESSES = "0x10000000000000000"


class Fault(Exception):
    """A text is no log: the fault's name and the number of its line, as they are told."""


class Lack(Exception):
    """A line lacks its form: the fault's name."""


class Misfit(Exception):
    """A report isn't that of a trace, and why."""


class Event(NamedTuple):
    """What was asked, and what was answered: words, or of a granule that was seen its tag and its bytes."""

    line: int
    name: str
    operands: list
    answer: list


class Given(NamedTuple):
    line: int
    kind: str
    operands: list


class Log(NamedTuple):
    base: int
    pages: int
    givens: list
    events: list


# ---- lines and words


def lines_of(text):
    """The lines with their numbers. An empty piece after the last line feed is none."""
    pieces = text.split("\n")
    return list(enumerate(pieces if pieces[-1] else pieces[:-1], 1))


def words_of(line):
    return re.findall(r"[^ \t\r]+", line)


def is_passed_over(words):
    return not words or words[0].startswith("#")


def counted(text):
    """The words of each line that isn't passed over, with its number."""
    lines = [(number, words_of(line)) for number, line in lines_of(text)]
    return [(number, words) for number, words in lines if not is_passed_over(words)]


def register_in(word):
    if re.fullmatch("c(0|[1-9][0-9]?)", word) and int(word[1:]) < 32:
        return int(word[1:])
    raise Lack("bad-register")


def number_in(word):
    if re.fullmatch("0x[0-9a-fA-F]{1,16}", word):
        return int(word, 16)
    if re.fullmatch("[0-9]{1,20}", word) and int(word) < 2**64:
        return int(word)
    raise Lack("bad-number")


def mask_in(word):
    mask = number_in(word)
    if mask < 65536:
        return mask
    raise Lack("bad-number")


def page_in(word):
    page = number_in(word)
    if page < 2**32:
        return page
    raise Lack("bad-number")


def place_in(word):
    """What a revoker takes a tag of: a register or the granule at an address."""
    return ("register", register_in(word)) if word.startswith("c") else ("granule", number_in(word))


def data_in(word):
    if re.fullmatch("[0-9a-fA-F]{32}", word):
        return bytes.fromhex(word)
    raise Lack("bad-data")


def tag_in(word):
    if word in ("0", "1"):
        return word == "1"
    raise Lack("bad-number")


def top_in(word):
    return 2**64 if word == END_OF_ADDRESSES else number_in(word)


# ---- what stands in a line

COMMANDS = {
    "malloc": (register_in, number_in),
    "free": (register_in,),
    "copy": (register_in, register_in),
    "setaddr": (register_in, register_in, number_in),
    "narrow": (register_in, register_in, number_in),
    "andperm": (register_in, register_in, mask_in),
    "storecap": (register_in, register_in),
    "loadcap": (register_in, register_in),
    "write": (register_in, data_in),
    "show": (register_in,),
    "sweep": (),
    "begin": (),
    "end": (),
}
# A revoker's own steps, which no trace has.
REVOKER = {"paint": (), "visit": (page_in,), "untag": (place_in,), "release": ()}
ASKED = {**COMMANDS, **REVOKER, "granule": (number_in,)}
GIVEN = {
    "live": (number_in, top_in),
    "waiting": (number_in, top_in),
    "painted": (number_in, top_in),
    "epoch": (),
    "register": (register_in, tag_in, data_in),
    "granule": (number_in, tag_in, data_in),
}
# X64 is a hexadecimal number below 2^64, D32 a decimal one below 2^32, and so on, as reports write them.
ANSWERS = [
    "block X64 X128",
    "block X64 X128 swept D32",
    "nospace",
    "nospace swept D32",
    "held D64",
    "ok",
    "cleared",
    "cleared D32 released D64",
    "cleared D32",
    "tag D1 address X64 base X64 top X128 perms X16 type X32 exponent D8",
]
TRAPS = ["tag", "perm", "bounds", "align", "empty", "inexact", "freed", "notblock", "open", "notopen"]
FORMS = [it.split() for it in ANSWERS] + [["trap", it] for it in TRAPS]
REVOKER_TRAPS = ["open", "notopen", "bounds", "align", "left"]
REVOKER_FORMS = [["ok"], ["cleared", "D32"], ["released", "D64"]] + [["trap", it] for it in REVOKER_TRAPS]
HEXADECIMAL, DECIMAL = re.compile("0x(0|[1-9a-f][0-9a-f]{0,31})"), re.compile("0|[1-9][0-9]{0,19}")
NUMBERS = {f"X{bits}": (HEXADECIMAL, 16, 2**bits) for bits in (16, 32, 64, 128)}
NUMBERS |= {f"D{bits}": (DECIMAL, 10, 2**bits) for bits in (1, 8, 32, 64)}


def is_written(word, form):
    """Whether a word of an answer is what a form has there."""
    if form not in NUMBERS:
        return word == form
    digits, radix, limit = NUMBERS[form]
    return bool(digits.fullmatch(word)) and int(word, radix) < limit


def is_answer(name, words):
    forms = REVOKER_FORMS if name in REVOKER else FORMS
    return any(len(words) == len(form) and words[0] == form[0] and all(map(is_written, words, form)) for form in forms)


def read(words, forms):
    """What the words after a name are, by the form of this name; of several lacks the first."""
    if words[0] not in forms:
        raise Lack("bad-command")
    form = forms[words[0]]
    if len(words) - 1 != len(form):
        raise Lack("bad-count")
    return [each(word) for each, word in zip(form, words[1:])]


def read_given(words):
    if len(words) == 1:
        raise Lack("bad-count")
    return words[1], read(words[1:], GIVEN)


def read_event(words):
    """The name, the operands and the answer of a line. What is wrong before the arrow comes before an answer that lacks."""
    at = words.index("->", 1) if "->" in words[1:] else len(words)
    operands, told = read(words[:at], ASKED), words[at + 1 :]
    if words[0] == "granule" and len(told) == 2:
        try:
            return words[0], operands, [tag_in(told[0]), data_in(told[1])]
        except Lack:
            pass
    elif words[0] != "granule" and is_answer(words[0], told):
        return words[0], operands, told
    raise Lack("bad-answer")


# ---- texts


def read_heap(text):
    """The base and the pages of the heap, and the lines after it that count."""
    lines = counted(text)
    if not lines or lines[0][1][0] != "heap":
        raise Fault(f"no-heap {lines[0][0] if lines else len(lines_of(text)) + 1}")
    number, words = lines[0]
    try:
        base, pages = read(words, {"heap": (number_in, number_in)})
    except Lack:
        raise Fault(f"bad-heap {number}") from None
    if base % 4096 or not 1 <= pages <= 1024 or base + 4096 * pages > 2**64:
        raise Fault(f"bad-heap {number}")
    return base, pages, lines[1:]


def read_log(text):
    if len(text) > LONGEST:
        raise Fault("too-long")
    base, pages, lines = read_heap(text)
    log = Log(base, pages, [], [])
    for number, words in lines:
        try:
            if words[0] == "given" and not log.events:
                log.givens.append(Given(number, *read_given(words)))
            else:
                log.events.append(Event(number, *read_event(words)))
        except Lack as lack:
            raise Fault(f"{lack} {number}") from None
    return log


def read_trace(text):
    """The heap of a trace, and its commands, each with its line, its name and its operands."""
    base, pages, lines = read_heap(text)
    commands = []
    for number, words in lines:
        try:
            commands.append((number, words[0], read(words, COMMANDS)))
        except Lack as lack:
            raise Fault(f"{lack} {number}") from None
    return base, pages, commands


def with_answers(text, answers):
    """The lines of a trace as one text, each with its answer if it has one."""
    return "".join(f"{line} -> {answers[number]}\n" if number in answers else f"{line}\n" for number, line in lines_of(text))


def joined(trace, report):
    """The log of a trace with its own report; the lines of an image after it are granules that were seen at the end."""
    _, _, commands = read_trace(trace)
    told = [line for _, line in lines_of(report)]
    answers = {}
    for (number, name, _), line in itertools.zip_longest(commands, told[: len(commands)]):
        start = f"{number} {name} "
        if line is None or not line.startswith(start):
            raise Misfit(f"where '{start}..' is due the report has {'no line' if line is None else repr(line)}")
        answers[number] = line.removeprefix(start)
    end, image = told[len(commands) : len(commands) + 1], told[len(commands) + 1 :]
    if not end or not re.fullmatch("end live [0-9]+ held [0-9]+ free [0-9]+ tags [0-9]+", end[0]):
        raise Misfit("after the answers no 'end live ..' follows")
    seen = [re.fullmatch("(0x[0-9a-f]+) ([01] [0-9a-f]{32})", line) for line in image]
    if not all(seen):
        raise Misfit("after the report follows what is no image")
    return with_answers(trace, answers) + "".join(f"granule {it[1]} -> {it[2]}\n" for it in seen)
