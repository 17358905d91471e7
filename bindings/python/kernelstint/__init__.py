"""Capability words of 64-bit CHERI-RISC-V (CHERI Concentrate), and a machine whose heap is safe in time, by the proved library
libkernelstint.so.

    >>> from kernelstint import Permission, block_capability
    >>> block = block_capability(0x40000000, 0x40000020)
    >>> hex(block.base), hex(block.top), block.is_allowed(Permission.LOAD)
    ('0x40000000', '0x40000020', True)
    >>> block.set_bounds(0x40000010, 0x40000020)
    (Word(0x003d0000040980140000000040000010), True)

The library is the file that the environment variable KERNELSTINT_LIBRARY names; else the one beside this file, as pip installs
it; else out/libkernelstint.so of the repository in which this file lies, where ./library makes it. What is proved is said of its
functions in include/kernelstint.h; this file is trusted to hand them on. Numbers past their widths are refused here, since ctypes would
cut them."""

from __future__ import annotations

import ctypes as _ctypes
import dataclasses as _dataclasses
import enum as _enum
import operator as _operator
import os as _os
import pathlib as _pathlib
import struct as _struct
from typing import Any as _Any, Callable as _Callable, Iterator as _Iterator, Literal as _Literal, NamedTuple as _NamedTuple, NoReturn as _NoReturn

# What is imported is no part of the interface.
del annotations

__all__ = [
    "BadAddress", "BadBase", "BadBounds", "BadCommand", "BadFields", "BadLength", "BadLine", "BadNumber", "BadRegister",
    "BadReply", "BadSize", "BadState", "BadTrace", "Block", "BlockKind", "Change", "Claim", "Closed", "Command", "CommandKind", "Corrections",
    "Differs", "Error", "Fields", "LibraryError", "Machine", "NULL", "NoMemory", "OtherHeap", "PassedOver", "Permission", "Reply",
    "ReplyKind", "State", "Tag", "TaggedWord", "Trap", "VERSION", "Why", "WhyKind", "Word", "alignment_mask", "block_capability",
    "representable_length", "run", "states",
]  # fmt: skip

#: The version of the library that this file is for: major, minor, patch.
VERSION = (0, 1, 0)


# Of an exception and of a list of names `dir`, and so `help`, tells what stands here, and not what each number and exception has.
class _OwnNames(type):
    def __dir__(cls) -> list[str]:
        return [name for it in cls.__mro__ if it.__module__ == __name__ for name in vars(it)]


class _OwnMembers(_enum.EnumMeta):
    def __dir__(cls) -> list[str]:
        return [*cls.__members__]


class Error(Exception, metaclass=_OwnNames):
    """What this module raises, by one of its subclasses."""


class LibraryError(Error):
    """The library is not there, or is of another version."""


class BadLength(Error, ValueError):
    """The bytes of a word are not 16."""


class BadFields(Error, ValueError):
    """A field is past its width."""


class BadBounds(Error, ValueError):
    """Bounds begin below 0, end before they begin, or end past 2^64."""


class BadNumber(Error, ValueError):
    """A number is below 0, or has more bits than are passed of it, and no other error has a name for that."""


class BadState(Error, ValueError):
    """Bytes are no state's."""


class BadSize(Error, ValueError):
    """No heap has so many pages: 1 to 1,024."""


class BadBase(Error, ValueError):
    """The base is no multiple of 4,096, or the end of the heap is past 2^64."""


class BadRegister(Error, ValueError):
    """A register below 0, or of 32 or more."""


class BadAddress(Error, ValueError):
    """No granule starts at the address."""


class OtherHeap(Error, ValueError):
    """Two states are of two heaps: the base or the size of one is another."""


class PassedOver(Error, ValueError):
    """A line has no word, or is a comment, and so is no command."""


class BadLine(Error, ValueError):
    """A line is no command: `fault` says what is wrong with it, by the name that a report has for it."""

    def __init__(self, wrong: str, fault: str) -> None:
        super().__init__(wrong, fault)
        self.fault = fault

    def __str__(self) -> str:
        return f"{self.args[0]}: {self.fault}"


class NoMemory(Error, MemoryError):
    """The library could get no memory."""


class Closed(Error, ValueError):
    """The machine was closed."""


class BadCommand(Error, ValueError):
    """No kind of command has this number, a register is 32 or more, a mask has more than 16 bits, or a number is past its width."""


class BadReply(Error, ValueError):
    """No kind of reply or no trap has this number, a tag that is shown is above 1, a number is past its width, or a text is no
    reply's."""


class BadTrace(Error, ValueError):
    """A text is no trace: `fault` says what is wrong first, by the name that a report has for it, and `line` in which line, from
    1, or 0 where the text is too long."""

    def __init__(self, fault: str, line: int) -> None:
        super().__init__(fault, line)
        self.fault, self.line = fault, line

    def __str__(self) -> str:
        return f"the text is no trace: {self.fault}" + (f" in line {self.line}" if self.line else "")


class Differs(Error):
    """An answer is not allowed: `why` says for what reason, and `answer` is that answer. It is told in the words of heap_check,
    which `is_open` decides where no sweep may be told: an epoch is open, or no block waits."""

    def __init__(self, why: Why, answer: Reply, is_open: bool) -> None:
        super().__init__(why, answer, is_open)
        self.why, self.answer, self.is_open = why, answer, is_open

    def __str__(self) -> str:
        said, block = f", and the log says {self.answer.text}", f"block {self.answer.base:#x} {self.answer.top:#x}"
        way = f"block {self.why.base:#x} {self.why.top:#x}"
        refused: dict[int, str] = {
            Claim.UNEVEN: "is not whole granules", Claim.EMPTY: "is empty", Claim.OUTSIDE: "lies outside the heap",
            Claim.INEXACT: "has bounds that no capability holds", Claim.OVER_LIVE: f"lies over the live {way}",
            Claim.OVER_HELD: f"lies over the held {way}",
        }  # fmt: skip
        tags = f"{self.why.tags} tag" + ("" if self.why.tags == 1 else "s")
        return {
            WhyKind.MUST_BE: f"the answer must be {self.why.reply.text}{said}",
            WhyKind.NOT_OF_MALLOC: f"a malloc is answered by a block or by nospace{said}",
            WhyKind.TOO_SHORT: f"{block} is shorter than the size asked for",
            WhyKind.MAY_NOT_SWEEP: f"no sweep may be told: {'an epoch is open' if self.is_open else 'no block waits'}",
            WhyKind.TAKES: f"the sweep takes {tags}{said}",
            WhyKind.REFUSED: f"{block} {refused.get(self.why.claim)}",
        }[self.why.kind]


class Permission(_enum.IntFlag, metaclass=_OwnMembers):
    """Permissions of a word, each by its bit."""

    GLOBAL = 0x1
    LOAD = 0x4
    STORE = 0x8
    LOAD_CAPABILITY = 0x10
    STORE_CAPABILITY = 0x20


class CommandKind(_enum.IntEnum, metaclass=_OwnMembers):
    """The kinds of commands, and those of a revoker's own steps: a page is visited, or a granule or a register loses its tag, where
    the word's base lies in a painted block."""

    MALLOC, FREE, COPY, SETADDR, NARROW, ANDPERM, STORECAP, LOADCAP, WRITE, SHOW, SWEEP, BEGIN, END = range(13)
    PAINT, VISIT, UNTAG, UNTAG_REGISTER, RELEASE = range(13, 18)


class ReplyKind(_enum.IntEnum, metaclass=_OwnMembers):
    """The kinds of replies."""

    BLOCK, BLOCK_AFTER, NO_SPACE, NO_SPACE_AFTER, HELD, DONE, CLEARED, SWEPT, BEGUN, SHOWN, TRAP, RELEASED = range(12)


class Trap(_enum.IntEnum, metaclass=_OwnMembers):
    """The traps."""

    TAG, PERM, BOUNDS, ALIGN, EMPTY, INEXACT, FREED, NOT_BLOCK, OPEN, NOT_OPEN, LEFT = range(11)


class WhyKind(_enum.IntEnum, metaclass=_OwnMembers):
    """Why an answer is not allowed."""

    MUST_BE, NOT_OF_MALLOC, TOO_SHORT, MAY_NOT_SWEEP, TAKES, REFUSED = range(6)


class Claim(_enum.IntEnum, metaclass=_OwnMembers):
    """Why a block's place is refused."""

    UNEVEN, EMPTY, OUTSIDE, INEXACT, OVER_LIVE, OVER_HELD = range(1, 7)


class BlockKind(_enum.IntEnum, metaclass=_OwnMembers):
    """What a block is: live, freed and not yet painted, or freed and painted."""

    LIVE, HELD, PAINTED = range(1, 4)


class Command(_NamedTuple):
    """A command: registers in the order of a trace's line, `number` as its size, address, length, mask or page, and the 16
    bytes of a write. What a kind does not use may have any value of its type."""

    kind: CommandKind
    first: int = 0
    second: int = 0
    number: int = 0
    data: bytes = bytes(16)


class Reply(_NamedTuple):
    """What a command was answered, as include/kernelstint.h has it. What its kind does not tell is 0, and of a trap None."""

    kind: ReplyKind
    base: int = 0
    top: int = 0
    cleared: int = 0
    bytes: int = 0
    trap: Trap | None = None
    address: int = 0
    otype: int = 0
    perms: int = 0
    tag: bool = False
    exponent: int = 0

    @property
    def text(self) -> str:
        """The reply as a report has it. Raises BadReply."""
        trap, is_trap = _passed_reply(self).trap, self.kind == ReplyKind.TRAP
        if self.kind not in _REPLY_KINDS or is_trap and trap >= len(_TRAP_NAMES) or self.kind == ReplyKind.SHOWN and self.tag > 1:
            raise BadReply(f"no reply is {tuple(self)}")
        if is_trap:
            return f"trap {_TRAP_NAMES[trap]}"
        block = f"block {self.base:#x} {self.top:#x}"
        shown = f"tag {int(self.tag)} address {self.address:#x} base {self.base:#x} top {self.top:#x} perms {self.perms:#x} type {self.otype:#x} exponent {self.exponent}"
        return {
            ReplyKind.BLOCK: block, ReplyKind.BLOCK_AFTER: f"{block} swept {self.cleared}", ReplyKind.NO_SPACE: "nospace",
            ReplyKind.NO_SPACE_AFTER: f"nospace swept {self.cleared}", ReplyKind.HELD: f"held {self.bytes}", ReplyKind.DONE: "ok",
            ReplyKind.CLEARED: "cleared", ReplyKind.SWEPT: f"cleared {self.cleared} released {self.bytes}",
            ReplyKind.BEGUN: f"cleared {self.cleared}", ReplyKind.SHOWN: shown, ReplyKind.RELEASED: f"released {self.bytes}",
        }[self.kind]  # fmt: skip

    @classmethod
    def of_text(cls, text: str) -> Reply:
        """The reply that a report has as this text, to the letter. Raises BadReply."""
        _instance(text, str, "the text of a reply")
        try:
            told = cls._told_by(text)
            is_text = told.text == text
        except (ValueError, LookupError, TypeError) as wrong:
            raise BadReply(f"no reply has the text {text!r}") from wrong
        if not is_text:
            raise BadReply(f"no reply has the text {text!r}, though one has {told.text!r}")
        return told

    @classmethod
    def _told_by(cls, text: str) -> Reply:
        """The reply of the text of one."""
        name, *words = text.split()
        if name == "trap":
            return cls(ReplyKind.TRAP, trap=Trap(_TRAP_NAMES.index(words[0])))
        if name == "tag":
            words = [name, *words]
            told = {key: int(value, 0) for key, value in zip(words[::2], words[1::2])}
            base, top, address, otype, perms, exponent = (told[it] for it in ("base", "top", "address", "type", "perms", "exponent"))
            return cls(ReplyKind.SHOWN, base, top, address=address, otype=otype, perms=perms, tag=told["tag"] == 1, exponent=exponent)
        numbers = [int(it, 0) for it in words if it[0].isdigit()]
        kind = _KINDS[name, len(numbers)]
        told = dict(zip(_TOLD[kind], numbers))
        base, top, cleared, count = (told.get(it, 0) for it in ("base", "top", "cleared", "bytes"))
        return cls(kind, base, top, cleared, count)


_REPLY_KINDS = {*ReplyKind}
_TRAP_NAMES = [it.name.lower().replace("_", "") for it in Trap]
# The kinds of the other replies, by their first word and how many numbers stand behind it, and what these numbers are.
_KINDS = {
    ("block", 2): ReplyKind.BLOCK, ("block", 3): ReplyKind.BLOCK_AFTER, ("nospace", 0): ReplyKind.NO_SPACE,
    ("nospace", 1): ReplyKind.NO_SPACE_AFTER, ("held", 1): ReplyKind.HELD, ("ok", 0): ReplyKind.DONE,
    ("cleared", 0): ReplyKind.CLEARED, ("cleared", 2): ReplyKind.SWEPT, ("cleared", 1): ReplyKind.BEGUN, ("released", 1): ReplyKind.RELEASED,
}  # fmt: skip
_TOLD: dict[ReplyKind, tuple[str, ...]] = {
    ReplyKind.BLOCK: ("base", "top"), ReplyKind.BLOCK_AFTER: ("base", "top", "cleared"), ReplyKind.NO_SPACE: (),
    ReplyKind.NO_SPACE_AFTER: ("cleared",), ReplyKind.HELD: ("bytes",), ReplyKind.DONE: (), ReplyKind.CLEARED: (),
    ReplyKind.SWEPT: ("cleared", "bytes"), ReplyKind.BEGUN: ("cleared",), ReplyKind.RELEASED: ("bytes",),
}  # fmt: skip


class Why(_NamedTuple):
    """Why an answer is not allowed: what it must be, how many tags a sweep takes, or why a block's place is refused (a Claim, else
    0), and the bounds of the block that is in the way."""

    kind: WhyKind
    claim: Claim | int
    tags: int
    base: int
    top: int
    reply: Reply


class TaggedWord(_NamedTuple):
    """A word, and its tag."""

    word: Word
    tag: bool


class Tag(_NamedTuple):
    """A tagged word, and where it is: in the register of this number, or in the granule at this address."""

    part: _Literal["register", "granule"]
    place: int
    word: Word


class Block(_NamedTuple):
    """A block: the bytes from the base on, before the top."""

    base: int
    top: int
    kind: BlockKind


class Change(_NamedTuple):
    """What is another thing in another state: whether an epoch is open, at the place 0; what a register holds, by its number; the
    block that starts at an address, or None; what the granule at an address holds; or whether a page is dirty, by its number."""

    part: _Literal["epoch", "register", "block", "granule", "page"]
    place: int
    before: bool | TaggedWord | Block | None
    after: bool | TaggedWord | Block | None


class Fields(_NamedTuple):
    """The fields of a word, in register form, in the order of their bits, and the address."""

    perms: int
    reserved: int
    flag: bool
    otype: int
    internal: bool
    top12: int
    base14: int
    address: int


class Corrections(_NamedTuple):
    """By how many windows base and top lie apart from what the address's upper bits say: -1, 0 or 1 each."""

    base: int
    top: int


# ---- What the library is passed, as include/kernelstint.h has it.


class _Word(_ctypes.Structure):
    _fields_ = [("address", _ctypes.c_uint64), ("metadata", _ctypes.c_uint64)]


class _Fields(_ctypes.Structure):
    _fields_ = [
        ("address", _ctypes.c_uint64), ("otype", _ctypes.c_uint32), ("perms", _ctypes.c_uint16), ("top12", _ctypes.c_uint16),
        ("base14", _ctypes.c_uint16), ("reserved", _ctypes.c_uint8), ("flag", _ctypes.c_uint8), ("internal", _ctypes.c_uint8),
    ]  # fmt: skip


class _Bounds(_ctypes.Structure):
    _fields_ = [("base", _ctypes.c_uint64), ("top", _ctypes.c_uint64), ("top_high", _ctypes.c_uint64)]


class _Length(_ctypes.Structure):
    _fields_ = [("length", _ctypes.c_uint64), ("length_high", _ctypes.c_uint64)]


class _Corrections(_ctypes.Structure):
    _fields_ = [("base", _ctypes.c_int8), ("top", _ctypes.c_int8)]


class _CodedWord(_ctypes.Structure):
    _fields_ = [("word", _Word), ("code", _ctypes.c_uint32)]


class _NarrowedWord(_ctypes.Structure):
    _fields_ = [("word", _Word), ("code", _ctypes.c_uint32), ("exact", _ctypes.c_bool)]


class _Command(_ctypes.Structure):
    _fields_ = [
        ("kind", _ctypes.c_uint8), ("first", _ctypes.c_uint8), ("second", _ctypes.c_uint8), ("number", _ctypes.c_uint64),
        ("low", _ctypes.c_uint64), ("high", _ctypes.c_uint64),
    ]  # fmt: skip


class _Reply(_ctypes.Structure):
    _fields_ = [
        ("kind", _ctypes.c_uint8), ("trap", _ctypes.c_uint8), ("tag", _ctypes.c_uint8), ("exponent", _ctypes.c_uint8),
        ("perms", _ctypes.c_uint16), ("cleared", _ctypes.c_uint32), ("otype", _ctypes.c_uint32), ("base", _ctypes.c_uint64),
        ("top", _ctypes.c_uint64), ("top_high", _ctypes.c_uint64), ("address", _ctypes.c_uint64), ("bytes", _ctypes.c_uint64),
    ]  # fmt: skip


class _Why(_ctypes.Structure):
    _fields_ = [
        ("kind", _ctypes.c_uint8), ("claim", _ctypes.c_uint8), ("count", _ctypes.c_uint32), ("base", _ctypes.c_uint64),
        ("top", _ctypes.c_uint64), ("top_high", _ctypes.c_uint64), ("reply", _Reply),
    ]  # fmt: skip


class _Counts(_ctypes.Structure):
    _fields_ = [("live", _ctypes.c_uint64), ("held", _ctypes.c_uint64), ("free", _ctypes.c_uint64), ("is_open", _ctypes.c_uint8)]


class _Fault(_ctypes.Structure):
    _fields_ = [("line", _ctypes.c_uint32), ("kind", _ctypes.c_uint8)]


class _Machine(_ctypes.Structure):
    _fields_ = [("at", _ctypes.c_void_p)]


class _TaggedWord(_ctypes.Structure):
    _fields_ = [("low", _ctypes.c_uint64), ("high", _ctypes.c_uint64), ("tag", _ctypes.c_uint8)]


_BYTES = _ctypes.POINTER(_ctypes.c_uint8)
_READ = [_ctypes.c_char_p, _ctypes.c_size_t]
_WRITTEN = [_BYTES, _ctypes.c_size_t]
_COUNT = _ctypes.POINTER(_ctypes.c_size_t)
# Each function's name without its beginning, what it answers, and what it takes.
_FUNCTIONS = [
    ("null_word", _Word, []),
    ("word_from_bytes", _CodedWord, [_ctypes.c_char_p, _ctypes.c_size_t]),
    ("word_to_bytes", _ctypes.c_uint32, [_Word, _BYTES, _ctypes.c_size_t]),
    ("fields_of", _Fields, [_Word]),
    ("word_of_fields", _CodedWord, [_Fields]),
    ("exponent_of", _ctypes.c_uint8, [_Word]),
    ("bounds_of", _Bounds, [_Word]),
    ("corrections_of", _Corrections, [_Word]),
    ("representable", _ctypes.c_bool, [_Word, _ctypes.c_uint64]),
    ("is_allowed", _ctypes.c_bool, [_Word, _ctypes.c_uint16]),
    ("with_bounds", _NarrowedWord, [_Word, _Bounds]),
    ("block_capability", _CodedWord, [_Bounds]),
    ("set_address", _Word, [_Word, _ctypes.c_uint64]),
    ("and_perms", _Word, [_Word, _ctypes.c_uint16]),
    ("representable_length", _Length, [_ctypes.c_uint64]),
    ("alignment_mask", _ctypes.c_uint64, [_ctypes.c_uint64]),
    ("state_length", _ctypes.c_size_t, [_ctypes.c_uint32]),
    ("first", _ctypes.c_uint32, [_ctypes.c_uint64, _ctypes.c_uint32, *_WRITTEN]),
    ("step", _ctypes.c_uint32, [*_READ, _Command, *_WRITTEN, _ctypes.POINTER(_Reply)]),
    ("follow", _ctypes.c_uint32, [*_READ, _Command, _Reply, *_WRITTEN, _ctypes.POINTER(_Why)]),
    ("step_line", _ctypes.c_uint32, [*_READ, *_READ, *_WRITTEN, *_WRITTEN, _COUNT]),
    ("counts", _ctypes.c_uint32, [*_READ, _ctypes.POINTER(_Counts)]),
    ("register", _ctypes.c_uint32, [*_READ, _ctypes.c_uint8, _ctypes.POINTER(_TaggedWord)]),
    ("granule", _ctypes.c_uint32, [*_READ, _ctypes.c_uint64, _ctypes.POINTER(_TaggedWord)]),
    ("run", _ctypes.c_uint32, [*_READ, *_WRITTEN, _COUNT]),
    ("states", _ctypes.c_uint32, [*_READ, *_WRITTEN, _COUNT]),
    ("trace_fault", _ctypes.c_uint32, [*_READ, _ctypes.POINTER(_Fault)]),
    ("line_fault", _ctypes.c_uint32, [*_READ, _ctypes.POINTER(_Fault)]),
    ("machine_open", _ctypes.c_uint32, [*_READ, _ctypes.POINTER(_Machine)]),
    ("machine_step", _ctypes.c_uint32, [_ctypes.POINTER(_Machine), _Command, _ctypes.POINTER(_Reply)]),
    ("machine_copy", _ctypes.c_uint32, [_ctypes.POINTER(_Machine), _ctypes.POINTER(_Machine)]),
    ("machine_bytes", _ctypes.c_uint32, [_ctypes.POINTER(_Machine), *_WRITTEN]),
    ("machine_close", _ctypes.c_uint32, [_ctypes.POINTER(_Machine)]),
]
# The codes of include/kernelstint.h that are raised. Rooms and pointers are this file's own, and so never wrong.
_ERRORS = {
    1: BadLength, 2: BadFields, 3: BadBounds, 6: BadState, 7: BadSize, 8: BadBase, 9: BadRegister, 10: BadAddress, 12: PassedOver,
    14: NoMemory, 15: BadCommand, 16: BadReply,
}  # fmt: skip
_SHORT_TEXT, _BAD_LINE, _DIFFERS, _BAD_TRACE, _NO_MACHINE, _LONGEST_REPLY = 11, 13, 17, 18, 20, 200
# The faults, by their numbers from 1.
_FAULTS = ["too-long", "no-heap", "bad-heap", "bad-command", "bad-count", "bad-register", "bad-number", "bad-data"]


def _path_of_library() -> _pathlib.Path:
    named, folder = _os.environ.get("KERNELSTINT_LIBRARY"), _pathlib.Path(__file__).resolve().parent
    if named:
        return _pathlib.Path(named)
    beside = folder / "libkernelstint.so"
    return beside if beside.exists() or len(folder.parents) < 3 else folder.parents[2] / "out" / "libkernelstint.so"


def _load(path: _pathlib.Path) -> _ctypes.CDLL:
    """The library at this path, whose functions know what they take."""
    try:
        library = _ctypes.CDLL(str(path))
        library.kernelstint_version.restype = _ctypes.c_uint32
        library.kernelstint_version.argtypes = []
        packed = library.kernelstint_version()
    except (OSError, AttributeError) as wrong:
        raise LibraryError(
            f"{path} is no library of Kernelstint that can be loaded: give ./library in its repository, or name the file "
            f"libkernelstint.so in KERNELSTINT_LIBRARY ({wrong})"
        ) from wrong
    version = (packed >> 16, packed >> 8 & 0xFF, packed & 0xFF)
    if version[:2] != VERSION[:2]:
        raise LibraryError(f"{path} is version {version[0]}.{version[1]}.{version[2]}, and this module is for {VERSION[0]}.{VERSION[1]}")
    for name, answer, taken in _FUNCTIONS:
        function = getattr(library, f"kernelstint_{name}")
        function.restype = answer
        function.argtypes = taken
    return library


_library = _load(_path_of_library())


def _instance(value: object, kind: type, what: str) -> None:
    if not isinstance(value, kind):
        raise TypeError(f"{what} is a {kind.__name__}, and no {type(value).__name__}")


def _integer(number: int, what: str) -> int:
    try:
        return int(_operator.index(number))
    except TypeError:
        raise TypeError(f"{what} is an integer, and no {type(number).__name__}") from None


def _within(number: int, bits: int, what: str, error: type[Error] = BadNumber) -> int:
    """The number, which has so many bits: else it is an error."""
    number = _integer(number, what)
    if not 0 <= number < 1 << bits:
        raise error(f"{what} {number:#x} is no number of {bits} bits")
    return number


def _bytes_in(data: bytes, what: str) -> bytes:
    """The bytes of an object that holds some, as bytes, bytearray and memoryview do. `bytes` would make 16 of the number 16."""
    try:
        return bytes(memoryview(data))
    except TypeError:
        raise TypeError(f"{what} bytes, and no {type(data).__name__}") from None


def _text_in(text: str | bytes, what: str) -> bytes:
    """The bytes of a text, which may be given as such; what no UTF-8 can hold stays, since comments have any bytes."""
    return text.encode("utf-8", "surrogatepass") if isinstance(text, str) else _bytes_in(text, f"{what} is a str or")


def _bounds(base: int, top: int) -> _Bounds:
    base, top = _integer(base, "the base"), _integer(top, "the top")
    if not 0 <= base <= top <= 1 << 64 or base == 1 << 64:
        raise BadBounds(f"no word can be asked for the bounds from {base:#x} to {top:#x}")
    return _Bounds(base, top & (1 << 64) - 1, top >> 64)


@_dataclasses.dataclass(frozen=True, repr=False)
class Word:
    """The 128 bits of a capability word in memory form, without its tag: the address in the lower 64, the metadata in the
    upper 64. Words are equal where their bits are, and never change."""

    bits: int = 0

    def __post_init__(self) -> None:
        object.__setattr__(self, "bits", _within(self.bits, 128, "the word"))

    def __repr__(self) -> str:
        return f"Word({self.bits:#034x})"

    def __int__(self) -> int:
        return self.bits

    def __bytes__(self) -> bytes:
        return self.to_bytes()

    @classmethod
    def from_bytes(cls, data: bytes) -> Word:
        """The word that these 16 bytes hold, as memory has them. Raises BadLength."""
        data = _bytes_in(data, "a word is made of")
        return _made(_library.kernelstint_word_from_bytes(data, len(data)), f"{len(data)} bytes are no word: 16 are")

    @classmethod
    def from_fields(cls, fields: Fields) -> Word:
        """The one word with these fields. Raises BadFields."""
        _instance(fields, Fields, "what a word is made of")
        numbers = {name: _integer(it, f"the field {name}") for name, it in fields._asdict().items()}
        if not all(0 <= it < 1 << bits for it, bits in zip(numbers.values(), (16, 8, 1, 32, 1, 16, 16, 64))):
            raise BadFields(f"a field is past its width: {fields}")
        passed = _Fields(**numbers)
        return _made(_library.kernelstint_word_of_fields(passed), f"a field is past its width: {fields}")

    def to_bytes(self) -> bytes:
        """The 16 bytes of the word, as memory has them."""
        room = (_ctypes.c_uint8 * 16)()
        _library.kernelstint_word_to_bytes(self._passed, room, 16)
        return bytes(room)

    @property
    def fields(self) -> Fields:
        """The word's fields, in register form."""
        it = _library.kernelstint_fields_of(self._passed)
        return Fields(it.perms, it.reserved, it.flag == 1, it.otype, it.internal == 1, it.top12, it.base14, it.address)

    @property
    def address(self) -> int:
        """The address, or cursor."""
        return self.bits & (1 << 64) - 1

    @property
    def perms(self) -> int:
        """The permissions, a bit each: see Permission."""
        return self.fields.perms

    @property
    def otype(self) -> int:
        """The object type: 0x3ffff where the word is not sealed."""
        return self.fields.otype

    @property
    def exponent(self) -> int:
        """By how many bits the mantissas of base and top are shifted, 0 to 52."""
        return int(_library.kernelstint_exponent_of(self._passed))

    @property
    def bounds(self) -> tuple[int, int]:
        """The base and the top: the bytes from the base on, before the top. Of bits that nothing made for bounds the top may
        lie below the base, and up to 2^65 - 1."""
        it = _library.kernelstint_bounds_of(self._passed)
        return it.base, it.top + (it.top_high << 64)

    @property
    def base(self) -> int:
        """The first address of the bounds."""
        return self.bounds[0]

    @property
    def top(self) -> int:
        """The address at which the bounds end."""
        return self.bounds[1]

    @property
    def corrections(self) -> Corrections:
        """The corrections of the address's upper bits by which the bounds are decoded."""
        it = _library.kernelstint_corrections_of(self._passed)
        return Corrections(it.base, it.top)

    def representable(self, address: int) -> bool:
        """Whether the word with this address has the bounds that it has with its own. Raises BadNumber."""
        return bool(_library.kernelstint_representable(self._passed, _within(address, 64, "the address")))

    def is_allowed(self, permission: int) -> bool:
        """Whether the word has this permission; of several bits, any of them. Raises BadNumber."""
        return bool(_library.kernelstint_is_allowed(self._passed, _within(permission, 16, "the permission")))

    def set_bounds(self, base: int, top: int) -> tuple[Word, bool]:
        """The word with these bounds, rounded outward where no word holds them as they are, and its address at their base; and
        whether it holds them exactly. It does not ask whether they lie within the word's own. Raises BadBounds."""
        made = _library.kernelstint_with_bounds(self._passed, _bounds(base, top))
        return _made(made, f"no word can be asked for the bounds from {base:#x} to {top:#x}"), made.exact

    def set_address(self, address: int) -> Word:
        """The word with this address. Its bounds may become others: `representable` tells. Raises BadNumber."""
        return _taken(_library.kernelstint_set_address(self._passed, _within(address, 64, "the address")))

    def and_perms(self, mask: int) -> Word:
        """The word with those of its permissions that the mask has too. Raises BadNumber."""
        return _taken(_library.kernelstint_and_perms(self._passed, _within(mask, 16, "the mask")))

    @property
    def _passed(self) -> _Word:
        return _Word(self.bits & (1 << 64) - 1, self.bits >> 64)


def _taken(word: _Word) -> Word:
    return Word(word.metadata << 64 | word.address)


def _made(answer: _CodedWord | _NarrowedWord, wrong: str) -> Word:
    """The word of an answer with the code 0; else the code's error, which says what is wrong."""
    if answer.code != 0:
        raise _ERRORS[answer.code](wrong)
    return _taken(answer.word)


#: The null capability.
NULL = _taken(_library.kernelstint_null_word())


def block_capability(base: int, top: int) -> Word:
    """The capability of a block of memory: not sealed, its address the base, and with the five permissions of Permission. Bounds
    are rounded as by Word.set_bounds. Raises BadBounds."""
    made = _library.kernelstint_block_capability(_bounds(base, top))
    return _made(made, f"no word can be asked for the bounds from {base:#x} to {top:#x}")


def representable_length(length: int) -> int:
    """The least length from this one on that a word can hold from address 0, 2^64 at most. Raises BadNumber."""
    it = _library.kernelstint_representable_length(_within(length, 64, "the length"))
    return int(it.length + (it.length_high << 64))


def alignment_mask(length: int) -> int:
    """The mask of the addresses from which a word can hold the representable length of this one: those for which
    `address & ~mask` is 0. Raises BadNumber."""
    return int(_library.kernelstint_alignment_mask(_within(length, 64, "the length")))


def _done(code: int, wrong: str) -> None:
    if code != 0:
        raise _ERRORS[code](wrong)


def _fault_of(call: _Callable[..., int], text: bytes) -> tuple[str, int]:
    """What is wrong with a text that is no trace or no command: the fault's name, and its line."""
    fault = _Fault()
    _done({_BAD_LINE: 0, _BAD_TRACE: 0}.get(code := call(text, len(text), fault), code), "the fault can't be told")
    return _FAULTS[fault.kind - 1], fault.line


def _reply_of(it: _Reply) -> Reply:
    top, trap = it.top + (it.top_high << 64), Trap(it.trap) if it.kind == ReplyKind.TRAP else None
    return Reply(ReplyKind(it.kind), it.base, top, it.cleared, it.bytes, trap, it.address, it.otype, it.perms, it.tag == 1, it.exponent)


def _passed_command(command: Command) -> _Command:
    _instance(command, Command, "a command")
    data = _bytes_in(command.data, "a write writes")
    if len(data) != 16:
        raise BadCommand(f"{len(data)} bytes are not what a write writes: 16 are")
    kind, first, second = (_within(it, 8, "the kind or register", BadCommand) for it in command[:3])
    number = _within(command.number, 64, "the number", BadCommand)
    return _Command(kind, first, second, number, int.from_bytes(data[:8], "little"), int.from_bytes(data[8:], "little"))


def _passed_reply(reply: Reply) -> _Reply:
    widths = {"kind": 8, "base": 64, "top": 128, "cleared": 32, "bytes": 64, "trap": 8, "address": 64, "otype": 32, "perms": 16, "tag": 8, "exponent": 8}
    _instance(reply, Reply, "a reply")
    # A trap that has no name has a number that no trap has.
    untold = 0xFF if reply.kind == ReplyKind.TRAP else 0
    told = {**reply._asdict(), "trap": untold if reply.trap is None else reply.trap}
    passed = {name: _within(told[name], bits, f"the reply's {name}", BadReply) for name, bits in widths.items()}
    top = passed.pop("top")
    return _Reply(top=top & (1 << 64) - 1, top_high=top >> 64, **passed)


# Of a state's bytes the head, a granule and a register, as numbers: the base, the pages and whether an epoch is open; the two of
# a word and its tag; and behind a granule's that of the block that starts there.
_HEAD, _GRANULE, _REGISTER = (_struct.Struct(it) for it in ("<QIB", "<QQBI", "<QQB"))


class State:
    """A state of the machine: a heap, its blocks, 32 registers and its dirty pages. States never change; they are equal where
    their bytes are, and can be keys and members of sets. Raises BadState where bytes are no state's."""

    __slots__ = ("_bytes",)
    _bytes: bytes

    def __init__(self, data: bytes) -> None:
        data = _bytes_in(data, "a state is made of")
        _done(_library.kernelstint_counts(data, len(data), _Counts()), f"{len(data)} bytes are no state's")
        object.__setattr__(self, "_bytes", data)

    def __setattr__(self, name: str, value: object) -> None:
        raise AttributeError(f"a state's {name} can't be set")

    def __delattr__(self, name: str) -> None:
        raise AttributeError(f"a state's {name} can't be deleted")

    def __reduce__(self) -> tuple[type, tuple[bytes]]:
        return type(self), (self._bytes,)

    # A state never changes, so it is its own copy.
    def __copy__(self) -> State:
        return self

    def __deepcopy__(self, memo: dict[int, _Any]) -> State:
        return self

    def __eq__(self, other: object) -> bool:
        if not isinstance(other, State):
            return NotImplemented
        return self._bytes == other._bytes

    def __hash__(self) -> int:
        return hash(self._bytes)

    def __bytes__(self) -> bytes:
        return self._bytes

    def __repr__(self) -> str:
        return f"<State of {self.pages} pages at {self.base:#x}: live {self.live}, held {self.held}, free {self.free}>"

    @classmethod
    def _of(cls, data: bytes) -> State:
        """A state of bytes that the library wrote."""
        state = object.__new__(cls)
        object.__setattr__(state, "_bytes", data)
        return state

    @classmethod
    def first(cls, base: int, pages: int) -> State:
        """The first state of a heap of so many pages at this base. Raises BadSize and BadBase."""
        pages, base = _within(pages, 32, "the number of pages", BadSize), _within(base, 64, "the base", BadBase)
        room = (_ctypes.c_uint8 * max(_library.kernelstint_state_length(pages), 1))()
        _done(_library.kernelstint_first(base, pages, room, len(room)), f"no heap has {pages} pages at {base:#x}")
        return cls._of(bytes(room))

    def step(self, command: str | Command) -> tuple[State, Reply]:
        """The state after a command, which is a line of a trace or a Command, and the reply. A line may end with its line feed, as
        those that a file is read by do. Raises BadLine and PassedOver for a line, BadCommand for a Command."""
        if not isinstance(command, (str, Command)):
            raise TypeError(f"a command is a str or a Command, and no {type(command).__name__}")
        room, told = (_ctypes.c_uint8 * len(self._bytes))(), _Reply()
        if isinstance(command, str):
            line, written, count = _text_in(command[:-1] if command.endswith("\n") else command, "a line"), (_ctypes.c_uint8 * _LONGEST_REPLY)(), _ctypes.c_size_t()
            code = _library.kernelstint_step_line(self._bytes, len(self._bytes), line, len(line), room, len(room), written, len(written), count)
            if code == _BAD_LINE:
                raise BadLine(f"no command: {command!r}", _fault_of(_library.kernelstint_line_fault, line)[0])
            _done(code, f"no command: {command!r}")
            return State._of(bytes(room)), Reply._told_by(bytes(written[: count.value]).decode())
        code = _library.kernelstint_step(self._bytes, len(self._bytes), _passed_command(command), room, len(room), told)
        _done(code, f"no command: {command}")
        return State._of(bytes(room)), _reply_of(told)

    def follow(self, command: Command, answer: Reply) -> State:
        """The state after a command that an allocator answered so, which may place blocks as it likes. Raises Differs where that
        is not allowed, BadCommand and BadReply."""
        room, why = (_ctypes.c_uint8 * len(self._bytes))(), _Why()
        code = _library.kernelstint_follow(self._bytes, len(self._bytes), _passed_command(command), _passed_reply(answer), room, len(room), why)
        if code == _DIFFERS:
            claim = Claim(why.claim) if why.claim else 0
            raise Differs(Why(WhyKind(why.kind), claim, why.count, why.base, why.top + (why.top_high << 64), _reply_of(why.reply)), answer, self.is_open)
        _done(code, f"{command} and {answer} are not a command and a reply")
        return State._of(bytes(room))

    @property
    def base(self) -> int:
        """The address at which the heap begins."""
        return int.from_bytes(self._bytes[:8], "little")

    @property
    def pages(self) -> int:
        """How many pages of 4,096 bytes the heap has."""
        return int.from_bytes(self._bytes[8:12], "little")

    @property
    def live(self) -> int:
        """How many bytes lie in live blocks."""
        return int(self._counts().live)

    @property
    def held(self) -> int:
        """How many bytes lie in freed blocks that are held."""
        return int(self._counts().held)

    @property
    def free(self) -> int:
        """How many bytes lie in no block."""
        return int(self._counts().free)

    @property
    def is_open(self) -> bool:
        """Whether an epoch is open."""
        return self._bytes[12] == 1

    @property
    def blocks(self) -> list[Block]:
        """The blocks, in the order of their bases."""
        return [_block_of(at, number) for at, (_, _, _, number) in self._granules() if number]

    @property
    def registers(self) -> list[TaggedWord]:
        """What each of the 32 registers holds."""
        at = _HEAD.size + _GRANULE.size * 256 * self.pages
        return [_word_of(*it) for it in _REGISTER.iter_unpack(self._bytes[at : at + 32 * _REGISTER.size])]

    @property
    def tags(self) -> list[Tag]:
        """The tagged words: those in registers, and then those in memory."""
        in_registers = [Tag("register", number, it.word) for number, it in enumerate(self.registers) if it.tag]
        return in_registers + [Tag("granule", at, _word_of(low, high, tag).word) for at, (low, high, tag, _) in self._granules() if tag]

    @property
    def marks(self) -> list[bool]:
        """Whether each page is dirty."""
        return [it == 1 for it in self._bytes[-self.pages :]]

    def changes(self, after: State) -> list[Change]:
        """What is another thing in another state of this heap, in the order in which the bytes of a state have it. Raises OtherHeap."""
        _instance(after, State, "another state")
        if (self.base, self.pages) != (after.base, after.pages):
            raise OtherHeap(f"{after!r} is of another heap than {self!r}")
        found = [Change("epoch", 0, self.is_open, after.is_open)] if self.is_open != after.is_open else []
        for (at, one), (_, other) in zip(self._granules(), after._granules()):
            if one[3] != other[3]:
                found.append(Change("block", at, *(_block_of(at, it[3]) if it[3] else None for it in (one, other))))
            if one[:3] != other[:3]:
                found.append(Change("granule", at, _word_of(*one[:3]), _word_of(*other[:3])))
        found += [Change("register", number, *both) for number, both in enumerate(zip(self.registers, after.registers)) if both[0] != both[1]]
        return found + [Change("page", number, *both) for number, both in enumerate(zip(self.marks, after.marks)) if both[0] != both[1]]

    def _granules(self) -> _Iterator[tuple[int, tuple[int, ...]]]:
        """The address of each granule, and its numbers."""
        rows = memoryview(self._bytes)[_HEAD.size : _HEAD.size + _GRANULE.size * 256 * self.pages]
        return zip(range(self.base, self.base + 4096 * self.pages, 16), _GRANULE.iter_unpack(rows))

    def _counts(self) -> _Counts:
        told = _Counts()
        _done(_library.kernelstint_counts(self._bytes, len(self._bytes), told), "no state")
        return told

    def register(self, number: int) -> TaggedWord:
        """What a register holds. Raises BadRegister."""
        told, number = _TaggedWord(), _within(number, 8, "the register", BadRegister)
        _done(_library.kernelstint_register(self._bytes, len(self._bytes), number, told), f"no register is {number}")
        return _word_of(told.low, told.high, told.tag)

    def granule(self, address: int) -> TaggedWord:
        """What the granule holds that starts at this address. Raises BadAddress."""
        told, address = _TaggedWord(), _within(address, 64, "the address", BadAddress)
        _done(_library.kernelstint_granule(self._bytes, len(self._bytes), address, told), f"no granule starts at {address:#x}")
        return _word_of(told.low, told.high, told.tag)


def _word_of(low: int, high: int, tag: int) -> TaggedWord:
    return TaggedWord(Word(high << 64 | low), tag == 1)


def _block_of(base: int, number: int) -> Block:
    """The block that starts here with this number: its length and its kind."""
    return Block(base, base + number - number % 16, BlockKind(number % 16))


class Machine:
    """A machine for long runs, in which no state is wanted after each command: it begins in a state, and each command changes it.
    One is equal to itself alone. It holds memory of the library until it is closed, at the end of a `with`, or when nothing names
    it any more; one that is closed answers every call but `close` with Closed. Its calls are for one thread at a time."""

    __slots__ = ("_held", "_length")

    def __init__(self, state: State) -> None:
        _instance(state, State, "a state")
        data = bytes(state)
        self._held, self._length = _Machine(), len(data)
        _done(_library.kernelstint_machine_open(data, len(data), self._held), "no machine can be opened")

    def step(self, command: Command) -> Reply:
        """Does a command, and answers the reply. Raises BadCommand."""
        told = _Reply()
        self._answered(_library.kernelstint_machine_step(self._held, _passed_command(command), told), f"no command: {command}")
        return _reply_of(told)

    @property
    def state(self) -> State:
        """The state that it is in."""
        room = (_ctypes.c_uint8 * self._length)()
        self._answered(_library.kernelstint_machine_bytes(self._held, room, len(room)), "the state can't be told")
        return State._of(bytes(room))

    def copy(self) -> Machine:
        """Another machine in the same state."""
        made = object.__new__(type(self))
        made._held, made._length = _Machine(), self._length
        self._answered(_library.kernelstint_machine_copy(self._held, made._held), "no machine can be opened")
        return made

    def close(self) -> None:
        """Gives its memory back. A second time that does nothing."""
        _library.kernelstint_machine_close(self._held)

    def _answered(self, code: int, wrong: str) -> None:
        if code == _NO_MACHINE:
            raise Closed("the machine is closed")
        _done(code, wrong)

    def __reduce__(self) -> _NoReturn:
        raise TypeError("a machine can't be pickled: pickle its state")

    def __copy__(self) -> Machine:
        return self.copy()

    def __deepcopy__(self, memo: dict[int, _Any]) -> Machine:
        return self.copy()

    def __enter__(self) -> Machine:
        return self

    def __exit__(self, *_: object) -> None:
        self.close()

    def __del__(self) -> None:
        if hasattr(self, "_held"):
            self.close()

    def __repr__(self) -> str:
        return f"<Machine in {self.state}>" if self._held.at else "<Machine, closed>"


def _whole(call: _Callable[..., int], text: str | bytes) -> bytes:
    """What a call writes of a text: into a room that is made longer where it is too short."""
    text = _text_in(text, "a trace")
    length = 64 * len(text) + 4096
    while True:
        room, count = (_ctypes.c_uint8 * length)(), _ctypes.c_size_t()
        code = call(text, len(text), room, length, count)
        if code == _BAD_TRACE:
            raise BadTrace(*_fault_of(_library.kernelstint_trace_fault, text))
        if code != _SHORT_TEXT:
            _done(code, "the text can't be run")
            return bytes(room[: count.value])
        length = count.value


def run(text: str | bytes) -> str:
    """The report of a trace. Raises BadTrace."""
    return _whole(_library.kernelstint_run, text).decode()


def states(text: str | bytes) -> str:
    """The states of a trace as JSON. Raises BadTrace."""
    return _whole(_library.kernelstint_states, text).decode()
