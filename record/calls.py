"""The record of a program, as record/recorder.c writes it: its head, and its calls one after the other."""

import dataclasses
import mmap
import os
import struct

ROOM = 1 << 16  # bytes of a head
MARK = 0x3164726F63657268
HEAD = struct.Struct("<10Q16sQ")
ENTRY = struct.Struct("<4Q")
HANDED_OUT, FREED, MOVED = 1, 2, 3
MOST = 1 << 20  # entries of a record


class NoRecord(Exception):
    """The file is no record: the library was never loaded."""


@dataclasses.dataclass
class Record:
    """What was noted of one process."""

    process: int
    calls: int  # how many were asked
    words: list  # those of the command
    entries: memoryview  # of the first calls that were answered
    error: int = 0  # errno of what ended the record
    programs: int = 1  # how many programs the process has been, one after the other; 0 of a forked one
    children: int = 0  # processes without a record
    is_ended: bool = True  # whether the program ended by itself: a signal ends others, and a program that isn't recorded takes their place
    lacks: bool = False  # whether the library that was to be preloaded isn't there
    is_blind: bool = False  # whether a block may have been handed out before a call was noted
    system_name: str = ""

    def __len__(self):
        return len(self.entries) // ENTRY.size

    def __iter__(self):
        """Each call as (kind, size asked for, block answered or 0, block given up or 0)."""
        return ENTRY.iter_unpack(self.entries)

    @property
    def answered(self):
        """How many calls there were, without one in which the program ended."""
        return self.calls if len(self) == MOST else min(self.calls, len(self))

    @property
    def name(self):
        return os.path.basename(self.words[0]) if self.words else str(self.process)


def read(path):
    """The record of a file; OSError where it can't be read."""
    with open(path, "rb") as file:
        if os.fstat(file.fileno()).st_size < ROOM:
            raise NoRecord(path)
        bytes_of = memoryview(mmap.mmap(file.fileno(), 0, prot=mmap.PROT_READ))
    mark, process, count, calls, error, programs, children, is_ended, lacks, is_blind, name, length = HEAD.unpack_from(bytes_of)
    if mark != MARK:
        raise NoRecord(path)
    words = bytes(bytes_of[HEAD.size : HEAD.size + length]).decode("utf-8", "replace").split("\0")
    entries = bytes_of[ROOM : ROOM + count * ENTRY.size]
    return Record(process, calls, [it for it in words if it], entries, error, programs, children, bool(is_ended), bool(lacks), bool(is_blind),
                  name.partition(b"\0")[0].decode("utf-8", "replace"))
