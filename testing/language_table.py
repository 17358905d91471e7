"""The table of the language, language.txt, for scripts that need what stands there."""

import dataclasses
import pathlib
import re

ROOT = pathlib.Path(__file__).resolve().parent.parent


@dataclasses.dataclass
class Command:
    name: str
    case: str
    operands: str
    traps: list
    replies: list

    @property
    def form(self):
        return f"{self.name} {self.operands}".rstrip()


@dataclasses.dataclass
class Reply:
    case: str
    text: str


@dataclasses.dataclass
class Named:
    name: str
    case: str


@dataclasses.dataclass
class Permission:
    bit: int
    name: str
    letter: str


def many(cell):
    return cell.split(", ") if cell else []


def command_of(name, case, operands, traps, replies):
    return Command(name, case, operands, many(traps), many(replies))


# What a row of each section is.
ROWS = {
    "commands": command_of,
    "steps": command_of,
    "replies": Reply,
    "traps": Named,
    "step-replies": Reply,
    "step-traps": Named,
    "permissions": lambda bit, name, letter: Permission(int(bit), name, letter),
    "faults": Named,
}


def sections_of(text):
    """The rows of each section."""
    found, rows = {}, None
    for line in text.split("\n"):
        if line.startswith("["):
            section = line.strip("[]")
            rows = found.setdefault(section, [])
        elif line and not line.startswith("#"):
            rows.append(ROWS[section](*("" if cell == "-" else cell for cell in re.split("  +", line))))
    return found


SECTIONS = sections_of((ROOT / "language.txt").read_text(encoding="utf-8"))
COMMANDS, STEPS, REPLIES, TRAPS, STEP_REPLIES, STEP_TRAPS, PERMISSIONS, FAULTS = (SECTIONS[it] for it in ROWS)


def of_c(case):
    """The name that C has for a case: BLOCK_AFTER for BlockAfter."""
    return re.sub("(?<=[a-z])(?=[A-Z])", "_", case).upper()
