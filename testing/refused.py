"""The record of the wrong bodies that were refused, testing/refused_edits: each with a sum of what this rests on, so that
it is tried again only where something of that changed."""

import datetime
import fcntl
import functools
import hashlib
import os
import pathlib

import limited
import rests_on

ROOT = pathlib.Path(__file__).resolve().parent.parent
RECORD = ROOT / "testing" / "refused_edits"
# Of what stands in the record one in so many is tried again, each day another.
SHARE = 10
HEAD = "# Wrong bodies that were refused, by testing/try_edits and testing/try_tested; testing/refused.py says what the sums are.\n"


def uses_of():
    """The crates in the order of crates.txt, each with what its row names."""
    rows = (line.split("#")[0].split(":") for line in (ROOT / "crates.txt").read_text(encoding="utf-8").split("\n"))
    return {row[0].split()[0]: row[1].split() for row in rows if len(row) == 2}


def below(crate, uses):
    """The crate and all on which it stands, of the repository's own."""
    found = {crate}
    for it in uses[crate]:
        if it in uses:
            found |= below(it, uses)
    return found


@functools.lru_cache(maxsize=None)
def logic():
    ran = limited.run(["rt", "version"], limited.SMALL)
    ran.check_returncode()
    return ran.stdout.split("logic")[-1].strip()


def sum_of(*parts):
    return hashlib.sha256(b"".join(len(it).to_bytes(8, "little") + it for it in parts)).hexdigest()


@functools.lru_cache(maxsize=None)
def text_of(path):
    return path.read_text(encoding="utf-8")


def own_files(crate):
    """The crate's sources, statements and proofs."""
    return {path for it in ("src", "specs", "proofs") for path in (ROOT / "crates" / crate / it).rglob("*") if path.is_file()}


def sum_over(crates, texts):
    """A sum of these texts, of all that the crates say, and of the toolchain's logic, in 16 digits."""
    under = [part for it in sorted(set().union(*map(own_files, crates))) for part in (str(it.relative_to(ROOT)), text_of(it))]
    return sum_of(*(it.encode() for it in (logic(), *crates, *under, *texts)))[:16]


def sum_of_edit(crate, changes):
    """A sum of what the refusal of these changes in a crate rests on (rests_on.py), and of the toolchain's logic, in 16 digits."""
    return sum_of(*(it.encode() for it in (logic(), crate, *rests_on.parts_of(crate, changes))))[:16]


def read():
    """The sums of the record, by the names of the edits."""
    if not RECORD.is_file():
        return {}
    return dict(line.split() for line in RECORD.read_text(encoding="utf-8").split("\n") if line and not line.startswith("#"))


def add(sums, is_known):
    """Adds these sums to the record, and leaves out of it what isn't known any more."""
    # Runs for different crates may end at once, and one may be ended here. The folder is locked, since the file is replaced.
    folder = os.open(RECORD.parent, os.O_RDONLY)
    try:
        fcntl.flock(folder, fcntl.LOCK_EX)
        kept = {name: it for name, it in read().items() if is_known(name)} | sums
        new = RECORD.with_suffix(".new")
        new.write_text(HEAD + "".join(f"{name} {kept[name]}\n" for name in sorted(kept)), encoding="utf-8")
        os.replace(new, RECORD)
    finally:
        os.close(folder)


def stands(known, name, now):
    """Whether the sum of this name is the one of the record."""
    return known.get(name) == now


def is_due(now):
    """Whether what has this sum is tried today though it is known."""
    return int(now, 16) % SHARE == datetime.date.today().toordinal() % SHARE
