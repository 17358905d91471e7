"""Reads a trace from standard input, and writes one picture of its run: ./heap_curve < trace > curve.svg
It has live, held and free bytes over the commands, the number of tags, and each sweep, begin and end with the tags that it took;
the trace's first comment is its title, and what heap_record says of a trace that has a part of a run stands below it. With --table the same
numbers as text.
The other words are those of ./heap_states, which makes the data of the run; where it has none, its answer and its status are those
of this script, and its usage with this one's words. What can't be written whole has status 4. Nothing is written before all of it is
made."""

import contextlib
import os
import pathlib
import subprocess
import sys
import tempfile

sys.dont_write_bytecode = True

from picture import Picture
from run import run_of

ROOT = pathlib.Path(__file__).resolve().parent.parent
MOST_BYTES = 4_194_304
USAGE = b"usage: heap_curve [--workers N] [--cut N] [--table]\n"


class Failure(Exception):
    """What ends this program, with its status and its line."""

    def __init__(self, status, told):
        super().__init__(told)
        self.status = status


def comments(lines):
    """The texts of comments, as far as they have any."""
    for line in lines:
        told = line.strip(" \t\r").lstrip("#").strip(" \t\r")
        if line.lstrip(" \t\r").startswith("#") and told:
            yield "".join(it if it.isprintable() else "?" for it in told)


def title_of(trace):
    """The text of the trace's first comment."""
    return next(comments(trace.decode("utf-8", "replace").split("\n")), "A trace")


def part_of(trace):
    """What the last line of a trace says that has a part of a run (record/told.py); else nothing."""
    last = trace.rstrip()[-1000:].decode("utf-8", "replace").split("\n")[-1]
    return next((it for it in comments([last]) if it.startswith("Part: ")), "")


def refusal(words):
    """Words that ./heap_states refuses are told before the trace is read."""
    ran = subprocess.run([ROOT / "heap_states", *words], stdin=subprocess.DEVNULL, stdout=subprocess.PIPE)
    return (ran.returncode, USAGE if ran.returncode == 2 else ran.stdout) if ran.returncode != 3 else None


def run_in(folder, words, trace):
    """The run of a trace; or the status and the answer of ./heap_states where it has none."""
    states = pathlib.Path(folder) / "states"
    (pathlib.Path(folder) / "trace").write_bytes(trace)
    with open(pathlib.Path(folder) / "trace", "rb") as given, open(states, "wb") as made:
        status = subprocess.run([ROOT / "heap_states", *words], stdin=given, stdout=made).returncode
    with open(states, encoding="ascii") as lines:
        return (run_of(lines), None) if status == 0 else (None, (status, lines.read().encode()))


def trace_given():
    if not sys.stdin:
        raise Failure(4, "standard input is closed, and can't be read")
    return sys.stdin.buffer.read(MOST_BYTES + 1)


def made(words):
    """The status, and the text that is to be written."""
    is_table = "--table" in words
    words = [it for it in words if it != "--table"]
    if refused := refusal(words):
        return refused
    with tempfile.TemporaryDirectory(prefix="heap_curve.") as folder:
        trace = trace_given()
        run, refused = run_in(folder, words, trace)
    if refused:
        return refused
    title, part = title_of(trace), part_of(trace)
    if is_table:
        rows = [("trace", title), *([("part", part.removeprefix("Part: "))] if part else []), *run.rows()]
        return 0, "".join(f"{name:20} {text}\n" for name, text in rows).encode()
    return 0, Picture(run, title, part).svg().encode()


def main():
    try:
        status, text = made(sys.argv[1:])
    except OSError as why:
        raise Failure(4, f"the trace can't be read, or not be kept in a temporary folder: {why.strerror}") from None
    try:
        with open(1, "wb", closefd=False) as file:
            file.write(text)
    except OSError as why:
        raise Failure(4, f"standard output can't be written: {why.strerror}") from None
    return status


if __name__ == "__main__":
    try:
        sys.exit(main())
    except Failure as why:
        with contextlib.suppress(OSError):
            os.write(2, f"heap_curve: {why}\n".encode())
        sys.exit(why.status)
