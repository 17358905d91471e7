"""Records what a program asks of its allocator, and writes it as a trace for ./heap_tool run, or as a log for ./heap_check:

    ./heap_record -- git log --oneline > trace
    ./heap_record --log -- git log --oneline > log

The program runs as ever, under a small library that is loaded before it and built at the first use (record/recorder.c; CC names
the C compiler, else cc). Its status is this one's, 128 and the signal's number where a signal ended it; its standard output goes
to standard error, since the text goes to standard output, unless --to names a file for the text.
Standard error has one line that says how much of the run is in the text, and what isn't.

Statuses of its own: 2 where the words are refused, 4 where the record or the text can't be written, and 125 where the program
can't be started or recorded. Then no text is written, or a beginning where the disk is full.
docs/REAL_PROGRAMS.md has examples."""

import argparse
import contextlib
import errno
import os
import pathlib
import select
import shlex
import shutil
import signal
import subprocess
import sys
import tempfile

sys.dont_write_bytecode = True

import calls
import told
from texts import Options, text_of

ROOT = pathlib.Path(__file__).resolve().parent.parent

SOURCE, LIBRARY = ROOT / "record" / "recorder.c", ROOT / "out" / "recorder.so"
FLAGS = ["-std=gnu11", "-O2", "-fPIC", "-shared", "-fno-builtin"]
ENDING = (signal.SIGHUP, signal.SIGINT, signal.SIGQUIT, signal.SIGTERM)


class Failure(Exception):
    """What ends this program, with its status and its line."""

    def __init__(self, status, told):
        super().__init__(told)
        self.status = status


def tell(line):
    """What can't be told isn't: the status is the program's all the same."""
    with contextlib.suppress(OSError):
        os.write(2, f"heap_record: {line}\n".encode("utf-8", "backslashreplace"))


def whole(least, most):
    """What takes a whole number from `least` to `most`, for a word of the command line."""

    def number(word):
        if not word.isascii() or not word.isdecimal() or not least <= int(word) <= most:
            raise argparse.ArgumentTypeError(f"{word} is no whole number from {least} to {most}")
        return int(word)

    return number


def name(word):
    if not word:
        raise argparse.ArgumentTypeError("a name can't be empty")
    return word


class Words(argparse.ArgumentParser):
    def error(self, message):
        tell(f"{message}\n{self.format_usage().rstrip()}")
        sys.exit(2)


def asked_for():
    words = Words(prog="./heap_record", usage="./heap_record [options] -- PROGRAM WORDS ..", description=__doc__, allow_abbrev=False,
                  formatter_class=argparse.RawDescriptionHelpFormatter)
    add = words.add_argument
    add("--log", action="store_true", help="write a log for ./heap_check, of what the program's own allocator answered")
    add("--cheri", action="store_true", help="with --log: ask the allocator for whole granules and for bounds that a capability holds, and make each realloc a new block")
    add("--preload", metavar="FILE", type=name, help="load this library into the program alone, such as the allocator that is to be recorded")
    add("--sweep-at", metavar="PERCENT", type=whole(0, 100_000), help="sweep when more than so much of the live bytes waits in quarantine (else 25)")
    add("--epochs", action="store_true", help="begin and end an epoch in place of a sweep")
    add("--clear", action="store_true", help="clear the slot of a pointer when its block is freed")
    add("--at-most", metavar="BYTES", type=whole(0, (1 << 64) - 1), default=1 << 64, help="leave out blocks of more bytes")
    add("--commands", metavar="N", type=whole(1, (1 << 64) - 1), default=1 << 64, help="end the text before it has more commands: a page has at most 20,000")
    add("--children", metavar="FOLDER", type=name, help="write a text for each process that the program starts into this folder")
    add("--to", metavar="FILE", type=name, help="write the text to this file, and leave standard output to the program")
    arguments = [*sys.argv[1:], "--"]
    at = arguments.index("--")
    asked, asked.program = words.parse_args(arguments[:at]), arguments[at + 1 : -1]
    if not asked.program:
        words.error("a program has to stand after --")
    if asked.cheri and not asked.log:
        words.error("--cheri is for a log alone: a trace's blocks are placed by the simulator")
    if asked.log and (asked.epochs or asked.clear or asked.sweep_at is not None):
        words.error("--sweep-at, --epochs and --clear are for a trace: a log tells of no sweeps")
    return asked


def make_library():
    """Builds the library where it isn't there or its source is newer."""
    with contextlib.suppress(OSError):
        if LIBRARY.stat().st_mtime_ns >= SOURCE.stat().st_mtime_ns:
            return
    compiler = shlex.split(os.environ.get("CC", "")) or ["cc"]
    try:
        LIBRARY.parent.mkdir(exist_ok=True)
        with tempfile.TemporaryDirectory(dir=LIBRARY.parent) as folder:
            new = pathlib.Path(folder) / LIBRARY.name
            ran = subprocess.run([*compiler, *FLAGS, SOURCE, "-o", new, "-ldl", "-lpthread"], stdin=subprocess.DEVNULL, capture_output=True, text=True)
            if ran.returncode != 0:
                raise Failure(125, f"{ran.stderr}{compiler[0]} did not make the library: see what CC names, and that there is room on the disk, and call again")
            os.replace(new, LIBRARY)
    except FileNotFoundError:
        raise Failure(125, f"the C compiler {compiler[0]} is not on the PATH: install one, or name yours in CC, and call again") from None
    except OSError as why:
        raise Failure(125, f"can't write to {LIBRARY.parent}: {why.strerror}") from None


def make_head(path):
    """Makes the head of a record, all zero, which the program's process takes for its own."""
    try:
        path.write_bytes(bytes(calls.ROOM))
    except OSError as why:
        raise Failure(4, f"the record can't be written to {path.parent}: {why.strerror}: see that TMPDIR names a folder with room") from None


def nameable(path, scratch):
    """A library as LD_PRELOAD can name it, where blanks and colons part the names: one whose path has some by a link. Processes that
    outlive the program find no link."""
    if not {" ", ":"} & set(str(path)):
        return str(path)
    link = scratch / os.path.basename(path).translate({ord(" "): "_", ord(":"): "_"})
    if {" ", ":"} & set(str(link)):
        raise Failure(125, f"no library can be loaded from {scratch}: let TMPDIR name a folder without blanks and colons")
    link.symlink_to(path)
    return str(link)


def preloaded(file, scratch):
    """The library that is to be loaded beside the recorder; a name without a folder is looked up where the program's loader does."""
    if "/" not in file:
        return file
    if not os.access(file, os.R_OK):
        raise Failure(125, f"{file} can't be loaded: there is no such file that may be read")
    return nameable(os.path.abspath(file), scratch)


def environment(scratch, asked):
    """The program's environment."""
    make_head(scratch / "record")
    more, libraries = {"HEAP_RECORD": str(scratch / "record")}, [nameable(LIBRARY, scratch)]
    if asked.preload:
        more["HEAP_RECORD_PRELOAD"] = preloaded(asked.preload, scratch)
        libraries.append(more["HEAP_RECORD_PRELOAD"])
    more["LD_PRELOAD"] = " ".join([*libraries, os.environ.get("LD_PRELOAD", "")]).strip()
    if asked.children:
        (scratch / "children").mkdir()
        more["HEAP_RECORD_CHILDREN"] = str(scratch / "children")
    if asked.cheri:
        more["HEAP_RECORD_CHERI"] = "1"
    return {**os.environ, **more}


def hand_on(piece):
    """Writes to standard error; what can't be written is lost, and where nobody reads any more that is the program's to know."""
    try:
        while piece:
            piece = piece[os.write(2, piece) :]
    except OSError as why:
        return why.errno != errno.EPIPE
    return True


def relay(process, pipe):
    """Hands on what the program writes, until it has ended; what it left behind may have the pipe open for longer."""
    ended = os.pidfd_open(process.pid)
    os.set_blocking(pipe, False)
    while True:
        ready = select.select([pipe, ended], [], [])[0]
        if pipe not in ready or not (piece := os.read(pipe, 1 << 16)) or not hand_on(piece):
            break
    os.close(ended)
    os.close(pipe)


def name_at_end(process):
    """Waits for the end of a process; the name that it has then."""
    os.waitid(os.P_PID, process.pid, os.WEXITED | os.WNOWAIT)
    with contextlib.suppress(OSError):
        return pathlib.Path(f"/proc/{process.pid}/comm").read_text(errors="replace").rstrip("\n")
    return ""


def run(command, given, is_relayed):
    """Runs the program to its end: its number, its status as a shell has it, and its name at the end. Signals that would end this
    script are the program's."""
    process = None

    def pass_on(number, _):
        if process and number in (signal.SIGHUP, signal.SIGTERM):
            process.send_signal(number)

    before = {it: signal.getsignal(it) for it in ENDING}
    for it in ENDING:
        if before[it] != signal.SIG_IGN:
            signal.signal(it, pass_on)
    reading, writing = os.pipe() if is_relayed else (None, None)
    try:
        process = subprocess.Popen(command, env=given, stdout=writing)
    except OSError as why:
        raise Failure(125, f"{command[0]} can't be started: {why.strerror}") from None
    if is_relayed:
        os.close(writing)
        relay(process, reading)
    last_name = name_at_end(process)
    status = process.wait()
    for it in ENDING:
        signal.signal(it, before[it])
    return process.pid, status if status >= 0 else 128 - status, last_name


def record_of(path, scratch):
    """A record, or None where there is none."""
    try:
        record = calls.read(path)
    except (FileNotFoundError, calls.NoRecord):
        return None
    except OSError as why:
        raise Failure(4, f"the record {path} can't be read: {why.strerror}") from None
    if record.error:
        raise Failure(4, f"the record can't be written to {scratch}: {os.strerror(record.error)}: see that TMPDIR names a folder with room")
    return record


def write(text, file, name):
    try:
        with file:
            file.write(text.written().encode("ascii"))
    except OSError as why:
        raise Failure(4, f"{name} can't be written: {why.strerror}") from None


def opened(path):
    """A file that is to be written: standard output where no path is given."""
    try:
        return open(path, "wb") if path else open(1, "wb", closefd=False)
    except OSError as why:
        raise Failure(4, f"{path or 'standard output'} can't be written: {why.strerror}") from None


def keep_numbers():
    """What is closed of standard input and standard error becomes a file of nothing, or its number would be another file's."""
    for number, mode in ((0, os.O_RDONLY), (2, os.O_WRONLY)):
        try:
            os.fstat(number)
        except OSError:
            file = os.open(os.devnull, mode)
            os.dup2(file, number)
            if file != number:
                os.close(file)


def made(record, options):
    text = text_of(record, options)
    text.last = told.part(record, text)
    return text


def write_children(scratch, folder, options):
    """A text for each process that the program started, of the name of its program and its number."""
    for path in sorted((scratch / "children").iterdir(), key=lambda it: int(it.name)):
        record = record_of(path, scratch)
        if record is not None:
            text = made(record, options)
            file = os.path.join(folder, f"{record.name}.{record.process}")
            write(text, opened(file), file)
            tell(f"{file}: {told.told_of(record, text)}{'; it still runs' if os.path.exists(f'/proc/{record.process}') else ''}")


def recorded(asked, scratch):
    """Runs the program; its record, its status, and the name of what took its place unrecorded."""
    process, status, last_name = run(asked.program, environment(scratch, asked), not asked.to)
    record = record_of(scratch / "record", scratch)
    if record is None or record.process != process:
        raise Failure(125, f"{asked.program[0]} loads no library before itself, so it can't be recorded: it is linked statically, or runs with another user's rights")
    if record.lacks:
        raise Failure(125, f"{asked.preload} was not loaded into {record.name}: see that the loader finds it there, and that it is a library for this machine")
    return record, status, None if record.is_ended or record.system_name == last_name else last_name


def main(asked, scratch):
    """Records, and writes what is asked for; the program's status."""
    file = opened(asked.to)
    make_library()
    if asked.children:
        try:
            os.makedirs(asked.children, exist_ok=True)
        except OSError as why:
            raise Failure(4, f"{asked.children} can't be made: {why.strerror}") from None
    record, status, other = recorded(asked, scratch)
    options = Options(asked.log, asked.cheri, asked.epochs, asked.clear, 25 if asked.sweep_at is None else asked.sweep_at, asked.at_most, asked.commands)
    text = made(record, options)
    write(text, file, asked.to or "standard output")
    tell(told.told_of(record, text, other))
    if asked.children:
        write_children(scratch, asked.children, options)
    return status


@contextlib.contextmanager
def scratch_folder():
    """A folder for the record. Processes that outlive the program may make files in it, so it has another name when it is removed."""
    place = os.path.abspath(os.environ.get("TMPDIR") or tempfile.gettempdir())
    try:
        folder = pathlib.Path(tempfile.mkdtemp(prefix="heap_record.", dir=place))
    except OSError as why:
        raise Failure(4, f"the record can't be written to {place}: {why.strerror}: see that TMPDIR names a folder that may be written to") from None
    try:
        yield folder
    finally:
        gone = folder.rename(folder.with_name(f"{folder.name}.gone"))
        for _ in range(10):
            shutil.rmtree(gone, ignore_errors=True)
            if not gone.exists():
                break


if __name__ == "__main__":
    keep_numbers()
    try:
        words = asked_for()
        with scratch_folder() as folder:
            sys.exit(main(words, folder))
    except Failure as why:
        tell(why)
        sys.exit(why.status)
