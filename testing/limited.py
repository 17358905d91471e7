#!/usr/bin/env python3
"""Starts what may never end: with a limit of time, in a group of its own, and with files for what it says, since a pipe keeps its
reader waiting for as long as a process that was left behind has it open. Past the limit all of the group is ended, and so is what
is left of it where the command ended by itself, and all where the script that started it is ended.

usage: testing/limited.py SECONDS COMMAND [WORD ..]

So one command is run, whose output goes where this script's does, and whose status is this script's. Past the limit the last line
counts one that failed, and the line before it says which."""

import contextlib
import os
import select
import signal
import subprocess
import sys
import tempfile

# The limits, in seconds. Over what is built a crate's whole check takes 300 at most (sweep_pool's 192), and beside others 900.
CHECK = 3_600
# Where that isn't built it is proved first: 28 minutes of one processor, and beside others 84.
CHECK_FROM_NOTHING = 10_800
# What takes some seconds, as a copy does.
SMALL = 600
# What is to end has so long for it; a script also ends what it started.
GRACE, GRACE_OF_SCRIPT = 10, 60

# A session of its own would have its own share of the processors, but Python has no other way before 3.11.
GROUP = {"process_group": 0} if sys.version_info >= (3, 11) else {"start_new_session": True}
# Once this script is to end the first can be read.
is_over, tell_over = os.pipe()


def has_ended(process, seconds, *others):
    """Whether the process ends in so many seconds, and before any of the others can be read. Its number stays its own."""
    handle = os.pidfd_open(process.pid)
    try:
        return handle in select.select([handle, *others], [], [], seconds)[0]
    finally:
        os.close(handle)


def end(process, grace):
    """Ends what there is of the process's group; afterwards its number may be another's."""
    for number in (signal.SIGTERM, signal.SIGKILL):
        with contextlib.suppress(ProcessLookupError, PermissionError):
            os.killpg(process.pid, number)
            # one that was stopped takes TERM only then
            os.killpg(process.pid, signal.SIGCONT)
        has_ended(process, grace)
    process.poll()


def ended_by_itself(process, seconds, grace):
    """Whether the process ended by itself; it has ended in any case."""
    try:
        return has_ended(process, seconds, is_over)
    finally:
        end(process, min(seconds, grace))


def end_if_over():
    if select.select([is_over], [], [], 0)[0]:
        sys.exit(1)


def run(command, seconds, **more):
    """Runs a command; what it came to, as subprocess.run says it. A TimeoutError where it did not end."""
    end_if_over()
    with contextlib.ExitStack() as files:
        told = [files.enter_context(tempfile.TemporaryFile("w+", encoding="utf-8", errors="replace")) for _ in range(2)]
        process = subprocess.Popen(command, stdin=subprocess.DEVNULL, stdout=told[0], stderr=told[1], **GROUP, **more)
        if not ended_by_itself(process, seconds, GRACE):
            end_if_over()
            raise TimeoutError(f"no end after {seconds} s")
        for it in told:
            it.seek(0)
        return subprocess.CompletedProcess(command, process.returncode, *(it.read() for it in told))


def end_script(number, _):
    """Lets all threads of this script end what they started."""
    os.write(tell_over, b"\n")
    sys.exit(128 + number)


for it in (signal.SIGHUP, signal.SIGINT, signal.SIGTERM):
    if signal.getsignal(it) != signal.SIG_IGN:
        signal.signal(it, end_script)


def main():
    if len(sys.argv) < 3 or not sys.argv[1].isdecimal():
        sys.exit("usage: testing/limited.py SECONDS COMMAND [WORD ..]")
    # what the shell begins in the background ignores it
    signal.signal(signal.SIGINT, end_script)
    seconds, command = int(sys.argv[1]), sys.argv[2:]
    process = subprocess.Popen(command, stdin=subprocess.DEVNULL, **GROUP)
    if not ended_by_itself(process, seconds, GRACE_OF_SCRIPT):
        print(f"FAILED: {' '.join(command)}: no end after {seconds} s\n0 passed, 1 failed")
        return 1
    return process.returncode if process.returncode >= 0 else 128 - process.returncode


if __name__ == "__main__":
    sys.exit(main())
