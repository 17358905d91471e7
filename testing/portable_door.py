"""What testing/portable and testing/portable_library share: what they count, and the repository as someone has it who has a shell and a
C compiler, and no toolchain."""

import os
import pathlib
import shutil
import signal
import subprocess
import sys
import time

sys.dont_write_bytecode = True

ROOT = pathlib.Path(__file__).resolve().parent.parent
# What a shell and a C compiler bring, and nothing of the toolchain.
COMMANDS = "ar awk cat cc cksum cp date dirname env find gzip grep head ls mkdir mv readlink rm sed sh sort tail touch tr xargs as ld".split()
SECONDS = 300
passed = failed = 0
told = []


def check(what, got, wanted):
    global passed, failed
    if got == wanted:
        passed += 1
        return
    failed += 1
    if failed < 30:
        print(f"FAILED: {what}: {str(got)[:400]} is not {str(wanted)[:400]}", flush=True)


def run(command, text=b"", **more):
    ran = subprocess.run([str(it) for it in command], input=text, stdout=subprocess.PIPE, stderr=subprocess.PIPE, timeout=SECONDS, **more)
    return ran.returncode, ran.stdout, ran.stderr


def tell():
    """Tells what was counted; the status."""
    print(f"{passed} passed, {failed} failed")
    return 1 if failed else 0


class Door:
    """A copy of the repository in which nothing is built, and a PATH without rt."""

    def __init__(self, folder):
        self.tree, self.bin = folder / "a fresh clone", folder / "commands"
        check("the copy", run([ROOT / "testing/copy_files", self.tree])[0], 0)
        self.bin.mkdir()
        for name in COMMANDS:
            at = "/bin/dash" if name == "sh" and shutil.which("dash") else shutil.which(name)
            os.symlink(at, self.bin / name)

    def call(self, *words, shell=(), text=b"", program="heap_tool", **env):
        return run([*shell, self.tree / program, *words], text, env={"PATH": str(self.bin), "HOME": str(self.tree.parent), **env}, cwd=self.tree.parent)


def is_refused(what, got, *parts):
    check(f"{what}: status 125, nothing on standard output, and one sentence", (got[0], got[1], [it for it in parts if it.encode() not in got[2]]), (125, b"", []))


def nothing_is_left(what, door):
    check(f"{what} leaves nothing half built", [it.name for it in (door.tree / "out").rglob("build.*")], [])


def interrupted(door, program, *words):
    with subprocess.Popen([door.tree / program, *words], stdout=subprocess.PIPE, stderr=subprocess.PIPE, env={"PATH": str(door.bin)}, start_new_session=True) as it:
        while not list((door.tree / "out").rglob("build.*/*.c")) and it.poll() is None:
            time.sleep(0.02)
        os.killpg(it.pid, signal.SIGINT)
        out = it.communicate(timeout=SECONDS)[0]
        check("an interrupted build answers nothing", (it.returncode != 0, out), (True, b""))
    nothing_is_left("an interrupted build", door)
