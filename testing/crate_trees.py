"""Trees of their own for some of the crates, with what is built of them, in which something wrong is tried."""

import pathlib
import shutil

import limited


def rows_of(folder):
    """The rows of crates.txt, by the names of the crates."""
    lines = (line.split("#")[0] for line in (folder / "crates.txt").read_text(encoding="utf-8").split("\n"))
    return {line.split(":")[0].split()[0]: line for line in lines if ":" in line}


def copy_crate(crate, to):
    """Copies a crate's folder; once more where that failed, and then what was said of it is raised."""
    for is_last in (False, True):
        ran = limited.run(["cp", "-a", str(crate), str(to)], limited.SMALL)
        if ran.returncode == 0:
            return
        shutil.rmtree(to / crate.name, ignore_errors=True)
        if is_last:
            raise OSError(f"{crate.name} can't be copied, with {shutil.disk_usage(to).free >> 20} MiB free: {ran.stderr[-300:]}")


def seconds_over(over, crates):
    """How long a check may take that stands on these crates as they are in the folder `over`."""
    is_built = all((over / "crates" / it / "out").is_dir() for it in crates)
    return limited.CHECK if is_built else limited.CHECK_FROM_NOTHING


def lay_crates(over, tree, crates):
    """Puts those of the crates into the tree that aren't there yet, as they stand in the folder `over`."""
    (tree / "crates").mkdir(exist_ok=True)
    shutil.copy2(over / "HANDLES", tree)
    for it in crates:
        if not (tree / "crates" / it).exists():
            copy_crate(over / "crates" / it, tree / "crates")
    rows = (row for it, row in rows_of(over).items() if (tree / "crates" / it).exists())
    (tree / "crates.txt").write_text("".join(row + "\n" for row in rows), encoding="utf-8")
