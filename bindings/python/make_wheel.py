"""How `pip install .` makes the package kernelstint, by no more than Python and a C compiler: the library of portable/kernelstint.c.gz,
and beside it the module. pip calls this by pyproject.toml. CC and CFLAGS name the C compiler and its flags."""

import base64
import gzip
import hashlib
import os
import pathlib
import re
import shlex
import subprocess
import sysconfig
import tempfile
import zipfile

ROOT = pathlib.Path(__file__).resolve().parents[2]
PACKAGE = ROOT / "bindings" / "python" / "kernelstint"
HEADER = ROOT / "include" / "kernelstint.h"


def version():
    return ".".join(re.findall(r"^#define KERNELSTINT_VERSION_(?:MAJOR|MINOR|PATCH) (\d+)$", HEADER.read_text(encoding="utf-8"), re.M))


def library():
    """The shared library, compiled of the proved one as C."""
    with tempfile.TemporaryDirectory() as folder:
        source, made = pathlib.Path(folder, "kernelstint.c"), pathlib.Path(folder, "libkernelstint.so")
        source.write_bytes(gzip.decompress((ROOT / "portable" / "kernelstint.c.gz").read_bytes()))
        flags = ["-O1", "-ftree-vectorize", "-w", *shlex.split(os.environ.get("CFLAGS", "")), "-fno-lto", "-fPIC", "-fvisibility=hidden", f"-I{HEADER.parent}"]
        subprocess.run([*shlex.split(os.environ.get("CC", "cc")), *flags, "-shared", "-o", made, source], check=True)
        return made.read_bytes()


def line_of(name, data):
    digest = base64.urlsafe_b64encode(hashlib.sha256(data).digest()).rstrip(b"=").decode()
    return f"{name},sha256={digest},{len(data)}\n"


def build_wheel(wheel_directory, config_settings=None, metadata_directory=None):
    tag = "py3-none-" + re.sub(r"[-.]", "_", sysconfig.get_platform())
    info = f"kernelstint-{version()}.dist-info"
    about = "A CHERI heap safe in time, and capability words of 64-bit CHERI-RISC-V, proved"
    files = {f"kernelstint/{it.name}": it.read_bytes() for it in sorted(PACKAGE.iterdir()) if it.suffix in (".py", ".typed")}
    files["kernelstint/libkernelstint.so"] = library()
    files[f"{info}/METADATA"] = f"Metadata-Version: 2.1\nName: kernelstint\nVersion: {version()}\nSummary: {about}\nRequires-Python: >=3.8\n".encode()
    files[f"{info}/WHEEL"] = f"Wheel-Version: 1.0\nGenerator: kernelstint\nRoot-Is-Purelib: false\nTag: {tag}\n".encode()
    files[f"{info}/RECORD"] = ("".join(line_of(*it) for it in files.items()) + f"{info}/RECORD,,\n").encode()
    name = f"kernelstint-{version()}-{tag}.whl"
    with zipfile.ZipFile(pathlib.Path(wheel_directory, name), "w", zipfile.ZIP_DEFLATED) as wheel:
        for path, data in files.items():
            wheel.writestr(path, data)
    return name


def build_sdist(sdist_directory, config_settings=None):
    raise NotImplementedError("what there is of sources is the repository: install from there")
