"""What the crates have and export, for testing/documents: their functions, each with its contract, and which of them a
caller of the crate sees; and the tree's files, and the words in them."""

import dataclasses
import functools
import os
import pathlib
import re

FUNCTION = re.compile(r"^( *)(?:pub\(\w+\) )?(pub )?(?:extern \"C\" )?fn (\w+)")
OWNER = re.compile(r"^(?:impl(?:<.*?>)? (?:.* for )?|(?:pub )?trait )(?:\w+::)*(\w+).*\{$")
USE = re.compile(r"^pub use (\w+)::([\w:]*?)(?:\{([^}]*)\}|(\w+));", re.M)
SCRIPTS = ("gate", "heap_check", "heap_curve", "heap_page", "heap_record", "heap_states", "heap_tool", "launcher", "library", "portable/", "prove", "crates.txt")
# What has words that stand nowhere else: wrong bodies, and wrong documents.
NOT_WORDS = ("testing/edits/", "testing/refused_edits", "testing/documents")
ITEM = re.compile(r"^pub (?:extern \"C\" )?(?:fn|struct|enum|trait|const|type) (\w+)", re.M)


@dataclasses.dataclass
class Function:
    """A function of a crate, with what its contract says."""

    crate: str
    module: str
    owner: str
    name: str
    is_public: bool
    contract: str
    body: str = dataclasses.field(repr=False)

    def clauses(self):
        """The names of what it ensures; '' where that has none."""
        return re.findall(r"^ *ensures(?: (\w+))? \{", self.contract, re.M)

    def only_reads(self):
        """Whether it takes a value alone, and ensures no more than what it answers of it."""
        return self.clauses() == [""] and re.match(r" *(?:pub )?fn \w+\(&?self\)", self.contract) is not None

    def promise(self):
        """What it requires and ensures, word for word."""
        clauses = re.search(r"^ *(requires|ensures) .*", self.contract, re.M | re.S)
        return clauses[0].split() if clauses else []


def contract_at(lines, at, indent):
    """A function from its name up to its body, or to the semicolon of one that has none."""
    for end in range(at, len(lines)):
        line = lines[end]
        is_head = end == at or line.startswith(indent + ")")
        if line in (indent + "{", indent + "{}") or line.endswith("};") or is_head and line.endswith(("{", "{}", ";")):
            break
    return "\n".join(lines[at : end + 1])


def body_at(lines, at, indent):
    """A function's text behind its contract, up to its last brace; '' where it has none."""
    first = at + contract_at(lines, at, indent).count("\n")
    if lines[first].endswith(("{}", ";")):
        return ""
    end = next((it for it in range(first, len(lines)) if lines[it] == indent + "}"), first)
    return "\n".join(lines[first : end + 1])


def functions_in(crate, module, text):
    """The functions of a file. Those of a trait are public, and so are those by which a type has one."""
    owner, is_of_trait = "", False
    lines = text.split("\n")
    for at, line in enumerate(lines):
        if line == "}":
            owner, is_of_trait = "", False
        elif found := OWNER.match(line):
            owner, is_of_trait = found[1], "trait " in line or " for " in line
        elif found := FUNCTION.match(line):
            indent, public, name = found.groups()
            yield Function(crate, module, owner if indent else "", name, bool(public) or is_of_trait and len(indent) == 4, contract_at(lines, at, indent),
                           body_at(lines, at, indent))


class Code:
    """The tree below a folder: its files and folders, and what its crates have and export. In place of the files in
    `changed` it has the texts there."""

    def __init__(self, root, changed=()):
        self.root = root
        self.changed = dict(changed)
        self.files = []
        folders_too = []
        for at, folders, names in os.walk(root):
            folders[:] = [it for it in folders if it not in (".git", "out", "__pycache__")]
            below = pathlib.Path(at).relative_to(root)
            self.files += [(below / it).as_posix() for it in names]
            folders_too += [(below / it).as_posix() for it in folders]
        self.places = "\n".join(self.files + folders_too)
        self.crates = {it.name for it in (root / "crates").iterdir() if it.is_dir()}

    def text(self, file):
        if file in self.changed:
            return self.changed[file]
        return (self.root / file).read_text(encoding="utf-8", errors="replace")

    @staticmethod
    def module(crate, file):
        """The module of a crate that a file of its src/ is; '' of its root."""
        module = file[len(f"crates/{crate}/src/") : -len(".rt")].replace("/", "::")
        return "" if module in ("lib", "main") else module

    @functools.lru_cache(maxsize=None)
    def functions(self, crate):
        found = []
        for file in sorted(it for it in self.files if it.startswith(f"crates/{crate}/src/") and it.endswith(".rt")):
            found += functions_in(crate, self.module(crate, file), self.text(file))
        return found

    @functools.lru_cache(maxsize=None)
    def exports(self, crate, module=""):
        """What a module of a crate exports: by its name the crate and the module in which it stands."""
        if f"crates/{crate}/src/lib.rt" not in self.files:
            return {}  # of the toolchain
        text = self.text(f"crates/{crate}/src/{(module or 'lib').replace('::', '/')}.rt")
        found = {name: (crate, module) for name in ITEM.findall(text)}
        for start, path, names, name in USE.findall(text):
            of = self.exports(crate, path.strip(":")) if start == "crate" else self.exports(start)
            found |= {it: of[it] for it in re.findall(r"\w+", names or name) if it in of}
        for inner in re.findall(r"^pub mod (\w+);", text, re.M):
            found |= {f"{inner}::{it}": place for it, place in self.exports(crate, inner).items()}
        return found

    def calls(self, crate, call):
        """The functions that a crate exports by this name: with its type before it, or, of any of its types, without."""
        exports = self.exports(crate)
        owner, _, name = call.rpartition("::")
        if call in exports:
            of, module = exports[call]
            return [it for it in self.functions(of) if (it.module, it.owner, it.name) == (module, "", name)]
        owners = [owner] if owner else exports
        found = [it for of in owners if of in exports for it in self.functions(exports[of][0]) if (it.owner, it.name) == (of, name)]
        return [it for it in found if it.is_public]

    @functools.lru_cache(maxsize=None)
    def named(self, name):
        """The functions of all crates by this name, which may have a type, a module or a crate before it, of a trait what has it."""
        owner, _, last = name.rpartition("::")
        owner = owner.rpartition("::")[2]
        found = [it for crate in sorted(self.crates) for it in self.functions(crate) if it.name == last]
        return [it for it in found if not owner or owner in (it.owner, it.crate, *it.module.split("::"))]

    @functools.lru_cache(maxsize=None)
    def parts(self):
        """What types and modules have beside functions: the variants of enums, and items of modules and crates, as `A::b`."""
        found = set()
        for file in self.files:
            if file.startswith("crates/") and "/src/" in file and file.endswith(".rt"):
                text = self.text(file)
                for name, body in re.findall(r"^pub enum (\w+)(?:<.*?>)? \{\n(.*?)^\}", text, re.M | re.S):
                    found |= {f"{name}::{it}" for it in re.findall(r"^    (\w+)", body, re.M)}
                found |= {f"{home}::{it}" for home in (file.split("/")[1], pathlib.Path(file).stem) for it in ITEM.findall(text)}
                found |= {f"{file.split('/')[1]}::{it}" for it in re.findall(r"^pub mod (\w+);", text, re.M)}
        return found

    def private_calls(self, crate, call):
        owner, _, name = call.rpartition("::")
        return [] if self.calls(crate, call) else [it for it in self.functions(crate) if (it.owner, it.name) == (owner, name)]

    def promising(self, crate):
        """The calls that a crate itself exports and that promise more than to read a value, each with the name to call it by."""
        for name, (of, module) in self.exports(crate).items():
            for it in self.functions(of) if of == crate else []:
                is_it = (it.module, it.owner, it.name) == (module, "", name.split("::")[-1])
                if it.clauses() and not it.only_reads() and (is_it or it.owner == name and it.is_public):
                    yield name if is_it else f"{name}::{it.name}", it

    @functools.lru_cache(maxsize=None)
    def found(self, path, home):
        """The places that a path may mean: from the top, from crates/, or below the crate or folder `home`; and of the name
        of a folder alone the folders of all crates. `*`, or a word in capitals such as NAME, is any part of a name."""
        named = re.sub(r"\b[A-Z]+\b(?!\.md)", "*", path.removeprefix("./").rstrip("/"))
        form = re.escape(named).replace(r"\*", r"[^/\n]*")
        starts = ["", "crates/", *([f"{home}/(?:.*/)?"] if home else []), *([r"crates/\w+/"] if re.fullmatch(r"[\w-]+/", path) else [])]
        for start in starts:
            if places := re.findall(f"^{start}{form}$", self.places, re.M):
                return places
        return []

    @functools.lru_cache(maxsize=None)
    def words(self, crate="", folders=("specs", "src", "proofs")):
        """The words in these folders of a crate, and in the names of its files there; where none is named, of all crates, of
        the page, the examples, the library for C, recording and curves, the scripts and the tests, and in the names of all files and
        folders."""
        wanted = tuple(f"crates/{it}/{folder}/" for it in ([crate] if crate else self.crates) for folder in folders)
        if not crate:
            wanted += ("bindings/", "curve/", "examples/", "include/", "page/", "record/", "testing/", *SCRIPTS)
        files = [it for it in self.files if it.startswith(wanted) and not it.startswith(NOT_WORDS)]
        texts = [*map(self.text, files), "\n".join(files) if crate else self.places]
        return set().union(*(re.findall(r"[\w-]+", it) for it in texts), *(re.findall(r"\w+", it) for it in texts))
