"""What the refusal of a wrong body rests on, as texts: the functions that it changes, and what stands in their files beside functions;
their proofs; the contracts of the crate's own functions that they call; the crate's types that have a view; and the definitions and
types that all of this names, of whatever crate, and those that these name. Comments, imports and how a clause calls its variables don't
count. Other contracts don't either: a body that breaks its own contract is refused over any of them."""

import functools
import pathlib
import re
import tempfile
from typing import NamedTuple

ROOT = pathlib.Path(__file__).resolve().parent.parent
# The start of a function, with what it is indented by; the type (and the trait) of which an impl is.
FUNCTION = re.compile(r'^( *)(?:pub(?:\([a-z]+\))? )?(?:const )?(?:unsafe )?(?:extern "C" )?fn (\w+)')
IMPL = re.compile(r"^impl(?:<.*?>)? (?:(?:\w+::)*(\w+).* for )?(?:\w+::)*(\w+)")
# What a file brings in: of a file of specs/ some names, or all of it by another name; or a type that a file of src/ declares.
USE = re.compile(r"\bRattle\.(\w+)\.specs\.(\w+)((?:\.\w+)*)(?:\.\{([^}]*)\}| as (\w+))?")
UNFOLDED = re.compile(r"\b(\w+)::specs::(\w+)::(\w+)")
NAMES = re.compile(r"[^\s(){}\[\],;.]+")
WHOLE = "*"


class Function(NamedTuple):
    owner: str
    name: str
    text: str
    contract: str


class Source(NamedTuple):
    functions: list
    rest: str


@functools.lru_cache(maxsize=None)
def read(path):
    return path.read_text(encoding="utf-8")


# ---- sources


def end_of(lines, start, indent):
    """The line in which a function ends: that of a trait with its contract, where it has no body."""
    for at in range(start, len(lines)):
        if lines[at] in (f"{indent}}}", f"{indent}{{}}") or at == start and lines[at].endswith("}"):
            return at
        if lines[at].endswith(";") and not any(line == f"{indent}{{" or line.endswith(") {") or FUNCTION.match(line) and line.endswith("{") for line in lines[start:at]):
            return at
    return len(lines) - 1


def contract_in(lines, indent):
    """What stands before a function's body."""
    end = next((at for at, line in enumerate(lines) if line in (f"{indent}{{", f"{indent}{{}}")), 1)
    return "\n".join(lines[:end])


@functools.lru_cache(maxsize=None)
def source_of(path):
    """A file of src/ as its functions and the rest."""
    text = re.sub(r"(?m)^ *//.*\n", "", read(path))
    text = re.sub(r"(?m)^(?:ghost |pub )*use [^;]*;\n|^(?:pub )?mod \w+;\n", "", text)
    lines, functions, rest, owner, at = text.split("\n"), [], [], "", 0
    while at < len(lines):
        line = lines[at]
        if found := IMPL.match(line):
            owner = found[2] + (found[1] or "")
        if line == "}":
            owner = ""
        if found := FUNCTION.match(line):
            end, attributes = end_of(lines, at, found[1]), []
            while rest and rest[-1].lstrip().startswith("#["):
                attributes.insert(0, rest.pop())
            own = lines[at : end + 1]
            functions.append(Function(owner if found[1] else "", found[2], "\n".join(attributes + own), contract_in(own, found[1])))
            at = end
        else:
            rest.append(line)
        at += 1
    return Source(functions, "\n".join(line for line in rest if line.strip()))


def sources_of(crate):
    return sorted((ROOT / "crates" / crate / "src").rglob("*.rt"))


def called(crate, text):
    """The contracts of the crate's functions that a text calls, by their names and, where it says it, their type."""
    calls = {(of or "", name) for of, name in re.findall(r"(?:(\w+)::|(?<=\.))?(\w+)(?=\(|::<)", text)}
    methods = {name for name in re.findall(r"\.(\w+)(?=\(|::<)", text)}
    named = {*re.findall(r"\w+", text)}
    for path in sources_of(crate):
        for it in source_of(path).functions:
            is_typed = any(name == it.name and of == it.owner for of, name in calls)
            is_of_self = ("Self", it.name) in calls or it.name in methods
            if is_typed or it.owner and is_of_self or not it.owner and it.name in named:
                yield f"{it.owner} {it.contract}"


# ---- definitions


def numbered(clause):
    """A clause of a function, whose variables are numbered."""
    found = re.match(r"(?!abbrev |unfoldable |pub |record |data |unfolding )(\S+)((?: [^=:]*)?) =(?=\s)", clause)
    for number, name in enumerate(dict.fromkeys(re.findall(r"(?<![\w.])([a-z_]\w*)(?![\w.])", found[2] if found else ""))):
        clause = re.sub(rf"(?<![\w.]){re.escape(name)}(?!\w)", f"{number}'", clause)
    return clause


class Statement(NamedTuple):
    """What stands between two empty lines of a file of specs/, and the names that it gives."""

    names: frozenset
    text: str


def statement_of(lines):
    names = set()
    for line in lines:
        found = re.match(r"(?:abbrev |unfoldable |pub |opaque |instance )*(?:record |data )?(\S+)|\s+(?:pub )?(\S+) :", line)
        names |= {it for it in (found.groups() if found else ()) if it}
    return Statement(frozenset(names), "\n".join(map(numbered, re.split(r"\n(?=\S)", "\n".join(lines)))))


def brought(text, own):
    """What of the imports in a text another text names, as files and names in them; of a type that is declared its file of src/."""
    found, own_names = set(), {*NAMES.findall(own), *re.findall(r"\w+", own)}
    for at in USE.finditer(text):
        crate, file, more, listed, alias = at.groups()
        inner = [it for it in more.split(".") if it]
        if file == "declared":
            path = ROOT.joinpath("crates", crate, "src", *inner[: next((n for n, it in enumerate(inner) if it[0].isupper()), len(inner))]).with_suffix(".rt")
        else:
            path = ROOT / "crates" / crate / "specs" / f"{file}.antt"
        if not path.is_file():
            continue
        if listed is None:
            names = {it: it for it in re.findall(rf"\b{alias}\.(\w+)", own)} if alias else {WHOLE: WHOLE}
        else:
            names = {it.split(" as ")[-1].strip(): it.split(" as ")[0].strip() for it in listed.split(",") if it.strip()}
        wanted = {name for here, name in names.items() if here in own_names or alias or here == WHOLE or "◌" in here}
        if wanted:
            found |= {(path, it) for it in ({WHOLE} if file == "declared" else {*wanted, *inner[:1]})}
    return found


@functools.lru_cache(maxsize=None)
def statements_of(path):
    text = "\n".join(line for line in read(path).split("\n") if not line.lstrip().startswith("--"))
    bodies = [[line for line in it.split("\n") if not re.match(r"(?:pub )?(?:use|mod) |pub mod ", line)] for it in re.split(r"\n\n+(?=\S)", text)]
    return [statement_of(lines) for lines in bodies if any(line.strip() for line in lines)]


@functools.lru_cache(maxsize=None)
def reached(path, name):
    """The texts that a name of a file stands for, and the names that these name."""
    if path.suffix == ".rt":
        return (source_of(path).rest,), frozenset()
    all_of_it = statements_of(path)
    own = [it for it in all_of_it if name == WHOLE or name in it.names]
    if not own:
        passed_on = frozenset(brought(read(path), name))
        return ((), passed_on) if passed_on else ((read(path),), frozenset())
    text = "\n".join(it.text for it in own)
    named = {*NAMES.findall(text)}
    beside = {(path, min(it.names)) for it in all_of_it if it not in own and any(each.strip("◌") in named for each in it.names)}
    return tuple(it.text for it in own), frozenset(beside | brought(read(path), text))


def definitions_from(starts):
    """All texts that these names stand for, and those that they name."""
    seen, left, texts = set(), list(starts), set()
    while left:
        it = left.pop()
        if it not in seen:
            seen.add(it)
            told, more = reached(*it)
            texts |= {f"{it[0].relative_to(ROOT)} {text}" for text in told}
            left += more
    return sorted(texts)


# ---- wrong bodies


def pieces_of(crate, file, old):
    """What stands where a text of a file is replaced: its file, and the text. A whole file where it isn't in a function."""
    path = ROOT / "crates" / crate / file
    if path.suffix != ".rt":
        return [(path, read(path))]
    source = source_of(path)
    own = [it for it in source.functions if old.strip() and old in it.text]
    if len(own) != 1:
        return [(path, source.rest), *((path, it.text) for it in source.functions)]
    proofs = [it for folder in (ROOT / "crates" / crate / "proofs").rglob(own[0].name) if folder.is_dir() for it in folder.rglob("*.antt")]
    return [(path, own[0].text), (path, source.rest), *((it, read(it)) for it in sorted(proofs))]


def parts_of(crate, changes):
    """All that the refusal of these changes in a crate rests on: (file, old, new)."""
    pieces = [piece for file, old, _ in changes for piece in pieces_of(crate, file, old)]
    contracts = sorted({it for path, text in pieces if path.suffix == ".rt" for it in called(crate, text)})
    views = [(path, source_of(path).rest) for path in sources_of(crate) if " Model for " in read(path)]
    own = [f"{path.relative_to(ROOT)} {text}" for path, text in pieces + views] + contracts
    starts = set().union(*(brought(read(path), "\n".join(own)) for path in {path for path, _ in pieces + views}))
    for of, file, name in UNFOLDED.findall("\n".join(own)):
        path = ROOT / "crates" / (crate if of == "crate" else of) / "specs" / f"{file}.antt"
        starts |= {(path, name)} if path.is_file() else set()
    return [*own, *definitions_from(starts), *(text for change in changes for text in change)]


# ---- what is tried of this, on a made crate above another one

MADE = {
    "below/specs/Words.antt": "-- Words.\nuse Rattle.std.specs.Prelude.{ℕ}\n\nabbrev pub twice : ℕ → ℕ\ntwice n = n + n\n\nabbrev pub most : ℕ\nmost = twice 8\n\nabbrev pub other : ℕ\nother = 3\n",
    "above/src/lib.rt": """//! A crate.

ghost use Rattle.below.specs.Words.{most, other};

mod side;

use crate::side::helped;

/// Some number.
pub fn number(n: u64) -> u64
    requires { n < most }
    ensures { result ≡ n + 1 }
{
    helped(n)
}

/// Another one.
pub fn another(n: u64) -> u64
    requires { n < other }
    ensures { result ≡ n }
{
    n
}
""",
    "above/src/side.rt": """//! Help.

pub struct Kept {
    held: u64,
}

impl Model for Kept {
    ghost view = { λ k. k.held };
}

pub fn helped(n: u64) -> u64
    ensures { result ≡ 1 + n }
{
    1 + n
}

pub fn unasked() -> u64
    ensures { result ≡ 7 }
{
    7
}
""",
    "above/proofs/number/Answers.antt": "pub returns : goal.returns\nreturns c = cc\n",
    "above/proofs/another/Answers.antt": "pub returns : goal.returns\nreturns c = refl\n",
}
# What is replaced in which file, and whether the refusal of another body of `number` rests on it.
ROWS = [
    ("below/specs/Words.antt", "n + n", "n + n + n", True),
    ("below/specs/Words.antt", "twice n = n + n", "twice k = k + k", False),
    ("below/specs/Words.antt", "other = 3", "other = 4", False),
    ("below/specs/Words.antt", "-- Words", "-- Numbers", False),
    ("above/src/lib.rt", "n < most", "n ≤ most", True),
    ("above/src/lib.rt", "/// Some number", "/// A number", False),
    ("above/src/lib.rt", "    n\n", "    n + 0\n", False),
    ("above/src/side.rt", "result ≡ 1 + n", "result ≡ n + 1", True),
    ("above/src/side.rt", "    1 + n\n", "    n + 1\n", False),
    ("above/src/side.rt", "result ≡ 7", "result ≡ 8", False),
    ("above/src/side.rt", "λ k. k.held", "λ k. k.held + 1", True),
    ("above/proofs/number/Answers.antt", "cc", "omega", True),
    ("above/proofs/another/Answers.antt", "refl", "cc", False),
]


def parts_in(folder, texts):
    """What an edit of the made crate rests on, where its files have these texts."""
    global ROOT
    for file, text in texts.items():
        path = folder / "crates" / file
        path.parent.mkdir(parents=True, exist_ok=True)
        path.write_text(text, encoding="utf-8")
    kept, ROOT = ROOT, folder
    for cache in (read, source_of, statements_of, reached):
        cache.cache_clear()
    try:
        return parts_of("above", [("src/lib.rt", "    helped(n)", "    helped(n) + 1")])
    finally:
        ROOT = kept


def wrong_parts():
    """What is wrong with the texts that are found of the made crate."""
    with tempfile.TemporaryDirectory() as room:
        right = parts_in(pathlib.Path(room), MADE)
        for file, old, new, matters in ROWS:
            changed = parts_in(pathlib.Path(room), {**MADE, file: MADE[file].replace(old, new)})
            if (changed != right) != matters:
                yield f"a refusal {'does not rest' if matters else 'rests'} on {old!r} in {file}"
