"""The texts of the page and of the playground, as they stand in the sources, and the rows that a language has for them (page/languages).
Nothing here is shared with page/translate.awk, which puts a language in the place of the English texts."""

import html.parser
import re

ATTRIBUTES = ("title", "aria-label", "placeholder")
CALL = re.compile(r"(?<![\w.])(?:say|said)(?:Count)?\(")
LITERAL = re.compile(r"'([^'\\\n]*)'|\"([^\"\\\n]*)\"")
HAS_LETTERS = re.compile(r"[^\W\d_]")


class Markup(html.parser.HTMLParser):
    """The texts of a template: those between two tags, of which <code> is none, and those of attributes."""

    def __init__(self, text):
        super().__init__(convert_charrefs=False)
        self.texts, self.held, self.is_script = [], "", False
        self.feed(text)
        self.close()
        self.end_text()

    def end_text(self):
        text, self.held = " ".join(self.held.split()), ""
        if HAS_LETTERS.search(text) and not re.fullmatch(r"(@[a-z]+@ ?)+", text):
            self.texts.append(text)

    def handle_starttag(self, tag, attrs):
        if tag == "code":
            self.held += "<code>"
            return
        self.end_text()
        self.texts += [value for name, value in attrs if name in ATTRIBUTES and value and HAS_LETTERS.search(value)]

    def handle_endtag(self, tag):
        if tag == "code":
            self.held += "</code>"
        else:
            self.end_text()

    def handle_data(self, data):
        self.held += data


def of_module(text):
    """The texts of a module, and the calls behind which no plain literal stands."""
    found, strange = [], []
    text = re.sub(r"^ *//.*|^import .*|^export const (say|said)\w*.*", "", text, flags=re.M)
    for call in CALL.finditer(text):
        literal = LITERAL.match(text, call.end())
        if literal and text[literal.end()] in ",)":
            found.append(literal[1] if literal[1] is not None else literal[2])
        else:
            strange.append(text[call.start():call.end() + 40])
    return found, strange


def of_heap_page(text):
    """What faults want of a trace, by the script's own words."""
    wanted = re.search(r"^declare -A wanted=\((.*?)\)\n\n", text, re.M | re.S)[1]
    names = ", ".join(re.search(r"^commands=\((.*?)\)", text, re.M)[1].split())
    heap = re.search(r'^heap_wanted="(.*)"$', text, re.M)[1]
    rows = [heap if value == "$heap_wanted" else value for value in re.findall(r'\]=("?)(.*?)\1(?=[ \n]|$)', wanted) for value in value[1:]]
    return [row.replace("${names%, }", names).replace("$most_bytes", "4194304") for row in rows]


def sources(root, examples):
    """The texts of each file in the order in which they are said, and calls that say no plain one."""
    page, texts, strange = root / "page", {}, []
    parts = [name for kind in ("parts", "played") for name in re.search(rf"^{kind}=\((.*?)\)", (root / "heap_page").read_text(), re.M | re.S)[1].split()]
    for part in (*parts, "start", "playground/host"):
        texts[f"{part}.js"], more = of_module((page / f"{part}.js").read_text())
        strange += more
    for name in ("page.html", "viewer.html", "playground.html"):
        texts[name] = Markup((page / name).read_text()).texts
    texts["../heap_page"] = of_heap_page((root / "heap_page").read_text())
    lessons = sorted(path.name.removeprefix("lesson_") for path in examples.glob("lesson_*") if not (path / "program").exists())
    texts["../examples"] = [name[0].upper() + name[1:].replace("_", " ") for name in lessons]
    texts["playground/tasks.txt"] = [text for row in (page / "playground/tasks.txt").read_text().splitlines() for text in row.split("\t")[1:]]
    # The third field is a goal, whose conditions stay as they are.
    texts["playground/goals.txt"] = [text for row in (page / "playground/goals.txt").read_text().splitlines() for at, text in enumerate(row.split("\t")) if at not in (0, 2)]
    return texts, strange


def signs(text):
    """What a text has of places for values, of bars between forms, and of <code>."""
    return [sorted(re.findall(r"\{\d\}", form)) for form in text.split(" | ")], re.findall(r"</?code>", text)


def rows_of(table, language):
    """The rows of a language, in order: each the English text and that of the language; and lines that are none."""
    rows, strange, english = [], [], None
    for line in table.read_text(encoding="utf-8").split("\n"):
        if line.startswith("en: ") and english is None:
            english = line[4:]
        elif line.startswith(f"{language}: ") and english is not None:
            rows.append((english, line[len(language) + 2:]))
            english = None
        elif line and not line.startswith("#") or english is not None:
            strange.append(line)
    return rows, strange
