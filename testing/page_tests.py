"""The tests of testing/page."""

import json
import os
import random
import re
import shutil
import subprocess
import time

import page_browser
import page_languages
import page_long
import page_look
import page_model
import page_texts
from page_model import NULL_WORD, Word, hexadecimal

PICTURED = "lesson_use_after_free"
# What a command is in CHERI-RISC-V.
INSTRUCTIONS = {"copy": "CMove", "setaddr": "CSetAddr", "narrow": "CSetBoundsExact", "andperm": "CAndPerm", "storecap": "CSC", "loadcap": "CLC"}
HEAP_LINE = "the first line is 'heap BASE PAGES': BASE a multiple of 4096, PAGES 1 to 1024, the end at most 2^64"
FAULTS = {
    b"heap 0 1\n\ncopy c1 c99\n": "line 3 of the trace, 'copy c1 c99': bad-register: a register is c0 to c31",
    b"": f"line 1 of the trace, '': no-heap: {HEAP_LINE}",
    b"malloc c1 16\n": f"line 1 of the trace, 'malloc c1 16': no-heap: {HEAP_LINE}",
    b"# one\nheap 1 1\n": f"line 2 of the trace, 'heap 1 1': bad-heap: {HEAP_LINE}",
    b"heap 0 1\nmalloc c1 0x\n": "line 2 of the trace, 'malloc c1 0x': bad-number: a number is decimal, or hexadecimal with 0x, and below 2^64; a mask is below 65536",
    b"heap 0 1\nwrite c1 00\n": "line 2 of the trace, 'write c1 00': bad-data: data is exactly 32 hexadecimal digits",
    b"heap 0 1\n\tnarrow c1  c2\n": "line 2 of the trace, 'narrow c1  c2': bad-count: it is 'narrow cD cS LENGTH'",
    b"heap 0 1\nsweep 1\n": "line 2 of the trace, 'sweep 1': bad-count: it is 'sweep'",
    b"heap 0 1\nfrob \x1b[31m\xff\n": "line 2 of the trace, 'frob ?[31m?': bad-command: a line begins with malloc, free, copy, setaddr, narrow, andperm, storecap, loadcap, "
                                       "write, show, sweep, begin, end or #",
    b"#" * 4_194_305: "too-long: a trace has at most 4194304 bytes",
}
EVIL = "\"'><img src=x onerror=\"window.evil=1\"><script>window.evil=2</script><!-- <b>bold</b> ]]> \u2028"


class Tests(page_long.LongTests):
    def __init__(self, root, scratch, browser):
        self.root, self.scratch, self.browser = root, scratch, browser
        self.passed = self.failed = 0
        self.quiet = False  # for a wrong page, of which one fault is enough

    def check(self, what, got, wanted):
        if got == wanted:
            self.passed += 1
            return
        self.failed += 1
        if not self.quiet:
            print(f"FAILED: {what}\n  page    {str(got)[:500]}\n  wanted  {str(wanted)[:500]}")

    # Pages

    def make(self, root, raw, words=()):
        return subprocess.run([root / "heap_page", *words], input=raw, stdout=subprocess.PIPE, stderr=subprocess.PIPE)

    def page(self, root, raw, name):
        """Writes the page of a trace; it and the data that it has."""
        made = self.make(root, raw)
        self.check(f"{name}: ./heap_page answers with a page", (made.returncode, made.stderr), (0, b""))
        path = self.scratch / f"{name}.html"
        path.write_bytes(made.stdout)
        return path

    def data(self, raw):
        return subprocess.run([self.root / "heap_states"], input=raw, stdout=subprocess.PIPE, check=True).stdout.decode()

    def lessons(self):
        return sorted(path for path in (self.root / "examples").glob("lesson_*") if not (path / "program").exists())

    def open(self, path, **more):
        self.browser.open(path, **more)

    def look(self):
        return json.loads(self.browser.run(page_look.LOOK))

    def no_noise(self, name):
        self.check(f"{name}: no message, no fault, nothing fetched", self.browser.noise(), [])

    # A lesson, step by step

    def lesson(self, root, name, raw=None):
        """A lesson, or another trace, forward and backward and before each pass."""
        raw = raw or (self.root / "examples" / name / "stdin").read_bytes()
        run = page_model.Run(raw, self.data(raw))
        self.open(self.page(root, raw, name))
        self.browser.run("byId('block-details').open = true")
        expected = page_look.Expected(run, self.check)
        check, last = self.check, len(run.values) - 1
        expected.compare(f"{name} step 0", 0, self.look())
        for index in range(1, last + 1):
            self.browser.key(("ArrowDown", "ArrowRight")[index % 2])
            expected.compare(f"{name} step {index}", index, self.look())
            self.areas(expected, f"{name} step {index}", index, (16, 32, 64) if index == last else (None,))
        self.browser.key("Home")
        check(f"{name}: Home", self.look()["step"], 0)
        self.browser.key("End")
        check(f"{name}: End", self.look()["step"], last)
        for index in range(last - 1, -1, -1):
            self.browser.key(("ArrowUp", "ArrowLeft")[index % 2])
            expected.compare(f"{name} back at step {index}", index, self.look())
        for index in [step for seed in (2, 7) for step in random.Random(seed).sample(range(last + 1), min(last + 1, 25))]:
            self.browser.run(f"document.querySelector('[data-step=\"{index}\"]').click()")
            expected.compare(f"{name} at once at step {index}", index, self.look())
        for index in range(last + 1):
            self.sides(expected, name, index)
        self.no_noise(name)

    def areas(self, expected, name, index, columns):
        for count in columns:
            if count is not None:
                self.browser.run(f"(() => {{ byId('columns').value = {count}; byId('columns').dispatchEvent(new Event('change')); }})()")
            expected.areas(f"{name}, a row of {count or 'as many as it has'}", index, json.loads(self.browser.run(page_look.AREAS)))

    def sides(self, expected, name, index):
        """Each side of a pass, from each other one, and from there to other steps."""
        sides = list(expected.run.sides(index))
        for side in [*sides, *reversed(sides), *sides[::2], *sides[1:2]]:
            self.browser.run(f"if (view.step !== {index}) go({index}); document.querySelector('[data-side={side}]').click()")
            if side == "after":
                expected.compare(f"{name} after step {index} again", index, self.look())
            else:
                expected.side(f"{name} {side}, step {index}", index, side, self.look())
        for other in (index - 1, index + 1, 0) if sides else ():
            self.browser.run(f"go({index}); show('{sides[-2]}'); go({other})")
            other = min(other, len(expected.run.values) - 1)
            expected.compare(f"{name} from within step {index} to {other}", other, self.look())

    def named(self, root):
        """The names of blocks and the notes of pins are whole or aren't there, on each kind of screen."""
        traces = {name: (self.root / f"examples/lesson_{name}/stdin").read_bytes() for name in ("use_after_free", "a_derived_pointer_goes_by_its_base", "contents_stay")}
        traces |= {name: "\n".join(page_model.TRACES[name]).encode() for name in ("past", "again")}
        seen = 0
        for name, raw in traces.items():
            path, last = self.page(root, raw, name), len(page_model.Trace(raw).counted) - 1
            for width, height, act in ((1440, 900, ""), (1024, 768, "byId('columns').value = 32; byId('columns').dispatchEvent(new Event('change'))"), (390, 844, ""),
                                       (1280, 720, "togglePresent()"), (1024, 768, "togglePresent()"), (900, 520, "embed()")):
                self.open(path, width=width, height=height)
                self.browser.run(act)
                for index in range(last + 1):
                    for side in ("after", "before")[: 1 + self.browser.run(f"Number(run.steps[{index}].taken !== null)")]:
                        named, cut = json.loads(self.browser.run(f"go({index}); show('{side}'); {page_look.CUT}"))
                        seen += len(named)
                        self.check(f"{name}, {width} wide, {act or 'as it opens'}, step {index} {side}: names are whole", cut, [])
            self.no_noise(name)
        self.check("there are names", seen > 100, True)

    def gaps(self, root):
        """Over pages that are left out the cursor goes at once, the pointer finds nothing in them, and All shows them."""
        run, key, check = self.browser.run, self.browser.key, self.check
        self.open(self.page(root, "\n".join(page_model.TRACES["wide"]).encode(), "wide"))
        run("go(5); byId('map').scrollIntoView({ block: 'center' }); byId('map').focus(); view.cursor = 2 * 256 - 64 + 5")
        for name, place in (("ArrowDown", 16 * 256 + 5), ("ArrowUp", 2 * 256 - 64 + 5), ("End", 2 * 256 - 1), ("ArrowRight", 16 * 256), ("ArrowLeft", 2 * 256 - 1)):
            key(name)
            check(f"the cursor at a gap, {name}", run("view.cursor"), place)
        for name, part, place in (("above", "parts[0].bottom - 1", 2 * 256 - 64), ("in it", "gaps[0].top + 9", None), ("below", "gaps[0].bottom + 1", 16 * 256)):
            run("view.cursor = null")
            x, y = json.loads(run(f"(() => {{ const b = byId('map').getBoundingClientRect(); return JSON.stringify([b.x + map.shape.gutter + 3, b.y + map.top + map.shape.{part}]); }})()"))
            self.browser.mouse("mouseMoved", x, y)
            check(f"the pointer {name} of a gap", run("view.cursor"), place)
        run("byId('all').click()")
        check("all pages are there", [run("map.shape.shown"), run("document.querySelectorAll('#map [data-page]').length"), run("document.querySelectorAll('#map [data-gap]').length")], [262144, 1024, 0])
        run("view.cursor = 100000; placeCursor(); byId('used').click()")
        check("a cursor on a page that is left out isn't drawn", run("map.cursor.getAttribute('visibility')"), "hidden")
        run("byId('typed').value = '00001040000000000480090400003d00'; byId('typed').dispatchEvent(new Event('input'))")
        self.no_noise("gaps")

    # Words and addresses

    def words(self, root):
        """The page's decoder and its inspector, on words of every shape."""
        raw = (self.lessons()[0] / "stdin").read_bytes()
        self.open(self.page(root, raw, "words"))
        words = list(page_model.random_words(6000, 14))
        asked = json.dumps([[word.text, str(address)] for word, address in words])
        got = json.loads(self.browser.run(page_look.DECODED % asked))
        for (word, address), row in zip(words, got, strict=True):
            there = Word(word.text, address)
            self.check(f"the word {word.text} at {address:#x}", row, [
                *map(hexadecimal, (word.base, word.top, word.base_mantissa, word.top_mantissa, word.top_field, word.base_field, word.type)),
                word.exponent, word.permissions, str(word.low), word.keeps_bounds_at(address), hexadecimal(there.base), hexadecimal(there.top)])
        for word, address in words[:150]:
            self.browser.run(f"byId('typed').value = '{word.text}'; byId('typed').dispatchEvent(new Event('input'))")
            self.browser.run(f"byId('exact').value = '{address}'; byId('exact').dispatchEvent(new Event('change'))")
            page_look.compare_word(self.check, f"the word typed {word.text}", word, self.look())
            page_look.compare_try(self.check, f"the word typed {word.text} at {address:#x}", word, address, self.look())
        self.no_noise("words")

    def tries(self, root):
        """Another address, by the pointer and by keys; the edges of a window by their buttons."""
        self.open(self.page(root, (self.root / "examples/lesson_edges_of_a_window/stdin").read_bytes(), "tries"))
        run, word = self.browser.run, Word("00000040000000000480090400003d00")
        self.browser.key("ArrowRight")
        for name, address in (("low − 1", word.low - 1), ("low", word.low), ("end − 1", word.low + 0x3FFF), ("end", word.low + 0x4000),
                              ("base", word.base), ("top", word.top), ("address", word.address)):
            run(f"document.querySelector('[data-jump=\"{name}\"]').click()")
            page_look.compare_try(self.check, f"the button {name}", word, address, self.look())
        self.browser.key("ArrowRight")
        run("byId('window').scrollIntoView({ block: 'center' })")
        x, y, width = json.loads(run("(() => { const b = byId('window').getBoundingClientRect(); return JSON.stringify([b.x, b.y + 40, b.width]); })()"))
        self.browser.mouse("mousePressed", x + width / 2, y, button="left", clickCount=1)
        self.browser.mouse("mouseMoved", x + width * 0.9, y, button="left", buttons=1)
        self.browser.mouse("mouseReleased", x + width * 0.9, y, button="left")
        address = int(self.look()["exact"], 16)
        self.check("dragged past the window", address > word.low + 0x4000, True)
        page_look.compare_try(self.check, "dragged", word, address, self.look())
        run("document.querySelector('[data-by=\"1\"]').focus()")
        self.browser.key("Enter")
        page_look.compare_try(self.check, "one address up", word, address + 1, self.look())
        run("byId('probe').focus()")
        self.browser.key("Home")
        page_look.compare_try(self.check, "the slider's start", word, word.low - 0x2000, self.look())
        self.no_noise("tries")

    # The controls

    def controls(self, root):
        self.open(self.page(root, (self.root / "examples/lesson_a_copy_hidden_in_memory/stdin").read_bytes(), "controls"))
        run, check = self.browser.run, self.check
        step = lambda: run("Number(document.querySelector('#lines [aria-current]').dataset.step)")
        self.names()
        for key, wanted in (("PageDown", 0), ("End", 11), ("Home", 0), ("ArrowRight", 1), ("ArrowDown", 2), ("ArrowRight", 3)):
            self.browser.key(key)
            check(f"the key {key}", step(), wanted)
        check("tab reaches the map", self.tab_to("#map"), True)
        self.browser.key("ArrowRight")
        self.browser.key("ArrowLeft")
        self.browser.key("Enter")
        check("Enter on the map shows the granule", run("byId('shown').textContent"), "Shown is the granule at 0x40000000, tagged.")
        check("keys of the map make no step", step(), 3)
        for name, text in (("1", "Shown is c1, tagged."), ("2", "Shown is c2, tagged.")):
            check(f"tab reaches c{name}", self.tab_to(f"[data-choose='{name}']"), True)
            self.browser.key("Enter")
            check(f"c{name} is shown", run("byId('shown').textContent"), text)
        check("tab reaches the slider of addresses", self.tab_to("#probe"), True)
        self.browser.key("End")
        check("past the window the tag goes", "So setaddr takes the tag." in run("byId('verdict').textContent"), True)
        check("tab reaches the list", self.tab_to("#lines [aria-current]"), True)
        for key, wanted in (("PageUp", 0), ("PageDown", 10)):
            self.browser.key(key)
            check(f"{key} in the list", step(), wanted)
        run("go(3)")
        self.browser.key("ArrowDown")
        check("an arrow in the list makes a step, and the keyboard stays there", (step(), run("document.activeElement.dataset.step")), (4, "4"))
        run("document.activeElement.blur(); go(6)")
        for side, tags in (("before", 2), ("after", 1)):
            check(f"tab reaches the state before or after a sweep, {side}", self.tab_to(f"[data-side={side}]"), True)
            self.browser.key("Enter")
            check(f"it is shown, {side}", run("document.querySelectorAll('#rows [data-tag=\"1\"], #map [data-tag=\"1\"]').length"), tags)
            check(f"the keyboard stays there, {side}", run("document.activeElement.dataset.side"), side)
        self.pointer(step)
        run("byId('slider').focus()")
        self.browser.key("ArrowRight")
        check("the slider", step(), 4)
        run("document.activeElement.blur(); go(0)")
        self.browser.key(" ")
        time.sleep(2.4)
        self.browser.key(" ")
        check("play went one step and stopped", (step(), run("byId('play').textContent")), (1, "Play"))
        self.no_noise("controls")
        run("window.blocked = 0; addEventListener('securitypolicyviolation', () => blocked++);"
            "fetch('http://127.0.0.1:9/').catch(() => 0); new Image().src = 'http://127.0.0.1:9/x.png'; void 0")
        time.sleep(0.5)
        check("nothing may be fetched", run("blocked"), 2)

    def names(self):
        """By the browser's own tree for screen readers: what can have the keyboard has a name, and no other has the same."""
        nodes = [node for node in self.browser.call("Accessibility.getFullAXTree")["nodes"] if not node.get("ignored")
                 and any(each["name"] == "focusable" and each["value"]["value"] for each in node.get("properties", []))]
        called = [(node["role"]["value"], node["name"]["value"].strip()) for node in nodes if node["role"]["value"] != "RootWebArea"]
        self.check("there are controls", len(called) > 30, True)
        self.check("every control has a name", [role for role, name in called if not name], [])
        self.check("no two controls have the same name", sorted({each for each in called if called.count(each) > 1}), [])

    def tab_to(self, selector):
        for _ in range(80):
            self.browser.key("Tab")
            if self.browser.run(f"document.activeElement.matches({json.dumps(selector)})"):
                return True
        return False

    def pointer(self, step):
        middle = "(() => { const b = document.querySelector(%s).getBoundingClientRect(); return JSON.stringify([b.x + b.width / 2, b.y + b.height / 2]); })()"
        self.browser.run("go(3); byId('map').blur(); scrollTo(0, 0)")
        x, y = json.loads(self.browser.run(middle % "'#map [data-granule]'"))
        self.browser.mouse("mouseMoved", x, y)
        self.check("the pointer tells the granule", "Granule 0 at 0x40000000" in self.browser.run("byId('detail').textContent"), True)
        self.browser.click(x, y)
        self.check("a click shows it", "the granule at 0x40000000" in self.browser.run("byId('shown').textContent"), True)
        self.browser.run("document.querySelector('[data-step=\"2\"]').scrollIntoView({ block: 'nearest' })")
        x, y = json.loads(self.browser.run(middle % "'[data-step=\"2\"]'"))
        self.browser.click(x, y)
        self.check("a click in the list", step(), 2)
        for name, wanted in (("next", 3), ("back", 2), ("last", 11), ("first", 0), ("next", 1), ("next", 2), ("next", 3)):
            x, y = json.loads(self.browser.run(middle % f"'#{name}'"))
            self.browser.click(x, y)
            self.check(f"the button {name}", step(), wanted)

    # A class

    def present(self, root):
        """Each step of each lesson on one screen, in large letters, with three lines, the sentence, the map and the registers alone."""
        lessons = self.lessons()
        for folder, width, letters in [*((folder, 1280, 20) for folder in lessons), (lessons[0], 1920, 30)]:
            name, raw = folder.name, (folder / "stdin").read_bytes()
            model = page_model.Run(raw, self.data(raw))
            self.open(self.page(root, raw, name), width=width, height=width * 9 // 16)
            before = self.look()
            self.browser.key("p")
            for asks in (False, True):
                if asks:
                    self.browser.key("a")
                for index in range(len(model.values)):
                    self.browser.run(f"go({index})")
                    self.one_screen(f"{name} on one screen, step {index}, asked {asks}", model, index, letters)
            self.areas(page_look.Expected(model, self.check), f"{name} on one screen", len(model.values) - 1, (None,))
            self.browser.key("a")
            self.browser.key("Escape" if len(name) % 2 else "p")
            self.check(f"{name}: its list is where the step is", [self.look()[key] for key in ("step", "inView")], [len(model.values) - 1, True])
            self.browser.run("go(0)")
            self.check(f"{name}: all is as before, once the screen for a class is left", self.look(), before)
            self.no_noise(name)

    def one_screen(self, name, model, index, letters):
        seen = json.loads(self.browser.run(page_look.PRESENT))
        shape, room = seen["shape"], seen["room"]
        self.check(f"{name}: letters are large", seen["least"] >= letters, True)
        self.check(f"{name}: nothing else is in sight", [part for part in seen["parts"] if part != "legend"], ["map", "registers", "three", "told"])
        self.check_legend(name, model, index, seen["legend"])
        self.check(f"{name}: all of it is on the screen", seen["past"], [])
        rows = [model.trace.counted[at] if 0 <= at < len(model.values) else None for at in (index - 1, index, index + 1)]
        replies = [model.values[at]["reply"] if at >= 0 else "" for at in (index - 1, index)] + [""]
        instructions = [INSTRUCTIONS.get(row[1].split()[0]) if row else None for row in rows]
        wanted = [f"{row[0]} {row[1]}" + (f" → {reply}" if reply else "") + (f" {instruction}" if instruction else "") if row else ""
                  for row, reply, instruction in zip(rows, replies, instructions)]
        self.check(f"{name}: three lines, the next one without its reply", [seen["three"], seen["current"]], [wanted, 1])
        self.check(f"{name}: each is a line, and no trap is cut", [max(seen["lines"]) < 2.2 * letters, seen["cut"]], [True, 0])
        self.check(f"{name}: the map has what is used, and no row more", 0 <= shape["shown"] - seen["reach"] < shape["columns"], True)
        wide, high = shape["full"] / room[0], (shape["top"] + shape["bottom"]) / room[1]
        self.check(f"{name}: it fills its room", [max(wide, high) > 0.75, wide <= 1, high <= 1], [True] * 3)

    def check_legend(self, name, model, index, legend):
        """It names what the map has and nothing else, as far as its line goes."""
        state, before, taken = model.states[index], model.before(index), model.taken(index) or []
        lost = {row[1] for row in taken if row[0] == "granule" and not state.granule(row[1])[0]}
        has_chips = any(row[0] == "register" for row in taken) and not model.values[index]["text"].startswith("malloc ")
        marks = {"live": "live" in state.blocks.values(), "held": "waiting" in state.blocks.values(), "painted": "painted" in state.blocks.values(),
                 "was held": any(block not in state.blocks for block in before.blocks), "tagged": any(tag for tag, _ in state.granules.values()),
                 "tag taken": bool(lost) or has_chips, "data": any(not tag and word != NULL_WORD and place not in lost for place, (tag, word) in state.granules.items()),
                 "changed": bool(model.changes(index, "granules")), "bounds": "bounds" in legend, "dirty page": bool(state.dirty), "page at which an end looks": bool(model.looked(index))}
        wanted = [mark for mark, is_there in marks.items() if is_there]
        self.check(f"{name}: the legend has what the map has", [legend, len(legend) >= min(len(wanted), 5)], [wanted[:len(legend)], True])

    def small_screens(self, root):
        """On 1,024 by 768 all of the screen for a class is in sight but for registers that are scrolled, and on a phone what is told, the map and its legend."""
        run, low = self.browser.run, "Math.max(...['three', 'told', 'map', 'legend'].map(name => byId(name).getBoundingClientRect().bottom))"
        for folder in self.lessons():
            name, raw = folder.name, (folder / "stdin").read_bytes()
            path, model = self.page(root, raw, name), page_model.Run(raw, self.data(raw))
            for width, height, at in ((1024, 768, "#present&step=1"), (1024, 768, "#present&ask&step=1"), (390, 844, "#present&step=1")):
                self.open(path, width=width, height=height, at=at)
                for index in range(len(model.values)):
                    seen = json.loads(run(f"go({index}); {page_look.PRESENT}"))
                    told = f"{name} on {width} by {height}, {at}, step {index}"
                    self.check(f"{told}: the map, its lines, what is told and the legend are in sight",
                               [run(low) <= height, [part for part in ("map", "a line", "told", "legend") if part in seen["past"]]], [True, []])
                    self.check_legend(told, model, index, seen["legend"])
            self.no_noise(name)

    TABBED = "['header', '#desk', '#three', '#told', '#map', '#stage', '#registers', '#inspector', '#trace', '#glossary'].find(name => document.activeElement.closest(name)) ?? null"

    def tabs(self, root):
        """Tab goes from part to part as they stand: by rows, and in these from left to right."""
        raw = (self.root / "examples" / PICTURED / "stdin").read_bytes()
        for at, wanted in (("#step=5", ["header", "#trace", "#stage", "#map", "#stage", "#registers", "#inspector"]), ("#present&ask&step=4", ["#told", "#map", "#registers"])):
            self.open(self.page(root, raw, "tabs"), at=at)
            visited = []
            for _ in range(90):
                self.browser.key("Tab")
                visited.append(self.browser.run(self.TABBED))
            parts = [part for part, before in zip(visited, [None, *visited]) if part and part != before]
            self.check(f"Tab on {at}", parts[:len(wanted)], wanted)
            places = json.loads(self.browser.run(f"scrollTo(0, 0); JSON.stringify({json.dumps([part for part in wanted if part != '#stage'])}.map(name => {{"
                                                 " const { left, top } = document.querySelector(name === '#map' && !view.present ? '#stage' : name).getBoundingClientRect(); return [Math.round(top), Math.round(left)]; }))"))
            self.check(f"so they stand on {at}", places, sorted(places))

    def kept(self, root):
        """What is not made anew at a step tells it all the same: what is held, in each register, and the inspector out of sight, on paper too."""
        raw = "\n".join(page_model.TRACES["wide"]).encode()
        model = page_model.Run(raw, self.data(raw))
        self.open(self.page(root, raw, "kept"))
        run, shown = self.browser.run, "byId('shown').textContent + byId('history').textContent"
        self.check("the inspector is out of sight", run("byId('inspector').getBoundingClientRect().top > innerHeight"), True)
        for index in [*range(len(model.values)), *range(len(model.values) - 2, 0, -3)]:
            run(f"go({index})")
            bands = json.loads(run("JSON.stringify([...new Set([...document.querySelectorAll('#rows .held-band')].map(band => band.getAttribute('d') !== ''))])"))
            wanted = [any(of != "live" for of in model.states[index].blocks.values())]
            self.check(f"what is held at step {index}, in each register", bands if model.states[index].registers else wanted, wanted)
        for index, act in ((3, "new Promise(done => setTimeout(done, 1000))"), (8, "dispatchEvent(new Event('beforeprint'))")):
            run(f"go({index}); drawDue(); go({index + 2})")
            before = run(shown)
            run(act)
            after = run(shown)
            self.check(f"the inspector follows by itself after step {index}", [before != after, after], [True, run(f"drawDue(); {shown}")])
        self.no_noise("kept")

    def ask(self, root):
        """What comes is hidden, and ticks are asked for before each pass and judged at it, in each lesson."""
        run, check = self.browser.run, self.check
        for folder in self.lessons():
            name, raw = folder.name, (folder / "stdin").read_bytes()
            model = page_model.Run(raw, self.data(raw))
            self.open(self.page(root, raw, name))
            last, everything = len(model.values) - 1, json.loads(run(page_look.IN_SIGHT))
            band = "getComputedStyle(document.querySelector('#band svg')).visibility"
            told = [run(band)]
            self.browser.key("a")
            check(f"{name}: so is the band", [*told, run(band)], ["visible", "hidden"])
            for index in [*range(last + 1), *range(last, -1, -2)]:
                run(f"go({index})")
                wanted = [[at for at in kind if at <= index or index == last] for kind in everything]
                check(f"{name}: what comes after step {index} is hidden", json.loads(run(page_look.IN_SIGHT)), wanted)
                self.asked(f"{name}: after step {index}", model, index)
            self.browser.key("a")
            check(f"{name}: nothing is hidden any more", [json.loads(run(page_look.IN_SIGHT)), run("byId('guess').childNodes.length")], [everything, 0])
            self.no_noise(name)

    def asked(self, name, model, index):
        """The places that may be ticked are those that are tagged; every second one is ticked, and judged at the pass."""
        run, check, state = self.browser.run, self.check, model.states[index]
        boxes = json.loads(run("JSON.stringify([...document.querySelectorAll('[data-tick]')].map(box => box.dataset.tick))"))
        taken = model.taken(index + 1) if index + 1 < len(model.values) else None
        is_malloc = index + 1 < len(model.values) and model.values[index + 1]["text"].startswith("malloc ")
        may_pass = "waiting" in state.blocks.values() and not state.open if is_malloc else taken is not None
        tagged = [f"c{number}" for number in range(1, 32) if state.register(number)[0]]
        tagged += [hexadecimal(model.base + 16 * place) for place in sorted(state.granules) if state.granule(place)[0]]
        check(f"{name}: what may be ticked", boxes, tagged if may_pass else [])
        if not may_pass:
            return
        asked = run("byId('guess').textContent")
        check(f"{name}: a malloc is asked about whether it sweeps or not", "a malloc, which sweeps first where it finds no place" in asked, is_malloc)
        run("document.querySelectorAll('[data-tick]').forEach((box, index) => { if (box.checked !== (index % 2 === 0)) box.click(); })")
        took, ticked = [row[2] for row in taken or []], tagged[::2]
        kinds = [("right", [each for each in ticked if each in took]), ("not taken", [each for each in ticked if each not in took]),
                 ("taken, and not ticked", [each for each in took if each not in ticked])]
        told = "; ".join(f"{kind} {', '.join(names)}" for kind, names in kinds if names) or "right, it took none"
        if taken is None:
            told = f"{'not taken' if ticked else 'right'}, it found a place, so it made no sweep"
        run(f"go({index + 1})")
        check(f"{name}: the ticks are judged", run("byId('judged').textContent"), f"{'Your ticks' if ticked else 'You ticked nothing'}: {told}.")
        run(f"go({index})")
        check(f"{name}: the ticks are kept, once and for all", run("[document.querySelectorAll('[data-tick]:checked').length, document.querySelectorAll('[data-tick]:enabled').length]"), [len(ticked), 0])

    # The address, the keys, words that are typed

    def addresses(self, root):
        lesson = self.root / "examples/lesson_a_derived_pointer_goes_by_its_base/stdin"
        path, run, check = self.page(root, lesson.read_bytes(), "addresses"), self.browser.run, self.check
        self.open(path)
        self.settle()
        check("a page that was just opened has a plain address", run("location.hash"), "")
        told = lambda: [run("view.step"), run("view.side"), run("byId('shown').textContent").split(",")[0], run("byId('columns').value"), run("view.follow")]
        for at, wanted in (("#step=9&side=before&pick=c2&row=32", [9, "before", "Shown is c2", "32", False]),
                           ("#step=9&pick=0x40000010", [9, "after", "Shown is the granule at 0x40000010", "16", False]),
                           ("#step=4", [4, "after", "Shown is c3", "16", True])):
            self.open(path, at=at)
            check(f"{at} opens there", told(), wanted)
            self.settle()
            check(f"{at} stays", run("location.hash"), at)
            self.browser.call("Page.reload")
            self.open_again()
            check(f"{at} comes back by a reload", told(), wanted)
            self.browser.key("ArrowRight")
            self.settle()
            check(f"{at}: a step on is told", run("location.hash"), at.replace("&side=before", "").replace(f"step={wanted[0]}", f"step={wanted[0] + 1}"))
        for at, step in (("#step=99999&side=between&pick=c99&row=17", 12), ("#step=-1&pick=0x40000008", 0), ("#<b>=%3Cb%3E&step=1e1", 0), ("#pick=0x50000000&side=after", 0)):
            self.open(path, at=at)
            check(f"{at}: what is no place is passed over", [run("view.step"), run("view.side"), run("view.follow"), run("view.columns")], [step, "after", True, 16])
            self.no_noise(at)
        ways = lambda: [run("view.present"), run("view.ask"), run("view.step"), run("view.side"), run("byId('present').getAttribute('aria-pressed')"), run("byId('ask').getAttribute('aria-pressed')")]
        for at, wanted in (("#present&ask&step=8", [True, True, 8, "after", "true", "true"]), ("#ask&step=4", [False, True, 4, "after", "false", "true"]),
                           ("#present&step=9&side=before", [True, False, 9, "before", "true", "false"])):
            self.open(path, at=at)
            check(f"{at} opens so", ways(), wanted)
            self.settle()
            check(f"{at} stays", run("location.hash"), at)
            for letter, way in (("p", "present"), ("a", "ask")):
                self.browser.key(letter)
                self.settle()
                check(f"{at}: {letter} is told", run(f"[new URLSearchParams(location.hash.slice(1)).has('{way}'), view.{way}]"), [f"{way}&" not in at] * 2)
            self.no_noise(at)
        self.open(path, at="#ask&step=4")
        run("location.hash = '#present&step=5'")
        self.settle()
        check("other ways by hand", ways()[:3], [True, False, 5])
        self.open(path)
        run("location.hash = '#step=9&side=before'")
        self.settle()
        check("an address that is changed by hand", told()[:2], [9, "before"])
        self.browser.key("b")
        self.settle()
        check("the other side", run("location.hash"), "#step=9")
        self.no_noise("addresses")

    def open_again(self):
        until = time.monotonic() + 20
        while time.monotonic() < until and not self.browser.run(page_browser.READY):
            time.sleep(0.02)
        self.browser.run(page_browser.EXPOSE)

    def letters(self, root):
        """The keys that are letters and signs, the search, and the table of keys."""
        raw = (self.root / "examples/lesson_malloc_sweeps_when_full/stdin").read_bytes()
        self.open(self.page(root, raw, "letters"))
        run, check, key, model = self.browser.run, self.check, self.browser.key, page_model.Run(raw, self.data(raw))
        run("go(4)")
        sides = []
        for _ in range(3):
            key("b")
            sides.append(run("view.side"))
        check("B goes from side to side of a malloc that sweeps", sides, ["before", "between", "after"])
        run("go(1)")
        key("b")
        check("B is nothing where there is no pass", [run("view.side"), run("view.step")], ["after", 1])
        key("/")
        check("/ goes to the search", run("document.activeElement.id"), "asked")
        for letter in ("p", "a", "b"):
            key(letter)
        check("letters in a field are its own", [run("byId('asked').value"), run("document.body.className")], ["pab", ""])
        for sought in ("SWEPT", "malloc", "c2", "no such text"):
            run("go(0); " + page_look.FILTER % ('"all"', json.dumps(sought)))
            found = [index for index in range(len(model.values)) if self.is_about(model, index, sought)]
            for wanted in [index for index in found if index > 0] or [0]:
                key("Enter")
                check(f"Enter finds {sought}", run("view.step"), wanted)
            check(f"{sought}: it is told", run("byId('listed').textContent"), page_model.plural(len(found), "step") if found else "no such step")
        for index, wanted in ((0, 0), (4, 4)):
            run(f"go({index}); if (!view.ask) toggleAsk(); " + page_look.FILTER % ('"all"', '"swept"'))
            key("Enter")
            check(f"a reply that is hidden isn't found, from {index}", run("view.step"), wanted)
            run("go(4)")
            check("it is found once its step is shown", run("list.items.length"), 1)
            run(f"go({index}); " + page_look.FILTER % ('"passes"', '""'))
            check(f"a pass that is hidden isn't listed, from {index}", run("list.items.length"), wanted // 4)
        run("toggleAsk(); go(0); " + page_look.FILTER % ('"all"', '""') + "; goToSearch()")
        key("Escape")
        check("Escape leaves the search for the list", run("document.activeElement === currentRow"), True)
        key("?")
        check("? shows the keys", [run("byId('keys').open"), run("byId('keys').textContent.includes('Page Up')")], [True, True])
        key("ArrowRight")
        key("p")
        check("keys do nothing else then", [run("view.step"), run("view.present")], [0, False])
        key("Escape")
        check("Escape closes them", run("byId('keys').open"), False)
        for button, state in (("ask", "view.ask"), ("present", "view.present")):
            run(f"byId('{button}').click()")
            check(f"the button {button}", [run(state), run(f"byId('{button}').getAttribute('aria-pressed')")], [True, "true"])
        self.no_noise("letters")

    def typed(self, root):
        self.open(self.page(root, (self.lessons()[0] / "stdin").read_bytes(), "typed"))
        word = "00000040000000000480090400003d00"
        spaced = " ".join(word[at:at + 2] for at in range(0, 32, 2))
        for text, told in ((word, ""), ("0x" + word, ""), (f"  {word.upper()}\t", ""), (spaced, ""), (f"0x{word[:16]} 0X{word[16:]}", ""), ("", ""),
                           (" ".join("0x" + part for part in spaced.split()), ""), (word[1:], "31 digits: a word has just 32, two for each byte."),
                           (word + "0", "33 digits: a word has just 32, two for each byte."), ("7", "1 digit: a word has just 32, two for each byte."),
                           (word[:-1] + "g", "“g” is no hexadecimal digit."), ("00-0", "“-” is no hexadecimal digit."), (word[:8] + "0x" + word[10:], "“x” is no hexadecimal digit.")):
            self.browser.run(f"view.chosen = null; draw(false); byId('typed').value = {json.dumps(text)}; byId('typed').dispatchEvent(new Event('input'))")
            shown = self.browser.run("[byId('wrong').textContent, byId('typed').getAttribute('aria-invalid'), chosenWord().word].join('|')")
            self.check(f"the word typed {text!r}", shown, "|".join([told, "true" if told else "false", "0" * 32 if told or not text else word]))
        self.no_noise("typed")

    # Texts and data that mean harm

    def hostile(self, root):
        """All bytes in comments; and data that no heap_states writes, put into a page by hand."""
        lesson = self.root / "examples/lesson_text_that_is_not_markup"
        everything = b"".join(b"# %d: %c <i>%c\n" % (byte, byte, byte) for byte in range(256) if byte != 10)
        for name, raw in ((lesson.name, (lesson / "stdin").read_bytes()), ("all bytes", everything + b"heap 0 1\nmalloc c1 1 \r\nsweep\n" + everything)):
            self.open(self.page(root, raw, name.replace(" ", "_")))
            trace = page_model.Trace(raw)
            self.check(f"{name}: the title is text", self.browser.run("byId('title').textContent"), trace.title)
            notes = [note for *_, notes in trace.counted for note in notes] + trace.after
            self.check(f"{name}: the notes are text", json.loads(self.browser.run(page_look.NOTES)), notes)
            self.browser.key("End")
            self.check(f"{name}: nothing came of it", self.browser.run(page_look.HARM), page_look.NO_HARM)
            self.no_noise(name)
        good = (self.scratch / f"{lesson.name}.html").read_text()
        head, rest = good.split('id="states">', 1)
        lines, tail = rest.split("</script>", 1)
        lines = lines.split("\n")
        cell = lines[1].split('{"r":1,', 1)[1].split("}", 1)[0]
        value = json.loads(lines[1])
        evil = json.dumps({**value, "reply": "trap " + EVIL, "text": "malloc " + EVIL})
        self.faulty("a reply that is markup", head, [lines[0], evil, *lines[2:]], tail, False)
        shown = self.browser.run("go(1); document.querySelector('[data-step=\"1\"] .reply').textContent")
        self.check("a reply that is markup: it is text", shown, "trap " + EVIL)
        self.check("a reply that is markup: nothing came of it", self.browser.run(page_look.HARM), page_look.NO_HARM)
        for name, change in {
            "no data": lambda: [], "no JSON": lambda: ["{", *lines[1:]], "cut": lambda: lines[:-2],
            "no heap": lambda: lines[1:], "two heaps": lambda: [lines[0], *lines],
            "a line too many": lambda: [*lines[:3], lines[2], *lines[3:]], "a line too few": lambda: [*lines[:2], *lines[3:]],
            "an unknown state": lambda: [lines[0], lines[1].replace('"live"', '"<b>"'), *lines[2:]],
            "a word that is none": lambda: [lines[0], lines[1].replace("00000040000000000480090400003d00", "zz"), *lines[2:]],
            "another base": lambda: [lines[0], lines[1].replace(cell, cell.replace('"base":"0x40000000"', '"base":"0x1"')), *lines[2:]],
            "a granule past the heap": lambda: [lines[0], lines[1].replace('"granules":[]', '"granules":[{"i":256,%s}]' % cell), *lines[2:]],
            "without its last command": lambda: [*lines[:-3], *lines[-2:]],
            "another sum at the end": lambda: [*lines[:-2], lines[-2].replace('"tags":', '"tags":1'), lines[-1]],
            "a block past the heap": lambda: [lines[0], lines[1].replace('"top":"0x40000020","state"', '"top":"0x50000000","state"'), *lines[2:]],
        }.items():
            self.faulty(name, head, change(), tail, True)

    def faulty(self, name, head, lines, tail, is_told):
        path = self.scratch / "faulty.html"
        path.write_text(head + 'id="states">' + "\n".join(lines).replace("<", "\\u003c") + "</script>" + tail)
        self.open(path)
        self.check(f"faulty data, {name}: the page says so", self.browser.run("document.querySelector('#fault').hidden"), not is_told)
        self.check(f"faulty data, {name}: and no more comes of it", (self.browser.noise(), self.browser.run(page_look.HARM)), ([], page_look.NO_HARM))

    # What ./heap_page answers

    def answers(self):
        check, raw = self.check, (self.root / "examples/lesson_use_after_free/stdin").read_bytes()
        states = lambda text, words=(): subprocess.run([self.root / "heap_states", *words], input=text, capture_output=True)
        for name, text, words in (("a fault", b"heap 0 1\ncopy c1 c99\n", ()), ("no heap", b"", ()), ("too long", b"#" * 4_194_305, ()),
                                  ("a word that is none", raw, ("--nothing",))):
            wanted, made = states(text, words), self.make(self.root, text, words)
            answer = wanted.stdout.replace(b"heap_states [", b"heap_page [--language NAME] [--playground-at PLACE] [").replace(b"N]\n", b"N] or heap_page [--language NAME] --playground\n")
            check(f"{name}: the answer is that of ./heap_states, by this name", (made.returncode, made.stdout), (wanted.returncode, answer))
            check(f"{name}: that is no page", made.returncode in (2, 3) and made.stdout != b"" and b"<" not in made.stdout, True)
        for text, told in FAULTS.items():
            made = self.make(self.root, text)
            check(f"{text[:60]}: the fault is told with its line and what is wanted there", (made.returncode, made.stderr.decode()), (3, f"heap_page: {told}\n"))
        log = (self.root / "examples/check_agrees/stdin").read_bytes()
        for text, told in ((log, "the text is a log, with answers behind ->: ./heap_check judges it"),
                           (b"\xef\xbb\xbf" + raw, "the text begins with a byte order mark, which is no part of a trace: save it without")):
            made = self.make(self.root, text)
            check(f"{told}: it is said after the faulty line", (made.returncode, made.stderr.decode().split("\n")[1:]), (3, [f"heap_page: {told}", ""]))
        made, told = self.make(self.root, b"heap 0 1\n" + b"sweep\n" * 20001), "heap_page: a trace for a page has at most 20000 commands, and this one has 20001\n"
        check("20,001 commands: told with the limit", (made.returncode, made.stdout, made.stderr.decode()), (5, b"", told))
        check("20,000 commands and 1,024 pages have a page", self.make(self.root, b"heap 0 1024\n" + b"sweep\n" * 20000).returncode, 0)
        with open("/dev/full", "wb") as full:
            check("a page that can't be written", subprocess.run([self.root / "heap_page"], input=raw, stdout=full, stderr=subprocess.DEVNULL).returncode, 4)
        folder = os.open(self.scratch, os.O_RDONLY)
        check("a trace that can't be read", subprocess.run([self.root / "heap_page"], stdin=folder, capture_output=True).returncode, 4)
        os.close(folder)
        self.stand_ins(raw)

    def stand_ins(self, raw):
        """In a copy where another program stands for ./heap_states, and from a link elsewhere."""
        copy = self.copy("a copy & its '100%'")
        kept = self.scratch / "kept"
        kept.mkdir(exist_ok=True)
        for status, text in ((0, ""), (1, "fault memory\n"), (2, "usage: a\n"), (4, '{"heap":\n'), (125, "")):
            body = f"cat <<'END'\n{text}END\nexit {status}" if status else f'exec {json.dumps(str(self.root / "heap_states"))} "$@"'
            (copy / "heap_states").unlink()
            (copy / "heap_states").write_text(f"#!/bin/sh\n{body}\n")
            (copy / "heap_states").chmod(0o755)
            made = subprocess.run([copy / "heap_page"], input=raw, capture_output=True, env={**os.environ, "TMPDIR": str(kept)})
            wanted = self.make(self.root, raw).stdout if status == 0 else text.encode()
            self.check(f"status {status} of ./heap_states", (made.returncode, made.stdout), (status, wanted))
        self.check("no temporary file is left", list(kept.iterdir()), [])
        (self.scratch / "link").symlink_to(self.root / "heap_page")
        made = subprocess.run([self.scratch / "link"], input=raw, capture_output=True, cwd="/")
        self.check("by a link from elsewhere", (made.returncode, made.stdout), (0, self.make(self.root, raw).stdout))

    def copy(self, name):
        copy = self.scratch / name
        shutil.rmtree(copy, ignore_errors=True)
        copy.mkdir()
        shutil.copytree(self.root / "page", copy / "page")
        shutil.copy(self.root / "heap_page", copy)
        (copy / "heap_states").symlink_to(self.root / "heap_states")
        return copy

    # Light, dark and paper

    def colours(self, root):
        """Fills of blocks and the ground differ by their light; rings and bounds differ by their shape; what is chosen stands out in forced colours."""
        schemes = re.findall(r":root \{(.*?)\}", (root / "page/style.css").read_text(), re.S)
        self.check("light, dark and paper", len(schemes), 3)
        for name, scheme in zip(("light", "dark"), schemes):
            value = {key: page_model.luminance(text) for key, text in re.findall(r"--(card|live|held|painted): (#[0-9a-f]{6});", scheme)}
            pairs = {(one, other): (value[one] + 0.05) / (value[other] + 0.05) for one in value for other in value if value[one] >= value[other] and one != other}
            self.check(f"{name}: contrasts of at least 1.5 between four fills", [len(pairs), [pair for pair, contrast in pairs.items() if contrast < 1.5]], [6, []])
        path, run = self.page(root, (self.root / "examples/lesson_use_after_free/stdin").read_bytes(), "colours"), self.browser.run
        paint = lambda selector, name="backgroundColor": run(f"getComputedStyle(document.querySelector('{selector}')).{name}")
        for dark in (False, True):
            self.open(path, dark=dark)
            run("go(4); choose('register', 2); toggleAsk()")
            self.browser.media("", dark, forced=True)
            drawn = json.loads(run("JSON.stringify(['#map .changed', '#map .pick'].map(name => document.querySelector(name).getAttribute('d').match(/M/g).length))"))
            self.check(f"dark {dark}: a ring has four corners, and bounds are whole", drawn, [4, 1])
            self.check(f"dark {dark}: the map keeps its own colours", paint("#map") != "rgba(0, 0, 0, 0)" and paint("#map") == paint("#legend svg"), True)
            for one, other in (("#ask", "#present"), ("#lines [aria-current]", "#lines [data-step=\"1\"]"), ("[data-choose=\"2\"]", "[data-choose=\"1\"]")):
                self.check(f"dark {dark}, forced colours: {one} stands out", paint(one) != paint(other) and paint(one, "color") != paint(one), True)
            self.browser.media("", dark)
            ground = paint("#stage")
            run("togglePresent()")
            self.check(f"dark {dark}: the ground of the map is the same for a class", paint("body"), ground)
        self.no_noise("colours")

    def looks(self, root):
        path = self.page(root, (self.root / "examples" / PICTURED / "stdin").read_bytes(), PICTURED)
        for dark in (False, True):
            for width in (1440, 1100, 700):
                self.open(path, width=width, dark=dark)
                self.browser.key("End")
                self.check(f"{width} wide, dark {dark}: nothing is wider than the page",
                           self.browser.run("document.documentElement.scrollWidth <= innerWidth"), True)
                self.browser.run("scrollTo(0, 400)")
                self.settle()
                under = "(() => { const [head, trace] = ['header', '#trace'].map(name => document.querySelector(name).getBoundingClientRect()); return trace.top >= head.bottom; })()"
                self.check(f"{width} wide, dark {dark}: the head hides nothing of the trace", width < 760 or self.browser.run(under), True)
                self.browser.key("p")
                self.check(f"{width} wide, dark {dark}: nor is the screen for a class",
                           self.browser.run("document.documentElement.scrollWidth <= innerWidth && map.shape.full <= view.mapWidth"), True)
                self.no_noise(f"{width} wide, dark {dark}")
        self.check("on paper", len(self.browser.call("Page.printToPDF", printBackground=True)["data"]) > 10000, True)
        self.no_noise("on paper")

    def modules(self, root):
        """Their types are checked, where there is tsc. ./heap_page makes one script of the modules of a page, so nothing else sees what they import."""
        parts, played = (re.search(rf"^{name}=\((.*?)\)", (root / "heap_page").read_text(), re.M | re.S)[1].split() for name in ("parts", "played"))
        if shutil.which("tsc"):
            told = subprocess.run(["tsc", "-p", root / "page"], capture_output=True, text=True)
            self.check("the types of the modules", (told.returncode, told.stdout), (0, ""))
        else:
            print("skipped: the types of the page's modules: no tsc (node-typescript)")
        there = sorted(str(path.relative_to(root / "page").with_suffix("")) for path in (root / "page").rglob("*.js") if path.parent.name != "codemirror")
        self.check("the modules are those in page/", sorted([*parts, *played, "start", "playground/host"]), there)
        self.modules_of(root, [*parts, "start"])
        self.modules_of(root, [*parts, *played])

    def modules_of(self, root, parts):
        """Each name is exported in one module and used in another, no two modules have a name in common, and each stands behind those that it imports."""
        texts = {part: (root / f"page/{part}.js").read_text() for part in parts}
        exported = {part: set(re.findall(r"^export (?:async )?(?:const|let|function\*?|class) (\w+)", text, re.M)) for part, text in texts.items()}
        owned = [name for text in texts.values() for name in re.findall(r"^(?:export )?(?:async )?(?:const|let|function\*?|class) (\w+)", text, re.M)]
        self.check(f"{parts[-1]}: no two modules have a name in common", sorted({name for name in owned if owned.count(name) > 1}), [])
        everywhere = {name: part for part, names in exported.items() for name in names}
        for part, text in texts.items():
            imports = re.findall(r"^import \{ (.*?) \} from '(\.\.?/\w+)\.js';$", text, re.M)
            self.check(f"{part}: it imports no other way", text.count("\nimport "), len(imports))
            of = {place: os.path.normpath(os.path.join(os.path.dirname(part), place)) for _, place in imports}
            named = {name: of[place] for names, place in imports for name in names.split(", ")}
            self.check(f"{part}: what it imports is exported there, by modules before it", [name for name, other in named.items() if name not in exported[other]
                       or parts.index(other) > parts.index(part)], [])
            body = re.sub(r"^import .*|//.*|'(?:[^'\\\n]|\\.)*'", "", text, flags=re.M)
            used = {name for name in re.findall(r"(?<![.\w])[A-Za-z_]\w*", body) if name in everywhere and everywhere[name] != part}
            called = {name for name in used if re.search(rf"(?<![.\w]){name}\(", body)}
            own = {name for name in called if re.search(rf"(?:const|let|function|[{{,\[(]) ?{name}\b(?!\()", body)}
            self.check(f"{part}: it uses what it imports, and imports what it calls", [sorted(set(named) - used), sorted(called - set(named) - own)], [[], []])

    def texts(self, root):
        """Each text that is said in the page's sources has its row in each language, and each row its text; what stands for values stands in both, and
        so do both forms of a count."""
        said, strange = page_texts.sources(root, self.root / "examples")
        self.check("a plain literal stands behind each call that says one", strange, [])
        everywhere = [text for texts in said.values() for text in texts]
        self.check("there are texts of each kind of file", [name for name, count in (("words.js", 60), ("viewer.html", 120), ("playground/goal.js", 40), ("../heap_page", 6),
                   ("../examples", len(self.lessons())), ("playground/tasks.txt", 16), ("playground/goals.txt", 30)) if len(said[name]) < count], [])
        languages = sorted((root / "page/languages").glob("*.txt"))
        self.check("German is there", "de" in [table.stem for table in languages], True)
        for table in languages:
            rows, strange = page_texts.rows_of(table, table.stem)
            english = [text for text, _ in rows]
            self.check(f"{table.name}: it has rows, comments and nothing else", strange, [])
            self.check(f"{table.name}: no text of the page lacks its row", sorted(set(everywhere) - set(english)), [])
            self.check(f"{table.name}: each row is of a text of the page", sorted(set(english) - set(everywhere)), [])
            self.check(f"{table.name}: no text has two rows", sorted(text for text in set(english) if english.count(text) > 1), [])
            self.check(f"{table.name}: each text is there, with no blanks around it", [text for text, own in rows if own.strip() != own or own == ""], [])
            self.check(f"{table.name}: the same values, forms and signs in both", [(text, own) for text, own in rows if page_texts.signs(text) != page_texts.signs(own)], [])
            self.check(f"{table.name}: no sign that markup would take for its own", [own for _, own in rows if re.search(r'[&"]|<(?!/?code>)', own)], [])

    def translated(self, root):
        """In a language of a file of its own, in a copy: nothing is said past the table."""
        copy = root if root != self.root else self.copy("translated")
        traces = [(name, "\n".join(page_model.TRACES[name]).encode()) for name in ("traps", "wide", "epochs")]
        page_languages.travels(self, copy, self.lessons(), [*traces, ("random_zz", page_model.random_trace(60, 1, 3))])

    def german(self, root):
        page_languages.german(self, root)

    def second(self, root):
        """Another run in the place of the first: nothing is left of that, and all is as on a page of its own."""
        run, check, names = self.browser.run, self.check, ("lesson_an_epoch_with_a_store", "lesson_malloc_sweeps_when_full")
        raws = [(self.root / "examples" / name / "stdin").read_bytes() for name in names]
        path, model = self.page(root, raws[0], "first"), page_model.Run(raws[1], self.data(raws[1]))
        self.open(self.page(root, raws[1], "alone"))
        self.browser.key("End")
        alone = self.look()
        self.open(path)
        run("go(5); toggleAsk(); togglePresent(); play(); window.closed_steps = 0; const first = heapViewer; first.go = () => closed_steps++; first.close()")
        check("nothing is left of the first", [run("document.querySelector('#root').childNodes.length"), run("document.body.className")], [0, ""])
        for key in ("ArrowRight", "p", "a", "n", "w"):
            self.browser.key(key)
        run("dispatchEvent(new Event('resize'))")
        time.sleep(2)
        check("it does nothing more", [run("closed_steps"), run("document.body.className")], [0, ""])
        run(f"window.other = parseRun({json.dumps(raws[1].decode())}, {json.dumps(self.data(raws[1]))}); history.replaceState(null, '', '#');"
            "heapViewer = mount(document.querySelector('#root'), new Cursor(other)); void 0")
        self.browser.run(page_browser.EXPOSE)
        expected = page_look.Expected(model, check)
        run("byId('block-details').open = true")
        for index in range(len(model.values)):
            if index:
                self.browser.key("ArrowRight")
            expected.compare(f"the second run, step {index}", index, self.look())
        run("byId('block-details').open = false")
        check("it is as on a page of its own", {**self.look(), "table": []}, {**alone, "table": []})
        self.no_noise("second")

    def kept_pages(self, root):
        """The pages in docs/lessons are those that ./heap_page makes, and their index leads to each of them."""
        told = subprocess.run([root / "page/make_lessons", "--check"], capture_output=True, text=True)
        self.check("docs/lessons is as it would be made", (told.returncode, told.stdout, told.stderr), (0, "", ""))
        self.browser.call("Page.navigate", url=(root / "docs/lessons/index.html").as_uri())
        self.settle()
        names = json.loads(self.browser.run("JSON.stringify([...document.querySelectorAll('li a')].map(link => link.getAttribute('href')))"))
        self.check("the index leads to each page", names, [f"{folder.name.removeprefix('lesson_')}.html" for folder in self.lessons()])
        self.check("the five of the lesson are marked", self.browser.run("document.querySelectorAll('li b').length"), 5)

    def embedded(self, root):
        """In a frame of 900 by 520: all on one screen, in each lesson at each step; it stays so, and a link leads to the page itself."""
        for folder in self.lessons():
            name, raw = folder.name, (folder / "stdin").read_bytes()
            last, run = len(page_model.Trace(raw).counted) - 1, self.browser.run
            self.open(self.page(root, raw, name), width=900, height=520, at=f"#embed&step={last}")
            self.check(f"{name} in a frame opens at its step", [run("view.step"), run("view.present"), run("view.embed")], [last, True, True])
            for index in range(last + 1):
                run(f"go({index})")
                seen = json.loads(run(page_look.EMBEDDED))
                unnamed = run("[...document.querySelectorAll('#map .name')].filter(chip => chip.getClientRects().length === 0).length")
                self.check(f"{name} in a frame, step {index}: each chip has its name", unnamed, 0)
                self.check(f"{name} in a frame, step {index}", seen, {"past": [], "parts": ["controls", "legend", "map", "registers", "three", "told", "track"], "letter": 13})
            self.browser.key("p")
            self.browser.key("Escape")
            self.settle()
            self.check(f"{name} in a frame stays so", [run("view.present"), run("location.hash")], [True, f"#embed&step={last}"])
            run("byId('whole').addEventListener('click', event => event.preventDefault()); byId('whole').click()")
            self.check(f"{name}: the link leads to the page itself", run("byId('whole').getAttribute('href')"), f"#step={last}")
            run("location.hash = '#step=1'")
            self.settle()
            self.check(f"{name}: an address without it is the page itself", [run("view.embed"), run("view.present"), run("view.step"), run("byId('whole').hidden")], [False, False, 1, True])
            self.no_noise(f"{name} in a frame")

    def phone(self, root):
        """At 390 by 844: the steps stay at the bottom, each target has 44 px, and a touched granule's bytes are in sight."""
        path, run, check = self.page(root, (self.root / "examples" / PICTURED / "stdin").read_bytes(), PICTURED), self.browser.run, self.check
        self.open(path, width=390, height=844)
        check("until a granule is touched what is told of one covers nothing", run("getComputedStyle(byId('detail')).position"), "static")
        for at in (0, 700, 99999):
            run(f"go(3); scrollTo(0, {at})")
            self.settle()
            check(f"scrolled to {at}: the steps are at the bottom", json.loads(run(page_look.BOTTOM)), [844, True])
        check("each target has 44 px", json.loads(run(page_look.SMALL_TARGETS)), [])
        run("scrollTo(0, byId('map').getBoundingClientRect().bottom + scrollY - 780)")
        self.settle()
        x, y = json.loads(run("(() => { const b = document.querySelector('#map [data-block]').getBoundingClientRect(); return JSON.stringify([b.x + 3, b.y + 3]); })()"))
        self.browser.touch(x, y)
        check("a touched granule's bytes are in sight", run("(() => { const b = byId('detail').getBoundingClientRect(), c = document.querySelector('.controls').getBoundingClientRect();"
              "return byId('detail').textContent.startsWith('Granule 0 at') && b.top > 0 && b.bottom <= c.top; })()"), True)
        check("the window's bar lets a page be scrolled", run("getComputedStyle(byId('window')).touchAction"), "pan-y")
        self.no_noise("phone")

    def sideways(self, root):
        """A row of 256 granules, wider than its box, follows to what a step changed, and to the cursor."""
        raw = b"heap 0x40000000 4\nmalloc c1 16\nmalloc c2 3200\nmalloc c3 16\nstorecap c3 c1\nstorecap c1 c1\n"
        run = self.browser.run
        self.open(self.page(root, raw, "sideways"), width=700)
        run("byId('columns').value = 256; byId('columns').dispatchEvent(new Event('change'))")
        self.check("the row is wider than its box", run("byId('map').scrollWidth > byId('map').clientWidth"), True)
        for step, place in ((4, 201), (5, 0), (4, 201), (3, 201)):
            run(f"go({step})")
            self.check(f"step {step}: its granule is in sight", run(page_look.PLACE_IN_SIGHT % place), True)
        run("go(5); view.cursor = 254; byId('map').focus()")
        self.browser.key("ArrowRight")
        self.check("the cursor is in sight", [run("view.cursor"), run(page_look.PLACE_IN_SIGHT % 255)], [255, True])
        self.no_noise("sideways")

    def all(self):
        for folder in self.lessons():
            self.lesson(self.root, folder.name)
        for name, lines in page_model.TRACES.items():
            self.lesson(self.root, name, "\n".join(lines).encode())
        for seed in range(1, 7):
            self.lesson(self.root, f"random_{seed}", page_model.random_trace(60, 1, seed))
        for test in (self.words, self.tries, self.controls, self.named, self.gaps, self.tabs, self.kept, self.present, self.small_screens, self.ask, self.addresses, self.letters, self.typed, self.colours, self.hostile,
                     self.quick, self.rows, self.print_all, self.dense, self.find, self.history, self.compared, self.pointers, self.band, self.files,
                     self.handout, self.modules, self.texts, self.translated, self.german, self.second, self.kept_pages, self.embedded, self.phone, self.sideways, self.looks):
            test(self.root)
        self.answers()
        print(f"tried: the page in a browser, with {len(self.lessons())} lessons, {len(page_model.TRACES)} traces of edges and 6 random ones")

    # Wrong pages

    def wrong_pages(self):
        for edit in json.loads((self.root / "testing/page_wrong.json").read_text()):
            self.wrong_page(edit)

    def wrong_page(self, edit):
        copy = self.copy("wrong")
        source = copy / "page" / edit["file"]
        text = source.read_text()
        self.check(f"{edit['name']}: the old text stands once in page/{edit['file']}", text.count(edit["old"]), 1)
        source.write_text(text.replace(edit["old"], edit["new"]))
        told, self.quiet, self.failed, self.passed = (self.passed, self.failed), True, 0, 0
        try:
            if "lesson" in edit:
                self.lesson(copy, edit["lesson"])
            elif "trace" in edit:
                self.lesson(copy, edit["trace"], "\n".join(page_model.TRACES[edit["trace"]]).encode())
            else:
                getattr(self, edit["test"])(copy)
            faults = self.failed
        except RuntimeError as problem:
            faults = str(problem)
        (self.passed, self.failed), self.quiet = told, False
        self.check(f"the wrong page is found: {edit['name']}", faults != 0, True)

    # Pictures

    def picture_of_readme(self, file):
        self.open(self.page(self.root, (self.root / "examples/lesson_a_derived_pointer_goes_by_its_base/stdin").read_bytes(), "readme"), width=1360, height=800)
        self.browser.run("document.querySelector('[data-step=\"9\"]').click(); document.activeElement.blur()")
        self.settle()
        self.browser.picture(file)

    def settle(self):
        self.browser.run("new Promise(done => requestAnimationFrame(() => requestAnimationFrame(() => setTimeout(done, 300))))")

    def pictures(self, folder):
        folder.mkdir(parents=True, exist_ok=True)
        for name, lesson, step, dark, size, extra in page_look.PICTURES:
            path = self.page(self.root, (self.root / "examples" / lesson / "stdin").read_bytes(), lesson)
            self.open(path, width=size[0], height=size[1], dark=dark)
            self.browser.run(f"document.querySelector('[data-step=\"{step}\"]').click(); document.activeElement.blur(); {extra}; void 0")
            self.settle()
            self.browser.picture(folder / f"{name}.png")
        self.browser.media("print")
        self.settle()
        self.browser.picture(folder / "print.png", captureBeyondViewport=True)
        self.browser.media("")
