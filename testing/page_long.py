"""The tests of testing/page of what a long trace needs: time, rows in pieces, dense maps, the list's filter, history, band and files."""

import json
import random
import re
import time
import xml.etree.ElementTree

import page_look
import page_model
from page_model import NAMES, NULL_WORD, Word, block_key, grouped, hexadecimal

# What a page takes at most on a box with nothing else to do, in milliseconds, and how much more is let pass on a busy one, beside what a
# loop takes there.
OPENS, JUMPS, STEPS, BUSY = 1500, 150, 50, 5
WIDE_OPENS, WIDE_STEPS, WIDE_BUSY = 500, 16, 8  # of a heap of 1,024 pages with few commands
NODES = 60000
THUMB, BAND = 12, 34


class LongTests:
    def long_traces(self):
        return (("16,384 blocks", page_model.full_trace()), ("20,000 commands", page_model.random_trace(20000, 64, 5)))

    # Time

    def quick(self, root):
        """To the painted frame, by the browser's own clock of events; each jump and step by the best of some times."""
        for name, raw in self.long_traces():
            path = self.page(root, raw, name.replace(" ", "_"))
            opened = min(self.opening(path) for _ in range(3))
            self.browser.run(page_look.PAINTED)
            last = self.browser.run("run.steps.length - 1")
            jumps, steps = self.jumps(name, last), self.steps(name, last)
            self.browser.run("byId('block-details').open = true")
            self.browser.key("End")
            nodes = self.browser.run(page_look.NODES)
            print(f"tried: a page of {grouped(last)} commands, {path.stat().st_size / 1e6:.1f} MB: opens in {opened:.0f} ms, jumps in {jumps:.0f} ms at most, "
                  f"steps in {steps[-1]:.0f} ms at most and {steps[len(steps) // 2]:.0f} ms in the middle, has {grouped(nodes)} nodes")
            slowness = self.browser.slowness()
            for what, took, most in (("opens", opened, OPENS), ("jumps", jumps, JUMPS), ("steps", steps[-1], STEPS)):
                self.check(f"{name}: {what} in {most} ms", took <= BUSY * most * slowness, True)
            self.check(f"{name}: nodes", nodes <= NODES, True)
            self.check(f"{name}: the map is a dense one", self.browser.run("run.isDense"), True)
            self.no_noise(name)

        self.quick_in_a_wide_heap(root)

    def quick_in_a_wide_heap(self, root):
        path, took = self.page(root, "\n".join(page_model.TRACES["wide"]).encode(), "wide"), []
        opened = min(self.opening(path) for _ in range(3))
        self.browser.run(page_look.PAINTED)
        for _ in range(4):
            self.browser.run("go(9)")
            took.append([self.painted(lambda key=key: self.browser.key(key)) for key in ["ArrowLeft"] * 6 + ["ArrowRight"] * 6])
        steps = sorted(map(min, zip(*took)))
        print(f"tried: a page of 1,024 pages of memory and {len(page_model.TRACES['wide']) - 1} commands: opens in {opened:.0f} ms, steps in {steps[-1]:.0f} ms at most "
              f"and {steps[len(steps) // 2]:.0f} ms in the middle, has {grouped(self.browser.run(page_look.NODES))} nodes")
        slowness = self.browser.slowness()
        self.check("1,024 pages: opens in time", opened <= WIDE_BUSY * WIDE_OPENS * slowness, True)
        self.check("1,024 pages: steps in time", steps[len(steps) // 2] <= WIDE_BUSY * WIDE_STEPS * slowness, True)

    def opening(self, path):
        self.open(path)
        return self.browser.run("performance.getEntriesByType('navigation')[0].loadEventEnd")

    def painted(self, act):
        self.browser.run("painted = 0")
        act()
        until = time.monotonic() + 2
        while time.monotonic() < until:
            took = self.browser.run("new Promise(done => requestAnimationFrame(() => setTimeout(() => done(painted), 20)))")
            if took:
                return took
        return 16  # what is quicker isn't told

    def jumps(self, name, last):
        """From end to end and to the middle and back; the slowest at its best."""
        x, y, width = json.loads(self.browser.run("(() => { const b = byId('slider').getBoundingClientRect(); return JSON.stringify([b.x, b.y + 10, b.width]); })()"))
        acts = {"End": lambda: self.browser.key("End"), "Home": lambda: self.browser.key("Home"),
                "middle": lambda: self.browser.click(x + width / 2, y)}
        best = {}
        for _ in range(5):
            for at, (key, wanted) in enumerate((("End", last), ("Home", 0), ("End", last), ("middle", last / 2), ("Home", 0), ("middle", last / 2), ("End", last))):
                took = self.painted(acts[key])
                best[at] = min(best.get(at, took), took)
                self.check(f"{name}: a jump by {key}", abs(self.browser.run("view.step") - wanted) <= last / 200, True)
        return max(best.values())

    def steps(self, name, last):
        """At the end, in the middle and before it; each step at its best, from the quickest on."""
        self.browser.run("document.activeElement.blur()")
        best = {}
        for start in (last, last // 2, last // 4):
            for _ in range(4):
                self.browser.run(f"go({start})")
                for at, key in enumerate(["ArrowLeft"] * 6 + ["ArrowRight"] * 6):
                    took = self.painted(lambda key=key: self.browser.key(key))
                    best[start, at] = min(best.get((start, at), took), took)
                self.check(f"{name}: the keys made the steps", self.browser.run("view.step"), start)
        return sorted(best.values())

    # The list in pieces

    def rows(self, root):
        """Where the list goes to and is scrolled to there are rows, and no others; and the keys of a search lead to its field."""
        raw, chance, name = page_model.random_trace(6000, 8, 2), random.Random(4), "rows"
        trace, last = page_model.Trace(raw), 6000
        self.open(self.page(root, raw, "rows"))
        for step in (0, last, *chance.sample(range(last), 6), last // 2):
            self.browser.run(f"go({step})")
            seen = self.look()
            line, text, notes = trace.counted[step]
            self.check(f"{name}: the row of step {step}", [seen[key] for key in ("step", "currents", "line", "text", "notes", "inView")],
                       [step, 1, str(line), text, notes, True])
        for part in (0, 0.3, 0.31, 0.7, 1, 0.02):
            shown = json.loads(self.browser.run(page_look.ROWS_AT % part))
            begin = shown[0] or 0
            self.check(f"{name}: rows where the list is scrolled to {part}", shown, list(range(begin, begin + len(shown))))
            self.check(f"{name}: they fill the list, about that far in it", len(shown) > 4 and abs(begin / last - part) < 0.1, True)
        self.check(f"{name}: few rows are there", self.browser.run("document.querySelectorAll('#lines [data-step]').length") < 600, True)
        self.browser.call("Input.dispatchKeyEvent", type="rawKeyDown", key="f", code="KeyF", windowsVirtualKeyCode=70, modifiers=2)
        self.check(f"{name}: Control and F lead to the field", self.browser.run("document.activeElement.id"), "asked")
        self.no_noise(name)

    def print_all(self, root):
        """On paper are all rows of the list and of the table of blocks, and afterwards few again."""
        raw = page_model.random_trace(1500, 8, 3)
        run = page_model.Run(raw, self.data(raw))
        self.open(self.page(root, raw, "print"))
        count = "[document.querySelectorAll('#lines [data-step]').length, document.querySelectorAll('#blocks tbody tr:not(.room)').length]"
        self.browser.run(f"go(run.steps.length - 1); addEventListener('beforeprint', () => {{ window.printed = {count}; }})")
        self.browser.call("Page.printToPDF", printBackground=True)
        self.check("all rows are printed", json.loads(self.browser.run("JSON.stringify(window.printed)")), [len(run.values), len(run.states[-1].blocks)])
        self.check("and few stay", self.browser.run(f"{count}[0] < 600 && {count}[1] === 0"), True)
        self.no_noise("print")

    # A dense map

    def dense(self, root):
        raw = page_model.random_trace(5000, 20, 5)
        run = page_model.Run(raw, self.data(raw))
        self.open(self.page(root, raw, "dense"))
        self.check("the map is a dense one", self.browser.run("run.isDense"), True)
        last, chance = len(run.values) - 1, random.Random(6)
        passes = [index for index in range(last) if run.taken(index)][-3:]
        news = [index for index in range(1, last) if any(change["state"] != "free" for change in run.values[index]["blocks"])]
        for index in (last, *passes, *chance.sample(news, 4), *chance.sample(range(last), 3), *passes):
            self.browser.run(f"go({index})")
            self.granules(run, index, "after", run.states[index], chance)
            for side, state in run.sides(index).items():
                self.browser.run(f"show('{side}')")
                self.granules(run, index, side, state, chance)
        self.browser.run("byId('columns').value = 16; byId('columns').dispatchEvent(new Event('change')); go(%d)" % passes[0])
        self.granules(run, passes[0], "after", run.states[passes[0]], chance)
        self.upper_sheet(passes[-1])
        self.scrolled_away()
        self.no_noise("dense")

    def upper_sheet(self, index):
        """What a step puts on a dense map lies on the sheet above the blocks, in the same place, and in the file of the map too."""
        self.browser.call("Browser.setDownloadBehavior", behavior="allow", downloadPath=str(self.scratch))
        self.browser.run(f"go({index}); show('before')")
        sheets = json.loads(self.browser.run(page_look.SHEETS))
        self.check("dense: two sheets lie on each other", len(sheets) == 2 and sheets[0] == sheets[1], True)
        lines = self.browser.run("document.querySelectorAll('#map [data-reason]').length")
        tree = xml.etree.ElementTree.fromstring(self.saved("save-map", f"map_{index}.svg"))
        self.check("dense: the file has the lines of a pass", [lines > 0, sum(node.get("data-reason") is not None for node in tree.iter())], [True, lines])

    def scrolled_away(self):
        """Where the reader scrolled away by hand, a step leads back to what it changed."""
        seen = self.browser.run(page_look.FAR_STEP)
        self.check("dense: what a step changes far below is in sight, again after the reader looked elsewhere", seen, "true false true")

    def granules(self, run, index, side, state, chance):
        """Of some granules, and of the first ones of new blocks, in which drawn areas their middles lie."""
        before, found = run.before(index).blocks, {}
        new = [(base - run.base) // 16 for (base, top), of in state.blocks.items() if before.get((base, top)) != of]
        places = sorted({*chance.sample(range(256 * run.pages), 400), *new[:50]})
        rings, *seen = json.loads(self.browser.run(page_look.DENSE % places))
        lost = {row[1] for row in run.taken(index) or [] if row[0] == "granule"} if side != "before" else set()
        for place in places:
            block, (tag, word) = state.block_of(run.base + 16 * place), state.granule(place)
            mark = "tag" if tag else "lost" if place in lost else "data" if word != NULL_WORD else None
            is_new = side == "after" and block is not None and before.get(block) != state.blocks[block]
            found[place] = [[state.blocks[block]] if block else [], [mark] if mark else [], is_new]
        differing = [(place, got, found[place]) for place, got in zip(places, seen, strict=True) if got != found[place]]
        self.check(f"dense, step {index} {side}: granules", differing, [])
        self.check(f"dense, step {index} {side}: what it changed", rings, [] if side == "before" else run.changes(index, "granules"))

    # The list's filter

    def find(self, root):
        raw = page_model.random_trace(300, 1, 8) + b"malloc c1 4096\nsweep\n# A Note.\nshow c1\n"
        run = page_model.Run(raw, self.data(raw))
        self.open(self.page(root, raw, "find"))
        texts = ("", "c5", "c1", "c0", "C9", "0x40000010", "0x400000f8", "0x40000fff", "0x50000000", "storecap", "a note", "what c3", "zzz")
        for kind in ("all", "traps", "passes", "nospace"):
            for text in texts:
                self.browser.run(page_look.FILTER % (json.dumps(kind), json.dumps(text)))
                wanted = [index for index in range(len(run.values)) if self.is_of_kind(run, index, kind) and self.is_about(run, index, text)]
                self.check(f"the list of {kind}, {text!r}", json.loads(self.browser.run(page_look.STEPS_LISTED)), wanted)
                told = "" if len(wanted) == len(run.values) else page_model.plural(len(wanted), "step") if wanted else "no such step"
                self.check(f"the list of {kind}, {text!r}: how many", self.browser.run("byId('listed').textContent"), told)
        self.check("each kind was found", all(any(self.is_of_kind(run, index, kind) for index in range(len(run.values))) for kind in ("traps", "passes", "nospace")), True)
        self.walk(run)
        for line in (1, 2, 17, 200, 9999):
            self.browser.run(f"byId('line').value = '{line}'; byId('line').dispatchEvent(new Event('change'))")
            wanted = next((index for index, (at, *_) in enumerate(run.trace.counted) if at >= line), len(run.values) - 1)
            self.check(f"to line {line}", self.browser.run("view.step"), wanted)
        self.browser.run("byId('line').value = 'x'; byId('line').dispatchEvent(new Event('change'))")
        self.check("no line", self.browser.run("byId('line').getAttribute('aria-invalid')"), "true")
        self.no_noise("find")

    def walk(self, run):
        """By Enter in the field, by keys and by the buttons from one step of the list to the next, and around its ends."""
        self.browser.run(page_look.FILTER % ('"all"', '"c5"'))
        shown = json.loads(self.browser.run(page_look.STEPS_LISTED))
        self.browser.run("go(0); byId('asked').focus()")
        for wanted in shown[:4]:
            self.browser.key("Enter")
            self.check("Enter goes to the next one", self.browser.run("view.step"), wanted)
        self.browser.run("document.activeElement.blur()")
        for act, wanted in (("n", 4), ("n", 5), ("N", 4), ("listed-next", 5), ("listed-back", 4)):
            if len(act) == 1:
                self.browser.key(act)
            else:
                self.browser.run(f"byId('{act}').click()")
            self.check(f"{act} in the list", self.browser.run("view.step"), shown[wanted])
        for start, key, wanted in ((shown[-1], "n", shown[0]), (shown[0], "N", shown[-1]), (shown[0] + 1, "N", shown[0])):
            self.browser.run(f"go({start})")
            self.browser.key(key)
            self.check(f"{key} from step {start}", self.browser.run("view.step"), wanted)
        self.browser.run(page_look.FILTER % ('"all"', '""'))

    @staticmethod
    def is_of_kind(run, index, kind):
        reply = run.values[index]["reply"].split()[:1]
        return {"all": True, "traps": reply == ["trap"], "nospace": reply == ["nospace"], "passes": run.taken(index) is not None}[kind]

    @staticmethod
    def is_about(run, index, text):
        text, (_, line, notes) = text.lower(), run.trace.counted[index]
        if re.fullmatch("c[0-9]+", text):
            return text in run.values[index]["text"].split() or int(text[1:]) in run.changes(index, "registers")
        says = text in "\n".join([line, run.values[index]["reply"], *notes]).lower()
        if not text.startswith("0x") or not run.base <= int(text, 16) < run.base + 4096 * run.pages:
            return says
        place = (int(text, 16) - run.base) // 16
        return says or place in run.changes(index, "granules") or index in run.changed_at("block", place)

    # History

    def history(self, root):
        traces = [page_model.random_trace(100, 1, 9), "\n".join(page_model.TRACES["epochs"]).encode(),
                  (self.root / "examples/lesson_a_derived_pointer_goes_by_its_base/stdin").read_bytes()]
        for number, raw in enumerate(traces):
            run, chance = page_model.Run(raw, self.data(raw)), random.Random(number)
            self.open(self.page(root, raw, f"history_{number}"))
            used = sorted({place for index in range(len(run.values)) for place in run.changes(index, "granules")})
            for _ in range(10):
                kind = chance.choice(("register", "granule"))
                place = chance.choice(run.written if kind == "register" else [*used, 255])
                for index in chance.choice(run.changed_at(kind, place) or [0]), chance.randrange(len(run.values)):
                    self.moves(run, index, kind, place)
            self.no_noise(f"history {number}")

    def moves(self, run, start, kind, place):
        state = run.states[start]
        tag, text = state.register(place) if kind == "register" else state.granule(place)
        base, is_null = Word(text).base, not tag and text == NULL_WORD
        of_block = place if kind == "granule" else (base - run.base) // 16
        has_block = kind == "granule" or not is_null and 0 <= of_block < 256 * run.pages
        for about, at, keys in ((kind, place, "w[]"), ("block", of_block, "W{}")):
            steps = run.changed_at(about, at) if about != "block" or has_block else []
            wanted = {"w": max((step for step in steps if step <= start), default=start), "[": max((step for step in steps if step < start), default=start),
                      "]": min((step for step in steps if step > start), default=start)}
            told = f"line {run.trace.counted[wanted['w']][0]}, " if any(step <= start for step in steps) else "no step up to here changed it"
            for key, plain in zip(keys, "w[]"):
                self.browser.run(f"go({start}); view.chosen = null; choose('{kind}', {place})")
                name = f"at step {start} the key {key} of {kind} {place}"
                row = self.browser.run(f"document.querySelector('[data-about={'block' if about == 'block' else 'own'}]')?.textContent ?? null")
                self.check(f"{name}: what is told", row is not None and told in row, about != "block" or has_block)
                self.browser.key(key)
                self.check(name, self.browser.run("view.step"), wanted[plain])
                self.check(f"{name}: it stays chosen", self.browser.run("view.chosen.kind + view.chosen.place"), f"{kind}{place}")
                if row is not None:
                    name_of = {"w": "wrote", "[": "earlier", "]": "later"}[plain]
                    self.browser.run(f"go({start}); drawDue(); document.querySelector('[data-history=\"{about} {name_of}\"]').click()")
                    self.check(f"{name}: by its button", self.browser.run("view.step"), wanted[plain])

    # Two steps side by side, and who points where

    def compared(self, root):
        """All that differs between two steps, from either one, for pairs of steps of random and of worked traces."""
        for number, raw in enumerate([page_model.random_trace(120, 1, 11), *("\n".join(page_model.TRACES[name]).encode() for name in ("again", "epochs"))]):
            run, chance = page_model.Run(raw, self.data(raw)), random.Random(number)
            self.open(self.page(root, raw, f"compared_{number}"))
            self.browser.run("byId('compare').open = true")
            last = len(run.values) - 1
            for one, other in [(0, last), (last, 0), (last, last), *((chance.randrange(last + 1), chance.randrange(last + 1)) for _ in range(25))]:
                line = run.trace.counted[other][0]
                self.browser.run(f"go({one}); byId('other').value = '{line}'; byId('other').dispatchEvent(new Event('change'))")
                told, *rows = json.loads(self.browser.run(page_look.COMPARED))
                wanted = self.differing(run, min(one, other), max(one, other))
                self.check(f"steps {one} and {other} side by side", rows, wanted[:200])
                if not wanted:
                    self.check(f"steps {one} and {other}: it is said", told, f"Nothing differs between line {line} and line {run.trace.counted[one][0]}.")
            self.browser.run("go(2); if (!view.ask) toggleAsk()")
            self.check("what comes is hidden from who wants to be asked first", json.loads(self.browser.run("compareWith(5); " + page_look.COMPARED)),
                       ["What comes later is hidden while you are asked first."])
            self.browser.run("toggleAsk(); go(4); byId('other').value = 'x'; byId('other').dispatchEvent(new Event('change'))")
            self.check("no line", self.browser.run("byId('other').getAttribute('aria-invalid')"), "true")
            self.browser.run("compareWith(3)")
            self.settle()
            self.check("the address has it", self.browser.run("location.hash.endsWith('&with=3')"), True)
            self.no_noise("compared")

    @staticmethod
    def differing(run, first, last):
        old, new, rows = run.states[first], run.states[last], []
        for kind, name in (("registers", lambda place: f"c{place}"), ("granules", lambda place: hexadecimal(run.base + 16 * place))):
            was, now = getattr(old, kind), getattr(new, kind)
            for place in sorted({*was, *now}):
                cells = [cells.get(place, (False, NULL_WORD)) for cells in (was, now)]
                if cells[0] != cells[1]:
                    rows.append([name(place), *(page_look.cell_in_words(kind, *cell) for cell in cells)])
        for block in sorted({*old.blocks, *new.blocks}):
            told = [f"{NAMES[state.blocks[block]]}, of {state.name(block)}" if block in state.blocks else "free" for state in (old, new)]
            if told[0] != told[1]:
                rows.append([f"block {hexadecimal(block[0])} to {hexadecimal(block[1])}", *told])
        return rows

    def pointers(self, root):
        """Lines from all tagged words whose base lies in a block, or from those into the block of the granule that is chosen."""
        for name, raw in (("random", page_model.random_trace(80, 1, 3)), ("epochs", "\n".join(page_model.TRACES["epochs"]).encode())):
            run = page_model.Run(raw, self.data(raw))
            self.open(self.page(root, raw, "pointers"))
            self.browser.key("t")
            for index, state in enumerate(run.states):
                if run.taken(index) is not None:
                    continue
                rows = [(f"c{place}", word) for place, (tag, word) in sorted(state.registers.items()) if tag]
                rows += [(hexadecimal(run.base + 16 * place), word) for place, (tag, word) in sorted(state.granules.items()) if tag]
                into = [(place, block_key(block), block) for place, word in rows for block in [state.block_of(Word(word).base)] if block]
                self.browser.run(f"go({index})")
                self.check(f"pointers of {name}, step {index}", json.loads(self.browser.run(page_look.REASONS)), [f"{place} {key}" for place, key, _ in into][:64])
                for base, top in list(state.blocks)[:3]:
                    wanted = [place for place, _, block in into if block == (base, top)]
                    self.browser.run(f"view.chosen = null; choose('granule', {(base - run.base) // 16})")
                    shown = [row.split()[0] for row in json.loads(self.browser.run(page_look.REASONS))]
                    self.check(f"pointers of {name} into {base:#x}, step {index}", shown, wanted[:64])
                    told = ", ".join(wanted[:20]) or "none"
                    text = self.browser.run("document.querySelector('[data-about=block] span').textContent")
                    self.check(f"they are told, of {name} into {base:#x}, step {index}", f"Tagged words with their base in it: {told}" in text, True)
                    self.browser.run("byId('follow').click()")
            self.browser.key("t")
            self.check("and none once they are not asked for", json.loads(self.browser.run("go(1); " + page_look.REASONS)), [])
            self.no_noise(f"pointers of {name}")

    # A handout

    def handout(self, root):
        """Its steps, each with what the page shows of it; the page is as before; on paper there is nothing else."""
        lesson = self.root / "examples/lesson_an_epoch_with_a_store/stdin"
        model = page_model.Run(lesson.read_bytes(), self.data(lesson.read_bytes()))
        self.open(self.page(root, lesson.read_bytes(), "handout"))
        run, check, lines = self.browser.run, self.check, [line for line, *_ in model.trace.counted]
        for text, wanted in (("4", [4]), ("4, 7-10", [4, 7, 8, 10]), (" 10 - 7", []), ("1-9999", lines), ("10,4", [4, 10]), ("7–8", [7, 8]), ("", None), ("x", None), ("4,", None)):
            steps = None if wanted is None else [index for index, line in enumerate(lines) if line in wanted]
            check(f"the handout of {text!r}", json.loads(run(f"JSON.stringify(stepsOfLines({json.dumps(text)}))")), steps)
        run("go(10); show('before'); choose('register', 1)")
        before = self.look()
        run("byId('printed').value = '4, 7-10'; makeHandout(stepsOfLines(byId('printed').value))")
        check("the page is as before", self.look(), before)
        told = json.loads(run(page_look.HANDOUT))
        steps = [index for index, line in enumerate(lines) if line in (4, 7, 8, 10)]
        check("the handout has its steps", [article[0] for article in told], [f"Line {lines[index]}" for index in steps])
        for article, index in zip(told, steps):
            run(f"go({index}); view.follow = true; go({index})")
            seen = self.look()
            check(f"the handout, step {index}", article, [f"Line {lines[index]}", seen["notes"], seen["command"], seen["sentence"],
                  [row[:2] for row in seen["blocks"]], [row[0] for row in seen["registers"]], len(seen["taken"])])
        self.browser.media("print")
        # What is hidden by its visibility paints no patterns, and those of the page are the handout's too.
        seen = "const main = byId('main'), { opacity, visibility } = getComputedStyle(main); JSON.stringify([opacity, visibility, main.offsetHeight, byId('handout').offsetHeight > 900])"
        check("on paper it is alone, and its maps have patterns", json.loads(run(f"(() => {{ {seen.replace('JSON.stringify', 'return JSON.stringify')} }})()")), ["0", "visible", 0, True])
        self.browser.media("")
        check("and nothing of it is seen on the screen", run("byId('handout').offsetHeight"), 0)
        run("dispatchEvent(new Event('afterprint'))")
        check("and it goes", [run("byId('handout').childNodes.length"), run("document.body.className")], [0, ""])
        run("byId('printed').value = 'x'; byId('print').click()")
        check("no lines", run("byId('printed').getAttribute('aria-invalid')"), "true")
        self.no_noise("handout")

    # The band

    def band(self, root):
        for name, raw in (("epochs", "\n".join(page_model.TRACES["epochs"]).encode()), ("random", page_model.random_trace(200, 2, 4))):
            run = page_model.Run(raw, self.data(raw))
            self.open(self.page(root, raw, "band"))
            width, *lines = json.loads(self.browser.run(page_look.BAND))
            last, sums = len(run.values) - 1, [state.sums() for state in run.states]
            x = lambda step: THUMB / 2 + step * (width - THUMB) / last
            most, room = max(max(tags for *_, tags in sums), 1), 16 * run.used
            parts = [[live / room for live, *_ in sums], [(live + held) / room for live, held, _ in sums], [tags / most for *_, tags in sums]]
            for path, part in zip(lines, parts):
                points = [(float(at), float(y)) for at, y in re.findall(r"H([0-9.]+)V([0-9.]+)", path)]
                wanted = [(x(step), (1 - height) * (BAND - 8) + 4) for step, height in enumerate(part)]
                self.check(f"the band of {name} has a point for each step", len(points), last + 1)
                self.check(f"the band of {name}", [pair for pair in zip(points, wanted) if max(abs(a - b) for a, b in zip(*pair)) > 0.06], [])
            for kind, path in zip(("passes", "traps"), lines[3:]):
                steps = [index for index in range(last + 1) if self.is_of_kind(run, index, kind)]
                ticks = [int(at) for at in re.findall(r"M([0-9]+) ", path)]
                self.check(f"the band of {name} has its {kind}", [len(ticks), [at for at, step in zip(ticks, steps) if abs(at - x(step)) > 0.56]], [len(steps), []])
            self.no_noise(f"band of {name}")

    # Files

    def files(self, root):
        """The state and the map as files, after a step and before a pass."""
        self.browser.call("Browser.setDownloadBehavior", behavior="allow", downloadPath=str(self.scratch))
        raw = (self.root / "examples/lesson_an_epoch_with_a_store/stdin").read_bytes()
        run = page_model.Run(raw, self.data(raw))
        self.open(self.page(root, raw, "files"))
        passes = [index for index in range(len(run.values)) if run.taken(index)]
        for index, side in ((0, "after"), (len(run.values) - 1, "after"), (passes[-1], "before")):
            self.browser.run(f"go({index}); show('{side}')")
            state = run.states[index] if side == "after" else run.before(index)
            told = json.loads(self.saved("save-state", f"state_{index}.json"))
            self.check(f"the file of step {index} {side}", [told[key] for key in ("heap", "step", "line", "text", "reply", "side", "open")], [
                {"base": hexadecimal(run.base), "pages": run.pages}, index, *run.trace.counted[index][:2], run.values[index]["reply"], side, state.open])
            for key, name, cells in (("registers", "r", state.registers), ("granules", "i", state.granules)):
                self.check(f"the file of step {index} {side}: {key}", told[key], [
                    {name: place, "tag": tag, "word": text, **{key: hexadecimal(getattr(Word(text), key)) for key in ("address", "base", "top")}}
                    for place, (tag, text) in sorted(cells.items()) if tag or text != NULL_WORD])
            self.check(f"the file of step {index} {side}: blocks", told["blocks"], [
                {"base": hexadecimal(base), "top": hexadecimal(top), "state": of} for (base, top), of in sorted(state.blocks.items())])
            self.check(f"the file of step {index} {side}: dirty pages", told["dirty"], sorted(state.dirty))
            self.picture_file(self.saved("save-map", f"map_{index}.svg"), f"the map of step {index} {side}", state)
        self.no_noise("files")

    def picture_file(self, text, name, state):
        tree = xml.etree.ElementTree.fromstring(text)
        blocks = {node.get("data-block"): node[0].get("fill") for node in tree.iter() if node.get("data-block") and node.get("data-state") != "released"}
        self.check(name, blocks, {block_key(block): page_look.COLOURS[of] for block, of in state.blocks.items()})
        self.check(f"{name}: its texts have their sizes", {node.get("font-size") for node in tree.iter() if node.tag.endswith("}text")}, {"11px", "12px"} if "before" in name else {"11px"})
        self.check(f"{name}: it stands on nothing else", [word for word in ("var(", "href", "<script", "<style") if word in text], [])

    def saved(self, button, name):
        path, until = self.scratch / name, time.monotonic() + 20
        path.unlink(missing_ok=True)
        self.browser.run(f"byId('{button}').click()")
        while time.monotonic() < until and not path.exists():
            time.sleep(0.05)
        return path.read_text()
