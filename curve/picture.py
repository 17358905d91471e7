"""A run as a picture: one SVG that stands by itself, to be read on a screen, in print and without colour."""

import html
import math

from run import counted

WIDTH, HEIGHT = 960, 520
LEFT, RIGHT, TOP, BOTTOM = 78, 882, 92, 356  # of the areas
STRIP_TOP, STRIP, END_STRIP = 404, 470, 482  # of the passes: room for the longest stem, where they stand, and where ends hang
STEM = STRIP - STRIP_TOP - 12
COLUMNS = RIGHT - LEFT
# A line of more steps goes up and down in most columns.
DENSE = 2 * COLUMNS
# Passes of one kind that lie nearer to each other have one mark, and numbers that do are left out.
NEAR, NEAR_NUMBERS = 6, 32
MARKS = {"sweep": "sweep", "begin": "begin of an epoch", "end": "end of an epoch"}
STYLE = """text{font:13px sans-serif;fill:#000}.small{font-size:11px}.title{font-size:17px;font-weight:bold}
.axis{stroke:#000;fill:none}.grid{stroke:#000;stroke-opacity:.18;fill:none}.live{fill:#a9c9e8;stroke:#000;stroke-width:.6}
.held{fill:url(#hatch);stroke:#000;stroke-width:.6}.tags{fill:none;stroke-linejoin:round}.stem{stroke:#000;fill:none}
.dense{stroke:none}.sweep,.end{fill:#000;stroke:#000}.begin{fill:#fff;stroke:#000}"""
PATTERN = """<pattern id="hatch" width="6" height="6" patternUnits="userSpaceOnUse" patternTransform="rotate(45)"><rect width="6" height="6" fill="#f6d7a8"/><path d="M0 0V6" stroke="#000" stroke-width="1.6"/></pattern>"""


def number(value):
    """A coordinate, as short as it can be."""
    return f"{value:.1f}".removesuffix(".0")


def shortened(text, most):
    return text if len(text) <= most else text[: most - 3] + "..."


def thinned(values, most):
    """Of each column of the picture the first, least, greatest and last value, in their order: (command, value)."""
    count = len(values)
    columns = min(count, most)
    for column in range(columns):
        start, end = column * count // columns, (column + 1) * count // columns
        part = values[start:end]
        kept = {0, part.index(min(part)), part.index(max(part)), end - start - 1}
        for at in sorted(kept):
            yield start + at, part[at]


def without_middles(points):
    """Leaves out points between two of the same height."""
    kept = []
    for point in points:
        if len(kept) > 1 and kept[-2][1] == kept[-1][1] == point[1]:
            kept.pop()
        kept.append(point)
    return kept


def ticks(most, count, least=0):
    """Round numbers from 0 to at most `most`, about so many, and no nearer to each other than `least`."""
    step = max(least, 10 ** math.floor(math.log10(most / count)))
    step = next(it for it in (step, 2 * step, 5 * step, 10 * step) if most / it <= count)
    return [it * step for it in range(int(most / step + 1e-9) + 1)]


class Picture:
    def __init__(self, run, title, part=""):
        self.run, self.title, self.part, self.parts = run, title, part, []
        self.states = len(run.live)
        self.most_taken = max([1, *(it.tags for it in run.passes)])
        # the ends of epochs hang from a line below that on which all other passes stand, since each comes soon after its begin
        ends = [it.tags for it in run.passes if it.kind == "end"]
        self.height = HEIGHT + (END_STRIP - STRIP + 12 + round(self.stem(max(ends))) if ends else 0)
        self.heap = run.pages * 4096
        used = max(map(sum, zip(run.live, run.held)))
        # where less than half of the heap is ever used, the rest of it isn't drawn
        self.is_cut = used < self.heap / 2
        self.most_bytes = max(used * 1.15, 64) if self.is_cut else self.heap
        self.most_tags = max(1, *run.tags) * 1.15

    def x(self, command):
        return LEFT + COLUMNS * command / self.states

    def stem(self, tags):
        return STEM * tags / self.most_taken

    def y(self, value, most):
        return BOTTOM - (BOTTOM - TOP) * value / most

    def add(self, part):
        self.parts.append(part)

    def text(self, x, y, told, kind="", anchor="start"):
        more = (f' class="{kind}"' if kind else "") + (f' text-anchor="{anchor}"' if anchor != "start" else "")
        self.add(f'<text x="{number(x)}" y="{number(y)}"{more}>{html.escape(told)}</text>')

    def points(self, values, most):
        """A path through the values, each of which holds up to the next command."""
        shown = [*thinned(values, COLUMNS), (self.states, values[-1])]
        kept = without_middles([(round(self.x(at), 1), round(self.y(it, most), 1)) for at, it in shown])
        before, told = kept[0], [f"M{number(kept[0][0])} {number(kept[0][1])}"]
        for point in kept[1:]:
            right, down = round(point[0] - before[0], 1), round(point[1] - before[1], 1)
            told.append((f"h{number(right)}" if right else "") + (f"v{number(down)}" if down else ""))
            before = point
        return "".join(told)

    def area(self, values, kind):
        line = self.points(values, self.most_bytes)
        self.add(f'<path class="{kind}{" dense" if line.count("v") > DENSE else ""}" d="{line}V{BOTTOM}H{LEFT}z"/>')

    def areas(self):
        """What is held is drawn up to the sum of both, and what is live over it."""
        run = self.run
        self.area([live + held for live, held in zip(run.live, run.held)], "held")
        self.area(run.live, "live")
        line = self.points(run.tags, self.most_tags)
        if line.count("v") > DENSE:  # it would hide what it runs over
            self.add(f'<path class="tags" stroke="#a01010" stroke-width=".4" stroke-opacity=".5" d="{line}"/>')
        else:
            self.add(f'<path class="tags" stroke="#fff" stroke-width="4" d="{line}"/><path class="tags" stroke="#a01010" stroke-width="1.8" stroke-dasharray="7 3" d="{line}"/>')

    def axes(self):
        scale, unit = (1 << 20, "MiB") if self.most_bytes >= 1 << 20 else (1 << 10, "KiB") if self.most_bytes >= 1 << 10 else (1, "bytes")
        for it in ticks(self.most_bytes / scale, 6):
            y = self.y(it * scale, self.most_bytes)
            self.add(f'<path class="grid" d="M{LEFT} {number(y)}H{RIGHT}"/><path class="axis" d="M{LEFT - 5} {number(y)}h5"/>')
            self.text(LEFT - 9, y + 4, f"{it:g}", anchor="end")
        for it in ticks(self.most_tags, 6, 1):
            y = self.y(it, self.most_tags)
            self.add(f'<path class="axis" d="M{RIGHT} {number(y)}h5"/>')
            self.text(RIGHT + 9, y + 4, f"{it:,.0f}")
        for it in ticks(max(1, self.states - 1), 8, 1):
            self.add(f'<path class="axis" d="M{number(self.x(it))} {BOTTOM}v5"/>')
            self.text(self.x(it), BOTTOM + 18, f"{it:,.0f}", anchor="middle")
        self.add(f'<path class="axis" d="M{LEFT} {TOP}V{BOTTOM}H{RIGHT}V{TOP}"/>')
        self.text(LEFT, TOP - 8, unit, anchor="end")
        self.text(RIGHT, TOP - 8, "tags")
        self.text((LEFT + RIGHT) / 2, BOTTOM + 34, "commands", anchor="middle")

    def legend(self):
        free = f"free (partly drawn: the heap has {self.heap:,} bytes)" if self.is_cut else "free"
        x = LEFT
        for kind, told in (("live", "live"), ("held", "held in quarantine"), ("free", free)):
            shown = f'class="{kind}"' if kind != "free" else 'fill="#fff" stroke="#000" stroke-width=".6"'
            self.add(f'<rect x="{x}" y="50" width="22" height="13" {shown}/>')
            self.text(x + 28, 61, told)
            x += 48 + 7 * len(told)
        self.add(f'<path class="tags" stroke="#a01010" stroke-width="1.8" stroke-dasharray="7 3" d="M{x} 57h28"/>')
        self.text(x + 34, 61, "tags, by the axis on the right")

    def marks(self):
        """Passes with the place of their marks: those of one kind that lie near each other have one, that of the most tags."""
        near = {}
        for it in self.run.passes:
            near.setdefault((it.kind, int((self.x(it.at) - LEFT) / NEAR)), []).append(it)
        for passes in near.values():
            most = max(passes, key=lambda it: it.tags)
            yield most, passes

    def told_of(self, most, passes):
        if len(passes) == 1:
            return f"line {most.line:,}: {MARKS[most.kind]}, {counted(most.tags, 'tag')} taken"
        return f"lines {passes[0].line:,} to {passes[-1].line:,}: {MARKS[most.kind]} {len(passes):,} times, {counted(sum(it.tags for it in passes), 'tag')} taken, at most {most.tags:,}"

    def mark(self, kind, x, y):
        if kind == "sweep":
            return f'<circle class="sweep" cx="{number(x)}" cy="{number(y)}" r="2.6"/>'
        d = f"M{number(x - 3.5)} {number(y + 3)}h7l-3.5 -6z" if kind == "begin" else f"M{number(x - 2.8)} {number(y - 2.8)}h5.6v5.6h-5.6z"
        return f'<path class="{kind}" d="{d}"/>'

    def strip(self):
        """A stem for each pass, as long as it took tags; the longest have their numbers, as far as there is room."""
        marks = sorted(self.marks(), key=lambda mark: -mark[0].tags)
        for is_end, base, way in ((False, STRIP, -1), (True, END_STRIP, 1)):
            placed = []
            for it, passes in marks:
                if (it.kind == "end") == is_end:
                    x, y = self.x(it.at), base + way * self.stem(it.tags)
                    placed.append((it, x, y))
                    self.add(f'<g><title>{self.told_of(it, passes)}</title><path class="stem" d="M{number(x)} {base}V{number(y)}"/>{self.mark(it.kind, x, y)}</g>')
            if placed or not is_end:
                self.add(f'<path class="axis" d="M{LEFT} {base}H{RIGHT}"/>')
            self.numbers(placed, not is_end)
        self.kinds(self.run.passes)

    def numbers(self, placed, up):
        """The numbers of stems, the longest first, where none lies over a longer stem or near another number."""
        taken = []
        for at, (it, x, y) in enumerate(placed):
            room = 4 * len(f"{it.tags:,}") + 2
            is_free = all(abs(x - other) > room + 4 or abs(y - end) < 2.5 for _, other, end in placed[:at])
            if it.tags and is_free and all(abs(x - other) > max(room + width, NEAR_NUMBERS) for other, width in taken):
                taken.append((x, room))
                self.text(x, y - 6 if up else y + 14, f"{it.tags:,}", "small", "middle")

    def kinds(self, passes):
        x = LEFT
        told = f"tags taken by {'a pass' if passes else 'passes: there is none'}"
        self.text(x, self.height - 18, told)
        x += 7 * len(told) + 12
        for kind, name in MARKS.items():
            count = sum(it.kind == kind for it in passes)
            if count:
                self.add(self.mark(kind, x, self.height - 22))
                self.text(x + 9, self.height - 18, f"{name} ({count:,})")
                x += 42 + 7 * (len(name) + len(f"{count:,}"))

    def svg(self):
        told = "; ".join([*([self.part] if self.part else []), *(f"{name}: {text}" for name, text in self.run.rows())])
        self.text(LEFT, 22 if self.part else 32, shortened(self.title, 90), "title")
        if self.part:
            self.text(LEFT, 41, shortened(self.part, 130))
        self.legend()
        self.areas()
        self.axes()
        self.strip()
        return "\n".join([
            f'<svg xmlns="http://www.w3.org/2000/svg" viewBox="0 0 {WIDTH} {self.height}" width="{WIDTH}" height="{self.height}" role="img" aria-labelledby="title description">',
            f'<title id="title">{html.escape(self.title)}</title>', f'<desc id="description">{html.escape(told)}</desc>',
            f"<style>{STYLE}</style><defs>{PATTERN}</defs>", f'<rect width="{WIDTH}" height="{self.height}" fill="#fff"/>', *self.parts, "</svg>", ""])
