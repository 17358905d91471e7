"""What testing/record tries of ./heap_curve: the numbers of a trace that was worked out by hand, how points are thinned, what is drawn
of passes, what is refused, and in a browser that all texts can be read."""

import json
import pathlib
import random
import re
import sys
import time
import xml.etree.ElementTree as xml

import page_browser

sys.path.insert(0, str(pathlib.Path(__file__).resolve().parent.parent / "curve"))

import picture

MOST_BYTES = 300_000
# A block is freed and swept, its bytes are used again after five commands, and an epoch takes the tag of a copy that was stored in it;
# of the two pages with tags one is dirty at its end.
WORKED = """# Worked <out> & "by hand"
heap 0x40000000 2
malloc c1 32
malloc c2 4096
copy c3 c1
free c1
sweep
storecap c2 c2
setaddr c5 c2 0x40001000
storecap c5 c2
malloc c4 16
storecap c2 c4
free c4
begin
storecap c2 c4
end
"""
TABLE = """trace                Worked <out> & "by hand"
commands             14
heap                 8,192 bytes
peak live            4,128 bytes after line 4
peak held            32 bytes after line 6
peak tags            5 tags after line 11
sweeps               1, which took 2 tags
begins of an epoch   1, which took 1 tag
ends of an epoch     1, which took 2 tags
tags taken           5
swept over           12,288 bytes: pages with a tag, and at an end dirty ones
reuse distance       5 to 5 commands from a free to the next use of its bytes, median 5, of 1 block
"""
USAGE = "usage: heap_curve [--workers N] [--cut N] [--table]\n"


def draws(tests, trace, title, what):
    """The picture of a trace is well formed, short, and has the trace's title; nothing in it is fetched."""
    (tests.scratch / "trace").write_text(trace, encoding="ascii")
    ran = tests.shell("$ROOT/heap_curve < trace")
    tests.expect(ran.returncode == 0 and len(ran.stdout) < MOST_BYTES, f"{what}: no curve of its trace, or one of {len(ran.stdout)} bytes: {ran.stderr}")
    try:
        top = xml.fromstring(ran.stdout)
        tests.expect(top[0].text == title, f"{what}: the curve's title is {top[0].text}, and should be {title}")
    except xml.ParseError as why:
        tests.expect(False, f"{what}: the curve isn't well formed: {why}")
    tests.expect(not re.search(r"href|url\((?!#)|@import|<script", ran.stdout), f"{what}: the curve loads something")
    return ran.stdout


def worked(tests):
    (tests.scratch / "trace").write_text(WORKED, encoding="ascii")
    ran = tests.shell("$ROOT/heap_curve --table < trace")
    tests.expect((ran.stdout, ran.returncode) == (TABLE, 0), f"the table is\n{ran.stdout}{ran.stderr}and should be\n{TABLE}")
    curve = draws(tests, WORKED, 'Worked <out> & "by hand"', "the trace worked out by hand")
    told = re.findall(r"<g><title>(.*?)</title>", curve)
    tests.expect(sorted(told) == ["line 14: begin of an epoch, 1 tag taken", "line 16: end of an epoch, 2 tags taken", "line 7: sweep, 2 tags taken"], f"the marks are {told}")
    lines = re.findall(r'<path class="(?:live|held|tags)[^>]* d="([^"]*)"', curve)
    tests.expect(len(lines) == 5 and all(re.fullmatch(r"M[\d.]+ [\d.]+([hv]-?[\d.]+)+(V\d+H\d+z)?", it) for it in lines), f"a state holds up to the next command: {lines}")
    both = tests.shell("$ROOT/heap_curve --workers 2 --cut 1 < trace")
    tests.expect(both.stdout == curve, "another cutting makes another curve")


def extremes(tests):
    """Of each column the first, least, greatest and last value stay, and no point is moved."""
    chance = random.Random(4)
    for count in (1, 2, 803, 804, 805, 5000):
        values = [chance.randrange(1000) for _ in range(count)]
        kept = list(picture.thinned(values, picture.COLUMNS))
        places = [at for at, _ in kept]
        tests.expect(all(values[at] == it for at, it in kept) and places == sorted(set(places)), f"{count} points: one is moved or stands twice")
        columns = min(count, picture.COLUMNS)
        for column in range(columns):
            start, end = column * count // columns, (column + 1) * count // columns
            part = [it for at, it in kept if start <= at < end]
            if not part or (min(part), max(part), part[0], part[-1]) != (min(values[start:end]), max(values[start:end]), values[start], values[end - 1]):
                tests.expect(False, f"{count} points: column {column} has {part}")
    tests.expect(picture.without_middles([(0, 1), (1, 1), (2, 1), (3, 2), (4, 1), (5, 1)]) == [(0, 1), (2, 1), (3, 2), (4, 1), (5, 1)], "a point is left out that is no middle")


def many(tests):
    """245,000 commands, a third of them sweeps: all of them are counted in the marks."""
    lines = ["heap 0x40000000 64"] + ["malloc c1 32", "free c1", "sweep"] * 81_666
    curve = draws(tests, "\n".join(lines) + "\n", "A trace", "a sweep after each free")
    counts = [int(it.replace(",", "")) for it in re.findall(r"sweep ([\d,]+) times", curve)] + [1] * len(re.findall("sweep, 1 tag taken", curve))
    tests.expect(sum(counts) == 81_666, f"a sweep after each free: the marks tell of {sum(counts)} sweeps")
    epochs = "\n".join(["heap 0x40000000 64"] + ["malloc c1 32", "free c1", "begin", "end"] * 20_000) + "\n"
    draws(tests, epochs, "A trace", "an epoch after each free")
    draws(tests, "# nothing\nheap 0 1\n", "nothing", "a trace without a command")


def refusals(tests):
    for given, words, status, answer in (
            ("heap 0 1\nmalloc c1\n", "", 3, "fault bad-count 2\n"), ("", "", 3, "fault no-heap 1\n"), ("", "--more", 2, USAGE), ("", "--help", 2, USAGE),
            ("#" * 4_194_305, "--table", 3, "fault too-long\n")):
        (tests.scratch / "trace").write_text(given, encoding="ascii")
        ran = tests.shell(f"$ROOT/heap_curve {words} < trace")
        tests.expect((ran.returncode, ran.stdout) == (status, answer), f"a curve of {given[:40]!r} with {words}: {ran}")
    (tests.scratch / "trace").write_text("heap 0 1\n", encoding="ascii")
    for commands, said in (("< trace > /dev/full", "standard output can't be written: No space left on device"), ("<&-", "standard input is closed, and can't be read"), ("< .", "standard input is a folder, and can't be read")):
        ran = tests.shell(f"$ROOT/heap_curve {commands}")
        tests.expect(ran.returncode == 4 and f"heap_curve: {said}" in ran.stderr, f"a curve with {commands}: {ran}")
    tests.expect(tests.shell("$ROOT/heap_curve < trace > /dev/full 2> /dev/full").returncode == 4, "a curve and its fault that can't be written have another status")
    for words in ("--help", "--workers 0"):
        ran = tests.shell(f"$ROOT/heap_page {words} < trace")
        tests.expect((ran.returncode, ran.stdout) == (2, "usage: heap_page [--language NAME] [--playground-at PLACE] [--workers N] [--cut N] or heap_page [--language NAME] --playground\n"), f"heap_page {words}: {ran}")


def sweeps(count, passes):
    """So many passes that take from 1 to 12 tags, by commands of passes."""
    lines = ["heap 0x40000000 2", "malloc c1 4096"]
    for i in range(count):
        lines.append("malloc c2 64")
        lines += [line for k in range((i * 7919) % 11 + 1) for line in (f"setaddr c3 c1 {0x40000000 + 16 * k:#x}", "storecap c3 c2")]
        lines += ["free c2", passes[0], *passes[1:]]
    return "\n".join(lines) + "\n"


# The texts of a picture that lie over another, or not within it, or the numbers that a stem or a mark strikes through.
UNREADABLE = """(() => {
    const texts = [...document.querySelectorAll("text")].map(it => [it.textContent, it.getBoundingClientRect()]);
    const whole = document.documentElement.getBoundingClientRect();
    const outside = texts.filter(([, it]) => it.left < whole.left || it.right > whole.right || it.top < whole.top || it.bottom > whole.bottom);
    const over = texts.filter(([, a], i) => texts.some(([, b], k) => k < i && a.left < b.right && b.left < a.right && a.top + 3 < b.bottom && b.top + 3 < a.bottom));
    const marks = [...document.querySelectorAll(".stem, g > .sweep, g > .begin, g > .end")].map(it => it.getBoundingClientRect());
    const numbers = [...document.querySelectorAll("text.small")].map(it => [it.textContent, it.getBoundingClientRect()]);
    const struck = numbers.filter(([, a]) => marks.some(b => a.left + 1 < b.right && b.left + 1 < a.right && a.top + 3 < b.bottom && b.top < a.bottom - 4));
    return [...outside, ...over, ...struck].map(([text]) => text);
})()"""


def shown(browser, path):
    """Loads a picture from disk."""
    browser.events.clear()
    browser.call("Page.navigate", url=path.as_uri())
    until = time.monotonic() + page_browser.SECONDS
    while time.monotonic() < until:
        if browser.run(f"document.readyState === 'complete' && location.href === {json.dumps(path.as_uri())}"):
            return
        time.sleep(0.02)
    raise RuntimeError(f"{path} is not shown after {page_browser.SECONDS} s")


def in_a_browser(tests):
    """The curves of docs/ and some more: no text lies over another, and none is cut."""
    program = page_browser.program()
    if program is None:
        print("skipped: curves in a browser: no chromium")
        return
    traces = {
        "sweeps": sweeps(700, ["sweep"]), "epochs": sweeps(60, ["begin", "end"]), "part": sweeps(9, ["sweep"]) + "# Part: " + "the first of many " * 20 + "\n",
        "worked": WORKED, "empty": "heap 0 1\n", "one": "# " + "long " * 60 + "\nheap 0 1024\nmalloc c1 16\n",
        "full": "heap 0 1024\nmalloc c1 4194304\nfree c1\nsweep\n", "many": "heap 0 16\n" + "malloc c1 64\nstorecap c1 c1\nfree c1\nbegin\nend\nmalloc c2 32\nfree c2\nsweep\n" * 3000}
    for name, trace in traces.items():
        (tests.scratch / "trace").write_text(trace, encoding="ascii")
        tests.shell(f"$ROOT/heap_curve < trace > curve_{name}.svg")
    browser = page_browser.Browser(program)
    try:
        for path in [*sorted(tests.scratch.glob("curve_*.svg")), *sorted((tests.root.resolve() / "docs").glob("curve_*.svg"))]:
            shown(browser, path)
            unreadable = browser.run(UNREADABLE)
            tests.expect(browser.run("document.querySelectorAll('text').length") > 8 and unreadable == [], f"{path.name}: these texts can't be read: {unreadable}")
            tests.expect(browser.noise() == [], f"{path.name}: the browser tells of {browser.noise()}")
        (tests.scratch / "trace").write_text(traces["part"], encoding="ascii")
        tests.shell("$ROOT/heap_page < trace > page.html")
        shown(browser, tests.scratch / "page.html")
        told = browser.run("[document.querySelector('#subtitle').textContent, document.querySelector('#lines .end .note').textContent]")
        tests.expect(all(it.endswith(traces["part"].split("\n")[-2][2:].strip()) for it in told), f"the page of a trace that has a part says {told}")
    finally:
        browser.close()


def all_of(tests):
    for test in (worked, extremes, many, refusals, in_a_browser):
        test(tests)
