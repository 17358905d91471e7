"""What the page hands to others' pages, in Chromium: the picture of a step, the life of a heap, a frame, and links to where a teacher
says that the page is."""

import base64
import itertools
import json
import pathlib
import re
import struct
import subprocess
import xml.etree.ElementTree

import page_model

ROOT = pathlib.Path(__file__).resolve().parent.parent
SVG = "{http://www.w3.org/2000/svg}"
LEFT, WIDTH = 110, 900
LESSONS = [("an_epoch_with_a_store", 10), ("malloc_sweeps_when_full", 4)]
# Takes what the page saves, which else goes to a file.
TAKE = """window.saved = [];
const old = URL.createObjectURL;
URL.createObjectURL = blob => { const reader = new FileReader(); reader.onload = () => window.saved.push([blob.type, reader.result]); reader.readAsDataURL(blob); return old.call(URL, blob); };"""


def saved(tests, browser, button, kind):
    browser.value(f"window.saved.length = 0; document.querySelector('#{button}').click()")
    tests.wait(browser, f"{button} gives {kind}", f"return window.saved.some(([type]) => type === '{kind}')")
    return base64.b64decode(browser.value(f"return window.saved.find(([type]) => type === '{kind}')[1]").split(",")[1])


def spans_of(run):
    """By state, first step and step after the last one, how long each block was in each state."""
    spans = []
    for block in {block for state in run.states for block in state.blocks}:
        held = [state.blocks.get(block) for state in run.states]
        at = 0
        for name, steps in itertools.groupby(held):
            count = len(list(steps))
            if name is not None:
                spans.append((name, at, at + count))
            at += count
    return sorted(spans)


def life(tests, browser, run):
    tree = xml.etree.ElementTree.fromstring(saved(tests, browser, "save-life", "image/svg+xml"))
    count = len(run.states)
    seen = sorted((bar.get("data-state"), *(round((float(at) - LEFT) * count / WIDTH) for at in (bar.get("x"), float(bar.get("x")) + float(bar.get("width")))))
                  for bar in tree.iter(f"{SVG}rect") if bar.get("data-state"))
    tests.check("the life of a heap has each block from its malloc on", seen, spans_of(run))


def step(tests, browser, run, index):
    source = saved(tests, browser, "save-step", "image/svg+xml")
    tree = xml.etree.ElementTree.fromstring(source)
    texts = [text.text for text in tree.findall(f"{SVG}text")]
    told = browser.value("return document.querySelector('#what p:last-child').textContent")
    command = f"{run.trace.counted[index][1]} → {run.values[index]['reply']}"
    tests.check("a step's picture has its command", command in texts, True)
    tests.check("and its sentence", told in " ".join(texts), True)
    rows = [text.split() for text in texts if re.match(r"c[0-9]+ +[◆◇]", text)]
    wanted = [[f"c{number}", "◆" if run.states[index].register(number)[0] else "◇"] for number in run.written]
    tests.check("and the registers with their tags", [row[:2] for row in rows], wanted)
    tests.check("and the map", len(tree.findall(f"{SVG}svg//{SVG}g[@data-block]")) >= len(run.states[index].blocks) > 0, True)
    pixels = saved(tests, browser, "save-png", "image/png")
    size = tuple(2 * int(float(tree.get(side))) for side in ("width", "height"))
    tests.check("the same in pixels", (pixels[:8], struct.unpack(">II", pixels[16:24])), (b"\x89PNG\r\n\x1a\n", size))


def frame(tests, browser, name, index):
    browser.value("document.querySelector('#copy-frame').click()")
    seen = browser.value("return document.querySelector('#frame').value")
    at = re.match(r'<iframe src="([^"]*)" width="900" height="520" title="[^"]+"></iframe>$', seen)
    tests.check("a frame is one of this step", at and at[1].split("#")[1], f"lesson={name}&amp;step={index}&amp;embed")


def places(tests, browser):
    """A link from a file says that it opens here alone; a place is named once."""
    said = "return document.querySelector('#said').textContent.includes(%s)"
    browser.value("navigator.clipboard.writeText = async () => {}; document.querySelector('#copy').click()")
    tests.wait(browser, "a link from a file says so", said % json.dumps("opens on this machine alone"))
    put = "const field = document.querySelector('#place'); field.value = %s; field.dispatchEvent(new Event('change'))"
    browser.value(put % json.dumps("example.org"))
    tests.wait(browser, "what is no place is refused", said % json.dumps("A place begins with https://"))
    browser.value(put % json.dumps("https://example.org/heap.html"))
    tests.wait(browser, "a link is one to the place", "return document.querySelector('#link').value.startsWith('https://example.org/heap.html#lesson=')")
    tests.open(browser, "#lesson=contents_stay&step=1")
    browser.value("document.querySelector('#copy').click(); document.querySelector('#copy-frame').click()")
    tests.wait(browser, "the place is kept", "return document.querySelector('#link').value.startsWith('https://example.org/heap.html#lesson=contents_stay')"
               " && document.querySelector('#frame').value.includes('src=\"https://example.org/heap.html#')")
    browser.value(put % json.dumps(""))
    tests.wait(browser, "and can be taken back", "return document.querySelector('#link').value.startsWith('file:')")


def all_of(tests, browser):
    for name, index in LESSONS:
        raw = (ROOT / f"examples/lesson_{name}/stdin").read_bytes()
        run = page_model.Run(raw, subprocess.run([ROOT / "heap_states"], input=raw, stdout=subprocess.PIPE, check=True).stdout.decode())
        tests.open(browser, f"#lesson={name}&step={index}")
        browser.value(TAKE)
        life(tests, browser, run)
        step(tests, browser, run, index)
        frame(tests, browser, name, index)
    places(tests, browser)
