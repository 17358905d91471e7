"""The page and the playground in a language that nobody speaks, in which each text stands within ⟦ and ⟧ but for the values in it: what a user
sees or a screen reader reads outside of them went past the table. And in German: sentences whose words and numbers were worked out by hand."""

import json
import re
import subprocess

import page_texts

# What is no text of the page wherever it stands: numbers, control characters as the editor names them, columns of the map, words in digits, registers, permissions by name and by letter, the
# keys w and W, the bit I, a command, and names of faults.
STAYS = (r"0x[0-9a-f]+|\\u[0-9a-f]+|\+[0-9a-f]+|\b[0-9a-f]{8}\b|\bc(?:[12]?[0-9]|3[01])\b|\b(?:GLOBAL|(?:LOAD|STORE)(?:_CAPABILITY)?)\b|\b[rwRWg]{1,5}\b|\bI\b|\bsetaddr\b|"
         r"\b(?:no-heap|bad-(?:heap|command|count|register|number|data)|too-long|differs|unsafe)\b")
# Elements whose text is of the trace, of C or of a program: the lines of the editor, what it offers, bytes as text, letters of permissions.
OF_THE_TRACE = "code, .note, .reply, .number, .CodeMirror-line, .CodeMirror-gutter-wrapper, .CodeMirror-hints, .CodeMirror-measure, .perms, pre, .as-text b, svg style"

# Of an element the texts that stand outside of ⟦ and ⟧; what is `own` is of the trace. A drawing has a sentence in several texts.
OUTSIDE = r"""
globalThis.outside = (root, own) => {
  const stays = new RegExp(STAYS, 'g'), found = new Set(), escaped = text => text.replace(/[.*+?^${}()|[\]\\]/g, '\\$&');
  const ofTrace = own.filter(text => text !== '').sort((one, other) => other.length - one.length).map(text => new RegExp(`(?<![\\w⟦])${escaped(text)}(?!\\w)`, 'g'));
  const look = text => {
    const rest = text.replace(/⟦[^⟦⟧]*⟧/g, '\n');
    if (!/[\p{L}⟦⟧]/u.test(rest)) return;
    const bare = ofTrace.reduce((left, each) => left.replace(each, ''), rest).replace(stays, '');
    const strange = /.{0,40}[\p{L}⟦⟧].{0,80}/u.exec(bare);
    if (strange) found.add(strange[0].trim());
  };
  const nodes = document.createTreeWalker(root, NodeFilter.SHOW_TEXT), isDrawing = root.ownerDocument !== document, texts = [];
  for (let node = nodes.nextNode(); node; node = nodes.nextNode()) {
    if (!node.parentElement?.closest('script, style, noscript, template, #lessons, textarea, ${OF_THE_TRACE}')) texts.push(node.data);
  }
  for (const text of isDrawing ? [texts.join(' ')] : texts) look(text);
  for (const node of [root, ...root.querySelectorAll('*')]) {
    for (const name of ['title', 'aria-label', 'placeholder', 'aria-valuetext', 'alt']) if (node.hasAttribute?.(name)) look(node.getAttribute(name));
  }
  return [...found];
};
"""

# Everything that a page shows of a run, step by step.
TRAVELS = r"""
(async () => {
  const own = [document.title, run.own.title, ...run.own.after, ...run.steps.flatMap(step => [step.text, step.reply, ...step.notes])];
  const found = new Set(), look = (root = document.body) => { for (const text of outside(root, own)) found.add(text); };
  const texts = [], kept = URL.createObjectURL;
  URL.createObjectURL = blob => { texts.push(blob.text()); return 'data:,'; };
  const set = (id, value, kind) => { byId(id).value = value; byId(id).dispatchEvent(new Event(kind)); };
  byId('block-details').open = byId('compare').open = true;
  byId('keys').showModal();
  look();
  byId('keys').close();
  for (let index = 0; index < run.steps.length; index++) {
    go(index);
    for (const [side] of [['after'], ...sidesOf(run.steps[index])]) {
      show(side);
      look();
    }
    const granules = cursor.granules.flatMap((cell, place) => (cell.isNull ? [] : [place])).slice(0, 3);
    const blocks = [...cursor.blocks.values()].map(block => block.start).slice(0, 3);
    for (const place of new Set([...granules, ...blocks, run.granules - 1])) {
      view.cursor = place;
      placeCursor();
      choose('granule', place);
      look();
    }
    for (const register of [...run.written].slice(0, 4)) {
      choose('register', register);
      look();
    }
    compareWith(run.steps.length - 1 - index);
    look();
    toggleAsk();
    look();
    for (const box of byId('guess').querySelectorAll('input')) if (Math.random() < .5) box.click();
    if (index + 1 < run.steps.length) go(index + 1);
    look();
    toggleAsk();
    go(index);
    if (run.steps[index].taken || index === 1) byId('save-step').click();
    view.follow = true;
    view.cursor = null;
  }
  byId('save-map').click();
  byId('save-life').click();
  compareWith(null);
  set('other', '1', 'change');
  look();
  for (const kind of ['all', 'traps', 'passes', 'nospace']) {
    set('kind', kind, 'change');
    for (const text of ['', 'c1', 'no such']) {
      set('asked', text, 'input');
      look();
    }
  }
  for (const word of ['!!', '00', '00000040000000000480090400003d00', 'ff'.repeat(16), '0'.repeat(32)]) {
    set('typed', word, 'input');
    await new Promise(done => setTimeout(done, 30));
    look();
    for (const address of ['0x0', '0x40000010', '0xffffffffffffffff']) {
      set('exact', address, 'change');
      look();
    }
  }
  byId('used').click();
  byId('all').click();
  togglePointers();
  play();
  look();
  stopPlaying();
  togglePresent();
  for (let index = 0; index < run.steps.length; index++) {
    go(index);
    look();
  }
  togglePresent();
  makeHandout([...run.steps.keys()]);
  look();
  dispatchEvent(new Event('afterprint'));
  for (const drawn of await Promise.all(texts)) look(new DOMParser().parseFromString(drawn, 'image/svg+xml').documentElement);
  URL.createObjectURL = kept;
  return JSON.stringify([[...found], texts.length]);
})()
"""


TRAP = "Ein Trap ändert nichts."
# A trace line by line, and what a page in German says of each, worked out by hand.
GERMAN = (
    ("heap 0x40000000 2", "Ein neuer Heap: alle Bytes sind null und frei, kein Tag ist gesetzt, und jedes Register ist null."),
    ("malloc c1 32", "Der Block 0x40000000 bis 0x40000020 mit 32 Byte ist jetzt belegt. c1 erhält seine Capability, mit Tag und mit genau diesen Grenzen."),
    ("copy c2 c1", "c2 erhält die Bits und das Tag von c1."),
    ("storecap c1 c2", "Das Granulum, auf das c1 zeigt, erhält die Bits von c2 und sein Tag."),
    ("free c1", "Der Block aus Zeile 2 (32 Byte) kommt in Quarantäne und wird dort gehalten: seine 32 Byte werden nicht vergeben. Kein Tag wird genommen, c1 und seine Kopien gelten also weiter."),
    ("write c2 6f6c642064617461206f6c6420646174", "Das Granulum, auf das c2 zeigt, erhält 16 Byte Daten und kein Tag. Der Block aus Zeile 2 (32 Byte) wird gehalten: c2 ist veraltet und gilt noch, aber niemand sonst hat diese Bytes."),
    ("sweep", "Der Sweep prüft jedes Granulum und jedes Register mit Tag und nimmt 2 Tags: genau dort, wo die Basis in einem gehaltenen Block liegt. Dann sind 32 gehaltene Byte wieder frei."),
    ("write c2 6576696c2064617461206576696c2064", f"Verweigert: c2 hat kein Tag, enthält also nur Daten. {TRAP}"),
    ("malloc c3 16", "Der Block 0x40000000 bis 0x40000010 mit 16 Byte ist jetzt belegt. c3 erhält seine Capability, mit Tag und mit genau diesen Grenzen."),
    ("free c3", "Der Block aus Zeile 9 (16 Byte) kommt in Quarantäne und wird dort gehalten: seine 16 Byte werden nicht vergeben. Kein Tag wird genommen, c3 und seine Kopien gelten also weiter."),
    ("sweep", "Der Sweep prüft jedes Granulum und jedes Register mit Tag und nimmt 1 Tag: genau dort, wo die Basis in einem gehaltenen Block liegt. Dann sind 16 gehaltene Byte wieder frei."),
    ("malloc c4 9000", "Kein Platz ist lang genug für 9000 Byte, deren Block 9.008 hat und bei einem Vielfachen von 16 beginnt. Kein Block wird gehalten, ein Sweep würde also nicht helfen. c4 wird null."),
    ("malloc c4 4096", "Der Block 0x40000000 bis 0x40001000 mit 4.096 Byte ist jetzt belegt. c4 erhält seine Capability, mit Tag und mit genau diesen Grenzen."),
    ("free c4", "Der Block aus Zeile 13 (4.096 Byte) kommt in Quarantäne und wird dort gehalten: seine 4.096 Byte werden nicht vergeben. Kein Tag wird genommen, c4 und seine Kopien gelten also weiter."),
    ("begin", "Eine Epoche beginnt. Die gehaltenen Blöcke werden markiert, und 0 Tags im Speicher, deren Basis in einem von ihnen liegt, werden genommen. Register behalten ihre Tags bis zum Ende."),
    ("malloc c5 5000", "Kein Platz ist lang genug für 5000 Byte, deren Block 5.008 hat und bei einem Vielfachen von 16 beginnt: die Bytes belegter und gehaltener Blöcke werden nicht vergeben. "
                       "Eine Epoche ist offen, darum darf kein Sweep vorausgehen. c5 wird null."),
    ("malloc c5 64", "Der Block 0x40001000 bis 0x40001040 mit 64 Byte ist jetzt belegt. c5 erhält seine Capability, mit Tag und mit genau diesen Grenzen."),
    ("storecap c5 c4", "Das Granulum, auf das c5 zeigt, erhält die Bits von c4 und sein Tag. Eine Epoche ist offen: Seite 1 ist jetzt schmutzig, und an ihrem Ende wird dort nachgesehen. "
                       "Was gespeichert wird, ist veraltet: der Block aus Zeile 13 (4.096 Byte) wird gehalten."),
    ("end", "Die Epoche endet: 2 Tags in Registern und in schmutzigen Seiten (Seite 1), deren Basis in einem markierten Block liegt, werden genommen, und 4.096 markierte Byte sind wieder frei."),
    ("setaddr c6 c5 0x50000000", "c6 erhält die Bits von c5 mit der Adresse 0x50000000. Das liegt außerhalb des Fensters, wo dieselben Bits andere Grenzen bedeuten: das Tag geht verloren."),
    ("narrow c7 c5 1", "c7 erhält c5 mit engeren Grenzen: 1 Byte ab seiner Adresse."),
    ("andperm c8 c5 0xd", "c8 erhält c5 mit den Rechten, die auch 0xd hat: rwg von rwRWg."),
    ("storecap c8 c5", f"Verweigert: c8 fehlt das Recht STORE_CAPABILITY. {TRAP}"),
    ("loadcap c9 c8", "c9 erhält die Bits des Granulums, auf das c8 zeigte; es hat kein Tag."),
    ("write c7 00000000000000000000000000000000", f"Verweigert: das liegt nicht innerhalb der Grenzen: 0x40001000 + 16 liegt über der Obergrenze 0x40001001. {TRAP}"),
    ("show c5", "c5 wird angezeigt. Es hat ein Tag. Nichts ändert sich."),
    ("free c7", f"Verweigert: das sind nicht genau die Grenzen eines belegten Blocks. {TRAP}"),
    ("free c5", "Der Block aus Zeile 17 (64 Byte) kommt in Quarantäne und wird dort gehalten: seine 64 Byte werden nicht vergeben. Kein Tag wird genommen, c5 und seine Kopien gelten also weiter."),
    ("malloc c10 8192", "Kein Platz war frei, darum lief zuerst ein Sweep und nahm 3 Tags. Der Block 0x40000000 bis 0x40002000 mit 8.192 Byte ist jetzt belegt. "
                        "c10 erhält seine Capability, mit Tag und mit genau diesen Grenzen."),
    ("narrow c11 c10 0", f"Verweigert: eine Länge von 0 hat keine Grenzen. {TRAP}"),
    ("copy c0 c10", "c0 bleibt null: was hineingeschrieben wird, ist verloren."),
)
# Elsewhere on that page, at a step.
GERMAN_ELSEWHERE = (
    (0, "#subtitle", "Ein Heap mit 2 Seiten, 0x40000000 bis 0x40002000"), (0, "#lines .end", "Am Ende: 8.192 Byte belegt, 0 gehalten, 0 frei, 1 Tag."),
    (4, "#count", "Schritt 4 von 30"), (4, "#sums", "0 belegt32 gehalten8.160 Byte frei3 TagsDurchlaufTrap"),
    (6, "#taken thead", "Tag genommen vonAdresseBasisliegt im gehaltenen Block aus"), (6, "#taken tbody tr", "c10x400000000x40000000Zeile 2 (32 Byte), 0x40000000 – 0x40000020"),
    (28, "#sides", "vorhernach dem Sweepnach dem malloc"), (14, "#epoch", "eine Epoche ist offen"), (4, "#present", "Vorführen"),
)


def german(tests, root):
    """The sentence of each step of a trace, and what stands elsewhere, in German; and <html> says so."""
    made = tests.make(root, "".join(line + "\n" for line, _ in GERMAN).encode(), ["--language", "de"])
    path = tests.scratch / "german.html"
    path.write_bytes(made.stdout)
    tests.open(path)
    run = tests.browser.run
    for index, (line, sentence) in enumerate(GERMAN):
        tests.check(f"in German, {line}", run(f"go({index}); [...document.querySelector('#what p:last-child').childNodes].filter(node => !node.matches?.('.otherwise')).map(node => node.textContent).join('')"), sentence)
    for index, selector, text in GERMAN_ELSEWHERE:
        tests.check(f"in German, {selector} at step {index}", run(f"go({index}); document.querySelector('{selector}').textContent"), text)
    tests.check("the language of the document", run("document.documentElement.lang"), "de")
    tests.no_noise("in German")


def outside_script():
    return OUTSIDE.replace("STAYS", json.dumps(STAYS)).replace("${OF_THE_TRACE}", OF_THE_TRACE)


def pseudo(text):
    """A text as in that language: each piece between two values or signs within ⟦ and ⟧."""
    pieces = re.split(r"(\{\d\}|<code>.*?</code>| \| )", text)
    return "".join(piece if index % 2 or not re.search(r"[^\W\d_]", piece) else f"⟦{piece}⟧" for index, piece in enumerate(pieces))


def add_pseudo(root, examples):
    """Writes the language zz into a copy of the page: each text that its sources say, so that one more file is all that it takes."""
    said, _ = page_texts.sources(root, examples)
    rows = dict.fromkeys(text for texts in said.values() for text in texts)
    (root / "page/languages/zz.txt").write_text("".join(f"en: {text}\nzz: {pseudo(text)}\n" for text in rows), encoding="utf-8")


def travels(tests, root, folders, traces):
    """All that pages of lessons and of other traces show."""
    add_pseudo(root, tests.root / "examples")
    for name, raw in [(folder.name, (folder / "stdin").read_bytes()) for folder in folders] + traces:
        made = tests.make(root, raw, ["--language", "zz"])
        tests.check(f"{name} in another language: ./heap_page answers with a page", (made.returncode, made.stderr), (0, b""))
        path = tests.scratch / f"{name}_zz.html"
        path.write_bytes(made.stdout)
        tests.open(path)
        tests.browser.run(outside_script())
        found, count = json.loads(tests.browser.run(TRAVELS))
        tests.check(f"{name} in another language: the page says nothing past its table", found, [])
        tests.check(f"{name} in another language: pictures were saved", count >= 3, True)
        tests.no_noise(f"{name} in another language")
        if tests.quiet and tests.failed:
            return

# What the playground says now, outside of ⟦ and ⟧. Of the trace there are also commands with their forms, goals, heap lines, the verdict on a log,
# the head of what is handed in, and the names of a file and of a lesson that the test gives.
DESK = r"""
const conditions = CONDITIONS.flatMap(({ forms }) => forms), asked = [...desk.lessons.flatMap(({ goals }) => goals.map(({ goal }) => goal)), ...['task', 'set', 'came'].map(name => desk.tasks[name]?.goal ?? '')];
const forms = document.querySelector('#language').textContent.split('\n').map(row => row.split('\t')).filter(([kind]) => kind === 'command').flatMap(([, name, form]) => [name + form, name]);
const heaps = [...desk.lessons, desk].map(({ text }) => text.split('\n').find(line => line.startsWith('heap ')) ?? '');
const verdict = (document.querySelector('#judged-log pre')?.textContent ?? '').split('\n').map(line => line.replace(/^\S+ [0-9]+: /, ''));
const own = [document.title, ...forms, ...verdict, ...heaps, ...asked, ...asked.map(goal => goal.slice(0, 60)), 'A trace for a task of the heap playground.', 'task', 'goal', 'given', 'none', ...desk.lessons.flatMap(({ title, told }) => [title, told]), ...conditions, ...asked.flatMap(goal => conditionsOf(goal)),
  ...(heapViewer ? [heapViewer.run.own.title, ...heapViewer.run.own.after, ...heapViewer.run.steps.flatMap(step => [step.text, step.reply, ...step.notes])] : [])];
for (const details of document.querySelectorAll('details')) details.open = true;
return JSON.stringify(outside(%s, own));
"""
HANDED = "(() => { const all = document.createElement('p'); all.textContent = document.body.dataset.saved.split('# The trace:')[0]; return all; })()"
STEPS = r"""
const found = [];
for (let at = 0; at < heapViewer.run.steps.length; at++) {
  heapViewer.go(at);
  found.push(...JSON.parse((() => { %s })()));
}
return JSON.stringify([...new Set(found)]);
"""


class Desk:
    """The playground in the language zz, in Chromium: what is done there, and what is then said past the table."""

    def __init__(self, tests, browser):
        self.tests, self.browser = tests, browser

    def open(self, at=""):
        self.tests.open(self.browser, at)
        self.browser.run(outside_script())

    def value(self, code):
        return self.browser.value(code)

    def look(self, what, root="document.body"):
        found = json.loads(self.value(DESK % root))
        self.tests.check(f"{what}: the playground says nothing past its table", found, [])

    def says(self, what, code):
        self.tests.wait(self.browser, what, code)
        self.look(what)

    def put(self, what, text, code):
        self.tests.put_text(self.browser, text)
        self.says(what, code)


def lessons_of_desk(desk):
    """Each lesson with its tasks, and the steps of both ways to hand out bytes."""
    names = desk.value("return desk.lessons.map(({ name }) => name)")
    desk.open()
    for name in names:
        desk.value(f"const menu = document.querySelector('#lesson'); menu.value = '{name}'; menu.dispatchEvent(new Event('change')); menu.blur()")
        desk.says(f"the lesson {name}", f"return document.body.dataset.shown === '{name}' && document.querySelector('#stop').disabled")
        for at in range(desk.value("return document.querySelectorAll('#about [data-goal]').length")):
            desk.value(f"document.querySelectorAll('#about [data-goal]')[{at}].click()")
            desk.says(f"a task of {name}", "return !document.querySelector('#goal').classList.contains('waits')")
        desk.value("document.querySelector('#leave')?.click()")
        if name in ("use_after_free", "an_epoch_with_a_store", "freed_twice"):
            desk.value("toggleAtOnce()")
            desk.says(f"{name} at once", "return heapViewer?.host.isAtOnce && document.querySelector('#stop').disabled")
            found = json.loads(desk.value(STEPS % (DESK % "document.body")))
            desk.tests.check(f"{name} at once: the playground says nothing past its table", found, [])
            desk.value("toggleAtOnce()")
            desk.tests.wait(desk.browser, f"{name} with quarantine again", "return heapViewer && !heapViewer.host.isAtOnce && document.querySelector('#stop').disabled")


def faults_of_desk(desk, start, faulty, logs):
    """Faulty lines, texts of which nothing is shown, logs, a long trace, and links that can't be read."""
    desk.open()
    told = "return document.querySelector('.wanted')?.dataset.of === %s"
    for line in faulty:
        desk.put(f"the fault of '{line}'", start + line + "\nsweep\n", told % json.dumps(line))
    for text in ("", "malloc c1 16\n", "heap 1 1\n", "\ufeffheap 0 1\n"):
        desk.put(f"the fault of {text!r}", text, "return document.querySelector('#nothing') !== null && document.querySelector('.wanted') !== null")
    for name, text in logs:
        desk.put(name, text, "return document.querySelector('#judged-log') !== null && document.querySelector('#stop').disabled")
    desk.put("a long trace", start + "begin\nend\n" * 10_001, "return document.querySelector('#long') !== null")
    desk.put("too long a text", "#" * 4_194_305, "return document.querySelector('#said').className === 'refused'")
    desk.put("too long a log", "given \n" + "#" * 16_777_216, "return document.querySelector('#said').className === 'refused' && desk.text.startsWith('given')")
    for at in ("#t=AAAA", "#lesson=none"):
        desk.open(at)
        desk.look(f"the link {at}")


def tasks_of_desk(desk, start, saved):
    """A task of a link: met, not yet, not to be judged, not to be read; fields, links, and what is handed in."""
    desk.open("#lesson=use_after_free&goal=c1%20has%20a%20tag%20and%20c1%20had%20a%20tag%20and%20the%20first%20sweep%20takes%202%20tags&asks=%E2%9F%A6x%E2%9F%A7")
    waits = "return !document.querySelector('#goal').classList.contains('waits') && desk.text.length === %d"
    texts = ["", start, start + "free c1\nsweep\n", start + "free\n", start + "begin\nfree c1\nend\nwrite c1 " + "00" * 16 + "\nmalloc c3 9000\n", start + "begin\nend\n" * 10_001]
    for goal in ("c1 has a tag and 0x40000000 has no tag and 0x0 has a tag", "c1 had", "the last sweep takes 2 tags in memory and the first begin takes 0 tags and the last malloc takes 1 tag",
                 "the last end frees 32 bytes and the first malloc begins at 0x40000000 and the last malloc finds no place", "the last write is refused with tag and the last free is done",
                 'the base of c3 is 0x0 and the trace has "free c1" and the trace has no "sweep"', "bytes held are 64 and no epoch is open and at most 2 commands", "tags are 1 and " * 200):
        desk.value(f"desk.tasks.choose({{ goal: {json.dumps(goal)}, asks: '' }})")
        for text in texts:
            desk.tests.put_text(desk.browser, text)
            desk.says(f"the goal {goal[:60]} of {len(text)} bytes", waits % len(text))
    desk.value("desk.tasks.choose({ goal: 'c1 has a tag and c2 has no tag and c1 had', asks: '' })")
    desk.tests.put_text(desk.browser, start)
    desk.says("a task to be handed in", waits % len(start))
    desk.value(saved + "document.querySelector('#hand-in').click()")
    desk.says("it is handed in", "return document.body.dataset.saved !== undefined && document.querySelector('#said').textContent.includes('handed_in')")
    desk.look("what is handed in", HANDED)
    desk.value("document.querySelector('#set-copy').click()")
    desk.says("the link", "return document.querySelector('#link').value !== ''")
    for place in ("x", "https://example.org/"):
        desk.value(f"byDesk('place').value = '{place}'; byDesk('place').dispatchEvent(new Event('change'))")
        desk.look(f"the place {place}")
    desk.tests.put_text(desk.browser, "# goal: c1 has a tag\n" + start)
    desk.says("a trace that tells its own task", "return !document.querySelector('#set-own').hidden")
    desk.value("dispatchEvent(new Event('x')); desk.text = Array.from({ length: 30000 }, (_, at) => '#' + Math.sin(at)).join('\\n'); copyLink()")
    desk.says("a trace that is too long for a link", "return document.querySelector('#said').textContent.includes('link')")


def refusals_of_desk(desk, start, drop):
    """What can't be shown without quarantine, files, a browser without WebAssembly, and a run that is ended."""
    whole = start.replace(" 2\n", " 3\n")
    for name, text in (("many commands", start + "show c1\n" * 2_001), ("all registers", start + "".join(f"copy c{it} c1\n" for it in range(3, 32))), ("a heap of no block", "heap 0xfffffffffffff000 1\nmalloc c1 16\n"),
                       ("a heap of three pages", whole)):
        desk.open()
        desk.tests.put_text(desk.browser, text)
        desk.tests.answered(desk.browser, name, text.count("\n"))
        desk.value("toggleAtOnce()")
        desk.says(f"{name} at once", "return document.querySelector('#stop').disabled && document.body.dataset.steps !== '0'")
    for given in ('{"heap":', "heap 0 1\n"):
        desk.value(drop % json.dumps(given))
        desk.look(f"the file {given}")
    desk.open()
    desk.value("desk.isFallback = true; runForTask()")
    desk.says("a lesson without WebAssembly", "return document.querySelector('#said').textContent.includes('WebAssembly')")
    desk.tests.put_text(desk.browser, start)
    desk.says("a trace without WebAssembly", "return document.querySelector('#said').className === 'refused'")
    for answer in ("{ code: 'no memory' }", "{ code: 'short' }", "{ code: 'broken', message: '' }", "null"):
        desk.value(f"desk.isFallback = false; program.ask = async () => ({answer}); runForTask()")
        desk.says(f"the answer {answer}", "return document.querySelector('#said').className === 'refused' && document.querySelector('#stop').disabled")
