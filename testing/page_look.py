"""What testing/page_tests.py asks the page, and what the answer has to be."""

import page_model
import page_sentences
from page_model import NAMES, COLOURS, PATTERNS, NULL_WORD, Word, block_key, grouped, hexadecimal, plural

# All that the page shows of a step, as its document has it.
LOOK = r"""(() => {
  drawDue(); // else what is out of sight has a step a moment later (kept)
  const all = selector => [...document.querySelectorAll(selector)], text = node => (node ? node.textContent : null);
  const middle = node => { const box = node.getBBox(); return [box.x + box.width / 2, box.y + box.height / 2]; };
  const box = node => { const { x, y, width, height } = node.getBBox(); return [x, y, width, height]; };
  const ends = path => [0, path.getTotalLength()].map(length => { const { x, y } = path.getPointAtLength(length); return [x, y]; });
  const current = all('#lines [aria-current]'), row = current[0], item = row.parentNode, list = document.querySelector('#lines').getBoundingClientRect();
  const seen = row.getBoundingClientRect(), paint = (node, name) => (node ? getComputedStyle(node)[name] : null);
  return JSON.stringify({
    step: Number(row.dataset.step), currents: current.length, line: text(row.querySelector('.number')), text: text(row.querySelector('code')),
    reply: text(row.querySelector('.reply')) ?? '', notes: [...item.querySelectorAll('.note')].map(text),
    inView: seen.top >= list.top - 1 && seen.bottom <= list.bottom + 1, command: text(document.querySelector('#what .command')),
    sentence: text(document.querySelector('#what p:last-child')), count: text(document.querySelector('#count')),
    slider: document.querySelector('#slider').value,
    blocks: all('#map [data-block]').map(node => [node.dataset.block, node.dataset.state, paint(node.querySelector('.fill'), 'fill'),
      paint(node.querySelector('.over'), 'fill'), text(document.querySelector(`#map [data-named="${node.dataset.block}"]${node.dataset.state === 'released' ? '.released' : ':not(.released)'}`)), node.classList.contains('new')]),
    table: all('#blocks tbody tr').map(line => [...line.cells].map(text)),
    marks: all('#map [data-granule]').map(node => [Number(node.dataset.granule), node.dataset.tag, node.getAttribute('class'), middle(node)]),
    dirty: all('#map [data-page].dirty').map(node => [Number(node.dataset.page), paint(node.querySelector('.hatch'), 'fill')]),
    gaps: all('#map [data-gap]').map(node => [node.dataset.gap, text(node), ...box(node.querySelector('path'))]),
    pages: all('#map [data-page]').map(node => [Number(node.dataset.page), text(node.querySelector('text')), ...box(node.querySelector('.band')).slice(1)]),
    looked: all('#map [data-looked]').map(node => [Number(node.dataset.looked), box(node)]),
    rings: all('#map [data-changed]').map(node => [Number(node.dataset.changed), box(node)]),
    registers: all('#rows tr').map(line => [line.dataset.register, line.dataset.tag, line.dataset.word, line.classList.contains('new'), line.classList.contains('used'),
      text(line.querySelector('.sign')).trim(), text(line.querySelector('.newmark')) ?? '', line.querySelector('.sign path').getAttribute('class'),
      text(line.cells[1].querySelector('code')), text(line.querySelector('.bounds')), line.cells[1].querySelector('svg')?.getAttribute('aria-label') ?? null,
      line.querySelector('.bound') ? box(line.querySelector('.bound')).filter((_, index) => index % 2 === 0) : null]),
    reasons: all('#map [data-reason]').map(path => [path.dataset.reason, ends(path)]),
    chips: all('#map [data-taken]').map(node => [node.dataset.taken, box(node.querySelector('rect')), node.querySelector('path').getAttribute('class')]),
    taken: all('#taken tbody tr').map(line => [...line.cells].map(text)), shape: { ...map.shape, top: map.top },
    bounds: document.querySelector('#map [data-bounds]')?.dataset.bounds ?? null,
    broken: document.querySelector('#map [data-bounds]')?.classList.contains('off') ?? null,
    pins: all('#map .pinned').map((node, index) => [text(node), middle(all('#map .pin')[index]), middle(node)]),
    shown: text(document.querySelector('#shown')), heading: text(document.querySelector('#word > h3')), asText: text(document.querySelector('#word .as-text')), meaning: all('.meaning tr').map(line => [...line.cells].map(text)),
    steps: all('.steps li').map(text).join(' '), fields: all('.fields code').map(text), bytes: all('#word p code').map(text),
    window: document.querySelector('#window svg').getAttribute('aria-label'), edges: all('#window text').map(text),
    verdict: text(document.querySelector('#verdict')), exact: document.querySelector('#exact').value, detail: text(document.querySelector('#detail')),
    epoch: !document.querySelector('#epoch').hidden, sides: all('#sides [aria-pressed=true]').map(text), sums: all('#sums span').slice(0, 4).map(text),
    fault: text(document.querySelector('#fault')) });
})()"""

# Of the names of blocks and of the notes of pins, those of which a part isn't seen: a corner of a name outside of its block, or what is
# painted later above it, or another text that it touches. It needs the document alone.
CUT = r"""(() => {
  const drawn = [...document.querySelectorAll('#map svg :is(path, rect, text)')].filter(node => getComputedStyle(node).visibility !== 'hidden' && !node.closest('defs, .cursors'));
  const names = drawn.filter(node => node.matches('.names text')), notes = drawn.filter(node => node.matches('.pinned')), cut = [];
  // Of a text from the top of its letters to the line on which they stand.
  const boxOf = node => {
    const { x, y, width, height } = node.getBBox(), { e, f } = node.getCTM(), isText = node.matches('text');
    return { left: x + e, right: x + e + width, top: y + f + (isText ? height * .16 : 0), bottom: y + f + height * (isText ? .79 : 1) };
  };
  const meet = (one, other) => one.left < other.right && other.left < one.right && one.top < other.bottom && other.top < one.bottom;
  const isAt = (x, y, fill) => fill.isPointInFill(Object.assign(fill.ownerSVGElement.createSVGPoint(), { x, y }));
  const endsOf = box => [box.x + .5, box.x + box.width - .5].map(x => [x, box.y + box.height / 2]), inside = (box, fill) => endsOf(box).every(([x, y]) => isAt(x, y, fill));
  for (const name of [...names, ...notes]) {
    const place = boxOf(name), at = drawn.indexOf(name);
    const fill = document.querySelector(`#map [data-block="${name.dataset.named}"]${name.matches('.released') ? '.released' : ':not(.released)'} .fill`);
    if (names.includes(name) && !(fill && inside(name.getBBox(), fill))) cut.push(name.textContent + ' past its block');
    if (drawn.slice(at + 1).some(node => meet(boxOf(node), place))) cut.push(name.textContent + ' under another');
    const isLive = fill => endsOf(name.getBBox()).some(([x, y]) => isAt(x, y, fill));
    if (name.matches('.released') && [...document.querySelectorAll('#map [data-block]:not(.released) .fill')].some(isLive)) cut.push(name.textContent + ' where bytes are live');
  }
  return JSON.stringify([names.map(name => name.textContent), cut]);
})()"""

# For each granule that the map shows, the blocks in whose drawn area its middle lies, and whether it is in the bounds chosen.
AREAS = r"""(() => {
  const areas = [...document.querySelectorAll('#map [data-block]:not(.released)')].map(node => [node.dataset.block, node.querySelector('.fill')]);
  const pick = document.querySelector('#map [data-bounds]'), point = map.sheets[0].createSVGPoint(), L = map.shape, n = L.columns, found = [];
  for (let place = 0; place < L.shown; place++) {
    if (L.gapOf[Math.floor(place / 256)]) continue;
    point.x = L.gutter + (place % n + .5) * L.width;
    point.y = L.tops[Math.floor(place / 256)] + (Math.floor(place % 256 / n) + .5) * L.height;
    found.push([place, areas.filter(area => area[1].isPointInFill(point)).map(area => area[0]), Boolean(pick && pick.isPointInFill(point))]);
  }
  return JSON.stringify([pick ? pick.dataset.bounds : null, found]);
})()"""

# The sheets of the map: where each lies, and how what is drawn on it is moved.
SHEETS = r"""JSON.stringify([...document.querySelectorAll('#map > svg')].map(sheet =>
  [sheet.getBoundingClientRect(), sheet.getAttribute('viewBox'), sheet.querySelector(':scope > g').getAttribute('transform')]))"""
# Whether the lowest granule that a step touches is in sight there, after the reader has scrolled to the top, and there once more.
FAR_STEP = r"""(async () => {
  const placeOf = step => step.granules[0]?.place ?? step.blocks[0]?.block.start ?? 0, frame = () => new Promise(done => requestAnimationFrame(() => setTimeout(done, 30)));
  const far = run.steps.reduce((best, step, index) => (placeOf(step) > placeOf(run.steps[best]) ? index : best), 0), box = byId('map');
  const isSeen = () => { const y = spotOf(map.shape, placeOf(run.steps[far]))[1] + map.top; return box.scrollTop <= y && y < box.scrollTop + box.clientHeight; };
  go(far);
  await frame();
  const seen = [isSeen()];
  box.scrollTop = 0;
  await frame();
  seen.push(isSeen());
  go(far);
  await frame();
  return [...seen, isSeen()].join(' ');
})()"""
# How long the last key or press took until its frame was painted, as the browser tells of events from 16 ms on.
PAINTED = r"""(() => {
  window.painted = 0;
  const told = list => list.getEntries().forEach(({ name, duration }) => {
    if (['keydown', 'pointerdown', 'mousedown'].includes(name)) window.painted = Math.max(window.painted, duration);
  });
  new PerformanceObserver(told).observe({ type: 'event', durationThreshold: 16 });
})()"""

NODES = r"""(() => {
  const walker = document.createTreeWalker(document, NodeFilter.SHOW_ALL);
  let count = 1;
  while (walker.nextNode()) count++;
  return count;
})()"""

# The steps whose rows fill the list where it is scrolled to a part of its length.
ROWS_AT = r"""(async () => {
  const box = byId('lines'), frame = () => new Promise(done => requestAnimationFrame(() => setTimeout(done, 10)));
  const top = box.scrollHeight * %s;
  for (let turn = 0; turn < 3; turn++) {
    box.scrollTop = top;
    await frame();
  }
  await frame();
  const { x, y, width, height } = box.getBoundingClientRect(), steps = new Set();
  for (let down = 2; down < height - 2; down += 4) {
    const under = document.elementFromPoint(x + width / 2, y + down), item = under?.closest('#lines li');
    if (item) steps.add(Number(item.querySelector('[data-step]').dataset.step));
    else if (under !== box && !under?.closest('#lines .end')) steps.add(null); // of its own the list has a margin alone
  }
  return JSON.stringify([...steps]);
})()"""

# Of a page in a frame: what reaches past it, the parts that are in sight, and how large its letters are.
EMBEDDED = r"""(() => {
  const box = name => document.querySelector(name).getBoundingClientRect(), root = document.documentElement;
  const isSeen = name => { const { width, height } = box(name); return width > 0 && height > 0; };
  const names = ['.name', '.controls', '.track', '#trace', '#three', '#told', '#map', '#registers', '#inspector', '#glossary', '#legend', '#compare', '#ask'];
  return JSON.stringify({ past: ['#map', '#registers', '#told', '.controls', '#legend'].filter(name => box(name).bottom > innerHeight + 1 || box(name).right > innerWidth + 1)
    .concat(root.scrollWidth > innerWidth || root.scrollHeight > innerHeight ? ['page'] : []),
    parts: names.filter(isSeen).map(name => name.slice(1)).sort(), letter: view.letter });
})()"""

# On a phone: where the steps end, and whether the button for the next one is what a finger there would touch.
BOTTOM = r"""(() => {
  const { x, y, width, height } = byId('next').getBoundingClientRect();
  return JSON.stringify([document.querySelector('.controls').getBoundingClientRect().bottom, document.elementFromPoint(x + width / 2, y + height / 2) === byId('next')]);
})()"""
SMALL_TARGETS = r"""JSON.stringify([...document.querySelectorAll('button, select, summary, input[type=text], label:has(input[type=checkbox])')].filter(node => {
  const { width, height } = node.getBoundingClientRect();
  return width && (height < 44 || width < 44);
}).map(node => node.id || node.textContent))"""
PLACE_IN_SIGHT = r"""(() => {
  const box = byId('map'), x = map.shape.gutter + (%s % map.shape.columns) * map.shape.width;
  return x >= box.scrollLeft && x + map.shape.width <= box.scrollLeft + box.clientWidth;
})()""".replace("%s %", "%s %%")

# What is said of two steps, and the rows of their differences; the lines of the map; and the handout, an article for each step.
COMPARED = "JSON.stringify([byId('differences').textContent, ...[...document.querySelectorAll('#differences tbody tr')].map(row => [...row.cells].map(cell => cell.textContent))])"
REASONS = "JSON.stringify([...document.querySelectorAll('#map [data-reason]')].map(path => path.dataset.reason))"
HANDOUT = r"""JSON.stringify([...document.querySelectorAll('#handout article')].map(article => {
  const all = selector => [...article.querySelectorAll(selector)], text = node => node.textContent, [sentence] = all('p:not(.note, .line)'), [command] = all('.command');
  return [text(article.querySelector('h2')), all('.note').map(text), text(command), text(sentence), all('.map [data-block]').map(node => [node.dataset.block, node.dataset.state]),
    all('.rows tr').map(row => row.dataset.register), all('td:nth-child(4)').length];
}))"""


def cell_in_words(kind, tag, text):
    """A register or a granule where two steps stand side by side."""
    word = Word(text)
    if not tag and text == NULL_WORD:
        return "null"
    if kind == "granules" and not tag:
        return "no tag, bytes " + " ".join(text[at:at + 8] for at in range(0, 32, 8))
    return f"{'tagged' if tag else 'no tag'}, {hexadecimal(word.address)} in {hexadecimal(word.base)} to {hexadecimal(word.top)}"


FILTER = "byId('kind').value = %s; byId('kind').dispatchEvent(new Event('change')); byId('asked').value = %s; byId('asked').dispatchEvent(new Event('input'))"
STEPS_LISTED = "JSON.stringify([...document.querySelectorAll('#lines [data-step]')].map(row => Number(row.dataset.step)))"

# The width of the band, its lines of live, of live and held, and of tags, and its ticks.
BAND = "JSON.stringify([byId('band').clientWidth, ...['live', 'held', 'tags', 'passes', 'traps'].map(name => document.querySelector('.band-' + name).getAttribute('d'))])"

# What a dense map's step changed; and of granules, the states of the areas and the kinds of the marks in which their middles lie,
# and whether they are marked as new.
DENSE = r"""(() => {
  const all = selector => [...document.querySelectorAll(selector)], point = map.sheets[0].createSVGPoint(), L = map.shape, n = L.columns;
  const fills = all('#map .blocks [data-states]').map(node => [node.dataset.states, node.querySelector('.fill')]);
  const marks = all('#map .marks path').map(node => [node.getAttribute('class'), node]), fresh = all('#map .new .fill');
  const named = list => list.filter(([, path]) => path.isPointInFill(point)).map(([name]) => name);
  const rings = all('#map [data-changed]').flatMap(node => node.dataset.changed.split(' ').map(Number));
  return JSON.stringify([rings, ...%s.map(place => {
    point.x = L.gutter + (place %% n + .5) * L.width;
    const y = L.tops[Math.floor(place / 256)] + Math.floor(place %% 256 / n) * L.height;
    point.y = y + L.height / 2;
    const areas = named(fills), isNew = fresh.some(path => path.isPointInFill(point));
    if (L.hasNames) point.y = y + 6;
    return [areas, named(marks), isNew];
  })]);
})()"""

DECODED = r"""JSON.stringify(%s.map(([text, address]) => {
  const word = decode(bitsOf(text)), there = decode(bitsOf(text), BigInt(address));
  return [hex(word.base), hex(word.top), hex(word.baseMantissa), hex(word.topMantissa), hex(word.topField), hex(word.baseField), hex(word.type),
    word.exponent, Number(word.permissions), String(word.low), keepsBounds(word, BigInt(address)), hex(there.base), hex(there.top)];
}))"""

# Of the screen for a class: each text that is in sight with the size of its letters and the part that has it, what reaches
# past the screen or its part, the three lines, and how far the map goes.
PRESENT = r"""(() => {
  const walk = document.createTreeWalker(document.body, NodeFilter.SHOW_TEXT), texts = [], past = [], parts = ['three', 'told', 'map', 'legend', 'registers'];
  for (let node = walk.nextNode(); node; node = walk.nextNode()) {
    const parent = node.parentElement, part = parent.closest('#' + parts.join(', #'));
    if (node.data.trim() === '' || parent.matches('script, style, noscript') || !parent.checkVisibility({ visibilityProperty: true })) continue;
    texts.push([part ? part.id : null, parseFloat(getComputedStyle(parent).fontSize)]);
    const range = document.createRange();
    range.selectNodeContents(node);
    const outside = box => box.left < -1 || box.top < -1 || box.right > innerWidth + 1 || box.bottom > innerHeight + 1;
    if ((part || {}).id !== 'three' && [...range.getClientRects()].some(outside)) past.push(node.data);
    const cell = parent.closest('#rows td');
    if (cell && [...range.getClientRects()].some(box => box.right > cell.getBoundingClientRect().right + 1)) past.push(`${node.data} past its cell`);
  }
  for (const part of parts.map(byId)) if (part.scrollHeight > part.clientHeight + 1 || part.scrollWidth > part.clientWidth + 1) past.push(part.id);
  if (document.documentElement.scrollHeight > innerHeight) past.push('page');
  if ([...document.querySelectorAll('#map [data-reason]')].some(line => line.getBBox().y + map.top < 0)) past.push('a line');
  return JSON.stringify({ least: Math.min(...texts.map(text => text[1])), parts: [...new Set(texts.map(text => text[0]))].sort(), past, reach: run.reach,
    legend: [...byId('legend').children].filter(item => item.checkVisibility()).map(item => item.innerText.trim()),
    three: [...byId('three').children].map(line => line.textContent.trim()), current: [...byId('three').children].findIndex(line => line.ariaCurrent),
    lines: [...byId('three').children].map(line => line.clientHeight), cut: [...byId('three').querySelectorAll('.trap .reply, .data + .reply')]
      .filter(reply => reply.scrollWidth > reply.clientWidth + 1 || reply.getBoundingClientRect().right > byId('three').getBoundingClientRect().right).length, room: [view.mapWidth, view.mapHeight], shape: { ...map.shape, top: map.top } });
})()"""

# Of the list: the steps whose reply is in sight, and those whose comments are; the last stands for the end of the list.
IN_SIGHT = r"""JSON.stringify(['.reply', '.note'].map(kind => [...document.querySelectorAll('#lines li, #lines .end')].flatMap((item, index) => {
  const node = item.matches('.end') ? item : item.querySelector(kind);
  return node && getComputedStyle(node).visibility === 'visible' ? [index] : [];
})))"""

NOTES = "JSON.stringify([...document.querySelectorAll('#lines .note')].map(note => note.textContent))"
HARM = """JSON.stringify([window.evil ?? null, document.images.length, document.scripts.length,
  document.querySelectorAll('#title *, #lines :not(ol, li, p, div, button, span, code), #what :not(p, code, b, span), a:not(#whole), iframe, plaintext').length])"""
NO_HARM = "[null,0,3,0]"

PICTURES = [
    ("sweep_light", "lesson_a_derived_pointer_goes_by_its_base", 9, False, (1440, 900), ""),
    ("sweep_dark", "lesson_a_derived_pointer_goes_by_its_base", 9, True, (1440, 900), ""),
    ("sweep_before", "lesson_contents_stay", 5, False, (1280, 800), "show('before')"),
    ("malloc_between", "lesson_malloc_sweeps_when_full", 4, False, (1280, 800), "show('between')"),
    ("use_after_free", "lesson_use_after_free", 4, False, (1280, 800), ""),
    ("epoch_light", "lesson_an_epoch_with_a_store", 6, False, (1440, 900), ""),
    ("epoch_dark", "lesson_an_epoch_with_a_store", 9, True, (1440, 900), ""),
    ("hidden", "lesson_a_copy_hidden_in_memory", 6, False, (1280, 800), ""),
    ("hostile", "lesson_text_that_is_not_markup", 5, False, (1280, 800), ""),
    ("narrow", "lesson_permissions", 4, False, (700, 1200), ""),
    ("inspector_light", "lesson_edges_of_a_window", 4, False, (1280, 800), "byId('inspector').scrollIntoView()"),
    ("inspector_dark", "lesson_edges_of_a_window", 7, True, (1280, 800), "byId('inspector').scrollIntoView(); byId('exact').value = '0x40003900'; byId('exact').dispatchEvent(new Event('change'))"),
    ("grey", "lesson_an_epoch_with_a_store", 8, False, (1440, 900), "document.documentElement.style.filter = 'grayscale(1)'"),
    ("class", "lesson_an_epoch_with_a_store", 10, False, (1280, 720), "togglePresent()"),
    ("class_asked", "lesson_a_derived_pointer_goes_by_its_base", 8, True, (1280, 720), "togglePresent(); toggleAsk()"),
    ("asked", "lesson_an_epoch_with_a_store", 9, False, (1280, 720), "toggleAsk()"),
    ("paper", "lesson_an_epoch_with_a_store", 9, False, (1000, 900), ""),
]


class Expected:
    """Compares what the page shows of a run with the states of page_model."""

    def __init__(self, run, check):
        self.run, self.check = run, check

    def compare(self, name, index, seen):
        run, check, value, state = self.run, self.check, self.run.values[index], self.run.states[index]
        line, text, notes = run.trace.counted[index]
        check(f"{name}: the row", [seen[key] for key in ("step", "currents", "line", "text", "reply", "notes")],
              [index, 1, str(line), text, value["reply"], notes])
        check(f"{name}: the row is in view", seen["inView"], True)
        check(f"{name}: the step", [seen["command"], seen["count"], seen["slider"]],
              [text + (f" → {value['reply']}" if value["reply"] else ""), f"step {grouped(index)} of {grouped(len(run.values) - 1)}", str(index)])
        self.compare_sentence(name, index, value, state, seen["sentence"])
        self.compare_state(name, index, state, seen, "after")
        self.compare_taken(name, index, seen, "after")
        check(f"{name}: changed granules", [place for place, _ in sorted(seen["rings"])], run.changes(index, "granules"))
        check(f"{name}: their rings stand in their cells", [place for place, ring in seen["rings"] if not self.is_in_cell(seen, place, ring)], [])
        check(f"{name}: an open epoch is told", seen["epoch"], state.open)
        check(f"{name}: no fault", seen["fault"], "")
        self.compare_shown(name, index, state, seen)

    def compare_sentence(self, name, index, value, state, sentence):
        must, must_not = page_sentences.facts(self.run, index)
        self.check(f"{name}: the sentence says what is true", [text for text in must if text not in sentence], [])
        self.check(f"{name}: the sentence says nothing else", [text for text in must_not if text in sentence], [])
        answer = value["reply"].split()
        is_trap = answer[:1] == ["trap"]
        self.check(f"{name}: the sentence says whether it was refused", sentence.startswith("Refused: "), is_trap)
        numbers = [part if part.startswith("0x") else grouped(int(part)) for part in answer if part[0].isdigit()]
        name_of, *words = value["text"].split()
        if not is_trap and name_of in ("write", "storecap", "loadcap") and words[0] != words[1]:
            authority = words[name_of == "loadcap"]
            block = state.block_of(Word(state.register(int(authority[1:]))[1]).base)
            told = f"The block of {state.name(block)} is held: {authority} is stale"
            self.check(f"{name}: a stale capability is told", [told in sentence, "is stale, and still works" in sentence], [state.blocks[block] != "live"] * 2)
        if not is_trap and name_of != "show":
            self.check(f"{name}: the sentence has the numbers of the reply", [number for number in numbers if number not in sentence], [])

    def compare_state(self, name, index, state, seen, side):
        check, run, is_after = self.check, self.run, side == "after"
        live, held, tags = state.sums()
        free = 4096 * run.pages - live - held
        check(f"{name}: the sums", seen["sums"], [f"{grouped(live)} live", f"{grouped(held)} held", f"{plural(free, 'byte')} free", plural(tags, "tag")])
        blocks = {key: rest for key, *rest in seen["blocks"] if rest[0] != "released"}
        new = {block for block in state.blocks if is_after and run.before(index).blocks.get(block) != state.blocks[block]}
        check(f"{name}: blocks, with colour and pattern", {key: [of[0], of[1], of[2], of[4]] for key, of in blocks.items()},
              {block_key(block): [of, COLOURS[of], PATTERNS[of], block in new] for block, of in state.blocks.items()})
        check(f"{name}: names on blocks", [key for key, of in blocks.items() if of[3] not in (None, NAMES[of[0]])], [])
        ended = {block for block in run.before(index).blocks if block not in state.blocks}
        check(f"{name}: blocks that ended", sorted(key for key, of, *_ in seen["blocks"] if of == "released"), sorted(map(block_key, ended)))
        check(f"{name}: the table of blocks", seen["table"], [
            [hexadecimal(base), hexadecimal(top), grouped(top - base), NAMES[of], state.name((base, top))] for (base, top), of in sorted(state.blocks.items())])
        lost = {row[1] for row in run.taken(index) or [] if row[0] == "granule"} if side != "before" else set()
        wanted = {place: ["1", "tag"] if tag else ["0", "lost"] if place in lost else ["0", "data"]
                  for place, (tag, word) in state.granules.items() if tag or word != NULL_WORD}
        check(f"{name}: tags and data in memory", {place: [tag, kind] for place, tag, kind, _ in seen["marks"]}, wanted)
        check(f"{name}: each mark stands once, in its cell", [place for place, *_, at in seen["marks"] if not self.is_in_cell(seen, place, [*at, 0, 0])]
              + [len(seen["marks"]) - len(wanted)], [0])
        self.compare_registers(name, index, state, seen["registers"], side)
        self.compare_pages(name, index, state, seen)

    def compare_pages(self, name, index, state, seen):
        """Pages at the edge of their rows, those that are dirty, and those at which an end looks."""
        shape = seen["shape"]
        folds, room = self.run.folds, round(20 * shape["scale"])
        shown = [page for page in range(-(-shape["shown"] // 256)) if not any(first <= page < end for first, end in folds)]
        tall, count = 256 / shape["columns"] * shape["height"], -(-shape["shown"] // 256)
        bottom = lambda page: self.row(shape, min((page + 1) * 256, shape["shown"]) - 1) + shape["height"]
        tops = {page: (self.row(shape, page * 256), bottom(page)) for page in shown}
        self.check(f"{name}: pages stand at their rows", [[page, abs(y - tops[page][0]) < 2, abs(y + height - tops[page][1]) < 2] for page, _, y, _, height in seen["pages"] if page in tops],
                   [[page, True, True] for page in shown])
        self.check(f"{name}: pages that are left out have gaps", [[gap, f"pages {gap.split()[0]} to {int(gap.split()[1]) - 1}" in text, y, height < room] for gap, text, _, y, _, height in seen["gaps"]],
                   [[f"{first} {end}", True, self.row(shape, first * 256 - 1) + shape["height"] + 3, True] for first, end in folds])
        self.check(f"{name}: pages are named", [called for page, called, *_ in seen["pages"] if called or tall >= 13], [f"page {page}" for page, called, *_ in seen["pages"] if called or tall >= 13])
        self.check(f"{name}: dirty pages are hatched", seen["dirty"], [[page, 'url("#dirty-pattern")'] for page in sorted(state.dirty) if page < count])
        self.check(f"{name}: pages at which an end looks", [page for page, _ in seen["looked"]], [page for page in self.run.looked(index) if page < count])
        self.check(f"{name}: they are shaded over their rows", [page for page, (x, y, width, height) in seen["looked"]
                   if abs(x - shape["gutter"]) > 1 or abs(width - shape["columns"] * shape["width"]) > 1 or abs(y - tops[page][0]) > 1 or abs(y + height - tops[page][1]) > 1], [])

    def row(self, shape, place):
        """Where the row of a granule begins, from the top on: gaps stand for the pages before it that are left out."""
        before = [end - first for first, end in self.run.folds if end * 256 <= place]
        return (place - 256 * sum(before)) // shape["columns"] * shape["height"] + round(20 * shape["scale"]) * len(before)

    def compare_registers(self, name, index, state, rows, side):
        lost = {row[1] for row in self.run.taken(index) or [] if row[0] == "register"} if side != "before" else set()
        changed = self.run.changes(index, "registers") if side == "after" else lost
        wanted = []
        for number in self.run.written:
            tag, text = state.register(number)
            word, is_null, has_lost = Word(text), not tag and text == NULL_WORD, number in lost and not tag
            used = number in self.run.registers_used(index)
            told = ", ".join(filter(None, ["used" if used else "", "tag taken" if has_lost else "changed" if number in changed else ""]))
            wanted.append([str(number), str(int(tag)), text, number in changed, used, str(int(tag)), told, "tag" if tag else "lost",
                           None if is_null else hexadecimal(word.address),
                           None if is_null else f"{word.base:#x} to {word.top:#x}",
                           None if is_null else f"bounds {word.base:#x} to {word.top:#x}, base {self.place(state, word.base)}",
                           None if is_null else self.bar(word)])
        self.check(f"{name}: registers", rounded(rows), rounded(wanted))

    def bar(self, word):
        """Where the bounds stand in a register's small bar, which shows the part of the heap that is used."""
        low, high = max(word.base, self.run.base), min(word.top, self.run.base + 16 * self.run.used)
        if low >= high:
            return None
        x, end = (3 + (address - self.run.base) / 16 / self.run.used * 159 for address in (low, high))
        return [x, max(end - x, 3)]

    def place(self, state, base):
        block = state.block_of(base)
        if block:
            return f"in the {NAMES[state.blocks[block]]} block of {state.name(block)}, {block[0]:#x} to {block[1]:#x}"
        return "in free bytes" if self.run.base <= base < self.run.base + 4096 * self.run.pages else "outside of the heap"

    def compare_taken(self, name, index, seen, side):
        """The table has what was taken on every side, the map its lines before the pass and once it is done, and no longer."""
        rows, sides = self.run.taken(index), self.run.sides(index)
        named = {"before": "before", "between": "after the sweep", "after": "after the malloc" if "between" in sides else "after"}
        self.check(f"{name}: the sides", seen["sides"], [] if rows is None else [named[side]])
        rows = rows or []
        self.check(f"{name}: what was taken had a tag, and its base lies in a block in quarantine",
                   [row[2] for row in rows if not row[3] or row[5] is None or self.run.before(index).blocks[row[5]] == "live"], [])
        self.check(f"{name}: tags taken, with the reasons", seen["taken"], [
            [called, hexadecimal(word.address), hexadecimal(word.base), f"{self.run.before(index).name(block)}, {block[0]:#x} to {block[1]:#x}"] for _, _, called, _, word, block in rows])
        rows = [] if side == "after" and "between" in sides else rows
        self.check(f"{name}: a line for each", [reason for reason, _ in seen["reasons"]], [f"{row[2]} {block_key(row[5])}" for row in rows])
        chips = {called: box for called, box, _ in seen["chips"]}
        self.check(f"{name}: a sign for each register", [[called, kind] for called, _, kind in seen["chips"]],
                   [[row[2], "tag" if side == "before" else "lost"] for row in rows if row[0] == "register"])
        for row, (_, (start, end)) in zip(rows, seen["reasons"]):
            base = (row[4].base - self.run.base) / 16
            shape = seen["shape"]
            x, y = shape["gutter"] + base % shape["columns"] * shape["width"], self.row(shape, base)
            self.check(f"{name}: the line of {row[2]} ends at the base", [abs(end[0] - x) < 3, -1 < end[1] - y < shape["height"] / 2], [True, True])
            if row[0] == "granule":
                self.check(f"{name}: the line of {row[2]} begins at the word", self.is_in_cell(seen, row[1], [*start, 0, 0]), True)
            else:
                left, top, width, height = chips[row[2]]
                at = start[0], start[1] + shape["top"]
                self.check(f"{name}: the line of {row[2]} begins at its sign", left <= at[0] <= left + width and top <= at[1] <= top + height + 1, True)

    def side(self, name, index, side, seen):
        """What is shown before a pass, or between that and the rest of its step."""
        self.compare_state(name, index, self.run.sides(index)[side], seen, side)
        self.compare_taken(name, index, seen, side)
        changed = [] if side == "before" else self.run.changes(index, "granules")
        self.check(f"{name}: changed granules", [place for place, _ in sorted(seen["rings"])], changed)

    def compare_shown(self, name, index, state, seen):
        """What the inspector and the map show of the word that the step is about."""
        followed = self.run.followed(index)
        if followed is None:
            self.check(f"{name}: shown", seen["shown"], "Shown is null, as nothing is chosen, without a tag.")
            return
        kind, number = followed
        tag, text = state.register(number) if kind == "register" else state.granule(number)
        called, word = f"c{number}" if kind == "register" else f"the granule at {self.run.base + 16 * number:#x}", Word(text)
        self.check(f"{name}: shown", seen["shown"], f"Shown is {called}, {'tagged' if tag else 'without a tag'}.")
        compare_word(self.check, name, word, seen)
        compare_try(self.check, name, word, word.address, seen)
        about = f"{called}: the base {word.base:#x} lies {self.place(state, word.base)}. " if tag else f"{called} has no tag: 16 bytes of data. "
        self.check(f"{name}: where its base lies", seen["detail"].startswith(about), text != NULL_WORD)
        if not hidden_by(self.run, index):  # of null there are none
            self.check(f"{name}: broken lines where it has no tag", seen["broken"], None if seen["bounds"] is None else not tag)
        end = self.run.base + 16 * seen["shape"]["shown"]
        hidden = hidden_by(self.run, index)
        is_null = not tag and text == NULL_WORD
        hidden = hidden or is_null  # which has all addresses for bounds, and so none to speak of
        self.check(f"{name}: its bounds on the map", seen["bounds"],
                   f"{word.base:#x} {word.top:#x}" if not hidden and max(word.base, self.run.base) < min(word.top, end) else None)
        is_data = not tag and not is_null
        self.check(f"{name}: data is headed so, and told as text", [seen["heading"], seen["asText"]],
                   ["If these bytes were a capability", "As text: " + page_model.text_of(text)] if is_data else [None, None])
        both = [("base, address", word.base)] if word.base == word.address else [("base", word.base), ("address", word.address)]
        pins = [] if hidden else [(pin, address) for pin, address in both if self.run.base <= address < end]
        self.check(f"{name}: base and address on the map", [pin for pin, *_ in seen["pins"]], [pin for pin, _ in pins])
        for (pin, address), (_, at, note) in zip(pins, seen["pins"]):
            shape, place = seen["shape"], (address - self.run.base) / 16
            x, y = shape["gutter"] + place % shape["columns"] * shape["width"], self.row(shape, place)
            self.check(f"{name}: the {pin} stands in its cell", [0 <= at[0] - x < shape["width"], 0 < at[1] - y < shape["height"]], [True, True])
            self.check(f"{name}: the word {pin} stands in its row", 0 < note[1] - y < shape["height"], True)

    def areas(self, name, index, found):
        """Each granule lies in the area of its own block and in no other, and in the bounds chosen where they have it."""
        state, (bounds, granules) = self.run.states[index], found
        wanted = [[block_key(block) for block in state.blocks if block[0] <= self.run.base + 16 * place < block[1]] for place, *_ in granules]
        self.check(f"{name}: areas", [(place, got, want) for (place, got, _), want in zip(granules, wanted) if got != want], [])
        if bounds:
            base, top = (int(bound, 16) for bound in bounds.split())
            whole = [(place, is_in) for place, _, is_in in granules if not any(0 < edge - self.run.base - 16 * place < 16 for edge in (base, top))]
            self.check(f"{name}: the area of the bounds", [place for place, is_in in whole if is_in != (base <= self.run.base + 16 * place < top)], [])

    def is_in_cell(self, seen, place, box):
        shape, (x, y, width, height) = seen["shape"], box
        left, top = shape["gutter"] + place % shape["columns"] * shape["width"], self.row(shape, place)
        return left <= x and x + width <= left + shape["width"] and top <= y and y + height <= top + shape["height"]


def hidden_by(run, index):
    """Whether the map shows a pass, and so no bounds of what is followed."""
    return run.taken(index) is not None


def rounded(rows):
    """With the last item, two places on a bar, as whole tenths."""
    return [[*row[:-1], row[-1] and [round(number, 1) for number in row[-1]]] for row in rows]


def compare_word(check, name, word, seen):
    names = {0: "GLOBAL", 2: "LOAD", 3: "STORE", 4: "LOAD_CAPABILITY", 5: "STORE_CAPABILITY"}
    permissions = ", ".join(names.get(bit, f"bit {bit}") for bit in range(16) if word.permissions >> bit & 1) or "none"
    check(f"{name}: what its word means", seen["meaning"], [
        ["address", hexadecimal(word.address)], ["base", hexadecimal(word.base)], ["top", hexadecimal(word.top)],
        ["length", grouped(word.top - word.base) if word.top >= word.base else "none: the top is below the base"],
        ["exponent", str(word.exponent)], ["permissions", permissions]])
    check(f"{name}: its fields", seen["fields"], [hexadecimal(word.permissions), str(word.reserved), str(word.flag), hexadecimal(word.type), str(word.internal),
                                                  hexadecimal(word.top_field), hexadecimal(word.base_field)])
    pieces = [word.text[at:at + 2] for at in range(0, 32, 2)]
    check(f"{name}: its bytes", seen["bytes"], [" ".join(pieces[:8]), " ".join(pieces[8:]), f"{word.stored:016x}", f"{page_model.NULL_METADATA:016x}",
                                               f"{word.stored ^ page_model.NULL_METADATA:016x}"])
    told = [f"= {word.exponent}" if word.internal else "E = 0", f"B = {word.base_mantissa:#x}.", f"T = {word.top_mantissa:#x}.", f"2^{word.exponent + 14} "]
    check(f"{name}: E, B, T and the window's size", [part for part in told if part not in seen["steps"]], [])
    low, end = word.low % 2**64, (word.low + (1 << word.exponent + 14)) % 2**64
    edges = ["all addresses keep the bounds"] if word.exponent >= 50 else [f"low {low:#x}", f"end {end:#x}"]
    check(f"{name}: the window", seen["edges"][:len(edges) + 2], [*edges, f"base {word.base:#x}", f"top {word.top:#x}"])


def compare_try(check, name, word, address, seen):
    there, keeps = Word(word.text, address), word.keeps_bounds_at(address)
    begin = f"{'✓ The bounds stay' if keeps else '✗ The bounds would change'} at {address:#x}: {there.base:#x} to {there.top:#x}. "
    check(f"{name}: its bounds at {address:#x}", [seen["verdict"][:len(begin)], seen["exact"], seen["edges"][-1], "bounds there" in seen["edges"]],
          [begin, hexadecimal(address), f"address {address:#x}", not keeps])
