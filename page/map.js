// The map of the heap. It is made anew where its shape changes; from step to step only what a step touched is drawn again.

import { build, clamp, code, element, hex, shape } from './dom.js';
import { nameOf, rangeOf, reasonOf, stateName } from './cursor.js';
import { passage, said, say } from './say.js';

export function addMap(viewer) {
  const { run, view, byId, cursor: state } = viewer;

  const map = { shape: null, sheets: [], layers: {}, blocks: new Map(), marks: new Map(), names: new Map(), covered: [], edges: new Map(),
    fresh: [], lost: new Set(), strips: [], stale: new Set(),
    part: { left: 0, top: 0, width: 0, height: 0 } };

  const DRAWN_REASONS = 64, TOLD_TAGS = 200; // of the tags that a pass took: on the map, and in the table below it
  const SMALL = 14; // cells narrower than this have finer lines
  const LAYERS = ['grid', 'released', 'blocks', 'pages', 'looked', 'marks', 'changes', 'reasons', 'chosen', 'names', 'cursors'];
  const LOWER = ['grid', 'blocks', 'pages', 'marks']; // of a dense map

  function remakeMap() {
    const L = map.shape = viewer.shapeOfMap();
    map.blocks.clear();
    map.marks.clear();
    map.names.clear();
    map.covered = [];
    map.fresh = [];
    map.lost = new Set();
    map.chips = shape('g');
    for (const name of LAYERS) map.layers[name] = shape('g', { class: name });
    makeSheets(L);
    map.cursor = shape('rect', { class: 'cursor', width: L.width - 1, height: L.height - 1 });
    map.layers.cursors.append(map.cursor);
    drawGrid(L);
    drawPages(L);
    viewer.makeStrips();
    for (const block of state.blocks.values()) drawBlock(block);
    state.granules.forEach((cell, place) => { if (!cell.isNull) drawMark(place); });
    byId('map').replaceChildren(...map.sheets);
    drawOverlays(L);
    keepPart();
  }

  // Over a dense map what comes and goes with a step lies on a sheet of its own, so that the many blocks need not be painted again.
  function makeSheets(L) {
    const sheet = (kind, before, names, ...after) => shape('svg', { width: L.wide, class: `${L.width < SMALL ? 'small' : ''} ${kind}`.trim() || null,
      'aria-hidden': 'true' }, before, shape('g', {}, ...names.map(name => map.layers[name])), ...after);
    map.sheets = run.isDense
      ? [sheet('', viewer.patterns(), LOWER), sheet('upper', null, LAYERS.filter(name => !LOWER.includes(name)), map.chips)]
      : [sheet('', viewer.patterns(), LAYERS, map.chips)];
  }

  function drawGrid(L) {
    const { grid } = map.layers, n = L.columns;
    for (const part of L.parts) drawPart(L, part);
    const every = L.width >= 12 * L.scale ? 4 : 16;
    for (let column = every; column < n; column += every) {
      grid.append(shape('text', { x: L.gutter + column * L.width, y: -6 * L.scale }, '+' + (column * 16).toString(16)));
    }
    const rest = shape('text', { x: L.right, y: L.bottom + 16 * L.scale, class: 'row' }, said('… free up to {0}', hex(run.heapEnd())));
    if (L.shown < run.granules) grid.append(rest);
  }

  // Its cells, and the addresses of its rows where there is room: in the middle of each, so that a pin at its foot is nearer to it than to the next.
  function drawPart(L, { first, top, bottom }) {
    let lines = `M${L.gutter} ${top}H${L.right}V${bottom}H${L.gutter}Z`;
    if (L.height >= 7) for (let y = top; y <= bottom; y += L.height) lines += `M${L.gutter} ${y}H${L.right}`;
    if (L.width >= 7) for (let column = 0; column <= L.columns; column++) lines += `M${L.gutter + column * L.width} ${top}V${bottom}`;
    map.layers.grid.append(shape('path', { d: lines }));
    for (let y = top; y < bottom; y += Math.ceil(13 * L.scale / L.height) * L.height) {
      const place = first + (y - top) / L.height * L.columns, low = y + L.height / 2 + 4 * L.scale;
      map.layers.grid.append(shape('text', { x: L.gutter - 6, y: low, class: 'row' }, hex(run.addressOf(place))));
    }
  }

  // What stands for pages that are left out, in as many words as there is room for.
  function gapShape(L, { first, end, top, bottom }) {
    const named = said('pages {0} to {1}', first, end - 1), room = L.right - L.gutter - 8, middle = (top + bottom) / 2;
    const told = [said('{0}: nothing begins, ends or is written here', named), said('{0} left out', named), named, '…'].find(text => text.length * L.letter <= room);
    return shape('g', { class: 'gap', 'data-gap': `${first} ${end}` },
      shape('path', { d: `M${L.gutter} ${top + 3}H${L.right}M${L.gutter} ${bottom - 3}H${L.right}` }),
      shape('text', { x: (L.gutter + L.right) / 2, y: middle + 4 * L.scale }, told));
  }

  // Each page at the edge of its rows: its name, where there is room, and a band that is hatched while it is dirty.
  function drawPages(L) {
    const every = Math.ceil(13 * L.scale * L.columns / (256 * L.height));
    let lines = '';
    map.edges = new Map();
    for (let page = 0; page * 256 < L.shown; page++) {
      if (L.gapOf[page]) continue;
      const y = viewer.spotOf(L, page * 256)[1], height = Math.min(256 / L.columns * L.height, L.bottom - y), x = L.right + 3;
      const name = page % every === 0 ? shape('text', { x: x + 14, y: y + Math.min(height / 2 + 4, Math.max(12, L.height / 2 / L.scale + 4) * L.scale) }, said('page {0}', page)) : null;
      const box = { x, y: y + .5, width: 10, height: Math.max(height - 1, 1) };
      map.edges.set(page, shape('g', { 'data-page': page }, shape('rect', { class: 'band', ...box }), shape('rect', { class: 'hatch', ...box }), name));
      if (page && L.height * 256 / L.columns > 12) lines += `M${L.gutter} ${y}H${L.right}`;
    }
    map.layers.pages.append(shape('path', { d: lines }), ...map.edges.values(), ...L.gaps.map(gap => gapShape(L, gap)));
  }

  // What is dirty is hatched, and the pages at which this step looks are shaded.
  function drawDirty(L) {
    for (const [page, edge] of map.edges) edge.classList.toggle('dirty', state.dirty.has(page));
    const seen = state.lookedAt(run.steps[view.step]).filter(page => page * 256 < L.shown);
    map.layers.looked.replaceChildren(...seen.map(page => {
      const end = Math.min((page + 1) * 256, L.shown);
      return shape('path', { 'data-looked': page, d: viewer.areaOf(L, page * 256, end, 0) });
    }));
  }

  // The name of a block in its first row or in its second one, above all that a step draws; none where it isn't whole there.
  function nameIn(L, { start, end, key }, name, kind) {
    const n = L.columns, second = Math.ceil(start / n) * n;
    const longer = second < end && viewer.isShown(L, second) && Math.min(end, second + n) - second > second - start;
    const place = longer ? second : start, room = Math.min(end - place, n - place % n) * L.width, length = name.length * L.letter;
    if (!L.hasNames || !viewer.isShown(L, place) || room < length + 8) return null;
    const [left, top] = viewer.spotOf(L, place), text = shape('text', { x: left + 4, y: top + L.height - 4, class: kind, 'data-named': key }, name);
    map.layers.names.append(text);
    return { text, top, left: left + 4, right: left + 4 + length, isHigh: false };
  }

  // Of a block that ended, in the part of it that nobody has yet.
  function nameEnded(L, block) {
    let { start } = block;
    while (start < block.end && state.ownerAt(start)) start = state.ownerAt(start).end;
    let end = start;
    while (end < Math.min(block.end, start + 2 * L.columns) && !state.ownerAt(end)) end++; // no name goes further
    return start < end ? nameIn(L, { start, end, key: block.key }, said('was held'), 'released') : null;
  }

  // The pattern over the colour; a block just set free has a faint one, since it is the reason for the tags that went.
  function overOf(name, d) {
    const pattern = { waiting: 'waiting', painted: 'painted', released: 'waiting' }[name];
    return pattern ? shape('path', { class: 'over', fill: `url(#${pattern}-pattern)`, d }) : null;
  }

  // Of one block, or of many without their names.
  function blockShape(L, blocks, name) {
    const d = blocks.map(block => viewer.areaOf(L, block.start, block.end, L.width < SMALL ? .5 : 1.5)).join(''), [block] = blocks;
    return shape('g', { class: 'block ' + name, 'data-block': blocks.length === 1 ? block.key : null, 'data-state': name },
      shape('path', { class: 'fill', d }), overOf(name, d));
  }

  function drawBlock(block) {
    if (run.isDense) return map.stale.add(Math.floor(block.start / viewer.STRIP));
    for (const old of [map.blocks.get(block), map.names.get(block)?.text]) old?.remove();
    map.blocks.delete(block);
    map.names.delete(block);
    if (block.state === null || block.start >= map.shape.shown) return;
    const drawn = blockShape(map.shape, [block], block.state);
    map.blocks.set(block, drawn);
    map.layers.blocks.append(drawn);
    const name = nameIn(map.shape, block, stateName(block.state), block.state);
    if (name) map.names.set(block, name);
  }

  // The middle of a mark, and how far it reaches: above a name, where rows have room for these.
  function spotOfMark(L, place) {
    const [left, top] = viewer.spotOf(L, place), room = L.height - 4 - 8.3 * L.scale, most = Math.min(L.width, L.height) * .26;
    const size = clamp(L.hasNames ? Math.min(most, (room - 1) / 2) : most, 2, 6.5 * L.scale);
    return [left + L.width / 2, top + (L.hasNames ? Math.min(L.height * .33, room - size) : L.height / 2), size];
  }

  // A granule's mark: a tag, one just taken, or bytes that are not all zero.
  function drawMark(place) {
    if (run.isDense) return map.stale.add(Math.floor(place / viewer.STRIP));
    const L = map.shape, wasTaken = map.lost.has(place), cell = state.granules[place], old = map.marks.get(place);
    if (old) old.remove();
    map.marks.delete(place);
    if (cell.isNull && !wasTaken) return;
    const [x, y, size] = spotOfMark(L, place);
    const told = { 'data-granule': place, 'data-tag': cell.tag ? 1 : 0 }, side = size * 1.4;
    const mark = cell.tag || wasTaken ? viewer.tagMark(x, y, size, cell.tag, told)
      : shape('rect', { class: 'data', x: x - size * .7, y: y - size * .7, width: side, height: side, ...told });
    map.marks.set(place, mark);
    map.layers.marks.append(mark);
  }

  function drawMap() {
    const L = map.shape;
    for (const place of map.lost) state.touched.granules.add(place);
    map.lost.clear();
    for (const block of state.touched.blocks) drawBlock(block);
    for (const place of state.touched.granules) drawMark(place);
    drawOverlays(L);
  }

  // What stands out at this step, and goes at the next.
  function drawOverlays(L) {
    const step = run.steps[view.step], now = view.side === 'after', passed = step.taken && view.side !== 'before';
    for (const drawn of map.fresh) drawn.classList.remove('new');
    const { released, changes, reasons, chosen, names } = map.layers;
    for (const layer of [released, changes, reasons, chosen, map.chips]) layer.replaceChildren();
    for (const name of names.querySelectorAll('.released')) name.remove();
    map.fresh = now ? step.blocks.flatMap(({ block }) => [map.blocks.get(block), map.names.get(block)?.text]).filter(Boolean) : [];
    for (const drawn of map.fresh) drawn.classList.add('new');
    map.lost = new Set(passed ? step.taken.rows.filter(row => row.kind === 'granule').map(row => row.place) : []);
    map.lost.forEach(drawMark);
    viewer.drawStrips();
    const ended = now ? step.blocks.filter(change => change.now === null).map(change => change.block) : passed ? step.taken.due : [];
    released.append(...viewer.together(ended).map(blocks => blockShape(L, blocks, 'released')));
    const endedNames = run.isDense ? [] : ended.map(block => nameEnded(L, block)).filter(Boolean);
    if (now && run.isDense) viewer.drawFresh(step.blocks.map(change => change.block));
    if (view.side !== 'before') changes.append(...viewer.together(step.granules).map(those => ringsOf(L, those.map(change => change.place))));
    drawDirty(L);
    // A malloc may hand out the blocks to which the lines go, so it has none once that is done.
    const isPass = step.taken && (view.side === 'before' || view.side === viewer.passedSide(step));
    const chips = isPass ? drawLines(L, step.taken.rows, row => reasonOf(step.taken, row), view.side === 'before')
      : view.pointers ? drawLines(L, pointersShown(), row => state.ownerOf(row.cell.meaning.base), true) : 0;
    const kept = view.present ? Math.min(run.most, 1) : Math.ceil(run.most / L.chipsInRow); // so that the map stays in its place at a pass
    const bands = Math.max(Math.ceil(chips / L.chipsInRow), kept);
    placeBody(L, (bands ? viewer.CHIP.height * L.scale * bands + 8 : 0) + L.head);
    const shown = viewer.chosenCell();
    for (const name of map.covered) name.text.removeAttribute('visibility');
    map.covered = [];
    if (shown && !(view.follow && step.taken)) drawChosen(L, shown.cell, [...map.names.values(), ...endedNames]);
    fitLegend();
    placeCursor();
  }

  function placeBody(L, top) {
    const height = top + L.bottom + L.foot, viewBox = `0 0 ${L.wide} ${height}`;
    map.top = top;
    if (map.sheets[0].getAttribute('viewBox') === viewBox) return; // else the browser would lay all of it out again
    for (const sheet of map.sheets) {
      sheet.querySelector(':scope > g').setAttribute('transform', `translate(0 ${top})`);
      build(sheet, { height, viewBox }, []);
    }
  }

  function ringsOf(L, places) {
    const width = Math.max(L.width - 3, 2), height = Math.max(L.height - 3, 2), corners = places.map(place => viewer.spotOf(L, place));
    const d = corners.map(([x, y]) => viewer.cornersOf(x + 1.5, y + 1.5, width, height)).join('');
    return shape('g', { 'data-changed': places.join(' ') }, shape('path', { class: 'casing', d }), shape('path', { class: 'changed', d }));
  }

  // The tagged words whose base lies in a block: in that of the granule that the reader has chosen, or else in any.
  function pointersShown() {
    const block = !view.follow && view.chosen && view.chosen.kind === 'granule' ? state.ownerAt(view.chosen.place) : null;
    const ownerOfRow = row => state.ownerOf(row.cell.meaning.base);
    return state.taggedRows().filter(row => (block ? ownerOfRow(row) === block : ownerOfRow(row) !== null));
  }

  function togglePointers() {
    view.pointers = !view.pointers;
    byId('pointers').setAttribute('aria-pressed', String(view.pointers));
    viewer.draw(false);
  }

  // A line on the sheet from each word, a chip for a register, to its base in a block: of words whose tag went, in the block that is the reason.
  // Answers how many chips there are.
  function drawLines(L, rows, blockOf, isTagged) {
    const shown = rows.slice(0, DRAWN_REASONS), chipCount = shown.filter(row => row.kind === 'register').length;
    const top = Math.ceil(chipCount / L.chipsInRow) * viewer.CHIP.height * L.scale + 8 + L.head;
    let chips = 0;
    for (const row of shown) {
      const block = blockOf(row);
      if (!block) continue;
      const [bx, by] = viewer.spotOf(L, run.granulesTo(row.cell.meaning.base)), end = [bx + 1, by + 2];
      let start, bend;
      if (row.kind === 'register') {
        const x = L.gutter + (chips % L.chipsInRow) * viewer.CHIP.width * L.scale;
        const y = 2 + Math.floor(chips / L.chipsInRow) * viewer.CHIP.height * L.scale;
        chips++;
        map.chips.append(chipOf(row, x, y, L.scale, isTagged));
        start = [x + 27 * L.scale, y + 24 * L.scale - top];
        bend = [start[0], start[1] + 26, end[0], end[1] - 40];
      } else {
        const [x, y] = viewer.spotOf(L, row.place);
        start = [x + L.width / 2, y + 3];
        const high = y => Math.max(y, 4 - top);
        bend = [start[0], high(start[1] - L.height * 1.3), end[0] + L.width * .5, high(end[1] - L.height * 1.5)];
      }
      map.layers.reasons.append(shape('path', { class: 'reason', d: `M${start}C${bend.slice(0, 2)} ${bend.slice(2)} ${end}`,
        'marker-end': 'url(#arrow)', 'data-reason': `${row.name} ${block.key}` }));
    }
    return chipCount;
  }

  function chipOf(row, x, y, scale, isTagged) {
    return shape('g', { 'data-taken': row.name }, shape('rect', { class: 'chip', x, y, width: 54 * scale, height: 24 * scale, rx: 6 }),
      shape('text', { class: 'name', x: x + 7 * scale, y: y + 16 * scale }, row.name),
      viewer.tagMark(x + 41 * scale, y + 12 * scale, 5 * scale, isTagged));
  }

  // The bounds of the word that is chosen, with its base and its address: broken lines where it has no tag. Null has no bounds
  // to speak of: all addresses.
  function drawChosen(L, { tag, meaning, isNull }, names) {
    if (isNull) return;
    const layer = map.layers.chosen, inside = viewer.shownPart(L, meaning.base, meaning.top);
    if (inside) {
      const told = `${hex(meaning.base)} ${hex(meaning.top)}`, d = viewer.areaOf(L, ...inside, 0);
      layer.append(shape('path', { class: 'casing', d }), shape('path', { class: tag ? 'pick' : 'pick off', d, 'data-bounds': told }));
    }
    const isBoth = meaning.base === meaning.address, named = [[isBoth ? said('base, address') : said('base'), meaning.base, true], [said('address'), meaning.address, false]];
    const isThere = ([, address]) => run.isInHeap(address) && viewer.isShown(L, run.granulesTo(address));
    const pins = named.slice(0, isBoth ? 1 : 2).filter(isThere).map(([name, address, isHigh]) => drawPin(L, name, run.granulesTo(address), isHigh));
    const others = [...names, ...pins];
    for (const pin of pins) others.push(drawNote(L, pin, others));
    for (const name of names.filter(each => others.some(other => other !== each && isCovered(each, other)))) {
      name.text.setAttribute('visibility', 'hidden');
      map.covered.push(name);
    }
  }

  // A row has room for notes above and below, or for one line of them.
  const hasBoth = L => L.height >= 23 * L.scale;

  // In the upper or the lower corner of its cell.
  function drawPin(L, name, place, isHigh) {
    const [left, top] = viewer.spotOf(L, place), corner = clamp(Math.min(L.width, L.height) * .45, 2, 12), y = isHigh ? top : top + L.height;
    map.layers.chosen.append(shape('path', { class: 'pin', d: `M${left} ${y}h${corner}l${-corner} ${isHigh ? corner : -corner}Z` }));
    return { name, top, left, right: left + corner, isHigh: isHigh && hasBoth(L) };
  }

  const isCovered = (one, other) => one.top === other.top && one.isHigh === other.isHigh && one.left < other.right + 3 && other.left < one.right + 3;

  // What a pin is called stands in its row, whatever the row has above and below.
  function drawNote(L, pin, others) {
    const length = pin.name.length * L.letter, low = L.hasNames ? L.height - 4 : L.height / 2 + 4 * L.scale;
    const at = (left, isHigh) => ({ top: pin.top, left, right: left + length, isHigh, y: pin.top + (isHigh ? 10 * L.scale : low) });
    const isLate = pin.right + 3 + length > L.right, beside = at(isLate ? Math.max(pin.left - 3 - length, L.gutter) : pin.right + 3, pin.isHigh);
    const across = hasBoth(L) ? [at(Math.min(pin.left + 2, L.right - length), !pin.isHigh)] : [];
    const note = roomForNote(L, [beside, ...across], (place, left) => at(left, place.isHigh), others);
    map.layers.chosen.append(shape('text', { class: 'pinned', x: note.left, y: note.y }, pin.name));
    return note;
  }

  // Of the places beside a pin the first that covers nothing; or else the nearest behind names and marks, but not behind another pin, which
  // would seem to have it; or else one that covers names, which go then, or marks; and where it would cover a pin, behind all.
  function roomForNote(L, places, moved, others) {
    const [, middle, reach] = spotOfMark(L, 0), isByMarks = ({ isHigh }) => !L.hasNames || isHigh && middle - reach < 12 * L.scale;
    const endOfMarks = note => (isByMarks(note) ? endOfMark(L, note) : undefined), names = others.filter(each => each.text);
    const isInRow = note => note.right <= L.right, isFree = note => isInRow(note) && !others.some(each => !each.text && isCovered(each, note));
    const behind = (note, texts, mayStand) => {
      const endCovered = () => texts.find(each => isCovered(each, note))?.right ?? endOfMarks(note);
      for (let end = endCovered(); end !== undefined && mayStand(note); end = endCovered()) note = moved(note, end + 6);
      return note;
    };
    const free = places.filter(isFree), found = free.map(note => behind(note, names, isFree)).filter(isFree);
    return found.find(note => free.includes(note)) ?? found.sort((one, other) => one.left - other.left)[0] ??
      free.find(note => endOfMarks(note) === undefined) ?? free[0] ?? [behind(places[0], others, isInRow)].find(isInRow) ?? places[0];
  }

  // Where the cell of the first mark ends that a note in its row would cover.
  function endOfMark(L, { top, left, right }) {
    const part = L.parts.find(each => each.top <= top && top < each.bottom), row = part.first + (top - part.top) / L.height * L.columns;
    const [first, last] = [left, right].map(x => clamp(Math.floor((x - L.gutter) / L.width), 0, L.columns - 1));
    for (let column = first; column <= last; column++) {
      if (!state.granules[row + column].isNull || map.lost.has(row + column)) return L.gutter + (column + 1) * L.width;
    }
    return undefined;
  }

  // To what the step changed, where it is out of sight.
  function scrollMap(L) {
    const step = run.steps[view.step];
    const place = step.granules.length ? step.granules[0].place : step.blocks.length ? step.blocks[0].block.start : null;
    if (place !== null) bringPlaceIntoView(L, place);
  }

  // The part of the map that is in sight. Of a dense one it is kept, since to ask for it costs a layout.
  function keepPart() {
    const box = byId('map');
    map.part = { left: box.scrollLeft, top: box.scrollTop, width: box.clientWidth, height: box.clientHeight };
  }

  // Each way only where the map is larger than its box.
  function bringPlaceIntoView(L, place) {
    if (!run.isDense || view.present || view.embed) keepPart();
    const [x, up] = viewer.spotOf(L, place), y = up + map.top, box = byId('map'), { part } = map;
    if (L.full > view.mapWidth && (x < part.left || x + L.width > part.left + part.width)) box.scrollLeft = part.left = Math.max(x - part.width / 3, 0);
    if (L.bottom + map.top < view.mapHeight) return;
    if (y < part.top || y + L.height > part.top + part.height) box.scrollTop = part.top = Math.max(y - part.height / 3, 0);
  }

  function placeCursor() {
    const isShown = view.cursor !== null && viewer.isShown(map.shape, view.cursor), [x, y] = viewer.spotOf(map.shape, isShown ? view.cursor : 0);
    build(map.cursor, { x: x + .5, y: y + .5, visibility: isShown ? 'visible' : 'hidden' }, []);
    drawDetail();
  }

  const IN_BLOCK = { live: (name, range) => said('in the live block of {0}, {1}', name, range),
    waiting: (name, range) => said('in the held block of {0}, {1}', name, range), painted: (name, range) => said('in the painted block of {0}, {1}', name, range) };

  function placeOfBase(base) {
    const block = state.ownerOf(base);
    if (block) return IN_BLOCK[block.state](nameOf(block), rangeOf(block));
    return run.isInHeap(base) ? said('in free bytes') : said('outside of the heap');
  }

  function aboutChosen() {
    const shown = viewer.chosenCell();
    if (!shown || shown.cell.isNull) return [];
    const { base } = shown.cell.meaning, name = element('b', {}, shown.name);
    return [...(shown.cell.tag ? say('{0}: the base {1} lies {2}.', name, hex(base), placeOfBase(base)) : say('{0} has no tag: 16 bytes of data.', name)), ' '];
  }

  function drawDetail() {
    const box = byId('detail'), place = view.cursor;
    box.classList.toggle('touched', place !== null);
    if (place === null) {
      const hint = said('Point at a granule, or go there by the arrow keys, to see what it holds.');
      box.replaceChildren(...aboutChosen(), element('span', { class: 'muted' }, hint));
      return;
    }
    const cell = state.granules[place], block = state.ownerAt(place), { meaning } = cell;
    const granule = [element('b', {}, said('Granule {0} at {1}', place, hex(run.addressOf(place)))), block ? placeOfBase(run.addressOf(place)) : said('free')];
    const bytes = code(cell.word.match(/.{1,8}/g).join(' '));
    const told = passage(cell.tag ? say('{0}, {1}. Tagged.', ...granule) : say('{0}, {1}. No tag.', ...granule),
      cell.tag || cell.isNull ? say('Bytes {0}.', bytes) : say('Bytes {0}, as text {1}.', bytes, code(viewer.textOfBytes(cell.word))),
      cell.tag && say('A capability of {0} to {1}, address {2}; its base lies {3}.', code(hex(meaning.base)), code(hex(meaning.top)),
        code(hex(meaning.address)), placeOfBase(meaning.base)));
    box.replaceChildren(...told);
  }

  // Each mark with its name, what more there is to say of it where there is room, and where the map has it.
  function drawLegend() {
    const sample = (name, more, where, ...marks) => element('li', { 'data-where': where },
      shape('svg', { width: 26, height: 18, 'aria-hidden': 'true' }, ...marks), element('span', {}, name, element('span', { class: 'more' }, ...more)));
    const box = name => shape('g', { class: 'block ' + name }, shape('path', { class: 'fill', d: 'M1 1H25V17H1Z' }),
      overOf(name, 'M1 1H25V17H1Z'));
    const used = new Set(run.steps.flatMap(step => step.blocks.map(change => change.now)));
    byId('legend').replaceChildren(sample(said('live'), [], '.blocks .live .fill', box('live')), sample(said('held'), [': ', said('waits in quarantine')], '.blocks .waiting .fill', box('waiting')),
      ...(used.has('painted') ? [sample(said('painted'), [': ', said('held, and this epoch is about it')], '.blocks .painted .fill', box('painted'))] : []),
      sample(said('was held'), [', ', said('and is free now')], '.released .fill', box('released')), sample(said('tagged'), [], '.tag', viewer.tagMark(13, 9, 6, true)),
      sample(said('tag taken'), [' ', said('just now')], '.lost', viewer.tagMark(13, 9, 6, false)),
      sample(said('data'), [', ', said('no tag')], '.data', shape('rect', { class: 'data', x: 9, y: 5, width: 8, height: 8 })),
      sample(said('changed'), [' ', said('by this step')], '.changed', shape('path', { class: 'changed', d: viewer.cornersOf(4, 2, 18, 14) })),
      sample(said('bounds'), [' ', said('of what is chosen')], '.pick', shape('rect', { class: 'pick', x: 3, y: 3, width: 20, height: 12 })),
      sample(said('dirty page'), [': ', said('a tagged word was stored there')], '.dirty', shape('g', { class: 'dirty' },
        ...['band', 'hatch'].map(kind => shape('rect', { class: kind, x: 8, y: 1, width: 10, height: 16 })))),
      ...(run.steps.some(step => step.words[0] === 'end')
        ? [sample(said('page at which an end looks'), [], '.looked path', shape('path', { class: 'looked', d: 'M1 1H25V17H1Z' }))] : []));
  }

  // On the screen for a class the legend is of what the map has, each name whole, as far as the line goes.
  function fitLegend() {
    const box = byId('legend'), isThere = where => map.sheets.some(sheet => sheet.querySelector(`${where}:not([d=""])`));
    for (const item of box.children) item.hidden = view.present && !isThere(item.dataset.where);
    if (!view.present) return;
    const low = box.getBoundingClientRect().bottom + 1;
    for (const item of [...box.children].reverse()) if (item.getBoundingClientRect().bottom > low) item.hidden = true;
  }

  Object.assign(viewer, {
    map, DRAWN_REASONS, TOLD_TAGS, SMALL, remakeMap, overOf, blockShape, spotOfMark, drawMap, togglePointers, scrollMap,
    keepPart, bringPlaceIntoView, placeCursor, placeOfBase, drawLegend
  });
}
