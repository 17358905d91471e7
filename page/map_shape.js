// Where things lie on the map: a row has so many granules, and places are counted in granules from the heap's base on.

import { pageOf } from './cursor.js';
import { clamp, element, hex, shape } from './dom.js';
import { said } from './say.js';

export function addMapShape(viewer) {
  const { run, view } = viewer;

  // A register beside the map, with the room around it; the room above the rows and below them; and what stands for pages that are left
  // out: where letters are small.
  const CHIP = { width: 62, height: 30 }, HEAD = 20, FOOT = 20, GAP = 20;

  // Beside the rows stand their addresses, and behind them the pages, with so much room for both.
  const gutterOfMap = letter => hex(run.heapEnd()).length * letter + 16;
  const edgeOfMap = letter => said('page {0}', run.pages - 1).length * letter + 24;

  function shapeOfMap() {
    const scale = view.present ? view.letter / 11 : 1, letter = 11 * scale * view.broad, gutter = gutterOfMap(letter), edge = edgeOfMap(letter);
    const room = view.mapWidth - gutter - edge, sizes = view.present ? largestCells(room, scale) : usualCells(room);
    const { columns, width, height, rowCount } = sizes, right = gutter + columns * width, shown = Math.min(rowCount * columns, run.granules);
    const full = right + edge, chip = CHIP.width * scale, chipsInRow = Math.max(1, Math.floor(((view.present ? view.mapWidth : full) - gutter) / chip));
    return { columns, width, height, gutter, scale, letter, right, shown, ...layOut(columns, height, shown, Math.round(GAP * scale)),
      head: Math.round(HEAD * scale), foot: Math.round(FOOT * scale), full, hasNames: height >= 11 * scale + 9,
      chipsInRow, wide: Math.max(full, gutter + Math.min(run.most, chipsInRow) * chip) };
  }

  // The rows in parts, with a gap between two where pages are left out; and of each page where it begins, and the gap that stands for it.
  function layOut(columns, height, shown, room) {
    const parts = [], gaps = [], tops = [], gapOf = [];
    let bottom = 0, first = 0;
    const addPart = end => {
      parts.push({ first, top: bottom, bottom: bottom + (end - first) / columns * height });
      for (let place = first; place < end; place += 256) tops.push(bottom + (place - first) / columns * height);
      ({ bottom } = parts.at(-1));
    };
    for (const fold of view.whole ? [] : run.folds) {
      addPart(fold.first * 256);
      const gap = { ...fold, top: bottom, bottom: bottom + room };
      gaps.push(gap);
      for (let page = fold.first; page < fold.end; page++) [tops[page], gapOf[page]] = [bottom, gap];
      ({ bottom } = gap);
      first = fold.end * 256;
    }
    addPart(shown);
    return { parts, gaps, tops, gapOf, bottom };
  }

  function usualCells(room) {
    const { columns } = view, width = view.cell || clamp(Math.floor(room / columns), 4, 44);
    const height = width < 14 ? width : width < 24 ? Math.max(20, Math.round(width * 1.3)) : Math.max(30, Math.round(width * .75));
    const all = Math.ceil(run.granules / columns);
    return { columns, width, height, rowCount: view.whole ? all : Math.min(all, Math.max(6, Math.ceil(run.reach / columns) + 2)) };
  }

  // The part that is used, by the row at which its cells come out largest: no narrower than high, and at most twice as wide.
  function largestCells(room, scale) {
    const folded = run.folds.reduce((sum, fold) => sum + fold.end - fold.first, 0);
    const tall = view.mapHeight - (run.most ? CHIP.height * scale + 8 : 0) - Math.ceil((HEAD + FOOT) * scale) - run.folds.length * Math.round(GAP * scale);
    const sizes = [4, 8, 16, 32, 64, 128, 256].map(columns => {
      const rowCount = Math.min(Math.ceil(run.reach / columns), run.granules / columns), height = Math.floor(tall / (rowCount - folded * 256 / columns));
      const width = Math.min(Math.floor(room / columns), height * 2);
      return { columns, rowCount, width: Math.max(width, 2), height: clamp(height, 2, Math.max(width, 2)) };
    });
    return sizes.reduce((best, size) => (size.width * size.height > best.width * best.height ? size : best));
  }

  const isShown = (L, place) => place < L.shown && !L.gapOf[pageOf(place)];

  // What lies on a page that is left out stands in its gap.
  function spotOf(L, place) {
    const page = pageOf(place), row = L.gapOf[page] ? 0 : Math.floor(place % 256 / L.columns);
    return [L.gutter + (place % L.columns) * L.width, L.tops[page] + row * L.height];
  }

  // The outline from one place to another along the rows of the map, over the gaps that lie between; neither lies in one.
  function areaOf(L, start, end, inset) {
    const n = L.columns, last = (Math.ceil(end / n) - 1) * n, [left, y] = spotOf(L, start), Y = spotOf(L, last)[1] + L.height;
    const a = left + inset, b = L.gutter + (end - last) * L.width - inset;
    if (Y - y === L.height) return `M${a} ${y + inset}H${Math.max(b, a + 2)}V${Y - inset}H${a}Z`;
    if (Y - y === 2 * L.height && b <= a) { // two rows that do not touch: open where they are cut
      return `M${L.right} ${y + inset}H${a}V${y + L.height - inset}H${L.right}` +
        `M${L.gutter} ${Y - L.height + inset}H${b}V${Y - inset}H${L.gutter}`;
    }
    const right = L.right - inset;
    return `M${a} ${y + inset}H${right}` + (end % n === 0 ? `V${Y - inset}` : `V${Y - L.height - inset}H${b}V${Y - inset}`) +
      `H${L.gutter + inset}` + (start % n === 0 ? 'Z' : `V${y + L.height + inset}H${a}Z`);
  }

  // Bounds in granules, cut to the heap up to an end; null where nothing is left.
  function clippedTo(end, base, top) {
    const low = base > run.base ? base : run.base, high = top < end ? top : end;
    return low < high ? [run.granulesTo(low), run.granulesTo(high)] : null;
  }

  // Bounds in granules as far as the map shows them: a word that was typed may have an end on a page that is left out.
  function shownPart(L, base, top) {
    const inside = clippedTo(run.addressOf(L.shown), base, top);
    if (!inside) return null;
    const [start, end] = inside, before = L.gapOf[pageOf(start)], after = L.gapOf[pageOf(Math.ceil(end) - 1)];
    const low = before ? before.end * 256 : start, high = after ? after.first * 256 : end;
    return low < high ? [low, high] : null;
  }

  const DIAMOND = (x, y, size) => `M${x} ${y - size}L${x + size} ${y}L${x} ${y + size}L${x - size} ${y}Z`;
  const STROKE = (x, y, size) => `M${x - size - 1} ${y + size + 1}L${x + size + 1} ${y - size - 1}`;

  // The four corners of a box: a ring that is told from bounds without its colour.
  function cornersOf(x, y, width, height) {
    const a = Math.max(Math.min(width, height) * .34, 1), right = x + width, low = y + height;
    return `M${x} ${y + a}V${y}H${x + a}M${right - a} ${y}H${right}V${y + a}M${right} ${low - a}V${low}H${right - a}M${x + a} ${low}H${x}V${low - a}`;
  }

  // A tag is a full diamond, and one just taken a hollow one, struck out.
  function tagMark(x, y, size, tag, attributes = {}) {
    return shape('path', { class: tag ? 'tag' : 'lost', d: DIAMOND(x, y, size) + (tag ? '' : STROKE(x, y, size)), ...attributes });
  }

  function tagSign(tag, wasTaken) {
    const mark = wasTaken || tag ? tagMark(9, 8, 5.5, tag) : shape('path', { class: 'lost', d: DIAMOND(9, 8, 5.5) });
    const picture = shape('svg', { width: 18, height: 16, viewBox: '0 0 18 16', 'aria-hidden': 'true' }, mark);
    return element('span', { class: 'sign' }, picture, tag ? ' 1' : ' 0');
  }

  function patterns() {
    const pattern = (name, size, d) => shape('pattern', { id: name, width: size, height: size, patternUnits: 'userSpaceOnUse' },
      shape('path', { class: name, d }));
    return shape('defs', {}, pattern('waiting-pattern', 7, 'M-1 8L8 -1M-1 1L1 -1M6 8L8 6'), pattern('painted-pattern', 6, 'M0 0L6 6M6 0L0 6'),
      pattern('dirty-pattern', 6, 'M0 1H6M0 4H6'),
      shape('marker', { id: 'arrow', viewBox: '0 0 8 8', refX: 7, refY: 4, markerWidth: 7, markerHeight: 7, orient: 'auto' },
        shape('path', { class: 'arrow', d: 'M0 0L8 4L0 8Z' })));
  }

  Object.assign(viewer, { CHIP, edgeOfMap, shapeOfMap, isShown, spotOf, areaOf, clippedTo, shownPart, DIAMOND, STROKE, cornersOf, tagMark, tagSign, patterns });
}
