// A map of many blocks and marks: each page of the heap has one path for the blocks of each state, and one for each kind of mark,
// and is drawn again as a whole where something in it was touched.

import { STATES } from './cursor.js';
import { build, renew, shape } from './dom.js';

export function addDenseMap(viewer) {
  const { run, cursor: state } = viewer;

  const STRIP = 256; // the granules of a page
  const KINDS_OF_MARK = ['tag', 'lost', 'data'];

  // What is drawn as one element: each by itself, or all together.
  const together = things => (!run.isDense ? things.map(thing => [thing]) : things.length ? [things] : []);

  function makeStrips() {
    const { blocks, marks } = viewer.map.layers;
    viewer.map.strips = [];
    viewer.map.stale = new Set();
    for (let strip = 0; run.isDense && strip * STRIP < viewer.map.shape.shown; strip++) {
      const fills = STATES.map(stripOfBlocks), kinds = KINDS_OF_MARK.map(name => shape('path', { class: name }));
      viewer.map.strips.push({ fills, kinds });
      blocks.append(...fills);
      marks.append(...kinds);
      viewer.map.stale.add(strip);
    }
  }

  const stripOfBlocks = name => shape('g', { class: 'block ' + name, 'data-states': name }, shape('path', { class: 'fill' }),
    viewer.overOf(name, ''));

  function drawStrips() {
    for (const strip of viewer.map.stale) if (viewer.map.strips[strip]) drawStrip(viewer.map.shape, strip);
    viewer.map.stale.clear();
  }

  function drawStrip(L, strip) {
    const areas = { live: '', waiting: '', painted: '' }, marks = { tag: '', lost: '', data: '' };
    const end = Math.min(strip * STRIP + STRIP, L.shown), inset = L.width < viewer.SMALL ? .5 : 1.5;
    for (let place = strip * STRIP; place < end; place++) {
      const block = state.ownerAt(place), cell = state.granules[place];
      if (block && block.start === place) areas[block.state] += viewer.areaOf(L, block.start, block.end, inset);
      const isLost = !cell.tag && viewer.map.lost.has(place);
      if (!cell.isNull || isLost) marks[cell.tag ? 'tag' : isLost ? 'lost' : 'data'] += outlineOfMark(L, place, cell.tag, isLost);
    }
    const { fills, kinds } = viewer.map.strips[strip];
    STATES.forEach((name, index) => { for (const path of fills[index].children) renew(path, 'd', areas[name]); });
    KINDS_OF_MARK.forEach((name, index) => renew(kinds[index], 'd', marks[name]));
  }

  function outlineOfMark(L, place, tag, isLost) {
    const [x, y, size] = viewer.spotOfMark(L, place), half = size * .7;
    if (tag || isLost) return viewer.DIAMOND(x, y, size) + (tag ? '' : viewer.STROKE(x, y, size));
    return `M${x - half} ${y - half}h${2 * half}v${2 * half}h${-2 * half}Z`;
  }

  // The blocks of a step that are there now, with the edge of what is new.
  function drawFresh(blocks) {
    for (const name of STATES) {
      const those = blocks.filter(block => block.state === name && block.start < viewer.map.shape.shown);
      if (!those.length) continue;
      viewer.map.layers.released.append(build(viewer.blockShape(viewer.map.shape, those, name), { class: `block ${name} new` }, []));
    }
  }

  Object.assign(viewer, { STRIP, together, makeStrips, drawStrips, drawFresh });
}
