// The band above the slider: after each step the bytes that are live, held and free, and the tags; with ticks for passes and traps.

import { element, shape } from './dom.js';
import { grouped, inTags, said } from './say.js';

const BAND_HEIGHT = 34, THUMB = 12; // the slider's thumb (style.css), whose middle is the place of the step

// The steps at which the band has a point: one for each pixel at most.
function bandSteps(width, last) {
  const count = Math.min(last, Math.floor(width));
  return count ? [...Array(count + 1).keys()].map(point => Math.round(point * last / count)) : [0];
}

// A band of so many pixels, over so many bytes. The ticks are the steps that are passes or traps.
/** @param {number} width @param {{ live: number[], held: number[], tags: number[] }} sums @param {number} room @param {{ passes: number[], traps: number[] }} ticks */
export function bandShape(width, sums, room, ticks) {
  const steps = bandSteps(width, sums.tags.length - 1), last = Math.max(sums.tags.length - 1, 1);
  const most = sums.tags.reduce((greatest, tags) => Math.max(greatest, tags), 1);
  const x = step => Math.round((THUMB / 2 + step * width / last) * 10) / 10;
  const y = part => Math.round((1 - part) * (BAND_HEIGHT - 8) * 10) / 10 + 4;
  const line = heightOf => steps.map(step => `H${x(step)}V${y(heightOf(step))}`).join('');
  const area = heightOf => `M${THUMB / 2} ${y(0)}${line(heightOf)}V${y(0)}Z`;
  const held = area(step => (sums.live[step] + sums.held[step]) / room);
  const marks = (places, from, to) => [...new Set(places.map(x))].map(place => `M${Math.round(place)} ${from}V${to}`).join('');
  return shape('svg', { viewBox: `0 0 ${width + THUMB} ${BAND_HEIGHT}`, preserveAspectRatio: 'none', 'aria-hidden': 'true' },
    shape('rect', { class: 'band-free', x: THUMB / 2, y: y(1), width, height: y(0) - y(1) }),
    shape('pattern', { id: 'band-held-pattern', width: 5, height: 5, patternUnits: 'userSpaceOnUse' }, shape('path', { class: 'band-lines', d: 'M0 5L5 0' })),
    shape('path', { class: 'band-held', d: held }),
    shape('path', { fill: 'url(#band-held-pattern)', d: held }),
    shape('path', { class: 'band-live', d: area(step => sums.live[step] / room) }),
    shape('path', { class: 'band-tags', d: `M${THUMB / 2} ${y(0)}` + line(step => sums.tags[step] / most) }),
    shape('path', { class: 'band-passes', d: marks(ticks.passes, 0, BAND_HEIGHT) }),
    shape('path', { class: 'band-traps', d: marks(ticks.traps, BAND_HEIGHT - 5, BAND_HEIGHT) }));
}

export function addBand(viewer) {
  const { run, byId, cursor: state } = viewer;

  function drawBand() {
    const width = byId('band').clientWidth - THUMB, stepsOf = isOne => run.steps.flatMap((step, index) => (isOne(step) ? [index] : []));
    if (width <= 0) return;
    const { passes, traps } = viewer.KINDS;
    byId('band').replaceChildren(bandShape(width, run.sums, 16 * run.used, { passes: stepsOf(passes), traps: stepsOf(traps) }));
  }

  // Of the state that is shown, which may be that before the step.
  function drawSums() {
    let live = 0, held = 0;
    for (const block of state.blocks.values()) {
      const bytes = 16 * (block.end - block.start);
      if (block.state === 'live') live += bytes; else held += bytes;
    }
    const tags = state.tagged.register.size + state.tagged.granule.size;
    const told = Object.entries({ live: said('{0} live', grouped(live)), held: said('{0} held', grouped(held)),
      free: said('{0} bytes free', grouped(4096 * run.pages - live - held)), tags: inTags(tags), passes: said('pass'), traps: said('trap') });
    const box = byId('sums');
    if (!box.firstChild) for (const [name] of told) box.append(element('span', {}, element('i', { class: 'swatch band-' + name }), ''));
    told.forEach(([, text], index) => { if (box.children[index].textContent !== text) box.children[index].lastChild.data = text; });
  }

  Object.assign(viewer, { drawBand, drawSums });
}
