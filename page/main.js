// A viewer put together over a run, in an element of a document, and taken down again.

import { hex } from './dom.js';
import { addAddress } from './address.js';
import { addAsking } from './ask.js';
import { addBand } from './band.js';
import { addBlocks } from './blocks.js';
import { addComparison } from './compare.js';
import { addControls } from './controls.js';
import { addDenseMap } from './dense.js';
import { addEditing } from './edit.js';
import { addFind } from './find.js';
import { addHandout } from './handout.js';
import { addHistory } from './history.js';
import { addInspector } from './inspector.js';
import { addKeys } from './keys.js';
import { addList } from './list.js';
import { addMap } from './map.js';
import { addMapShape } from './map_shape.js';
import { addPictures } from './pictures.js';
import { addPresenting } from './present.js';
import { addRegisters } from './registers.js';
import { addSaving } from './save.js';
import { said, saidCount } from './say.js';
import { addSteps } from './steps.js';
import { addWindow } from './window.js';
import { addWords } from './words.js';

// Each adds to the viewer what it has for others, and finds there what those have. One that stands before another needs nothing of
// it until the viewer begins.
const PARTS = [addWords, addList, addFind, addHistory, addBlocks, addComparison, addMapShape, addDenseMap, addMap, addRegisters, addInspector,
  addWindow, addAsking, addPresenting, addAddress, addKeys, addBand, addSaving, addPictures, addEditing, addHandout, addSteps, addControls];

// What the reader looks at.
const viewOf = run => ({ step: 0, side: 'after', chosen: null, follow: true, probe: null, cursor: null, columns: run.columns, cell: 0,
  whole: false, present: false, embed: false, ask: false, pointers: false, letter: 20, broad: .61, mapWidth: 600, mapHeight: 600, windowWidth: 600,
  timer: null });

// Says above all else what is wrong; what is shown below stays as it is.
export function tellFault(message) {
  const fault = /** @type {HTMLElement} */ (document.querySelector('#fault')), paragraph = document.createElement('p');
  paragraph.textContent = message;
  fault.hidden = false;
  fault.append(paragraph);
  return paragraph;
}

/**
 * What a page around the viewer has for it: where its parts stand, where others find it, the trace's text, a step in C, what stands first in an address, who tells the line of a word, and who is
 * told the step; and whether the run is one without quarantine, of which nothing is proved.
 * @typedef {{ isAtOnce?: boolean, arrange?: (viewer: any) => void, place?: () => string, inC?: (step: import('./run.js').Step) => string | null, text?: string, origin?: () => string[], lineOfWord?: ((word: string) => Promise<string | null>) | null, onStep?: (step: import('./run.js').Step, view: { ask: boolean }) => void }} Host
 */

// Draws the run of a cursor into an element, and answers the viewer: what its parts have, and `close`, which takes it down. A
// document has one at a time: it takes the keys, and the address.
/** @param {any} root @param {import('./cursor.js').Cursor} cursor @param {Host} host */
export function mount(root, cursor, host = {}) {
  const { run } = cursor, ending = new AbortController();
  // The page around may have placed it elsewhere.
  /** @type {(id: string) => any} */
  const byId = id => document.querySelector('#' + id);
  root.replaceChildren(/** @type {HTMLTemplateElement} */ (document.querySelector('#page')).content.cloneNode(true));
  // Whether a key is for a field, for the table of keys, or for the browser.
  const isTyped = event => event.ctrlKey || event.metaKey || event.altKey || byId('keys').open ||
    event.target.matches('input:not([type=checkbox], [type=range]), select, textarea');
  const viewer = { root, cursor, run, host, byId, isTyped, tellFault, view: viewOf(run), longLists: [], signal: ending.signal };
  for (const addPart of PARTS) addPart(viewer);
  viewer.close = () => {
    viewer.stopPlaying();
    ending.abort();
    document.body.classList.remove('present', 'embed', 'asking', 'handing-out');
    root.replaceChildren();
  };
  begin(viewer);
  return viewer;
}

function begin(viewer) {
  const { run, byId } = viewer, { end, sums } = run, last = run.steps.length - 1;
  if (['live', 'held', 'tags'].some(name => end[name] !== sums[name][last])) tellFault(said('The data ends with other sums than its steps have.'));
  document.title = byId('title').textContent = run.own.title;
  const part = run.own.after.find(note => note.startsWith('Part: ')); // the last comment where heap_record has left something out
  byId('subtitle').textContent = saidCount('A heap of {0} page, {1} to {2} | A heap of {0} pages, {1} to {2}', run.pages, hex(run.base), hex(run.heapEnd())) + (part ? `. ${part}` : '');
  byId('unproved').hidden = !viewer.host.isAtOnce;
  byId('slider').max = last;
  viewer.drawList(run.own);
  viewer.drawLegend();
  viewer.makeRegisterRows();
  viewer.measure();
  viewer.remakeMap();
  viewer.drawBand();
  viewer.listen();
  viewer.openAddress();
  compareCells(viewer);
}

// This page's decoder is no proved one: each cell of the data is compared with it, bit by bit while nothing else is to do.
function compareCells({ run, byId, signal }) {
  const cells = run.steps.flatMap(step => [...step.registers, ...step.granules].map(change => change.now));
  const differing = [];
  let next = 0;
  const some = () => {
    if (signal.aborted) return;
    const until = performance.now() + 8;
    while (next < cells.length && performance.now() < until) compareCell(cells[next++], differing);
    if (next < cells.length) return setTimeout(some, 30);
    if (differing.length) {
      tellFault(saidCount('The data and this page decode {0} value differently, first {1}. | The data and this page decode {0} values differently, first {1}.',
        differing.length, differing[0]));
    }
    byId('main').dataset.compared = cells.length;
  };
  some();
}

function compareCell({ told, word, meaning }, differing) {
  const mine = { address: hex(meaning.address), base: hex(meaning.base), top: hex(meaning.top), perms: Number(meaning.permissions),
    type: Number(meaning.type), exponent: meaning.exponent };
  for (const [name, value] of Object.entries(mine)) {
    if (told[name] !== value) differing.push(said('{0}: {1} is {2} in the data and {3} here', word, name, String(told[name]), String(value)));
  }
}
