// The table of blocks, which has rows while it is open, and on paper.

import { code, element, hex } from './dom.js';
import { nameOf, stateName } from './cursor.js';
import { Pieces } from './pieces.js';
import { grouped } from './say.js';

export function addBlocks(viewer) {
  const { byId, cursor: state } = viewer;

  let blockTable = null;

  function blockRow(block) {
    const contents = [code(hex(block.base)), code(hex(block.top)), grouped(block.top - block.base), stateName(block.state), nameOf(block)];
    return element('tr', {}, contents.map(content => element('td', {}, content)));
  }

  const sortedBlocks = () => [...state.blocks.values()].sort((one, other) => one.start - other.start);

  function drawBlocks(isAsked = false) {
    if (!isAsked && !(byId('block-details').open && state.touched.blocks.size)) return;
    const box = byId('block-table'), at = box.scrollTop;
    blockTable.show(sortedBlocks());
    box.scrollTop = at;
  }

  function listenToBlocks() {
    const box = byId('block-table');
    blockTable = new Pieces(box, byId('blocks'), () => element('tbody'), blockRow, viewer.longLists);
    byId('block-details').addEventListener('toggle', () => (byId('block-details').open ? drawBlocks(true) : blockTable.show([])));
  }

  function listenToPaper() {
    addEventListener('beforeprint', () => {
      drawBlocks(true);
      for (const long of viewer.longLists) long.pieces.forEach(piece => long.fill(piece));
    }, { signal: viewer.signal });
    addEventListener('afterprint', () => {
      if (!byId('block-details').open) blockTable.show([]);
      for (const long of viewer.longLists) long.refill();
    }, { signal: viewer.signal });
  }

  Object.assign(viewer, { sortedBlocks, drawBlocks, listenToBlocks, listenToPaper });
}
