// The registers. A row is made anew only where what it tells differs; what is held, which all of them show, is drawn anew within them.

import { code, element, hex, renew, shape } from './dom.js';
import { lettersOf, namesOfPermissions } from './codec.js';
import { passage, said, say } from './say.js';

export function addRegisters(viewer) {
  const { run, view, byId, cursor: state } = viewer;

  const BAR = 165; // the width of a register's small bar
  const registerRows = new Map();
  const barPlace = place => 3 + Math.min(place / run.used, 1) * (BAR - 6);

  // What is held, as one outline for all bars, by steps of a pixel: its length does not grow with the blocks.
  function heldBands() {
    const held = new Uint8Array(BAR);
    for (const block of state.blocks.values()) {
      const x = barPlace(block.start);
      if (block.state !== 'live') held.fill(1, Math.floor(x), Math.max(Math.ceil(barPlace(block.end)), x + 2));
    }
    let d = '';
    for (let x = 0; x < BAR; x++) {
      if (!held[x] || held[x - 1]) continue;
      let end = x;
      while (held[end]) end++;
      d += `M${x} 2H${end}V16H${x}Z`;
    }
    return d;
  }

  function smallBar(cell, bands, label) {
    const { base, top, address } = cell.meaning, inside = viewer.clippedTo(run.addressOf(run.used), base, top);
    const bar = shape('svg', { width: BAR, height: 18, role: 'img', 'aria-label': label },
      shape('path', { class: 'held-band', d: bands }), shape('path', { class: 'range', d: `M3 9H${BAR - 3}` }));
    if (inside) {
      const x = barPlace(inside[0]), width = Math.max(barPlace(inside[1]) - x, 3);
      bar.append(shape('rect', { class: cell.tag ? 'bound' : 'bound off', x, y: 5.5, width, height: 7 }));
    }
    if (run.isInHeap(address)) bar.append(shape('path', { class: 'tick', d: `M${barPlace(run.granulesTo(address))} 1V17` }));
    return bar;
  }

  function makeRegisterRows() {
    for (const register of [...run.written].sort((one, other) => one - other)) {
      const row = element('tr', { 'data-register': register }, element('td'), element('td'));
      const button = element('button', { 'data-choose': register, title: said('Show its bounds on the map and in the inspector') }, 'c' + register);
      button.addEventListener('click', () => viewer.choose('register', register));
      registerRows.set(register, { row, button, drawn: null });
      byId('rows').append(row);
    }
    const ends = [hex(run.base), hex(run.addressOf(run.used))];
    const told = passage(say('{0} is always null.', 'c0'), run.written.size < 31 && say('The other registers stay null.'),
      run.used < run.granules
        ? say('The bars go from {0} to {1}, the part of the heap that is used: shaded is what is held, thick the bounds, and the thin line is the address.', ...ends)
        : say('The bars go from {0} to {1}: shaded is what is held, thick the bounds, and the thin line is the address.', ...ends));
    byId('idle').replaceChildren(...told);
  }

  function drawRegisters() {
    const step = run.steps[view.step], bands = heldBands();
    const taken = new Set(view.side !== 'before' && step.taken ? step.taken.rows.filter(row => row.kind === 'register').map(row => row.place) : []);
    const used = new Set(viewer.usedNames(step).map(viewer.placeOf));
    const changed = new Set(view.side === 'after' ? step.registers.map(change => change.place) : view.side === 'between' ? taken : []);
    for (const [register, kept] of registerRows) {
      const cell = state.registers[register], chosen = view.chosen && view.chosen.kind === 'register' && view.chosen.place === register;
      const { base, top } = cell.meaning, told = cell.isNull ? said('null') : said('bounds {0} to {1}, base {2}', hex(base), hex(top), viewer.placeOfBase(base));
      const drawn = [cell.tag, cell.word, changed.has(register), taken.has(register), used.has(register), told].join('\n');
      renew(kept.button, 'aria-pressed', String(Boolean(chosen)));
      if (kept.drawn === drawn) {
        if (!cell.isNull) renew(kept.row.querySelector('.held-band'), 'd', bands);
        continue;
      }
      kept.drawn = drawn;
      fillRow(kept, cell, { changed: changed.has(register), taken: taken.has(register), used: used.has(register), bands, told });
    }
    const first = view.present && byId('rows').querySelector('.new, .used'); // where a class's screen has not room for all
    if (first) first.scrollIntoView({ block: 'nearest' });
  }

  function fillRow({ row, button }, cell, { changed, taken, used, bands, told }) {
    const { address, base, top, permissions } = cell.meaning, hadFocus = document.activeElement === button;
    row.className = [changed ? 'new' : null, used ? 'used' : null].filter(Boolean).join(' ');
    row.dataset.tag = cell.tag ? 1 : 0;
    row.dataset.word = cell.word;
    const what = [used ? said('used') : null, taken && !cell.tag ? said('tag taken') : changed ? said('changed') : null].filter(Boolean).join(', ');
    row.cells[0].replaceChildren(button, ' ', viewer.tagSign(cell.tag, taken && !cell.tag), what ? element('div', { class: 'newmark' }, what) : '');
    row.cells[1].replaceChildren(...(cell.isNull ? [element('span', { class: 'muted' }, said('null'))]
      : [code(hex(address)), ' ', element('span', { class: 'perms', title: namesOfPermissions(permissions) }, lettersOf(permissions)),
        element('div', { class: 'bounds' }, said('{0} to {1}', hex(base), hex(top))), smallBar(cell, bands, told)]));
    if (hadFocus) button.focus({ preventScroll: true });
  }

  Object.assign(viewer, { makeRegisterRows, drawRegisters });
}
