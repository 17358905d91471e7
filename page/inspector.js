// A capability word from its 16 bytes to its bounds.

import { code, digits, element, hex } from './dom.js';
import { Cell, NULL_CELL, learn } from './cursor.js';
import { NULL_METADATA, PERMISSIONS, bitsOf, decode, power, readLine } from './codec.js';
import { grouped, said, saidCount, say } from './say.js';

export function addInspector(viewer) {
  const { run, view, byId, cursor: state } = viewer;

  // Milliseconds after the last step, by which it is painted.
  const DUE = 150;

  let drawnWord = null, isInSight = true, due = null;

  // What the reader has chosen, or the trace for him: a register, a granule or a word that was typed.
  function chosenCell() {
    if (!view.chosen) return null;
    const { kind, place } = view.chosen;
    if (kind === 'register') return { name: 'c' + place, cell: state.registers[place] };
    if (kind === 'granule') return { name: said('the granule at {0}', hex(run.addressOf(place))), cell: state.granules[place] };
    return { name: said('the word typed'), cell: new Cell({ tag: false, word: place }) };
  }

  const chosenWord = () => (chosenCell() || { cell: NULL_CELL }).cell;

  // What is pasted may have blanks, and 0x before each part of it.
  function takeTyped() {
    const word = byId('typed').value.toLowerCase().replace(/(^|\s)0x/g, '$1').replace(/\s/g, ''), strange = word.match(/[^0-9a-f]/u);
    const wrong = word === '' ? '' : strange ? said('“{0}” is no hexadecimal digit.', strange[0])
      : word.length !== 32 ? saidCount('{0} digit: a word has just 32, two for each byte. | {0} digits: a word has just 32, two for each byte.', word.length) : '';
    byId('typed').setAttribute('aria-invalid', String(wrong !== ''));
    byId('wrong').textContent = wrong;
    if (word === '' || wrong) return;
    const { lineOfWord } = viewer.host;
    if (lineOfWord) lineOfWord(word).then(line => takeLine(word, line)); else showTyped(word);
  }

  function showTyped(word) {
    view.chosen = null;
    viewer.choose('word', word);
  }

  // The word as the program tells it, unless another one has been typed since.
  function takeLine(word, line) {
    if (line === null || viewer.signal.aborted) return;
    const told = readLine(line), mine = decode(bitsOf(word));
    const wrong = Object.keys(told).find(name => told[name] !== mine[name]);
    if (wrong) viewer.tellFault(said('The program and this page decode {0} differently: {1} is {2} and {3}.', word, wrong, String(told[wrong]), String(mine[wrong])));
    learn(word, { ...mine, ...told });
    showTyped(word);
  }

  // At a step: what is out of sight keeps no step waiting.
  function drawInspectorSoon() {
    if (isInSight) return drawInspector();
    clearTimeout(due);
    due = setTimeout(drawDue, DUE);
  }

  function drawDue() {
    if (due !== null && !viewer.signal.aborted) drawInspector();
  }

  function watchInspector() {
    const watch = new IntersectionObserver(told => { isInSight = told.at(-1).isIntersecting; });
    watch.observe(byId('inspector'));
    viewer.signal.addEventListener('abort', () => watch.disconnect());
    addEventListener('beforeprint', drawDue, { signal: viewer.signal });
  }

  function drawInspector() {
    clearTimeout(due);
    due = null;
    const { name, cell } = chosenCell() || { name: said('null, as nothing is chosen'), cell: NULL_CELL };
    const typed = view.chosen && view.chosen.kind === 'word';
    byId('follow').checked = view.follow;
    const called = element('b', {}, name);
    byId('shown').replaceChildren(...(typed ? say('Shown is {0}.', called) : cell.tag ? say('Shown is {0}, tagged.', called) : say('Shown is {0}, without a tag.', called)));
    const isData = !typed && !cell.tag && !cell.isNull, drawn = cell.word + isData;
    if (drawnWord !== drawn) {
      drawnWord = drawn;
      const word = cell.meaning, heading = isData ? element('h3', {}, said('If these bytes were a capability')) : null;
      byId('word').replaceChildren(...bytesOf(cell.word, word, isData), ...[heading].filter(Boolean), fieldTable(word),
        element('div', { class: 'two' }, derivation(word), meaningTable(word)));
    }
    viewer.drawWindow();
    viewer.drawHistory();
  }

  // The bytes as text, with a dot for each that is no letter, digit or sign.
  const textOfBytes = word => word.match(/../g).map(byte => String.fromCharCode(parseInt(byte, 16))).join('').replace(/[^ -~]/g, '·');

  function bytesOf(text, word, isData) {
    const bytes = text.match(/../g), note = content => element('span', { class: 'muted' }, `(${content})`);
    return [
      ...(isData ? [element('p', { class: 'as-text' }, say('As text: {0}', element('b', {}, textOfBytes(text))))] : []),
      element('p', {}, say('Bytes in memory: {0} {1} {2} {3}', code(bytes.slice(0, 8).join(' ')), note(said('the address, its lowest byte first')),
        code(bytes.slice(8).join(' ')), note(said('the metadata')))),
      element('p', {}, say('Metadata: {0} {1}', [code(digits(word.stored, 16)), ' ⊕ ', code(digits(NULL_METADATA, 16)), ' = ',
        code(digits(word.metadata, 16))], note(said('so the null capability is all zeros in memory'))))];
  }

  function fieldTable(word) {
    const field = (name, value, note) => element('div', {}, element('b', {}, name), code(value), element('span', {}, note));
    return element('div', { class: 'fields', role: 'group', 'aria-label': said('Fields of the metadata') },
      field(said('permissions'), hex(word.permissions), said('bits {0} to {1}', 63, 48)), field(said('reserved'), String(word.reserved), '47, 46'),
      field(said('flag'), String(word.flag), '45'), field(said('type'), hex(word.type), word.type === 0x3ffffn ? said('{0} to {1}, not sealed', 44, 27) : said('{0} to {1}', 44, 27)),
      field('I', String(word.internal), '26'), field(said('top field'), hex(word.topField), said('{0} to {1}', 25, 14)),
      field(said('base field'), hex(word.baseField), said('{0} to {1}', 13, 0)));
  }

  function derivation(word) {
    const { exponent } = word, scaled = name => (exponent ? `${name} × 2^${exponent}` : name);
    const line = content => element('li', {}, content), inner = `E = 8 × ${word.topField % 8n} + ${word.baseField % 8n} = ${exponent}`;
    return element('div', {}, element('h3', {}, said('From fields to bounds')), element('ol', { class: 'steps' },
      line(word.internal !== 1n ? say('The internal exponent bit I is 0, so {0} and both fields are whole.', code('E = 0'))
        : exponent === 52 ? say('The internal exponent bit I is 1, so the low 3 bits of both fields hold the exponent: {0}, at most 52.', code(inner))
          : say('The internal exponent bit I is 1, so the low 3 bits of both fields hold the exponent: {0}.', code(inner))),
      line(say('Base mantissa: {0}.', code('B = ' + hex(word.baseMantissa)))),
      line(say('Top mantissa: {0}. Its upper two bits come from those of B, a carry and I: {1}.', code('T = ' + hex(word.topMantissa)),
        code(`(${word.baseMantissa / power(12)} + ${word.carry} + ${word.internal}) mod 4`))),
      line(say('The window has {0} addresses. Counted from multiples of that, base and top are at {1} and {2} in it.', code(`2^${exponent + 14}`),
        code(scaled('B')), code(scaled('T'))))));
  }

  function meaningTable(word) {
    const names = [...Array(16).keys()].filter(bit => word.permissions >> BigInt(bit) & 1n).map(bit => PERMISSIONS[bit] || said('bit {0}', bit));
    const entries = [[said('address'), hex(word.address)], [said('base'), hex(word.base)], [said('top'), hex(word.top)],
      [said('length'), word.top >= word.base ? grouped(word.top - word.base) : said('none: the top is below the base')],
      [said('exponent'), String(word.exponent)],
      [said('permissions'), names.join(', ') || said('none')]];
    return element('div', {}, element('h3', {}, said('What they mean')), element('table', { class: 'meaning' }, element('tbody', {},
      entries.map(([name, value]) => element('tr', {}, element('th', { scope: 'row' }, name), element('td', {}, code(value)))))));
  }

  Object.assign(viewer, { chosenCell, chosenWord, takeTyped, watchInspector, drawInspector, drawInspectorSoon, drawDue, textOfBytes });
}
