// The window of the word in the inspector as a bar, and what the bounds would be at another address.

import { SPACE, bitsOf, decode, keepsBounds, modulo } from './codec.js';
import { clamp, code, element, hex, shape } from './dom.js';
import { passage, said, say } from './say.js';

export function addWindow(viewer) {
  const { view, byId } = viewer;

  const EDGE = 8, BAR_TOP = 30, BAR_HEIGHT = 34, LETTER = 7.3; // pixels

  // The integers that the bar shows: the window and half of one on either side, or all addresses.
  /** @returns {[bigint, bigint]} */
  function spanOf(word) {
    return word.exponent >= 50 ? [0n, SPACE] : [word.low - word.size / 2n, word.low + word.size + word.size / 2n];
  }

  // The integer in the span that means the same address, where there is one.
  /** @param {bigint} address @param {[bigint, bigint]} span */
  const foldInto = (address, [low, high]) => [address, address + SPACE, address - SPACE].find(each => each >= low && each <= high) ?? address;
  const triedAddress = () => (view.probe === null ? viewer.chosenWord().meaning.address : view.probe);

  function drawWindow() {
    const cell = viewer.chosenWord(), word = cell.meaning, tried = triedAddress(), span = spanOf(word);
    const there = decode(bitsOf(cell.word), tried), keeps = keepsBounds(word, tried);
    byId('window').replaceChildren(windowBar(word, there, tried, keeps, span));
    byId('probe').value = String((foldInto(tried, span) - span[0]) * 2048n / (span[1] - span[0]));
    byId('probe').setAttribute('aria-valuetext', keeps ? said('{0}, the bounds stay', hex(tried)) : said('{0}, the bounds change', hex(tried)));
    if (document.activeElement !== byId('exact')) byId('exact').value = hex(tried);
    byId('verdict').setAttribute('aria-live', byId('inspector').contains(document.activeElement) ? 'polite' : 'off');
    const end = !keeps ? say('So {0} takes the tag.', 'setaddr') : cell.tag ? say('{0} keeps the tag.', 'setaddr') : say('{0} would keep a tag, but here is none.', 'setaddr');
    const verdict = element('b', { class: keeps ? 'kept' : 'gone' }, keeps ? said('✓ The bounds stay') : said('✗ The bounds would change'));
    const told = passage(say('{0} at {1}: {2} to {3}.', verdict, code(hex(tried)), code(hex(there.base)), code(hex(there.top))), end);
    byId('verdict').replaceChildren(...told);
    drawJumps(word);
  }

  /** @param {[bigint, bigint]} span */
  function windowBar(word, there, tried, keeps, span) {
    const width = view.windowWidth, [low, high] = span, whole = word.exponent >= 50;
    const at = address => EDGE + clamp(Number((foldInto(address, span) - low) * 100000n / (high - low)) / 100000, 0, 1) * (width - 2 * EDGE);
    const ends = whole ? [EDGE, width - EDGE] : [at(word.low), at(word.low + word.size)];
    const bar = shape('svg', { viewBox: `0 0 ${width} 118`, height: 118, role: 'img', 'aria-label':
      said('Window from {0} to {1}, base {2}, top {3}, address {4}', ...[word.low, word.low + word.size, word.base, word.top, tried].map(hex)) },
      shape('rect', { class: 'outside', x: EDGE, y: BAR_TOP, width: width - 2 * EDGE, height: BAR_HEIGHT }),
      shape('rect', { class: 'inside', x: ends[0], y: BAR_TOP, width: ends[1] - ends[0], height: BAR_HEIGHT }));
    const text = (x, y, content, anchor) => bar.append(shape('text', { x: clamp(x, 4, width - 4), y, 'text-anchor': anchor }, content));
    // Two texts in a row, where they would meet or be cut at its ends.
    const texts = (y, one, other) => {
      const [left, right] = [one, other].map(([x, content, anchor]) => [x, x + content.length * LETTER].map(edge => edge - (anchor === 'end' ? content.length * LETTER : 0)));
      const isRoomy = left[0] >= 0 && left[1] + LETTER <= right[0] && right[1] <= width;
      text(isRoomy ? one[0] : 4, y, one[1], isRoomy ? one[2] : 'start');
      text(isRoomy ? other[0] : width - 4, y, other[1], isRoomy ? other[2] : 'end');
    };
    if (whole) text(ends[0], 22, said('all addresses keep the bounds'), 'start');
    else texts(22, [ends[0], said('low {0}', hex(modulo(word.low, SPACE))), 'start'], [ends[1], said('end {0}', hex(modulo(word.low + word.size, SPACE))), 'end']);
    const bounds = (of, y, height, kind) => {
      const x = at(of.base), X = Math.max(at(of.top), x);
      if (of.top >= of.base) bar.append(shape('rect', { class: kind, x, y, width: Math.max(X - x, 3), height }));
      return [x, Math.max(X, x + 3)];
    };
    const [left, right] = bounds(word, 36, 22, 'bound'), roomy = right - left > 260, early = left < 130;
    const place = at(tried), late = place > width - 190;
    bar.append(shape('path', { class: 'tick', d: `M${place} 24V98` }));
    const base = said('base {0}', hex(word.base));
    texts(80, [roomy ? left : left - 5, base, roomy || early ? 'start' : 'end'],
      [roomy ? right : early ? Math.max(left + 150, left + (base.length + 2) * LETTER) : right + 5, said('top {0}', hex(word.top)), roomy ? 'end' : 'start']);
    if (!keeps) {
      const [x, X] = bounds(there, 85, 9, 'bound off'), far = X + 100 > width;
      text(far ? x - 5 : X + 5, 94, said('bounds there'), far ? 'end' : 'start');
    }
    text(place + (late ? -5 : 5), 110, said('address {0}', hex(tried)), late ? 'end' : 'start');
    return bar;
  }

  // The edges, where it is worth to look.
  function drawJumps(word) {
    const edges = word.exponent >= 50 ? [['address', word.address, said('address')], ['base', word.base, said('base')]]
      : [['address', word.address, said('address')], ['low − 1', word.low - 1n, said('low − 1')], ['low', word.low, said('low')],
        ['base', word.base, said('base')], ['top', word.top, said('top')], ['end − 1', word.low + word.size - 1n, said('end − 1')],
        ['end', word.low + word.size, said('end')]];
    const buttons = [...byId('jumps').children];
    if (buttons.length !== edges.length) {
      const onclick = event => tryAddress(event.currentTarget.to);
      byId('jumps').replaceChildren(...edges.map(([name, , text]) => element('button', { 'data-jump': name, onclick }, text)));
    }
    edges.forEach(([name, address], index) => { byId('jumps').children[index].to = address; });
  }

  function tryAddress(address) {
    view.probe = modulo(address, SPACE);
    drawWindow();
  }

  // By the pointer on the bar itself.
  function tryPlace(event) {
    const frame = byId('window').getBoundingClientRect(), [low, high] = spanOf(viewer.chosenWord().meaning);
    const part = clamp((event.clientX - frame.left - EDGE) / (frame.width - 2 * EDGE), 0, 1);
    tryAddress(low + (high - low) * BigInt(Math.round(part * 1e6)) / 1000000n);
  }

  function listenToWindow() {
    byId('window').addEventListener('pointerdown', event => {
      byId('window').setPointerCapture(event.pointerId);
      tryPlace(event);
    });
    byId('window').addEventListener('pointermove', event => { if (event.buttons & 1) tryPlace(event); });
    byId('probe').addEventListener('input', () => {
      const [low, high] = spanOf(viewer.chosenWord().meaning);
      tryAddress(low + (high - low) * BigInt(byId('probe').value) / 2048n);
    });
    byId('exact').addEventListener('change', () => {
      const text = byId('exact').value.trim(), good = /^(0x[0-9a-f]{1,16}|[0-9]{1,20})$/i.test(text) && BigInt(text) < SPACE;
      byId('exact').setAttribute('aria-invalid', String(!good));
      if (good) tryAddress(BigInt(text));
    });
    for (const button of viewer.root.querySelectorAll('[data-by]')) {
      button.addEventListener('click', () => tryAddress(triedAddress() + BigInt(button.dataset.by)));
    }
  }

  Object.assign(viewer, { drawWindow, listenToWindow });
}
