// A handout: steps that are asked for, each with its notes, its sentence, its map and the registers, to be printed.

import { element } from './dom.js';
import { said } from './say.js';

export function addHandout(viewer) {
  const { run, view, byId } = viewer;

  // The steps on lines such as '4, 7-9', in the order of the trace; null where the text is no such list.
  function stepsOfLines(text) {
    const parts = text.split(',').map(part => part.trim().match(/^([0-9]{1,9})(?:\s*[-–]\s*([0-9]{1,9}))?$/));
    if (!parts.every(Boolean)) return null;
    const spans = parts.map(([, first, last = first]) => [Number(first), Number(last)]);
    return [...run.steps.keys()].filter(index => spans.some(([first, last]) => first <= run.steps[index].line && run.steps[index].line <= last));
  }

  // What the page shows of something, without its names in the page.
  function copyOf(node) {
    const copy = node.cloneNode(true);
    for (const each of [copy, ...copy.querySelectorAll('[id]')]) each.removeAttribute('id');
    return copy;
  }

  function handoutOf(index) {
    viewer.go(index);
    const step = run.steps[index], registers = copyOf(byId('rows').parentNode);
    registers.tBodies[0].className = 'rows';
    return element('article', {}, element('h2', {}, said('Line {0}', step.line)), ...viewer.notesOf(step.notes), ...[...byId('what').children].map(copyOf),
      element('div', { class: 'map' }, ...viewer.map.sheets.map(copyOf)), ...(step.taken ? [copyOf(byId('taken'))] : []), registers);
  }

  // Shows each of the steps in turn, and then what was shown before.
  function makeHandout(indices) {
    const { step, side, chosen, follow, probe } = view, pages = indices.map(handoutOf);
    Object.assign(view, { chosen, follow, probe });
    viewer.go(step);
    if (side !== 'after') viewer.show(side);
    byId('handout').replaceChildren(element('h1', {}, document.title), ...pages);
    document.body.classList.add('handing-out');
  }

  function printHandout() {
    const indices = stepsOfLines(byId('printed').value);
    byId('printed').setAttribute('aria-invalid', String(!indices || !indices.length));
    if (!indices || !indices.length) return byId('printed').focus();
    viewer.stopPlaying();
    makeHandout(indices);
    print();
  }

  function listenToHandout() {
    byId('print').onclick = printHandout;
    byId('printed').addEventListener('keydown', event => { if (event.key === 'Enter') printHandout(); });
    addEventListener('afterprint', () => {
      document.body.classList.remove('handing-out');
      byId('handout').replaceChildren();
    }, { signal: viewer.signal });
  }

  Object.assign(viewer, { stepsOfLines, makeHandout, listenToHandout });
}
