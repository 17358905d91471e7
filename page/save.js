// The map as SVG with its styles inside, and the state that is shown as JSON, as files.

import { SHAPES, element, hex, shape } from './dom.js';
import { said } from './say.js';

export function addSaving(viewer) {
  const { run, view, byId, cursor: state } = viewer;

  const KEPT = ['fill', 'stroke', 'stroke-width', 'stroke-dasharray', 'stroke-linejoin', 'opacity', 'paint-order', 'text-anchor',
    'font-family', 'font-size', 'font-weight'];

  function save(name, type, text) {
    const address = URL.createObjectURL(new Blob([text], { type }));
    element('a', { href: address, download: name }).click();
    setTimeout(() => URL.revokeObjectURL(address), 1000);
  }

  // A copy in which each element has the style that the page gives it.
  function styledCopy(sheet) {
    const copy = sheet.cloneNode(true), copies = copy.querySelectorAll('*');
    sheet.querySelectorAll('*').forEach((node, index) => {
      const style = getComputedStyle(node);
      for (const name of KEPT) copies[index].setAttribute(name, style.getPropertyValue(name));
    });
    return copy;
  }

  // The map as one picture.
  function mapCopy() {
    const [copy, ...upper] = viewer.map.sheets.map(styledCopy);
    for (const sheet of upper) copy.append(...sheet.children);
    copy.querySelectorAll('.cursor').forEach(node => node.remove());
    copy.setAttribute('xmlns', SHAPES);
    return copy;
  }

  function styledMap() {
    const copy = mapCopy(), paper = getComputedStyle(byId('stage')).backgroundColor;
    copy.prepend(shape('title', {}, said('{0}, step {1}: {2}', document.title, view.step, run.steps[view.step].text)),
      shape('rect', { width: '100%', height: '100%', fill: paper }));
    return new XMLSerializer().serializeToString(copy);
  }

  // The registers and granules that aren't null, each with its meaning, the blocks and the dirty pages, by rising place.
  function shownState() {
    const step = run.steps[view.step], cells = (list, name) => list.flatMap((cell, place) => (cell.isNull ? [] : [{ [name]: place, tag: cell.tag,
      word: cell.word, address: hex(cell.meaning.address), base: hex(cell.meaning.base), top: hex(cell.meaning.top) }]));
    return { heap: { base: hex(run.base), pages: run.pages }, step: view.step, line: step.line, text: step.text, reply: step.reply,
      side: view.side, open: state.open, registers: cells(state.registers, 'r'), granules: cells(state.granules, 'i'),
      blocks: viewer.sortedBlocks().map(block => ({ base: hex(block.base), top: hex(block.top), state: block.state })),
      dirty: [...state.dirty].sort((one, other) => one - other) };
  }

  function listenToSave() {
    byId('save-map').onclick = () => save(`map_${view.step}.svg`, 'image/svg+xml', styledMap());
    byId('save-state').onclick = () => save(`state_${view.step}.json`, 'application/json', JSON.stringify(shownState(), null, 1) + '\n');
  }

  Object.assign(viewer, { save, mapCopy, listenToSave });
}
