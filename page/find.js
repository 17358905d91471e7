// To a line; and the steps that the list has: by what came of them, and by a register, an address or a text.

import { WHOLE } from './pieces.js';
import { said, saidCount } from './say.js';

export function addFind(viewer) {
  const { run, view, byId, isTyped } = viewer;

  const KINDS = {
    all: () => true,
    traps: step => step.reply.startsWith('trap'),
    passes: step => step.taken !== null,
    nospace: step => step.reply.startsWith('nospace'),
  };

  // A register: steps that name or change it, or take its tag. An address: steps that change its granule, or a block that has it.
  // Else the text stands in the line, in the reply or in a note.
  function isAbout(text) {
    const asked = text.trim().toLowerCase(), says = step => [step.text, step.reply, ...step.notes].join('\n').toLowerCase().includes(asked);
    if (asked === '') return () => true;
    if (/^c([0-9]|[12][0-9]|3[01])$/.test(asked)) {
      const subject = { kind: 'register', place: Number(asked.slice(1)) };
      return step => step.words.slice(1).includes(asked) || isChangeOf(step, subject);
    }
    if (!/^0x[0-9a-f]{1,16}$/.test(asked) || !run.isInHeap(BigInt(asked))) return says;
    const place = Math.floor(run.granulesTo(BigInt(asked)));
    return step => isChangeOf(step, { kind: 'granule', place }) || isChangeOf(step, { kind: 'block', place }) || says(step);
  }

  // Whether a step changed a register, a granule, or the block of a granule.
  function isChangeOf(step, { kind, place }) {
    if (kind === 'block') return step.blocks.some(({ block }) => block.start <= place && place < block.end);
    return step[kind + 's'].some(change => change.place === place);
  }

  // Of a step that is hidden its line is told, and nothing that came of it.
  const toldOf = index => (!viewer.isHidden(index) ? run.steps[index]
    : { ...run.steps[index], reply: '', notes: [], taken: null, registers: [], granules: [], blocks: [] });

  const isFiltered = () => byId('kind').value !== 'all' || byId('asked').value.trim() !== '';

  function filterList() {
    const isOfKind = KINDS[byId('kind').value], isAsked = isAbout(byId('asked').value);
    const found = [...run.steps.keys()].filter(index => isOfKind(toldOf(index)) && isAsked(toldOf(index)));
    const isWhole = found.length === run.steps.length;
    byId('listed').textContent = isWhole ? '' : found.length ? saidCount('{0} step | {0} steps', found.length) : said('no such step');
    for (const name of ['listed-back', 'listed-next']) byId(name).disabled = isWhole || !found.length;
    viewer.currentRow = null;
    viewer.list.show(found);
    viewer.drawCurrentRow();
    if (!viewer.currentRow) byId('lines').scrollTop = 0;
  }

  // To the next step of the list, or the one before; past its end to its beginning.
  function goInList(by) {
    const { items } = viewer.list, here = viewer.positionOf(view.step), isHere = items[here] === view.step;
    if (items.length) viewer.go(items.at((by < 0 ? here - 1 : isHere ? here + 1 : here) % items.length));
  }

  // The first step on this line or after it, else the last one; null where the text is no number.
  function stepOfLine(text) {
    if (!/^[0-9]{1,9}$/.test(text.trim())) return null;
    const index = run.steps.findIndex(step => step.line >= Number(text));
    return index < 0 ? run.steps.length - 1 : index;
  }

  function goToLine(text) {
    const index = stepOfLine(text);
    byId('line').setAttribute('aria-invalid', String(index === null));
    if (index !== null) viewer.go(index);
  }

  function listenToFind() {
    byId('kind').addEventListener('change', filterList);
    byId('asked').addEventListener('input', filterList);
    byId('asked').addEventListener('keydown', event => {
      if (event.key === 'Enter') goInList(event.shiftKey ? -1 : 1);
      else if (event.key === 'Escape') (viewer.currentRow || byId('lines').querySelector('[data-step]') || byId('asked')).focus();
    });
    byId('line').addEventListener('change', () => goToLine(byId('line').value));
    byId('listed-back').onclick = () => goInList(-1);
    byId('listed-next').onclick = () => goInList(1);
  }

  function goToSearch() {
    if (view.present) return; // it is out of sight then
    byId('asked').focus();
    byId('asked').select();
  }

  function keyOfFind(event) {
    const isSearch = (event.ctrlKey || event.metaKey) && event.key === 'f', isSecond = document.activeElement === byId('asked');
    if (isSearch && viewer.list.items.length > WHOLE && !isSecond && !view.present && !byId('keys').open) {
      event.preventDefault(); // the browser's own search does not see rows that are not there; a second time it is the browser's
      goToSearch();
    } else if (event.key.toLowerCase() === 'n' && !isTyped(event)) goInList(event.key === 'n' ? 1 : -1);
  }

  Object.assign(viewer, { KINDS, isChangeOf, isFiltered, filterList, stepOfLine, listenToFind, goToSearch, keyOfFind });
}
