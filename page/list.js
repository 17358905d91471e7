// The trace with its notes and replies: all of its steps, or those that are asked for (find.js). Only the rows that are current
// change from step to step.

import { code, element } from './dom.js';
import { Pieces } from './pieces.js';
import { grouped, inTags, said } from './say.js';

export function addList(viewer) {
  const { run, view, byId } = viewer;

  viewer.list = null;
  viewer.currentRow = null; // the button of the step, where the list has it

  // What Ask first hides: all but the lines of what comes after the step.
  const isHidden = index => view.ask && index > view.step;

  const notesOf = notes => notes.filter(note => note !== '').map(note => element('p', { class: 'note' }, note));

  function rowOf(index) {
    const step = run.steps[index];
    const button = element('button', { 'data-step': index, tabindex: -1 }, element('span', { class: 'number' }, String(step.line)),
      code(step.text), step.reply ? element('span', { class: 'reply' }, step.reply) : null);
    const kinds = [step.reply.startsWith('trap') && 'trap', isHidden(index) && 'later'].filter(Boolean);
    return element('li', { class: kinds.join(' ') || null }, ...notesOf(step.notes), button);
  }

  function drawList(own) {
    const { live, held, free, tags } = run.end, holder = element('div');
    byId('lines').classList.toggle('long', run.steps[run.steps.length - 1].line > 999);
    byId('lines').append(holder, element('div', { class: 'end' }, ...notesOf(own.after),
      said('At the end: {0} bytes live, {1} held, {2} free, {3}.', grouped(live), grouped(held), grouped(free), inTags(tags))));
    viewer.list = new Pieces(byId('lines'), holder, first => element('ol', { 'aria-label': said('Steps from {0} on', first) }), rowOf, viewer.longLists);
    viewer.list.show([...run.steps.keys()]);
    byId('lines').addEventListener('click', event => {
      const button = event.target.closest('[data-step]');
      if (button) viewer.go(Number(button.dataset.step));
    });
  }

  // Where the list has a step, or else the first one after it; both are its length where there is none.
  function positionOf(step) {
    let low = 0, high = viewer.list.items.length;
    while (low < high) {
      const middle = (low + high) >> 1;
      if (viewer.list.items[middle] < step) low = middle + 1; else high = middle;
    }
    return low;
  }

  function drawCurrentRow() {
    const position = positionOf(view.step), isThere = viewer.list.items[position] === view.step;
    const row = isThere ? viewer.list.rowAt(position).lastElementChild : null;
    if (row === viewer.currentRow) return;
    const hadFocus = document.activeElement && document.activeElement === viewer.currentRow;
    if (viewer.currentRow) {
      viewer.currentRow.parentNode.classList.remove('current');
      viewer.currentRow.removeAttribute('aria-current');
      viewer.currentRow.tabIndex = -1;
    }
    viewer.currentRow = row;
    if (!row) return;
    row.parentNode.classList.add('current');
    row.setAttribute('aria-current', 'step');
    row.tabIndex = 0;
    if (hadFocus) row.focus({ preventScroll: true });
    bringIntoView();
    requestAnimationFrame(bringIntoView); // once more, when the pieces around it have their rows
  }

  function drawPosition() {
    const last = run.steps.length - 1, step = run.steps[view.step];
    byId('slider').value = view.step;
    byId('slider').setAttribute('aria-valuetext', said('line {0}: {1}, {2}', step.line, step.text, step.reply || said('the heap')));
    byId('count').textContent = said('step {0} of {1}', grouped(view.step), grouped(last));
    for (const name of ['first', 'back']) byId(name).disabled = view.step === 0;
    for (const name of ['next', 'last']) byId(name).disabled = view.step === last;
    if (view.step === last) viewer.stopPlaying();
    drawCurrentRow();
  }

  // With its notes above it, and where there is room the line after it.
  function bringIntoView() {
    if (!viewer.currentRow || viewer.signal.aborted) return;
    const box = byId('lines'), frame = box.getBoundingClientRect(), item = viewer.currentRow.parentNode.getBoundingClientRect();
    const button = viewer.currentRow.getBoundingClientRect(), room = Math.min(40, (frame.height - button.height) / 3);
    if (item.top >= frame.top && button.bottom + room <= frame.bottom) return;
    const top = item.height + room <= frame.height ? item.top : button.top;
    box.scrollTop += top - frame.top - Math.max(0, (frame.height - item.height) / 3);
  }

  Object.assign(viewer, { isHidden, notesOf, drawList, positionOf, drawCurrentRow, drawPosition, bringIntoView });
}
