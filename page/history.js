// Of the register or the granule that is chosen, and of the block that has the granule or the register's base: which step wrote it,
// and the steps that changed it before and after.

import { code, element } from './dom.js';
import { grouped, said, say } from './say.js';

export function addHistory(viewer) {
  const { run, view, byId, isTyped, cursor: state } = viewer;

  function changeFrom(subject, index, by) {
    while (run.steps[index] && !viewer.isChangeOf(run.steps[index], subject)) index += by;
    return run.steps[index] ? index : null;
  }

  function subjectsShown() {
    if (!view.chosen || view.chosen.kind === 'word') return [];
    const { kind, place } = view.chosen, { base } = viewer.chosenWord().meaning;
    const granule = kind === 'granule' ? place : run.isInHeap(base) && !viewer.chosenWord().isNull ? Math.floor(run.granulesTo(base)) : null;
    return [{ kind, place, name: viewer.chosenCell().name },
      ...(granule === null ? [] : [{ kind: 'block', place: granule, name: kind === 'granule' ? said('its block') : said('the block of its base') }])];
  }

  // For keys: those of the block are the same with Shift.
  const HISTORY = { wrote: ['w', said('last change')], earlier: ['[', said('change before')], later: [']', said('next change')] };
  const SHIFTED = { w: 'W', '[': '{', ']': '}' };

  const placesInTime = subject => ({ wrote: changeFrom(subject, view.step, -1), earlier: changeFrom(subject, view.step - 1, -1),
    later: view.ask ? null : changeFrom(subject, view.step + 1, 1) }); // what comes is not told to who wants to be asked first

  // Of a granule's block, the tagged words that have their base in it.
  function pointersInto(place) {
    const block = state.ownerAt(place);
    if (!block) return '';
    const names = state.taggedRows().filter(row => state.ownerOf(row.cell.meaning.base) === block).map(row => row.name), more = names.length - 20;
    const told = names.slice(0, 20).join(', ') || said('none');
    return ' ' + (more > 0 ? said('Tagged words with their base in it: {0} and {1} more.', told, grouped(more)) : said('Tagged words with their base in it: {0}.', told));
  }

  // There, and what is chosen stays so.
  function goInHistory(index) {
    if (index === null) return;
    view.follow = false;
    viewer.go(index);
  }

  function drawHistory() {
    const focused = /** @type {HTMLElement | null} */ (document.activeElement)?.dataset.history;
    byId('history').replaceChildren(...subjectsShown().map(historyOf));
    const again = focused && byId('history').querySelector(`[data-history="${focused}"]`);
    if (again) again.focus({ preventScroll: true });
  }

  function historyOf(subject) {
    const to = placesInTime(subject), step = to.wrote === null ? null : run.steps[to.wrote];
    const button = ([name, [key, text]]) => element('button', { 'data-history': `${subject.kind} ${name}`,
      'aria-disabled': to[name] === null ? 'true' : null, 'aria-label': said('{0} of {1}', text, subject.name),
      title: said('Key {0}', subject.kind === 'block' ? SHIFTED[key] : key), onclick: () => goInHistory(placesInTime(subject)[name]) }, text);
    const name = element('b', {}, subject.name);
    const told = step ? say('{0}: changed last by line {1}, {2}.', name, step.line, code(step.text)) : say('{0}: no step up to here changed it.', name);
    return element('div', { class: 'bar', 'data-about': subject.kind === 'block' ? 'block' : 'own' },
      element('span', {}, told, subject.kind === 'block' ? pointersInto(subject.place) : ''),
      ...Object.entries(HISTORY).map(button));
  }

  function keyOfHistory(event) {
    if (isTyped(event)) return;
    const [own, block] = subjectsShown();
    for (const [name, [key]] of Object.entries(HISTORY)) {
      const subject = event.key === key ? own : event.key === SHIFTED[key] ? block : null;
      if (subject) goInHistory(placesInTime(subject)[name]);
    }
  }

  Object.assign(viewer, { drawHistory, keyOfHistory });
}
