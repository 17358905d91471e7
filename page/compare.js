// What differs between the step that is shown and another one: each register, granule and block, as it is after both.

import { bornAs, rangeOf, stateName } from './cursor.js';
import { element, hex } from './dom.js';
import { said, saidCount } from './say.js';

export function addComparison(viewer) {
  const { run, view, byId } = viewer;

  viewer.comparedWith = null; // the step, where there is one

  // What the steps after one, up to another one, changed and left changed: registers and granules by their places, then blocks.
  function differencesOf(from, to) {
    const found = new Map(), note = (key, row, was, now) => found.set(key, { ...row, was: found.has(key) ? found.get(key).was : was, now });
    for (const step of run.steps.slice(from + 1, to + 1)) {
      for (const kind of ['register', 'granule']) {
        for (const { place, was, now } of step[kind + 's']) note(kind + place, { kind, place, name: run.namesOfPlaces[kind](place) }, was, now);
      }
      for (const { block, was, now, born } of step.blocks) {
        const row = { kind: 'block', place: block.start, end: block.end, name: rangeOf(block) };
        note(block.key, row, { state: was, born: born.was }, { state: now, born: born.now });
      }
    }
    const isSame = ({ kind, was, now }) => (kind !== 'block' ? was.tag === now.tag && was.word === now.word
      : was.state === now.state && (was.state === null || was.born === now.born));
    const kinds = ['register', 'granule', 'block'], rank = row => kinds.indexOf(row.kind);
    return [...found.values()].filter(row => !isSame(row))
      .sort((one, other) => rank(one) - rank(other) || one.place - other.place || one.end - other.end);
  }

  // What a register, a granule or a block is, in a few words.
  function inWords(kind, thing) {
    if (kind === 'block') return thing.state === null ? said('free') : said('{0}, of {1}', stateName(thing.state), bornAs(thing.born));
    if (thing.isNull) return said('null');
    const { address, base, top } = thing.meaning;
    if (kind === 'granule' && !thing.tag) return said('no tag, bytes {0}', thing.word.match(/.{1,8}/g).join(' '));
    const where = [address, base, top].map(hex);
    return thing.tag ? said('tagged, {0} in {1} to {2}', ...where) : said('no tag, {0} in {1} to {2}', ...where);
  }

  const differenceRow = ({ kind, name, was, now }) => element('tr', {}, element('th', { scope: 'row' }, kind === 'block' ? said('block {0}', name) : name),
    [was, now].map(thing => element('td', {}, inWords(kind, thing))));

  // In words why there is nothing to compare with, or else the differences, the earlier step first.
  function comparison() {
    const { line } = run.steps[view.step];
    if (viewer.comparedWith === null) return [said('Type a line to see what differs between it and this one.')];
    if (viewer.isHidden(viewer.comparedWith)) return [said('What comes later is hidden while you are asked first.')];
    const [from, to] = [viewer.comparedWith, view.step].sort((one, other) => one - other), rows = differencesOf(from, to);
    if (!rows.length) return [said('Nothing differs between line {0} and line {1}.', run.steps[viewer.comparedWith].line, line)];
    const heads = ['', ...[from, to].map(index => said('After line {0}', run.steps[index].line))], more = rows.length - viewer.TOLD_TAGS;
    return [element('table', {}, element('caption', {}, more > 0 ? saidCount('and {0} difference more | and {0} differences more', more) : ''),
      element('thead', {}, element('tr', {}, heads.map(text => element('th', { scope: 'col' }, text)))),
      element('tbody', {}, rows.slice(0, viewer.TOLD_TAGS).map(differenceRow)))];
  }

  function drawComparison() {
    if (byId('compare').open) byId('differences').replaceChildren(...comparison());
  }

  function compareWith(step) {
    viewer.comparedWith = step;
    byId('compare').open = byId('compare').open || step !== null;
    byId('other').value = step === null ? '' : run.steps[step].line;
    drawComparison();
  }

  function listenToComparison() {
    byId('compare').addEventListener('toggle', drawComparison);
    byId('other').addEventListener('change', () => {
      const text = byId('other').value.trim(), step = text === '' ? null : viewer.stepOfLine(text);
      byId('other').setAttribute('aria-invalid', String(text !== '' && step === null));
      viewer.comparedWith = step;
      drawComparison();
      viewer.keepAddress();
    });
  }

  Object.assign(viewer, { drawComparison, compareWith, listenToComparison });
}
