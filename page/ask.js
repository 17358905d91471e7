// Ask first: what comes after the step is hidden in the list, and before a pass the reader ticks which tags it will take.

import { code, element } from './dom.js';
import { grouped, said, say } from './say.js';

export function addAsking(viewer) {
  const { run, view, byId, cursor: state } = viewer;

  const ticks = new Map(); // of each pass that was asked for, the names of the places that are ticked
  const given = new Set(); // the passes whose answer was shown: what was ticked stays
  let hiddenFrom = null, askedFor = null;

  function toggleAsk() {
    view.ask = !view.ask;
    byId('ask').setAttribute('aria-pressed', String(view.ask));
    document.body.classList.toggle('asking', view.ask);
    viewer.refit();
    viewer.keepAddress();
  }

  // Replies and comments of the steps from this one on, in the rows that are there; others are made so.
  function hideLater() {
    const count = run.steps.length, from = view.ask ? view.step + 1 : count;
    if (from === (hiddenFrom ?? count)) return;
    hiddenFrom = from;
    if (viewer.isFiltered()) viewer.filterList();
    for (const button of byId('lines').querySelectorAll('[data-step]')) {
      button.parentNode.classList.toggle('later', viewer.isHidden(Number(button.dataset.step)));
    }
    byId('lines').querySelector('.end').classList.toggle('later', from < count);
  }

  function drawAsk() {
    hideLater();
    const next = view.step + 1, asks = view.ask && view.side === 'after' && next < run.steps.length && mayPass(run.steps[next]);
    const isJudged = view.ask && ticks.has(view.step) && view.side !== 'before';
    if (isJudged) given.add(view.step);
    byId('judged').replaceChildren(...(isJudged ? judge(run.steps[view.step], ticks.get(view.step)) : []));
    if (askedFor === (asks ? next : null)) return;
    askedFor = asks ? next : null;
    byId('guess').replaceChildren(...(asks ? question(next) : []));
  }

  // A pass; and a malloc that may make one, so that it isn't given away which does: where a block waits, and no epoch is open.
  const mayPass = ({ words, taken }) => (words[0] !== 'malloc' ? taken
    : !state.open && [...state.blocks.values()].some(block => block.state === 'waiting'));

  function question(next) {
    if (!ticks.has(next)) ticks.set(next, new Set());
    const chosen = ticks.get(next), places = state.taggedRows().map(row => row.name), more = places.length - viewer.TOLD_TAGS;
    const box = name => element('label', {}, element('input', { type: 'checkbox', 'data-tick': name, checked: chosen.has(name), disabled: given.has(next),
      onchange: event => { chosen[event.target.checked ? 'add' : 'delete'](name); } }), ' ', ...called(name));
    const isMalloc = run.steps[next].words[0] === 'malloc';
    if (!places.length) {
      return [element('p', {}, isMalloc ? said('The next line is a malloc, which sweeps first where it finds no place, and nothing is tagged.')
        : said('The next line is a pass, and nothing is tagged.'))];
    }
    const asked = isMalloc ? said('The next line is a malloc, which sweeps first where it finds no place. Will it, and which tags go?')
      : said('The next line is a pass. Which tags will it take?');
    return [element('p', { id: 'question' }, asked), element('div', { class: 'bar', role: 'group',
      'aria-labelledby': 'question' }, places.slice(0, viewer.TOLD_TAGS).map(box), more > 0 ? said('and {0} more', grouped(more)) : null)];
  }

  const called = name => (name.startsWith('0x') ? say('granule {0}', code(name)) : [code(name)]);

  // What the pass took, beside what was ticked.
  function judge(step, chosen) {
    const isEmpty = !chosen.size, mark = (isRight, text) => element('b', { class: isRight ? 'kept' : 'gone' }, text), right = mark(true, said('right'));
    if (!step.taken) {
      return isEmpty ? say('You ticked nothing: {0}, it found a place, so it made no sweep.', right)
        : say('Your ticks: {0}, it found a place, so it made no sweep.', mark(false, said('not taken')));
    }
    const took = step.taken.rows.map(row => row.name), all = new Set(took);
    const kinds = /** @type {[Node, string[]][]} */ ([[right, [...chosen].filter(name => all.has(name))],
      [mark(false, said('not taken')), [...chosen].filter(name => !all.has(name))],
      [mark(false, said('taken, and not ticked')), took.filter(name => !chosen.has(name))]]).filter(([, names]) => names.length);
    const more = names => (names.length > viewer.TOLD_TAGS ? ' ' + said('and {0} more', grouped(names.length - viewer.TOLD_TAGS)) : '');
    const part = ([kind, names], index) => [index ? '; ' : '', kind, ' ', names.slice(0, viewer.TOLD_TAGS).join(', '), more(names)];
    const told = kinds.length ? kinds.flatMap(part) : say('{0}, it took none', right);
    return isEmpty ? say('You ticked nothing: {0}.', told) : say('Your ticks: {0}.', told);
  }

  Object.assign(viewer, { ticks, toggleAsk, drawAsk });
}
