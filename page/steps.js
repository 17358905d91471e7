// From step to step and from side to side, and what a step is about.

import { clamp, code, element, hex } from './dom.js';
import { bornAs, rangeOf, reasonOf } from './cursor.js';
import { said, saidCount } from './say.js';

export function addSteps(viewer) {
  const { run, view, byId, cursor: state } = viewer;

  function go(to) {
    view.step = clamp(to, 0, run.steps.length - 1);
    view.side = 'after';
    state.moveTo(view.step);
    if (view.follow) follow();
    draw(true);
  }

  // The sides from which a pass can be looked at, each with its name. A malloc that sweeps has one more, between the two.
  function sidesOf(step) {
    if (!step.taken) return [];
    return step.words[0] === 'malloc' ? [['before', said('before')], ['between', said('after the sweep')], ['after', said('after the malloc')]]
      : [['before', said('before')], ['after', said('after')]];
  }

  // The side on which the pass is done, and no more than that.
  const passedSide = step => (step.words[0] === 'malloc' ? 'between' : 'after');

  // The state that is shown: that after the step, before a pass, or between the two.
  function show(side) {
    view.side = side;
    state.moveTo(side === 'after' ? view.step : view.step - 1);
    if (side === 'between') state.enterBetween(run.steps[view.step]);
    draw(false);
  }

  // What a step is about: the granule or the register that it wrote, or whose tag it took, or else the register that it names.
  function subjectOf(step) {
    const named = step.words.slice(1).filter(word => /^c[0-9]+$/.test(word));
    if (step.granules.length && !step.taken) return { kind: 'granule', place: step.granules[0].place };
    if (step.registers.length) return { kind: 'register', place: step.registers[0].place };
    if (step.taken && step.taken.rows.length) return { kind: step.taken.rows[0].kind, place: step.taken.rows[0].place };
    if (!named.length) return null;
    const acting = step.words[0] === 'narrow' || step.words[0] === 'loadcap' ? named[1] : named[0];
    return { kind: 'register', place: Number(acting.slice(1)) };
  }

  // To what the step is about, or the last step before it that is about something.
  function follow() {
    let index = view.step;
    while (index > 0 && !subjectOf(run.steps[index])) index--;
    view.chosen = index > 0 ? subjectOf(run.steps[index]) : null;
    view.probe = null;
  }

  // By hand: then the inspector stays with it, and a second time lets it go.
  function choose(kind, place) {
    const same = view.chosen && view.chosen.kind === kind && view.chosen.place === place && !view.follow;
    view.chosen = same ? null : { kind, place };
    view.probe = null;
    view.follow = false;
    draw(false);
  }

  function draw(scroll) {
    drawStep();
    viewer.drawRegisters();
    viewer.drawBlocks();
    viewer.drawMap();
    if (scroll) viewer.drawInspectorSoon(); else viewer.drawInspector();
    viewer.drawComparison();
    viewer.drawSums();
    viewer.drawThree();
    viewer.drawAsk();
    viewer.keepAddress();
    viewer.host.onStep?.(run.steps[view.step], view);
    // What asks where things lie comes last, so that the page is laid out once.
    viewer.drawPosition();
    if (scroll) viewer.scrollMap(viewer.map.shape);
    for (const set of Object.values(state.touched)) set.clear();
  }

  function drawStep() {
    const step = run.steps[view.step];
    const command = element('span', { class: 'command' }, code(step.text), step.reply ? [' → ', code(step.reply)] : null);
    byId('what').replaceChildren(element('p', { class: 'line' }, command, viewer.otherwise(step)),
      element('p', {}, ...viewer.explain(step)));
    byId('epoch').hidden = !state.open;
    const button = ([side, name]) => element('button', { 'aria-pressed': String(view.side === side), 'data-side': side, onclick() {
      show(side);
      byId('sides').querySelector(`[data-side=${side}]`).focus();
    } }, name);
    byId('sides').replaceChildren(...sidesOf(step).map(button));
    byId('taken').replaceChildren(...(step.taken && step.taken.rows.length ? [takenTable(step)] : []));
  }

  function takenTable({ taken, words }) {
    const of = words[0] === 'begin' || words[0] === 'end' ? said('lies in the painted block of') : said('lies in the held block of');
    const heads = [said('Tag taken from'), said('Its address'), said('Its base'), of].map(text => element('th', { scope: 'col' }, text));
    const lines = taken.rows.slice(0, viewer.TOLD_TAGS).map(row => {
      const block = reasonOf(taken, row);
      const { address, base } = row.cell.meaning, reason = block ? [bornAs(taken.born.get(block)), ', ', code(rangeOf(block))] : [said('none')];
      return element('tr', {}, [[code(row.name)], [code(hex(address))], [code(hex(base))], reason].map(content => element('td', {}, content)));
    });
    const more = taken.rows.length > viewer.TOLD_TAGS ? saidCount('and {0} tag more | and {0} tags more', taken.rows.length - viewer.TOLD_TAGS) : null;
    const first = taken.rows.length > viewer.DRAWN_REASONS ? said('The map has lines for the first {0}.', viewer.DRAWN_REASONS) : null;
    return element('table', {}, element('caption', {}, [more, first].filter(Boolean).join('. ')),
      element('thead', {}, element('tr', {}, heads)), element('tbody', {}, lines));
  }

  function stopPlaying() {
    clearInterval(view.timer);
    view.timer = null;
    byId('play').textContent = said('Play');
    byId('play').setAttribute('aria-pressed', 'false');
  }

  function play() {
    if (view.timer !== null) return stopPlaying();
    if (view.step === run.steps.length - 1) go(0);
    view.timer = setInterval(() => go(view.step + 1), 1800);
    byId('play').textContent = said('Pause');
    byId('play').setAttribute('aria-pressed', 'true');
  }

  Object.assign(viewer, { go, sidesOf, passedSide, show, subjectOf, follow, choose, draw, stopPlaying, play });
}
