// Tasks: which one is set, the panel that tells what of it is met, what is handed in, and the fields in which a teacher sets one.

import { element } from '../dom.js';
import { said, say } from '../say.js';
import { saveText } from './files.js';
import { CONDITIONS, handedIn, isGoalMet, judgeGoal, taskOfText, verdictOf, withTask, withoutTask } from './goal.js';
import { isSameGoal, toldOfCommands, toldOfGoal, toldOfHeap, whoseTask } from './whose.js';

/**
 * What a run came to: none where nothing has run. A run of a part of a faulty text isn't judged.
 * @typedef {{ run: import('../run.js').Run | null, fault: { line: number, name: string } | null, isAtOnce: boolean } | null} Outcome
 * @typedef {import('./goal.js').Task} Task
 * A task of a lesson has hints, and the text with which it begins.
 * @typedef {Task & { hints?: string[], text?: string }} Shown
 * What the playground has for tasks: those of the lessons, the text of the editor, and who takes a text, copies a link and keeps the address.
 * @typedef {{ known: import('./whose.js').Known[], textNow: () => string, begin: (text: string) => void, copyLink: () => void, keepAddress: () => void,
 *   announce: (message: string) => void }} TaskHost
 */

// Each hint lies within the one before it, so that they are opened one after another.
/** @param {string[]} hints @returns {any} */
function foldedHints(hints, summary = said('Hint')) {
  const [hint, ...more] = hints;
  if (hints.length === 0) return '';
  return element('details', { class: 'hint' }, element('summary', {}, summary), element('p', {}, hint), foldedHints(more, said('One more hint')));
}

function conditionRow({ text, isMet, found }) {
  const told = isMet ? found : found ? said('not yet, {0}', found) : said('not yet');
  const mark = element('span', { class: isMet ? 'kept' : 'refused', role: 'img', 'aria-label': isMet ? said('holds') : said('not yet') }, isMet ? '✓' : '✗');
  return element('li', { 'data-met': String(isMet) }, mark, ' ', text, element('span', { class: 'muted' }, `: ${told}`));
}

// Why a run can't be judged; empty where it can.
/** @param {Outcome} outcome */
function whyNot(outcome) {
  if (outcome?.fault) return said('line {0} has a fault, {1}', outcome.fault.line, outcome.fault.name);
  if (outcome?.isAtOnce) return said('without quarantine nothing is judged');
  return outcome === null ? said('nothing has run') : outcome.run ? '' : said('what has no map isn’t judged');
}

export class Tasks {
  /** @param {(id: string) => any} byId @param {TaskHost} host */
  constructor(byId, host) {
    this.byId = byId;
    this.host = host;
    /** @type {Task | null} */
    this.set = null; // by a link, a lesson, a file or the fields
    /** @type {Task | null} */
    this.came = null; // by a link or a lesson, or that to which a file came
    this.own = null; // that the trace tells in its comments, which comes first
    /** @type {Outcome | 'waits'} */
    this.outcome = 'waits';
    this.shown = '';
    this.listen();
  }

  /** @returns {Shown | null} */
  get task() {
    const told = this.own ?? this.set;
    if (told === null) return null;
    const known = this.host.known.find(({ goal }) => isSameGoal(goal, told.goal));
    return { ...known, goal: told.goal, asks: told.asks || (known?.asks ?? '') };
  }

  // The parts of an address that tell it, beside those of the trace.
  address() {
    if (this.own || !this.set) return [];
    const part = name => (this.set[name] ? [new URLSearchParams({ [name]: this.set[name] }).toString().replaceAll('+', '%20')] : []);
    return [...part('goal'), ...part('asks')];
  }

  takeAddress(address) {
    const told = new URLSearchParams(address.slice(1)), goal = (told.get('goal') ?? '').trim();
    this.came = this.set = goal ? { goal, asks: told.get('asks') ?? '' } : null;
    this.tell();
  }

  // The trace of a file, whose head tells its task.
  takeText(text) {
    const rest = withoutTask(text), task = rest.length < text.length ? taskOfText(text.slice(0, text.length - rest.length)) : null;
    if (task) [this.came, this.set] = [this.set ?? task, task];
    return rest;
  }

  // A text with the task in its head, so that a file keeps it.
  textToSave(text) { return this.set && !this.own ? withTask(this.task, [], text) : text; }

  choose(task, came = task) {
    [this.set, this.came] = [task, came];
    this.host.keepAddress();
    this.tell();
  }

  // A text is about to run.
  begins(text) {
    this.own = taskOfText(text);
    this.ends('waits');
  }

  /** @param {Outcome | 'waits'} outcome */
  ends(outcome) {
    this.outcome = outcome;
    this.tell();
  }

  result() {
    const outcome = /** @type {Outcome} */ (this.outcome), why = whyNot(outcome), run = why ? null : outcome.run;
    const text = withoutTask(this.host.textNow()), whose = whoseTask(this.task, this.own ? this.set ?? this.came : this.came, this.host.known, text);
    const heap = toldOfHeap(whose, text), told = toldOfGoal(whose, run).concat(heap), isOther = whose.others.length + heap.length > 0;
    return { judged: judgeGoal(this.task.goal, run), why, run, others: whose.others, told, isOther, about: told.concat(toldOfCommands(whose, text)) };
  }

  // What stands in the panel is made anew for another task alone: hints that are open stay so.
  tell() {
    const { task, byId } = this, key = JSON.stringify([task, this.own !== null]);
    if (this.shown !== key) this.showTask(task);
    this.shown = key;
    for (const button of document.querySelectorAll('[data-goal]')) {
      button.setAttribute('aria-pressed', String(button.getAttribute('data-goal') === task?.goal));
    }
    if (task === null) return;
    const waits = this.outcome === 'waits';
    byId('hand-in').disabled = waits;
    byId('goal').classList.toggle('waits', waits);
    if (!waits) this.tellResult(this.result());
  }

  tellResult({ judged, why, told, isOther }) {
    const met = this.byId('met'), text = why ? said('not yet: {0}', why) : verdictOf(judged);
    if (met.textContent !== text) met.textContent = text;
    met.className = isGoalMet(judged) ? 'kept' : 'refused';
    this.byId('conditions').replaceChildren(...judged.map(conditionRow));
    this.byId('whose').textContent = told.join(' ');
    this.byId('whose').className = isOther ? 'refused' : 'muted';
  }

  showTask(task) {
    const { byId } = this, place = byId('goal');
    this.fillFields(task);
    place.hidden = task === null;
    if (task === null) return place.replaceChildren();
    const button = (id, text, onclick, title = null) => element('button', { id, title, onclick }, text);
    const buttons = [button('hand-in', said('Hand in'), () => this.handIn(), said('The task, what is met, the last replies and the trace: as a file, and copied')),
      task.text && button('again', said('Begin again'), () => this.host.begin(task.text), said('The trace with which the task begins')),
      !this.own && button('leave', said('Leave the task'), () => this.choose(null))];
    place.replaceChildren(element('h2', {}, say('Task: {0}', element('b', { id: 'met', role: 'status' }))), element('p', { id: 'asks' }, task.asks),
      element('ul', { id: 'conditions' }), element('p', { id: 'whose' }), foldedHints(task.hints ?? []), element('div', { class: 'bar' }, buttons));
  }

  async handIn() {
    const text = handedIn(this.task, this.result(), this.host.textNow());
    saveText('handed_in.txt', text);
    try {
      await navigator.clipboard.writeText(text);
      this.host.announce(said('The text to hand in was saved as handed_in.txt, and copied.'));
    } catch {
      this.host.announce(said('The text to hand in was saved as handed_in.txt.'));
    }
  }

  // A trace that tells its task itself is not overruled by the fields; and what is typed into them stays.
  fillFields(task) {
    const isTyped = this.byId('set').contains(document.activeElement);
    for (const [id, name] of [['set-asks', 'asks'], ['set-goal', 'goal']]) {
      const field = this.byId(id);
      field.readOnly = this.own !== null;
      if (!isTyped || this.own) field.value = task ? task[name] : '';
    }
    this.byId('set-own').hidden = this.own === null;
  }

  listen() {
    const { byId } = this;
    const value = id => byId(id).value, take = () => this.choose(value('set-goal').trim() ? { goal: value('set-goal'), asks: value('set-asks') } : null, this.came);
    for (const id of ['set-asks', 'set-goal']) byId(id).addEventListener('input', take);
    byId('set-copy').onclick = () => this.host.copyLink();
    const form = ({ forms, more }) => element('li', {}, forms.join('; '), element('span', { class: 'muted' }, ` (${more})`));
    const forms = CONDITIONS.map(form);
    byId('forms').replaceChildren(...forms);
  }
}
