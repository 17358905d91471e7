// The playground: what is typed runs on each pause, and the map follows.

import { bandShape } from '../band.js';
import { Cursor } from '../cursor.js';
import { element } from '../dom.js';
import { mount, tellFault } from '../main.js';
import { readRun } from '../run.js';
import { shownText } from '../trace.js';
import { dataAtOnce } from './at_once.js';
import { makeEditor } from './editor.js';
import { listenToFiles, saveText } from './files.js';
import { LONGEST_LOG, LONGEST_TRACE, isTooLong, pack, unpack } from '../link.js';
import { grouped, inTags, said, saidCount } from '../say.js';
import { fillMenu, inC, readLessons, showLesson } from './lessons.js';
import { Program } from './program.js';
import { Tasks } from './task.js';

// As in style.css.
const NARROW = matchMedia('(max-width: 899px)');
const PAUSE = 150, SLICE = 8; // ms: after the last key, and of work that a key waits for

let heapViewer = null; // of the run that is shown

const desk = { text: '', lessons: readLessons(), lesson: null, about: null, packed: null, isAtOnce: false, isFallback: false, timer: null, runs: 0, edit: null,
  // What is said before the next answer, and where it stands; and the outcome of the last run.
  notice: '', shownNotice: null, tasks: null, outcome: null };
const program = new Program(), words = new Program();
/** @type {(id: string) => any} */
const byDesk = id => document.querySelector('#' + id);

const announce = (message, isBad = false) => {
  byDesk('said').textContent = message;
  byDesk('said').classList.toggle('refused', isBad);
};

// What is said of a link stands above all else where the editor is out of sight, until the next run.
function announceNotice(notice) {
  announce(notice, true);
  if (NARROW.matches || !byDesk('said').checkVisibility()) desk.shownNotice = tellFault(notice);
}

function takeNoticeAway() {
  desk.shownNotice?.remove();
  byDesk('fault').hidden = byDesk('fault').childNodes.length === 0;
}

// The line of a word, as the program tells it.
async function lineOfWord(hex) {
  const bytes = Uint8Array.from(hex.match(/../g).map(pair => parseInt(pair, 16))), halves = new DataView(bytes.buffer);
  const answer = await words.ask('word', [halves.getBigUint64(0, true), halves.getBigUint64(8, true)]);
  document.body.dataset.word = hex;
  return answer && answer.code === 'done' ? answer.line : null;
}

// The run of a text, or null where a later one has taken its place. It is read a slice at a time, so that no key waits for it.
async function runOf(text, data, number) {
  const reading = readRun(shownText(text), data);
  for (;;) {
    const until = performance.now() + SLICE;
    while (performance.now() < until) {
      const { done, value } = reading.next();
      if (done) return value;
    }
    await new Promise(resolve => { setTimeout(resolve); });
    if (desk.runs !== number) return null;
  }
}

// The step stays where it was as far as the text before it is the same; else the first one that differs is shown.
function keptStep(old, now, step) {
  const count = Math.min(step, now.length - 1);
  for (let index = 0; index <= count; index++) if (old[index]?.text !== now[index].text) return index;
  return count;
}

function addressWith(step) {
  const told = new URLSearchParams(location.hash.slice(1));
  for (const name of ['t', 'lesson', 'at_once', 'goal', 'asks']) told.delete(name);
  told.set('step', String(step));
  return '#' + [...originOf(), told.toString()].join('&');
}

// Of an address how the page looks, and nothing of what it shows.
function looksOf() {
  const told = new URLSearchParams(location.hash.slice(1));
  return ['embed', 'present', 'ask'].filter(way => told.has(way));
}

function setAddress(address) {
  try {
    history.replaceState(null, '', address);
  } catch { /* inside of another page there may be no address to keep */ }
}

// Where the text comes from, by which allocator it runs, and its task, as an address tells it.
function originOf() {
  const text = desk.lesson ? ['lesson=' + desk.lesson.name] : desk.packed && !isTooLong(desk.packed) ? ['t=' + desk.packed] : [];
  return [...text, ...(desk.isAtOnce ? ['at_once'] : []), ...desk.tasks.address()];
}

// On a narrow screen what happens stands above the editor, for who goes there by Tab or hears the page too: the head and the map, or what is
// told in their place. The editor itself stays, with its keyboard.
function arrange(viewer = heapViewer) {
  const above = byDesk('above'), root = byDesk('root'), place = NARROW.matches && !viewer?.view.present && !viewer?.view.embed ? above : root;
  const focused = /** @type {HTMLElement} */ (document.activeElement), header = document.querySelector('header');
  if (!viewer) place.append(...above.children, ...root.children);
  else if (header.parentNode !== place) {
    place.prepend(header);
    (place === root ? byDesk('three') : header).after(byDesk('stage'));
  }
  if (document.activeElement !== focused) focused.focus({ preventScroll: true });
}

function closeViewer() {
  if (heapViewer) heapViewer.close();
  heapViewer = null;
  byDesk('above').replaceChildren();
}

// Begins at a step, or as an address tells.
function showRun(run, begin) {
  const isAddress = typeof begin === 'string';
  if (heapViewer && !isAddress) heapViewer.writeAddress();
  closeViewer();
  setAddress(isAddress ? begin || '#' : addressWith(begin ?? 0));
  heapViewer = mount(document.querySelector('#root'), new Cursor(run), { arrange, isAtOnce: desk.isAtOnce, origin: originOf, place: placeForOthers, inC: step => inC(desk.about, step.line, step.text), lineOfWord: desk.isFallback ? null : lineOfWord,
    onStep: (shown, { ask }) => {
      desk.edit.showLine(shown.line);
      desk.edit.hideLater(ask ? shown.line : null);
    } });
}

// Takes the map away, and what the address says of it.
function showNoRun(...shown) {
  closeViewer();
  desk.edit.showLine(null);
  setAddress('#' + [...originOf(), ...looksOf()].join('&'));
  byDesk('root').replaceChildren(...shown);
  arrange();
}

// A trace with more commands than a map has: its report, and the band.
function showLong({ report, sums }) {
  const note = saidCount('A trace of more than {1} commands has no map here: this is its report, of {0} byte. | A trace of more than {1} commands has no map here: this is its report, of {0} bytes.', report.length, grouped(20000));
  const told = new TextDecoder().decode(report.subarray(0, 1 << 16)), more = report.length > 1 << 16 ? '…\n' : '';
  showNoRun(element('section', { id: 'long' }, element('p', {}, note),
    sums ? bandOf(sums) : element('p', {}, said('There was no memory for its states, so it has no band.')),
    element('button', { onclick: () => saveText('report.txt', report) }, said('Save the report')), element('pre', {}, told + more)));
}

function bandOf(sums) {
  const last = sums.tags.length - 1, most = sums.live.reduce((greatest, live, step) => Math.max(greatest, live + sums.held[step]), 16);
  const told = said('After its {0} commands: {1} bytes live, {2} held, {3}.', grouped(last), grouped(sums.live[last]), grouped(sums.held[last]), inTags(sums.tags[last]));
  return element('div', {}, element('div', { class: 'track' }, bandShape(byDesk('root').clientWidth - 80, sums, most, { passes: [], traps: [] })), element('p', {}, told));
}

// A log has what an allocator answered, or what is given at its beginning.
const isLog = text => /^[^#\n]*[ \t]->([ \t]|$)/m.test(text) || /^[ \t]*given[ \t]/m.test(text);

// What is said of a log, which stands at the line that it names.
function showSaid(bytes) {
  const verdict = new TextDecoder().decode(bytes), [first] = verdict.split('\n'), at = /^(differs|unsafe|fault [a-z-]+) ([0-9]+)/.exec(first);
  showNoRun(element('section', { id: 'judged-log' }, element('h2', {}, said('A log, judged')), element('pre', {}, verdict),
    element('p', { class: 'muted' }, said('Each answer is one that the definition allows, wherever blocks are placed, or the first is named that isn’t.'))));
  return at ? { line: Number(at[2]), name: at[1], told: first.slice(at[0].length).replace(/^[: ]+/, '') || said('the line isn’t one of a log') } : null;
}

function tellRun(answer, milliseconds) {
  performance.mark('shown');
  document.body.dataset.steps = String(heapViewer ? heapViewer.run.steps.length : 0);
  document.body.dataset.shown = desk.lesson ? desk.lesson.name : '';
  desk.outcome = { run: heapViewer ? heapViewer.run : null, fault: answer.fault ?? null, isAtOnce: desk.isAtOnce };
  desk.edit.showFault(answer.fault ?? null);
  const { notice } = desk;
  desk.notice = '';
  takeNoticeAway();
  if (notice) return announceNotice(notice);
  if (answer.fault?.told) return announce(said('Line {0}: {1}.', answer.fault.line, answer.fault.name), true);
  if (answer.fault) return announce(said('Line {0}: {1}. Shown is what comes before it.', answer.fault.line, answer.fault.name), true);
  if (desk.isAtOnce) return announce(said('Without quarantine: words, tags and traps are the proved program’s, and where blocks lie is this page’s, of which nothing is proved.'));
  announce(desk.isFallback ? said('This is shown as it was recorded, since this browser has no WebAssembly that takes the program.')
    : said('The proved program answered in {0} ms.', Math.round(milliseconds)));
}

async function answerOf(text) {
  if (!desk.isFallback) return program.ask(isLog(text) ? 'log' : 'trace', new TextEncoder().encode(text));
  const lesson = desk.lessons.find(each => each.text === text);
  return lesson ? { code: 'done', bytes: new TextEncoder().encode(lesson.states), text: new TextEncoder().encode(text) } : { code: 'fallback' };
}

function setAtOnce(isAtOnce) {
  desk.isAtOnce = isAtOnce;
  byDesk('at-once').checked = isAtOnce;
}

// The data of the run that is shown: the program's, or that without quarantine. Where that can't be had the switch goes back.
async function dataShown(data) {
  if (!desk.isAtOnce) return data;
  byDesk('stop').disabled = false;
  try {
    return await dataAtOnce(data, text => program.ask('trace', new TextEncoder().encode(text)));
  } catch (problem) {
    setAtOnce(false);
    desk.notice = said('It can’t be shown without quarantine: {0}.', problem.message);
    return data;
  }
}

const REFUSALS = { 'no memory': said('There is no memory for this trace in the browser.'), short: said('There is no memory for the states of this trace in the browser.'),
  fallback: said('Nothing runs here, since this browser has no WebAssembly that takes the program: lessons are shown as they were recorded.') };

// Runs the text of the editor. It begins at a step, or as an address tells, or where null is given it stays.
async function run(begin = null) {
  const number = ++desk.runs, { text } = desk, begun = performance.now();
  performance.mark('run');
  clearTimeout(desk.timer);
  const isJudged = isLog(text), most = isJudged ? LONGEST_LOG : LONGEST_TRACE;
  if (text.length > most) return announce(isJudged ? said('A log has at most {0} bytes.', grouped(most)) : said('A trace has at most {0} bytes.', grouped(most)), true);
  byDesk('stop').disabled = false;
  const answer = await answerOf(text);
  if (desk.runs !== number) return;
  byDesk('stop').disabled = true;
  if (answer === null) return announce(said('Stopped.'), true);
  if (answer.code === 'done' && isJudged) {
    desk.packed = await pack(text);
    if (desk.runs !== number) return;
    return tellRun({ fault: showSaid(answer.bytes) }, performance.now() - begun);
  }
  if (answer.code === 'long') {
    desk.packed = null;
    showLong(answer);
    return tellRun(answer, performance.now() - begun);
  }
  if (answer.code !== 'done') {
    desk.edit.showFault(answer.fault ?? null);
    if (answer.fault) {
      desk.packed = await pack(text);
      if (desk.runs !== number) return;
      showNoRun(element('p', { class: 'muted', id: 'nothing' }, said('Before the faulty line there is no heap to show.')));
      return announce(said('Line {0}: {1}. There is nothing to show before it.', answer.fault.line, answer.fault.name), true);
    }
    return announce(REFUSALS[answer.code] ?? said('The program broke off: {0}.', answer.message), true);
  }
  const part = new TextDecoder().decode(answer.text), old = heapViewer && begin === null ? heapViewer : null;
  const data = await dataShown(new TextDecoder().decode(answer.bytes));
  if (desk.runs !== number) return;
  byDesk('stop').disabled = true;
  if (data === null) return announce(said('Stopped.'), true);
  const [made, packed] = await Promise.all([runOf(part, data, number), pack(text)]);
  if (made === null || desk.runs !== number) return;
  desk.packed = packed;
  showRun(made, old ? keptStep(old.run.steps, made.steps, old.view.step) : begin);
  tellRun(answer, performance.now() - begun);
}

// The same, and says what of the task is met.
async function runForTask(begin = null) {
  const number = desk.runs + 1;
  desk.outcome = null;
  desk.tasks.begins(desk.text);
  await run(begin);
  if (desk.runs === number) desk.tasks.ends(desk.outcome);
}

function setText(text, begin) {
  desk.text = text;
  desk.about = desk.lesson = desk.lessons.find(lesson => lesson.text === text) ?? null;
  if (desk.edit.editor.getValue() !== text) desk.edit.editor.setValue(text);
  byDesk('lesson').value = desk.lesson ? desk.lesson.name : '';
  showLesson(byDesk('about'), desk.about, chooseTask);
  return runForTask(begin);
}

// The tasks of a lesson stay while it is changed, and go where another text takes its place.
function keepAbout() {
  const first = desk.about && desk.about.text.split('\n')[0];
  if (desk.lesson) desk.about = desk.lesson;
  else if (desk.about && !desk.text.startsWith(first)) desk.about = null;
  else return;
  desk.edit.editor.refresh();
  showLesson(byDesk('about'), desk.about, chooseTask);
}

function onTyped(isSet) {
  if (isSet) return;
  desk.text = desk.edit.editor.getValue();
  desk.lesson = desk.lessons.find(lesson => lesson.text === desk.text) ?? null;
  byDesk('lesson').value = desk.lesson ? desk.lesson.name : '';
  byDesk('link').hidden = true;
  keepAbout();
  clearTimeout(desk.timer);
  desk.tasks.ends('waits');
  desk.timer = setTimeout(runForTask, PAUSE);
}

// To the step of a line, or to the first one after it.
function goToLine(line) {
  if (!heapViewer) return;
  const index = heapViewer.run.steps.findIndex(step => step.line >= line);
  heapViewer.go(index < 0 ? heapViewer.run.steps.length - 1 : index);
}

// The text that an address names, and null where it names none; where it means to, that is said.
async function textOfAddress(address) {
  const told = new URLSearchParams(address.slice(1)), name = told.get('lesson'), lesson = desk.lessons.find(each => each.name === name);
  if (lesson) return lesson.text;
  const text = told.has('t') ? await unpack(told.get('t')) : null;
  if (told.has('t') && text === null) desk.notice = said('The link has no trace that can be read: it may have been cut. Shown is another one.');
  else if (name !== null) desk.notice = said('The link names no lesson that is here: {0}. Shown is another trace.', name.slice(0, 60));
  return text;
}

// What the address names is shown, at its step; where it can't be read, what is shown stays, and that is said.
async function openAddress() {
  const address = location.hash, text = await textOfAddress(address);
  if (text === null && desk.notice) {
    takeNoticeAway();
    announceNotice(desk.notice);
    desk.notice = '';
  } else desk.tasks.takeAddress(address);
  const isAtOnce = new URLSearchParams(address.slice(1)).has('at_once');
  if (text === null || text === desk.text && isAtOnce === desk.isAtOnce) return;
  setAtOnce(isAtOnce && !desk.isFallback);
  setText(text, address);
}

function chooseTask(task) {
  desk.tasks.choose({ goal: task.goal, asks: '' });
  byDesk('goal').scrollIntoView({ block: 'nearest' });
}

// The link stands above the editor.
const copyAndShow = () => copyLink().then(() => byDesk('link').scrollIntoView({ block: 'nearest' }));

const taskHost = { known: desk.lessons.flatMap(({ goals }) => goals), textNow: () => desk.text, begin: text => setText(text, 0), copyLink: copyAndShow, announce,
  keepAddress: () => (heapViewer ? heapViewer.keepAddress() : setAddress('#' + [...originOf(), ...looksOf()].join('&'))) };

// A lesson that is chosen begins at its first step, and is a place in the history to go back from.
function openLesson(lesson) {
  const ways = looksOf();
  if (heapViewer) heapViewer.writeAddress();
  const address = '#' + ['lesson=' + lesson.name, ...(desk.isAtOnce ? ['at_once'] : []), ...ways, 'step=0'].join('&');
  try {
    history.pushState(null, '', address);
  } catch { /* inside of another page there may be no history to keep */ }
  desk.tasks.takeAddress(address);
  setText(lesson.text, address);
}

const KEPT_PLACE = 'kernelstint-place';

// Where others find this page: where a file lies is known to this machine alone, so a teacher names a place once.
function placeForOthers() {
  try {
    return localStorage.getItem(KEPT_PLACE) || location.href.split('#')[0];
  } catch {
    return location.href.split('#')[0]; // inside of another page nothing may be kept
  }
}

function keepPlace() {
  const place = byDesk('place').value.trim();
  const isPlace = place === '' || /^https?:\/\/[^ #]+$/.test(place);
  byDesk('place').setAttribute('aria-invalid', String(!isPlace));
  if (!isPlace) return announce(said('A place begins with https:// and has no blanks and no #.'), true);
  try {
    localStorage.setItem(KEPT_PLACE, place);
  } catch {
    return announce(said('This browser keeps nothing for this page.'), true);
  }
  copyLink();
}

async function copyLink() {
  const packed = await pack(desk.text);
  if (isTooLong(packed)) {
    saveText('trace.txt', desk.tasks.textToSave(desk.text));
    return announce(said('This trace is too long for a link, so it was saved as a file.'));
  }
  desk.packed = packed;
  if (heapViewer) heapViewer.writeAddress();
  const place = placeForOthers(), isHere = place.startsWith('file:');
  const address = place + (heapViewer ? heapViewer.addressShown() : '#' + originOf().join('&'));
  byDesk('elsewhere').hidden = location.protocol !== 'file:';
  byDesk('place').value = isHere ? '' : place;
  byDesk('link').value = address;
  byDesk('link').hidden = false;
  byDesk('link').select();
  try {
    await navigator.clipboard.writeText(address);
    announce(isHere ? said('The link was copied. It opens on this machine alone, where this file is: say below where others find it.')
      : said('The link was copied.'));
  } catch {
    announce(said('Here is the link, to be copied.'));
  }
}

function listenToDesk() {
  const menu = byDesk('lesson');
  let isByArrow = false; // who goes through the menu by arrows goes on
  menu.addEventListener('keydown', event => { isByArrow = event.key.startsWith('Arrow'); });
  menu.addEventListener('pointerdown', () => { isByArrow = false; });
  menu.addEventListener('change', () => {
    const lesson = desk.lessons.find(({ name }) => name === menu.value);
    if (!isByArrow) menu.blur(); // so that P and the arrows are the page's
    if (lesson) openLesson(lesson);
  });
  byDesk('keep').onclick = () => saveText('trace.txt', desk.tasks.textToSave(desk.text));
  byDesk('copy').onclick = copyLink;
  byDesk('place').addEventListener('change', keepPlace);
  byDesk('stop').onclick = () => program.stop();
  byDesk('at-once').addEventListener('change', () => toggleAtOnce());
  addEventListener('keydown', event => {
    if (event.key.toLowerCase() === 'q' && heapViewer && !heapViewer.isTyped(event)) toggleAtOnce();
  });
  listenToFiles(byDesk, text => setText(desk.tasks.takeText(text), 0), message => announce(message, true));
  addEventListener('hashchange', openAddress);
  NARROW.addEventListener('change', () => arrange());
}

function toggleAtOnce() {
  if (desk.isFallback) return;
  setAtOnce(!desk.isAtOnce);
  runForTask();
}

// The list of steps stands below the map here (style.css), so Tab comes to it there.
function putListBelow() {
  const { content } = /** @type {HTMLTemplateElement} */ (document.querySelector('#page'));
  content.querySelector('#inspector').after(content.querySelector('#trace'));
}

async function beginPlayground() {
  putListBelow();
  desk.edit = makeEditor(byDesk('editor'), onTyped, goToLine, (line, text) => inC(desk.about, line, text));
  fillMenu(byDesk('lesson'), desk.lessons);
  desk.tasks = new Tasks(byDesk, taskHost);
  listenToDesk();
  desk.isFallback = !await Program.isThere();
  const first = desk.lessons.find(({ name }) => name === 'use_after_free') ?? desk.lessons[0];
  const address = location.hash;
  byDesk('at-once').disabled = desk.isFallback;
  setAtOnce(new URLSearchParams(address.slice(1)).has('at_once') && !desk.isFallback);
  desk.tasks.takeAddress(address);
  await setText(await textOfAddress(address) ?? first.text, address);
  document.body.dataset.ready = desk.isFallback ? 'recorded' : 'program';
}

beginPlayground().catch(problem => tellFault(problem.message));
