// A run: what each command of a trace changed, as the data tells it, with the trace's own lines and notes.

import { Cell, Cursor, STATES, pageOf } from './cursor.js';
import { hex } from './dom.js';
import { said } from './say.js';
import { readTrace, wordsOf } from './trace.js';

/**
 * @typedef {{ place: number, now: Cell, was: Cell }} CellChange
 * @typedef {import('./cursor.js').Block} Block
 * @typedef {import('./cursor.js').Birth} Birth
 * @typedef {{ block: Block, now: string | null, was: string | null, born: { now: Birth, was: Birth } }} BlockChange
 * What a pass took, by rows with the cells before; and the blocks that were due, by rising start, each with its malloc.
 * @typedef {{ due: Block[], born: Map<Block, Birth>, rows: import('./cursor.js').Row[] }} Taken
 * A command with what it changed. `dirtied` is the page that it made dirty, and `cleaned` are those that it made clean.
 * @typedef {{ line: number, text: string, notes: string[], words: string[], reply: string, registers: CellChange[], granules: CellChange[],
 *   blocks: BlockChange[], taken: Taken | null, open: boolean, dirtied: number | null, cleaned: number[], harm: Harm | null }} Step
 * What came of it that bytes were handed out at once (playground/at_once.js): the places whose words are of a freed block, the line of
 * that free, and of the malloc that has the bytes now.
 * @typedef {{ kind: string, names: string[], freed: number, owner?: number | null }} Harm
 */

const CROWD = 2000; // of more blocks and written granules a map is a dense one (dense.js)
const FOLD = 8; // from so many pages in a row on a map leaves out those in which nothing ever begins, ends or is written

function need(holds, message) {
  if (!holds) throw new Error(message);
}

// The heap that all steps are about. Places in it are counted in granules from its base on.
export class Run {
  /** @param {{ base: string, pages: number }} heap @param {ReturnType<typeof readTrace>} own */
  constructor(heap, own) {
    need(Number.isInteger(heap.pages) && heap.pages > 0 && heap.pages <= 1024, said('the heap needs its pages'));
    need(own.counted.length > 0, said('the trace has no heap line'));
    const [first] = own.counted;
    this.own = own;
    this.base = BigInt(heap.base);
    this.pages = heap.pages;
    this.granules = heap.pages * 256;
    /** @type {Map<string, Block>} all blocks that there are at some time */
    this.known = new Map();
    /** @type {{ live: number, held: number, free: number, tags: number } | null} */
    this.end = null;
    this.namesOfPlaces = { register: place => 'c' + place, granule: place => hex(this.addressOf(place)) };
    /** @type {Step[]} */
    this.steps = [{ ...first, words: ['heap'], reply: '', registers: [], granules: [], blocks: [], taken: null, open: false, dirtied: null,
      cleaned: [], harm: null }];
  }

  addressOf(granule) { return this.base + 16n * BigInt(granule); }

  heapEnd() { return this.addressOf(this.granules); }

  isInHeap(address) { return this.base <= address && address < this.heapEnd(); }

  granulesTo(address) { return Number(address - this.base) / 16; } // only for addresses near the heap

  changesOf(entries, name, least, end) {
    need(Array.isArray(entries), said('a list is missing'));
    return entries.map(entry => {
      need(Number.isInteger(entry[name]) && entry[name] >= least && entry[name] < end, said('a register or a granule that there is not'));
      need(typeof entry.tag === 'boolean' && /^[0-9a-f]{32}$/.test(entry.word), said('a cell needs its tag and its word'));
      return { place: entry[name], now: new Cell(entry), was: null };
    });
  }

  blockChangesOf(entries, born) {
    need(Array.isArray(entries), said('a list is missing'));
    return entries.map(entry => {
      const key = `${entry.base} ${entry.top}`, now = entry.state === 'free' ? null : entry.state;
      need(now === null || STATES.includes(now), said('a block has an unknown state'));
      if (!this.known.has(key)) this.known.set(key, this.newBlock(key, BigInt(entry.base), BigInt(entry.top)));
      const block = this.known.get(key);
      need(block.born !== null || now === 'live' && born !== null, said('a block has no malloc'));
      return { block, now, was: block.state, born: { now: now === 'live' ? born : block.born, was: block.born } };
    });
  }

  newBlock(key, base, top) {
    need(this.isInHeap(base) && base < top && top <= this.heapEnd(), said('a block lies outside of the heap'));
    return { key, base, top, start: this.granulesTo(base), end: this.granulesTo(top), state: null, born: null };
  }
}

// A step from its line of the data and of the trace, in the state before it, in which the cursor is.
function addStep(run, cursor, value, own) {
  const words = String(value.text).split(' ');
  need(own && own.line === value.line && wordsOf(own.text)[0] === words[0], said('this is not the command of the trace'));
  const step = { line: own.line, text: own.text, notes: own.notes, words, reply: String(value.reply), taken: null,
    registers: run.changesOf(value.registers, 'r', 1, 32), granules: run.changesOf(value.granules, 'i', 0, run.granules),
    blocks: run.blockChangesOf(value.blocks, words[0] === 'malloc' ? { line: own.line, size: BigInt(wordsOf(own.text)[2]) } : null),
    open: cursor.open, dirtied: null, cleaned: [], harm: value.harm ?? null };
  if (!step.reply.startsWith('trap')) markPages(run, cursor, step);
  for (const change of step.registers) change.was = cursor.registers[change.place];
  for (const change of step.granules) change.was = cursor.granules[change.place];
  if (value.taken) step.taken = takenOf(cursor, value.taken, step);
  run.steps.push(step);
  cursor.moveTo(run.steps.length - 1);
}

// What a command that isn't trapped does to the epoch and to dirty pages: a store of a tagged word makes its page dirty, and a
// begin makes all of them clean.
function markPages(run, cursor, step) {
  const [name, authority, source] = step.words, cell = register => cursor.registers[Number(register.slice(1))];
  if (name === 'begin' || name === 'end') step.open = name === 'begin';
  if (name === 'begin') step.cleaned = [...cursor.dirty];
  if (name !== 'storecap' || !cell(source).tag) return;
  const page = pageOf(run.granulesTo(cell(authority).meaning.address));
  if (!cursor.dirty.has(page)) step.dirtied = page;
}

// The tags that a pass took, each with its cell before; and the blocks that were due, in quarantine before, by rising start.
function takenOf(cursor, taken, step) {
  const rows = (kind, places) => places.map(place => {
    need(cursor[kind + 's'][place] !== undefined, said('a tag was taken from a place that there is not'));
    return cursor.rowAt(kind, place);
  });
  const due = step.blocks.filter(change => change.was !== null && change.was !== 'live').map(change => change.block);
  return { due: due.sort((one, other) => one.start - other.start), born: new Map(due.map(block => [block, block.born])),
    rows: [...rows('register', taken.registers), ...rows('granule', taken.granules)] };
}

const isHeld = state => state !== null && state !== 'live';

// The live and held bytes and the tags after each step, from what each changed.
function sumsOf(run) {
  const sums = { live: [0], held: [0], tags: [0] };
  let live = 0, held = 0, tags = 0;
  for (const step of run.steps.slice(1)) {
    for (const { block, was, now } of step.blocks) {
      const bytes = 16 * (block.end - block.start);
      live += bytes * (Number(now === 'live') - Number(was === 'live'));
      held += bytes * (Number(isHeld(now)) - Number(isHeld(was)));
    }
    for (const { was, now } of [...step.registers, ...step.granules]) tags += Number(now.tag) - Number(was.tag);
    sums.live.push(live);
    sums.held.push(held);
    sums.tags.push(tags);
  }
  return sums;
}

// Runs of pages up to the last one, each as long as FOLD or longer, that are used in no place: from the first up to the end.
function unusedRuns(isUsed, last) {
  const runs = [];
  let first = 0;
  for (let page = 0; page <= last; page++) {
    if (!isUsed[page]) continue;
    if (page - first >= FOLD) runs.push({ first, end: page });
    first = page + 1;
  }
  return runs;
}

// The pages that a map leaves out: no block begins or ends there at any step, and no word that the run makes has an end of its bounds or
// its address there. So no granule there is written, which takes such a word.
function foldsOf(run, reach) {
  const last = pageOf(reach - 1), isUsed = new Uint8Array(run.pages), note = place => { isUsed[pageOf(place)] = 1; };
  const noteAddress = address => { if (run.isInHeap(address)) note(run.granulesTo(address)); };
  for (const { start, end } of run.known.values()) [start, end - 1].forEach(note);
  if (!unusedRuns(isUsed, last).length) return []; // so that most runs need no word
  const words = new Map(run.steps.flatMap(step => [...step.registers, ...step.granules]).map(({ now }) => [now.word, now.told]));
  for (const { address, base, top } of words.values()) [BigInt(address), BigInt(base), BigInt(top) - 1n].forEach(noteAddress);
  return unusedRuns(isUsed, last);
}

// What does not change from step to step.
function summaryOf(run) {
  const { steps } = run;
  const most = (list, measureOf) => list.reduce((greatest, each) => Math.max(greatest, measureOf(each)), 0);
  const reach = most([...run.known.values()], block => block.end) || 4;
  const places = new Set(steps.flatMap(step => step.granules.map(change => change.place)));
  const folds = foldsOf(run, reach), kept = reach - 256 * folds.reduce((sum, fold) => sum + fold.end - fold.first, 0);
  return { sums: sumsOf(run), written: new Set(steps.flatMap(step => step.registers.map(change => change.place))),
    folds, most: most(steps, step => (step.taken ? step.taken.rows.filter(row => row.kind === 'register').length : 0)), reach,
    used: Math.min(run.granules, Math.max(16, 2 ** Math.ceil(Math.log2(reach)))), // what the small bars show
    columns: kept > 1024 ? 64 : kept > 64 ? 32 : 16, isDense: run.known.size + places.size > CROWD };
}

// The run of a trace, from its text and from the data of ./heap_states: lines of JSON, of which the first tells the heap, which is
// step 0, and the last the sums at the end. What can't be read is an Error. It yields after each line.
/** @param {string} text @param {string} data */
export function* readRun(text, data) {
  const own = readTrace(text);
  /** @type {Run} */
  let run = null;
  /** @type {Cursor} */
  let cursor = null;
  for (const [number, line] of data.split('\n').filter(each => each !== '').entries()) {
    try {
      const value = JSON.parse(line);
      need((number === 0) === (value.heap !== undefined), said('the heap is the first line, and no other'));
      need(run === null || run.end === null, said('nothing comes after the end'));
      if (value.heap) {
        run = new Run(value.heap, own);
        cursor = new Cursor(run);
      } else if (value.end) run.end = value.end;
      else addStep(run, cursor, value, own.counted[run.steps.length]);
    } catch (problem) {
      throw new Error(said("Line {0} of the data can't be read: {1}.", number + 1, problem.message));
    }
    yield;
  }
  need(run !== null && run.end !== null, said('The data is not whole.'));
  need(run.steps.length === own.counted.length, said('The data has not as many commands as the trace.'));
  cursor.moveTo(0);
  return Object.assign(run, summaryOf(run));
}

// The same at once.
/** @param {string} text @param {string} data */
export function parseRun(text, data) {
  const reading = readRun(text, data);
  let read = reading.next();
  while (!read.done) read = reading.next();
  return read.value;
}
