// The one state that moves along a run, forward and backward.

import { decode, bitsOf, NULL_WORD } from './codec.js';
import { hex } from './dom.js';
import { inBytes, said } from './say.js';

/**
 * A block of the heap. Its bytes go from `base` up to `top`, its granules from `start` up to `end`; while it is there it has a state,
 * and the malloc that it came from.
 * @typedef {{ key: string, base: bigint, top: bigint, start: number, end: number, state: string | null, born: Birth | null }} Block
 * @typedef {{ line: number, size: bigint }} Birth
 * @typedef {'register' | 'granule'} Kind
 * A register or a granule whose tag a pass took, or that is tagged, with what it held.
 * @typedef {{ kind: Kind, place: number, name: string, cell: Cell }} Row
 */

const meanings = new Map(); // of words: many cells hold the same one

// Keeps what a word means as the program told it, in the place of this page's own decoder.
export const learn = (word, meaning) => { meanings.set(word, meaning); };

// What a register or a granule holds, as an entry of the data tells it.
export class Cell {
  /** @param {{ tag: boolean, word: string }} entry */
  constructor(entry) {
    this.tag = entry.tag;
    this.word = entry.word;
    this.told = entry;
  }

  get meaning() {
    if (!meanings.has(this.word)) meanings.set(this.word, decode(bitsOf(this.word)));
    return meanings.get(this.word);
  }

  get isNull() { return !this.tag && this.word === NULL_WORD; }
}

export const NULL_CELL = new Cell({ tag: false, word: NULL_WORD });
export const STATES = ['live', 'waiting', 'painted'];

export const pageOf = granule => Math.floor(granule / 256);
export const rangeOf = block => said('{0} to {1}', hex(block.base), hex(block.top));
// A block by the malloc that it came from, as it was asked for.
export const bornAs = ({ line, size }) => said('line {0} ({1})', line, inBytes(size));
export const nameOf = block => bornAs(block.born);
export const stateName = name => ({ live: said('live'), waiting: said('held'), painted: said('painted') })[name]; // what waits in quarantine is held

// The block that is the reason why a tag was taken: the one that was due and has the word's base.
export function reasonOf(taken, row) {
  const { base } = row.cell.meaning;
  let low = 0, high = taken.due.length;
  while (low < high) {
    const middle = (low + high) >> 1;
    if (taken.due[middle].top <= base) low = middle + 1; else high = middle;
  }
  const block = taken.due[low];
  return block && block.base <= base ? block : null;
}

// It begins at step 0, an empty heap. A run has one cursor at a time, since a block's state stands in the block.
export class Cursor {
  /** @param {import('./run.js').Run} run */
  constructor(run) {
    this.run = run;
    this.index = 0;
    /** @type {Cell[]} */
    this.registers = Array(32).fill(NULL_CELL);
    /** @type {Cell[]} */
    this.granules = Array(run.granules).fill(NULL_CELL);
    /** @type {Record<Kind, Set<number>>} the places whose words are tagged */
    this.tagged = { register: new Set(), granule: new Set() };
    /** @type {(Block | null)[]} of each page the block that has all of it; of each granule the block that has it and not its page */
    this.pageOwners = Array(run.pages).fill(null);
    /** @type {(Block | null)[]} */
    this.owners = Array(run.granules).fill(null);
    /** @type {Map<string, Block>} */
    this.blocks = new Map();
    this.open = false;
    /** @type {Set<number>} */
    this.dirty = new Set();
    this.touched = { registers: new Set(), granules: new Set(), blocks: new Set() }; // what has changed since it was drawn
    this.between = null; // while the state is that within a malloc: what its pass took, and what its blocks were before
  }

  /** @param {number} place */
  ownerAt(place) { return this.pageOwners[pageOf(place)] ?? this.owners[place]; }

  /** @param {bigint} address */
  ownerOf(address) {
    return this.run.isInHeap(address) ? this.ownerAt(Math.floor(this.run.granulesTo(address))) : null;
  }

  /** @param {Kind} kind @param {number} place @returns {Row} */
  rowAt(kind, place) {
    return { kind, place, name: this.run.namesOfPlaces[kind](place), cell: this[kind + 's'][place] };
  }

  // The words that are tagged, registers first.
  taggedRows() {
    const kinds = /** @type {Kind[]} */ (['register', 'granule']);
    return kinds.flatMap(kind => [...this.tagged[kind]].sort((one, other) => one - other).map(place => this.rowAt(kind, place)));
  }

  // The pages at which the end of an epoch looks: those that are dirty then.
  lookedAt(step) {
    return step.words[0] === 'end' && step.taken ? [...this.dirty].sort((one, other) => one - other) : [];
  }

  setCell({ kind, place }, cell) {
    this[kind + 's'][place] = cell;
    this.tagged[kind][cell.tag ? 'add' : 'delete'](place);
    this.touched[kind + 's'].add(place);
  }

  /** @param {Block} block @param {string | null} now @param {Birth | null} born */
  setBlock(block, now, born = block.born) {
    block.state = now;
    block.born = born;
    if (now === null) this.blocks.delete(block.key); else this.blocks.set(block.key, block);
    this.own(now === null ? null : block, block);
    this.touched.blocks.add(block);
  }

  // By whole pages where it can, so that a long block costs no more than the pages that it has.
  /** @param {Block | null} owner @param {Block} block */
  own(owner, { start, end }) {
    const first = Math.ceil(start / 256), last = Math.max(Math.floor(end / 256), first);
    this.owners.fill(owner, start, Math.min(first * 256, end));
    this.pageOwners.fill(owner, first, last);
    this.owners.fill(owner, Math.max(last * 256, start), end);
  }

  // Of a malloc that swept, the state between: the pass has taken its tags and set its blocks free, and no more has changed.
  enterBetween(step) {
    this.between = { taken: step.taken, were: step.taken.due.map(block => block.state) };
    for (const row of step.taken.rows) this.setCell(row, new Cell({ tag: false, word: row.cell.word }));
    for (const block of step.taken.due) this.setBlock(block, null);
  }

  leaveBetween() {
    const { taken, were } = this.between;
    taken.due.forEach((block, index) => this.setBlock(block, were[index]));
    for (const row of taken.rows) this.setCell(row, row.cell);
    this.between = null;
  }

  /** @param {import('./run.js').Step} step @param {'now' | 'was'} side */
  apply(step, side) {
    for (const kind of ['register', 'granule']) {
      for (const change of step[kind + 's']) this.setCell({ kind, place: change.place }, change[side]);
    }
    // What ended comes first in the data, and so last on the way back.
    for (const { block, born, [side]: of } of side === 'now' ? step.blocks : [...step.blocks].reverse()) this.setBlock(block, of, born[side]);
    for (const page of step.cleaned) this.dirty[side === 'now' ? 'delete' : 'add'](page);
    if (step.dirtied !== null) this.dirty[side === 'now' ? 'add' : 'delete'](step.dirtied);
  }

  /** @param {number} index */
  moveTo(index) {
    const { steps } = this.run;
    if (this.between) this.leaveBetween();
    while (this.index < index) this.apply(steps[++this.index], 'now');
    while (this.index > index) this.apply(steps[this.index--], 'was');
    this.open = steps[index].open;
  }
}
