// What a trace would do under an allocator without quarantine, whose `free` gives the bytes back at once. Where blocks lie is worked
// out here, and nothing is proved of it. Each word, tag and trap is the program's all the same: it runs a text in which one block takes
// the whole heap, and a malloc is a narrower capability of that.

import { blockOf } from '../codec.js';
import { grouped, said } from '../say.js';

const MOST = { commands: 2000, frees: 100 }; // at each free the program is asked anew

/**
 * A block from its malloc on: the line of that, and the line of the free that took it back.
 * @typedef {{ line: number, base: bigint, top: bigint, freed: number | null }} Handed
 * What a command comes to: the lines of the text that is run in its place, and what is told of it otherwise than by their data.
 * @typedef {{ lines: string[], reply?: string, block?: Handed, state?: string }} Act
 */

// The blocks that are live, by rising base.
class Places {
  constructor(base, end) {
    this.base = base;
    this.end = end;
    /** @type {Handed[]} */
    this.live = [];
  }

  // The least place for so many bytes.
  find({ length, unit }) {
    const up = address => (address + unit - 1n) / unit * unit;
    let at = up(this.base);
    for (const { base, top } of this.live) {
      if (at + length <= base) break;
      at = up(top);
    }
    return at + length <= this.end ? at : null;
  }

  /** @param {Handed} block */
  add(block) {
    const index = this.live.findIndex(({ base }) => base > block.base);
    this.live.splice(index < 0 ? this.live.length : index, 0, block);
  }

  remove(block) { this.live.splice(this.live.indexOf(block), 1); }

  at(address) { return this.live.find(({ base, top }) => base <= address && address < top) ?? null; }
}

// What registers and granules hold now, each with the block of which its word comes.
class Cells {
  constructor() {
    this.cells = new Map();
    this.of = new Map();
  }

  take({ registers, granules }, base) {
    for (const cell of registers) this.cells.set('c' + cell.r, cell);
    for (const cell of granules) this.cells.set('0x' + (base + 16n * BigInt(cell.i)).toString(16), cell);
  }

  cell(place) { return this.cells.get(place) ?? { tag: false, address: '0x0', base: '0x0', top: '0x0' }; }

  give(target, block) { if (target !== 'c0') this.of.set(target, block ?? null); }

  // Where words of freed blocks are that are tagged and reach into some bytes, but for one place.
  staleIn({ base, top }, except) {
    return [...this.of].filter(([place, block]) => {
      const cell = this.cell(place);
      return place !== except && block && block.freed !== null && cell.tag && BigInt(cell.base) < top && base < BigInt(cell.top);
    }).map(([place]) => place);
  }
}

const rowsOf = data => data.split('\n').filter(row => row !== '').map(row => JSON.parse(row));

// Two registers that the commands leave alone.
function spareOf(commands) {
  const used = new Set(commands.flatMap(({ text }) => text.split(' ')));
  return [...Array(32).keys()].slice(1).map(number => 'c' + number).filter(name => !used.has(name)).slice(-2);
}

// The run of the text that stands in the place of a trace.
class Standing {
  constructor(heap, spare, ask) {
    const base = BigInt(heap.base), bytes = 4096n * BigInt(heap.pages);
    this.base = base;
    this.spare = spare;
    this.ask = ask;
    this.places = new Places(base, base + bytes);
    this.known = 0;
    this.last = new Cells();
    this.lines = [`heap ${heap.base} ${heap.pages}`, `malloc ${spare[0]} ${bytes}`];
  }

  // The data of all lines so far, or null where the run was ended.
  async rows() {
    const answer = await this.ask(this.lines.join('\n') + '\n');
    if (answer && answer.code !== 'done') throw new Error(said('there is no memory for it in the browser'));
    return answer && rowsOf(new TextDecoder().decode(answer.bytes));
  }

  // What a register holds after all lines so far.
  async cellNow(register) {
    if (this.known < this.lines.length) {
      const rows = await this.rows();
      if (rows === null) return null;
      for (const row of rows.slice(Math.max(this.known, 1), -1)) this.last.take(row, this.base);
      this.known = this.lines.length;
    }
    return this.last.cell(register);
  }

  /** @returns {Act} */
  malloc(line, target, size) {
    const shape = blockOf(BigInt(size)), base = this.places.find(shape);
    if (base === null) return { lines: [`copy ${target} c0`], reply: 'nospace' };
    const [whole, cut] = this.spare, block = { line, base, top: base + shape.length, freed: null };
    this.places.add(block);
    return { lines: [`setaddr ${cut} ${whole} ${base}`, `narrow ${target} ${cut} ${shape.length}`], block, state: 'live',
      reply: `block 0x${base.toString(16)} 0x${block.top.toString(16)}` };
  }

  /** @returns {Promise<Act | null>} */
  async free(line, source) {
    const cell = await this.cellNow(source);
    if (cell === null) return null;
    const block = this.places.live.find(({ base, top }) => base === BigInt(cell.base) && top === BigInt(cell.top));
    if (!cell.tag || !block) return { lines: [], reply: `trap ${cell.tag ? 'notblock' : 'tag'}` };
    this.places.remove(block);
    return { lines: [], block, state: 'free', reply: `free ${block.top - block.base}` };
  }

  /** @returns {Promise<Act | null>} */
  async act({ line, text }) {
    const [name, first, second] = text.split(' ');
    return name === 'malloc' ? this.malloc(line, first, second) : name === 'free' ? this.free(line, first) : { lines: [text] };
  }
}

// What of a command's harm can be told: whose bytes it reaches, or hands out, or frees.
function harmOf(words, { block, state }, cells, live) {
  const [name, first, second] = words;
  if (state === 'live') {
    const names = cells.staleIn(block, first);
    return names.length ? { kind: 'shared', names, freed: cells.of.get(names[0]).freed } : null;
  }
  if (state === 'free') {
    const own = cells.of.get(first);
    return own && own !== block ? { kind: 'freed', names: [first], freed: own.freed, owner: block.line } : null;
  }
  const acting = { storecap: first, write: first, loadcap: second }[name], own = acting && cells.of.get(acting);
  if (!own || own.freed === null) return null;
  const owner = live.at(BigInt(cells.cell(acting).address));
  return { kind: owner ? name === 'loadcap' ? 'read' : 'written' : 'nobody', names: [acting], freed: own.freed, owner: owner && owner.line };
}

// From which block the words come that a command writes.
function follow(words, { block, state }, cells) {
  const [name, first, second] = words, granule = register => cells.cell(register).address;
  if (name === 'malloc') cells.give(first, state ? block : null);
  else if (['copy', 'setaddr', 'narrow', 'andperm'].includes(name)) cells.give(first, cells.of.get(second));
  else if (name === 'storecap') cells.give(granule(first), cells.of.get(second));
  else if (name === 'loadcap') cells.give(first, cells.of.get(granule(second)));
  else if (name === 'write') cells.give(granule(first), null);
}

// The data of the trace, from that of the text that was run: each command with what the lines in its place did, and with its harm.
function dataOf(standing, acts, rows) {
  const [whole, cut] = standing.spare.map(name => Number(name.slice(1))), cells = new Cells();
  const live = new Places(standing.base, standing.places.end), steps = [];
  let at = 2;
  for (const { command, act } of acts) {
    const own = rows.slice(at, at += act.lines.length), words = command.text.split(' '), { block, state } = act;
    const registers = own.flatMap(row => row.registers).filter(({ r }) => r !== whole && r !== cut), granules = own.flatMap(row => row.granules);
    const reply = act.reply ?? own[0].reply, isDone = !reply.startsWith('trap');
    const harm = isDone ? harmOf(words, act, cells, live) : null;
    if (isDone) follow(words, act, cells);
    cells.take({ registers, granules }, standing.base);
    if (state === 'live') live.add(block);
    if (state === 'free') {
      live.remove(block);
      block.freed = command.line;
    }
    const blocks = block ? [{ base: '0x' + block.base.toString(16), top: '0x' + block.top.toString(16), state }] : [];
    steps.push({ line: command.line, text: command.text, reply, registers, granules, blocks, ...(own[0]?.taken ? { taken: own[0].taken } : {}), harm });
  }
  return [...steps, { end: endOf(live, cells) }];
}

function endOf({ live, base, end }, { cells }) {
  const bytes = live.reduce((sum, block) => sum + Number(block.top - block.base), 0);
  return { live: bytes, held: 0, free: Number(end - base) - bytes, tags: [...cells.values()].filter(({ tag }) => tag).length };
}

/**
 * The data of a trace under an allocator without quarantine, as lines like those of its own data; null where the run was ended, and an
 * Error where that can't be shown. `ask` runs a text.
 * @param {string} data @param {(text: string) => Promise<{ code: string, bytes: Uint8Array } | null>} ask
 */
export async function dataAtOnce(data, ask) {
  const [{ heap }, ...rest] = rowsOf(data), commands = rest.filter(row => row.line !== undefined), spare = spareOf(commands);
  const frees = commands.filter(({ text }) => text.startsWith('free ')).length;
  if (commands.length > MOST.commands || frees > MOST.frees) {
    throw new Error(said('that is worked out for at most {0} commands with {1} frees', grouped(MOST.commands), MOST.frees));
  }
  if (spare.length < 2) throw new Error(said('that takes two registers which the trace leaves alone'));
  const standing = new Standing(heap, spare, ask), acts = [];
  for (const command of commands) {
    const act = await standing.act(command);
    if (act === null) return null;
    standing.lines.push(...act.lines);
    acts.push({ command, act });
  }
  const rows = await standing.rows();
  if (rows === null) return null;
  if (rows[1].reply.startsWith('nospace')) throw new Error(said('that takes a heap of which all can be one block'));
  return [{ heap }, ...dataOf(standing, acts, rows)].map(row => JSON.stringify(row)).join('\n') + '\n';
}
