// What runs in a worker: the proved program, and the room that a page hands out to it. This text stands by itself.

'use strict';

const CODES = ['done', 'no memory', 'short', 'none'];
const MOST_COMMANDS = 20000; // more than ./heap_page has in a page is shown without a map
let compiled = null;

// A program that has answered nothing yet. Its memory never grows: what it is given comes from below, what it writes lies above.
function newProgram() {
  let next = 0n, end = 0n, memory = null;
  // The proofs take this much for granted of a page: room of that size and alignment that is handed out once.
  const page_room = (answer, size, align) => {
    const at = (next + align - 1n) & -align, fits = at + size <= end, told = new DataView(memory.buffer, Number(answer), 16);
    told.setUint8(0, Number(fits));
    told.setBigUint64(8, at, true);
    if (fits) next = at + size;
  };
  // An instance answers once, so what it gives back isn't handed out again.
  const { exports } = new WebAssembly.Instance(compiled, { page: { page_room, page_back: () => {} } });
  memory = exports.memory;
  next = BigInt(exports.__heap_base.value);
  end = BigInt(memory.buffer.byteLength);
  const take = size => {
    const at = (next + 15n) & -16n;
    next = at + BigInt(size);
    return at;
  };
  // What an export answers to these numbers, with as much of the memory for its text.
  const ask = (name, numbers, part) => {
    const count = take(8), status = take(8), room = BigInt(Math.floor(Number(end - next) * part));
    end = (end - room) & -16n;
    const code = CODES[exports[name](...numbers, end, room, count, status)]; // a call that tells no status takes none
    const length = Number(new DataView(memory.buffer).getBigUint64(Number(count), true));
    return { code, bytes: code === 'done' ? new Uint8Array(memory.buffer).slice(Number(end), Number(end) + length) : null };
  };
  const put = bytes => {
    const at = take(bytes.length);
    new Uint8Array(memory.buffer).set(bytes, Number(at));
    return [at, BigInt(bytes.length)];
  };
  return { ask, put };
}

function ofText(name, text, ...more) {
  const program = newProgram();
  return program.ask(name, [...program.put(text), ...more], .4);
}

// The report alone, without the image.
const reportOf = text => ofText('page_report', text, 0);

const lineOf = bytes => new TextDecoder().decode(bytes).trimEnd();

// The text up to a line, which is counted from 1.
function before(text, line) {
  let at = 0;
  for (let count = 1; count < line; count++) at = text.indexOf(10, at) + 1;
  return text.subarray(0, at);
}

// How many lines of a text count behind the first of them.
function commandsIn(text) {
  const lines = new TextDecoder().decode(text).split('\n').map(line => line.replace(/^[ \t\r]+|[ \t\r]+$/g, ''));
  return lines.filter(line => line !== '' && !line.startsWith('#')).length - 1;
}

// The live and held bytes and the tags after each step, from the data.
function sumsOf(data) {
  const sums = { live: [0], held: [0], tags: [0] }, sizes = { live: 0, held: 0, free: 0 }, states = new Map(), tagged = new Set();
  const kindOf = state => (state === 'live' || state === 'free' ? state : 'held');
  for (const line of data.split('\n').slice(1, -2)) {
    const step = JSON.parse(line);
    for (const { base, top, state } of step.blocks) {
      const key = base + top, size = Number(BigInt(top) - BigInt(base));
      if (states.has(key)) sizes[kindOf(states.get(key))] -= size;
      sizes[kindOf(state)] += size;
      states.set(key, state);
    }
    for (const { r, i, tag } of [...step.registers, ...step.granules]) tagged[tag ? 'add' : 'delete'](r === undefined ? 'i' + i : 'r' + r);
    sums.live.push(sizes.live);
    sums.held.push(sizes.held);
    sums.tags.push(tagged.size);
  }
  return sums;
}

// A trace with more commands than a map has: its report, and the sums of its states where there is memory for these.
function answerLong(text) {
  const report = reportOf(text);
  if (report.code !== 'done') return report;
  const states = ofText('page_states', text);
  return { code: 'long', report: report.bytes, sums: states.code === 'done' ? sumsOf(new TextDecoder().decode(states.bytes)) : null };
}

// The states of a trace; of a text that is none its fault, with the states of the lines before it.
function answerTrace(text) {
  const answer = commandsIn(text) > MOST_COMMANDS ? answerLong(text) : { ...ofText('page_states', text), text };
  if (answer.code !== 'none') return answer;
  const told = ofText('page_fault', text);
  if (told.code !== 'done') return told;
  const [, name, line] = lineOf(told.bytes).split(' '), part = before(text, Number(line || 1));
  const isHeapThere = !['no-heap', 'bad-heap', 'too-long'].includes(name);
  return { ...(isHeapThere ? answerTrace(part) : answer), fault: { name, line: Number(line || 1) } };
}

function answerWord([address, metadata]) {
  const { code, bytes } = newProgram().ask('page_word', [address, metadata], .5);
  return { code, line: bytes && lineOf(bytes) };
}

const ANSWERS = { trace: answerTrace, report: reportOf, log: text => ofText('page_log', text), word: answerWord };

onmessage = async ({ data: { module, kind, given } }) => {
  try {
    if (module) compiled = module instanceof WebAssembly.Module ? module : await WebAssembly.compile(module);
    postMessage(kind ? ANSWERS[kind](given) : { code: 'ready', module: compiled });
  } catch (problem) {
    postMessage({ code: 'broken', message: String(problem) });
  }
};
