// Goals: what is to hold when a trace has run, in conditions of a few words, one a line or joined by "and"; and texts that have a
// goal with them. No document is used here.

import { NULL_CELL } from '../cursor.js';
import { hex } from '../dom.js';
import { grouped, said } from '../say.js';
import { wordsOf } from '../trace.js';

/** @typedef {import('../run.js').Run} Run */
/** @typedef {import('../run.js').Step} Step */
/** @typedef {{ text: string, isMet: boolean, found: string }} Judged */
/** @typedef {{ goal: string, asks: string }} Task */

const LONGEST_GOAL = 2000; // characters
// What stands for a word in capitals in the pattern of a condition.
const PATTERNS = { REGISTER: '(c(?:[12]?[0-9]|3[01]))', PLACE: '(c(?:[12]?[0-9]|3[01])|0x[0-9a-f]{0,15}0)', ADDRESS: '(0x[0-9a-f]{1,16})',
  NUMBER: '([0-9][0-9,]{0,19})', WHICH: '(first|last)',
  COMMAND: '(malloc|free|copy|setaddr|narrow|andperm|storecap|loadcap|write|show|sweep|begin|end)',
  REASON: '(tag|perm|bounds|align|empty|inexact|freed|notblock|open|notopen)', LINE: '"([^"]*[^" ][^"]*)"' };

// Each condition by examples of it, with what else may stand there; its pattern; and its test, which is given the run and what the
// pattern found, and answers whether it holds and what was found.
export const CONDITIONS = [
  { forms: ['c3 has a tag', 'c3 has no tag'], more: said('a register, c0 to c31, or the address of a granule such as 0x40000010'),
    pattern: 'PLACE has (a|no) tag', test: hasTag },
  { forms: ['the last sweep takes 2 tags', 'the last end takes 0 tags in memory'],
    more: said('first or last; sweep, begin, end or malloc; “in memory” or “in registers” may follow'),
    pattern: 'the WHICH (sweep|begin|end|malloc) takes NUMBER tags?(?: in (memory|registers))?', test: takesTags },
  { forms: ['the last sweep frees 32 bytes'], more: said('first or last; sweep or end'), pattern: 'the WHICH (sweep|end) frees NUMBER bytes?',
    test: (run, which, name, count) => ofCommand(run, which, name, answer => is(answer[3], count, told => said('it frees {0}', told))) },
  { forms: ['the last malloc begins at 0x40000000'], more: said('first or last; the address of the block'),
    pattern: 'the WHICH malloc begins at ADDRESS', test: beginsAt },
  { forms: ['the last malloc finds no place'], more: said('first or last'), pattern: 'the WHICH malloc finds no place',
    test: (run, which) => ofCommand(run, which, 'malloc', answer => [answer[0] === 'nospace', whereOf(answer)]) },
  { forms: ['the last write is refused with tag', 'the last free is done'], more: said('first or last; any command; the reason that a trap names'),
    pattern: 'the WHICH COMMAND is (?:refused with REASON|(done))', test: isRefused },
  { forms: ['the address of c3 is 0x40000010', 'the base of c3 is 0x40000000'], more: said('a register, c0 to c31'),
    pattern: 'the (address|base) of REGISTER is ADDRESS',
    test: (run, part, register, address) => is(cellAtEnd(run, register).meaning[part], BigInt(address), told => said('it is {0}', hex(told))) },
  { forms: ['the trace has "free c1"', 'the trace has no "sweep"'], more: said('a line that begins with these words'),
    pattern: 'the trace has (no )?LINE', test: hasLine },
  { forms: ['bytes held are 64', 'tags are 1'], more: said('bytes live, held or free, or tags, at the end of the run'),
    pattern: '(bytes live|bytes held|bytes free|tags) are NUMBER',
    test: (run, what, count) => is(run.end[what.split(' ').at(-1)], count, told => said('they are {0}', told)) },
  { forms: ['no epoch is open', 'an epoch is open'], more: said('at the end of the run'), pattern: '(no|an) epoch is open',
    test: (run, which) => [run.steps.at(-1).open === (which === 'an'), run.steps.at(-1).open ? said('one is open') : said('none is open')] },
  { forms: ['at most 9 commands'], more: said('the heap’s line is none'), pattern: 'at most NUMBER commands?',
    test: (run, most) => [run.steps.length - 1 <= numberOf(most), said('there are {0}', grouped(run.steps.length - 1))] },
].map(row => ({ ...row, pattern: new RegExp(`^${row.pattern.replace(/[A-Z]+/g, name => PATTERNS[name])}$`) }));

const numberOf = text => Number(text.replaceAll(',', ''));

/** @returns {[boolean, string]} */
function is(found, wanted, tell) {
  const isSame = typeof found === 'bigint' ? found === wanted : Number(found) === numberOf(wanted);
  return [isSame, tell(typeof found === 'bigint' ? found : grouped(found))];
}

// What a register or a granule holds when all has run.
/** @param {Run} run @param {string} name */
function cellAtEnd(run, name) {
  const [kind, place] = name.startsWith('c') ? ['registers', Number(name.slice(1))] : ['granules', run.granulesTo(BigInt(name))];
  const changed = run.steps.flatMap(step => step[kind].filter(change => change.place === place));
  return changed.length ? changed.at(-1).now : NULL_CELL;
}

/** @param {Run} run @param {string} name @param {string} has */
function hasTag(run, name, has) {
  if (name.startsWith('0x') && !run.isInHeap(BigInt(name))) return [false, said('it lies outside of the heap')];
  const { tag } = cellAtEnd(run, name);
  return [tag === (has === 'a'), tag ? said('it has one') : said('it has none')];
}

/** @param {Run} run @param {string} which @param {string} name */
const commandOf = (run, which, name) => run.steps.filter(step => step.words[0] === name).at(which === 'first' ? 0 : -1);

// What is found of the first or the last command of a name, which may have been refused.
/** @param {Run} run @param {string} which @param {string} name @param {(answer: string[], step: Step) => [boolean, string]} look */
function ofCommand(run, which, name, look) {
  const step = commandOf(run, which, name), answer = step ? step.reply.split(' ') : [];
  if (!step) return [false, said('there is no {0}', name)];
  return answer[0] === 'trap' ? [false, said('it is refused with {0}', answer[1])] : look(answer, step);
}

/** @param {Run} run @param {string} which @param {string} name @param {string} count @param {string} where */
function takesTags(run, which, name, count, where) {
  return ofCommand(run, which, name, (answer, { taken }) => {
    if (!taken) return [false, said('it doesn’t sweep')];
    const kind = { memory: 'granule', registers: 'register' }[where], rows = taken.rows.filter(row => !kind || row.kind === kind);
    return is(rows.length, count, told => (where ? said('it takes {0} there', told) : said('it takes {0}', told)));
  });
}

const whereOf = answer => (answer[0] === 'nospace' ? said('it finds no place') : said('it begins at {0}', answer[1]));

/** @param {Run} run @param {string} which @param {string} address */
function beginsAt(run, which, address) {
  return ofCommand(run, which, 'malloc', answer => [answer[0] === 'block' && BigInt(answer[1]) === BigInt(address), whereOf(answer)]);
}

/** @param {Run} run @param {string} which @param {string} name @param {string} reason @param {string} done */
function isRefused(run, which, name, reason, done) {
  const [isDone, told] = ofCommand(run, which, name, () => [done !== undefined, said('it is done')]);
  return [isDone || told === said('it is refused with {0}', reason), told];
}

/** @param {Run} run @param {string} not @param {string} line */
function hasLine(run, not, line) {
  const wanted = wordsOf(line), begins = own => wanted.every((word, place) => wordsOf(own)[place]?.toLowerCase() === word);
  const step = run.steps.find(({ text }) => begins(text));
  return [(step === undefined) === (not !== undefined), step ? said('it is line {0}', step.line) : said('no line begins so')];
}

// The conditions of a goal, as they were written. An "and" within quotes joins none.
export const conditionsOf = goal => goal.slice(0, LONGEST_GOAL).replace(/[“”]/g, '"').split(/\n|\band\b(?=(?:[^"\n]*"[^"\n]*")*[^"\n]*$)/im)
  .map(text => text.replace(/\s+/g, ' ').replace(/^[ ,;]+|[ .,;]+$/g, '')).filter(text => text !== '');

// The condition with a form that has most words in common with a text.
function nearestTo(text) {
  const words = new Set(text.split(' ')), common = form => form.split(' ').filter(word => words.has(word)).length;
  const most = ({ forms }) => Math.max(...forms.map(common));
  return CONDITIONS.reduce((best, row) => (most(row) > most(best) ? row : best));
}

// What is wrong with a condition, and null where it can be read.
export function problemOf(text) {
  const low = text.toLowerCase(), { forms, more } = nearestTo(low), near = forms.map(form => said('“{0}”', form)).join(` ${said('or')} `);
  return CONDITIONS.some(({ pattern }) => pattern.test(low)) ? null : said('it can’t be read; near it is {0} ({1})', near, more);
}

// Each condition of a goal in a run, or where there is no run that can be judged.
/** @param {string} goal @param {Run | null} run @returns {Judged[]} */
export function judgeGoal(goal, run) {
  const tooLong = { text: goal.slice(0, 60) + '…', isMet: false, found: said('a goal has at most {0} characters', grouped(LONGEST_GOAL)) };
  if (goal.length > LONGEST_GOAL) return [tooLong];
  return conditionsOf(goal).map(text => {
    const low = text.toLowerCase(), row = CONDITIONS.find(({ pattern }) => pattern.test(low));
    if (!row || !run) return { text, isMet: false, found: problemOf(text) ?? '' };
    const [isMet, found] = /** @type {any} */ (row.test)(run, ...row.pattern.exec(low).slice(1));
    return { text, isMet, found };
  });
}

/** @param {Judged[]} judged */
export const isGoalMet = judged => judged.length > 0 && judged.every(({ isMet }) => isMet);
/** @param {Judged[]} judged */
export const verdictOf = judged => (isGoalMet(judged) ? said('met') : said('not yet'));

// A text with its task above it, in comments, so that all of it is still a trace.
const HEAD = '# A trace for a task of the heap playground.', END_OF_HEAD = '# The trace:';

/** @param {Task} task @param {string[]} more @param {string} text */
export function withTask({ goal, asks }, more, text) {
  const lines = [...(asks ? ['task: ' + asks] : []), ...conditionsOf(goal).map(condition => 'goal: ' + condition), ...more];
  return [HEAD, ...lines.map(line => '# ' + line.replace(/\s+/g, ' ')), END_OF_HEAD, withoutTask(text)].join('\n');
}

// The text below such a head, whose lines then have the numbers that they had.
export function withoutTask(text) {
  const end = text.indexOf(`\n${END_OF_HEAD}\n`);
  return text.startsWith(HEAD + '\n') && end >= 0 ? text.slice(end + END_OF_HEAD.length + 2) : text;
}

// The task that a text tells in its comments, `# goal: ..` and `# task: ..`, or null.
/** @param {string} text @returns {Task | null} */
export function taskOfText(text) {
  const told = name => [...text.matchAll(new RegExp(`^[ \\t]*#+[ \\t]*${name}:(.*)$`, 'gm'))].map(([, line]) => line.trim());
  const goal = [...new Set(told('goal'))].filter(Boolean).join('\n');
  return goal ? { goal, asks: told('task').join(' ') } : null;
}

// What a student hands in: the task, what was found of it, what is told of its goal and of the trace, the last replies, and the trace. In
// the place of another goal the result says so.
/** @param {Task} task @param {{ judged: Judged[], why: string, run: Run | null, others: { called: string }[], about: string[] }} result @param {string} text */
export function handedIn(task, { judged, why, run, others, about }, text) {
  const within = words => (words ? ` (${words})` : ''), names = others.map(({ called }) => called).join(', ');
  const result = names ? said('result: {0}, by another goal than that of {1}', verdictOf(judged), names) : said('result: {0}', verdictOf(judged));
  const marks = judged.map(({ text: condition, isMet, found }) => (isMet ? said('holds: {0}', condition) : said('not yet: {0}', condition)) + within(found));
  const last = run ? run.steps.slice(1).slice(-10).map(step => said('line {0}: {1} -> {2}', step.line, step.text, step.reply)) : [];
  return withTask(task, [result + within(why), ...marks, ...about, ...(last.length ? [said('The last replies:'), ...last] : [])], text);
}
