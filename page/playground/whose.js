// Whose goal it is by which a trace is judged: that of a lesson's task, or another one in its place. Who wants to forge it can, so nothing is
// signed; it is told, in the panel and in what is handed in, and what is dropped on the page is judged anew. No document is used here.

import { said } from '../say.js';
import { wordsOf } from '../trace.js';
import { conditionsOf, judgeGoal, verdictOf } from './goal.js';

/**
 * A task with what it is called, and where it is a lesson's the text with which it begins.
 * @typedef {{ goal: string, asks: string, called: string, text?: string }} Known
 * The task of a lesson that has just this goal; or else those in the place of which it seems to stand.
 * @typedef {{ own: Known | null, others: Known[] }} Whose
 */

const keysOf = goal => [...new Set(conditionsOf(goal).map(text => text.toLowerCase()))].sort();
export const isSameGoal = (one, other) => keysOf(one).join('\n') === keysOf(other).join('\n');

// The heap line of a text, and its commands.
function linesOf(text) {
  const [heap = '', ...commands] = text.split('\n').map(line => wordsOf(line).join(' ')).filter(line => line !== '' && !line.startsWith('#'));
  return { heap, commands };
}

// How many commands of the text with which a task begins are there, wherever they stand, and how many others.
function sharedBy(text, begun) {
  const more = linesOf(text).commands, all = linesOf(begun).commands;
  const kept = all.filter(line => more.includes(line) && more.splice(more.indexOf(line), 1));
  return { kept: kept.length, all: all.length, more: more.length };
}

// The tasks with most of a goal's conditions, and of these or of all those whose text a trace has most of.
/** @param {string} goal @param {Known[]} known @param {string} text @returns {Known[]} */
function tasksNear(goal, known, text) {
  const most = (tasks, score, least) => {
    const best = Math.max(...tasks.map(score));
    return best > least ? tasks.filter(each => score(each) === best) : [];
  };
  const conditions = keysOf(goal), common = each => keysOf(each.goal).filter(key => conditions.includes(key)).length;
  const share = each => { const { kept, all } = sharedBy(text, each.text); return kept / all; };
  const alike = most(known, common, 0);
  return alike.length ? most(alike, share, -1) : most(known, share, .5);
}

// `came` is the task that came by a link, a lesson or a file, before the reader's own fields or comments.
/** @param {{ goal: string, asks: string }} task @param {{ goal: string, asks: string } | null} came @param {Known[]} known @param {string} text @returns {Whose} */
export function whoseTask({ goal, asks }, came, known, text) {
  const own = known.find(each => isSameGoal(each.goal, goal)) ?? null, asked = known.find(each => each.asks === asks);
  if (own && (!asked || asked === own)) return { own, others: [] };
  if (asked) return { own: null, others: [asked] };
  if (!came || isSameGoal(came.goal, goal)) return { own: null, others: tasksNear(goal, known, text) };
  return { own: null, others: [known.find(each => isSameGoal(each.goal, came.goal)) ?? { ...came, called: said('the task that was here before') }] };
}

// Of the goal, with what the same run comes to by each goal in whose place it stands.
/** @param {Whose} whose @param {import('../run.js').Run | null} run @returns {string[]} */
export function toldOfGoal({ own, others }, run) {
  if (own) return [said('The goal is that of {0}.', own.called)];
  return others.length === 0 ? [said('No lesson has this goal.')] : others.map(({ called, goal }) =>
    said('This is not the goal of {0}, which is “{1}”; by that one: {2}.', called, conditionsOf(goal).join(' and '), verdictOf(judgeGoal(goal, run))));
}

// Of a heap that isn't the lesson's.
/** @param {Whose} whose @param {string} text @returns {string[]} */
export function toldOfHeap({ own, others }, text) {
  const begun = (own ?? others[0])?.text, [here, there] = [text, begun ?? text].map(each => linesOf(each).heap);
  return here === there ? [] : [said('The heap is not the lesson’s: here is “{0}”, and there “{1}”.', here, there)];
}

/** @param {Whose} whose @param {string} text @returns {string[]} */
export function toldOfCommands({ own, others }, text) {
  const begun = (own ?? others[0])?.text, { kept, all, more } = sharedBy(text, begun ?? '');
  return begun ? [said('Commands: {0} of the {1} of the lesson, and {2} more.', kept, all, more)] : [];
}
