// Judges goals by the page's own module, page/playground/goal.js, in Node: each line of standard input is a text, its states and a goal as
// JSON, each line of standard output what was found. Argument 1 is a folder with the page's modules. First come the forms of conditions.
import { createInterface } from 'node:readline';

const { CONDITIONS, isGoalMet, judgeGoal } = await import(`${process.argv[2]}/playground/goal.js`);
const { parseRun } = await import(`${process.argv[2]}/run.js`);

const tell = answer => process.stdout.write(JSON.stringify(answer) + '\n');
tell(CONDITIONS.map(({ forms, more }) => [forms, more]));
for await (const line of createInterface({ input: process.stdin })) {
  const { text, data, goal } = JSON.parse(line), judged = judgeGoal(goal, data ? parseRun(text, data) : null);
  tell({ judged, isMet: isGoalMet(judged) });
}
