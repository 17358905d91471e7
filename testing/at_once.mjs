// What page/playground/at_once.js makes of traces, over ./heap_states: node testing/at_once.mjs ROOT, with the texts as a JSON list on
// standard input, and a list of data or of {"error": ..} on standard output.

import { spawnSync } from 'node:child_process';
import { readFileSync } from 'node:fs';
import { pathToFileURL } from 'node:url';

const [root] = process.argv.slice(2);
const { dataAtOnce } = await import(pathToFileURL(`${root}/page/playground/at_once.js`));

const statesOf = text => spawnSync(`${root}/heap_states`, { input: text, maxBuffer: 1 << 28 }).stdout;
const answers = [];
for (const text of JSON.parse(readFileSync(0, 'utf8'))) {
  try {
    answers.push(await dataAtOnce(statesOf(text).toString(), async one => ({ code: 'done', bytes: statesOf(one) })));
  } catch (problem) {
    answers.push({ error: problem.message });
  }
}
process.stdout.write(JSON.stringify(answers));
