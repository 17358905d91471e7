// Answers the questions of testing/module by the playground's own worker and module, in Node: each line of standard input is a
// question as JSON, each line of standard output its answer. Argument 1 is the repository. A question may name the asking for room at
// which it is refused from then on.
import { readFileSync } from 'node:fs';
import { createInterface } from 'node:readline';
import { gunzipSync } from 'node:zlib';

const root = process.argv[2], module = gunzipSync(readFileSync(`${root}/browser/module.gz`));
const HANDED = 'fits = at + size <= end,', source = readFileSync(`${root}/page/playground/host.js`, 'utf8');
if (source.split(HANDED).length !== 2) throw new Error('the worker hands out room in another way: see testing/module_answers.mjs');
const text = source.replace(HANDED, 'fits = mayHave() && at + size <= end,');

let last = null, asked = 0, refusedFrom = Infinity;
// The page asks for the fault of a text that has no states alone; here it is asked for that of any.
const worker = new Function('postMessage', 'mayHave', `${text}; ANSWERS.fault = text => ofText('page_fault', text); return { onmessage, ANSWERS };`);
globalThis.onmessage = null;
const { ANSWERS } = worker(answer => { last = answer; }, () => ++asked < refusedFrom);
const handle = globalThis.onmessage;
await handle({ data: { module } });

const encoded = bytes => (bytes ? Buffer.from(bytes).toString('base64') : null);
for await (const line of createInterface({ input: process.stdin })) {
  const { kind, given, refused } = JSON.parse(line);
  asked = 0;
  refusedFrom = refused ?? Infinity;
  await handle({ data: { kind, given: kind === 'word' ? given.map(BigInt) : new Uint8Array(Buffer.from(given, 'base64')) } });
  const { code, bytes, text: part, fault, line: told, report, sums, message } = last;
  process.stdout.write(JSON.stringify({ code, bytes: encoded(bytes), part: encoded(part), fault, line: told, report: encoded(report), sums, message, asked }) + '\n');
}
