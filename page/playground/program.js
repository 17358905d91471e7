// The proved program, asked in a worker, so that the page never waits for it.

import { decodeBase64, inflate } from '../link.js';
import { said } from '../say.js';

// What the page brings with it: the text of the worker, and the program as gzip in base64.
const textOfElement = id => document.querySelector('#' + id).textContent;

let moduleReady = null; // compiled once

async function compile() {
  const worker = newWorker(), bytes = await inflate(decodeBase64(textOfElement('module')), 'gzip', 1 << 24);
  const answer = await answerFrom(worker, { module: bytes });
  worker.terminate();
  if (answer.code !== 'ready') throw new Error(answer.message);
  return answer.module;
}

function newWorker() {
  const address = URL.createObjectURL(new Blob([textOfElement('host')], { type: 'text/javascript' }));
  const worker = new Worker(address);
  URL.revokeObjectURL(address);
  return worker;
}

function answerFrom(worker, question) {
  return new Promise(resolve => {
    worker.onmessage = ({ data }) => resolve(data);
    worker.onerror = event => resolve({ code: 'broken', message: event.message || said('the worker can’t start') });
    worker.postMessage(question);
  });
}

// One that answers a question at a time: a newer one ends the older, whose answer is then null.
export class Program {
  constructor() {
    this.worker = null;
    this.end = null;
  }

  // Whether this browser has what the program needs.
  static async isThere() {
    moduleReady ??= compile();
    try {
      await moduleReady;
      return true;
    } catch {
      return false;
    }
  }

  async ask(kind, given) {
    this.stop();
    const ended = new Promise(resolve => { this.end = () => resolve(null); }), mine = this.end;
    const module = await moduleReady;
    if (this.end !== mine) return null;
    const isNew = this.worker === null;
    this.worker ??= newWorker();
    const answer = await Promise.race([answerFrom(this.worker, isNew ? { module, kind, given } : { kind, given }), ended]);
    if (answer !== null && this.end === mine) this.end = null;
    return answer;
  }

  stop() {
    if (!this.end) return;
    this.worker?.terminate();
    this.worker = null;
    this.end();
    this.end = null;
  }
}
