// Files: a trace that is opened, dropped on the page or saved, and the data of ./heap_states, from which the trace is had again.

import { element } from '../dom.js';
import { LONGEST_LOG } from '../link.js';
import { said } from '../say.js';

// The trace of the data of its states: each command at its line.
function traceOfStates(text) {
  const [first, ...rows] = text.split('\n').filter(row => row !== '').map(row => JSON.parse(row));
  const lines = [`heap ${first.heap.base} ${first.heap.pages}`], steps = rows.filter(row => row.line !== undefined);
  for (const { line, text: command } of steps) {
    while (lines.length < line - 1) lines.push('');
    lines.push(command);
  }
  return lines.join('\n') + '\n';
}

async function textOfFile(file) {
  if (file.size > 16 * LONGEST_LOG) throw new Error(said('{0} is too long', file.name));
  // A byte order mark stays: it is no part of a trace, and told as a fault, as by the programs.
  const text = new TextDecoder('utf-8', { ignoreBOM: true }).decode(await file.arrayBuffer()), isStates = /^\{"heap":/.test(text);
  if (!isStates && file.size > LONGEST_LOG) throw new Error(said('{0} is longer than any trace or log', file.name));
  try {
    return isStates ? traceOfStates(text) : text;
  } catch {
    throw new Error(said('{0} begins as the output of ./heap_states, and can’t be read as that', file.name));
  }
}

export function listenToFiles(byId, take, tell) {
  const read = async file => {
    try {
      take(await textOfFile(file));
    } catch (problem) {
      tell(problem.message);
    }
  };
  byId('open').onclick = () => byId('file').click();
  byId('file').addEventListener('change', () => {
    const [file] = byId('file').files;
    if (file) read(file);
    byId('file').value = ''; // so that the same file can be opened again
  });
  addEventListener('dragover', event => event.preventDefault());
  addEventListener('drop', event => {
    event.preventDefault();
    const [file] = event.dataTransfer.files;
    if (file) read(file);
  });
}

export function saveText(name, text) {
  const address = URL.createObjectURL(new Blob([text], { type: 'text/plain' }));
  element('a', { href: address, download: name }).click();
  setTimeout(() => URL.revokeObjectURL(address), 1000);
}
