// The viewer of the one trace that stands in the document, with its data.

import { Cursor } from './cursor.js';
import { mount, tellFault } from './main.js';
import { parseRun } from './run.js';
import { shownText, textOf } from './trace.js';

let heapViewer = null;

const onlyText = textOf(document.querySelector('#trace-text').textContent);

function readOnlyRun() {
  try {
    return parseRun(shownText(onlyText), document.querySelector('#states').textContent);
  } catch (problem) {
    tellFault(problem.message);
    return null;
  }
}

const onlyRun = readOnlyRun();
if (onlyRun) heapViewer = mount(document.querySelector('#root'), new Cursor(onlyRun), { text: onlyText });
