// The editor: CodeMirror with the words of the language.

import { element } from '../dom.js';
import { said } from '../say.js';

// The commands, each with what follows its name, and what each fault wants: as ./heap_page tells them.
const language = () => {
  const rows = document.querySelector('#language').textContent.trim().split('\n').map(row => row.split('\t'));
  const of = kind => new Map(rows.filter(row => row[0] === kind).map(([, name, text]) => [name, text]));
  return { forms: of('command'), wanted: of('fault') };
};

const NUMBER = /^(0x[0-9a-f]{1,16}|[0-9]{1,20})$/i, REGISTER = /^c([12]?[0-9]|3[01])$/, DATA = /^[0-9a-f]{32}$/i;

function styleOf(word, place, state, forms) {
  if (state.isTold || word === '->') {
    state.isTold = true; // the answer of a log
    return 'meta';
  }
  if (place === 0) {
    state.isTold = word === 'given';
    if (state.isTold || word === 'granule') return 'keyword';
    state.form = word === 'heap' ? ['BASE', 'PAGES'] : forms.has(word) ? forms.get(word).split(' ').filter(Boolean) : null;
    return state.form ? 'keyword' : 'error';
  }
  const wanted = state.form && state.form[place - 1];
  if (!wanted) return state.form ? 'error' : null;
  if (wanted.startsWith('c')) return REGISTER.test(word) ? 'variable' : 'error';
  return wanted === 'DATA' ? (DATA.test(word) ? 'string' : 'error') : NUMBER.test(word) ? 'number' : 'error';
}

function defineLanguage(forms) {
  CodeMirror.defineMode('trace', () => ({
    startState: () => ({ place: 0, form: null, isTold: false }),
    token(stream, state) {
      if (stream.sol()) Object.assign(state, { place: 0, form: null, isTold: false });
      if (stream.eatSpace()) return null;
      if (state.place === 0 && stream.peek() === '#') {
        stream.skipToEnd();
        return 'comment';
      }
      stream.eatWhile(/[^ \t\r]/);
      return styleOf(stream.current(), state.place++, state, forms);
    },
  }));
}

// What may stand where the cursor is: commands with their form, or registers.
function hintsAt(editor, forms) {
  const { line, ch } = editor.getCursor(), before = editor.getLine(line).slice(0, ch);
  const [, word] = /([^ \t\r]*)$/.exec(before), words = before.split(/[ \t\r]+/).filter(Boolean), place = words.length - (word ? 1 : 0);
  const form = forms.has(words[0]) ? forms.get(words[0]).split(' ').filter(Boolean) : [], wanted = place ? form[place - 1] : null;
  const places = { from: { line, ch: ch - word.length }, to: { line, ch } };
  if (before.trimStart().startsWith('#')) return { list: [], ...places };
  const names = place === 0 ? [...forms.keys(), ...(line === 0 ? ['heap'] : [])]
    : wanted?.startsWith('c') ? [...Array(32).keys()].map(number => 'c' + number) : [];
  const list = names.filter(name => name.startsWith(word) && name !== word)
    .map(name => ({ text: place || !forms.get(name) ? name : name + ' ', displayText: place ? name : name + (forms.get(name) || '') }));
  return { list, ...places };
}

// CodeMirror puts what is selected into a field, whose layout takes a browser long: 20 s for 20,000 lines. Of many lines only a mark
// stands there, and to copy or cut them is done here.
function shortenSelections(editor) {
  const { input } = editor.display, { reset } = input;
  const isLong = () => editor.listSelections().some(({ anchor, head }) => Math.abs(anchor.line - head.line) > 200);
  input.reset = isTyping => {
    if (isLong()) editor.getSelection = () => '-';
    reset.call(input, isTyping);
    delete editor.getSelection;
  };
  const take = isCut => (_, event) => {
    if (!isLong()) return;
    event.clipboardData.setData('text/plain', editor.getSelection());
    event.preventDefault();
    if (isCut) editor.replaceSelection('');
  };
  editor.on('copy', take(false));
  editor.on('cut', take(true));
}

// Makes comments of the lines that are selected, or commands again where all of them are comments.
function toggleComments(editor) {
  const lines = editor.listSelections().flatMap(({ anchor, head }) => {
    const from = Math.min(anchor.line, head.line), to = Math.max(anchor.line, head.line);
    return [...Array(to - from + 1).keys()].map(index => from + index);
  });
  const areComments = lines.every(line => /^\s*#/.test(editor.getLine(line)));
  editor.operation(() => lines.forEach(line => {
    const [mark] = areComments ? /^\s*# ?/.exec(editor.getLine(line)) : [''];
    editor.replaceRange(areComments ? '' : '# ', { line, ch: 0 }, { line, ch: mark.length });
  }));
}

/** @param {any} place @param {(isSet: boolean) => void} onChange @param {(line: number) => void} onLine @param {(line: number, text: string) => string | null} inC */
export function makeEditor(place, onChange, onLine, inC) {
  const { forms, wanted } = language();
  defineLanguage(forms);
  const marks = { now: null, fault: null, widget: null, asked: null };
  const editor = CodeMirror(place, { mode: 'trace', lineNumbers: true, lineWrapping: true, indentUnit: 0, smartIndent: false, undoDepth: 1000,
    extraKeys: { Tab: false, 'Shift-Tab': false, 'Ctrl-Space': 'autocomplete', 'Ctrl-Enter': () => onLine(editor.getCursor().line + 1),
      'Ctrl-/': () => toggleComments(editor) },
    hintOptions: { hint: () => hintsAt(editor, forms), completeSingle: false } });
  editor.getInputField().setAttribute('aria-label', said('Trace'));
  shortenSelections(editor);
  editor.on('changes', (_, changes) => onChange(changes.every(change => change.origin === 'setValue')));
  // Commands alone are offered unasked: of registers, Enter behind c1 would take c10.
  editor.on('inputRead', () => {
    const { line, ch } = editor.getCursor();
    if (/^[ \t]*[a-z]+$/.test(editor.getLine(line).slice(0, ch))) editor.showHint();
  });
  editor.on('gutterClick', (_, line) => onLine(line + 1));

  // Within the editor: CodeMirror's own way would move the page too, off the map.
  function bringIntoView(line) {
    const { top, bottom } = editor.charCoords({ line, ch: 0 }, 'local'), seen = editor.getScrollInfo();
    if (top < seen.top + 40 || bottom > seen.top + seen.clientHeight - 40) editor.scrollTo(null, top - seen.clientHeight / 2);
  }

  // The line of the step that is shown.
  function showLine(line) {
    if (marks.now !== null) editor.removeLineClass(marks.now, 'wrap', 'now');
    marks.now = line && line <= editor.lineCount() ? editor.addLineClass(line - 1, 'wrap', 'now') : null;
    if (marks.now && !editor.hasFocus()) bringIntoView(line - 1);
  }

  // While a class is asked first, comments behind the line of the step say too much.
  function hideLater(line) {
    if (marks.asked === line) return;
    marks.asked = line;
    editor.refresh();
  }

  editor.on('renderLine', (_, line, node) => {
    node.dataset.c = inC(editor.getLineNumber(line) + 1, line.text) ?? '';
    node.classList.toggle('later', marks.asked !== null && /^\s*#/.test(line.text) && editor.getLineNumber(line) >= marks.asked);
  });

  function showFault(fault) {
    if (marks.fault !== null) editor.removeLineClass(marks.fault, 'wrap', 'wrong');
    marks.widget?.clear();
    marks.fault = marks.widget = null;
    if (!fault) return;
    const line = Math.min(fault.line, editor.lineCount()) - 1;
    const [name] = editor.getLine(line).trim().split(/[ \t\r]+/);
    const isMarked = editor.getLine(line).startsWith('\ufeff') && said('the text begins with a byte order mark, which is no part of a trace');
    const told = fault.told ?? (isMarked || (fault.name === 'bad-count' ? said('the form is “{0}”', name + (forms.get(name) ?? '')) : wanted.get(fault.name) ?? said('it can’t be read')));
    marks.fault = editor.addLineClass(line, 'wrap', 'wrong');
    marks.widget = editor.addLineWidget(line, element('p', { class: 'wanted', 'data-fault': fault.name, 'data-line': fault.line, 'data-of': editor.getLine(line), role: 'status' },
      element('b', {}, fault.name), `: ${told}.`));
  }

  return { editor, showLine, hideLater, showFault };
}
