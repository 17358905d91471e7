// The trace's own text: its lines as they were written, and its comments beside the commands that follow them.

import { decodeBase64 } from './link.js';
import { said } from './say.js';

// Of base64. Bytes that are no UTF-8 become U+FFFD.
export function textOf(encoded) {
  return new TextDecoder('utf-8', { ignoreBOM: true }).decode(decodeBase64(encoded));
}

// Control characters are shown by their pictures.
export function shownText(text) {
  const pictureOf = control => String.fromCharCode(0x2400 + control.charCodeAt(0));
  return text.replace(/[\0-\x08\x0b\x0c\x0e-\x1f]/g, pictureOf).replace(/\x7f/g, '\u2421');
}

const withoutBlanks = text => text.replace(/^[ \t\r]+|[ \t\r]+$/g, '');
export const wordsOf = text => text.split(/[ \t\r]+/).filter(word => word !== '');

// Lines that count have their text and the notes before them. Comments on lines that follow each other are one note.
export function readTrace(text) {
  const pieces = text.split('\n');
  if (pieces[pieces.length - 1] === '') pieces.pop();
  const own = { counted: [], after: [], title: null };
  let notes = [], last = 0;
  pieces.forEach((piece, index) => {
    const line = index + 1, trimmed = withoutBlanks(piece);
    if (trimmed === '') return;
    if (!trimmed.startsWith('#')) {
      own.counted.push({ line, text: trimmed, notes });
      notes = [];
    } else {
      const comment = withoutBlanks(trimmed.replace(/^#+/, ''));
      if (notes.length && last === line - 1) notes[notes.length - 1] += ' ' + comment;
      else notes.push(comment);
      last = line;
    }
  });
  own.after = notes;
  own.title = titleOf(own);
  return own;
}

// The first comment's first sentence, else the heap's line.
function titleOf(own) {
  const notes = [...own.counted.flatMap(counted => counted.notes), ...own.after].filter(note => note !== '');
  if (notes.length) return notes[0].replace(/\.(\s.*)?$/s, '') || notes[0];
  return own.counted.length ? own.counted[0].text : said('The life of a heap');
}
