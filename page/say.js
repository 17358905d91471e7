// Texts of the page. English stands where it is said, and is the key by which another language has its own (page/languages): where a page
// is made in one, page/translate.awk puts that text in the place of the English one. So a text is a plain literal right behind the
// parenthesis of a call, and a whole sentence where a sentence is said, since languages order words otherwise. Commands, replies and
// comments of a trace, names of registers, numbers, lines of C and the conditions of a goal are no texts of the page.

/** @typedef {string | number | bigint | Node | (string | Node)[]} Piece */

// A text in pieces for an element: each {0} is one of the values.
/** @param {string} text @param {Piece[]} values @returns {any[]} */
export const say = (text, ...values) => text.split(/\{([0-9])\}/).flatMap((piece, index) => (index % 2 ? values[Number(piece)] : piece)).filter(piece => piece !== '');

// The same as one text.
/** @param {string} text @param {Piece[]} values */
export const said = (text, ...values) => (values.length ? say(text, ...values).join('') : text);

export const grouped = number => String(number).replace(/\B(?=(\d{3})+$)/g, said(','));

// A text of a count, {0}, in two forms: that of one, and behind a bar that of any other number.
const formOf = (text, count) => text.split(' | ')[Number(count) === 1 ? 0 : 1];
export const sayCount = (text, count, ...more) => say(formOf(text, count), grouped(count), ...more);
export const saidCount = (text, count, ...more) => sayCount(text, count, ...more).join('');

export const inBytes = count => saidCount('{0} byte | {0} bytes', count);
export const inTags = count => saidCount('{0} tag | {0} tags', count);

// Sentences behind each other, each in pieces; what is null or false is none.
export const passage = (...sentences) => sentences.filter(Boolean).flatMap((sentence, index) => (index ? [' ', ...sentence] : sentence));
