// Rows of a long list or table in pieces, of which only those near what is in sight have their rows: every other one is as high
// as it was, or as it probably is. A short list has all its rows, and so has each on paper.

import { element } from './dom.js';

const PIECE = 50; // rows of a piece
export const WHOLE = 400; // so many rows are no long list

export class Pieces {
  // The box that scrolls, its child that has the pieces, an empty piece, and the row of an item; and all lists of the page.
  constructor(box, holder, makePiece, rowOf, lists) {
    this.box = box;
    this.holder = holder;
    this.makePiece = makePiece;
    this.rowOf = rowOf;
    this.heads = [...holder.children];
    this.pieces = [];
    this.items = [];
    this.kept = null;
    this.rowHeight = 46;
    box.addEventListener('scroll', () => this.refill());
    lists.push(this);
  }

  show(items) {
    this.items = items;
    this.kept = null;
    this.pieces = [];
    for (let start = 0; start < items.length; start += PIECE) {
      const node = this.makePiece(items[start]);
      this.pieces.push({ node, start, end: Math.min(start + PIECE, items.length), isFull: false, height: 0 });
      this.hold(this.pieces[this.pieces.length - 1]);
    }
    this.holder.replaceChildren(...this.heads, ...this.pieces.map(piece => piece.node));
    if (items.length <= WHOLE) this.pieces.forEach(piece => this.fill(piece)); else this.refill();
  }

  hold(piece) {
    const height = `${piece.height || this.rowHeight * (piece.end - piece.start)}px`, isTable = piece.node.tagName === 'TBODY';
    const held = isTable ? element('tr', { class: 'room', 'aria-hidden': 'true' }) : piece.node;
    held.style.height = height;
    if (isTable) piece.node.replaceChildren(held); else piece.node.replaceChildren();
    piece.isFull = false;
  }

  fill(piece) {
    if (piece.isFull) return;
    piece.node.style.height = '';
    piece.node.replaceChildren(...this.items.slice(piece.start, piece.end).map(this.rowOf));
    piece.isFull = true;
  }

  // The row at a position, whose piece stays full from now on.
  rowAt(position) {
    const piece = this.pieces[Math.floor(position / PIECE)];
    this.kept = piece;
    this.fill(piece);
    return piece.node.children[position % PIECE];
  }

  // What is in sight, and a screen above and below it, gets its rows, and stays where it is.
  refill() {
    if (this.items.length <= WHOLE || !this.box.clientHeight) return;
    const frame = this.box.getBoundingClientRect(), low = frame.top - frame.height, high = frame.bottom + frame.height;
    const seen = this.pieces.map(piece => piece.node.getBoundingClientRect());
    const first = seen.findIndex(place => place.bottom > frame.top), filled = [];
    this.pieces.forEach((piece, index) => {
      const isNear = seen[index].bottom > low && seen[index].top < high;
      if (piece.isFull && !isNear && piece !== this.kept) {
        piece.height = seen[index].height;
        this.hold(piece);
      } else if (isNear && !piece.isFull) {
        this.fill(piece);
        filled.push(piece);
      }
    });
    if (!filled.length || first < 0) return;
    this.box.scrollTop += this.pieces[first].node.getBoundingClientRect().top - seen[first].top;
    const heights = filled.map(piece => piece.node.getBoundingClientRect().height);
    const rows = filled.reduce((sum, piece) => sum + piece.end - piece.start, 0);
    this.rowHeight = heights.reduce((sum, height) => sum + height, 0) / rows;
  }
}
