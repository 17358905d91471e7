// What all other files stand on. Text of a trace enters the page as text nodes and as plain attributes, and never as markup.

export const SHAPES = 'http://www.w3.org/2000/svg';

// A child that is null, undefined or false is left out, and so is an attribute.
export function build(node, attributes, children) {
  for (const [name, value] of Object.entries(attributes)) {
    if (name.startsWith('on')) node.addEventListener(name.slice(2), value);
    else if (value !== null && value !== undefined && value !== false) node.setAttribute(name, value === true ? '' : value);
  }
  node.append(...children.flat().filter(child => child !== null && child !== undefined && child !== false));
  return node;
}

// What is written again as it was would be laid out and painted again.
export function renew(node, name, value) {
  if (node.getAttribute(name) !== value) node.setAttribute(name, value);
}

export const element = (name, attributes = {}, ...children) => build(document.createElement(name), attributes, children);
export const shape = (name, attributes = {}, ...children) => build(document.createElementNS(SHAPES, name), attributes, children);
export const code = text => element('code', {}, String(text));

export const clamp = (number, least, greatest) => Math.min(Math.max(number, least), greatest);
export const hex = number => (number < 0n ? '−0x' + (-number).toString(16) : '0x' + number.toString(16));
export const digits = (number, count) => number.toString(16).padStart(count, '0');
