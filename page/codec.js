// A capability word: fields, mantissas, window and bounds, on plain integers, as docs/DEFINITIONS.md says them.

import { said } from './say.js';

/** @param {number} exponent */
export const power = exponent => 1n << BigInt(exponent);
/** @param {bigint} number @param {bigint} by */
export const modulo = (number, by) => ((number % by) + by) % by;
export const SPACE = power(64);
export const NULL_METADATA = 0x00001ffffc018004n;
export const NULL_WORD = '0'.repeat(32);
export const PERMISSIONS = { 0: 'GLOBAL', 2: 'LOAD', 3: 'STORE', 4: 'LOAD_CAPABILITY', 5: 'STORE_CAPABILITY' };

// Of 32 digits, the bytes in the order of memory.
export const bitsOf = word => BigInt('0x' + word.match(/../g).reverse().join(''));

export function fieldsOf(bits) {
  const stored = bits >> 64n, metadata = stored ^ NULL_METADATA;
  const part = (lowest, width) => (metadata >> BigInt(lowest)) % power(width);
  return { stored, metadata, permissions: part(48, 16), reserved: part(46, 2), flag: part(45, 1), type: part(27, 18),
    internal: part(26, 1), topField: part(14, 12), baseField: part(0, 14) };
}

// What the bits mean at an address, which is their own unless another one is tried.
/** @param {bigint} bits @param {bigint} address */
export function decode(bits, address = bits % SPACE) {
  const fields = fieldsOf(bits), { topField, baseField } = fields, inner = fields.internal === 1n;
  const told = topField % 8n * 8n + baseField % 8n;
  const exponent = inner ? Number(told < 52n ? told : 52n) : 0;
  const baseMantissa = inner ? baseField - baseField % 8n : baseField;
  const topLow = inner ? topField - topField % 8n : topField;
  const carry = topLow < baseMantissa % power(12) ? 1n : 0n;
  const topMantissa = (baseMantissa / power(12) + carry + fields.internal) % 4n * power(12) + topLow;
  const size = power(exponent + 14);
  const low = address - modulo(address - modulo(baseMantissa / power(11) - 1n, 8n) * power(exponent + 11), size);
  const place = mantissa => low + modulo(mantissa * power(exponent) - low, size);
  const base = modulo(place(baseMantissa), SPACE), top = modulo(place(topMantissa), power(65));
  const isFar = exponent < 51 && modulo(top / power(63) - base / power(63), 4n) > 1n;
  return { address, ...fields, exponent, carry, baseMantissa, topMantissa, size, low, base, top: isFar ? top ^ SPACE : top };
}

// Permissions by letters, as CHERI's tools print them: capital ones are for capabilities. g is for GLOBAL.
const LETTERS = { 2: 'r', 3: 'w', 4: 'R', 5: 'W', 0: 'g' };
/** @param {bigint} permissions */
export const lettersOf = permissions => [2, 3, 4, 5, 0].filter(bit => permissions >> BigInt(bit) & 1n).map(bit => LETTERS[bit]).join('') || said('none');
/** @param {bigint} permissions */
export const namesOfPermissions = permissions => [2, 3, 4, 5, 0].filter(bit => permissions >> BigInt(bit) & 1n).map(bit => PERMISSIONS[bit]).join(', ') || said('no permission');

// How long a block of so many bytes is, and of what its base is a multiple: whole granules, and from 4,096 bytes on what a word can hold.
/** @param {bigint} bytes */
export function blockOf(bytes) {
  let unit = 16n, length = bytes || 1n;
  for (;;) {
    length = (length + unit - 1n) / unit * unit;
    const exponent = length < 4096n ? 0 : length.toString(2).length - 13, needed = power(exponent + 3);
    if (needed <= unit) return { length, unit };
    unit = needed;
  }
}

// What the program's line tells of a word, by the names of `decode`; null for what is no such line.
export function readLine(line) {
  const names = ['address', 'base', 'top', 'permissions', 'reserved', 'flag', 'type', 'internal', 'exponent', 'topField', 'baseField'];
  const read = /^address (\S+) base (\S+) top (\S+) perms (\S+) reserved (\S+) flag (\S+) type (\S+) internal (\S+) exponent (\S+) topfield (\S+) basefield (\S+)$/.exec(line);
  if (!read) return null;
  const told = Object.fromEntries(names.map((name, index) => [name, BigInt(read[index + 1])]));
  return { ...told, exponent: Number(told.exponent) };
}

// Whether the word keeps its bounds with another address: the window may wrap around the address space.
/** @param {ReturnType<typeof decode>} word @param {bigint} address */
export const keepsBounds = (word, address) => word.exponent >= 50 || modulo(address - word.low, SPACE) < word.size;
