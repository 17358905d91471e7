// A step in a sentence.

import { code, element, hex } from './dom.js';
import { NULL_CELL, nameOf, pageOf } from './cursor.js';
import { PERMISSIONS, blockOf, lettersOf, namesOfPermissions } from './codec.js';
import { grouped, inTags, passage, said, say, sayCount } from './say.js';

const INSTRUCTIONS = { copy: 'CMove', setaddr: 'CSetAddr', narrow: 'CSetBoundsExact', andperm: 'CAndPerm', storecap: 'CSC', loadcap: 'CLC' };

export function addWords(viewer) {
  const { run, cursor: state } = viewer;

  const TRAPS = {
    tag: step => say('{0} has no tag, so what it holds is data alone', code(actingName(step))),
    perm: step => say('{0} lacks the permission {1}', code(actingName(step)), lackingOf(step)),
    bounds: step => say('this does not lie within the bounds: {0}', beyond(step)),
    align: step => say('the address {0} is no multiple of 16', code(hex(actingCell(step).meaning.address))),
    empty: () => say('a length of 0 has no bounds'),
    inexact: () => say('no word can hold just these bounds'),
    freed: step => say('the block of {0} was freed before, and is held', nameOf(state.ownerOf(actingCell(step).meaning.base))),
    notblock: () => say('these are not just the bounds of a live block'),
    open: () => say('an epoch is open'),
    notopen: () => say('no epoch is open'),
  };

  const sentences = {
    heap: () => say('A new heap: all bytes are zero and free, no tag is set, and every register is null.'),

    malloc(step, [, target, size], answer) {
      const swept = answer.indexOf('swept'), before = swept >= 0 &&
        sayCount('No place was free, so a sweep came first and took {0} tag. | No place was free, so a sweep came first and took {0} tags.', answer[swept + 1]);
      if (answer[0] === 'nospace') {
        const why = swept < 0 && (step.open ? say('An epoch is open, so no sweep may come first.') : say('No block is held, so no sweep would help.'));
        const full = state.blocks.size ? say('{0}: the bytes of live and of held blocks are not handed out.', noPlace(size)) : say('{0}.', noPlace(size));
        return passage(before, full, why, lost(target) || say('{0} becomes null.', code(target)));
      }
      const length = grouped(BigInt(answer[2]) - BigInt(answer[1]));
      return passage(before, say('The block {0} to {1} of {2} bytes becomes live.', code(answer[1]), code(answer[2]), length),
        lost(target) || say('{0} gets its capability, tagged, with just these bounds.', code(target)));
    },

    free(step, [, source], answer) {
      const works = say('No tag is taken, so {0} and its copies still work.', code(source));
      if (answer[0] === 'free') return passage(say('The bytes are free at once: the next {0} may hand them out.', code('malloc')), works);
      const name = nameOf(state.ownerOf(cellOf(source).meaning.base));
      return passage(say('The block of {0} goes into quarantine, where it is held: its {1} bytes are not handed out.', name, grouped(answer[1])), works,
        step.open && say('It waits for the next epoch, since one is open.'));
    },

    copy(step, [, target, source]) {
      const { tag, isNull } = cellBefore(step, source), both = [code(target), code(source)];
      return lost(target) || (isNull ? say('{0} becomes null, as {1} is.', ...both)
        : tag ? say('{0} gets the bits and the tag of {1}.', ...both) : say('{0} gets the bits of {1}, which has no tag.', ...both));
    },

    setaddr(step, [, target, source, address], answer) {
      if (lost(target)) return lost(target);
      const was = cellBefore(step, source), { base, top } = cellAfter(step, target).meaning;
      const stay = was.meaning.base === base && was.meaning.top === top;
      const past = () => (was.tag ? say('That is outside of the window, where the same bits mean other bounds: the tag is lost.')
        : say('That is outside of the window, where the same bits mean other bounds: there was no tag to lose.'));
      return passage(say('{0} gets the bits of {1} with the address {2}.', code(target), code(source), code(address)),
        stay ? say('The bounds stay as they are.') : past());
    },

    narrow(step, [, target, source, length]) {
      if (lost(target)) return lost(target);
      const was = cellBefore(step, source).meaning, { base, top } = cellAfter(step, target).meaning, isSame = was.base === base && was.top === top;
      const both = [code(target), code(source)];
      return isSame ? sayCount('{1} gets {2} with the same bounds: {0} byte from its address on. | {1} gets {2} with the same bounds: {0} bytes from its address on.', length, ...both)
        : sayCount('{1} gets {2} with narrower bounds: {0} byte from its address on. | {1} gets {2} with narrower bounds: {0} bytes from its address on.', length, ...both);
    },

    andperm(step, [, target, source, mask]) {
      if (lost(target)) return lost(target);
      const [was, now] = [cellBefore(step, source), cellAfter(step, target)].map(({ meaning }) => meaning.permissions);
      return say('{0} gets {1} with those permissions that {2} has too: {3} of {4}.', code(target), code(source), code(mask), lettersIn(now), lettersIn(was));
    },

    storecap(step, [, authority, source]) {
      const { tag } = cellOf(source), page = pageOf(run.granulesTo(cellOf(authority).meaning.address)), both = [code(authority), code(source)];
      return passage(tag ? say('The granule where {0} points gets the bits of {1} and its tag.', ...both)
        : say('The granule where {0} points gets the bits of {1}, which has no tag.', ...both),
      tag && step.open && say('An epoch is open: page {0} is dirty now, and its end will look there.', page), stale(authority),
      source !== authority && staleStored(source));
    },

    loadcap(step, [, target, authority]) {
      const { address } = cellBefore(step, authority).meaning, { tag } = state.granules[Math.floor(run.granulesTo(address))] || NULL_CELL;
      const both = [code(target), code(authority)];
      const gets = () => (cellAfter(step, target).tag ? say('{0} gets the bits of the granule where {1} pointed, and its tag.', ...both)
        : tag ? passage(say('{0} gets the bits of the granule where {1} pointed.', ...both),
          say('Its tag stays behind, since {0} lacks the permission LOAD_CAPABILITY.', code(authority)))
          : say('{0} gets the bits of the granule where {1} pointed; it has no tag.', ...both));
      return passage(lost(target) || gets(), target !== authority && stale(authority));
    },

    write: (step, [, authority]) => passage(say('The granule where {0} points gets 16 bytes of data, and no tag.', code(authority)), stale(authority)),

    show: (step, [, source]) => (cellOf(source).tag ? say('{0} is shown. It is tagged. Nothing changes.', code(source))
      : say('{0} is shown. It has no tag. Nothing changes.', code(source))),

    sweep: (step, words, answer) => (answer[3] === '0'
      ? say('No block is held, so there is nothing to look for: 0 tags are taken, and 0 bytes are set free.')
      : say('The sweep looks at every tagged granule and register, and takes {0}: just where the base lies in a held block. Then {1} held bytes are free again.',
        inTags(answer[1]), grouped(answer[3]))),

    begin(step, words, answer) {
      if (!step.blocks.length) return passage(say('An epoch begins.'), say('No block is held, so none is painted, and 0 tags are taken.'));
      const taken = sayCount('The held blocks are painted, and {0} tag in memory whose base lies in one of them is taken. | The held blocks are painted, and {0} tags in memory whose base lies in one of them are taken.', answer[1]);
      return passage(say('An epoch begins.'), taken, say('Registers keep theirs until the end.'));
    },

    end(step, words, answer) {
      const pages = dirtyNames(step), bytes = grouped(answer[3]);
      const taken = pages
        ? sayCount('The epoch ends: {0} tag in registers and in dirty pages ({1}) whose base lies in a painted block is taken, and {2} painted bytes are free again. | The epoch ends: {0} tags in registers and in dirty pages ({1}) whose base lies in a painted block are taken, and {2} painted bytes are free again.', answer[1], pages, bytes)
        : sayCount('The epoch ends: {0} tag in registers (no page is dirty) whose base lies in a painted block is taken, and {1} painted bytes are free again. | The epoch ends: {0} tags in registers (no page is dirty) whose base lies in a painted block are taken, and {1} painted bytes are free again.', answer[1], bytes);
      return passage(taken, waits() && say('Blocks that were freed since it began wait on.'));
    },
  };

  // For what there is no place: a block may be longer than what is asked for.
  function noPlace(size) {
    const { length, unit } = blockOf(BigInt(size)), isRounded = length !== BigInt(size) || unit > 16n;
    return isRounded ? say('No place is long enough for {0} bytes, whose block has {1} and begins at a multiple of {2}', code(size), grouped(length), String(unit))
      : say('No place is long enough for {0} bytes', code(size));
  }

  // The pages at which an end looked, and '' where there are none.
  const dirtyNames = step => state.lookedAt(step).slice(0, 8).map(page => said('page {0}', page)).join(', ') + (state.lookedAt(step).length > 8 ? ', ..' : '');

  const placeOf = name => Number(String(name).slice(1));
  const cellOf = name => state.registers[placeOf(name)] || NULL_CELL;
  const changeOf = (step, name) => step.registers.find(change => change.place === placeOf(name));
  // What a register held before the step, and after it, whichever state is shown.
  const cellBefore = (step, name) => (changeOf(step, name) || { was: cellOf(name) }).was;
  const cellAfter = (step, name) => (changeOf(step, name) || { now: cellOf(name) }).now;
  const waits = () => [...state.blocks.values()].some(block => block.state === 'waiting');

  // The register by whose capability a command acts, which is trapped for it.
  const actingName = ({ words }) => words[words[0] === 'narrow' || words[0] === 'loadcap' ? 2 : 1];
  const actingCell = step => cellBefore(step, actingName(step));

  // The first permission that an access wants and its capability lacks.
  function lackingOf(step) {
    const wanted = { loadcap: [2], write: [3], storecap: [3, 5] }[step.words[0]] || [];
    const { permissions } = actingCell(step).meaning;
    return PERMISSIONS[wanted.find(bit => !(permissions >> BigInt(bit) & 1n))];
  }

  // By how far an access, or bounds that were to be narrower, lie outside of the bounds.
  function beyond(step) {
    const { address, base, top } = actingCell(step).meaning, length = step.words[0] === 'narrow' ? step.words[3] : '16';
    return address < base ? say('{0} is below the base {1}', code(hex(address)), code(hex(base)))
      : say('{0} is past the top {1}', code(`${hex(address)} + ${length}`), code(hex(top)));
  }

  // Said where an access went to a held block: that is the point of a quarantine.
  function stale(authority) {
    const { tag, meaning } = cellOf(authority), block = state.ownerOf(meaning.base);
    if (!tag || !block || block.state === 'live') return null;
    return say('The block of {0} is held: {1} is stale, and still works, but nobody else has these bytes.', nameOf(block), code(authority));
  }

  // The same of what is stored.
  function staleStored(source) {
    const { tag, meaning } = cellOf(source), block = state.ownerOf(meaning.base);
    return tag && block && block.state !== 'live' ? say('What is stored is stale: the block of {0} is held.', nameOf(block)) : null;
  }

  // What came of it that bytes were handed out at once.
  const HARMS = {
    shared: ({ names, freed }) => (names.length === 1
      ? say('{0}, of the block that was freed at line {1}, still reaches into these bytes: they have two owners now.', listed(names), freed)
      : say('{0}, of the block that was freed at line {1}, still reach into these bytes: they have two owners now.', listed(names), freed)),
    read: ({ names, freed, owner }) => say('{0} is of the block that was freed at line {1}, and reads what belongs to the block of line {2}.', code(names[0]), freed, owner),
    written: ({ names, freed, owner }) => say('{0} is of the block that was freed at line {1}, and writes over what belongs to the block of line {2}.', code(names[0]), freed, owner),
    freed: ({ names, freed, owner }) => say('{0} is of the block that was freed at line {1}, and takes from its owner the block of line {2}.', code(names[0]), freed, owner),
  };
  const listed = names => names.slice(0, 6).flatMap((name, index) => [index ? ', ' : '', code(name)]).concat(names.length > 6 ? ', ..' : []);

  function harmOf({ harm }) {
    if (!harm) return null;
    if (harm.kind === 'nobody') return say('The block of {0} was freed at line {1}, and nobody has these bytes yet.', code(harm.names[0]), harm.freed);
    return passage([element('b', { class: 'refused' }, said('Harm:'))], HARMS[harm.kind](harm));
  }

  const lettersIn = permissions => [element('code', { title: namesOfPermissions(permissions) }, lettersOf(permissions))];

  // The registers that a command uses: all that it names, but not the one that it is to write.
  const usedNames = ({ words }) => words.slice(['malloc', 'copy', 'setaddr', 'narrow', 'andperm', 'loadcap'].includes(words[0]) ? 2 : 1)
    .filter(word => /^c[0-9]+$/.test(word));

  const lost = target => (target === 'c0' ? say('{0} stays null: what is written to it is lost.', code('c0')) : null);

  function explain(step) {
    const answer = step.reply.split(' ');
    if (answer[0] === 'trap') {
      const why = Object.hasOwn(TRAPS, answer[1]) ? TRAPS[answer[1]](step) : [answer[1] || ''];
      return say('{0} {1}. A trap changes nothing.', element('b', { class: 'refused' }, said('Refused:')), why);
    }
    return Object.hasOwn(sentences, step.words[0]) ? passage(sentences[step.words[0]](step, step.words, answer), harmOf(step)) : [step.reply];
  }

  // The instruction of CHERI-RISC-V that a command is, and the step in C, where they are known.
  function otherwise(step) {
    const told = [INSTRUCTIONS[step.words[0]], viewer.host.inC?.(step)].filter(Boolean);
    return told.length ? element('span', { class: 'otherwise' }, ...told.flatMap((text, index) => [index ? ' · ' : ' ', code(text)])) : null;
  }

  Object.assign(viewer, { placeOf, usedNames, explain, otherwise });
}
