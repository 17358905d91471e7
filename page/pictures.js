// Pictures for others' pages: the step that is shown, with its sentence and its registers, for a slide; the whole life of the heap, for
// a paper; and the page itself in a frame.

import { clamp, element, hex, shape } from './dom.js';
import { lettersOf } from './codec.js';
import { said } from './say.js';

export function addPictures(viewer) {
  const { run, view, byId, cursor: state } = viewer;

  const EDGE = 24, TEXT = 'system-ui, sans-serif', MONO = 'ui-monospace, monospace';
  const LIFE = { width: 900, height: 300, left: 110, top: 40, bottom: 60 };
  const ruler = document.createElement('canvas').getContext('2d');
  const colour = name => getComputedStyle(document.documentElement).getPropertyValue('--' + name).trim();

  // A text in lines of at most so many pixels.
  function linesOf(text, size, font, width) {
    const lines = [''];
    ruler.font = `${size}px ${font}`;
    for (const word of text.split(' ')) {
      const last = lines.length - 1, longer = lines[last] ? `${lines[last]} ${word}` : word;
      if (lines[last] && ruler.measureText(longer).width > width) lines.push(word);
      else lines[last] = longer;
    }
    return lines;
  }

  // Texts below each other from a height on, and where they end.
  function written(texts, top, width) {
    const shapes = [];
    let y = top;
    for (const { text, size, font = TEXT, fill = colour('ink'), weight = 400 } of texts) {
      for (const line of linesOf(text, size, font, width)) {
        y += Math.round(size * 1.4);
        shapes.push(shape('text', { x: EDGE, y, fill, 'font-size': size, 'font-family': font, 'font-weight': weight, 'xml:space': 'preserve' }, line));
      }
      y += Math.round(size * .5);
    }
    return { shapes, end: y };
  }

  function registerTexts() {
    return [...run.written].sort((one, other) => one - other).map(register => {
      const cell = state.registers[register], { address, base, top, permissions } = cell.meaning;
      const told = cell.isNull ? said('null') : `${hex(address)}  ${said('{0} to {1}', hex(base), hex(top))}  ${lettersOf(permissions)}`;
      return { text: `${('c' + register).padEnd(4)}${cell.tag ? '◆' : '◇'}  ${told}`, size: 15, font: MONO };
    });
  }

  const picture = (width, height, title, ...shapes) => shape('svg', { xmlns: 'http://www.w3.org/2000/svg', width, height, viewBox: `0 0 ${width} ${height}` },
    shape('title', {}, title), shape('rect', { width: '100%', height: '100%', fill: colour('card') }), ...shapes);

  // The step with its sentence, the map and the registers.
  function slide() {
    const step = run.steps[view.step], map = viewer.mapCopy(), mapWidth = Number(map.getAttribute('width')), mapHeight = Number(map.getAttribute('height'));
    const width = Math.max(mapWidth, 640) + 2 * EDGE, room = width - 2 * EDGE, title = said('{0}, line {1}', document.title, step.line);
    const mark = viewer.host.isAtOnce ? [{ text: byId('unproved').textContent, size: 16, fill: colour('bad'), weight: 600 }] : [];
    const head = written([{ text: title, size: 14, fill: colour('muted') }, ...mark,
      { text: step.text + (step.reply ? ' → ' + step.reply : ''), size: 18, font: MONO, weight: 600 },
      { text: byId('what').lastElementChild.textContent, size: 20 }], EDGE / 2, room);
    map.setAttribute('x', String(EDGE));
    map.setAttribute('y', String(head.end));
    const rows = written(registerTexts(), head.end + mapHeight + EDGE / 2, room);
    return picture(width, rows.end + EDGE, title, ...head.shapes, map, ...rows.shapes);
  }

  // How long each block was in each state: from a step to another.
  function spans() {
    const open = new Map(), ended = [];
    const end = (key, to) => {
      if (open.has(key)) ended.push({ ...open.get(key), to });
      open.delete(key);
    };
    run.steps.forEach((step, index) => {
      for (const { block, now } of step.blocks) {
        end(block.key, index);
        if (now !== null) open.set(block.key, { block, state: now, from: index });
      }
    });
    for (const key of [...open.keys()]) end(key, run.steps.length);
    return ended;
  }

  // Steps go from left to right, and addresses downwards: a block is a bar for each state that it was in.
  function life() {
    const { width, height, left, top, bottom } = LIFE, x = step => left + step * width / run.steps.length;
    const y = place => top + place * height / run.reach, fills = { live: colour('live'), waiting: colour('held'), painted: colour('painted') };
    const bars = spans().map(({ block, state: name, from, to }) => shape('rect', { 'data-state': name, x: x(from), y: y(block.start),
      width: Math.max(x(to) - x(from), 1), height: Math.max(y(block.end) - y(block.start), 2), fill: fills[name], stroke: colour('ink'), 'stroke-width': .4 }));
    const text = (at, place, words, anchor = 'middle') => shape('text', { x: at, y: place, 'text-anchor': anchor, 'font-size': 12, 'font-family': TEXT, fill: colour('ink') }, words);
    const passes = run.steps.flatMap((step, index) => (step.taken ? [shape('path', { d: `M${x(index)} ${top}V${top + height}`, stroke: colour('pick') })] : []));
    const every = Math.ceil(run.steps.length / 30), numbers = run.steps.flatMap((step, index) => (index % every ? [] : [text(x(index), top + height + 16, String(step.line))]));
    const signs = [['live', said('live')], ['held', said('held')], ['painted', said('painted')]].flatMap(([name, told], index) => [
      shape('rect', { x: left + index * 90, y: top + height + 34, width: 14, height: 12, fill: colour(name) }), text(left + 20 + index * 90, top + height + 44, told, 'start')]);
    return picture(left + width + EDGE, top + height + bottom, document.title, text(left, 22, viewer.host.isAtOnce ? said('{0} (without quarantine: no proof is about this)', document.title) : document.title, 'start'),
      text(left - 8, top + 10, hex(run.base), 'end'), text(left - 8, top + height, hex(run.addressOf(run.reach)), 'end'), ...bars, ...passes, ...numbers, ...signs,
      text(left + 300, top + height + 44, said('a line is a pass, and numbers are lines of the trace'), 'start'));
  }

  const sourceOf = drawn => new XMLSerializer().serializeToString(drawn);

  // The same in pixels, two for each.
  function savePixels(drawn, name) {
    const image = new Image(), address = URL.createObjectURL(new Blob([sourceOf(drawn)], { type: 'image/svg+xml' }));
    image.onload = () => {
      const canvas = document.createElement('canvas'), [width, height] = ['width', 'height'].map(side => clamp(2 * Number(drawn.getAttribute(side)), 1, 8192));
      Object.assign(canvas, { width, height });
      canvas.getContext('2d').drawImage(image, 0, 0, width, height);
      URL.revokeObjectURL(address);
      canvas.toBlob(blob => viewer.save(name, 'image/png', blob));
    };
    image.src = address;
  }

  // The page at this step in a frame, for another page.
  async function copyFrame() {
    const place = (viewer.host.place?.() ?? location.href.split('#')[0]) + viewer.addressShown().replace(/([#&])embed(&|$)/, (all, before, after) => (after ? before : ''));
    const frame = element('iframe', { src: place + '&embed', width: 900, height: 520, title: document.title }).outerHTML;
    Object.assign(byId('frame'), { value: frame, hidden: false });
    byId('frame').select();
    await navigator.clipboard?.writeText(frame).catch(() => {}); // where it can't be copied it can be taken from the field
  }

  function listenToPictures() {
    byId('save-step').onclick = () => viewer.save(`step_${view.step}.svg`, 'image/svg+xml', sourceOf(slide()));
    byId('save-png').onclick = () => savePixels(slide(), `step_${view.step}.png`);
    byId('save-life').onclick = () => viewer.save('life.svg', 'image/svg+xml', sourceOf(life()));
    byId('copy-frame').onclick = copyFrame;
  }

  Object.assign(viewer, { listenToPictures });
}
