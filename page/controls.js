// What the reader's hands do: the map, the buttons, and the size of the window.

import { pageOf } from './cursor.js';
import { clamp } from './dom.js';

export function addControls(viewer) {
  const { run, view, byId } = viewer;

  function keyOnMap(event) {
    if (event.ctrlKey || event.metaKey || event.altKey) return;
    const L = viewer.map.shape, place = view.cursor ?? 0, n = L.columns;
    const to = { ArrowLeft: place - 1, ArrowRight: place + 1, ArrowUp: place - n, ArrowDown: place + n,
      Home: place - place % n, End: place - place % n + n - 1 }[event.key];
    if (to !== undefined) view.cursor = overGap(L, clamp(to, 0, L.shown - 1), Math.sign(to - place));
    else if (event.key === 'Escape') view.cursor = null;
    else if (event.key !== 'Enter') return;
    event.preventDefault();
    if (event.key === 'Enter') return viewer.choose('granule', place);
    if (event.key === 'Escape') {
      view.chosen = null;
      return viewer.draw(false);
    }
    viewer.bringPlaceIntoView(L, view.cursor);
    byId('detail').setAttribute('aria-live', 'polite'); // only the part in use speaks
    viewer.placeCursor();
  }

  // From a page that is left out on to the next one that isn't.
  function overGap(L, place, by) {
    const gap = L.gapOf[pageOf(place)];
    return gap ? place + by * (gap.end - gap.first) * 256 : place;
  }

  function placeUnder(event) {
    const L = viewer.map.shape, frame = byId('map').getBoundingClientRect(), y = event.clientY - frame.top + byId('map').scrollTop - viewer.map.top;
    const column = Math.floor((event.clientX - frame.left + byId('map').scrollLeft - L.gutter) / L.width);
    const part = L.parts.find(({ top, bottom }) => top <= y && y < bottom);
    return part && column >= 0 && column < L.columns ? part.first + Math.floor((y - part.top) / L.height) * L.columns + column : null;
  }

  // The size of a cell; 0 fits the row into the width.
  function zoom(cell) {
    view.cell = cell ? clamp(Math.round(cell), 2, 60) : 0;
    viewer.remakeMap();
    viewer.scrollMap(viewer.map.shape);
  }

  function showAll() { // by the row at which the cells come out largest
    const room = view.mapWidth - viewer.map.shape.gutter - viewer.edgeOfMap(viewer.map.shape.letter);
    const sizes = [16, 32, 64, 128, 256].map(n => [Math.min(room / n, innerHeight * .55 * n / run.granules), n]);
    const [cell, columns] = sizes.reduce((best, size) => (size[0] > best[0] ? size : best));
    view.whole = true;
    view.columns = columns;
    byId('columns').value = columns;
    zoom(Math.max(Math.floor(cell), 2));
  }

  function listenToMap() {
    const box = byId('map'), move = place => {
      if (place === view.cursor) return;
      view.cursor = place;
      viewer.placeCursor();
    };
    box.addEventListener('keydown', keyOnMap);
    box.addEventListener('focus', () => { if (box.matches(':focus-visible')) move(view.cursor ?? 0); });
    box.addEventListener('blur', () => byId('detail').setAttribute('aria-live', 'off'));
    box.addEventListener('pointermove', event => move(placeUnder(event)));
    box.addEventListener('pointerleave', () => move(null));
    box.addEventListener('click', event => {
      const place = placeUnder(event);
      if (place === null) return;
      move(place); // a finger has not moved there before
      viewer.choose('granule', place);
    });
    byId('columns').addEventListener('change', () => {
      view.columns = Number(byId('columns').value);
      zoom(view.cell);
    });
    byId('bigger').onclick = () => zoom(viewer.map.shape.width * 1.3);
    byId('smaller').onclick = () => zoom(viewer.map.shape.width / 1.3);
    byId('all').onclick = showAll;
    byId('used').onclick = () => {
      view.whole = false;
      zoom(0);
    };
  }

  function listen() {
    const { signal } = viewer;
    const actions = { first: () => viewer.go(0), back: () => viewer.go(view.step - 1), next: () => viewer.go(view.step + 1),
      last: () => viewer.go(run.steps.length - 1), play: viewer.play, present: viewer.togglePresent, ask: viewer.toggleAsk,
      pointers: viewer.togglePointers, help: viewer.LETTERS['?'], close: () => byId('keys').close() };
    for (const [name, action] of Object.entries(actions)) byId(name).onclick = action;
    byId('slider').addEventListener('input', () => viewer.go(Number(byId('slider').value)));
    byId('follow').addEventListener('change', () => {
      view.follow = byId('follow').checked;
      if (view.follow) viewer.go(view.step);
    });
    byId('typed').addEventListener('input', viewer.takeTyped);
    listenToMap();
    viewer.listenToWindow();
    viewer.watchInspector();
    const others = [viewer.listenToFind, viewer.listenToBlocks, viewer.listenToComparison, viewer.listenToPaper, viewer.listenToHandout,
      viewer.listenToSave, viewer.listenToPictures, viewer.listenToEdit, viewer.listenToWhole];
    for (const listenTo of others) listenTo();
    for (const onKey of [viewer.keyOnPage, viewer.keyOfFind, viewer.keyOfHistory]) document.addEventListener('keydown', onKey, { signal });
    byId('map').addEventListener('scroll', viewer.keepPart, { signal });
    addEventListener('resize', refit, { signal });
    addEventListener('hashchange', viewer.openAddress, { signal });
    addEventListener('pagehide', viewer.writeAddress, { signal });
  }

  function refit() {
    measure();
    viewer.remakeMap();
    viewer.drawBand();
    viewer.draw(false);
    viewer.list.refill();
  }

  // How broad a letter of the map is, beside its height, in the font that the browser has.
  function broadOfLetter() {
    const pen = document.createElement('canvas').getContext('2d');
    pen.font = `bold 100px ${getComputedStyle(document.documentElement).getPropertyValue('--mono')}`;
    return pen.measureText('held').width / 400;
  }

  function measure() {
    viewer.host.arrange?.(viewer);
    const own = (name, pixels) => document.documentElement.style.setProperty(name, `${pixels}px`);
    view.letter = view.embed ? 13 : innerWidth <= 760 ? 15 : Math.max(20, Math.floor(20 * Math.min(innerWidth / 1280, innerHeight / 720)));
    own('--letter', view.letter);
    own('--head', document.querySelector('header').offsetHeight);
    view.broad = broadOfLetter();
    view.mapWidth = byId('map').clientWidth;
    view.mapHeight = Math.max(byId('map').clientHeight, parseFloat(getComputedStyle(byId('map')).maxHeight) || 0); // it may be lower than it might
    view.windowWidth = Math.max(byId('window').clientWidth, 320);
  }

  Object.assign(viewer, { listen, refit, measure });
}
