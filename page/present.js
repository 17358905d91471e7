// One screen for a class: the lines around the step, its sentence, the map and the registers in large letters, and nothing else.

import { code, element } from './dom.js';

export function addPresenting(viewer) {
  const { run, view, byId } = viewer;

  function togglePresent() {
    if (view.embed) return; // there it is all that the page shows
    view.present = !view.present;
    document.body.classList.toggle('present', view.present);
    byId('present').setAttribute('aria-pressed', String(view.present));
    // What had the keyboard may be hidden now.
    if (view.present) /** @type {HTMLElement | null} */ (document.activeElement)?.blur();
    viewer.refit();
    viewer.bringIntoView(); // steps made while the list was hidden didn't
    viewer.keepAddress();
  }

  // The line before, the current one, and the next without its reply: that is what a class is asked for.
  function drawThree() {
    const line = (index, place) => {
      const step = run.steps[index];
      if (!step) return element('li', { class: 'none' }, '\u00a0');
      const side = index === view.step ? viewer.sidesOf(step).find(([name]) => name === view.side && name !== 'after') : null;
      const reply = place < 2 && step.reply && !side ? element('span', { class: 'reply' }, ' → ', code(step.reply)) : null;
      return element('li', { 'aria-current': place === 1 ? 'step' : null, class: step.reply.startsWith('trap') && reply ? 'trap' : null,
        onclick: () => viewer.go(index) }, element('span', { class: 'number' }, String(step.line)), ' ',
        element('code', { class: step.words[0] === 'write' ? 'data' : null }, step.text), reply, side ? ` (${side[1]})` : null, viewer.otherwise(step));
    };
    byId('three').replaceChildren(...(view.present ? [-1, 0, 1].map((by, place) => line(view.step + by, place)) : []));
  }

  // The same screen in small letters, with the steps above it, for a frame of 900 by 520 in another page; and back.
  function embed() {
    view.present = view.embed = !view.embed;
    for (const name of ['present', 'embed']) document.body.classList.toggle(name, view.embed);
    byId('whole').hidden = !view.embed;
    viewer.refit();
  }

  // The page itself, at what is shown.
  function listenToWhole() {
    byId('whole').onclick = () => { byId('whole').href = viewer.addressShown().replace(/([#&])embed(&|$)/, (all, before, after) => (after ? before : '')); };
  }

  Object.assign(viewer, { togglePresent, drawThree, embed, listenToWhole });
}
