// What the keys do. A key that writes into a field is that field's own.

export function addKeys(viewer) {
  const { run, view, byId, isTyped } = viewer;

  const LETTERS = { p: viewer.togglePresent, a: viewer.toggleAsk, b: otherSide, t: viewer.togglePointers, '/': viewer.goToSearch,
    '?': () => byId('keys').showModal() };

  // From side to side of a pass.
  function otherSide() {
    const sides = viewer.sidesOf(run.steps[view.step]).map(([side]) => side);
    if (sides.length) viewer.show(sides[(sides.indexOf(view.side) + 1) % sides.length]);
  }

  function keyOnPage(event) {
    const { target, key } = event;
    if (isTyped(event)) return;
    const act = LETTERS[key.toLowerCase()] || (target.closest('#map') ? null : actOf(key, target));
    if (!act) return;
    event.preventDefault();
    act();
  }

  function actOf(key, target) {
    if (key === 'Escape') return view.present ? viewer.togglePresent : null;
    if (key === ' ') return target.matches('button, summary, input') ? null : viewer.play;
    if (target.matches('input[type=range]')) return null;
    if (key.startsWith('Page') && !target.closest('#lines')) return null; // elsewhere these two are the browser's
    const to = { ArrowUp: view.step - 1, ArrowLeft: view.step - 1, ArrowDown: view.step + 1, ArrowRight: view.step + 1,
      PageUp: view.step - 10, PageDown: view.step + 10, Home: 0, End: run.steps.length - 1 }[key];
    return to === undefined ? null : () => viewer.go(to);
  }

  Object.assign(viewer, { LETTERS, keyOnPage });
}
