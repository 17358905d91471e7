// The address tells what is shown, and opens there again: #step=5&side=before&pick=c2&row=32&with=3. With #present it is the screen
// for a class, with #ask the class is asked first, and with #embed the page is to stand in another one.

export function addAddress(viewer) {
  const { run, view, byId } = viewer;

  let addressDue = null, opened = location.hash; // the address that was opened or written last

  function addressShown() {
    const pick = view.follow || !view.chosen ? null : run.namesOfPlaces[view.chosen.kind];
    const parts = { step: view.step, side: view.side === 'after' ? null : view.side, pick: pick ? pick(view.chosen.place) : null,
      row: view.columns === run.columns ? null : view.columns, with: viewer.comparedWith };
    const ways = [...viewer.host.origin?.() ?? [], view.embed ? 'embed' : view.present ? 'present' : null, view.ask ? 'ask' : null].filter(way => way !== null);
    return '#' + [...ways, ...Object.entries(parts).filter(([, value]) => value !== null).map(part => part.join('='))].join('&');
  }

  // A browser takes few changes of the address in a time, so it is told once the steps have come to rest.
  function keepAddress() {
    clearTimeout(addressDue);
    addressDue = setTimeout(writeAddress, 200);
  }

  function writeAddress() {
    if (viewer.signal.aborted) return;
    const shown = addressShown();
    if (location.hash !== opened) return; // one that was just given, and is opened next
    if (opened === shown || !opened && shown === '#step=0') return;
    try {
      history.replaceState(null, '', shown);
      opened = location.hash;
    } catch { /* inside of another page there may be no address to keep */ }
  }

  // What is no step, side, place or row of this page is passed over.
  function openAddress() {
    opened = location.hash;
    const told = new URLSearchParams(opened.slice(1)), step = told.get('step') || '', row = told.get('row');
    const pick = pickOf(told.get('pick') || ''), other = told.get('with') || '', old = view.columns;
    if (told.has('embed') !== view.embed) viewer.embed();
    if ([...byId('columns').options].some(option => option.value === row)) view.columns = Number(row);
    byId('columns').value = view.columns;
    if (view.columns !== old) viewer.remakeMap();
    view.follow = pick === null;
    view.chosen = pick;
    view.probe = null;
    viewer.go(/^[0-9]{1,9}$/.test(step) ? Number(step) : 0);
    if (told.has('present') !== view.present) viewer.togglePresent(); // in a frame it does nothing
    if (told.has('ask') !== view.ask) viewer.toggleAsk();
    const side = told.get('side');
    if (viewer.sidesOf(run.steps[view.step]).some(([name]) => name === side)) viewer.show(side);
    viewer.compareWith(/^[0-9]{1,9}$/.test(other) && Number(other) < run.steps.length ? Number(other) : null);
  }

  function pickOf(text) {
    if (/^c[0-9]{1,2}$/.test(text) && Number(text.slice(1)) < 32) return { kind: 'register', place: Number(text.slice(1)) };
    const address = /^0x[0-9a-f]{1,16}$/i.test(text) ? BigInt(text) : null;
    return address !== null && run.isInHeap(address) && address % 16n === 0n ? { kind: 'granule', place: run.granulesTo(address) } : null;
  }

  Object.assign(viewer, { addressShown, keepAddress, writeAddress, openAddress });
}
