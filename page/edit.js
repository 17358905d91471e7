// A button that opens the trace at its step in the playground, where the page says where that is.

import { pack } from './link.js';

export function addEditing(viewer) {
  const { view, byId } = viewer, { playground } = document.body.dataset;

  function listenToEdit() {
    byId('edit').hidden = !playground;
    byId('edit').onclick = async () => { location.href = `${playground}#t=${await pack(viewer.host.text)}&step=${view.step}`; };
  }

  Object.assign(viewer, { listenToEdit });
}
