// ---- What is shown, in the page's address, so that a link can lead there.

const LINKED_LAYERS = () => LAYERS_HERE.filter((layer) => layers[layer.id]).map((layer) => layer.id);

// The frame, the cursor, the middle of the window, the zoom, the samples and the layers, as the part of an address after `#`.
function addressOf() {
  const middle = (start, length) => (start + length / state.zoom / 2).toFixed(2);
  const parts = {
    frame: state.frame, x: state.x, y: state.y, middle: middle(state.left, state.width) + ',' + middle(state.top, state.height), zoom: state.zoom.toFixed(3),
    samples: state.source.name, component: state.component, layers: LINKED_LAYERS().join(' '),
  };
  if (state.locked) parts.locked = 'yes';
  return '#' + new URLSearchParams(parts);
}

// A number of the address, if it is one and lies in its range; else what stands there now.
function numberIn(wanted, name, least, most, now) {
  const value = Number(wanted.get(name));
  return wanted.get(name) && value >= least && value <= most ? value : now;
}

// Takes what the address says. It is not trusted: unknown names and numbers out of range change nothing.
function takeAddress() {
  const wanted = new URLSearchParams(window.location.hash.slice(1));
  setFrame(Math.floor(numberIn(wanted, 'frame', 0, file.count - 1, state.frame)));
  if (sources.some((s) => s.name === wanted.get('samples'))) setSource(wanted.get('samples'));
  if (['RGB', ...PLANES].includes(wanted.get('component'))) setComponent(wanted.get('component'));
  if (wanted.has('layers')) {
    const on = wanted.get('layers').split(' ');
    for (const layer of LAYERS_HERE) setLayer(layer.id, on.includes(layer.id));
  }
  state.zoom = numberIn(wanted, 'zoom', LEAST_ZOOM, GREATEST_ZOOM, state.zoom);
  const [x, y] = (wanted.get('middle') || '').split(',').map(Number);
  if (Number.isFinite(x) && Number.isFinite(y)) {
    state.left = x - state.width / state.zoom / 2;
    state.top = y - state.height / state.zoom / 2;
  }
  if (wanted.has('x')) point(Math.floor(numberIn(wanted, 'x', 0, frame.width - 1, state.x)), Math.floor(numberIn(wanted, 'y', 0, frame.height - 1, state.y)));
  if (wanted.has('locked')) setLocked(true);
  redraw();
}

// Writes what is shown into the address, once nothing has changed for a while: browsers limit how often a page may do that.
const ADDRESS_DELAY = 300;
let addressTimer = 0;

function noteAddress() {
  clearTimeout(addressTimer);
  addressTimer = setTimeout(() => {
    if (window.location.hash !== addressOf()) window.history.replaceState(null, '', addressOf());
  }, ADDRESS_DELAY);
}
