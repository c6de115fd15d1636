// ---- Switches.

function setLayer(id, on) {
  layers[id] = on;
  element('layer-' + id).checked = on;
  element('classes').hidden = !layers.map;
  showSource();
  showBlock();
  redraw();
}

function setSource(name) {
  state.source = sources.find((s) => s.name === name);
  element('source-' + name).checked = true;
  repaint();
  showPlace();
}

function setComponent(name) {
  state.component = name;
  element('component-' + name).checked = true;
  repaint();
  showBlock();
}

function setMatrix(name) {
  state.matrix = MATRICES.find((m) => m.name === name);
  element('matrix').value = name;
  repaint();
  showStrip();
}

function setGain(gain) {
  state.gain = gain;
  element('gain').value = gain;
  repaint();
}

// A switch with its label.
function addSwitch(parent, type, group, name, text, on, act) {
  const label = document.createElement('label');
  const input = document.createElement('input');
  input.type = type;
  input.name = group;
  input.id = group + '-' + name;
  input.checked = on;
  input.addEventListener('change', () => act(input.checked));
  label.append(input, ' ', ...text);
  parent.append(label);
  return label;
}

function addLayer(layer) {
  const key = document.createElement('kbd');
  key.textContent = layer.key;
  const line = document.createElement('i');
  line.className = 'key';
  line.style.borderTopColor = layer.colour;
  line.style.borderTopStyle = layer.id === 'transforms' || layer.id === 'chroma' ? 'dashed' : 'solid';
  addSwitch(element('layers'), 'checkbox', 'layer', layer.id, [key, line, layer.name], layers[layer.id], (on) => setLayer(layer.id, on));
}

// Fills a list of choices.
function addChoices(id, names, act) {
  names.forEach((name) => element(id).add(new Option(name, name)));
  element(id).addEventListener('change', (event) => act(names[event.target.selectedIndex]));
}

const NO_WIPE = 'no wipe';

// The samples that can be shown of the frame; slots with their references, and in a sequence with the frame that each holds.
function showSources() {
  element('sources').querySelectorAll('label').forEach((label) => label.remove());
  for (const s of sources) {
    const text = s.slot < 0 ? s.name : slotText(s.slot) + ' (' + namesText(frame, s.slot) + ')';
    addSwitch(element('sources'), 'radio', 'source', s.name, [text], s === state.source, () => setSource(s.name)).title = s.title;
  }
  element('second').replaceChildren(...[NO_WIPE, ...sources.map((s) => s.name)].map((name) => new Option(name, name)));
  element('wiping').hidden = sources.length < 2;
}

function addSwitches() {
  showSources();
  ['RGB', ...PLANES].forEach((name, i) => addSwitch(element('components'), 'radio', 'component', name, [name], i === 0, () => setComponent(name)));
  LAYERS_HERE.forEach(addLayer);
  addChoices('matrix', MATRICES.map((m) => m.name), setMatrix);
  addChoices('gain', GAINS, setGain);
  addChoices('property', PROPERTIES.map((p) => p.id), setProperty);
  element('second').addEventListener('change', (event) => setSecond(event.target.value));
  element('divide').addEventListener('input', (event) => setDivide(event.target.value / 100));
}

// ---- Keys.

const next = (names, name) => names[(names.indexOf(name) + 1) % names.length];

function showKeys() {
  if (!element('keys').open) element('keys').showModal();
}

function freeCursor() {
  if (document.activeElement !== element('search')) setLocked(false);
  canvas.focus();
}

// What a key does, wherever the focus is but in the search.
const KEYS = {
  '+': () => zoomHere(1.25), '=': () => zoomHere(1.25), '-': () => zoomHere(0.8), 0: fitFrame, f: fitLeaf,
  n: () => step(1), p: () => step(-1), d: () => stepDifference(1), e: () => stepDifference(-1),
  s: () => setSource(next(sources.map((s) => s.name), state.source.name)), c: () => setComponent(next(['RGB', ...PLANES], state.component)),
  g: () => setGain(next(GAINS, state.gain)), h: () => setProperty(next(PROPERTIES, state.property).id),
  '/': () => element('search').focus(), Escape: freeCursor, ',': () => stepFrame(-1), '.': () => stepFrame(1),
  w: switchWipe, r: copyReport, '?': showKeys,
};
const ARROWS = { ArrowLeft: [-1, 0], ArrowRight: [1, 0], ArrowUp: [0, -1], ArrowDown: [0, 1] };

// Arrows move the cursor, in the list go from leaf to leaf, and on the strip from frame to frame; on a switch or a list of choices they are that
// one's own.
function onArrow(event, [right, below]) {
  if (event.target === element('list')) {
    step(right + below);
  } else if (event.target === element('strip')) {
    stepFrame(right + below);
  } else if (event.target === canvas || event.target === document.body) {
    const by = event.shiftKey ? 16 : 1;
    moveTo(state.x + by * right, state.y + by * below);
  } else {
    return false;
  }
  return true;
}

function onKey(event) {
  if (event.ctrlKey || event.metaKey || event.altKey || element('keys').open) return;
  if ([element('search'), element('report')].includes(event.target) && event.key !== 'Escape') return;
  const layer = LAYERS_HERE.find((l) => l.key === event.key);
  if (Object.hasOwn(ARROWS, event.key)) {
    if (!onArrow(event, ARROWS[event.key])) return;
  } else if (layer) {
    setLayer(layer.id, !layers[layer.id]);
  } else if (Object.hasOwn(KEYS, event.key)) {
    KEYS[event.key]();
  } else {
    return;
  }
  event.preventDefault();
}
