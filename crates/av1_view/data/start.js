// ---- The start.

function listen() {
  document.addEventListener('keydown', onKey);
  canvas.addEventListener('pointerdown', onDown);
  canvas.addEventListener('pointermove', onMove);
  canvas.addEventListener('pointerup', onUp);
  canvas.addEventListener('pointercancel', onUp);
  canvas.addEventListener('wheel', onWheel, { passive: false });
  element('search').addEventListener('input', (event) => setSearch(event.target.value));
  element('search').addEventListener('keydown', (event) => { if (event.key === 'Enter' && foundCount() > 0) moveToLeaf(foundAt(0)); });
  element('list').addEventListener('scroll', showList);
  element('list').addEventListener('click', (event) => { if (event.target.dataset.leaf) moveToLeaf(Number(event.target.dataset.leaf)); });
  element('help').addEventListener('click', showKeys);
  element('copy').addEventListener('click', copyReport);
  window.addEventListener('hashchange', takeAddress);
  new ResizeObserver(draw).observe(canvas);
  watchScale();
  window.matchMedia('(prefers-color-scheme: light)').addEventListener('change', takeScheme);
}

// The device's scale changes where the window moves to another screen, or is zoomed.
function watchScale() {
  const scale = window.matchMedia('(resolution: ' + window.devicePixelRatio + 'dppx)');
  scale.addEventListener('change', () => { draw(); watchScale(); }, { once: true });
}

// The ground of the picture is that of the page, light or dark.
function takeScheme() {
  state.ground = getComputedStyle(document.documentElement).getPropertyValue('--ground');
  redraw();
}

function start() {
  document.title = element('title').textContent = TITLES[given ? 'trace' : file.kind];
  if (file.count === 0) {
    element('frame').textContent = 'This sequence has no frames.';
    return;
  }
  startStrip();
  addSwitches();
  showFrame();
  takeScheme();
  takeSize();
  fitFrame();
  repaint();
  showPlace();
  showClasses();
  followCursor();
  showList();
  takeAddress();
  listen();
  element(file.kind === 'sequence' ? 'strip' : 'picture').focus();
}

// What tests read: the model of the page, and its switches.
window.view = {
  get plan() { return plan; },
  get frame() { return frame; },
  get leaves() { return leaves; },
  get differences() { return differences; },
  get departures() { return departures; },
  get sources() { return sources; },
  file, marks, layers, layersHere: LAYERS_HERE, state, leafAt, draw, moveTo, moveToLeaf, fit, fitFrame, fitLeaf, zoomAt, setLayer, setSource, setComponent,
  setGain, setProperty, chooseClass, setSearch, setLocked, setFrame, summaryOf, setSecond, setDivide, blockAt, blockHere, edgeOf, readsOf, directed, gridsOf,
  reportText, addressOf, sectionsOf, signalToNoise, modeColour,
  sample: (name, p, x, y) => valueAt(frame, sources.find((s) => s.name === name), p, x, y),
  coefficients: (number, p) => coefficientsOf(plan, leaves[number], p),
  transformSides: (leaf) => TRANSFORM_SIZES[leaf.transformSize],
  classes: (id) => classesOf(frame, leaves, PROPERTIES.find((p) => p.id === id)),
  gain: gainHere,
  pixel: (x, y) => Array.from(picture.getContext('2d').getImageData(x, y, 1, 1).data),
};

start();
