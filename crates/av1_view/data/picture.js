// ---- The picture.

// The most leaves that are drawn one by one.
const MOST_LEAVES = 2500;

const picture = document.createElement('canvas');
const secondPicture = document.createElement('canvas');
let stamps = new Uint32Array(0);
let stamp = 0;
let waiting = false;

// The samples of a source, as a picture of the whole frame.
function paintWhole(image, source) {
  image.width = frame.width;
  image.height = frame.height;
  const painter = painterOf(frame, source, state.component, state.matrix, gainOf(frame, source, state.component, state.gain));
  image.getContext('2d').putImageData(paint(painter, shownOf(frame), shownOf(frame)), 0, 0);
}

// The samples that are shown, painted anew.
function repaint() {
  paintWhole(picture, state.source);
  if (state.second) paintWhole(secondPicture, state.second);
  showGain();
  showSource();
  redraw();
}

function redraw() {
  if (waiting) return;
  waiting = true;
  requestAnimationFrame(() => { waiting = false; draw(); });
}

// The visible part of the frame, in luma samples.
function visiblePart() {
  const left = Math.max(Math.floor(state.left), 0);
  const top = Math.max(Math.floor(state.top), 0);
  const right = Math.min(Math.ceil(state.left + state.width / state.zoom), frame.width);
  return { left, top, right, bottom: Math.min(Math.ceil(state.top + state.height / state.zoom), frame.height) };
}

// The leaves that are seen, each once.
function visibleLeaves(part) {
  const list = [];
  if (stamps.length < leaves.length) stamps = new Uint32Array(leaves.length);
  stamp++;
  for (let row = part.top >> 2; row << 2 < part.bottom; row++) {
    for (let column = part.left >> 2; column << 2 < part.right; column++) {
      const n = cells.leaves[row * cells.columns + column];
      if (stamps[n] === stamp) continue;
      stamps[n] = stamp;
      list.push(leaves[n]);
    }
  }
  return list;
}

// How each layer is drawn, the lowest first.
const DRAWN = {
  map: drawMap,
  values: drawValues,
  transforms: (context, seen, part, crowded) => drawBoxes(context, crowded, 1, () => dashesOf(context, colourOf('transforms')), () => transformsOf(seen)),
  leaves: (context, seen, part, crowded) => drawBoxes(context, crowded, 1, () => colourOf('leaves'), () => seen),
  superblocks: (context, seen, part, crowded) => drawBoxes(context, crowded, 2, () => colourOf('superblocks'), () => superblocksIn(part)),
  tiles: drawTiles,
  coefficients: drawCoefficients,
  modes: (context, seen) => drawModes(context, seen, 'modes', lumaMode, 0.5),
  chroma: (context, seen) => drawModes(context, seen, 'chroma', chromaMode, 0.75),
  vectors: drawVectors,
  departures: drawDepartures,
  differences: drawDifferences,
  edge: drawEdge,
};

// Edges of boxes; from far they are drawn as lines of the whole frame before.
function drawBoxes(context, crowded, width, fill, boxes) {
  if (!crowded) drawEdges(context, fill(), width, boxes());
  return true;
}

// The picture takes the window's size and the device's scale.
function takeSize() {
  const scale = window.devicePixelRatio || 1;
  if (scale !== state.scale) marks.clear();
  state.scale = scale;
  state.width = Math.max(canvas.clientWidth, 1);
  state.height = Math.max(canvas.clientHeight, 1);
  const sides = [Math.round(state.width * scale), Math.round(state.height * scale)];
  if (canvas.width === sides[0] && canvas.height === sides[1]) return;
  [canvas.width, canvas.height] = sides;
}

function draw() {
  takeSize();
  const context = canvas.getContext('2d');
  const part = visiblePart();
  context.setTransform(state.scale, 0, 0, state.scale, 0, 0);
  context.fillStyle = state.ground;
  context.fillRect(0, 0, state.width, state.height);
  drawOverFrame(context, picture, state.zoom * state.scale < 1);
  if (state.second) drawWipe(context);
  const seen = visibleLeaves(part);
  const crowded = seen.length > MOST_LEAVES;
  const dense = [];
  for (const [id, drawLayer] of Object.entries(DRAWN)) {
    const layer = LAYERS.find((l) => l.id === id);
    if (id === 'transforms' && crowded) drawOverFrame(context, drawnLines(), true);
    if (!layers[id]) continue;
    const room = crowded && layer.single ? false : drawLayer(context, seen, part, crowded);
    if (!room) dense.push(layer.name);
  }
  if (layers.vectors) drawSourceBoxes(context);
  drawCursor(context);
  state.labels = [];
  for (const id of drawLabels(context)) if (!dense.includes(nameOfLayer(id))) dense.push(nameOfLayer(id));
  element('scale').textContent = state.zoom.toFixed(2) + ' pixels a sample, ' + state.source.name + ', ' + state.component;
  element('dense').textContent = dense.length === 0 ? '' : 'zoom in for ' + dense.join(', ');
  noteAddress();
}

const nameOfLayer = (id) => LAYERS.find((layer) => layer.id === id).name;

// ---- The wipe: left of a line another source.

const divideAt = () => state.divide * state.width;
const sourceAcross = (x) => state.second && x < divideAt() ? state.second : state.source;

function drawWipe(context) {
  context.save();
  context.beginPath();
  context.rect(0, 0, divideAt(), state.height);
  context.clip();
  context.fillRect(0, 0, divideAt(), state.height);
  drawOverFrame(context, secondPicture, state.zoom * state.scale < 1);
  context.restore();
  strokeTwice(context, '#ffffff', 2, [], [(c) => { c.moveTo(divideAt(), 0); c.lineTo(divideAt(), state.height); }]);
  const aside = (text) => 4.2 * text.length + 6;
  bar('wipe', state.second.name, divideAt() - aside(state.second.name), 14, '#ffffff');
  bar('wipe', state.source.name, divideAt() + aside(state.source.name), 14, '#ffffff');
}

// The source left of the line, by its name, or none.
function setSecond(name) {
  state.second = sources.find((s) => s.name === name) || null;
  element('second').value = state.second ? name : NO_WIPE;
  element('divide').hidden = !state.second;
  repaint();
}

function setDivide(share) {
  state.divide = share;
  element('divide').value = 100 * share;
  redraw();
}

// What `w` chooses: the given samples of a trace, else what stands next among the sources.
function switchWipe() {
  const other = sources.find((s) => s.name === 'given' && s !== state.source) || next(sources, state.source);
  setSecond(state.second || other === state.source ? NO_WIPE : other.name);
}

function drawCursor(context) {
  strokeTwice(context, state.locked ? '#ffffff' : '#56b4e9', 3, [], [boxPath(leafHere())]);
  if (state.zoom >= 4) strokeTwice(context, '#f0e442', 2, [], [boxPath({ x: state.x, y: state.y, width: 1, height: 1 })]);
}
