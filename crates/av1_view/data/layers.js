// ---- Layers.

// Each draws on the context, lists its labels (labels.js), and returns whether there was room for all. `seen` are the leaves in the visible
// part of the frame, and `crowded` says that these are too many to be drawn one by one.

// The transform blocks of a leaf in the plane that is shown, in luma samples, where they begin in the visible plane.
function eachTransform(leaf, act) {
  const p = shownPlane();
  const area = areaOf(frame, leaf, p);
  if (!area) return;
  const xdec = frame.xdecs[p];
  const ydec = frame.ydecs[p];
  let block = 0;
  for (let y = area.y; y < area.y + area.height; y += area.high) {
    for (let x = area.x; x < area.x + area.width; x += area.wide, block++) {
      if (x < frame.widths[p] && y < frame.heights[p]) act({ x: x << xdec, y: y << ydec, width: area.wide << xdec, height: area.high << ydec }, block);
    }
  }
}

function superblocksIn(part) {
  const boxes = [];
  for (let y = part.top & ~63; y < part.bottom; y += 64) for (let x = part.left & ~63; x < part.right; x += 64) boxes.push({ x, y, width: 64, height: 64 });
  return boxes;
}

function transformsOf(seen) {
  const boxes = [];
  for (const leaf of seen) eachTransform(leaf, (box) => boxes.push(box));
  return boxes;
}

// The borders of tiles, and their numbers in the corner where there is room.
function drawTiles(context) {
  const colour = colourOf('tiles');
  drawEdges(context, colour, 3, plan.tiles);
  const roomy = plan.tiles.filter((tile) => Math.min(tile.width, tile.height) * state.zoom >= 40);
  for (const tile of roomy) bar('tiles', 'tile ' + tile.tile, across(tile.x) + 36, down(tile.y) + 14, colour);
  return roomy.length === plan.tiles.length;
}

// ---- Lines from far.

const lines = document.createElement('canvas');
let linesKey = '';

// Lines of one sample, drawn once, for a picture of which more leaves are seen than can be drawn one by one.
function drawnLines() {
  const key = [layers.superblocks, layers.leaves, layers.transforms, shownPlane()].join();
  if (key === linesKey) return lines;
  linesKey = key;
  lines.width = frame.width;
  lines.height = frame.height;
  const image = new ImageData(frame.width, frame.height);
  const pixels = new Uint32Array(image.data.buffer);
  if (layers.transforms) for (const leaf of leaves) eachTransform(leaf, (box) => edge(pixels, box, 0xb0e9b456));
  if (layers.leaves) for (const leaf of leaves) edge(pixels, leaf, 0xa0ffffff);
  if (layers.superblocks) for (const box of superblocksIn({ left: 0, top: 0, right: frame.width, bottom: frame.height })) edge(pixels, box, 0xff42e4f0);
  lines.getContext('2d').putImageData(image, 0, 0);
  return lines;
}

// The upper and the left edge of a box.
function edge(pixels, box, colour) {
  const right = Math.min(box.x + box.width, frame.width);
  const bottom = Math.min(box.y + box.height, frame.height);
  if (box.x >= frame.width) return;
  if (box.y < frame.height) pixels.fill(colour, box.y * frame.width + box.x, box.y * frame.width + right);
  for (let y = box.y; y < bottom; y++) pixels[y * frame.width + box.x] = colour;
}

// ---- Modes.

// From so near on, and so large, names are drawn.
const NAMES_ZOOM = 3;
const LEAST_LETTERS = 9;

// The size of a name's letters that fits a width; 0 where that is too small to be read.
function nameSize(text, width) {
  const size = Math.min(13, (width - 2) / (0.62 * text.length));
  return state.zoom >= NAMES_ZOOM && size >= LEAST_LETTERS ? size : 0;
}

// Directions as lines from the side that is continued, other modes by their names.
function drawModes(context, seen, id, modeOf, place) {
  const colour = colourOf(id);
  const dashes = id === 'chroma' ? [5, 3] : [];
  let room = true;
  for (const leaf of seen) {
    const m = modeOf(leaf);
    if (!m) continue;
    const box = visibleBox(frame, leaf);
    const width = box.width * state.zoom;
    const height = box.height * state.zoom;
    const x = across(leaf.x) + width / 2;
    const y = down(leaf.y) + height * (leaf.motions ? 0.5 : place);
    const size = nameSize(m.text, width);
    if (Math.min(width, height) < 8) {
      room = false;
    } else if (m.mode >= 1 && m.mode <= 8) {
      slant(context, x, y, angleOf(m.mode, m.step), Math.round(Math.min(width, height) * (id === 'chroma' ? 0.2 : 0.42)), colour, dashes);
    } else if (size > 0 && height >= size + 2) {
      label(id, m.text, x, y, size, colour);
    } else {
      room = false;
    }
  }
  return room;
}

const lumaMode = (l) => l.motions ? null : { mode: l.mode, step: l.step, text: withStep(l.mode, l.step) };

// The chroma mode of a leaf, or how a block is predicted that leaves from references share.
function chromaMode(l) {
  const text = l.chromaMode < 0 ? sharedWord(l) : chromaText(l);
  return text ? { mode: l.chromaMode, step: l.chromaStep, text } : null;
}

// A line through a point at an angle, with a square at the end that is continued.
function slant(context, x, y, degrees, reach, colour, dashes) {
  const right = reach * Math.cos(degrees * Math.PI / 180);
  const up = reach * Math.sin(degrees * Math.PI / 180);
  const line = (a, b) => (c) => {
    c.moveTo(a - right, b + up);
    c.lineTo(a + right, b - up);
    c.rect(a + right - 1.5, b - up - 1.5, 3, 3);
  };
  if (reach > 40) {
    strokeTwice(context, colour, 1.5, dashes, [line(x, y)]);
  } else {
    const middle = reach + 4;
    const key = ['slant', degrees, reach, colour].join();
    copyMark(context, markOf(key, 2 * middle, 2 * middle, (c) => strokeTwice(c, colour, 1.5, dashes, [line(middle, middle)])), x, y);
  }
}

// ---- Vectors.

// The vectors that are shown, of what predicts the plane that is shown: all, or of a slot that is seen those that lead there. `second` are a leaf's second.
function motionsShown(leaf) {
  if (!leaf.motions || !predictedBox(leaf)) return [];
  const motions = leaf.motions.map((m, i) => ({ ...m, second: i === 1, slot: frame.slots[m.reference - 1] }));
  return motions.filter((m) => state.source.slot < 0 || m.slot === state.source.slot);
}

// Where the source of a block begins in its reference, in luma samples.
function sourceBox(leaf, m) {
  const { x, y, width, height } = predictedBox(leaf);
  return { x: x + m.column / 8, y: y + m.row / 8, width, height };
}

// Vectors as arrows from the middle of what a leaf predicts to the middle of what that is predicted from; those to the second reference are dashed.
function drawVectors(context, seen) {
  const colour = colourOf('vectors');
  const inter = seen.filter((leaf) => motionsShown(leaf).length > 0);
  const roomy = inter.filter((leaf) => Math.min(leaf.width, leaf.height) * state.zoom >= 8);
  for (const second of [false, true]) {
    const arrows = roomy.flatMap((leaf) => motionsShown(leaf).filter((m) => m.second === second).map((m) => (c) => arrow(c, leaf, m)));
    strokeTwice(context, colour, 1.5, second ? [5, 3] : [], arrows);
  }
  let room = roomy.length === inter.length;
  for (const leaf of roomy) {
    const box = visibleBox(frame, leaf);
    const x = across(box.x + box.width / 2);
    const texts = [MODES[leaf.mode], motionsShown(leaf).map((m) => REFERENCES[m.reference]).join(' ')];
    const sizes = texts.map((text) => nameSize(text, box.width * state.zoom));
    if (Math.min(...sizes) === 0 || box.height * state.zoom < 4 * Math.max(...sizes)) { room = false; continue; }
    label('vectors', texts[0], x, down(box.y) + sizes[0], sizes[0], colour);
    label('vectors', texts[1], x, down(box.y + box.height) - sizes[1], sizes[1], colour);
  }
  return room;
}

function arrow(context, leaf, motion) {
  const box = predictedBox(leaf);
  const x = across(box.x + box.width / 2);
  const y = down(box.y + box.height / 2);
  const right = motion.column / 8 * state.zoom;
  const below = motion.row / 8 * state.zoom;
  const length = Math.hypot(right, below);
  context.rect(x - 2, y - 2, 4, 4);
  if (length < 3) return;
  const back = 7 / length;
  context.moveTo(x, y);
  context.lineTo(x + right, y + below);
  context.moveTo(x + right - back * (right + below / 2), y + below - back * (below - right / 2));
  context.lineTo(x + right, y + below);
  context.lineTo(x + right - back * (right - below / 2), y + below - back * (below + right / 2));
}

// The place of the source of the leaf at the cursor, with the reference's name.
function drawSourceBoxes(context) {
  const leaf = leafHere();
  for (const m of motionsShown(leaf)) {
    const box = sourceBox(leaf, m);
    strokeTwice(context, colourOf('vectors'), 2, [6, 4], [boxPath(box)]);
    bar('source', REFERENCES[m.reference] + ', ' + slotText(m.slot), across(box.x + box.width / 2), down(box.y) - 10, colourOf('vectors'));
  }
}

// ---- Coefficients and values.

// How many coefficients each block has, in the plane that is shown.
function drawCoefficients(context, seen) {
  const p = shownPlane();
  let room = true;
  for (const leaf of seen) {
    if (!leaf.triples[p] || leaf.triples[p].count === 0) continue;
    const counts = new Map();
    for (const c of coefficientsOf(plan, leaf, p)) counts.set(c.block, (counts.get(c.block) || 0) + 1);
    eachTransform(leaf, (box, block) => {
      const width = box.width * state.zoom;
      if (!counts.has(block)) return;
      const size = Math.min(13, width / 3);
      if (size < LEAST_LETTERS) { room = false; return; }
      label('coefficients', '#' + counts.get(block), across(box.x) + 1.2 * size, down(box.y) + 0.8 * size, size, colourOf('coefficients'));
    });
  }
  return room;
}

const VALUES_ZOOM = 24;

function drawValues(context, seen, part) {
  if (state.zoom < VALUES_ZOOM) return false;
  const rgb = state.component === 'RGB';
  const p = shownPlane();
  const xdec = frame.xdecs[p];
  const ydec = frame.ydecs[p];
  const size = Math.min(13, state.zoom * (1 << xdec) / 4, state.zoom * (1 << ydec) / (rgb ? 4.5 : 2));
  for (let y = part.top >> ydec; y << ydec < part.bottom; y++) {
    for (let x = part.left >> xdec; x << xdec < part.right; x++) {
      const middle = across((x << xdec) + (1 << xdec) / 2);
      const centre = down((y << ydec) + (1 << ydec) / 2);
      const value = (q) => valueAt(frame, sourceAcross(middle), q, rgb ? x >> frame.xdecs[q] : x, rgb ? y >> frame.ydecs[q] : y);
      if (rgb) PLANES.forEach((name, q) => label('values', value(q), middle, centre + (q - 1) * size * 1.4, size, '#ffffff'));
      else label('values', value(p), middle, centre, size, '#ffffff');
    }
  }
  return true;
}

// ---- Colours over leaves.

// Leaves in the colours of their classes; while some are searched for, these alone.
function drawMap(context) {
  const { property, found } = state;
  const wanted = found && new Set(found);
  const colour = (l) => wanted && !wanted.has(l.number) ? 0 : pixelOf(property.colourOf(property.classOf(l)), 170);
  drawOverFrame(context, cellImage('map', property.id + ' ' + foundKey(), colour), false, 4);
  return true;
}

// A tint over leaves that depart from AV1, and a sign where there is room.
function drawDepartures(context, seen, part, crowded) {
  drawOverFrame(context, cellImage('departures', '', (l) => departures.has(l.number) ? pixelOf([255, 59, 92], 80) : 0), false, 4);
  if (crowded) return true;
  for (const leaf of seen) {
    if (!departures.has(leaf.number) || Math.min(leaf.width, leaf.height) * state.zoom < 20) continue;
    label('departures', '!AV1', across(leaf.x + leaf.width) - 16, down(leaf.y) + 9, 11, colourOf('departures'));
  }
  return true;
}
