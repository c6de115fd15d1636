// ---- Strokes, marks and small texts.

const across = (x) => (x - state.left) * state.zoom;
const down = (y) => (y - state.top) * state.zoom;

// A length that ends at one of the device's pixels.
const snap = (length) => Math.round(length * state.scale) / state.scale;

const SHADE = '#00000080';

// Strokes over dark ones, so that they are seen on every ground. A path is a list of what draws a part of it; a few parts are stroked at a
// time, since a long path takes a browser far longer than its parts.
function strokeTwice(context, colour, width, dashes, path) {
  const parts = 40;
  context.setLineDash(dashes);
  for (const [stroke, thick] of [[SHADE, width + 1.5], [colour, width]]) {
    context.strokeStyle = stroke;
    context.lineWidth = thick;
    for (let from = 0; from < path.length; from += parts) {
      context.beginPath();
      for (let i = from; i < Math.min(from + parts, path.length); i++) path[i](context);
      context.stroke();
    }
  }
  context.setLineDash([]);
}

// What fills lines with dashes, whichever way they go.
function dashesOf(context, colour) {
  const tile = document.createElement('canvas');
  tile.width = tile.height = 8;
  const pixels = tile.getContext('2d');
  pixels.fillStyle = colour;
  for (let y = 0; y < 8; y++) for (let x = 0; x < 8; x++) if ((x + y) % 8 < 5) pixels.fillRect(x, y, 1, 1);
  return context.createPattern(tile, 'repeat');
}

// The upper and the left edges of boxes, over dark ones, as far as they lie in the frame.
function drawEdges(context, fill, width, boxes) {
  for (const [colour, thick] of [[SHADE, width + 2], [fill, width]]) {
    context.fillStyle = colour;
    for (const box of boxes) {
      const x = snap(across(box.x) - thick / 2);
      const y = snap(down(box.y) - thick / 2);
      const seen = visibleBox(frame, box);
      if (seen.width === 0 || seen.height === 0) continue;
      context.fillRect(x, y, snap(seen.width * state.zoom), thick);
      context.fillRect(x, y, thick, snap(seen.height * state.zoom));
    }
  }
}

function boxPath(box) {
  return (context) => context.rect(across(box.x), down(box.y), box.width * state.zoom, box.height * state.zoom);
}

// Small marks and texts are drawn once each at the device's scale, and then copied.
const marks = new Map();
const MOST_MARKS = 4000;

function markOf(key, width, height, paintMark) {
  if (marks.has(key)) return marks.get(key);
  if (marks.size >= MOST_MARKS) marks.clear();
  const mark = document.createElement('canvas');
  mark.width = Math.ceil(width * state.scale);
  mark.height = Math.ceil(height * state.scale);
  const context = mark.getContext('2d');
  context.scale(state.scale, state.scale);
  paintMark(context);
  marks.set(key, mark);
  return mark;
}

function copyMark(context, mark, x, y) {
  const width = mark.width / state.scale;
  const height = mark.height / state.scale;
  context.drawImage(mark, snap(x - width / 2), snap(y - height / 2), width, height);
}

// A text round a point; its letters are of one width.
function textAt(context, text, x, y, size, colour) {
  const letter = Math.floor(size);
  const width = Math.ceil(String(text).length * letter * 0.62) + 4;
  copyMark(context, markOf(letter + colour + text, width, letter + 6, (c) => {
    c.font = letter + 'px ui-monospace, monospace';
    c.textAlign = 'center';
    c.textBaseline = 'middle';
    c.lineJoin = 'round';
    c.lineWidth = 3;
    c.strokeStyle = '#000000d0';
    c.strokeText(text, width / 2, letter / 2 + 3);
    c.fillStyle = colour;
    c.fillText(text, width / 2, letter / 2 + 3);
  }), x, y);
}

// A text on a dark bar round a point.
function barAt(context, text, x, y, colour) {
  context.fillStyle = '#000000d0';
  context.fillRect(x - 4.2 * text.length, y - 10, 8.4 * text.length, 20);
  textAt(context, text, x, y, 13, colour);
}

// An image over the frame, as far as that is shown; each pixel of the image is as wide and as high as so many luma samples.
function drawOverFrame(context, image, smooth, samples = 1) {
  context.imageSmoothingEnabled = smooth;
  context.drawImage(image, 0, 0, frame.width / samples, frame.height / samples, across(0), down(0), frame.width * state.zoom, frame.height * state.zoom);
}

// An image with a pixel for each luma cell, in the colour of its leaf. One is kept for each name, while its key stays.
const cellImages = new Map();

function cellImage(name, key, colourOfLeaf) {
  const kept = cellImages.get(name);
  if (kept && kept.key === key) return kept.image;
  const image = document.createElement('canvas');
  image.width = cells.columns;
  image.height = cells.rows;
  const colours = Uint32Array.from(leaves, colourOfLeaf);
  const data = new ImageData(cells.columns, cells.rows);
  const pixels = new Uint32Array(data.data.buffer);
  for (let i = 0; i < pixels.length; i++) pixels[i] = colours[cells.leaves[i]];
  image.getContext('2d').putImageData(data, 0, 0);
  cellImages.set(name, { key, image });
  return image;
}
