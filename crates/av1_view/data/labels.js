// ---- Labels: none stands over another.

// Layers put their labels on a list while they draw. The labels are drawn last, the most important layers first; one without a free place is
// left out. A label on a bar may move up or down a little.
const labels = [];
const LABEL_ORDER = ['differences', 'edge', 'wipe', 'source', 'tiles', 'departures', 'modes', 'vectors', 'chroma', 'coefficients', 'values'];
const BAR_SHIFTS = [0, 22, -22, 44, -44, 66, -66];

const label = (layer, text, x, y, size, colour) => labels.push({ layer, text: String(text), x, y, size, colour, isBar: false });
const bar = (layer, text, x, y, colour) => labels.push({ layer, text, x, y, size: 13, colour, isBar: true });

// The window in squares of a few pixels, each free or taken.
const SQUARE = 4;
const taken = { columns: 0, rows: 0, squares: new Uint8Array(0) };

function freeAll() {
  const [columns, rows] = [Math.ceil(state.width / SQUARE), Math.ceil(state.height / SQUARE)];
  if (columns * rows === taken.squares.length) taken.squares.fill(0);
  else taken.squares = new Uint8Array(columns * rows);
  Object.assign(taken, { columns, rows });
}

// Takes the squares of a box, unless one of them is taken.
function take(left, top, width, height) {
  const square = (length, most) => Math.min(Math.max(Math.floor(length / SQUARE), 0), most - 1);
  const [first, last] = [square(left, taken.columns), square(left + width, taken.columns)];
  const [upper, lower] = [square(top, taken.rows), square(top + height, taken.rows)];
  for (let row = upper; row <= lower; row++) {
    for (let column = first; column <= last; column++) if (taken.squares[row * taken.columns + column]) return false;
  }
  for (let row = upper; row <= lower; row++) taken.squares.fill(1, row * taken.columns + first, row * taken.columns + last + 1);
  return true;
}

// The box of a label: its letters are of one width.
function boxOf({ text, x, y, size, isBar }) {
  const [width, height] = isBar ? [8.4 * text.length, 20] : [0.62 * Math.floor(size) * text.length, Math.floor(size)];
  return { left: x - width / 2, top: y - height / 2, width, height };
}

const isInWindow = ({ left, top, width, height }) => left + width > 0 && top + height > 0 && left < state.width && top < state.height;

// A free place for a label; null if there is none. A bar stays in the window.
function placed(one) {
  const { width } = boxOf(one);
  const x = one.isBar ? Math.max(Math.min(one.x, state.width - width / 2), width / 2) : one.x;
  for (const shift of one.isBar ? BAR_SHIFTS : [0]) {
    const moved = { ...one, x, y: one.y + shift };
    const box = boxOf(moved);
    if (take(box.left, box.top, box.width, box.height)) return moved;
  }
  return null;
}

// Draws the labels, and gives the layers that lack one. Numbers of samples give way to all others without a word.
const GIVE_WAY = ['values', 'edge', 'source', 'wipe'];

function drawLabels(context) {
  freeAll();
  const lacking = new Set();
  const shown = labels.filter((one) => isInWindow(boxOf(one)));
  for (const layer of LABEL_ORDER) {
    for (const one of shown.filter((other) => other.layer === layer)) {
      const free = placed(one);
      if (!free && !GIVE_WAY.includes(layer)) lacking.add(layer);
      if (!free) continue;
      state.labels.push(boxOf(free));
      if (free.isBar) barAt(context, free.text, free.x, free.y, free.colour);
      else textAt(context, free.text, free.x, free.y, free.size, free.colour);
    }
  }
  labels.length = 0;
  return lacking;
}
