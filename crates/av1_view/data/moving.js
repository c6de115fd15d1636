// ---- Moving.

// Puts the cursor on a luma sample, and shows all that is said of it, or of a leaf past what is shown.
function point(x, y, unseen = null) {
  state.unseen = unseen;
  state.x = Math.min(Math.max(x, 0), frame.width - 1);
  state.y = Math.min(Math.max(y, 0), frame.height - 1);
  showPlace();
  followCursor();
  showList();
  redraw();
}

// The same, and puts the sample into view.
function moveTo(x, y, unseen = null) {
  point(x, y, unseen);
  const width = state.width / state.zoom;
  const height = state.height / state.zoom;
  if (state.x < state.left || state.x >= state.left + width) state.left = state.x - width / 2;
  if (state.y < state.top || state.y >= state.top + height) state.top = state.y - height / 2;
}

// Locks the cursor, so that the mouse passes over the picture without moving it, or lets it go.
function setLocked(locked) {
  state.locked = locked;
  showPlace();
  redraw();
}

function moveToLeaf(number) {
  const { x, y, width, height } = visibleBox(frame, leaves[number]);
  state.locked = true;
  moveTo(x, y, width * height > 0 ? null : number);
}

// The next or the previous leaf that is found.
function step(by) {
  if (foundCount() === 0) return;
  const here = leafHere().number;
  const rank = rankOf(here);
  const next = by < 0 ? rank - 1 : foundAt(rank) === here ? rank + 1 : rank;
  moveToLeaf(foundAt((next + foundCount()) % foundCount()));
}

function stepDifference(by) {
  const count = differences.list.length;
  if (count === 0) return;
  state.difference = (state.difference + by + (state.difference < 0 && by < 0 ? 1 : 0) + count) % count;
  const d = differences.list[state.difference];
  state.locked = true;
  moveTo(d.column << frame.xdecs[d.plane], d.row << frame.ydecs[d.plane]);
}

const LEAST_ZOOM = 0.05;
const GREATEST_ZOOM = 96;

function zoomAt(factor, x, y) {
  const zoom = Math.min(Math.max(state.zoom * factor, LEAST_ZOOM), GREATEST_ZOOM);
  state.left = x - (x - state.left) * state.zoom / zoom;
  state.top = y - (y - state.top) * state.zoom / zoom;
  state.zoom = zoom;
  redraw();
}

const zoomHere = (factor) => zoomAt(factor, state.x + 0.5, state.y + 0.5);

// Moves the picture by lengths in the window.
function drag(right, below) {
  state.left -= right / state.zoom;
  state.top -= below / state.zoom;
  redraw();
}

function fit(box, margin) {
  state.zoom = Math.min(state.width / (box.width * margin), state.height / (box.height * margin), GREATEST_ZOOM);
  state.left = box.x + box.width / 2 - state.width / state.zoom / 2;
  state.top = box.y + box.height / 2 - state.height / state.zoom / 2;
  redraw();
}

const fitFrame = () => fit({ x: 0, y: 0, width: frame.width, height: frame.height }, 1.04);
const fitLeaf = () => fit(leafHere(), 2);
