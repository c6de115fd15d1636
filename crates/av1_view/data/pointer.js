// ---- The mouse, a pad, fingers.

// The luma place under a point of the window.
function placeOf(event) {
  const box = canvas.getBoundingClientRect();
  return [state.left + (event.clientX - box.left) / state.zoom, state.top + (event.clientY - box.top) / state.zoom];
}

const isInFrame = ([x, y]) => x >= 0 && y >= 0 && x < frame.width && y < frame.height;

function pointAt(event) {
  const place = placeOf(event);
  if (!isInFrame(place)) return;
  const [x, y] = place.map(Math.floor);
  if (x !== state.x || y !== state.y) point(x, y);
}

// Where each pointer that is down was seen last, and how far the first of them has moved since it came down.
const pointers = new Map();
const CLICK = 4;
let moved = 0;

function onDown(event) {
  if (event.button !== 0) return;
  canvas.setPointerCapture(event.pointerId);
  pointers.set(event.pointerId, event);
  moved = pointers.size === 1 ? 0 : CLICK;
}

// Without a button down the cursor follows, unless it is locked. One pointer drags the picture, two zoom by their distance.
function onMove(event) {
  const before = pointers.get(event.pointerId);
  if (!before) {
    if (!state.locked) pointAt(event);
    return;
  }
  pointers.set(event.pointerId, event);
  moved += Math.hypot(event.clientX - before.clientX, event.clientY - before.clientY);
  if (pointers.size === 1) {
    if (moved >= CLICK) drag(event.clientX - before.clientX, event.clientY - before.clientY);
    return;
  }
  const other = [...pointers.values()].find((e) => e.pointerId !== event.pointerId);
  const distance = (e) => Math.max(Math.hypot(e.clientX - other.clientX, e.clientY - other.clientY), 1);
  zoomAt(distance(event) / distance(before), ...placeOf(other));
}

// A click locks the leaf and the sample under it.
function onUp(event) {
  if (!pointers.delete(event.pointerId) || event.type !== 'pointerup' || moved >= CLICK) return;
  if (!isInFrame(placeOf(event))) return;
  state.locked = true;
  point(...placeOf(event).map(Math.floor));
}

// Zooms by what the wheel turned; what it turned sideways moves the picture.
function onWheel(event) {
  event.preventDefault();
  const unit = [1, 16, state.height][event.deltaMode];
  const turned = [event.deltaX * unit, event.deltaY * unit];
  const [right, below] = event.shiftKey && turned[0] === 0 ? [turned[1], 0] : turned;
  if (Math.abs(right) > Math.abs(below)) {
    drag(-right, 0);
  } else {
    zoomAt(Math.min(Math.max(Math.exp(-below * (event.ctrlKey ? 0.01 : 0.002)), 0.25), 4), ...placeOf(event));
  }
}
