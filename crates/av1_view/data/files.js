// ---- Files of tiles and of frames.

// A file has frames, one but in a sequence, by their numbers. Of each it gives what is read of it, as of a plan, and the planes that are held.

function readFile(bytes) {
  const letters = String.fromCharCode(...bytes.subarray(0, 4));
  if (letters === 'RSQ1') return sequenceOf(bytes, 2);
  if (letters === 'RSQ2') return sequenceOf(bytes, 3);
  const isGrid = letters.startsWith('RTL');
  const read = isGrid ? readGrid(bytes, letters === 'RTL2' ? 3 : 2) : readPlan(bytes);
  const held = heldPlanes(read.frame);
  return { kind: isGrid ? 'tiles' : 'plan', count: 1, readAt: () => read, heldAt: () => held };
}

// ---- A grid of tiles.

// The starts of columns or of rows, from a place on, and behind them the side of the frame.
function readStarts(view, at, side) {
  const count = view.getUint8(at);
  const starts = [0];
  for (let i = 1; i < count; i++) starts.push(view.getUint16(at + 2 * i - 1, true));
  return { starts: [...starts, side], end: at + 2 * count - 1 };
}

// A grid as a plan of its frame: the leaves of all tiles, one tile behind the other, each with its tile as the area that it lies in.
function readGrid(bytes, version) {
  const view = viewOf(bytes);
  const frame = { ...readFrame(bytes, view), version };
  const { slots, at } = readSlots(frame, bytes);
  const columns = readStarts(view, at, frame.width);
  const rows = readStarts(view, columns.end, frame.height);
  const tiles = [];
  const leaves = [];
  let end = rows.end;
  for (let row = 0; row + 1 < rows.starts.length; row++) {
    for (let column = 0; column + 1 < columns.starts.length; column++) {
      const [x, y] = [columns.starts[column], rows.starts[row]];
      const tile = { tile: tiles.length, first: leaves.length, x, y, width: columns.starts[column + 1] - x, height: rows.starts[row + 1] - y };
      const part = readLeaves(bytes, view, frame, tile, end + 4, leaves.length);
      tiles.push(tile);
      for (const leaf of part.leaves) leaves.push(leaf);
      end = part.end;
    }
  }
  return { bytes, view, frame, slots, leaves, end, tiles };
}

// ---- A sequence of frames.

// The entries of a sequence, each with what its head says, where its part begins, and which frame each slot holds before it, none as -1. A frame has the
// number of its entry. `shows` is the frame of an entry: its own, or that of a slot that it shows again. In a sequence whose entries have no kind each is shown.
function readHeads(bytes, view, hasKinds) {
  const heads = [];
  let held = new Array(8).fill(-1);
  let at = 12;
  for (let number = 0; number < view.getUint16(10, true); number++) {
    const kind = hasKinds ? bytes[at++] : 1;
    const head = kind === 2 ? readAgain(bytes, at, held) : readHead(bytes, at, number);
    heads.push({ ...head, isShown: kind > 0, held });
    held = held.map((other, slot) => head.refresh >> slot & 1 ? head.shows : other);
    at = kind === 2 ? at + 2 : head.part + view.getUint32(at + 10, true);
  }
  return heads;
}

const readHead = (bytes, at, number) => ({
  shows: number, filter: bytes[at], edgeFilter: bytes[at + 1] === 1, slots: Array.from(bytes.subarray(at + 2, at + 9)), refresh: bytes[at + 9], part: at + 14,
});
const readAgain = (bytes, at, held) => ({ shows: held[bytes[at]], refresh: bytes[at + 1] });

// For each frame of which the page holds the planes, how many frames are shown before it: a sequence is written as it is shown.
function placesOf(heads) {
  const places = new Map();
  heads.filter((head) => head.isShown).forEach((head, place) => places.set(head.shows, place));
  return places;
}

// Grey, for frames of which the page holds no planes.
const greyOf = (shape) => (shape.sampleBytes === 1 ? new Uint8Array(shape.samples) : new Uint16Array(shape.samples)).fill(1 << (shape.depth - 1));

// Frames are read as they are asked for: of each the leaves, and as its slots the planes of frames before it.
function sequenceOf(bytes, version) {
  const view = viewOf(bytes);
  const shape = shapeOf(view.getUint16(4, true), view.getUint16(6, true), bytes[8], bytes[9]);
  const heads = readHeads(bytes, view, version === 3);
  const places = placesOf(heads);
  const length = shape.samples * shape.sampleBytes;
  const all = bytesOf('planes-bytes');
  const planesOf = (place) => samplesOf(shape, all.subarray(length * place, length * (place + 1)));
  const planesAt = (number) => places.has(heads[number].shows) ? planesOf(places.get(heads[number].shows)) : greyOf(shape);
  const readAt = (number) => {
    const { filter, edgeFilter, slots, refresh, part, held } = heads[heads[number].shows];
    const frame = { ...shape, version, filter, edgeFilter, slots };
    const filled = held.map((other) => other < 0 ? null : planesAt(other));
    return { bytes, view, frame, slots: filled, held, refresh, ...readLeaves(bytes, view, frame, shownOf(frame), part, 0) };
  };
  const isHeld = (number) => places.has(heads[number].shows);
  return { kind: 'sequence', count: heads.length, shape, heads, readAt, planesAt, isHeld, heldAt: (number) => ({ planes: planesAt(number) }) };
}
