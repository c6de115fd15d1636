// ---- Bytes.

// The bytes that an element of the page holds in base64; none where the page has no such element.
function bytesOf(id) {
  const holder = document.getElementById(id);
  if (!holder) return new Uint8Array(0);
  const text = holder.textContent;
  holder.textContent = '';
  return Uint8Array.fromBase64 ? Uint8Array.fromBase64(text) : decoded(text);
}

// The same where the browser has no such call: pieces of whole groups, one behind the other.
function decoded(text) {
  const padding = text.endsWith('==') ? 2 : text.endsWith('=') ? 1 : 0;
  const bytes = new Uint8Array(text.length / 4 * 3 - padding);
  const piece = 1 << 16;
  for (let from = 0, at = 0; from < text.length; from += piece) {
    const part = atob(text.slice(from, from + piece));
    for (let i = 0; i < part.length; i++) bytes[at++] = part.charCodeAt(i);
  }
  return bytes;
}

// ---- A plan.

// The sides that are shown of the planes of a frame, where each plane begins among its samples, and the sides that are coded: whole 8 by 8.
function shapeOf(width, height, depth, sampling) {
  const xdec = sampling < 2 ? 1 : 0;
  const ydec = sampling === 0 ? 1 : 0;
  const widths = [width, width + xdec >> xdec, width + xdec >> xdec];
  const heights = [height, height + ydec >> ydec, height + ydec >> ydec];
  const sizes = widths.map((side, p) => side * heights[p]);
  return {
    width, height, coded: { width: width + 7 & ~7, height: height + 7 & ~7 }, depth, sampling, xdecs: [0, xdec, xdec], ydecs: [0, ydec, ydec], widths, heights,
    starts: [0, sizes[0], sizes[0] + sizes[1]], samples: sizes[0] + 2 * sizes[1], sampleBytes: depth === 8 ? 1 : 2,
  };
}

// The frame that the first fields of a plan or of a grid of tiles give.
function readFrame(bytes, view) {
  return {
    ...shapeOf(view.getUint16(4, true), view.getUint16(6, true), bytes[8], bytes[9]), version: bytes[3] - 48, filter: bytes[10],
    edgeFilter: bytes[11] === 1, slots: Array.from(bytes.subarray(12, 19)),
  };
}

// The planes of each slot of which a mask has the bit, null of the others, and the place behind them all.
function readSlots(frame, bytes) {
  const length = frame.samples * frame.sampleBytes;
  const slots = [];
  let at = 20;
  for (let slot = 0; slot < 8; slot++) {
    const isThere = (bytes[19] >> slot & 1) === 1;
    slots.push(isThere ? samplesOf(frame, bytes.subarray(at, at + length)) : null);
    if (isThere) at += length;
  }
  return { slots, at };
}

// A leaf carries chroma unless, where chroma is halved, its side is 4 and a later leaf carries it.
function carriesChroma(frame, x, y, width, height) {
  return !(frame.xdecs[1] && width === 4 && x % 8 === 0) && !(frame.ydecs[1] && height === 4 && y % 8 === 0);
}

// The leaves that a part of bytes spells for what is coded of an area of a frame, in coding order, from a place on, and the place behind them. They are
// numbered from a number on.
function readLeaves(bytes, view, frame, area, from, first) {
  const right = area.x + area.width + 7 & ~7;
  const bottom = area.y + area.height + 7 & ~7;
  const leaves = [];
  let at = from;

  const byte = () => bytes[at++];
  const signed = () => view.getInt8(at++);
  const pair = () => { at += 2; return view.getUint16(at - 2, true); };
  const signedPair = () => { at += 2; return view.getInt16(at - 2, true); };
  const motion = () => ({ reference: byte(), row: signedPair(), column: signedPair() });
  const triples = () => { const count = pair(); const from = at; at += 7 * count; return { count, from }; };

  function leaf(x, y, width, height) {
    if (x >= right || y >= bottom) return;
    const carried = carriesChroma(frame, x, y, width, height);
    const l = {
      number: first + leaves.length, area, x, y, width, height, carried, mode: byte(), step: 0, chromaMode: -1, chromaStep: 0, weights: null, motions: null,
    };
    if (l.mode < FIRST_SINGLE) {
      l.step = signed();
      if (carried) {
        l.chromaMode = byte();
        if (l.chromaMode === CHROMA_FROM_LUMA) l.weights = [signed(), signed()];
        else l.chromaStep = signed();
      }
    } else {
      l.motions = l.mode < FIRST_COMPOUND ? [motion()] : [motion(), motion()];
    }
    l.transformSize = byte();
    l.transformType = byte();
    l.chromaType = carried ? byte() : -1;
    l.triples = carried ? [triples(), triples(), triples()] : [triples()];
    leaves.push(l);
  }

  function node(x, y, side) {
    if (x >= right || y >= bottom) return;
    const half = side / 2;
    const quarter = side / 4;
    const mark = byte();
    const quarters = side === 8 ? (a, b) => leaf(a, b, 4, 4) : (a, b) => node(a, b, half);
    if (mark === 0) leaf(x, y, side, side);
    if (mark === 1) for (let i = 0; i < 2; i++) leaf(x, y + i * half, side, half);
    if (mark === 2) for (let i = 0; i < 2; i++) leaf(x + i * half, y, half, side);
    if (mark === 8) for (let i = 0; i < 4; i++) leaf(x, y + i * quarter, side, quarter);
    if (mark === 9) for (let i = 0; i < 4; i++) leaf(x + i * quarter, y, quarter, side);
    if (mark === 3) for (let i = 0; i < 4; i++) quarters(x + i % 2 * half, y + (i >> 1) * half);
  }

  for (let y = area.y; y < bottom; y += 64) for (let x = area.x; x < right; x += 64) node(x, y, 64);
  return { leaves, end: at };
}

const shownOf = (frame) => ({ x: 0, y: 0, width: frame.width, height: frame.height });
const viewOf = (bytes) => new DataView(bytes.buffer, bytes.byteOffset, bytes.byteLength);

// The plan that the bytes spell: its frame, its slots, and its leaves in coding order.
function readPlan(bytes) {
  const view = viewOf(bytes);
  const frame = readFrame(bytes, view);
  const { slots, at } = readSlots(frame, bytes);
  return { bytes, view, frame, slots, ...readLeaves(bytes, view, frame, shownOf(frame), at, 0) };
}

// ---- What a leaf covers.

// The rectangle of a leaf in a plane, with the sides of its transforms there; null where it covers no part of the plane.
function areaOf(frame, leaf, p) {
  const [wide, high] = TRANSFORM_SIZES[leaf.transformSize];
  if (p === 0) return { x: leaf.x, y: leaf.y, width: leaf.width, height: leaf.height, wide, high };
  if (!leaf.carried) return null;
  const width = Math.max(leaf.width >> frame.xdecs[p], 4);
  const height = Math.max(leaf.height >> frame.ydecs[p], 4);
  const x = (leaf.x / 4 >> frame.xdecs[p]) * 4;
  const y = (leaf.y / 4 >> frame.ydecs[p]) * 4;
  return { x, y, width, height, wide: Math.min(width, 32), high: Math.min(height, 32) };
}

// The part of a leaf that is shown: without columns or rows where the leaf lies past what is shown.
function visibleBox(frame, leaf) {
  const { x, y } = leaf;
  return { x, y, width: Math.max(0, Math.min(leaf.width, frame.width - x)), height: Math.max(0, Math.min(leaf.height, frame.height - y)) };
}

// The coefficients of a leaf in a plane: block, place and value, and what the place is.
function coefficientsOf(plan, leaf, p) {
  const area = areaOf(plan.frame, leaf, p);
  if (!area) return [];
  const rows = Math.min(area.high, 32);
  const { count, from } = leaf.triples[p];
  const list = [];
  for (let i = 0; i < count; i++) {
    const at = from + 7 * i;
    const place = plan.view.getUint16(at + 1, true);
    list.push({ block: plan.bytes[at], place, value: plan.view.getInt32(at + 3, true), column: Math.floor(place / rows), row: place % rows });
  }
  return list;
}

const coefficientCount = (leaf) => leaf.triples.reduce((sum, t) => sum + t.count, 0);

// The number of each luma cell's leaf.
function cellsOf(plan) {
  const columns = plan.frame.coded.width / 4;
  const rows = plan.frame.coded.height / 4;
  const cells = new Uint32Array(columns * rows);
  for (const leaf of plan.leaves) {
    const right = Math.min((leaf.x + leaf.width) / 4, columns);
    const bottom = Math.min((leaf.y + leaf.height) / 4, rows);
    for (let y = leaf.y / 4; y < bottom; y++) cells.fill(leaf.number, y * columns + leaf.x / 4, y * columns + right);
  }
  return { columns, rows, leaves: cells };
}
