// ---- Transform blocks, and the edge that an intra block is predicted from.

// The leaf that codes a sample of a plane, by the sample's column and row there.
function codingLeaf(p, column, row) {
  const leaf = leafAt(column << frame.xdecs[p], row << frame.ydecs[p]);
  return p === 0 ? leaf : carrierOf(sharersOf(leaf));
}

// The transform block of a sample: its leaf, its number there, and its rectangle in the plane.
function blockAt(p, column, row) {
  const leaf = codingLeaf(p, column, row);
  const area = areaOf(frame, leaf, p);
  const right = Math.floor((column - area.x) / area.wide);
  const below = Math.floor((row - area.y) / area.high);
  return {
    leaf, plane: p, number: below * (area.width / area.wide) + right, x: area.x + right * area.wide, y: area.y + below * area.high,
    width: area.wide, height: area.high,
  };
}

// The block at the cursor, in the plane that is shown.
const blockHere = () => blockAt(shownPlane(), state.x >> frame.xdecs[shownPlane()], state.y >> frame.ydecs[shownPlane()]);

// The intra mode of a leaf in a plane, with its step; none for a leaf from references.
function modeIn(leaf, p) {
  if (leaf.motions) return null;
  return p === 0 ? { mode: leaf.mode, step: leaf.step } : { mode: leaf.chromaMode, step: leaf.chromaStep };
}

const isDirectional = (mode) => mode >= 1 && mode <= 8;

// What is coded of a plane in the leaf's tile, or in the whole frame. A leaf is predicted from no sample outside.
function codedExtent(leaf, p) {
  const { x, y, width, height } = leaf.area;
  const [xdec, ydec] = [frame.xdecs[p], frame.ydecs[p]];
  return { left: x >> xdec, top: y >> ydec, right: (x + width + 7 & ~7) >> xdec, bottom: (y + height + 7 & ~7) >> ydec };
}

// The sample at a place, if it is decoded before the block, else null. The page lacks samples past what is shown: they are NaN.
function decodedBefore(block, x, y) {
  const { plane: p, leaf } = block;
  const extent = codedExtent(leaf, p);
  if (x < extent.left || y < extent.top || x >= extent.right || y >= extent.bottom) return null;
  const other = blockAt(p, x, y);
  const isBefore = other.leaf === leaf ? other.number < block.number : other.leaf.number < leaf.number;
  if (!isBefore) return null;
  return x < frame.widths[p] && y < frame.heights[p] ? planes[frame.starts[p] + y * frame.widths[p] + x] : NaN;
}

// A side of the edge, place by place. A place where nothing is decoded is filled from the place before, and the first place with `first`.
function sideOf(length, reach, first, sampleAt) {
  const side = [];
  for (let i = 0; i < length; i++) {
    const sample = i < reach ? sampleAt(i) : null;
    side.push({ value: sample === null ? (i > 0 ? side[i - 1].value : first) : sample, isFilled: sample === null });
  }
  return side;
}

// The mode that has effect: at the left and upper end of the tile Paeth has only one side, or none.
function modeInEffect(block, extent) {
  const { mode, step } = modeIn(block.leaf, block.plane);
  if (mode !== PAETH) return { mode, step };
  const [isLeft, isTop] = [block.x === extent.left, block.y === extent.top];
  return { mode: isLeft && isTop ? 0 : isTop ? 2 : isLeft ? 1 : PAETH, step: 0 };
}

// The corner of the edge, before it is filtered.
function cornerOf(block, extent, isNeeded) {
  const middle = 1 << frame.depth - 1;
  const [isLeft, isTop] = [block.x === extent.left, block.y === extent.top];
  if (!isNeeded || (isLeft && isTop)) return { value: middle, isFilled: true, isNeeded };
  const [x, y] = [block.x - (isLeft ? 0 : 1), block.y - (isTop ? 0 : 1)];
  return { value: decodedBefore(block, x, y), isFilled: isLeft || isTop, isNeeded };
}

// The edge that an intra block is predicted from (docs/TRUSTED.md, av1_tile/Edge); none for a block from references.
function edgeOf(block) {
  const { leaf, plane: p, x, y, width, height } = block;
  if (leaf.motions) return null;
  const extent = codedExtent(leaf, p);
  const { mode, step } = modeInEffect(block, extent);
  const angle = isDirectional(mode) ? angleOf(mode, step) : null;
  const isSlanted = angle !== null && angle !== 90 && angle !== 180;
  const middle = 1 << frame.depth - 1;
  const [pastRight, pastBottom] = [angle !== null && angle < 90, angle > 180];
  const shortest = Math.min(width, height);
  const hasLeft = x > extent.left || (mode !== 0 && mode !== CHROMA_FROM_LUMA);
  const above = sideOf(width + (pastRight ? height : 0), width + (pastRight ? shortest : 0),
    x > extent.left ? decodedBefore(block, x - 1, y) : middle - 1, (i) => decodedBefore(block, x + i, y - 1));
  const left = sideOf((hasLeft ? height : 0) + (pastBottom ? width : 0), height + (pastBottom ? shortest : 0),
    y > extent.top ? decodedBefore(block, x, y - 1) : middle + 1, (i) => decodedBefore(block, x - 1, y + i));
  const edge = { mode, angle, above, left, corner: cornerOf(block, extent, mode === PAETH || isSlanted), isSmooth: hasSmoothNeighbour(block, extent) };
  return isSlanted ? { ...edge, prepared: preparedEdge(block, edge, extent) } : { ...edge, prepared: null };
}

// ---- The edge filter and upsampling (docs/TRUSTED.md, av1_intra/EdgeFilter and Upsampling).

// Whether the leaf above or to the left of the block's leaf has a smooth mode: that makes the filter stronger.
function hasSmoothNeighbour(block, extent) {
  const { leaf, plane: p } = block;
  const area = areaOf(frame, leaf, p);
  const isSmooth = (x, y) => {
    const near = modeIn(codingLeaf(p, x, y), p);
    return near !== null && near.mode >= 9 && near.mode <= 11;
  };
  return (area.y > extent.top && isSmooth(area.x, area.y - 1)) || (area.x > extent.left && isSmooth(area.x - 1, area.y));
}

// By the sum of width and height: from how many degrees on a filter has which strength. The greatest row holds for all larger sums.
const STRENGTHS = [[8, [[56, 1]]], [16, [[40, 1]]], [24, [[32, 3], [16, 2], [8, 1]]], [32, [[32, 3], [4, 2], [0, 1]]], [Infinity, [[0, 3]]]];
const SMOOTH_STRENGTHS = [[8, [[64, 2], [40, 1]]], [16, [[48, 2], [20, 1]]], [24, [[4, 3]]], [Infinity, [[0, 3]]]];
const KERNELS = [null, [0, 4, 8, 4, 0], [0, 5, 6, 5, 0], [2, 4, 4, 4, 2]];

function strengthOf(sum, isSmooth, degrees) {
  const steps = (isSmooth ? SMOOTH_STRENGTHS : STRENGTHS).find(([most]) => sum <= most)[1];
  const found = steps.find(([least]) => degrees >= least);
  return found ? found[1] : 0;
}

// The first places of a side, filtered. Entry 0 of a side is the corner.
function filtered(entries, count, strength) {
  if (strength === 0) return entries;
  const near = (at) => entries[Math.min(Math.max(at, 0), count)];
  return entries.map((value, e) => e === 0 || e > count ? value
    : Math.floor((KERNELS[strength].reduce((sum, weight, j) => sum + weight * near(e + j - 2), 0) + 8) / 16));
}

const clipped = (value) => Math.min(Math.max(value, 0), (1 << frame.depth) - 1);

// Twice as many entries: between any two stands one that four give.
function upsampled(entries) {
  const last = entries.length - 1;
  const between = (h) => clipped(Math.floor((9 * (entries[h] + entries[h + 1]) + 8 - entries[Math.max(h - 1, 0)] - entries[Math.min(h + 2, last)]) / 16));
  return entries.flatMap((value, h) => h < last ? [value, between(h)] : [value]);
}

// A side as a direction reads it, so many degrees from the side's own. `visible` is how many places the filter counts.
function preparedSide(block, corner, side, isSmooth, degrees, visible) {
  const entries = [corner, ...side.map((place) => place.value)];
  if (!frame.edgeFilter) return { entries, strength: 0, isUpsampled: false };
  const sum = block.width + block.height;
  const strength = strengthOf(sum, isSmooth, degrees);
  const isUpsampled = degrees >= 1 && degrees <= 39 && sum <= (isSmooth ? 8 : 16);
  const smoothed = filtered(entries, visible, strength);
  return { entries: isUpsampled ? upsampled(smoothed) : smoothed, strength, isUpsampled };
}

// The sides that a slanted direction reads, and the corner, which the filter smooths between both.
function preparedEdge(block, edge, extent) {
  const { x, y, width, height } = block;
  const { angle, above, left, isSmooth } = edge;
  const smoothsCorner = frame.edgeFilter && angle > 90 && angle < 180 && width + height >= 24;
  const corner = smoothsCorner ? Math.floor((5 * left[0].value + 6 * edge.corner.value + 5 * above[0].value + 8) / 16) : edge.corner.value;
  const prepared = (side, own, visible) => preparedSide(block, corner, side, isSmooth, Math.abs(angle - own), visible);
  return {
    corner, smoothsCorner,
    above: angle < 180 ? prepared(above, 90, Math.min(width, extent.right - x) + (angle < 90 ? height : 0)) : null,
    left: angle > 90 ? prepared(left, 180, Math.min(height, extent.bottom - y) + (angle > 180 ? width : 0)) : null,
  };
}

// ---- Directions (docs/TRUSTED.md, av1_intra/Directional).

// How far a line of an angle moves along a side for each sample away from it, in 64ths of a sample.
const DERIVATIVES = new Map([[3, 1023], [6, 547], [9, 372], [14, 273], [17, 215], [20, 178], [23, 151], [26, 132], [29, 116], [32, 102], [36, 90], [39, 80],
  [42, 71], [45, 64], [48, 57], [51, 51], [54, 45], [58, 40], [61, 35], [64, 31], [67, 27], [70, 23], [73, 19], [76, 15], [81, 11], [84, 7], [87, 3]]);

// What is read for the sample at a row and a column of the block: a side, an entry there, and how many 32nds past it. `from` is in 64ths.
function entryRead(block, edge, name, from, more) {
  const side = edge.prepared[name];
  const doubled = side.isUpsampled ? 1 : 0;
  const entry = (from >> 6 - doubled) + (more << doubled);
  const last = block.width + block.height << doubled;
  return edge.angle < 90 && entry >= last ? { name, side, entry: last, past: 0 } : { name, side, entry, past: (from << doubled >> 1) % 32 };
}

function directionRead(block, edge, row, column) {
  const { angle } = edge;
  if (angle < 90) return entryRead(block, edge, 'above', (row + 1) * DERIVATIVES.get(angle) + 64, column);
  if (angle > 180) return entryRead(block, edge, 'left', (column + 1) * DERIVATIVES.get(270 - angle) + 64, row);
  const above = 64 * (column + 1) - (row + 1) * DERIVATIVES.get(180 - angle);
  if (above >= 0) return entryRead(block, edge, 'above', above, 0);
  return entryRead(block, edge, 'left', 64 * (row + 1) - (column + 1) * DERIVATIVES.get(angle - 90), 0);
}

// The places of the sides that a sample is predicted from, -1 for the corner. Those of a direction have a weight in 32nds.
function readsOf(block, edge, row, column) {
  const { mode, angle, prepared } = edge;
  const places = { 1: [['above', column]], 2: [['left', row]], 9: [['above', column], ['above', block.width - 1], ['left', row], ['left', block.height - 1]],
    10: [['above', column], ['left', block.height - 1]], 11: [['left', row], ['above', block.width - 1]], 12: [['above', column], ['left', row], ['above', -1]] };
  if (!prepared) return (places[angle === 90 ? 1 : angle === 180 ? 2 : mode] || []).map(([name, place]) => ({ name, place }));
  const { name, side, entry, past } = directionRead(block, edge, row, column);
  const read = (e, weight) => ({ name, place: (side.isUpsampled ? e / 2 : e) - 1, value: side.entries[e], weight });
  return past > 0 ? [read(entry, 32 - past), read(entry + 1, past)] : [read(entry, 32)];
}

// What a slanted direction predicts there.
const directed = (reads) => clipped(Math.floor((reads.reduce((sum, read) => sum + read.weight * read.value, 0) + 16) / 32));
