// ---- Leaves that depart from AV1: by rav1e's rule, which plans follow there, their samples can be others than AV1's.

const SHORT_FILTER = 'the sharp filter along a short side: rav1e takes the smooth filter of four weights there, AV1 the regular one';
const WRAPPED_IDENTITY = 'an identity wraps: along rows it passes 32 bits, where rav1e wraps and AV1 does not';
const IDENTITY_ALONG_ROWS = ['IDTX', 'V_DCT', 'V_ADST', 'V_FLIPADST'];

// Chroma has a side of 4 where a side of 8 is halved, and is filtered along it where the vector has a fraction there, in 1/16 of a sample.
function meetsShortFilter(frame, leaf) {
  if (frame.filter !== SHARP || !leaf.motions) return false;
  const narrow = frame.xdecs[1] === 1 && leaf.width === 8;
  const low = frame.ydecs[1] === 1 && leaf.height === 8;
  return leaf.motions.some((m) => (narrow && (m.column & 15) !== 0) || (low && (m.row & 15) !== 0));
}

const CLAMPED_LOSSLESS = 'a lossless block exceeds the range of rav1e, which clamps between rows and columns; AV1 does not clamp there';

// What rows of a lossless block give, before the columns (docs/TRUSTED.md, av1_itx/Walsh).
function walsh([a, b, c, d]) {
  const [sum, difference] = [a + b, c - d];
  const half = sum - difference >> 1;
  const [second, third] = [half - d, half - b];
  return [sum - second, second, third, difference + third];
}

// In a plane a lossless block has a number between rows and columns that rav1e clamps: to 16 bits at depth 10, to 18 at depth 12.
function clampsIn(plan, leaf, p) {
  if (TRANSFORM_TYPES[p === 0 ? leaf.transformType : leaf.chromaType] !== 'WHT_WHT') return false;
  const rows = new Map();
  for (const { block, row, column, value } of coefficientsOf(plan, leaf, p)) {
    const key = 4 * block + row;
    if (!rows.has(key)) rows.set(key, [0, 0, 0, 0]);
    rows.get(key)[column] = value >> 2;
  }
  const most = 2 ** (Math.max(plan.frame.depth + 6, 16) - 1);
  return [...rows.values()].some((values) => walsh(values).some((number) => number < -most || number >= most));
}

// What an identity along rows multiplies by, in 1/4096: of 4 values a root of 2, of 16 two.
const IDENTITY_FACTORS = new Map([[4, 5793], [16, 11586]]);

// In a plane a product of an identity passes 32 bits. Where one side is twice the other, coefficients are divided by a root of 2 before.
function wrapsIn(plan, leaf, p) {
  const area = areaOf(plan.frame, leaf, p);
  const factor = area && IDENTITY_FACTORS.get(area.wide);
  if (!factor || !IDENTITY_ALONG_ROWS.includes(TRANSFORM_TYPES[p === 0 ? leaf.transformType : leaf.chromaType])) return false;
  const isTwice = area.wide === 2 * area.high || area.high === 2 * area.wide;
  return coefficientsOf(plan, leaf, p).some(({ value }) => {
    const product = (isTwice ? value * 2896 + 2048 >> 12 : value) * factor + 2048;
    return product < -(2 ** 31) || product >= 2 ** 31;
  });
}

// Why a leaf departs, or nothing. In version 3 none does.
function departureOf(plan, leaf) {
  if (plan.frame.version > 2) return null;
  if (meetsShortFilter(plan.frame, leaf)) return SHORT_FILTER;
  if (plan.frame.depth > 8 && leaf.triples.some((t, p) => t.count > 0 && clampsIn(plan, leaf, p))) return CLAMPED_LOSSLESS;
  if (plan.frame.depth === 12 && leaf.triples.some((t, p) => t.count > 0 && wrapsIn(plan, leaf, p))) return WRAPPED_IDENTITY;
  return null;
}

// The leaves that depart, by their numbers, each with the reason.
function departuresOf(plan) {
  const found = new Map();
  for (const leaf of plan.leaves) {
    const reason = departureOf(plan, leaf);
    if (reason) found.set(leaf.number, reason);
  }
  return found;
}
