// ---- Chroma that leaves share.

// The leaves that share a leaf's block of chroma, row by row: where chroma is halved along a side of 4 two or four, else the leaf alone. The last carries it.
function sharersOf(leaf) {
  const columns = frame.xdecs[1] && leaf.width === 4 ? [leaf.x & ~7, leaf.x | 4] : [leaf.x];
  const rows = frame.ydecs[1] && leaf.height === 4 ? [leaf.y & ~7, leaf.y | 4] : [leaf.y];
  return rows.flatMap((y) => columns.map((x) => leafAt(x, y)));
}

const carrierOf = (sharers) => sharers[sharers.length - 1];

// Where all are predicted from references each predicts the part of the block over its own luma, else the last one the whole block.
const areParts = (sharers) => sharers.every((l) => l.motions);

// How a block that is shared is predicted from references, in a word; none of other blocks.
function sharedWord(leaf) {
  const sharers = leaf.carried && leaf.motions ? sharersOf(leaf) : [];
  return sharers.length < 2 ? '' : areParts(sharers) ? 'parts' : 'whole';
}

// Which leaf predicts which part of a shared block.
function sharedText(sharers) {
  const [first, last] = [sharers[0], carrierOf(sharers)];
  if (!areParts(sharers)) return 'whole by leaf ' + last.number + (last.motions ? ', as leaf ' + sharers.find((l) => !l.motions).number + ' is intra' : '');
  const part = (l) => (first.y < last.y ? [l.y < last.y ? 'upper' : 'lower'] : []).concat(first.x < last.x ? [l.x < last.x ? 'left' : 'right'] : []);
  return sharers.map((l) => [...part(l), 'by leaf', l.number].join(' ')).join(', ');
}

// What a leaf predicts of the plane that is shown, in luma samples; null where a later leaf predicts all of a shared block.
function predictedBox(leaf) {
  const sharers = shownPlane() > 0 ? sharersOf(leaf) : [leaf];
  if (sharers.length === 1 || areParts(sharers)) return leaf;
  const { x, y } = sharers[0];
  return leaf.carried ? { x, y, width: leaf.x + leaf.width - x, height: leaf.y + leaf.height - y } : null;
}
