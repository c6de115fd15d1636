// ---- Marks of differences.

// More marks than these can't be told apart, and leaves are tinted in place of them.
const MOST_RINGS = 200;
const MOST_CROSSES = 1500;
const CROSSES_ZOOM = 8;

// Those that may be seen, one for each leaf and plane, or nothing where they are too many.
function entriesSeen(seen, crowded) {
  if (differences.list.length <= MOST_RINGS) return differences.list;
  if (crowded) return null;
  const entries = [];
  for (const leaf of seen) {
    entries.push(...(differences.ofLeaf.get(leaf.number) || []));
    if (entries.length > MOST_RINGS) return null;
  }
  return entries;
}

const columnOf = (d) => across((d.column + 0.5) * (1 << frame.xdecs[d.plane]));
const rowOf = (d) => down((d.row + 0.5) * (1 << frame.ydecs[d.plane]));

// A ring around the first differing sample of each leaf and plane, from near a cross through each one, and both values. From so near that
// values are drawn, a frame around each one in place of both. If there are too many, a tint over each leaf by its greatest difference.
function drawDifferences(context, seen, part, crowded) {
  const entries = entriesSeen(seen, crowded);
  if (!entries) {
    drawOverFrame(context, heatOfLeaves(), false, 4);
    return false;
  }
  const isFramed = state.zoom >= VALUES_ZOOM;
  const rings = [];
  const size = Math.max(7, state.zoom * 0.7);
  for (const d of isFramed ? [] : entries) {
    const x = columnOf(d);
    const y = rowOf(d);
    if (x < -size || y < -size || x > state.width + size || y > state.height + size) continue;
    rings.push((c) => { c.moveTo(x + size, y); c.arc(x, y, size, 0, 7); });
  }
  strokeTwice(context, colourOf('differences'), 2, [], rings);
  const room = state.zoom < CROSSES_ZOOM || drawCrosses(context, part);
  if (!isFramed) return room;
  for (const d of entries) {
    const text = PLANES[d.plane] + ' given ' + d.given + ' defined ' + d.defined;
    bar('differences', text, columnOf(d), rowOf(d) - state.zoom * (1 << frame.ydecs[d.plane]) / 2 - 14, colourOf('differences'));
  }
  return room;
}

// The greater the difference of a leaf, the denser the tint, by its logarithm.
function heatOfLeaves() {
  const share = (greatest) => Math.log2(1 + greatest) / Math.log2(1 + differences.most);
  return cellImage('heat', '', (l) => {
    const greatest = differences.greatest[l.number];
    return greatest ? pixelOf([255, 90, 0], 40 + Math.round(120 * share(greatest))) : 0;
  });
}

// A mark of each visible sample that differs, of the planes that are shown, unless these are too many.
function drawCrosses(context, part) {
  const places = [];
  PLANES.forEach((name, p) => { if (state.component === 'RGB' || state.component === name) crossesIn(places, part, p); });
  if (places.length > MOST_CROSSES) return false;
  for (const [x, y, p] of places) copyMark(context, crossMark(state.zoom * (1 << frame.xdecs[p]), state.zoom * (1 << frame.ydecs[p])), x, y);
  return true;
}

function crossMark(width, height) {
  const frames = (d) => d.rect(2, 2, width - 4, height - 4);
  const crosses = (d) => { d.moveTo(0, 0); d.lineTo(width, height); d.moveTo(width, 0); d.lineTo(0, height); };
  return markOf(['cross', width, height].join(), width, height, (c) => {
    strokeTwice(c, colourOf('differences'), 1.5, [], [state.zoom >= VALUES_ZOOM ? frames : crosses]);
  });
}

function crossesIn(places, part, p) {
  const xdec = frame.xdecs[p];
  const ydec = frame.ydecs[p];
  for (let row = part.top >> ydec; row << ydec < part.bottom; row++) {
    for (let column = part.left >> xdec; column << xdec < part.right; column++) {
      const i = frame.starts[p] + row * frame.widths[p] + column;
      if (given[i] !== planes[i]) places.push([columnOf({ column, plane: p }), rowOf({ row, plane: p }), p]);
    }
  }
}
