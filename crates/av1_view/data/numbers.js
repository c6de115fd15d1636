// ---- The numbers of a transform block, in grids of one scale.

// The numbers of a rectangle of a plane, row by row, as far as the page has them.
function rowsOf(block, valueOf) {
  const [width, height] = [Math.min(block.width, frame.widths[block.plane] - block.x), Math.min(block.height, frame.heights[block.plane] - block.y)];
  const columns = Array.from({ length: Math.max(width, 0) }, (none, i) => i);
  return Array.from({ length: Math.max(height, 0) }, (none, row) => columns.map((column) => valueOf(block.x + column, block.y + row)));
}

// The coefficients of a block; a large one has them only in its first 32 columns and rows.
function coefficientRows(block) {
  const rows = Array.from({ length: Math.min(block.height, 32) }, () => new Array(Math.min(block.width, 32)).fill(0));
  for (const c of coefficientsOf(plan, block.leaf, block.plane)) if (c.block === block.number) rows[c.row][c.column] = c.value;
  return rows;
}

// A prediction with its edge around it: the corner and the side above in the first row, and the left side in the first column. Places are
// those of the edge as the prediction reads it, unless it is upsampled.
function withEdge(rows, edge) {
  if (!edge) return rows;
  const numbersOf = (name) => {
    const side = edge.prepared && edge.prepared[name];
    return side && !side.isUpsampled ? side.entries.slice(1) : edge[name].map((place) => place.value);
  };
  const [above, left] = [numbersOf('above'), numbersOf('left')];
  const corner = edge.prepared ? edge.prepared.corner : edge.corner.value;
  const first = [edge.corner.isNeeded ? corner : '', ...above];
  return [first, ...Array.from({ length: Math.max(left.length, rows.length) }, (none, i) => [i < left.length ? left[i] : '', ...(rows[i] || [])])];
}

// The grids of a block by their names: what is coded, what that adds to what is predicted, and what this gives.
function gridsOf(block, edge) {
  const of = (name) => {
    const source = sources.find((s) => s.name === name);
    return source && hasSamples() ? rowsOf(block, (x, y) => valueAt(frame, source, block.plane, x, y)) : null;
  };
  const prediction = of('prediction');
  const grids = { coefficients: coefficientRows(block), residual: of('residual'), prediction: prediction && withEdge(prediction, edge),
    edge: prediction || !edge ? null : withEdge([], edge), result: of('reconstruction'), given: of('given') };
  return Object.entries(grids).filter(([, rows]) => rows);
}

// ---- What marks a number: its colour, and why.

// The marks of the sample at the cursor, and of given samples that differ.
function sampleMark(block, name, row, column) {
  const [x, y] = [block.x + column, block.y + row];
  const isHere = x === state.x >> frame.xdecs[block.plane] && y === state.y >> frame.ydecs[block.plane];
  const i = frame.starts[block.plane] + y * frame.widths[block.plane] + x;
  const differs = (name === 'given' || name === 'result') && given && given[i] !== planes[i];
  return (isHere ? 'here ' : '') + (differs ? 'differs' : '');
}

// The marks of a place of the edge: decoded or filled, and read for the sample at the cursor.
function placeMark(edge, reads, name, place) {
  const { isFilled } = place < 0 ? edge.corner : edge[name][place] || { isFilled: true };
  const isRead = reads.some((read) => Math.abs(read.place - place) < 1 && (read.name === name || place < 0));
  return (isFilled ? 'filled' : 'decoded') + (isRead ? ' read' : '');
}

// The mark of a number of a grid by its row and its column.
function markOfNumber(block, edge, reads, name, row, column) {
  if (name === 'coefficients') return '';
  if (!edge || (name !== 'prediction' && name !== 'edge')) return sampleMark(block, name, row, column);
  if (row === 0 && column === 0 && !edge.corner.isNeeded) return '';
  if (row === 0) return placeMark(edge, reads, 'above', column - 1);
  return column === 0 ? placeMark(edge, reads, 'left', row - 1) : sampleMark(block, name, row - 1, column - 1);
}

// ---- Grids on the page.

// Numbers in columns of one width; those with a mark stand in an element of that class.
function gridOf(rows, width, markAt) {
  const grid = document.createElement('pre');
  rows.forEach((numbers, row) => {
    let plain = '';
    numbers.forEach((number, column) => {
      const text = (Number.isNaN(number) ? '?' : String(number)).padStart(width);
      const mark = markAt(row, column);
      if (!mark.trim()) { plain += text; return; }
      const cell = document.createElement('b');
      cell.className = mark;
      cell.textContent = text;
      grid.append(plain, cell);
      plain = '';
    });
    grid.append(plain + '\n');
  });
  return grid;
}

const placeText = (read) => read.place < 0 ? 'corner' : read.name + ' ' + read.place;

// How the edge was made, and what the sample at the cursor reads of it.
function edgeText(block, edge, reads) {
  if (!edge) return block.leaf.motions ? 'predicted from references' : 'the page lacks the samples of this hidden frame';
  const sides = ['above', 'left'].map((name) => name + ' ' + edge[name].length + ' places, ' + edge[name].filter((place) => place.isFilled).length + ' filled');
  const prepared = ['above', 'left'].filter((name) => edge.prepared && edge.prepared[name]).map((name) =>
    name + ' strength ' + edge.prepared[name].strength + (edge.prepared[name].isUpsampled ? ', upsampled' : ''));
  const texts = [sides.join('; '), prepared.length > 0 ? 'filter: ' + prepared.join('; ') + (edge.prepared.smoothsCorner ? '; corner too' : '') : 'not filtered'];
  if (edge.angle !== null) texts.unshift(edge.angle + ' degrees');
  if (reads.length > 0) texts.push('the cursor reads ' + reads.map((read) => placeText(read) + (read.weight ? ' x' + read.weight + '/32' : '')).join(', '));
  return texts.join(' | ');
}

// The numbers of an upsampled side, which fit no place of the grid.
function upsampledText(edge) {
  if (!edge || !edge.prepared) return '';
  const names = ['above', 'left'].filter((name) => edge.prepared[name] && edge.prepared[name].isUpsampled);
  return names.map((name) => name + ', upsampled from the corner on: ' + edge.prepared[name].entries.map((n) => Number.isNaN(n) ? '?' : n).join(' ')).join('\n');
}

function blockText(block) {
  const type = TRANSFORM_TYPES[block.plane === 0 ? block.leaf.transformType : block.leaf.chromaType];
  return PLANES[block.plane] + ' block ' + block.number + ' of leaf ' + block.leaf.number + ', ' + block.width + 'x' + block.height + ' at column ' + block.x
    + ', row ' + block.y + ', ' + type;
}

// What is read for the sample at the cursor, in the block's edge.
function readsHere(block, edge) {
  if (!edge) return [];
  return readsOf(block, edge, (state.y >> frame.ydecs[block.plane]) - block.y, (state.x >> frame.xdecs[block.plane]) - block.x);
}

// Over the picture, the numbers of the block at the cursor.
function showBlock() {
  element('block').hidden = !layers.block;
  if (!layers.block) return;
  const block = blockHere();
  const edge = hasSamples() ? edgeOf(block) : null;
  const reads = readsHere(block, edge);
  const grids = gridsOf(block, edge);
  const width = 1 + Math.max(3, ...grids.flatMap(([, rows]) => rows.map((numbers) => Math.max(...numbers.map((n) => String(n).length)))));
  element('block-title').textContent = blockText(block);
  element('block-edge').textContent = edgeText(block, edge, reads) + '\n' + upsampledText(edge);
  element('grids').replaceChildren(...grids.map(([name, rows]) => {
    const figure = document.createElement('figure');
    const caption = document.createElement('figcaption');
    caption.textContent = name === 'prediction' && edge ? 'prediction, with its edge' : name;
    figure.append(caption, gridOf(rows, width, (row, column) => markOfNumber(block, edge, reads, name, row, column)));
    return figure;
  }));
}

// ---- The edge in the picture.

const EDGE_ZOOM = 4;
const EDGE_COLOURS = { decoded: '#7bd88f', filled: '#ff9f43' };

// The box of a place of the edge, in luma samples.
function placeBox(block, name, place) {
  const [x, y] = name === 'above' ? [block.x + place, block.y - 1] : [block.x - 1, block.y + place];
  const [xdec, ydec] = [frame.xdecs[block.plane], frame.ydecs[block.plane]];
  return { x: x * (1 << xdec), y: y * (1 << ydec), width: 1 << xdec, height: 1 << ydec };
}

// The places around the block at the cursor: decoded or filled, with their numbers; what the sample at the cursor reads is joined with it.
function drawEdge(context) {
  if (state.zoom < EDGE_ZOOM) return false;
  const block = blockHere();
  const edge = hasSamples() ? edgeOf(block) : null;
  if (!edge) return true;
  const places = ['above', 'left'].flatMap((name) => edge[name].map((place, i) => ({ ...place, name, i }))).concat(edge.corner.isNeeded ? [{ ...edge.corner, name: 'above', i: -1 }] : []);
  for (const kind of ['decoded', 'filled']) {
    const boxes = places.filter((place) => place.isFilled === (kind === 'filled')).map(({ name, i }) => boxPath(placeBox(block, name, i)));
    strokeTwice(context, EDGE_COLOURS[kind], 1.5, kind === 'filled' ? [3, 3] : [], boxes);
  }
  drawReads(context, block, readsHere(block, edge));
  if (state.zoom < VALUES_ZOOM) return true;
  for (const { name, i, value, isFilled } of places) {
    const box = placeBox(block, name, i);
    label('edge', Number.isNaN(value) ? '?' : value, across(box.x + box.width / 2), down(box.y + box.height / 2), 12, EDGE_COLOURS[isFilled ? 'filled' : 'decoded']);
  }
  return true;
}

// Lines from the sample at the cursor to the places that it is predicted from.
function drawReads(context, block, reads) {
  const middle = (box) => [across(box.x + box.width / 2), down(box.y + box.height / 2)];
  const [xdec, ydec] = [frame.xdecs[block.plane], frame.ydecs[block.plane]];
  const here = { x: state.x >> xdec << xdec, y: state.y >> ydec << ydec, width: 1 << xdec, height: 1 << ydec };
  strokeTwice(context, colourOf('edge'), 2, [], reads.map((read) => (c) => {
    const [x, y] = middle(placeBox(block, read.name, read.place));
    c.moveTo(...middle(here));
    c.lineTo(x, y);
    c.rect(x - 3, y - 3, 6, 6);
  }));
}
