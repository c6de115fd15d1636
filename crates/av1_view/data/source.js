// ---- The source of a block.

// What a filter reads before and behind a block, in samples.
const BEFORE = 3;
const BEHIND = 5;
const SOURCE_SIDE = 200;

// Beside the picture, the samples that the leaf at the cursor is predicted from, with the block at its fraction of a sample.
function showSource() {
  const leaf = leafHere();
  const shown = layers.source && leaf.motions !== null && predictedBox(leaf) !== null;
  element('source').hidden = !shown;
  if (!shown) return;
  element('source').replaceChildren(...leaf.motions.map((m) => sourceFigure(leaf, m)));
}

function sourceFigure(leaf, m) {
  const slot = frame.slots[m.reference - 1];
  const box = sourceBox(leaf, m);
  const read = {
    x: Math.floor(box.x) - BEFORE, y: Math.floor(box.y) - BEFORE, width: box.width + BEFORE + BEHIND, height: box.height + BEFORE + BEHIND,
  };
  const painter = painterOf(frame, sources.find((s) => s.slot === slot), state.component, state.matrix, 1);
  const samples = document.createElement('canvas');
  samples.width = read.width;
  samples.height = read.height;
  const area = frame.version > 2 ? shownOf(frame) : leaf.area;
  samples.getContext('2d').putImageData(paint(painter, area, read), 0, 0);
  const figure = document.createElement('figure');
  const caption = document.createElement('figcaption');
  caption.textContent = REFERENCES[m.reference] + ', ' + slotText(slot) + ': from column ' + eighths(8 * box.x) + ', row ' + eighths(8 * box.y);
  figure.append(enlarged(samples, { ...box, x: box.x - read.x, y: box.y - read.y }), caption);
  return figure;
}

// Samples, enlarged, with a box over them.
function enlarged(samples, box) {
  const zoom = SOURCE_SIDE / Math.max(samples.width, samples.height);
  const image = document.createElement('canvas');
  const scale = zoom * state.scale;
  image.width = Math.round(samples.width * scale);
  image.height = Math.round(samples.height * scale);
  image.style.width = samples.width * zoom + 'px';
  image.style.height = samples.height * zoom + 'px';
  const context = image.getContext('2d');
  context.imageSmoothingEnabled = false;
  context.drawImage(samples, 0, 0, image.width, image.height);
  context.scale(state.scale, state.scale);
  strokeTwice(context, colourOf('vectors'), 2, [], [(c) => c.rect(box.x * zoom, box.y * zoom, box.width * zoom, box.height * zoom)]);
  return image;
}
