// ---- Leaves by what they have in common.

// A leaf has one class of each property: a number, with a name and a colour. Classes stand in the order of their numbers.

// Modes: plain ones in browns, directions by their angle, one reference in greens, two from blue to red, in turn dark and light.
const PLAIN_MODES = new Map([[0, [168, 168, 168]], [9, [244, 201, 160]], [10, [224, 160, 112]], [11, [200, 136, 80]], [12, [139, 90, 43]]]);

function modeColour(mode) {
  if (mode >= FIRST_COMPOUND) return byHue(215 + 12 * (mode - FIRST_COMPOUND), 0.9, [0.32, 0.5, 0.7, 0.86][mode % 4]);
  if (mode >= FIRST_SINGLE) return byHue(160 - 9 * (mode - FIRST_SINGLE), 0.75, 0.22 + 0.1 * (mode - FIRST_SINGLE));
  return PLAIN_MODES.get(mode) || byHue(2 * ANGLES[mode] % 360, 0.7, 0.55);
}

// Sides: squares green, wide ones blue, tall ones orange; the greater the darker.
function sidesColour(width, height) {
  const hue = width === height ? 130 : width > height ? 210 : 30;
  return byHue(hue, 0.65, 0.92 - 0.055 * Math.log2(width * height));
}

// Counts: none, 1, 2, 3 to 4, 5 to 8 and so on, from dark to light.
const binOf = (count) => count === 0 ? 0 : 1 + Math.ceil(Math.log2(count));
const binName = (bin) => bin < 3 ? String(bin) : (2 ** (bin - 2) + 1) + ' to ' + 2 ** (bin - 1);
const binColour = (bin) => byHue(270 - 18 * bin, 0.6, 0.25 + 0.045 * bin);

const PROPERTIES = [
  { id: 'mode', classOf: (l) => l.mode, nameOf: (mode) => MODES[mode], colourOf: modeColour },
  {
    id: 'size', classOf: (l) => l.width * l.height << 8 | l.width, nameOf: (size) => (size & 255) + 'x' + (size >> 8) / (size & 255),
    colourOf: (size) => sidesColour(size & 255, (size >> 8) / (size & 255)),
  },
  {
    id: 'transform size', classOf: (l) => l.transformSize, nameOf: (size) => TRANSFORM_SIZES[size].join('x'),
    colourOf: (size) => sidesColour(...TRANSFORM_SIZES[size]),
  },
  {
    id: 'transform type', classOf: (l) => l.triples[0].count === 0 ? -1 : l.transformType,
    nameOf: (type) => type < 0 ? 'no coefficients of Y' : TRANSFORM_TYPES[type],
    colourOf: (type) => type < 0 ? [70, 70, 70] : byHue(137.5 * type % 360, 0.65, type % 2 ? 0.42 : 0.62),
  },
  { id: 'coefficients', classOf: (l) => binOf(coefficientCount(l)), nameOf: binName, colourOf: binColour },
];

// The classes of a property that leaves have: how many leaves, and how many luma samples of the frame.
function classesOf(frame, leaves, property) {
  const found = new Map();
  for (const leaf of leaves) {
    const number = property.classOf(leaf);
    if (!found.has(number)) found.set(number, { number, name: property.nameOf(number), colour: property.colourOf(number), count: 0, area: 0 });
    const one = found.get(number);
    one.count++;
    const box = visibleBox(frame, leaf);
    one.area += box.width * box.height;
  }
  return [...found.values()].sort((a, b) => a.number - b.number);
}
