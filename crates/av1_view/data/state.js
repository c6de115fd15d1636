// ---- What is shown.

// Layers in the order of their switches. `single` are drawn leaf by leaf, from so near that each has room.
const LAYERS = [
  { id: 'tiles', key: 't', name: 'tiles', colour: '#ff7adf', on: true },
  { id: 'superblocks', key: '1', name: 'superblocks', colour: '#f0e442', on: true },
  { id: 'leaves', key: '2', name: 'leaves', colour: '#ffffff', on: true },
  { id: 'transforms', key: '3', name: 'transforms', colour: '#56b4e9', on: false },
  { id: 'modes', key: '4', name: 'modes', colour: '#e69f00', on: true, single: true },
  { id: 'chroma', key: '5', name: 'chroma modes', colour: '#cc79a7', on: false, single: true },
  { id: 'vectors', key: '6', name: 'vectors', colour: '#00d69b', on: true, single: true },
  { id: 'coefficients', key: '7', name: 'coefficients', colour: '#d0e8ff', on: false, single: true },
  { id: 'values', key: '8', name: 'sample values', colour: '#ffffff', on: true, single: true },
  { id: 'differences', key: '9', name: 'differences', colour: '#ff5a00', on: true },
  { id: 'departures', key: 'x', name: 'departs from AV1', colour: '#ff3b5c', on: true },
  { id: 'map', key: 'm', name: 'map of leaves', colour: '#b59cff', on: false },
  { id: 'source', key: 'b', name: 'block source', colour: '#00d69b', on: false },
  { id: 'edge', key: 'i', name: 'intra edge', colour: '#ffd24a', on: false },
  { id: 'block', key: 'k', name: 'block numbers', colour: '#d0e8ff', on: false },
];

const element = (id) => document.getElementById(id);
const canvas = element('picture');
const file = readFile(bytesOf('plan-bytes'));

// The frame that is shown, and what is made of it.
let plan;
let frame;
let leaves;
let cells;
let planes;
let given;
let sources;
let differences;
let departures;

// Takes a frame of the file by its number.
function takeFrame(number) {
  const held = file.heldAt(number);
  plan = file.readAt(number);
  ({ frame, leaves } = plan);
  ({ planes, given = null } = held);
  cells = cellsOf(plan);
  sources = sourcesOf(plan, held);
  differences = given ? differencesOf(plan, planes, given) : NO_DIFFERENCES;
  departures = departuresOf(plan);
}

if (file.count > 0) takeFrame(0);

// Layers that have something to show in this page. In a sequence any frame may have vectors, or depart.
const hasVectors = file.kind === 'sequence' || leaves.some((leaf) => leaf.motions);
const HAS_LAYER = {
  tiles: file.kind === 'tiles', vectors: hasVectors, source: hasVectors, differences: Boolean(given),
  departures: file.kind === 'sequence' || departures.size > 0,
};
const LAYERS_HERE = LAYERS.filter((layer) => HAS_LAYER[layer.id] !== false);
const layers = Object.fromEntries(LAYERS.map((layer) => [layer.id, layer.on && HAS_LAYER[layer.id] !== false]));

// Lengths are of CSS pixels, of which each has `scale` of the device's on a side. `left` and `top` are the luma place at the corner.
const state = {
  frame: 0, source: sources && sources[0], component: 'RGB', matrix: MATRICES[0], gain: 'automatic', zoom: 1, left: 0, top: 0, width: 1, height: 1, scale: 1, ground: '',
  x: 0, y: 0, unseen: null, locked: false, property: PROPERTIES[0], chosen: null, words: '', found: null, difference: -1, second: null, divide: 0.5, labels: [],
};

// Whether the page holds the samples of the frame that is shown; those of a frame that is never shown it lacks.
const hasSamples = () => file.kind !== 'sequence' || file.isHeld(state.frame);
const leafAt = (x, y) => leaves[cells.leaves[(y >> 2) * cells.columns + (x >> 2)]];
// The leaf at the cursor, or the one that was gone to and lies past what is shown.
const leafHere = () => state.unseen === null ? leafAt(state.x, state.y) : leaves[state.unseen];
const shownPlane = () => Math.max(PLANES.indexOf(state.component), 0);
const gainHere = () => gainOf(frame, state.source, state.component, state.gain);
const colourOf = (id) => LAYERS.find((layer) => layer.id === id).colour;
