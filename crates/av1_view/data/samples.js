// ---- Samples.

const IS_LITTLE = new Uint8Array(new Uint16Array([1]).buffer)[0] === 1;

// The samples of bytes of planes.
function samplesOf(frame, bytes) {
  if (frame.sampleBytes === 1) return bytes;
  if (IS_LITTLE && bytes.byteOffset % 2 === 0) return new Uint16Array(bytes.buffer, bytes.byteOffset, frame.samples);
  const samples = new Uint16Array(frame.samples);
  for (let i = 0; i < samples.length; i++) samples[i] = bytes[2 * i] | bytes[2 * i + 1] << 8;
  return samples;
}

// Predictions are packed against the planes (`packed`, specs/Packed.antt of av1_view): of each byte how much the planes are more there than was
// predicted, less the same of the byte a row of luma before, with its sign last, and of each 8 such numbers as many bits as the greatest has.

// How much so many bytes of planes are more than was predicted, behind a row of zeros. What is read or written past the last byte is nothing.
function residuesOf(packed, length, row) {
  const residues = new Uint8Array(row + length);
  let at = 0;
  for (let i = row; i < row + length; i += 8) {
    const bits = packed[at++];
    const mask = (1 << bits) - 1;
    let word = 0;
    let have = 0;
    for (let j = i; j < i + 8; j++) {
      if (have < bits) { word |= packed[at++] << have; have += 8; }
      const number = word & mask;
      residues[j] = residues[j - row] + (number & 1 ? ~(number >> 1) : number >> 1);
      word >>= bits;
      have -= bits;
    }
  }
  return residues;
}

// The bytes that were predicted, of planes and of what is packed against them.
function predictionsOf(planes, packed, row) {
  const residues = residuesOf(packed, planes.length, row);
  const predictions = new Uint8Array(planes.length);
  for (let i = 0; i < predictions.length; i++) predictions[i] = planes[i] - residues[row + i];
  return predictions;
}

// The planes that the page holds. It lacks predictions of a grid of tiles, and those that a trace gives where there is no trace.
function heldPlanes(frame) {
  const [planes, packed, given] = ['planes-bytes', 'predictions-bytes', 'given-bytes'].map(bytesOf);
  const read = (bytes) => bytes.length ? samplesOf(frame, bytes) : null;
  const predictions = packed.length ? predictionsOf(planes, packed, frame.width * frame.sampleBytes) : packed;
  return { planes: read(planes), predictions: read(predictions), given: read(given) };
}

// A slot by its number, and in a sequence the frame that it holds.
const slotText = (slot) => 'slot ' + slot + (plan.held ? ', frame ' + plan.held[slot] : '');

// The references of a frame that name a slot, and these in words.
const namesOf = (frame, slot) => REFERENCES.filter((name, i) => i > 0 && frame.slots[i - 1] === slot);

function namesText(frame, slot) {
  const names = namesOf(frame, slot);
  const others = REFERENCES.filter((name) => name && !names.includes(name));
  if (names.length > 4) return others.length === 0 ? 'all references' : 'all but ' + others.join(' ');
  return names.join(' ') || 'no reference';
}

// What can be shown: samples, or numbers with a sign, which are drawn round grey. `less` is taken from `of`, where there is one.
function sourcesOf(plan, held) {
  const source = (name, title, of, less = null) => ({ name, title, of, less, signed: less !== null, slot: -1, greatest: new Map() });
  const sources = [source('reconstruction', 'the samples that the plan defines', held.planes)];
  if (held.predictions) {
    sources.push(source('prediction', 'what each block is predicted as, before its residual is added', held.predictions));
    sources.push(source('residual', 'the reconstruction less the prediction', held.planes, held.predictions));
  }
  if (held.given) {
    sources.push(source('given', 'the samples of the other encoder or decoder', held.given));
    sources.push(source('given - defined', 'the given samples less the reconstruction', held.given, held.planes));
  }
  plan.slots.forEach((samples, slot) => {
    if (samples) sources.push({ ...source('slot ' + slot, 'reference planes: ' + namesText(plan.frame, slot), samples), slot });
  });
  return sources;
}

function valueAt(frame, source, p, x, y) {
  const i = frame.starts[p] + y * frame.widths[p] + x;
  return source.of[i] - (source.less ? source.less[i] : 0);
}

// ---- Gains.

const GAINS = ['automatic', 1, 2, 4, 8, 16, 32, 64];

// The greatest magnitude of a source in a component, in all planes for RGB.
function greatestOf(frame, source, component) {
  if (source.greatest.has(component)) return source.greatest.get(component);
  const p = PLANES.indexOf(component);
  const from = p < 0 ? 0 : frame.starts[p];
  const end = p < 0 ? frame.samples : from + frame.widths[p] * frame.heights[p];
  const { of, less } = source;
  let greatest = 0;
  for (let i = from; i < end; i++) greatest = Math.max(greatest, Math.abs(less ? of[i] - less[i] : of[i]));
  source.greatest.set(component, greatest);
  return greatest;
}

// By how much numbers with a sign are drawn stronger than samples: at 1 as many levels of grey as samples of that size have. The automatic
// gain draws the greatest magnitude as black or as white.
function gainOf(frame, source, component, gain) {
  if (gain !== 'automatic') return gain;
  return 127 * (1 << (frame.depth - 8)) / Math.max(greatestOf(frame, source, component), 1);
}

// The number that is drawn as white, whose opposite is drawn as black.
const whiteOf = (frame, gain) => 127 * (1 << (frame.depth - 8)) / gain;
