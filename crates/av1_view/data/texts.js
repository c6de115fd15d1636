// ---- Texts of a leaf.

const withStep = (mode, step) => INTRA_MODES[mode] + (step ? (step > 0 ? ' +' : ' ') + step : '');
const angleOf = (mode, step) => ANGLES[mode] + 3 * step;
const chromaText = (l) => l.weights ? 'CFL ' + l.weights.join(' ') : withStep(l.chromaMode, l.chromaStep);
const motionText = (m) => REFERENCES[m.reference] + ' ' + m.row + ' ' + m.column;

// A number of eighths as a whole number and a fraction.
function eighths(value) {
  const whole = Math.floor(value / 8);
  const part = value - 8 * whole;
  return whole + (part ? ' + ' + part + '/8' : '');
}

// A leaf in a line.
function summaryOf(l) {
  const intra = () => withStep(l.mode, l.step) + (l.carried ? ' chroma ' + chromaText(l) : '');
  const shared = sharedWord(l);
  const mode = l.motions ? MODES[l.mode] + ' ' + l.motions.map(motionText).join(', ') + (shared && ' chroma ' + shared) : intra();
  const place = l.width + 'x' + l.height + ' at ' + l.x + ' ' + l.y;
  const tile = l.area.tile === undefined ? [] : ['tile ' + l.area.tile];
  return [l.number, place, mode, TRANSFORM_TYPES[l.transformType], coefficientCount(l), ...tile].join('  ');
}

function modeFields(frame, l) {
  if (l.motions) {
    return [['mode', l.mode + ' ' + MODES[l.mode]], ...l.motions.flatMap((m) => [
      ['reference', m.reference + ' ' + REFERENCES[m.reference] + ', ' + slotText(frame.slots[m.reference - 1])],
      ['vector', 'row ' + m.row + ', column ' + m.column + ' eighths'],
      ['its source', 'column ' + eighths(8 * l.x + m.column) + ', row ' + eighths(8 * l.y + m.row)],
    ])];
  }
  const angle = (mode, step) => mode >= 1 && mode <= 8 ? ', ' + angleOf(mode, step) + ' degrees' : '';
  const fields = [['luma mode', l.mode + ' ' + withStep(l.mode, l.step) + angle(l.mode, l.step)]];
  if (l.carried) fields.push(['chroma mode', l.chromaMode + ' ' + chromaText(l) + (l.weights ? '' : angle(l.chromaMode, l.chromaStep))]);
  return fields;
}

// The fields of a leaf, each with its name.
function fieldsOf(frame, l) {
  const tile = l.area.tile === undefined ? [] : [['tile', l.area.tile + ', its leaf ' + (l.number - l.area.first)]];
  const sharers = sharersOf(l);
  const fields = [...tile, ['size and place', l.width + 'x' + l.height + ' at column ' + l.x + ', row ' + l.y], ...modeFields(frame, l)];
  fields.push(['luma transforms', TRANSFORM_SIZES[l.transformSize].join('x') + ' ' + TRANSFORM_TYPES[l.transformType]]);
  if (l.carried) {
    const area = areaOf(frame, l, 1);
    fields.push(['chroma transforms', area.wide + 'x' + area.high + ' ' + TRANSFORM_TYPES[l.chromaType]]);
  } else {
    fields.push(['chroma', 'carried by leaf ' + carrierOf(sharers).number]);
  }
  if (sharers.length > 1 && sharers.some((s) => s.motions)) fields.push(['chroma predicted', sharedText(sharers)]);
  fields.push(['coefficients', l.triples.map((t, p) => PLANES[p] + ' ' + t.count).join(', ')]);
  return fields;
}

const MOST_TRIPLES = 400;

function triplesText(plan, l) {
  const texts = l.triples.flatMap((t, p) => coefficientsOf(plan, l, p).map((c) =>
    PLANES[p] + ' block ' + c.block + ' place ' + c.place + ' (column ' + c.column + ', row ' + c.row + ') value ' + c.value));
  const more = texts.length - MOST_TRIPLES;
  return texts.slice(0, MOST_TRIPLES).join('\n') + (more > 0 ? '\nand ' + more + ' more' : '');
}
