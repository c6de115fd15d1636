// ---- The panel.

function row(...texts) {
  const line = document.createElement('tr');
  texts.forEach((text, i) => {
    const cell = document.createElement(i === 0 ? 'th' : 'td');
    cell.textContent = text;
    line.append(cell);
  });
  return line;
}

const TITLES = { plan: 'Plan viewer', tiles: 'Plan viewer: a grid of tiles', sequence: 'Plan viewer: a sequence', trace: 'Plan viewer: a trace' };

// Which references each slot has.
const slotsText = () => [...new Set(frame.slots)].sort().map((slot) => 'slot ' + slot + ': ' + namesText(frame, slot)).join('; ');

// What is known of the whole frame. Many slots are only named beside the samples that can be shown.
const MOST_SLOTS = 3;

function frameText() {
  const numbers = file.kind === 'sequence' ? ['frame ' + state.frame + ' of ' + file.count] : plan.tiles ? [plan.tiles.length + ' tiles'] : [];
  const parts = [...numbers, frame.width + 'x' + frame.height, frame.depth + ' bits', SAMPLINGS[frame.sampling], leaves.length + ' leaves', 'version ' + frame.version,
    FILTERS[frame.filter] + ' filter', 'edge filter ' + (frame.edgeFilter ? 'on' : 'off')];
  if (leaves.some((leaf) => leaf.motions) && new Set(frame.slots).size <= MOST_SLOTS) parts.push(slotsText());
  if (file.kind === 'sequence') parts.push(keptText(state.frame));
  return parts.join(', ');
}

function showFrame() {
  element('frame').textContent = frameText();
  element('departing').hidden = departures.size === 0;
  element('departing').textContent = departures.size + (departures.size === 1 ? ' leaf departs' : ' leaves depart')
    + ' from AV1: search for departs to find ' + (departures.size === 1 ? 'it.' : 'them.');
  showDifferences();
}

// Numbers with a sign are drawn around grey: what is drawn as black and as white.
function showGain() {
  const { source, component } = state;
  element('gains').hidden = !source.signed;
  if (!source.signed) return;
  const white = whiteOf(frame, gainHere());
  const number = (value) => String(Math.round(10 * value) / 10);
  element('darkest').textContent = '-' + number(white);
  element('lightest').textContent = '+' + number(white);
  element('strength').textContent = 'gain ' + number(gainHere()) + ', greatest ' + greatestOf(frame, source, component);
}

// The values of the sample at the cursor: of a slot only while it is shown.
function sampleRows() {
  const at = (s, p) => valueAt(frame, s, p, state.x >> frame.xdecs[p], state.y >> frame.ydecs[p]);
  return sources.filter((s) => s.slot < 0 || s === state.source).map((s) => row(s.name, ...PLANES.map((name, p) => at(s, p))));
}

// All that is said of the leaf and the sample at the cursor.
function showPlace() {
  const l = leafHere();
  const past = state.unseen === null ? '' : ' past what is shown';
  element('place').textContent = 'leaf ' + l.number + past + ', sample at column ' + state.x + ', row ' + state.y;
  element('locked').textContent = state.locked ? 'Locked. Press Esc to unlock.' : 'Click to lock.';
  element('samples').replaceChildren(row('', ...PLANES), ...sampleRows());
  const found = (differences.ofLeaf.get(l.number) || []).map((d) =>
    [PLANES[d.plane] + ' differs', 'row ' + d.row + ', column ' + d.column + ', given ' + d.given + ', defined ' + d.defined]);
  if (departures.has(l.number)) found.push(['departs from AV1', departures.get(l.number)]);
  element('fields').replaceChildren(...fieldsOf(frame, l).concat(found).map((f) => row(...f)), definitionRow(l));
  element('copied').textContent = '';
  element('triples').textContent = triplesText(plan, l);
  showSource();
  showBlock();
}

// ---- Classes of leaves.

const classLists = new Map();

function classesHere() {
  const { property } = state;
  if (!classLists.has(property.id)) classLists.set(property.id, classesOf(frame, leaves, property));
  return classLists.get(property.id);
}

// The classes of the property that is chosen, with their colours in the map, how many leaves are in each, and how much of the frame.
function showClasses() {
  const all = frame.width * frame.height;
  const greatest = Math.max(...classesHere().map((c) => c.area));
  element('histogram').replaceChildren(row('', 'leaves', 'area'), ...classesHere().map((c) => {
    const line = row('', c.count, (100 * c.area / all).toFixed(1) + '%');
    const button = document.createElement('button');
    const colour = document.createElement('i');
    colour.className = 'class';
    colour.style.background = styleOf(c.colour);
    button.append(colour, ' ', c.name);
    button.setAttribute('aria-pressed', state.chosen === c.number);
    button.dataset.number = c.number;
    button.addEventListener('click', () => chooseClass(c.number));
    line.firstChild.append(button);
    const bar = document.createElement('i');
    bar.className = 'bar';
    bar.style.width = 60 * c.area / greatest + 'px';
    line.lastChild.append(bar);
    return line;
  }));
}

// Leaves of one class alone are listed, until it is chosen again.
function chooseClass(number) {
  state.chosen = state.chosen === number ? null : number;
  for (const button of element('histogram').querySelectorAll('button')) button.setAttribute('aria-pressed', Number(button.dataset.number) === state.chosen);
  findLeaves();
}

function setProperty(id) {
  state.property = PROPERTIES.find((p) => p.id === id);
  state.chosen = null;
  element('property').value = id;
  showClasses();
  findLeaves();
}
