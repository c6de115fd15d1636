// ---- Where given samples differ.

// How many samples differ, and the sum of their squares in each plane; of each leaf and plane the first one, in coding order; and the leaves
// with a difference, the worst first.
function differencesOf(plan, planes, given) {
  const { frame, leaves } = plan;
  const found = { count: 0, squares: [0, 0, 0], list: [], ofLeaf: new Map(), greatest: new Uint16Array(leaves.length), most: 0, worst: [] };
  countIn(frame, planes, given, found);
  if (found.count === 0) return found;
  for (const leaf of leaves) addLeaf(frame, leaf, planes, given, found);
  found.worst.sort((a, b) => b.greatest - a.greatest || b.squares - a.squares);
  return found;
}

const NO_DIFFERENCES = { count: 0, squares: [0, 0, 0], list: [], ofLeaf: new Map(), greatest: [], most: 0, worst: [] };

// Counts the samples that differ, plane by plane.
function countIn(frame, planes, given, found) {
  for (let p = 0; p < 3; p++) {
    const end = frame.starts[p] + frame.widths[p] * frame.heights[p];
    for (let i = frame.starts[p]; i < end; i++) {
      if (given[i] === planes[i]) continue;
      found.count++;
      found.squares[p] += (given[i] - planes[i]) ** 2;
    }
  }
}

// Adds what differs in a leaf.
function addLeaf(frame, leaf, planes, given, found) {
  const entries = [];
  const sum = { leaf: leaf.number, count: 0, greatest: 0, squares: 0 };
  for (let p = 0; p < 3; p++) {
    const part = differencesIn(frame, areaOf(frame, leaf, p), p, planes, given);
    if (!part.first) continue;
    entries.push({ leaf: leaf.number, plane: p, ...part.first });
    sum.count += part.count;
    sum.greatest = Math.max(sum.greatest, part.greatest);
    sum.squares += part.squares;
  }
  if (entries.length === 0) return;
  for (const entry of entries) found.list.push(entry);
  found.ofLeaf.set(leaf.number, entries);
  found.greatest[leaf.number] = sum.greatest;
  found.most = Math.max(found.most, sum.greatest);
  found.worst.push(sum);
}

// The first sample that differs in a leaf's area of a plane, how many do, by how much at most, and the sum of their squares.
function differencesIn(frame, area, p, planes, given) {
  const found = { first: null, count: 0, greatest: 0, squares: 0 };
  if (!area) return found;
  const right = Math.min(area.x + area.width, frame.widths[p]);
  const bottom = Math.min(area.y + area.height, frame.heights[p]);
  for (let row = area.y; row < bottom; row++) {
    for (let column = area.x; column < right; column++) {
      const i = frame.starts[p] + row * frame.widths[p] + column;
      if (given[i] === planes[i]) continue;
      found.first = found.first || { row, column, given: given[i], defined: planes[i] };
      found.count++;
      found.greatest = Math.max(found.greatest, Math.abs(given[i] - planes[i]));
      found.squares += (given[i] - planes[i]) ** 2;
    }
  }
  return found;
}

// The signal-to-noise ratio of a plane of the given samples, in decibels; none where no sample differs.
function signalToNoise(p) {
  const samples = frame.widths[p] * frame.heights[p];
  const greatest = (1 << frame.depth) - 1;
  return differences.squares[p] === 0 ? null : 10 * Math.log10(greatest ** 2 * samples / differences.squares[p]);
}

// ---- What the page says of them.

const MOST_WORST = 8;

function ratiosText() {
  const ratio = (p) => signalToNoise(p) === null ? 'equal' : signalToNoise(p).toFixed(2) + ' dB';
  return 'PSNR: ' + PLANES.map((name, p) => name + ' ' + ratio(p)).join(', ');
}

function differencesText() {
  if (differences.count === 0) return 'The given samples equal those of the plan.';
  const count = differences.ofLeaf.size;
  return differences.count + ' given samples differ, in ' + count + (count === 1 ? ' leaf' : ' leaves') + ', by ' + differences.most + ' at most. ' + ratiosText();
}

// The leaves with the greatest differences, each with a button that goes there.
function showDifferences() {
  element('differences').hidden = !given;
  if (!given) return;
  element('differing').textContent = differencesText();
  element('worst').hidden = differences.count === 0;
  element('worst').replaceChildren(row('worst leaves', 'greatest', 'samples'), ...differences.worst.slice(0, MOST_WORST).map((one) => {
    const line = row('', one.greatest, one.count);
    const button = document.createElement('button');
    button.textContent = 'leaf ' + one.leaf;
    button.addEventListener('click', () => moveToDifference(one.leaf));
    line.firstChild.append(button);
    return line;
  }));
}

// Goes to the first sample of a leaf that differs, and shows the leaf from near.
function moveToDifference(number) {
  state.difference = differences.list.findIndex((entry) => entry.leaf === number);
  const d = differences.list[state.difference];
  state.locked = true;
  moveTo(d.column << frame.xdecs[d.plane], d.row << frame.ydecs[d.plane]);
  fitLeaf();
}

// ---- A report.

// All that is known of the leaf and the sample at the cursor, as text for a report of an error.
function reportText() {
  const l = leafHere();
  const at = (p) => [state.x >> frame.xdecs[p], state.y >> frame.ydecs[p]];
  const values = PLANES.map((name, p) => name + ' at column ' + at(p).join(', row ') + ': ' + sources.filter((s) => s.slot < 0).map((s) =>
    s.name + ' ' + valueAt(frame, s, p, ...at(p))).join(', '));
  const differing = (differences.ofLeaf.get(l.number) || []).map((d) =>
    PLANES[d.plane] + ' first differs at column ' + d.column + ', row ' + d.row + ': given ' + d.given + ', defined ' + d.defined);
  return [frameText(), 'leaf ' + l.number + ' of ' + leaves.length, ...fieldsOf(frame, l).map((field) => field.join(': ')),
    'sample: column ' + state.x + ', row ' + state.y, ...values, ...differing, ...(given ? [differencesText()] : []), 'address: ' + addressOf(), ''].join('\n');
}

// Copies the report, and says so. It is also shown, for browsers that keep the clipboard from a page.
function copyReport() {
  const box = element('report');
  box.value = reportText();
  box.hidden = false;
  box.focus();
  box.select();
  const done = () => { element('copied').textContent = 'copied'; };
  const failed = () => { element('copied').textContent = 'copy it from the box'; };
  if (navigator.clipboard) navigator.clipboard.writeText(box.value).then(done, failed);
  else failed();
}
