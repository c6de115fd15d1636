// ---- The list of leaves.

const ROW = 18;
let searches = 0;

// The leaves that are found: the one of a number, else those whose line has each word, and of these those of the class that is chosen.
// `differs` finds those with a difference, `departs` those that depart from AV1.
function search(text, property, chosen) {
  const words = text.toLowerCase().split(/\s+/).filter((word) => word);
  if (words.length === 0 && chosen === null) return null;
  if (words.length === 1 && /^\d+$/.test(words[0])) return Number(words[0]) < leaves.length ? [Number(words[0])] : [];
  const found = [];
  for (const l of leaves) {
    if (chosen !== null && property.classOf(l) !== chosen) continue;
    const line = ' ' + summaryOf(l).toLowerCase() + (differences.ofLeaf.has(l.number) ? ' differs' : '') + (departures.has(l.number) ? ' departs' : '');
    if (words.every((word) => line.includes(word))) found.push(l.number);
  }
  return found;
}

// Finds anew what the words and the class that is chosen ask for.
function findLeaves() {
  state.found = search(state.words, state.property, state.chosen);
  searches++;
  element('list').scrollTop = 0;
  followCursor();
  showList();
  redraw();
}

function setSearch(text) {
  state.words = text;
  findLeaves();
}

const foundKey = () => state.found ? searches : 0;
const foundCount = () => state.found ? state.found.length : leaves.length;
const foundAt = (i) => state.found ? state.found[i] : i;

// The place among those found of the first that is not before a leaf.
function rankOf(number) {
  let from = 0;
  let end = foundCount();
  while (from < end) {
    const middle = (from + end) >> 1;
    if (foundAt(middle) < number) from = middle + 1;
    else end = middle;
  }
  return from;
}

// Scrolls the list to the leaf at the cursor, if it is there.
function followCursor() {
  const list = element('list');
  const number = leafHere().number;
  const rank = rankOf(number);
  element('rows').style.height = foundCount() * ROW + 'px';
  if (rank === foundCount() || foundAt(rank) !== number) return;
  const seen = rank * ROW >= list.scrollTop && (rank + 1) * ROW <= list.scrollTop + list.clientHeight;
  if (!seen) list.scrollTop = rank * ROW - list.clientHeight / 2;
}

function showList() {
  const list = element('list');
  const current = leafHere().number;
  const first = Math.floor(list.scrollTop / ROW);
  const shown = [];
  for (let i = first; i < Math.min(foundCount(), first + Math.ceil(list.clientHeight / ROW) + 1); i++) {
    const line = document.createElement('div');
    line.setAttribute('role', 'option');
    line.setAttribute('aria-selected', foundAt(i) === current);
    line.style.top = i * ROW + 'px';
    line.textContent = summaryOf(leaves[foundAt(i)]);
    line.dataset.leaf = foundAt(i);
    shown.push(line);
  }
  element('rows').replaceChildren(...shown);
  element('found').textContent = foundCount() + ' of ' + leaves.length;
}
