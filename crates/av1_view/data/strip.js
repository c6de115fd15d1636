// ---- The strip of a sequence's frames.

const THUMB_HEIGHT = 64;
const thumbWidth = () => Math.round(Math.min(Math.max(THUMB_HEIGHT * file.shape.width / file.shape.height, 64), 128));
const ITEM = file.kind === 'sequence' ? thumbWidth() + 12 : 0;

// Frames in small, by their numbers, as the matrix and the device's scale have them.
const thumbs = new Map();
let thumbsKey = '';
const MOST_THUMBS = 500;

// A frame in small: of each pixel the sample at its middle.
function thumbOf(number) {
  const key = state.matrix.name + state.scale;
  if (thumbsKey !== key || thumbs.size > MOST_THUMBS) thumbs.clear();
  thumbsKey = key;
  if (thumbs.has(number)) return thumbs.get(number);
  const { shape } = file;
  const zoom = state.scale * Math.min(thumbWidth() / shape.width, THUMB_HEIGHT / shape.height);
  const image = new ImageData(Math.max(Math.round(shape.width * zoom), 1), Math.max(Math.round(shape.height * zoom), 1));
  const middle = (i, pixels, samples) => Math.floor((i + 0.5) * samples / pixels);
  const columns = Int32Array.from({ length: image.width }, (none, i) => middle(i, image.width, shape.width));
  const painter = painterOf(shape, { of: file.planesAt(number), less: null, signed: false }, 'RGB', state.matrix, 1);
  for (let i = 0; i < image.height; i++) painter(image.data, 4 * image.width * i, middle(i, image.height, shape.height), columns);
  const thumb = document.createElement('canvas');
  thumb.width = image.width;
  thumb.height = image.height;
  thumb.getContext('2d').putImageData(image, 0, 0);
  thumbs.set(number, thumb);
  return thumb;
}

// The slots that a frame replaces, and these in words.
const replacedBy = (number) => [0, 1, 2, 3, 4, 5, 6, 7].filter((slot) => file.heads[number].refresh >> slot & 1);

// Whether a frame is shown, or which it shows again, and where it is kept then.
function keptText(number) {
  const { shows, isShown } = file.heads[number];
  const seen = shows !== number ? 'frame ' + shows + ' again, ' : isShown ? '' : file.isHeld(number) ? 'not shown here, ' : 'never shown, its samples are not here, ';
  const slots = replacedBy(number);
  if (slots.length === 0) return seen + 'kept in no ' + (shows !== number ? 'other slot' : 'slot');
  return seen + 'kept in ' + (slots.length === 8 ? 'all slots' : (slots.length === 1 ? 'slot ' : 'slots ') + slots.join(', '));
}

// What the strip says of a frame that isn't shown, or is another one's.
const shownText = (number) => file.heads[number].shows !== number ? ' again ' + file.heads[number].shows : file.heads[number].isShown ? '' : ' hidden';

// The references of the frame that is shown whose slots hold a frame.
const readFrom = (number) => REFERENCES.filter((name, i) => i > 0 && plan.held[frame.slots[i - 1]] === number);

function stripItem(number) {
  const item = document.createElement('div');
  item.setAttribute('role', 'option');
  item.setAttribute('aria-selected', number === state.frame);
  item.id = 'frame-' + number;
  item.dataset.frame = number;
  item.style.left = number * ITEM + 6 + 'px';
  item.style.width = ITEM - 6 + 'px';
  const slots = replacedBy(number);
  const texts = [number + shownText(number) + (slots.length > 0 ? ' to ' + (slots.length === 8 ? 'all' : slots.join(' ')) : ''), readFrom(number).join(' ')];
  item.title = 'frame ' + number + ', ' + keptText(number) + (texts[1] ? ', read as ' + readFrom(number).join(', ') : '');
  item.append(thumbOf(number), ...texts.map((text) => {
    const line = document.createElement('span');
    line.textContent = text;
    return line;
  }));
  return item;
}

// The frames that there is room for, as far as the strip is scrolled.
function showStrip() {
  if (file.kind !== 'sequence') return;
  const strip = element('strip');
  const first = Math.floor(strip.scrollLeft / ITEM);
  const shown = [];
  for (let i = first; i < Math.min(file.count, first + Math.ceil(strip.clientWidth / ITEM) + 1); i++) shown.push(stripItem(i));
  element('frames').replaceChildren(...shown);
  strip.setAttribute('aria-activedescendant', 'frame-' + state.frame);
}

// Scrolls the strip to the frame that is shown.
function followFrame() {
  const strip = element('strip');
  const isSeen = state.frame * ITEM >= strip.scrollLeft && (state.frame + 1) * ITEM <= strip.scrollLeft + strip.clientWidth;
  if (!isSeen) strip.scrollLeft = (state.frame + 0.5) * ITEM - strip.clientWidth / 2;
}

// Shows another frame of the sequence: the same samples of it, if it has them, at the same place.
function setFrame(number) {
  if (number < 0 || number >= file.count || number === state.frame) return;
  takeFrame(number);
  state.frame = number;
  state.unseen = null;
  state.source = sources.find((s) => s.name === state.source.name) || sources[0];
  state.second = null;
  cellImages.clear();
  classLists.clear();
  linesKey = '';
  if (!classesHere().some((c) => c.number === state.chosen)) state.chosen = null;
  showSources();
  element('divide').hidden = true;
  showFrame();
  repaint();
  showPlace();
  showClasses();
  findLeaves();
  followFrame();
  showStrip();
}

const stepFrame = (by) => setFrame(Math.min(Math.max(state.frame + by, 0), file.count - 1));

function startStrip() {
  if (file.kind !== 'sequence') return;
  element('strip').hidden = false;
  element('frames').style.width = file.count * ITEM + 6 + 'px';
  showStrip();
  element('strip').addEventListener('scroll', showStrip);
  element('strip').addEventListener('click', (event) => {
    const item = event.target.closest('[data-frame]');
    if (item) setFrame(Number(item.dataset.frame));
  });
  new ResizeObserver(showStrip).observe(element('strip'));
}
