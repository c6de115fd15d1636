// ---- Colours of samples.

// The matrices by which Y, U and V become R, G and B: the weights of red and blue in luma. Nearly all video has the limited range, so that
// stands first.
const MATRICES = [['BT.709', 0.2126, 0.0722], ['BT.601', 0.299, 0.114], ['BT.2020', 0.2627, 0.0593]].flatMap(([name, red, blue]) =>
  ['limited range', 'full range'].map((range) => ({ name: name + ', ' + range, red, blue, full: range === 'full range' })));

// What writes the pixels of a row of luma samples, of a source and a component, at a place among pixels: those of some columns.
function painterOf(frame, source, component, matrix, gain) {
  const { of, less, signed } = source;
  const scale = (signed ? gain : 1) / (1 << (frame.depth - 8));
  const middle = signed ? 128 : 0;
  const level = less ? (i) => middle + (of[i] - less[i]) * scale : (i) => middle + of[i] * scale;
  const p = PLANES.indexOf(component);
  return p < 0 ? colourPainter(frame, level, matrix, matrix.full || signed) : greyPainter(frame, level, p);
}

// The place of the first sample of a row of luma, in a plane.
const rowStart = (frame, p, y) => frame.starts[p] + (y >> frame.ydecs[p]) * frame.widths[p];

function greyPainter(frame, level, p) {
  const xdec = frame.xdecs[p];
  return (pixels, from, y, columns) => {
    const row = rowStart(frame, p, y);
    for (let i = 0, at = from; i < columns.length; i++, at += 4) {
      pixels[at] = pixels[at + 1] = pixels[at + 2] = level(row + (columns[i] >> xdec));
      pixels[at + 3] = 255;
    }
  };
}

function colourPainter(frame, level, matrix, full) {
  const luma = full ? 1 : 255 / 219;
  const chroma = full ? 1 : 255 / 224;
  const dark = full ? 0 : 16;
  const green = 1 - matrix.red - matrix.blue;
  const vRed = 2 * (1 - matrix.red) * chroma;
  const uBlue = 2 * (1 - matrix.blue) * chroma;
  const uGreen = uBlue * matrix.blue / green;
  const vGreen = vRed * matrix.red / green;
  const xdec = frame.xdecs[1];
  return (pixels, from, y, columns) => {
    const [lumaRow, uRow, vRow] = [0, 1, 2].map((p) => rowStart(frame, p, y));
    for (let i = 0, at = from; i < columns.length; i++, at += 4) {
      const l = (level(lumaRow + columns[i]) - dark) * luma;
      const u = level(uRow + (columns[i] >> xdec)) - 128;
      const v = level(vRow + (columns[i] >> xdec)) - 128;
      pixels[at] = l + vRed * v;
      pixels[at + 1] = l - uGreen * u - vGreen * v;
      pixels[at + 2] = l + uBlue * u;
      pixels[at + 3] = 255;
    }
  };
}

// A picture of a box of luma samples, one pixel each. Past the area that they are of the nearest sample stands, as a vector reads it.
function paint(painter, area, box) {
  const image = new ImageData(box.width, box.height);
  const within = (place, from, length) => Math.min(Math.max(place, from), from + length - 1);
  const columns = Int32Array.from({ length: box.width }, (none, column) => within(box.x + column, area.x, area.width));
  for (let row = 0; row < box.height; row++) painter(image.data, 4 * box.width * row, within(box.y + row, area.y, area.height), columns);
  return image;
}

// A colour by its hue in degrees, and its saturation and lightness from 0 to 1: red, green and blue.
function byHue(hue, saturation, lightness) {
  const part = (n) => {
    const k = (n + hue / 30) % 12;
    return Math.round(255 * (lightness - saturation * Math.min(lightness, 1 - lightness) * Math.max(-1, Math.min(k - 3, 9 - k, 1))));
  };
  return [part(0), part(8), part(4)];
}

// A colour as a pixel of an image, and as a style.
const pixelOf = ([red, green, blue], alpha) => (alpha << 24 | blue << 16 | green << 8 | red) >>> 0;
const styleOf = (colour) => 'rgb(' + colour.join(' ') + ')';
