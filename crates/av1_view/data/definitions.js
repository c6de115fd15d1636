// ---- Where a leaf's mode and transforms are defined: chapters and sections of docs/TRUSTED.md.

const MODE_SECTIONS = ['Dc', 'Predicted', 'Predicted', ...new Array(6).fill('Directional'), 'Smooth', 'Smooth', 'Smooth', 'Paeth', 'ChromaFromLuma'];
const CHAPTERS = { av1_intra: '4. Intra modes', av1_inter: '6. Motion', av1_dct: '7. Transforms', av1_itx: '7. Transforms' };

// Chroma from luma has a chapter of its own.
function chapterOf(crate, name) {
  return name === 'ChromaFromLuma' ? '5. Chroma from luma' : CHAPTERS[crate];
}

// V and H are directions too once they are turned.
function intraSection(mode, step) {
  return 'av1_intra/' + (isDirectional(mode) && step !== 0 ? 'Directional' : MODE_SECTIONS[mode]);
}

// The sections of a type's transforms, along the rows and down the columns.
function transformSections(type) {
  const name = TRANSFORM_TYPES[type];
  if (name === 'WHT_WHT') return ['av1_itx/Walsh'];
  const parts = { DCT: 'av1_dct/Cosine', ADST: 'av1_itx/Adst', FLIPADST: 'av1_itx/Adst' };
  const sections = name === 'IDTX' ? [] : name.split('_').filter((part) => parts[part]).map((part) => parts[part]);
  return [...new Set(name === 'IDTX' || /^[VH]_/.test(name) ? [...sections, 'av1_itx/Identity'] : sections)];
}

// The sections that a leaf rests on, each once.
function sectionsOf(l) {
  const modes = l.motions ? ['av1_inter/Prediction'] : [intraSection(l.mode, l.step)];
  if (!l.motions && l.carried) modes.push(intraSection(l.chromaMode, l.chromaStep));
  const types = l.triples.map((t, p) => t.count > 0 ? transformSections(p === 0 ? l.transformType : l.chromaType) : []);
  return [...new Set([...modes, ...types.flat()])];
}

// A page in the folder `out` of a clone finds the document beside that folder. Elsewhere the name has to do: a link would lead nowhere.
const IN_CLONE = /\/out\/[^/]*$/.test(window.location.pathname);

function definitionLink(section) {
  const [crate, name] = section.split('/');
  const chapter = chapterOf(crate, name);
  const text = chapter + ' (' + name + ')';
  if (!IN_CLONE) return text;
  const link = document.createElement('a');
  link.href = '../docs/TRUSTED.md#' + chapter.toLowerCase().replace('.', '').replaceAll(' ', '-');
  link.target = '_blank';
  link.rel = 'noreferrer';
  link.textContent = text;
  return link;
}

// The row of the sections of a leaf.
function definitionRow(l) {
  const line = row('defined', 'TRUSTED: ');
  sectionsOf(l).forEach((section, i) => line.lastChild.append(...(i > 0 ? [', '] : []), definitionLink(section)));
  return line;
}
